"""The Study Root information model of the models, typed from PS3.4 tables C.6-5, C.6-3 and C.6-4:
the attributes of each level, with the value representations and names of PS3.6. The suite of keys
asks by it, and the models keep and match by it.
"""

# what is kept of what is stored
KEPT_TEXT = {
    "STUDY": """
0008,0020 DA Study Date                 0008,0030 TM Study Time
0008,0050 SH Accession Number
0008,0090 PN Referring Physician's Name 0008,1030 LO Study Description
0010,0010 PN Patient's Name             0010,0020 LO Patient ID
0010,0021 LO Issuer of Patient ID
0010,0030 DA Patient's Birth Date       0010,0040 CS Patient's Sex
0020,000D UI Study Instance UID         0020,0010 SH Study ID
""",
    "SERIES": """
0008,0021 DA Series Date                0008,0031 TM Series Time            0008,0060 CS Modality
0008,103E LO Series Description         0018,0015 CS Body Part Examined
0020,000D UI Study Instance UID
0020,000E UI Series Instance UID        0020,0011 IS Series Number
""",
    "IMAGE": """
0008,0008 CS Image Type                 0008,0016 UI SOP Class UID
0008,0018 UI SOP Instance UID
0008,0023 DA Content Date               0008,0033 TM Content Time
0020,000D UI Study Instance UID
0020,000E UI Series Instance UID        0020,0013 IS Instance Number        0028,0010 US Rows
0028,0011 US Columns
"""}
# what is computed when it is asked for (PS3.4 section C.3.4)
COMPUTED_TEXT = {
    "STUDY": """
0008,0061 CS Modalities in Study
0020,1206 IS Number of Study Related Series
0020,1208 IS Number of Study Related Instances
""",
    "SERIES": "0020,1209 IS Number of Series Related Instances",
    "IMAGE": ""}
# how many keys the three levels have, counted in the tables
COUNTED = 34


def listed(text: str) -> dict[str, str]:
    """The tags of a list with their VRs."""
    words = text.split()
    return {word: words[at + 1] for at, word in enumerate(words) if word[4:5] == ","}


def keys(text: str) -> dict[tuple[int, int], None]:
    """The tags of a list, none of which is a sequence."""
    return {(int(tag[:4], 16), int(tag[5:], 16)): None for tag in listed(text)}


KEPT = {level: keys(text) for level, text in KEPT_TEXT.items()}
COMPUTED = {level: keys(text) for level, text in COMPUTED_TEXT.items()}
