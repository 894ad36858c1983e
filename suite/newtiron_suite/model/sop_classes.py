"""The SOP classes that are served, typed from PS3.6 annex A (table A-1): the word that scenes have
for each, its UID, what serves it, and its name.
"""

SERVED_TEXT = """
echo     1.2.840.10008.1.1           verification Verification
CR       1.2.840.10008.5.1.4.1.1.1   storage      Computed Radiography Image Storage
CT       1.2.840.10008.5.1.4.1.1.2   storage      CT Image Storage
MR       1.2.840.10008.5.1.4.1.1.4   storage      MR Image Storage
US       1.2.840.10008.5.1.4.1.1.6.1 storage      Ultrasound Image Storage
SC       1.2.840.10008.5.1.4.1.1.7   storage      Secondary Capture Image Storage
study    1.2.840.10008.5.1.4.1.2.2.1 study        Study Root Query/Retrieve Information Model - FIND
worklist 1.2.840.10008.5.1.4.31      worklist     Modality Worklist Information Model - FIND
mpps     1.2.840.10008.3.1.2.3.3     procedure    Modality Performed Procedure Step
"""
SERVED = [line.split(maxsplit=3) for line in SERVED_TEXT.strip().split("\n")]
# the UIDs by their words, and by the UIDs what serves them and their names
UIDS = {word: uid.encode() for word, uid, _, _ in SERVED}
SERVICES = {uid.encode(): service for _, uid, service, _ in SERVED}
NAMES = {uid: name for _, uid, _, name in SERVED}
