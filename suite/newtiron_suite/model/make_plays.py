"""Scenes that are too long to be kept: suite/models make_plays KIND > SCENE

    studies         a thousand studies, none of which says its day, and a tenth not its patient: a
                    query finds one, some, none and all
    connections     three hundred associations at a time, ten of each of thirty hospitals, and one
                    too many of each
    events          five thousand events and more, while one association stays
"""
from collections.abc import Iterator

CT = "SOPClassUID=1.2.840.10008.5.1.4.1.1.2"
HOSPITALS, EACH = 30, 10
# a thousand answers are a page and fifteen more
PULLS = 15
QUERIES = ["StudyInstanceUID=1.2.77", "PatientID=P7 StudyInstanceUID=",
           "PatientName=doe^1* StudyInstanceUID=",
           "PatientName=ROE StudyInstanceUID=", "StudyInstanceUID=",
           "StudyDate=20240705 StudyInstanceUID="]


def store(number: int, context: int, identity: int, study: str, **elements: str) -> str:
    words = " ".join(f"{keyword}={value}" for keyword, value in elements.items())
    return (f"store {number} {context} {identity} CT {study}.1.1 {CT} SOPInstanceUID={study}.1.1 "
            f"StudyInstanceUID={study} "
            f"SeriesInstanceUID={study}.1 {words}")


def studies() -> Iterator[str]:
    yield "open 1"
    yield "associate 1 ARCHIVE CT1 1=CT:explicit 3=study:implicit"
    for at in range(1, 1001):
        patient = {"PatientID": f"P{at % 10}"} if at % 10 else {}
        yield store(1, 1, 1, f"1.2.{at}", PatientName=f"DOE^{at}", **patient)
    for keys in QUERIES:
        yield f"find 1 3 2 study QueryRetrieveLevel=STUDY {keys}"
        yield from ["pull 1"] * PULLS
    yield "release 1"


def connections() -> Iterator[str]:
    """Each hospital's first association stores an instance of a patient of its own, and its last
    one asks for it."""
    held = range(1, HOSPITALS * EACH + 1)

    def hospital(number: int) -> int:
        return (number - 1) % HOSPITALS + 1

    for number in held:
        yield f"open {number}"
    for number in held:
        yield (f"associate {number} ARCHIVE CT{hospital(number)} 1=echo:implicit 3=CT:explicit "
               "5=study:implicit")
    for number in range(len(held) + 1, len(held) + HOSPITALS + 1):
        yield f"open {number}"
        yield f"associate {number} ARCHIVE CT{hospital(number)} 1=echo:implicit"
    for number in held:
        yield f"echo {number} 1 1"
    for number in held[:HOSPITALS]:
        yield store(number, 3, 2, "1.2.3", PatientName=f"DOE^{hospital(number)}")
    for number in held[-HOSPITALS:]:
        yield (f"find {number} 5 2 study QueryRetrieveLevel=STUDY PatientName= "
               "NumberOfStudyRelatedInstances=")
    for number in held:
        yield f"release {number}"
    last = len(held) + HOSPITALS + 1
    yield f"open {last}"
    yield f"associate {last} ARCHIVE CT{HOSPITALS} 1=echo:implicit"
    yield f"end {last}"


def events() -> Iterator[str]:
    yield "open 1"
    yield "associate 1 ARCHIVE CT1 1=CT:explicit 3=study:implicit"
    yield store(1, 1, 1, "1.2.3", PatientName="DOE^A")
    for number in range(2, 1252):
        yield f"open {number}"
        yield f"associate {number} ARCHIVE CT2 1=echo:implicit"
        yield f"echo {number} 1 1"
        yield f"end {number}"
    yield "find 1 3 2 study QueryRetrieveLevel=STUDY PatientName="
    yield "release 1"


def main(words: list[str]) -> None:
    for line in {"studies": studies, "connections": connections, "events": events}[words[0]]():
        print(line)
