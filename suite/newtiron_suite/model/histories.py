"""Random histories of one hospital: associations that overlap, and orders of the console."""
import random
from collections.abc import Callable
from typing import Any

from . import compose

PROPOSED = ("1=echo:implicit 3=CT:explicit 5=study:implicit,explicit 7=worklist:explicit "
            "9=mpps:implicit")
CT = compose.CLASSES["CT"].decode()
# the study and the series into which a hospital may have stored more than a page of instances
FULL = "1.2.1"
CUT_OFF = {3: "raw:400000244c54ffff4142", 5: "raw:40000024ffff00004142"}
STEP = ("Modality=CT PerformedStationAETitle=CT1 PerformedProcedureStepStartDate=20240705 "
        "PerformedProcedureStepID=P "
        "PerformedProcedureStepStartTime=0900 ScheduledStepAttributesSequence= ")
IDS = [1, 2, 3, 101, 164, 165]


def message(chance: random.Random, number: str, identity: int) -> str:
    """A line of a scene: identifiers are few, so that both hospitals use the same."""
    study, series, image = (f"1.2.{chance.randrange(1, 4)}" for _ in range(3))
    name = chance.choice(["DOE^A", "ROE^B", "POE^C"])
    step = f"1.2.9.{chance.randrange(3)}"
    return chance.choice([
        f"echo {number} 1 {identity}",
        f"store {number} 3 {identity} CT {image} SOPClassUID={CT} SOPInstanceUID={image} "
        f"PatientName={name} "
        f"StudyInstanceUID={study} SeriesInstanceUID={study}.{series}",
        f"find {number} 5 {identity} study QueryRetrieveLevel=STUDY StudyInstanceUID= PatientName= "
        "ModalitiesInStudy= "
        "NumberOfStudyRelatedInstances=",
        f"find {number} 5 {identity} study QueryRetrieveLevel=SERIES StudyInstanceUID={study} "
        "SeriesInstanceUID=",
        f"find {number} 7 {identity} worklist PatientName= ScheduledProcedureStepSequence= {{ }}",
        f"create {number} 9 {identity} {step} {STEP} {named(chance)} "
        "PerformedProcedureStepStatus=\"IN PROGRESS\"",
        f"create {number} 9 {identity} {step} {STEP} {named(chance)} "
        "PerformedProcedureStepStatus=\"IN PROGRESS\"",
        f"set {number} 9 {identity} {step} "
        f"PerformedProcedureStepStatus={chance.choice(['COMPLETED', 'DISCONTINUED'])}",
        f"set {number} 9 {identity} {step} PerformedProcedureStepDescription={name}",
        f"find {number} 5 {identity} study QueryRetrieveLevel=IMAGE StudyInstanceUID={FULL} "
        f"SeriesInstanceUID={FULL}.1 "
        "SOPInstanceUID=",
        f"find {number} 7 {identity} worklist ScheduledProcedureStepSequence= {{ "
        f"ScheduledProcedureStepID= }}",
        f"cancel {number} {chance.choice([1, 5, 7])} {max(identity - chance.randrange(3), 0)}",
        f"cancel {number} 5 {max(identity - 1, 0)}",
        f"pull {number}",
        f"store {number} 3 {identity} CT {image} SOPClassUID={CT} SOPInstanceUID={image} "
        f"StudyInstanceUID={study} "
        f"SeriesInstanceUID={study}.{series} {CUT_OFF[3]}",
        f"find {number} 5 {identity} study QueryRetrieveLevel=STUDY StudyInstanceUID= {CUT_OFF[5]}",
    ])


def named(chance: random.Random) -> str:
    """The items of a step, of which each names an entry, one that is none, or two, which is
    none."""
    ids = [f"S{chance.choice(IDS)}" for _ in range(chance.choice([1, 1, 2, 3]))]
    if chance.random() < 0.2:
        ids.append(chance.choice(["S9", "", "S1\\\\S2"]))
    return " ".join(f"{{ ScheduledProcedureStepID={one} }}" for one in ids)


def filled(chance: random.Random, name: str, calling: str) -> list[str]:
    """The capture lines by which a hospital has more instances and entries than a page has answers,
    or some fewer."""
    scene = compose.Scene()
    images, entries = (100 + chance.randrange(60, most) for most in (140, 95))
    for line in [
            "open #9", f"associate #9 ARCHIVE {calling} {PROPOSED}",
            f"each 101 {images} store #9 3 1 CT {FULL}.1.@ SOPClassUID={CT} "
            f"SOPInstanceUID={FULL}.1.@ StudyInstanceUID={FULL} "
            f"SeriesInstanceUID={FULL}.1",
            "release #9",
            f"each 101 {entries} {entry(name, 'S@', 'P@')}"]:
        scene.play_line(line)
    return scene.lines


def entry(name: str, identity: str, patient: str = "P1") -> str:
    return (f"schedule {name} PatientName=DOE^A PatientID={patient} StudyInstanceUID=1.2.3 "
            "RequestedProcedureID=R "
            f"ScheduledProcedureStepSequence= {{ Modality=CT ScheduledStationAETitle=CT1 "
            f"ScheduledProcedureStepID={identity} "
            "ScheduledProcedureStepStartDate=20240705 ScheduledProcedureStepStartTime=0900 }")


def console(chance: random.Random, name: str) -> str:
    identity = f"S{chance.choice(IDS)}"
    return chance.choice([f"withdraw {name} {identity}", entry(name, identity)])


def session(chance: random.Random, number: str, calling: str) -> list[str]:
    """The capture lines of one connection."""
    scene = compose.Scene()
    scene.lines.append(f"open {number}")
    lines = [f"associate {number} ARCHIVE {calling} {PROPOSED}"]
    for identity in range(1, chance.randrange(1, 9)):
        lines.append(message(chance, number, identity))
        if lines[-1].startswith("find "):
            lines += chance.choice([[], [f"pull {number}"], [f"pull {number}"] * 2,
                                    [f"cancel {number} 1 {identity}"]])
    lines.append(chance.choice([f"release {number}", f"abort {number}", f"end {number}",
                                f"piece {number} 080000000000"]))
    for line in lines:
        scene.most = chance.choice([0, 0, 0, 7, 100])
        scene.play_line(line)
    return scene.lines + [f"end {number}"] * chance.randrange(2)


def mixed(chance: random.Random, lists: list[list[str]]) -> list[str]:
    """The lists, interleaved at random, each in its own order."""
    lists, out = [list(one) for one in lists if one], []
    while lists:
        one = chance.choice(lists)
        out.append(one.pop(0))
        lists = [rest for rest in lists if rest]
    return out


def history(chance: random.Random, name: str, callings: list[str]) -> list[str]:
    """Sessions that overlap, and orders of the console, sometimes of a hospital that has much;
    numbers count from 0 and rise with the openings."""
    before = filled(chance, name, callings[0]) if chance.random() < 0.5 else []
    lists = [session(chance, f"#{number}", chance.choice(callings))
             for number in range(chance.randrange(2, 8))]
    orders = compose.Scene()
    for _ in range(chance.randrange(8)):
        orders.play_line(console(chance, name))
    return before + mixed(chance, lists + [orders.lines])


def renumbered(lines: list[str], next_number: Callable[..., Any]) -> list[str]:
    """The lines with numbers that rise: next_number gives that of each opening."""
    numbers, out = {}, []
    for line in lines:
        words = line.split(" ")
        if words[0] in ("open", "piece", "end", "pull"):
            if words[0] == "open":
                numbers[words[1]] = next_number()
            words[1] = str(numbers[words[1]])
        out.append(" ".join(words))
    return out
