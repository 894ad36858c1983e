"""What the measurements share: captures that are composed, and runs of the built program that are
measured, or of the one that PROGRAM names."""
import os
import pathlib
import subprocess
import sys
import tempfile
from collections.abc import Callable, Iterable, Sequence
from typing import IO, Any

from newtiron_suite.model import compose, data_sets, matching, stores
from newtiron_suite.model.messages import (C_ECHO, C_FIND, C_STORE, DATA_SET, NO_DATA_SET,
                                           command_set, padded, sent, two)
from newtiron_suite.model.stores import Row
from newtiron_suite.model.upper_layer import EXPLICIT, pdu, request_pdu
from newtiron_suite.paths import BUILT, CONFIGURATIONS

PROGRAM = pathlib.Path(os.environ.get("PROGRAM", BUILT))
CONFIGURATION = CONFIGURATIONS / "large.toml"
MOST = 2.3
MEDIUM, PAGE = 0, 64

RELEASE = pdu(0x05, bytes(4))
ECHO = sent(1, command_set([(0x0002, padded(compose.CLASSES["echo"])), (0x0100, two(C_ECHO)),
                            (0x0110, two(1)),
                            (0x0800, two(NO_DATA_SET))]), None, 0)


# the keys that most viewers ask for
VIEWERS = ("StudyDate", "StudyTime", "AccessionNumber", "ModalitiesInStudy",
           "ReferringPhysicianName", "StudyDescription",
           "PatientName", "PatientID", "PatientBirthDate", "PatientSex", "StudyInstanceUID",
           "StudyID",
           "NumberOfStudyRelatedSeries", "NumberOfStudyRelatedInstances")


def entry_words(at: int) -> str:
    """The words of a worklist entry: one of a hundred stations, on one of 31 days."""
    return (f"PatientName=DOE^{at} PatientID=P{at} StudyInstanceUID=1.2.{at} "
            f"RequestedProcedureID=R{at} "
            f"ScheduledProcedureStepSequence= {{ Modality=CT ScheduledStationAETitle=ST{at % 100} "
            f"ScheduledProcedureStepStartDate=202407{at % 31 + 1:02d} "
            "ScheduledProcedureStepStartTime=0900 "
            f"ScheduledProcedureStepID=S{at} }}")


def check_program(program: pathlib.Path = PROGRAM) -> None:
    if not program.exists():
        sys.exit(f"{sys.argv[0]}: build the program first, by tools/build {program.name}")


def associate(*names: str) -> bytes:
    """A request for contexts 1, 3, .. of the classes, in Explicit."""
    contexts = [(2 * at + 1, compose.CLASSES[name], [EXPLICIT]) for at, name in enumerate(names)]
    return request_pdu(b"ARCHIVE", b"MODALITY", contexts)


def message(context: int, field: Any, name: str, elements: dict[str, bytes],
            instance: bytes = b"") -> bytes:
    """A C-STORE or a C-FIND; elements are keywords with their values."""
    parts = []
    for keyword, value in elements.items():
        tag, vr = compose.tag_of(keyword)
        parts.append((tag, vr, data_sets.padded(vr, value)))
    data = data_sets.canonical(sorted(parts), data_sets.EXPLICIT)
    command = [(0x0002, padded(compose.CLASSES[name])), (0x0100, two(field)), (0x0110, two(1)),
               (0x0700, two(MEDIUM)),
               (0x0800, two(DATA_SET))]
    if instance:
        command.append((0x1000, padded(instance)))
    return sent(context, command_set(command), data, 0)


def store(context: int, study: bytes, series: bytes, image: bytes, **elements: bytes) -> bytes:
    elements = {"SOPClassUID": compose.CLASSES["CT"], "SOPInstanceUID": image,
                "StudyInstanceUID": study,
                "SeriesInstanceUID": series, "Modality": b"CT", **elements}
    return message(context, C_STORE, "CT", elements, image)


def row(kind: int, elements: Iterable[Any], key: bytes, above: bytes = b"") -> Row:
    """A row of DEMO, as the program keeps it; elements are tags with their VRs and values."""
    elements = sorted((tag, vr, data_sets.padded(vr, value)) for tag, vr, value in elements)
    octets = data_sets.canonical(elements, data_sets.EXPLICIT)
    return (kind, "DEMO", key, above, *stores.labels(kind, elements), octets, 0)


def instance_rows(study: bytes, series: bytes, image: bytes, **elements: bytes) -> list[Row]:
    """The three rows of an instance."""
    elements = {"SOPClassUID": compose.CLASSES["CT"], "SOPInstanceUID": image,
                "StudyInstanceUID": study,
                "SeriesInstanceUID": series, "Modality": b"CT", **elements}
    tagged = [(*compose.tag_of(name), value) for name, value in elements.items()]
    parts = ((stores.STUDY, "STUDY", study, b""), (stores.SERIES, "SERIES", series, study),
             (stores.IMAGE, "IMAGE", image, series))
    return [row(kind, [one for one in tagged if one[0] in matching.KEPT[level]], key, above)
            for kind, level, key, above in parts]


def filled(path: pathlib.Path, rows: Iterable[Row]) -> pathlib.Path:
    """A store of these rows, written by the C library."""
    made = stores.new(str(path))
    made.execute("BEGIN")
    made.executemany(stores.INSERT, rows)
    made.execute("COMMIT")
    made.execute("PRAGMA wal_checkpoint(TRUNCATE)")
    made.close()
    return path


def find(context: int, **elements: bytes) -> bytes:
    return message(context, C_FIND, "study", {"QueryRetrieveLevel": b"STUDY", **elements})


def piece(number: int, octets: bytes) -> str:
    return f"piece {number} {octets.hex()}\n"


def pulls(number: int, answers: int) -> list[str]:
    """The lines that ask for the pages after the first one, of so many answers."""
    return [f"pull {number}\n"] * (max(answers - 1, 0) // PAGE)


def run(command: Any, source: Any, out: IO[Any]) -> tuple[float, float]:
    """The seconds of the processor and the megabytes of memory at most of a run, whose output is
    rewound."""
    child = subprocess.Popen(list(map(str, command)), stdin=source, stdout=out)
    _, status, used = os.wait4(child.pid, 0)
    child.returncode = os.waitstatus_to_exitcode(status)
    if child.returncode != 0:
        sys.exit(f"{sys.argv[0]}: exit {child.returncode}")
    out.seek(0)
    return used.ru_utime + used.ru_stime, used.ru_maxrss / 1024


def play(lines: Iterable[str], count: Callable[[IO[bytes]], int],
         runs: int = 5) -> tuple[float, float, int]:
    """The least seconds of the processor, the megabytes of memory at most, and what `count` makes
    of the output."""
    best = None
    with tempfile.NamedTemporaryFile("w") as capture:
        capture.writelines(lines)
        capture.flush()
        for _ in range(runs):
            with open(capture.name) as source, tempfile.TemporaryFile() as out:
                figures = (*run([PROGRAM, "replay", "--config", CONFIGURATION], source, out),
                           count(out))
            best = min(best or figures, figures)
    return best


def closed(out: IO[bytes]) -> int:
    return sum(line.endswith(b" close\n") for line in out)


def statuses(name: str) -> Callable[[IO[bytes]], int]:
    """Counts the responses that have the status, given in hexadecimal as the standard writes it."""
    text = ("00000009" "02000000" + name[2:] + name[:2]).encode()
    return lambda out: sum(line.count(text) for line in out)


def ratio(name: str, first: Sequence[float], second: Sequence[float]) -> bool:
    """Prints how many times the seconds and the memory of the first figures the second are; whether
    the time is within."""
    times = second[0] / max(first[0], 0.001)
    print(f"  {name}: {times:.2f} times the seconds, {second[1] / first[1]:.2f} times the memory")
    return times <= MOST


def search(name: str, history: Callable[[int, int], Iterable[str]], records: str, size: int,
           asked: int) -> tuple[bool, list[float]]:
    """Prints what queries cost over so many records, and over ten times as many; history makes the
    lines of a number of records and of queries. Answers whether the seconds are at most 12 times as
    many, and the answers a second of each."""
    seconds, rates = [], []
    for count in (size, 10 * size):
        kept = play(history(count, 0), statuses("ff00"), runs=3)
        found = play(history(count, asked), statuses("ff00"), runs=3)
        spent = max(found[0] - kept[0], 0.001)
        seconds.append(spent)
        rates.append(found[2] / spent)
        print(f"{name}, {count} {records}: {asked / spent:.0f} queries and {rates[-1]:.0f} answers "
              "a second")
    print(f"  ten times the {records}: {seconds[1] / seconds[0]:.1f} times the seconds")
    return seconds[1] / seconds[0] <= 12 or seconds[1] < 0.02, rates


def size(usual: int) -> int:
    """The number that the command line names, if it does."""
    return int(sys.argv[1]) if len(sys.argv) > 1 else usual


def finish(good: object, bounds: str = f"{MOST} times") -> None:
    print(f"within {bounds}" if good else f"more than {bounds}")
    sys.exit(0 if good else 1)
