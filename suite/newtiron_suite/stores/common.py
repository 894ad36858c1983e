"""What the parts of this suite share: scenes and captures, runs of the program, the model, and the
rows in a store."""
import contextlib
import os
import pathlib
import shutil
import sqlite3
import subprocess
import sys
import tempfile
from collections.abc import Iterator, Mapping, Sequence
from typing import Any

from ..counts import COUNTS
from ..model import compose, replies, stores
from ..model.stores import Row
from ..model.version_1 import kept_store
from ..paths import CONFIGURATIONS, TOP, program_of
from ..tally import Tally

PROGRAM = program_of(sys.argv[1:])
SEED, KILLS, FLIPS, CUTS = 20240705, 30, 1000, 80
CT = "1.2.840.10008.5.1.4.1.1.2"
STEP = ("Modality=CT PerformedStationAETitle=CT1 PerformedProcedureStepStartDate=20240705 "
        "PerformedProcedureStepID=P "
        "PerformedProcedureStepStartTime=0900 PerformedProcedureStepStatus=\"IN PROGRESS\" "
        "ScheduledStepAttributesSequence= { ScheduledProcedureStepID=S1 }")


def entry(name: str, identity: str, patient: str = "DOE^A") -> str:
    return (f"schedule {name} PatientName={patient} PatientID=P1 StudyInstanceUID=1.2.3 "
            "RequestedProcedureID=R "
            f"ScheduledProcedureStepSequence= {{ Modality=CT ScheduledStationAETitle=CT1 "
            f"ScheduledProcedureStepID={identity} "
            "ScheduledProcedureStepStartDate=20240705 ScheduledProcedureStepStartTime=0900 }")


def composed(lines: list[str]) -> bytes:
    return "".join(f"{line}\n" for line in compose.composed(lines)
                   if not line.startswith("#")).encode()


WANTED = []


def count_of_scenes() -> int:
    """How many scenes and captures there are, or are asked for by their names."""
    return len(WANTED) or COUNTS["scenes"] + COUNTS["captures"]


def scenes() -> list[tuple[str, pathlib.Path, bytes]]:
    """The scenes and captures that are asked for, each with its name, its configuration and its
    capture."""
    return [one for one in all_scenes() if not WANTED or one[0] in WANTED]


def all_scenes() -> Iterator[tuple[str, pathlib.Path | None, bytes]]:
    for path in sorted((TOP / "suite/scenes").glob("*.scene")):
        lines = path.read_text().split("\n")
        yield path.stem, CONFIGURATIONS / f"{lines[0].removeprefix('# config: ')}.toml", composed(
            lines)
    for path in sorted((TOP / "captures").glob("*.capture")):
        yield path.stem, None, path.read_bytes()


def options(configuration: pathlib.Path | None) -> list[str]:
    return [] if configuration is None else ["--config", str(configuration)]


class Run:
    """A run of the program; `others` are those of subprocess.run."""

    def __init__(self, words: Sequence[object], capture: bytes = b"",
                 program: pathlib.Path | str | None = None, others: Mapping[str, Any] | None = None,
                 **environment: Any) -> None:
        done = subprocess.run([program or PROGRAM, *map(str, words)], input=capture,
                              capture_output=True, check=False,
                              env={**os.environ, **environment}, **(others or {}))
        self.status, self.out, self.told = done.returncode, done.stdout, done.stderr

    def is_done(self) -> bool:
        return self.status == 0 and not self.told

    def is_unclosed(self, out: bytes) -> bool:
        """All was printed, and the log could not be copied into the database file."""
        return self.status == 4 and self.out == out and self.told == b"store 5\n"

    def is_refused(self, *numbers: int) -> bool:
        return self.status == 4 and not self.out and self.told in [f"store {number}\n".encode()
                                                                   for number in numbers]

    def __str__(self) -> str:
        return f"exit {self.status}, {self.out[-80:]!r}, {self.told[:80]!r}"


class Model:
    """A server of the model."""

    def __init__(self, configuration: pathlib.Path | None, found: Any = ()) -> None:
        text = replies.BUILT_IN if configuration is None else configuration.read_text()
        self.institutions = replies.read_configuration(text)
        stores.take(self.institutions, found)
        self.server = replies.Server(self.institutions)

    def play(self, capture: bytes) -> bytes:
        """The printed replies."""
        return b"".join(self.server.reply(*event).encode() + b"\n"
                        for event in replies.read_capture(capture))

    def rows(self) -> list[Row]:
        return sorted(row for one in self.institutions for row in stores.rows_of(one))

    def report(self) -> bytes:
        names = ("studies", "series", "images", "entries", "steps")
        return "".join(" ".join([one.name, *(f"{name} {count}" for name,
                                             count in zip(names, one.records.counts()))]) + "\n"
                       for one in self.institutions).encode()


def copied(path: pathlib.Path, folder: pathlib.Path) -> pathlib.Path:
    """The database file and the log or the journal beside it, copied into a new folder."""
    folder = pathlib.Path(tempfile.mkdtemp(dir=folder))
    for beside in (path, pathlib.Path(f"{path}-wal"), pathlib.Path(f"{path}-journal")):
        if beside.exists():
            shutil.copy(beside, folder)
    return folder / path.name


@contextlib.contextmanager
def opened(path: pathlib.Path, folder: pathlib.Path) -> Iterator[sqlite3.Connection]:
    """A copy of a store, opened by sqlite3."""
    store = stores.connect(str(copied(path, folder)))
    try:
        yield store
    finally:
        store.close()


def rows_in(path: pathlib.Path, folder: pathlib.Path) -> list[Row]:
    with opened(path, folder) as store:
        return sorted(store.execute(stores.SELECT).fetchall())


def by_backup(path: pathlib.Path, target: pathlib.Path) -> pathlib.Path:
    with contextlib.closing(stores.connect(str(path))) as source, contextlib.closing(
            stores.connect(str(target))) as copy:
        source.backup(copy)
    return target


def report_of(configuration: pathlib.Path | None, pairs: list[tuple[str, int]]) -> bytes:
    """The report of rows of these institutions and kinds."""
    names = ("studies", "series", "images", "entries", "steps")
    return "".join(" ".join([one.name, *(f"{part} {pairs.count((one.name, kind))}" for kind,
                                         part in enumerate(names, 1))]) + "\n"
                   for one in Model(configuration).institutions).encode()


def has_stopped(words: Sequence[object], capture: bytes) -> bool:
    """A run that does all, and stops before its end since its output cannot be written: its store
    is not closed."""
    with open("/dev/full", "wb") as full:
        done = subprocess.run([PROGRAM, *map(str, words)], input=capture, stdout=full,
                              stderr=subprocess.PIPE, check=False)
    return done.returncode == 4 and not done.stderr


def rows_alone(path: pathlib.Path, folder: pathlib.Path) -> list[Any]:
    """The rows of the database file, without its log; what sqlite3 says where it reads none."""
    copy = pathlib.Path(tempfile.mkdtemp(dir=folder)) / path.name
    try:
        shutil.copy(path, copy)
        with contextlib.closing(stores.connect(str(copy))) as store:
            return sorted(store.execute(stores.SELECT).fetchall())
    except (sqlite3.Error, OSError) as error:
        return [error]


def check_closed(tally: Tally, name: str, path: pathlib.Path, folder: pathlib.Path,
                 rows: list[Row]) -> None:
    alone = rows_alone(path, folder)
    tally.check(f"closed: {name}", alone == rows,
                f"{len(alone)} rows without the log, {len(rows)} in all", *alone[:1])


def studies_of_images(count: int, root: str) -> Iterator[Any]:
    """So many rows: studies, each with one series and 48 images, whose keys begin so."""
    for at in range(count // 50):
        study = f"{root}{at}"
        series = f"{study}.1"
        texts = [(stores.STUDY, study, "",
                  f"StudyDate=20240705 StudyTime=0900 AccessionNumber=A{at} "
                  f"PatientName=DOE^JANE^{at} PatientID=P{at} StudyID=S{at} "
                  f"StudyDescription=CHEST StudyInstanceUID={study}"),
                 (stores.SERIES, series, study, f"Modality=CT StudyInstanceUID={study} "
                  f"SeriesInstanceUID={series} SeriesNumber=1")]
        texts += [(stores.IMAGE, f"{series}.{image}", series,
                   f"SOPClassUID={CT} SOPInstanceUID={series}.{image} "
                   f"SeriesInstanceUID={series} InstanceNumber={image}") for image in range(48)]
        for kind, key, above, text in texts:
            yield stores.row_of(kind, "NORTH", key.encode(),
                                (above.encode(), compose.data_set(text.split())))


def many_rows(count: int = 5000) -> Iterator[Row]:
    """Entries of two hospitals, and steps, each of which names one entry, the one after it too, or
    one that is not there."""
    for number in range(count):
        name = ("NORTH", "SOUTH")[number % 2]
        words = entry(name, f"S{number}").split(" ", 2)[2]
        yield stores.row_of(stores.ENTRY, name, f"S{number}".encode(),
                            (False, compose.data_set(words.split())))
        items = (f"{{ ScheduledProcedureStepID=S{number * 3} }}"
                 + f" {{ ScheduledProcedureStepID=S{number + 1} }}" * (number % 5 == 0))
        step = STEP.replace("{ ScheduledProcedureStepID=S1 }",
                            items).replace('"IN PROGRESS"', "COMPLETED")
        yield stores.row_of(stores.STEP, name, f"1.2.50.{number}".encode(),
                            compose.data_set(step.split()))


def output_that_fails(tally: Tally, folder: pathlib.Path) -> None:
    """The new store is whole where only the word that it is cannot be written."""
    old, new = kept_store(folder / "kept_3.db"), folder / "told_none.db"
    with open("/dev/full", "wb") as full:
        done = subprocess.run([PROGRAM, "migrate", "--from", old, "--to", new], stdout=full,
                              stderr=subprocess.PIPE, check=False)
    tally.check("an output that cannot be written", done.returncode == 4 and not done.stderr, done)
    tally.check("the store that is not told of", len(rows_in(new, folder)) == 24)
