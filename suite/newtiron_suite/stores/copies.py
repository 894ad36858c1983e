"""Checks of stores, and their copies, whole and by the names of hospitals."""
import contextlib
import pathlib
import shutil
import signal
import subprocess
import tempfile
import time
from collections.abc import Sequence
from typing import Any

from ..measured import Moments
from ..model import stores
from ..model.stores import Row
from ..model.version_1 import kept_store
from ..paths import CONFIGURATIONS, TOP
from ..refusing import made_library
from ..tally import Tally
from .changes import CHANGES, base, changed, files_that_are_none
from .common import (CT, KILLS, PROGRAM, SEED, STEP, WANTED, Model, Run, composed, copied,
                     count_of_scenes, entry, many_rows, options, rows_alone, rows_in, scenes)
from .migrations import state
from .written import check_shape


def duplicate(old: pathlib.Path | str, new: pathlib.Path | str, *names: str, **others: Any) -> Run:
    return Run(["copy", "--from", old, "--to", new,
                *(word for name in names for word in ("--only", name))], b"open x\n", **others)


def is_duplicated(run: Run, count: int) -> bool:
    return run.is_done() and run.out == f"copied rows {count}\n".encode()


def checked(tally: Tally, folder: pathlib.Path) -> None:
    """What is listed with a store is each institution's own lines, and behind them its line of the
    report."""
    count = 0
    for name, configuration, capture in scenes():
        path = folder / f"{name}.db"
        run = Run(["replay", *options(configuration), "--new", path], capture)
        if configuration is None or not tally.check(f"{name}: made", run.is_done(), run):
            continue
        before, octets = state(path, folder), path.read_bytes()
        counted = Run(["report", *options(configuration), "--store", copied(path, folder)])
        plain = Run(["check", *options(configuration)], b"open x\n")
        run = Run(["check", *options(configuration), "--store", path], b"open x\n")
        told = run.out.decode().splitlines(True)
        rows = [line for line in told if line.split(" ")[1] == "studies"]
        tally.check(f"{name}: checked",
                    run.is_done() and plain.is_done() and "".join(rows).encode() == counted.out and
                    "".join(line for line in told if line not in rows).encode() == plain.out,
                    run, plain)
        is_behind = all(told[at - 1].startswith(f"{line.split(' ')[0]} limits ") for at,
                        line in enumerate(told) if line in rows)
        tally.check(f"{name}: rows behind limits", is_behind, told)
        tally.check(f"{name}: the store stays",
                    state(path, folder) == before and path.read_bytes() == octets)
        count += 1
    wanted = sum(configuration is not None for _, configuration, _ in scenes())
    tally.check("stores that were checked", count == wanted, count, wanted)
    for at, (name, none) in enumerate(files_that_are_none(folder).items()):
        run = Run(["check", *options(CONFIGURATIONS / "hospitals.toml"), "--store", none])
        tally.check(f"checked: {name}", run.is_refused(2), run)
    run = Run(["check", *options(CONFIGURATIONS / "hospitals.toml"), "--store",
               kept_store(folder / "kept.db")])
    tally.check("checked: a store of version 1", run.is_refused(3), run)
    configuration = TOP / "suite/refused_configurations/name_taken.toml"
    run = Run(["check", *options(configuration), "--store", folder / "absent.db"])
    tally.check("a configuration counts before the store",
                run.status == 2 and run.told.endswith(b"\nconfig 4\n"), run)


def check_duplicate(tally: Tally, name: str, old: pathlib.Path, new: pathlib.Path,
                    folder: pathlib.Path, names: Sequence[str] = ()) -> bool:
    """Copies a store; the rows are those of the named, octet for octet."""
    before, octets, rows = state(old, folder), old.read_bytes(), rows_in(old, folder)
    wanted = [row for row in rows if not names or row[1].decode() in names]
    run = duplicate(old, new, *names)
    tally.check(f"{name}: the old store stays",
                state(old, folder) == before and old.read_bytes() == octets)
    if tally.check(f"{name}: copied", is_duplicated(run, len(wanted)), run):
        check_shape(tally, name, new, folder, wanted)
        tally.check(f"{name}: the file alone", rows_alone(new, folder) == wanted)
        return True
    return False


def duplicated(tally: Tally, folder: pathlib.Path) -> None:
    count = 0
    for name, configuration, capture in scenes():
        path, model = folder / f"{name}.db", Model(configuration)
        model.play(capture)
        run = Run(["replay", *options(configuration), "--new", path], capture)
        tally.check(f"{name}: made", run.is_done() and rows_in(path, folder) == model.rows(), run)
        count += check_duplicate(tally, f"{name}, whole", path, folder / f"{name}_whole.db", folder)
        for one in model.institutions[:3]:
            check_duplicate(tally, f"{name}, {one.name}", path, folder / f"{name}_{one.name}.db",
                            folder, (one.name,))
    tally.check("stores that were copied", count == count_of_scenes(), count, count_of_scenes())
    old = hospitals_store(tally, folder)
    for at, names in enumerate((("NORTH", "SOUTH"), ("SOUTH", "NORTH", "SOUTH"), ("EAST",),
                                ("EAST", "NORTH"), ("NORT",), ("",))):
        check_duplicate(tally, f"the names {names}", old, folder / f"named_{at}.db", folder, names)
    check_duplicate(tally, "to an empty file", old, made_empty(folder / "empty.db"), folder,
                    ("NORTH",))
    check_duplicate(tally, "a copy of a copy", folder / "named_0.db", folder / "again.db", folder)
    moved(tally, folder, old)
    with open("/dev/full", "wb") as full:
        words: list[Any] = ["copy", "--from", old, "--to", folder / "told_none.db"]
        done = subprocess.run([PROGRAM, *words], stdout=full, stderr=subprocess.PIPE, check=False)
    tally.check("an output that cannot be written", done.returncode == 4 and not done.stderr, done)
    tally.check("the copy that is not told of",
                rows_in(folder / "told_none.db", folder) == rows_in(old, folder))


def made_empty(path: pathlib.Path) -> pathlib.Path:
    path.write_bytes(b"")
    return path


def hospital_lines(title: str, root: int, queries: bool = True) -> list[str]:
    """What one hospital's modality stores, is ordered, and asks for."""
    name = {"CT1": "NORTH", "CT2": "SOUTH"}[title]
    images = [f"store 1 1 {at} CT 1.2.{root}.{at} SOPClassUID={CT} SOPInstanceUID=1.2.{root}.{at} "
              f"StudyInstanceUID=1.2.{root % 3} "
              f"SeriesInstanceUID=1.2.{root % 3}.{at % 2} PatientName=DOE^{root} PatientID=P{root} "
              "StudyDate=20240705" for at in range(1, 7)]
    asked = ["find 1 3 21 study QueryRetrieveLevel=STUDY PatientName= StudyInstanceUID= "
             "NumberOfStudyRelatedInstances=",
             "find 1 3 22 study QueryRetrieveLevel=IMAGE StudyInstanceUID=1.2.1 "
             "SeriesInstanceUID=1.2.1.1 SOPInstanceUID=",
             "find 1 5 23 worklist PatientName= ScheduledProcedureStepSequence= { "
             "ScheduledProcedureStepID= Modality=CT }"]
    served = "1=CT:explicit 3=study:explicit 5=worklist:explicit 7=mpps:explicit"
    return ["open 1", f"associate 1 ARCHIVE {title} {served}", *images,
            *[entry(name, f"S{root}.{at}") for at in range(4)],
            *(asked if queries else []),
            f"create 1 7 31 1.2.90.{root} {STEP.replace('S1', f'S{root}.1')}",
            *(asked if queries else []), "release 1"]


def hospitals_store(tally: Tally, folder: pathlib.Path) -> pathlib.Path:
    """A store of two hospitals, whose studies have the same UIDs."""
    path, configuration = folder / "hospitals.db", CONFIGURATIONS / "hospitals.toml"
    for option, title, root in (("--new", "CT1", 1), ("--store", "CT2", 4), ("--store", "CT1", 2),
                                ("--store", "CT2", 5)):
        run = Run(["replay", *options(configuration), option, path],
                  composed(hospital_lines(title, root, False)))
        tally.check(f"a store of two hospitals: {title} {root}",
                    run.is_done() and b"close" in run.out, run)
    return path


def moved(tally: Tally, folder: pathlib.Path, old: pathlib.Path) -> None:
    """A hospital that moved is answered, and keeps, what it would have been over the old store."""
    shared = CONFIGURATIONS / "hospitals.toml"
    tables = shared.read_text().split("[[institution]]")
    for title, name, table in (("CT1", "NORTH", tables[1]), ("CT2", "SOUTH", tables[2])):
        own = folder / f"{name}.toml"
        own.write_text("[[institution]]" + table)
        here, there = copied(old, folder), folder / f"{name}_moved.db"
        tally.check(f"{name} moves", duplicate(old, there, name).is_done())
        for root in (7, 8):
            capture = composed(hospital_lines(title, root))
            stayed = Run(["replay", *options(shared), "--store", here], capture)
            gone = Run(["replay", *options(own), "--store", there], capture)
            tally.check(f"{name} is answered as before, {root}",
                        stayed.is_done() and gone.is_done() and stayed.out == gone.out and
                        len(gone.out) > 3000, stayed, gone)
        rows = [row for row in rows_in(here, folder) if row[1] == name.encode()]
        tally.check(f"{name} keeps what it would have",
                    rows_in(there, folder) == rows and len(rows) > 20, len(rows))


def check_undone(tally: Tally, name: str, numbers: Sequence[int], old: Any, new: Any,
                 folder: pathlib.Path, *names: str) -> None:
    """A copy that is refused, and changes nothing."""
    before = state(old, folder), state(new, folder)
    run = duplicate(old, new, *names)
    tally.check(f"no copy: {name}", run.is_refused(*numbers), run)
    tally.check(f"not copied and unchanged: {name}",
                (state(old, folder), state(new, folder)) == before)


def unduplicated(tally: Tally, folder: pathlib.Path) -> None:
    source = base(folder)
    if not tally.check("a store to begin from", source is not None):
        return
    for at, (name, (edit, numbers)) in enumerate(CHANGES.items()):
        old = folder / f"changed_{at}.db"
        tally.check(f"made: {name}", changed(source, edit, old))
        check_undone(tally, name, numbers, old, folder / f"of_changed_{at}.db", folder)
    check_undone(tally, "version 1", [3], kept_store(folder / "one.db"), folder / "of_one.db",
                 folder)
    for at, (name, none) in enumerate(files_that_are_none(folder).items()):
        run = duplicate(none, folder / f"of_{at}.db")
        tally.check(f"no copy of: {name}", run.is_refused(2), run)
    (folder / "link.db").symlink_to(source)
    for name, new in {"itself": source, "a link to itself": folder / "link.db",
                      "itself by another path": folder / ".." / folder.name / source.name}.items():
        check_undone(tally, f"onto {name}", [2], source, new, folder)
    other = folder / "other.db"
    tally.check("another store",
                is_duplicated(duplicate(source, other), len(rows_in(source, folder))))
    for name, new in {"a store": other,
                      "a store of version 1": kept_store(folder / "another.db")}.items():
        check_undone(tally, f"onto {name}", [2], source, new, folder)
        check_undone(tally, f"of nobody onto {name}", [2], source, new, folder, "NOBODY")
    for in_use in (source, folder / "free.db"):
        with contextlib.closing(stores.connect(str(in_use))) as store:
            store.execute("BEGIN EXCLUSIVE")
            run = duplicate(source, folder / "free.db")
            tally.check(f"{in_use.name} is in use by a copy", run.is_refused(2), run)
    run = Run(["copy", f"--from={source}", f"--to={folder / 'last.db'}", "--only=NOBODY"])
    tally.check("--from=, --to= and --only=", is_duplicated(run, 0), run)


def half_duplicated(tally: Tally, folder: pathlib.Path) -> None:
    library, refusals = made_library(folder), 0
    old = hospitals_store(tally, folder)
    for call in WANTED or ("write", "truncate", "sync"):
        for suffix in (".db", ".db-wal"):
            for later in ("", "+"):
                refusals += copies_torn(tally, folder, library, (call, f"/new{suffix}", later), old)
    tally.check("calls of copies that were refused", refusals >= 8, refusals)
    if not WANTED:
        copies_killed(tally, folder)


def check_left_of(tally: Tally, name: str, old: pathlib.Path, new: pathlib.Path,
                  folder: pathlib.Path, rows: list[Row], names: Sequence[str]) -> bool:
    """The old store stays. The new one has nothing, and then a second copy makes it, or all.
    Whether it had nothing."""
    wanted = [row for row in rows if row[1].decode() in names]
    tally.check(f"{name}: the old store stays", rows_in(old, folder) == rows)
    copy = copied(new, folder) if new.exists() else new
    again, is_nothing = duplicate(old, copy, *names), False
    if again.is_refused(2):
        run = Run(["report", "--store", copy])
        tally.check(f"{name}: left whole", run.is_done() and rows_in(copy, folder) == wanted, run)
    else:
        is_nothing = True
        tally.check(f"{name}: copied again",
                    is_duplicated(again, len(wanted)) and rows_in(copy, folder) == wanted, again)
    return is_nothing


def copies_torn(tally: Tally, folder: pathlib.Path, library: pathlib.Path,
                which: tuple[str, str, str], source: pathlib.Path) -> int:
    """Refuses each such call in turn, until a copy needs no more of them; how many were refused."""
    call, ending, later = which
    rows = rows_in(source, folder)
    count = sum(row[1] == b"SOUTH" for row in rows)
    for number in range(1, 1000):
        place = pathlib.Path(tempfile.mkdtemp(dir=folder))
        old, new, mark = copied(source, place), place / "new.db", place / "refused"
        name = f"a copy, {call} {number}{later} of {ending}"
        run = duplicate(old, new, "SOUTH", LD_PRELOAD=str(library), REFUSE_CALL=call,
                        REFUSE_NUMBER=f"{number}{later}",
                        REFUSE_PATH=ending, REFUSE_MARK=str(mark))
        if not mark.exists():
            tally.check(f"{name}, which is not made", is_duplicated(run, count), run)
            return number - 1
        is_told = is_duplicated(run, count) or run.is_unclosed(b"")
        tally.check(f"{name}: told", run.is_refused(2) or is_told, run)
        is_nothing = check_left_of(tally, name, old, new, folder, rows, ("SOUTH",))
        tally.check(f"{name}: told and left", not (is_nothing and is_told), run)
        shutil.rmtree(place)
    tally.check(f"a copy, {call} of {ending}: the run did not go through", False)
    return 0


def copies_killed(tally: Tally, folder: pathlib.Path) -> None:
    old = folder / "many.db"
    with contextlib.closing(stores.empty(str(old))) as store:
        stores.fill(store, sorted(many_rows(1000)))
    rows = rows_in(old, folder)
    begun = time.monotonic()
    tally.check("a copy without a stop",
                duplicate(old, folder / "whole.db", "NORTH", "EAST").is_done())
    moments, nothings = Moments(SEED, time.monotonic() - begun), 0
    for turn in range(KILLS):
        new = folder / f"killed_{turn}.db"
        child = subprocess.Popen([PROGRAM, "copy", "--from", str(old), "--to", str(new), "--only",
                                  "NORTH"], stdout=subprocess.DEVNULL,
                                 stderr=subprocess.DEVNULL)
        moments.wait_for(child)
        child.send_signal(signal.SIGKILL)
        child.wait()
        nothings += check_left_of(tally, f"a copy, killed {turn}", old, new, folder, rows,
                                  ("NORTH",))
    tally.check("copies that were ended before their end", nothings >= KILLS // 3, nothings)
