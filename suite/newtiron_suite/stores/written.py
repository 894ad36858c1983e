"""What the program wrote, and stores that sqlite3 copied or wrote, which it takes."""
import contextlib
import pathlib
import re
import sqlite3
import subprocess

from ..counts import COUNTS
from ..model import compose, data_sets, stores
from ..model.stores import Row
from ..paths import CONFIGURATIONS, TOP
from ..tally import Tally
from .common import (CT, PROGRAM, WANTED, Model, Run, all_scenes, by_backup, copied,
                     count_of_scenes, entry, opened, options, rows_in, scenes)


def by_vacuum(path: pathlib.Path, target: pathlib.Path) -> pathlib.Path:
    with contextlib.closing(stores.connect(str(path))) as source:
        source.execute("VACUUM INTO ?", (str(target),))
    return target


def by_text(path: pathlib.Path, target: pathlib.Path) -> pathlib.Path:
    with contextlib.closing(sqlite3.connect(path)) as source, contextlib.closing(
            stores.connect(str(target))) as copy:
        copy.executescript("\n".join(source.iterdump()))
    return target


def check_shape(tally: Tally, name: str, path: pathlib.Path, folder: pathlib.Path,
                rows: list[Row]) -> None:
    with opened(path, folder) as store:
        sound = store.execute("PRAGMA integrity_check").fetchall()
        tally.check(f"{name}: integrity", sound == [(b"ok",)], sound)
        found, wanted = stores.columns_alone(stores.shape(store)), stores.columns_alone(
            stores.documented())
        tally.check(f"{name}: tables", found == wanted, found)
        versions = store.execute("SELECT number FROM version").fetchall()
        tally.check(f"{name}: version", versions == [(2,)], versions)
        held = sorted(store.execute(stores.SELECT).fetchall())
        tally.check(f"{name}: rows", held == rows, f"{len(held)} rows, {len(rows)} by the model",
                    [one for one in held if one not in rows][:1],
                    [one for one in rows if one not in held][:1])
        for kind, is_taken in ((0, False), (1, True), (5, True), (6, False)):
            try:
                store.execute(stores.INSERT, (kind, "CHECKED", b"1.2.3", b"", None, None, b"", 0))
                was_taken = True
            except sqlite3.IntegrityError:
                was_taken = False
            tally.check(f"{name}: kind {kind}", was_taken == is_taken)


def written(tally: Tally, folder: pathlib.Path) -> None:
    """Also gives how many stores were compared."""
    count = 0
    for name, configuration, capture in scenes():
        path, model = folder / f"{name}.db", Model(configuration)
        expected = model.play(capture)
        run = Run(["replay", *options(configuration), "--new", path], capture)
        if not tally.check(f"{name}: replies", run.is_done() and run.out == expected, run):
            continue
        check_shape(tally, name, path, folder, model.rows())
        counted = Run(["report", *options(configuration), "--store", path])
        tally.check(f"{name}: report", counted.is_done() and counted.out == model.report(), counted)
        with opened(path, folder) as store:
            by_hand = dict(
                store.execute(
                "SELECT inst || ' ' || kind, count(*) FROM kept GROUP BY 1").fetchall())
        told = {f"{words[0]} {kind}".encode(): int(words[2 * kind])
                for words in map(str.split, counted.out.decode().split("\n"))
                if words for kind in range(1, 6)}
        tally.check(f"{name}: report and rows",
                    {key: value for key, value in told.items() if value} == by_hand, told, by_hand)
        again = Run(["report", *options(configuration), "--new", folder / f"{name}_reported.db"],
                    capture)
        tally.check(f"{name}: report of a new store", again.is_done() and again.out == counted.out,
                    again)
        count += 1
    tally.check("stores that were written", count == count_of_scenes(), count, count_of_scenes())


def numbered_on(line: str, most: int) -> str:
    """An event or a reply with the number of its connection raised."""
    words = line.split(" ")
    at = 1 if words[0] in ("open", "piece", "end", "pull") else 0
    if words[at].isdigit():
        words[at] = str(int(words[at]) + most)
    return " ".join(words)


def check_as_in_memory(tally: Tally, name: str, configuration: pathlib.Path | None, capture: bytes,
                       run: Run, path: pathlib.Path) -> None:
    """A run over a store that the same capture made answers and keeps as one in memory that plays
    the capture, ends its connections, and plays it again under other numbers."""
    lines = [line for line in capture.decode().split("\n") if line and not line.startswith("#")]
    numbers = [int(line.split(" ")[1]) for line in lines if line.startswith("open ")]
    most = max(numbers, default=0)
    twice = lines + [f"end {number}" for number in numbers] + [numbered_on(line, most)
                                                               for line in lines]
    twice = ("\n".join(twice) + "\n").encode()
    memory = Run(["replay", *options(configuration)], twice)
    last = memory.out.decode().split("\n")[len(lines) + len(numbers):]
    told = [numbered_on(line, most) for line in run.out.decode().split("\n")]
    tally.check(f"{name}: adopted, and in memory",
                memory.is_done() and len(told) > len(lines) and last == told, memory, run)
    counts = [Run(["report", *options(configuration)], twice),
              Run(["report", *options(configuration), "--store", path])]
    tally.check(f"{name}: kept, and in memory",
                counts[0].is_done() and counts[1].is_done() and counts[0].out == counts[1].out,
                *counts)


def adopted(tally: Tally, folder: pathlib.Path) -> None:
    count, copies = 0, {"backup": by_backup, "vacuum": by_vacuum, "text": by_text}
    for name, configuration, capture in scenes():
        path = folder / f"{name}.db"
        if not tally.check(f"{name}: written",
                           Run(["replay", *options(configuration), "--new", path],
                               capture).is_done()):
            continue
        copy = stores.connect(str(copied(path, folder)))
        source = pathlib.Path(copy.execute("PRAGMA database_list").fetchall()[0][2].decode())
        copy.close()
        targets = {how: make(source, folder / f"{name}_{how}.db") for how, make in copies.items()}
        targets["file and log"] = copied(path, folder)
        for how, target in targets.items():
            store, found = stores.adopt(str(copied(target, folder)))
            store.close()
            model = Model(configuration, found)
            expected = model.play(capture)
            run = Run(["replay", *options(configuration), "--store", target], capture)
            if tally.check(f"{name}: adopted, {how}", run.is_done() and run.out == expected, run):
                rows = rows_in(target, folder)
                tally.check(f"{name}: rows, {how}", rows == model.rows(), len(rows),
                            len(model.rows()))
                count += 1
        check_as_in_memory(tally, name, configuration, capture, run, targets["file and log"])
    tally.check("stores that were adopted", count == 4 * count_of_scenes(), count,
                4 * count_of_scenes())
    north, south = CONFIGURATIONS / "hospitals.toml", CONFIGURATIONS / "many_studies.toml"
    path = folder / "of_both.db"
    capture = dict((name, capture) for name, _, capture in all_scenes())["two_hospitals"]
    Run(["replay", *options(north), "--new", path], capture)
    before = rows_in(path, folder)
    counted = Run(["report", *options(south), "--store", path])
    tally.check("a hospital that the configuration does not have keeps its rows",
                counted.is_done() and counted.out == b"NORTH studies 1 series 1 images 1 entries 0 "
                                                     b"steps 0\n"
                and rows_in(path, folder) == before and len(before) == 6, counted)


OVER_A_STORE = """#!/usr/bin/env bash
# The program over a store of its own, which is made anew, or goes on with one without rows.
words=("$@")
[ $# -gt 0 ] || words=(replay)
path=$(mktemp -u 'FOLDER/XXXXXXXXXX.db')
if [ OPTION = --store ]; then cp 'EMPTY' "$path" && cp 'EMPTY-wal' "$path-wal" 2> /dev/null; fi
'PROGRAM' "${words[@]}" OPTION "$path"
status=$?
[ "$status" = 0 ] && { [ -s "$path" ] && echo made || \
echo "not made: ${words[*]}"; } >> 'FOLDER/told'
rm -f "$path" "$path-wal"
exit "$status"
"""


ROUNDS = 15
# how many runs of the program end well: of suite/run, and of suite/isolation the first six and
# three in each round
RUNS = {"captures": COUNTS["captures"] + COUNTS["captures_reported"] + COUNTS["replays"]
        - COUNTS["replays_refused"],
        "scenes": COUNTS["scenes"] + COUNTS["scenes_reported"], "plays": 4,
        "histories": 6 + 3 * ROUNDS}


def played(tally: Tally, folder: pathlib.Path) -> None:
    empty, suite = folder / "empty.db", TOP / "suite"
    tally.check("an empty store", Run(["replay", "--new", empty]).is_done())
    for option in ("--new", "--store"):
        place = folder / option.strip("-")
        place.mkdir()
        program = place / "program"
        text = OVER_A_STORE.replace("FOLDER", str(place)).replace("OPTION", option)
        text = text.replace("EMPTY", str(empty))
        program.write_text(text.replace("PROGRAM", str(pathlib.Path(PROGRAM).absolute())))
        program.chmod(0o755)
        for name in WANTED or RUNS:
            words: list[pathlib.Path | str] = [suite / "isolation", program,
                                               str(ROUNDS)] if name == "histories" else [
                suite / "run", program, name]
            done = subprocess.run(words, capture_output=True, text=True, check=False)
            last = done.stdout.strip().split("\n")
            tally.check(f"{option}: {name}", done.returncode == 0
                        and re.fullmatch("[1-9][0-9]* passed, 0 failed", last[-1]),
                        *last[-4:], done.stderr[-200:])
        told = (place / "told").read_text().split("\n")[:-1]
        runs = sum(RUNS[name] for name in WANTED or RUNS)
        tally.check(f"{option}: each play is over a store",
                    len(told) == runs and set(told) == {"made"}, len(told), runs, set(told))


def spelled(text: str, syntax: str = data_sets.EXPLICIT) -> bytes:
    return data_sets.canonical(compose.data_set(text.split()), syntax)


def statements_documented() -> str:
    """The statements of SQL in docs/STORES.md, which make a store without rows."""
    lines = (TOP / "docs/STORES.md").read_text().split("\n")
    return "\n".join(line for line in lines
                     if line.startswith(("    CREATE ", "    INSERT ", "        ")))


ROWS_BY_HAND = [
    (stores.STUDY, b"1.2.3", b"", b"P1", 20240229,
     "StudyDate=20240229 PatientID=P1 StudyInstanceUID=1.2.3"),
    (stores.SERIES, b"1.2.5", b"1.2.3", None, None,
     "StudyInstanceUID=1.2.3 SeriesInstanceUID=1.2.5"),
    (stores.IMAGE, b"1.2.9", b"1.2.5", None, None,
     f"SOPClassUID={CT} SOPInstanceUID=1.2.9 SeriesInstanceUID=1.2.5"),
    (stores.ENTRY, b"S1", b"", None, None, entry("NORTH", "S1").partition("NORTH ")[2]),
    (stores.STEP, b"1.2.50", b"", None, None, "Modality=CT PerformedProcedureStepID=P"),
]


def by_hand(tally: Tally, folder: pathlib.Path) -> None:
    path, configuration = folder / "by_hand.db", CONFIGURATIONS / "hospitals.toml"
    with contextlib.closing(stores.connect(str(path))) as store:
        store.executescript(statements_documented())
        for kind, key, above, patient, day, text in ROWS_BY_HAND:
            store.execute(stores.INSERT, (kind, "NORTH", key, above, patient, day,
                                          spelled(text), 0))
    store, found = stores.adopt(str(copied(path, folder)))
    store.close()
    model = Model(configuration, found)
    rows = model.rows()
    tally.check("by hand: a row of each kind", [row[0] for row in rows] == [1, 2, 3, 4, 5], rows)
    run = Run(["report", *options(configuration), "--store", path])
    tally.check("by hand: taken", run.is_done() and run.out == model.report(), run)
    tally.check("by hand: rows", rows_in(path, folder) == rows)
