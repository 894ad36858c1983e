"""Stores that are not taken."""
import contextlib
import os
import pathlib
import random
import shutil
import sqlite3

from ..model import stores
from ..paths import CONFIGURATIONS
from ..tally import Tally
from .changes import (CHANGES, CHANGES_OF_TWO, HARMLESS, base, changed, files_that_are_none,
                      held_in, script)
from .common import (CUTS, FLIPS, PROGRAM, SEED, WANTED, Model, Run, all_scenes, copied,
                     has_stopped, opened, options, report_of, rows_in)


def refused(tally: Tally, folder: pathlib.Path) -> None:
    configuration = CONFIGURATIONS / "hospitals.toml"
    source = base(folder)
    if not tally.check("a store to begin from", source is not None):
        return
    changes = {name: change for name, change in (CHANGES | CHANGES_OF_TWO).items()
               if not WANTED or name in WANTED}
    for at, (name, (edit, numbers)) in enumerate(changes.items()):
        target = folder / f"changed_{at}.db"
        tally.check(f"made: {name}", changed(source, edit, target))
        before = held_in(target, folder)
        try:
            stores.adopt(str(copied(target, folder)))
            tally.check(f"by the model: {name}", numbers != [4] and numbers != [3])
        except stores.Refused as fault:
            tally.check(f"by the model: {name}", fault.args[0] in numbers, fault.args[0])
        for task in ("replay", "report"):
            run = Run([task, *options(configuration), "--store", target], b"open 1\n")
            tally.check(f"{task} of {name}", run.is_refused(*numbers), run)
        tally.check(f"unchanged: {name}", held_in(target, folder) == before)
    if WANTED:
        tally.check("changes", len(changes) == len(WANTED), len(changes))
        return
    for name, path in files_that_are_none(folder).items():
        run = Run(["replay", "--store", path], b"open 1\n")
        tally.check(f"no store: {name}", run.is_refused(2), run)
    taken_all_the_same(tally, folder, source, configuration)
    refused_new(tally, folder, source, configuration)
    logs_that_are_left(tally, folder, source, configuration)
    refused_by_rights(tally, folder, source)
    refused_in_order(tally, folder, source)


def taken_all_the_same(tally: Tally, folder: pathlib.Path, source: pathlib.Path,
                       configuration: pathlib.Path | None) -> None:
    for at, (name, edit) in enumerate(HARMLESS.items()):
        target = folder / f"harmless_{at}.db"
        changed(source, edit, target)
        run = Run(["report", *options(configuration), "--store", target])
        store, found = stores.adopt(str(copied(target, folder)))
        store.close()
        model = Model(configuration, found)
        tally.check(f"taken: {name}", run.is_done() and run.out == model.report(), run)


def refused_new(tally: Tally, folder: pathlib.Path, source: pathlib.Path,
                configuration: pathlib.Path | None) -> None:
    """Where a new store cannot be made."""
    shutil.copy(source, folder / "there.db")
    before = held_in(folder / "there.db", folder)
    run = Run(["replay", *options(configuration), "--new", folder / "there.db"], b"open 1\n")
    tally.check("a new store where one is",
                run.is_refused(2) and held_in(folder / "there.db", folder) == before, run)
    for table in ("kept", "version"):
        target = folder / f"only_{table}.db"
        changed(source, script(f"DROP TABLE {'version' if table == 'kept' else 'kept'}"), target)
        run = Run(["replay", *options(configuration), "--new", target], b"open 1\n")
        tally.check(f"a new store where there is a table {table}", run.is_refused(2), run)
    fresh = folder / "new"
    fresh.mkdir()
    for name, path in files_that_are_none(fresh).items():
        if name == "an octet":
            continue
        if name in ("absent", "empty"):
            run = Run(["replay", "--new", path], b"open 1\n")
            tally.check(f"a new store: {name}", run.is_done() and run.out == b"done\n", run)
        else:
            run = Run(["replay", "--new", path], b"open 1\n")
            tally.check(f"no new store: {name}", run.is_refused(2), run)
    path = folder / "in_use.db"
    shutil.copy(source, path)
    with contextlib.closing(stores.connect(str(path))) as store:
        store.execute("BEGIN EXCLUSIVE")
        run = Run(["replay", *options(configuration), "--store", path], b"open 1\n")
        tally.check("a store that is in use", run.is_refused(2), run)
    path = folder / "journal" / "left.db"
    path.parent.mkdir()
    with contextlib.closing(stores.connect(str(folder / "left.db"))) as store:
        shutil.copy(source, folder / "left.db")
        store.execute("PRAGMA journal_mode = delete")
        store.execute("PRAGMA cache_size = 1")
        store.execute("BEGIN")
        store.execute("UPDATE kept SET octets = CAST(octets || zeroblob(100000) AS BLOB)")
        for name in ("left.db", "left.db-journal"):
            shutil.copy(folder / name, path.parent)
        store.execute("ROLLBACK")
    run = Run(["report", *options(configuration), "--store", copied(path, folder)])
    tally.check("a journal that a crash left behind",
                run.is_refused(2) or run.is_done() and run.out.startswith(b"NORTH studies 2"), run)
    with contextlib.closing(stores.connect(str(path))) as store:
        store.execute("SELECT count(*) FROM kept").fetchall()
    run = Run(["report", *options(configuration), "--store", path])
    tally.check("the same once sqlite3 has opened it",
                run.is_done() and run.out.startswith(b"NORTH studies 2"), run)


def logs_that_are_left(tally: Tally, folder: pathlib.Path, source: pathlib.Path,
                       configuration: pathlib.Path | None) -> None:
    """A log that SQLite wrote and a crash left beside its store, with a commit and with a
    transaction that was not one."""
    path = folder / "log_left.db"
    shutil.copy(source, path)
    with contextlib.closing(stores.connect(str(path))) as store:
        store.execute("PRAGMA journal_mode = wal")
        store.execute("DELETE FROM kept WHERE kind = 4")
        store.execute("PRAGMA cache_size = 1")
        store.execute("BEGIN")
        store.execute("UPDATE kept SET octets = CAST(octets || zeroblob(100000) AS BLOB)")
        left_log = copied(path, folder)
        store.execute("ROLLBACK")
    octets = pathlib.Path(f"{left_log}-wal").stat().st_size
    tally.check("a log with more than its commits", octets > 100000, octets)
    run = Run(["report", *options(configuration), "--store", left_log])
    tally.check("a log that a crash left behind", run.is_done()
                and run.out.startswith(b"NORTH studies 2 series 2 images 2 entries 0 steps 1\n"),
                run)


def refused_by_rights(tally: Tally, folder: pathlib.Path, source: pathlib.Path) -> None:
    """Files and folders that may not be read or written. A run that may do everything plays
    somebody who may not."""
    user, others, program = os.geteuid(), {}, folder / "program"
    shutil.copy(PROGRAM, program)
    program.chmod(0o755)
    if user == 0:
        user, others = 65534, {"user": 65534, "group": 65534, "extra_groups": []}
        folder.chmod(0o755)
    place = folder / "rights"
    place.mkdir()

    def run(option: str, place_mode: int = 0o700, **modes: int) -> Run:
        """A run over files with these modes, in a folder with that one."""
        path = place / f"{len(list(place.iterdir()))}" / "store.db"
        path.parent.mkdir()
        if option == "--store":
            shutil.copy(source, path)
        for ending, mode in modes.items():
            beside = path if ending == "db" else pathlib.Path(f"{path}-{ending}")
            beside.touch()
            os.chown(beside, user, -1)
            beside.chmod(mode)
        os.chown(path.parent, user, -1)
        path.parent.chmod(place_mode)
        done = Run(["replay", option, path], b"open 1\n", program, others)
        path.parent.chmod(0o700)
        return done

    for option in ("--new", "--store"):
        done = run(option, db=0o600)
        tally.check(f"{option}: a file with the mode 600", done.is_done() and done.out == b"done\n",
                    done)
        for mode in (0o000, 0o200, 0o400):
            done = run(option, db=mode)
            tally.check(f"{option}: a file with the mode {mode:o}", done.is_refused(2), done)
            done = run(option, db=0o600, wal=mode)
            tally.check(f"{option}: a log with the mode {mode:o}", done.is_refused(2), done)
        for mode in (0o000, 0o500):
            done = run(option, mode, db=0o600)
            tally.check(f"{option}: a folder with the mode {mode:o}", done.is_refused(2), done)
    done = run("--new", 0o500)
    tally.check("--new: nothing in a folder with the mode 500", done.is_refused(2), done)


def refused_in_order(tally: Tally, folder: pathlib.Path, source: pathlib.Path) -> None:
    """Usage, then the configuration, then the capture, then the store."""
    both = Run(["replay", "--new", folder / "both.db", "--store", source], b"open x\n")
    tally.check("both options", both.status == 1 and not both.out and both.told, both)
    for words in (["replay", "--new"], ["replay", "--store"],
                  ["replay", "--new", "a", "--new", "b"],
                  ["replay", "--store", "a", "--store", "b"], ["--new", "a"], ["--store", "a"],
                  ["report", "--new=a", "--store=b"]):
        run = Run(words, b"open x\n")
        tally.check(f"the words {words}", run.status == 1 and not run.out and run.told, run)
    bad = ["--config", folder / "absent.toml"]
    for option in ("--new", "--store"):
        path = folder / f"absent{option}.db"
        run = Run(["replay", *bad, option, path], b"open x\n")
        tally.check(f"{option}: a configuration first",
                    run.status == 2 and run.told == b"config 0\n", run)
        run = Run(["replay", option, path], b"open x\n")
        tally.check(f"{option}: a capture first",
                    run.status == 3 and run.told == b"capture line 1\n", run)
        tally.check(f"{option}: nothing is made", not path.exists() and not both.status == 0)
    tally.check("nothing is made of both", not (folder / "both.db").exists())
    for option in ("--new", "--store"):
        run = Run(["replay", f"{option}={folder / 'equals.db'}"], b"open 1\n")
        tally.check(f"{option}= with a store", run.is_done() and run.out == b"done\n", run)


def truncated(tally: Tally, folder: pathlib.Path) -> None:
    source = base(folder)
    if not tally.check("a store to begin from", source is not None):
        return
    whole = source.read_bytes()
    configuration = CONFIGURATIONS / "hospitals.toml"
    counted = Run(["report", *options(configuration), "--store", copied(source, folder)])
    tally.check("the whole store", counted.is_done(), counted)
    rows = rows_in(source, folder)
    chance = random.Random(SEED)
    offsets = {0, 1, 15, 16, 99, 100, 101, 511, 512, 513, 1024, 4095, 4096, 4097, len(whole) - 1,
               len(whole)}
    offsets |= {at for at in range(0, len(whole), 4096)} | {chance.randrange(len(whole))
                                                            for _ in range(CUTS)}
    for at in sorted(offset for offset in offsets if offset <= len(whole)):
        path = folder / f"cut_{at}.db"
        path.write_bytes(whole[:at])
        run = Run(["report", *options(configuration), "--store", path])
        is_whole = run.is_done() and run.out == counted.out and rows_in(path, folder) == rows
        tally.check(f"cut at {at} of {len(whole)}",
                    is_whole or at < len(whole) and run.is_refused(2, 3, 4), run)


def counted_in(path: pathlib.Path, folder: pathlib.Path,
               configuration: pathlib.Path) -> bytes | None:
    """What `report` is to say of a store, by the rows that sqlite3 reads in it; None where it reads
    none."""
    try:
        with opened(path, folder) as store:
            pairs = store.execute("SELECT inst, kind FROM kept").fetchall()
    except sqlite3.Error:
        return None
    return report_of(configuration, [(name.decode(), kind) for name, kind in pairs])


def flipped(tally: Tally, folder: pathlib.Path) -> None:
    configuration, made = CONFIGURATIONS / "hospitals.toml", folder / "flipped.db"
    capture = dict((name, capture) for name, _, capture in all_scenes())["two_hospitals"]
    if not tally.check("a store to begin from",
                       has_stopped(["replay", *options(configuration), "--new", made], capture)):
        return
    octets_of = {one: one.read_bytes() for one in (made, pathlib.Path(f"{made}-wal"))
                 if one.exists() and one.stat().st_size}
    chance, taken, refusals = random.Random(SEED), 0, 0
    for turn in range(FLIPS):
        beside = chance.choice(list(octets_of))
        at, bit = chance.randrange(len(octets_of[beside])), 1 << chance.randrange(8)
        target = folder / f"flip_{turn}"
        target.mkdir()
        for one, octets in octets_of.items():
            octets = bytearray(octets)
            if one == beside:
                octets[at] ^= bit
            (target / one.name).write_bytes(octets)
        by_hand = counted_in(target / made.name, folder, configuration)
        run = Run(["report", *options(configuration), "--store", target / made.name])
        refusals += run.is_refused(2, 3, 4)
        taken += run.is_done()
        tally.check(f"octet {at} of {beside.name} changed by {bit}",
                    run.is_refused(2, 3, 4) or run.is_done() and run.out == by_hand, run, by_hand)
        shutil.rmtree(target)
    tally.check("stores with a changed octet that are taken, and that are refused",
                min(taken, refusals) >= FLIPS // 50,
                taken, refusals)
