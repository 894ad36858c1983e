"""Exports of stores, and what a terminal is told."""
import contextlib
import os
import pathlib
import pty
import signal
import subprocess
import time
from collections.abc import Sequence
from typing import Any

from ..measured import Moments
from ..model import compose, data_sets, json_objects, stores
from ..model.stores import Row
from ..model.version_1 import kept_store
from ..tally import Tally
from .changes import CHANGES, base, changed, files_that_are_none
from .common import (KILLS, PROGRAM, SEED, Model, Run, by_backup, copied, count_of_scenes, entry,
                     many_rows, options, rows_alone, rows_in, scenes, studies_of_images)
from .copies import duplicate, hospitals_store, is_duplicated
from .migrations import old_store, state

KINDS = {"studies": stores.STUDY, "series": stores.SERIES, "images": stores.IMAGE,
         "worklist": stores.ENTRY, "steps": stores.STEP}


def export(path: pathlib.Path | str, name: str, *kinds: str, **others: Any) -> Run:
    words = [word for kind in kinds for word in ("--kind", kind)]
    return Run(["export", "--store", path, "--only", name, *words], b"open x\n", **others)


def lines_of(rows: list[Row], name: str, kinds: Sequence[str] = tuple(KINDS)) -> bytes:
    """What an export of a hospital prints of some rows, by the model: the rows of each kind in the
    order of their keys."""
    chosen = [sorted(row for row in rows if row[:2] == (KINDS[kind], name.encode()))
              for kind in kinds]
    return "".join(json_objects.json_text(row[6], data_sets.EXPLICIT) + "\n" for part in chosen
                   for row in part).encode()


def check_export(tally: Tally, name: str, path: pathlib.Path, folder: pathlib.Path,
                 institution: str) -> int:
    """How many lines the rows of a hospital are, whole and kind by kind."""
    rows, octets = rows_in(path, folder), path.read_bytes()
    run = export(path, institution)
    tally.check(f"{name}: {institution}", run.is_done() and run.out == lines_of(rows, institution),
                run)
    for kind in KINDS:
        part = export(path, institution, kind)
        tally.check(f"{name}: {institution}, {kind}",
                    part.is_done() and part.out == lines_of(rows, institution, (kind,)), part)
    tally.check(f"{name}: the store stays",
                rows_in(path, folder) == rows and path.read_bytes() == octets)
    return run.out.count(b"\n")


def exported(tally: Tally, folder: pathlib.Path) -> None:
    count = lines = 0
    for name, configuration, capture in scenes():
        path, model = folder / f"{name}.db", Model(configuration)
        model.play(capture)
        run = Run(["replay", *options(configuration), "--new", path], capture)
        tally.check(f"{name}: made", run.is_done() and rows_in(path, folder) == model.rows(), run)
        told = sum(check_export(tally, name, path, folder, one.name)
                   for one in model.institutions[:3])
        if len(model.institutions) <= 3:
            tally.check(f"{name}: as many lines as rows", told == len(model.rows()), told,
                        len(model.rows()))
        lines += told
        count += 1
    tally.check("stores that were exported", count == count_of_scenes() and lines > count,
                count, lines)
    path = hospitals_store(tally, folder)
    for institution in ("NORTH", "SOUTH"):
        tally.check(f"{institution} has rows",
                    check_export(tally, "two hospitals", path, folder, institution) > 10)
    for institution in ("EAST", "NORT", "NORTHERN", "north", "NORTH ", ""):
        run = export(path, institution)
        tally.check(f"nothing of {institution!r}", run.is_done() and not run.out, run)
    with contextlib.closing(stores.empty(str(folder / "many.db"))) as store:
        stores.fill(store, sorted(many_rows(1000)))
    tally.check("many rows", check_export(tally, "many rows", folder / "many.db", folder,
                                          "SOUTH") == 1000)
    # a log that a run left beside the file: the export reads it, and the file then has all rows
    # alone
    beside = copied_with_log(folder)
    if tally.check("a store with a log beside it", beside is not None):
        rows = rows_in(beside, folder)
        run = export(beside, "NORTH")
        tally.check("with a log beside it", run.is_done() and run.out == lines_of(rows, "NORTH")
                    and run.out, run)
        tally.check("with a log beside it: the file alone", rows_alone(beside, folder) == rows)


def copied_with_log(folder: pathlib.Path) -> pathlib.Path | None:
    """A store whose log has a row, as a run that is stopped leaves it: None where it has none."""
    path = folder / "killed.db"
    store = stores.connect(str(by_backup(folder / "hospitals.db", path)))
    try:
        store.execute("PRAGMA journal_mode = WAL")
        store.execute("PRAGMA wal_autocheckpoint = 0")
        words = entry("NORTH", "S99").split(" ", 2)[2]
        row = stores.row_of(stores.ENTRY, "NORTH", b"S99", (False, compose.data_set(words.split())))
        store.execute(stores.INSERT, (row[0], row[1].decode(), *row[2:]))
        there = copied(path, folder)
    finally:
        store.close()
    return (there if pathlib.Path(f"{there}-wal").exists()
            and pathlib.Path(f"{there}-wal").stat().st_size else None)


def unexported(tally: Tally, folder: pathlib.Path) -> None:
    source = base(folder)
    if not tally.check("a store to begin from", source is not None):
        return
    for at, (name, (edit, numbers)) in enumerate(CHANGES.items()):
        path = folder / f"changed_{at}.db"
        tally.check(f"made: {name}", changed(source, edit, path))
        before = state(path, folder)
        run = export(path, "NORTH")
        tally.check(f"not exported: {name}", run.is_refused(*numbers), run)
        tally.check(f"unchanged: {name}", state(path, folder) == before)
    run = export(kept_store(folder / "one.db"), "NORTH")
    tally.check("a store of version 1", run.is_refused(3), run)
    for name, none in files_that_are_none(folder).items():
        run = export(none, "NORTH")
        tally.check(f"no export of {name}", run.is_refused(2), run)
    with contextlib.closing(stores.connect(str(source))) as store:
        store.execute("BEGIN EXCLUSIVE")
        run = export(source, "NORTH")
        tally.check("a store in use", run.is_refused(2), run)
    with open("/dev/full", "wb") as full:
        words: list[Any] = ["export", "--store", source, "--only", "NORTH"]
        done = subprocess.run([PROGRAM, *words], stdout=full, stderr=subprocess.PIPE, check=False)
        tally.check("an output that cannot be written", done.returncode == 4 and not done.stderr,
                    done)
        done = subprocess.run([PROGRAM, *words[:-1], "EAST"], stdout=full, stderr=subprocess.PIPE,
                              check=False)
        tally.check("nothing that cannot be written", done.returncode == 0 and not done.stderr,
                    done)
    broken_off(tally, folder)


def broken_off(tally: Tally, folder: pathlib.Path) -> None:
    """An output whose reader goes: the first octets came, and the store stays."""
    path = folder / "many.db"
    with contextlib.closing(stores.empty(str(path))) as store:
        stores.fill(store, sorted(many_rows(1000)))
    rows = rows_in(path, folder)
    child = subprocess.Popen([PROGRAM, "export", "--store", str(path), "--only", "NORTH"],
                             stdout=subprocess.PIPE, stderr=subprocess.PIPE)
    first = child.stdout.read(100)
    child.stdout.close()
    told = child.stderr.read()
    child.stderr.close()
    status = child.wait(60)
    tally.check("an output that breaks", status == 4 and not told, status, told)
    tally.check("an output that breaks: the first octets",
                lines_of(rows, "NORTH").startswith(first) and len(first) == 100, first)
    tally.check("an output that breaks: the store stays", rows_in(path, folder) == rows)


def half_exported(tally: Tally, folder: pathlib.Path) -> None:
    path, printed = folder / "many.db", folder / "printed"
    with contextlib.closing(stores.empty(str(path))) as store:
        stores.fill(store, sorted(many_rows(1000)))
    rows = rows_in(path, folder)
    wanted = lines_of(rows, "NORTH")
    begun = time.monotonic()
    run = export(path, "NORTH")
    tally.check("an export without a stop", run.is_done() and run.out == wanted, run)
    moments, parts = Moments(SEED, time.monotonic() - begun), 0
    for turn in range(KILLS):
        with open(printed, "wb") as output:
            child = subprocess.Popen([PROGRAM, "export", "--store", str(path), "--only", "NORTH"],
                                     stdout=output, stderr=subprocess.DEVNULL)
            moments.wait_for(child)
            child.send_signal(signal.SIGKILL)
            child.wait()
        told = printed.read_bytes()
        tally.check(f"an export, killed {turn}: the first octets", wanted.startswith(told),
                    len(told))
        tally.check(f"an export, killed {turn}: the store stays", rows_in(path, folder) == rows)
        parts += len(told) < len(wanted)
    tally.check("exports that were ended before their end", parts >= KILLS // 3, parts)
    run = export(path, "NORTH")
    tally.check("an export after them", run.is_done() and run.out == wanted, run)


def on_a_terminal(words: Sequence[object]) -> tuple[int, str]:
    """The exit status, and what a terminal is told."""
    here, there = pty.openpty()
    with subprocess.Popen([PROGRAM, *map(str, words)], stdin=subprocess.DEVNULL,
                          stdout=subprocess.DEVNULL, stderr=there) as child:
        os.close(there)
        told = b""
        # (a terminal whose last writer is gone is read with an error)
        with contextlib.suppress(OSError):
            while octets := os.read(here, 65536):
                told += octets
        os.close(here)
        return child.wait(60), told.replace(b"\r\n", b"\n").decode()


def told(tally: Tally, folder: pathlib.Path) -> None:
    large, small, old = folder / "large.db", folder / "small.db", folder / "old.db"
    for path, count in ((large, 30000), (small, 50)):
        with contextlib.closing(stores.empty(str(path))) as store:
            stores.fill(store, studies_of_images(count, "1.2.840.999."))
    old_store(old, sorted(many_rows(30000)))
    reading = {path: f"reading {path}: {path.stat().st_size // 1000000} MB\n"
               for path in (large, old)}
    tally.check("large stores", min(large.stat().st_size, old.stat().st_size) >= 10000000,
                large.stat().st_size, old.stat().st_size)
    copy, new = folder / "copy.db", folder / "new.db"
    for name, words, wanted in (
            ("a copy", ["copy", "--from", large, "--to", copy],
             f"{reading[large]}writing {copy}\n"),
            ("a migration", ["migrate", "--from", old, "--to", new],
             f"{reading[old]}writing {new}\n"),
            ("an export", ["export", "--store", large, "--only", "NORTH", "--kind", "steps"],
             reading[large]),
            ("a report", ["report", "--store", large], reading[large]),
            ("a copy of a small store", ["copy", "--from", small, "--to", folder / "little.db"],
             "")):
        status, text = on_a_terminal(words)
        tally.check(f"{name} on a terminal", status == 0 and text == wanted, status, text, wanted)
    status, text = on_a_terminal(["copy", "--from", large, "--to", copy])
    tally.check("no copy on a terminal",
                status == 4 and text == f"{reading[large]}writing {copy}\nstore 2\n", status, text)
    tally.check("a copy where a file is told",
                is_duplicated(duplicate(large, folder / "again.db"), 30000))
    tally.check("an export where a file is told", export(large, "NORTH", "steps").is_done())
