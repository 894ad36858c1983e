"""Migrations of stores of version 1."""
import contextlib
import pathlib
import shutil
import signal
import sqlite3
import subprocess
import tempfile
import time
from collections.abc import Iterable, Sequence
from typing import Any

from ..measured import Moments
from ..model import stores
from ..model.stores import Row
from ..model.version_1 import kept_store
from ..paths import CONFIGURATIONS, TOP
from ..refusing import made_library
from ..tally import Tally
from .changes import (CHANGES, CHANGES_OF_ONE, base, changed, deleted, files_that_are_none, held_in,
                      script)
from .common import (KILLS, PROGRAM, SEED, WANTED, Model, Run, composed, copied, count_of_scenes,
                     many_rows, opened, options, output_that_fails, rows_in, scenes)
from .written import check_shape


def old_store(path: pathlib.Path, rows: Iterable[Row]) -> pathlib.Path:
    """A store of version 1 with these rows, made by sqlite3."""
    store = stores.empty(str(path))
    stores.fill(store, rows, stores.OLD_VERSION)
    store.close()
    return path


def migrate(old: pathlib.Path | str, new: pathlib.Path | str, **others: Any) -> Run:
    return Run(["migrate", "--from", old, "--to", new], b"open x\n", **others)


def is_migrated(run: Run) -> bool:
    return run.is_done() and run.out == b"migrated\n"


def state(path: pathlib.Path, folder: pathlib.Path) -> Any:
    """What sqlite3 finds in a file: nothing where it is none, or holds no table."""
    try:
        return held_in(path, folder) if path.is_file() else ([], [])
    except (sqlite3.Error, UnicodeDecodeError):
        return path.read_bytes()


# The entries of suite/version_1 that a step names, by hand
BEGUN = {(b"NORTH", f"S{number}".encode()) for number in (1, 3, 4, 5, 6, 7)}


def check_migration(tally: Tally, name: str, old: pathlib.Path, new: pathlib.Path,
                    folder: pathlib.Path, rows: list[Row] | None = None) -> bool:
    """Migrates a store; the rows are those of the model, and of `rows` where they are given. They
    are as they were, but for what is started."""
    has_log = pathlib.Path(f"{old}-wal").exists()
    before, octets = state(old, folder), old.read_bytes()
    found = stores.adopt(str(copied(old, folder)), stores.OLD_VERSION)[1]
    wanted = sorted(stores.migrated(found) if rows is None else rows)
    for word in ("replay", "report"):
        run = Run([word, "--store", old])
        tally.check(f"{name}: {word} over the old store", run.is_refused(3), run)
    run = migrate(old, new)
    tally.check(f"{name}: the old store stays",
                state(old, folder) == before and (has_log or old.read_bytes() == octets))
    if tally.check(f"{name}: migrated", is_migrated(run), run):
        check_shape(tally, name, new, folder, wanted)
        tally.check(f"{name}: what is kept",
                    [stores.as_of_old(row) for row in rows_in(new, folder)]
                    == sorted(row[:7] for row, _ in found))
        again = migrate(new, folder / "again.db")
        tally.check(f"{name}: migrated again", again.is_refused(3), again)
        return True
    return False


def migrated(tally: Tally, folder: pathlib.Path) -> None:
    configuration = CONFIGURATIONS / "hospitals.toml"
    made, place = (TOP / "suite/version_1/rows.capture").read_bytes(), TOP / "suite/version_1"
    old, new = kept_store(folder / "kept.db"), folder / "new.db"
    model = Model(configuration)
    model.play(made)
    rows = [(*row[:7], int(row[0] == 4 and row[1:3] in BEGUN)) for row in model.rows()]
    try:
        found = stores.adopt(str(copied(old, folder)), stores.OLD_VERSION)[1]
    except stores.Refused as refused:
        tally.check("suite/version_1 is a store", False, refused)
        return
    tally.check("suite/version_1 has the rows of its capture",
                [row[:7] for row, _ in found] == sorted(map(stores.as_of_old, rows)))
    if check_migration(tally, "suite/version_1", old, new, folder, rows):
        counted = Run(["report", *options(configuration), "--store", new])
        tally.check("suite/version_1: report", counted.is_done()
                    and counted.out == (place / "later.report").read_bytes(), counted)
        later, expected = composed((place / "later.scene").read_text().split("\n")), (
            place / "later.expected").read_bytes()
        store, found = stores.adopt(str(copied(new, folder)))
        store.close()
        tally.check("suite/version_1: later, by the model",
                    Model(configuration, found).play(later) == expected)
        run = Run(["replay", *options(configuration), "--store", new], later)
        tally.check("suite/version_1: later", run.is_done() and run.out == expected, run)
    check_migration(tally, "no rows", old_store(folder / "none.db", []), folder / "none_new.db",
                    folder, [])
    source = kept_store(folder / "logged.db")
    with contextlib.closing(stores.connect(str(source))) as store:
        store.execute("DELETE FROM kept WHERE kind = 5 AND id = CAST('1.2.50' AS BLOB)")
        logged = copied(source, folder)
    tally.check("a log beside the old store", pathlib.Path(f"{logged}-wal").stat().st_size > 4096)
    others = [row for row in rows if row[2] != b"1.2.50"]
    others = [(*row[:7], row[7] if row[2] != b"S1" else 0) for row in others]
    check_migration(tally, "a store with a log", logged, folder / "logged_new.db", folder, others)
    (folder / "empty.db").write_bytes(b"")
    check_migration(tally, "to an empty file", kept_store(folder / "kept_2.db"),
                    folder / "empty.db", folder, rows)
    check_migration(tally, "ten thousand rows", old_store(folder / "many.db", many_rows()),
                    folder / "many_new.db", folder)
    count = 0
    for name, configuration, capture in scenes():
        model = Model(configuration)
        model.play(capture)
        path = old_store(folder / f"{name}.db", model.rows())
        count += check_migration(tally, name, path, folder / f"{name}_new.db", folder)
    tally.check("stores of scenes that were migrated", count == count_of_scenes(), count,
                count_of_scenes())
    output_that_fails(tally, folder)


def check_refusal(tally: Tally, name: str, numbers: Sequence[int], old: Any, new: Any,
                  folder: pathlib.Path, **others: Any) -> None:
    """A migration that is refused, and changes nothing."""
    before = state(old, folder), state(new, folder)
    run = migrate(old, new, **others)
    tally.check(f"no migration: {name}", run.is_refused(*numbers), run)
    tally.check(f"unchanged: {name}", (state(old, folder), state(new, folder)) == before)


def unmigrated(tally: Tally, folder: pathlib.Path) -> None:
    path = base(folder)
    if not tally.check("a store to begin from", path is not None):
        return
    found = stores.adopt(str(copied(path, folder)))[1]
    source = old_store(folder / "old.db", [row for row, _ in found])
    for at, (name, (edit, numbers)) in enumerate((CHANGES | CHANGES_OF_ONE).items()):
        old, new = folder / f"changed_{at}.db", folder / f"of_changed_{at}.db"
        tally.check(f"made: {name}", changed(source, edit, old))
        try:
            stores.adopt(str(copied(old, folder)), stores.OLD_VERSION)
            tally.check(f"by the model: {name}", numbers != [4] and numbers != [3])
        except stores.Refused as fault:
            tally.check(f"by the model: {name}", fault.args[0] in numbers, fault.args[0])
        check_refusal(tally, name, numbers, old, new, folder)
    check_refusal(tally, "version 2", [3], path, folder / "of_two.db", folder)
    for at, (name, none) in enumerate(files_that_are_none(folder).items()):
        if name not in ("an empty path", "a device"):
            check_refusal(tally, name, [2], none, folder / f"of_{at}.db", folder)
        run = migrate(none, folder / f"of_{at}_again.db")
        tally.check(f"no migration: {name}, again", run.is_refused(2), run)
    not_to_there(tally, folder, source, path)
    tally.check("the store of version 1 is as it was",
                is_migrated(migrate(source, folder / "last.db")))


def not_to_there(tally: Tally, folder: pathlib.Path, source: pathlib.Path,
                 of_two: pathlib.Path) -> None:
    """Onto itself, by whatever name, onto stores, and to where none can be made; and stores that
    are in use."""
    (folder / "link.db").symlink_to(source)
    for name, new in {"itself": source, "a link to itself": folder / "link.db",
                      "itself by another path": folder / ".." / folder.name / source.name}.items():
        check_refusal(tally, f"onto {name}", [2], source, new, folder)
    shutil.copy(source, folder / "twice.db")
    (folder / "hard.db").hardlink_to(folder / "twice.db")
    check_refusal(tally, "onto itself by a second name", [2], folder / "twice.db",
                  folder / "hard.db", folder)
    (folder / "hard.db").unlink()
    bad = folder / "bad.db"
    changed(source, deleted(1), bad)
    for table in ("kept", "version"):
        new = folder / f"only_{table}.db"
        changed(of_two, script(f"DROP TABLE {'version' if table == 'kept' else 'kept'}"), new)
        check_refusal(tally, f"onto a store with a table {table}", [2], source, new, folder)
    for name, new in {"a store of version 2": of_two,
                      "a store of version 1": kept_store(folder / "other.db")}.items():
        check_refusal(tally, f"onto {name}", [2], source, new, folder)
        check_refusal(tally, f"of bad rows onto {name}", [2], bad, new, folder)
    fresh = folder / "new"
    fresh.mkdir()
    for name, new in files_that_are_none(fresh).items():
        if name not in ("absent", "empty", "an octet"):
            run = migrate(source, new)
            tally.check(f"no migration to: {name}", run.is_refused(2), run)
    for in_use in (source, folder / "free.db"):
        with contextlib.closing(stores.connect(str(in_use))) as store:
            store.execute("BEGIN EXCLUSIVE")
            run = migrate(source, folder / "free.db")
            tally.check(f"{in_use.name} is in use", run.is_refused(2), run)
    words_that_are_usage(tally, folder, source)


def words_that_are_usage(tally: Tally, folder: pathlib.Path, source: pathlib.Path) -> None:
    new = folder / "usage.db"
    words: Any
    for words in (["--from", source], ["--to", new], [],
                  ["--from", source, "--to", new, "--config", "a"], [source, new],
                  ["--from", source, "--to", new, "--new", "a"],
                  ["--from", source, "--from", source, "--to", new],
                  ["--from", source, "--to", new, "absent"], ["--from", source, "--to"],
                  ["--to", new, "--to", new, "--from", source]):
        run = Run(["migrate", *words], b"open 1\n")
        tally.check(f"the words {words}",
                    run.status == 1 and not run.out and run.told and not new.exists(), run)
    for words in (["replay", "--from", source], ["--from", source, "--to", new]):
        run = Run(words, b"open 1\n")
        tally.check(f"the words {words}",
                    run.status == 1 and not run.out and run.told and not new.exists(), run)
    run = Run(["migrate", f"--from={source}", f"--to={new}"])
    tally.check("--from= and --to=", is_migrated(run), run)


def check_left(tally: Tally, name: str, old: pathlib.Path, new: pathlib.Path, folder: pathlib.Path,
               rows: list[Row]) -> bool:
    """The old store stays. The new one has nothing, and then a second migration makes it, or all.
    Whether it had nothing."""
    tally.check(f"{name}: the old store stays",
                rows_of_old(old, folder) == list(map(stores.as_of_old, rows)))
    copy = copied(new, folder) if new.exists() else new
    again, is_nothing = migrate(old, copy), False
    if again.is_refused(2):
        run = Run(["report", "--store", copy])
        tally.check(f"{name}: left whole", run.is_done() and rows_in(copy, folder) == rows, run)
    else:
        is_nothing = True
        tally.check(f"{name}: migrated again", is_migrated(again) and rows_in(copy, folder) == rows,
                    again)
    return is_nothing


def rows_of_old(path: pathlib.Path, folder: pathlib.Path) -> list[Row]:
    with opened(path, folder) as store:
        return [row[:7] for row in sorted(store.execute(stores.OLD_SELECT).fetchall())]


def half_migrated(tally: Tally, folder: pathlib.Path) -> None:
    library = made_library(folder)
    rows = sorted(stores.migrated(stores.adopt(str(copied(kept_store(folder / "kept.db"), folder)),
                                               stores.OLD_VERSION)[1]))
    refusals = 0
    for call in WANTED or ("write", "truncate", "sync"):
        for suffix in (".db", ".db-wal"):
            for later in ("", "+"):
                refusals += migrations_torn(tally, folder, library, (call, f"/new{suffix}", later),
                                            rows)
    for suffix in (".db", ".db-wal"):
        refusals += migrations_torn(tally, folder, library, ("read", f"/kept{suffix}", ""), rows)
    tally.check("calls that were refused", refusals >= 12, refusals)
    if not WANTED:
        migrations_killed(tally, folder)


def migrations_torn(tally: Tally, folder: pathlib.Path, library: pathlib.Path,
                    which: tuple[str, str, str], rows: list[Row]) -> int:
    """Refuses each such call in turn, until a migration needs no more of them; how many were
    refused."""
    call, ending, later = which
    for number in range(1, 1000):
        place = pathlib.Path(tempfile.mkdtemp(dir=folder))
        old, new, mark = kept_store(place / "kept.db"), place / "new.db", place / "refused"
        name = f"{call} {number}{later} of {ending}"
        run = migrate(old, new, LD_PRELOAD=str(library), REFUSE_CALL=call,
                      REFUSE_NUMBER=f"{number}{later}", REFUSE_PATH=ending,
                      REFUSE_MARK=str(mark))
        if not mark.exists():
            tally.check(f"{name}, which is not made", is_migrated(run), run)
            return number - 1
        is_told = is_migrated(run) or run.is_unclosed(b"migrated\n")
        tally.check(f"{name}: told", run.is_refused(2) or is_told, run)
        is_nothing = check_left(tally, name, old, new, folder, rows)
        tally.check(f"{name}: told and left", not (is_nothing and is_told), run)
        shutil.rmtree(place)
    tally.check(f"{call} of {ending}: the run did not go through", False)
    return 0


def migrations_killed(tally: Tally, folder: pathlib.Path) -> None:
    rows = sorted(many_rows(1000))
    old = old_store(folder / "many.db", rows)
    wanted = sorted(stores.migrated(stores.adopt(str(copied(old, folder)), stores.OLD_VERSION)[1]))
    begun = time.monotonic()
    tally.check("a migration without a stop", is_migrated(migrate(old, folder / "whole.db")))
    moments, nothings = Moments(SEED, time.monotonic() - begun), 0
    for turn in range(KILLS):
        new = folder / f"killed_{turn}.db"
        child = subprocess.Popen([PROGRAM, "migrate", "--from", str(old), "--to", str(new)],
                                 stdout=subprocess.DEVNULL,
                                 stderr=subprocess.DEVNULL)
        moments.wait_for(child)
        child.send_signal(signal.SIGKILL)
        child.wait()
        nothings += check_left(tally, f"killed {turn}", old, new, folder, wanted)
    tally.check("migrations that were ended before their end", nothings >= KILLS // 3, nothings)
