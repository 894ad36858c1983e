"""The console's copies of a store."""
import itertools
import pathlib
import shutil
import signal
import tempfile
import time
from typing import Any

from ..client import Caller, Serving, until
from ..measured import Moments
from ..model.stores import Row
from ..paths import configured
from ..refusing import made_library
from ..scenes import composed, message
from ..tally import Tally
from .common import (ENTRY, PROGRAM, SEED, STEP, Load, Orders, associated, counts_of, is_alive,
                     rows_in, run, serves, store_of, told_to)


def backup(tally: Tally, folder: pathlib.Path) -> None:
    source, copy = folder / "rows.db", folder / "a copy.db"
    with Serving(PROGRAM, *configured("large"), "--new", source, has_console=True) as server:
        desk, client = server.console(), associated(server)
        for at in range(60):
            client.send(store_of(f"1.2.7.{at // 6}.1.{at}", f"1.2.7.{at // 6}", PatientID=f"P{at}",
                                 StudyDate=20240705))
            client.status()
        client.send(message(f"create 1 9 1 1.2.9.1 {STEP}"))
        tally.check("a step", client.status() == 0)
        for at in range(9):
            desk.ask(composed(f"schedule DEMO {ENTRY.format(f'E{at}')}")[0])
        tally.check("backup: done", desk.ask(f"backup {copy}") == "done")
        refused_backups(tally, desk, folder, source, copy)
        tally.check("backup: it goes on", is_alive(client) and server.is_running()
                    and not server.errors(), server.errors())
        server.end(signal.SIGKILL)
    wanted = rows_in(source, folder, "-wal")
    tally.check("backup: rows of each kind", counts_of(wanted) == [10, 10, 60, 9, 1],
                counts_of(wanted))
    check_copy(tally, "the copy", copy, folder, wanted)
    backup_of_memory(tally, folder)
    backups_under_load(tally, folder)
    backups_torn(tally, folder, copy, wanted)
    backups_killed(tally, folder)


def check_copy(tally: Tally, name: str, copy: pathlib.Path, folder: pathlib.Path,
               wanted: list[Row]) -> None:
    """The database file alone has these rows, and the program takes it."""
    found = rows_in(copy, folder)
    tally.check(f"{name}: its rows", found == wanted, found and len(found), len(wanted))
    status, out, told = run("report", *configured("large"), "--store", copy)
    tally.check(f"{name}: taken", (status, told) == (0, b"") and list(map(int, out.split()[2::2]))
                == counts_of(wanted), status, out,
                told)


def refused_backups(tally: Tally, desk: Caller, folder: pathlib.Path, source: pathlib.Path,
                    copy: pathlib.Path) -> None:
    """Copies that are not made, and change nothing."""
    (folder / "linked.db").symlink_to(source)
    (folder / "to nothing.db").symlink_to(folder / "nothing.db")
    (folder / "logged.db-wal").write_bytes(b"")
    (folder / "empty.db").write_bytes(b"")
    before = {path: path.read_bytes() for path in folder.iterdir() if path.is_file()}
    taken, failed = "refused taken", "refused failed"
    for name, path, answer in (
            ("the same again", copy, taken), ("the store itself", source, taken),
            ("its log", f"{source}-wal", taken),
            ("a link to it", folder / "linked.db", taken),
            ("a link to nothing", folder / "to nothing.db", taken),
            ("an empty file", folder / "empty.db", taken), ("a folder", folder, taken),
            ("a log without its store", folder / "logged.db", taken),
            ("no folder", folder / "absent" / "x.db", failed),
            ("in a file", source / "x.db", failed), ("no path", "", failed)):
        told = desk.ask(f"backup {path}")
        tally.check(f"backup to {name}", told == answer, told)
    after = {path: path.read_bytes() for path in folder.iterdir() if path.is_file()}
    tally.check("backups that are refused change nothing", before == after,
                set(after) ^ set(before))


def backup_of_memory(tally: Tally, folder: pathlib.Path) -> None:
    with Serving(PROGRAM, *configured("large"), has_console=True) as server:
        told = server.console().ask(f"backup {folder / 'of memory.db'}")
        tally.check("a backup of rows in memory", told == "refused no store" and serves(server),
                    told)
        with server.console() as desk:
            last = told_to(desk, b"backup\n")
            tally.check("a backup to nowhere", last == b"bad line\n", last)
    tally.check("no file of rows in memory", not (folder / "of memory.db").exists())


def backups_under_load(tally: Tally, folder: pathlib.Path, count: int = 3) -> None:
    source, copies = folder / "load.db", []
    with Serving(PROGRAM, *configured("large"), "--new", source, has_console=True) as server:
        loads, orders = [Load(server, str(at + 1)) for at in range(4)], Orders(server, "")
        for one in (*loads, orders):
            one.start()
        for at in range(count):
            until(lambda: sum(len(one.answered) for one in loads) >= 20 * (at + 1)
                  and orders.answered)
            before = [len(one.answered) for one in loads]
            told = server.console().ask(f"backup {folder / f'load_{at}.db'}")
            copies.append((before, [len(one.sent) for one in loads], told))
        server.end(signal.SIGKILL)
        for one in (*loads, orders):
            one.join()
    for at, (before, after, told) in enumerate(copies):
        name, path = f"backup {at} under load", folder / f"load_{at}.db"
        if not tally.check(f"{name}: done", told == "done", told):
            continue
        rows = rows_in(path, folder) or []
        check_copy(tally, name, path, folder, rows)
        for one, least, most in zip(loads, before, after):
            kept = {bytes(row[2]) for row in rows if row[0] == 3
                    and bytes(row[2]).startswith(f"1.2.{one.name}.".encode())}
            tally.check(f"{name}: the first instances of client {one.name}",
                        kept == set(one.sent[:len(kept)]) and least <= len(kept) <= most, least,
                        len(kept), most)
    kept = {bytes(row[2]) for row in rows_in(source, folder, "-wal") or [] if row[0] == 3}
    tally.check("backups under load: all that was answered is there",
                {image for one in loads for image in one.answered} <= kept)


def served_over(source: pathlib.Path, folder: pathlib.Path,
                **environment: Any) -> tuple[pathlib.Path, Serving]:
    """A service over a copy of a store."""
    path = pathlib.Path(tempfile.mkdtemp(dir=folder)) / "rows.db"
    shutil.copy(source, path)
    return path, Serving(PROGRAM, *configured("large"), "--store", path, has_console=True,
                         environment=environment)


def check_left(tally: Tally, name: str, copy: pathlib.Path, told: Any, folder: pathlib.Path,
               wanted: list[Row]) -> Any:
    """A copy has nothing, or all; all where it was answered `done`. Whether it has nothing."""
    is_nothing = not copy.exists() or run("report", *configured("large"), "--store",
                                          copy)[::2] == (4, b"store 2\n")
    if is_nothing:
        tally.check(f"{name}: nothing is there", told != "done", told)
    else:
        check_copy(tally, name, copy, folder, wanted)
    return is_nothing


def backups_torn(tally: Tally, folder: pathlib.Path, source: pathlib.Path,
                 wanted: list[Row]) -> None:
    """Each call on the files of the copy refused in turn: it is told, the copy has nothing or all,
    and the service goes on."""
    library, refusals = made_library(folder), 0
    for call, end in itertools.product(("write", "truncate", "sync"), ("/torn.db", "/torn.db-wal")):
        for number in itertools.count(1):
            path, server = served_over(source, folder, LD_PRELOAD=library, REFUSE_CALL=call,
                                       REFUSE_NUMBER=number, REFUSE_PATH=end,
                                       REFUSE_MARK=folder / "refused")
            name, copy = f"backup with {call} {number} of {end} refused", path.parent / "torn.db"
            with server:
                told = server.console().ask(f"backup {copy}")
                next_one = server.console().ask(f"backup {path.parent / 'next.db'}")
                tally.check(f"{name}: it goes on", serves(server) and next_one == "done", next_one)
                server.end(signal.SIGKILL)
            is_refused = (folder / "refused").exists()
            (folder / "refused").unlink(missing_ok=True)
            right = {"done"} if not is_refused else {"done", "refused failed" if call == "sync"
                                                     else "refused full"}
            tally.check(name, told in right, told)
            check_left(tally, name, copy, told, folder, wanted)
            check_copy(tally, f"{name}: the next one", path.parent / "next.db", folder, wanted)
            if not is_refused:
                break
            refusals += told != "done"
    tally.check("backups that the disk refused", refusals >= 6, refusals)


def backups_killed(tally: Tally, folder: pathlib.Path, count: int = 20) -> None:
    source, nothings = folder / "many.db", 0
    lines = composed(*[f"schedule DEMO {ENTRY.format(f'E{at}')}" for at in range(3000)])
    status, _, errors = run("replay", *configured("large"), "--new", source,
                            capture="".join(f"{line}\n" for line in lines).encode())
    tally.check("a store to copy", status == 0, errors)
    wanted, moments = rows_in(source, folder, "-wal"), Moments(SEED, 0)
    for turn in range(count + 1):
        path, server = served_over(source, folder)
        copy, told = path.parent / "killed.db", ""
        with server:
            desk, begun = server.console(), time.monotonic()
            desk.send(f"backup {copy}\n".encode())
            if turn == 0:
                told, moments.longest = desk.line(), time.monotonic() - begun
            else:
                moments.wait(desk.speaks)
            server.end(signal.SIGKILL)
            told = told or desk.line()
        nothings += check_left(tally, f"a backup that SIGKILL ends, {turn}", copy, told,
                               folder, wanted)
        tally.check(f"the store of a backup that SIGKILL ends, {turn}",
                    rows_in(path, folder, "-wal") == wanted)
    tally.check("backups that were ended before their end", count // 4 <= nothings <= count,
                nothings)
