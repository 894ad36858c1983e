"""Runs that are ended, or that the disk refuses calls; stores that are closed, and large ones."""
import contextlib
import os
import pathlib
import shutil
import signal
import sqlite3
import subprocess
import tempfile
import time
from collections.abc import Collection

from ..client import Serving
from ..measured import Moments, measured
from ..model import replies, stores
from ..model.stores import Row
from ..paths import CONFIGURATIONS
from ..refusing import made_library
from ..tally import Tally
from .common import (CT, KILLS, PROGRAM, SEED, STEP, WANTED, Model, Run, check_closed, composed,
                     copied, entry, has_stopped, many_rows, options, report_of, rows_alone, rows_in,
                     studies_of_images)
from .copies import duplicate, is_duplicated
from .migrations import is_migrated, migrate, old_store


def long_capture(count: int = 400) -> bytes:
    """Studies of a few images, entries that come and go, and steps that are changed and completed,
    at two hospitals."""
    lines = ["open 1", "open 2"]
    lines += [f"associate {number} ARCHIVE CT{number} 1=CT:explicit 3=mpps:explicit"
              for number in (1, 2)]
    for at in range(count):
        number, study = at % 2 + 1, f"1.2.{at // 6}"
        name = ("NORTH", "SOUTH")[number - 1]
        series, image = f"{study}.{at % 3}", f"{study}.{at % 3}.{at}"
        lines.append(f"store {number} 1 {at} CT {image} SOPClassUID={CT} SOPInstanceUID={image} "
                     f"StudyInstanceUID={study} "
                     f"SeriesInstanceUID={series} PatientID=P{at // 6} "
                     f"StudyDate=202407{at // 6 % 28 + 1:02d}")
        if at % 5 == 0:
            lines.append(entry(name, f"S{at}"))
            lines.append(f"create {number} 3 {at} 1.2.50.{at} {STEP}")
        if at % 5 == 2:
            lines.append(f"set {number} 3 {at} 1.2.50.{at - 2} "
                         "PerformedProcedureStepDescription=KNEE")
            lines.append(f"set {3 - number} 3 {at} 1.2.50.{at - 1} "
                         "PerformedProcedureStepDescription=KNEE")
        if at % 5 == 4:
            lines.append(f"set {number} 3 {at} 1.2.50.{at - 4} "
                         "PerformedProcedureStepStatus=COMPLETED")
            lines.append(f"withdraw {name} S{at - 4}")
    return composed(lines + ["release 1", "release 2"])


class Prefixes:
    """What the first operations of a capture make of no rows."""

    def __init__(self, capture: bytes) -> None:
        model = Model(CONFIGURATIONS / "long_run.toml")
        self.seen, self.last = {}, None
        events = replies.read_capture(capture)
        for at, rows in enumerate(stores.histories(model.institutions, events, model.server.reply)):
            self.last = self.digest(rows.values())
            self.seen.setdefault(self.last, at)

    @staticmethod
    def digest(rows: Collection[Row]) -> tuple[int, int]:
        return sum(hash(row) for row in rows) % 2 ** 64, len(rows)

    def after(self, rows: list[Row]) -> int | None:
        """After which event the rows are these; None where they never are."""
        return self.seen.get(self.digest(rows))


def left(tally: Tally, name: str, path: pathlib.Path, folder: pathlib.Path, prefixes: Prefixes,
         configuration: pathlib.Path) -> int | None:
    """After which event the rows are those that are left; what the program counts is what sqlite3
    counts."""
    try:
        rows = rows_in(path, folder)
    except sqlite3.Error:
        rows = None
    copy = copied(path, folder)
    run = Run(["report", *options(configuration), "--store", copy])
    if rows is None:
        tally.check(f"{name}: left before the tables", run.is_refused(2), run)
        return 0
    at = prefixes.after(rows)
    tally.check(f"{name}: some first operations", at is not None, f"{len(rows)} rows")
    wanted = report_of(configuration, [(row[1].decode(), row[0]) for row in rows])
    tally.check(f"{name}: adopted", run.is_done() and run.out == wanted, run)
    return at


def killed(tally: Tally, folder: pathlib.Path) -> None:
    configuration, capture = CONFIGURATIONS / "long_run.toml", long_capture()
    prefixes = Prefixes(capture)
    words = [PROGRAM, "replay", *options(configuration), "--new"]
    begun = time.monotonic()
    run = Run([*words[1:], folder / "whole.db"], capture)
    moments = Moments(SEED, time.monotonic() - begun)
    tally.check("a run without a stop",
                run.is_done() and prefixes.digest(rows_in(folder / "whole.db", folder))
                == prefixes.last, run)
    last, places = prefixes.seen[prefixes.last], []
    # a slow machine ends more runs before the first operation or after the last: then some more
    for turn in range(4 * KILLS):
        inside = {at for at in places if at and at < last}
        if turn >= KILLS and len(inside) >= KILLS // 3:
            break
        path = folder / f"killed_{turn}.db"
        child = subprocess.Popen([*words, str(path)], stdin=subprocess.PIPE,
                                 stdout=subprocess.DEVNULL, stderr=subprocess.DEVNULL)
        child.stdin.write(capture)
        child.stdin.close()
        moments.wait_for(child)
        child.send_signal(signal.SIGKILL)
        child.wait()
        if not path.exists():
            continue
        places.append(left(tally, f"killed {turn}", path, folder, prefixes, configuration))
        with contextlib.suppress(sqlite3.Error):
            rows_in(path, folder)
            run = Run(["replay", *options(configuration), "--store", path], capture)
            tally.check(f"killed {turn}: played again", run.is_done()
                        and prefixes.digest(rows_in(path, folder)) == prefixes.last, run)
    inside = {at for at in places if at and at < last}
    tally.check("runs that were ended between two operations", len(inside) >= KILLS // 3,
                sorted(inside))


def torn(tally: Tally, folder: pathlib.Path) -> None:
    library = made_library(folder)
    configuration, capture = CONFIGURATIONS / "long_run.toml", long_capture(6)
    prefixes, expected = Prefixes(capture), Model(CONFIGURATIONS / "long_run.toml").play(capture)
    refusals, unclosed = 0, []
    for call in WANTED or ("write", "truncate", "sync"):
        for suffix in (".db", ".db-wal"):
            for later in ("", "+"):
                refusals += torn_calls(tally, folder, library, (call, suffix, later), configuration,
                                       capture, prefixes, expected,
                                       unclosed)
    tally.check("calls that were refused", refusals >= (4 if WANTED else 40), refusals)
    tally.check("calls of the end that were refused", unclosed, unclosed)


def torn_calls(tally: Tally, folder: pathlib.Path, library: pathlib.Path,
               which: tuple[str, str, str], configuration: pathlib.Path, capture: bytes,
               prefixes: Prefixes, expected: bytes, unclosed: list[str]) -> int:
    """Refuses each such call in turn, until a run needs no more of them; how many were refused.
    `unclosed` gets the last ones."""
    call, suffix, later = which
    for number in range(1, 1000):
        place = pathlib.Path(tempfile.mkdtemp(dir=folder))
        path, mark = place / "torn.db", place / "refused"
        name = f"{call} {number}{later} of torn{suffix}"
        run = Run(["replay", *options(configuration), "--new", path], capture,
                  LD_PRELOAD=str(library), REFUSE_CALL=call,
                  REFUSE_NUMBER=f"{number}{later}", REFUSE_PATH=f"/torn{suffix}",
                  REFUSE_MARK=str(mark))
        if not mark.exists():
            tally.check(f"{name}, which is not made", run.is_done() and run.out == expected, run)
            return number - 1
        is_stopped = run.status == 4 and run.told in (b"fault 2\n",
                                                      b"store 2\n") and expected.startswith(run.out)
        unclosed += [name] if run.is_unclosed(expected) else []
        is_whole = run.out == expected and (run.is_done() or run.is_unclosed(expected))
        tally.check(f"{name}: replies", is_stopped and (not run.out or run.out.endswith(b"\n"))
                    or is_whole, run)
        at = left(tally, name, path, folder, prefixes, configuration)
        # what was answered is there, and no more than the operation in hand
        answered = run.out.count(b"\n")
        tally.check(f"{name}: what was answered", run.told == b"store 2\n" or at is not None
                    and is_kept(prefixes, capture, at, answered),
                    f"after {at}, {answered} answered")
        shutil.rmtree(place)
    tally.check(f"{call} of {suffix}: the run did not go through", False)
    return 0


# Plays a capture over a new store on a file system of a size, and takes the store out of it.
IN_LITTLE_ROOM = """
mount -t tmpfs -o "size=$1" none "$2/small" || exit 99
"$3" replay --config "$4" --new "$2/small/full.db"
status=$?
cp "$2/small"/* "$2"
exit $status
"""


def full(tally: Tally, folder: pathlib.Path) -> None:
    """A disk with no room left, where one can be mounted."""
    configuration, capture = CONFIGURATIONS / "long_run.toml", long_capture()
    prefixes, expected = Prefixes(capture), Model(configuration).play(capture)
    most = 0
    for size in ("32k", "128k", "512k", "1m"):
        place = pathlib.Path(tempfile.mkdtemp(dir=folder))
        (place / "small").mkdir()
        run = Run(["-m", "sh", "-c", IN_LITTLE_ROOM, "sh", size, place, PROGRAM, configuration],
                  capture, program="unshare")
        if run.status == 99 or run.told.startswith(b"unshare:"):
            print(f"skipped: no disk can be mounted here: {run}")
            return
        answered = run.out.count(b"\n")
        most = max(most, answered)
        tally.check(f"a disk of {size}: replies",
                    run.status == 4 and run.told in (b"fault 2\n", b"store 2\n")
                    and expected.startswith(run.out) and answered < expected.count(b"\n"), run)
        at = left(tally, f"a disk of {size}", place / "full.db", folder, prefixes, configuration)
        tally.check(f"a disk of {size}: what was answered", run.told == b"store 2\n"
                    or at is not None and is_kept(prefixes, capture, at, answered),
                    f"after {at}, {answered} answered")
    tally.check("a disk that is full after some operations", most > 10, most)


def is_kept(prefixes: Prefixes, capture: bytes, at: int, answered: int) -> bool:
    """The rows after event `at` are those after the answered events, or after the one in hand
    too."""
    model, states = Model(CONFIGURATIONS / "long_run.toml"), []
    for rows in stores.histories(model.institutions, replies.read_capture(capture),
                                 model.server.reply):
        states.append(prefixes.digest(rows.values()))
    return states[at] in states[answered:answered + 2]


def closed(tally: Tally, folder: pathlib.Path) -> None:
    configuration, capture = CONFIGURATIONS / "long_run.toml", long_capture(60)
    for word in ("replay", "report"):
        path, model = folder / f"{word}.db", Model(configuration)
        model.play(capture)
        run = Run([word, *options(configuration), "--new", path], capture)
        tally.check(f"{word} --new", run.is_done(), run)
        check_closed(tally, f"{word} --new", path, folder, model.rows())
        more = composed([entry("NORTH", f"T{at}") for at in range(20)])
        model.play(more)
        run = Run([word, *options(configuration), "--store", path], more)
        tally.check(f"{word} --store", run.is_done(), run)
        check_closed(tally, f"{word} --store", path, folder, model.rows())
    old, new = old_store(folder / "old.db", many_rows(200)), folder / "migrated.db"
    wanted = sorted(stores.migrated(stores.adopt(str(copied(old, folder)), stores.OLD_VERSION)[1]))
    tally.check("a migration", is_migrated(migrate(old, new)))
    check_closed(tally, "migrate", new, folder, wanted)
    tally.check("a copy", is_duplicated(duplicate(new, folder / "copied.db"), len(wanted)))
    check_closed(tally, "copy", folder / "copied.db", folder, wanted)
    path = folder / "served.db"
    for option in ("--new", "--store"):
        closed_service(tally, folder, path, option)
    path, model = folder / "stopped.db", Model(configuration)
    model.play(capture)
    tally.check("a run that stops",
                has_stopped(["replay", *options(configuration), "--new", path], capture))
    tally.check("a run that stops: rows in its log",
                rows_alone(path, folder) != model.rows() == rows_in(path, folder))
    run = Run(["report", *options(configuration), "--store", path])
    tally.check("a run that stops: adopted", run.is_done() and run.out == model.report(), run)
    check_closed(tally, "a report of it", path, folder, model.rows())


def served_capture(part: int) -> bytes:
    """What one client stores, and entries that are ordered; each part has its own."""
    images = [f"store 1 1 {at} CT 1.2.{part}.{at} SOPClassUID={CT} SOPInstanceUID=1.2.{part}.{at} "
              "StudyInstanceUID=1.2.3 "
              f"SeriesInstanceUID=1.2.3.{at}" for at in range(1, 9)]
    return composed(["open 1", "associate 1 ARCHIVE CT1 1=CT:explicit", *images, "release 1",
                     *[entry("NORTH", f"E{part}.{at}") for at in range(9)]])


def closed_service(tally: Tally, folder: pathlib.Path, path: pathlib.Path, option: str) -> None:
    """A service that ends by its turns, after orders of its console and what one client sent."""
    configuration, name = CONFIGURATIONS / "long_run.toml", f"serve --turns {option}"
    is_made = option == "--new"
    model = Model(configuration, () if is_made else stores.adopt(str(copied(path, folder)))[1])
    capture = served_capture(8 if is_made else 9)
    told = model.play(capture).decode().split("\n")
    with Serving(PROGRAM, *options(configuration), "--turns", 4000, option, path,
                 has_console=True) as server:
        client, desk = server.connect(), server.console()
        for line, reply in zip(capture.decode().split("\n")[:-1], told):
            words = line.split(" ")
            if words[0] == "piece":
                answer = bytes.fromhex(reply.split(" ")[1].replace("-", ""))
                tally.check(f"{name}: {line[:20]}",
                            client.exchange(bytes.fromhex(words[2]), len(answer)) == answer)
            elif words[0] != "open":
                tally.check(f"{name}: {line[:20]}", desk.ask(line) == reply, reply)
        client.close()
        desk.close()
        status = server.child.wait(60)
        tally.check(f"{name}: its turns are over", status == 0 and not server.errors(), status,
                    server.errors())
    check_closed(tally, name, path, folder, model.rows())


def held(tally: Tally, folder: pathlib.Path, count: int = 100000) -> None:
    wanted = f"NORTH studies {count // 50} series {count // 50} images {count // 50 * 48} ".encode()
    for name, root in (("long", "1.2.826.0.1.3680043.8.498."), ("short", "1.2.840.999.")):
        path = folder / f"{name}.db"
        with contextlib.closing(stores.empty(str(path))) as store:
            stores.fill(store, studies_of_images(count, root))
        size = path.stat().st_size / 1e6
        cost = measured([PROGRAM, "report", *options(CONFIGURATIONS / "long_run.toml"), "--store",
                         path], os.devnull, folder / "told")
        tally.check(f"many rows of {name} keys are taken",
                    cost.status == 0 and (folder / "told").read_bytes().startswith(wanted), cost)
        print(f"{count} rows of {name} keys in {size:.0f} MB are taken with {cost.megabytes:.0f} "
              f"MB in {cost.seconds:.1f} s")
        tally.check(f"many rows of {name} keys: memory", 0 < cost.megabytes <= 1.3 * size,
                    cost, size)
