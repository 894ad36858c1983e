"""Servers that are stopped, and what is sent again."""
import contextlib
import pathlib
import random
import shutil
import signal
import sqlite3
import tempfile
import time
from collections.abc import Iterator

from ..client import Serving, until
from ..paths import configured
from ..scenes import ECHO, composed, message
from ..tally import Tally
from .common import (ENTRY, PROGRAM, SEED, STEP, STOPS, WANTED, Load, Orders, Steps, associated,
                     run, store_of)


def images_in(path: pathlib.Path, folder: pathlib.Path) -> tuple[bool, set[bytes]]:
    """The keys of the images in a copy of a store."""
    copy = pathlib.Path(tempfile.mkdtemp(dir=folder))
    for end in ("", "-wal"):
        with contextlib.suppress(FileNotFoundError):
            shutil.copy(f"{path}{end}", copy / f"copy.db{end}")
    with contextlib.closing(sqlite3.connect(copy / "copy.db")) as store:
        sound = store.execute("PRAGMA integrity_check").fetchall() == [("ok",)]
        return sound, {bytes(row[0]) for row in store.execute("SELECT id FROM kept WHERE kind = 3")}


def stops(tally: Tally, folder: pathlib.Path) -> None:
    chance = random.Random(SEED)
    for turn, number in enumerate([signal.SIGTERM,
                                   signal.SIGKILL] * (int(WANTED[0]) if WANTED else STOPS)):
        name, path = f"{signal.Signals(number).name} {turn}", folder / f"stop_{turn}.db"
        with Serving(PROGRAM, *configured("large"), "--new", path, has_console=True) as server:
            loads, others = [Load(server, str(at + 1))
                             for at in range(4)], {"entries": Orders(server, ""),
                                                   "steps": Steps(server, "")}
            for one in [*loads, *others.values()]:
                one.start()
            until(lambda: sum(len(one.answered) for one in loads) >= 10
                  and all(one.answered for one in others.values()))
            time.sleep(chance.random())
            status = server.end(number)
            for one in [*loads, *others.values()]:
                one.join()
        answered, sent = ({image for one in loads for image in getattr(one, what)}
                          for what in ("answered", "sent"))
        tally.check(f"{name}: the exit status", status == -number, status)
        tally.check(f"{name}: under load",
                    len(answered) >= 10 and not any(one.other for one in loads), len(answered))
        sound, kept = images_in(path, folder)
        tally.check(f"{name}: a sound store", sound)
        tally.check(f"{name}: all that was answered is there", answered <= kept,
                    len(answered - kept), "are lost")
        tally.check(f"{name}: nothing is there that was not sent", kept <= sent, len(kept - sent))
        status, out, told = run("report", *configured("large"), "--store", path)
        tally.check(f"{name}: report", status == 0 and f" images {len(kept)} ".encode() in out,
                    status, out, told)
        counts = dict(zip(out.decode().split()[1::2], out.decode().split()[2::2]))
        for what, load in others.items():
            tally.check(f"{name}: {what}, all that were answered and none that was not sent",
                        not load.other and load.answered and
                        len(load.answered) <= int(counts.get(what, -1)) <= len(load.sent), counts,
                        len(load.answered), load.other)
        with Serving(PROGRAM, *configured("large"), "--store", path) as server:
            client = associated(server)
            client.send(message("find 1 5 1 study QueryRetrieveLevel=IMAGE "
                                "StudyInstanceUID=1.2.1.0 "
                                "SeriesInstanceUID=1.2.1.0.1 SOPInstanceUID="))
            wanted = len([image for image in kept if image.startswith(b"1.2.1.0.1.")])
            found = client.statuses()
            tally.check(f"{name}: served again", found == [0xFF00] * wanted + [0], found, wanted)
            client.close()
            is_locked = run("report", *configured("large"), "--store", path)
            tally.check(f"{name}: a store that is in use", is_locked == (4, b"", b"store 2\n"),
                        is_locked)


def repeated() -> Iterator[tuple[str, bytes, int, int]]:
    """Messages, each with its status the first time and when it is sent again after a stop."""
    yield "a C-ECHO", ECHO, 0, 0
    yield "a C-STORE", store_of("1.2.1.1.1", PatientName="DOE^JANE"), 0, 0
    yield "a C-STORE with pixels", store_of("1.2.1.1.2", PixelData="zeros:200"), 0xB006, 0xB006
    yield "an N-CREATE", message(f"create 1 9 1 1.2.9.1 {STEP}"), 0, 0x0111
    yield "an N-SET that goes on", message("set 1 9 1 1.2.9.1 "
                                           "PerformedProcedureStepDescription=HEAD"), 0, 0x0110
    yield "an N-SET that ends it", message("set 1 9 1 1.2.9.1 "
                                           "PerformedProcedureStepStatus=COMPLETED"), 0, 0x0110
    yield "another N-CREATE", message(f"create 1 9 1 1.2.9.2 {STEP}"), 0, 0x0111
    yield "an N-SET of a step that goes on", message("set 1 9 1 1.2.9.2 "
                                                     "PerformedProcedureStepDescription=HEAD"), 0, 0


def repeats(tally: Tally, folder: pathlib.Path) -> None:
    path, plays = folder / "repeats.db", list(repeated())
    orders = [(f"schedule DEMO {ENTRY.format('S1')}", "done", "refused 3"),
              ("withdraw DEMO S2", "done", "refused 5")]
    reports = []
    for turn, words in enumerate((["--new", path], ["--store", path])):
        with Serving(PROGRAM, *configured("large"), *words, has_console=True) as server:
            client, desk = associated(server), server.console()
            if turn == 0:
                tally.check("an order to be withdrawn",
                            desk.ask(composed(f"schedule DEMO {ENTRY.format('S2')}")[0]) == "done")
            for line, *answers in orders:
                answer = desk.ask(composed(line)[0])
                tally.check(f"{line[:20]}, turn {turn}", answer == answers[turn], answer)
            for name, octets, *statuses in plays:
                client.send(octets)
                status = client.status()
                tally.check(f"{name}, turn {turn}", status == statuses[turn], status)
            reports.append(desk.ask("report"))
            tally.check("SIGTERM ends it", server.end(signal.SIGTERM) == -signal.SIGTERM)
    tally.check("what is sent again changes nothing",
                reports[0] == reports[1] == "DEMO studies 1 series 1 images 2 entries 1 steps 2",
                reports)
