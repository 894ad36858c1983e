"""The lines of the log."""
import datetime
import fcntl
import os
import pathlib
import re
import select
import time
from collections.abc import Callable
from typing import IO

from ..client import Serving, free_port, until
from ..paths import TOP, configured
from ..refusing import made_library
from ..scenes import RELEASE, composed, message, octets_of
from ..tally import Tally
from .common import (ENTRY, PROGRAM, STEP, associated, call_octet_by_octet, has_ended,
                     refused_accepts, run, serves, store_of)

# What a log tells, without the times, and with words for the address of a peer and for how long
# something took.
NOTHING_SERVED = "stores 0 searches 0 answers 0 steps 0 refused 0"
NO_SUCH_TITLES = "1 1 1 no institution has these titles"
VERSION = re.search(r"(?m)^## (\d+\.\d+\.\d+)", (TOP / "CHANGELOG.md").read_text())[1]
LOGGED = [
    ("the start", f"- started {VERSION}"),
    ("an association of a hospital", "1 accepted NORTH ARCHIVE CT1 ADDRESS 5 contexts"),
    ("its end", f"1 ended released TIME s {NOTHING_SERVED}"),
    ("an order", "- console schedule SOUTH done"),
    ("an association of the other", "2 accepted SOUTH ARCHIVE CT2 ADDRESS 5 contexts"),
    ("a query of studies", "2 study query modality CT station - day 20240101-20241231 keys "
                           "00080020,00080052,00080061,00100020,0020000d "
                           "status 0000 answers 1 ms TIME"),
    ("a query that is refused",
     "2 study query modality - station - day - keys 00100010 status a900 answers 0 ms TIME"),
    ("a query that cannot be read", "2 study query unread status c000 answers 0 ms TIME"),
    ("a query of the worklist", "2 worklist query modality CT station CT1 day 20240705 keys "
                                "00100010,00400100,00080060,00400001,00400002 "
                                "status 0000 answers 1 ms TIME"),
    ("a stranger, while it is open", f"3 rejected ARCHIVE STRANGER ADDRESS {NO_SUCH_TITLES}"),
    ("an abort by the server", "2 aborted by the server 2 1"),
    ("the end of what was aborted",
     "2 ended aborted TIME s stores 1 searches 2 answers 2 steps 1 refused 2"),
    ("a title that is no text", f"4 rejected ARCHIVE STRANGER???9 ADDRESS {NO_SUCH_TITLES}"),
    ("an empty title", f"5 rejected ARCHIVE - ADDRESS {NO_SUCH_TITLES}"),
    ("an association octet by octet", "6 accepted NORTH ARCHIVE CT1 ADDRESS 5 contexts"),
    ("an abort by the peer", "6 aborted by the peer 0 0"),
    ("the end of what the peer aborted", f"6 ended aborted TIME s {NOTHING_SERVED}"),
    ("an association that comes with its release",
     "7 accepted NORTH ARCHIVE CT1 ADDRESS 1 context"),
    ("its release", f"7 ended released TIME s {NOTHING_SERVED}"),
    ("an order of the other hospital", "- console schedule NORTH done"),
    ("an order that is refused", "- console schedule NORTH refused 3"),
    ("a withdrawal", "- console withdraw NORTH done"),
    ("a line that is none", "- console bad line"),
    ("another application context",
     "8 rejected ARCHIVE CT1 ADDRESS 1 1 2 another application context than DICOM's"),
    ("another protocol version", "9 rejected ARCHIVE CT1 ADDRESS 1 2 2 another protocol version"),
    ("no room for data", "10 rejected ARCHIVE CT1 ADDRESS 1 1 1 a maximum length below 8"),
    ("an association whose peer is gone", "11 accepted NORTH ARCHIVE CT1 ADDRESS 5 contexts"),
    ("its end by that", f"11 ended lost TIME s {NOTHING_SERVED}"),
    ("an association that will be silent", "12 accepted NORTH ARCHIVE CT1 ADDRESS 5 contexts"),
    ("one connection too many", "- given up ADDRESS peer-connections"),
    ("a connection that asks for nothing", "13 given up ADDRESS artim"),
    ("a connection that is silent", "12 given up ADDRESS quiet"),
    ("the end of its association", f"12 ended lost TIME s {NOTHING_SERVED}"),
]
LINE = re.compile(r"(\d{4}-\d\d-\d\dT\d\d:\d\d:\d\d\.\d{3})Z (.*)")


def lines_of_log(text: bytes) -> list[str]:
    """The lines of a log without their times, which begin each, never go back, and are those of the
    last minutes."""
    found = [LINE.fullmatch(line) for line in text.decode().split("\n")[:-1]]
    if not all(found):
        return [f"no time: {line}" for line in text.decode().split("\n")[:-1]]
    times = [datetime.datetime.fromisoformat(one[1]).replace(
        tzinfo=datetime.timezone.utc).timestamp() for one in found]
    if (times != sorted(times) or times and not time.time() - 300 < times[0] <= times[-1]
        < time.time() + 1):
        return [f"another time: {times}"]
    return [re.sub(r"\d+\.\d{3} s |(?<= ms )\d+$", took,
                   re.sub(r"127\.0\.0\.1:\d+", "ADDRESS", one[2])) for one in found]


def took(found: re.Match[str]) -> str:
    """A word for how long something took, where it took no longer than this suite, in which the
    silent association lasts longest."""
    words = found[0].split()
    return ("TIME s " if words[1:] else "TIME") if float(words[0]) < (30 if words[1:]
                                                                      else 5000) else found[0]


LOGGED_QUERIES = [
    "find 1 5 1 study StudyDate=20240101-20241231 QueryRetrieveLevel=STUDY ModalitiesInStudy=CT "
    "PatientID=SECRETID StudyInstanceUID=",
    "find 1 5 2 study PatientName=SECRET^NAME",
    "find 1 5 3 study QueryRetrieveLevel=STUDY PatientName=SECRET^NAME raw:0000",
    "find 1 7 4 worklist PatientName=DOE^JANE ScheduledProcedureStepSequence= "
    "{ Modality=CT ScheduledStationAETitle=CT1 ScheduledProcedureStepStartDate=20240705 }",
]


def logged_plays(server: Serving, told: Callable[[], bytes]) -> None:
    """What the lines of LOGGED tell of."""
    serves(server, "CT1")
    with server.console() as desk:
        desk.ask(composed(f"schedule SOUTH {ENTRY.format('S1')}")[0])
    client = associated(server, "CT2")
    client.send(store_of("1.2.1.1.1", PatientName="SECRET^NAME", PatientID="SECRETID"))
    client.status()
    for line in LOGGED_QUERIES:
        client.send(message(line))
        client.statuses()
    client.send(message(f"create 1 9 1 1.2.9 {STEP}"))
    client.status()
    call_octet_by_octet(server, b"STRANGER")
    client.send(octets_of("piece 1 080000000000")[0])
    client.rest()
    client.close()
    for title in (b"  STRANGER\n\xff 9", b""):
        call_octet_by_octet(server, title)
    call_octet_by_octet(server, b"CT1", octets_of("abort 1")[0])
    with server.connect() as at_once:
        at_once.send(octets_of("associate 1 ARCHIVE CT1 1=echo:implicit")[0] + RELEASE)
        at_once.rest()
    with server.console() as desk:
        for line in composed(*2 * [f"schedule NORTH {ENTRY.format('SECRET')}"],
                             "withdraw NORTH SECRET") + ["report", "secret"]:
            desk.ask(line)
        desk.rest()
    for words in ("application 1.2.3", "version 2", "max 7"):
        with server.connect() as refused:
            refused.send(*octets_of(f"associate 1 ARCHIVE CT1 1=echo:implicit {words}"))
            refused.rest()
    associated(server, "CT1").close()
    # (its address has as many connections as it may until the server sees that it is gone)
    until(lambda: b" 11 ended " in told(), 5)
    with associated(
            server, "CT1") as silent, server.connect() as unopened, server.connect() as late:
        for one in (late, unopened, silent):
            # (whatever the patience is)
            one.socket.settimeout(30)
            one.rest()


def log(tally: Tally, folder: pathlib.Path) -> None:
    words = ["--log", "--artim", "2", "--quiet", "5", "--peer-connections", "2"]
    path = folder / "log"
    for to_file in (False, True):
        name = "to a file, " if to_file else ""
        path.write_text("2024-07-05T00:00:00Z a line before\n")
        with Serving(PROGRAM, *configured("hospitals"), *words,
                     *(["--log-file", path] if to_file else []), has_console=True) as server:
            told = path.read_bytes if to_file else server.errors
            logged_plays(server, told)
            # (where the lines go through another program, as those of suite/notices do)
            until(lambda: told().count(b"\n") >= len(LOGGED) + to_file, 5)
            text = told()
            if to_file:
                first, _, text = text.partition(b"\n")
                tally.check("the file goes on", first == b"2024-07-05T00:00:00Z a line before",
                            first)
                tally.check("nothing is told beside the file", not server.errors(), server.errors())
            lines = lines_of_log(text)
            for what, line in LOGGED:
                tally.check(f"{name}{what}", line in lines, lines)
            tally.check(f"{name}no other lines, in this order",
                        lines == [line for _, line in LOGGED], lines)
            tally.check(f"{name}no patient",
                        not any(word in text.lower() for word in (b"secret", b"doe", b"jane")))
    with Serving(PROGRAM, *configured("hospitals"), has_console=True) as server:
        serves(server, "CT1")
        server.console().ask("report")
        tally.check("nothing is told without --log", not server.errors(), server.errors())
    done = run("serve", "--port", free_port(), "--turns", "0", "--log-file",
               folder / "absent" / "log")
    tally.check("a log that cannot be written", done == (5, b"", b"network\n"), done)
    lost_lines(tally)
    stopped_line(tally, folder)


def stopped_line(tally: Tally, folder: pathlib.Path) -> None:
    """The last line of a server that stops, as no connection can be accepted any more."""
    with Serving(PROGRAM, "--log", environment=refused_accepts(made_library(folder), "2+",
                                                               folder / "refused")) as server:
        callers = []
        until(lambda: has_ended(server, callers), 10)
        for caller in callers:
            caller.close()
        server.end()
        lines, _, told = server.errors().rpartition(b"network\n")
        tally.check("the line of a stop", lines_of_log(lines)[-1:] == ["- stopped network"]
                    and not told, lines, told)


def lost_lines(tally: Tally) -> None:
    """Nobody reads the log: all are served, and once it is read the next line says how many were
    lost."""
    count, (reading, writing) = 2500, os.pipe()
    fcntl.fcntl(writing, fcntl.F_SETPIPE_SZ, 8192)
    with Serving(PROGRAM, *configured("hospitals"), "--log",
                 errors=writing) as server, open(reading, "rb", 0) as lines:
        os.close(writing)
        os.set_blocking(reading, False)
        for _ in range(count):
            with server.connect() as stranger:
                stranger.send(*octets_of("associate 1 ARCHIVE CT9 1=echo:implicit"))
                stranger.rest()
        before = lines_of_log(read_all(lines))
        tally.check("a log that nobody reads", serves(server, "CT1"))
        after = lines_of_log(read_all(lines))
        lost = [int(line.split(" ")[1]) for line in after if line.endswith(" lines are lost")]
        tally.check("lines that are lost are counted",
                    len(lost) == 1 and len(before) + lost[0] == count + 1 and
                    after[0] == f"- {lost[0]} lines are lost" and 0 < len(before) < count and
                    after[-1] == f"{count + 1} ended released TIME s {NOTHING_SERVED}", len(before),
                    after[:3])


def read_all(file: IO[bytes]) -> bytes:
    """What comes of a pipe until nothing more does."""
    octets = b""
    while select.select([file], [], [], 1)[0] and (more := file.read(1 << 16)):
        octets += more
    return octets
