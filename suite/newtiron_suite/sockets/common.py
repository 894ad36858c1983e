"""What the parts of this suite share: scenes and captures, runs of the program, and
associations."""
import contextlib
import errno
import itertools
import pathlib
import shutil
import sqlite3
import subprocess
import sys
import tempfile
import threading
import time
from collections.abc import Iterator
from typing import Any

from ..client import PATIENCE, Caller, Client, Serving
from ..counts import COUNTS
from ..model import compose, replies, serving
from ..model.stores import Row
from ..model.upper_layer import ACCEPT, RELEASE_RP
from ..paths import CONFIGURATIONS, TOP, program_of
from ..scenes import ECHO, RELEASE, SERVED, composed, message, octets_of
from ..tally import Tally

PROGRAM = program_of(sys.argv[1:])
SEED, ROUNDS, STOPS, MOST = 20240705, 12, 5, 64
PAGED, LONG_NAME = 700, 20000
CT = compose.CLASSES["CT"].decode()
WANTED = []


def run(*words: object, capture: bytes = b"") -> tuple[int, bytes, bytes]:
    """A run of the program: its exit status, its output and what it told."""
    done = subprocess.run([PROGRAM, *map(str, words)], input=capture, capture_output=True,
                          check=False)
    return done.returncode, done.stdout, done.stderr


def plays() -> Iterator[tuple[str, str | None, list[str], pathlib.Path]]:
    """Each capture that is answered whole: its name, its configuration, its lines, and the replies
    that are kept."""
    for path in sorted((TOP / "suite/scenes").glob("*.scene")):
        lines = [line for line in compose.composed(path.read_text().split("\n"))
                 if not line.startswith("#")]
        yield path.stem, path.read_text().split("\n")[0].removeprefix(
            "# config: "), lines, path.with_suffix(".expected")
    for path in sorted((TOP / "captures").glob("*.capture")) + sorted((TOP / "suite/replay").glob(
            "*.capture")):
        if any(path.with_suffix(end).exists() for end in (".args", ".status")):
            continue
        config = path.with_suffix(".config")
        lines = [line for line in path.read_text().split("\n") if line and not line.startswith("#")]
        yield (path.stem, config.read_text().strip() if config.exists() else None, lines,
               path.with_suffix(".expected"))


def wanted_plays() -> list[tuple[str, str, list[str], pathlib.Path]]:
    return [play for play in plays() if not WANTED or play[0] in WANTED]


def turned(configuration: str,
           lines: list[str]) -> tuple[list[str], list[tuple[tuple[str, int, bytes], int, str]]]:
    """The lines without pulls, each with how many pulls bring the answers that it leaves, and what
    the model answers in all."""
    text = replies.BUILT_IN if configuration is None else (CONFIGURATIONS
                                                           / f"{configuration}.toml").read_text()
    lines = [line for line in lines if not line.startswith("pull ")]
    model = replies.Server(replies.read_configuration(text))
    return lines, list(serving.turned(model, map(replies.event_of, lines)))


def over_sockets(configuration: str, lines: list[str],
                 told: list[str]) -> tuple[list[str], list[str]]:
    """The lines and the replies of a capture as they are over sockets: those that are kept, or
    where it pulls those of the model."""
    kept, turns = turned(configuration, lines)
    if kept == lines and not any(pulls for _, pulls, _ in turns):
        return lines, told
    return kept, [reply for _, _, reply in turns]


def check_count(tally: Tally, name: str, played: int) -> None:
    """As many were played as there are, or as are wanted by their names."""
    count = (len(WANTED) or COUNTS["captures"] + COUNTS["scenes"] + COUNTS["replays"]
             - COUNTS["replays_refused"])
    tally.check(name, played == count, f"{played} were played in place of {count}")


def associated(server: Serving, calling: str = "MODALITY", contexts: str = SERVED,
               patience: float = PATIENCE) -> Client | None:
    """A connection with an association; None where it is not accepted."""
    client = server.connect()
    client.socket.settimeout(patience)
    client.send(*octets_of(f"associate 1 ARCHIVE {calling} {contexts}"))
    taken = client.pdu()
    if taken is not None and taken[0] == ACCEPT:
        return client
    client.close()
    return None


def store_of(image: str, study: str = "1.2.1", **elements: int | str) -> bytes:
    words = " ".join(f"{key}={value}" for key, value in elements.items())
    return message(f"store 1 3 1 CT {image} SOPClassUID={CT} SOPInstanceUID={image} "
                   f"StudyInstanceUID={study} "
                   f"SeriesInstanceUID={study}.1 {words}")


STEP = ("Modality=CT PerformedStationAETitle=CT1 PerformedProcedureStepStartDate=20240705 "
        "PerformedProcedureStepStartTime=0900 "
        "'PerformedProcedureStepStatus=IN PROGRESS' PerformedProcedureStepID=P1 "
        "ScheduledStepAttributesSequence= "
        "{ StudyInstanceUID=1.2.3 ScheduledProcedureStepID=S1 }")


def is_alive(client: Client) -> bool:
    """A C-ECHO on an association is answered."""
    client.send(ECHO)
    return client.status() == 0


def serves(server: Serving, calling: str = "MODALITY") -> bool:
    """A new association is accepted, its C-ECHO and its release are answered, and the server
    closes."""
    try:
        client = associated(server, calling)
        if client is None:
            return False
        with client:
            is_good = is_alive(client)
            client.send(RELEASE)
            taken = client.pdu()
            return is_good and taken is not None and taken[0] == RELEASE_RP and not client.rest()
    except OSError:
        return False


def sent_unread(client: Client, octets: bytes, most: int) -> tuple[int, bytes]:
    """How often the octets were sent, without a word read, until no more is taken; the last time in
    part."""
    client.socket.settimeout(0.5)
    sent, rest = 0, b""
    with contextlib.suppress(TimeoutError):
        while sent < most * len(octets):
            rest = rest or octets
            count = client.socket.send(rest)
            sent, rest = sent + count, rest[count:]
    client.socket.settimeout(60)
    return sent // len(octets), rest


def long_names(server: Serving, count: int = PAGED) -> Client:
    """Studies whose names are so long that their answers do not fit into what the system keeps for
    a connection."""
    client = associated(server)
    for at in range(1, count + 1):
        client.send(store_of(f"1.2.{at}.1.1", f"1.2.{at}",
                             PatientName=f"DOE^{at}" + "X" * LONG_NAME))
        if client.status() != 0:
            return None
    return client


class Load(threading.Thread):
    """A client that stores instances until the server is gone: those that it sent, and those that
    were answered."""

    def __init__(self, server: Serving, name: str) -> None:
        super().__init__()
        self.server, self.name, self.sent, self.answered, self.other = server, name, [], [], []

    def begin(self) -> Client:
        return associated(self.server)

    def sent_at(self, client: Any, at: int) -> tuple[Any, Any]:
        """What is sent, and its status."""
        image = f"1.2.{self.name}.{at // 20}.1.{at}"
        self.sent.append(image.encode())
        client.send(store_of(image, f"1.2.{self.name}.{at // 20}"))
        return image.encode(), client.status()

    def run(self) -> None:
        with contextlib.suppress(OSError, AttributeError):
            client = self.begin()
            for at in itertools.count(1):
                key, status = self.sent_at(client, at)
                if status is None:
                    break
                (self.answered if status == 0 else self.other).append(key)


class Steps(Load):
    """A modality that creates procedure steps."""

    def sent_at(self, client: Client, at: int) -> tuple[Any, Any]:
        self.sent.append(at)
        client.send(message(f"create 1 9 1 1.2.9.{at} {STEP}"))
        return at, client.status()


class Orders(Load):
    """An operator who schedules entries."""

    def begin(self) -> Caller:
        return self.server.console()

    def sent_at(self, desk: Caller, at: int) -> tuple[Any, Any]:
        self.sent.append(at)
        answer = desk.ask(composed(f"schedule DEMO {ENTRY.format(f'E{at}')}")[0])
        return at, {"done": 0, "": None}.get(answer, answer)


def spent(server: Serving, seconds: float = 4) -> float:
    """How much of a processor it takes, of 1."""
    time.sleep(1.2)
    before, begun = server.seconds(), time.monotonic()
    time.sleep(seconds)
    return (server.seconds() - before) / (time.monotonic() - begun)


def refused_accepts(library: pathlib.Path, number: str, mark: pathlib.Path,
                    error: int = errno.ENOSPC, family: str | None = None) -> dict[str, object]:
    return {"LD_PRELOAD": library, "REFUSE_CALL": "accept", "REFUSE_NUMBER": number,
            "REFUSE_PATH": "]", "REFUSE_ERROR": error,
            "REFUSE_MARK": mark} | ({} if family is None else {"REFUSE_FAMILY": family})


def has_ended(server: Serving, callers: list[Client]) -> bool:
    """Whether the server has ended, with one more caller, up to some."""
    if len(callers) < 10:
        with contextlib.suppress(OSError):
            callers.append(server.connect())
    return not server.is_running()


ENTRY = ("PatientName=DOE^JANE PatientID=P1 StudyInstanceUID=1.2.3 RequestedProcedureID=R1 "
         "ScheduledProcedureStepSequence= "
         "{{ Modality=CT ScheduledStationAETitle=CT1 ScheduledProcedureStepStartDate=20240705 "
         "ScheduledProcedureStepStartTime=0900 ScheduledProcedureStepID={} }}")


ROWS = ("SELECT kind, inst, id, above, patient, day, octets, started FROM kept ORDER BY kind, "
        "inst, id")


def rows_in(path: pathlib.Path, folder: pathlib.Path, *ends: str) -> list[Row] | None:
    """The rows that sqlite3 reads in a copy of a store, of its database file and of the files with
    these ends; None where it has none."""
    copy = pathlib.Path(tempfile.mkdtemp(dir=folder)) / "copy.db"
    for end in ("", *ends):
        with contextlib.suppress(FileNotFoundError):
            shutil.copy(f"{path}{end}", f"{copy}{end}")
    try:
        with contextlib.closing(sqlite3.connect(copy)) as store:
            is_sound = store.execute("PRAGMA integrity_check").fetchall() == [("ok",)]
            return store.execute(ROWS).fetchall() if is_sound else None
    except sqlite3.Error:
        return None


def counts_of(rows: list[Row]) -> list[int]:
    """How many rows there are of each kind."""
    return [len([row for row in rows if row[0] == kind]) for kind in range(1, 6)]


def told_to(caller: Caller, octets: bytes) -> bytes:
    """What the console answers to octets until it lets the caller go; None if it does not."""
    # (it may let go before it has taken all)
    with contextlib.suppress(BrokenPipeError, ConnectionResetError):
        caller.send(octets)
    try:
        return caller.rest()
    except TimeoutError:
        return None


def is_given_up(client: Client) -> bool:
    """The server has closed or broken the connection. What it wrote before comes first, and the
    system may still be sending it."""
    client.socket.settimeout(PATIENCE)
    try:
        while client.socket.recv(1 << 16):
            pass
        return True
    except TimeoutError:
        return False
    except OSError:
        return True


def call_octet_by_octet(server: Serving, title: bytes, octets: bytes = b"") -> None:
    """An association is asked for by this calling title, octet by octet, and these octets
    follow."""
    before, mark, after = octets_of(f"associate 1 ARCHIVE {16 * 'X'} {SERVED}")[0].partition(
        16 * b"X")
    with server.connect() as client:
        for octet in before + title.ljust(len(mark)) + after:
            client.send(bytes([octet]))
        client.pdu()
        client.send(octets)
        client.rest()
