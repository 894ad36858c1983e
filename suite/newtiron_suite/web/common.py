"""What the parts of this suite share: the program beside the model, and what both are filled
with."""
from __future__ import annotations

import contextlib
import pathlib
import shutil
import sqlite3
import subprocess
import sys
import tempfile
from collections.abc import Iterable, Mapping
from typing import Any

from ..client import HOST, Serving, free_port
from ..model import compose, data_sets, replies, web
from ..model.stores import Row
from ..model.web import Answer
from ..paths import CONFIGURATIONS, TOP, program_of
from ..scenes import SERVED, message
from ..tally import Tally
from ..web_client import Response, Speaker

PROGRAM = program_of([word for word in sys.argv[1:] if word != "--picture"])
CT = compose.CLASSES["CT"].decode()
BODY_MOST, CONNECTIONS, SEED = 1048576, 100, 20240705


def store_line(number: int, image: str, study: str = "1.2.1", **elements: int | str) -> str:
    words = " ".join(f'"{key}={value}"' for key, value in elements.items())
    series = elements.get("SeriesInstanceUID", f"{study}.1")
    named = "" if "SeriesInstanceUID" in elements else f"SeriesInstanceUID={series} "
    return (f"store {number} 3 1 CT {image} SOPClassUID={CT} SOPInstanceUID={image} "
            f"StudyInstanceUID={study} {named}{words}")


def entry_words(identity: str, name: str = "DOE^JANE", **elements: str) -> str:
    words = " ".join(f'"{key}={value}"' for key, value in elements.items())
    return (f'"PatientName={name}" PatientID=P1 StudyInstanceUID=1.2.3 RequestedProcedureID=R1 '
            f'{words} '
            "ScheduledProcedureStepSequence= "
            f"{{ Modality=CT ScheduledStationAETitle=CT1 ScheduledProcedureStepStartDate=20240705 "
            f"ScheduledProcedureStepStartTime=0900 ScheduledProcedureStepID={identity} }}")


def entry_octets(*words: str, **more: str) -> bytes:
    """The data set of an entry, in Explicit VR Little Endian."""
    return data_sets.canonical(compose.data_set(compose.words_of(entry_words(*words, **more), 1)),
                               data_sets.EXPLICIT)


STEP = ("Modality=CT PerformedStationAETitle=CT1 PerformedProcedureStepStartDate=20240705 "
        "PerformedProcedureStepStartTime=0900 "
        '"PerformedProcedureStepStatus=IN PROGRESS" PerformedProcedureStepID=P1 '
        'ScheduledStepAttributesSequence= '
        "{ StudyInstanceUID=1.2.3 ScheduledProcedureStepID=S9 }")
HOSPITALS = {"NORTH": ("CT1", "DOE^JANE"), "SOUTH": ("CT2", "ROE^RICHARD")}
WORKLIST = message("find 1 7 1 worklist PatientName= ScheduledProcedureStepSequence= { }")


def key_line(folder: pathlib.Path, name: str, *words: str) -> str:
    """The key of a name, which tools/web_key adds to the file of keys of a folder."""
    done = subprocess.run([TOP / "tools/web_key", "--add", folder / "keys", *words, name],
                          capture_output=True, text=True, check=True)
    return done.stdout.removesuffix("\n")


class Pair:
    """The program with its front, and the model: what happens happens to both. Beside the keys of
    all names there are those of `limited`: a name, its only right, and a label."""

    def __init__(self, folder: pathlib.Path, *words: pathlib.Path | str,
                 configuration: str = "hospitals", web_host: str | None = None,
                 web_origin: str | None = None,
                 limited: Iterable[tuple[str, str, str]] = (),
                 environment: Mapping[str, object] | None = None) -> None:
        self.folder = pathlib.Path(tempfile.mkdtemp(dir=folder))
        path = CONFIGURATIONS / f"{configuration}.toml"
        self.model = replies.Server(replies.read_configuration(path.read_text()))
        self.keys = {name: key_line(self.folder, name)
                     for name in [*[one.name for one in self.model.institutions], "*"]}
        self.front = web.Front(self.model.institutions, self.keys, web_host, web_origin)
        self.front.limited = [
            (name, right, key_line(self.folder, name, "--right", right, "--label", label))
            for name, right, label in limited]
        self.port = free_port()
        host = ["--web-host", web_host] if web_host else []
        host += ["--web-origin", web_origin] if web_origin else []
        self.server = Serving(PROGRAM, "--config", path, "--web", self.port, "--web-keys",
                              self.folder / "keys", *host, *words,
                              has_console=True, environment=environment)
        self.scene, self.clients = compose.Scene(), {}

    def __enter__(self) -> Pair:
        self.server.__enter__()
        return self

    def __exit__(self, *_: Any) -> None:
        for client in self.clients.values():
            client.close()
        self.server.end()

    def connect(self) -> Speaker:
        return Speaker(self.port)

    def ask(self, method: str, target: str, name: str | None = None, key: str | None = None,
            **more: Any) -> Response:
        """The response on a connection of its own, with the key of a name."""
        with self.connect() as speaker:
            return speaker.ask(method, target, self.keys[name] if name else key, **more)

    def expected(self, method: str, target: str, name: str | None = None, key: str | None = None,
                 body: bytes = b"", fields: Any = (), host: str | None = None) -> Answer:
        """What the model answers."""
        key = self.keys[name] if name else key
        given = {"host": host or f"{HOST}:{self.port}",
                 **({} if key is None else {"authorization": f"Bearer {key}"})}
        for line in fields:
            field, _, value = line.partition(":")
            given[field.lower()] = value.strip()
        return self.front.answer(method, target, given, body)

    def compare(self, tally: Tally, what: str, method: str, target: str, name: str | None = None,
                key: str | None = None, body: bytes | None = None, fields: Any = (),
                host: str | None = None) -> Response:
        """Compares the response with the model's, and gives it."""
        told = self.ask(method, target, name, key=key, body=body, fields=fields, host=host)
        wanted = self.expected(method, target, name, key, body or b"", fields, host)
        content = b"" if method == "HEAD" else wanted.body
        is_right = (told is not None and told.status == wanted.status and told.kind() == wanted.kind
                    and told.body == content)
        for field, value in wanted.fields.items():
            is_right = is_right and told.fields.get(field.lower()) == value
        others = web.CORS - {field.lower() for field in wanted.fields}
        is_right = is_right and not others & set(told.fields)
        tally.check(f"{what}: {method} {target}"[:150], is_right and not told.faults,
                    told and (told.status, told.kind(), told.body, told.fields, told.faults),
                    (wanted.status, wanted.kind, wanted.body, wanted.fields))
        return told

    def play(self, *lines: str) -> bool:
        """Plays lines of a scene, at both; whether both answered the same."""
        are_same = True
        for line in lines:
            begin = len(self.scene.lines)
            self.scene.play_line(line)
            for event in self.scene.lines[begin:]:
                are_same = self.play_event(event) and are_same
        return are_same

    def play_event(self, line: str) -> bool:
        word, number, octets = (*line.split(" "), "")[:3]
        wanted = self.model.reply(*replies.event_of(line))
        if word in ("schedule", "withdraw"):
            with self.server.console() as desk:
                return desk.ask(line) == wanted
        if word == "open":
            self.clients[number] = self.server.connect()
            return True
        if word == "end":
            self.clients.pop(number).close()
            return True
        answer = bytes.fromhex(wanted.split(" ")[1].replace("-", ""))
        return self.clients[number].exchange(bytes.fromhex(octets), len(answer)) == answer

    def fill(self, studies: int = 3) -> bool:
        """The same studies, steps and entries in both hospitals, but for the patients."""
        are_same = True
        for number, (name, (calling, patient)) in enumerate(HOSPITALS.items(), 1):
            are_same &= self.play(f"open {number}",
                                  f"associate {number} ARCHIVE {calling} {SERVED}")
            for at in range(studies):
                are_same &= self.play(
                    store_line(number, f"1.2.{at}.1.1", f"1.2.{at}", PatientName=patient,
                               PatientID=f"P{at}",
                               StudyDate=f"2024070{at + 1}",
                               StudyTime="090500", Modality="CT", AccessionNumber=f"A{at}",
                               StudyDescription=f"Head of {name}",
                               SeriesNumber=1, InstanceNumber=1))
            are_same &= self.play(
                store_line(number, "1.2.0.1.2", "1.2.0", PatientName=patient, InstanceNumber=2),
                store_line(number, "1.2.0.2.1", "1.2.0", SeriesInstanceUID="1.2.0.2",
                           PatientName=patient, Modality="MR",
                           SeriesNumber=2),
                f"create {number} 9 1 1.2.9 {STEP}",
                f"schedule {name} {entry_words('S2', patient)}",
                f"schedule {name} {entry_words('S3', patient, AccessionNumber='A3')}")
        return are_same

    def found_entries(self, number: int = 1) -> int:
        """How many entries the association of a number finds."""
        client = self.clients[str(number)]
        client.send(WORKLIST)
        return client.statuses().count(0xFF00)

    def report(self) -> list[str]:
        with self.server.console() as desk:
            desk.send(b"report\n")
            return [desk.line() for _ in self.model.institutions]

    def is_right(self, tally: Tally, name: str) -> None:
        """Whether it goes on, and both keep as much."""
        tally.check(f"{name}: it goes on", self.server.is_running() and not self.server.errors(),
                    self.server.errors())
        told, wanted = self.report(), list(self.model.reported())
        tally.check(f"{name}: what is kept", told == wanted, told, wanted)


def rows_of(store: pathlib.Path, folder: pathlib.Path) -> list[Row]:
    """The rows of a copy of a store and of its log."""
    copy = pathlib.Path(tempfile.mkdtemp(dir=folder)) / "copy.db"
    for end in ("", "-wal"):
        with contextlib.suppress(FileNotFoundError):
            shutil.copy(f"{store}{end}", f"{copy}{end}")
    with contextlib.closing(sqlite3.connect(copy)) as opened:
        return opened.execute("SELECT * FROM kept ORDER BY kind, inst, id").fetchall()


def spoken(pair: Pair, octets: bytes, piece: int | None = None) -> list[Response]:
    """The responses to octets, after which no more are sent, and whether the server closed at their
    end."""
    with pair.connect() as speaker:
        with contextlib.suppress(ConnectionResetError, BrokenPipeError):
            for at in range(0, len(octets), piece or len(octets) or 1):
                speaker.send(octets[at:at + (piece or len(octets))])
        speaker.end()
        told = []
        while (one := speaker.response()) is not None:
            told.append(one)
        return told
