"""Memory that is refused while the web front answers."""
import contextlib
import itertools
import os
import pathlib
import re
import shutil

from ..client import until
from ..refusing import made_library
from ..tally import Tally
from ..web_client import Response
from .common import Pair, entry_octets
from .pages import large_entry

# What is asked, by a method and a path, and the status of its answer; and in how large steps the
# numbers of the refused allocations go on. With EACH_ALLOCATION each one is refused, which takes
# minutes.
ASKED = [("a search", "GET", "/NORTH/rs/studies?PatientName=DOE*", 200, 11),
         ("instances", "GET", "/NORTH/rs/studies/1.2.0/series/1.2.0.1/instances", 200, 7),
         ("counts", "GET", "/NORTH/counts", 200, 1),
         ("the worklist", "GET", "/NORTH/worklist?PatientName=DOE*", 200, 11),
         ("an entry", "POST", "/NORTH/worklist", 201, 13),
         ("a page of 8 MiB", "GET", "/SOUTH/worklist", 200, 97)]
IS_EACH = "EACH_ALLOCATION" in os.environ
NOTE = re.compile(r"\S+Z - web 127\.0\.0\.1:\d+ (- \S+ \S+ \S+) (\d{3}|no memory) ms \d+")


class Refusing:
    """A server of which one allocation is refused at a time. It is begun anew when it has ended,
    over rows in memory or over its store."""

    def __init__(self, folder: pathlib.Path, store: pathlib.Path | None) -> None:
        self.folder, self.store, self.log = folder, store, folder / "log"
        self.library = made_library(folder, "refuse_alloc")
        self.number, self.refused = folder / "number", folder / "refused"
        self.pair = self.begun()

    def begun(self) -> Pair:
        words: list[pathlib.Path | str] = ["--store", self.store] if self.store else []
        pair = Pair(self.folder, "--log-file", self.log, *words, environment={
            "LD_PRELOAD": self.library, "REFUSE_ALLOC_WHILE": self.number,
            "REFUSE_ALLOC_MARK": self.refused})
        pair.__enter__()
        if not self.store:
            filled(pair)
        return pair

    def end(self) -> bytes:
        """Ends it; what it told on standard error."""
        told = self.pair.server.errors()
        self.pair.__exit__()
        return told

    def ask(self, number: int, method: str, path: str, body: bytes | None) -> Response | None:
        """The answer to a request on a connection that was there before, while the allocation of a
        number is refused; None where there is no answer."""
        self.refused.unlink(missing_ok=True)
        with self.pair.connect() as speaker:
            speaker.ask("GET", "/health")
            (self.folder / "next").write_text(str(number))
            os.replace(self.folder / "next", self.number)
            try:
                return speaker.ask(method, path, self.pair.keys[path.split("/")[1]], body=body)
            except OSError:
                return None
            finally:
                self.number.unlink()

    def goes_on(self) -> bool:
        """Whether the server answers the next request whole, of which the log has its line."""
        begin = len(self.log.read_bytes())
        with contextlib.suppress(OSError):
            told = self.pair.ask("GET", "/NORTH/steps", "NORTH")
            if told is not None and told.status == 200:
                return until(lambda: b" /steps 200 ms " in self.log.read_bytes()[begin:], 5)
        until(lambda: not self.pair.server.is_running(), 5)
        return False

    def notes(self, begin: int) -> list[str]:
        """The outcomes that the log has from an octet on, of requests that are played."""
        lines = self.log.read_text()[begin:].split("\n")[:-1]
        found = [NOTE.fullmatch(line) for line in lines
                 if " - web " in line and not re.search(" /health | /steps | DELETE ", line)]
        return [one[2] if one else "another line" for one in found]


def filled(pair: Pair) -> None:
    pair.fill()
    for at in range(12):
        pair.ask("POST", "/SOUTH/worklist", "SOUTH", body=large_entry(f"L{at}"),
                 fields=["Content-Type: application/dicom+json"])


def memory(tally: Tally, folder: pathlib.Path) -> None:
    """An allocation refused while a request is answered, one after the other: who asked is answered
    whole, or let go, as the log says; the server goes on, or ends with its fault, and what was
    answered is there."""
    whole = folder / "whole.db"
    with Pair(folder, "--new", whole) as pair:
        filled(pair)
    for store in (None, folder / "rows.db"):
        room = folder / ("rows" if store else "memory")
        room.mkdir()
        if store:
            for end in ("", "-wal"):
                with contextlib.suppress(FileNotFoundError):
                    shutil.copy(f"{whole}{end}", f"{store}{end}")
        refusing = Refusing(room, store)
        for asked in ASKED:
            refuse_each(tally, refusing, *asked)
        refusing.end()


def refuse_each(tally: Tally, refusing: Refusing, what: str, method: str, path: str, status: int,
                step: int) -> None:
    where = "a store" if refusing.store else "memory"
    usual = refusing.ask(0, method, path, entry_octets("M0") if method == "POST" else None)
    tally.check(f"{what} over {where}, and nothing refused",
                usual is not None and usual.status == status, usual and usual.head)
    refusing.goes_on()
    let_go = noted = ended = 0
    for number in itertools.count(1, 1 if IS_EACH else step):
        name = f"{what} over {where}, allocation {number} refused"
        begin = len(refusing.log.read_bytes())
        told = refusing.ask(number, method, path,
                            entry_octets(f"M{number}") if method == "POST" else None)
        is_refused = refusing.refused.exists()
        tally.check(f"{name}: it is answered whole or not at all",
                    told is None and is_refused or told is not None and told.status == status
                    and told.body == usual.body and not told.faults, told and told.head)
        if refusing.goes_on():
            wanted = ["no memory"] if told is None else [str(status)]
            found = refusing.notes(begin)
            tally.check(f"{name}: the log", found == wanted or is_refused and not found, found)
            noted += told is None and found == wanted
            let_go += told is None
        else:
            ended += 1
            errors = refusing.end()
            is_fault = errors in ((b"fault 1\n", b"fault 2\n") if refusing.store
                                  else (b"fault 1\n",))
            tally.check(f"{name}: it ends with its fault", told is None and is_fault, errors)
            refusing.pair = refusing.begun()
            refusing.goes_on()
        if method == "POST":
            kept = refusing.pair.ask("DELETE", f"{path}/M{number}", "NORTH").status
            tally.check(f"{name}: what was answered is there",
                        kept == 204 or told is None and kept == 404, kept)
        if not is_refused:
            break
    print(f"{what} over {where}: {number} allocations, {let_go} let go, {noted} noted, "
          f"{ended} ended")
    tally.check(f"{what} over {where}: some are let go, and the log says so",
                let_go + ended >= 3 and noted >= let_go - 3, let_go, noted, ended)

