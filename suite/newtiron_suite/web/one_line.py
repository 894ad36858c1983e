"""One request makes one line of the log, whatever octets it has."""
import json
import pathlib
import re
from collections.abc import Iterable

from ..client import HOST, until
from ..tally import Tally
from .common import Pair, entry_octets, spoken
from .entries import json_entry

# Ends of lines, percent-encoded (RFC 3986 section 2.1), and what a line of the console would be.
ENDS = ("%0A", "%0D", "%00", "%0D%0A", "%0aconsole%20schedule%20NORTH%20done%0a", "%E2%80%A8")
# Octets that no field and no target has (RFC 9110 section 5.5, RFC 9112 section 3).
RAW = (b"\r", b"\0", b"\n", b"\r\n", b"\ncounts\n", b"\x85", b"\x0b", b"\x1b[2J")
LINE = re.compile(r"\d{4}-\d\d-\d\dT\d\d:\d\d:\d\d\.\d{3}Z - web 127\.0\.0\.1:\d+"
                  r"(?: for [0-9a-f.:]+)? (?:- [!-~]+ [!-~]+ [!-~]+|- - - -) (\d{3}) ms \d+")
NOTE = re.compile(r"\S+Z - console (?:schedule|withdraw) NORTH (?:done|refused \d+)")


class Log:
    """The lines that requests add to a log."""

    def __init__(self, tally: Tally, path: pathlib.Path) -> None:
        self.tally, self.path, self.begin = tally, path, 0

    def begin_anew(self) -> None:
        self.begin = len(self.path.read_bytes())

    def check(self, what: str, statuses: Iterable[int], is_order: bool = False) -> None:
        """Each of these statuses has its line, and there is no other line; one more, of the
        console, for an order."""
        wanted = [str(status) for status in statuses]
        until(lambda: self.path.read_bytes().count(b"- web ", self.begin) >= len(wanted), 5)
        lines = self.path.read_bytes()[self.begin:].decode("latin-1").split("\n")
        of_web = [found[1] for line in lines if (found := LINE.fullmatch(line))]
        others = [line for line in lines[:-1] if not LINE.fullmatch(line)]
        is_right = of_web == wanted and lines[-1] == "" and len(others) <= is_order
        self.tally.check(f"one line: {what}", is_right and all(map(NOTE.fullmatch, others)), lines)


def one_line(tally: Tally, folder: pathlib.Path) -> None:
    path = folder / "log"
    with Pair(folder, "--log-file", path, "--web-proxy", HOST) as pair:
        pair.fill()
        log = Log(tally, path)
        encoded(tally, pair, log)
        raw(tally, pair, log)
        entries(tally, pair, log)
        pair.is_right(tally, "one line")


def encoded(tally: Tally, pair: Pair, log: Log) -> None:
    """Ends of lines that are percent-encoded, or written so where nothing is decoded."""
    own = f"{HOST}:{pair.port}"
    for end in ENDS:
        for target in (f"/{end}", f"/NORTH{end}/rs/studies", f"/{end}NORTH/rs/studies",
                       f"/NORTH/rs/stud{end}ies", f"/NORTH/rs/studies/1.2{end}.0/series",
                       f"/NORTH/rs/studies/1.2.0/series/{end}/instances", f"/NORTH/counts{end}",
                       f"/NORTH/worklist{end}", f"/NORTH/steps{end}",
                       f"/NORTH/rs/studies?PatientName=DOE{end}*",
                       f"/NORTH/rs/studies?Patient{end}Name=DOE",
                       f"/NORTH/rs/studies?limit=1{end}", f"/NORTH/rs/studies?{end}",
                       f"/NORTH/rs/studies?includefield={end}", f"/NORTH/worklist?Modality={end}",
                       f"/NORTH/steps?PatientID=1{end}"):
            log.begin_anew()
            told = pair.compare(tally, "an end of a line", "GET", target, "NORTH")
            log.check(f"GET {target}", [told.status])
        log.begin_anew()
        told = pair.compare(tally, "an end of a line", "DELETE", f"/NORTH/worklist/S1{end}",
                            "NORTH")
        log.check(f"DELETE {end}", [told.status], is_order=True)
        for what, fields in (("Origin", [f"Origin: http://{own}{end}"]),
                             ("Accept", [f"Accept: application/json{end}"]),
                             ("Content-Type", [f"Content-Type: application/dicom{end}"]),
                             ("X-Forwarded-For", [f"X-Forwarded-For: 192.0.2.43{end}"]),
                             ("Forwarded", [f"Forwarded: for=192.0.2.43{end}"]),
                             ("User-Agent", [f"User-Agent: {end}"])):
            log.begin_anew()
            told = pair.compare(tally, f"{what} with {end}", "GET", "/NORTH/counts", "NORTH",
                                fields=fields)
            log.check(f"{what} with {end}", [told.status])
        log.begin_anew()
        statuses = [one.status for one in (
            pair.ask("GET", "/NORTH/counts", "NORTH", host=f"{own}{end}"),
            pair.ask("GET", "/NORTH/counts", key=pair.keys["NORTH"] + end))]
        tally.check(f"Host and Authorization with {end}",
                    statuses[0] in (400, 421) and statuses[1] == 401, statuses)
        log.check(f"Host and Authorization with {end}", statuses)


def raw(tally: Tally, pair: Pair, log: Log) -> None:
    """The same octets as they are. CR and NUL are in no field and no target, and a line feed may
    end a line (RFC 9110 section 5.5, RFC 9112 section 2.2)."""
    head = (f"GET /NORTH/counts HTTP/1.1\r\nHost: {HOST}:{pair.port}\r\n"
            f"Origin: http://{HOST}:{pair.port}\r\nX-Forwarded-For: 192.0.2.43\r\n"
            f"Authorization: Bearer {pair.keys['NORTH']}\r\nConnection: close\r\n\r\n").encode()
    for octets in RAW:
        for place in (b"GET", b"/NORTH", b"/counts", b" HTTP", b"/1.1", b"Host", b"127.0.0.1",
                      b"Origin", b"http:", b"X-For", b"192.0.2", b"Authorization", b"Bearer ",
                      b"close"):
            what = f"{octets!r} behind {place.decode()}"
            at = head.index(place) + len(place)
            log.begin_anew()
            told = spoken(pair, head[:at] + octets + head[at:])
            is_refused = len(told) == 1 and told[0].status in (400, 401, 403, 404, 421)
            is_bad = octets in (b"\r", b"\0") and not (octets == b"\r" and place == b"close")
            tally.check(f"a head with {what}", not any(one.faults for one in told) and
                        (is_refused or not is_bad and len(told) <= 2),
                        [(one.status, one.faults) for one in told])
            log.check(what, [one.status for one in told])


def entries(tally: Tally, pair: Pair, log: Log) -> None:
    """Texts of an item of the worklist, which are the lines of an order."""
    texts = ("\n", "\r", "\0", "S1\nwithdraw NORTH S2", "\r\n", "\u2028", "\x85")
    for at, text in enumerate(texts):
        for what, body in (("ID", json_entry(f"N{at}{text}")),
                           ("name", json_entry(f"P{at}", f"DOE{text}^JANE")),
                           ("keyword", json.dumps({f"0010{text}": {"vr": "PN"}}).encode()),
                           ("VR", json.dumps({"00100010": {"vr": f"P{text}"}}).encode())):
            log.begin_anew()
            told = pair.compare(tally, f"an entry whose {what} has {text!r}", "POST",
                                "/NORTH/worklist", "NORTH", body=body,
                                fields=["Content-Type: application/dicom+json"])
            log.check(f"an entry whose {what} has {text!r}", [told.status], is_order=True)
    for at, text in enumerate(texts):
        body = entry_octets("0x" + f"D{at}{text}".encode("latin-1", "replace").hex())
        log.begin_anew()
        told = pair.compare(tally, f"a data set whose ID has {text!r}", "POST", "/NORTH/worklist",
                            "NORTH", body=body)
        log.check(f"a data set whose ID has {text!r}", [told.status], is_order=True)
