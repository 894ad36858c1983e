"""Methods, hosts, and requests that are none."""
import email.utils
import pathlib
import random
import re
import time

from ..client import HOST
from ..tally import Tally
from ..web_client import Response
from .common import BODY_MOST, SEED, Pair, entry_octets, spoken


def methods(tally: Tally, folder: pathlib.Path) -> None:
    with Pair(folder) as pair:
        for target in ("rs/studies", "rs/studies/1.2/series", "rs/studies/1.2/series/1.3/instances",
                       "rs/studies/1.2/instances",
                       "worklist", "worklist/S1",
                       "steps", "counts"):
            for method in ("GET", "HEAD", "POST", "PUT", "DELETE", "PATCH", "OPTIONS", "get",
                           "PROPFIND", "X" * 20):
                if (method, target) not in (("POST", "worklist"), ("DELETE", "worklist/S1")):
                    pair.compare(tally, "a method", method, f"/NORTH/{target}", "NORTH")
        pair.compare(tally, "a method before the key", "PUT", "/NORTH/worklist")
        for target in ("/", "/page.css", "/page.js", "/health", "/metrics"):
            for method in ("POST", "DELETE", "OPTIONS"):
                pair.compare(tally, "a method", method, target, "*")
            told = pair.ask("HEAD", target, "*")
            tally.check(f"HEAD {target}", told.status == 200 and int(told.fields["content-length"])
                        > 0 and not told.faults, told.head)
        for method in ("GET", "HEAD"):
            pair.compare(tally, "a method", method, "/backup", "*")
        for target in ("/x", "/page.html", "//", "/NORTH", "/NORTH/", "/NORTH/x",
                       "/NORTH//rs/studies", "/NORTH/rs",
                       "/NORTH/rs/studies/", "/NORTH/rs/studies/1.2",
                       "/NORTH/rs/studies/1.2/series/", "/NORTH/rs/studies/1.2/series/1.3",
                       "/NORTH/rs/studies/1.2/series/1.3/instances/",
                       "/NORTH/rs/studies/1.2/instances/", "/NORTH/rs/studies/instances",
                       "/NORTH/rs/studies/1.2/1.3/instances", "/NORTH/counts/",
                       "/NORTH/steps/1", "/NORTH/%77orklist", "/health/", "/Health", "/favicon.ico",
                       "/metrics/x", "/NORTH/metrics", "*"):
            pair.compare(tally, "a path that is none", "GET", target, "NORTH")
        for path in ("/NORTH/../SOUTH/counts", "/NORTH/%2e%2E/SOUTH/counts",
                     "/NORTH/.%2e/SOUTH/counts", "/NORTH/./counts",
                     "/NORTH%2Fcounts", "/NORTH/..%2fSOUTH/counts", "/NORTH/worklist/S%2F1",
                     "/NORTH/rs/studies/..%2F../series"):
            told = pair.ask("GET", path, "SOUTH")
            tally.check(f"a path that goes up: {path}",
                        told.status == 400 and told.json() == {"refused": "request"}, told.head)
        with pair.connect() as speaker:
            speaker.send(speaker.request("HEAD", "/") + speaker.request("GET", "/health"))
            told = speaker.response(is_head=True)
            after = speaker.response()
            tally.check("HEAD has no body", told.status == 200 and after is not None
                        and after.body == b"ok\n", told.head,
                        after and after.head)
        pair.is_right(tally, "methods")


def hosts(tally: Tally, folder: pathlib.Path) -> None:
    with Pair(folder, web_host="dicom.hospital.example") as pair:
        port = pair.port
        for host in ("127.0.0.1", f"127.0.0.1:{port}", "localhost", "localhost:1", "[::1]",
                     "[::1]:80", "dicom.hospital.example",
                     "dicom.hospital.example:443", "LOCALHOST", f"LocalHost:{port}",
                     "DICOM.Hospital.Example"):
            pair.compare(tally, f"Host {host}", "GET", "/NORTH/counts", "NORTH", host=host)
            for target in (f"http://{host}/NORTH/counts", f"https://{host}/NORTH/rs/studies"):
                pair.compare(tally, "a target in absolute-form", "GET", target, "NORTH",
                             host="evil.example")
        for target in ("http://evil.example/health", "https://evil.example:80/NORTH/counts",
                       "http:///health", "ftp://localhost/health"):
            pair.compare(tally, "a target in absolute-form", "GET", target, "NORTH")
        for host in ("evil.example", f"evil.example:{port}", "127.0.0.1.evil.example",
                     "evil.example@127.0.0.1", "127.0.0.2",
                     "::1", "localhost.", "localhost:x", "localhost:80:80",
                     "hospital.example", "x.dicom.hospital.example", "127.0.0.1 evil.example",
                     "0.0.0.0",
                     f"{HOST}:{port}, evil.example"):
            told = pair.ask("GET", "/NORTH/counts", "NORTH", host=host)
            tally.check(f"Host {host}", told.status in (421, 400) and b"kept" not in told.body and
                        (told.status == 421 or not re.fullmatch(r"[\w.:]+", host)),
                        told.status, told.body)
        told = pair.ask("GET", "/", host="evil.example")
        tally.check("the page of another host",
                    told.status == 421 and told.json() == {"refused": "host"}, told.head)
        own = f"{HOST}:{port}"
        for fields in ([f"Origin: http://{own}"], [f"Origin: https://{own}"],
                       ["Sec-Fetch-Site: same-origin"],
                       ["Sec-Fetch-Site: none"],
                       [f"Origin: http://{own}", "Sec-Fetch-Site: same-origin"]):
            pair.compare(tally, f"{fields}", "GET", "/NORTH/counts", "NORTH", fields=fields)
        for fields in (["Origin: http://evil.example"], ["Origin: null"],
                       [f"Origin: http://{own}.evil.example"],
                       [f"Origin: {own}"], ["Origin: http://127.0.0.1:1"],
                       ["Origin:"], [f"Origin: ftp://{own}"], [f"Origin: http://{own}/"],
                       ["Sec-Fetch-Site: cross-site"],
                       ["Sec-Fetch-Site: same-site"],
                       [f"Origin: http://{own}", "Sec-Fetch-Site: cross-site"]):
            for method, target, body in (("GET", "/NORTH/counts", None),
                                         ("POST", "/NORTH/worklist", entry_octets("S1")),
                                         ("GET", "/", None)):
                told = pair.ask(method, target, "NORTH", body=body, fields=fields)
                tally.check(f"{method} {target} with {fields}",
                            told.status == 403 and not told.faults, told.status, told.faults)
        for target in ("/", "/page.css", "/health", "/NORTH/counts"):
            for dest in ("document", "iframe", "frame", "empty", "Document"):
                told = pair.ask("GET", target, "NORTH",
                                fields=["Sec-Fetch-Site: cross-site", f"Sec-Fetch-Dest: {dest}"])
                wanted = 200 if (target, dest) == ("/", "document") else 403
                tally.check(f"a link of another site to {target} into a {dest}",
                            told.status == wanted and not told.faults, told.head)
        pair.is_right(tally, "hosts")


# Heads that are none of RFC 9112, each a line or some, with the statuses that they may have.
BAD_HEADS = [
    ("no version", b"GET /health\r\nHost: H\r\n\r\n", 400),
    ("HTTP/2.0", b"GET /health HTTP/2.0\r\nHost: H\r\n\r\n", 400),
    ("no HTTP", b"GET /health XTTP/1.1\r\nHost: H\r\n\r\n", 400),
    ("an empty method", b" /health HTTP/1.1\r\nHost: H\r\n\r\n",
     400),
    ("two spaces", b"GET  /health HTTP/1.1\r\nHost: H\r\n\r\n", 400), ("a control character",
                                                                       b"GET /hea\x01lth "
                                                                       b"HTTP/1.1\r\nHost: "
                                                                       b"H\r\n\r\n", 400),
    ("a bad method", b"G(T /health HTTP/1.1\r\nHost: H\r\n\r\n", 400), ("a space before the colon",
                                                                        b"GET /health "
                                                                        b"HTTP/1.1\r\nHost : "
                                                                        b"H\r\n\r\n", 400),
    ("a line without a colon", b"GET /health HTTP/1.1\r\nHost: H\r\nx\r\n\r\n", 400),
    ("a folded line", b"GET /health HTTP/1.1\r\nHost: H\r\nA: b\r\n c\r\n\r\n", 400),
    ("a NUL in a value", b"GET /health HTTP/1.1\r\nHost: H\r\nA: b\0c\r\n\r\n", 400),
    ("a bare CR in a value", b"GET /health HTTP/1.1\r\nHost: H\r\nA: b\rc\r\n\r\n", 400),
    ("two Hosts", b"GET /health HTTP/1.1\r\nHost: H\r\nHost: H\r\n\r\n", 400),
    ("an association request", b"\x01\0\0\0\0\x10" + bytes(16), 400),
    ("TLS", b"\x16\x03\x01\x02\x00\x01\x00\x01\xfc\x03\x03" + bytes(40), 400),
    ("two lengths", b"POST /x HTTP/1.1\r\nHost: H\r\nContent-Length: 1\r\nContent-Length: "
                    b"1\r\n\r\na", 400),
    ("lengths that differ", b"POST /x HTTP/1.1\r\nHost: H\r\nContent-Length: 1\r\nContent-Length: "
                            b"2\r\n\r\na", 400),
    ("a list of lengths", b"POST /x HTTP/1.1\r\nHost: H\r\nContent-Length: 1, 1\r\n\r\na", 400),
    ("a length of -1", b"POST /x HTTP/1.1\r\nHost: H\r\nContent-Length: -1\r\n\r\n", 400),
    ("a length of +1", b"POST /x HTTP/1.1\r\nHost: H\r\nContent-Length: +1\r\n\r\na", 400),
    ("a length in words", b"POST /x HTTP/1.1\r\nHost: H\r\nContent-Length: one\r\n\r\n", 400),
    ("an empty length", b"POST /x HTTP/1.1\r\nHost: H\r\nContent-Length:\r\n\r\n", 400),
    ("a hexadecimal length", b"POST /x HTTP/1.1\r\nHost: H\r\nContent-Length: 0x1\r\n\r\na", 400),
    ("chunks", b"POST /x HTTP/1.1\r\nHost: H\r\nTransfer-Encoding: chunked\r\n\r\n0\r\n\r\n", 501),
    ("chunks and a length", b"POST /x HTTP/1.1\r\nHost: H\r\nContent-Length: "
                            b"5\r\nTransfer-Encoding: chunked\r\n\r\n0\r\n\r\n",
     (400, 501)),
    ("a coding", b"POST /x HTTP/1.1\r\nHost: H\r\nTransfer-Encoding: gzip\r\n\r\n", 501),
    ("a long body", b"POST /x HTTP/1.1\r\nHost: H\r\nContent-Length: 1048577\r\n\r\n", 413),
    ("a body of 10^30",
     b"POST /x HTTP/1.1\r\nHost: H\r\nContent-Length: 1" + b"0" * 30 + b"\r\n\r\n", 413),
    ("65 fields", b"GET /health HTTP/1.1\r\nHost: H\r\n" + b"A: b\r\n" * 64 + b"\r\n", 431),
    ("a long head", b"GET /health HTTP/1.1\r\nHost: H\r\nA: " + b"b" * 16384 + b"\r\n\r\n", 431),
    ("a long target", b"GET /" + b"a" * 16384 + b" HTTP/1.1\r\nHost: H\r\n\r\n", 431),
    ("a head that does not end", b"GET /health HTTP/1.1\r\n" + b"A: b\r\n" * 20000, 431),
    ("a line that does not end", b"G" * 20000, (400, 431)),
]


def is_last(response: Response) -> bool:
    """Whether a response says that no request is read behind it."""
    return response.fields.get("connection") == "close"


# What a Connection or a version says, and whether the first of two requests is the last one.
LAST_ONES = [
    ("Connection: close", b"1.1", b"Connection: close\r\n", True),
    ("Connection: Close", b"1.1", b"Connection: Close\r\n", True),
    ("close among options", b"1.1", b"Connection: TE,\tClose , x\r\n", True),
    ("HTTP/1.0", b"1.0", b"", True),
    ("close in the second field", b"1.1", b"Connection: TE\r\nConnection: keep-alive, close\r\n",
     True),
    ("keep-alive", b"1.1", b"Connection: keep-alive\r\n", False),
    ("other options", b"1.1", b"Connection: keep-alive, TE\r\n", False),
    ("an option that holds the word", b"1.1", b"Connection: not-close, closed\r\n", False),
    ("no option", b"1.1", b"", False),
]


# One path of each kind of answer: by the front itself, and by the console.
KINDS = [("/health", 200), ("/nowhere", 404), ("/NORTH/counts", 200), ("/NORTH/rs/studies", 204),
         ("/NORTH/worklist", 204),
         ("/NORTH/steps?PatientID=1", 400), ("/NORTH/rs/series", 501)]


def last_ones(tally: Tally, pair: Pair, host: bytes) -> None:
    """The response behind which nothing is read says so, and no other one does, whatever kind of
    answer it is."""
    key = b"Authorization: Bearer " + pair.keys["NORTH"].encode() + b"\r\n"
    for what, version, field, is_end in LAST_ONES:
        for path, status in KINDS:
            head = (b"GET " + path.encode() + b" HTTP/" + version + b"\r\nHost: " + host + b"\r\n"
                    + key + field + b"\r\n")
            told = spoken(pair, head * 2)
            wanted = [True] if is_end else [False, False]
            found = [(one.status, is_last(one)) for one in told]
            tally.check(f"the last response: {what}: {path}",
                        found == [(status, end) for end in wanted], found)
            for method in (b"GET", b"HEAD") if is_end else ():
                with pair.connect() as speaker:
                    speaker.send(head.replace(b"GET", method))
                    last = speaker.response(is_head=method == b"HEAD")
                    tally.check(f"it is closed at once: {what}: {method.decode()} {path}",
                                last.status == status and is_last(last) and speaker.is_closed(),
                                last.head)
    heads = [b"GET " + path + b" HTTP/1.1\r\nHost: " + host + b"\r\n\r\n"
             for path in (b"/nowhere", b"/health")]
    told = spoken(pair, b"".join(heads))
    tally.check("a refusal that is not the last one",
                [(one.status, is_last(one)) for one in told] == [(404, False), (200, False)],
                [(one.status, one.fields) for one in told])


def grammar(tally: Tally, folder: pathlib.Path) -> None:
    with Pair(folder) as pair:
        host = f"{HOST}:{pair.port}".encode()
        for what, octets, status in BAD_HEADS:
            octets = octets.replace(b"Host: H",
                                    b"Host: " + host).replace(b"Host : H", b"Host : " + host)
            told = spoken(pair, octets + b"GET /health HTTP/1.1\r\nHost: " + host + b"\r\n\r\n")
            wanted = status if isinstance(status, tuple) else (status,)
            is_right = (len(told) == 1 and told[0].status in wanted and not told[0].faults
                        and is_last(told[0]))
            tally.check(f"a head with {what}", is_right,
                        [(one.status, one.fields, one.body, one.faults) for one in told])
        good(tally, pair, host)
        last_ones(tally, pair, host)
        bodies(tally, pair)
        random_octets(tally, pair)
        pair.is_right(tally, "grammar")


def good(tally: Tally, pair: Pair, host: bytes) -> None:
    health = b"GET /health HTTP/1.1\r\nHost: " + host + b"\r\n"
    for version, status in ((b"1.1", 400), (b"1.0", 421)):
        told = spoken(pair, b"GET /health HTTP/" + version + b"\r\n\r\n")
        tally.check(f"no Host in {version}", [one.status for one in told] == [status],
                    [one.status for one in told])
    told = spoken(pair, health + b"\r\n")
    tally.check("a Date",
                abs(email.utils.mktime_tz(email.utils.parsedate_tz(told[0].fields["date"]))
                    - time.time()) < 5,
                told[0].fields)
    for what, octets, count in (
            ("a request", health + b"\r\n", 1),
            ("one with 64 fields", health + b"A: b\r\n" * 63 + b"\r\n", 1),
            ("one after empty lines", b"\r\n" + health + b"\r\n", 1),
            ("three at once", (health + b"\r\n") * 3, 3),
            ("a hundred at once", (health + b"\r\n") * 100, 100),
            ("names in capitals", health.replace(b"Host", b"HOST") + b"\r\n", 1),
            ("one that does not end", health, 0), ("a body where none is asked for",
                                                   health + b"Content-Length: 3\r\n\r\nabc" + health
                                                   + b"\r\n", 2),
            ("spaces around a value", health + b"Accept:   text/plain  \r\n\r\n", 1),
            ("nothing", b"", 0)):
        told = spoken(pair, octets)
        tally.check(what, len(told) == count and all(one.status == 200 and one.body == b"ok\n"
                                                     and not one.faults
                                                     for one in told),
                    [(one.status, one.faults) for one in told])
    whole = health + b"\r\n"
    told = spoken(pair, whole * 2, piece=1)
    tally.check("octet by octet", [one.status for one in told] == [200, 200],
                [one.status for one in told])
    statuses = {tuple(one.status for one in spoken(pair, whole[:at]))
                for at in range(0, len(whole), 7)}
    tally.check("a request that is cut short", statuses == {()}, statuses)
    with pair.connect() as speaker:
        told = [speaker.ask("GET", "/health").status for _ in range(50)]
        tally.check("fifty on one connection", told == [200] * 50, told)
        last = speaker.ask("GET", "/health", fields=["Connection: close"])
        tally.check("the last one is the last one", last.status == 200 and speaker.is_closed(),
                    last.head)


def bodies(tally: Tally, pair: Pair) -> None:
    key = pair.keys["NORTH"]
    with pair.connect() as speaker:
        entry = entry_octets("B1")
        speaker.send(speaker.request("POST", "/NORTH/worklist", key, body=entry,
                                     fields=["Expect: 100-continue"])[:-len(entry)])
        told = speaker.response()
        tally.check("100 Continue", told is not None and told.status == 100 and not told.faults,
                    told and told.head)
        speaker.send(entry)
        told = speaker.response()
        tally.check("and then the answer", told.status == 201, told.head)
        pair.expected("POST", "/NORTH/worklist", "NORTH", body=entry)
        tally.check("and another request", speaker.ask("GET", "/health").status == 200)
    expecting = ["Expect: 100-continue", "Content-Length: 100"]
    for what, name, fields in (("no key", None, expecting), ("another key", "SOUTH", expecting),
                               ("another host", "NORTH",
                                [*expecting, "Origin: http://evil.example"])):
        with pair.connect() as speaker:
            speaker.send(speaker.request("POST", "/NORTH/worklist", name and pair.keys[name],
                                         fields=fields))
            told = speaker.response()
            tally.check(f"no 100 Continue for {what}",
                        told is not None and told.status in (401, 403) and is_last(told),
                        told and told.head)
    with pair.connect() as speaker:
        head = speaker.request("POST", "/NORTH/worklist", key, fields=expecting)
        speaker.send(head.replace(b"HTTP/1.1", b"HTTP/1.0") + bytes(100))
        told = speaker.response()
        tally.check("no 100 Continue in HTTP/1.0", told is not None and told.status == 400,
                    told and told.head)
    with pair.connect() as speaker:
        speaker.send(speaker.request("POST", "/NORTH/worklist", fields=["Content-Length: 1000000"]))
        told = speaker.response()
        tally.check("a request without a key is refused before its body comes",
                    told is not None and told.status == 401
                    and speaker.is_closed(), told and told.head)
    with pair.connect() as speaker:
        entry = entry_octets("B2")
        told = speaker.ask("POST", "/NORTH/worklist", key, body=entry,
                           fields=["Expect: 100-continue"])
        told = speaker.response() if told.status == 100 else told
        tally.check("100-continue with the body there", told.status == 201, told.head)
        pair.expected("POST", "/NORTH/worklist", "NORTH", body=entry)
    for at, piece in enumerate((1, 7, 500)):
        entry = entry_octets(f"C{at}")
        with pair.connect() as speaker:
            octets = speaker.request("POST", "/NORTH/worklist", key,
                                     body=entry) + speaker.request("GET", "/NORTH/worklist", key)
        told = spoken(pair, octets, piece=piece)
        tally.check(f"a body by {piece}", [one.status for one in told] == [201, 200]
                    and not any(one.faults for one in told),
                    [one.status for one in told])
        pair.expected("POST", "/NORTH/worklist", "NORTH", body=entry)
    long_bodies(tally, pair, key)


def long_bodies(tally: Tally, pair: Pair, key: str) -> None:
    for length, status in ((BODY_MOST, 400), (BODY_MOST + 1, 413)):
        with pair.connect() as speaker:
            octets = speaker.request("POST", "/NORTH/worklist", key, body=bytes(length))
        told = spoken(pair, octets)
        tally.check(f"a body of {length}", len(told) == 1 and told[0].status == status,
                    [one.status for one in told])
    with pair.connect() as speaker:
        head = speaker.request("POST", "/NORTH/worklist", key, fields=["Content-Length: 2000000"])
        speaker.send(head)
        early = speaker.response()
        tally.check("a long body is refused before it comes",
                    early is not None and early.status == 413 and speaker.is_closed(),
                    early and early.head)


def random_octets(tally: Tally, pair: Pair, count: int = 300) -> None:
    """Requests in which octets are changed at random are answered, or refused, and nothing else
    happens."""
    chance = random.Random(SEED)
    with pair.connect() as speaker:
        whole = speaker.request("GET", "/NORTH/rs/studies?PatientName=A*&limit=5",
                                pair.keys["NORTH"],
                                fields=["Accept: */*", "Connection: close"])
    statuses = set()
    for _ in range(count):
        octets = bytearray(whole)
        for _ in range(chance.randint(1, 4)):
            at = chance.randrange(len(octets))
            octets[at:at + chance.randint(0, 2)] = bytes(chance.choice(b"\r\n\0 :/%\xff\"GA1")
                                                         for _ in range(chance.randint(0, 2)))
        for one in spoken(pair, bytes(octets)):
            statuses.add(one.status)
            if one.faults:
                tally.check("octets at random", False, one.faults, bytes(octets))
    tally.check("octets at random are refused in many ways",
                {200, 400, 401} <= statuses <= {200, 204, 400, 401, 403, 404, 405,
                                                406, 413, 421, 431, 501}, statuses)
