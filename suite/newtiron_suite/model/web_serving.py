"""The model's web front over sockets, for the suite that has to notice what is wrong: requests are
cut off the octets of connections (RFC 9112), answered by the model (web.py), and the answers
written. At most MOST connections are held.
"""
from __future__ import annotations

import argparse
import collections
import contextlib
import email.utils
import hashlib
import http.client
import ipaddress
import pathlib
import re
import selectors
import socket
import sqlite3
from collections.abc import Iterator
from typing import TYPE_CHECKING, Any

from ..paths import TOP
from . import web
from .messages import C_ECHO, C_FIND, C_STORE, N_CREATE, N_SET
from .replies import Institution

if TYPE_CHECKING:
    from .serving import Keeping

HOST, MOST, READ_MOST = "127.0.0.1", 64, 16384
HEAD_MOST, FIELDS_MOST, BODY_MOST = 16384, 64, 1048576
FILES = {"/": "index.html", "/page.css": "page.css", "/page.js": "page.js"}
FIXED = {"Cache-Control": "no-store", "X-Content-Type-Options": "nosniff",
         "Referrer-Policy": "no-referrer",
         "Content-Security-Policy": "default-src 'none'; script-src 'self'; style-src 'self'; "
                                    "connect-src 'self'; base-uri 'none'; "
                                    "form-action 'none'; frame-ancestors 'none'"}
TOKEN = rb"[!#$%&'*+.^_`|~0-9A-Za-z-]+"
KEY_LINE = re.compile(r"(?:(?P<name>[A-Z0-9_]{1,16})(?: (?P<right>read|order))?"
                      r"|\*(?: (?P<server>metrics|backup))?)"
                      r" (?P<digest>[0-9a-fA-F]{64})(?: [A-Za-z0-9_.-]{1,32})?")
# The fields that count, each of which may stand once.
SINGLE = {"host", "content-length", "transfer-encoding", "authorization", "origin",
          "sec-fetch-site", "sec-fetch-dest", "access-control-request-method", "expect"}
# Lists, whose values are joined (RFC 9110 section 5.3).
LISTS = {"connection", "accept", "content-type"}
SERVICES = {C_ECHO: "echo", C_FIND: "find", C_STORE: "store", N_CREATE: "create", N_SET: "set"}
OUTCOMES = {2: "accepted", 3: "rejected", 6: "released", 7: "aborted"}
BOUNDS = (0.001, 0.005, 0.01, 0.05, 0.1, 0.5, 1)
HELP = {"rows": "Rows that are kept.", "rows_limit": "Rows that may be kept.",
        "associations_open": "Associations that are open.",
        "associations_total": "Associations since the start.",
        "operations_total": "Messages that were answered.",
        "http_requests_total": "Requests that were answered.",
        "turn_seconds": "Turns of all connections.", "memory_bytes": "Memory of the server."}

Request = collections.namedtuple("Request",
                                 "method target fields body is_last extent is_expecting is_old")


class Refused(Exception):
    """A request that is none, by a status and a word."""


class BadKeys(Exception):
    """A file that tells no keys: the number of its first bad line, 0 where it has none or cannot be
    read, and the words for why."""


# The names and the rights of keys, by their digests; a right of None is all that the name has.
Digests = dict[str, set[tuple[str, str | None]]]


def read_keys(path: str) -> Digests:
    """The keys of a file."""
    found: Digests = {}
    try:
        lines = pathlib.Path(path).read_bytes().decode().split("\n")
    except (OSError, UnicodeDecodeError):
        raise BadKeys(0, "failed") from None
    for number, line in enumerate(lines, 1):
        line = line.removesuffix("\r")
        if line and not line.startswith("#"):
            key = KEY_LINE.fullmatch(line)
            if key is None:
                raise BadKeys(number, f"line {number}")
            found.setdefault(key["digest"].lower(), set()).add(
                (key["name"] or "*", key["right"] or key["server"]))
    if not found:
        raise BadKeys(0, "line 0")
    return found


def fields_in(lines: list[bytes]) -> dict[str, str]:
    """The fields of a head, by their names in lower case."""
    if len(lines) > FIELDS_MOST:
        raise Refused(431, "head")
    found = {}
    for line in lines:
        field = re.fullmatch(rb"(" + TOKEN + rb"):[ \t]*((?:[\x21-\x7e\x80-\xff](?:[\t "
                                             rb"-~\x80-\xff]*[\x21-\x7e\x80-\xff])?)?)[ \t]*", line)
        name = field[1].decode().lower() if field else None
        if field is None or name in found and name in SINGLE:
            raise Refused(400, "request")
        value = field[2].decode("latin-1")
        found[name] = f"{found[name]},{value}" if name in LISTS and name in found else value
    return found


def length_in(fields: dict[str, str]) -> int:
    """The length of the body."""
    if "transfer-encoding" in fields:
        raise Refused(501, "coding")
    length = fields.get("content-length", "0")
    if not re.fullmatch("[0-9]+", length, re.ASCII):
        raise Refused(400, "request")
    if int(length) > BODY_MOST:
        raise Refused(413, "length")
    return int(length)


def cut_off(octets: bytes) -> Request | None:
    """The request at the front of octets; None where none is whole. Its body is None where only the
    head is there."""
    begin = len(octets) - len(octets.lstrip(b"\r\n"))
    end = octets.find(b"\r\n\r\n", begin)
    if end + 4 - begin > HEAD_MOST or end < 0 and len(octets) - begin > HEAD_MOST:
        raise Refused(431, "head")
    if end < 0:
        whole = octets[begin:octets.rfind(b"\r\n")]
        first = whole.split(b"\r\n")[0] if b"\r\n" in octets[begin:] else None
        check_start(first, octets[begin:])
        return None
    line, *lines = octets[begin:end].split(b"\r\n")
    found = check_start(line, line)
    fields = fields_in(lines)
    extent = end + 4 + length_in(fields)
    body = octets[end + 4:extent] if len(octets) >= extent else None
    is_old = found[3] == b"0"
    is_last = is_old or "close" in re.split(r"[,; \t]", fields.get("connection", "").lower())
    return Request(found[1].decode(), found[2].decode(), fields, body, is_last, extent,
                   fields.get("expect", "").lower() == "100-continue" and not is_old, is_old)


def check_start(line: bytes | None, octets: bytes) -> re.Match[bytes] | None:
    """The parts of the first line, where it is whole. Octets that can begin none are refused at
    once."""
    if line is None:
        if re.match(rb"[\x00-\x1f\x7f-\xff]", octets):
            raise Refused(400, "request")
        return None
    found = re.fullmatch(rb"(" + TOKEN + rb") ([\x21-\x7e]+) HTTP/1\.([01])", line)
    if found is None:
        raise Refused(400, "request")
    return found


class Keyed(web.Front):
    """The model's front, which knows digests of keys."""

    def __init__(self, institutions: list[Institution], digests: Digests,
                 host: str | None, viewer: str | None) -> None:
        super().__init__(institutions, {}, host, viewer)
        self.digests = digests

    def rights(self, name: str, fields: dict[str, str]) -> set[str | None]:
        given = web.key_in(fields)
        known = self.digests.get(hashlib.sha256((given or "").encode()).hexdigest(), set())
        return {right for whose, right in known if given is not None and whose == name}


class Caller:
    """A connection of the front."""

    def __init__(self, stream: socket.socket) -> None:
        stream.setblocking(False)
        self.stream, self.octets, self.unsent, self.is_over, self.was_told = (stream, b"", b"",
                                                                              False, False)


class Counters:
    """What the metrics count besides rows."""

    def __init__(self) -> None:
        self.outcomes, self.operations, self.turns = (collections.Counter(), collections.Counter(),
                                                      [])
        self.requests: collections.Counter[tuple[str, int]] = collections.Counter()

    def count_sent(self, octets: bytes) -> None:
        """Counts what an association is sent first, or at its end."""
        while len(octets) >= 6:
            self.outcomes[OUTCOMES.get(octets[0])] += 1
            octets = octets[6 + int.from_bytes(octets[2:6], "big"):]


class WebService:
    """The front beside the service of associations, whose events are `keeping`'s."""

    def __init__(self, keeping: Keeping, path: str, address: tuple[str, int],
                 host: str | None, viewer: str | None) -> None:
        self.keeping, self.counters, self.callers, self.path = keeping, Counters(), [], path
        self.front = Keyed(keeping.server.institutions, read_keys(path), host, viewer)
        family = socket.AF_INET6 if ":" in address[0] else socket.AF_INET
        self.listener = socket.create_server(address, family=family, backlog=128)
        self.listener.setblocking(False)

    def read_anew(self) -> str:
        """The console's answer to the order that the file of keys is read anew."""
        try:
            self.front.digests = read_keys(self.path)
        except BadKeys as bad:
            return f"refused {bad.args[1]}"
        return "done"

    def watched(self) -> Iterator[Any]:
        if len(self.callers) < MOST:
            yield self.listener, selectors.EVENT_READ
        for caller in self.callers:
            yield caller.stream, selectors.EVENT_WRITE if caller.unsent else selectors.EVENT_READ

    def turn(self, ready: set[Any], seconds: float) -> None:
        self.counters.turns.append(seconds)
        if self.listener in ready:
            with contextlib.suppress(OSError):
                self.callers.append(Caller(self.listener.accept()[0]))
        for caller in list(self.callers):
            if caller.stream in ready:
                self.hear(caller)
            if caller.is_over and not caller.unsent:
                self.leave(caller)

    def leave(self, caller: Caller) -> None:
        with contextlib.suppress(OSError):
            caller.stream.shutdown(socket.SHUT_WR)
        caller.stream.close()
        self.callers.remove(caller)

    def hear(self, caller: Caller) -> None:
        """Sends what is unsent, or reads; requests that are whole are answered one by one, as each
        answer is sent."""
        try:
            if not caller.unsent:
                more = caller.stream.recv(READ_MOST)
                caller.octets += more
                caller.is_over = not more
            while caller.unsent or self.answer_next(caller):
                caller.unsent = caller.unsent[caller.stream.send(caller.unsent):]
        except BlockingIOError:
            return
        except OSError:
            caller.unsent, caller.is_over = b"", True

    def answer_next(self, caller: Caller) -> bool:
        """Puts the answer to the next request into what is unsent; whether there is one."""
        try:
            request = cut_off(caller.octets) if caller.octets.strip(b"\r\n") else None
        except Refused as refused:
            self.counters.requests["none", refused.args[0]] += 1
            caller.unsent, caller.octets, caller.is_over = spelled("", web.refused(*refused.args),
                                                                   True), b"", True
            return True
        if request is None:
            return False
        if request.body is None:
            why = self.front.judged(request.method, request.target, request.fields, request.is_old)
            if why:
                self.counters.requests[web.kind_of(request.target), why.status] += 1
                caller.unsent, caller.octets, caller.is_over = spelled(request.method, why,
                                                                       True), b"", True
                return True
            if not request.is_expecting or caller.was_told:
                return False
            caller.unsent, caller.was_told = b"HTTP/1.1 100 Continue\r\n\r\n", True
            return True
        caller.octets, caller.was_told = caller.octets[request.extent:], False
        if request.is_last:
            caller.octets, caller.is_over = b"", True
        answer = self.answer(request)
        self.counters.requests[web.kind_of(request.target), answer.status] += 1
        caller.unsent = spelled(request.method, answer, request.is_last)
        return True

    def answer(self, request: Request) -> web.Answer:
        path = web.host_and_path(request.target, None)[1].partition("?")[0]
        answer = self.front.answer(request.method, request.target, request.fields, request.body,
                                   request.is_old)
        self.keeping.keep()
        if answer.status == 200 and path in FILES:
            answer.body = (TOP / "web" / FILES[path]).read_bytes()
        elif answer.status == 200 and path == "/health":
            answer.body = b"ok\n"
        elif answer.status == 200 and path == "/metrics":
            answer.body, answer.kind = ("".join(f"{line}\n"
                                               for line in self.metrics()).encode(),
                                        "text/plain; version=0.0.4")
        elif answer.status == 200 and path == "/backup":
            return self.copied(request.body)
        return answer

    def copied(self, body: bytes) -> web.Answer:
        """The answer to a backup at a path."""
        try:
            path = body.decode()
        except UnicodeDecodeError:
            path = ""
        if not path or re.search(r"[\x00-\x1f\x7f]", path):
            return web.refused(400, "request")
        if self.keeping.store is None:
            return web.refused(409, "no store")
        if pathlib.Path(path).exists():
            return web.refused(409, "taken")
        try:
            with contextlib.closing(sqlite3.connect(path)) as copy:
                self.keeping.store.backup(copy)
        except sqlite3.Error:
            return web.refused(500, "failed")
        return web.Answer(200, web.TEXT)

    def metrics(self) -> Iterator[Any]:
        """The lines of the metrics."""
        kinds = [(one.name, web.counted(one)) for one in self.keeping.server.institutions]
        labels = [(f'{{institution="{name}",kind="{kind}"}}', counts) for name,
                  found in kinds for kind, counts in found.items()]
        yield from sampled("rows", "gauge", [(label, counts["kept"]) for label, counts in labels])
        yield from sampled("rows_limit", "gauge", [(label, counts["limit"]) for label,
                                                   counts in labels if "limit" in counts])
        yield from sampled("associations_open", "gauge",
                           [("", sum(one.live for one in self.keeping.server.institutions))])
        outcomes = (*OUTCOMES.values(), "lost")
        yield from sampled("associations_total", "counter",
                           [(f'{{outcome="{one}"}}', self.counters.outcomes[one])
                            for one in outcomes])
        served = [(f'{{service="{SERVICES[field]}",status="{name}"}}', count)
                  for (field, name),
                  count in sorted(self.keeping.server.served.items()) if field in SERVICES]
        yield from sampled("operations_total", "counter", served)
        asked = [(f'{{kind="{kind}",status="{status}"}}', count)
                 for (kind, status), count in sorted(self.counters.requests.items())]
        yield from sampled("http_requests_total", "counter", asked)
        turns = self.counters.turns
        buckets = [(f'_bucket{{le="{bound}"}}', sum(one <= bound for one in turns))
                   for bound in BOUNDS]
        buckets += [('_bucket{le="+Inf"}', len(turns)), ("_sum", sum(turns)),
                    ("_count", len(turns))]
        yield from sampled("turn_seconds", "histogram", buckets)
        pages = int(pathlib.Path("/proc/self/statm").read_text().split()[1])
        yield from sampled("memory_bytes", "gauge", [("", pages * 4096)])


def sampled(name: str, kind: Any, samples: list[tuple[str, Any]]) -> Iterator[str]:
    """The lines of a metric (the text format 0.0.4 of Prometheus)."""
    yield f"# HELP newtiron_{name} {HELP[name]}"
    yield f"# TYPE newtiron_{name} {kind}"
    for label, value in samples:
        yield f"newtiron_{name}{label} {value}"


def spelled(method: str, answer: web.Answer, is_last: bool) -> bytes:
    """The octets of a response."""
    fields: dict[str, object] = dict(FIXED)
    if answer.status != 204:
        kind = (answer.kind if answer.kind.startswith("application/")
                else f"{answer.kind}; charset=utf-8")
        fields |= {"Content-Type": kind, "Content-Length": len(answer.body)}
    fields["Date"] = email.utils.formatdate(usegmt=True)
    fields |= {**answer.fields, **({"Connection": "close"} if is_last else {})}
    head = f"HTTP/1.1 {answer.status} {http.client.responses[answer.status]}\r\n"
    head += "".join(f"{name}: {value}\r\n" for name, value in fields.items())
    return head.encode() + b"\r\n" + (b"" if method == "HEAD" else answer.body)


def begun(keeping: Keeping, words: argparse.Namespace) -> WebService | None:
    """The front that the words ask for; None where they ask for none."""
    if words.web is None:
        return None
    if words.web_proxy is not None:
        ipaddress.ip_address(words.web_proxy)
    return WebService(keeping, words.web_keys, (words.web_listen or HOST, words.web),
                      words.web_host, words.web_origin)
