"""The model as a server over sockets: what `serve` and `loopback` do, for the suite that has to
notice what is wrong.

Each connection that comes is the next number's, from 1 on. What is read of it is a piece, its end
is an end, and what is answered is written; nothing more is read of it before. One of which nothing
is read, and whose C-FIND is open, is pulled. At most MOST are held. The console is a Unix socket
that takes lines of a capture. It lets a caller go at its first bad line.
"""
import argparse
import contextlib
import errno
import ipaddress
import os
import pathlib
import re
import selectors
import socket
import sqlite3
import sys
import time
from collections.abc import Callable, Iterator
from typing import Any

from . import replies, stores, web_serving
from .replies import Institution, Server

MOST, READ_MOST = 64, 16384
HOST = "127.0.0.1"
# The console: its callers at a time, the octets of a line, and the seconds that a caller may be
# silent.
MOST_CALLERS, LONGEST_LINE, CALLER_SILENCE = 8, 2_097_408, 60
LONGEST_ENTRY = 1_048_576


class CannotAccept(Exception):
    """No connection can come in any more."""


class Wire:
    def __init__(self, stream: socket.socket, address: tuple[str, int], number: int) -> None:
        stream.setblocking(False)
        self.stream, self.number, self.address = stream, number, address[0]
        self.unsent, self.closed = b"", False
        self.begun = self.passed = time.monotonic()


class Caller:
    """One who calls the console: the octets of lines that are not answered yet, what is unsent of
    an answer, and whether nothing more is taken."""

    def __init__(self, stream: socket.socket) -> None:
        stream.setblocking(False)
        self.stream, self.octets, self.unsent, self.is_over, self.passed = (stream, b"", b"", False,
                                                                            time.monotonic())


class Keeping:
    """A server whose changes are in a store before it answers."""

    def __init__(self, institutions: list[Institution], store: sqlite3.Connection | None) -> None:
        self.server, self.store, self.changes = replies.Server(institutions), store, stores.noted(
            institutions)

    def step(self, *event: Any) -> str:
        line = self.server.reply(*event)
        self.keep()
        return line

    def keep(self) -> None:
        """Keeps in the store what has changed."""
        if self.store is not None:
            stores.keep(self.store, self.changes)
        self.changes.clear()


class Service:
    front: web_serving.WebService | None

    def __init__(self, keeping: Keeping, listener: socket.socket, console: socket.socket | None,
                 words: argparse.Namespace) -> None:
        self.keeping, self.listener, self.console = keeping, listener, console
        self.quiet, self.artim, self.peer_connections = (words.quiet, words.artim,
                                                         words.peer_connections)
        self.newest, self.wires, self.callers, self.front = 0, [], [], None
        self.rest_most = 0.2 if self.quiet or self.artim < 5 else 1.0

    def wait(self) -> set[Any]:
        """The sockets for which something may be done."""
        with selectors.PollSelector() as selector:
            if len(self.wires) < MOST:
                selector.register(self.listener, selectors.EVENT_READ)
            for wire in self.wires:
                selector.register(wire.stream, selectors.EVENT_WRITE if wire.unsent
                                  else selectors.EVENT_READ)
            if self.console is not None and len(self.callers) < MOST_CALLERS:
                selector.register(self.console, selectors.EVENT_READ)
            for caller in self.callers:
                selector.register(caller.stream, selectors.EVENT_WRITE if caller.unsent
                                  else selectors.EVENT_READ)
            for stream, for_what in () if self.front is None else self.front.watched():
                selector.register(stream, for_what)
            rest = 0 if any(map(self.is_pending, self.wires)) else self.rest_most
            return {key.fileobj for key, _ in selector.select(rest)}

    def is_pending(self, wire: Wire) -> bool:
        """Whether more answers may be asked for: all that were given are sent, and a C-FIND is
        open."""
        return not wire.unsent and self.keeping.server.is_pending(wire.number)

    def turn(self) -> None:
        ready, begun = self.wait(), time.monotonic()
        for stream, address in accepted(self.listener, ready):
            self.let_in(stream, address)
        pending = [one for one in self.wires if one.stream not in ready and self.is_pending(one)]
        for wire in [one for one in self.wires if one.stream in ready]:
            self.serve(wire)
        for wire in pending:
            self.take(wire, self.keeping.step("pull", wire.number, b""))
        for wire in [one for one in self.wires if one.closed and not one.unsent]:
            self.drop(wire)
        for wire in [one for one in self.wires if self.is_given_up(one)]:
            self.leave(wire)
        if self.console is not None:
            self.take_orders(ready)
        if self.front is not None:
            self.front.turn(ready, time.monotonic() - begun)

    def let_in(self, stream: socket.socket, address: tuple[str, int]) -> None:
        wire = Wire(stream, address, self.newest + 1)
        if (self.peer_connections and [one.address for one in self.wires].count(wire.address)
            >= self.peer_connections):
            stream.close()
            return
        self.newest += 1
        self.keeping.step("open", self.newest, b"")
        self.wires.append(wire)

    def is_given_up(self, wire: Wire) -> bool:
        """Whether a connection is silent for too long, or has not asked for an association in time
        (PS3.8 section 9.1.5)."""
        now, held = time.monotonic(), self.keeping.server.held.get(wire.number)
        is_late = (self.artim and now - wire.begun > self.artim and held is not None
                   and held.request is None)
        return is_late or self.quiet is not None and now - wire.passed > self.quiet

    def serve(self, wire: Wire) -> None:
        try:
            if wire.unsent:
                self.write(wire)
            else:
                self.read(wire)
        except BlockingIOError:
            return
        except OSError:
            self.leave(wire)

    def write(self, wire: Wire) -> None:
        wire.unsent = wire.unsent[wire.stream.send(wire.unsent):]
        wire.passed = time.monotonic()

    def read(self, wire: Wire) -> None:
        octets = wire.stream.recv(READ_MOST)
        wire.passed = time.monotonic()
        if not octets:
            self.leave(wire)
            return
        self.take(wire, self.keeping.step("piece", wire.number, octets))

    def take(self, wire: Wire, reply: str) -> None:
        words = reply.split(" ")
        octets = b"" if words[1] == "-" else bytes.fromhex(words[1])
        if self.front is not None:
            self.front.counters.count_sent(octets)
        self.answer(wire, octets, words[2:] == ["close"])

    def answer(self, wire: Wire, octets: bytes, close: Any) -> None:
        wire.unsent, wire.closed = octets, close

    def leave(self, wire: Wire) -> None:
        """The connection has ended."""
        if not wire.closed:
            held = self.keeping.server.held.get(wire.number)
            if self.front is not None and held is not None and held.home is not None:
                self.front.counters.outcomes["lost"] += 1
            self.keeping.step("end", wire.number, b"")
        self.drop(wire)

    def drop(self, wire: Wire) -> None:
        with contextlib.suppress(OSError):
            wire.stream.shutdown(socket.SHUT_WR)
        wire.stream.close()
        self.wires.remove(wire)

    def take_orders(self, ready: set[Any]) -> None:
        # (whatever fails at the console ends nothing)
        with contextlib.suppress(CannotAccept):
            self.callers += [Caller(stream) for stream, _ in accepted(self.console, ready)]
        for caller in list(self.callers):
            if caller.stream in ready:
                caller.passed = time.monotonic()
                self.hear(caller)
            if (caller.is_over and not caller.unsent or time.monotonic() - caller.passed
                > CALLER_SILENCE):
                caller.stream.close()
                self.callers.remove(caller)

    def hear(self, caller: Caller) -> None:
        """Sends what is unsent of an answer, or reads. Lines that are whole are answered one by
        one, as each answer is sent."""
        try:
            if not caller.unsent:
                more = caller.stream.recv(READ_MOST)
                caller.octets, caller.is_over = caller.octets + more, not more
            while caller.unsent or b"\n" in caller.octets or len(caller.octets) > LONGEST_LINE:
                caller.unsent = caller.unsent or self.next_answer(caller)
                caller.unsent = caller.unsent[caller.stream.send(caller.unsent):]
        except BlockingIOError:
            return
        except OSError:
            caller.unsent, caller.is_over = b"", True

    def next_answer(self, caller: Caller) -> bytes | None:
        line, _, caller.octets = caller.octets.partition(b"\n")
        answer = self.order(line.decode("latin-1")) if len(line) <= LONGEST_LINE else "bad line"
        if answer == "bad line":
            caller.octets, caller.is_over = b"", True
        return answer.encode() + b"\n"

    def order(self, line: str) -> str:
        if line == "report":
            return "\n".join(self.keeping.server.reported())
        if line == "keys":
            return "refused no web front" if self.front is None else self.front.read_anew()
        try:
            event = replies.event_of(line)
        except ValueError:
            return "bad line"
        return self.keeping.step(*event) if event[0] in ("schedule", "withdraw") else "bad line"


def accepted(listener: socket.socket, ready: set[Any]) -> list[tuple[socket.socket, Any]]:
    """The connections that come in, with their addresses: one, or none."""
    try:
        return [listener.accept()] if listener in ready else []
    except (BlockingIOError, ConnectionAbortedError):
        return []
    except OSError as error:
        if error.errno == errno.EMFILE:
            return []
        raise CannotAccept from error


def listening(host: str, port: int) -> socket.socket:
    family = socket.AF_INET6 if ":" in host else socket.AF_INET
    listener = socket.create_server((host, port), family=family, backlog=128)
    listener.setblocking(False)
    return listener


def number_in(least: int, most: int) -> Callable[..., Any]:
    def number(text: str) -> int:
        if not text.isdigit() or not least <= int(text) <= most:
            raise argparse.ArgumentTypeError(text)
        return int(text)
    return number


def console_at(path: str) -> socket.socket | None:
    """The console's socket, with rights for its owner alone. A file that a server left behind is
    taken away."""
    path = pathlib.Path(path)
    if path.is_socket():
        with socket.socket(socket.AF_UNIX) as probe:
            if not probe.connect_ex(str(path)):
                raise OSError(errno.EADDRINUSE, "somebody listens there")
        path.unlink()
    console, before = socket.socket(socket.AF_UNIX), os.umask(0o177)
    try:
        console.bind(str(path))
    finally:
        os.umask(before)
    console.listen(128)
    console.setblocking(False)
    return console


def origin(text: str) -> str:
    """An origin, as browsers write it (RFC 6454 section 6.2)."""
    found = re.fullmatch(r"https?://[a-z0-9.-]+(?::([0-9]+))?", text, re.ASCII)
    if not found or found[1] is not None and not 1 <= int(found[1]) <= 65535:
        raise argparse.ArgumentTypeError("no origin")
    return text


class Words(argparse.ArgumentParser):
    def print_help(self, _: object = None) -> None:
        """A request for help is usage too."""
        super().print_help(sys.stderr)


def parser() -> argparse.ArgumentParser:
    words = Words(prog="dq_server serve", allow_abbrev=False)
    words.add_argument("--port", type=number_in(1, 65535), required=True, metavar="<PORT>")
    words.add_argument("--turns", type=number_in(0, 2 ** 32 - 1), metavar="<TURNS>")
    words.add_argument("--listen", default=HOST, metavar="<ADDRESS>")
    words.add_argument("--console", metavar="<PATH>")
    words.add_argument("--artim", type=number_in(0, 2 ** 32 - 1), default=30, metavar="<SECONDS>")
    words.add_argument("--quiet", type=number_in(1, 2 ** 32 - 1), metavar="<SECONDS>")
    words.add_argument("--peer-connections", type=number_in(0, 2 ** 32 - 1), default=0,
                       metavar="<N>")
    words.add_argument("--web", type=number_in(1, 65535), metavar="<PORT>")
    words.add_argument("--web-keys", metavar="<FILE>")
    words.add_argument("--web-listen", metavar="<ADDRESS>")
    words.add_argument("--web-host", metavar="<HOST>")
    words.add_argument("--web-origin", type=origin, metavar="<ORIGIN>")
    words.add_argument("--web-proxy", metavar="<ADDRESS>")
    words.add_argument("--web-peer-connections", type=number_in(0, 2 ** 32 - 1), metavar="<N>")
    words.add_argument("--log", action="store_true")
    words.add_argument("--log-file", metavar="<FILE>")
    return replies.with_options(words)


def serve(words: list[str], service: type = Service) -> int:
    """Serves as the words say; the exit status."""
    parsed = parser()
    words = parsed.parse_args(words)
    beside_web = (words.web_listen, words.web_host, words.web_origin, words.web_proxy,
                  words.web_peer_connections)
    if (words.web is None) != (words.web_keys is None) or words.web is None and any(
            word is not None for word in beside_web):
        parsed.error("--web and --web-keys go together")
    institutions, store, status = replies.begun(words)
    if status:
        return status
    keeping = Keeping(institutions, store)
    try:
        listener = listening(str(ipaddress.ip_address(words.listen)), words.port)
        console = None if words.console is None else console_at(words.console)
        front = web_serving.begun(keeping, words)
    except (OSError, ValueError):
        print("network", file=sys.stderr)
        return 5
    except web_serving.BadKeys as bad:
        print("keys line", bad.args[0], file=sys.stderr)
        return 2
    try:
        print(f"ready {words.port}", flush=True)
    except OSError:
        sys.stdout = None
        return 4
    if store is not None:
        # nobody else may have it from now on
        store.execute("PRAGMA locking_mode = EXCLUSIVE")
        store.executescript("BEGIN IMMEDIATE; COMMIT")
    serving = service(keeping, listener, console, words)
    serving.front = front
    if words.turns is not None:
        serving.rest_most = 0.001
    while words.turns is None or words.turns > 0:
        try:
            serving.turn()
        except CannotAccept:
            print("network", file=sys.stderr)
            return 5
        if words.turns is not None:
            words.turns -= 1
    return 0


def turned(server: Server, events: Any) -> Iterator[tuple[tuple[str, int, bytes], int, str]]:
    """What happens over sockets: each event but pulls, with the pulls that follow until nothing is
    pending, and the reply of all."""
    for event in events:
        if event[0] == "pull":
            continue
        words = server.reply(*event).split(" ")
        pulls = 0
        while event[0] == "piece" and server.is_pending(event[1]):
            words[1] += server.reply("pull", event[1], b"").split(" ")[1]
            pulls += 1
        yield event, pulls, " ".join(words)


def loopback(words: list[str], capture: bytes) -> int:
    """Plays a capture, and prints what each connection was sent; the exit status."""
    words = replies.with_options(Words(prog="dq_server loopback"),
                                 has_store=False).parse_args(words)
    institutions, _, status = replies.begun(words)
    if status:
        return status
    events = replies.read_capture(capture)
    if isinstance(events, int):
        print(f"capture line {events}", file=sys.stderr)
        return 3
    sent = {}
    for event, _, line in turned(replies.Server(institutions), events):
        if event[0] == "open":
            sent[event[1]] = ""
        if event[0] == "piece" and line != "ignored":
            sent[event[1]] += line.split(" ")[1].replace("-", "")
    for number, octets in sorted(sent.items()):
        print(number, octets or "-")
    return 0
