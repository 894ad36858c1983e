"""Sockets and the console that are served otherwise."""
import errno
import io
import os
import signal
import socket
import sqlite3
import stat
import sys
from collections.abc import Callable
from typing import Any

from ..model import serving, stores
from ..model.stores import Noted
from .answers import Stop


def of_service(method: str) -> Any:
    """A decorator for what serves over sockets in place of a method; it is given the right one."""
    def decorate(wrong: Callable[..., Any]) -> None:
        right = getattr(serving.Service, method)
        setattr(serving.Service, method, lambda self, *words: wrong(self, right, *words))
    return decorate


def socket_drops_an_octet() -> None:
    @of_service("answer")
    def answer(self: Any, right: Callable[..., Any], wire: serving.Wire, octets: bytes,
               close: list[str]) -> None:
        right(self, wire, octets[:-1], close)


def socket_answers_another() -> None:
    """What is answered goes to the connection that came last."""
    @of_service("answer")
    def answer(self: Any, right: Callable[..., Any], wire: serving.Wire, octets: bytes,
               close: list[str]) -> None:
        right(self, wire, b"", close)
        right(self, self.wires[-1], octets, close and wire is self.wires[-1])


def socket_never_closes() -> None:
    @of_service("answer")
    def answer(self: Any, right: Callable[..., Any], wire: serving.Wire, octets: bytes,
               _: object) -> None:
        right(self, wire, octets, False)


def socket_drops_what_waits() -> None:
    """What is not taken at once is dropped."""
    @of_service("write")
    def write(self: Any, right: Callable[..., Any], wire: serving.Wire) -> None:
        right(self, wire)
        wire.unsent = b""


def socket_waits_for_one() -> None:
    """All wait until one has taken its answer."""
    @of_service("write")
    def write(self: Any, right: Callable[..., Any], wire: serving.Wire) -> None:
        wire.stream.setblocking(True)
        wire.stream.sendall(wire.unsent)
        wire.stream.setblocking(False)
        wire.unsent = b""


def socket_holds(most: str) -> None:
    serving.MOST = int(most)


def socket_stops_at_a_reset() -> None:
    """The server stops for all where a connection is reset."""
    @of_service("read")
    def read(self: Any, right: Callable[..., Any], wire: serving.Wire) -> None:
        try:
            right(self, wire)
        except ConnectionResetError:
            raise Stop from None


def socket_stops_at(number: str) -> None:
    """The server stops for all where octets come for the Nth time."""
    count = [0]

    @of_service("read")
    def read(self: Any, right: Callable[..., Any], wire: serving.Wire) -> None:
        count[0] += 1
        if count[0] >= int(number):
            raise Stop
        right(self, wire)


def socket_keeps_what_ended() -> None:
    """A connection that ended stays an association, and its socket stays open."""
    @of_service("leave")
    def leave(self: Any, right: Callable[..., Any], wire: serving.Wire) -> None:
        self.wires.remove(wire)
        self.left = [*getattr(self, "left", []), wire]


def socket_spins() -> None:
    right = serving.Service.__init__

    def begin(self: serving.Service, *words: Any) -> None:
        right(self, *words)
        self.rest_most = 0

    serving.Service.__init__ = begin


def socket_forgets() -> None:
    """What was changed is kept with the tenth change from then."""
    right, late = stores.keep, []

    def keep(store: sqlite3.Connection, changes: list[tuple[int, str, bytes, Noted]]) -> None:
        late.extend(changes)
        changes[:] = late if len(late) > 40 else []
        if changes:
            late.clear()
        right(store, changes)

    stores.keep = keep


def socket_ends_with(status: str) -> None:
    """SIGTERM is answered by another exit status."""
    signal.signal(signal.SIGTERM, lambda *_: sys.exit(int(status)))


def console_forgets_orders() -> None:
    """An order is answered, and nothing is done."""
    @of_service("order")
    def order(self: Any, right: Callable[..., Any], line: str) -> Any:
        return ("done" if line.startswith("schedule NORTH") and len(line) > 100
                else right(self, line))


def console_for_all() -> None:
    """Everybody may write the console's file."""
    right = serving.console_at

    def console_at(path: str) -> socket.socket:
        console = right(path)
        os.chmod(path, 0o666)
        return console

    serving.console_at = console_at


def console_takes(what: str) -> None:
    """What is at the console's path is taken away: a socket that is in `use`, or a `file` of
    another kind; or nothing is."""
    right = serving.console_at

    def console_at(path: str) -> socket.socket:
        is_socket = stat.S_ISSOCK(os.stat(path).st_mode) if os.path.exists(path) else None
        if is_socket and what == "nothing":
            raise OSError(errno.EADDRINUSE, "it is there")
        if (is_socket and what == "use" or is_socket is False and what == "file"
            and not os.path.isdir(path)):
            os.unlink(path)
        return right(path)

    serving.console_at = console_at


def console_holds(most: str) -> None:
    serving.MOST_CALLERS = int(most)


def console_waits(seconds: str) -> None:
    serving.CALLER_SILENCE = int(seconds)


def console_line_of(most: str) -> None:
    """Another length is the greatest of a line."""
    serving.LONGEST_LINE = int(most)


def console_goes_on() -> None:
    """A caller stays after a line that is none."""
    @of_service("next_answer")
    def next_answer(self: Any, right: Callable[..., Any], caller: Any) -> Any:
        line, _, rest = caller.octets.partition(b"\n")
        answer = right(self, caller)
        caller.octets, caller.is_over = rest, False
        return answer


def console_cuts_long_lines() -> None:
    """A longest line that comes with octets of the next one is none."""
    @of_service("next_answer")
    def next_answer(self: Any, right: Callable[..., Any], caller: Any) -> Any:
        if len(caller.octets) > serving.LONGEST_LINE:
            caller.octets = b"\n"
        return right(self, caller)


def loopback_sorts_by_text() -> None:
    right = serving.loopback

    def loopback(words: list[str], capture: bytes) -> int:
        sys.stdout, told = io.StringIO(), sys.stdout
        status = right(words, capture)
        lines, sys.stdout = sys.stdout.getvalue().split("\n")[:-1], told
        print("".join(f"{line}\n" for line in sorted(lines, reverse=True)), end="")
        return status

    serving.loopback = loopback


def socket_waits_for_whole_pdus() -> None:
    """All wait until what one sends is whole."""
    @of_service("read")
    def read(self: Any, right: Callable[..., Any], wire: serving.Wire) -> None:
        right(self, wire)
        wire.stream.setblocking(True)
        while wire in self.wires and not wire.closed and self.keeping.server.held[wire.number].rest:
            right(self, wire)
        if wire in self.wires:
            wire.stream.setblocking(False)


def socket_reads_on() -> None:
    """More is read of one whose answers are waiting."""
    @of_service("wait")
    def wait(self: Any, right: Callable[..., Any]) -> Any:
        self.rest_most = 0.001
        return right(self) | {wire.stream for wire in self.wires}

    @of_service("serve")
    def serve(self: Any, right: Callable[..., Any], wire: serving.Wire) -> None:
        right(self, wire)
        if wire in self.wires and wire.unsent and not wire.closed:
            unsent, wire.unsent = wire.unsent, b""
            right(self, wire)
            wire.unsent = unsent + wire.unsent
