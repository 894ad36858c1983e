"""A client over sockets, and the program as it serves on a port: for the suites and the
measurements of sockets. PATIENCE names the seconds after which an answer is thought not to come.
"""
from __future__ import annotations

import contextlib
import os
import pathlib
import select
import socket
import struct
import subprocess
import tempfile
import time
from collections.abc import Callable, Mapping
from typing import Any

from .model import data_sets
from .model.messages import NO_DATA_SET, little
from .model.upper_layer import P_DATA, big


HOST, PATIENCE = "127.0.0.1", float(os.environ.get("PATIENCE", 20))
STATUS, KIND = 0x0900, 0x0800
PENDING = (0xFF00, 0xFF01)


def free_port(host: str = HOST) -> int:
    """A port that nobody listens on."""
    with socket.socket(socket.AF_INET6 if ":" in host else socket.AF_INET) as listener:
        listener.bind((host, 0))
        return listener.getsockname()[1]


def until(condition: Callable[[], object], patience: float = PATIENCE) -> bool:
    """Whether the condition comes to hold in so many seconds."""
    end = time.monotonic() + patience
    while not condition():
        if time.monotonic() > end:
            return False
        time.sleep(0.005)
    return True


class Serving:
    """A run of `serve` with these words, and these variables besides, which has told that it is
    ready."""

    def __init__(self, program: str | pathlib.Path, *words: object, has_console: bool = False,
                 environment: Mapping[str, object] | None = None, host: str = HOST, umask: int = -1,
                 errors: int | None = None) -> None:
        environment = {name: str(value) for name, value in (environment or {}).items()}
        self.room = tempfile.TemporaryDirectory(prefix="console-")
        self.console_path = pathlib.Path(self.room.name) / "socket"
        console = ["--console", self.console_path] if has_console else []
        for _ in range(5):
            self.told = tempfile.TemporaryFile()
            self.port = free_port(host)
            command = [program, "serve", "--port", self.port, *console, *words]
            self.child = subprocess.Popen(list(map(str, command)), stdin=subprocess.DEVNULL,
                                          stdout=subprocess.PIPE,
                                          stderr=self.told if errors is None else errors,
                                          umask=umask,
                                          env={**os.environ, **environment})
            self.first = self.child.stdout.readline()
            # another program may have taken the port meanwhile
            if self.first or self.child.wait() != 5:
                break

    def __enter__(self) -> Serving:
        if self.first != b"ready %d\n" % self.port:
            self.end()
            raise ConnectionError(f"not ready: {self.first!r}, {self.errors()!r}")
        return self

    def __exit__(self, *_: Any) -> None:
        self.end()

    def end(self, number: int | None = None) -> int:
        """Ends it by a signal, if it has not ended; its exit status."""
        if self.child.poll() is None:
            self.child.kill() if number is None else self.child.send_signal(number)
        status = self.child.wait()
        self.child.stdout.close()
        self.room.cleanup()
        return status

    def errors(self) -> bytes:
        """What it has told on standard error."""
        # (the child writes where the file stands, so it is read elsewhere)
        told = self.told.fileno()
        return os.pread(told, os.fstat(told).st_size, 0)

    def connect(self) -> Client:
        return Client(self.port)

    def console(self) -> Caller:
        return Caller(self.console_path)

    def is_running(self) -> bool:
        return self.child.poll() is None

    def seconds(self) -> float:
        """The seconds of the processor that it has spent."""
        text = pathlib.Path(f"/proc/{self.child.pid}/schedstat").read_text()
        return int(text.split()[0]) / 1e9

    def memory(self, field: str = "VmRSS") -> float:
        """Its resident memory, in megabytes; as `VmHWM`, the most that it had."""
        status = pathlib.Path(f"/proc/{self.child.pid}/status").read_text()
        return int(next(line for line in status.split("\n")
                        if line.startswith(f"{field}:")).split()[1]) / 1024

    def descriptors(self) -> int:
        return sum(1 for _ in pathlib.Path(f"/proc/{self.child.pid}/fd").iterdir())


class Client:
    """A connection to the server."""

    def __init__(self, port: int, host: str = HOST, source: str | None = None) -> None:
        self.socket = socket.create_connection((host, port), PATIENCE,
                                               None if source is None else (source, 0))
        self.socket.setsockopt(socket.IPPROTO_TCP, socket.TCP_NODELAY, 1)
        self.octets = b""

    def __enter__(self) -> Any:
        return self

    def __exit__(self, *_: object) -> None:
        self.close()

    def send(self, octets: bytes) -> None:
        self.socket.sendall(octets)

    def fill(self, count: int) -> None:
        """Receives until so many octets are here, or the server sends no more."""
        while len(self.octets) < count:
            try:
                more = self.socket.recv(1 << 16)
            except ConnectionResetError:
                more = b""
            if not more:
                break
            self.octets += more

    def exchange(self, octets: bytes, count: int) -> bytes:
        """Sends octets, and receives so many; what comes while there is more to send is received at
        once."""
        rest = memoryview(octets)
        while rest:
            came, may_send, _ = select.select([self.socket], [self.socket], [], PATIENCE)
            if not came and not may_send:
                raise TimeoutError
            try:
                if came:
                    more = self.socket.recv(1 << 16)
                    self.octets += more
                    if not more:
                        break
                if may_send:
                    rest = rest[self.socket.send(rest[:1 << 16]):]
            except (ConnectionResetError, BrokenPipeError):
                break
        return self.receive(count)

    def receive(self, count: int) -> bytes:
        """So many octets; fewer where the server sends no more."""
        self.fill(count)
        taken, self.octets = self.octets[:count], self.octets[count:]
        return taken

    def rest(self) -> bytes:
        """All octets up to the end of what the server sends."""
        return self.receive(1 << 62)

    def is_silent(self, seconds: float) -> bool:
        """Whether nothing comes in so many seconds, not even the end."""
        if self.octets:
            return False
        self.socket.settimeout(seconds)
        try:
            self.octets += self.socket.recv(1 << 16)
            return False
        except TimeoutError:
            return True
        except ConnectionResetError:
            return False
        finally:
            self.socket.settimeout(PATIENCE)

    def speaks(self, seconds: float) -> bool:
        """Whether something comes in so many seconds, if only the end."""
        return not self.is_silent(seconds)

    def pdu(self) -> tuple[int, bytes] | None:
        """The type and the body of the next PDU; None where no whole one comes."""
        head = self.receive(6)
        if len(head) < 6:
            return None
        length = big(head[2:6])
        body = self.receive(length)
        return (head[0], body) if len(body) == length else None

    def status(self) -> int | None:
        """The status of the next response, after its data set if it has one; None where another PDU
        comes, or none."""
        command, is_command, needs_data = b"", True, False
        while True:
            taken = self.pdu()
            if taken is None or taken[0] != P_DATA:
                return None
            body, at = taken[1], 0
            while at < len(body):
                length, control = big(body[at:at + 4]), body[at + 5]
                command += body[at + 6:at + 4 + length] if is_command else b""
                at += 4 + length
                if not control & 2:
                    continue
                if is_command:
                    found = data_sets.elements(data_sets.Octets(command), False,
                                               data_sets.IMPLICIT, 0)
                    fields = {element: little(value) for (_, element), _,
                              value in found if element in (STATUS, KIND)}
                    is_command, needs_data = False, fields[KIND] != NO_DATA_SET
                    if needs_data:
                        continue
                return fields[STATUS]

    def statuses(self) -> list[int]:
        """The statuses of the pending responses and of the last one."""
        found = [self.status()]
        while found[-1] in PENDING:
            found.append(self.status())
        return found

    def goes_on(self, octets: bytes, seconds: float = 0.5) -> bool:
        """Whether these octets can be sent in twenty parts, over so many seconds: the server does
        not reset the connection meanwhile."""
        size = -(-len(octets) // 20)
        with contextlib.suppress(ConnectionResetError, BrokenPipeError):
            for at in range(0, len(octets), size):
                self.send(octets[at:at + size])
                time.sleep(seconds / 20)
            return not self.socket.getsockopt(socket.SOL_SOCKET, socket.SO_ERROR)
        return False

    def end(self) -> None:
        """Sends no more."""
        with contextlib.suppress(OSError):
            self.socket.shutdown(socket.SHUT_WR)

    def reset(self) -> None:
        """Breaks the connection, without regard to what is under way."""
        self.socket.setsockopt(socket.SOL_SOCKET, socket.SO_LINGER, struct.pack("ii", 1, 0))
        self.socket.close()

    def close(self) -> None:
        self.socket.close()


class Caller(Client):
    """One who calls the console."""

    def __init__(self, path: pathlib.Path | str) -> None:
        self.path = path
        self.call()

    def call(self) -> None:
        self.octets, self.passed = b"", time.monotonic()
        self.socket = socket.socket(socket.AF_UNIX)
        self.socket.settimeout(PATIENCE)
        self.socket.connect(str(self.path))

    def line(self) -> str:
        """A line of the console, without its line feed; empty where no more comes."""
        while b"\n" not in self.octets:
            before = len(self.octets)
            self.fill(before + 1)
            if len(self.octets) == before:
                return ""
        line, _, self.octets = self.octets.partition(b"\n")
        return line.decode()

    def ask(self, line: str) -> str:
        """The console's answer to an order. It is called anew after a silence, at whose end it lets
        go."""
        if time.monotonic() - self.passed > 30:
            self.close()
            self.call()
        self.send(line.encode() + b"\n")
        self.passed = time.monotonic()
        return self.line()
