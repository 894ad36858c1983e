"""Exit statuses, and addresses that are listened at."""
import errno
import pathlib
import signal
import subprocess
import time
from typing import Any

from ..client import HOST, Client, Serving, free_port, until
from ..model.upper_layer import ACCEPT
from ..refusing import made_library
from ..scenes import SERVED, octets_of
from ..tally import Tally, skip
from .common import PROGRAM, has_ended, refused_accepts, run, serves


def exits(tally: Tally, folder: pathlib.Path) -> None:
    port = free_port()
    words: Any
    for words in ([], ["--port"], ["--port", "0"], ["--port", "0", "--turns", "1"],
                  ["--port", "65536"], ["--port", "-1"],
                  ["--port", "x"], ["--port", ""], ["--port", port, "--port", port],
                  ["--port", port, "--turns", "-1"],
                  ["--port", port, "--turns", "4294967296"], ["--port", port, "--turns", "x"],
                  ["--port", port, "--turns"],
                  ["--turns", "1"], ["--port", "+80", "--turns", "1"],
                  ["--port", port, "--console"],
                  ["--port", port, "--console", "a", "--console", "b"],
                  ["--port", port, "--quiet", "0"],
                  ["--port", port, "--quiet", "x"], ["--port", port, "--artim", "x"],
                  ["--port", port, "--artim", "-1"],
                  ["--port", port, "--artim", "+1"], ["--port", port, "--artim", "4294967296"],
                  ["--port", port, "--peer-connections", "x"],
                  ["--port", port, "--peer-connections", "4294967296"],
                  ["--port", port, "--log-file"], ["--port", port, "--log", "x"],
                  ["--port", port, "more"], ["--port", port, "--new", "a", "--store", "b"],
                  ["--help"]):
        status, out, told = run("serve", *words)
        tally.check(f"serve {' '.join(map(str, words))}", status == 1 and not out and told, status,
                    out, told)
    absent = folder / "absent.toml"
    with Serving(PROGRAM) as server:
        done = run("serve", "--port", server.port, "--turns", "1")
        tally.check("a port that is taken", done == (5, b"", b"network\n"), done)
        done = run("serve", "--port", server.port, "--config", absent)
        tally.check("a configuration before the port", done == (2, b"", b"config 0\n"), done)
        done = run("serve", "--port", server.port, "--store", folder / "absent.db")
        tally.check("a store before the port", done == (4, b"", b"store 2\n"), done)
    done = run("serve", "--port", port, "--config", absent, "--store", folder / "absent.db")
    tally.check("a configuration before the store", done == (2, b"", b"config 0\n"), done)
    for turns in (0, 1, 2000):
        took = []
        for _ in range(3):
            begun = time.monotonic()
            done = run("serve", "--port", port, "--turns", turns)
            took.append(time.monotonic() - begun)
            tally.check(f"{turns} turns", done == (0, b"ready %d\n" % port, b""), done)
        tally.check(f"{turns} turns end", min(took) < 0.5 + turns / 200, took)
    done = run("serve", "--port", port, "--turns", 0, "--new", folder / "turns.db")
    tally.check("no turns over a store",
                done == (0, b"ready %d\n" % port, b"") and (folder / "turns.db").exists(), done)
    with open("/dev/full", "wb") as full:
        unread = subprocess.run([PROGRAM, "serve", "--port", str(port), "--turns", "1"],
                                stdout=full, stderr=subprocess.PIPE,
                              check=False, timeout=60)
        tally.check("an output that cannot be written",
                    (unread.returncode, unread.stderr) == (4, b""), unread)
    done = run("serve", "--port", port, "--console", folder / "console", "--turns", 2)
    tally.check("turns with a console", done == (0, b"ready %d\n" % port, b""), done)
    failed_accepts(tally, folder)
    # (a process whose parent ignores a signal, as under nohup, ignores it too)
    for number in (signal.SIGTERM, signal.SIGINT, signal.SIGHUP):
        if signal.getsignal(number) is not signal.SIG_IGN:
            with Serving(PROGRAM) as server:
                status = server.end(number)
                tally.check(f"{number.name} ends it", status == -number, status)


def failed_accepts(tally: Tally, folder: pathlib.Path) -> None:
    library = made_library(folder)
    mark = folder / "refused"
    # a server may ask for a connection once before any comes
    with Serving(PROGRAM, environment=refused_accepts(library, "2+", mark)) as server:
        callers = []
        tally.check("a connection that cannot be accepted ends it",
                    until(lambda: has_ended(server, callers), 10))
        for caller in callers:
            caller.close()
        done = (server.end(), server.errors(), mark.exists())
        tally.check("a connection that cannot be accepted", done == (5, b"network\n", True), done)
    mark = folder / "refused for a time"
    # no more files may be open
    with Serving(PROGRAM, environment=refused_accepts(library, "2", mark, errno.EMFILE)) as server:
        tally.check("a connection that is accepted later",
                    serves(server) and serves(server) and mark.exists())
    mark = folder / "refused caller"
    with Serving(PROGRAM, has_console=True,
                 environment=refused_accepts(library, "1+", mark, family="unix")) as server:
        with server.console() as desk:
            desk.send(b"report\n")
            tally.check("a caller of the console that cannot be accepted",
                        until(mark.exists) and desk.is_silent(1) and
                        serves(server) and server.is_running(), server.errors())


def is_served_at(server: Serving, address: str) -> bool | OSError | None:
    """An association is accepted at an address of the machine; None if nobody listens there."""
    try:
        with Client(server.port, address) as client:
            client.send(*octets_of(f"associate 1 ARCHIVE MODALITY {SERVED}"))
            taken = client.pdu()
            return taken is not None and taken[0] == ACCEPT
    except OSError as error:
        return None if error.errno == errno.ECONNREFUSED else error


def has_address(address: str) -> bool:
    """Whether the machine has an address."""
    try:
        free_port(address)
        return True
    except OSError:
        return False


def listen(tally: Tally, _: object) -> None:
    # where it listens, an address where it is reached, and one where it is not
    for address, reached, other in (("127.0.0.2", ["127.0.0.2"], HOST),
                                    ("0.0.0.0", [HOST, "127.0.0.2", "127.3.2.1"], "::1"),
                                    ("::1", ["::1"], HOST), ("::", ["::1"], None)):
        if ":" in address and not has_address("::1"):
            skip(f"listen at {address}", "the machine has no IPv6")
            continue
        with Serving(PROGRAM, "--listen", address, host=address) as server:
            for one in reached:
                found = is_served_at(server, one)
                tally.check(f"listening at {address}, reached at {one}", found is True, found)
            if other is not None and has_address(other):
                found = is_served_at(server, other)
                tally.check(f"listening at {address}, not reached at {other}", found is None, found)
    for address in ("", "x", "127.0.0", "127.0.0.1:80", "localhost", "192.0.2.77", "[::1]",
                    "2001:db8::7", "::1%absent"):
        done = run("serve", "--port", free_port(), "--turns", "0", "--listen", address)
        tally.check(f"the address '{address}'", done == (5, b"", b"network\n"), done)
