"""Connections that are given up, and how many an address may have."""
import contextlib
import time

from ..client import PATIENCE, Client, Serving, until
from ..model.upper_layer import ACCEPT
from ..paths import configured
from ..scenes import ECHO, RELEASE, SERVED, octets_of
from ..tally import Tally
from .common import MOST, PROGRAM, WANTED, associated, is_alive, is_given_up, sent_unread, serves

# by how many seconds the server may be late
LEEWAY = 3


def artim(tally: Tally, _: object) -> None:
    """The ARTIM timer of PS3.8 section 9.1.5, at 2 seconds; at its default where that is asked
    for."""
    time_of = int(WANTED[0]) if WANTED else 2
    request = octets_of(f"associate 1 ARCHIVE CT1 {SERVED}")[0]
    with Serving(PROGRAM, *configured("hospitals"),
                 *([] if time_of == 30 else ["--artim", time_of])) as server:
        usual = server.descriptors()
        open_one = associated(server, "CT2")
        open_one.send(ECHO[:20])
        begun = time.monotonic()
        silent = [server.connect() for _ in range(MOST - 1)]
        for at, one in enumerate(silent):
            one.send(request[:at])
        until(lambda: server.descriptors() >= usual + MOST)
        try:
            client = associated(server, "CT1", patience=time_of + PATIENCE)
        except TimeoutError:
            client = None
        took = time.monotonic() - begun
        print(f"a modality waited {took:.1f} s beside silent connections")
        if not tally.check(f"a modality beside {len(silent)} silent connections",
                           client is not None and
                           time_of - 0.5 < took < time_of + LEEWAY, f"{took:.1f} s"):
            return
        tally.check("the silent ones are given up",
                    until(lambda: server.descriptors() <= usual + 2, LEEWAY) and
                    all(not one.is_silent(0.1) for one in silent), server.descriptors(), usual)
        slow, begun = server.connect(), time.monotonic()
        with contextlib.suppress(OSError):
            for at in range(len(request)):
                slow.send(request[at:at + 1])
                if not slow.is_silent(time_of / 8):
                    break
        took = time.monotonic() - begun
        tally.check("a request that comes too slowly", time_of - 0.5 < took < time_of + LEEWAY,
                    f"{took:.1f} s")
        for name, octets in (("a release", request + RELEASE),
                             ("a rejection", octets_of(f"associate 1 ARCHIVE CT9 {SERVED}")[0]),
                             ("an abort by the server", bytes(6))):
            left = server.connect()
            left.send(octets)
            left.pdu()
            tally.check(f"one that stays after {name}",
                        until(lambda: server.descriptors() <= usual + 2, time_of + LEEWAY),
                        server.descriptors(), usual)
            left.close()
        open_one.send(ECHO[20:])
        tally.check("an association that stopped in mid PDU is held",
                    open_one.status() == 0 and is_alive(client))
    with Serving(PROGRAM, *configured("hospitals"), "--artim",
                 "0") as server, server.connect() as caller:
        tally.check("0 is never", caller.is_silent(2 * time_of))


def peers(tally: Tally, _: object) -> None:
    """At most so many connections of an address."""
    with Serving(PROGRAM, *configured("large"), "--listen", "0.0.0.0", "--peer-connections",
                 "3") as server:
        held = [associated(server), server.connect(), associated(server)]
        for _ in range(5):
            with server.connect() as late:
                tally.check("a fourth connection of an address is closed at once",
                            not late.is_silent(2) and not late.rest())
        tally.check("the others are served", is_alive(held[0]) and is_alive(held[2]))
        with Client(server.port, source="127.0.0.9") as other:
            other.send(*octets_of(f"associate 1 ARCHIVE MODALITY {SERVED}"))
            taken = other.pdu()
            tally.check("one of another address", taken is not None and taken[0] == ACCEPT)
        for one in held:
            one.close()
            tally.check("one more, when one has gone", until(lambda: serves(server), 5))
    with Serving(PROGRAM, *configured("large"), "--peer-connections", "0") as server:
        clients = [server.connect() for _ in range(MOST - 1)]
        tally.check("0 is no limit", serves(server))
        for one in clients:
            one.close()


def quiet(tally: Tally, _: object) -> None:
    with Serving(PROGRAM, *configured("large"), "--quiet", "2") as server:
        usual, deaf_one = server.descriptors(), associated(server)
        sent_unread(deaf_one, ECHO, 500000)
        begun = time.monotonic()
        silent, unopened, busy = associated(server), server.connect(), associated(server)
        ended = {}
        while time.monotonic() - begun < 9:
            tally.check("one that asks is served", is_alive(busy))
            for name, one in (("an association", silent), ("a connection", unopened)):
                if name not in ended and not one.is_silent(0.01):
                    ended[name] = time.monotonic() - begun
            time.sleep(0.4)
        for name in ("an association", "a connection"):
            tally.check(f"{name} that is silent is given up", 2 <= ended.get(name, 99) < 6, ended)
        deaf_one.socket.setblocking(False)
        with contextlib.suppress(OSError):
            for _ in range(5):
                deaf_one.socket.send(ECHO)
                time.sleep(0.1)
        # (what is read of it would be octets that pass, so it is read only once the server holds
        # nobody)
        tally.check("one that reads nothing is given up",
                    until(lambda: server.descriptors() <= usual, 30) and is_given_up(deaf_one),
                    server.descriptors(), usual)
