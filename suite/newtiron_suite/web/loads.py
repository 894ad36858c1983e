"""Clients that are slow or late, and many of them."""
import collections
import contextlib
import pathlib
import re
import signal
import threading
import time
from concurrent.futures import ThreadPoolExecutor

from ..client import HOST, until
from ..model import compose
from ..scenes import ECHO, SERVED
from ..tally import Tally
from ..web_client import Response, Speaker
from .common import CONNECTIONS, Pair

# the seconds that a head has, and a body after it; and by how many the server may be late
HEAD_TIME, BODY_TIME, LEEWAY = 15, 60, 3
MOST_OF_ONE_ADDRESS = 16
# 56 connections may be idle beside none, and 51 beside five whose request is to come
IDLE = 51


def slow(tally: Tally, folder: pathlib.Path) -> None:
    with Pair(folder) as pair:
        pair.fill()
        silent = [pair.connect() for _ in range(10)]
        for at, one in enumerate(silent):
            one.send(b"GET /health HTTP/1.1\r\nHost: localhost\r\n"[:at * 4])
        begun = time.monotonic()
        told = [pair.ask("GET", "/NORTH/rs/studies", "NORTH").status for _ in range(20)]
        tally.check("others are served beside silent ones",
                    told == [200] * 20 and time.monotonic() - begun < 10, told,
                    time.monotonic() - begun)
        pair.clients["1"].send(ECHO)
        tally.check("an association is served beside them", pair.clients["1"].status() == 0)
        silent[0].send(b"GET /health HTTP/1.1\r\nHost: localhost\r\n\r\n")
        tally.check("a silent one is served when it speaks", silent[0].response().status == 200)
        deaf = pair.connect()
        octets = deaf.request("GET", "/NORTH/rs/studies", pair.keys["NORTH"]) * 200
        deaf.socket.settimeout(1)
        with contextlib.suppress(TimeoutError, BlockingIOError):
            for _ in range(40):
                deaf.send(octets)
        before = pair.server.memory()
        begun = time.monotonic()
        told = [pair.ask("GET", "/NORTH/rs/studies", "NORTH").status for _ in range(20)]
        took = time.monotonic() - begun
        pair.clients["1"].send(ECHO)
        tally.check("others are served beside one that reads nothing",
                    told == [200] * 20 and took < 10 and
                    pair.clients["1"].status() == 0, took)
        tally.check("which takes no memory",
                    pair.server.memory() - before < 20 and pair.server.memory() < 200, before,
                    pair.server.memory())
        for one in [*silent, deaf]:
            one.reset()
        tally.check("they are gone", until(lambda: pair.server.descriptors() < 25, 5),
                    pair.server.descriptors())
        pair.is_right(tally, "slow")


def late(tally: Tally, folder: pathlib.Path) -> None:
    """Heads and bodies that do not come in the time that they have, from their first octet on."""
    log = folder / "log"
    with Pair(folder, "--log-file", log) as pair:
        pair.fill()
        begun = time.monotonic()
        nothing, head, dripping, body, second = speakers = [pair.connect() for _ in range(5)]
        head.send(b"GET /health HTTP/1.1\r\n")
        body.send(body.request("POST", "/NORTH/worklist", pair.keys["NORTH"],
                               fields=["Content-Length: 100"]) + b"x")
        tally.check("a first request is answered",
                    second.ask("GET", "/health").status == 200)

        def drip() -> None:
            for octet in b"GET /health HTTP/1.1\r\nHost: localhost\r\n":
                with contextlib.suppress(OSError):
                    dripping.send(bytes([octet]))
                time.sleep(0.5)

        def send_second() -> None:
            time.sleep(5)
            second.send(b"GET /health")

        def wait(speaker: Speaker) -> tuple[Response | None, bool, float]:
            speaker.socket.settimeout(BODY_TIME + 15)
            response = speaker.response()
            return response, speaker.is_closed(), time.monotonic() - begun

        for act in (drip, send_second):
            threading.Thread(target=act, daemon=True).start()
        with ThreadPoolExecutor(len(speakers)) as pool:
            ends = dict(zip(speakers, pool.map(wait, speakers)))
        for what, speaker, status, seconds in (
                ("nothing", nothing, None, HEAD_TIME), ("half a head", head, 408, HEAD_TIME),
                ("a head by and by", dripping, 408, HEAD_TIME),
                ("half of a second head", second, 408, 5 + HEAD_TIME),
                ("a head whose body is late", body, 408, BODY_TIME)):
            response, is_closed, took = ends[speaker]
            told = None if response is None else (response.status, response.body)
            wanted = None if status is None else (status, b'{"refused":"time"}')
            tally.check(f"{what} has its time", told == wanted
                        and seconds - 0.1 <= took <= seconds + LEEWAY, told, took)
            tally.check(f"{what}: the connection ends", is_closed
                        and (response is None or response.fields.get("connection") == "close"),
                        response and response.head)
        tally.check("the log has them", until(lambda: late_in(log.read_text()) == {
            "- - - -": [HEAD_TIME] * 3, "- POST NORTH /worklist": [BODY_TIME]}, 5),
            log.read_text())
        pair.is_right(tally, "late")
        held_up(tally, pair)


def late_in(log: str) -> dict[str, list[int]]:
    """Of each request that was late, as the log tells it: the seconds that it had."""
    found = collections.defaultdict(list)
    for what, took in re.findall(r" web \S+ (.*) 408 ms (\d+)\n", log):
        found[what] += [limit for limit in (HEAD_TIME, BODY_TIME)
                        if 0 <= int(took) - 1000 * limit <= 1000 * LEEWAY]
    return found


def held_up(tally: Tally, pair: Pair) -> None:
    """A request whose rest came in time, while the server did not look, is answered."""
    with pair.connect() as speaker, pair.connect() as silent:
        octets = speaker.request("GET", "/NORTH/counts", pair.keys["NORTH"])
        speaker.send(octets[:40])
        silent.send(octets[:40])
        time.sleep(0.5)
        pair.server.child.send_signal(signal.SIGSTOP)
        speaker.send(octets[40:])
        time.sleep(HEAD_TIME + 1)
        pair.server.child.send_signal(signal.SIGCONT)
        told, other = speaker.response(), silent.response()
        tally.check("a request that waited for the server is answered",
                    told is not None and told.status == 200, told and told.head)
        tally.check("one that has not come is not",
                    other is not None and other.status == 408, other and other.head)


def crowd(tally: Tally, folder: pathlib.Path) -> None:
    """One address has at most 16 connections: the others are closed at once."""
    log = folder / "log"
    with Pair(folder, "--log-file", log) as pair:
        pair.fill()
        held = [pair.connect() for _ in range(MOST_OF_ONE_ADDRESS)]
        told = [speaker.ask("GET", "/health").status for speaker in held]
        tally.check("as many as one address may have are served", told == [200] * len(held), told)
        with pair.connect() as other:
            tally.check("one more is closed at once", other.is_closed())
        tally.check("the log says so", until(lambda: re.search(
            rf" web given up {re.escape(HOST)}:\d+ peer-connections\n", log.read_text()), 5),
            log.read_text())
        pair.clients["1"].send(ECHO)
        tally.check("an association is served beside them", pair.clients["1"].status() == 0)
        held.pop().close()

        def is_served() -> bool:
            told = pair.ask("GET", "/health")
            return told is not None and told.status == 200
        tally.check("when one is gone another is served", until(is_served, 5))
        pair.is_right(tally, "crowd")
    with Pair(folder, "--web-peer-connections", "2") as pair:
        first, second = pair.connect(), pair.connect()
        told = [speaker.ask("GET", "/health").status for speaker in (first, second)]
        with pair.connect() as third:
            tally.check("--web-peer-connections 2", told == [200, 200] and third.is_closed(), told)


def places(tally: Tally, folder: pathlib.Path) -> None:
    """Of the 64 places eight are kept for those that come: while more than 56 are taken, idle
    connections are let go, in the order in which they come here, and nobody else is."""
    with Pair(folder, "--web-peer-connections", "0") as pair:
        pair.fill()
        silent = [pair.connect() for _ in range(3)]
        head, body = pair.connect(), pair.connect()
        head.send(b"GET /health HTTP/1.1\r\n")
        octets = body.request("POST", "/NORTH/worklist", pair.keys["NORTH"], body=b"x",
                              fields=["Content-Type: application/dicom"])
        body.send(octets[:-1])
        idle, told = [], []
        for _ in range(CONNECTIONS):
            idle.append(pair.connect())
            told.append(idle[-1].ask("GET", "/NORTH/rs/studies", pair.keys["NORTH"]).status)
        tally.check(f"{CONNECTIONS} that stay are served, one after the other",
                    told == [200] * CONNECTIONS, told)
        gone = [speaker.is_closed() for speaker in idle[:-IDLE]]
        tally.check("those that were served first are let go", all(gone), gone)
        told = [speaker.ask("GET", "/health").status for speaker in idle[-IDLE:]]
        tally.check(f"the last {IDLE} stay", told == [200] * IDLE, told)
        head.send(b"Host: localhost\r\n\r\n")
        body.send(octets[-1:])
        told = [head.response().status, body.response().status,
                *[speaker.ask("GET", "/health").status for speaker in silent]]
        tally.check("whose request was to come is served", told == [200, 400, 200, 200, 200], told)
        pair.is_right(tally, "places")


def many(tally: Tally, folder: pathlib.Path) -> None:
    with Pair(folder, "--web-peer-connections", "0") as pair:
        pair.fill()
        found = [None] * CONNECTIONS

        def one(at: int) -> None:
            with contextlib.suppress(OSError), pair.connect() as speaker:
                found[at] = speaker.ask("GET", "/NORTH/rs/studies", pair.keys["NORTH"],
                                        fields=["Connection: close"]).status
        threads = [threading.Thread(target=one, args=(at,)) for at in range(CONNECTIONS)]
        begun = time.monotonic()
        for thread in threads:
            thread.start()
        for thread in threads:
            thread.join()
        print(f"{CONNECTIONS} connections took {time.monotonic() - begun:.1f} s")
        tally.check(f"{CONNECTIONS} at once", found == [200] * CONNECTIONS, found)
        held = [pair.connect() for _ in range(CONNECTIONS)]
        pair.clients["1"].send(ECHO)
        tally.check(f"an association is served beside {CONNECTIONS} that are held",
                    pair.clients["1"].status() == 0)
        with pair.server.connect() as client:
            scene = compose.Scene()
            scene.play_line(f"associate 9 ARCHIVE CT1 {SERVED}")
            client.send(bytes.fromhex(scene.lines[0].split(" ")[2]))
            tally.check("and a new one is accepted", client.pdu()[0] == 2)
        for speaker in held:
            speaker.close()
        told = pair.ask("GET", "/health")
        tally.check("when they are gone others are served", told is not None and told.status == 200)
        tally.check("nothing is left of them", until(lambda: pair.server.descriptors() < 25, 5),
                    pair.server.descriptors())
        pair.is_right(tally, "many")
