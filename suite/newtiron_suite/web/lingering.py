"""Clients that go on sending after a response that is the last one on their connection."""
import pathlib
import time

from ..client import HOST, until
from ..tally import Tally
from ..web_client import Speaker
from .common import BODY_MOST, Pair
from .requests import is_last

# how many sockets linger at most, for how many seconds, and by how many the server may be late
MOST_LINGERING, LINGER, LEEWAY = 16, 2, 3


def endings(pair: Pair) -> list[tuple[str, bytes, int]]:
    """What is sent after which nothing is read, and the status of its response."""
    head = b"Host: %s:%d\r\n" % (HOST.encode(), pair.port)
    health = b"GET /health HTTP/1.1\r\n" + head
    post = b"POST /NORTH/worklist HTTP/1.1\r\n" + head + b"Content-Length: %d\r\n\r\n"
    more = (health + b"\r\n") * 5000
    return [("a body without a token", post % BODY_MOST + bytes(BODY_MOST), 401),
            ("a body that is too long", post % (2 * BODY_MOST) + bytes(2 * BODY_MOST), 413),
            ("requests behind one that is none", b"GET /health\r\n\r\n" + more, 400),
            ("requests behind the last one", health + b"Connection: close\r\n\r\n" + more, 200)]


def is_told(speaker: Speaker, status: int) -> bool:
    """Whether a response of this status is the last one, and comes whole."""
    told = speaker.response()
    return told is not None and told.status == status and is_last(told) and speaker.is_closed()


def crowd(tally: Tally, pair: Pair, usual: int) -> None:
    """One more than may linger, none of which closes its connection. Without connections the server
    has the usual number of descriptors."""
    octets = endings(pair)[0][1][:20_000]
    tally.check("nobody lingers who closed",
                until(lambda: pair.server.descriptors() <= usual, LINGER / 2),
                pair.server.descriptors(), usual)
    begun = time.monotonic()
    speakers = []
    for at in range(MOST_LINGERING + 1):
        # (one that lingers is none of its address's connections)
        speaker = pair.connect()
        speakers.append(speaker)
        speaker.send(octets)
        tally.check(f"a refusal beside {at} that linger", is_told(speaker, 401))
    tally.check("the front serves others beside them",
                pair.ask("GET", "/health").status == 200 and time.monotonic() - begun < LINGER)
    tally.check("no more linger than may",
                until(lambda: pair.server.descriptors() <= usual + MOST_LINGERING, LINGER / 4),
                pair.server.descriptors(), usual)
    is_left = until(lambda: pair.server.descriptors() <= usual, LINGER + LEEWAY)
    took = time.monotonic() - begun
    tally.check("they are gone in time", is_left and took > LINGER / 2, took,
                pair.server.descriptors(), usual)
    for speaker in speakers:
        speaker.close()


def lingering(tally: Tally, folder: pathlib.Path) -> None:
    with Pair(folder) as pair:
        usual = pair.server.descriptors()
        for what, octets, status in endings(pair):
            with pair.connect() as speaker:
                tally.check(f"who goes on sending is answered: {what}",
                            speaker.goes_on(octets) and is_told(speaker, status))
        crowd(tally, pair, usual)
