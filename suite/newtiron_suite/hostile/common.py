"""What the parts of this suite share: the program, how much is played, and associations."""
import sys
import time

from ..client import Client, Serving, until
from ..model import costly
from ..model.upper_layer import ACCEPT
from ..paths import program_of
from ..tally import Tally

PROGRAM = program_of(sys.argv[1:])
SEED = int(sys.argv[2]) if len(sys.argv) > 2 and sys.argv[2] else 20240705
STREAMS, VARIANTS, OPENS, RESETS = 1000, 10000, 1000000, 400
BATCH, TOGETHER, BY_SOCKETS, MOST = 250, 6, 20, 64
MOST_UNREAD, MOST_GROWN, NAME_LENGTH = 1 << 18, 64, 2000
AGAIN, TICK, FEW, PAGES, ENOUGH = 5, 0.04, 0.01, 1.0, 5.0
COUNT, WANTED, MEASURE = [], [], []


def counted(usual: int) -> int:
    """How many are played: those that the command line names, if it does."""
    return COUNT[0] if COUNT else usual


def echoed(client: Client, count: int) -> tuple[bool, float]:
    """Whether so many echoes are answered, and the slowest of them."""
    slowest = 0.0
    for _ in range(count):
        begun = time.monotonic()
        client.send(costly.ECHO)
        if client.status() != 0:
            return False, slowest
        slowest = max(slowest, time.monotonic() - begun)
    return True, slowest


def cost_of_echoes(server: Serving, client: Client, count: int) -> tuple[bool, float, float]:
    """Whether so many echoes are answered, three times over; the slowest of them, and the least
    seconds of the processor that a time took: a machine with other work makes some of them dearer
    than they are."""
    is_served, slowest, spent = True, 0.0, []
    for _ in range(3):
        begun = server.seconds()
        is_answered, longest = echoed(client, count)
        spent.append(server.seconds() - begun)
        is_served, slowest = is_served and is_answered, max(slowest, longest)
    return is_served, slowest, min(spent)


def is_idle(server: Serving) -> bool:
    begun = server.seconds()
    time.sleep(0.3)
    return server.seconds() - begun < 0.01


def associated(server: Serving, calling: bytes) -> Client | None:
    """A connection with an association; None where it is not accepted."""
    client = server.connect()
    client.send(costly.associate(calling=calling))
    taken = client.pdu()
    if taken is not None and taken[0] == ACCEPT:
        return client
    client.close()
    return None


def goes_on(tally: Tally, name: str, server: Serving, client: Client, usual: int) -> None:
    """The server has let all others go, so that it has as many descriptors as before and one for
    this client, and serves it."""
    is_left = until(lambda: server.descriptors() <= usual + 1)
    tally.check(f"{name}: it goes on", is_left and echoed(client, 3)[0] and not server.errors(),
                server.descriptors(),
                server.errors())


def names(count: int) -> list[bytes]:
    """Messages that store studies with long names."""
    return [costly.stored(b"1.2.%d" % at, *costly.keyed(PatientName=b"DOE^" + b"X" * NAME_LENGTH))
            for at in range(count)]


SEARCH = costly.found(b"STUDY", *costly.keyed(PatientName=b""))


def answer_to(streams: list[bytes]) -> bytes:
    """What the model answers to the last of the streams of one connection."""
    model = costly.model_of("long_run")
    model.reply("open", 1, b"")
    return bytes.fromhex([model.reply("piece", 1, stream) for stream in streams][-1].split(" ")[1])
