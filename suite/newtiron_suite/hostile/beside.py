"""Peers that stop, that read nothing or that reset, while others are served."""
import concurrent.futures
import contextlib
import random
import threading

from ..client import Client, Serving, until
from ..model import broken, costly
from ..paths import TOP, configured
from ..tally import Tally
from .common import (FEW, MOST, MOST_GROWN, MOST_UNREAD, PROGRAM, RESETS, SEARCH, SEED, TICK,
                     answer_to, associated, cost_of_echoes, counted, echoed, goes_on, is_idle,
                     names)


def unanswered(server: Serving) -> Client:
    """A connection that asks for much and stops in mid answer."""
    client = associated(server, b"CT1")
    for one in names(40):
        client.send(one)
        client.status()
    client.send(SEARCH * 100)
    client.receive(1000)
    return client


def stuck(tally: Tally, _: object) -> None:
    with Serving(PROGRAM, *configured("long_run"), "--artim", "0") as server:
        descriptors, south = server.descriptors(), associated(server, b"CT2")
        is_served, _, alone = cost_of_echoes(server, south, 300)
        tally.check("echoes of one alone", is_served)
        usual = server.memory()
        ways, clients, sent_octets = costly.stops(200000), [], 0
        for at in range(MOST - 2):
            client = server.connect()
            client.exchange(ways[at % len(ways)],
                            1 if len(ways[at % len(ways)]) > len(ways[3]) else 0)
            clients.append(client)
            sent_octets += len(ways[at % len(ways)])
        clients.append(unanswered(server))
        tally.check("what stopped takes no more seconds", until(lambda: is_idle(server), 60))
        is_served, slowest, spent = cost_of_echoes(server, south, 300)
        print(f"echoes beside {len(clients)} that stopped: {spent / max(alone, FEW):.1f} times the "
              f"seconds, {slowest:.3f} s at "
              f"most; {server.memory() - usual:.1f} MB more after {sent_octets / 1e6:.1f} MB",
              flush=True)
        tally.check("another institution is served", is_served)
        tally.check("it is served soon", slowest < 2, f"{slowest:.2f} s")
        tally.check("its echoes cost what they cost alone", spent < 4 * max(alone, FEW),
                    spent, alone)
        tally.check("what stopped is kept within memory",
                    server.memory() - usual < 3 * sent_octets / 1e6 + 40,
                    server.memory() - usual, sent_octets)
        for one in clients:
            one.reset()
        goes_on(tally, "stuck", server, south, descriptors)


def unread(client: Client, stream: bytes, seconds: float = 2.0) -> int:
    """Sends a stream as far as it is taken; how many octets went out."""
    client.socket.settimeout(seconds)
    count = 0
    with contextlib.suppress(TimeoutError, OSError):
        while count < len(stream):
            count += client.socket.send(stream[count:count + 65536])
    return count


def deaf(tally: Tally, _: object) -> None:
    with Serving(PROGRAM, *configured("long_run"), "--artim", "0") as server:
        descriptors, south, north = server.descriptors(), associated(server, b"CT2"), associated(
            server, b"CT1")
        stores = names(20)
        north.send(b"".join(stores))
        tally.check("studies with long names",
                    [north.status() for _ in stores] == [0] * len(stores))
        answer, begun = answer_to([costly.associate(calling=b"CT1"), *stores,
                                   SEARCH]), server.seconds()
        got = north.exchange(SEARCH * 50, 50 * len(answer))
        unit, usual = (server.seconds() - begun) / 50, server.memory()
        tally.check("searches that are read", got == answer * 50, len(got), len(answer))
        stream = SEARCH * (MOST_UNREAD // len(SEARCH))
        clients = [associated(server, b"CT1") for _ in range(4)]
        begun = server.seconds()
        with concurrent.futures.ThreadPoolExecutor(len(clients)) as pool:
            counts = list(pool.map(lambda client: unread(client, stream), clients))
        tally.check("what is sent unread is answered as far as it goes",
                    until(lambda: is_idle(server), 60))
        searches, spent, grown = sum(counts) // len(
            SEARCH), server.seconds() - begun, server.memory() - usual
        print(f"{len(counts)} that never read: {searches} searches, answered by {len(answer)} "
              f"octets each, in {spent:.3f} s, "
              f"where one that is read takes {1000 * unit:.2f} ms; {grown:.1f} MB more", flush=True)
        tally.check("the seconds of searches that are not read", spent < 2 * searches * unit + TICK,
                    spent, unit)
        tally.check("the memory of searches that are not read", grown < MOST_GROWN, grown)
        is_served, slowest = echoed(south, 300)
        tally.check("another is served beside", is_served and slowest < 2, slowest)
        for client in clients[::2]:
            client.reset()
        for client in clients[1::2]:
            client.socket.settimeout(20)
            tally.check("one that reads at last is answered",
                        client.receive(100 * len(answer)) == answer * 100)
            client.close()
        north.close()
        goes_on(tally, "deaf", server, south, descriptors)


def reset_at_random(server: Serving, chance: random.Random, streams: list[bytes]) -> None:
    """A connection that is reset, or closed, after some octets of a stream, and some of their
    answer."""
    stream = chance.choice(streams)
    stream = stream[:chance.randrange(len(stream) + 1)]
    client = server.connect()
    with contextlib.suppress(OSError):
        for at in range(0, len(stream), 4096):
            client.send(stream[at:at + 4096])
        if chance.random() < 0.5:
            client.is_silent(0.01 * chance.random())
    client.reset() if chance.random() < 0.8 else client.close()


def resets(tally: Tally, _: object) -> None:
    count, chance = counted(RESETS), random.Random(SEED)
    streams = [stream.replace(b"MODALITY        ", b"CT1             ")
               for lines in broken.recorded(TOP).values()
               for stream in broken.streams_of(lines)[1].values()]
    done = []
    with Serving(PROGRAM, *configured("small_north")) as server:
        usual = server.descriptors()
        south = associated(server, b"CT2")

        def some(seed: int) -> None:
            with contextlib.suppress(OSError):
                own = random.Random(seed)
                for _ in range(count // 4):
                    reset_at_random(server, own, streams)
                    done.append(seed)
        threads = [threading.Thread(target=some, args=(chance.random(),)) for _ in range(4)]
        for thread in threads:
            thread.start()
        is_served = True
        while any(thread.is_alive() for thread in threads):
            is_served = is_served and echoed(south, 5)[0]
        tally.check("another institution is served among resets", is_served)
        tally.check("resets", len(done) >= count // 4 * 4 > 0, len(done))
        tally.check("resets leave nothing behind", until(lambda: server.descriptors() <= usual + 1),
                    server.descriptors(), usual)
        # the hospital may have one association at a time: those that were reset must be gone
        north = associated(server, b"CT1")
        tally.check("resets: it goes on", north is not None and echoed(north, 1)[0]
                    and not server.errors(), server.errors())
