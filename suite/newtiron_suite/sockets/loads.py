"""Many connections, long searches and long data sets; peers that read nothing, or go."""
import contextlib
import itertools
import pathlib
import select
import signal
import time
from collections.abc import Iterable, Iterator
from typing import Any

from ..client import Client, Serving, until
from ..measured import usual_worst
from ..model import replies
from ..model.long_stores import STUDY_ID, long_store
from ..model.messages import LONGEST_STORED
from ..model.upper_layer import ABORT, ACCEPT, REJECT, RELEASE_RP
from ..paths import TOP, configured
from ..scenes import ECHO, RELEASE, SERVED, message, octets_of
from ..tally import Tally
from .common import (LONG_NAME, MOST, PAGED, PROGRAM, WANTED, associated, is_alive, long_names,
                     sent_unread, serves, spent, store_of)


def many(tally: Tally, _: object) -> None:
    with Serving(PROGRAM, *configured("thirty_hospitals")) as server:
        clients = [associated(server, f"CT{at % 30 + 1}") for at in range(MOST)]
        tally.check(f"{MOST} associations", None not in clients,
                    [one is not None for one in clients].index(False)
                    if None in clients else "")
        clients = [one for one in clients if one is not None]
        tally.check(f"an echo on each of {len(clients)}", all(map(is_alive, clients)))
        late, took = [server.connect() for _ in range(3)], []
        for one in late:
            one.send(*octets_of(f"associate 1 ARCHIVE CT30 {SERVED}"))
        tally.check("a 65th is not served", all(one.is_silent(0.3) for one in late))
        tally.check("the others are, meanwhile", all(map(is_alive, clients)))
        for at, one in enumerate(late):
            client = clients.pop()
            client.close()
            begun = time.monotonic()
            taken = one.pdu()
            tally.check(f"{65 + at} is served when one closes",
                        taken is not None and taken[0] == ACCEPT, taken)
            took.append(time.monotonic() - begun)
            tally.check(f"an echo on {65 + at}", is_alive(one))
        tally.check("they are served soon", min(took) < 2, took)
        tally.check("the others are still served", all(map(is_alive, clients)))
        for one in clients + late:
            one.close()
        tally.check("all are given up", until(lambda: serves(server, "CT1")))


TWO_OF_MANY = "".join(f"""[[institution]]
name = "{name}"
routes = [{{ called = "ARCHIVE", calling = "{calling}" }}]
studies = 10000
images = 10000
entries = 10000
steps = 10000
associations = 64
""" for name, calling in (("NORTH", "CT1"), ("SOUTH", "CT2")))


def are_stored(tally: Tally, client: Client, part: str, studies: int) -> bool:
    """Stores so many studies whose patients have long names; whether each was taken."""
    for at in range(studies):
        client.send(store_of(f"1.2.{at}.1.1", f"1.2.{at}",
                             PatientName=f"DOE^{at}" + "X" * 2000))
        if client.status() != 0:
            return tally.check(f"{part}: store {at}", False)
    return True


def shares(tally: Tally, folder: pathlib.Path, count: int = 40, studies: int = 600) -> None:
    (folder / "two.toml").write_text(TWO_OF_MANY)
    with Serving(PROGRAM, "--config", folder / "two.toml") as server:
        many = [associated(server, "CT2") for _ in range(count)]
        other = associated(server, "CT1")
        if not tally.check("shares: associations", None not in (*many, other)):
            return
        if not are_stored(tally, many[0], "shares", studies):
            return
        # all that is sent while it is stopped is there when it goes on
        server.child.send_signal(signal.SIGSTOP)
        for one in many:
            one.send(find_all(1))
        other.send(ECHO)
        server.child.send_signal(signal.SIGCONT)
        tally.check("an echo beside searches of another hospital", other.status() == 0)
        answered, _, _ = select.select([one.socket for one in many], [], [], 0)
        tally.check("it waits for few of them", len(answered) < count / 2, len(answered))
        tally.check("each of them is answered",
                    all(one.statuses() == [0xFF00] * studies + [0] for one in many))


def unread(tally: Tally, folder: pathlib.Path, count: int = 60, studies: int = 4000) -> None:
    (folder / "two.toml").write_text(TWO_OF_MANY)
    with Serving(PROGRAM, "--config", folder / "two.toml") as server:
        many = [associated(server, "CT2") for _ in range(count)]
        other = associated(server, "CT1")
        if not tally.check("unread: associations", None not in (*many, other)):
            return
        if not are_stored(tally, many[0], "unread", studies):
            return
        before = server.memory()
        for one in many:
            one.send(find_all(1))
        tally.check("unread: each is answered", until(lambda: len(
            select.select([one.socket for one in many], [], [], 0)[0]) == count))
        tally.check("an echo beside them", is_alive(other))
        tally.check("unread: within memory", server.memory() - before < 24,
                    f"{server.memory() - before:.0f} MB more")
        tally.check("one of them is read", many[-1].statuses() == [0xFF00] * studies + [0])


def deaf(tally: Tally, _: object) -> None:
    with Serving(PROGRAM, *configured("large")) as server:
        client = associated(server)
        if not are_stored(tally, client, "deaf", 20):
            return
        find = message("find 1 5 1 study QueryRetrieveLevel=STUDY PatientName= StudyInstanceUID=")
        client.send(find)
        tally.check("a search finds all", client.statuses() == [0xFF00] * 20 + [0])
        one = len(answers(client, find))
        other, before = associated(server), server.memory()
        client.send(find)
        answer = client.receive(one)
        times, rest = sent_unread(client, find, 400)
        took = []
        for _ in range(50):
            begun = time.monotonic()
            if not tally.check("an echo beside a client that reads nothing", is_alive(other)):
                return
            took.append(time.monotonic() - begun)
        tally.check("soon", usual_worst(took) < 2, took)
        tally.check("searches that wait", times >= 20, times)
        tally.check("within memory", server.memory() - before < 64,
                    f"{server.memory() - before:.0f} MB more")
        times += bool(rest)
        got = client.exchange(rest, one * times)
        tally.check(f"{times} searches are answered at last", got == answer * times, len(got),
                    one * times)
        tally.check("and a further echo", is_alive(client))
        # one that goes away with all of it unread
        sent_unread(client, find, 200)
        client.reset()
        tally.check("when it is gone others are served", serves(server) and is_alive(other))


def find_all(identity: int) -> bytes:
    return message(f"find 1 5 {identity} study QueryRetrieveLevel=STUDY PatientName= "
                   "StudyInstanceUID=")


def pages(tally: Tally, _: object) -> None:
    every = [0xFF00] * PAGED
    with Serving(PROGRAM, *configured("large")) as server:
        other, client = associated(server), long_names(server)
        if not tally.check("pages: studies", client is not None):
            return
        client.send(find_all(1))
        tally.check("a search of many pages", client.statuses() == [*every, 0])
        for name, cancel in (("its context", "cancel 1 5 2"), ("another context", "cancel 1 1 2")):
            client.send(find_all(2))
            first = client.status()
            client.send(message(cancel))
            found = [first, *client.statuses()]
            tally.check(f"cancelled on {name}", found[-1] == 0xFE00 and set(found[:-1]) == {0xFF00}
                        and len(found) < PAGED,
                        len(found), found[-1])
            tally.check(f"an echo after it, on {name}", is_alive(client))
        client.send(find_all(3))
        first = client.status()
        client.send(message("cancel 1 5 2"))
        tally.check("a C-CANCEL of another search", [first, *client.statuses()] == [*every, 0])
        client.send(message("cancel 1 5 3"))
        tally.check("a C-CANCEL that comes too late", is_alive(client))
        client.send(find_all(4))
        first = client.status()
        client.send(ECHO)
        tally.check("an echo while answers are left",
                    [first, *client.statuses()] == [*every, 0] and client.status() == 0)
        # one that reads nothing; what is stored meanwhile is not among its answers
        before = server.memory()
        client.send(find_all(5))
        took = []
        for _ in range(50):
            begun = time.monotonic()
            tally.check("an echo beside a search that is not read", is_alive(other))
            took.append(time.monotonic() - begun)
        tally.check("pages: soon", usual_worst(took) < 1, took)
        other.send(store_of("1.3.1.1.1", "1.3.1", PatientName="ROE^LATE"))
        tally.check("a store beside it", other.status() == 0)
        tally.check("pages: within memory", server.memory() - before < 8,
                    f"{server.memory() - before:.0f} MB more")
        tally.check("it is answered as it was asked", client.statuses() == [*every, 0])
        client.send(find_all(6))
        tally.check("one that is asked later finds more", client.statuses() == [*every, 0xFF00, 0])
        # nor does an image that is stored between two of its pages raise a count
        counted = message("find 1 5 9 study QueryRetrieveLevel=STUDY PatientName= "
                          "StudyInstanceUID= NumberOfStudyRelatedInstances=")
        whole = answers(client, counted)
        client.send(counted)
        read = client.receive(len(whole) // 8)
        for at in (1, 99):
            other.send(store_of(f"1.2.{at}.1.2", f"1.2.{at}",
                                PatientName=f"DOE^{at}" + "X" * LONG_NAME))
            tally.check("a store between two pages", other.status() == 0)
        tally.check("counts are those of the moment at which it was asked",
                    read + client.receive(len(whole) - len(read)) == whole)
        tally.check("those of a later search are others",
                    answers(client, counted) != whole)
        client.send(find_all(7))
        first = client.status()
        client.send(RELEASE)
        found = []
        while (taken := client.pdu()) is not None:
            found.append(taken[0])
        tally.check("a release while answers are left",
                    first == 0xFF00 and found and found[-1] == RELEASE_RP and
                    len(found) < 2 * PAGED, len(found), found[-1:])
        client = associated(server)
        client.send(find_all(8))
        client.status()
        client.reset()
        tally.check("a reset while answers are left",
                    serves(server) and is_alive(other) and not server.errors())


def answers(client: Client, octets: bytes) -> bytes:
    """All octets that are answered until nothing more comes."""
    client.send(octets)
    taken = b""
    while not client.is_silent(0.3) and client.octets:
        taken, client.octets = taken + client.octets, b""
    return taken


def states() -> Iterator[tuple[str, bytes, int]]:
    """What a connection has sent when it breaks, and how many octets it has read of the answer."""
    request, echo = octets_of(f"associate 1 ARCHIVE CT1 {SERVED}")[0], ECHO
    image = store_of("1.2.1.1.1", PixelData="zeros:200000")
    find = message("find 1 5 1 study QueryRetrieveLevel=STUDY StudyInstanceUID=")
    yield "nothing", b"", 0
    yield "half a PDU's head", request[:3], 0
    yield "half a request", request[:100], 0
    yield "a request whose answer is not read", request, 0
    yield "an association", request, 6
    yield "half a message", request + echo[:30], 6
    yield "half a data set", request + image[:100000], 6
    yield "a message whose answer is not read", request + echo, 6
    yield "a search whose answer is not read", request + find, 6
    yield "many messages", request + echo * 300, 6
    yield "an abort", request + octets_of("abort 1")[0], 6
    yield "a release whose answer is not read", request + RELEASE, 6
    yield "a refused request", octets_of("associate 1 ARCHIVE CT9 1=echo:implicit")[0], 6
    yield "octets that are no PDU", bytes(6), 1
    yield "octets after the last", request + RELEASE + echo * 20, 6


def resets(tally: Tally, _: object) -> None:
    with Serving(PROGRAM, *configured("small_north")) as server:
        usual = server.descriptors()
        tally.check("before", serves(server, "CT1"))
        for (name, octets, count), how, _ in itertools.product(states(), ("reset", "close"),
                                                               range(3)):
            if not server.is_running():
                break
            with contextlib.suppress(OSError):
                client = server.connect()
                client.exchange(octets, count)
                getattr(client, how)()
            # the hospital may have one association at a time: the broken one must be gone
            tally.check(f"{how} after {name}: nothing is left",
                        until(lambda: server.descriptors() == usual, 5),
                        server.descriptors(), usual)
            tally.check(f"{how} after {name}: served", until(lambda: serves(server, "CT1"), 5))
        tally.check("resets: it goes on", server.is_running() and not server.errors(),
                    server.errors())


def lingering(tally: Tally, _: object) -> None:
    """After the server's last PDU a peer may still send (PS3.8 section 9.2.3, Sta13)."""
    with Serving(PROGRAM, *configured("hospitals")) as server:
        for what, octets, kind in (
                ("a PDU of an unknown type", bytes(6), ABORT),
                ("a rejection", octets_of(f"associate 1 ARCHIVE CT9 {SERVED}")[0], REJECT)):
            with server.connect() as client:
                goes_on = client.goes_on(octets + bytes(1_000_000))
                last = client.pdu()
                tally.check(f"who goes on sending after {what}",
                            goes_on and last is not None and last[0] == kind
                            and not client.rest(), goes_on, last)


def half(tally: Tally, _: object) -> None:
    stream = b"".join(bytes.fromhex(line.split(" ")[2])
                      for line in (TOP / "captures/echo_dcmtk.capture").read_text().split("\n")
                      if line.startswith("piece"))
    with Serving(PROGRAM) as server:
        for at in range(len(stream) + 1):
            model = replies.Server(replies.read_configuration(replies.BUILT_IN))
            model.reply("open", 1, b"")
            wanted = bytes.fromhex(model.reply("piece", 1,
                                               stream[:at]).split(" ")[1].replace("-", ""))
            with server.connect() as client:
                client.send(stream[:at])
                client.end()
                got = client.rest()
            tally.check(f"a stream that ends after {at} octets", got == wanted, got.hex(),
                        wanted.hex())
        tally.check("half: served afterwards", serves(server))


def long(tally: Tally, _: object) -> None:
    for size in [int(name) for name in WANTED] or [256 << 20]:
        sent_long(tally, f"a data set of {size} octets", 0xB006 if size <= LONGEST_STORED
                  else 0xA700, long_store(3, size))
    if not WANTED:
        # 64 MiB may be kept of an instance, its UIDs among them
        sent_long(tally, "64 MiB that are kept", 0x0000, long_store(3, 64 << 20, element=STUDY_ID))
        sent_long(tally, "two octets more", 0xA700, long_store(3, (64 << 20) + 2, element=STUDY_ID))


def sent_long(tally: Tally, name: str, wanted: int, pdus: Iterable[Any]) -> None:
    """A C-STORE is answered by this status, and an echo after it."""
    with Serving(PROGRAM, *configured("hospitals")) as server:
        client = associated(server, "CT1")
        if client is None:
            tally.check(f"{name}: an association", False)
            return
        begun = time.monotonic()
        for octets in pdus:
            client.send(octets)
        status = client.status()
        tally.check(name, status == wanted, f"{status} after {time.monotonic() - begun:.1f} s")
        tally.check(f"an echo after {name}", is_alive(client))
        client.close()


def idle(tally: Tally, _: object) -> None:
    with Serving(PROGRAM, *configured("thirty_hospitals"), "--artim", "0") as server:
        share = spent(server)
        tally.check("idle without connections", share < 0.01, f"{100 * share:.2f} %")
        clients = [associated(server, f"CT{at + 1}") if at < 30 else server.connect()
                   for at in range(MOST)]
        tally.check("associations that stay silent", None not in clients)
        share = spent(server)
        tally.check(f"idle with {MOST} silent connections", share < 0.01, f"{100 * share:.2f} %")
        print(f"idle with {MOST} silent connections: {100 * share:.2f} % of a processor")
        waiting = server.connect()
        share = spent(server)
        tally.check("idle while a 65th waits", share < 0.01, f"{100 * share:.2f} %")
        waiting.close()
        # one that reads nothing, whose answers are waiting
        client = clients[0]
        sent_unread(client, ECHO, 500000)
        tally.check("what is sent unread is answered as far as it goes",
                    until(lambda: spent(server, 0.3) < 0.01, 90))
        share = spent(server)
        tally.check("idle while a client reads nothing", share < 0.01, f"{100 * share:.2f} %")
        took = []
        for _ in range(3):
            begun = time.monotonic()
            tally.check("an echo after it", is_alive(clients[1]))
            took.append(time.monotonic() - begun)
        tally.check("which is soon", min(took) < 0.5, took)
        for one in clients:
            one.close()
