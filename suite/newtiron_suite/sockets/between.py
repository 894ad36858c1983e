"""What happens between the pages of a search by days and of one for the images of a series."""
from __future__ import annotations

from collections.abc import Callable, Iterator
from dataclasses import dataclass

from ..client import PENDING, Client, Serving
from ..model import data_sets
from ..model.data_sets import Tag
from ..model.messages import little
from ..model.upper_layer import P_DATA, RELEASE_RP, big
from ..paths import configured
from ..scenes import RELEASE, message
from ..tally import Tally
from .common import PROGRAM, WANTED, associated, is_alive, serves, store_of

STATUS, CANCELLED = 0x0900, 0xFE00
# Over a thousand studies of the days that are asked for, and several pages of images; each answer
# is so long that all of them do not fit into what the system keeps for a connection.
STUDIES, IMAGES, STUDY_LENGTH, IMAGE_LENGTH = 1200, 600, 12000, 24000
STUDY_KEY, IMAGE_KEY = (0x0020, 0x000D), (0x0008, 0x0018)


@dataclass
class Search:
    """A search: what asks for it, the attribute whose values are the keys of what it finds, a
    C-STORE of what has a number, its key, and the numbers of what is stored before it."""
    name: str
    asked: bytes
    tag: Tag
    stored: Callable[[int], bytes]
    key: Callable[[int], str]
    numbers: list[int]

    def keys(self, numbers: list[int]) -> list[bytes]:
        return sorted(self.key(at).encode() for at in numbers)


def is_of_days(at: int) -> bool:
    return at % 10 != 0


def study_of(at: int) -> bytes:
    """A study of one of two days; each tenth is of another day."""
    day = 20240705 + at % 2 if is_of_days(at) else 20230101
    return store_of(f"1.2.{at}.1.1", f"1.2.{at}", StudyDate=day,
                    PatientName=f"DOE^{at}" + "X" * STUDY_LENGTH)


def image_of(at: int) -> bytes:
    return store_of(f"1.2.1.1.{at}", "1.2.1", ImageType="X" * IMAGE_LENGTH)


def searches() -> list[Search]:
    by_days = message("find 1 5 2 study QueryRetrieveLevel=STUDY StudyDate=20240705-20240706 "
                      "PatientName= StudyInstanceUID=")
    of_series = message("find 1 5 2 study QueryRetrieveLevel=IMAGE StudyInstanceUID=1.2.1 "
                        "SeriesInstanceUID=1.2.1.1 SOPInstanceUID= ImageType=")
    return [Search("days", by_days, STUDY_KEY, study_of, lambda at: f"1.2.{at}",
                   list(range(1000, 1000 + STUDIES))),
            Search("images", of_series, IMAGE_KEY, image_of,
                   lambda at: f"1.2.1.1.{at}", list(range(1000, 1000 + IMAGES)))]


def fragments_in(client: Client) -> Iterator[tuple[int, bytes]]:
    """The fragments that come, each with its control header, until another PDU comes."""
    while (taken := client.pdu()) is not None and taken[0] == P_DATA:
        body = taken[1]
        while body:
            end = 4 + big(body[:4])
            yield body[5], body[6:end]
            body = body[end:]


def found(client: Client, tag: Tag) -> tuple[list[bytes], int | None]:
    """The values of an attribute in the answers that come, and the last status."""
    keys, octets = list[bytes](), b""
    for control, fragment in fragments_in(client):
        octets += fragment
        if not control & 2:
            continue
        syntax = data_sets.IMPLICIT if control & 1 else data_sets.EXPLICIT
        values = {one: value for one, _, value in data_sets.elements(data_sets.Octets(octets),
                                                                     False, syntax, 0)}
        octets = b""
        if not control & 1:
            keys.append(bytes(values[tag]).rstrip(b"\0"))
        elif (status := little(values[0x0000, STATUS])) not in PENDING:
            return keys, status
    return keys, None


def begun(client: Client, search: Search) -> bool:
    """Begins a search, of which nothing more is read; whether its first answers came."""
    client.send(search.asked)
    return client.speaks(10) and bool(client.octets)


def between(tally: Tally, _: object) -> None:
    """Stores between two pages change nothing of what a search finds, and a C-CANCEL and a release
    end it."""
    for search in [one for one in searches() if not WANTED or one.name in WANTED]:
        with Serving(PROGRAM, *configured("large")) as server:
            play_search(tally, server, search)


def play_search(tally: Tally, server: Serving, search: Search) -> None:
    name, client, other = search.name, associated(server), associated(server)
    if client is None or other is None:
        tally.check(f"{name}: associations", False)
        return
    for at in search.numbers:
        client.send(search.stored(at))
        if not tally.check(f"{name}: store {at}", client.status() == 0):
            return
    is_asked = is_of_days if search.tag == STUDY_KEY else lambda at: True
    numbers = [at for at in search.numbers if is_asked(at)]
    keys = search.keys(numbers)
    client.send(search.asked)
    tally.check(f"{name}: each is found once", found(client, search.tag) == (keys, 0), len(keys))
    # before the first, behind the last, and between
    late = [1, 9999, 15005]
    tally.check(f"{name}: it has begun", begun(client, search))
    for at in late:
        other.send(search.stored(at))
        tally.check(f"{name}: a store between two pages, {at}", other.status() == 0)
    told = found(client, search.tag)
    tally.check(f"{name}: what was there when it began", told == (keys, 0), len(told[0]), told[1])
    keys = search.keys(numbers + late)
    client.send(search.asked)
    told = found(client, search.tag)
    tally.check(f"{name}: a later search finds more", told == (keys, 0), len(told[0]), told[1])
    tally.check(f"{name}: it has begun again", begun(client, search))
    client.send(message("cancel 1 5 2"))
    told = found(client, search.tag)
    tally.check(f"{name}: a C-CANCEL ends it", told[1] == CANCELLED
                and told[0] == keys[:len(told[0])] and len(told[0]) < len(keys),
                len(told[0]), told[1])
    tally.check(f"{name}: an echo after it", is_alive(client) and is_alive(other))
    tally.check(f"{name}: it has begun for the last time", begun(client, search))
    client.send(RELEASE)
    kinds = list[int]()
    while (taken := client.pdu()) is not None:
        kinds.append(taken[0])
    tally.check(f"{name}: a release ends it", kinds[-1:] == [RELEASE_RP]
                and len(kinds) < 2 * len(keys), len(kinds), kinds[-1:])
    tally.check(f"{name}: others are served", serves(server) and is_alive(other)
                and not server.errors(), server.errors())
