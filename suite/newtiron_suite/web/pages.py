"""Pages that end at 8 MiB, and the memory that they take."""
import itertools
import pathlib
from collections.abc import Callable, Iterable, Iterator
from dataclasses import dataclass
from typing import Any

from ..model import costly, data_sets, large_rows, web
from ..model.large_rows import LARGE, LETTERS, SPACES
from ..scenes import SERVED
from ..tally import Tally
from .common import Pair, entry_words
from .entries import json_entry

# The most octets of a text with a length of 16 bits, and in how many items of a sequence a large
# item of the worklist has its text.
LONGEST_TEXT, ITEMS = 65534, 15
# How many large rows are looked at to compare what that takes, the most megabytes that it may take,
# and by how many these may grow from the fewer rows to the more.
FEWER, MORE, MOST_TAKEN, MOST_GROWN = 30, 90, 120, 16
AS_JSON = ["Content-Type: application/dicom+json"]


def large_entry(identity: str, size: int = LARGE) -> bytes:
    """An item with a text of this many octets, in the items of a sequence."""
    each = size // ITEMS
    lengths = [each] * (ITEMS - 1) + [size - each * (ITEMS - 1)]
    items = [{"00104000": {"vr": "LT", "Value": ["x" * length]}} for length in lengths]
    return json_entry(identity, more={"00081110": {"vr": "SQ", "Value": items}})


def entry_of_names(identity: str) -> bytes:
    """An item of 1 MB that has over 8 MiB as JSON: names of many values, of two octets each."""
    names = "\\".join("A" * (LONGEST_TEXT // 2)).encode()
    items = [[((0x0008, 0x0090), "PN", data_sets.padded("PN", names))] for _ in range(ITEMS)]
    return large_rows.item_with(entry_words(identity), ((0x0008, 0x1110), "SQ", items))


def spaced_entry(identity: str, size: int = LARGE) -> bytes:
    """An item whose comments are so many spaces."""
    return large_rows.item(entry_words(identity), b" " * size)


def page_of(tally: Tally, pair: Pair, target: str) -> tuple[list[dict[str, Any]], bool, int]:
    """The answers of a page of NORTH, whether it says that there may be more, and how many octets
    it has. It is the model's."""
    target = f"/NORTH/{target}"
    told, wanted = pair.ask("GET", target, "NORTH"), pair.expected("GET", target, "NORTH")
    warning = told.fields.get("warning")
    tally.check(f"a page of large rows, {target}",
                not told.faults and (told.status, told.body, warning)
                == (wanted.status, wanted.body, wanted.fields.get("Warning")),
                told.head, wanted.status, wanted.fields, len(wanted.body))
    return told.json() if told.body else [], "The page is full" in (warning or ""), len(told.body)


def value_in(answer: dict[str, Any], *tags: str) -> str:
    """The first value of the last of these attributes, each in the first item of the one before."""
    found: Any = answer
    for tag in tags:
        found = found[tag]["Value"][0]
    return found


def step_id(answer: dict[str, Any]) -> str:
    """The Scheduled Procedure Step ID of an item."""
    return value_in(answer, "00400100", "00400009")


def page_of_worklist(tally: Tally, pair: Pair, words: str) -> tuple[list[str], bool, int]:
    """The same of its worklist, with the step IDs in place of the answers."""
    found, is_full, size = page_of(tally, pair, f"worklist?{words}")
    return [step_id(one) for one in found], is_full, size


def seen_in(tally: Tally, pair: Pair, path: str,
            key_of: Callable[[dict[str, Any]], str]) -> tuple[list[list[str]], list[int]]:
    """The keys of all pages of a path, each from where the one before ended, up to one that is not
    full; and their octets."""
    seen, sizes, is_full = list[list[str]](), list[int](), True
    while is_full and len(seen) < MORE:
        offset = len(sum(seen, []))
        found, is_full, size = page_of(tally, pair, f"{path}?limit=1000&offset={offset}")
        seen, sizes = [*seen, [key_of(one) for one in found]], [*sizes, size]
    return seen, sizes


def cut(keys: list[str], *lengths: int) -> list[list[str]]:
    """The keys in parts of these lengths."""
    ends = [0, *itertools.accumulate(lengths)]
    return [keys[begin:end] for begin, end in itertools.pairwise(ends)]


def arrays(tally: Tally, folder: pathlib.Path) -> None:
    """A page ends before the answer that would make its array longer than 8 MiB, and the next
    offset goes on there."""
    ids = [f"L{at:02}" for at in range(FEWER)]
    with Pair(folder) as pair:
        def send(body: bytes, fields: Iterable[str] = AS_JSON) -> None:
            pair.compare(tally, "a large item", "POST", "/NORTH/worklist", "NORTH", body=body,
                         fields=fields)

        for one in ids:
            send(large_entry(one))
        seen, sizes = seen_in(tally, pair, "worklist", step_id)
        tally.check("large items come once each, in order", seen == cut(ids, 8, 8, 8, 6), seen)
        tally.check("no page is longer than 8 MiB", max(sizes) <= web.LONGEST_ARRAY, sizes)
        for limit in (4, 8, 9, 20):
            told = page_of_worklist(tally, pair, f"limit={limit}")
            tally.check(f"{limit} large items are asked for",
                        told[:2] == (ids[:min(limit, 8)], True), told)
        # the last of nine is made shorter: it fits, then to the last octet, then it does not
        size = LARGE // 2
        for wanted in ((ids[-9:], False), (ids[-9:], False), (ids[-9:-1], True)):
            pair.compare(tally, "the last", "DELETE", f"/NORTH/worklist/{ids[-1]}", "NORTH")
            send(large_entry(ids[-1], size))
            told = page_of_worklist(tally, pair, f"offset={FEWER - 9}")
            tally.check(f"a page whose last answer has {size} octets", told[:2] == wanted, told)
            size += web.LONGEST_ARRAY - told[2] or 1
        send(entry_of_names("A00"), [])
        told = page_of_worklist(tally, pair, "limit=9")
        tally.check("a first answer that has no room is shown alone",
                    told[:2] == (["A00"], True) and told[2] > web.LONGEST_ARRAY, told)
        told = page_of_worklist(tally, pair, "offset=1")
        tally.check("and the others behind it", told[:2] == (ids[:8], True), told)
        pair.is_right(tally, "arrays")


def pages(tally: Tally, folder: pathlib.Path) -> None:
    """A page ends with the answer whose data set fills it, however short its JSON is: of items, of
    steps and of studies, here with spaces, which JSON leaves out."""
    ids, studies = [f"L{at:02}" for at in range(20)], [f"1.3.{at + 10}" for at in range(20)]
    with Pair(folder) as pair:
        pair.play("open 1", f"associate 1 ARCHIVE CT1 {SERVED}")
        for at, one in enumerate(ids):
            pair.compare(tally, "an item of spaces", "POST", "/NORTH/worklist", "NORTH",
                         body=spaced_entry(one))
            for octets in (large_rows.step(at, SPACES),
                           large_rows.study(studies[at].encode(), SPACES)):
                line = costly.line_of(1, octets).removesuffix("\n")
                tally.check(f"a step and a study of spaces, {at}", pair.play_event(line))
        kinds: list[tuple[str, Callable[[dict[str, Any]], str], list[str]]] = [
            ("worklist", step_id, ids),
            ("steps", lambda one: value_in(one, "00100020"), ids),
            ("rs/studies", lambda one: value_in(one, "0020000D"), studies)]
        for path, key_of, keys in kinds:
            seen, sizes = seen_in(tally, pair, path, key_of)
            tally.check(f"{path}: rows of spaces come once each, in order",
                        seen == cut(keys, 9, 9, 2) and max(sizes) < 100000, seen, sizes)
        for words, wanted in ((f"after={studies[8]}", studies[9:18]),
                              (f"after={studies[8]}&offset=8", studies[17:])):
            found, _, _ = page_of(tally, pair, f"rs/studies?{words}")
            tally.check(f"studies of spaces, {words}",
                        [value_in(one, "0020000D") for one in found] == wanted, found)
        pair.is_right(tally, "pages")
    last_answers(tally, folder)


def last_answers(tally: Tally, folder: pathlib.Path) -> None:
    """Nine answers do not fill a page if they lack two octets of 8 MiB, and fill it if they lack
    none, whether there is a tenth or not."""
    ids = [f"L{at:02}" for at in range(10)]
    with Pair(folder) as pair:
        def send(identity: str, size: int) -> None:
            pair.compare(tally, "an item of spaces", "POST", "/NORTH/worklist", "NORTH",
                         body=spaced_entry(identity, size))

        def withdraw(identity: str) -> None:
            pair.compare(tally, "an item of spaces", "DELETE", f"/NORTH/worklist/{identity}",
                         "NORTH")

        for one in ids[:9]:
            send(one, LARGE)
        records = next(one.records for one in pair.model.institutions if one.name == "NORTH")
        nine, _ = web.searched(records, "worklist", "limit=9", {})
        # the last of them is made as much shorter as they are too long
        size = LARGE - (sum(map(web.octets_of, nine)) - web.FILLED_PAGE)
        for length, shown in ((size - 2, ids), (size, ids[:9])):
            withdraw(ids[8])
            send(ids[8], length)
            told = page_of_worklist(tally, pair, "")
            tally.check(f"nine answers of which the last has {length} spaces",
                        told[:2] == (ids[:9], length == size), told)
            send(ids[9], LARGE)
            told = page_of_worklist(tally, pair, "")
            tally.check(f"and a tenth behind {length} spaces", told[:2] == (shown, True), told)
            withdraw(ids[9])
        pair.is_right(tally, "last answers")


@dataclass
class Kind:
    """Large rows of NORTH: a name, how one of a number is sent, whether it was taken, and the path
    that shows them."""
    name: str
    path: str
    send: Callable[[Pair, int], bool]


def sent_entry(pair: Pair, at: int) -> bool:
    told = pair.ask("POST", "/NORTH/worklist", "NORTH", body=large_entry(f"L{at:02}"),
                    fields=AS_JSON)
    return told.status == 201


def sent_step(pair: Pair, at: int) -> bool:
    pair.clients["1"].send(large_rows.step(at, LETTERS))
    return pair.clients["1"].status() == 0


KINDS = [Kind("worklist items", "worklist", sent_entry), Kind("steps", "steps", sent_step)]


def peaks(tally: Tally, folder: pathlib.Path) -> None:
    """All pages of large rows of a store are asked for, one after the other. What that takes is
    within a bound, and does not grow with the rows."""
    for kind in KINDS:
        taken = [taken_by(tally, folder, kind, count) for count in (FEWER, MORE)]
        print(f"pages of {FEWER} and of {MORE} large {kind.name}: {taken[0]:.0f} and "
              f"{taken[1]:.0f} MiB more", flush=True)
        tally.check(f"the memory of pages of {kind.name}", max(taken) < MOST_TAKEN, taken)
        tally.check(f"the memory of pages of {kind.name} does not grow with them",
                    taken[1] - taken[0] < MOST_GROWN, taken)


def taken_by(tally: Tally, folder: pathlib.Path, kind: Kind, count: int) -> float:
    """The megabytes that a server takes at most, beyond those before, while all pages of so many
    rows are asked for."""
    store = folder / f"{kind.path}{count}.db"
    with Pair(folder, "--new", store) as pair:
        pair.play("open 1", f"associate 1 ARCHIVE CT1 {SERVED}")
        taken = [kind.send(pair, at) for at in range(count)]
        tally.check(f"{count} large {kind.name}", all(taken), taken)
    with Pair(folder, "--store", store) as pair:
        pair.ask("GET", "/NORTH/counts", "NORTH")
        before = pair.server.memory()
        found = list(lengths_of(pair, kind.path))
        tally.check(f"all pages of {count} large {kind.name}",
                    sum(found) == count and max(found) < 10, found)
        return pair.server.memory("VmHWM") - before


def lengths_of(pair: Pair, path: str) -> Iterator[int]:
    """How many answers each page has, up to one that is not full."""
    offset, is_full = 0, True
    while is_full:
        told = pair.ask("GET", f"/NORTH/{path}?limit=1000&offset={offset}", "NORTH")
        count = len(told.json()) if told.body else 0
        yield count
        offset, is_full = offset + count, count > 0 and "is full" in told.fields.get("warning", "")
