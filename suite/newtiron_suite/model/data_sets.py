"""What octets are as a data set, worked out from the standard: an independent model for the suite
of data sets.

Written from PS3.5 section 7.1 (data elements), section 7.2 (group lengths), section 7.5 (sequences
and items), section 6.2 (value representations) and annex A (transfer syntaxes), with the tags of
PS3.6 in dictionary.py. It shares nothing with the crates' code. Where octets have several faults,
the first in their order counts, and for one element the order in which `element` tests.

Use: suite/models data_sets < NAME.in. It prints a line for each line: `fault N`, or the canonical
spellings in Explicit and in Implicit; where the line asks to sift, what is kept, in Explicit, and
whether there was another element. On a bad line it tells the line on standard error, and exits with
3.
"""
from __future__ import annotations

import re
import sys
from typing import Any

from . import study_root
from .dictionary import DICTIONARY

SHORT = set("AE AS AT CS DA DS DT FD FL IS LO LT PN SH SL SS ST TM UI UL US".split())
LONG = set("OB OD OF OL OV OW SQ SV UC UN UR UT UV".split())
TEXT = set("AE AS CS DA DS DT IS LO LT PN SH ST TM UC UR UT".split())
IMPLICIT, EXPLICIT = "implicit", "explicit"
Tag = tuple[int, int]
# A tag, its value representation, and octets or, of a sequence, its items.
Element = tuple[Tag, str, Any]
UNDEFINED = 0xFFFFFFFF
ITEM, ITEM_END, SEQUENCE_END = (0xFFFE, 0xE000), (0xFFFE, 0xE00D), (0xFFFE, 0xE0DD)
DEEPEST = 16
LONGEST_KEPT = 67108864
TRUNCATED, BAD_VR, TAG_ORDER, BAD_ITEM, BAD_UNDEFINED, TOO_DEEP = 1, 2, 3, 4, 5, 6


class Fault(Exception):
    pass


class Octets:
    """Octets that are taken from the front, up to an end. With `keeps_vr` an unknown tag has its
    value representation as it is spelled, in place of UN. `begun` is what was left where the last
    element outside of all sequences begins.
    """

    def __init__(self, data: bytes, keeps_vr: bool = False) -> None:
        self.data, self.keeps_vr, self.begun = data, keeps_vr, data

    def take(self, count: int) -> bytes:
        if len(self.data) < count:
            raise Fault(TRUNCATED)
        front, self.data = self.data[:count], self.data[count:]
        return front

    def number(self, width: int) -> int:
        return int.from_bytes(self.take(width), "little")

    def tag(self) -> tuple[int, int]:
        """A tag, of which at least a length follows."""
        if len(self.data) < 8:
            raise Fault(TRUNCATED)
        return self.number(2), self.number(2)

    def within(self, length: int) -> Octets:
        return Octets(self.take(length), self.keeps_vr)


def nothing_follows(octets: Octets) -> None:
    if octets.number(4) != 0:
        raise Fault(BAD_ITEM)


def elements(octets: Octets, delimited: bool, syntax: str, depth: int,
             found: list[Any] | None = None) -> list[Element]:
    """The elements of a data set or of an item, as (tag, VR, octets or items), up to the octets'
    end or an item end. A list that is given as `found` has those before a fault.
    """
    found, last = [] if found is None else found, None
    while delimited or octets.data:
        if depth == 0:
            octets.begun = octets.data
        tag = octets.tag()
        if delimited and tag == ITEM_END:
            nothing_follows(octets)
            return found
        if tag[0] == 0xFFFE:
            raise Fault(BAD_ITEM)
        if last is not None and tag <= last:
            raise Fault(TAG_ORDER)
        last = tag
        vr, value = element(octets, tag, syntax, depth)
        if tag[1] != 0:
            found.append((tag, vr, value))
    return found


def element(octets: Octets, tag: tuple[int, int], syntax: str, depth: int) -> tuple[str, Any]:
    """What follows a tag, with the value representation that the data set has."""
    known, spelled = DICTIONARY.get(tag), None
    if syntax == EXPLICIT:
        spelled = octets.take(2).decode("latin-1")
        if spelled not in SHORT | LONG:
            raise Fault(BAD_VR)
        if (known == "SQ" and spelled not in ("SQ", "UN") or known not in (None, "SQ")
            and spelled == "SQ"):
            raise Fault(BAD_VR)
    if spelled in LONG:
        octets.take(2)
    length = octets.number(2 if spelled in SHORT else 4)
    undefined = spelled not in SHORT and length == UNDEFINED
    holds_items = spelled == "SQ" or known == "SQ" or undefined
    if undefined and (known not in (None, "SQ") or spelled not in (None, "SQ", "UN")):
        raise Fault(BAD_UNDEFINED)
    if holds_items and depth == DEEPEST:
        raise Fault(TOO_DEEP)
    if holds_items:
        inner = EXPLICIT if spelled == "SQ" else IMPLICIT
        part = octets if undefined else octets.within(length)
        return "SQ", items(part, undefined, inner, depth + 1)
    value = octets.take(length)
    vr = known or octets.keeps_vr and spelled or "UN"
    return vr, padded(vr, value)


def padded(vr: str, value: bytes) -> bytes:
    """A value of even length (PS3.5 section 6.2)."""
    return value + (b" " if vr in TEXT else b"\0") * (len(value) % 2)


def items(octets: Octets, delimited: bool, syntax: str, depth: int) -> list[list[Element]]:
    found = []
    while delimited or octets.data:
        tag = octets.tag()
        if delimited and tag == SEQUENCE_END:
            nothing_follows(octets)
            return found
        if tag != ITEM:
            raise Fault(BAD_ITEM)
        length = octets.number(4)
        if length == UNDEFINED:
            found.append(elements(octets, True, syntax, depth))
        else:
            found.append(elements(octets.within(length), False, syntax, depth))
    return found


def little(number: int, width: int) -> bytes:
    return number.to_bytes(width, "little")


def spelled_tag(tag: tuple[int, int]) -> bytes:
    return little(tag[0], 2) + little(tag[1], 2)


def canonical(data_set: list[Element], syntax: str) -> bytes:
    """The spelling with defined lengths and without group lengths."""
    out = b""
    for tag, vr, value in data_set:
        if vr == "SQ":
            spellings = [canonical(item, syntax) for item in value]
            value = b"".join(spelled_tag(ITEM) + little(len(octets), 4) + octets
                             for octets in spellings)
        out += spelled_tag(tag)
        if syntax == IMPLICIT:
            out += little(len(value), 4)
        elif vr in SHORT and len(value) <= 65534:
            out += vr.encode() + little(len(value), 2)
        else:
            out += ("UN" if vr in SHORT else vr).encode() + b"\0\0" + little(len(value), 4)
        out += value
    return out


def answer(octets: bytes, syntax: str) -> str:
    try:
        data_set = elements(Octets(octets), False, syntax, 0)
    except Fault as fault:
        return f"fault {fault.args[0]}"
    return " ".join(canonical(data_set, to).hex() or "-" for to in (EXPLICIT, IMPLICIT))


SEQUENCES = {(0x0008, 0x1110), (0x0008, 0x1115), (0x0010, 0x0020), (0x0040, 0x0270),
             (0x0040, 0x0275)}
LISTS: dict[str, set[Tag]] = {
    "none": set(),
    "sequences": SEQUENCES,
    # what is kept of what is stored, with Specific Character Set
    "storage": {(0x0008, 0x0005)}.union(*study_root.KEPT.values()),
}


def sifted(octets: bytes, syntax: str, tags: set[tuple[int, int]]) -> str:
    """What a list of tags leaves, and whether there was another element; however the octets are
    cut."""
    try:
        data_set = elements(Octets(octets), False, syntax, 0)
    except Fault as fault:
        return f"fault {fault.args[0]}"
    kept = [element for element in data_set if element[0] in tags]
    spelled = canonical(kept, EXPLICIT)
    if len(spelled) > LONGEST_KEPT:
        return "large"
    return f"{spelled.hex() or '-'} {'all' if len(kept) == len(data_set) else 'others'}"


LINE = re.compile(rf"(?:sift ({'|'.join(LISTS)}) [0-9]+ [0-9]+ )?(implicit|explicit) "
                  rf"(-|([0-9A-Fa-f]{{2}})+)")


def main(_words: list[str]) -> int:
    for number, line in enumerate(sys.stdin, 1):
        line = line.removesuffix("\n")
        if not line or line.startswith("#"):
            continue
        found = LINE.fullmatch(line)
        if not found:
            print(f"line {number}", file=sys.stderr)
            return 3
        name, syntax, digits = found[1], found[2], found[3]
        octets = b"" if digits == "-" else bytes.fromhex(digits)
        print(sifted(octets, syntax, LISTS[name]) if name else answer(octets, syntax))
    return 0
