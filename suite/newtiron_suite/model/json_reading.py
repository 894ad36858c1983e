"""What DICOM JSON is as a data set, worked out from the standard: an independent model for the
suites of data sets and of the web front.

Written from PS3.18 annex F.2 (the DICOM JSON Model), PS3.5 section 6.2 (value representations and
names) and section 6.4 (several values). A data set is an object; attributes stand in the order of
their tags, each with its VR, which is the dictionary's where that has the tag, and at most one of
Value and InlineBinary. IS and DS are strings or numbers, US numbers from 0 to 65535; no other VR of
numbers has values. The text is UTF-8: Specific Character Set can only be ISO_IR 192, and is put
there unless all strings are ASCII. The first rule that is broken is told with the attribute that
breaks it: of a name that is no tag the attribute before it, of an item that is no object its
sequence.

Use: suite/models json_reading < NAME.in. It prints a line for each line `read OCTETS`: the
canonical spelling in Explicit, or the word of the fault.
"""
from __future__ import annotations

import base64
import binascii
import json
import re
import sys
from typing import Any

from . import data_sets
from .data_sets import DEEPEST, Element, Tag
from .dictionary import DICTIONARY

CHARACTER_SET, ITEM_GROUP = (0x0008, 0x0005), 0xFFFE
UTF_8 = b"ISO_IR 192"
BINARY = set("OB OD OF OL OV OW UN".split())
# Value representations with one value alone, in which a backslash is a character.
SINGLE = set("LT ST UT UR".split())
GROUPS = "Alphabetic", "Ideographic", "Phonetic"


class Fault(Exception):
    """Why a text is no data set, in the words that are told."""


class Members(list[Any]):
    """The members of an object, in order."""

    def named(self, name: str) -> list[Any]:
        return [value for key, value in self if key == name]


class Number(str):
    """The text of a number."""


def broken(rule: str, place: Tag | None) -> Fault:
    return Fault(f"json {rule}" + (f" {place[0]:04X}{place[1]:04X}" if place else ""))


def no_number(text: str) -> Any:
    raise ValueError(text)


def json_of(octets: bytes) -> Any:
    try:
        return json.loads(octets.decode(), object_pairs_hook=Members, parse_int=Number,
                          parse_float=Number, parse_constant=no_number)
    except UnicodeDecodeError as error:
        raise Fault(f"json octet {error.start}") from None
    except ValueError as error:
        raise Fault(f"json octet {getattr(error, 'pos', 0)}") from None


def plain(vr: str, one: Any) -> bytes | None:
    """The octets of one value of text; None where it is none."""
    if one is None:
        return b""
    if vr == "PN":
        return name(one)
    if not isinstance(one, str) or isinstance(one, Number) and vr not in ("IS", "DS"):
        return None
    return None if "\\" in one and vr not in SINGLE else one.encode()


def name(one: Any) -> bytes | None:
    """The octets of a name, without the delimiters behind its last component group."""
    if not isinstance(one, Members) or len({key for key, _ in one}) < len(one):
        return None
    groups = dict(one)
    texts = [groups.pop(group, "") for group in GROUPS]
    if groups or any(not isinstance(text, str) or isinstance(text, Number)
                     or re.search(r"[=\\]", text) for text in texts):
        return None
    return "=".join(texts).rstrip("=").encode()


def short(one: Any) -> bytes | None:
    if not isinstance(one, str) or not re.fullmatch("[0-9]+", one, re.ASCII) or int(one) > 65535:
        return None
    return int(one).to_bytes(2, "little")


def octets_of(vr: str, told: Any) -> bytes | None:
    """The octets of a Value."""
    if not isinstance(told, list) or isinstance(told, Members):
        return None
    if vr == "US":
        parts = [short(one) for one in told]
    elif vr in data_sets.TEXT | {"UI"} and (len(told) < 2 or vr not in SINGLE):
        parts = [plain(vr, one) for one in told]
    else:
        return None
    return None if None in parts else (b"" if vr == "US" else b"\\").join(parts)


def binary(vr: str, told: Any) -> bytes | None:
    if vr not in BINARY or not isinstance(told, str) or isinstance(told, Number):
        return None
    try:
        octets = base64.b64decode(told, validate=True)
    except binascii.Error:
        return None
    return octets if base64.b64encode(octets).decode() == told else None


def items(tag: Tag, members: Members, depth: int) -> list[list[Element]]:
    if depth == DEEPEST:
        raise broken("depth", tag)
    told = (members.named("Value") or [[]])[0]
    if members.named("InlineBinary") or not isinstance(told, list) or isinstance(told, Members):
        raise broken("value", tag)
    return [data_set(one, tag, depth + 1) for one in told]


def value(tag: Tag, vr: str, members: Members, depth: int) -> Any:
    """The octets or the items of an attribute."""
    kinds = [key for key, _ in members if key != "vr"]
    if len(members) != 1 + len(kinds) or len(kinds) > 1 or \
            not set(kinds) <= {"Value", "InlineBinary"}:
        raise broken("value", tag)
    if vr == "SQ":
        return items(tag, members, depth)
    octets: bytes | None = b""
    if kinds == ["Value"]:
        octets = octets_of(vr, members.named("Value")[0])
    elif kinds:
        octets = binary(vr, members.named("InlineBinary")[0])
    if octets is None:
        raise broken("value", tag)
    if tag == CHARACTER_SET and octets != UTF_8:
        raise broken("character set", tag)
    return data_sets.padded(vr, octets)


def element(last: Tag | None, key: str, told: Any, depth: int) -> Element:
    numbers = re.fullmatch("([0-9A-Fa-f]{4})([0-9A-Fa-f]{4})", key, re.ASCII)
    tag = (int(numbers[1], 16), int(numbers[2], 16)) if numbers else (ITEM_GROUP, 0)
    if tag[0] == ITEM_GROUP or tag[1] == 0:
        raise broken("name", last)
    if last is not None and tag <= last:
        raise broken("order", tag)
    vr = (told.named("vr") or [None])[-1] if isinstance(told, Members) else None
    if not isinstance(vr, str) or isinstance(vr, Number) or \
            vr not in data_sets.SHORT | data_sets.LONG or DICTIONARY.get(tag, vr) != vr:
        raise broken("vr", tag)
    found = value(tag, vr, told, depth)
    return tag, vr if tag in DICTIONARY or vr == "SQ" else "UN", found


def data_set(told: Any, place: Tag | None, depth: int) -> list[Element]:
    if not isinstance(told, Members):
        raise broken("object", place)
    found: list[Element] = []
    for key, member in told:
        found.append(element(found[-1][0] if found else None, key, member, depth))
    return found


def strings(told: Any) -> Any:
    """The strings of a value, at any depth."""
    if isinstance(told, Members):
        told = [one for _, one in told]
    if isinstance(told, list):
        for one in told:
            yield from strings(one)
    elif isinstance(told, str) and not isinstance(told, Number):
        yield told


def read(octets: bytes) -> list[Element]:
    """The data set that a text spells."""
    told = json_of(octets)
    found = data_set(told, None, 0)
    if all(map(str.isascii, strings(told))):
        return found
    return sorted([one for one in found if one[0] != CHARACTER_SET]
                  + [(CHARACTER_SET, "CS", UTF_8)], key=lambda one: one[0])


def answer(octets: bytes) -> str:
    try:
        return data_sets.canonical(read(octets), data_sets.EXPLICIT).hex() or "-"
    except Fault as fault:
        return str(fault)


def main(_words: list[str]) -> None:
    for line in sys.stdin:
        if line.startswith("#"):
            continue
        digits = line.split()[1]
        print(answer(b"" if digits == "-" else bytes.fromhex(digits)))
