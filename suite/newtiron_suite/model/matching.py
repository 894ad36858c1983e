"""Values of elements and attribute matching (PS3.5 section 6.2 and 6.4, PS3.4 section C.2.2.2 and
table K.6-1).

A data set is a list of (tag, VR, value), the value octets or a list of data sets, as data_sets.py
gives them.
"""
import datetime
import re
from collections.abc import Collection
from typing import Any

from . import study_root
from .data_sets import TEXT, Element, Tag

LEADING = {"AE", "CS", "DS", "IS", "LO", "SH"}
SINGLE = {"LT", "ST", "UT", "UR"}
WILD = {"AE", "CS", "LO", "LT", "PN", "SH", "ST", "UC", "UT"}
CHARACTER_SET = (0x0008, 0x0005)
START_DATE, START_TIME = (0x0040, 0x0002), (0x0040, 0x0003)
APART = {CHARACTER_SET, (0x0008, 0x0052), (0x0008, 0x0054), (0x0008, 0x0056)}


def trimmed(vr: str, octets: bytes) -> bytes:
    if vr in TEXT or vr == "UI":
        octets = octets.rstrip(b"\x00 ")
    if vr in LEADING:
        octets = octets.lstrip(b" ")
    return octets


def values(vr: str, octets: bytes) -> list[bytes]:
    whole = trimmed(vr, octets)
    if not whole:
        return []
    if (vr in TEXT or vr == "UI") and vr not in SINGLE:
        return [trimmed(vr, part) for part in octets.split(b"\\")]
    return [whole]


def day_of(octets: bytes) -> tuple[int, int, int] | None:
    """A date as a number that orders days; the calendar of year 0 is that of year 2000 (both are
    leap years)."""
    if not re.fullmatch(rb"[0-9]{8}", octets):
        return None
    year, month, day = int(octets[:4]), int(octets[4:6]), int(octets[6:])
    try:
        datetime.date(year or 2000, month, day)
    except ValueError:
        return None
    return year, month, day


def span_of(octets: bytes) -> tuple[int, int] | None:
    """The first and the last microsecond that a time names."""
    found = re.fullmatch(rb"([0-9]{2})(?:([0-9]{2})(?:([0-9]{2})(?:\.([0-9]{1,6}))?)?)?", octets)
    if not found:
        return None
    hour, minute, second, fraction = found.groups()
    numbers = [int(part or 0) for part in (hour, minute, second)]
    if numbers[0] > 23 or numbers[1] > 59 or numbers[2] > 60:
        return None
    first = ((numbers[0] * 60 + numbers[1]) * 60
             + numbers[2]) * 1000000 + int((fraction or b"").ljust(6, b"0"))
    length = (10 ** (6 - len(fraction)) if fraction else 1000000 if second else 60000000 if minute
              else 3600000000)
    return first, first + length - 1


def bounds_of(vr: str, octets: bytes) -> tuple[Any, ...] | None:
    """The first and the last that a key of one value names, with None for an open end; no answer
    where it names none."""
    known = day_of if vr == "DA" else span_of
    if known(octets) is not None:
        one = known(octets)
        return (one, one) if vr == "DA" else one
    if octets.count(b"-") != 1 or octets == b"-":
        return None
    start, end = octets.split(b"-")
    ends = []
    for text, place in ((start, 0), (end, 1)):
        found = known(text) if text else None
        if text and found is None:
            return None
        ends.append(found if found is None or vr == "DA" else found[place])
    return tuple(ends)


def is_range(vr: str, octets: bytes) -> bool:
    return bounds_of(vr, octets) is not None and b"-" in octets


def is_within(bounds: tuple[Any, ...], value: Any) -> bool:
    return (bounds[0] is None or bounds[0] <= value) and (bounds[1] is None or value <= bounds[1])


def wild(pattern: bytes, text: bytes) -> bool:
    parts = b"".join({42: b".*", 63: b"."}.get(octet, re.escape(bytes([octet])))
                     for octet in pattern)
    return re.fullmatch(parts, text, re.DOTALL) is not None


def name_of(octets: bytes) -> bytes:
    return octets.rstrip(b" ^=").lower()


def value_meets(vr: str, key: bytes, held: bytes) -> bool:
    if vr in ("DA", "TM"):
        found = day_of(held) if vr == "DA" else span_of(held)
        return found is not None and is_within(bounds_of(vr, key),
                                               found if vr == "DA" else found[0])
    if vr == "PN":
        return wild(name_of(key), name_of(held))
    if vr in WILD:
        return wild(key, held)
    return key == held


def is_universal(vr: str, value: Any) -> bool:
    if vr == "SQ":
        return not value or len(value) == 1 and all(is_universal(v, x) for _, v, x in value[0])
    found = values(vr, value)
    return not found or found == [b"*"] and (vr in TEXT or vr == "UI")


def meets(key: Element, held: Element | None) -> bool:
    _, vr, value = key
    if is_universal(vr, value) or held is None:
        return True
    if vr == "SQ":
        return not held[2] or any(keys_met(value[0], item) for item in held[2])
    kept = values(vr, held[2])
    return not kept or any(value_meets(vr, one, other) for one in values(vr, value)
                           for other in kept)


def element_of(data_set: list[Element], tag: tuple[int, int]) -> Element | None:
    return next((element for element in data_set if element[0] == tag), None)


def only_value(element: Element | None) -> bytes | None:
    if element is None or element[1] == "SQ":
        return None
    found = values(element[1], element[2])
    return found[0] if len(found) == 1 else None


def period_of(keys: list[Element], held: list[Element]) -> tuple[Any, ...] | None:
    """The date range and the time range, and the day and the time, where they are met together;
    else None."""
    asked = [only_value(element_of(keys, tag)) for tag in (START_DATE, START_TIME)]
    kept = [only_value(element_of(held, tag)) for tag in (START_DATE, START_TIME)]
    if (None in asked or None in kept or not is_range("DA", asked[0])
        or not is_range("TM", asked[1])):
        return None
    day, span = day_of(kept[0]), span_of(kept[1])
    if day is None or span is None:
        return None
    return bounds_of("DA", asked[0]), bounds_of("TM", asked[1]), day, span[0]


def period_met(period: Any) -> bool:
    (first_day, last_day), (first, last), day, moment = period
    after = first_day is None or (day, moment) >= (first_day, -1 if first is None else first)
    before = last_day is None or (day, moment) <= (last_day, float("inf") if last is None else last)
    return after and before


def keys_met(keys: list[Element], held: list[Element]) -> bool:
    period = period_of(keys, held)
    together = {START_DATE, START_TIME} if period else set()
    apart = (meets(key, element_of(held, key[0])) for key in keys if key[0] not in together)
    return all(apart) and (period is None or period_met(period))


def without_apart(identifier: list[Element]) -> list[Element]:
    return [key for key in identifier if key[0] not in APART]


def fits(identifier: list[Element], held: list[Element]) -> bool:
    return keys_met(without_apart(identifier), held)


def is_query(identifier: list[Element]) -> bool:
    for _, vr, value in identifier:
        if vr == "SQ":
            if len(value) > 1 or value and not is_query(value[0]):
                return False
        elif vr in ("DA", "TM") and not is_universal(vr, value):
            if any(bounds_of(vr, one) is None for one in values(vr, value)):
                return False
    return True


def shown_element(key: Element, held: Element | None) -> Element:
    tag, vr, value = key
    if vr != "SQ":
        return (tag, vr, b"") if held is None else held
    items = [] if held is None else held[2]
    if not value or not value[0]:
        return tag, vr, items
    return tag, vr, [cut(value[0], item) for item in items if keys_met(value[0], item)]


def cut(keys: list[Element], held: list[Element]) -> list[Element]:
    return [shown_element(key, element_of(held, key[0])) for key in keys]


def shown(identifier: list[Element], held: list[Element]) -> list[Element]:
    answer = cut(without_apart(identifier), held)
    character_set = element_of(held, CHARACTER_SET)
    if character_set is not None and values(character_set[1], character_set[2]):
        answer.append(character_set)
    return sorted(answer)


CODES = {(0x0008, 0x0100): None, (0x0008, 0x0102): None, (0x0008, 0x0103): None,
         (0x0008, 0x0104): None}
REFERENCES = {(0x0008, 0x1150): None, (0x0008, 0x1155): None}


def tags(text: str, **inner: dict[Tag, Any]) -> dict[Tag, Any]:
    """Tags from lines 'GGGG: EEEE EEEE ..'; those of sequences have the keys of their items."""
    found = {}
    for part in text.split(";"):
        group, rest = part.split(":")
        for element in rest.split():
            found[int(group, 16), int(element, 16)] = None
    found.update({(int(name[1:5], 16), int(name[5:], 16)): keys for name, keys in inner.items()})
    return found


KEPT = study_root.KEPT
KEYS: dict[str, dict[Tag, Any]] = {
    "STUDY": {**KEPT["STUDY"], **study_root.COMPUTED["STUDY"]},
    "SERIES": {**KEPT["SERIES"], **study_root.COMPUTED["SERIES"]},
    "IMAGE": KEPT["IMAGE"],
    "ENTRY": tags("0008: 0050 0090 1080; 0010: 0010 0020 0021 0030 0040 1030 2000 2110 21C0 4000; "
                  "0020: 000D;"
                  "0032: 1032 1033 1060; 0038: 0010 0050 0300 0500; 0040: 1001 1002 1003 1004 1400 "
                  "2016 2017",
                  t00081110=REFERENCES, t00081120=REFERENCES, t00321064=CODES,
                  t00400100=tags("0008: 0060; 0040: 0001 0002 0003 0006 0007 0009 0010 0011 0012 "
                                 "0020",
                                 t00400008=CODES)),
}


def strike(data_set: list[Element], supported: dict[Tag, Any],
           apart: Collection[Tag] = frozenset()) -> tuple[list[Element], bool]:
    """The data set without unsupported keys, and whether any was struck."""
    kept, struck = [], False
    for tag, vr, value in data_set:
        if tag in apart:
            kept.append((tag, vr, value))
        elif tag not in supported:
            struck = True
        elif vr == "SQ":
            items = [strike(item, supported[tag] or {}) for item in value]
            kept.append((tag, vr, [item for item, _ in items]))
            struck = struck or any(inner for _, inner in items)
        else:
            kept.append((tag, vr, value))
    return kept, struck
