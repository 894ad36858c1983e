"""Lines for the suite of data sets: suite/models make_data_sets KIND [FILE] > LINES

    faults          one element with every two of its faults, alone and 1, 15 and 16 sequences deep,
                    in both syntaxes
    representations each tag of the dictionary, and an unknown one, with each value representation
    cuts FILE       the data sets of a file of lines, cut at each octet
    sifted FILE     all of these, each sifted by three lists: whole, octet by octet, and in pieces
                    of any length
    pieces FILE     the data sets of a file of lines, sifted by each list in pieces of 1, 2, 3 and 7
                    octets, and whole
"""
import itertools
import random
from collections.abc import Iterator
from typing import Any

from . import data_sets
from .data_sets import DICTIONARY, EXPLICIT, IMPLICIT, LONG, SHORT, little, spelled_tag

SEQUENCE = (0x0040, 0x0275)
BEFORE = (0x0008, 0x0050)
NAMES = sorted(data_sets.LISTS)
ITEM = spelled_tag((0xFFFE, 0xE000))


def header(tag: tuple[int, int], letters: str, length: int, syntax: str) -> bytes:
    if syntax == IMPLICIT:
        return spelled_tag(tag) + little(length, 4)
    if letters in SHORT:
        return spelled_tag(tag) + letters.encode() + little(length & 0xFFFF, 2)
    return spelled_tag(tag) + letters.encode() + b"\0\0" + little(length, 4)


def nested(octets: bytes, depth: int, syntax: str) -> bytes:
    """The octets as a data set so many sequences of defined length deep."""
    for _ in range(depth):
        item = ITEM + little(len(octets), 4) + octets
        octets = header(SEQUENCE, "SQ", len(item), syntax) + item
    return octets


def faulty(faults: tuple[str, ...], syntax: str) -> bytes:
    """An element with the faults, after one that is right."""
    tag, letters, length, value = (0x0010, 0x0020), "LO", 4, b"ABC "
    if "tag order" in faults:
        tag = (0x0008, 0x0020)
        letters = "DA"
    if "group" in faults:
        tag = (0xFFFE, 0xE0DD)
    if "items" in faults:
        tag, letters, value = (tag if "group" in faults else (0x0008, 0x1110)
                               if "tag order" not in faults else (0x0008, 0x0001)), "SQ", b""
        length = 0
    if "letters" in faults:
        letters = "ZZ" if "items" not in faults else "OB"
    if "undefined" in faults:
        letters, length = "OB" if letters != "ZZ" else letters, 0xFFFFFFFF
    if "length" in faults:
        length = 0xFFF0
    octets = header(tag, letters, length, syntax) + value
    if "short" in faults:
        octets = octets[:7]
    if "short header" in faults:
        octets = octets[:9]
    return header(BEFORE, "SH", 2, syntax) + b"A " + octets


def fault_lines() -> Iterator[tuple[str, bytes]]:
    kinds = ["short", "group", "tag order", "letters", "short header", "undefined",
             "items", "length"]
    for syntax, depth in itertools.product((EXPLICIT, IMPLICIT), (0, 1, 15, 16)):
        for faults in itertools.chain(*(itertools.combinations(kinds, count)
                                        for count in (0, 1, 2, 3))):
            yield syntax, nested(faulty(faults, syntax), depth, syntax)


def representation_lines() -> Iterator[tuple[str, bytes]]:
    for tag, letters in itertools.product([*DICTIONARY, (0x0009, 0x0010)], sorted(SHORT | LONG)):
        for value in (b"", b"\x31\x20"):
            yield EXPLICIT, header(tag, letters, len(value), EXPLICIT) + value


def whole_lines(path: str) -> Iterator[tuple[str, bytes]]:
    for line in open(path):
        words = line.split()
        if words and not line.startswith("#") and words[1] != "-":
            yield words[0], bytes.fromhex(words[1])


def cut_lines(path: str) -> Iterator[tuple[str, bytes]]:
    for syntax, octets in whole_lines(path):
        for at in range(len(octets)):
            yield syntax, octets[:at]


def sifted_lines(path: str) -> Iterator[tuple[str, bytes]]:
    chance = random.Random(1)
    made = itertools.chain(fault_lines(), representation_lines(), cut_lines(path))
    for number, (syntax, octets) in enumerate(made):
        count = max(len(octets), 1)
        cuts = [(count, 1), (1, 1), (chance.randint(1, count), chance.randint(1, count))]
        for turn, (first, each) in enumerate(cuts):
            yield f"sift {NAMES[(number + turn) % len(NAMES)]} {first} {each} {syntax}", octets


def piece_lines(path: str) -> Iterator[tuple[str, bytes]]:
    for syntax, octets in whole_lines(path):
        for name, each in itertools.product(NAMES, (1, 2, 3, 7, len(octets))):
            yield f"sift {name} {each} {each} {syntax}", octets


def main(words: list[str]) -> None:
    lines: Any = {"faults": fault_lines, "representations": representation_lines, "cuts": cut_lines,
             "sifted": sifted_lines, "pieces": piece_lines}[words[0]]
    for syntax, octets in lines(*words[1:]):
        print(syntax, octets.hex() or "-")
