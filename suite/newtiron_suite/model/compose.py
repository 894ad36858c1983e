"""Writes captures from readable lines: suite/models compose < NAME.scene > NAME.capture

A scene is lines like these; N is a connection, I a presentation context, M a message id.

    open N                                           opens a connection
    associate N CALLED CALLING I=CLASS:SYNTAX,SYNTAX ..  [max LENGTH] [version V] [application UID]
    echo N I M
    store N I M CLASS INSTANCE DATA                  the data set is spelled in the context's
                                                     syntax, as proposed first
    find N I M CLASS DATA
    create N I M INSTANCE DATA
    set N I M INSTANCE DATA
    cancel N I M
    release N          abort N          end N
    pull N                                           asks for the next answers of the C-FIND that is
                                                     open
    piece N HEX                                      octets as they are
    schedule NAME DATA                               in Explicit
    withdraw NAME ID
    cut COUNT                                        from here on pieces have at most so many
                                                     octets; 0: whole messages
    join                                             the next line's octets go out with those of the
                                                     line before it
    each FIRST LAST LINE                             the line for each of these numbers, which @
                                                     stands for in its words; messages go out
                                                     together

DATA is keywords of PS3.6 with values, as PatientName=DOE^A, and `Keyword= { .. } { .. }` for a
sequence's items. Words with spaces stand in double quotes. A tag that has no keyword here is
GGGGEEEE:VR=value, octets are written 0xHEX, and zeros:COUNT is so many zero octets. `nodata` in
place of DATA sends a command without a data set. A last word `raw:HEX` adds octets after the data
set as they are, such as no data set has. A line that begins with a space goes on with the line
before it. CLASS is a word of sop_classes.py, as CT, or a UID; SYNTAX is explicit, implicit or a
UID.

On a line that is not understood it tells the line, the word and what was expected there, and exits
with 2.
"""
from __future__ import annotations

import difflib
import re
import shlex
import sys
from collections.abc import Iterable, Iterator
from typing import Any

from . import data_sets, sop_classes
from .data_sets import Element
from .dictionary import KEYWORDS
from .messages import (C_CANCEL, C_ECHO, C_FIND, C_STORE, DATA_SET, NO_DATA_SET, N_CREATE, N_SET,
                       command_set, form_of, padded, sent, two)
from .upper_layer import (ABORT, APPLICATION_CONTEXT, EXPLICIT, IMPLICIT, RELEASE_RQ, pdu,
                          request_pdu)

CLASSES = sop_classes.UIDS
SYNTAXES = {"explicit": EXPLICIT, "implicit": IMPLICIT}
# the words that a line has, by its first one
LINES = {"open": "open N", "end": "end N",
         "associate": "associate N CALLED CALLING I=CLASS:SYNTAX,SYNTAX ..",
         "echo": "echo N I M", "cancel": "cancel N I M", "store": "store N I M CLASS INSTANCE DATA",
         "find": "find N I M CLASS DATA", "create": "create N I M INSTANCE DATA",
         "set": "set N I M INSTANCE DATA",
         "release": "release N", "abort": "abort N", "piece": "piece N HEX",
         "schedule": "schedule NAME DATA",
         "withdraw": "withdraw NAME ID", "cut": "cut COUNT", "join": "join", "pull": "pull N",
         "each": "each FIRST LAST LINE"}
MESSAGES = ("echo", "store", "find", "create", "set", "cancel")
OPTIONS = ("max", "version", "application")


class Word(str):
    """A word that knows the line that it stands on."""

    line: int | None

    def __new__(cls, text: str, line: int | None) -> Word:
        word = super().__new__(cls, text)
        word.line = line
        return word


class BadScene(ValueError):
    """A word that is not understood, and what was expected in its place."""

    def __init__(self, word: str, expected: str) -> None:
        shown = str(word) if len(word) <= 60 else f"{word[:60]}.."
        super().__init__(f"'{shown}': {expected}")
        self.line = getattr(word, "line", None)


def words_of(text: str, line: int | None) -> list[Word]:
    """The words of a line. Those without quotations are split apart: shlex takes too long for a
    million octets."""
    if not re.search(r"[\"'\\]", text):
        return [Word(one, line) for one in re.split("[ \t\r\n]+", text.strip(" \t\r\n"))]
    try:
        return [Word(one, line) for one in shlex.split(text)]
    except ValueError:
        raise BadScene(Word(text.strip(), line), "a quotation is not closed") from None


def meant(word: str, known: dict[str, Any]) -> str:
    """What a misspelt word may have been, as the end of a message."""
    close = difflib.get_close_matches(word, list(known), 1)
    return f" (is it {close[0]}?)" if close else ""


def number_of(word: str, most: int) -> int:
    if not re.fullmatch("[0-9]{1,10}", word) or int(word) > most:
        raise BadScene(word, f"a number up to {most} was expected")
    return int(word)


def hexadecimal(word: str, text: str) -> bytes:
    if not re.fullmatch("([0-9A-Fa-f]{2})*", text):
        raise BadScene(word, "hexadecimal digits were expected, two for each octet")
    return bytes.fromhex(text)


def uid_of(word: Word, name: str, known: dict[str, bytes], what: str) -> bytes | None:
    """A UID by its short name, or as it is."""
    if name not in known and not re.fullmatch("[0-9.]+", name):
        place = "" if word == name else f" in place of '{name}'"
        raise BadScene(word, f"{what} was expected{place}: {', '.join(known)} or a "
                             f"UID{meant(name, known)}")
    return known.get(name, name.encode())


def spelled(text: str, word: str | None = None) -> bytes:
    """The octets that a value in words stands for; `word` is what is told where they are none."""
    if text.startswith("0x"):
        return hexadecimal(word or text, text[2:])
    if text.startswith("zeros:"):
        if not re.fullmatch("[0-9]{1,9}", text[6:]):
            raise BadScene(word or text, "a count of octets was expected after zeros:")
        return bytes(int(text[6:]))
    return text.encode()


def tag_of(name: str) -> tuple[tuple[int, int], str]:
    key = name.partition("=")[0]
    if key in KEYWORDS:
        tag = KEYWORDS[key]
        return tag, data_sets.DICTIONARY[tag]
    found = re.fullmatch("([0-9A-Fa-f]{4})([0-9A-Fa-f]{4}):([A-Z]{2})", key)
    if not found:
        raise BadScene(name, "Keyword=value was expected, with a keyword that is "
                             f"known{meant(key, KEYWORDS)}, "
                             "or GGGGEEEE:VR=value")
    if found[3] not in data_sets.SHORT | data_sets.LONG:
        raise BadScene(name, f"{found[3]} is no value representation")
    return (int(found[1], 16), int(found[2], 16)), found[3]


def items(words: list[str], name: str) -> list[list[Element]]:
    """The items in braces that follow a sequence's name."""
    found = []
    while words and words[0] == "{":
        brace = words.pop(0)
        found.append(elements(words))
        if not words:
            raise BadScene(brace, f"this brace of {name} is not closed")
        words.pop(0)
    return found


def elements(words: list[str]) -> list[Element]:
    """Elements up to a closing brace or the end."""
    found, tags = [], set()
    while words and words[0] != "}":
        word = words.pop(0)
        name, equals, text = word.partition("=")
        if word == "{":
            raise BadScene(word, "items stand after the keyword of a sequence alone")
        tag, vr = tag_of(word)
        if not equals:
            raise BadScene(word, "an = was expected after the keyword, with a value or nothing")
        if tag in tags:
            raise BadScene(word, f"{name} stands a second time")
        if vr == "SQ" and text:
            raise BadScene(word, f"items in braces, which stand apart, were expected after {name}=")
        tags.add(tag)
        found.append((tag, vr, items(words, name) if vr == "SQ"
                      else data_sets.padded(vr, spelled(text, word))))
    return sorted(found)


def data_set(words: list[Any]) -> list[Element]:
    """The elements that all these words spell."""
    found = elements(words)
    if words:
        raise BadScene(words[0], "no brace is open here")
    return found


def spelled_data_set(words: list[Word], syntax: str) -> bytes:
    """The octets of a data set, and those after it that are given as they are."""
    last = words.pop() if words and words[-1].startswith("raw:") else None
    end = b"" if last is None else hexadecimal(last, last[4:])
    return data_sets.canonical(data_set(words), syntax) + end


class Scene:
    joined: bytes | None

    def __init__(self) -> None:
        self.contexts = {}
        self.most = 0
        self.joined = None
        self.lines = []

    def piece(self, number: Word, octets: bytes) -> None:
        most = self.most or max(len(octets), 1)
        if self.joined is not None:
            before, self.joined = self.joined, None
            octets = before + octets
            most = self.most or len(octets)
        for at in range(0, max(len(octets), 1), most):
            self.lines.append(f"piece {number} {octets[at:at + most].hex() or '-'}")

    def proposed(self, number: Word, context: Word) -> tuple[bytes, list[bytes], int]:
        """The class of a context of the connection's association, and its syntaxes."""
        if (number, number_of(context, 255)) in self.contexts:
            return self.contexts[number, int(context)]
        there = [str(one) for connection, one in self.contexts if connection == number]
        if not there:
            raise BadScene(number, "a connection was expected for which a line 'associate' stands "
                                   "before, with contexts")
        raise BadScene(context, f"a context was expected that connection {number} has proposed: "
                                f"{', '.join(there)}")

    def message(self, words: list[Word], field: int, sop_class: bytes | None,
                elements: tuple[bytes, list[Word]]) -> None:
        number, context = words[0], number_of(words[1], 255)
        proposed, syntaxes, _ = self.proposed(words[0], words[1])
        data = None
        if field not in (C_ECHO, C_CANCEL) and words[-1] != "nodata":
            data = spelled_data_set(elements[1], form_of(syntaxes[0]))
        kind = two(NO_DATA_SET if data is None else DATA_SET)
        identity = (0x0120 if field == C_CANCEL else 0x0110, two(number_of(words[2], 0xFFFF)))
        is_set = field == N_SET
        parts = [(0x0003 if is_set else 0x0002, padded(sop_class or proposed)),
                 (0x0100, two(field)), identity,
                 (0x0800, kind)]
        if elements[0]:
            parts.append((0x1001 if is_set else 0x1000, padded(elements[0])))
        self.piece(number, sent(context, command_set(parts), data, 0))

    def associate(self, words: list[Word]) -> None:
        number, contexts, rest = words[0], [], list(words[3:])
        options: dict[str, str] = {}
        while rest:
            word = rest.pop(0)
            if "=" in word:
                contexts.append(proposal(word))
            elif word in OPTIONS and rest:
                options[word] = rest.pop(0)
            else:
                raise BadScene(word, f"I=CLASS:SYNTAX,SYNTAX or one of {', '.join(OPTIONS)} with a "
                                     "value was expected")
        for identity, sop_class, syntaxes in contexts:
            self.contexts[number, identity] = (sop_class, syntaxes, 0)
        maximum = options.get("max", "16384")
        self.piece(number, request_pdu(title(words[1]), title(words[2]), contexts,
                                       None if maximum == "none"
                                       else number_of(maximum, 0xFFFFFFFF),
                                       number_of(options.get("version", "1"), 0xFFFF),
                                       options.get("application",
                                                   APPLICATION_CONTEXT.decode()).encode()))

    def play_line(self, line: str) -> None:
        word, *words = words_of(line, None)
        self.play(word, words)

    def play(self, word: str, words: list[Any]) -> None:
        if word not in LINES:
            raise BadScene(word, f"no line begins so{meant(word, LINES)}")
        check_count(word, words)
        if word in ("schedule", "withdraw"):
            self.order(word, words)
        elif word == "cut":
            self.most = number_of(words[0], 0xFFFFFFFF)
        elif word == "join":
            if not self.lines or not self.lines[-1].startswith("piece "):
                raise BadScene(word, "a line with octets was expected before it")
            self.joined = hexadecimal(word, self.lines.pop().split(" ")[2])
        elif word == "each":
            self.each(words)
        else:
            if not re.fullmatch("#?[0-9]+", words[0]):
                raise BadScene(words[0], "the number of a connection was expected")
            try:
                self.play_on_connection(word, words)
            except OverflowError:
                raise BadScene(
                    word, "words were expected for which the lengths of a PDU have room") from None

    def each(self, words: list[Word]) -> None:
        """A line for each of the numbers."""
        first, last, word = number_of(words[0], 999999), number_of(words[1], 999999), words[2]
        if last < first:
            raise BadScene(words[1], f"a number from {first} on was expected")
        if word in ("each", "cut", "join"):
            raise BadScene(word, "a line that may stand often was expected")
        for number in range(first, last + 1):
            if word in MESSAGES and number > first:
                self.play("join", [])
            self.play(word, [Word(one.replace("@", str(number)), one.line) for one in words[3:]])

    def order(self, word: str, words: list[Word]) -> None:
        """An order of the console."""
        octets = spelled_data_set(words[1:],
                                  data_sets.EXPLICIT) if word == "schedule" else spelled(words[1])
        self.lines.append(f"{word} {words[0]} {octets.hex() or '-'}")

    def play_on_connection(self, word: str, words: list[Word]) -> None:
        if word in ("open", "end", "pull"):
            self.lines.append(f"{word} {words[0]}")
        elif word == "associate":
            self.associate(words)
        elif word == "piece":
            self.piece(words[0], b"" if words[1] == "-" else hexadecimal(words[1], words[1]))
        elif word in ("release", "abort"):
            self.piece(words[0], pdu(RELEASE_RQ if word == "release" else ABORT, bytes(4)))
        elif word in ("echo", "cancel"):
            self.message(words, C_ECHO if word == "echo" else C_CANCEL, None, (b"", []))
        elif word in ("store", "find"):
            sop_class = uid_of(words[3], words[3], CLASSES, "a class")
            identity, data = (words[4].encode(), words[5:]) if word == "store" else (b"", words[4:])
            self.message(words, C_STORE if word == "store" else C_FIND, sop_class, (identity, data))
        else:
            field = N_CREATE if word == "create" else N_SET
            self.message(words, field, None, (b"" if words[3] == "-" else words[3].encode(),
                                              words[4:]))


def title(word: Word) -> bytes:
    octets = word.encode()
    if len(octets) > 16:
        raise BadScene(word, "a title of 16 octets at most was expected")
    return octets


def proposal(word: Word) -> tuple[int, bytes, list[bytes]]:
    """A presentation context that is proposed: its id, its class, its syntaxes."""
    identity, _, proposed = word.partition("=")
    name, colon, syntaxes = proposed.partition(":")
    if not re.fullmatch("[0-9]{1,3}", identity) or int(identity) > 255 or not colon:
        raise BadScene(word, "I=CLASS:SYNTAX,SYNTAX was expected, with a number up to 255")
    return (int(identity), uid_of(word, name, CLASSES, "a class"),
            [uid_of(word, one, SYNTAXES, "a syntax") for one in syntaxes.split(",")])


def check_count(word: str, words: list[Word]) -> None:
    """As many words stand after the first one as its line has, or more where others may follow."""
    form = LINES[word].split(" ")[1:]
    is_open = form[-1:] in (["DATA"], [".."], ["LINE"])
    least = len(form) - (2 if form[-1:] == [".."] else 1 if form[-1:] == ["DATA"] else 0)
    if len(words) < least:
        raise BadScene(word, f"a word is missing: {LINES[word]}")
    if len(words) > least and not is_open:
        raise BadScene(words[least], f"a word too many: {LINES[word]}")


def statements(lines: Iterable[str]) -> Iterator[Any]:
    """Comments as they are, and the words of each other line with those of the lines that go on
    with it."""
    words = []
    for number, line in enumerate(lines, 1):
        text = line.strip()
        if words and text and not line[0].isspace():
            yield words
            words = []
        if text.startswith("#"):
            yield text
        elif text:
            words += words_of(text, number)
    if words:
        yield words


def composed(lines: Iterable[str]) -> list[str]:
    """The capture lines of a scene."""
    scene = Scene()
    for one in statements(lines):
        if isinstance(one, str):
            scene.lines.append(one)
            continue
        try:
            scene.play(one[0], one[1:])
        except BadScene as bad:
            bad.line = bad.line or one[0].line
            raise
    return scene.lines


def main(_words: list[str]) -> int:
    try:
        print("\n".join(composed(sys.stdin)))
    except BadScene as bad:
        print(f"line {bad.line}: {bad}", file=sys.stderr)
        return 2
    except UnicodeDecodeError as bad:
        print(f"the scene is no text in UTF-8: {bad.reason}", file=sys.stderr)
        return 2
    return 0
