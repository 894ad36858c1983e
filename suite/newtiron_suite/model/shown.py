"""What captures and replies are, as readable lines: for tools/show, which says how they look.

What a capture sends is a scene in the words of compose.py, with the PDUs by their names of the
standard as comments; replies are these names. Octets that are not understood stand in hexadecimal,
so that none is lost.
"""
from __future__ import annotations

import itertools
import re
from collections.abc import Iterator, Sequence

from . import compose, names
from .compose import Word
from .described import (STEP, Command, DataSet, abort_line, as_text, associate_lines, counted,
                        quoted, reject_line, value_text)
from .messages import C_CANCEL, C_ECHO, C_FIND, C_STORE, N_CREATE, N_SET
from .upper_layer import (ABORT, ACCEPT, EXPLICIT, IMPLICIT, P_DATA, REJECT, RELEASE_RQ, REQUEST,
                          BadPdu, Request, big, items, read_associate, read_pdvs)

WORDS = {C_ECHO: "echo", C_CANCEL: "cancel", C_STORE: "store", C_FIND: "find", N_CREATE: "create",
         N_SET: "set"}
SHORT_CLASSES = {value: name for name, value in compose.CLASSES.items()}
SHORT_SYNTAXES = {value: name for name, value in compose.SYNTAXES.items()}


class Unit:
    """What is shown together: the PDUs of a message, or another PDU. `lines` are its names, `data`
    the lines of its data set, `statement` the lines of a scene for it; what `is_unread` is shown in
    hexadecimal too.
    """

    statement: list[str] | None

    def __init__(self) -> None:
        self.octets, self.lines, self.data, self.statement = bytearray(), [], [], None
        self.messages, self.is_unread = 0, False

    def unread(self, line: str) -> None:
        self.lines.append(line)
        self.is_unread = True

    def told(self) -> Iterator[str]:
        """The lines, with equal ones that follow each other as one."""
        for line, equals in itertools.groupby(self.lines):
            count = len(list(equals))
            yield line if count == 1 else f"{line} ({count} times)"


class Side:
    """One direction of a connection: the octets that are not shown yet, and the message that is not
    whole yet."""

    command: Command | None
    context: int | None

    def __init__(self, connection: Connection) -> None:
        self.connection = connection
        self.octets, self.is_lost = bytearray(), False
        self.unit = Unit()
        self.begin_message()

    def begin_message(self) -> None:
        self.context, self.command, self.fragments = None, None, bytearray()

    def is_whole(self) -> bool:
        return not self.unit.octets and not self.octets

    def taken(self, octets: bytes) -> Iterator[Unit]:
        """The units that are whole with these octets."""
        self.octets += octets
        while (whole := self.next_pdu()) is not None:
            self.add(whole)
            if self.context is None:
                yield self.given()
        if self.is_lost or self.octets and self.octets[0] not in names.PDUS:
            yield from self.left()
            self.is_lost = True

    def next_pdu(self) -> bytes | None:
        """The first PDU, taken from the front, or None where it is not whole, or none is known by
        its type."""
        end = 6 + big(self.octets[2:6])
        if self.is_lost or len(self.octets) < max(6, end) or self.octets[0] not in names.PDUS:
            return None
        whole = bytes(self.octets[:end])
        del self.octets[:end]
        return whole

    def given(self) -> Unit:
        unit, self.unit = self.unit, Unit()
        return unit

    def left(self) -> Iterator[Unit]:
        """What never became whole, or is no PDU, as a unit."""
        if self.is_whole():
            return
        if self.context is not None:
            self.unit.unread("the message is not whole")
        if self.octets:
            name = names.PDUS.get(self.octets[0])
            what = ("after what is no PDU" if self.is_lost else f"of {name} that is not whole"
                    if name else \
                f"of type {self.octets[0]:02X}H, which no PDU has")
            self.unit.unread(f"{counted(len(self.octets))} {what}")
        self.unit.octets += self.octets
        self.unit.statement, self.octets = None, bytearray()
        self.begin_message()
        yield self.given()

    def add(self, whole: bytes) -> None:
        """One PDU more, which may go on with a message."""
        kind, body, unit = whole[0], whole[6:], self.unit
        is_first, unit.statement = not unit.octets, None
        unit.octets += whole
        try:
            if kind == P_DATA:
                self.add_values(read_pdvs(body))
                return
            if self.context is not None:
                unit.unread("the message is not whole")
                self.begin_message()
            unit.lines += self.connection.lines_of(kind, body)
            if is_first:
                unit.statement = self.connection.statement_of(kind, body)
        except (BadPdu, IndexError):
            unit.unread(f"{names.PDUS[kind]} of {counted(len(whole))} that is malformed "
                        f"(PS3.8 section {names.PDU_SECTIONS[kind]})")
            self.begin_message()

    def add_values(self, values: list[tuple[int, int, bytes]]) -> None:
        unit = self.unit
        unit.lines.append("P-DATA-TF: " + "; ".join(value_text(*one) for one in values))
        for context, control, fragment in values:
            if self.context not in (None, context):
                unit.unread(f"context {context} within a message of context {self.context}")
                self.begin_message()
            if bool(control & 1) != (self.command is None):
                unit.unread(f"{'a command' if control & 1 else 'data'} out of place")
                self.begin_message()
                continue
            self.context = context
            self.fragments += fragment
            if control & 2:
                self.end_fragments()

    def end_fragments(self) -> None:
        """The last fragment of a command or of a data set has come."""
        octets, self.fragments = bytes(self.fragments), bytearray()
        if self.command is not None:
            self.add_message(self.command,
                             DataSet(octets, self.connection.syntaxes_of(self.context)))
            return
        self.command = Command(octets)
        if self.command.fault is not None or not self.command.has_data:
            self.add_message(self.command, None)

    def add_message(self, command: Command, data: DataSet | None) -> None:
        unit, context = self.unit, self.context
        self.begin_message()
        unit.messages += 1
        unit.lines += command.lines()
        unit.lines += [STEP + one for one in (data.remarks() if data else [])]
        unit.data += data.lines() if data else []
        is_alone = unit.messages == 1 and not unit.is_unread
        unit.statement = self.connection.message_statement(context, command,
                                                           data) if is_alone else None


class Connection:
    """What both directions of a connection tell: the contexts that are proposed, and the syntaxes
    that are accepted."""

    def __init__(self, number: str) -> None:
        self.number, self.proposed, self.accepted = number, {}, {}
        self.sent, self.answered = Side(self), Side(self)

    def syntaxes_of(self, context: int) -> list[bytes]:
        """The transfer syntaxes that data sets of the context may have."""
        if context in self.accepted:
            return [self.accepted[context]]
        proposed = self.proposed.get(context, [EXPLICIT, IMPLICIT])
        return [one for one in proposed if one in SHORT_SYNTAXES] or proposed

    def lines_of(self, kind: int, body: bytes) -> list[str]:
        if kind in (REQUEST, ACCEPT):
            return self.associate(kind, body)
        if len(body) != 4:
            raise BadPdu(0)
        if kind in (REJECT, ABORT):
            return [reject_line(body) if kind == REJECT else abort_line(body)]
        return [names.PDUS[kind]]

    def associate(self, kind: int, body: bytes) -> list[str]:
        request = read_associate(kind, body)
        if kind == REQUEST:
            self.proposed = {number: syntaxes for number, _, syntaxes in request.contexts}
        else:
            results = {part[0]: part[2] for item, part in items(body[68:]) if item == 0x21}
            self.accepted = {number: syntaxes[0] for number, _, syntaxes in request.contexts
                             if results[number] == 0}
        return list(associate_lines(kind, body))

    def statement_of(self, kind: int, body: bytes) -> list[str] | None:
        """The lines of a scene for a PDU that is no P-DATA-TF, or None."""
        if kind == REQUEST:
            return self.associate_statement(read_associate(kind, body))
        return {RELEASE_RQ: [f"release {self.number}"], ABORT: [f"abort {self.number}"]}.get(kind)

    def associate_statement(self, request: Request) -> list[str] | None:
        called, calling = (as_text(one.rstrip(b" ")) for one in (request.called, request.calling))
        if called is None or calling is None:
            return None
        lines = [f"associate {self.number} {quoted(called) or '-'} {quoted(calling) or '-'}"]
        for number, sop_class, syntaxes in request.contexts:
            shown = ",".join(SHORT_SYNTAXES.get(one, as_text(one) or "-") for one in syntaxes)
            lines.append(
                f"{STEP}{number}={SHORT_CLASSES.get(sop_class, as_text(sop_class) or '-')}:{shown}")
        if request.maximum != 16384:
            lines.append(f"{STEP}max {'none' if request.maximum is None else request.maximum}")
        if request.version != 1:
            lines.append(f"{STEP}version {request.version}")
        if request.application != compose.APPLICATION_CONTEXT:
            lines.append(f"{STEP}application {quoted(as_text(request.application or b'') or '-')}")
        return lines

    def message_statement(self, context: int, command: Command,
                          data: DataSet | None) -> list[str] | None:
        """The lines of a scene for a message, or None."""
        word = WORDS.get(command.field)
        if word is None or command.identity is None or command.fault is not None:
            return None
        words = [word, self.number, str(context), str(command.identity)]
        if word in ("store", "find"):
            words.append(SHORT_CLASSES.get(command.sop_class, as_text(command.sop_class) or "-"))
        if word in ("store", "create", "set"):
            words.append(quoted(as_text(command.instance) or "-"))
        if data is None and word not in ("echo", "cancel"):
            words.append("nodata")
        return [" ".join(words), *(data.lines() if data else [])]


def composed(lines: Sequence[str],
             contexts: dict[tuple[Word, int], tuple[bytes, list[bytes], int]]) -> list[str]:
    """The capture lines that compose makes of a statement, or none where it has other words."""
    scene = compose.Scene()
    scene.contexts = contexts
    try:
        for words in compose.statements(lines):
            if not isinstance(words, str):
                scene.play(words[0], words[1:])
    except compose.BadScene:
        return []
    return scene.lines


class BadLine(Exception):
    """A line that is neither one of a capture nor one of replies."""


def octets_of(text: str) -> bytes:
    if text == "-":
        return b""
    bad = re.search(r"[^0-9A-Fa-f]", text)
    if bad:
        raise BadLine(f"octet {bad.start() // 2 + 1} is '{text[bad.start() // 2 * 2:][:2]}', which "
                      "is no hexadecimal")
    if len(text) % 2:
        raise BadLine(f"octet {len(text) // 2 + 1} has one digit of two")
    return bytes.fromhex(text)


class Shown:
    """Lines of captures and of replies, in any order, each with the readable lines for it."""

    FORMS = {"open": "open N", "end": "end N", "pull": "pull N", "piece": "piece N HEX",
             "schedule": "schedule NAME HEX",
             "withdraw": "withdraw NAME HEX"}
    AS_THEY_ARE = (r"(done|ignored|stopped|network|(refused|fault|config|store|capture line|ready) "
                   r"[0-9]+)")

    def __init__(self, is_exact: bool = False) -> None:
        self.connections, self.contexts, self.is_exact = {}, {}, is_exact

    def connection(self, number: str) -> Connection:
        return self.connections.setdefault(number, Connection(number))

    def line(self, line: str) -> list[str]:
        word, *words = line.split() or [""]
        if not word or word.startswith(("#", "==")) or re.fullmatch(self.AS_THEY_ARE, line.strip()):
            return [line.strip()]
        if word in ("open", "end") and len(words) == 1 and words[0].isdecimal():
            sent = self.connection(words[0]).sent
            return [*(self.unit_lines(words[0], list(sent.left())) if word == "end" else []),
                    f"{word} {words[0]}"]
        if word == "pull" and len(words) == 1 and words[0].isdecimal():
            return [f"pull {words[0]}"]
        if word == "piece" and len(words) == 2 and words[0].isdecimal():
            return self.piece(words[0], octets_of(words[1]))
        if word in ("schedule", "withdraw") and len(words) == 2:
            return self.order(word, words[0], octets_of(words[1]))
        if word.isdecimal() and len(words) in (1, 2) and words[1:] in ([], ["close"]):
            return self.reply(word, octets_of(words[0]), words[1:])
        if word in self.FORMS or word.isdecimal():
            raise BadLine(f"{self.FORMS.get(word, 'N HEX or N HEX close')} was expected")
        raise BadLine(f"'{word[:60]}' begins no line of a capture, and none of replies")

    def piece(self, number: str, octets: bytes) -> list[str]:
        if not octets:
            return [f"piece {number} -"]
        sent = self.connection(number).sent
        lines = self.unit_lines(number, list(sent.taken(octets)))
        return lines if sent.is_whole() else [*lines, f"# {number} {counted(len(octets))}, and "
                                                      "more of the message is to come"]

    def unit_lines(self, number: str, units: list[Unit]) -> list[str]:
        """What was sent, as a scene."""
        lines = []
        for at, unit in enumerate(units):
            lines += ["join"] if at else []
            lines += [f"#{one}" if one.startswith(STEP) else f"# {number} {one}"
                      for one in unit.told()]
            lines += self.scene_lines(number, unit)
        return lines

    def scene_lines(self, number: str, unit: Unit) -> list[str]:
        contexts = dict(self.contexts)
        made, octets = composed(unit.statement or [],
                                contexts), f"piece {number} {unit.octets.hex()}"
        is_same = made == [octets]
        if not made or self.is_exact and not is_same:
            return [*(f"#{one}" for one in unit.data), octets]
        self.contexts = contexts
        return [*([] if is_same else [f"#{STEP}composed, these words give other octets"]),
                *unit.statement]

    def order(self, word: str, name: str, octets: bytes) -> list[str]:
        """An order of the console; its data set is in Explicit VR."""
        text = as_text(octets)
        if word == "withdraw":
            identity = "0x" + octets.hex() if text is None else quoted(text) or '""'
            return [f"withdraw {name} {identity}"]
        data = DataSet(octets, [EXPLICIT])
        statement = [f"schedule {name}", *data.lines()]
        remarks = [f"#{STEP}{one}" for one in data.remarks()]
        if composed(statement, {}) != [f"schedule {name} {octets.hex() or '-'}"]:
            remarks.append(f"#{STEP}composed, these words give other octets")
        return remarks + statement

    def reply(self, number: str, octets: bytes, close: list[str]) -> list[str]:
        lines, answered = [], self.connection(number).answered
        for unit in answered.taken(octets):
            lines += self.answer_lines(number, unit)
        if octets and not answered.is_whole():
            lines.append(f"{number} {counted(len(octets))}, and more is to come")
        return [*lines, *(f"{number} close" for _ in close)] or [f"{number} -"]

    @staticmethod
    def answer_lines(number: str, unit: Unit) -> list[str]:
        lines = [one if one.startswith(STEP) else f"{number} {one}" for one in unit.told()]
        return [*lines, *unit.data,
                *([f"{STEP}octets {unit.octets.hex()}"] if unit.is_unread else [])]

    def rest(self) -> Iterator[str]:
        """What never became whole."""
        for number, connection in self.connections.items():
            yield from self.unit_lines(number, list(connection.sent.left()))
            for unit in connection.answered.left():
                yield from self.answer_lines(number, unit)
