"""PDUs, command sets and data sets in words: names of the standard, and keywords with values as
compose.py takes them."""
import re
from collections.abc import Iterator

from . import data_sets, names
from .data_sets import Element
from .messages import C_CANCEL, NO_DATA_SET, little
from .upper_layer import IMPLICIT, big, items, uid

# the faults of a data set, with their sections of PS3.5
FAULTS = {data_sets.TRUNCATED: "it is cut off (section 7.1)",
          data_sets.BAD_VR: "no value representation is there (section 6.2)",
          data_sets.TAG_ORDER: "its tag does not rise (section 7.1)",
          data_sets.BAD_ITEM: "an item is out of place (section 7.5)",
          data_sets.BAD_UNDEFINED: "its length is undefined, and it is no sequence (section 7.1)",
          data_sets.TOO_DEEP: "its sequences are too deep"}
COMMAND_FIELD, MESSAGE_ID, RESPONDED_TO, PRIORITY, DATA_SET_TYPE, STATUS = (0x0100, 0x0110, 0x0120,
                                                                            0x0700, 0x0800, 0x0900)
CLASS_ELEMENTS, INSTANCE_ELEMENTS = (0x0002, 0x0003), (0x1000, 0x1001)
TOLD = {0x0000, COMMAND_FIELD, MESSAGE_ID, RESPONDED_TO, DATA_SET_TYPE, STATUS, *CLASS_ELEMENTS,
        *INSTANCE_ELEMENTS}
# Move Destination, Error Comment and the title of a move's originator
TEXT_ELEMENTS = {0x0600, 0x0902, 0x1030}
STEP = "    "


def counted(count: int) -> str:
    return "1 octet" if count == 1 else f"{count} octets"


def quoted(text: str) -> str:
    """A word of a scene that is read as this text."""
    escaped = text.replace("\\", "\\\\").replace('"', '\\"')
    return f'"{escaped}"' if re.search(r"[\s\"']", text) else escaped


def as_text(octets: bytes) -> str | None:
    """Octets as text, or None where they have no such."""
    try:
        text = octets.decode()
    except UnicodeDecodeError:
        return None
    return text if text.isprintable() and not text.startswith(("0x", "zeros:")) else None


def spelled(vr: str, value: bytes) -> str:
    """A value in the words of a scene."""
    if vr in data_sets.TEXT or vr == "UI":
        pad = b" " if vr in data_sets.TEXT else b"\0"
        text = as_text(value[:-1] if len(value) % 2 == 0 and value.endswith(pad) else value)
        if text is not None:
            return quoted(text)
    if len(value) > 16 and not any(value):
        return f"zeros:{len(value)}"
    return "0x" + value.hex() if value else ""


def element_lines(elements: list[Element], indent: str) -> Iterator[str]:
    """Elements a line each, with the items of sequences indented."""
    for tag, vr, value in elements:
        name = names.KEYWORDS_BY_TAG.get(tag, f"{tag[0]:04X}{tag[1]:04X}:{vr}")
        if vr != "SQ":
            word = spelled(vr, value)
            if vr in data_sets.TEXT and word.startswith("0x"):
                yield f"{indent}# {name}: {names.printable(value.rstrip())}"
            yield f"{indent}{name}={word}"
            continue
        yield f"{indent}{name}={' {' if value else ''}"
        for at, item in enumerate(value):
            if at:
                yield f"{indent}}} {{"
            yield from element_lines(item, indent + STEP)
        if value:
            yield f"{indent}}}"


class DataSet:
    """A data set that was read in the first of some transfer syntaxes in which it can be."""

    def __init__(self, octets: bytes, syntaxes: list[bytes]) -> None:
        self.length, self.is_guessed = len(octets), len(syntaxes) > 1 and bool(octets)
        readings = [(one, *self.reading(octets, data_sets.IMPLICIT if one == IMPLICIT
                                        else data_sets.EXPLICIT))
                    for one in syntaxes]
        whole = [one for one in readings if one[3] is None]
        self.syntax, self.elements, self.rest, self.fault = (whole or readings)[0]

    @staticmethod
    def reading(octets: bytes, form: str) -> tuple[list[Element], bytes, int | None]:
        """The elements before a fault, the octets from there on, and the fault, or None."""
        found, rest = [], data_sets.Octets(octets, keeps_vr=True)
        try:
            data_sets.elements(rest, False, form, 0, found)
        except data_sets.Fault as fault:
            return found, rest.begun, fault.args[0]
        return found, b"", None

    def remarks(self) -> Iterator[str]:
        if self.is_guessed:
            yield ("transfer syntax guessed: "
                   f"{names.uid_named(names.TRANSFER_SYNTAXES, self.syntax)}")
        if self.fault is not None:
            yield (f"the data set cannot be read from octet {self.length - len(self.rest)} on: "
                   f"{FAULTS[self.fault]}")

    def lines(self) -> Iterator[str]:
        yield from element_lines(self.elements, STEP)
        if self.rest:
            yield f"{STEP}raw:{self.rest.hex()}"


class Command:
    """A command set, as far as it can be read (PS3.7 section 6.3)."""

    def __init__(self, octets: bytes) -> None:
        found, self.rest, self.fault = DataSet.reading(octets, data_sets.IMPLICIT)
        self.length = len(octets)
        self.others = [one for one in found if one[0][0] != 0 or one[0][1] not in TOLD]
        self.values = {tag[1]: value for tag, _,
                       value in found if tag[0] == 0 and isinstance(value, bytes)}
        self.field = self.number(COMMAND_FIELD)
        self.is_response = self.field is not None and bool(self.field & 0x8000)
        self.identity = self.number(RESPONDED_TO if self.is_response or self.field == C_CANCEL
                                    else MESSAGE_ID)
        self.has_data = self.number(DATA_SET_TYPE) not in (None, NO_DATA_SET)
        self.sop_class, self.instance = self.first_of(CLASS_ELEMENTS), self.first_of(
            INSTANCE_ELEMENTS)

    def number(self, element: int) -> int | None:
        value = self.values.get(element, b"")
        return little(value) if len(value) == 2 else None

    def first_of(self, elements: tuple[int, int]) -> bytes:
        return next((uid(self.values[one]) for one in elements if one in self.values), b"")

    def name(self) -> str:
        return "command" if self.field is None else names.command_name(self.field)

    def head(self) -> str:
        link = " to" if self.is_response else " of" if self.field == C_CANCEL else ""
        parts = [names.uid_named(names.SOP_CLASSES, self.sop_class)] if self.sop_class else []
        if self.instance:
            parts.append(f"instance {names.printable(self.instance)}")
        if self.number(STATUS) is not None:
            parts.append(names.status_name(self.number(STATUS), self.field or 0))
        return (f"{self.name()}{link} {'-' if self.identity is None else self.identity}: "
                f"{', '.join(parts) or '-'}")

    def lines(self) -> Iterator[str]:
        yield self.head()
        for tag, vr, value in self.others:
            yield from element_lines([(tag, vr, value)],
                                     STEP) if tag[0] or vr == "SQ" else [self.element_line(
                tag[1], value)]
        if self.fault is not None:
            at = self.length - len(self.rest)
            yield (f"{STEP}the command set cannot be read from octet {at} on: "
                   f"{FAULTS[self.fault]}: {self.rest.hex()}")


    @staticmethod
    def element_line(element: int, value: bytes) -> str:
        shown = "0x" + value.hex()
        if element in TEXT_ELEMENTS:
            shown = names.printable(uid(value))
        elif len(value) == 2:
            shown = names.named(names.PRIORITIES if element == PRIORITY else {}, little(value))
        return f"{STEP}{names.COMMAND_ELEMENTS.get(element, f'0000{element:04X}')}={shown}"


def title(octets: bytes) -> str:
    return f'"{names.printable(octets.rstrip())}"'


def user_lines(body: bytes) -> Iterator[str]:
    """The sub-items of the user information (PS3.8 annex D.1, PS3.7 annex D.3.3)."""
    for kind, part in items(body):
        name = names.USER_ITEMS.get(kind, f"user sub-item {kind:02X}H")
        if kind == 0x51:
            yield f"{STEP}{name}: {big(part)}"
        else:
            yield (f"{STEP}{name}: "
                   f"{names.printable(part) if kind in (0x52, 0x55) else '0x' + part.hex()}")


def context_line(part: bytes) -> str:
    """A presentation context that is proposed (PS3.8 section 9.3.2.2)."""
    inner = items(part[4:])
    abstract = [names.uid_named(names.SOP_CLASSES, uid(one)) for kind, one in inner if kind == 0x30]
    transfer = [names.uid_named(names.TRANSFER_SYNTAXES, uid(one)) for kind,
                one in inner if kind == 0x40]
    return f"{STEP}context {part[0]}: {', '.join(abstract)}: {', '.join(transfer)}"


def result_line(part: bytes) -> str:
    """A presentation context that is answered (PS3.8 section 9.3.3.2)."""
    transfer = [names.uid_named(names.TRANSFER_SYNTAXES, uid(one)) for kind,
                one in items(part[4:]) if kind == 0x40]
    return (f"{STEP}context {part[0]}: {names.named(names.CONTEXT_RESULTS, part[2])}: "
            f"{', '.join(transfer)}")


def associate_lines(kind: int, body: bytes) -> Iterator[str]:
    """A-ASSOCIATE-RQ or -AC (PS3.8 sections 9.3.2 and 9.3.3)."""
    yield (f"{names.PDUS[kind]}: called {title(body[4:20])}, calling {title(body[20:36])}, version "
           f"{big(body[0:2])}")
    for item, part in items(body[68:]):
        if item == 0x10:
            yield (f"{STEP}application context: "
                   f"{names.uid_named(names.APPLICATION_CONTEXTS, uid(part))}")
        elif item in (0x20, 0x21):
            yield context_line(part) if item == 0x20 else result_line(part)
        elif item == 0x50:
            yield from user_lines(part)
        else:
            yield f"{STEP}item {item:02X}H: 0x{part.hex()}"


def reject_line(body: bytes) -> str:
    """PS3.8 section 9.3.4."""
    result, source, reason = body[1:4]
    return (f"A-ASSOCIATE-RJ: result {names.named(names.REJECT_RESULTS, result)}, "
            f"source {names.named(names.REJECT_SOURCES, source)}, "
            f"reason {names.named(names.REJECT_REASONS.get(source, {}), reason)}")


def abort_line(body: bytes) -> str:
    """PS3.8 section 9.3.8."""
    source, reason = body[2:4]
    name = names.named(names.ABORT_REASONS, reason) if source == 2 else f"{reason}"
    return f"A-ABORT: source {names.named(names.ABORT_SOURCES, source)}, reason {name}"


def value_text(context: int, control: int, fragment: bytes) -> str:
    """A presentation data value (PS3.8 section 9.3.5.1 and annex E.2)."""
    return (f"context {context}, "
            f"{'command' if control & 1 else 'data'}{', last' if control & 2 else ''}, "
            f"{counted(len(fragment))}")
