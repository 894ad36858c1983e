"""Command sets and messages (PS3.7 section 6.3 and annex E)."""
from . import data_sets
from .upper_layer import EXPLICIT, INVALID, BadPdu, fragments

LONGEST_COMMAND = 16384
LONGEST_STORED, LONGEST_OTHER = 4294967295, 1048576
C_STORE, C_FIND, C_ECHO, N_SET, N_CREATE, C_CANCEL = 0x0001, 0x0020, 0x0030, 0x0120, 0x0140, 0x0FFF
NO_DATA_SET, DATA_SET = 0x0101, 0x0001


def form_of(syntax: bytes) -> str:
    """What data_sets calls a transfer syntax."""
    return data_sets.EXPLICIT if syntax == EXPLICIT else data_sets.IMPLICIT


def little(octets: bytes) -> int:
    return int.from_bytes(octets, "little")


class Command:
    """The fields of a command set that was received."""

    def __init__(self, octets: bytes) -> None:
        if len(octets) > LONGEST_COMMAND:
            raise BadPdu(INVALID)
        try:
            found = data_sets.elements(data_sets.Octets(octets), False, data_sets.IMPLICIT, 0)
        except data_sets.Fault:
            raise BadPdu(INVALID) from None
        self.values = {}
        for (group, element), _, value in found:
            if group != 0x0000:
                raise BadPdu(INVALID)
            self.values[element] = value
        self.field = self.number(0x0100)
        if self.field & 0x8000:
            raise BadPdu(INVALID)
        self.identity = self.number(0x0120 if self.field == C_CANCEL else 0x0110)
        self.with_data = self.number(0x0800) != NO_DATA_SET
        is_set = self.field == N_SET
        self.sop_class = self.uid(0x0003 if is_set else 0x0002)
        self.sop_instance = self.uid(0x1001 if is_set else 0x1000)

    def number(self, element: int) -> int:
        value = self.values.get(element)
        if not isinstance(value, bytes) or len(value) != 2:
            raise BadPdu(INVALID)
        return little(value)

    def uid(self, element: int) -> bytes:
        value = self.values.get(element, b"")
        return value.rstrip(b"\x00 ") if isinstance(value, bytes) else b""

    def limit(self) -> int:
        return LONGEST_STORED if self.field == C_STORE else LONGEST_OTHER


def element(number: int, value: bytes) -> bytes:
    return b"\x00\x00" + number.to_bytes(2, "little") + len(value).to_bytes(4, "little") + value


def two(value: int) -> bytes:
    return value.to_bytes(2, "little")


def padded(octets: bytes) -> bytes:
    return octets + b"\x00" * (len(octets) % 2)


def command_set(elements: list[tuple[int, bytes]]) -> bytes:
    body = b"".join(element(number, value) for number, value in elements)
    return element(0x0000, len(body).to_bytes(4, "little")) + body


def response(command: Command, sop_class: bytes, status: int, with_data: bool = False,
             instance: bytes = b"") -> bytes:
    elements = [(0x0002, padded(sop_class)), (0x0100, two(command.field | 0x8000)),
                (0x0120, two(command.identity)),
                (0x0800, two(DATA_SET if with_data else NO_DATA_SET)), (0x0900, two(status))]
    if instance:
        elements.append((0x1000, padded(instance)))
    return command_set(elements)


def sent(context: int, octets: bytes, data: bytes | None, maximum: int | None) -> bytes:
    """A message as it goes out: its command set and, if there is one, its data set."""
    out = fragments(context, True, octets, maximum)
    return out if data is None else out + fragments(context, False, data, maximum)


class Assembler:
    """Messages from presentation data values."""

    command: Command | None
    context: int | None

    def __init__(self, accepted: set[int]) -> None:
        self.accepted = accepted
        self.context = None
        self.command = None
        self.octets = b""

    def take(self, context: int, control: int,
             fragment: bytes) -> tuple[int, Command, bytes] | None:
        """The message (context, command, octets or None where they passed the limit) that a PDV
        completes, or None."""
        if context not in self.accepted or self.context not in (None, context):
            raise BadPdu(INVALID)
        if bool(control & 1) != (self.command is None):
            raise BadPdu(INVALID)
        self.context = context
        self.octets += fragment
        if self.command is None and len(self.octets) > LONGEST_COMMAND:
            raise BadPdu(INVALID)
        if not control & 2:
            return None
        if self.command is None:
            command, self.octets = Command(self.octets), b""
            if command.with_data:
                self.command = command
                return None
            return self.complete(command, b"")
        octets = self.octets if len(self.octets) <= self.command.limit() else None
        return self.complete(self.command, octets)

    def complete(self, command: Command, octets: bytes) -> tuple[int, Command, bytes]:
        message = (self.context, command, octets)
        self.context, self.command, self.octets = None, None, b""
        return message
