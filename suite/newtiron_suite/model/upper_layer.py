"""Protocol data units and presentation contexts, read and written (PS3.8 section 9.3 and annex D,
PS3.7 annex D.3)."""
from dataclasses import dataclass, field
from typing import Any

APPLICATION_CONTEXT = b"1.2.840.10008.3.1.1.1"
IMPLICIT = b"1.2.840.10008.1.2"
EXPLICIT = b"1.2.840.10008.1.2.1"
IMPLEMENTATION_CLASS = b"2.25.2718281828"
IMPLEMENTATION_VERSION = b"DQARCHIVE1"
LONGEST_PDU = 65536
REQUEST, ACCEPT, REJECT, P_DATA, RELEASE_RQ, RELEASE_RP, ABORT = range(0x01, 0x08)
UNRECOGNIZED, UNEXPECTED, INVALID = 1, 2, 6


class BadPdu(Exception):
    """What breaks the protocol, with the reason of the abort that answers it."""

    def __init__(self, reason: int) -> None:
        super().__init__(reason)
        self.reason = reason


def big(octets: bytes) -> int:
    return int.from_bytes(octets, "big")


def items(body: bytes) -> list[tuple[int, bytes]]:
    """Items, or sub-items, that fill a body (PS3.8 section 9.3.2)."""
    found, at = [], 0
    while at < len(body):
        if len(body) - at < 4:
            raise BadPdu(INVALID)
        length = big(body[at + 2:at + 4])
        if len(body) - at - 4 < length:
            raise BadPdu(INVALID)
        found.append((body[at], body[at + 4:at + 4 + length]))
        at += 4 + length
    return found


def at_most_one(found: list[tuple[int, bytes]], kind: int) -> bytes | None:
    bodies = [body for item, body in found if item == kind]
    if len(bodies) > 1:
        raise BadPdu(INVALID)
    return bodies[0] if bodies else None


def uid(octets: bytes) -> bytes:
    return octets.rstrip(b"\x00 ")


@dataclass
class Request:
    version: int
    called: bytes
    calling: bytes
    titles: bytes
    application: bytes
    maximum: int
    contexts: list = field(default_factory=list)


def maximum_of(found: list[tuple[int, bytes]]) -> int | None:
    user = at_most_one(found, 0x50)
    maximum = None if user is None else at_most_one(items(user), 0x51)
    if maximum is not None and len(maximum) != 4:
        raise BadPdu(INVALID)
    return None if maximum is None else big(maximum)


def context_of(part: bytes, known: list[int]) -> tuple[int, list[tuple[int, bytes]]]:
    if len(part) < 4 or part[0] % 2 == 0 or part[0] in known:
        raise BadPdu(INVALID)
    return part[0], items(part[4:])


def read_associate(kind: int, body: bytes) -> Request:
    """A-ASSOCIATE-RQ or -AC (PS3.8 sections 9.3.2 and 9.3.3)."""
    if len(body) < 68:
        raise BadPdu(INVALID)
    found = items(body[68:])
    application = at_most_one(found, 0x10)
    maximum = maximum_of(found)
    contexts = []
    for item, part in found:
        if item != (0x20 if kind == REQUEST else 0x21):
            continue
        number, inner = context_of(part, [known for known, _, _ in contexts])
        abstract = [uid(octets) for kind_of, octets in inner if kind_of == 0x30]
        transfer = [uid(octets) for kind_of, octets in inner if kind_of == 0x40]
        if kind == REQUEST and (len(abstract) != 1
                                or not transfer) or kind == ACCEPT and len(transfer) != 1:
            raise BadPdu(INVALID)
        contexts.append((number, abstract[0] if kind == REQUEST else None, transfer))
    return Request(big(body[0:2]), body[4:20], body[20:36], body[4:68],
                   None if application is None else uid(application), maximum, contexts)


def read_pdvs(body: bytes) -> list[tuple[int, int, bytes]]:
    """Presentation data values that fill a P-DATA-TF (PS3.8 section 9.3.5)."""
    found, at = [], 0
    while at < len(body):
        if len(body) - at < 4:
            raise BadPdu(INVALID)
        length = big(body[at:at + 4])
        if length < 2 or len(body) - at - 4 < length:
            raise BadPdu(INVALID)
        found.append((body[at + 4], body[at + 5], body[at + 6:at + 4 + length]))
        at += 4 + length
    if not found:
        raise BadPdu(INVALID)
    return found


def next_pdu(octets: bytes) -> tuple[int, Any, bytes] | None:
    """The type and body of the first PDU, and what follows; None while it is not whole."""
    if len(octets) < 6:
        return None
    kind, length = octets[0], big(octets[2:6])
    if not 0x01 <= kind <= 0x07:
        raise BadPdu(UNRECOGNIZED)
    if length > LONGEST_PDU:
        raise BadPdu(INVALID)
    if len(octets) < 6 + length:
        return None
    body: Any = octets[6:6 + length]
    if kind in (REQUEST, ACCEPT):
        body = read_associate(kind, body)
    elif kind == P_DATA:
        body = read_pdvs(body)
    elif length != 4:
        raise BadPdu(INVALID)
    return kind, body, octets[6 + length:]


def pdu(kind: int, body: bytes) -> bytes:
    return bytes([kind, 0]) + len(body).to_bytes(4, "big") + body


def item(kind: int, body: bytes) -> bytes:
    return bytes([kind, 0]) + len(body).to_bytes(2, "big") + body


def reject(result: int, source: int, reason: int) -> bytes:
    return pdu(REJECT, bytes([0, result, source, reason]))


def abort(source: int, reason: int) -> bytes:
    return pdu(ABORT, bytes([0, 0, source, reason]))


def release_reply() -> bytes:
    return pdu(RELEASE_RP, bytes(4))


def request_pdu(called: bytes, calling: bytes, contexts: list[tuple[int, bytes, list[bytes]]],
                maximum: int | None = 16384, version: int = 1,
                application: bytes = APPLICATION_CONTEXT) -> bytes:
    """A-ASSOCIATE-RQ of an implementation of our own, for captures that are composed."""
    parts = item(0x10, application)
    for number, abstract, transfer in contexts:
        inner = item(0x30, abstract) + b"".join(item(0x40, syntax) for syntax in transfer)
        parts += item(0x20, bytes([number, 0, 0, 0]) + inner)
    user = b"" if maximum is None else item(0x51, maximum.to_bytes(4, "big"))
    parts += item(0x50, user + item(0x52, b"1.2.3"))
    return pdu(REQUEST, version.to_bytes(2, "big") + b"\x00\x00" + called.ljust(16)
               + calling.ljust(16) + bytes(32) + parts)


def acceptance(request: Request, answered: list[tuple[int, int, bytes]]) -> bytes:
    parts = item(0x10, APPLICATION_CONTEXT)
    for number, result, syntax in answered:
        parts += item(0x21, bytes([number, 0, result, 0]) + item(0x40, syntax))
    parts += item(0x50, item(0x51, LONGEST_PDU.to_bytes(4, "big"))
                  + item(0x52, IMPLEMENTATION_CLASS)
                  + item(0x55, IMPLEMENTATION_VERSION))
    return pdu(ACCEPT, b"\x00\x01\x00\x00" + request.titles + parts)


def fragments(context: int, is_command: bool, octets: bytes, maximum: int | None) -> bytes:
    """One PDV a PDU, each as long as the peer takes (PS3.8 annex D.1 and annex E)."""
    longest = min(maximum or 16384, 16384) - 6
    longest -= longest % 2
    out = []
    for at in range(0, max(len(octets), 1), longest):
        part = octets[at:at + longest]
        control = (1 if is_command else 0) | (2 if at + longest >= len(octets) else 0)
        out.append(pdu(P_DATA, (len(part) + 2).to_bytes(4, "big") + bytes([context, control])
                       + part))
    return b"".join(out)
