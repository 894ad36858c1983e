"""Plays whose cost is measured: what is broken, of many parts, or of the greatest size that is
taken, in a size that is given."""
import collections
import re
from collections.abc import Callable
from dataclasses import dataclass
from typing import Any

from ..paths import CONFIGURATIONS
from . import broken, compose, data_sets, replies
from .data_sets import Element
from .messages import C_ECHO, C_FIND, C_STORE, N_CREATE, N_SET, command_set, padded, sent, two
from .upper_layer import (APPLICATION_CONTEXT, EXPLICIT, IMPLICIT, LONGEST_PDU, P_DATA, REQUEST,
                          item, pdu, request_pdu)

CT = compose.CLASSES["CT"].decode()
STOPPED = 64


def model_of(name: str | None) -> replies.Server:
    """The model of a server with this configuration, or with the built-in one."""
    text = replies.BUILT_IN if name is None else (CONFIGURATIONS / f"{name}.toml").read_text()
    return replies.Server(replies.read_configuration(text))


def message(context: int, field: int, name: str, data: bytes | None,
            instance: bytes = b"") -> bytes:
    """A message with these octets as its data set."""
    is_set = field == N_SET
    command = [(0x0003 if is_set else 0x0002, padded(compose.CLASSES[name])), (0x0100, two(field)),
               (0x0110, two(1)),
               (0x0800, two(0x0101 if data is None else 1))]
    if instance:
        command.append((0x1001 if is_set else 0x1000, padded(instance)))
    return sent(context, command_set(command), data, 16384)


ECHO = message(1, C_ECHO, "echo", None)
CONTEXTS = [(1, "echo"), (3, "CT"), (5, "study"), (7, "worklist"), (9, "mpps")]


def associate(syntax: bytes = IMPLICIT, calling: bytes = b"MODALITY") -> bytes:
    return request_pdu(b"ARCHIVE", calling, [(number, compose.CLASSES[name], [syntax]) for number,
                                             name in CONTEXTS])


def line_of(number: int, stream: bytes) -> str:
    return f"piece {number} {stream.hex()}\n"


def begun(syntax: bytes = IMPLICIT) -> list[str]:
    """An association on connection 1."""
    return ["open 1\n", line_of(1, associate(syntax))]


def elements(*found: Element, syntax: str = data_sets.IMPLICIT) -> bytes:
    """A data set of (tag, VR, value), in the order of its tags."""
    found = [(tag, vr, value if vr == "SQ" else data_sets.padded(vr, value)) for tag, vr,
             value in found]
    return data_sets.canonical(sorted(found), syntax)


def keyed(**values: bytes) -> list[Element]:
    found = []
    for name, value in values.items():
        tag, vr = compose.tag_of(name)
        found.append((tag, vr, value))
    return found


def image_of(study: bytes) -> Any:
    return keyed(SOPClassUID=CT.encode(), SOPInstanceUID=study + b".1.1", StudyInstanceUID=study,
                 SeriesInstanceUID=study + b".1")


def stored(study: bytes, *more: Element) -> bytes:
    """A C-STORE of an image of a study, in Implicit."""
    return message(3, C_STORE, "CT", elements(*image_of(study), *more), study + b".1.1")


def found(level: bytes, *keys: Element) -> bytes:
    return message(5, C_FIND, "study", elements(*keyed(QueryRetrieveLevel=level), *keys))


@dataclass
class Made:
    """What is played: lines before what is measured, the lines that are measured, how many octets
    these have, and the answers to them: `wanted` tells of them what is wrong, or nothing."""
    before: list[str]
    lines: list[str]
    octets: int
    wanted: Callable[[list[str]], str | None]


def counts_of(**wanted: int) -> Callable[[list[str]], str | None]:
    """That the answers have so many responses of each status, as ffNN=COUNT, or of a, b, c.. in
    hexadecimal with a letter s."""
    wanted = {name.removeprefix("s"): count for name, count in wanted.items()}

    def wrong(answers: list[str]) -> str | None:
        statuses = collections.Counter(one[2:] + one[:2] for line in answers
                                       for one in re.findall(r"0000000902000000(....)", line))
        return None if dict(statuses) == wanted else f"{dict(statuses)} in place of {wanted}"
    return wrong


def answered(reply: str, count: int) -> Callable[[list[str]], str | None]:
    """That so many lines are this reply, by whatever connection."""
    def wrong(answers: list[str]) -> str | None:
        same = sum(line.partition(" ")[2] == reply for line in answers)
        return None if same == count else f"{same} in place of {count}"
    return wrong


def model_answer(stream: bytes) -> str:
    """What the model answers to a stream, without the connection's number."""
    model = model_of("large")
    model.reply("open", 1, b"")
    return model.reply("piece", 1, stream).partition(" ")[2]


def echoes(count: int) -> Made:
    stream = associate()
    lines = ["open 1\n", line_of(1, stream), *[line_of(1, ECHO)] * count]
    return Made([], lines, len(stream) + len(ECHO) * count, counts_of(s0000=count))


def pieces_of_one(size: int) -> Made:
    """A PDU of the greatest length, octet by octet: a message in fragments whose data set has so
    many octets."""
    data = stored(b"1.2.3", ((0x0009, 0x1001), "OB", bytes(size)))
    stream = associate() + data
    lines = ["open 1\n", *(f"piece 1 {octet:02x}\n" for octet in stream)]
    return Made([], lines, len(stream), counts_of(sb006=1))


def longest_by_octet(size: int) -> Made:
    """One PDU, octet by octet, whose values are fragments of a data set that is not whole."""
    head = message(3, C_STORE, "CT", b"", b"1.2.3")[:-12]
    body = broken.value(3, 0, bytes(size - 6))
    stream = associate() + head + pdu(P_DATA, body)
    lines = ["open 1\n", *(f"piece 1 {octet:02x}\n" for octet in stream)]
    return Made([], lines, len(stream), answered("-", len(lines) - 2))


def values_of_one(together: int) -> Callable[[int], Made]:
    def make(size: int) -> Made:
        """A data set in fragments of one octet, so many in a PDU."""
        stream = associate() + broken.fragmented(stored(b"1.2.3",
                                                        ((0x0009, 0x1001), "OB", bytes(size))),
                                                 together)
        lines = [line_of(1, stream[at:at + 16384]) for at in range(0, len(stream), 16384)]
        return Made([], ["open 1\n", *lines], len(stream), counts_of(sb006=1))
    return make


def opens(size: int) -> Made:
    lines = [f"open {number}\n" for number in range(1, size + 1)]
    return Made([], lines, sum(map(len, lines)) // 2,
                lambda answers: None if set(answers) == {"done"} else "not done")


def beside(which: str, is_ended: bool = False) -> Callable[[int], Made]:
    """Echoes on the first or the last of so many connections that are held, or after as many that
    ended."""
    def make(size: int) -> Made:
        before = [f"open {number}\n" for number in range(1, size + 1)]
        if is_ended:
            before = [line for number in range(1, size)
                      for line in (f"open {number}\n", f"end {number}\n")] + before[-1:]
        number, stream, count = 1 if which == "first" else size, associate(), 20
        lines = [line_of(number, stream), *[line_of(number, ECHO)] * count]
        return Made(before, lines, len(stream) + len(ECHO) * count, counts_of(s0000=count))
    return make


def stops(size: int) -> list[bytes]:
    """What a connection sends before it stops: in mid head, request, PDU, command set, message."""
    request, data = associate(calling=b"CT1"), stored(b"1.2.3",
                                                      ((0x0009, 0x1001), "OB", bytes(size)))
    return [b"", request[:3], request[:-1], request, request + ECHO[:-1], request + data[:100],
            request + data[:-1],
            request + data[:len(data) // 2],
            request + bytes([P_DATA, 0]) + LONGEST_PDU.to_bytes(4, "big") + bytes(3)]


def stopped(size: int) -> list[str]:
    """Lines of connections that stop."""
    ways = stops(size)
    lines = []
    for number in range(1, STOPPED + 1):
        way = ways[number % len(ways)]
        lines += [f"open {number}\n",
                  *(line_of(number, way[at:at + 16384]) for at in range(0, len(way), 16384))]
    return lines


def echoes_beside_stopped(size: int) -> Made:
    before, stream, number, count = stopped(size), associate(calling=b"CT2"), STOPPED + 1, 2000
    lines = [f"open {number}\n", line_of(number, stream), *[line_of(number, ECHO)] * count]
    return Made(before, lines, len(stream) + len(ECHO) * count, counts_of(s0000=count))


def all_stopped(size: int) -> Made:
    lines = stopped(size)
    length = sum(len(line) // 2 for line in lines)
    return Made([], lines, length,
                lambda answers: None if not any("close" in line for line in answers) else "closed")


def associations(request: Callable[[], bytes]) -> Callable[[int], Made]:
    """So many associations with the same request."""
    def make(count: int) -> Made:
        lines = [line for number in range(1, count + 1)
                 for line in (f"open {number}\n", line_of(number, request()), f"end {number}\n")]
        return Made([], lines, len(request()) * count, answered(model_answer(request()), count))
    return make


def every_context() -> bytes:
    names = list(compose.CLASSES.values())
    return request_pdu(b"ARCHIVE", b"MODALITY",
                       [(2 * at + 1, names[at % len(names)], [EXPLICIT, IMPLICIT])
                        for at in range(128)])


def longest_request(kind: str) -> Callable[[], bytes]:
    """A request of the greatest length that is taken, of as many parts of a kind as go."""
    def request() -> bytes:
        proposed = item(0x30, compose.CLASSES["echo"]) + item(0x40, IMPLICIT)
        name = item(0x10, APPLICATION_CONTEXT.rstrip())
        room = LONGEST_PDU - 68 - len(name) - 4 - len(item(0x51, bytes(4))) - 8
        if kind == "syntaxes":
            each = (room - 128 * (8 + len(proposed))) // 128 // 4
            parts = b"".join(item(0x20, bytes([2 * at + 1, 0, 0, 0]) + proposed + item(0x40, b"")
                                  * each) for at in range(128))
        else:
            parts = item(0x20, bytes([1, 0, 0, 0]) + proposed)
        user = item(0x51, bytes(4)) + (item(0x54, b"") * ((room - len(parts)) // 4)
                                       if kind == "sub-items" else b"")
        body = name + parts + item(0x50, user)
        body += item(0x60, b"") * ((LONGEST_PDU - 68 - len(body)) // 4 - 1)
        body += item(0x60, bytes(LONGEST_PDU - 68 - len(body) - 4))
        return pdu(REQUEST,
                   b"\0\1\0\0" + b"ARCHIVE".ljust(16) + b"MODALITY".ljust(16) + bytes(32) + body)
    return request


def nested(octets: bytes, depth: int) -> bytes:
    """Octets in so many sequences, one in the other, in Explicit."""
    for _ in range(depth):
        one = bytes.fromhex("feff00e0") + data_sets.little(len(octets), 4) + octets
        octets = bytes.fromhex("09000110") + b"SQ\0\0" + data_sets.little(len(one), 4) + one
    return octets


def numbered(count: int, spelled: bytes) -> bytes:
    """So many elements without octets, of rising private tags from group 0011 on."""
    return b"".join(data_sets.spelled_tag((0x0011 + 2 * (at // 65000), 0x0001 + at % 65000))
                    + spelled for at in range(count))


def inner(kind: str, size: int) -> bytes:
    """The octets of a data set, in Explicit, that stand at the deepest."""
    if kind == "elements":
        return numbered(size // 8, b"LO\0\0")
    if kind == "items":
        return (bytes.fromhex("09000110") + b"SQ\0\0" + data_sets.little(size // 8 * 8, 4)
                + bytes.fromhex("feff00e000000000") * (size // 8))
    return bytes.fromhex("09000210") + b"OB\0\0" + data_sets.little(size, 4) + bytes(size)


def deepest(kind: str, size: int) -> bytes:
    return nested(inner(kind, size), 15 if kind == "items" else 16)


def deep_store(kind: str) -> Callable[[int], Made]:
    def make(size: int) -> Made:
        form = data_sets.EXPLICIT
        first = elements(*keyed(SOPClassUID=CT.encode(), SOPInstanceUID=b"1.2.3.1.1"), syntax=form)
        last = elements(*keyed(StudyInstanceUID=b"1.2.3", SeriesInstanceUID=b"1.2.3.1"),
                        syntax=form)
        sent_octets = message(3, C_STORE, "CT", first + deepest(kind, size) + last, b"1.2.3.1.1")
        return Made(begun(EXPLICIT), [line_of(1, sent_octets)], len(sent_octets),
                    counts_of(sb006=1))
    return make


STEP = dict(Modality=b"CT", PerformedStationAETitle=b"CT1",
            PerformedProcedureStepStartDate=b"20240705",
            PerformedProcedureStepStartTime=b"0900", PerformedProcedureStepStatus=b"IN PROGRESS",
            PerformedProcedureStepID=b"P")
SCHEDULED = ((0x0040, 0x0270), "SQ", [[((0x0040, 0x0009), "SH", b"S1")]])


def step_of(form: str, more: bytes = b"") -> bytes:
    """A procedure step in progress, with octets after the elements of group 0008."""
    first = elements(*keyed(Modality=STEP["Modality"]), syntax=form)
    last = elements(*keyed(**{name: value for name, value in STEP.items() if name != "Modality"}),
                    SCHEDULED, syntax=form)
    return first + more + last


def deep_step(kind: str) -> Callable[[int], Made]:
    def make(size: int) -> Made:
        octets_of_step = step_of(data_sets.EXPLICIT, deepest(kind, size))
        sent_octets = message(9, N_CREATE, "mpps", octets_of_step, b"1.2.3")
        return Made(begun(EXPLICIT), [line_of(1, sent_octets)], len(sent_octets),
                    counts_of(s0000=1))
    return make


def deep_find(kind: str) -> Callable[[int], Made]:
    def make(size: int) -> Made:
        first = elements(*keyed(QueryRetrieveLevel=b"STUDY"), syntax=data_sets.EXPLICIT)
        sent_octets = message(5, C_FIND, "study", first + deepest(kind, size))
        return Made(studies(20, EXPLICIT), [line_of(1, sent_octets)], len(sent_octets),
                    counts_of(sff01=20, s0000=1))
    return make


def studies(count: int, syntax: bytes = IMPLICIT) -> list[str]:
    """An association that stores so many studies."""
    store: Any = stored if syntax == IMPLICIT else stored_explicit
    return [*begun(syntax), *(line_of(1, store(b"1.2.%d" % at)) for at in range(count))]


def stored_explicit(study: bytes) -> bytes:
    return message(3, C_STORE, "CT", elements(*image_of(study), syntax=data_sets.EXPLICIT),
                   study + b".1.1")


def keys(level: str) -> Callable[[int], Made]:
    """An identifier with so many keys that are not supported, of studies or of a step of the
    worklist."""
    def make(count: int) -> Made:
        if level == "study":
            data = elements(*keyed(QueryRetrieveLevel=b"STUDY")) + numbered(count, bytes(4))
            sent_octets = message(5, C_FIND, "study", data)
            return Made(studies(20), [line_of(1, sent_octets)], len(sent_octets),
                        counts_of(sff01=20, s0000=1))
        one = numbered(count, bytes(4))
        one = bytes.fromhex("feff00e0") + data_sets.little(len(one), 4) + one
        data = bytes.fromhex("40000001") + data_sets.little(len(one), 4) + one
        sent_octets = message(7, C_FIND, "worklist", data)
        before = compose.Scene()
        for at in range(20):
            before.play_line("schedule DEMO PatientName=DOE^A PatientID=P1 StudyInstanceUID=1.2.3 "
                             "RequestedProcedureID=R "
                             "ScheduledProcedureStepSequence= { Modality=CT "
                             "ScheduledStationAETitle=CT1 "
                             "ScheduledProcedureStepStartDate=20240705 "
                             "ScheduledProcedureStepStartTime=0900 "
                             f"ScheduledProcedureStepID=S{at} }}")
        before = [f"{line}\n" for line in before.lines] + begun()
        return Made(before, [line_of(1, sent_octets)], len(sent_octets),
                    counts_of(sff01=20, s0000=1))
    return make


def in_group(group: int, first: int, count: int) -> bytes:
    """So many elements without octets of a group, in Implicit."""
    return b"".join(data_sets.spelled_tag((group, first + at)) + bytes(4) for at in range(count))


def changed_step(group: int) -> Callable[[int], Made]:
    """A step with so many elements, and a change that sends as many: of a group that is fixed the
    same, else others."""
    def make(count: int) -> Made:
        form = data_sets.IMPLICIT
        kept = in_group(group, 0x4001, count)
        sent_elements = kept if group == 0x0010 else in_group(group + 2, 0x4001, count)
        before = [*begun(), line_of(1, message(9, N_CREATE, "mpps", step_of(form, kept), b"1.2.3"))]
        sent_octets = message(9, N_SET, "mpps", sent_elements, b"1.2.3")
        return Made(before, [line_of(1, sent_octets)], len(sent_octets), counts_of(s0000=1))
    return make


def small_changes(count: int) -> Made:
    """Small changes of a step with so many elements."""
    step = step_of(data_sets.IMPLICIT, numbered(count, bytes(4)))
    before = [*begun(), line_of(1, message(9, N_CREATE, "mpps", step, b"1.2.3"))]
    sent_octets = message(9, N_SET, "mpps",
                          elements(*keyed(PerformedProcedureStepDescription=b"KNEE")), b"1.2.3")
    return Made(before, [line_of(1, sent_octets)] * 10, 10 * len(sent_octets), counts_of(s0000=10))


def asked(keyword: str, kept: Callable[[int], bytes], key: Callable[[int], bytes],
          count: int) -> Callable[[int], Made]:
    """A query by a key over one study that has a value: it finds so many."""
    def make(size: int) -> Made:
        before = [*begun(), line_of(1, stored(b"1.2.3", *keyed(**{keyword: kept(size)})))]
        sent_octets = found(b"STUDY", *keyed(**{keyword: key(size)}))
        wanted = counts_of(sff00=1, s0000=1) if count else counts_of(s0000=1)
        return Made(before, [line_of(1, sent_octets)], len(sent_octets) + size, wanted)
    return make
