"""What broken and hostile clients send: random octets at each depth of a stream, recorded clients
with one octet changed, and messages in fragments of one octet."""
import pathlib
import random
from collections.abc import Iterator

from . import compose, data_sets, histories
from .messages import C_ECHO, C_FIND, C_STORE, N_CREATE, command_set, padded, sent, two
from .upper_layer import P_DATA, big, pdu

PROPOSED = "1=echo:implicit 3=CT:explicit 5=study:implicit 7=worklist:explicit 9=mpps:implicit"
CONTEXTS = (1, 3, 5, 7, 9)
DEPTHS = ("octets", "a PDU's body", "octets in an association", "a PDU in an association", "values",
          "a command set",
          "fields of a command set", "a data set", "elements of a data set", "a cut message")
LONGEST_PART = 65000


def request() -> bytes:
    scene = compose.Scene()
    scene.play_line(f"associate 1 ARCHIVE MODALITY {PROPOSED}")
    return bytes.fromhex(scene.lines[0].split(" ")[2])


REQUEST = request()


def value(context: int, control: int, octets: bytes) -> bytes:
    """A presentation data value (PS3.8 section 9.3.5.1)."""
    return (len(octets) + 2).to_bytes(4, "big") + bytes([context, control]) + octets


def random_values(chance: random.Random) -> bytes:
    """Presentation data values of random octets, mostly of contexts that were accepted."""
    return b"".join(value(chance.choice((*CONTEXTS, 2, 255)), chance.choice((0, 1, 2, 3, 3, 4)),
                          chance.randbytes(chance.randrange(60)))
                    for _ in range(chance.randrange(1, 4)))


def random_fields(chance: random.Random) -> tuple[int, bytes]:
    """The fields of a command set, of which some have values that they may not have, or are
    none."""
    context, name = chance.choice(((1, "echo"), (3, "CT"), (5, "study"), (9, "mpps")))
    fields = {0x0002: padded(compose.CLASSES[name]),
              0x0100: two(chance.choice((C_STORE, C_FIND, C_ECHO, N_CREATE))),
              0x0110: two(1), 0x0800: two(0x0101)}
    odd = (b"", two(1), two(C_FIND), two(0x0101), two(0x8030), bytes(3),
           padded(compose.CLASSES["CT"]), b"1.2.3\0")
    for _ in range(chance.randrange(3)):
        number = chance.choice((0x0002, 0x0002, 0x0003, 0x0100, 0x0110, 0x0120, 0x0700, 0x0800,
                                0x0900, 0x1000))
        fields[number] = chance.choice(odd)
    return context, command_set(sorted(fields.items()))


def random_elements(chance: random.Random, syntax: str, depth: int = 0) -> bytes:
    """A data set of known and unknown tags, in order or not, with lengths that are right, or
    not."""
    known, out = list(data_sets.DICTIONARY), b""
    tags = [chance.choice(known) if chance.random() < 0.8 else (chance.randrange(65536),
                                                                chance.randrange(65536))
            for _ in range(chance.randrange(5))]
    for tag in sorted(tags) if chance.random() < 0.9 else tags:
        vr = data_sets.DICTIONARY.get(tag, chance.choice(("UN", "SQ", "LO", "OB")))
        octets = chance.randbytes(chance.randrange(6))
        if vr == "SQ" and depth < 3:
            octets = b"".join(bytes.fromhex("feff00e0") + data_sets.little(len(one), 4) + one
                              for one in
                              (random_elements(chance, syntax, depth + 1)
                               for _ in range(chance.randrange(3))))
        length = len(octets) if chance.random() < 0.9 else chance.choice((0, 1, 7, 0xFFFF,
                                                                          data_sets.UNDEFINED))
        head = b""
        if syntax == data_sets.EXPLICIT:
            vr = vr if chance.random() < 0.95 else "XX"
            head = vr.encode() + (b"" if vr in data_sets.SHORT else bytes(2))
        width = 2 if head and vr in data_sets.SHORT else 4
        out += data_sets.spelled_tag(tag) + head + data_sets.little(length % 256 ** width,
                                                                    width) + octets
    return out


def message(chance: random.Random, octets: bytes) -> bytes:
    """A message whose command set is right, with these octets as its data set."""
    context, field, name = chance.choice(
        ((3, C_STORE, "CT"), (5, C_FIND, "study"), (7, C_FIND, "worklist"), (9, N_CREATE, "mpps")))
    instance = [(0x1000, b"1.2.3\0")] if field in (C_STORE, N_CREATE) else []
    command = [(0x0002, padded(compose.CLASSES[name])), (0x0100, two(field)), (0x0110, two(1)),
               (0x0800, two(1)), *instance]
    return sent(context, command_set(command), octets, chance.choice((0, 0, 20, 100)))


def random_stream(chance: random.Random, depth: str) -> bytes:
    """Octets of a connection that are random from this depth on."""
    some, kind = chance.randbytes(chance.randrange(1, 120)), chance.randrange(1, 8)
    if depth == "octets":
        return some
    if depth == "a PDU's body":
        return pdu(kind, chance.choice((some, REQUEST[6:74] + some,
                                        REQUEST[6:16] + some[:20] + REQUEST[16 + len(some[:20]):])))
    if depth == "octets in an association":
        return REQUEST + some
    if depth == "a PDU in an association":
        return REQUEST + pdu(chance.choice((P_DATA, kind)),
                             chance.choice((some, some[:4].ljust(4), REQUEST[6:])))
    if depth == "values":
        return REQUEST + pdu(P_DATA, random_values(chance))
    if depth == "a command set":
        return REQUEST + pdu(P_DATA, value(chance.choice(CONTEXTS), 3, some))
    if depth == "fields of a command set":
        context, fields = random_fields(chance)
        return REQUEST + pdu(P_DATA, value(context, 3, fields))
    if depth == "a data set":
        return REQUEST + message(chance, some) + message(chance, b"")
    if depth == "elements of a data set":
        forms = (data_sets.EXPLICIT, data_sets.IMPLICIT)
        return REQUEST + b"".join(message(chance, random_elements(chance, chance.choice(forms)))
                                  for _ in range(3))
    whole = REQUEST + message(chance, random_elements(chance, data_sets.EXPLICIT))
    return whole[:chance.randrange(len(whole))] + some


def cuttings(chance: random.Random, octets: bytes) -> Iterator[tuple[str, list[bytes]]]:
    """The octets as pieces: whole, one by one, and at random."""
    yield "whole", [octets]
    yield "octet by octet", [octets[at:at + 1] for at in range(len(octets))]
    ends = sorted({0, len(octets),
                   *(chance.randrange(len(octets)) for _ in range(chance.randrange(1, 8)))})
    yield "at random", [octets[start:end] for start, end in zip(ends, ends[1:])]


def changed(chance: random.Random, lines: list[str]) -> list[str]:
    """The lines of a capture with one octet changed, dropped, doubled or moved."""
    pieces = [at for at, line in enumerate(lines) if line.startswith("piece ")]
    at = chance.choice(pieces)
    word, number, octets = lines[at].split(" ")
    octets = bytearray.fromhex(octets)
    # what matters most stands at the front
    place = chance.randrange(min(len(octets), chance.choice((16, 128, len(octets)))))
    how = chance.choice(("changed", "dropped", "doubled", "moved"))
    octet = octets[place]
    if how == "changed":
        octets[place] ^= chance.choice((1, 2, 4, 8, 16, 32, 64, 128, 255, chance.randrange(1, 256)))
    elif how == "doubled":
        octets.insert(place, octet)
    else:
        del octets[place]
    if how == "moved":
        octets.insert(chance.randrange(len(octets) + 1), octet)
    return [*lines[:at], f"{word} {number} {octets.hex() or '-'}", *lines[at + 1:]]


def values_of(body: bytes) -> Iterator[tuple[int, int, bytes]]:
    """The presentation data values of a P-DATA-TF."""
    at = 0
    while at < len(body):
        length = big(body[at:at + 4])
        yield body[at + 4], body[at + 5], body[at + 6:at + 4 + length]
        at += 4 + length


def fragmented(octets: bytes, together: int, length: int = 1) -> bytes:
    """Whole PDUs with each fragment of more octets than that as fragments of so many, so many in a
    PDU together."""
    out, at = b"", 0
    while at < len(octets):
        kind, end = octets[at], at + 6 + big(octets[at + 2:at + 6])
        if end > len(octets):
            raise ValueError("a PDU is not whole")
        out += in_fragments(octets[at + 6:end], together,
                            length) if kind == P_DATA else octets[at:end]
        at = end
    return out


def in_fragments(body: bytes, together: int, length: int) -> bytes:
    values = []
    for context, control, fragment in values_of(body):
        parts = [fragment[at:at + length] for at in range(0, len(fragment), length)] or [b""]
        values += [value(context, control & 1,
                         part) for part in parts[:-1]] + [value(context, control, parts[-1])]
    return b"".join(pdu(P_DATA, b"".join(values[at:at + together]))
                    for at in range(0, len(values), together))


def streams_of(lines: list[str]) -> tuple[list[str], dict[str, bytes]]:
    """The whole octets of each connection of a capture, and its lines without them: (lines before,
    streams by number)."""
    streams = {}
    for line in lines:
        if line.startswith("piece "):
            _, number, octets = line.split(" ")
            streams[number] = streams.get(number, b"") + bytes.fromhex(octets)
    return [line for line in lines if not line.startswith(("piece ", "open ", "end "))], streams


def recorded(top: pathlib.Path) -> dict[str, list[str]]:
    """The lines of each recorded client, by name."""
    found = {}
    for path in sorted((top / "captures").glob("*.capture")):
        found[path.stem] = [line for line in path.read_text().split("\n") if line
                            and not line.startswith("#")]
    return found


def opened_and_ended(name: str, lines: list[str]) -> list[str]:
    """The lines of a capture with names of their own for connections, each of which ends."""
    out = []
    for line in lines:
        words = line.split(" ")
        if words[0] in ("open", "piece", "end", "pull"):
            words[1] = f"{name}.{words[1]}"
        out.append(" ".join(words))
    return out + [line.replace("open", "end") for line in out if line.startswith("open ")]


def joined(chance: random.Random, lists: list[list[str]], together: int) -> list[str]:
    """Lists of lines with their numbers, so many of them interleaved at a time."""
    lines, numbers = [], iter(range(1, 10 ** 9))
    for at in range(0, len(lists), together):
        lines += histories.mixed(chance, lists[at:at + together])
    return histories.renumbered(lines, lambda: next(numbers))
