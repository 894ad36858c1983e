"""Replies in words: read_replies.py < REPLIES, the lines that the program prints or that are kept
as expected.

It prints a line for each, with its number, what each PDU of the reply is, and `close`: `accepted`
with the result of each context; `rejected` and `aborted` with their numbers; `released`; and for
each response its status, with its data set in the words of compose.py where it has one. Other lines
stay as they are. It is what suites count; tools/show shows all to people.
"""
import sys
from collections.abc import Iterator
from typing import Any

from . import data_sets
from .messages import form_of, little
from .names import KEYWORDS_BY_TAG
from .upper_layer import ABORT, ACCEPT, IMPLICIT, P_DATA, REJECT, RELEASE_RP, big, items, uid

STATUS, KIND, NO_DATA_SET = 0x0900, 0x0800, 0x0101


def pdus(octets: bytes) -> Iterator[tuple[int, bytes]]:
    while octets:
        length = big(octets[2:6])
        yield octets[0], octets[6:6 + length]
        octets = octets[6 + length:]


def word(tag: tuple[int, int], vr: str, value: Any) -> str:
    name = KEYWORDS_BY_TAG.get(tag, f"{tag[0]:04X}{tag[1]:04X}:{vr}")
    if vr == "SQ":
        return f"{name}= " + " ".join("{ " + " ".join(word(*one) for one in item) + " }"
                                      for item in value)
    text = value.decode("latin-1") if vr in data_sets.TEXT or vr == "UI" else "0x" + value.hex()
    return f"{name}={text.rstrip(chr(0) + ' ')}"


class Connection:
    """What is needed of one connection to read its replies."""

    status: str | None

    def __init__(self) -> None:
        self.syntaxes = {}
        self.status = None
        self.octets = b""

    def accepted(self, body: bytes) -> str:
        results = []
        for kind, part in items(body[68:]):
            if kind == 0x21:
                self.syntaxes[part[0]] = uid(items(part[4:])[0][1])
                results.append(f"{part[0]}:{part[2]}")
        return " ".join(["accepted", *results])

    def values(self, body: bytes) -> Iterator[Any]:
        """The responses that the PDU completes."""
        at = 0
        while at < len(body):
            length = big(body[at:at + 4])
            context, control, fragment = body[at + 4], body[at + 5], body[at + 6:at + 4 + length]
            at += 4 + length
            self.octets += fragment
            if not control & 2:
                continue
            octets, self.octets = self.octets, b""
            if control & 1:
                found = data_sets.elements(data_sets.Octets(octets), False, data_sets.IMPLICIT, 0)
                fields = {element: value for (_, element), _, value in found}
                self.status = f"{little(fields[STATUS]):04X}"
                if little(fields[KIND]) == NO_DATA_SET:
                    yield self.status
            else:
                syntax = form_of(self.syntaxes.get(context, IMPLICIT))
                found = data_sets.elements(data_sets.Octets(octets), False, syntax, 0)
                yield " ".join([self.status, "{", *(word(*one) for one in found), "}"])

    def read(self, kind: int, body: bytes) -> Iterator[str]:
        if kind == P_DATA:
            yield from self.values(body)
        else:
            yield {ACCEPT: lambda: self.accepted(body), RELEASE_RP: lambda: "released",
                   REJECT: lambda: "rejected " + " ".join(str(octet) for octet in body[1:4]),
                   ABORT: lambda: "aborted " + " ".join(str(octet) for octet in body[2:4])}[kind]()


def main(_words: list[str]) -> None:
    connections = {}
    for line in sys.stdin:
        words = line.split()
        if len(words) < 2 or not words[0].isdigit():
            print(line.rstrip("\n"))
            continue
        connection = connections.setdefault(words[0], Connection())
        octets = b"" if words[1] == "-" else bytes.fromhex(words[1])
        told = [one for kind, body in pdus(octets) for one in connection.read(kind, body)]
        print(" ".join([words[0], "; ".join(told) or "-", *words[2:]]))
