"""The same messages in other fragments: suite/models in_fragments LENGTH < CAPTURE > CAPTURE

Each presentation data value (PS3.8 section 9.3.5.1) becomes values of at most LENGTH octets, and a
PDU has at most 64 of them. Each piece stays one piece, so each is answered as before. A connection
on which some piece is not whole PDUs stays as it is. How many pieces became others is told on
standard error.
"""
import sys

from . import broken


def is_whole(octets: bytes) -> bool:
    at = 0
    while at < len(octets):
        if len(octets) < at + 6:
            return False
        at += 6 + broken.big(octets[at + 2:at + 6])
    return at == len(octets)


def is_piece(words: list[str]) -> bool:
    return len(words) == 3 and words[0] == "piece" and words[2] != "-"


def main(words: list[str]) -> None:
    length = int(words[0])
    lines = [line.split(" ") for line in sys.stdin.read().splitlines()]
    torn = {words[1] for words in lines if is_piece(words)
            and not is_whole(bytes.fromhex(words[2]))}
    changed = 0
    for words in lines:
        if is_piece(words) and words[1] not in torn:
            octets = broken.fragmented(bytes.fromhex(words[2]), 64, length).hex()
            changed += octets != words[2].lower()
            words = [*words[:2], octets]
        print(" ".join(words))
    print(changed, file=sys.stderr)
