"""The built program and peers that are broken, or mean harm: what they are answered, and what they
cost.

    octets      octets that are random from some depth on, as no PDU up to elements of a data set,
                in three cuttings each: what each connection is sent is the same in all, and that of
                the model; also over sockets
    variants    recorded clients with one octet changed, dropped, doubled or moved, some at a time,
                with what they leave behind for the next: each line is the model's; also over
                sockets
    fragments   recorded clients octet by octet, and their messages in fragments of one octet, alone
                and many in a PDU
    longest     requests of the greatest length, and steps of the greatest depth, and one more
    stuck       connections that stop in mid PDU, in mid message, in mid answer, while another
                institution is served
    deaf        peers that never read take neither time nor memory from others
    resets      connections that are reset at random moments, some at a time, leave nothing behind

and what plays cost:

    opens       a million connections that are opened and say nothing, and others beside them
    pieces      pieces and fragments of one octet; 64 connections that stop in the middle, and
                echoes beside them
    sizes       128 contexts; requests, data sets, identifiers and procedure steps of the greatest
                sizes
    wild        wild cards and lists of values against long values

What a play costs are the seconds of the processor and the resident memory at most, in those of as
many octets in plain echoes of the same run; it is played in sizes that double twice, and what grows
faster than its octets is a failure. Where that is known, docs/SPEED.md has the figure, and the row
here says so. A row whose bound is passed is played again, up to five times.

It ends with 'N passed, M failed'. Use: suite/hostile [PROGRAM [SEED [PART[=WHAT] ..]]]: all parts,
or some. WHAT is how many streams, variants or resets are played, or opens; or the names, joined by
commas, of the rows whose cost is measured. An empty PROGRAM is the one that was built, and an empty
SEED the usual one.
"""
import sys

from ..tally import Part, play_parts
from .beside import deaf, resets, stuck
from .common import COUNT, WANTED
from .compared import fragments, longest, octets, variants
from .costs import many_opens, pieces, sizes, wild

PARTS: dict[str, Part] = {
    "octets": octets, "variants": variants, "fragments": fragments, "longest": longest,
    "stuck": stuck, "deaf": deaf, "resets": resets, "opens": many_opens, "pieces": pieces,
    "sizes": sizes, "wild": wild,
}


def choose(choice: str) -> None:
    """Takes how many the next part plays, or the names of the rows that it measures: the usual ones
    if there is neither."""
    COUNT[:] = [int(choice)] if choice.isdigit() else []
    WANTED[:] = choice.split(",") if choice and not COUNT else []


def main() -> int:
    return play_parts(PARTS, sys.argv[3:], choose)
