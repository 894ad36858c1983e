"""Makes captures and replies readable: reads their lines, in any order, from standard input.

    ./run < captures/echo_dcmtk.capture | tools/show
    tools/show < captures/day_at_a_modality.capture

What a capture sends is shown as a scene, in the words of compose.py, which can turn it into a
capture again; comments before it name its PDUs and commands. Replies are shown with the names of
the standard, data sets by keyword. Bytes that have no words are shown in hexadecimal, and a remark
says where composing would give other bytes, for example for undefined lengths. The transfer syntax
of a data set is that of its context if the association was seen, and otherwise guessed, which is
said. Unprintable text is shown in a comment as \\xHH.

A line that is neither a capture's nor a reply is shown as a comment and reported on standard error;
the exit status is then 2.
Use: tools/show [--exact]     --exact: `piece` and bytes instead of words that would compose to
                              other bytes
"""
import os
import sys

from . import shown
from .shown import Shown


def visible(text: str) -> str:
    """The text without what a terminal would act upon."""
    return "".join(one if one.isprintable() else f"\\x{ord(one):02X}" for one in text)


def show(shower: Shown) -> int:
    """Shows each line of standard input; the exit status."""
    status = 0
    sys.stdout.reconfigure(encoding="utf-8")  # type: ignore[attr-defined]
    for number, octets in enumerate(sys.stdin.buffer if sys.stdin else [], 1):
        line = octets.decode("utf-8", "backslashreplace").rstrip("\r\n")
        try:
            lines = shower.line(line)
        except shown.BadLine as bad:
            print(f"line {number}: {visible(str(bad))}", file=sys.stderr)
            lines, status = [f"# line {number} is not understood: {visible(line)}"], 2
        print("\n".join(lines))
    for line in shower.rest():
        print(line)
    sys.stdout.flush()
    return status


def main(words: list[str]) -> int:
    if words in (["--help"], ["-h"]):
        print(__doc__.strip())
        return 0
    if words not in ([], ["--exact"]):
        print("Use: tools/show [--exact] < CAPTURE or REPLIES", file=sys.stderr)
        return 2
    try:
        return show(shown.Shown(is_exact=bool(words)))
    except (BrokenPipeError, KeyboardInterrupt):
        # who reads this has enough of it
        os.dup2(os.open(os.devnull, os.O_WRONLY), sys.stdout.fileno())
        return 0
    except OSError as error:
        print(f"reading or writing failed: {error.strerror}", file=sys.stderr)
        return 2
