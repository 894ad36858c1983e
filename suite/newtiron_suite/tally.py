"""What a suite counts: comparisons that passed and failed, in parts, up to the line 'N passed, M
failed'."""
import os
import pathlib
import tempfile
import threading
import time
from collections.abc import Callable, Iterable, Mapping


class LeftOut(Exception):
    """A part that needs what this machine lacks."""


class Tally:
    """How many comparisons passed and failed. Threads may share it."""

    def __init__(self) -> None:
        self.passed = self.failed = 0
        self.lock = threading.Lock()

    def check(self, name: str, is_right: object, *why: object) -> bool:
        """Counts a comparison, and names it and what came if it failed; whether it is right."""
        with self.lock:
            self.passed += bool(is_right)
            self.failed += not is_right
            if not is_right:
                print("FAILED", name + ":", *(str(one)[:1000] for one in why), flush=True)
        return bool(is_right)

    def compared(self) -> int:
        return self.passed + self.failed

    def end(self) -> int:
        """Prints the last line of a suite; its exit status."""
        print(f"{self.passed} passed, {self.failed} failed")
        return 1 if self.failed else 0


def skip(name: str, why: str) -> None:
    print(f"skipped: {name}: {why}")


Part = Callable[[Tally, pathlib.Path], object]


def no_choice(choice: str) -> None:
    """The parts have nothing to be chosen from."""


def play_parts(parts: Mapping[str, Part], words: Iterable[str],
               choose: Callable[[str], object] = no_choice) -> int:
    """Plays all parts, or those that words name as PART or PART=CHOICE, each in a folder of its
    own; the exit status."""
    tally = Tally()
    for word in words or parts:
        name, _, choice = word.partition("=")
        before, begun = tally.compared(), time.monotonic()
        with tempfile.TemporaryDirectory(prefix="suite-") as folder:
            try:
                choose(choice)
                parts[name](tally, pathlib.Path(folder))
            except LeftOut as why:
                print(f"{name}: left out: {why}")
            except Exception as error:
                # a part that trips over what a program does has failed, and the others go on
                tally.check(name, False, repr(error))
                if "TRACE" in os.environ:
                    raise
        print(f"{name}: {tally.compared() - before} compared in {time.monotonic() - begun:.1f} s",
              flush=True)
    tally.check("something was compared", tally.passed > 0)
    return tally.end()
