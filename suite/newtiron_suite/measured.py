"""What runs of a program cost: the seconds of the processor, and the resident memory at most.

A process that runs another one counts its own memory to it, so that a small one stands between.
"""
import os
import pathlib
import random
import subprocess
import sys
import tempfile
import time
from collections.abc import Callable, Sequence

# after so many seconds of the processor a run is ended
LONGEST = 40
LAUNCHER = """
import os, resource, sys
resource.setrlimit(resource.RLIMIT_CPU, (int(sys.argv[1]), int(sys.argv[1])))
files = [(os.POSIX_SPAWN_OPEN, 0, sys.argv[2], os.O_RDONLY, 0),
         (os.POSIX_SPAWN_OPEN, 1, sys.argv[3], os.O_WRONLY | os.O_CREAT | os.O_TRUNC, 0o600)]
child = os.posix_spawn(sys.argv[4], sys.argv[4:], os.environ, file_actions=files)
_, status, used = os.wait4(child, 0)
print(os.waitstatus_to_exitcode(status), used.ru_utime + used.ru_stime, used.ru_maxrss)
"""


class Cost:
    """What a run came to."""

    def __init__(self, status: int | None, seconds: float, megabytes: float) -> None:
        self.status, self.seconds, self.megabytes = status, seconds, megabytes

    def __str__(self) -> str:
        return f"exit {self.status}, {self.seconds:.3f} s, {self.megabytes:.1f} MB"


def measured(words: Sequence[object], capture: pathlib.Path | str, out: pathlib.Path) -> Cost:
    """Runs a program on the file of a capture, with its output in another."""
    command = [sys.executable, "-S", "-E", "-c", LAUNCHER, str(LONGEST), str(capture), str(out),
               *map(str, words)]
    told = subprocess.run(command, capture_output=True, text=True,
                          check=False).stdout.split("\n")[0].split(" ")
    if len(told) != 3:
        return Cost(None, 0.0, 0.0)
    return Cost(int(told[0]), float(told[1]), int(told[2]) / 1024)


class Play:
    """A capture that is run again and again: the least that it costs, and what it is answered."""

    cost: Cost | None

    def __init__(self, words: Sequence[object], lines: Sequence[str]) -> None:
        self.words = words
        self.folder = tempfile.TemporaryDirectory()
        self.capture, self.out = (pathlib.Path(self.folder.name) / name
                                  for name in ("capture", "out"))
        with open(self.capture, "w", encoding="ascii") as file:
            file.writelines(lines)
        self.cost = None

    def run(self, times: int = 1) -> Cost:
        for _ in range(times):
            cost = measured(self.words, self.capture, self.out)
            if self.cost is not None:
                cost = Cost(max(cost.status or 0, self.cost.status or 0),
                            min(cost.seconds, self.cost.seconds),
                            min(cost.megabytes, self.cost.megabytes))
            self.cost = cost
        return self.cost

    def answers(self) -> list[str]:
        with open(self.out, encoding="ascii") as file:
            return file.read().split("\n")[:-1]

    def close(self) -> None:
        self.folder.cleanup()


class Moments:
    """Random moments in a run, from its begin to just after its end. A run that has ended before
    its moment says how long one lasts, so that a first one that was slow by chance does not put all
    of them after the end."""

    def __init__(self, seed: int, longest: float) -> None:
        self.chance, self.longest = random.Random(seed), longest

    def wait(self, has_ended: Callable[[float], bool]) -> None:
        """Waits for the next moment, or for the end of the run: `has_ended` waits at most so many
        seconds, and says whether it has come."""
        begun = time.monotonic()
        if has_ended(self.chance.random() * self.longest * 1.05):
            self.longest = min(self.longest, time.monotonic() - begun)

    def wait_for(self, child: subprocess.Popen[bytes]) -> None:
        def has_ended(seconds: float) -> bool:
            try:
                child.wait(seconds)
            except subprocess.TimeoutExpired:
                return False
            return True
        self.wait(has_ended)


def usual_worst(times: Sequence[float]) -> float:
    """The longest of all but two: a machine that stands still for a moment makes one or two long
    that are not."""
    return sorted(times)[:-2][-1]


def processors() -> int:
    return len(os.sched_getaffinity(0))
