"""What plays cost."""
from __future__ import annotations

import concurrent.futures
from collections.abc import Callable
from dataclasses import dataclass

from ..measured import Play, processors
from ..model import costly
from ..paths import configured
from ..tally import Tally
from .common import AGAIN, ENOUGH, MEASURE, OPENS, PAGES, PROGRAM, TICK, WANTED, counted

# what things cost

MEGABYTE = 1 << 20


@dataclass
class Shape:
    """What is measured in sizes: how many times the seconds and the memory of echoes it may take,
    and by how much faster than its octets its seconds may grow. Where few octets are sent of much
    that is kept, `memory` is how many octets each of its size may take."""
    name: str
    make: Callable[[int], costly.Made]
    sizes: tuple[int, ...]
    seconds: float
    memory: float = 4.0
    growth: float = 2.0
    configuration: str = "large"
    is_by_size: bool = False


class Measure:
    """What plays cost beyond what is played before them."""

    def __init__(self, tally: Tally) -> None:
        self.tally = tally
        usual = [self.of("echoes", costly.echoes(count), "large", 3) for count in (20000, 40000)]
        self.is_good = all(usual)
        if self.is_good:
            self.seconds = max(usual[1].spent(), 0.001) / usual[1].made.octets
            self.memory = max(usual[1].grown(), 0.1) / usual[1].made.octets
            tally.check("echoes: twice as many", usual[1].spent() < 3 * usual[0].spent() + TICK,
                        *usual)
            print(f"echoes: {1e9 * self.seconds:.0f} ns and {1e6 * self.memory:.1f} octets of "
                  "memory for an octet")
        for one in usual:
            if one:
                one.close()

    def of(self, name: str, made: costly.Made, configuration: str,
           times: int = 1) -> Measured | None:
        """A play, run; None where it is not answered as it is to be."""
        words = [PROGRAM, "replay", *configured(configuration)]
        one = Measured(made, Play(words, made.before), Play(words, [*made.before, *made.lines]))
        one.run(times)
        answers = one.whole.answers()
        why = f"exit {one.whole.cost.status}" if one.whole.cost.status else None
        if why is None and len(answers) != len(made.before) + len(made.lines):
            why = f"{len(answers)} lines of {len(made.before) + len(made.lines)}"
        why = why or made.wanted(answers[len(made.before):])
        if self.tally.check(f"{name}: answered", why is None, why):
            return one
        one.close()
        return None


class Measured:
    def __init__(self, made: costly.Made, part: Play, whole: Play) -> None:
        self.made, self.part, self.whole = made, part, whole

    def run(self, times: int = 1) -> None:
        self.part.run(times)
        self.whole.run(times)

    def spent(self) -> float:
        return self.whole.cost.seconds - self.part.cost.seconds

    def grown(self) -> float:
        return self.whole.cost.megabytes - self.part.cost.megabytes

    def close(self) -> None:
        self.part.close()
        self.whole.close()

    def __str__(self) -> str:
        return f"{self.made.octets} octets in {self.spent():.3f} s, {self.grown():.1f} MB"


def memory_of(measure: Measure, shape: Shape, last: Measured) -> tuple[float, str]:
    """The memory of the largest play, as its bound tells it, and in what that is told. Less than
    some pages tells nothing."""
    grown = max(last.grown() - PAGES, 0)
    if shape.is_by_size:
        return grown * MEGABYTE / shape.sizes[-1], "octets of memory for each of its size"
    return grown / (measure.memory * last.made.octets), "times the memory of echoes"


def check_shape(tally: Tally, measure: Measure, shape: Shape) -> None:
    """Measures a shape in its sizes, again where a bound is passed, and prints its figures."""
    plays = []
    for size in shape.sizes:
        plays.append(measure.of(shape.name, shape.make(size), shape.configuration))
        if plays[-1] is None:
            return
    first, last = plays[0], plays[-1]
    octets_more = last.made.octets / first.made.octets
    for turn in range(AGAIN):
        # less than a tick tells nothing
        times = max(last.spent() - TICK, 0) / (measure.seconds * last.made.octets)
        memory, unit = memory_of(measure, shape, last)
        growth = last.spent() / max(first.spent(), TICK) / octets_more
        is_within = times <= shape.seconds and memory <= shape.memory and growth <= shape.growth
        if is_within or turn == AGAIN - 1 or last.spent() > ENOUGH:
            break
        for one in (first, last):
            one.run()
    print(f"{shape.name}: {last}; {times:.1f} times the seconds of echoes, {memory:.1f} {unit}; "
          f"of {octets_more:.1f} "
          f"times the octets {growth:.2f} times as much as of each", flush=True)
    tally.check(f"{shape.name}: seconds", times <= shape.seconds,
                f"{times:.1f} times those of echoes", *plays)
    tally.check(f"{shape.name}: memory", memory <= shape.memory, f"{memory:.1f} {unit}", *plays)
    tally.check(f"{shape.name}: growth", growth <= shape.growth,
                f"{growth:.2f} times faster than its octets", *plays)
    for one in plays:
        one.close()


def check_shapes(tally: Tally, shapes: list[Shape]) -> None:
    shapes = [shape for shape in shapes if not WANTED or shape.name in WANTED]
    if not MEASURE:
        MEASURE.append(Measure(tally))
    measure = MEASURE[0]
    if not tally.check("echoes are answered",
                       measure.is_good) or not tally.check("rows that are measured", shapes):
        return
    with concurrent.futures.ThreadPoolExecutor(max(processors() // 2, 1)) as pool:
        list(pool.map(lambda shape: check_shape(tally, measure, shape), shapes))


def many_opens(tally: Tally, _: object) -> None:
    most = counted(OPENS)
    sizes = (most // 4, most // 2, most)
    check_shapes(tally, [
        Shape("opens", costly.opens, sizes, 10, 100),
        # what the echoes cost is less than the opens differ by from run to run, so these bounds are
        # wide
        Shape("echoes on the first of so many", costly.beside("first"), sizes, 20000, 1000, 10),
        Shape("echoes on the last of so many", costly.beside("last"), sizes, 20000, 1000, 10),
        Shape("echoes after so many that ended", costly.beside("last", True), sizes, 1000, 1000)])


def pieces(tally: Tally, _: object) -> None:
    some = (64000, 128000, 256000)
    check_shapes(tally, [
        # each octet is an event here, of which a line is read and a reply is kept
        Shape("pieces of one octet", costly.pieces_of_one, (100000, 200000, 400000), 30, 150),
        Shape("one PDU in pieces of one octet", costly.longest_by_octet, (16384, 32768, 65536), 30,
              150),
        Shape("fragments of one octet alone", costly.values_of_one(1), (200000, 400000, 800000), 4),
        Shape("fragments of one octet together", costly.values_of_one(9000),
              (300000, 600000, 1200000), 4),
        Shape("64 that stop", costly.all_stopped, some, 4, 8, configuration="long_run"),
        Shape("echoes beside 64 that stopped", costly.echoes_beside_stopped, some, 10,
              configuration="long_run")])


def sizes(tally: Tally, _: object) -> None:
    million = 1 << 20
    check_shapes(tally, [
        Shape("128 contexts", costly.associations(costly.every_context), (200, 400, 800), 4),
        *(Shape(f"the longest request of {kind}", costly.associations(costly.longest_request(kind)),
                (40, 80, 160), 4)
          for kind in ("syntaxes", "items", "sub-items")),
        *(Shape(f"stored 16 deep: {kind}", costly.deep_store(kind),
                (2 * million, 4 * million, 8 * million), 4, 20)
          for kind in ("a value", "elements", "items")),
        *(Shape(f"a step 16 deep: {kind}", costly.deep_step(kind),
                (million // 5, 2 * million // 5, 4 * million // 5), 4, 20)
          for kind in ("a value", "elements", "items")),
        *(Shape(f"a query 16 deep: {kind}", costly.deep_find(kind),
                (million // 5, 2 * million // 5, 4 * million // 5), 4, 20)
          for kind in ("a value", "elements", "items")),
        *(Shape(f"keys of a {level}", costly.keys(level), (25000, 50000, 100000), 4, 20)
          for level in ("study", "step")),
        Shape("a change of as many elements", costly.changed_step(0x0011), (10000, 20000, 40000), 4,
              40),
        Shape("a change of as many fixed elements", costly.changed_step(0x0010),
              (10000, 20000, 40000), 4, 40),
        # known: each change reads and writes the whole step, of 4 MiB at most (docs/SPEED.md). So
        # it holds the step as it was, the change and the step as it is: 345 octets for each element
        # were measured, whether five changes follow or forty.
        Shape("small changes of a step of so many elements", costly.small_changes,
              (20000, 40000, 80000), 4000, 500, 8, is_by_size=True)])


def wild(tally: Tally, _: object) -> None:
    def run(size: int) -> bytes:
        return b"a" * size

    def both(size: int) -> bytes:
        return b"ab" * (size // 2)

    linear = {
        "runs and octets that fit": (run, lambda size: b"*a" * (size // 2), 1),
        "runs and octets that do not fit": (run, lambda size: b"*a" * (size // 2) + b"b", 0),
        "a long word that is not there": (run, lambda size: b"*" + b"a" * (size // 2) + b"b*", 0),
        "a long word of two octets that is not there": (both, lambda size: b"*"
                                                        + b"ab" * (size // 4) + b"b*", 0),
        "any ones before an octet that is not there": (run, lambda size: b"*" + b"?" * (size // 2)
                                                       + b"b*", 0),
        "any ones": (run, lambda size: b"?" * size, 1),
        "runs and any ones": (run, lambda size: b"*?" * (size // 2), 1),
        "runs alone": (run, lambda size: b"*" * size, 1),
    }
    # known: a word with `?` in it that is not there costs its length at each octet of the value
    # (docs/SPEED.md)
    square = {
        "each other octet any one": (run, lambda size: b"*" + b"a?" * (size // 4) + b"b*", 0),
        "any one before each octet": (run, lambda size: b"*" + b"?a" * (size // 4) + b"b*", 0),
        "any one in the middle": (run, lambda size: b"*" + b"a" * (size // 4) + b"?"
                                  + b"a" * (size // 4) + b"b*", 0),
    }
    shapes = []
    for keyword in ("PatientName", "PatientID"):
        shapes += [Shape(f"{keyword}: {name}", costly.asked(keyword, *one),
                         (200000, 400000, 800000), 4, 20)
                   for name, one in linear.items()]
        shapes += [Shape(f"{keyword}: {name}", costly.asked(keyword, *one), (4096, 8192, 16384),
                         1000, 20, 8)
                   for name, one in square.items()]
    lists = costly.asked("PatientID", lambda size: b"a\\" * (size // 2) + b"a",
                         lambda size: b"b\\" * (size // 2) + b"b", 0)
    check_shapes(tally, [*shapes, Shape("a list of values against a list", lists,
                                        (200000, 400000, 800000), 8, 40)])
