"""What is compared with the model."""
import collections
import concurrent.futures
import multiprocessing
import random
import re
import subprocess

from ..client import Caller, Client, Serving
from ..counts import COUNTS
from ..measured import processors
from ..model import broken, costly, data_sets, histories, replies
from ..model.messages import N_CREATE
from ..model.upper_layer import EXPLICIT, LONGEST_PDU
from ..paths import TOP, configured
from ..tally import Tally
from .common import BATCH, BY_SOCKETS, COUNT, PROGRAM, SEED, STREAMS, TOGETHER, VARIANTS, counted

# what is compared with the model

# The lines of a play with its name and its configuration.
Job = tuple[str, str | None, list[str]]


def kinds_in(lines: list[str]) -> collections.Counter[str]:
    """What kinds of answers are among the lines: aborts and rejections with their numbers,
    statuses."""
    kinds = collections.Counter()
    for line in lines:
        octets = line.removesuffix(" close").rpartition(" ")[2]
        if line.endswith(" close"):
            kinds.update(f"abort {one}" for one in re.findall(r"0700000000040000(....)$", octets))
            kinds.update(f"reject {one}" for one in re.findall(r"0300000000040{2}(.{6})$", octets))
        kinds.update(one[2:] + one[:2] for one in re.findall(r"0000000902000000(....)", octets))
    return kinds


def compared(job: Job) -> tuple[str, str | None, int, collections.Counter[str], list[str]]:
    """Plays lines by the program and by the model: what differs, how many lines there are, what
    kinds, and what was told."""
    name, configuration, lines = job
    text = ("\n".join(lines) + "\n").encode()
    done = subprocess.run([PROGRAM, "replay", *configured(configuration)], input=text,
                          capture_output=True, check=False)
    told = done.stdout.decode("latin-1").split("\n")[:-1]
    model, wanted = costly.model_of(configuration), []
    for line in lines:
        wanted.append(model.reply(*replies.event_of(line)))
    return name, difference(lines, wanted, told, done), len(lines), kinds_in(wanted), told


def difference(lines: list[str], wanted: list[str], told: list[str],
               done: subprocess.CompletedProcess[bytes]) -> str | None:
    for line, right, reply in zip(lines, wanted, told):
        if right != reply:
            return f"at '{line[:120]}': '{reply[:120]}' in place of '{right[:120]}'"
    if len(told) != len(wanted) or done.returncode != 0 or done.stderr:
        return f"exit {done.returncode}, {len(told)} lines of {len(wanted)}, {done.stderr[:80]}"
    return None


def all_compared(tally: Tally, jobs: list[Job]) -> tuple[collections.Counter[str],
                                                         dict[str, list[str]], int]:
    """Compares plays, some at a time; the kinds of answers, and what was told by name."""
    kinds, told_of, lines = collections.Counter(), {}, 0
    with concurrent.futures.ProcessPoolExecutor(processors(),
                                                multiprocessing.get_context("fork")) as pool:
        for name, why, count, found, told in pool.map(compared, jobs):
            tally.check(name, why is None, why)
            kinds.update(found)
            told_of[name] = told
            lines += count
    return kinds, told_of, lines


def has_kinds(tally: Tally, name: str, kinds: collections.Counter[str], *wanted: str) -> None:
    missing = [one for one in wanted if one not in kinds]
    tally.check(f"{name}: no answer {missing}", not missing or COUNT, dict(kinds))


class Sockets:
    """Plays lines over sockets, one after the other, beside the model that tells what is to
    come."""

    console: Caller | None

    def __init__(self, server: Serving, configuration: str) -> None:
        self.server, self.model, self.clients, self.console = server, costly.model_of(
            configuration), {}, None

    def play(self, lines: list[str]) -> str | None:
        """What differs; None where nothing does."""
        for line in lines:
            right = self.model.reply(*replies.event_of(line))
            try:
                why = self.play_line(line, right)
            except (OSError, TimeoutError) as error:
                why = repr(error)
            if why:
                return f"at '{line[:120]}': {why[:200]}"
        return None

    def play_line(self, line: str, right: str) -> str:
        word, number, *octets = line.split(" ")
        if word in ("schedule", "withdraw"):
            self.console = self.console or self.server.console()
            answer = self.console.ask(line)
            return "" if answer == right else f"{answer} in place of {right}"
        if right == "ignored" or octets == ["-"]:
            return ""
        if word == "open":
            self.clients[number] = self.server.connect()
            return ""
        if word == "end":
            client = self.clients.pop(number)
            client.end()
            return self.left(client)
        _, digits, *close = right.split(" ")
        wanted = bytes.fromhex(digits.replace("-", ""))
        got = self.clients[number].exchange(bytes.fromhex(octets[0]), len(wanted))
        if got != wanted:
            return f"{got.hex()[:80]} in place of {wanted.hex()[:80]}"
        return self.left(self.clients.pop(number)) if close else ""

    def left(self, client: Client) -> str:
        """The server closes the connection, and says nothing more."""
        with client:
            more = client.rest()
        return f"{more.hex()[:80]} after the last octet" if more else ""


def over_sockets(tally: Tally, name: str, plays: list[list[str]], configuration: str) -> int:
    """Plays lists of lines over sockets; how many there were."""
    with Serving(PROGRAM, *configured(configuration), has_console=True) as server:
        sockets = Sockets(server, configuration)
        for at, lines in enumerate(plays):
            why = sockets.play(lines)
            if not tally.check(f"{name} over sockets, {at}", why is None, why):
                break
        tally.check(f"{name} over sockets: it goes on", server.is_running() and not server.errors(),
                    server.errors())
    return len(plays)


def connection(name: str, pieces: list[bytes]) -> list[str]:
    return [f"open {name}", *(f"piece {name} {piece.hex() or '-'}" for piece in pieces),
            f"end {name}"]


def octets_by_connection(lines: list[str]) -> dict[str, str]:
    sent_on = collections.defaultdict(str)
    for line in lines:
        words = line.split(" ")
        if words[0].isdigit():
            sent_on[words[0]] += words[1].replace("-", "") + "".join(words[2:])
    return sent_on


def octets(tally: Tally, _: object) -> None:
    chance, count = random.Random(SEED), counted(STREAMS)
    streams = [broken.random_stream(chance, broken.DEPTHS[at % len(broken.DEPTHS)])
               for at in range(count)]
    plays = collections.defaultdict(list)
    for at, stream in enumerate(streams):
        for cutting, pieces in broken.cuttings(chance, stream):
            plays[cutting].append(connection(f"#{at}", pieces))
    jobs = [(f"octets {cutting} {at}", "large", broken.joined(chance, lists[at:at + 50], 1))
            for cutting, lists in plays.items() for at in range(0, len(lists), 50)]
    kinds, told, _ = all_compared(tally, jobs)
    for name in [name for name in told if "octets whole " in name]:
        for cutting in ("octet by octet", "at random"):
            other = name.replace("whole", cutting)
            tally.check(f"{other}: as whole",
                        octets_by_connection(told[other]) == octets_by_connection(told[name]))
    has_kinds(tally, "octets", kinds, "abort 0000", "abort 0201", "abort 0202", "abort 0206",
              "reject 010101", "0000",
              "a900", "c000", "0110", "0122", "0211")
    some = chance.sample(plays["at random"], max(count // BY_SOCKETS, 1)) if count else []
    played = over_sockets(tally, "octets",
                          [broken.joined(chance, [one], 1) for one in renamed(some)], "large")
    tally.check("octets: streams", len(streams) >= counted(STREAMS) > 0 and played > 0,
                len(streams), played)


def renamed(plays: list[list[str]]) -> list[list[str]]:
    """The plays with numbers that rise over all of them, so that each can be played by itself."""
    numbers = iter(range(1, 10 ** 9))
    return [histories.renumbered(lines, lambda: next(numbers)) for lines in plays]


def variants(tally: Tally, _: object) -> None:
    chance, count = random.Random(SEED), counted(VARIANTS)
    clients = list(broken.recorded(TOP).values())
    if not tally.check("variants: recorded clients", len(clients) == COUNTS["captures"],
                       len(clients)):
        return
    plays = [broken.opened_and_ended(f"#{at}", broken.changed(chance, chance.choice(clients)))
             for at in range(count)]
    jobs = []
    for at in range(0, count, BATCH):
        # one hospital takes 64 associations at a time, and one 4, so that some are refused
        configuration, together = (("large", 1), ("large", TOGETHER),
                                   (None, 2 * TOGETHER))[at // BATCH % 3]
        jobs.append((f"variants from {at}", configuration,
                     broken.joined(chance, plays[at:at + BATCH], together)))
    kinds, told, lines = all_compared(tally, jobs)
    has_kinds(tally, "variants", kinds, "abort 0000", "abort 0201", "abort 0202", "abort 0206",
              "reject 010101", "reject 010102",
              "reject 010202", "reject 020302", "0000", "b006", "a900", "c000", "ff00", "ff01",
              "0110", "0122", "0211")
    played = over_sockets(tally, "variants", renamed(plays[::BY_SOCKETS]), "large")
    compared_lines = sum(map(len, told.values()))
    tally.check("variants: all are compared",
                len(plays) >= counted(VARIANTS) > 0 and compared_lines == lines >= 5 * count
                and played > 0, len(plays), compared_lines, lines, played)


def fragments(tally: Tally, _: object) -> None:
    jobs = []
    for name, lines in broken.recorded(TOP).items():
        by_octet = []
        for line in lines:
            word, number, *more = line.split(" ")
            by_octet += ([f"piece {number} {octet:02x}" for octet in bytes.fromhex(more[0])]
                         if word == "piece" else [line])
        jobs.append((f"{name} octet by octet", "large", by_octet))
        orders, streams = broken.streams_of(lines)
        for together in (1, 7, 9000):
            cut = [*orders]
            for number, stream in streams.items():
                stream = broken.fragmented(stream, together)
                pieces = [stream[at:at + 4096] for at in range(0, len(stream), 4096)]
                cut += [f"open {number}", *(f"piece {number} {piece.hex()}" for piece in pieces)]
            jobs.append((f"{name} in fragments of one octet, {together} together", "large", cut))
    _, _, lines = all_compared(tally, jobs)
    tally.check("fragments: clients and lines",
                len(jobs) == 4 * COUNTS["captures"] and lines > 60000, len(jobs), lines)
    plays = renamed([broken.opened_and_ended("#", lines) for name, _, lines in jobs
                     if "echo_dcmtk " in name or "day" in name or "mpps" in name])
    played = over_sockets(tally, "fragments", plays, "large")
    tally.check("fragments over sockets", played == 12, played)


def played_on(*streams: bytes) -> list[str]:
    """Lines of one connection."""
    return ["open 1", *(costly.line_of(1, stream)[:-1] for stream in streams)]


def longest(tally: Tally, _: object) -> None:
    jobs = []
    for kind in ("syntaxes", "items", "sub-items"):
        taken = costly.longest_request(kind)()
        too_long = taken[:2] + (LONGEST_PDU + 1).to_bytes(4, "big") + taken[6:] + b"\0"
        jobs += [(f"a request of {len(one) - 6} octets, of {kind}", "large",
                  played_on(one, costly.ECHO))
                 for one in (taken, too_long)]
    for depth in (15, 16, 17):
        step = costly.step_of(data_sets.EXPLICIT, costly.nested(b"", depth))
        create = costly.message(9, N_CREATE, "mpps", step, b"1.2.3")
        jobs.append((f"a step {depth} sequences deep", "large",
                     played_on(costly.associate(EXPLICIT), create)))
    kinds, _, _ = all_compared(tally, jobs)
    tally.check("the greatest sizes, and one more",
                kinds == {"abort 0000": 3, "0000": 5, "0110": 1}, kinds)
