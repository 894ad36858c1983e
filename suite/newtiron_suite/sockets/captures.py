"""Captures and scenes over sockets, histories of two hospitals, and loopback."""
import itertools
import pathlib
import random
import threading
from typing import Any

from ..client import Caller, Serving
from ..model import histories
from ..paths import configured
from ..tally import Tally
from .common import (PROGRAM, ROUNDS, SEED, WANTED, check_count, over_sockets, run, turned,
                     wanted_plays)


def is_order(line: str) -> bool:
    return line.startswith(("schedule ", "withdraw "))


class Player:
    """Plays the lines of a capture over sockets, each once the one before it has had its effect."""

    console: Caller | None

    def __init__(self, server: Serving) -> None:
        self.server, self.clients, self.console = server, {}, None

    def play(self, lines: list[str], told: list[str]) -> str | None:
        """What differs from the lines that are to be told; None where nothing does."""
        try:
            for at, (line, reply) in enumerate(zip(lines, told, strict=True)):
                why = self.play_line(line, reply)
                if why:
                    return f"line {at + 1}, {line[:40]}: {why}"
            for number in list(self.clients):
                why = self.end(number)
                if why:
                    return f"at the end of {number}: {why}"
        except (TimeoutError, OSError) as error:
            return f"line {at + 1}, {line[:40]}: {error!r}"
        finally:
            for one in [*self.clients.values(), *([self.console] if self.console else [])]:
                one.close()
        return None

    def play_line(self, line: str, reply: str) -> str:
        if is_order(line):
            self.console = self.console or self.server.console()
            answer = self.console.ask(line)
            return "" if answer == reply else f"{answer} in place of {reply}"
        word, number, *octets = line.split(" ")
        if reply == "ignored":
            return ""
        if word == "open":
            self.clients[number] = self.server.connect()
            return ""
        return self.end(number) if word == "end" else self.piece(number, octets[0].replace("-", ""),
                                                                 reply)

    def piece(self, number: str, octets: str, reply: str) -> str:
        _, answer, *close = reply.split(" ")
        answer = bytes.fromhex(answer.replace("-", ""))
        client = self.clients[number]
        got = client.exchange(bytes.fromhex(octets), len(answer))
        if got != answer:
            return f"{got.hex()[:80]} in place of {answer.hex()[:80]}"
        if close:
            more = client.rest()
            self.clients.pop(number).close()
            return f"{more.hex()[:80]} after the last octet" if more else ""
        return ""

    def end(self, number: str) -> str:
        """Ends a connection: the server closes it too, and says nothing more."""
        client = self.clients.pop(number)
        client.end()
        more = client.rest()
        client.close()
        return f"{more.hex()[:80]} at the end" if more else ""


def captures(tally: Tally, _: object) -> None:
    played = 0
    for name, configuration, lines, expected in wanted_plays():
        lines, told = over_sockets(configuration, lines, expected.read_text().split("\n")[:-1])
        with Serving(PROGRAM, *configured(configuration), has_console=True) as server:
            why = Player(server).play(lines, told)
            tally.check(name, why is None, why)
            tally.check(f"{name}: it goes on", server.is_running() and not server.errors(),
                        server.errors())
        played += 1
    check_count(tally, "captures", played)


def history(chance: random.Random, name: str, callings: list[str]) -> tuple[list[str], list[str]]:
    """A history of a hospital, and the lines that `replay` tells of it alone, which pulls where
    sockets do."""
    numbers = itertools.count(1)
    lines = histories.renumbered(histories.history(chance, name, callings), lambda: next(numbers))
    lines, turns = turned("hospitals", lines)
    groups = [[line] + [f"pull {event[1]}"] * pulls for line,
              (event, pulls, _) in zip(lines, turns)]
    capture = "".join(f"{line}\n" for group in groups for line in group)
    status, out, _ = run("replay", *configured("hospitals"), capture=capture.encode())
    told = iter(out.decode().split("\n")[:-1] if status == 0 else [])
    return lines, [together([next(told, "") for _ in group]) for group in groups]


def together(told: list[str]) -> str:
    """A reply, and those to the pulls after it, as one."""
    first, *more = told
    return first + "".join(one.partition(" ")[2].replace("-", "") for one in more)


def two_hospitals(tally: Tally, _: object) -> None:
    chance, events = random.Random(SEED), 0
    for turn in range(ROUNDS):
        sides = {"NORTH": ["CT1"], "SOUTH": ["CT2"], "ABSENT": ["CT9"]}
        plays_of = {name: history(chance, name, callings) for name, callings in sides.items()}
        found = {}
        with Serving(PROGRAM, *configured("hospitals"), has_console=True) as server:
            def play(name: str) -> None:
                found[name] = Player(server).play(*plays_of[name])
            threads = [threading.Thread(target=play, args=(name,)) for name in sides]
            for thread in threads:
                thread.start()
            for thread in threads:
                thread.join()
        for name, (lines, _) in plays_of.items():
            tally.check(f"round {turn}, {name}", found.get(name, "none") is None, found.get(name))
            events += len(lines)
    tally.check("events of histories", events >= 50 * ROUNDS, f"{events} in {ROUNDS} rounds")


def joined(lines: list[str], told: list[str]) -> bytes:
    """What `loopback` is to print: for each connection, by rising number, all octets that it is
    answered."""
    sent = {line.split(" ")[1]: "" for line in lines if line.startswith("open ")}
    for line, reply in zip(lines, told, strict=True):
        words = reply.split(" ")
        if line.startswith("piece ") and reply != "ignored":
            sent[words[0]] += words[1].replace("-", "")
    return "".join(f"{number} {octets or '-'}\n" for number, octets in sent.items()).encode()


def loopback(tally: Tally, folder: pathlib.Path) -> None:
    played = 0
    for name, configuration, lines, expected in wanted_plays():
        done = run("loopback", *configured(configuration),
                   capture=("\n".join(lines) + "\n").encode())
        lines, told = over_sockets(configuration, lines, expected.read_text().split("\n")[:-1])
        tally.check(f"loopback of {name}", done == (0, joined(lines, told), b""), done)
        played += 1
    check_count(tally, "captures of loopback", played)
    if WANTED:
        return
    words: Any
    for name, words, capture, status, errors in (
            ("a bad line", [], b"open x\n", 3, b"capture line 1\n"),
            ("a configuration before the capture", ["--config", folder / "absent"], b"open x\n", 2,
             b"config 0\n"),
            ("an empty capture", [], b"", 0, b"")):
        done = run("loopback", *words, capture=capture)
        tally.check(f"loopback of {name}", done == (status, b"", errors), done)
    status, out, why = run("loopback", "--port", "1")
    tally.check("loopback with a port", status == 1 and not out and why, status, out, why)
