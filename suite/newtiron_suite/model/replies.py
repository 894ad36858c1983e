"""The replies to a capture, worked out from the standard: an independent model of the server for
its suites.

Written from PS3.8 section 9 (PDUs and the state machine), PS3.7 (messages and statuses) and PS3.4
annexes A, B, C, F and K (services), with the choices that docs/DECISIONS.md lists where the
standard leaves one. It shares nothing with the server's code.

Use: suite/models replies [--config FILE] [--new FILE | --store FILE] [--report | --check] <
CAPTURE. It prints the lines of the replies, or with --report a line for each institution. With
--check it reads no capture, and lists the institutions. On a bad line it prints none, tells the
line on standard error, and exits with 3; on a bad configuration with 2, and on a store that is not
taken, or that fails, with 4.
"""
from __future__ import annotations

import argparse
import collections
import os
import re
import sqlite3
import sys
import tomllib
from collections.abc import Callable, Iterator
from typing import Any

from . import services, sop_classes, stores
from .messages import (C_CANCEL, C_ECHO, C_FIND, C_STORE, N_CREATE, N_SET, Assembler, Command,
                       response, sent)
from .upper_layer import (ABORT, APPLICATION_CONTEXT, EXPLICIT, IMPLICIT, P_DATA, RELEASE_RQ,
                          REQUEST, UNEXPECTED, BadPdu, Request, abort, acceptance, next_pdu, reject,
                          release_reply)


BUILT_IN = """
[[institution]]
name = "DEMO"
routes = [{ called = "ARCHIVE", calling = "MODALITY" }]
studies = 100
images = 1000
entries = 100
steps = 100
associations = 4
"""
VERIFICATION, STORAGE, STUDY_ROOT, WORKLIST, PROCEDURE_STEP = (
    "verification storage study worklist procedure".split())
CLASSES = sop_classes.SERVICES
COMMANDS = {VERIFICATION: {C_ECHO}, STORAGE: {C_STORE}, STUDY_ROOT: {C_FIND}, WORKLIST: {C_FIND},
            PROCEDURE_STEP: {N_CREATE, N_SET}}
CLASS_NOT_SUPPORTED, UNRECOGNIZED_OPERATION, CANCELLED = 0x0122, 0x0211, 0xFE00
# how many pending responses to a C-FIND one reply has at most
PAGE = 64
LIMITS = {"studies": 1000000, "images": 1000000, "entries": 1000000, "steps": 1000000,
          "associations": 64}


NAME = re.compile(r"[A-Z0-9_]{1,16}", re.ASCII)
# What `check` says before `config N`.
CONFIG_WORDS = (
    "the file cannot be read, or is not UTF-8",
    "it is not TOML, or a key is missing, unknown or not of its type",
    "a name is not 1 to 16 of A to Z, 0 to 9 and the underscore",
    "a title is not 1 to 16 printable characters of ASCII, or has a backslash",
    "two institutions have one name",
    "two routes have the same pair of titles",
    "a limit is not 1 to 1000000, or of associations not 1 to 64",
)


class BadConfiguration(Exception):
    pass


class Institution:
    def __init__(self, table: dict[str, Any]) -> None:
        self.name = table["name"]
        self.pairs = [(route["called"].strip(" ").encode(), route["calling"].strip(" ").encode())
                      for route in table["routes"]]
        self.limits = {key: table[key] for key in LIMITS}
        self.records = services.Records(self.limits)
        self.live = 0


def is_integer(value: int | str) -> bool:
    """An integer of TOML has 64 bits."""
    return isinstance(value, int) and not isinstance(value, bool) and -2 ** 63 <= value < 2 ** 63


def check_form(document: dict[str, Any]) -> list[dict[str, Any]]:
    """The right keys with the right types (fault 1)."""
    tables = document.get("institution", [])
    if set(document) - {"institution"} or not isinstance(tables, list):
        raise BadConfiguration(1)
    for table in tables:
        if not isinstance(table, dict) or set(table) != {"name", "routes", *LIMITS}:
            raise BadConfiguration(1)
        numbers = [table[key] for key in LIMITS]
        if not isinstance(table["name"], str) or any(not is_integer(number) for number in numbers):
            raise BadConfiguration(1)
        if not isinstance(table["routes"], list):
            raise BadConfiguration(1)
        for route in table["routes"]:
            if not isinstance(route, dict) or set(route) != {"called", "calling"}:
                raise BadConfiguration(1)
            if not all(isinstance(title, str) for title in route.values()):
                raise BadConfiguration(1)
    return tables


def read_configuration(text: str) -> list[Institution]:
    try:
        tables = check_form(tomllib.loads(text))
    except tomllib.TOMLDecodeError:
        raise BadConfiguration(1) from None
    names, pairs, institutions = set(), set(), []
    for table in tables:
        if not NAME.fullmatch(table["name"]):
            raise BadConfiguration(2)
        if table["name"] in names:
            raise BadConfiguration(4)
        names.add(table["name"])
        for route in table["routes"]:
            pair = tuple(route[key].strip(" ") for key in ("called", "calling"))
            if not all(re.fullmatch(r"[\x20-\x5b\x5d-\x7e]{1,16}", title) for title in pair):
                raise BadConfiguration(3)
            if pair in pairs:
                raise BadConfiguration(5)
            pairs.add(pair)
        if not all(1 <= table[key] <= most for key, most in LIMITS.items()):
            raise BadConfiguration(6)
        institutions.append(Institution(table))
    return institutions


def answered(context: tuple[int, bytes, list[bytes]]) -> tuple[int, int, bytes]:
    number, abstract, transfer = context
    if abstract not in CLASSES:
        return number, 3, IMPLICIT
    for syntax in (EXPLICIT, IMPLICIT):
        if syntax in transfer:
            return number, 0, syntax
    return number, 4, IMPLICIT


class Search:
    """A C-FIND whose answers were found when its message was whole: the responses that are left of
    it, and its last one."""

    def __init__(self, identity: int, pending: list[bytes], last: bytes, cancelled: bytes) -> None:
        self.identity, self.pending, self.last, self.cancelled = identity, pending, last, cancelled

    def page(self, most: int) -> tuple[bytes, bool]:
        """So many responses more at most, with the last one if no other is left then, and whether
        that is so."""
        taken, self.pending = self.pending[:most], self.pending[most:]
        is_done = not self.pending
        return b"".join(taken) + (self.last if is_done else b""), is_done


class Connection:
    search: Search | None
    request: Request | None
    home: Institution | None
    assembler: Assembler | None

    def __init__(self, server: Server) -> None:
        self.server = server
        self.search = None
        self.rest = b""
        self.request = None
        self.home = None
        self.contexts = {}
        self.assembler = None

    def feed(self, piece: bytes) -> tuple[bytes, bool]:
        """The octets of the answer, and whether the connection is closed after them."""
        self.rest += piece
        out = b""
        while True:
            try:
                taken = next_pdu(self.rest)
                if taken is None:
                    return out, False
                kind, body, self.rest = taken
                for octets, close in self.answer(kind, body):
                    out += octets
                    if close:
                        return out, True
            except BadPdu as bad:
                return out + (abort(2, bad.reason) if self.request else abort(0, 0)), True

    def answer(self, kind: int, body: Any) -> Iterator[tuple[bytes, bool]]:
        if self.request is None:
            yield from self.answer_first(kind, body)
        elif kind == P_DATA:
            for context, control, fragment in body:
                message = self.assembler.take(context, control, fragment)
                if message is not None:
                    yield self.served(*message), False
        elif kind == RELEASE_RQ:
            yield release_reply(), True
        elif kind == ABORT:
            yield b"", True
        else:
            raise BadPdu(UNEXPECTED)

    def answer_first(self, kind: int, body: Any) -> Iterator[tuple[bytes, bool]]:
        if kind == ABORT:
            yield b"", True
            return
        if kind != REQUEST:
            raise BadPdu(UNEXPECTED)
        home = self.server.routed(body)
        if not body.version & 1:
            yield reject(1, 2, 2), True
        elif body.application != APPLICATION_CONTEXT:
            yield reject(1, 1, 2), True
        elif body.maximum is not None and 1 <= body.maximum <= 7 or home is None:
            yield reject(1, 1, 1), True
        elif home.live >= home.limits["associations"]:
            yield reject(2, 3, 2), True
        else:
            answers = [answered(context) for context in body.contexts]
            accepted = {number: syntax for number, result, syntax in answers if result == 0}
            self.contexts = {number: (abstract, accepted[number]) for number, abstract,
                             _ in body.contexts
                             if number in accepted}
            self.request, self.home, self.assembler = body, home, Assembler(set(accepted))
            home.live += 1
            yield acceptance(body, answers), False

    def drop(self) -> None:
        if self.home is not None:
            self.home.live -= 1

    def pages(self, most: int) -> bytes:
        """So many responses more of the C-FIND that is open, if one is."""
        if self.search is None:
            return b""
        octets, is_done = self.search.page(most)
        self.search = None if is_done else self.search
        return octets

    def pull(self) -> bytes:
        return self.pages(PAGE)

    def drained(self) -> bytes:
        """All that is left of the C-FIND that is open: it comes before the answer to another
        message."""
        return b"" if self.search is None else self.pages(len(self.search.pending))

    def cancel(self, identity: int) -> bytes:
        """C-CANCEL (PS3.7 section 9.3.2.3): on any context it ends the C-FIND that is open and has
        this message id."""
        if self.search is None or self.search.identity != identity:
            return b""
        octets, self.search = self.search.cancelled, None
        return octets

    def served(self, context: int, command: Command, octets: bytes) -> bytes:
        """The responses to a message, with its effect on the institution's records."""
        sop_class, syntax = self.contexts[context]
        service = CLASSES[sop_class]

        def reply(status: int, data: bytes | None = None, instance: bytes = b"") -> bytes:
            if status not in (services.PENDING, services.PENDING_OPTIONAL):
                self.server.served[command.field,
                                   "success" if status == services.SUCCESS else "other"] += 1
            return sent(context, response(command, sop_class, status, data is not None, instance),
                        data,
                        self.request.maximum)

        if command.field == C_CANCEL:
            return self.cancel(command.identity)
        before = self.drained()
        if command.field not in COMMANDS[service]:
            return before + reply(UNRECOGNIZED_OPERATION)
        instance = command.sop_instance if command.field in (C_STORE, N_CREATE, N_SET) else b""
        if command.sop_class != sop_class:
            return before + reply(CLASS_NOT_SUPPORTED, instance=instance)
        records = self.home.records
        if command.field == C_ECHO:
            return before + reply(services.SUCCESS)
        if command.field == C_FIND:
            if service == STUDY_ROOT:
                pending, answers, last = services.find(records, self.request.called, octets, syntax)
            else:
                pending, answers, last = services.query(records, octets, syntax)
            found = [reply(pending, services.written(answer, syntax)) for answer in answers]
            self.search = Search(command.identity, found, reply(last), reply(CANCELLED))
            return before + self.pages(PAGE)
        served = {C_STORE: services.store, N_CREATE: services.create,
                  N_SET: services.change}[command.field]
        return before + reply(served(records, command, octets, syntax), instance=instance)


class Server:
    def __init__(self, institutions: list[Institution]) -> None:
        self.institutions = institutions
        self.held = {}
        # how many messages were answered, by their operation and whether that was a success
        self.served = collections.Counter()

    def routed(self, request: Request) -> Institution | None:
        pair = (request.called.strip(b" "), request.calling.strip(b" "))
        return next((one for one in self.institutions if pair in one.pairs), None)

    def console(self, order: Callable[..., Any], name: str, octets: bytes) -> str:
        institution = next((one for one in self.institutions if one.name == name), None)
        refusal = 6 if institution is None else order(institution.records, octets)
        return "done" if refusal is None else f"refused {refusal}"

    def reply(self, word: str, subject: Any, octets: bytes) -> str:
        """The printed line of the reply to an event."""
        if word == "schedule":
            return self.console(services.schedule, subject, octets)
        if word == "withdraw":
            return self.console(services.withdraw, subject, octets)
        if word == "open":
            self.held[subject] = Connection(self)
            return "done"
        if subject not in self.held:
            return "ignored"
        if word == "end":
            self.held.pop(subject).drop()
            return "done"
        out, close = (self.held[subject].pull(),
                      False) if word == "pull" else self.held[subject].feed(octets)
        if close:
            self.held.pop(subject).drop()
        return f"{subject} {out.hex() or '-'}{' close' if close else ''}"

    def is_pending(self, number: int) -> bool:
        """Whether a C-FIND is open on the connection."""
        return number in self.held and self.held[number].search is not None

    def reported(self) -> Iterator[str]:
        """A line for each institution."""
        for one in self.institutions:
            studies, series, images, entries, steps = one.records.counts()
            yield (f"{one.name} studies {studies} series {series} images {images} entries "
                   f"{entries} steps {steps}")


def number_of(text: str) -> int:
    if not re.fullmatch(r"0|[1-9][0-9]*", text, re.ASCII) or int(text) >= 2 ** 64:
        raise ValueError
    return int(text)


def name_of(text: str) -> str:
    if not NAME.fullmatch(text):
        raise ValueError
    return text


def octets_of(text: str) -> bytes:
    if text == "-":
        return b""
    if not re.fullmatch(r"([0-9A-Fa-f]{2})+", text, re.ASCII):
        raise ValueError
    return bytes.fromhex(text)


def event_of(line: str) -> tuple[str, Any, bytes]:
    word, _, rest = line.partition(" ")
    if word in ("open", "end", "pull"):
        return word, number_of(rest), b""
    subject, _, octets = rest.partition(" ")
    if word == "piece":
        return word, number_of(subject), octets_of(octets)
    if word in ("schedule", "withdraw"):
        return word, name_of(subject), octets_of(octets)
    raise ValueError


def read_capture(octets: bytes) -> Any:
    """The events of a capture, or the number of its first bad line."""
    try:
        text = octets.decode("utf-8")
    except UnicodeDecodeError:
        return 0
    events, newest = [], -1
    for at, line in enumerate(text.split("\n"), 1):
        if line == "" or line.startswith("#"):
            continue
        try:
            event = event_of(line)
        except ValueError:
            return at
        if event[0] == "open":
            if event[1] <= newest:
                return at
            newest = event[1]
        events.append(event)
    return events


def with_options(words: argparse.ArgumentParser, has_store: bool = True) -> argparse.ArgumentParser:
    """The options that say whose rows are kept, and where."""
    words.add_argument("--config")
    if has_store:
        store = words.add_mutually_exclusive_group()
        store.add_argument("--new")
        store.add_argument("--store")
    return words


def refusal_of(text: str) -> int | None:
    """The number by which a configuration is refused; None where it is not."""
    try:
        read_configuration(text)
    except BadConfiguration as bad:
        return bad.args[0]
    return None


def line_of_fault(text: str, number: int) -> int:
    """The line of the first institution with which a text is refused so, up to the next one; 0
    where there is none."""
    begins = [found.start() for found in re.finditer(r"\[\[institution\]\]", text)]
    if begins and refusal_of(text[:begins[0]]) != number:
        for begin, end in zip(begins, [*begins[1:], len(text)]):
            if refusal_of(text[:end]) == number:
                return text[:begin].count("\n") + 1
    return 0


def configured(words: argparse.Namespace,
               in_words: bool = False) -> tuple[list[Institution] | None, int]:
    """The institutions; None and the exit status where the configuration is refused. That is told
    by its number, and before by its place and in words where these are asked for."""
    text, number = "", 0
    try:
        text = BUILT_IN if words.config is None else open(words.config, encoding="utf-8").read()
        return read_configuration(text), 0
    except (OSError, UnicodeDecodeError):
        pass
    except BadConfiguration as bad:
        number = bad.args[0]
    if in_words:
        line = line_of_fault(text, number)
        print(f"in the institution of line {line}\n" * bool(line) + CONFIG_WORDS[number],
              file=sys.stderr)
    print("config", number, file=sys.stderr)
    return None, 2


def opened(words: argparse.Namespace,
           institutions: list[Institution]) -> tuple[sqlite3.Connection | None, int]:
    """The store, whose rows are taken; None where there is none. And the exit status."""
    try:
        if words.new is not None:
            return stores.new(words.new), 0
        if words.store is None:
            return None, 0
        store, rows = stores.adopt(words.store)
        stores.take(institutions, rows)
        return store, 0
    except stores.Refused as refused:
        print("store", refused.args[0], file=sys.stderr)
        return None, 4


def begun(words: argparse.Namespace) -> tuple[list[Institution] | None, sqlite3.Connection | None,
                                              int]:
    """The institutions, their store if there is one, and the exit status where one of them is
    refused."""
    institutions, status = configured(words)
    store = None
    if not status and "new" in words:
        store, status = opened(words, institutions)
    return institutions, store, status


def listed(institutions: list[Institution], has_rows: bool) -> Iterator[str]:
    """The lines of a check: of each institution its pairs of titles, its limits, and how many rows
    it has, if that is asked for."""
    for one, line in zip(institutions, Server(institutions).reported()):
        for called, calling in one.pairs:
            yield f"{one.name} called {called.decode()} calling {calling.decode()}"
        yield " ".join([one.name, "limits",
                        *(f"{key} {limit}" for key, limit in one.limits.items())])
        if has_rows:
            yield line


def check(words: argparse.Namespace) -> int:
    """Lists the institutions of a configuration; the exit status."""
    if words.config is None or words.new is not None:
        print("usage", file=sys.stderr)
        return 1
    institutions, status = configured(words, in_words=True)
    if not status and words.store is not None:
        store, status = opened(words, institutions)
    if status:
        return status
    text = "".join(f"{line}\n" for line in listed(institutions, words.store is not None))
    try:
        os.write(sys.stdout.fileno(), text.encode())
    except OSError:
        return 4
    return 0


def copy(words: list[str]) -> int:
    """Makes a new store of the rows of some institutions; the exit status."""
    options = argparse.ArgumentParser()
    options.add_argument("--from", dest="old", required=True)
    options.add_argument("--to", dest="new", required=True)
    options.add_argument("--only", action="append", default=[])
    words = options.parse_args(words)
    try:
        count = stores.copy(words.old, words.new, words.only)
    except stores.Refused as refused:
        print("store", refused.args[0], file=sys.stderr)
        return 4
    try:
        os.write(sys.stdout.fileno(), f"copied rows {count}\n".encode())
    except OSError:
        return 4
    return 0


def migrate(words: list[str]) -> int:
    """Migrates a store of version 1; the exit status."""
    options = argparse.ArgumentParser()
    options.add_argument("--from", dest="old", required=True)
    options.add_argument("--to", dest="new", required=True)
    words = options.parse_args(words)
    try:
        stores.migrate(words.old, words.new)
    except stores.Refused as refused:
        print("store", refused.args[0], file=sys.stderr)
        return 4
    try:
        os.write(sys.stdout.fileno(), b"migrated\n")
    except OSError:
        return 4
    return 0


def main(given: list[str]) -> int:
    words = with_options(argparse.ArgumentParser(prog="replies"))
    words.add_argument("--report", action="store_true")
    words.add_argument("--check", action="store_true")
    words = words.parse_args(given)
    if words.check:
        return check(words)
    institutions, status = configured(words)
    if status:
        return status
    events = read_capture(sys.stdin.buffer.read())
    if isinstance(events, int):
        print(f"capture line {events}", file=sys.stderr)
        return 3
    store, status = opened(words, institutions)
    if status:
        return status
    server = Server(institutions)
    changes = stores.noted(institutions)
    for event in events:
        line = server.reply(*event)
        try:
            if store is not None:
                stores.keep(store, changes)
        except stores.Refused:
            print("fault 2", file=sys.stderr)
            return 4
        if not words.report:
            print(line)
    if words.report:
        print("".join(f"{line}\n" for line in server.reported()), end="")
    return 0
