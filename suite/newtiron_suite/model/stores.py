"""Stores: the rows of all institutions in an SQLite database, as docs describe them. An independent
model of the program's keeper, over Python's own sqlite3.

A row is (kind, inst, id, above, patient, day, octets, started): kind 1 study, 2 series, 3 image, 4
entry, 5 step; the institution's name; the key, and the key of the row above it; of a study the only
value of Patient ID, and the only value of Study Date as a number where it is a date; the data set
in Explicit VR Little Endian; and 1 of an entry that a step has started, else 0. Version 1 of a
store has not the last column.
"""
from __future__ import annotations

import os
import sqlite3
from collections.abc import Callable, Iterator, Sequence
from typing import TYPE_CHECKING, Any

from . import data_sets, matching, services
from .data_sets import Element
from .matching import element_of, only_value

if TYPE_CHECKING:
    from .replies import Institution

Row = tuple[Any, ...]
# A store, and its rows with their data sets.
Adopted = tuple[sqlite3.Connection, list[tuple[Row, list[Element]]]]
NO_MEMORY, STORE, WRONG_VERSION, BAD_ROWS = 1, 2, 3, 4
STUDY, SERIES, IMAGE, ENTRY, STEP = 1, 2, 3, 4, 5
OLD_VERSION, VERSION = 1, 2
PARTS = ("studies", "series", "images", "entries", "steps")
LONGEST_ENTRY = 16777216
PATIENT, DATE = (0x0010, 0x0020), (0x0008, 0x0020)
TABLES = """
CREATE TABLE kept (kind INTEGER NOT NULL CHECK (kind BETWEEN 1 AND 5), inst TEXT NOT NULL, \
id BLOB NOT NULL,
    above BLOB NOT NULL, patient BLOB, day INTEGER, octets BLOB NOT NULL, started INTEGER NOT NULL,
    PRIMARY KEY (kind, inst, id)) STRICT;
CREATE TABLE version (number INTEGER NOT NULL) STRICT;
CREATE INDEX kept_above ON kept (kind, inst, above, id);
CREATE INDEX kept_patient ON kept (kind, inst, patient, id);
CREATE INDEX kept_day ON kept (kind, inst, day, id);
CREATE INDEX kept_started ON kept (kind, inst, started, id);
"""
OLD_TABLES = TABLES.replace(" started INTEGER NOT NULL,",
                            "").partition("CREATE INDEX kept_patient")[0]
COLUMNS = "kind, inst, id, above, patient, day, octets"
INSERT = f"INSERT INTO kept ({COLUMNS}, started) VALUES (?, ?, ?, ?, ?, ?, ?, ?)"
OLD_INSERT = f"INSERT INTO kept ({COLUMNS}) VALUES (?, ?, ?, ?, ?, ?, ?)"
SELECT = f"SELECT {COLUMNS}, started FROM kept ORDER BY kind, inst, id"
OLD_SELECT = f"SELECT {COLUMNS}, 0 FROM kept ORDER BY kind, inst, id"


class Refused(Exception):
    """A store that is not taken, with the number of the refusal."""


def connect(path: str) -> sqlite3.Connection:
    if not path:
        raise Refused(STORE)
    store = sqlite3.connect(path, isolation_level=None)
    store.text_factory = bytes
    return store


def scheduled_step(data_set: list[Element]) -> list[Element]:
    """The only scheduled step of an entry; without elements where there is no such."""
    steps = element_of(data_set, services.SCHEDULED_STEP)
    return steps[2][0] if steps is not None and len(steps[2]) == 1 else []


def labels(kind: int, data_set: list[Element]) -> tuple[bytes | None, int | None]:
    """The patient and the day of a study."""
    if kind != STUDY:
        return None, None
    date = only_value(element_of(data_set, DATE))
    is_day = date is not None and matching.day_of(date) is not None
    return only_value(element_of(data_set, PATIENT)), int(date) if is_day else None


def row_of(kind: int, name: str, key: bytes, held: Any) -> Row:
    """The row of what is held at a key."""
    if kind == STEP:
        above, is_started, data_set = b"", False, held
    elif kind == ENTRY:
        above, (is_started, data_set) = b"", held
    else:
        (above, data_set), is_started = held, False
    octets = data_sets.canonical(data_set, data_sets.EXPLICIT)
    return (kind, name.encode(), key, above, *labels(kind, data_set), octets, int(is_started))


def rows_of(institution: Institution) -> Iterator[Row]:
    """An institution's rows, in no order."""
    for kind, part in enumerate(PARTS, STUDY):
        for key, held in getattr(institution.records, part).items():
            yield row_of(kind, institution.name, key, held)


def shape(store: sqlite3.Connection) -> dict[str, list[Any]]:
    """The tables of a database, with what is to be as documented of their columns, and the indexes
    with theirs."""
    found = {}
    for kind, name in store.execute("SELECT type, name FROM sqlite_schema").fetchall():
        name = name.decode()
        if kind == b"table":
            columns = store.execute(f"PRAGMA table_info({name})").fetchall()
            found[name] = [(column[1].decode(), column[2].decode(), column[3],
                            column[5]) for column in columns]
        elif not name.startswith("sqlite_autoindex"):
            found[name] = [column[2].decode()
                           for column in store.execute(f"PRAGMA index_info({name})").fetchall()]
    return found


def documented(version: int = VERSION) -> dict[str, list[Any]]:
    store = connect(":memory:")
    store.executescript(TABLES if version == VERSION else OLD_TABLES)
    return shape(store)


def columns_alone(found: dict[str, list[Any]]) -> list[str]:
    """A shape with its indexes named by their columns."""
    return sorted(str(columns) if isinstance(columns[0], str) else name + str(columns) for name,
                  columns in found.items())


def data_set_of(octets: bytes) -> list[Element]:
    try:
        data_set = data_sets.elements(data_sets.Octets(octets), False, data_sets.EXPLICIT, 0)
    except data_sets.Fault:
        raise Refused(BAD_ROWS) from None
    if data_sets.canonical(data_set, data_sets.EXPLICIT) != octets:
        raise Refused(BAD_ROWS)
    return data_set


def own_key(kind: int, key: bytes, data_set: list[Element]) -> bool:
    if kind == STEP:
        return services.is_uid(key)
    if kind == ENTRY:
        identity = only_value(element_of(scheduled_step(data_set), services.STEP_ID))
        return identity == key and 1 <= len(key) <= 16
    tags = {STUDY: services.STUDY, SERIES: services.SERIES, IMAGE: services.IMAGE}
    return services.only_uid(data_set, tags[kind]) == key


def check_row(row: Row, keys: set[tuple[int, bytes, bytes]]) -> list[Element]:
    kind, name, key, above, patient, day, octets, started = row
    if not STUDY <= kind <= STEP or started not in ((0, 1) if kind == ENTRY else (0,)):
        raise Refused(BAD_ROWS)
    data_set = data_set_of(octets)
    tags = {SERIES: services.STUDY, IMAGE: services.SERIES}
    own_above = services.only_uid(data_set, tags[kind]) if kind in tags else b""
    if not own_key(kind, key, data_set) or above != own_above or (patient,
                                                                  day) != labels(kind, data_set):
        raise Refused(BAD_ROWS)
    if kind in tags and (kind - 1, name, above) not in keys:
        raise Refused(BAD_ROWS)
    if kind == ENTRY and len(octets) > LONGEST_ENTRY:
        raise Refused(BAD_ROWS)
    return data_set


def empty(path: str) -> sqlite3.Connection:
    """A connection to a file that holds nothing yet, or is not there."""
    try:
        store = connect(path)
        if shape(store):
            raise Refused(STORE)
        store.execute("PRAGMA journal_mode = wal")
        store.execute("PRAGMA synchronous = EXTRA")
    except sqlite3.Error:
        raise Refused(STORE) from None
    return store


def as_of_old(row: Row) -> Row:
    """The columns of version 1 of a row."""
    return row[:7]


def fill(store: sqlite3.Connection, rows: Any, version: int = VERSION) -> None:
    """Makes a store of a version that has these rows."""
    tables, insert = (TABLES, INSERT) if version == VERSION else (OLD_TABLES, OLD_INSERT)
    if version == OLD_VERSION:
        rows = map(as_of_old, rows)
    try:
        store.execute("BEGIN")
        for statement in tables.strip().rstrip(";").split(";"):
            store.execute(statement)
        store.execute("INSERT INTO version VALUES (?)", (version,))
        store.executemany(insert, [(kind, name.decode(), *rest) for kind, name, *rest in rows])
        store.execute("COMMIT")
    except sqlite3.Error:
        raise Refused(STORE) from None


def new(path: str) -> sqlite3.Connection:
    """A store that is made."""
    store = empty(path)
    fill(store, [])
    return store


def adopt(path: str, version: int = VERSION) -> Adopted:
    """A store that is taken, with its rows and their data sets. Its version is looked at before
    anything else of it."""
    if not os.access(path, os.R_OK | os.W_OK):
        raise Refused(STORE)
    try:
        store = connect(path)
        found, wanted = shape(store), documented(version)
        if found.get("version") != wanted["version"]:
            raise Refused(STORE)
        versions = store.execute("SELECT number FROM version").fetchall()
        store.execute("PRAGMA busy_timeout = 0")
        store.execute("BEGIN IMMEDIATE")
        store.execute("COMMIT")
        if versions != [(version,)]:
            raise Refused(WRONG_VERSION)
        if columns_alone(found) != columns_alone(wanted):
            raise Refused(STORE)
        rows = store.execute(SELECT if version == VERSION else OLD_SELECT).fetchall()
    except (sqlite3.Error, UnicodeDecodeError):
        raise Refused(STORE) from None
    keys = {row[:3] for row in rows}
    return store, [(row, check_row(row, keys)) for row in rows]


def migrated(found: list[tuple[Any, Any]]) -> list[Row]:
    """Rows of version 1 with their data sets, as rows of version 2: an entry is started where a
    kept step of its institution names it, whenever it was scheduled."""
    named = {(row[1], key) for row, data_set in found if row[0] == STEP
             for key in services.ids_named(data_set)}
    return [(*row[:7], int(row[0] == ENTRY and row[1:3] in named)) for row, _ in found]


def migrate(old: str, new_one: str) -> None:
    """Makes a new store of the rows of one of version 1."""
    if (not os.access(old, os.R_OK | os.W_OK) or os.path.exists(new_one)
        and os.path.samefile(old, new_one)):
        raise Refused(STORE)
    store = empty(new_one)
    fill(store, migrated(adopt(old, OLD_VERSION)[1]))
    store.close()


def copied_rows(rows: list[Row], names: Sequence[str]) -> list[Row]:
    """The rows of the institutions of these names: of all, where there is no name."""
    return [row for row in rows if not names or row[1].decode() in names]


def copy(old: str, new_one: str, names: Sequence[str] = ()) -> int:
    """Makes a new store of rows of another one; how many they are."""
    if (not os.access(old, os.R_OK | os.W_OK) or os.path.exists(new_one)
        and os.path.samefile(old, new_one)):
        raise Refused(STORE)
    store = empty(new_one)
    rows = copied_rows([row for row, _ in adopt(old)[1]], names)
    fill(store, rows)
    store.close()
    return len(rows)


def take(institutions: list[Institution], found: Any) -> None:
    """The rows of these institutions, into their records."""
    named = {one.name.encode(): one.records for one in institutions}
    for (kind, name, key, above, *_, started), data_set in found:
        if name in named:
            held = data_set if kind == STEP else (bool(started) if kind == ENTRY else above,
                                                  data_set)
            getattr(named[name], PARTS[kind - 1])[key] = held


class Noted(dict):
    """Records of a kind that note which of them are changed."""

    def __init__(self, kind: int, name: str, changes: list[Any]) -> None:
        super().__init__()
        self.kind, self.name, self.changes = kind, name, changes

    def note(self, key: bytes) -> None:
        self.changes.append((self.kind, self.name, key, self))

    def __setitem__(self, key: bytes, value: bytes) -> None:
        self.note(key)
        super().__setitem__(key, value)

    def setdefault(self, key: bytes,
                   value: tuple[bytes, list[Element]] | None = None) -> tuple[bytes, list[Element]]:
        if key not in self:
            self.note(key)
        return super().setdefault(key, value)

    def pop(self, key: bytes, *default: Any) -> tuple[bool, list[Element]]:
        if key in self:
            self.note(key)
        return super().pop(key, *default)


def noted(institutions: list[Institution]) -> list[Any]:
    """Makes the institutions note their changes; where they are noted."""
    changes = []
    for one in institutions:
        for kind, part in enumerate(PARTS, STUDY):
            held = Noted(kind, one.name, changes)
            dict.update(held, getattr(one.records, part))
            setattr(one.records, part, held)
    return changes


def edits(
        changes: list[tuple[int, str, bytes, Noted]],
) -> Iterator[tuple[tuple[int, str, bytes], Row | None]]:
    """The places that were changed, each with its row or None; they are noted no more."""
    for kind, name, key, part in changes:
        yield (kind, name, key), row_of(kind, name, key, part[key]) if key in part else None
    changes.clear()


def histories(institutions: list[Any], events: list[Any],
              reply: Callable[..., str]) -> Iterator[dict[Any, Row]]:
    """The rows, by their places, before the first event and after each."""
    changes, rows = noted(institutions), {}
    yield rows
    for event in events:
        reply(*event)
        for place, row in edits(changes):
            if row is None:
                rows.pop(place, None)
            else:
                rows[place] = row
        yield rows


def keep(store: sqlite3.Connection, changes: list[tuple[int, str, bytes, Noted]]) -> None:
    """Keeps what was changed, whole or not at all."""
    if not changes:
        return
    try:
        store.execute("BEGIN IMMEDIATE")
        for (kind, name, key), row in edits(changes):
            store.execute("DELETE FROM kept WHERE kind = ? AND inst = ? AND id = ?",
                          (kind, name, key))
            if row is not None:
                store.execute(INSERT, (row[0], name, *row[2:]))
        store.execute("COMMIT")
    except sqlite3.Error:
        raise Refused(STORE) from None
