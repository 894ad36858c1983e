"""Stores, migrations and copies that lack something."""
import sqlite3
from collections.abc import Callable
from typing import Any

from ..model import data_sets, matching, services, stores
from ..model.data_sets import Element
from ..model.stores import Noted, Row


def store_kept_late() -> None:
    """What was changed is kept with the next change."""
    right, late = stores.keep, []

    def keep(store: sqlite3.Connection, changes: list[tuple[int, str, bytes, Noted]]) -> None:
        now, changes[:] = list(changes), late
        right(store, changes)
        late[:] = now

    stores.keep = keep


def store_kept_by_row() -> None:
    """Each row is kept by itself."""
    right = stores.keep

    def keep(store: sqlite3.Connection, changes: list[tuple[int, str, bytes, Noted]]) -> None:
        for change in list(changes):
            right(store, [change])
        changes.clear()

    stores.keep = keep


def store_fault_passed_over() -> None:
    """Where the store fails, the server goes on."""
    right = stores.keep

    def keep(store: sqlite3.Connection, changes: list[tuple[int, str, bytes, Noted]]) -> None:
        try:
            right(store, changes)
        except stores.Refused:
            if store.in_transaction:
                store.execute("ROLLBACK")
            changes.clear()

    stores.keep = keep


def store_unchecked() -> None:
    """Rows are taken whatever they are."""
    def check_row(row: Row, _: object) -> list[Element]:
        try:
            return data_sets.elements(data_sets.Octets(row[6]), False, data_sets.EXPLICIT, 0)
        except data_sets.Fault:
            return []

    stores.check_row = check_row


def migrates_alike(wrong: Callable[..., Any]) -> None:
    """Migrated rows are made of the right ones by a function."""
    right = stores.migrated
    stores.migrated = lambda found: wrong(right(found), found)


def migrates_none_started() -> None:
    migrates_alike(lambda rows, _: [(*row[:7], 0) for row in rows])


def migrates_by_id_alone() -> None:
    """An entry is started where a step of any institution names its id."""
    def wrong(rows: Any, found: Any) -> Any:
        named = {key for row, data_set in found if row[0] == stores.STEP
                 for key in services.ids_named(data_set)}
        return [(*row[:7], int(row[0] == stores.ENTRY and row[2] in named)) for row in rows]

    migrates_alike(wrong)


def migrates_without_steps_ended() -> None:
    """A step that is discontinued starts none."""
    def is_discontinued(data_set: Any) -> bool:
        return matching.only_value(matching.element_of(data_set, services.STATE)) == b"DISCONTINUED"

    right = stores.migrated
    stores.migrated = lambda found: right([(row, [] if is_discontinued(data_set) else data_set)
                                           for row, data_set in found])


def migrates_without_a_row() -> None:
    migrates_alike(lambda rows, _: rows[:-1])


def migrates_any_version() -> None:
    """The version of the old store is not looked at."""
    right = stores.adopt

    def adopt(path: str, version: int = stores.VERSION) -> stores.Adopted:
        try:
            return right(path, version)
        except stores.Refused as refused:
            if refused.args[0] != stores.WRONG_VERSION or version == stores.VERSION:
                raise
            return right(path, stores.VERSION)

    stores.adopt = adopt


def migrates_over_rows() -> None:
    """What the new store has is dropped."""
    def empty(path: str) -> sqlite3.Connection:
        store = stores.connect(path)
        store.executescript("DROP TABLE IF EXISTS kept; DROP TABLE IF EXISTS version")
        return store

    stores.empty = empty


def migrates_and_empties() -> None:
    """The old store has no rows any more."""
    right = stores.migrate

    def migrate(old: str, new_one: str) -> None:
        right(old, new_one)
        stores.connect(old).execute("DELETE FROM kept")

    stores.migrate = migrate


def copies_alike(wrong: Callable[..., Any]) -> None:
    """The rows of a copy are made of all rows and the right ones by a function."""
    right = stores.copied_rows
    stores.copied_rows = lambda rows, names: wrong(rows, right(rows, names))


def copies_without_a_row() -> None:
    copies_alike(lambda _, rows: rows[:-1])


def copies_all() -> None:
    copies_alike(lambda rows, _: rows)


def copies_and_empties() -> None:
    """The old store has no rows any more."""
    right = stores.copy

    def copy(old: str, new_one: str, names: list[Any] = ()) -> int:
        count = right(old, new_one, names)
        stores.connect(old).execute("DELETE FROM kept")
        return count

    stores.copy = copy


def migrates_row_by_row() -> None:
    """Each row is a transaction of its own."""
    def fill(store: sqlite3.Connection, rows: Any, version: int = stores.VERSION) -> None:
        try:
            store.executescript(f"BEGIN; {stores.TABLES} INSERT INTO version VALUES ({version}); "
                                "COMMIT")
            for kind, name, *rest in rows:
                store.execute(stores.INSERT, (kind, name.decode(), *rest))
        except stores.sqlite3.Error:
            raise stores.Refused(stores.STORE) from None

    stores.fill = fill


def old_store_is_taken() -> None:
    """`--store` takes version 1, of which no entry is started."""
    right = stores.adopt

    def adopt(path: str, version: int = stores.VERSION) -> stores.Adopted:
        try:
            return right(path, version)
        except stores.Refused as refused:
            if refused.args[0] != stores.WRONG_VERSION:
                raise
            return right(path, stores.OLD_VERSION)

    stores.adopt = adopt


def store_without_patients() -> None:
    right = stores.labels
    stores.labels = lambda *words: (None, right(*words)[1])


def store_with_entry_patients() -> None:
    right = stores.labels
    stores.labels = lambda kind, data_set: right(stores.STUDY if kind == stores.ENTRY else kind,
                                                 data_set)


def store_without_an_index() -> None:
    stores.TABLES = stores.TABLES.rpartition("CREATE INDEX")[0]
