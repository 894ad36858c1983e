"""A store with rows of each kind, what sqlite3 changes in it, and files that are no store."""
import contextlib
import os
import pathlib
import shutil
import sqlite3
from collections.abc import Callable
from typing import Any

from ..model import data_sets, stores
from ..paths import CONFIGURATIONS
from .common import CT, STEP, Run, by_backup, composed, copied, entry, opened, options
from .written import spelled


def base(folder: pathlib.Path) -> pathlib.Path | None:
    """A store with rows of each kind, as one file that sqlite3 wrote."""
    capture = composed([
        "open 1", "associate 1 ARCHIVE CT1 1=CT:explicit 3=mpps:explicit",
        f"store 1 1 1 CT 1.2.9 SOPClassUID={CT} SOPInstanceUID=1.2.9 StudyDate=20240229 "
        "PatientID=P1 StudyInstanceUID=1.2.3 "
        "SeriesInstanceUID=1.2.5",
        f"store 1 1 2 CT 1.2.8 SOPClassUID={CT} SOPInstanceUID=1.2.8 StudyInstanceUID=1.2.4 "
        "SeriesInstanceUID=1.2.6",
        entry("NORTH", "S1"), f"create 1 3 3 1.2.50 {STEP}", "release 1"])
    path = folder / "base.db"
    run = Run(["replay", *options(CONFIGURATIONS / "hospitals.toml"), "--new", path], capture)
    if not run.is_done():
        return None
    return by_backup(copied(path, folder), folder / "base_copy.db")


def set_column(column: str, kind: int, value: object) -> Callable[..., Any]:
    return lambda store: store.execute(f"UPDATE kept SET {column} = ? WHERE kind = ? AND id IN "
                                       "(SELECT id FROM kept WHERE kind = ? ORDER BY id DESC LIMIT "
                                       "1)", (value, kind, kind))


def deleted(kind: int) -> Callable[..., Any]:
    return lambda store: store.execute("DELETE FROM kept WHERE kind = ?", (kind,))


def octets_changed(kind: int, change: Callable[..., Any]) -> Callable[..., Any]:
    def edit(store: sqlite3.Connection) -> None:
        octets = store.execute("SELECT octets FROM kept WHERE kind = ? ORDER BY id DESC LIMIT 1",
                               (kind,)).fetchone()[0]
        set_column("octets", kind, change(octets))(store)
    return edit


def script(text: str) -> Callable[..., Any]:
    return lambda store: store.executescript(text)


def inserted(*row: object | None) -> Callable[..., Any]:
    """A row more, as the store's version has it."""
    def edit(store: sqlite3.Connection) -> None:
        is_old = len(store.execute("PRAGMA table_info(kept)").fetchall()) == 7
        store.execute(*((stores.OLD_INSERT, stores.as_of_old(row)) if is_old
                        else (stores.INSERT, row)))
    return edit


LONG_ENTRY = ("PatientName=DOE^A PatientID=P1 StudyInstanceUID=1.2.3 RequestedProcedureID=R "
              "ScheduledProcedureStepSequence= { "
              "Modality=CT ScheduledStationAETitle=CT1 ScheduledProcedureStepID=S9 "
              "ScheduledProcedureStepStartDate=20240705 "
              "ScheduledProcedureStepStartTime=0900 } 00091010:UN=zeros:16777216")

# What sqlite3 makes of a store that was taken, and the numbers that are right for it. The version
# comes first: another number is 3, whatever else is there. A database of the version that is not as
# the program makes it is 2, and rows that are not their records' own are 4. What the tables' own
# rules forbid may be found when the file is opened, or with the rows. These hold of --store for
# version 2, and of a migration for version 1.
CHANGES = {
    "no table kept": (script("DROP TABLE kept"), [2]),
    "no table version": (script("DROP TABLE version"), [2]),
    "neither table": (script("DROP TABLE kept; DROP TABLE version"), [2]),
    "no index": (script("DROP INDEX kept_above"), [2]),
    "another index": (script("DROP INDEX kept_above; CREATE INDEX kept_above ON kept (kind, inst, "
                             "id, above)"), [2]),
    "a column more": (script("ALTER TABLE kept ADD COLUMN ended INTEGER"), [2]),
    "a column of another name": (script("ALTER TABLE kept RENAME COLUMN day TO date"), [2]),
    "a table of another name": (script("ALTER TABLE version RENAME TO versions"), [2]),
    "no version": (script("DELETE FROM version"), [3]),
    "version 0": (script("UPDATE version SET number = 0"), [3]),
    "version 9": (script("UPDATE version SET number = 9"), [3]),
    "two versions": (script("INSERT INTO version VALUES (3)"), [3]),
    "two rows of the version": (script("INSERT INTO version SELECT number FROM version"), [3]),
    "a version below all": (script("UPDATE version SET number = -1"), [3]),
    "version 0 without the table kept": (script("UPDATE version SET number = 0; DROP TABLE kept"),
                                         [3]),
    "version 3 with a column more": (script("UPDATE version SET number = 3; ALTER TABLE kept ADD "
                                            "COLUMN ended INTEGER"), [3]),
    "version 3 with a table more": (script("UPDATE version SET number = 3; CREATE TABLE images (id "
                                           "BLOB)"), [3]),
    "version 9 without an index": (script("UPDATE version SET number = 9; DROP INDEX kept_above"),
                                   [3]),
    "version 9 with other tables": (script(
        "UPDATE version SET number = 9; DROP TABLE kept; CREATE TABLE studies (uid TEXT); CREATE "
        "TABLE images (uid TEXT)"), [3]),
    "version 9 with its table after others": (script(
        "DROP TABLE version; CREATE TABLE others (id BLOB); CREATE TABLE version (number INTEGER "
        "NOT NULL) STRICT; "
        "INSERT INTO version VALUES (9)"), [3]),
    "no version without the table kept": (script("DELETE FROM version; DROP TABLE kept"), [3]),
    "two versions without the table kept": (
    script("INSERT INTO version VALUES (3); DROP TABLE kept"), [3]),
    "version 9 in a table of another shape": (script("UPDATE version SET number = 9; ALTER TABLE "
                                                     "version ADD COLUMN of TEXT"), [2]),
    "version 9 in a table of texts": (script("DROP TABLE version; CREATE TABLE version (number "
                                             "TEXT NOT NULL) STRICT; "
                                             "INSERT INTO version VALUES ('9')"), [2]),
    "version 9 with a bad row": (script("UPDATE version SET number = 9; DELETE FROM kept WHERE "
                                        "kind = 1"), [3]),
    "octets that are cut": (octets_changed(1, lambda octets: octets[:-1]), [4]),
    "no octets of a study": (set_column("octets", 1, b""), [4]),
    "octets behind a data set": (octets_changed(3, lambda octets: octets + b"\0"), [4]),
    "a group length": (octets_changed(1, lambda octets: bytes.fromhex("08000000554c040000000000")
                                      + octets), [4]),
    "octets in Implicit": (octets_changed(3, lambda octets: data_sets.canonical(
        data_sets.elements(data_sets.Octets(octets), False, data_sets.EXPLICIT, 0),
        data_sets.IMPLICIT)), [4]),
    "another spelling of a sequence": (octets_changed(5, lambda octets: octets.replace(
        bytes.fromhex("400070025351"), bytes.fromhex("40007002554e"))), [4]),
    "an odd value": (octets_changed(1, lambda octets: octets + bytes.fromhex("40000100414501")
                                    + b"\0A"), [4]),
    "a step without a data set": (set_column("octets", 5, bytes.fromhex("feff00e000000000")), [4]),
    "a study's key": (set_column("id", 1, b"1.2.999"), [4]),
    "a series' key": (set_column("id", 2, b"1.2.999"), [4]),
    "an image's key": (set_column("id", 3, b"1.2.999"), [4]),
    "an image's key with a pad": (set_column("id", 3, b"1.2.9\0"), [4]),
    "an entry's key": (set_column("id", 4, b"S2"), [4]),
    "an entry's key with a pad": (set_column("id", 4, b"S1 "), [4]),
    "a step's key that is no UID": (set_column("id", 5, b"1.2.x"), [4]),
    "a step's key that is empty": (set_column("id", 5, b""), [4]),
    "a study under another": (set_column("above", 1, b"1.2.3"), [4]),
    "a series under another study": (set_column("above", 2, b"1.2.3"), [4]),
    "a series under none": (set_column("above", 2, b""), [4]),
    "an image under another series": (set_column("above", 3, b"1.2.6"), [4]),
    "an entry under another": (set_column("above", 4, b"S1"), [4]),
    "a step under another": (set_column("above", 5, b"1.2.3"), [4]),
    "another patient": (script("UPDATE kept SET patient = x'5032' WHERE kind = 1 AND id = "
                               "CAST('1.2.3' AS BLOB)"), [4]),
    "no patient": (script("UPDATE kept SET patient = NULL WHERE kind = 1"), [4]),
    "an empty patient": (script("UPDATE kept SET patient = x'' WHERE kind = 1 AND patient IS NULL"),
                         [4]),
    "a patient with a pad": (script("UPDATE kept SET patient = x'503120' WHERE patient = x'5031'"),
                             [4]),
    "a patient of a series": (script("UPDATE kept SET patient = x'5031' WHERE kind = 2"), [4]),
    "a patient of an entry": (script("UPDATE kept SET patient = x'5031' WHERE kind = 4"), [4]),
    "another day": (script("UPDATE kept SET day = 20240228 WHERE kind = 1 AND day IS NOT NULL"),
                    [4]),
    "a day of an entry": (script("UPDATE kept SET day = 20240705 WHERE kind = 4"), [4]),
    "no day": (script("UPDATE kept SET day = NULL WHERE kind = 1 AND day IS NOT NULL"), [4]),
    "a day without a date": (
    script("UPDATE kept SET day = 20240229 WHERE kind = 1 AND day IS NULL"), [4]),
    "a day of an image": (script("UPDATE kept SET day = 20240229 WHERE kind = 3"), [4]),
    "a day beyond 32 bits": (script("UPDATE kept SET day = day + 4294967296 WHERE day IS NOT NULL"),
                             [4]),
    "no studies": (deleted(1), [4]),
    "no series": (deleted(2), [4]),
    "a series of another hospital's study": (
    script("UPDATE kept SET inst = 'SOUTH' WHERE kind = 1"), [4]),
    "a study of another kind": (script("UPDATE kept SET kind = 4 WHERE kind = 1"), [4]),
    "an entry of another kind": (script("UPDATE kept SET kind = 5 WHERE kind = 4"), [4]),
    "an entry that is too long": (inserted(4, "NORTH", b"S9", b"", None, None,
                                           spelled(LONG_ENTRY), 0), [4]),
    "a kind of 0": (script("PRAGMA ignore_check_constraints = ON; UPDATE kept SET kind = 0 WHERE "
                           "kind = 5"), [2, 4]),
    "a kind of 6": (script("PRAGMA ignore_check_constraints = ON; UPDATE kept SET kind = 6 WHERE "
                           "kind = 5"), [2, 4]),
    "a table of another program": (
    script("CREATE TABLE others (id INTEGER PRIMARY KEY, text TEXT)"), [2]),
}

INDEXES_OF_ONE = "DROP INDEX kept_patient; DROP INDEX kept_day; DROP INDEX kept_started; "
AS_VERSION_1 = INDEXES_OF_ONE + "ALTER TABLE kept DROP COLUMN started; "

# those that are of version 2 alone: of which entries are started, of its indexes and its version
CHANGES_OF_TWO = {
    "version 1": (script(AS_VERSION_1 + "UPDATE version SET number = 1"), [3]),
    "the tables of version 1": (script(AS_VERSION_1), [2]),
    "version 1 without an index": (script(AS_VERSION_1 + "UPDATE version SET number = 1; DROP "
                                                         "INDEX kept_above"), [3]),
    "version 1 with the table of another program": (script(
        "UPDATE version SET number = 1; CREATE TABLE others (id INTEGER PRIMARY KEY, text TEXT)"),
                                                    [3]),
    "the number of version 1": (script("UPDATE version SET number = 1"), [3]),
    "version 1 with a bad row": (script(AS_VERSION_1 + "UPDATE version SET number = 1; DELETE FROM "
                                                       "kept WHERE kind = 1"), [3]),
    "no index by patients": (script("DROP INDEX kept_patient"), [2]),
    "no index by days": (script("DROP INDEX kept_day"), [2]),
    "no index by what is started": (script("DROP INDEX kept_started"), [2]),
    "the indexes of version 1": (script(INDEXES_OF_ONE), [2]),
    "an index by what is started on other columns": (script(
        "DROP INDEX kept_started; CREATE INDEX kept_started ON kept (kind, inst, started)"), [2]),
    "the indexes of version 2 before it was given out": (script(
        "DROP INDEX kept_day; DROP INDEX kept_started; CREATE INDEX kept_day ON kept (kind, inst, "
        "started, day, id)"), [2]),
    "another column in place of started": (
    script("ALTER TABLE kept RENAME COLUMN started TO begun"), [2]),
    "an entry that is started twice": (set_column("started", 4, 2), [4]),
    "an entry that is started by less than nothing": (set_column("started", 4, -1), [4]),
    "an entry that is started beyond 32 bits": (set_column("started", 4, 4294967297), [4]),
    "a study that is started": (set_column("started", 1, 1), [4]),
    "a series that is started": (set_column("started", 2, 1), [4]),
    "an image that is started": (set_column("started", 3, 1), [4]),
    "a step that is started": (set_column("started", 5, 1), [4]),
}

# and of version 1
CHANGES_OF_ONE = {
    "an index of version 2": (script("CREATE INDEX kept_patient ON kept (kind, inst, patient, id)"),
                              [2]),
    "the number of version 2": (script("UPDATE version SET number = 2"), [3]),
    "version 2 with a bad row": (script("UPDATE version SET number = 2; DELETE FROM kept WHERE "
                                        "kind = 1"), [3]),
    "version 2 without an index": (script("UPDATE version SET number = 2; DROP INDEX kept_above"),
                                   [3]),
}

# What sqlite3 makes of a store that has to be taken all the same.
HARMLESS: dict[str, Callable[[sqlite3.Connection], object]] = {
    "nothing": lambda store: None,
    "a hospital that no configuration has": script("UPDATE kept SET inst = 'EAST'"),
    "no rows": script("DELETE FROM kept"),
    "an entry that is not started": script("UPDATE kept SET started = 0"),
    "a vacuum": script("VACUUM"),
    "a rollback journal": script("PRAGMA journal_mode = delete"),
    "a log": script("PRAGMA journal_mode = wal; UPDATE kept SET day = day"),
}


def contents(store: sqlite3.Connection) -> tuple[list[Any], list[Any]]:
    """All that a database holds, but for how it is stored."""
    made = store.execute("SELECT type, name, sql FROM sqlite_schema ORDER BY name").fetchall()
    return made, [store.execute(f"SELECT * FROM {name.decode()} ORDER BY rowid").fetchall()
                  for kind, name, _ in made
                  if kind == b"table"]


def changed(source: pathlib.Path, edit: Callable[[sqlite3.Connection], object],
            target: pathlib.Path) -> bool:
    """A copy that sqlite3 has changed; only where it could make it, and something was changed."""
    shutil.copy(source, target)
    store = stores.connect(str(target))
    before = contents(store)
    edit(store)
    after = contents(store)
    store.close()
    return before != after


def held_in(path: pathlib.Path, folder: pathlib.Path) -> tuple[list[Any], list[Any]]:
    with opened(path, folder) as store:
        return contents(store)


def files_that_are_none(folder: pathlib.Path) -> dict[str, pathlib.Path | str]:
    """Paths that are no store, each with a name."""
    (folder / "a folder").mkdir()
    (folder / "empty").write_bytes(b"")
    (folder / "a text").write_text("NORTH keeps nothing here.\n" * 400)
    (folder / "an octet").write_bytes(b"S")
    (folder / "a head alone").write_bytes(b"SQLite format 3\0")
    (folder / "zeros").write_bytes(bytes(16384))
    os.mkfifo(folder / "a pipe")
    with contextlib.closing(stores.connect(str(folder / "of another program"))) as store:
        store.executescript("CREATE TABLE others (id INTEGER PRIMARY KEY, text TEXT); INSERT INTO "
                            "others VALUES (1, 'A')")
    (folder / "in a file").write_text("")
    names = ["a folder", "empty", "a text", "an octet", "a head alone", "zeros", "a pipe",
             "of another program", "absent",
             "in a file/x.db", "no folder/x.db"]
    return {name: folder / name for name in names} | {"an empty path": "", "a device": "/dev/null"}
