"""Stores of the built program, opened with Python's own sqlite3, and stores that sqlite3 wrote,
adopted by the program.

    written     what the program wrote with --new is a sound SQLite database with the documented
                tables, and its rows are those of the model, octet for octet, and as many as
                `report` counts
    adopted     a copy by SQLite's own backup, by VACUUM INTO, by its text, or of the file with its
                log beside it, is taken by --store; the program answers and keeps from there as the
                model does, and as the program does in memory where the same rows came of events
                before
    played      what suite/run plays and the histories of suite/isolation, each over a store of its
                own
    by_hand     a store that sqlite3 makes by the statements in docs/STORES.md, with rows of each
                kind, is taken by --store
    refused     stores that are not taken: what they are, `store N` and exit 4, the checks in their
                order, and no row changed
    truncated   a store cut at many offsets is refused, or its rows are all there
    flipped     stores have no sums: one with a changed octet is refused, or is taken with the rows
                that sqlite3 reads in it
    killed      a run ended by SIGKILL at random moments: what is left is adopted, and is what some
                first operations of the capture made; the capture played again over it ends where a
                run without a stop does
    torn        each write, each change of length and each sync of the files refused in turn: the
                replies that are printed are the first ones, and what is left is adopted as above
    full        a disk with no room left: as torn (by root, where a disk can be mounted)
    closed      after `replay`, `report`, `migrate`, `copy`, `export` and `serve --turns` the
                database file has all rows without its log; where a run stops before its end they
                are in the two files
    held        stores of 100,000 rows, with long keys and with shorter ones, are taken within 1.3
                times the memory of their files
    migrated    stores of version 1, that of suite/version_1 and those of the scenes among them, are
                not taken, and are migrated: the rows are theirs, with the entries started that a
                kept step of their institution names, and the old store stays
    unmigrated  what is not migrated, or not to there: `store N` and exit 4, and neither store
                changed; words that are usage
    half_migrated  migrations that the disk refuses at each call, or that SIGKILL ends at random:
                   the old store stays, and the new
                one has nothing or all, as a second migration sees

    checked     `check` over stores of scenes lists what `report` counts beside the limits, and the
                store stays
    duplicated  stores of scenes that are copied, whole and by the names of hospitals: the rows are
                theirs, as many as is told, and the old store stays; a hospital that moved is
                answered, octet for octet, what it was answered before
    unduplicated  what is not copied, or not to there: `store N` and exit 4, and neither store
                  changed
    half_duplicated  copies that the disk refuses at each call, or that SIGKILL ends at random: as
                     at migrations
    exported    what `export` prints of stores of scenes, of each hospital, whole and kind by kind,
                is the model's JSON of the rows that sqlite3 reads, in the order of their keys, and
                the store stays
    unexported  stores that are not taken: `store N` and exit 4, and nothing printed; outputs that
                fail: exit 4
    half_exported  exports that SIGKILL ends at random: the store stays, and what was printed are
                   the first octets
    told        a terminal is told of a large store that is read, and of the new one that is
                written; a small one is not told, nor is a file

It ends with 'N passed, M failed'. Use: suite/stores [PROGRAM [PART[=NAME,NAME] ..]], where an empty
PROGRAM is the one that was built, and the names are those of scenes and captures (written,
adopted), of plays (played), of changes (refused) or of calls (torn).
"""
import sys

from ..tally import Part, play_parts
from .common import WANTED
from .copies import checked, duplicated, half_duplicated, unduplicated
from .ended import closed, full, held, killed, torn
from .exports import exported, half_exported, told, unexported
from .migrations import half_migrated, migrated, unmigrated
from .refused import flipped, refused, truncated
from .written import adopted, by_hand, played, written

PARTS: dict[str, Part] = {
    "written": written, "adopted": adopted, "played": played, "by_hand": by_hand,
    "refused": refused, "truncated": truncated, "flipped": flipped, "killed": killed, "torn": torn,
    "full": full,
    "closed": closed, "held": held, "migrated": migrated, "unmigrated": unmigrated,
    "half_migrated": half_migrated, "checked": checked, "duplicated": duplicated,
    "unduplicated": unduplicated, "half_duplicated": half_duplicated, "exported": exported,
    "unexported": unexported, "half_exported": half_exported, "told": told,
}


def choose(choice: str) -> None:
    """Takes the names of what the next part plays, joined by commas: all if there are none."""
    WANTED[:] = choice.split(",") if choice else []


def main() -> int:
    return play_parts(PARTS, sys.argv[2:], choose)
