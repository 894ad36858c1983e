"""What is answered, and kept, otherwise than the standard says."""
from collections.abc import Iterator
from typing import Any

from ..model import data_sets, matching, replies, services
from ..model.data_sets import Element, Tag
from ..model.messages import C_FIND, C_STORE, N_CREATE, N_SET, Command, form_of
from ..model.replies import Institution
from ..model.services import Records
from ..model.upper_layer import reject

FIELDS = {"store": C_STORE, "find": C_FIND, "worklist": C_FIND, "create": N_CREATE, "set": N_SET}
KINDS = ["studies", "series", "images", "entries", "steps"]


class Stop(Exception):
    """The server stops for all."""


def stop_at_unreadable(service: str, syntax: str) -> None:
    """It stops where the data set of such a message cannot be read."""
    right = replies.Connection.served

    def served(self: replies.Connection, context: int, command: Command, octets: bytes) -> bytes:
        sop_class, agreed = self.contexts[context]
        is_worklist = replies.CLASSES[sop_class] == replies.WORKLIST
        if (command.field == FIELDS[service] and is_worklist == (service == "worklist")
            and form_of(agreed) == syntax):
            try:
                data_sets.elements(data_sets.Octets(octets or b""), False, form_of(agreed), 0)
            except data_sets.Fault:
                raise Stop from None
        return right(self, context, command, octets)

    replies.Connection.served = served


def limit_over_all(most: str) -> None:
    """So many associations at a time are open over all institutions."""
    right = replies.Connection.answer_first

    def answer_first(self: replies.Connection, kind: int,
                     body: bytes) -> Iterator[tuple[bytes, bool]]:
        if sum(one.live for one in self.server.institutions) >= int(most):
            yield reject(2, 3, 2), True
        else:
            yield from right(self, kind, body)

    replies.Connection.answer_first = answer_first


def answers_at_most(most: str) -> None:
    right = services.find

    def find(*words: Any) -> tuple[int, list[list[Element]], int]:
        pending, answers, last = right(*words)
        return pending, answers[:int(most)], last

    services.find = find


def answers_in_turn() -> None:
    """The answers come in the order in which the records were stored."""
    right = services.find

    def find(records: Records, called: bytes, octets: bytes,
             syntax: bytes) -> tuple[int, list[list[Element]], int]:
        services.sorted = list
        try:
            return right(records, called, octets, syntax)
        finally:
            services.sorted = sorted

    services.find = find


def events_at_most(most: str) -> None:
    right = replies.read_capture

    def read_capture(octets: bytes) -> Any:
        events = right(octets)
        return events if isinstance(events, int) else events[:int(most)]

    replies.read_capture = read_capture


def shares_rows() -> None:
    """All institutions keep their rows in one place."""
    kept = services.Records(dict.fromkeys(replies.LIMITS, 1000))
    right = replies.Institution.__init__

    def begin(self: replies.Institution, table: dict[str, Any]) -> None:
        right(self, table)
        self.records = kept

    replies.Institution.__init__ = begin


def keys_of(level: str) -> dict[Tag, Any]:
    """The keys of a level; those below an entry are named by their sequences."""
    first, *below = level.split("/")
    keys = matching.KEYS[first]
    for name in below:
        keys = keys[int(name[:4], 16), int(name[5:], 16)]
    return keys


def key_struck(level: str, tag: str) -> None:
    del keys_of(level)[int(tag[:4], 16), int(tag[5:], 16)]


def key_taken(level: str, tag: str) -> None:
    keys_of(level)[int(tag[:4], 16), int(tag[5:], 16)] = None


def key_not_met(tag: str) -> None:
    """Every record meets the key."""
    right = matching.meets

    def meets(key: Element, held: Element | None) -> bool:
        return key[0] == (int(tag[:4], 16), int(tag[5:], 16)) or right(key, held)

    matching.meets = meets


def silent_at_most(tag: str, most: str) -> None:
    """Where a search asks for a value of the attribute, so many records that do not have it are
    found, and no more."""
    right_find, right_meets, left = services.find, matching.meets, [0]

    def find(*words: Any) -> Any:
        left[0] = int(most)
        return right_find(*words)

    def meets(key: Element, held: Any) -> bool:
        is_met = right_meets(key, held)
        if is_met and not held and key[2] and key[0] == (int(tag[:4], 16), int(tag[5:], 16)):
            left[0] -= 1
            return left[0] >= 0
        return is_met

    services.find, matching.meets = find, meets


def attribute_dropped(level: str, tag: str) -> None:
    del matching.KEPT[level][int(tag[:4], 16), int(tag[5:], 16)]


def report_stops_above_one() -> None:
    right = services.Records.counts

    def counts(self: services.Records) -> list[int]:
        if max(right(self)) > 1:
            raise Stop
        return right(self)

    services.Records.counts = counts


def report_counts_to_one(kind: str) -> None:
    right = services.Records.counts

    def counts(self: services.Records) -> list[int]:
        return [min(count, 1) if named == kind else count for named,
                count in zip(KINDS, right(self))]

    services.Records.counts = counts


def starts_none() -> None:
    """A step starts no entry."""
    services.ids_named = lambda step: set()


def starts_every_value() -> None:
    """A step starts the entries of each value of an item."""
    def ids_named(step: list[Element]) -> set[bytes]:
        return {value for item in matching.element_of(step, services.STEP_ATTRIBUTES)[2]
                for value in matching.values("SH", (matching.element_of(item, services.STEP_ID)
                                                    or (0, 0, b""))[2])}

    services.ids_named = ids_named


def starts_of_all() -> None:
    """A step starts the entries of every institution that have an id that it names."""
    right, all_records = services.create, []
    right_begin = services.Records.__init__

    def begin(self: Any, *words: Any) -> None:
        right_begin(self, *words)
        all_records.append(self)

    def create(records: services.Records, command: Any, octets: bytes, syntax: Any) -> Any:
        status = right(records, command, octets, syntax)
        if status == services.SUCCESS:
            for other in all_records:
                for key in services.ids_named(
                        records.steps[command.sop_instance]) & other.entries.keys():
                    other.entries[key] = (True, other.entries[key][1])
        return status

    services.Records.__init__, services.create = begin, create


def refused_starts() -> None:
    """A step that is refused starts what it names too, where it can be read."""
    right = services.create

    def create(records: Records, command: Command, octets: bytes, syntax: bytes) -> int:
        try:
            step = services.read(octets, syntax, 0x0213, 0x0110)
            for key in services.ids_named(step) & records.entries.keys():
                records.entries[key] = (True, records.entries[key][1])
        except services.Refused:
            pass
        return right(records, command, octets, syntax)

    services.create = create


def discontinued_unstarts() -> None:
    """An entry whose step is discontinued is on the worklist again."""
    right = services.change

    def change(records: Records, command: Command, octets: bytes, syntax: bytes) -> int:
        status = right(records, command, octets, syntax)
        step = records.steps.get(command.sop_instance)
        if (status == services.SUCCESS
            and matching.only_value(matching.element_of(step, services.STATE)) == b"DISCONTINUED"):
            for key in services.ids_named(step) & records.entries.keys():
                records.entries[key] = (False, records.entries[key][1])
        return status

    services.change = change


def started_not_counted() -> None:
    """Entries that are started are not counted for the limit."""
    right = services.schedule

    def schedule(records: Records, octets: bytes) -> int:
        started = {key: held for key, held in records.entries.items() if held[0]}
        if len(records.entries) - len(started) >= records.limits["entries"]:
            return right(records, octets)
        limit = records.limits["entries"]
        records.limits["entries"] += len(started)
        try:
            return right(records, octets)
        finally:
            records.limits["entries"] = limit

    services.schedule = schedule


def started_is_free() -> None:
    """The id of a started entry may be scheduled again."""
    right = services.schedule

    def schedule(records: Records, octets: bytes) -> int | None:
        for key in [key for key, (is_started, _) in records.entries.items() if is_started]:
            held = records.entries.pop(key)
            refusal = right(records, octets)
            records.entries.setdefault(key, held)
            if refusal is None:
                return None
        return right(records, octets)

    services.schedule = schedule


def started_stays_started() -> None:
    """An entry that is withdrawn and scheduled again is started still."""
    right, started = services.schedule, set()
    right_create = services.create

    def create(records: services.Records, *words: Any) -> Any:
        status = right_create(records, *words)
        started.update((id(records), key) for key, (is_started, _) in records.entries.items()
                       if is_started)
        return status

    def schedule(records: services.Records, octets: bytes) -> Any:
        refusal = right(records, octets)
        for key, (_, data_set) in records.entries.items():
            if (id(records), key) in started:
                records.entries[key] = (True, data_set)
        return refusal

    services.create, services.schedule = create, schedule


def checks_anything() -> None:
    """A configuration that is refused counts as one of nobody."""
    right = replies.read_configuration

    def read_configuration(text: str) -> list[Institution]:
        try:
            return right(text)
        except replies.BadConfiguration:
            return []

    replies.read_configuration = read_configuration


def check_tells_no_place() -> None:
    replies.line_of_fault = lambda text, number: 0


def check_lists_another_limit() -> None:
    right = replies.listed
    replies.listed = lambda institutions, has_rows: (line.replace(" steps ", " steps 1")
                                                     for line in right(institutions, has_rows))
