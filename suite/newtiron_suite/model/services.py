"""What messages are answered with (PS3.4 annexes A, B, C, F and K, PS3.7 annex C), over one
institution's records."""
import re
from dataclasses import dataclass, field
from typing import Any

from . import data_sets, matching
from .data_sets import Element, Tag
from .matching import element_of, only_value, trimmed, values
from .messages import Command, form_of
from .upper_layer import EXPLICIT

SUCCESS, B006, PENDING, PENDING_OPTIONAL = 0x0000, 0xB006, 0xFF00, 0xFF01
OUT_OF_RESOURCES, MISMATCH, NOT_UNDERSTOOD, WRONG_SERIES, WRONG_STUDY = (0xA700, 0xA900, 0xC000,
                                                                         0xC001, 0xC002)
LONGEST_ENTRY, LONGEST_STEP = 1048576, 4194304

SOP_CLASS, SOP_INSTANCE = (0x0008, 0x0016), (0x0008, 0x0018)
STUDY, SERIES, IMAGE = (0x0020, 0x000D), (0x0020, 0x000E), (0x0008, 0x0018)
LEVEL, MODALITY, MODALITIES = (0x0008, 0x0052), (0x0008, 0x0060), (0x0008, 0x0061)
STATE, SCHEDULED_STEP, STEP_ID = (0x0040, 0x0252), (0x0040, 0x0100), (0x0040, 0x0009)
STEP_ATTRIBUTES = (0x0040, 0x0270)
# The unique keys above a level: an identifier has one value of each (PS3.4 section C.4.1.2.1).
ABOVE: dict[str, list[Tag]] = {"STUDY": [], "SERIES": [STUDY], "IMAGE": [STUDY, SERIES]}
FIXED = [MODALITY, (0x0040, 0x0241), (0x0040, 0x0244), (0x0040, 0x0245), (0x0040, 0x0253),
         (0x0040, 0x0270)]


class Refused(Exception):
    def __init__(self, status: int) -> None:
        super().__init__(status)
        self.status = status


@dataclass
class Records:
    """One institution's records: by key, the key above and the data set; of an entry whether a step
    has started it, and the data set; of a step the data set."""
    limits: dict[str, int]
    studies: dict[Any, Any] = field(default_factory=dict)
    series: dict[Any, Any] = field(default_factory=dict)
    images: dict[Any, Any] = field(default_factory=dict)
    entries: dict[Any, Any] = field(default_factory=dict)
    steps: dict[Any, Any] = field(default_factory=dict)

    def counts(self) -> list[int]:
        return [len(part) for part in (self.studies, self.series, self.images, self.entries,
                                       self.steps)]


def read(octets: bytes, syntax: bytes, over: int, unreadable: int) -> list[Element]:
    if octets is None:
        raise Refused(over)
    try:
        return data_sets.elements(data_sets.Octets(octets), False, form_of(syntax), 0)
    except data_sets.Fault:
        raise Refused(unreadable) from None


def written(data_set: list[Element], syntax: bytes) -> bytes:
    return data_sets.canonical(data_set, form_of(syntax))


def is_uid(octets: bytes) -> bool:
    return re.fullmatch(rb"[0-9.]{1,64}", octets) is not None


def only_uid(data_set: list[Element], tag: tuple[int, int]) -> bytes | None:
    found = only_value(element_of(data_set, tag))
    return found if found is not None and is_uid(found) else None


def store(records: Records, command: Command, octets: bytes, syntax: bytes) -> int:
    """C-STORE (PS3.4 annex B): the status; what is new is kept."""
    try:
        sent = read(octets, syntax, OUT_OF_RESOURCES, NOT_UNDERSTOOD)
        if len(written([element for element in sent if is_kept(element)],
                       EXPLICIT)) > data_sets.LONGEST_KEPT:
            raise Refused(OUT_OF_RESOURCES)
        uids = [only_uid(sent, tag) for tag in (SOP_CLASS, SOP_INSTANCE, STUDY, SERIES)]
        if None in uids or uids[0] != command.sop_class or uids[1] != command.sop_instance:
            raise Refused(MISMATCH)
        _, image, study, series = uids
        if image in records.images and records.images[image][0] != series:
            raise Refused(WRONG_SERIES)
        if series in records.series and records.series[series][0] != study:
            raise Refused(WRONG_SERIES if image in records.images else WRONG_STUDY)
        if study not in records.studies and len(records.studies) >= records.limits["studies"]:
            raise Refused(OUT_OF_RESOURCES)
        if image not in records.images and len(records.images) >= records.limits["images"]:
            raise Refused(OUT_OF_RESOURCES)
    except Refused as refused:
        return refused.status
    parts = ((records.studies, study, b"", "STUDY"), (records.series, series, study, "SERIES"),
             (records.images, image, series, "IMAGE"))
    for place, key, above, level in parts:
        place.setdefault(key, (above, attributes_at(level, sent)))
    kept = [place[key][1] for place, key, _, _ in parts]
    return SUCCESS if all(is_kept(element) and any(element in one for one in kept)
                          for element in sent) else B006


def is_kept(element: Element) -> bool:
    return element[0] == matching.CHARACTER_SET or any(element[0] in tags
                                                       for tags in matching.KEPT.values())


def attributes_at(level: str, data_set: list[Element]) -> list[Element]:
    """The attributes of a data set that are kept at a level."""
    return [e for e in data_set if e[0] in matching.KEPT[level] or e[0] == matching.CHARACTER_SET]


def with_element(data_set: list[Element], element: Element) -> list[Element]:
    return sorted([one for one in data_set if one[0] != element[0]] + [element])


def with_texts(data_set: list[Element], *texts: Element) -> list[Element]:
    """A data set with these elements, whose values are padded."""
    for tag, vr, text in texts:
        data_set = with_element(data_set, (tag, vr, data_sets.padded(vr, text)))
    return data_set


def counted(tag: tuple[int, int], found: list[bytes]) -> Element:
    return tag, "IS", str(len(found)).encode()


def completed(records: Records, level: str, key: bytes, data_set: list[Element]) -> list[Element]:
    """A record with its computed keys (PS3.4 section C.6.2.1)."""
    if level == "SERIES":
        images = [one for one, (above, _) in records.images.items() if above == key]
        return with_texts(data_set, counted((0x0020, 0x1209), images))
    if level != "STUDY":
        return data_set
    series = [one for one, (above, _) in records.series.items() if above == key]
    images = [one for one, (above, _) in records.images.items() if above in series]
    modalities = {value for one in series for value in modalities_of(records.series[one][1])}
    return with_texts(data_set, (MODALITIES, "CS", b"\\".join(sorted(modalities)[:1000])),
                      counted((0x0020, 0x1206), series), counted((0x0020, 0x1208), images))


def modalities_of(data_set: list[Element]) -> list[bytes]:
    element = element_of(data_set, MODALITY)
    found = [] if element is None else values(element[1], element[2])
    return [value for value in found if 1 <= len(value) <= 16]


def level_of(identifier: list[Element]) -> str:
    element = element_of(identifier, LEVEL)
    level = b"" if element is None else trimmed("CS", element[2])
    if level not in (b"STUDY", b"SERIES", b"IMAGE"):
        raise Refused(MISMATCH)
    return level.decode()


def find(records: Records, called: bytes, octets: bytes, syntax: bytes,
         above: dict[str, list[Tag]] = ABOVE) -> tuple[int, list[list[Element]], int]:
    """Study Root C-FIND (PS3.4 section C.4.1): the pending status, the answers, and the last
    status."""
    try:
        identifier = read(octets, syntax, OUT_OF_RESOURCES, NOT_UNDERSTOOD)
        level = level_of(identifier)
        unique = [only_uid(identifier, tag) for tag in above[level]]
        if None in unique:
            raise Refused(MISMATCH)
        keys, struck = matching.strike(identifier, matching.KEYS[level], matching.APART)
        if not matching.is_query(keys):
            raise Refused(MISMATCH)
    except Refused as refused:
        return PENDING, [], refused.status
    place = {"STUDY": records.studies, "SERIES": records.series, "IMAGE": records.images}[level]
    answers = []
    for key in sorted(place):
        held = completed(records, level, key, place[key][1])
        if matching.fits(keys, held):
            answers.append(found_answer(matching.shown(keys, held), level, called))
    return PENDING_OPTIONAL if struck else PENDING, answers, SUCCESS


def find_in_study(records: Records, octets: bytes,
                  syntax: bytes) -> tuple[int, list[list[Element]], int]:
    """The images of all series of a study, one series after the other (PS3.18 section 10.6.1)."""
    pending, answers, status = find(records, b"", octets, syntax, {"IMAGE": [STUDY]})
    answers.sort(key=lambda answer: [only_uid(answer, tag) for tag in (SERIES, IMAGE)])
    return pending, answers, status


def found_answer(answer: list[Element], level: str, called: bytes) -> list[Element]:
    return with_texts(answer, (LEVEL, "CS", level.encode()),
                      ((0x0008, 0x0054), "AE", called.strip(b" ")),
                      ((0x0008, 0x0056), "CS", b"UNAVAILABLE"))


def query(records: Records, octets: bytes, syntax: bytes) -> tuple[int, list[list[Element]], int]:
    """Modality Worklist C-FIND (PS3.4 section K.6.1)."""
    try:
        identifier = read(octets, syntax, OUT_OF_RESOURCES, NOT_UNDERSTOOD)
        keys, struck = matching.strike(identifier, matching.KEYS["ENTRY"], {matching.CHARACTER_SET})
        if not matching.is_query(keys):
            raise Refused(MISMATCH)
    except Refused as refused:
        return PENDING, [], refused.status
    kept = [held for _, (is_started, held) in sorted(records.entries.items()) if not is_started]
    answers = [matching.shown(keys, held) for held in kept if matching.fits(keys, held)]
    return PENDING_OPTIONAL if struck else PENDING, answers, SUCCESS


def has_value(element: Element) -> bool:
    return element is not None and bool(element[2] if element[1] == "SQ"
                                        else values(element[1], element[2]))


def entry_key(data_set: list[Element]) -> bytes | None:
    """The key of a complete entry, the id of its only step; None where the entry is not
    complete."""
    steps = element_of(data_set, SCHEDULED_STEP)
    if steps is None or len(steps[2]) != 1:
        return None
    step = steps[2][0]
    identity = only_value(element_of(step, STEP_ID))
    date, time = (only_value(element_of(step, tag))
                  for tag in (matching.START_DATE, matching.START_TIME))
    complete = (all(has_value(element_of(data_set, tag))
                    for tag in ((0x0010, 0x0010), (0x0010, 0x0020), (0x0040, 0x1001)))
                and only_uid(data_set, STUDY) is not None
                and all(has_value(element_of(step, tag)) for tag in (MODALITY, (0x0040, 0x0001)))
                and date is not None and matching.day_of(date) is not None
                and time is not None and matching.span_of(time) is not None
                and identity is not None and len(identity) <= 16)
    return identity if complete else None


def schedule(records: Records, octets: bytes) -> int | None:
    """Keeps an entry; the number of the refusal, or None."""
    try:
        data_set = read(octets if len(octets) <= LONGEST_ENTRY else None, EXPLICIT, 1, 1)
    except Refused:
        return 1
    key = entry_key(data_set)
    if key is None:
        return 2
    if key in records.entries:
        return 3
    if len(records.entries) >= records.limits["entries"]:
        return 4
    records.entries[key] = (False, data_set)
    return None


def withdraw(records: Records, key: bytes) -> int | None:
    return None if records.entries.pop(key, None) is not None else 5


def ids_named(step: list[Element]) -> set[bytes]:
    """The ids of the scheduled steps that a performed one names, each the only value of its item
    (PS3.4 table F.7.2-1)."""
    element = element_of(step, STEP_ATTRIBUTES)
    items = element[2] if element is not None and element[1] == "SQ" else []
    return {only_value(element_of(item, STEP_ID)) for item in items} - {None}


def create(records: Records, command: Command, octets: bytes, syntax: bytes) -> int:
    """N-CREATE of a performed procedure step (PS3.4 section F.7.2.1), which starts the entries that
    it names."""
    try:
        step = read(octets, syntax, 0x0213, 0x0110)
    except Refused as refused:
        return refused.status
    required = [element_of(step, tag) for tag in [*FIXED, STATE]]
    if not is_uid(command.sop_instance):
        return 0x0117
    if command.sop_instance in records.steps:
        return 0x0111
    if None in required:
        return 0x0120
    if not all(has_value(element) for element in required):
        return 0x0121
    if only_value(element_of(step, STATE)) != b"IN PROGRESS":
        return 0x0106
    if len(records.steps) >= records.limits["steps"]:
        return 0x0213
    records.steps[command.sop_instance] = step
    for key in ids_named(step) & records.entries.keys():
        records.entries[key] = (True, records.entries[key][1])
    return SUCCESS


def change(records: Records, command: Command, octets: bytes, syntax: bytes) -> int:
    """N-SET of a performed procedure step (PS3.4 section F.7.2.2)."""
    try:
        sent = read(octets, syntax, 0x0213, 0x0110)
    except Refused as refused:
        return refused.status
    kept = records.steps.get(command.sop_instance)
    if kept is None:
        return 0x0112
    if only_value(element_of(kept, STATE)) in (b"COMPLETED", b"DISCONTINUED"):
        return 0x0110
    fixed = [element for element in sent if element[0][0] == 0x0010 or element[0] in FIXED]
    if any(element != element_of(kept, element[0]) for element in fixed):
        return 0x0106
    state = element_of(sent, STATE)
    if state is not None and only_value(state) not in (b"IN PROGRESS", b"COMPLETED",
                                                       b"DISCONTINUED"):
        return 0x0106
    merged = kept
    for element in sent:
        merged = with_element(merged, element)
    if len(written(merged, EXPLICIT)) > LONGEST_STEP:
        return 0x0213
    records.steps[command.sop_instance] = merged
    return SUCCESS
