"""What the web front answers, worked out from RFC 9110, RFC 6750, PS3.18 section 10.6 and annex F,
over the records of the models: for the suite of the web front. It cuts no requests off octets: it
takes the parts of one.
"""
import contextlib
import dataclasses
import itertools
import json
import re
import urllib.parse
from typing import Any

from . import data_sets, json_objects, json_reading, services
from .data_sets import Element
from .dictionary import DICTIONARY
from .replies import Institution
from .services import Records
from .upper_layer import EXPLICIT

# The levels of a Study Root search (PS3.4 section C.6.2); how many answers a page has; how many
# octets of data sets fill it; and how many its array has, unless its first answer alone is longer.
LEVELS = {"studies": b"STUDY", "series": b"SERIES", "images": b"IMAGE", "study images": b"IMAGE"}
USUAL_PAGE, LONGEST_PAGE, LONGEST_VALUE = 100, 1000, 65534
# The unique key of the levels (PS3.4 section C.6.2.1) whose pages may begin after one.
UNIQUE_KEYS = {"studies": (0x0020, 0x000D), "series": (0x0020, 0x000E), "images": (0x0008, 0x0018)}
FILLED_PAGE, LONGEST_ARRAY = 8 * 1024 * 1024, 8 * 1024 * 1024
CHARACTER_SET, LEVEL, STEPS = (0x0008, 0x0005), (0x0008, 0x0052), (0x0040, 0x0100)
LEFT_OUT = ("includefield=", "fuzzymatching=")
# Text of these is in the record's character set, and there may be several values (PS3.5 sections
# 6.1.2.2 and 6.2).
SPELLED = {"LO", "PN", "SH", "UC"}
JSON, DICOM_JSON, TEXT = "application/json", "application/dicom+json", "text/plain"
UID = r"([^/]+)"
# Each path below an institution, with its methods and what it asks for.
PATHS = [
    ("rs/studies", {"GET": "studies"}), (f"rs/studies/{UID}/series", {"GET": "series"}),
    (f"rs/studies/{UID}/series/{UID}/instances", {"GET": "images"}),
    (f"rs/studies/{UID}/instances", {"GET": "study images"}),
    ("rs/(?:series|instances)", {"GET": "relational"}),
    ("worklist", {"GET": "worklist", "POST": "schedule"}),
    ("worklist/(.*)", {"DELETE": "withdraw"}),
    ("steps", {"GET": "steps"}), ("counts", {"GET": "counts"}),
]
# What belongs to nobody, and what is the operator's.
OPEN = {"/": "text/html", "/page.css": "text/css", "/page.js": "text/javascript", "/health": TEXT}
OPERATORS = {"/metrics": "GET", "/backup": "POST"}
# The right that is needed for what is asked; whatever else is asked is read.
RIGHTS = {"schedule": "order", "withdraw": "order", "/metrics": "metrics", "/backup": "backup"}
# What a response says where fuzzy matching was asked for (PS3.18 section 8.3.4.2).
LITERAL = ('299 newtiron "The fuzzymatching parameter is not supported. Only literal matching has '
           'been performed."')
# The same where a parameter is unknown, which is passed over.
IGNORED = '299 newtiron "An unknown parameter was ignored."'
# The same where a page is filled, or there was no room for the next of its answers.
FULL = '299 newtiron "The page is full. Additional results can be requested by offset."'
# The media types under which an entry is sent as a data set: its own, that of any octets, and the
# one that senders give what they know no type of.
DATA_SET_TYPES = {"application/dicom", "application/octet-stream",
                  "application/x-www-form-urlencoded"}
# The methods that only look; what a response to a page of the viewer's origin says besides, and
# what one to a CORS-preflight request (the CORS protocol of the Fetch standard).
LOOKS = ("GET", "HEAD")
SHARED = {"Access-Control-Expose-Headers": "Warning", "Vary": "Origin"}
PREFLIGHT = {"Access-Control-Allow-Methods": "GET, HEAD",
             "Access-Control-Allow-Headers": "Accept, Authorization",
             "Access-Control-Max-Age": "600"}
CORS = {"access-control-allow-origin", *map(str.lower, [*SHARED, *PREFLIGHT])}
# The statuses of the refusals of orders.
REFUSED_ORDERS = {1: 400, 2: 400, 3: 409, 4: 507, 5: 404, 6: 404}


class BadWord(Exception):
    """A word of a search that is none."""


@dataclasses.dataclass
class Answer:
    status: int
    kind: str = ""
    body: bytes = b""
    fields: dict = dataclasses.field(default_factory=dict)


def refused(status: int, code: int | str, **fields: str) -> Answer:
    return Answer(status, JSON, json.dumps({"refused": str(code)}, separators=(",", ":")).encode(),
                  fields)


def spellings(value: str) -> list[bytes]:
    """The octets by which a value may be kept: UTF-8, and those of each set of one octet a
    character that has all of its characters, of which none is from 80H to 9FH."""
    found = [value.encode()]
    for codec in json_objects.ONE_OCTET.values():
        with contextlib.suppress(UnicodeEncodeError):
            octets = value.encode(codec)
            found += [octets] * (not re.search(b"[\x80-\x9f]", octets))
    return list(dict.fromkeys(found))


def in_spellings(octets: bytes) -> bytes:
    """The values of a key, each in each of its spellings; as they are where they are no UTF-8."""
    try:
        values = octets.decode().split("\\")
    except UnicodeDecodeError:
        return octets
    return b"\\".join(octets for value in values for octets in spellings(value))


def value_of(vr: str, text: str) -> bytes | None:
    """The octets of a value; a value of other than text, UIDs and unsigned shorts cannot be
    given."""
    octets = urllib.parse.unquote_to_bytes(text)
    if vr == "US" and text:
        if not re.fullmatch(r"\+?[0-9]+", text) or int(text) > 65535:
            return None
        return int(text).to_bytes(2, "little")
    if text and vr not in data_sets.TEXT | {"UI"} or len(octets) > LONGEST_VALUE:
        return None
    if vr == "UI":
        # a list of UIDs may have commas (PS3.18 section 8.3.4.1)
        octets = octets.replace(b",", b"\\")
    return data_sets.padded(vr, in_spellings(octets) if vr in SPELLED else octets)


def tag_of(name: str) -> Any:
    """The tag of the dictionary that a parameter names; None where it names none."""
    numbers = json_objects.tag_text(name.encode())
    tag: Any = None if numbers == "-" else tuple(map(int, numbers.split()))
    return tag if tag in DICTIONARY else None


def is_of_page(name: str, subject: str) -> bool:
    """Whether a parameter says what a page shows."""
    return name in ("limit", "offset") or name == "after" and subject in UNIQUE_KEYS


def is_unknown(part: str, subject: str) -> bool:
    """Whether a part of a query names neither an attribute nor the page, and says nothing else."""
    name = part.partition("=")[0]
    return bool(part) and not part.startswith(LEFT_OUT) and not is_of_page(name, subject) \
        and tag_of(name) is None


@dataclasses.dataclass
class Page:
    """What a query says of its page: the unique key after which its rows begin, how many of these
    are passed over, and how many are shown."""
    after: bytes | None = None
    offset: int = 0
    limit: int = dataclasses.field(default_factory=lambda: USUAL_PAGE)


def take_page(page: Page, name: str, value: str, part: str) -> None:
    """Takes a part of a query that says what the page shows."""
    if name == "after":
        page.after = urllib.parse.unquote_to_bytes(value)
        if len(page.after) > LONGEST_VALUE:
            raise BadWord(part)
    elif re.fullmatch(r"\+?[0-9]+", value) and int(value) < 2 ** 64:
        setattr(page, name, int(value))
    else:
        raise BadWord(part)


def words_of(text: str, subject: str) -> tuple[dict[tuple[int, int], bytes], Page]:
    """The values of attributes that the parts of a query give, if it may have any, and the
    page."""
    keys: dict[tuple[int, int], bytes] = {}
    page = Page()
    for part in filter(None, text.split("&")):
        if part.startswith(LEFT_OUT) or is_unknown(part, subject):
            continue
        name, equals, value = part.partition("=")
        if equals and is_of_page(name, subject):
            take_page(page, name, value, part)
            continue
        tag = tag_of(name)
        octets = value_of(DICTIONARY[tag], value) if equals and tag is not None else None
        if octets is None or subject == "steps":
            raise BadWord(part)
        keys.setdefault(tag, octets)
    return keys, page


def identifier(keys: dict[tuple[int, int], bytes], level: bytes,
               has_step: bool = False) -> list[Element]:
    """An identifier of all attributes of the dictionary, with these values."""
    found = [(tag, vr, [] if vr == "SQ" else keys.get(tag, b"")) for tag,
             vr in sorted(DICTIONARY.items())
             if tag[1] != 0 and tag[0] != 0xFFFE and tag not in (CHARACTER_SET, LEVEL)]
    if has_step:
        found = services.with_element(found, (STEPS, "SQ", [identifier(keys, b"")]))
    return services.with_element(found, (LEVEL, "CS", data_sets.padded("CS", level)))


def searched(records: Records, subject: str, text: str,
             above: dict[tuple[int, int], bytes]) -> tuple[list[list[Element]], int]:
    """The data sets of a page, and the status of the search."""
    keys, page = words_of(text, subject)
    keys |= above
    if subject == "steps":
        found, status = [step for _, step in sorted(records.steps.items())], 0
    else:
        asked = services.written(identifier(keys, LEVELS.get(subject, b""), subject == "worklist"),
                                 EXPLICIT)
        if subject == "worklist":
            _, found, status = services.query(records, asked, EXPLICIT)
        elif subject == "study images":
            _, found, status = services.find_in_study(records, asked, EXPLICIT)
        else:
            _, found, status = services.find(records, b"", asked, EXPLICIT)
    found = [one for one in found if is_behind(one, subject, page.after)]
    return page_of(page, found), status


def octets_of(answer: list[Element]) -> int:
    """How many octets an answer has as a data set, in Explicit VR Little Endian."""
    return len(data_sets.canonical(answer, data_sets.EXPLICIT))


def page_of(page: Page, found: list[list[Element]]) -> list[list[Element]]:
    """What a page has of all answers: from its offset on at most as many as it may have, up to the
    one that fills it."""
    some = found[page.offset:][:min(page.limit, LONGEST_PAGE)]
    before = itertools.accumulate(map(octets_of, some), initial=0)
    return [one for one, octets in zip(some, before) if octets < FILLED_PAGE]


def is_filled(page: Page, found: list[list[Element]]) -> bool:
    """Whether a page that has these answers has as many as it may have, or is filled by them."""
    return (len(found) == min(page.limit, LONGEST_PAGE)
            or sum(map(octets_of, found)) >= FILLED_PAGE)


def is_behind(answer: list[Element], subject: str, after: bytes | None) -> bool:
    """Whether the unique key of an answer comes behind a key, if there is one, in the order of
    octets."""
    if after is None:
        return True
    key: Any = next(value for tag, _, value in answer if tag == UNIQUE_KEYS[subject])
    return bytes(key).rstrip(b"\0") > after


def json_of(data_set: list[Element]) -> str:
    return json.dumps(json_objects.objects(data_set), ensure_ascii=False, separators=(",", ":"))


def array_of(texts: list[bytes]) -> bytes:
    """An array of answers, each as JSON (PS3.18 section F.2.1)."""
    return b"[" + b",".join(texts) + b"]"


def shown_of(texts: list[bytes]) -> list[bytes]:
    """The longest front of the answers whose array is not too long, but at least one."""
    ends = itertools.accumulate((len(text) + 1 for text in texts), initial=1)
    return texts[:max(1, sum(end <= LONGEST_ARRAY for end in ends) - 1)]


def answered(records: Records, subject: str, text: str,
             above: dict[tuple[int, int], bytes]) -> Answer:
    """The answer to a search."""
    try:
        found, status = searched(records, subject, text, above)
    except BadWord as bad:
        return refused(400, f"keyword {bad.args[0]}")
    if status:
        return refused(413 if status == services.OUT_OF_RESOURCES else 400, f"{status:04X}")
    if not found:
        return Answer(204)
    shown = shown_of([json_of(one).encode() for one in found])
    is_full = len(shown) < len(found) or is_filled(words_of(text, subject)[1], found)
    return Answer(200, DICOM_JSON, array_of(shown), {"Warning": FULL} if is_full else {})


def counted(institution: Institution) -> dict[str, dict[str, int]]:
    """How much an institution keeps, with its limits; series have none."""
    kinds = ("studies", "series", "images", "entries", "steps")
    return {kind: {"kept": count,
                   **({"limit": institution.limits[kind]} if kind in institution.limits else {})}
            for kind, count in zip(kinds, institution.records.counts())}


def host_and_path(target: str, host: str | None) -> Any:
    """The host and the path of a target, which in absolute-form has the host itself (RFC 9112
    section 3.2.2)."""
    found = re.fullmatch(r"https?://([^/]*)(/.*)", target, re.S)
    return found.groups() if found else (host, target)


def is_plain(path: str) -> bool:
    """Whether no segment of a path goes up, or has a slash once it is decoded."""
    segments = map(urllib.parse.unquote_to_bytes, path.split("/"))
    return not any(segment in (b".", b"..") or b"/" in segment for segment in segments)


def looking(method: str) -> str:
    """A method, in which HEAD is GET."""
    return "GET" if method == "HEAD" else method


def place_of(path: str) -> Any:
    """Whose key opens a path, the words of a path below an institution, and its methods; none where
    nothing is."""
    if path in OPEN:
        return "", (), {"GET": path}
    if path in OPERATORS:
        return "*", (), {OPERATORS[path]: path}
    whole = re.fullmatch("/([^/]*)/(.*)", path, re.S)
    name, below = whole.groups() if whole else ("*", "")
    found = [(re.fullmatch(pattern, below, re.S), methods) for pattern, methods in PATHS]
    match, methods = next(((match, methods) for match, methods in found if match), (None, {}))
    return (name, match.groups(), methods) if match and name != "*" else ("", (), {})


def kind_of(target: str) -> str:
    """The kind of the resource at a target, by which requests are counted."""
    path = host_and_path(target, None)[1].partition("?")[0]
    if path in OPEN or path in OPERATORS:
        return "page" if path.startswith("/page") or path == "/" else path[1:]
    below = path.partition("/")[2].partition("/")
    match = next((methods for pattern, methods in PATHS if below[0] != "*" and below[1]
                  and re.fullmatch(pattern, below[2], re.S)), {})
    kind = next(iter(match.values()), "none")
    return {"images": "instances", "study images": "instances", "withdraw": "worklist",
            "relational": "none"}.get(kind, kind)


def ranges_in(fields: Any, name: str = "accept") -> Any:
    """The media types and their ranges that an Accept names, or another field."""
    return {word.lower() for word in re.split(r"[,; \t]",
                                              fields.get(name, ""))} if name in fields else set()


def entry_octets(fields: Any, body: bytes) -> bytes | Answer:
    """The data set of an entry that a body holds, by its media type, or the refusal."""
    types = ranges_in(fields, "content-type")
    if DICOM_JSON in types:
        try:
            return data_sets.canonical(json_reading.read(body), data_sets.EXPLICIT)
        except json_reading.Fault as fault:
            return refused(400, str(fault))
    return refused(415, "media type") if types and not types & DATA_SET_TYPES else body


def key_in(fields: Any) -> Any:
    """The key that an Authorization tells (RFC 9110 section 11.4, RFC 6750 section 2.1)."""
    given = re.fullmatch(r"bearer +(\S+)", fields.get("authorization", ""), re.I)
    return given[1] if given else None


class Front:
    """The front over the institutions of a model, with a key for each name, and `*` for the
    operator. A key that has only one right is in `limited`, after its name and the right."""

    def __init__(self, institutions: list[Institution], keys: dict[str, str],
                 host: str | None = None, viewer: str | None = None) -> None:
        self.institutions, self.keys = {one.name: one for one in institutions}, keys
        self.limited: list[tuple[str, str, str]] = []
        self.hosts = {"127.0.0.1", "localhost", "[::1]"} | ({host} if host else set())
        self.viewer = viewer

    def answer(self, method: str, target: str, fields: dict[str, str], body: bytes = b"",
               is_old: bool = False) -> Answer:
        """The answer to a request, of HTTP/1.0 if that is said, whose fields have their names in
        lower case; that to HEAD is that to GET. Of what is the server's own, as the page, the
        metrics and a backup, it has the status and the kind alone."""
        why = self.judged(method, target, fields, is_old)
        return why or self.shared(self.given(method, target, fields, body), fields)

    def shared(self, answer: Answer, fields: dict[str, str]) -> Answer:
        """An answer, which pages of the viewer's origin may read where one of them asked."""
        if self.is_of_viewer(fields):
            answer.fields |= {"Access-Control-Allow-Origin": self.viewer, **SHARED}
        return answer

    def is_of_viewer(self, fields: dict[str, str]) -> bool:
        return self.viewer is not None and fields.get("origin") == self.viewer

    def given(self, method: str, target: str, fields: dict[str, str], body: bytes) -> Answer:
        """The answer to a request that is let in."""
        path, _, query = host_and_path(target, None)[1].partition("?")
        if method == "OPTIONS":
            return Answer(204, fields=dict(PREFLIGHT))
        if path in OPEN or path in OPERATORS:
            return Answer(200, OPEN.get(path, TEXT))
        name, words, methods = place_of(path)
        institution = self.institutions.get(name)
        if institution is None:
            return refused(404, 6)
        return self.perform(institution, methods[looking(method)], words, query, fields, body)

    def judged(self, method: str, target: Any, fields: Any, is_old: bool = False) -> Any:
        """The refusal of a request by its head; None where its body is read."""
        why = self.why_refused(method, target, fields, is_old)
        return why and self.shared(why, fields)

    def why_refused(self, method: str, target: Any, fields: Any, is_old: bool) -> Any:
        host, target = host_and_path(target, fields.get("host"))
        path = target.partition("?")[0]
        if "host" not in fields and not is_old or not is_plain(path):
            return refused(400, "request")
        why = self.not_admitted(host, path, fields)
        name, _, methods = place_of(path)
        if (why is None or why.status == 403) and self.is_of_viewer(fields) and name not in (
                "", "*") and "GET" in methods:
            # (looking is open to the viewer, and so is asking for leave to look)
            if method == "OPTIONS" and fields.get("access-control-request-method") in LOOKS:
                return None
            why = None if method in LOOKS else why
        if why:
            return why
        if not methods:
            return refused(404, "path")
        if looking(method) not in methods:
            return refused(405, "method",
                           Allow=", ".join("GET, HEAD" if one == "GET" else one for one in methods))
        if path in OPEN:
            return None
        rights = self.rights(name, fields)
        if not rights:
            return refused(401, "key", **{"WWW-Authenticate": "Bearer"})
        needed = RIGHTS.get(methods[looking(method)], "read")
        return None if {None, needed} & rights else refused(403, "right")

    def not_admitted(self, host: str | None, path: str, fields: Any) -> Any:
        """The refusal of another host, or of a page of another origin; the page itself may be
        opened from anywhere."""
        host = (host or "").lower()
        if re.sub(r":[0-9]*$", "", host) not in self.hosts:
            return refused(421, "host")
        origin, site = fields.get("origin"), fields.get("sec-fetch-site")
        is_opening = path == "/" and fields.get("sec-fetch-dest") == "document"
        if origin is not None and origin.lower() not in (f"http://{host}", f"https://{host}"):
            return refused(403, "origin")
        return None if site in (None, "same-origin",
                                "none") or is_opening else refused(403, "origin")

    def rights(self, name: str, fields: dict[str, str]) -> set[str | None]:
        """The rights of the given key with a name: none where it does not open that; None is all
        that the name has."""
        given = key_in(fields)
        lines = [(name, None, self.keys.get(name)), *self.limited]
        return {right for whose, right, key in lines
                if given is not None and (whose, key) == (name, given)}

    @staticmethod
    def perform(institution: Institution, subject: str, words: tuple[str, ...], query: str,
                fields: Any, body: bytes) -> Answer:
        records = institution.records
        if subject == "relational":
            return refused(501, "unsupported")
        if subject == "counts":
            return Answer(200, JSON,
                          json.dumps(counted(institution), separators=(",", ":")).encode())
        if subject in ("schedule", "withdraw"):
            octets = entry_octets(fields, body) if subject == "schedule" else b""
            if isinstance(octets, Answer):
                return octets
            number = services.schedule(records, octets) if subject == "schedule" else \
                services.withdraw(records, urllib.parse.unquote_to_bytes(words[0]))
            if number:
                return refused(REFUSED_ORDERS[number], number)
            return Answer(201, JSON) if subject == "schedule" else Answer(204)
        ranges = ranges_in(fields)
        if ranges and not ranges & {DICOM_JSON, JSON, "application/*", "*/*"}:
            return refused(406, "accept")
        uids = zip((services.STUDY, services.SERIES), words)
        answer = answered(records, subject, query,
                          {tag: data_sets.padded("UI", uid.encode()) for tag, uid in uids})
        parts = query.split("&")
        has_unknown = any(is_unknown(part, subject) for part in parts)
        warnings = [LITERAL] * ("fuzzymatching=true" in parts) + [IGNORED] * has_unknown \
            + [FULL] * ("Warning" in answer.fields)
        if answer.status in (200, 204) and warnings:
            answer.fields["Warning"] = ", ".join(warnings)
        return Answer(200, DICOM_JSON, b"[]",
                      answer.fields) if answer.status == 204 and ranges & {
            DICOM_JSON, "application/*", "*/*"} else answer
