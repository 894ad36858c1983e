"""The web front, served otherwise."""
from collections.abc import Callable
from pathlib import Path
from typing import Any

from ..model import json_reading, web, web_serving
from ..model.services import Records
from ..model.web import Answer


def of_front(method: str, kind: Any = web.Front) -> Any:
    """A decorator for what the web front does in place of a method; it is given the right one."""
    def decorate(wrong: Callable[..., Any]) -> None:
        right = getattr(kind, method)
        setattr(kind, method, lambda self, *words: wrong(self, right, *words))
    return decorate


def web_key_of_anybody() -> None:
    """Each key opens every name."""
    @of_front("rights", web_serving.Keyed)
    def rights(self: Any, right: Callable[..., Any], _: object, fields: Any) -> set[str | None]:
        return {one for name in (*self.institutions, "*") for one in right(self, name, fields)}


def web_key_of_any_right() -> None:
    """Each key of a name may do all that the name may."""
    @of_front("rights", web_serving.Keyed)
    def rights(self: Any, right: Callable[..., Any], name: str, fields: Any) -> set[str | None]:
        return {None for _ in right(self, name, fields)}


def web_keeps_keys() -> None:
    """Keys that were taken back go on to count when their file is read anew."""
    right = web_serving.read_keys
    kept: web_serving.Digests = {}

    def read_keys(path: str) -> web_serving.Digests:
        for digest, names in right(path).items():
            kept.setdefault(digest, set()).update(names)
        return kept

    web_serving.read_keys = read_keys


def web_forgets_keys() -> None:
    """A file of keys that is refused leaves none."""
    @of_front("read_anew", web_serving.WebService)
    def read_anew(self: Any, right: Callable[..., Any]) -> Any:
        told = right(self)
        if told != "done":
            self.front.digests = {}
        return told


def web_rows_of_the_first() -> None:
    """What is asked of any institution is answered of the first."""
    @of_front("answer")
    def answer(self: Any, right: Callable[..., Any], *words: Any) -> Any:
        kept, first = self.institutions, next(iter(self.institutions.values()))
        self.institutions = dict.fromkeys(kept, first)
        try:
            return right(self, *words)
        finally:
            self.institutions = kept


def web_pages_of(most: str) -> None:
    web.USUAL_PAGE = int(most)


def web_arrays_of(most: str) -> None:
    """A page ends at another length."""
    web.LONGEST_ARRAY = int(most)


def web_fills_pages_with(most: str) -> None:
    """A page is filled by data sets of another length."""
    web.FILLED_PAGE = int(most)


def web_is_filled_by_count() -> None:
    """A page that data sets fill does not say so."""
    web.is_filled = lambda page, found: len(found) == min(page.limit, web.LONGEST_PAGE)


def web_tells_no_rest() -> None:
    """A page that ends early does not say so."""
    right = web.answered

    def answered(*words: Any) -> Answer:
        told = right(*words)
        if len(told.body) > web.LONGEST_ARRAY // 2:
            told.fields.pop("Warning", None)
        return told

    web.answered = answered


def web_refuses_as(status: str) -> None:
    """Orders that are refused have this status."""
    web.REFUSED_ORDERS = dict.fromkeys(web.REFUSED_ORDERS, int(status))


def web_reads_no_json() -> None:
    """An entry is a data set, whatever its media type is."""
    web.entry_octets = lambda _, body: body


def web_tells_no_place() -> None:
    """A refusal of JSON names no attribute."""
    right = json_reading.broken
    json_reading.broken = lambda rule, _: right(rule, None)


def web_look_withdraws() -> None:
    """A look at the worklist takes an entry away."""
    right = web.answered

    def answered(records: Records, subject: str, *words: Any) -> Answer:
        told = right(records, subject, *words)
        if subject == "worklist" and records.entries:
            records.entries.popitem()
        return told

    web.answered = answered


def web_takes_any_method() -> None:
    """An unknown method is GET."""
    @of_front("answer")
    def answer(self: Any, right: Callable[..., Any], method: str, *words: Any) -> Any:
        return right(self, method if method in ("GET", "POST", "DELETE") else "GET", *words)


def web_takes_any_host() -> None:
    @of_front("answer")
    def answer(self: Any, right: Callable[..., Any], method: str, target: Any, fields: Any,
               *words: Any) -> Any:
        return right(self, method, target, {**fields, "host": "localhost", "origin": None}, *words)


def web_shares_with_anybody() -> None:
    """Each page that says an origin is the viewer's."""
    @of_front("is_of_viewer")
    def is_of_viewer(self: Any, _: Callable[..., Any], fields: Any) -> bool:
        return "origin" in fields


def web_takes_two_hosts() -> None:
    web_serving.SINGLE.discard("host")


def web_sends_a_body_to_head() -> None:
    right = web_serving.spelled
    web_serving.spelled = lambda method, *words: right("GET", *words)


def web_stays_open() -> None:
    """No connection is closed by what it was answered."""
    @of_front("answer_next", web_serving.WebService)
    def answer_next(self: Any, right: Callable[..., Any], caller: Any) -> Any:
        told = right(self, caller)
        caller.is_over = False
        return told


def web_paths_go_up() -> None:
    """Segments of paths may be anything."""
    web.is_plain = lambda path: True


def web_bids_anybody_go_on() -> None:
    """A body is awaited whatever its head says."""
    @of_front("judged", web_serving.Keyed)
    def judged(self: Any, right: Callable[..., Any], *words: Any) -> Any:
        why = right(self, *words)
        return why if why and why.status not in (401, 403) else None


def web_gives_what_is_not_accepted() -> None:
    right = web.ranges_in

    def ranges(fields: Any, name: str = "accept") -> Any:
        return right(fields, name) if name != "accept" else set()

    web.ranges_in = ranges


def web_asks_in_utf8_only() -> None:
    """A name is looked for in UTF-8, whatever set it may be kept in."""
    web.spellings = lambda value: [value.encode()]


def web_waits_for_one() -> None:
    """Others wait until the first connection that is held has ended."""
    @of_front("watched", web_serving.WebService)
    def watched(self: Any, right: Callable[..., Any]) -> Any:
        return list(right(self))[:2]


def web_closes_each(number: str) -> None:
    """Of so many connections one is closed as it comes."""
    came = []

    @of_front("turn", web_serving.WebService)
    def turn(self: Any, right: Callable[..., Any], *words: Any) -> None:
        held = list(self.callers)
        right(self, *words)
        for caller in [one for one in self.callers if one not in held]:
            came.append(1)
            if len(came) % int(number) == 0:
                self.leave(caller)


def web_counts_no(outcome: str) -> None:
    @of_front("count_sent", web_serving.Counters)
    def count_sent(self: Any, right: Callable[..., Any], octets: bytes) -> None:
        right(self, octets)
        del self.outcomes[outcome]


def web_counts_no_requests(status: str) -> None:
    """Requests that were answered with this status are not counted."""
    @of_front("metrics", web_serving.WebService)
    def metrics(self: Any, right: Callable[..., Any]) -> Any:
        for key in [key for key in self.counters.requests if key[1] == int(status)]:
            del self.counters.requests[key]
        return right(self)


def web_counts_no_turns() -> None:
    @of_front("metrics", web_serving.WebService)
    def metrics(self: Any, right: Callable[..., Any]) -> Any:
        self.counters.turns = self.counters.turns[:1]
        return right(self)


def web_copies_nothing() -> None:
    """A backup is an empty file."""
    @of_front("copied", web_serving.WebService)
    def copied(self: Any, right: Callable[..., Any], body: bytes) -> Any:
        told = right(self, body)
        if told.status == 200:
            Path(body.decode()).write_bytes(b"")
        return told


def web_page_with(old: str, new: str) -> None:
    """The files of the page have other words."""
    @of_front("answer", web_serving.WebService)
    def answer(self: Any, right: Callable[..., Any], request: Any) -> Any:
        told = right(self, request)
        told.body = (told.body.replace(old.encode(),
                                      new.encode()) if request.target in web_serving.FILES
                     else told.body)
        return told


def web_without(field: str) -> None:
    del web_serving.FIXED[field]
