"""PDUs, fragments and pages that are handled otherwise."""
from collections.abc import Callable, Iterator
from typing import Any

from ..model import messages, replies, upper_layer
from ..model.messages import C_FIND, Command
from ..model.upper_layer import INVALID, BadPdu
from .answers import Stop


def abort_reason(wrong: str) -> None:
    """An association that is aborted is told another reason."""
    right = replies.abort
    replies.abort = lambda source, reason: right(source, int(wrong) if source == 2 else reason)


def drops_the_rest() -> None:
    """What a piece leaves of a PDU is dropped."""
    right = replies.Connection.feed

    def feed(self: replies.Connection, piece: bytes) -> tuple[bytes, bool]:
        answer = right(self, piece)
        self.rest = b""
        return answer

    replies.Connection.feed = feed


def fragments_at_most(most: str) -> None:
    """A message of more fragments breaks the protocol."""
    right = messages.Assembler.take

    def take(self: messages.Assembler, context: int, control: int,
             fragment: bytes) -> tuple[int, Command, bytes]:
        message = right(self, context, control, fragment)
        self.count = 0 if message is not None else getattr(self, "count", 0) + 1
        if self.count > int(most):
            raise BadPdu(INVALID)
        return message

    messages.Assembler.take = take


def opens_at_most(most: str) -> None:
    """The server stops where so many connections are held."""
    @around_replies
    def reply(right: Callable[..., Any], self: Any, word: str, subject: Any, octets: bytes) -> Any:
        if word == "open" and len(self.held) >= int(most):
            raise Stop
        return right(self, word, subject, octets)


def around_replies(wrong: Callable[..., Any]) -> None:
    right = replies.Server.reply
    replies.Server.reply = lambda *words: wrong(right, *words)


def looks_at_all_held() -> None:
    """Each event looks at every connection that is held."""
    @around_replies
    def reply(right: Callable[..., Any], self: Any, word: str, subject: Any, octets: bytes) -> Any:
        for _ in range(10):
            sum(self.held)
        return right(self, word, subject, octets)


def dear_pdus() -> None:
    """A PDU costs the square of its length."""
    right = replies.next_pdu

    def next_pdu(octets: bytes) -> Any:
        taken = right(octets)
        if taken is not None:
            length = len(octets) - len(taken[2])
            for _ in range(length // 100):
                octets[:length].count(1)
        return taken

    replies.next_pdu = next_pdu


def longest_pdu(most: str) -> None:
    """Another length is the greatest that is taken."""
    upper_layer.LONGEST_PDU = int(most)


def page_of(most: str) -> None:
    """A page has so many answers."""
    replies.PAGE = int(most)


def pages_found_anew() -> None:
    """The answers of a page are found when it is asked for."""
    right_served, right_pull = replies.Connection.served, replies.Connection.pull

    def served(self: Any, context: int, command: Any, octets: bytes) -> Any:
        found = right_served(self, context, command, octets)
        if command.field == C_FIND:
            self.asked = context, command, octets
        return found

    def pull(self: Any) -> Any:
        if self.search is not None:
            left = len(self.search.pending)
            self.search = None
            right_served(self, *self.asked)
            if self.search is not None:
                self.search.pending = self.search.pending[-left:]
        return right_pull(self)

    replies.Connection.served, replies.Connection.pull = served, pull


def drops_what_is_left() -> None:
    """Another message drops what is left of a search."""
    def drained(self: replies.Connection) -> bytes:
        self.search = None
        return b""

    replies.Connection.drained = drained


def cancels_any() -> None:
    """A C-CANCEL ends the search that is open, whatever message it names."""
    right = replies.Connection.cancel

    def cancel(self: replies.Connection, identity: int) -> bytes:
        return right(self, identity if self.search is None else self.search.identity)

    replies.Connection.cancel = cancel


def answers_before_release() -> None:
    """What is left of a search comes before the answer to a release."""
    right = replies.Connection.answer

    def answer(self: replies.Connection, kind: int, body: bytes) -> Iterator[tuple[bytes, bool]]:
        if kind == upper_layer.RELEASE_RQ and self.search is not None:
            yield self.drained(), False
        yield from right(self, kind, body)

    replies.Connection.answer = answer


def last_response_twice() -> None:
    """The last response of a search comes with its last page, and once more with the next pull."""
    right = replies.Connection.pull

    def pull(self: replies.Connection) -> bytes:
        last = self.search.last if self.search is not None else b""
        octets, late = right(self), getattr(self, "late", b"")
        self.late = last if self.search is None else b""
        return octets or late

    replies.Connection.pull = pull
