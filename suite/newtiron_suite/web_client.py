"""A client of the web front that is strict with what it is answered: for the suite and the
measurements of the front."""
import email.utils
import json
import re
from typing import Any

from .client import HOST, Client

POLICY = ("default-src 'none'; script-src 'self'; style-src 'self'; connect-src 'self'; base-uri "
          "'none'; form-action 'none'; "
          "frame-ancestors 'none'")
FIXED = {"cache-control": "no-store", "x-content-type-options": "nosniff",
         "referrer-policy": "no-referrer",
         "content-security-policy": POLICY}


class Response:
    """What came as the answer to a request: status, fields by their names in lower case, body.
    `faults` has what no response may have (RFC 9110 sections 6 and 8.6, RFC 9112 section 4), and
    what each response of this server has to have."""

    def __init__(self, head: bytes, body: bytes) -> None:
        line, *fields = head.decode("latin-1").split("\r\n")
        self.head, self.body, self.faults, self.fields = head, body, [], {}
        found = re.fullmatch(r"HTTP/1\.1 ([1-5][0-9]{2}) ([ -~]*)", line)
        self.status = int(found[1]) if found else 0
        if not found:
            self.faults.append(f"no status line: {line!r}")
        for one in fields:
            field = re.fullmatch(r"([!#$%&'*+.^_`|~0-9A-Za-z-]+):[ \t]*(.*?)[ \t]*", one)
            name = "" if field is None else field[1].lower()
            if field is not None and name == "warning" and name in self.fields:
                # a list, which may stand in several fields (RFC 9110 section 5.3)
                self.fields[name] += f", {field[2]}"
            elif field is None or name in self.fields:
                self.faults.append(f"a bad field: {one!r}")
            else:
                self.fields[name] = field[2]
        if self.status >= 200:
            self.check_fields()

    def check_fields(self) -> None:
        for name, value in FIXED.items():
            if self.fields.get(name) != value:
                self.faults.append(f"{name}: {self.fields.get(name)}")
        for name, status in (("www-authenticate", 401), ("allow", 405)):
            if (name in self.fields) != (self.status == status):
                self.faults.append(f"{name} with status {self.status}")
        if email.utils.parsedate_tz(self.fields.get("date", "")) is None:
            self.faults.append(f"date: {self.fields.get('date')}")
        if (self.status == 204) == ("content-length" in self.fields):
            self.faults.append(f"content-length with status {self.status}: "
                               f"{self.fields.get('content-length')}")

    def kind(self) -> str:
        return self.fields.get("content-type", "").partition(";")[0]

    def json(self) -> Any:
        return json.loads(self.body)


class Speaker(Client):
    """A connection to the front."""

    def request(self, method: str, target: str, key: str | None = None, body: bytes | None = None,
                fields: Any = (), host: str | None = None) -> bytes:
        """The octets of a request."""
        lines = [f"{method} {target} HTTP/1.1", f"Host: {host or f'{HOST}:{self.port}'}"]
        lines += [f"Authorization: Bearer {key}"] if key is not None else []
        lines += [f"Content-Length: {len(body)}"] if body is not None else []
        return "".join(f"{line}\r\n" for line in [*lines, *fields,
                                                  ""]).encode("latin-1") + (body or b"")

    def __init__(self, port: int, source: str | None = None) -> None:
        super().__init__(port, source=source)
        self.port = port

    def response(self, is_head: bool = False) -> Response | None:
        """The next response; None where the server closes before one is whole."""
        while b"\r\n\r\n" not in self.octets:
            before = len(self.octets)
            self.fill(before + 1)
            if len(self.octets) == before:
                return None
        head, _, self.octets = self.octets.partition(b"\r\n\r\n")
        told = Response(head, b"")
        if not is_head and told.status >= 200 and told.status != 204:
            length = int(told.fields.get("content-length", 0))
            told.body = self.receive(length)
            if len(told.body) != length:
                return None
        return told

    def ask(self, *words: Any, **more: Any) -> Response:
        self.send(self.request(*words, **more))
        return self.response(words[0] == "HEAD")

    def is_closed(self) -> bool:
        """Whether the server says nothing more and closes."""
        try:
            return self.rest() == b""
        except OSError:
            return False
