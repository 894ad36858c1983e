"""What a key may do, and keys that come and go while they are served."""
import hashlib
import pathlib

from ..client import Serving
from ..paths import CONFIGURATIONS
from ..tally import Tally
from .common import PROGRAM, Pair, entry_octets, key_line

LIMITED = [("NORTH", "read", "reader"), ("NORTH", "order", "desk"), ("*", "metrics", "watch"),
           ("*", "backup", "nightly")]
# What is asked, with whose key, and the right that it needs.
ASKED = [("GET", "/NORTH/rs/studies", "NORTH", "read"),
         ("HEAD", "/NORTH/rs/studies", "NORTH", "read"),
         ("GET", "/NORTH/rs/studies/1.2.1/series", "NORTH", "read"),
         ("GET", "/NORTH/rs/studies/1.2.1/series/1.2.1.1/instances", "NORTH", "read"),
         ("GET", "/NORTH/rs/studies/1.2.0/instances", "NORTH", "read"),
         ("GET", "/NORTH/rs/series", "NORTH", "read"),
         ("GET", "/NORTH/worklist", "NORTH", "read"), ("GET", "/NORTH/steps", "NORTH", "read"),
         ("GET", "/NORTH/counts", "NORTH", "read"), ("GET", "/NORTH/counts?x", "NORTH", "read"),
         ("POST", "/NORTH/worklist", "NORTH", "order"),
         ("DELETE", "/NORTH/worklist/S1", "NORTH", "order"),
         ("GET", "/metrics", "*", "metrics"), ("HEAD", "/metrics", "*", "metrics"),
         ("POST", "/backup", "*", "backup")]


def rights(tally: Tally, folder: pathlib.Path) -> None:
    """Each key with a right, and what needs one: of another name it opens nothing, and of its own
    what it has the right to."""
    with Pair(folder, limited=LIMITED) as pair:
        pair.fill()
        for name, right, key in pair.front.limited:
            for method, target, owner, needed in ASKED:
                # (a body that is refused, so that nothing is kept)
                body = b"" if method == "POST" else None
                what = f"{name} {right}: {method} {target}"
                told = (pair.ask(method, target, key=key, body=body) if owner == "*" else
                        pair.compare(tally, what, method, target, key=key, body=body))
                if owner != name:
                    tally.check(f"{what}: another name's", told.status == 401, told.status)
                elif needed != right:
                    content = b"" if method == "HEAD" else b'{"refused":"right"}'
                    tally.check(f"{what}: without the right",
                                (told.status, told.body) == (403, content), told.status, told.body)
                else:
                    tally.check(f"{what}: with the right",
                                told.status in (200, 204, 400, 404, 501), told.status, told.body)
        reader, desk = pair.front.limited[0][2], pair.front.limited[1][2]
        head_alone(tally, pair, reader)
        pair.compare(tally, "who orders schedules", "POST", "/NORTH/worklist", key=desk,
                     body=entry_octets("S7"))
        pair.compare(tally, "who reads withdraws nothing", "DELETE", "/NORTH/worklist/S7",
                     key=reader)
        pair.compare(tally, "it is there", "GET", "/NORTH/worklist", key=reader)
        pair.compare(tally, "who orders withdraws", "DELETE", "/NORTH/worklist/S7", key=desk)
        pair.is_right(tally, "rights")


def head_alone(tally: Tally, pair: Pair, reader: str) -> None:
    """A head whose body is still to come is refused before that comes."""
    with pair.connect() as speaker:
        speaker.send(speaker.request("POST", "/NORTH/worklist", reader,
                                     fields=["Content-Length: 100", "Expect: 100-continue"]))
        told = speaker.response()
        tally.check("a body is not awaited without the right",
                    told is not None and (told.status, told.body) == (403, b'{"refused":"right"}'),
                    told and told.head)


def anew(tally: Tally, folder: pathlib.Path) -> None:
    """The file of keys, read anew by the console's order: its keys count from then on, and those
    that are gone count no more. One that is refused changes nothing."""
    with Pair(folder) as pair, pair.server.console() as desk, pair.connect() as speaker:
        path, target = pair.folder / "keys", "/NORTH/counts"
        old, south = pair.keys["NORTH"], pair.keys["SOUTH"]
        new = key_line(pair.folder, "NORTH", "--right", "read", "--label", "new")
        gone = hashlib.sha256(old.encode()).hexdigest()
        kept = [line for line in path.read_text().splitlines(True) if gone not in line]
        path.write_text("".join(kept))

        def statuses() -> list[int]:
            return [pair.ask("GET", target, key=old).status,
                    pair.ask("GET", target, key=new).status,
                    pair.ask("GET", "/SOUTH/counts", key=south).status,
                    pair.ask("GET", "/metrics", "*").status]

        tally.check("the file is not read until that is asked", statuses() == [200, 401, 200, 200],
                    statuses())
        tally.check("a key before it is taken back",
                    speaker.ask("GET", target, old).status == 200)
        tally.check("it is read anew", desk.ask("keys") == "done")
        tally.check("its keys count, and no others", statuses() == [401, 200, 200, 200],
                    statuses())
        tally.check("on a connection that was there too",
                    speaker.ask("GET", target, old).status == 401)
        tally.check("a new key has its right", pair.ask(
            "POST", "/NORTH/worklist", key=new, body=entry_octets("S1")).status == 403)
        for what, text, told in (
                ("a bad line", "".join(kept).encode() + b"NORTH\n", f"line {len(kept) + 1}"),
                ("no key", b"# none\n", "line 0"), ("no UTF-8", b"NORTH \xff\n", "failed"),
                ("no file", None, "failed")):
            path.unlink()
            if text is not None:
                path.write_bytes(text)
            answer = desk.ask("keys")
            tally.check(f"{what} is refused", answer == f"refused {told}", answer)
            tally.check(f"{what} changes nothing", statuses() == [401, 200, 200, 200], statuses())
            path.touch()
        path.write_text(f"NORTH {gone} old\n")
        tally.check("it is read once more", desk.ask("keys") == "done")
        tally.check("again its keys only", statuses() == [200, 401, 401, 401], statuses())
        pair.is_right(tally, "keys read anew")
    with Serving(PROGRAM, "--config", CONFIGURATIONS / "hospitals.toml",
                 has_console=True) as server, server.console() as desk:
        answer = desk.ask("keys")
        tally.check("without a web front", answer == "refused no web front", answer)
        tally.check("other orders are taken", desk.ask("report").startswith("NORTH studies 0 "))
