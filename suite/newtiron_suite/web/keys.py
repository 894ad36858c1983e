"""Keys, their files, and the tool that makes them."""
import pathlib
import re
import socket
import stat
import subprocess
from typing import Any

from ..client import HOST, Serving, free_port
from ..paths import CONFIGURATIONS, TOP
from ..tally import Tally
from ..web_client import Speaker
from .common import PROGRAM, Pair, entry_octets


# What is no origin as browsers write it (RFC 6454 section 6.2).
NO_ORIGINS = ["", "*", "null", "viewer.example", "//viewer.example", "ftp://viewer.example",
              "https://", "https:///", "https://viewer.example/", "https://viewer.example/x",
              "https://Viewer.example", "HTTPS://viewer.example", "https://viewer.example:",
              "https://viewer.example:0", "https://viewer.example:65536",
              "https://viewer.example:+1", "https://viewer.example:1:2", "https://:8443",
              "https://a@viewer.example", "https://viewer example", "https://viewer.example "]


def undated(response: Any) -> Any:
    """The octets of a response, without its Date."""
    return re.sub(rb"\r\nDate: [^\r]*", b"", response.head), response.body


def keys(tally: Tally, folder: pathlib.Path) -> None:
    with Pair(folder) as pair:
        tally.check("the file is its owner's alone",
                    stat.S_IMODE((pair.folder / "keys").stat().st_mode) == 0o600)
        tally.check("keys differ",
                    len(set(pair.keys.values())) == 3 and all(re.fullmatch(r"[\w-]{32}", key)
                                                              for key in pair.keys.values()))
        north = pair.keys["NORTH"]
        refused = {"no key": None, "a wrong key": "x" * 32,
                   "another institution's": pair.keys["SOUTH"],
                   "the operator's": pair.keys["*"],
                   "a key cut short": north[:-1], "a key with more": north + "x",
                   "an empty key": ""}
        heads = set()
        for what, key in refused.items():
            told = pair.compare(tally, what, "GET", "/NORTH/rs/studies", key=key)
            heads.add(undated(told))
        told = pair.compare(tally, "no such institution", "GET", "/EAST/rs/studies", key=north)
        heads.add(undated(told))
        for field in (f"Authorization: Basic {north}", f"Authorization: {north}",
                      "Authorization: Bearer",
                      f"Authorization:Bearer\t{north}",
                      f"X-Authorization: Bearer {north}", f"Cookie: key={north}"):
            told = pair.compare(tally, field.replace(north, "KEY"), "GET", "/NORTH/rs/studies",
                                fields=[field])
            heads.add(undated(told))
        tally.check("each refusal has the same octets", len(heads) == 1, heads)
        tally.check("a key in the query",
                    pair.ask("GET", f"/NORTH/rs/studies?key={north}").status == 401)
        for name in ("NORTH", "SOUTH"):
            told = pair.ask("GET", "/metrics", name)
            tally.check(f"the key of {name} is not the operator's",
                        told.status == 401 and undated(told) in heads,
                        told.head)
            tally.check(f"a backup by {name}",
                        pair.ask("POST", "/backup", name, body=b"x").status == 401)
        for target in ("/*/rs/studies", "/*/worklist", "/*/counts"):
            tally.check(f"the operator has no {target}", pair.ask("GET", target, "*").status == 404)
        for target in ("/NORTH/worklist", "/NORTH/counts", "/NORTH/steps",
                       "/NORTH/rs/studies/1.2/series",
                       "/NORTH/rs/studies/1.2/series/1.3/instances",
                       "/NORTH/rs/studies/1.2/instances"):
            pair.compare(tally, "without a key", "GET", target)
            pair.compare(tally, "with another key", "GET", target, "SOUTH")
        pair.compare(tally, "an order without a key", "POST", "/NORTH/worklist",
                     body=entry_octets("S1"))
        pair.compare(tally, "an order with another key", "POST", "/NORTH/worklist", "SOUTH",
                     body=entry_octets("S1"))
        pair.compare(tally, "a withdrawal without a key", "DELETE", "/NORTH/worklist/S1")
        for scheme in ("bearer", "BEARER", "Bearer ", "bearer   "):
            told = pair.ask("GET", "/NORTH/counts", fields=[f"Authorization: {scheme} {north}"])
            tally.check(f"the scheme as {scheme!r}", told.status == 200, told.status)
        pair.is_right(tally, "keys")
    key_files(tally, folder)
    key_tool(tally, folder)


def key_files(tally: Tally, folder: pathlib.Path) -> None:
    """Files of keys that are taken, and those that are refused: the server does not start."""
    path, key = folder / "file of keys", "k" * 32
    digest = subprocess.run(["sha256sum"], input=key.encode(), capture_output=True,
                            check=True).stdout[:64].decode()
    good = {"a line": f"NORTH {digest}\n", "no line feed at the end": f"NORTH {digest}",
            "comments": f"# keys\n\nNORTH {digest}\n",
            "carriage returns": f"# keys\r\nNORTH {digest}\r\n",
            "two keys of a name": f"NORTH {'0' * 64}\nNORTH {digest}\n",
            "capital digits": f"NORTH {digest.upper()}\n",
            "a right": f"NORTH read {digest}\n", "a label": f"NORTH {digest} desk-1\n",
            "a right and a label": f"NORTH read {digest} CT_2.a\n",
            "the operator's rights": f"* metrics {digest}\n* backup {digest} x\nNORTH {digest}\n",
            "two rights of a key": f"NORTH order {digest}\nNORTH read {digest}\n",
            "the longest label": f"NORTH {digest} {'l' * 32}\n"}
    bad = {"no name": (1, f"{digest}\n"), "a bad name": (1, f"north {digest}\n"),
           "a long name": (1, f"{'N' * 17} {digest}\n"),
           "a short digest": (1, f"NORTH {digest[2:]}\n"), "no digest": (1, "NORTH\n"),
           "no hexadecimal": (1, f"NORTH {'g' * 64}\n"),
           "two spaces": (1, f"NORTH  {digest}\n"),
           "a right that is none": (1, f"NORTH write {digest}\n"),
           "a right in capitals": (1, f"NORTH READ {digest}\n"),
           "two rights": (1, f"NORTH read order {digest}\n"),
           "a right of the operator": (1, f"NORTH metrics {digest}\n"),
           "a right of an institution": (2, f"# x\n* order {digest}\n"),
           "a right without a digest": (1, "NORTH read\n"),
           "a right behind the digest and a label": (1, f"NORTH {digest} read desk\n"),
           "two spaces before a label": (1, f"NORTH {digest}  desk\n"),
           "a space at the end": (1, f"NORTH {digest} \n"),
           "a long label": (1, f"NORTH {digest} {'l' * 33}\n"),
           "a label with a slash": (1, f"NORTH {digest} a/b\n"),
           "a label of other letters": (1, f"NORTH {digest} d\u00e9sk\n"),
           "the key itself": (1, f"NORTH {key}\n"),
           "no key at all": (0, "# none\n"),
           "an empty file": (0, ""), "a good line and a bad one": (3, f"NORTH {digest}\n\nSOUTH\n"),
           "no such file": (0, None),
           "no UTF-8": (0, b"NORTH \xff\n")}
    for what, text in good.items():
        path.write_text(text, newline="")
        port = free_port()
        with Serving(PROGRAM, "--config", CONFIGURATIONS / "hospitals.toml", "--web", port,
                     "--web-keys", path):
            with Speaker(port) as speaker:
                tally.check(f"a file of keys: {what}",
                            speaker.ask("GET", "/NORTH/counts", key).status == 200)
    text: Any
    for what, (line, text) in bad.items():
        path.unlink(missing_ok=True)
        if text is not None:
            path.write_bytes(text if isinstance(text, bytes) else text.encode())
        done = started(["--web", free_port(), "--web-keys", path])
        tally.check(f"a file of keys is refused: {what}",
                    done == (2, b"", b"keys line %d\n" % line), done)
    taken = socket.create_server((HOST, 0))
    path.write_text(good["a line"])
    keyed = ["--web-keys", path]
    for what, status, words in (
            ("a port that is taken", 5, ["--web", taken.getsockname()[1], *keyed]),
            ("an address of another machine", 5,
             ["--web", free_port(), *keyed, "--web-listen", "192.0.2.1"]),
            ("no keys", 1, ["--web", free_port()]), ("keys without a port", 1, keyed),
            ("port 0", 1, ["--web", 0, *keyed]),
            ("port 65536", 1, ["--web", 65536, *keyed]),
            ("an address without a port", 1, ["--web-listen", HOST]),
            ("a host without a port", 1, ["--web-host", "localhost"]),
            ("a proxy that is no address", 5,
             ["--web", free_port(), *keyed, "--web-proxy", "proxy"]),
            ("a proxy with a port", 5, ["--web", free_port(), *keyed, "--web-proxy", f"{HOST}:80"]),
            ("a proxy without a port of the front", 1, ["--web-proxy", HOST]),
            ("an origin without a port", 1, ["--web-origin", "https://viewer.example"]),
            *[(f"the origin {origin!r}", 1, ["--web", free_port(), *keyed, "--web-origin", origin])
              for origin in NO_ORIGINS],
            ("a number of connections without a port", 1, ["--web-peer-connections", 1]),
            ("a number of connections that is none", 1,
             ["--web", free_port(), *keyed, "--web-peer-connections", "-1"]),
            ("keys twice", 1, ["--web", free_port(), *keyed, *keyed])):
        done = started(words)
        is_told = done[2] == b"network\n" if status == 5 else done[2]
        tally.check(f"it does not start with {what}", done[:2] == (status, b"") and is_told, done)
    taken.close()


def started(words: list[Any]) -> tuple[int, bytes, bytes]:
    """The exit status of a server that does not start, its output and what it told; a status of
    None where it starts."""
    command = [PROGRAM, "serve", "--port", free_port(), "--config",
               CONFIGURATIONS / "hospitals.toml", *words]
    child = subprocess.Popen(list(map(str, command)), stdout=subprocess.PIPE,
                             stderr=subprocess.PIPE)
    try:
        out, told = child.communicate(timeout=5)
        return child.returncode, out, told
    except subprocess.TimeoutExpired:
        child.kill()
        child.communicate()
        return None, b"", b""


def key_tool(tally: Tally, folder: pathlib.Path) -> None:
    def run(*words: pathlib.Path | str) -> subprocess.CompletedProcess[str]:
        return subprocess.run([TOP / "tools/web_key", *words], capture_output=True, text=True,
                              check=False)

    done = run("NORTH")
    key, line, *rest = done.stdout.split("\n")
    digest = subprocess.run(["sha256sum"], input=key.encode(), capture_output=True,
                            check=True).stdout[:64].decode()
    tally.check("web_key: a key and its line", done.returncode == 0 and line == f"NORTH {digest}"
                and rest == [""] and
                len(key) == 32, done)
    path = folder / "made"
    path.write_text("# kept")
    first, second = run("--add", path, "NORTH"), run("--add", path, "*")
    lines = path.read_text().split("\n")
    names_of = [line.split(" ")[0] for line in lines[1:3]]
    tally.check("web_key: lines are added", lines[0] == "# kept" and names_of == ["NORTH", "*"]
                and lines[3:] == [""] and
                first.stdout != second.stdout and first.stdout not in path.read_text(), lines)
    for words, begins, ends in (
            (("--right", "read", "NORTH"), "NORTH read ", ""),
            (("--label", "desk-1", "NORTH"), "NORTH ", " desk-1"),
            (("*", "--right", "backup", "--label", "nightly"), "* backup ", " nightly")):
        done = run(*words)
        key, line = done.stdout.splitlines()
        digest = subprocess.run(["sha256sum"], input=key.encode(), capture_output=True,
                                check=True).stdout[:64].decode()
        tally.check(f"web_key {' '.join(words)}",
                    done.returncode == 0 and line == f"{begins}{digest}{ends}", done)
    for words in (("--right", "metrics", "NORTH"), ("--right", "order", "*"),
                  ("--right", "write", "NORTH"), ("--label", "", "NORTH"),
                  ("--label", "a b", "NORTH"), ("--label", "l" * 33, "NORTH"),
                  ("--label", "x\n", "NORTH")):
        done = run(*words)
        tally.check(f"web_key is refused {words}",
                    done.returncode == 2 and not done.stdout and done.stderr, done)
    for name in ("north", "", "N" * 17, "N RTH", "**", "NÖRTH", "NORTH\n"):
        done = run(name)
        tally.check(f"web_key: {name!r} is no name",
                    done.returncode == 2 and not done.stdout and done.stderr, done)
    done = run("--add", folder / "absent" / "keys", "NORTH")
    tally.check("web_key: a file that cannot be",
                done.returncode == 2 and not done.stdout and done.stderr, done)
