"""What the operator has: metrics, backups and the log. And curl."""
import collections
import json
import pathlib
import re
import shutil
import subprocess
import time
from typing import Any

from ..client import HOST, Serving, until
from ..model import web
from ..paths import CONFIGURATIONS
from ..scenes import SERVED
from ..tally import Tally, skip
from .common import PROGRAM, Pair, entry_octets, rows_of

SAMPLE = re.compile(r'([a-zA-Z_:][\w:]*)(?:\{((?:[a-zA-Z_]\w*="(?:[^"\\\n]|\\[\\n"])*",?)*)\})? '
                    r'(\S+)(?: -?\d+)?')
FROM = r"\S+Z - web 127\.0\.0\.1:\d+"
LABEL = re.compile(r'([a-zA-Z_]\w*)="((?:[^"\\\n]|\\[\\n"])*)"')


def samples_of(text: str) -> tuple[dict[str, str], dict[Any, float], list[str]]:
    """The kinds and the samples of metrics in the text format 0.0.4 of Prometheus, and what is
    wrong with it."""
    kinds, samples, faults, seen = {}, {}, [], []
    if text and not text.endswith("\n"):
        faults.append("the last line has no end")
    for line in text.split("\n")[:-1]:
        comment = re.fullmatch(r"# (HELP|TYPE) (\w+) (.+)", line)
        if comment and comment[1] == "TYPE":
            if comment[2] in kinds or comment[3] not in ("counter", "gauge", "histogram"):
                faults.append(f"a second type, or none: {line}")
            kinds[comment[2]] = comment[3]
        found = SAMPLE.fullmatch(line)
        if not comment and not found:
            faults.append(f"no sample: {line}")
        if found:
            name = re.sub(r"_(bucket|sum|count)$", "",
                          found[1]) if found[1] not in kinds else found[1]
            labels = tuple(sorted(LABEL.findall(found[2] or "")))
            if name not in kinds or (found[1], labels) in samples or (seen and seen[-1] != name
                                                                      and name in seen):
                faults.append(f"no type, twice, or apart: {line}")
            seen.append(name)
            samples[found[1], labels] = float(found[3])
    return kinds, samples, faults


def metrics(tally: Tally, folder: pathlib.Path) -> None:
    with Pair(folder) as pair:
        pair.fill()
        first = pair.ask("GET", "/metrics", "*")
        kind = first.fields.get("content-type", "").replace(" ", "").lower()
        tally.check("their type", kind.startswith("text/plain;version=0.0.4"), kind)
        kinds, samples, faults = samples_of(first.body.decode())
        tally.check("each line", not faults and samples, faults[:5])
        wanted = {"newtiron_rows": "gauge", "newtiron_rows_limit": "gauge",
                  "newtiron_associations_open": "gauge",
                  "newtiron_associations_total": "counter",
                  "newtiron_operations_total": "counter",
                  "newtiron_http_requests_total": "counter",
                  "newtiron_turn_seconds": "histogram",
                  "newtiron_memory_bytes": "gauge"}
        tally.check("their names and kinds", wanted.items() <= kinds.items(), kinds)
        for one in pair.model.institutions:
            for kind, counts in web.counted(one).items():
                labels = (("institution", one.name), ("kind", kind))
                tally.check(f"rows of {one.name}, {kind}",
                            samples.get(("newtiron_rows", labels)) == counts["kept"] and
                            samples.get(("newtiron_rows_limit", labels)) == counts.get("limit"),
                            samples)
        buckets = [(labels[0][1], value) for (name, labels),
                   value in samples.items() if name == "newtiron_turn_seconds_bucket"]
        tally.check("the histogram",
                    [bound for bound, _ in buckets] == ["0.001", "0.005", "0.01", "0.05", "0.1",
                                                        "0.5", "1",
                                                        "+Inf"] and
                    [count for _, count in buckets] == sorted(count for _, count in buckets) and
                    buckets[-1][1] == samples["newtiron_turn_seconds_count", ()] > 0 and
                    samples["newtiron_turn_seconds_sum", ()] >= 0, buckets)
        tally.check("memory",
                    abs(samples["newtiron_memory_bytes", ()] / 1048576 - pair.server.memory())
                    < pair.server.memory() or
                    samples["newtiron_memory_bytes", ()] > 0, samples["newtiron_memory_bytes", ()],
                    pair.server.memory())
        tally.check("open associations", samples["newtiron_associations_open", ()] == 2, samples)
        counted_associations(tally, pair, samples)
        counted_requests(tally, pair)
        counted_turns(tally, pair)
        tally.check("no patient",
                    not re.search(r"doe|roe|jane|1\.2\.", first.body.decode().lower()))
        if shutil.which("promtool"):
            done = subprocess.run(["promtool", "check", "metrics"], input=first.body,
                                  capture_output=True, check=False)
            tally.check("promtool takes them",
                        done.returncode == 0 and not done.stdout + done.stderr, done)
        else:
            skip("promtool", "it is not installed")
        pair.is_right(tally, "metrics")


def counted_associations(tally: Tally, pair: Pair, before: dict[Any, float]) -> None:
    """What the associations, and what they do, add."""
    pair.play("open 5", f"associate 5 ARCHIVE CT1 {SERVED}", "echo 5 1 1", "echo 5 1 2",
              "release 5", "open 6",
              f"associate 6 ARCHIVE STRANGER {SERVED}",
              "open 7", f"associate 7 ARCHIVE CT2 {SERVED}")
    pair.play_event("end 7")
    until(lambda: samples_of(pair.ask("GET", "/metrics",
                                      "*").body.decode())[1]["newtiron_associations_open", ()] == 2,
          5)
    _, after, faults = samples_of(pair.ask("GET", "/metrics", "*").body.decode())
    grown = {key: value - before.get(key, 0) for key, value in after.items()}
    for outcome, count in (("accepted", 2), ("rejected", 1), ("released", 1), ("aborted", 0)):
        tally.check(f"associations {outcome}", not faults and
                    grown.get(("newtiron_associations_total", (("outcome", outcome),))) == count,
                    grown)
    echoes = [value for (name, labels),
              value in grown.items() if name == "newtiron_operations_total" and
              "echo" in dict(labels).get("service", "").lower()]
    tally.check("operations", sum(echoes) == 2, {key: value for key, value in grown.items()
                                                 if key[0] == "newtiron_operations_total"})
    tally.check("turns only grow", grown["newtiron_turn_seconds_count", ()] >= 0)


# Requests, with the kind and the status by which they are counted.
COUNTED = [
    ("GET", "/NORTH/rs/studies?limit=1", "NORTH", "studies", 200),
    ("GET", "/NORTH/rs/studies?PatientName=NOBODY", "NORTH", "studies", 204),
    ("HEAD", "/NORTH/rs/studies", "NORTH", "studies", 200),
    ("GET", "/NORTH/rs/studies", "SOUTH", "studies", 401),
    ("GET", "/NORTH/rs/studies/1.2.0/series", "NORTH", "series", 200),
    ("GET", "/NORTH/rs/studies/1.2.0/series/1.2.0.1/instances", "NORTH", "instances", 200),
    ("GET", "/NORTH/rs/studies/1.2.0/instances", "NORTH", "instances", 200),
    ("GET", "/NORTH/rs/series", "NORTH", "none", 501),
    ("GET", "/NORTH/worklist", "NORTH", "worklist", 200),
    ("POST", "/NORTH/worklist", "NORTH", "worklist", 400),
    ("DELETE", "/NORTH/worklist/NONE", "NORTH", "worklist", 404),
    ("GET", "/NORTH/steps", "NORTH", "steps", 200), ("PUT", "/NORTH/steps", "NORTH", "steps", 405),
    ("GET", "/NORTH/counts", "NORTH", "counts", 200), ("GET", "/", None, "page", 200),
    ("GET", "/page.js", None, "page", 200), ("GET", "/page.css", None, "page", 200),
    ("GET", "/health", None, "health", 200), ("POST", "/backup", "*", "backup", 409),
    ("GET", "/nowhere", None, "none", 404), ("GET", "/*/worklist", "*", "none", 404),
    ("GET", "/metrics", "NORTH", "metrics", 401), ("GET", "/metrics", "*", "metrics", 200),
]


def counts_of(pair: Pair) -> dict[tuple[str, str], float]:
    """How many requests are counted, by the kind of their resource and their status."""
    _, samples, _ = samples_of(pair.ask("GET", "/metrics", "*").body.decode())
    return {(dict(labels)["kind"], dict(labels)["status"]): value
            for (name, labels), value in samples.items() if name == "newtiron_http_requests_total"}


def counted_requests(tally: Tally, pair: Pair) -> None:
    """What requests add, those that are refused and those that are none included."""
    wanted = collections.Counter({("metrics", "200"): 1})
    before = counts_of(pair)
    for method, target, name, kind, status in COUNTED:
        body = b"/nowhere" if method == "POST" else None
        told = pair.ask(method, target, name, body=body)
        tally.check(f"a request that is counted: {method} {target}", told.status == status,
                    told.head)
        wanted[kind, str(status)] += 1
    with pair.connect() as speaker:
        speaker.send(b"no request\r\n\r\n")
        wanted["none", str(speaker.response().status)] += 1
    grown = {key: count - before.get(key, 0) for key, count in counts_of(pair).items()}
    tally.check("requests by kind and status",
                {key: count for key, count in grown.items() if count} == dict(wanted),
                grown, wanted)


def counted_turns(tally: Tally, pair: Pair) -> None:
    """The work for the web front and for the console counts as turns, and waiting does not."""
    def turns() -> tuple[float, float]:
        _, samples, _ = samples_of(pair.ask("GET", "/metrics", "*").body.decode())
        return (samples["newtiron_turn_seconds_count", ()],
                samples["newtiron_turn_seconds_sum", ()])

    before = turns()
    for _ in range(10):
        pair.ask("GET", "/NORTH/rs/studies", "NORTH")
    of_web = turns()
    tally.check("turns that serve the web front", of_web[0] - before[0] >= 10, before, of_web)
    for _ in range(10):
        pair.report()
    of_console = turns()
    tally.check("turns that serve the console", of_console[0] - of_web[0] >= 10, of_web, of_console)
    time.sleep(2)
    waited = turns()
    tally.check("waiting is no turn", waited[1] - of_console[1] < 1, of_console, waited)


def backup(tally: Tally, folder: pathlib.Path) -> None:
    store = folder / "rows.db"
    with Pair(folder, "--new", store) as pair:
        pair.fill()
        copy = folder / "a copy.db"
        told = pair.ask("POST", "/backup", "*", body=str(copy).encode())
        tally.check("a backup", told.status == 200 and not told.faults, told.head, told.body)
        tally.check("the copy has all rows", rows_of(copy, folder) == rows_of(store, folder) != [])
        told = pair.ask("POST", "/backup", "*", body=str(copy).encode())
        tally.check("a path that is taken", told.status == 409
                    and told.json() == {"refused": "taken"}, told.status, told.body)
        told = pair.ask("POST", "/backup", "*", body=str(folder / "absent" / "x.db").encode())
        tally.check("a folder that is not there",
                    told.status == 500 and told.json() == {"refused": "failed"}, told.status,
                    told.body)
        for what, body in (("no path", b""), ("a line feed", b"/x\nreport"), ("a NUL", b"/x\0"),
                           ("no UTF-8", b"/\xff"),
                           ("DEL", b"/x\x7f")):
            told = pair.ask("POST", "/backup", "*", body=body)
            tally.check(f"a path with {what}", told.status == 400, told.status, told.body)
        for name in (None, "NORTH"):
            told = pair.ask("POST", "/backup", name, body=str(folder / "never.db").encode())
            tally.check(f"a backup by {name}",
                        told.status == 401 and not (folder / "never.db").exists(), told.status)
        pair.is_right(tally, "backup")
    with Serving(PROGRAM, "--config", CONFIGURATIONS / "hospitals.toml", "--store", copy,
                 has_console=True) as server, server.console() as desk:
        tally.check("the copy opens", desk.ask("report").startswith("NORTH studies 3 "))
    with Pair(folder) as pair:
        told = pair.ask("POST", "/backup", "*", body=str(folder / "none.db").encode())
        tally.check("no store", told.status == 409 and told.json() == {"refused": "no store"},
                    told.status, told.body)


def log(tally: Tally, folder: pathlib.Path) -> None:
    path = folder / "log"
    limited = [("NORTH", "read", "desk-1"), ("SOUTH", "read", "ris.2"), ("*", "metrics", "watch")]
    with Pair(folder, "--log-file", path, limited=limited) as pair:
        pair.fill()
        north, south = pair.keys["NORTH"], pair.keys["SOUTH"]
        desk, ris, watch = [key for _, _, key in pair.front.limited]
        plays = [("GET", "/NORTH/rs/studies?PatientName=SECRET*", north, None,
                  "- GET NORTH /rs/studies 204"),
                 ("GET", "/NORTH/worklist", north, None, "- GET NORTH /worklist 200"),
                 ("GET", "/NORTH/worklist", None, None, "- GET NORTH /worklist 401"),
                 ("POST", "/NORTH/worklist", north, entry_octets("SECRET"),
                  "- POST NORTH /worklist 201"),
                 ("GET", "/SOUTH/counts", south, None, "- GET SOUTH /counts 200"),
                 # the label of the token that let the request in, even if it is refused then
                 ("GET", "/NORTH/counts", desk, None, "desk-1 GET NORTH /counts 200"),
                 ("GET", "/NORTH/worklist?limit=x", desk, None, "desk-1 GET NORTH /worklist 400"),
                 ("GET", "/SOUTH/steps", ris, None, "ris.2 GET SOUTH /steps 200"),
                 ("GET", "/metrics", watch, None, "watch GET - /metrics 200"),
                 # tokens that let nothing in
                 ("GET", "/SOUTH/counts", desk, None, "- GET SOUTH /counts 401"),
                 ("DELETE", "/NORTH/worklist/S1", desk, None,
                  "- DELETE NORTH /worklist/S1 403"),
                 ("GET", "/", desk, None, "- GET - / 200")]
        begin = len(path.read_bytes())
        for method, target, key, body, _ in plays:
            pair.ask(method, target, key=key, body=body)
        with pair.connect() as speaker:
            speaker.send(b"GET\r\n\r\n")
            speaker.rest()
        until(lambda: path.read_bytes().count(b"- web ", begin) > len(plays), 5)
        text = path.read_text()
        lines = [line for line in text.split("\n") if " - web " in line]
        for *_, told in plays:
            tally.check(f"the line of {told}",
                        any(re.fullmatch(rf"{FROM} {re.escape(told)} ms \d+", line)
                            for line in lines), lines)
        tally.check("the line of a request that cannot be read", any(
            re.fullmatch(rf"{FROM} - - - - 400 ms \d+", line) for line in lines), lines)
        with pair.server.console() as console:
            console.ask("keys")
            (pair.folder / "keys").write_text("NORTH\n")
            console.ask("keys")
        # (a line is written after the caller has its answer)
        tally.check("the lines of keys that are read anew", until(
            lambda: re.findall(r"Z (- console keys .*)\n", path.read_text())
            == ["- console keys done", "- console keys refused line 1"], 5), path.read_text())
        pair.ask("GET", "/health")
        for key in (*pair.keys.values(), desk, ris, watch):
            tally.check("no key", key not in path.read_text())
        tally.check("no patient", not re.search("secret|doe|jane", text.lower()), text)
        tally.check("the times of others stay",
                    all(re.match(r"\d{4}-\d\d-\d\dT\d\d:\d\d:\d\d\.\d{3}Z ", line)
                        for line in text.split("\n")[:-1]))


def curl(tally: Tally, folder: pathlib.Path) -> None:
    if shutil.which("curl") is None:
        skip("curl", "it is not installed")
        return
    with Pair(folder) as pair:
        pair.fill()
        base, bearer = f"http://{HOST}:{pair.port}", f"Authorization: Bearer {pair.keys['NORTH']}"

        def run(*words: str) -> tuple[int, bytes, bytes]:
            done = subprocess.run(["curl", "-sS", "--max-time", "20", "-w", "\n%{http_code}",
                                   *map(str, words)],
                                  capture_output=True, check=False)
            body, _, status = done.stdout.rpartition(b"\n")
            return int(status or 0), body, done.stderr
        told = run("-H", bearer, f"{base}/NORTH/rs/studies?PatientName=doe*")
        tally.check("a search", told[0] == 200 and len(json.loads(told[1])) == 3, told)
        tally.check("without a key", run(f"{base}/NORTH/rs/studies")[0] == 401)
        entry = folder / "entry.dcm"
        entry.write_bytes(entry_octets("U1"))
        told = run("-H", bearer, "--data-binary", f"@{entry}", f"{base}/NORTH/worklist")
        tally.check("an entry", told[0] == 201, told)
        entry.write_bytes(entry_octets("U2", RequestedProcedureComments="x" * 60000))
        told = run("-H", bearer, "-H", "Expect: 100-continue", "--data-binary", f"@{entry}",
                   f"{base}/NORTH/worklist")
        tally.check("an entry with 100-continue", told[0] == 201, told)
        tally.check("it is withdrawn",
                    run("-H", bearer, "-X", "DELETE", f"{base}/NORTH/worklist/U1")[0] == 204)
        tally.check("HTTP/1.0", run("-0", f"{base}/health")[:2] == (200, b"ok\n"))
        told = run("-I", f"{base}/health")
        tally.check("a HEAD ends", told[0] in (200, 405), told)
        tally.check("another name", run("-H", "Host: evil.example", f"{base}/health")[0] == 421)
        told = run("-H", bearer, "-H", "Transfer-Encoding: chunked", "--data-binary", f"@{entry}",
                   f"{base}/NORTH/worklist")
        tally.check("chunks", told[0] == 501, told)
