"""The console: its orders, its searches, its socket file and its callers."""
import contextlib
import json
import pathlib
import shutil
import signal
import socket
import stat
import subprocess
import time
from typing import Any

from ..client import HOST, PATIENCE, Caller, Client, Serving, free_port
from ..model import large_rows, serving
from ..paths import configured
from ..scenes import composed, message
from ..tally import Tally, skip
from .common import ENTRY, PROGRAM, STEP, associated, is_alive, run, serves, store_of, told_to

WORKLIST = "find 1 7 1 worklist PatientName= ScheduledProcedureStepSequence= { }"
def found_entries(client: Client) -> int:
    client.send(message(WORKLIST))
    return client.statuses().count(0xFF00)


BAD_LINES = [b"", b"x", b"schedule", b"schedule NORTH", b"schedule NORTH 0", b"schedule north 00",
             b"open 1", b"piece 1 00",
             b"end 1", b"pull 1", b"report NORTH", b" report", b"report ", b"report\r",
             b"keys NORTH", b"keys ", b"KEYS", b"withdraw NORTH", b"schedule NORTH 0g",
             b"withdraw NORTH 53\xff", b"\0", b"POST / HTTP/1.1\r"]


def console(tally: Tally, _: object) -> None:
    with Serving(PROGRAM, *configured("hospitals"), has_console=True) as server:
        north, south = associated(server, "CT1"), associated(server, "CT2")
        desk = server.console()
        schedule = [composed(f"schedule NORTH {ENTRY.format(identity)}")[0]
                    for identity in ("S1", "S2", "S3")]
        withdraw = composed("withdraw NORTH S1")[0]
        tally.check("an order", desk.ask(schedule[0]) == "done")
        tally.check("the same again", desk.ask(schedule[0]) == "refused 3")
        tally.check("an open association sees it", found_entries(north) == 1)
        tally.check("the other hospital's does not", found_entries(south) == 0)
        tally.check("nobody has the name",
                    desk.ask(schedule[0].replace("NORTH", "EAST")) == "refused 6")
        tally.check("a data set that cannot be read", desk.ask("schedule NORTH 00") == "refused 1")
        tally.check("an entry that is not complete", desk.ask("schedule NORTH -") == "refused 2")
        tally.check("no web front has keys", desk.ask("keys") == "refused no web front")
        tally.check("no such entry", desk.ask("withdraw NORTH 5339") == "refused 5")
        tally.check("orders are still taken", desk.ask(schedule[1]) == "done")
        desk.send(f"{schedule[2]}\n{withdraw}\n{withdraw}\n".encode())
        tally.check("lines that come together",
                    [desk.line() for _ in range(3)] == ["done", "done", "refused 5"])
        for octet in (withdraw + "\n").encode():
            desk.send(bytes([octet]))
        tally.check("a line that comes octet by octet", desk.line() == "refused 5")
        with server.console() as other:
            other.send(schedule[0].encode()[:40])
            tally.check("two consoles", desk.ask(withdraw) == "refused 5")
            other.send(schedule[0].encode()[40:] + b"\n")
            tally.check("each with its own line", other.line() == "done")
        with server.console() as other:
            other.send(withdraw.encode())
            other.end()
            other.rest()
        tally.check("a line that does not end is no order", desk.ask(withdraw) == "done")
        bad_lines(tally, server, schedule[0], withdraw)
        desk.send(b"report\n")
        lines = [desk.line() for _ in range(2)]
        tally.check("a report", lines == ["NORTH studies 0 series 0 images 0 entries 2 steps 0",
                                          "SOUTH studies 0 series 0 images 0 entries 0 steps 0"],
                    lines)
        tally.check("the associations are served",
                    is_alive(north) and is_alive(south) and found_entries(north) == 2)
        desk.reset()
        tally.check("a console that breaks",
                    is_alive(north) and server.console().ask(withdraw) == "refused 5")
        long_lines(tally, server)
        with server.console() as other:
            other.send(b"report\n" * 5000)
            tally.check("a caller that reads nothing",
                        is_alive(north) and server.console().ask(withdraw) == "refused 5")
        tally.check("console: it goes on", server.is_running() and not server.errors(),
                    server.errors())


def shown(desk: Caller, line: str) -> tuple[list[Any], str]:
    """The answers that the console shows, and its last line."""
    desk.send(line.encode() + b"\n")
    answers = []
    while (told := desk.line()).startswith("{"):
        answers.append(json.loads(told))
    return answers, told


def value_in(answer: dict[str, Any], tag: str) -> Any:
    """The first value of an attribute in DICOM JSON (PS3.18 section F.2.2), of a person's name its
    alphabetic group."""
    value = answer.get(tag, {}).get("Value", [None])[0]
    return value.get("Alphabetic") if isinstance(value, dict) and "Alphabetic" in value else value


# PS3.18 annex F: an attribute without a value has its VR alone
SHOWN_STUDY = {
    "00080020": {"vr": "DA", "Value": ["20240705"]}, "00080030": {"vr": "TM"},
    "00080050": {"vr": "SH"},
    "00080052": {"vr": "CS", "Value": ["STUDY"]}, "00080054": {"vr": "AE"},
    "00080056": {"vr": "CS", "Value": ["UNAVAILABLE"]},
    "00080061": {"vr": "CS", "Value": ["CT"]}, "00080090": {"vr": "PN"}, "00081030": {"vr": "LO"},
    "00100010": {"vr": "PN", "Value": [{"Alphabetic": "DOE^JANE"}]},
    "00100020": {"vr": "LO", "Value": ["P1"]},
    "00100021": {"vr": "LO"}, "00100030": {"vr": "DA"}, "00100040": {"vr": "CS"},
    "0020000D": {"vr": "UI", "Value": ["1.2.1"]},
    "00200010": {"vr": "SH"}, "00201206": {"vr": "IS", "Value": ["1"]},
    "00201208": {"vr": "IS", "Value": ["1"]}}
STUDY_UID, SERIES_UID, IMAGE_UID, PATIENT, STEP_ITEM, STEP_UID = ("0020000D", "0020000E",
                                                                  "00080018", "00100010",
                                                                  "00400100", "00080018")


def searches(tally: Tally, _: object) -> None:
    with Serving(PROGRAM, *configured("hospitals"), has_console=True) as server:
        desk = server.console()
        for calling, name, patient in (("CT1", "NORTH", "DOE^JANE"),
                                       ("CT2", "SOUTH", "ROE^RICHARD")):
            client = associated(server, calling)
            for at in range(3):
                client.send(store_of(f"1.2.{at}.1.1", f"1.2.{at}", PatientName=patient,
                                     PatientID=f"P{at}", StudyDate="20240705",
                                     Modality="CT"))
                tally.check(f"an image of {name}", client.status() == 0)
            client.send(message(f"create 1 9 1 1.2.9 {STEP}"))
            tally.check(f"a step of {name}", client.status() == 0)
            for identity in ("S2", "S3"):
                tally.check(f"an entry of {name}",
                            desk.ask(composed(f"schedule {name} {ENTRY.format(identity)}")[0])
                            == "done")
        for name, patient in (("NORTH", "DOE^JANE"), ("SOUTH", "ROE^RICHARD")):
            found, end = shown(desk, f"studies {name}")
            tally.check(f"the studies of {name}",
                        end == "end 3" and [value_in(one, STUDY_UID) for one in found]
                        == ["1.2.0", "1.2.1", "1.2.2"]
                        and {value_in(one, PATIENT) for one in found} == {patient}, end, found)
        wanted: Any
        for line, tag, wanted in (
                ("studies NORTH PatientID=P1", STUDY_UID, ["1.2.1"]),
                ("studies NORTH 00100020=P1", STUDY_UID, ["1.2.1"]),
                ("studies NORTH PatientName=doe%5Ejane limit=1 offset=1", STUDY_UID, ["1.2.1"]),
                ("studies NORTH limit=2", STUDY_UID, ["1.2.0", "1.2.1"]),
                ("studies NORTH offset=2", STUDY_UID, ["1.2.2"]),
                ("studies NORTH offset=3", STUDY_UID, []), ("studies NORTH limit=0", STUDY_UID, []),
                ("studies NORTH after=1.2.0", STUDY_UID, ["1.2.1", "1.2.2"]),
                ("studies NORTH limit=1 after=1.2.0", STUDY_UID, ["1.2.1"]),
                ("studies NORTH after=1.2.0 offset=1", STUDY_UID, ["1.2.2"]),
                ("studies NORTH after=1.2.05", STUDY_UID, ["1.2.1", "1.2.2"]),
                ("studies NORTH after=1.2.2", STUDY_UID, []),
                ("studies NORTH after=1.2.0 PatientID=P2", STUDY_UID, ["1.2.2"]),
                ("series NORTH StudyInstanceUID=1.2.1 after=1.2.1", SERIES_UID, ["1.2.1.1"]),
                ("series NORTH StudyInstanceUID=1.2.1 after=1.2.1.1", SERIES_UID, []),
                ("studies NORTH PatientName=ROE*", STUDY_UID, []),
                ("studies SOUTH PatientName=ROE*", STUDY_UID, ["1.2.0", "1.2.1", "1.2.2"]),
                ("series NORTH StudyInstanceUID=1.2.1", SERIES_UID, ["1.2.1.1"]),
                ("images NORTH StudyInstanceUID=1.2.1 SeriesInstanceUID=1.2.1.1", IMAGE_UID,
                 ["1.2.1.1.1"]),
                ("study-images NORTH StudyInstanceUID=1.2.1", IMAGE_UID, ["1.2.1.1.1"]),
                ("steps NORTH", STEP_UID, [None]), ("steps SOUTH offset=1", STEP_UID, [])):
            found, end = shown(desk, line)
            tally.check(line, end == f"end {len(wanted)}" and [value_in(one, tag) for one in found]
                        == wanted, end, found)
        found, end = shown(desk, "studies NORTH PatientID=P1")
        tally.check("a study, attribute by attribute", found == [SHOWN_STUDY], found)
        ids_wanted: Any
        for line, ids_wanted in (("worklist NORTH", ["S2", "S3"]),
                                 ("worklist NORTH Modality=CT limit=1", ["S2"]),
                                 ("worklist NORTH Modality=MR", []),
                             ("worklist SOUTH ScheduledProcedureStepID=S3", ["S3"])):
            found, end = shown(desk, line)
            ids = [value_in(value_in(one, STEP_ITEM), "00400009") for one in found]
            tally.check(line, end == f"end {len(ids_wanted)}" and ids == ids_wanted, end, found)
        for line, answer in (("studies EAST", "refused 6"), ("steps EAST", "refused 6"),
                             ("series NORTH", "refused A900"),
                             ("images NORTH StudyInstanceUID=1.2.1", "refused A900"),
                             ("study-images NORTH", "refused A900"),
                             ("studies NORTH Patient=P1", "refused keyword Patient=P1"),
                             ("studies NORTH limit=x", "refused keyword limit=x"),
                             ("studies NORTH after", "refused keyword after"),
                             ("worklist NORTH after=S2", "refused keyword after=S2"),
                             ("study-images NORTH StudyInstanceUID=1.2.1 after=1.2",
                              "refused keyword after=1.2"),
                             ("studies NORTH P1", "refused keyword P1"),
                             ("steps NORTH PatientID=P1", "refused keyword PatientID=P1")):
            found, end = shown(desk, line)
            tally.check(line, not found and end == answer, end, found)
        client.send(store_of("1.2.3.1.1", "1.2.3", PatientName="0x4dfc6c6c6572",
                             SpecificCharacterSet=f"0x{b'ISO_IR 100'.hex()}"))
        tally.check("an image with a name in Latin-1", client.status() == 0)
        found, end = shown(desk, "studies SOUTH PatientName=M%C3%BCller")
        tally.check("a name in Latin-1 is found by its characters", end == "end 1" and
                    [value_in(one, STUDY_UID) for one in found] == ["1.2.3"], end, found)
        tally.check("a search of nobody", told_to(server.console(), b"studies\n") == b"bad line\n")
        tally.check("searches: it goes on", desk.ask("report").startswith("NORTH studies 3 ")
                    and not server.errors(), server.errors())
    large_searches(tally)


def large_searches(tally: Tally) -> None:
    """A page of the console ends with the answer that fills 8 MiB, and says no word of it: one
    reads on until none comes."""
    with Serving(PROGRAM, *configured("hospitals"), has_console=True) as server:
        client, desk, ids = associated(server, "CT1"), server.console(), []
        for at in range(20):
            ids.append(f"L{at:02}")
            item = large_rows.item(ENTRY.format(ids[-1]), large_rows.LETTERS)
            tally.check(f"a large item, {at}", desk.ask(f"schedule NORTH {item.hex()}") == "done")
            client.send(large_rows.step(at, large_rows.LETTERS))
            tally.check(f"a large step, {at}", client.status() == 0)
        for kind, key_of in (
                ("worklist", lambda one: value_in(value_in(one, STEP_ITEM), "00400009")),
                ("steps", lambda one: value_in(one, "00100020"))):
            for words, first, last in (("", 0, 9), ("limit=20 offset=9", 9, 18),
                                       ("offset=18", 18, 20), ("offset=20", 20, 20),
                                       ("limit=4 offset=2", 2, 6), ("limit=9", 0, 9)):
                found, end = shown(desk, f"{kind} NORTH {words}".rstrip())
                tally.check(f"large {kind}, {words}", [key_of(one) for one in found]
                            == ids[first:last] and end == f"end {last - first}", len(found), end)
        tally.check("large searches: it goes on", is_alive(client) and not server.errors(),
                    server.errors())


def bad_lines(tally: Tally, server: Serving, schedule: str, withdraw: str) -> None:
    """A caller is let go at its first line that is none; those before it count, and those after it
    do not."""
    for line in BAD_LINES:
        with server.console() as caller:
            told = told_to(caller, line + b"\n")
            if not tally.check(f"the line {line}", told == b"bad line\n", told):
                break
    with server.console() as caller:
        told = told_to(caller, f"{schedule}\nx\n{withdraw}\n".encode())
        tally.check("lines around one that is none", told == b"done\nbad line\n", told)
    tally.check("a line after one that is none is no order",
                server.console().ask(withdraw) == "done")


def long_lines(tally: Tally, server: Serving) -> None:
    """The longest entry and the longest line, each in one write with the next line, and a longer
    one."""
    entry = f"schedule SOUTH {ENTRY.format('LONG')} PatientComments=zeros:"
    short = len(composed(f"{entry}100000")[0].split(" ")[2]) // 2
    longest = composed(f"{entry}{100000 + serving.LONGEST_ENTRY - short}")[0]
    withdraw = composed("withdraw SOUTH LONG")[0]
    count = (serving.LONGEST_LINE - len("schedule SOUTH ")) // 2
    for name, line, answers in (("an entry of the greatest length", longest, ["done", "done"]),
                                ("an entry that is longer by two octets", f"{longest}0000",
                                 ["refused 1", "refused 5"]),
                                ("a line of the greatest length", f"schedule SOUTH {count * '00'}",
                                 ["refused 1", "refused 5"]),
                                ("a line that is longer", f"schedule SOUTH {count * '00'}00",
                                 ["bad line", ""])):
        with server.console() as caller:
            with contextlib.suppress(BrokenPipeError, ConnectionResetError):
                caller.send(f"{line}\n{withdraw}\n".encode())
            told = [caller.line(), caller.line()]
            tally.check(f"{name}, with the next line", told == answers, told)
    with server.console() as caller:
        last = told_to(caller, b"0" * (2 * serving.LONGEST_LINE))
        tally.check("a line without an end", last == b"bad line\n", last)


def rights(tally: Tally, folder: pathlib.Path) -> None:
    """Files that the server makes are its owner's alone, whatever the umask; others keep theirs."""
    store, log, copy = folder / "rights.db", folder / "rights.log", folder / "rights_copy.db"
    journal, was_there = pathlib.Path(f"{store}-wal"), folder / "shared.log"
    with Serving(PROGRAM, "--new", store, "--log-file", log, has_console=True, umask=0) as server:
        with server.console() as desk:
            told = desk.ask(f"backup {copy}")
        tally.check("a backup without a umask", told == "done", told)
        for path in (store, journal, log, copy):
            mode = stat.S_IMODE(path.stat().st_mode)
            tally.check(f"{path.name} is its owner's alone", mode == 0o600, oct(mode))
    was_there.touch()
    for path in (store, journal, was_there):
        path.chmod(0o640)
    with Serving(PROGRAM, "--store", store, "--log-file", was_there, umask=0):
        for path in (store, journal, was_there):
            mode = stat.S_IMODE(path.stat().st_mode)
            tally.check(f"{path.name} keeps its rights", mode == 0o640, oct(mode))


def file(tally: Tally, folder: pathlib.Path) -> None:
    rights(tally, folder)
    path = folder / "console"
    with Serving(PROGRAM, "--console", path, umask=0) as server:
        mode = path.lstat().st_mode
        tally.check("the console's file is its owner's alone",
                    stat.S_ISSOCK(mode) and stat.S_IMODE(mode) == 0o600, oct(mode))
        done = run("serve", "--port", free_port(), "--console", path, "--turns", 0)
        tally.check("a console that is in use", done == (5, b"", b"network\n"), done)
        with Caller(path) as desk:
            tally.check("the first server keeps it",
                        desk.ask("report").startswith("DEMO studies 0 "))
        server.end(signal.SIGKILL)
    tally.check("a file that is left behind", path.is_socket())
    with Serving(PROGRAM, "--console", path) as server:
        with Caller(path) as desk:
            tally.check("it is made anew", desk.ask("report").startswith("DEMO studies 0 "))
        path.unlink()
        tally.check("a console whose file is gone ends nothing", serves(server))
    plain = folder / "plain"
    plain.write_text("kept")
    for name, other in (("a file that is no socket", plain), ("a folder", folder),
                        ("a folder that is not there", plain / "console"),
                        ("a name that is too long", folder / ("x" * 120)), ("no name", "")):
        done = run("serve", "--port", free_port(), "--console", other, "--turns", 0)
        tally.check(f"a console at {name}", done == (5, b"", b"network\n"), done)
    tally.check("a file that is no socket stays", plain.read_text() == "kept")


def callers(tally: Tally, _: object) -> None:
    with Serving(PROGRAM, has_console=True) as server:
        begun, client = time.monotonic(), associated(server)
        held = [server.console() for _ in range(8)]
        held[0].send(b"repo")
        tally.check("eight callers", held[7].ask("report").startswith("DEMO "))
        ninth = server.console()
        ninth.send(b"report\n")
        tally.check("a ninth caller waits", ninth.is_silent(2))
        held.pop().close()
        tally.check("it is served when one goes", ninth.line().startswith("DEMO "))
        busy, ended, has_spoken = held.pop(), {}, False
        while time.monotonic() - begun < 66:
            tally.check("an echo beside callers that are silent", is_alive(client))
            if not has_spoken and time.monotonic() - begun > 30:
                has_spoken = True
                busy.send(b"report\n")
                tally.check("one that speaks now and then", busy.line().startswith("DEMO "))
            for at, one in enumerate(held):
                if at not in ended and not one.is_silent(0.01):
                    ended[at] = time.monotonic() - begun
            time.sleep(0.5)
        tally.check("callers that are silent for a minute",
                    len(ended) == len(held) and 58 < min(ended.values()) and
                    max(ended.values()) < 66, ended)
        tally.check("one that spoke stays", busy.is_silent(0.1))


def posted_to(port: int) -> str:
    """A page that posts orders to a port, between two posts to another one that tell that it
    does."""
    return f"""<!doctype html><script>
const post = async port => {{ try {{ await fetch(`http://127.0.0.1:${{port}}/`, {{method: "POST", \
mode: "no-cors",
    headers: {{"Content-Type": "text/plain"}}, body: "withdraw NORTH 5331\\n".repeat(9)}}); \
}} catch (_) {{}} }};
(async () => {{ await post(SEEN); await post({port}); await post(SEEN); }})();
</script>"""


def browser(tally: Tally, folder: pathlib.Path) -> None:
    with Serving(PROGRAM, *configured("hospitals"), has_console=True) as server:
        schedule, withdraw = composed(f"schedule NORTH {ENTRY.format('S1')}")[0], composed(
            "withdraw NORTH S1")[0]
        tally.check("an order before", server.console().ask(schedule) == "done")
        if shutil.which("curl"):
            orders = ["--max-time", "10", "--http0.9", "-sS", "-H", "Content-Type: text/plain",
                      "--data-binary", f"{withdraw}\n" * 9]
            words: Any
            for name, words in (("the port", []),
                                ("the console", ["--unix-socket", server.console_path])):
                done = subprocess.run(["curl", *orders, *words, f"http://127.0.0.1:{server.port}/"],
                                      capture_output=True, check=False)
                tally.check(f"a POST to {name}", b"done" not in done.stdout
                            and done.stdout.count(b"bad line") <= 1, done)
        else:
            skip("a POST by curl", "it is not installed")
        found = next(filter(shutil.which, ("chromium", "chromium-browser", "google-chrome",
                                           "chrome", "headless_shell")), None)
        if found is None:
            skip("a POST by a browser", "Chromium is not installed")
        else:
            tally.check("a POST by a browser was made", has_posted(found, folder, server.port) == 2)
        with associated(server, "CT1") as north:
            tally.check("a POST changes nothing", found_entries(north) == 1)
        tally.check("the console takes orders after it", server.console().ask(withdraw) == "done")


def has_posted(program: str, folder: pathlib.Path, port: int) -> int:
    """How many posts a listener of our own saw, while a browser showed the page."""
    count = 0
    with socket.create_server((HOST, 0)) as listener:
        listener.settimeout(PATIENCE)
        page = folder / "page.html"
        page.write_text(posted_to(port).replace("SEEN", str(listener.getsockname()[1])))
        child = subprocess.Popen([program, "--headless", "--no-sandbox", "--disable-gpu",
                                  f"--user-data-dir={folder / 'browser'}",
                                  page.as_uri(), "--remote-debugging-port=0"],
                                 stdout=subprocess.DEVNULL, stderr=subprocess.DEVNULL)
        with contextlib.suppress(TimeoutError):
            while count < 2:
                with listener.accept()[0] as stream:
                    stream.settimeout(PATIENCE)
                    count += stream.recv(1 << 16).startswith(b"POST ")
                    stream.sendall(b"HTTP/1.1 204 No Content\r\nConnection: close\r\n\r\n")
        child.kill()
        child.wait()
    return count
