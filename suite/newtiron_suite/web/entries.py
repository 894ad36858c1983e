"""Entries of the worklist, and what is only looked at."""
import json
import pathlib
import signal
from typing import Any

from ..scenes import SERVED
from ..tally import Tally
from .common import STEP, Pair, entry_octets, rows_of
from .searches import SEARCHES


def entries(tally: Tally, folder: pathlib.Path) -> None:
    with Pair(folder, configuration="hospitals") as pair:
        pair.play("open 1", f"associate 1 ARCHIVE CT1 {SERVED}", "open 2",
                  f"associate 2 ARCHIVE CT2 {SERVED}")
        told = pair.compare(tally, "an entry", "POST", "/NORTH/worklist", "NORTH",
                            body=entry_octets("S1"),
                            fields=["Content-Type: application/dicom"])
        tally.check("it is created", told.status == 201, told.head)
        tally.check("a modality finds it",
                    pair.found_entries(1) == 1 and pair.found_entries(2) == 0)
        pair.compare(tally, "it is shown", "GET", "/NORTH/worklist", "NORTH")
        tally.check("it is shown, by hand",
                    b'"S1"' in pair.ask("GET", "/NORTH/worklist", "NORTH").body)
        pair.compare(tally, "the other hospital's are not", "GET", "/SOUTH/worklist", "SOUTH")
        for what, body, status in (("the same again", entry_octets("S1"), 409),
                                   ("no data set", b"\0", 400),
                                   ("nothing", b"", 400),
                                   ("one that is not complete", entry_octets("S1")[:-60], 400),
                                   ("no name", entry_octets("S4", ""), 400),
                                   ("JSON", b'{"00100010":{}}', 400),
                                   ("a long ID", entry_octets("S" * 17), 400)):
            told = pair.compare(tally, f"an entry that is {what}", "POST", "/NORTH/worklist",
                                "NORTH", body=body)
            tally.check(f"an entry that is {what}, by hand", told.status == status, told.status,
                        told.body)
        tally.check("no body", pair.ask("POST", "/NORTH/worklist", "NORTH").status == 400)
        strange = entry_octets("0x" + b"S/2 %?#".hex())
        pair.compare(tally, "an ID with marks", "POST", "/NORTH/worklist", "NORTH", body=strange)
        pair.compare(tally, "an encoded slash", "DELETE",
                     "/NORTH/worklist/S%2F2%20%25%3F%23", "NORTH")
        pair.compare(tally, "an ID with marks is withdrawn", "DELETE",
                     "/NORTH/worklist/S/2%20%25%3F%23", "NORTH")
        tally.check("a modality does not find it", pair.found_entries(1) == 1)
        for target in ("worklist/S9", "worklist/", "worklist/S1%00", "worklist/%", "worklist/s1",
                       "worklist/S1/x"):
            pair.compare(tally, "no such entry", "DELETE", f"/NORTH/{target}", "NORTH")
        pair.compare(tally, "another hospital's", "DELETE", "/SOUTH/worklist/S1", "SOUTH")
        pair.play(f"create 1 9 1 1.2.9 {STEP.replace('S9', 'S1')}")
        pair.compare(tally, "one that is started is not listed", "GET", "/NORTH/worklist", "NORTH")
        pair.compare(tally, "and counts", "GET", "/NORTH/counts", "NORTH")
        pair.compare(tally, "and its ID is taken", "POST", "/NORTH/worklist", "NORTH",
                     body=entry_octets("S1"))
        told = pair.compare(tally, "it is withdrawn", "DELETE", "/NORTH/worklist/S1", "NORTH")
        tally.check("it is withdrawn, by hand", told.status == 204 and told.body == b"",
                    told.status)
        pair.compare(tally, "and again", "DELETE", "/NORTH/worklist/S1", "NORTH")
        for at in range(100):
            told = pair.ask("POST", "/NORTH/worklist", "NORTH", body=entry_octets(f"E{at}"))
            pair.expected("POST", "/NORTH/worklist", "NORTH", body=entry_octets(f"E{at}"))
        tally.check("as many as it may keep", told.status == 201, told.status)
        told = pair.compare(tally, "one more", "POST", "/NORTH/worklist", "NORTH",
                            body=entry_octets("E100"))
        tally.check("one more, by hand", told.status == 507 and told.json() == {"refused": "4"},
                    told.status, told.body)
        pair.compare(tally, "the other has room", "POST", "/SOUTH/worklist", "SOUTH",
                     body=entry_octets("E100"))
        large = entry_octets("L1", RequestedProcedureComments="x" * 60000)
        pair.compare(tally, "a large one", "POST", "/SOUTH/worklist", "SOUTH", body=large)
        pair.is_right(tally, "entries")
    json_entries(tally, folder)
    store_of_entries(tally, folder)


def json_entry(identity: str, name: str = "DOE^JANE",
               more: dict[str, Any] | None = None) -> bytes:
    """An entry as a RIS writes it that has no DICOM library."""
    texts = {"00080050": ("SH", "A1"), "00100020": ("LO", "P1"), "0020000D": ("UI", "1.2.9"),
             "00401001": ("SH", "R1")}
    step = {"00080060": ("CS", "CT"), "00400001": ("AE", "CT1"), "00400002": ("DA", "20240705"),
            "00400003": ("TM", "0900"), "00400009": ("SH", identity)}
    found: dict[str, Any] = {tag: {"vr": vr, "Value": [text]}
                             for tag, (vr, text) in texts.items()}
    found["00100010"] = {"vr": "PN", "Value": [{"Alphabetic": name}]}
    found["00400100"] = {"vr": "SQ", "Value": [{tag: {"vr": vr, "Value": [text]}
                                                for tag, (vr, text) in step.items()}]}
    return json.dumps(dict(sorted({**found, **(more or {})}.items()))).encode()


def json_entries(tally: Tally, folder: pathlib.Path) -> None:
    """Entries as DICOM JSON (PS3.18 annex F)."""
    as_json = ["Content-Type: application/dicom+json"]
    long = "x" * 60000
    with Pair(folder, configuration="hospitals") as pair:
        pair.play("open 1", f"associate 1 ARCHIVE CT1 {SERVED}")
        for what, body, status in (
                ("plain", json_entry("S1"), 201),
                ("the same again", json_entry("S1"), 409),
                ("beyond ASCII", json_entry("S2", "M\u00fcller^J\u00fcrgen"), 201),
                ("with numbers", json_entry("S3", more={
                    "00101030": {"vr": "DS", "Value": [70.5]},
                    "001021C0": {"vr": "US", "Value": [4]}}), 201),
                ("with an attribute that is not known", json_entry("S4", more={
                    "00110010": {"vr": "LO", "Value": ["RIS"]},
                    "00111001": {"vr": "OB", "InlineBinary": "AQL/"}}), 201),
                ("large", json_entry("S5", more={"00401400": {"vr": "LT", "Value": [long]}}), 201),
                ("without a step", json.dumps({"00100020": {"vr": "LO"}}).encode(), 400),
                ("empty", b"{}", 400),
                ("a data set", entry_octets("S6"), 400),
                ("cut off", json_entry("S6")[:-1], 400),
                ("not UTF-8", json_entry("S6", "M?ller").replace(b"M?", b"M\xfc"), 400),
                ("with a name that is a string", json_entry("S6", more={
                    "00100010": {"vr": "PN", "Value": ["DOE^JANE"]}}), 400),
                ("in Latin-1", json_entry("S6", more={
                    "00080005": {"vr": "CS", "Value": ["ISO_IR 100"]}}), 400),
                ("with bulk data", json_entry("S6", more={
                    "7FE00010": {"vr": "OW", "BulkDataURI": "http://127.0.0.1/"}}), 400)):
            told = pair.compare(tally, f"JSON, {what}", "POST", "/NORTH/worklist", "NORTH",
                                body=body, fields=as_json)
            tally.check(f"JSON, {what}, by hand", told.status == status, told.status, told.body)
        tally.check("the place of what is wrong",
                    told.json() == {"refused": "json value 7FE00010"}, told.body)
        tally.check("a modality finds what was sent as JSON", pair.found_entries(1) == 5)
        pair.compare(tally, "what was sent as JSON is shown", "GET", "/NORTH/worklist", "NORTH")
        found = {one["00400100"]["Value"][0]["00400009"]["Value"][0]: one
                 for one in pair.ask("GET", "/NORTH/worklist", "NORTH").json()}
        tally.check("a name beyond ASCII, by hand",
                    found["S2"]["00100010"]["Value"] == [{"Alphabetic": "M\u00fcller^J\u00fcrgen"}]
                    and found["S2"]["00080005"]["Value"] == ["ISO_IR 192"]
                    and "00080005" not in found["S1"], found.get("S2"))
        for kind, status in (("Application/DICOM+JSON; charset=utf-8", 201),
                             ("application/json", 415), ("application/dicom+xml", 415),
                             ("multipart/related; type=\"application/dicom+json\"", 415)):
            told = pair.compare(tally, f"JSON as {kind}", "POST", "/NORTH/worklist", "NORTH",
                                body=json_entry("S7"), fields=[f"Content-Type: {kind}"])
            tally.check(f"JSON as {kind}, by hand", told.status == status, told.status, told.body)
        for at, kind in enumerate(("application/dicom", "application/octet-stream",
                                   "application/x-www-form-urlencoded", "Application/DICOM")):
            pair.compare(tally, f"a data set as {kind}", "POST", "/NORTH/worklist", "NORTH",
                         body=entry_octets(f"D{at}"), fields=[f"Content-Type: {kind}"])
        pair.is_right(tally, "entries as JSON")


def store_of_entries(tally: Tally, folder: pathlib.Path) -> None:
    """What was answered is in the store: it is there after SIGKILL."""
    store = folder / "rows.db"
    with Pair(folder, "--new", store) as pair:
        told = [pair.ask("POST", "/NORTH/worklist", "NORTH", body=entry_octets(f"K{at}")).status
                for at in range(5)]
        told.append(pair.ask("DELETE", "/NORTH/worklist/K2", "NORTH").status)
        pair.server.end(signal.SIGKILL)
    with Pair(folder, "--store", store) as pair:
        found = pair.ask("GET", "/NORTH/worklist", "NORTH").json()
        ids = [entry["00400100"]["Value"][0]["00400009"]["Value"][0] for entry in found]
        tally.check("after SIGKILL", told == [201] * 5 + [204] and ids == ["K0", "K1", "K3", "K4"],
                    told, ids)


def looks(tally: Tally, folder: pathlib.Path) -> None:
    store = folder / "rows.db"
    with Pair(folder, "--new", store) as pair:
        pair.fill()
        before, rows = pair.report(), rows_of(store, folder)
        targets = [*SEARCHES, "worklist/S2", "worklist?withdraw=S2", "schedule",
                   "withdraw/S2", "backup"]
        for method in ("GET", "HEAD", "OPTIONS", "PUT", "PATCH", "TRACE"):
            for target in targets if method == "GET" else targets[-5:]:
                with pair.connect() as speaker:
                    speaker.ask(method, f"/NORTH/{target}", pair.keys["NORTH"])
        for target in ("/metrics", "/backup", "/", "/health"):
            pair.ask("GET", target, "*")
        tally.check("what is kept is as before", pair.report() == before, pair.report(), before)
        tally.check("the store is as before", rows_of(store, folder) == rows, len(rows))
        pair.is_right(tally, "looks")
