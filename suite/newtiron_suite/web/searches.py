"""Searches of each kind."""
import pathlib
import urllib.parse

from ..scenes import SERVED
from ..tally import Tally
from .common import HOSPITALS, Pair, entry_words, store_line


def hospitals(tally: Tally, folder: pathlib.Path) -> None:
    with Pair(folder) as pair:
        tally.check("both are filled alike", pair.fill())
        for name, (_, patient) in HOSPITALS.items():
            other = next(one for one in HOSPITALS if one != name)
            for target in ("rs/studies", "rs/studies/1.2.0/series",
                           "rs/studies/1.2.0/series/1.2.0.1/instances", "worklist",
                           "steps", "counts"):
                pair.compare(tally, name, "GET", f"/{name}/{target}", name)
                pair.compare(tally, f"{name} by the key of {other}", "GET",
                             f"/{name}/{target}", other)
            told = pair.ask("GET", f"/{name}/rs/studies", name)
            names = {study["00100010"]["Value"][0]["Alphabetic"] for study in told.json()}
            uids = [study["0020000D"]["Value"][0] for study in told.json()]
            tally.check(f"the studies of {name}",
                        names == {patient} and uids == ["1.2.0", "1.2.1", "1.2.2"], names, uids)
            told = pair.ask("GET", f"/{name}/worklist", name)
            ids = [entry["00400100"]["Value"][0]["00400009"]["Value"][0] for entry in told.json()]
            tally.check(f"the entries of {name}",
                        ids == ["S2", "S3"] and patient in told.body.decode(), ids)
        told = pair.ask("GET", "/NORTH/counts", "NORTH")
        tally.check("counts", told.json() == {"studies": {"kept": 3, "limit": 100},
                                              "series": {"kept": 4},
                                              "images": {"kept": 5, "limit": 1000},
                                              "entries": {"kept": 2, "limit": 100},
                                              "steps": {"kept": 1, "limit": 100}},
                    told.body)
        pair.play(store_line(2, "1.2.7.1.1", "1.2.7", PatientName="ROE^RICHARD"))
        tally.check("the other's change is not seen",
                    pair.ask("GET", "/NORTH/counts", "NORTH").body == told.body)
        pair.compare(tally, "its own is", "GET", "/SOUTH/counts", "SOUTH")
        pair.is_right(tally, "hospitals")


SEARCHES = [
    "rs/studies?PatientID=P1", "rs/studies?00100020=P1", "rs/studies?PatientName=doe%5Ejane",
    "rs/studies?PatientName=*JAN*",
    "rs/studies?PatientName=D*&limit=1", "rs/studies?limit=2", "rs/studies?limit=2&offset=2",
    "rs/studies?offset=3",
    "rs/studies?offset=1&limit=1", "rs/studies?limit=0", "rs/studies?limit=100000",
    "rs/studies?offset=18446744073709551615",
    # after a key: of a study, of none, and with other words
    "rs/studies?after=1.2.0", "rs/studies?after=1.2.2", "rs/studies?after=1.2.05",
    "rs/studies?after=", "rs/studies?after=9", "rs/studies?after=1%2E2.0", "rs/studies?after=%FF",
    "rs/studies?after=1.2.0%00", "rs/studies?after=1.2.0,1.2.1", "rs/studies?limit=1&after=1.2.0",
    "rs/studies?after=1.2.0&offset=1", "rs/studies?after=1.2.1&after=1.2.0",
    "rs/studies?after=1.2.0&PatientID=P2", "rs/studies?after=1.2.0&PatientID=P0",
    "rs/studies?PatientName=D*&after=1.2.0", "rs/studies?StudyInstanceUID=1.2.2,1.2.0&after=1.2.0",
    "rs/studies?StudyInstanceUID=1.2.0&after=1.2.0", "rs/studies?StudyDate=20240702-&after=1.2.1",
    "rs/studies?StudyDate=20240702-", "rs/studies?StudyDate=20240701-20240702",
    "rs/studies?StudyDate=-20240701",
    "rs/studies?StudyDate=20240702&PatientID=P1", "rs/studies?StudyInstanceUID=1.2.0%5C1.2.2",
    "rs/studies?AccessionNumber=A2", "rs/studies?StudyDescription=Head%20of%20NORTH",
    "rs/studies?ModalitiesInStudy=MR",
    "rs/studies?includefield=all", "rs/studies?includefield=00081030&includefield=StudyID",
    "rs/studies?fuzzymatching=true",
    "rs/studies?fuzzymatching=false&PatientID=P0", "rs/studies?PatientName=NOBODY",
    "rs/studies?PatientID=p1",
    "rs/studies?PatientID=P1&&", "rs/studies?", "rs/studies?PatientID=P1&PatientID=P2",
    "rs/studies?PatientName=",
    "rs/studies?Rows=512", "rs/studies?PatientName=%00", "rs/studies?PatientName=%ff*",
    "rs/studies?PatientID=P+1", "rs/studies?StudyInstanceUID=1.2.0,1.2.2",
    "rs/studies?StudyInstanceUID=1.2.2%2C1.2.0", "rs/studies?StudyInstanceUID=1.2.0,",
    "rs/studies?PatientName=DOE,JANE",
    # unknown, and passed over
    "rs/studies?Patient=P1", "rs/studies?patientid=P1", "rs/studies?=P1", "rs/studies?0010002=P1",
    "rs/studies?PatientID=P1&x", "rs/studies?%50atientID=P1", "rs/studies?limits=1",
    "rs/studies?00091001=x&PatientID=P1", "rs/studies?x\"\\=1",
    "rs/studies?00400100.00400002=20240705", "steps?x=1", "rs/studies/1.2.0/series?x=1",
    "worklist?after=S2", "steps?after=1.2.0", "rs/studies/1.2.0/instances?after=1.2.0.1.1",
    "rs/studies?After=1.2.0",
    # refused
    "rs/studies?PatientID", "rs/studies?after", "rs/studies?limit=x", "rs/studies?limit=-1",
    "rs/studies?limit", "rs/studies?offset=1.5", "rs/studies?limit=",
    "rs/studies?StudyDate=yesterday",
    "rs/studies?StudyDate=20240230", "rs/studies?Rows=x",
    "rs/studies?limit=18446744073709551616", "rs/studies?ScheduledProcedureStepSequence=x",
    # below
    "rs/studies/1.2.0/series", "rs/studies/1.2.0/series?Modality=MR",
    "rs/studies/1.2.0/series?SeriesNumber=1",
    "rs/studies/1.2.0/series?limit=1&offset=1", "rs/studies/1.2.99/series",
    "rs/studies/1.2.0/series?after=1.2.0.1", "rs/studies/1.2.0/series?after=1.2.0.2",
    "rs/studies/1.2.0/series?after=1.2.0",
    "rs/studies/nothing/series",
    "rs/studies/1.2.0/series?StudyInstanceUID=1.2.1", "rs/studies/1.2.0/series/1.2.0.1/instances",
    "rs/studies/1.2.0/series/1.2.0.1/instances?InstanceNumber=2",
    "rs/studies/1.2.0/series/1.2.1.1/instances",
    "rs/studies/1.2.0/series/1.2.0.1/instances?limit=1",
    "rs/studies/1.2.0/series/1.2.0.1/instances?after=1.2.0.1.1",
    "rs/studies/1.2.0/series/1.2.0.1/instances?after=1.2.0.1.2",
    "rs/studies/1.2.0/instances", "rs/studies/1.2.0/instances?limit=1&offset=1",
    "rs/studies/1.2.0/instances?offset=2", "rs/studies/1.2.0/instances?InstanceNumber=2",
    "rs/studies/1.2.0/instances?SeriesInstanceUID=1.2.0.2",
    "rs/studies/1.2.0/instances?SeriesInstanceUID=1.2.0.2,1.2.0.1",
    "rs/studies/1.2.0/instances?SeriesInstanceUID=1.2.1.1",
    "rs/studies/1.2.0/instances?SeriesInstanceUID=",
    "rs/studies/1.2.0/instances?StudyInstanceUID=1.2.1", "rs/studies/1.2.0/instances?x=1",
    "rs/studies/1.2.0/instances?limit=x", "rs/studies/1.2.0/instances?ContentDate=x",
    "rs/studies/1.2.0/instances?offset=18446744073709551615", "rs/studies/1.2.99/instances",
    "rs/studies/nothing/instances", "rs/studies/1.2.0,1.2.1/instances",
    "rs/series", "rs/instances",
    "rs/series?Modality=CT",
    # the worklist and steps
    "worklist", "worklist?Modality=CT", "worklist?Modality=MR", "worklist?limit=1",
    "worklist?offset=1",
    "worklist?ScheduledProcedureStepID=S3", "worklist?PatientName=*jane*",
    "worklist?ScheduledProcedureStepStartDate=20240705",
    "worklist?ScheduledProcedureStepStartDate=20240706-",
    "worklist?AccessionNumber=A3", "worklist?ScheduledProcedureStepStartDate=x", "worklist?x=1",
    "steps", "steps?limit=1",
    "steps?offset=1", "steps?PatientID=P1", "steps?limit=x", "counts",
]


def searches(tally: Tally, folder: pathlib.Path) -> None:
    with Pair(folder) as pair:
        tally.check("both are filled alike", pair.fill())
        for target in SEARCHES:
            pair.compare(tally, "a search", "GET", f"/NORTH/{target}", "NORTH")
        told = pair.ask("GET", "/NORTH/rs/studies?PatientID=P1", "NORTH")
        tally.check("a study, by hand",
                    told.status == 200 and told.kind() == "application/dicom+json" and
                    [(study["0020000D"]["Value"], study["00081030"]["Value"],
                      study["00201206"]["Value"])
                     for study in told.json()] ==
                    [(["1.2.1"], ["Head of NORTH"], ["1"])], told.body)
        told = pair.ask("GET", "/NORTH/rs/studies?PatientName=NOBODY", "NORTH")
        tally.check("nothing is found, by hand",
                    (told.status, told.body, told.fields.get("content-type")) == (204, b"", None),
                    told.head)
        told = pair.ask("GET", "/NORTH/rs/studies?limit=many", "NORTH")
        tally.check("a word that is none, by hand",
                    told.status == 400 and told.json() == {"refused": "keyword limit=many"},
                    told.body)
        told = pair.ask("GET", "/NORTH/rs/studies?Nothing=1&PatientID=P1", "NORTH")
        tally.check("an unknown parameter, by hand",
                    told.status == 200 and len(told.json()) == 1 and told.fields.get("warning")
                    == '299 newtiron "An unknown parameter was ignored."', told.head)
        told = pair.ask("GET", "/NORTH/rs/studies?limit=%22%5C", "NORTH")
        tally.check("a refusal that quotes is JSON",
                    told.status == 400 and isinstance(told.json(), dict), told.body)
        tally.check("a quote in a query",
                    (told := pair.ask("GET", "/NORTH/rs/studies?limit=\"\\", "NORTH")).status == 400
                    and
                    isinstance(told.json(), dict), told.status, told.body)
        with pair.connect() as speaker:
            each = [speaker.ask("GET", f"/NORTH/{target}", pair.keys["NORTH"]).status
                    for target in SEARCHES[:9]]
            tally.check("many on one connection", each == [200] * 7 + [204, 200], each)
        forms(tally, pair)
        study_images(tally, pair)
        late_studies(tally, pair)
        long_page(tally, pair)
        pages_after(tally, pair)
        pair.is_right(tally, "searches")
    names(tally, folder)
    character_sets(tally, folder)


# What an Accept says, of which the first ones take DICOM JSON.
ACCEPTS: list[list[str]] = [
    [], ["*/*"], ["application/*"], ["application/dicom+json"], ["Application/DICOM+JSON"],
    ["application/json"],
    ["text/html, application/json;q=0.5"], ["application/dicom+xml", "application/dicom+json"],
    ["multipart/related; type=\"application/dicom+xml\"", "*/*;q=0.1"],
    ["application/dicom+xml"], ["multipart/related; type=\"application/dicom+xml\""], ["text/html"],
    ["text/*", "image/png"],
    ["application/dicom+jsonx"],
]


def forms(tally: Tally, pair: Pair) -> None:
    """The form of answers that is asked for, and the warning of fuzzy matching (PS3.18 sections
    8.3.4 and 10.6)."""
    for accepts in ACCEPTS:
        given = [f"Accept: {accept}" for accept in accepts]
        for target in ("rs/studies?PatientID=P1", "rs/studies?PatientName=NOBODY",
                       "worklist?Modality=MR", "steps", "counts"):
            told = pair.ask("GET", f"/NORTH/{target}", "NORTH", fields=given)
            wanted = pair.expected("GET", f"/NORTH/{target}", "NORTH",
                                   fields=[f"Accept: {', '.join(accepts)}"] if accepts else ())
            tally.check(f"{target} with {given}",
                        (told.status, told.body) == (wanted.status, wanted.body)
                        and not told.faults,
                        told.head, wanted.status)
    for target in ("rs/studies?fuzzymatching=true&PatientName=DOE*",
                   "rs/studies?PatientName=NOBODY&fuzzymatching=true",
                   "rs/studies?fuzzymatching=false", "rs/studies?fuzzymatching=true&Nothing=1"):
        told = pair.compare(tally, "fuzzy matching", "GET", f"/NORTH/{target}", "NORTH")
        is_warned = "fuzzymatching=true" in target
        tally.check(f"a warning of {target}",
                    ("fuzzymatching" in told.fields.get("warning", "")) == is_warned, told.fields)


# The images of a study by their series. In the order of their own UIDs those of the second series
# come first.
IN_STUDY = {"1.5.1": ["1.5.9.1", "1.5.9.2", "1.5.9.3"], "1.5.2": ["1.5.3.1", "1.5.3.2"]}
EACH = [image for images in IN_STUDY.values() for image in images]
# What the queries of a search for the images of that study find.
FOUND_IN_STUDY: dict[str, list[str]] = {
    "": EACH, "limit=3": EACH[:3], "limit=4": EACH[:4], "limit=2&offset=2": EACH[2:4],
    "offset=3": EACH[3:], "offset=4": EACH[4:], "limit=1&offset=3": EACH[3:4], "offset=5": [],
    "limit=0": [], "InstanceNumber=2": ["1.5.9.2", "1.5.3.2"],
    "InstanceNumber=2&offset=1": ["1.5.3.2"], "SOPInstanceUID=1.5.3.2,1.5.9.1":
    ["1.5.9.1", "1.5.3.2"], "SeriesInstanceUID=1.5.2": EACH[3:],
    "SeriesInstanceUID=1.5.2,1.5.1": EACH, "SeriesInstanceUID=1.2.0.1": [],
    "StudyInstanceUID=1.2.0": EACH, "Modality=MR": EACH,
}


def study_images(tally: Tally, pair: Pair) -> None:
    """The images of all series of a study, one series after the other (PS3.18 section 10.6.1);
    those of the neighbour's study with the same UID stay unseen."""
    for series, images in reversed(IN_STUDY.items()):
        for number, image in reversed(list(enumerate(images, 1))):
            pair.play(store_line(1, image, "1.5", SeriesInstanceUID=series, InstanceNumber=number))
    pair.play(store_line(2, "1.5.4.1", "1.5", SeriesInstanceUID="1.5.1", InstanceNumber=7))
    target = "/NORTH/rs/studies/1.5/instances"
    for query, wanted in FOUND_IN_STUDY.items():
        told = pair.compare(tally, "the images of a study", "GET", f"{target}?{query}", "NORTH")
        found = [one["00080018"]["Value"][0] for one in (told.json() if told.body else [])]
        tally.check(f"the images of a study, by hand: {query}",
                    told.status == (200 if wanted else 204) and found == wanted, found)
    for line, name in ((target, "NORTH"), (f"{target}?limit=1", "NORTH"), (target, "SOUTH")):
        pair.compare(tally, "the images of a study", "HEAD", line, name)
    told = pair.compare(tally, "the neighbour's", "GET", "/SOUTH/rs/studies/1.5/instances", "SOUTH")
    tally.check("the neighbour's, by hand", [one["00080018"]["Value"] for one in told.json()]
                == [["1.5.4.1"]], told.body)
    told = pair.ask("GET", "/NORTH/rs/studies/1.6/instances", "NORTH")
    tally.check("a study that is not kept, by hand", (told.status, told.body) == (204, b""),
                told.head)


# Studies that come late, and how many fill a page of a hundred with those that are there before.
LATE = ["1.2.0.5", "1.2.1.5"]
LONG_STUDIES = 94


def long_page(tally: Tally, pair: Pair) -> None:
    """A page has 100 answers where nothing else is said."""
    for at in range(3, 3 + LONG_STUDIES):
        pair.play(store_line(1, f"1.2.{at}.1.1", f"1.2.{at}", PatientName=f"LONG^{at}",
                             StudyDescription="x" * 60))
    tally.check("a hundred studies",
                len(pair.ask("GET", "/NORTH/rs/studies", "NORTH").json()) == 100)
    for limit, is_warned in ((99, True), (100, True), (101, False), (0, False)):
        told = pair.ask("GET", f"/NORTH/rs/studies?limit={limit}", "NORTH")
        tally.check(f"a warning that a page of {limit} is full",
                    ("The page is full" in told.fields.get("warning", "")) == is_warned, told.head)
    for target in ("rs/studies", "rs/studies?limit=1000", "rs/studies?PatientName=LONG*&offset=90",
                   "rs/studies?limit=100&offset=100"):
        pair.compare(tally, "a long page", "GET", f"/NORTH/{target}", "NORTH")


def study_page(pair: Pair, query: str) -> list[str]:
    """The Study Instance UIDs that a query shows."""
    told = pair.ask("GET", f"/NORTH/rs/studies?{query}", "NORTH")
    return [study["0020000D"]["Value"][0] for study in (told.json() if told.body else [])]


def late_studies(tally: Tally, pair: Pair) -> None:
    """Studies that come between two pages: one before the key after which the second begins, and
    one behind it."""
    first = study_page(pair, "limit=2")
    for uid in LATE:
        pair.play(store_line(1, f"{uid}.1.1", uid, PatientName="LATE"))
    rest = study_page(pair, f"after={first[-1]}")
    tally.check("studies that come between two pages",
                (first, rest) == (["1.2.0", "1.2.1"], ["1.2.1.5", "1.2.2", "1.5"]), first, rest)


def pages_after(tally: Tally, pair: Pair) -> None:
    """Pages, each after the key of the last row of the one before, show what pages by offset show:
    each row once, in the order of keys."""
    seen = list[str]()
    while found := study_page(pair, "limit=20" + (f"&after={seen[-1]}" if seen else "")):
        tally.check(f"the page by offset {len(seen)}",
                    found == study_page(pair, f"limit=20&offset={len(seen)}"), found)
        seen += found
    kept = [f"1.2.{at}" for at in range(3 + LONG_STUDIES)] + ["1.5", *LATE]
    tally.check("pages after keys show each study once", seen == sorted(kept), seen)
    for query, wanted in (("after=1.2.5&limit=2", ["1.2.50", "1.2.51"]),
                          ("after=1.2.49.9&limit=1", ["1.2.5"]), ("after=1.5", []),
                          ("after=1.2.9&offset=5&limit=2", ["1.2.95", "1.2.96"]),
                          ("after=1.2.95&limit=9", ["1.2.96", "1.5"])):
        found = study_page(pair, query)
        tally.check(f"a page after a key, by hand: {query}", found == wanted, found)


def names(tally: Tally, folder: pathlib.Path) -> None:
    """Text of any octets is shown as JSON that is valid."""
    with Pair(folder) as pair:
        pair.play("open 1", f"associate 1 ARCHIVE CT1 {SERVED}",
                  store_line(1, "1.2.1.1.1", "1.2.1",
                             PatientName='0x3c696d67207372633d783e225c5c6e'),
                  store_line(1, "1.2.2.1.1", "1.2.2", PatientName="0x" + "Zoë^Ü=山田".encode().hex(),
                             SpecificCharacterSet="ISO_IR 192"),
                  store_line(1, "1.2.3.1.1", "1.2.3", PatientName="0x4df36c6c6572",
                             SpecificCharacterSet="ISO_IR 100"),
                  store_line(1, "1.2.4.1.1", "1.2.4", PatientName="0x01021b7f"),
                  store_line(1, "1.2.5.1.1", "1.2.5", PatientName="</script>"),
                  # sets with escape sequences are not converted (PS3.5 annexes H and I)
                  store_line(1, "1.2.6.1.1", "1.2.6", PatientName="0x" + (
                      b"Yamada^Tarou=\x1b$B;3ED\x1b(B^\x1b$BB@O:\x1b(B").hex(),
                             SpecificCharacterSet="\\\\ISO 2022 IR 87"),
                  store_line(1, "1.2.7.1.1", "1.2.7", PatientName="0x" + (
                      b"Hong^Gildong=\x1b$)C\xfb\xf3^\x1b$)C\xd1\xce\xd4\xd7").hex(),
                             SpecificCharacterSet="\\\\ISO 2022 IR 149"))
        told = pair.compare(tally, "names", "GET", "/NORTH/rs/studies", "NORTH")
        tally.check("names are JSON", len(told.json()) == 7, told.body)
        tally.check("a name that is not converted", told.json()[6]["00100010"]["Value"] == [
            {"Alphabetic": "Hong^Gildong", "Ideographic": "\x1b$)C\ufffd\ufffd^\x1b$)C"
             "\ufffd\ufffd\ufffd\ufffd"}], told.json()[6])
        pair.compare(tally, "a name in UTF-8", "GET", "/NORTH/rs/studies?PatientName=Zo%C3%AB*",
                     "NORTH")


# Names, each with the character sets that it is kept in and its octets there: those of the
# registrations that PS3.3 table C.12-2 names, and UTF-8.
KEPT_NAMES: dict[str, list[tuple[str, str]]] = {
    "Müller": [("ISO_IR 100", "4dfc6c6c6572"), ("ISO_IR 148", "4dfc6c6c6572"),
               ("ISO_IR 192", "4dc3bc6c6c6572"), ("", "4dc3bc6c6c6572")],
    "ŞAHİN": [("ISO_IR 109", "aa4148a94e"), ("ISO_IR 148", "de4148dd4e"),
              ("ISO_IR 192", "c59e4148c4b04e")],
    "ŁOŚ": [("ISO_IR 101", "a34fa6")], "ĢIRTS": [("ISO_IR 110", "ab49525453")],
    "Διονυσιος": [("ISO_IR 126", "c4e9efedf5f3e9eff2")],
    "قباني^لنزار": [("ISO_IR 127", "e2c8c7e6ea5ee4e6d2c7d1")],
    "שרון^דבורה": [("ISO_IR 138", "f9f8e5ef5ee3e1e5f8e4")],
    "Люкceмбypг": [("ISO_IR 144", "bbeeda6365dcd17970d3")],
    "สมชาย": [("ISO_IR 166", "cac1aad2c2")], "Muller": [("", "4d756c6c6572")],
}
# Keys, and whose names they find.
NAME_KEYS: dict[str, list[str]] = {
    **{name: [name] for name in KEPT_NAMES}, "Mül*": ["Müller"], "Mül?er": ["Müller"],
    "*σιος": ["Διονυσιος"], "müller": ["Müller"], "MÜLLER": [], "ŞAHİN ": ["ŞAHİN"],
    "Müller\\ŞAHİN": ["Müller", "ŞAHİN"], "Ÿ\\Müller\\": ["Müller"],
    "Ş*\\M*": ["Muller", "Müller", "ŞAHİN"], "Müller\uFFFD": [], "\u0085": [], "山田": [],
}


def escaped(text: str) -> str:
    """A key in UTF-8, as a part of a query."""
    return urllib.parse.quote(text, safe="")


def character_sets(tally: Tally, folder: pathlib.Path) -> None:
    """A name is found by its characters, whether it is kept in UTF-8 or in a set of one octet a
    character (PS3.3 section C.12.1.1.2)."""
    kept = [(name, term, octets) for name, kinds in KEPT_NAMES.items() for term, octets in kinds]
    with Pair(folder) as pair:
        pair.play("open 1", f"associate 1 ARCHIVE CT1 {SERVED}")
        for at, (_, term, octets) in enumerate(kept):
            named = {"SpecificCharacterSet": term} if term else {}
            pair.play(store_line(1, f"1.3.{at}.1.1", f"1.3.{at}", PatientName=f"0x{octets}",
                                 PatientID=f"0x{octets}", **named),
                      f"schedule NORTH {entry_words(f'S{at}', f'0x{octets}', **named)}")
        for key, found in NAME_KEYS.items():
            wanted = sorted(name for name, *_ in kept if name in found)
            for target in ("rs/studies", "worklist"):
                told = pair.compare(tally, f"a name as {key!r}", "GET",
                                    f"/NORTH/{target}?PatientName={escaped(key)}", "NORTH")
                names = sorted(one["00100010"]["Value"][0]["Alphabetic"]
                               for one in (told.json() if told.body else []))
                tally.check(f"{target}: whose name is {key!r}, by hand", names == wanted, names)
        for target in ("rs/studies?PatientID=M%C3%BCller", "rs/studies?PatientID=%C5%81*",
                       "rs/studies?PatientName=M%C3%BCller%5CM%FCller",
                       "rs/studies?PatientName=M%FCller", "rs/studies?PatientName=M?ller",
                       "rs/studies?StudyDescription=M%C3%BCller"):
            pair.compare(tally, "text in each set", "GET", f"/NORTH/{target}", "NORTH")
        # octets of one set may be those of another name in another set
        pair.play(store_line(1, "1.3.99.1.1", "1.3.99", PatientName="0x4dfc6c6c6572",
                             SpecificCharacterSet="ISO_IR 144"))
        told = pair.compare(tally, "the octets of another name", "GET",
                            f"/NORTH/rs/studies?PatientName={escaped('Müller')}", "NORTH")
        tally.check("a name of the same octets is found too", len(told.json()) == 5, told.body)
