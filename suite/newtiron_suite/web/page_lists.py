"""Plays of the page's lists: their order, what they refresh, what a search finds, how they read."""
import json
import pathlib
import re

from ..browser import Browser
from ..tally import Tally
from .common import Pair, entry_octets, store_line
from .page_help import (
    CAPTION, CELLS, HEADS, MARKUP, ROWS, STATE, STEP_IDS, TODAY, click, item_at, open_page,
    open_worklist, search_for)
from .pages import large_entry

HEADS_OF_TABLE = "[...document.querySelectorAll('thead th')].map(one => one.textContent)"


def rows_of_worklist(tally: Tally, pair: Pair, page_of: Browser) -> None:
    """What the page shows once it is opened: rows, bars, the time; no markup of a name."""
    open_page(page_of, pair, "NORTH", "wrong")
    tally.check("a wrong token", page_of.until(f"{STATE}.includes('does not open')") and
                page_of.run("document.getElementById('institution').hidden"), page_of.run(STATE))
    tally.check("the worklist", open_worklist(page_of, pair), page_of.run(STATE))
    first = page_of.run(CELLS)[0]
    tally.check("a row", first[0] == "2024-07-05 09:00" and first[2:6] == ["P1", "", "CT", "CT1"]
                and first[7] == "S1", first)
    elements = "document.querySelectorAll('tbody img, tbody b, tbody script').length"
    tally.check("markup in a name stays text", first[1] == MARKUP.replace("^", ", ") and
                page_of.run(elements) == 0, first)
    told = page_of.run("document.getElementById('session').textContent")
    tally.check("who is signed in, and when the list was read",
                re.search(r"NORTH as of .*\d", told), told)
    bars = page_of.run("[...document.querySelectorAll('#counts meter')].map("
                       "one => [one.parentNode.textContent.trim(), one.value, one.max])")
    tally.check("bars", bars == [["studies 3 of 100", 3, 100], ["images 5 of 1000", 5, 1000],
                                 ["entries 3 of 100", 3, 100], ["steps 1 of 100", 1, 100]], bars)


def order_of_worklist(tally: Tally, pair: Pair, page_of: Browser) -> None:
    """The worklist opens on today, in the order of time, and follows the server by itself."""
    pair.play(f"schedule NORTH {item_at('A9', 'ROE^RICHARD', time='1630')}",
              f"schedule NORTH {item_at('Z1', 'MILLER^ANNA', time='0715')}",
              f"schedule NORTH {item_at('B5', 'OTHER^DAY', day='20240706')}")
    open_page(page_of, pair, "NORTH")
    tally.check("the worklist opens on today, in the order of time",
                page_of.until(f"{STEP_IDS} === 'Z1,S1,S2,S3,A9'"), page_of.run(STEP_IDS))
    tally.check("and says so", page_of.run(CAPTION) == f"Waiting worklist items, {TODAY}",
                page_of.run(CAPTION))
    page_of.run("document.querySelector('[aria-label=\"Withdraw S3\"]').focus()")
    pair.play(f"schedule NORTH {item_at('N1', 'NEW^NORA', time='0800')}")
    page_of.advance(31)
    tally.check("an item of others appears by itself",
                page_of.until(f"{STEP_IDS} === 'Z1,N1,S1,S2,S3,A9'", 3), page_of.run(STEP_IDS))
    tally.check("and the focus stays", page_of.run("document.activeElement.ariaLabel") ==
                "Withdraw S3", page_of.run("document.activeElement.outerHTML"))
    pair.play("withdraw NORTH N1")
    page_of.advance(31)
    tally.check("one that others withdraw goes by itself",
                page_of.until(f"{STEP_IDS} === 'Z1,S1,S2,S3,A9'", 3), page_of.run(STEP_IDS))
    click(page_of, "#days")
    tally.check("all days", page_of.until(f"{STEP_IDS} === 'Z1,S1,S2,S3,A9,B5'"),
                page_of.run(STEP_IDS))
    click(page_of, "#today")
    tally.check("and today again", page_of.until(f"{STEP_IDS} === 'Z1,S1,S2,S3,A9'"),
                page_of.run(STEP_IDS))
    for one in ("A9", "Z1", "B5"):
        pair.play(f"withdraw NORTH {one}")


def searches_of_worklist(tally: Tally, pair: Pair, page_of: Browser) -> None:
    """The worklist by name, patient ID, accession number, modality, station and day."""
    accent = "0x" + "ÖZTÜRK^ZOË".encode().hex()
    in_latin_2 = "0x" + "BŁASZCZYK^JÓZEF".encode("iso8859-2").hex()
    items = (item_at("Z1", "MILLER^ANNA^MARIA", "20240706", "0715", "MR", "MR1",
                     AccessionNumber="A77"),
             item_at("Z2", accent, SpecificCharacterSet="ISO_IR 192"),
             item_at("Z3", in_latin_2, SpecificCharacterSet="ISO_IR 101"))
    pair.play(*(f"schedule NORTH {item}" for item in items))
    open_worklist(page_of, pair, 5)
    tally.check("a name in Latin-2 is displayed", "BŁASZCZYK, JÓZEF" in page_of.run(
        f"{CELLS}.map(row => row[1])"))
    click(page_of, "#days")
    page_of.until(f"{ROWS} === 6")
    displayed = page_of.run(f"{CELLS}.map(row => row[1])")[-1]
    tally.check("a name is displayed", displayed == "MILLER, ANNA MARIA", displayed)
    for what, wanted, fields in (
            ("a name as it is displayed", "Z1", {"name": displayed}),
            ("a name in lower case", "Z1", {"name": "miller, a"}),
            ("parts of a name", "Z1", {"name": "mil maria"}),
            ("a given name", "Z1", {"name": "anna"}),
            ("a name with accents as it is displayed", "Z2", {"name": "ÖZTÜRK, ZOË"}),
            ("the same in lower case", "Z2", {"name": "öztürk"}),
            ("a name that is kept in Latin-2", "Z3", {"name": "Błaszczyk, Józef"}),
            ("nobody's name", "", {"name": "nobody"}),
            ("an accession number", "Z1", {"accession": "A77"}),
            ("a patient ID", "S1,S2,S3,Z2,Z3,Z1", {"id": "P1"}),
            ("a part of an ID", "", {"id": "P"}),
            ("a modality in lower case", "Z1", {"modality": "mr"}),
            ("a station", "Z1", {"station": "MR1"}),
            ("a day", "Z1", {"from": "2024-07-06", "to": "2024-07-06"}),
            ("days from one", "Z1", {"from": "2024-07-06"}),
            ("days to one", "S1,S2,S3,Z2,Z3", {"to": "2024-07-05"}),
            ("a modality and a name", "", {"modality": "MR", "name": "roe"})):
        search_for(page_of, **fields)
        tally.check(f"the worklist is searched for {what}",
                    page_of.until(f"{STEP_IDS} === {json.dumps(wanted)}", 3), page_of.run(STEP_IDS))
    for one in ("Z1", "Z2", "Z3"):
        pair.play(f"withdraw NORTH {one}")


def steps_list(tally: Tally, pair: Pair, page_of: Browser) -> None:
    """Performed procedure steps with their start, end and state."""
    pair.play('set 1 9 1 1.2.9 "PerformedProcedureStepStatus=COMPLETED" '
              "PerformedProcedureStepEndDate=20240705 PerformedProcedureStepEndTime=0942 "
              "PerformedSeriesSequence= { SeriesInstanceUID=1.2.9.1 PerformingPhysicianName= "
              "ProtocolName=Head OperatorsName= SeriesDescription= RetrieveAETitle= "
              "ReferencedImageSequence= ReferencedNonImageCompositeSOPInstanceSequence= }")
    open_worklist(page_of, pair)
    click(page_of, "#steps")
    page_of.until(f"{CAPTION} === 'Performed procedure steps'")
    tally.check("steps have their start, end and state", page_of.run(HEADS_OF_TABLE)[:3] ==
                ["Start", "End", "State"] and page_of.run(CELLS)[0][:3] ==
                ["2024-07-05 09:00", "2024-07-05 09:42", "COMPLETED"], page_of.run(CELLS))
    tally.check("they have no search",
                not page_of.run("document.getElementById('search').checkVisibility()"))


def studies_list(tally: Tally, pair: Pair, page_of: Browser) -> None:
    """Studies, their series and images; newest first if days are asked for."""
    open_worklist(page_of, pair)
    click(page_of, "#studies")
    tally.check("studies open on today", page_of.until(f"{CAPTION} === 'Studies, {TODAY}'") and
                page_of.run("document.getElementById('range').textContent") == "Nothing found")
    click(page_of, "#days")
    tally.check("all days", page_of.until(f"{ROWS} === 3"), page_of.run(CELLS))
    tally.check("their columns", page_of.run(HEADS_OF_TABLE) == [
        "Date", "Patient", "ID", "Accession", "Modalities", "Description", "Series", "Instances"],
        page_of.run(HEADS_OF_TABLE))
    tally.check("a study", page_of.run(CELLS)[0] == [
        "2024-07-01 09:05:00", "DOE, JANE", "P0", "A0", "CT, MR", "Head of NORTH", "2", "3"],
        page_of.run(CELLS))
    click(page_of, "tbody tr")
    tally.check("its series", page_of.until(f"{ROWS} === 2 && {CAPTION}.startsWith('Series')"),
                page_of.run(CELLS))
    click(page_of, "tbody tr")
    tally.check("its images", page_of.until(f"{ROWS} === 2 && {CAPTION}.startsWith('Images')"),
                page_of.run(CELLS))
    click(page_of, "#up")
    page_of.until(f"{CAPTION}.startsWith('Series')")
    click(page_of, "#up")
    tally.check("and up", page_of.until(f"{ROWS} === 3 && {CAPTION} === 'Studies'"),
                page_of.run(CELLS))
    ids = f"{CELLS}.map(row => row[2]).join()"
    for what, wanted, fields in (
            ("days", "P2,P1", {"from": "2024-07-02"}), ("a name as it is displayed", "P2,P1,P0",
                                                       {"name": "Doe, Jane"}),
            ("a modality", "P0", {"modality": "mr"}), ("an accession number", "P1",
                                                       {"accession": "A1"}),
            ("a patient ID", "P2", {"id": "P2"}), ("nobody", "", {"name": "nobody"})):
        search_for(page_of, **fields)
        tally.check(f"studies are searched for {what}", page_of.until(
            f"{ids} === {json.dumps(wanted)}", 3), page_of.run(ids))
    tally.check("stations are of the worklist only", not page_of.run(
        "document.querySelector('#search').elements.station.checkVisibility()"))


def long_lists(tally: Tally, folder: pathlib.Path, page_of: Browser) -> None:
    """Lists of more than a page: 101 items of one day, and studies of none."""
    told = "document.getElementById('range').textContent"
    with Pair(folder, configuration="paged") as pair:
        pair.fill(1)
        with pair.connect() as speaker:
            for at in range(99):
                time = f"{at // 60:02}{at % 60:02}".encode()
                octets = entry_octets(f"T{at:03}").replace(b"0900", time)
                speaker.ask("POST", "/NORTH/worklist", pair.keys["NORTH"], body=octets)
        for at in range(100):
            pair.play(store_line(1, f"1.3.{at}.1.1", f"1.3.{at}", PatientName=f"MANY^{at}"))
        open_page(page_of, pair, "NORTH")
        tally.check("a page of the worklist", page_of.until(f"{ROWS} === 100") and
                    page_of.run(told) == "1 to 100 of 101" and
                    page_of.run(STEP_IDS).endswith("T098,S2"), page_of.run(told))
        click(page_of, "#next")
        tally.check("and the next", page_of.until(f"{STEP_IDS} === 'S3'") and
                    page_of.run(told) == "101 to 101 of 101", page_of.run(told))
        click(page_of, "#back")
        tally.check("and back", page_of.until(f"{ROWS} === 100") and
                    page_of.run(told) == "1 to 100 of 101", page_of.run(told))
        click(page_of, "#studies")
        tally.check("studies without a date are of no day", page_of.until(
            f"{CAPTION}.startsWith('Studies')") and page_of.run(ROWS) == 0, page_of.run(ROWS))
        click(page_of, "#days")
        tally.check("a page of all studies", page_of.until(f"{ROWS} === 100") and
                    page_of.run(told) == "1 to 100", page_of.run(told))
        click(page_of, "#next")
        tally.check("and the rest", page_of.until(f"{ROWS} === 1") and
                    page_of.run(told) == "101 to 101", page_of.run(told))
        click(page_of, "#back")
        tally.check("and back to the first", page_of.until(f"{ROWS} === 100") and
                    page_of.run("document.getElementById('back').disabled"), page_of.run(told))


def large_lists(tally: Tally, folder: pathlib.Path, page_of: Browser) -> None:
    """A list is whole of which one response, of 8 MiB, has a part."""
    told = "document.getElementById('range').textContent"
    with Pair(folder) as pair:
        for at in range(12):
            pair.ask("POST", "/NORTH/worklist", "NORTH", body=large_entry(f"L{at:02}"),
                     fields=["Content-Type: application/dicom+json"])
        open_page(page_of, pair, "NORTH")
        tally.check("twelve items of 1 MB", page_of.until(f"{ROWS} === 12") and
                    page_of.run(told) == "1 to 12 of 12", page_of.run(told))


def sizes(tally: Tally, pair: Pair, page_of: Browser) -> None:
    dark, still = ("prefers-color-scheme", "dark"), ("prefers-reduced-motion", "reduce")
    seen: list[tuple[int, list[tuple[str, str]]]] = [
        (320, []), (320, [dark]), (1280, [dark]), (1280, [still]), (800, [])]
    item = item_at("S240705-4F7K2", "VAN DER BERG-HOFFMANN^MARIA ELISABETH",
                   station="LONG_STATION_01", AccessionNumber="ACC1234567890")
    pair.play(f"schedule NORTH {item}")
    over = ("['documentElement', '#panel'].map(name => document[name] ?? "
            "document.querySelector(name)).map(one => one.scrollWidth - one.clientWidth)")
    for width, features in seen:
        page_of.resize(width, 900, features)
        open_worklist(page_of, pair, 4)
        tally.check(f"{width} pixels, {features}: nothing stands out",
                    page_of.run(over) == [0, 0], page_of.run(over))
        color = page_of.run("getComputedStyle(document.body).color")
        if dark in features:
            tally.check(f"{width} pixels: dark", color == "rgb(255, 255, 255)", color)
        if still in features:
            moves = page_of.run(
                "[...document.querySelectorAll('*')].map(one => getComputedStyle(one)).filter("
                "one => one.transitionDuration !== '0s' || one.animationName !== 'none').length")
            tally.check("nothing moves", moves == 0, moves)
        octets = page_of.picture()
        tally.check(f"{width} pixels: a picture", octets.startswith(b"\x89PNG") and
                    len(octets) > 5000, len(octets))
    page_of.resize(1280, 900)
    pair.play("withdraw NORTH S240705-4F7K2")


def targets(tally: Tally, pair: Pair, page_of: Browser) -> None:
    """What can be pressed has 24 pixels each way (WCAG 2.2, success criterion 2.5.8)."""
    small = ("[...document.querySelectorAll('button, input, select, summary, a')].filter("
             "one => one.checkVisibility()).map(one => [one.outerHTML.slice(0, 80), "
             "one.getBoundingClientRect().width, one.getBoundingClientRect().height]).filter("
             "([, width, height]) => width < 24 || height < 24)")
    for width in (390, 1280):
        page_of.resize(width, 844)
        open_worklist(page_of, pair)
        for tab in ("steps", "studies", "worklist", *(["new"] if width == 390 else [])):
            click(page_of, f"#{tab}")
            page_of.until(f"document.getElementById('{tab}').ariaSelected === 'true'")
            click(page_of, "#days" if tab == "studies" else f"#{tab}")
            page_of.until(f"{ROWS} > 0")
            tally.check(f"{width} pixels, {tab}: targets", page_of.run(small) == [],
                        page_of.run(small))
    page_of.resize(1280, 900)


def phone(tally: Tally, pair: Pair, page_of: Browser) -> None:
    """A narrow window: the form is a tab, and the table stays one for a screen reader."""
    seen = "['panel', 'form'].map(id => document.getElementById(id).checkVisibility()).join()"
    page_of.resize(390, 844)
    open_worklist(page_of, pair)
    nodes = [(one["role"]["value"], one["name"]["value"]) for one in page_of.accessible("table")]
    roles = [role for role, _ in nodes]
    tally.check("a screen reader is given a table with its heads", roles.count("row") == 4 and
                [name for role, name in nodes if role == "columnheader"] == HEADS and
                roles.count("cell") == 3 * len(HEADS), nodes)
    tally.check("a phone shows the list first", page_of.run(seen) == "true,false",
                page_of.run(seen))
    click(page_of, "#new")
    tally.check("the form is a tab", page_of.run(seen) == "false,true", page_of.run(seen))
    click(page_of, "#worklist")
    page_of.until(f"{ROWS} === 3")
    click(page_of, "[aria-label='Copy S2']")
    tally.check("a copy opens it", page_of.run(seen) == "false,true" and
                page_of.run("document.activeElement.name") == "00400002", page_of.run(seen))
    page_of.resize(1280, 900)
    tally.check("a wide window shows both", page_of.until(f"{seen} === 'true,true'", 3),
                page_of.run(seen))
