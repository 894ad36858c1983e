"""Plays of the page's form: items are scheduled, copied, changed and withdrawn."""
import re
from typing import Any

from ..browser import Browser
from ..client import until
from ..tally import Tally
from .common import Pair, entry_octets, entry_words
from .page_help import (
    ACCESSION, ANSWER, ASKED, CELLS, DATE, FORM, MODALITY, PATIENT_ID, PROCEDURE_ID, ROWS, STATE,
    STATION, STEP_ID, STUDY, TIME, click, fill_form, kept_item, open_worklist, send_form, spelled,
    step_of)

NEW_ITEM = {"family": "NEW", "given": "PATIENT", PATIENT_ID: "P9", MODALITY: "CT", STATION: "CT1",
            DATE: "2024-07-05", TIME: "09:30", "00400007": "Head"}
SUMMARY = "NEW, PATIENT (P9), CT at CT1, 2024-07-05 09:30"
IS_ASKED = "document.getElementById('question').open"
# An item with much that the form does not show.
RICH = (f'"PatientName=0x{"MÜLLER^ANNA^MARIA=山田^花子".encode().hex()}" PatientID=P7 PatientSex=F '
        'PatientBirthDate=19700102 "SpecificCharacterSet=ISO_IR 192" PregnancyStatus=4 '
        "StudyInstanceUID=1.2.77 RequestedProcedureID=R77 AccessionNumber=A77 "
        '"MedicalAlerts=PACEMAKER\\\\LATEX" RequestedProcedureCodeSequence= { CodeValue=K1 '
        "CodingSchemeDesignator=L CodeMeaning=Knee } ScheduledProcedureStepSequence= { Modality=MR "
        "ScheduledStationAETitle=MR1 ScheduledProcedureStepStartDate=20240705 "
        "ScheduledProcedureStepStartTime=101530 ScheduledProcedureStepID=C7 "
        "ScheduledProcedureStepLocation=Room ScheduledProtocolCodeSequence= { CodeValue=K2 "
        "CodingSchemeDesignator=L } }")


def refused_forms(tally: Tally, pair: Pair, page_of: Browser) -> None:
    """What is missing or malformed is named, and nothing is sent."""
    open_worklist(page_of, pair)
    for name, value, told in (
            ("family", "", "Family name is missing."),
            ("family", "DOE^JANE", "Family name is malformed: without ^ and =."),
            ("given", "A=B", "Given name is malformed: without ^ and =."),
            (MODALITY, "", "Modality is missing."),
            (MODALITY, "C-T", "Modality is malformed: letters, digits, spaces and underscores."),
            (STATION, "A\\B", "Station AE title is malformed."),
            (DATE, "", "Start date is missing."),
            (STUDY, "", "Study Instance UID is missing.")):
        click(page_of, "#clear")
        fill_form(page_of, **{**NEW_ITEM, name: value})
        send_form(page_of)
        tally.check(f"a form with {value!r} in {name}", page_of.run(ANSWER) == told and
                    page_of.run("document.activeElement.name") == name, page_of.run(ANSWER))
    tally.check("nothing was sent", pair.report() == list(pair.model.reported()))


def new_items(tally: Tally, pair: Pair, page_of: Browser) -> None:
    """Items are scheduled one after another, with identifiers that the page proposes."""
    open_worklist(page_of, pair)
    first = page_of.run(FORM)
    identity = first[STEP_ID]
    tally.check("identifiers are proposed", re.fullmatch("S240705-[0-9A-Z]{5}", identity) and
                re.fullmatch("R240705-[0-9A-Z]{5}", first[PROCEDURE_ID]) and
                re.fullmatch(r"2\.25\.[1-9][0-9]{0,38}", first[STUDY]), first)
    tally.check("and today", first[DATE] == "2024-07-05", first)
    fill_form(page_of, **{**NEW_ITEM, MODALITY: "ct"})
    send_form(page_of)
    tally.check("a filled form", page_of.until(
        f"{ANSWER} === '{identity} is scheduled: {SUMMARY}.' && {ROWS} === 4"), page_of.run(ANSWER))
    found = kept_item(pair, identity)
    tally.check("family and given name, and the code string of lower case, in its data set",
                spelled(found) == ["NEW^PATIENT", "P9", "CT", "CT1", "20240705", "0930"] and
                found[STUDY]["Value"] == [first[STUDY]] and
                found[PROCEDURE_ID]["Value"] == [first[PROCEDURE_ID]] and
                "Value" not in found.get("00080005", {}), found)
    tally.check("a modality finds it", pair.found_entries(1) == 4)
    form = page_of.run(FORM)
    tally.check("modality, station and day are kept for the next", [form[one] for one in (
        MODALITY, STATION, DATE, "family", "given", PATIENT_ID, TIME)] ==
        ["ct", "CT1", "2024-07-05", "", "", "", ""], form)
    tally.check("and other identifiers are proposed", not {form[STEP_ID], form[STUDY]} & {
        identity, first[STUDY]} and form[STUDY].startswith("2.25."), form)
    fill_form(page_of, **{**NEW_ITEM, STEP_ID: identity})
    send_form(page_of)
    tally.check("the same again", page_of.until(
        f"{ANSWER}.includes('already an item with this step ID')"), page_of.run(ANSWER))
    click(page_of, "#propose")
    other = page_of.run(f"{FORM}['{STEP_ID}']")
    fill_form(page_of, family="ZOË", given="Ü")
    send_form(page_of)
    tally.check("a name that is not ASCII", page_of.until(
        f"{ANSWER}.startsWith('{other} is scheduled')"), page_of.run(ANSWER))
    found = kept_item(pair, other)
    tally.check("is UTF-8", spelled(found)[0] == "ZOË^Ü" and
                found["00080005"]["Value"] == ["ISO_IR 192"], found)
    for one in (identity, other):
        pair.ask("DELETE", f"/NORTH/worklist/{one}", "NORTH")


def withdrawals(tally: Tally, pair: Pair, page_of: Browser) -> None:
    """An item is withdrawn after a question that names the patient and the time."""
    for identity in ("W1", "W2"):
        pair.ask("POST", "/NORTH/worklist", "NORTH", body=entry_octets(identity, "NEW^PATIENT"))
    open_worklist(page_of, pair, 5)
    click(page_of, "[aria-label='Withdraw W1']")
    tally.check("a question before an item is withdrawn", page_of.until(IS_ASKED),
                page_of.run(CELLS))
    tally.check("names its patient and its time", page_of.run(ASKED).startswith(
        "Withdraw W1: NEW, PATIENT (P1), CT at CT1, 2024-07-05 09:00?"), page_of.run(ASKED))
    click(page_of, "#no")
    tally.check("no is no", not page_of.run(IS_ASKED) and pair.found_entries(1) == 5)
    click(page_of, "[aria-label='Withdraw W1']")
    click(page_of, "#yes")
    tally.check("yes is yes", page_of.until(f"{ROWS} === 4 && {STATE} === 'W1 is withdrawn.'") and
                pair.found_entries(1) == 4, page_of.run(STATE))
    pair.ask("DELETE", "/NORTH/worklist/W2", "NORTH")
    click(page_of, "[aria-label='Withdraw W2']")
    click(page_of, "#yes")
    tally.check("one that is gone", page_of.until(f"{STATE}.includes('meanwhile')"),
                page_of.run(STATE))


def without_own(item: Any) -> Any:
    """An item without the attributes that a copy has of its own."""
    step = {tag: one for tag, one in step_of(item).items() if tag != STEP_ID}
    rest = {tag: one for tag, one in item.items() if tag not in (STUDY, PROCEDURE_ID, ACCESSION)}
    return {**rest, "00400100": step}


def copies(tally: Tally, pair: Pair, page_of: Browser) -> None:
    """A copy has what the item has, but for its identifiers."""
    pair.play(f"schedule NORTH {RICH}")
    before = kept_item(pair, "C7")
    open_worklist(page_of, pair, 4)
    click(page_of, "[aria-label='Copy C7']")
    form = page_of.run(FORM)
    tally.check("a copy is shown in the form", [form[one] for one in (
        "family", "given", PATIENT_ID, "00100030", "00100040", MODALITY, STATION, DATE, TIME)] ==
        ["MÜLLER", "ANNA", "P7", "1970-01-02", "F", "MR", "MR1", "2024-07-05", "10:15:30"], form)
    identity = form[STEP_ID]
    tally.check("with identifiers of its own", identity.startswith("S240705") and
                form[STUDY].startswith("2.25.") and form[ACCESSION] == "", form)
    send_form(page_of)
    tally.check("and is scheduled", page_of.until(
        f"{ANSWER}.startsWith('{identity} is scheduled') && {ROWS} === 5"), page_of.run(ANSWER))
    copy = kept_item(pair, identity)
    tally.check("with all else that the item has",
                copy and without_own(copy) == without_own(before), copy, before)
    tally.check("which stays", kept_item(pair, "C7") == before)
    pair.ask("DELETE", f"/NORTH/worklist/{identity}", "NORTH")
    pair.play("withdraw NORTH C7")


def changes(tally: Tally, pair: Pair, page_of: Browser) -> None:
    """An item is changed after a question that names its patient; all else stays as it was."""
    pair.play(f"schedule NORTH {RICH}")
    before = kept_item(pair, "C7")
    open_worklist(page_of, pair, 4)
    click(page_of, "[aria-label='Change C7']")
    fill_form(page_of, **{TIME: "11:45", MODALITY: "ct"})
    send_form(page_of)
    tally.check("a question before an item is changed", page_of.until(IS_ASKED))
    tally.check("names its patient, before and after", page_of.run(ASKED) == (
        "Change C7: MÜLLER, ANNA MARIA (P7), MR at MR1, 2024-07-05 10:15:30?\nIt is withdrawn, and "
        "scheduled anew: MÜLLER, ANNA MARIA (P7), CT at MR1, 2024-07-05 11:45."),
        page_of.run(ASKED))
    click(page_of, "#no")
    tally.check("no changes nothing", kept_item(pair, "C7") == before)
    send_form(page_of)
    click(page_of, "#yes")
    tally.check("yes changes it", page_of.until(f"{ANSWER}.startsWith('C7 is scheduled')"),
                page_of.run(ANSWER))
    step_of(before)[TIME]["Value"], step_of(before)[MODALITY]["Value"] = ["1145"], ["CT"]
    tally.check("and nothing else", kept_item(pair, "C7") == before, kept_item(pair, "C7"), before)
    tally.check("it is one item still", page_of.until(
        f"{ROWS} === 4 && document.querySelector('table').textContent.includes('11:45')"),
        page_of.run(CELLS))
    click(page_of, "[aria-label='Change C7']")
    fill_form(page_of, family="MILLER")
    send_form(page_of)
    click(page_of, "#yes")
    tally.check("another name", page_of.until(f"{ANSWER}.includes('MILLER, ANNA (P7)')") and
                spelled(kept_item(pair, "C7"))[0] == "MILLER^ANNA", page_of.run(ANSWER))
    pair.play("withdraw NORTH C7")


def lose_posts(page_of: Browser, count: int) -> None:
    """Lets the page's next requests by POST be lost."""
    page_of.run("window.realFetch ??= fetch; window.posts = 0; window.fetch = (path, more) => "
                f"more.method === 'POST' && posts++ < {count} ? Promise.reject(new Error('lost')) "
                ": "
                "realFetch(path, more)")


def changes_that_are_lost(tally: Tally, pair: Pair, page_of: Browser) -> None:
    """A change whose connection is lost after the item was withdrawn can be sent again."""
    pair.play(f"schedule NORTH {RICH}")
    wanted = kept_item(pair, "C7")
    step_of(wanted)[TIME]["Value"] = ["1200"]
    open_worklist(page_of, pair, 4)
    click(page_of, "[aria-label='Change C7']")
    lose_posts(page_of, 2)
    fill_form(page_of, **{TIME: "12:00"})
    send_form(page_of)
    click(page_of, "#yes")
    tally.check("a change that is lost", page_of.until(
        f"{ANSWER} === 'The server does not answer. C7 is withdrawn: schedule it again.'"),
        page_of.run(ANSWER))
    tally.check("has withdrawn the item", kept_item(pair, "C7") is None)
    send_form(page_of)
    tally.check("and can be sent again", page_of.until(f"{ANSWER}.startsWith('C7 is scheduled')"),
                page_of.run(ANSWER))
    tally.check("with all that the item had", kept_item(pair, "C7") == wanted,
                kept_item(pair, "C7"), wanted)
    pair.play("withdraw NORTH C7")


def changes_that_fail(tally: Tally, pair: Pair, page_of: Browser) -> None:
    """A change that is refused leaves the item, and so does one of an item that is another."""
    pair.play(f"schedule NORTH {RICH}")
    before = kept_item(pair, "C7")
    open_worklist(page_of, pair, 4)
    click(page_of, "[aria-label='Change C7']")
    lose_posts(page_of, 1)
    fill_form(page_of, **{TIME: "12:00"})
    send_form(page_of)
    click(page_of, "#yes")
    tally.check("a change that fails", page_of.until(f"{ANSWER}.includes('does not answer')") and
                page_of.run("posts") == 2, page_of.run(ANSWER))
    tally.check("leaves the item as it was", kept_item(pair, "C7") == before, kept_item(pair, "C7"))
    page_of.run("window.fetch = realFetch")
    pair.ask("DELETE", "/NORTH/worklist/C7", "NORTH")
    pair.ask("POST", "/NORTH/worklist", "NORTH", body=entry_octets("C7", "OTHER^PATIENT"))
    send_form(page_of)
    click(page_of, "#yes")
    tally.check("an item that is another meanwhile is not changed",
                page_of.until(f"{ANSWER}.includes('meanwhile')"), page_of.run(ANSWER))
    tally.check("and stays", spelled(kept_item(pair, "C7"))[0] == "OTHER^PATIENT")
    click(page_of, "#clear")
    tally.check("a change is cancelled",
                page_of.run("document.getElementById('send').textContent") == "Schedule")
    pair.play("withdraw NORTH C7")


def unreadable_items(tally: Tally, pair: Pair, page_of: Browser) -> None:
    """An item whose text cannot be read is withdrawn as others, but neither copied nor changed."""
    name = "0x" + (b"M" + bytes([0xFF]) + b"LLER^A").hex()
    pair.play(f"schedule NORTH {entry_words('U1', name, SpecificCharacterSet='ISO_IR 192')}")
    open_worklist(page_of, pair, 4)
    for verb in ("Copy", "Change"):
        click(page_of, f"[aria-label='{verb} U1']")
        tally.check(f"{verb} of what cannot be read", page_of.run(STATE).startswith(
            "This item has text that the page cannot read.") and
            page_of.run(f"{FORM}.family") == "", page_of.run(STATE))
    click(page_of, "[aria-label='Withdraw U1']")
    click(page_of, "#yes")
    tally.check("it is withdrawn", page_of.until(f"{STATE} === 'U1 is withdrawn.'"),
                page_of.run(STATE))
    pair.play("withdraw NORTH U1")


def clicks_while_sending(tally: Tally, pair: Pair, page_of: Browser) -> None:
    """Two clicks send an item once; signing out does not cut a change in two."""
    open_worklist(page_of, pair)
    fill_form(page_of, **NEW_ITEM)
    identity = page_of.run(f"{FORM}['{STEP_ID}']")
    page_of.run("document.getElementById('send').click(); document.getElementById('send').click()")
    tally.check("two clicks make one item", page_of.until(f"{ROWS} === 4") and
                page_of.run(ANSWER).startswith(f"{identity} is scheduled"), page_of.run(ANSWER))
    click(page_of, f"[aria-label='Change {identity}']")
    fill_form(page_of, **{TIME: "14:00"})
    send_form(page_of)
    page_of.run("document.getElementById('yes').click(); document.getElementById('out').click()")
    wanted = ["NEW^PATIENT", "P9", "CT", "CT1", "20240705", "1400"]
    tally.check("a change outlasts signing out", until(
        lambda: (found := kept_item(pair, identity)) is not None and spelled(found) == wanted, 5),
        kept_item(pair, identity))
    tally.check("and nothing of it is shown", "NEW" not in page_of.run(
        "document.documentElement.outerHTML + Object.values(" + FORM + ").join()"))
    pair.ask("DELETE", f"/NORTH/worklist/{identity}", "NORTH")
