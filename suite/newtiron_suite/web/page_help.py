"""What plays of the page share: how they open it, fill its form, and look at what it shows."""
import json
from typing import Any

from ..browser import Browser
from ..client import HOST
from .common import Pair, entry_words

# The day of the reader's clock, on which the items of `Pair.fill` are scheduled.
TODAY = "2024-07-05"
STATE = "document.getElementById('state').textContent"
ANSWER = "document.getElementById('answer').textContent"
ASKED = "document.getElementById('asked').textContent"
CAPTION = "document.querySelector('caption').textContent"
ROWS = "document.querySelectorAll('tbody tr').length"
CELLS = ("[...document.querySelectorAll('tbody tr')].map("
         "row => [...row.cells].map(cell => cell.textContent))")
STEP_IDS = f"{CELLS}.map(row => row[7]).join()"
HEADS = ["Start", "Patient", "ID", "Accession", "Modality", "Station", "Description", "Step ID",
         "Actions"]
MARKUP = "<img src>^<b>X</b><script>bad()</script>"
# The values of the form's fields, by their names.
FORM = ("Object.fromEntries([...document.getElementById('entry').elements].filter("
        "one => one.name).map(one => [one.name, one.value]))")
# The fields that show a step ID, a procedure ID, a study and so on.
STEP_ID, PROCEDURE_ID, STUDY, ACCESSION = "00400009", "00401001", "0020000D", "00080050"
PATIENT_ID, MODALITY, STATION, DATE, TIME = (
    "00100020", "00080060", "00400001", "00400002", "00400003")


def open_page(page_of: Browser, pair: Pair, name: str, key: str | None = None) -> None:
    """Opens the page, and an institution by its name and token."""
    page_of.open(f"http://{HOST}:{pair.port}/")
    sign_in(page_of, name, key or pair.keys[name])


def sign_in(page_of: Browser, name: str, key: str) -> None:
    for field, value in (("name", name), ("key", key)):
        page_of.run(f"document.getElementById('{field}').value = {json.dumps(value)}")
    click(page_of, "#opening button")


def open_worklist(page_of: Browser, pair: Pair, rows: int = 3) -> bool:
    """Opens the page at NORTH's worklist; whether it comes to have this many rows."""
    open_page(page_of, pair, "NORTH")
    return page_of.until(f"{ROWS} === {rows}")


def click(page_of: Browser, selector: str) -> None:
    page_of.run(f"document.querySelector({json.dumps(selector)}).click()")


def fill_form(page_of: Browser, **values: str) -> None:
    for name, value in values.items():
        page_of.run(f"document.querySelector('#entry [name=\"{name}\"]').value = "
                    f"{json.dumps(value)}")


def send_form(page_of: Browser) -> None:
    click(page_of, "#entry button:not([type])")


def search_for(page_of: Browser, **fields: str) -> None:
    """Searches the list that is open by these fields, on all days but for what they say."""
    for name in ("name", "id", "accession", "modality", "station", "from", "to"):
        page_of.run(f"document.querySelector('#search').elements[{json.dumps(name)}].value = "
                    f"{json.dumps(fields.get(name, ''))}")
    click(page_of, "#search button")


def item_at(identity: str, name: str = "DOE^JANE", day: str = "20240705", time: str = "0900",
            modality: str = "CT", station: str = "CT1", **elements: str) -> str:
    """The words of a scene for an item."""
    words = entry_words(identity, name, **elements)
    for before, after in (("=20240705", f"={day}"), ("=0900", f"={time}"),
                          ("Modality=CT", f"Modality={modality}"), ("=CT1", f"={station}")):
        words = words.replace(before, after)
    return words


def kept_item(pair: Pair, identity: str) -> Any:
    """An item of NORTH as the front shows it; None if it does not wait."""
    told = pair.ask("GET", f"/NORTH/worklist?ScheduledProcedureStepID={identity}", "NORTH")
    return told.json()[0] if told.status == 200 else None


def step_of(item: Any) -> Any:
    return item["00400100"]["Value"][0]


def spelled(item: Any) -> list[str]:
    """Name, patient ID, modality, station, date and time of an item."""
    step = step_of(item)
    return [item["00100010"]["Value"][0]["Alphabetic"], item[PATIENT_ID]["Value"][0],
            *(step[tag]["Value"][0] for tag in (MODALITY, STATION, DATE, TIME))]
