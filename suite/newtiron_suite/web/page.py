"""The page: its files, in a browser, and its picture."""
import contextlib
import json
import pathlib
import re
import socket
import tempfile
from collections.abc import Callable, Iterator

from .. import browser as browsers
from ..browser import Browser
from ..client import HOST
from ..paths import TOP
from ..scenes import SERVED
from ..tally import LeftOut, Tally
from .common import Pair, entry_words, rows_of, store_line
from .page_help import (
    ANSWER, CAPTION, CELLS, MARKUP, ROWS, STATE, TODAY, click, fill_form, item_at, kept_item,
    open_page, open_worklist, sign_in)
from .page_items import (
    changes, changes_that_are_lost, changes_that_fail, clicks_while_sending, copies, new_items,
    refused_forms, unreadable_items, withdrawals)
from .page_lists import (
    large_lists, long_lists, order_of_worklist, phone, rows_of_worklist, searches_of_worklist,
    sizes, steps_list, studies_list, targets)

PICTURE = TOP / "docs" / "page.png"
FOCUSED = "document.activeElement.outerHTML"
Play = Callable[[Tally, Pair, Browser], None]


def page(tally: Tally, folder: pathlib.Path) -> None:
    with Pair(folder) as pair:
        for path, file, kind in (("/", "index.html", "text/html"),
                                 ("/page.css", "page.css", "text/css"),
                                 ("/page.js", "page.js", "text/javascript")):
            told = pair.ask("GET", path)
            named = told.fields.get("content-type", "").lower().replace(" ", "")
            tally.check(path, told.status == 200 and not told.faults and
                        told.body == (TOP / "web" / file).read_bytes() and
                        named == f"{kind};charset=utf-8", told.head, told.faults, len(told.body))
        told = pair.ask("GET", "/health")
        tally.check("health", told.status == 200 and told.body == b"ok\n" and
                    told.kind() == "text/plain" and not told.faults, told.head, told.body)
        tally.check("a query of the page", pair.ask("GET", "/?a=b").status == 200)
        pair.is_right(tally, "page")
    files(tally)


def files(tally: Tally) -> None:
    """What the files of the page have, and have not."""
    texts = {file: (TOP / "web" / file).read_bytes()
             for file in ("index.html", "page.css", "page.js")}
    for file, text in texts.items():
        tally.check(f"{file}: printable ASCII", re.fullmatch(rb"[\n -~]+", text),
                    re.findall(rb"[^\n -~]", text)[:3])
        tally.check(f"{file}: nothing from elsewhere", not re.search(
            rb"https?:|//[a-z]|@import|url\(", text.replace(b"// ", b"")))
    size = sum(map(len, texts.values()))
    tally.check("the page is small", size < 40960, size)
    tally.check("no script and no style within it", not re.search(
        rb"<script(?![^>]* src=)|<style|\sstyle=|\son[a-z]+=", texts["index.html"]))
    told = re.findall(r'(?m)^  (?:\w+|"[\w ]+"): "([^"]+)",$', texts["page.js"].decode())
    troubles = (TOP / "docs" / "TROUBLESHOOTING.md").read_text()
    absent = [one for one in told if f"| {one} |" not in troubles]
    tally.check("TROUBLESHOOTING has each refusal in words", len(told) > 10 and not absent, absent)
    unsafe = (rb"innerHTML|outerHTML|insertAdjacentHTML|document\.write|\beval\b|localStorage|"
              rb"sessionStorage|cookie")
    tally.check("no markup of text, and nothing stored", not re.search(unsafe, texts["page.js"]))


@contextlib.contextmanager
def shown(folder: pathlib.Path, *words: str | pathlib.Path) -> Iterator[tuple[Pair, Browser]]:
    """The program with three items in NORTH, and a browser whose clock is on their day."""
    if browsers.program() is None:
        raise LeftOut("Chromium is not installed")
    with Pair(folder, *words) as pair, Browser() as page_of:
        pair.fill()
        pair.play(f"schedule NORTH {entry_words('S1', '0x' + MARKUP.encode().hex())}")
        page_of.resize(1280, 900)
        page_of.set_clock(f"{TODAY}T08:00:00")
        yield pair, page_of


def play_each(tally: Tally, pair: Pair, page_of: Browser, *plays: Play) -> None:
    """Plays on a page; what it does not have fails its play, and the others go on."""
    for play in plays:
        try:
            play(tally, pair, page_of)
        except Exception as error:
            tally.check(f"{play.__name__} goes on", False, repr(error))
    faults = [one for one in page_of.noted if not re.search("favicon|inline s|Content Secur", one)]
    tally.check("the script has no fault", not faults, faults)


def lists(tally: Tally, folder: pathlib.Path) -> None:
    with shown(folder) as (pair, page_of):
        play_each(tally, pair, page_of, rows_of_worklist, order_of_worklist, searches_of_worklist,
                  steps_list, studies_list)
        long_lists(tally, folder, page_of)
        large_lists(tally, folder, page_of)


def items(tally: Tally, folder: pathlib.Path) -> None:
    with shown(folder) as (pair, page_of):
        play_each(tally, pair, page_of, refused_forms, new_items, withdrawals, copies, changes,
                  changes_that_fail, changes_that_are_lost, unreadable_items, clicks_while_sending)


def browser(tally: Tally, folder: pathlib.Path) -> None:
    with shown(folder, "--new", folder / "rows.db") as (pair, page_of):
        play_each(tally, pair, page_of, policy, session, sizes, targets, phone, keyboard)
        operator(tally, pair, page_of, folder)
        pair.server.end()
        click(page_of, "#measure")
        tally.check("a server that is gone", page_of.until(f"{STATE}.includes('does not answer')"),
                    page_of.run(STATE))
        click(page_of, "#out")
        tally.check("the operator signs out", page_of.run(
            "document.getElementById('operation').hidden && "
            "document.querySelectorAll('#metrics dt, #counts meter').length === 0"))


def policy(tally: Tally, pair: Pair, page_of: Browser) -> None:
    """What the page's policy refuses, and that nothing outlasts a reload."""
    open_worklist(page_of, pair)
    script = ("(() => { const made = document.createElement('script'); "
              "made.textContent = 'window.bad = 1'; document.body.append(made); "
              "return String(window.bad); })()")
    tally.check("an inline script is refused", page_of.run(script) == "undefined")
    style = ("(() => { document.body.setAttribute('style', 'color: rgb(1, 2, 3)'); "
             "return getComputedStyle(document.body).color; })()")
    tally.check("an inline style is refused", page_of.run(style) != "rgb(1, 2, 3)")
    with socket.create_server((HOST, 0)) as listener:
        port = listener.getsockname()[1]
        told = page_of.run(f"fetch('http://{HOST}:{port}/', {{ mode: 'no-cors' }}).then("
                           "() => 'sent', () => 'refused')")
        listener.setblocking(False)
        with contextlib.suppress(BlockingIOError):
            told = f"{told}, {listener.accept()}"
        tally.check("another server is not asked", told == "refused", told)
    tally.check("no cookie and nothing stored", page_of.run(
        "document.cookie + localStorage.length + sessionStorage.length") == "00")
    tally.check("a reload forgets the token", page_of.open(f"http://{HOST}:{pair.port}/") and
                page_of.run("document.getElementById('institution').hidden && "
                            "document.getElementById('key').value === ''"))


def session(tally: Tally, pair: Pair, page_of: Browser) -> None:
    """Nine minutes without use, ten, signing out, and a token that is refused."""
    hidden = ("document.getElementById('institution').hidden && "
              "!document.getElementById('opening').hidden && "
              "document.querySelectorAll('td').length === 0 && "
              "!document.documentElement.outerHTML.includes('DOE') && "
              "[...document.getElementById('entry').elements].every(one => one.value !== 'DOE')")
    shown = "document.body.innerText"
    open_worklist(page_of, pair)
    fill_form(page_of, family="DOE")
    page_of.advance(9 * 60 + 5)
    tally.check("a warning after nine minutes without use", page_of.until(
        f"{STATE}.startsWith('Signing out in a minute')", 3), page_of.run(STATE))
    page_of.press("Shift", 16)
    tally.check("a key is use", page_of.run(STATE) == "" and page_of.run(ROWS) == 3)
    page_of.advance(9 * 60 + 5)
    page_of.until(f"{STATE}.startsWith('Signing out in a minute')", 3)
    tally.check("rows stay for nine minutes more", page_of.run(ROWS) == 3)
    click(page_of, "[aria-label='Withdraw S3']")
    page_of.advance(60)
    tally.check("after ten the rows are gone", page_of.until(hidden, 3), page_of.run(shown))
    tally.check("with the question", not page_of.run("document.getElementById('question').open"))
    tally.check("and the token is asked for", page_of.run(
        "document.activeElement.id + document.getElementById('key').value") == "key")
    sign_in(page_of, "NORTH", pair.keys["NORTH"])
    tally.check("which opens it again", page_of.until(f"{ROWS} === 3"), page_of.run(STATE))
    fill_form(page_of, family="DOE")
    click(page_of, "#again")
    click(page_of, "#out")
    tally.check("signing out hides all at once", page_of.run(hidden), page_of.run(shown))
    tally.check("also from an answer that is late", not page_of.until(f"!({hidden})", 0.5),
                page_of.run(shown))
    open_worklist(page_of, pair)
    page_of.run("location = '/health'")
    page_of.until("location.pathname === '/health'")
    page_of.run("history.back()")
    tally.check("who comes back to the page sees no rows", page_of.until(
        f"location.pathname === '/' && document.readyState === 'complete' && {hidden}", 3),
        page_of.run(shown))
    open_worklist(page_of, pair)
    page_of.run("window.fetch = () => Promise.resolve(new Response('{}', { status: 401 }))")
    click(page_of, "#again")
    tally.check("a token that is taken back hides all", page_of.until(hidden, 3),
                page_of.run(shown))


def tab_to(page_of: Browser, wanted: str) -> bool:
    """Presses the tabulator until an expression is true of the focused element."""
    for _ in range(60):
        if page_of.run(f"(one => {wanted})(document.activeElement)"):
            return True
        page_of.press("Tab", 9)
    return False


def keyboard(tally: Tally, pair: Pair, page_of: Browser) -> None:
    """The page by its keys only: lists are chosen, an item is scheduled and withdrawn."""
    page_of.open(f"http://{HOST}:{pair.port}/")
    tally.check("the first field has the focus", page_of.run("document.activeElement.id") == "name")
    page_of.write("north")
    page_of.press("Tab", 9)
    page_of.write(pair.keys["NORTH"])
    page_of.press("Enter", 13, "\r")
    tally.check("opened by Enter, in lower case", page_of.until(f"{ROWS} === 3"),
                page_of.run(STATE))
    tally.check("the focus is at the list's tab", page_of.until(
        "document.activeElement.id === 'worklist'"), page_of.run(FOCUSED))
    page_of.press("ArrowLeft", 37)
    tally.check("an arrow goes to studies", page_of.until(f"{CAPTION}.startsWith('Studies')"))
    tally.check("a button of all days", tab_to(page_of, "one.id === 'days'"), page_of.run(FOCUSED))
    page_of.press("Enter", 13, "\r")
    page_of.until(f"{ROWS} === 3")
    tally.check("a row is reached", tab_to(page_of, "one.className === 'deeper'"),
                page_of.run(FOCUSED))
    page_of.press("Enter", 13, "\r")
    tally.check("and opened by Enter", page_of.until(f"{CAPTION}.startsWith('Series')"))
    tally.check("the focus stays in the list", page_of.until(
        "document.querySelector('#panel').contains(document.activeElement)"), page_of.run(FOCUSED))
    click(page_of, "#worklist")
    page_of.until(f"{ROWS} === 3")
    keyboard_of_form(tally, pair, page_of)
    unnamed = ("[...document.querySelectorAll('input, select')].filter("
               "one => !one.labels.length).length")
    tally.check("each field has a label", page_of.run(unnamed) == 0, page_of.run(unnamed))


def keyboard_of_form(tally: Tally, pair: Pair, page_of: Browser) -> None:
    page_of.run("document.querySelector('[name=family]').focus()")
    for text in ("KEYS", "ONLY", "P5"):
        page_of.write(text)
        page_of.press("Tab", 9)
    tab_to(page_of, "one.name === '00080060' && one.form.id === 'entry'")
    page_of.write("us")
    page_of.press("Tab", 9)
    page_of.write("US1")
    tab_to(page_of, "one.name === '00400003'")
    for digit in "0830A":
        page_of.press(digit, ord(digit), digit)
    page_of.press("Enter", 13, "\r")
    tally.check("an item is scheduled by Enter", page_of.until(f"{ROWS} === 4"),
                page_of.run(ANSWER))
    tally.check("and the next can be typed", page_of.run("document.activeElement.name") == "family",
                page_of.run(FOCUSED))
    identity = page_of.run(f"{CELLS}[0][7]")
    page_of.run(f"document.querySelector('[aria-label=\"Withdraw {identity}\"]').focus()")
    page_of.press("Enter", 13, "\r")
    tally.check("the question has the focus, at no", page_of.until(
        "document.activeElement.id === 'no'"), page_of.run(FOCUSED))
    page_of.press("Escape", 27)
    tally.check("Escape keeps the item", page_of.until(
        "!document.getElementById('question').open") and page_of.run(ROWS) == 4)
    page_of.press("Enter", 13, "\r")
    page_of.until("document.activeElement.id === 'no'")
    page_of.press("Tab", 9)
    tab_to(page_of, "one.id === 'yes'")
    page_of.press("Enter", 13, "\r")
    tally.check("yes withdraws it", page_of.until(f"{ROWS} === 3") and
                kept_item(pair, identity) is None, page_of.run(STATE))


def operator(tally: Tally, pair: Pair, page_of: Browser, folder: pathlib.Path) -> None:
    """The operator's page: metrics, rows of all institutions, a backup."""
    counts = "document.getElementById('counts').textContent"
    copied = "document.getElementById('copied').textContent"
    open_page(page_of, pair, "*")
    tally.check("the operator's metrics", page_of.until(
        "document.querySelectorAll('#metrics dt').length > 5"), page_of.run(STATE))
    tally.check("and rows of all institutions", page_of.run(counts).count("SOUTH") == 5,
                page_of.run(counts))
    tally.check("no list", page_of.run("document.getElementById('institution').hidden"))
    click(page_of, "#backup button")
    tally.check("a backup without a path", page_of.run(copied) == "Path on the server is missing.")
    copy = folder / "by the page.db"
    for told in ("All rows are copied", "something at this path"):
        page_of.run(f"document.getElementById('path').value = {json.dumps(str(copy))}")
        click(page_of, "#backup button")
        tally.check(f"a backup: {told}", page_of.until(f"{copied}.includes({json.dumps(told)})"),
                    page_of.run(copied))
    tally.check("the copy is there", copy.exists() and rows_of(copy, folder))


PEOPLE = (("DOE^JANE", "40017", "0910", "CT", "CT1", "Abdomen"),
          ("ROE^RICHARD", "40022", "0840", "MR", "MR1", "Knee"),
          ("MILLER^ANNA", "39871", "1115", "CT", "CT1", "Head"),
          ("BAKER^TOM", "40105", "0815", "US", "US2", "Thyroid"),
          ("FISCHER^MIA", "40098", "1030", "MR", "MR1", "Lumbar spine"))


def picture() -> None:
    """Makes the picture of the page that docs/GUIDE.md shows."""
    with tempfile.TemporaryDirectory() as folder, Pair(pathlib.Path(folder)) as pair, \
            Browser() as page_of:
        pair.play("open 1", f"associate 1 ARCHIVE CT1 {SERVED}")
        for at, (name, patient, time, modality, station, text) in enumerate(PEOPLE):
            pair.play(store_line(1, f"1.2.{at}.1.1", f"1.2.{at}", PatientName=name,
                                 PatientID=patient, StudyDate="20240705", Modality="CT"))
            words = item_at(f"S10{at}", name, time=time, modality=modality, station=station,
                            AccessionNumber=f"A10{at}")
            words = words.replace("PatientID=P1", f"PatientID={patient}")
            pair.play(f'schedule NORTH {words[:-1]} "ScheduledProcedureStepDescription={text}" }}')
        page_of.resize(1280, 800)
        page_of.set_clock(f"{TODAY}T08:00:00")
        open_worklist(page_of, pair, 5)
        page_of.run("document.activeElement.blur()")
        PICTURE.write_bytes(page_of.picture())
        print(PICTURE.relative_to(TOP), PICTURE.stat().st_size)
