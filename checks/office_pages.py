#!/usr/bin/env python3
"""Opens the office's pages (pages/office) in headless Chromium, before a fresh service, and plays an office's month: it signs in, registers
drivers from a CSV file, imports card files, fills in gaps on both nights of the clock change, looks at breaches, prints letters, answers an
inspection, withdraws entries, and changes a name, a base and a key. What the pages show is compared with the program's texts, number by
number. Then come faults: wrong keys, broken connections, other replies, a log-out, and half an hour without a key press.

Arguments: the program, and, if you like, a folder that gets pictures of the pages. Where Chromium isn't installed, only the files are
looked at. The last line is 'N passed, M failed'."""
import gzip
import itertools
import json
import os
import random
import re
import shutil
import sys
import tempfile
import time

from lib import browser, counting, driver_month, tars
from lib.browser import Browser
from lib.counting import Comparisons
from lib.driver_month import DAY, length_in
from lib.driver_month import minutes_of as minute_of
from lib.files import TOP, read, write
from lib.office_month import (
    MONTH, MONTH_BEFORE, SHORT, ZONES, Month, amount_of, both, hours, is_open, is_told, left_row, long,
)
from lib.office_site import (
    ABSENT, BOTH_NIGHTS, CHANGED, COMBINED, DRIVERS, LATER, MARKUP, SEPARATED, SOON, TURNED, UNKNOWN, WRONG, Site, card, holder_of, plainly,
    without,
)
from lib.office_tab import Office, month_page, pick, rows_of_form, split, squeezed, start_rows
from lib.server import OFFICE
from lib.served import PAGES

WRONG_KEY = "nobody-has-this-key"

# The most that a page and its modules may have: bytes, bytes with gzip, requests.
BUDGET = 160 * 1024, 45 * 1024, 12

# What no file of the pages may have: what would run a text as a program or as markup, styles in a place that the policy forbids, and
# addresses of other hosts.
FORBIDDEN = [
    r"innerHTML|outerHTML|insertAdjacentHTML|document\.write|DOMParser|createContextualFragment|srcdoc|setHTML", r"\beval\(|new "
        r"Function|javascript:",
    r"\sstyle=|<style|\.style\b|\"style\"", r"<script(?![^>]* src=)", r"https?://\w(?!ww\.w3\.org/2000/svg\")",
    r"@import\s+[\"'u]|url\(", r"document\.cookie",
]


# Comparisons: the files

def office_files() -> Comparisons:
    """The files of the pages, as texts."""
    names = sorted(os.listdir(os.path.join(PAGES, "office")))
    shared = sorted(name for name in os.listdir(os.path.join(PAGES, "shared")))
    for folder, each in (("office", names), ("shared", shared)):
        for name in each:
            text = read(os.path.join(PAGES, folder, name)).decode()
            yield f"what {name} may not have", [match[0] for form in FORBIDDEN for match in re.finditer(form, text)], []
            yield f"the longest line of {name}", max(map(len, text.split("\n"))) <= 140 or name.startswith("words-"), True
    page = read(os.path.join(PAGES, "office", "index.html")).decode()
    yield "what index.html loads", all(one.startswith(("data:,", "/shared/", "office."))
        for one in re.findall(r"(?:src|href)=\"([^\"#][^\"]*)\"", page)), True


# Comparisons: sentences

# The names of a table of sentences, in order. With each is its type, and how many values a function has, or whether a text isn't empty.
NAMES = """(table) => {
    const named = (what, name) => typeof what === "object"
        ? Object.entries(what).flatMap(([one, inner]) => named(inner, `${name}.${one}`))
        : [[name, typeof what, typeof what === "function" ? what.length : what !== ""]];
    return named(table, "");
}"""


def section(document: str, head: str) -> str:
    """A section of a document in docs/."""
    return read(os.path.join(TOP, "docs", document)).decode().split(f"\n## {head}\n")[1].split("\n## ")[0]


def sentences(office: Office) -> Comparisons:
    """Both languages have the same names. docs/OFFICE.md has the sentences of the letter on the examples of docs/RULES.md."""
    tables = {}
    for folder in ("shared", "office", "driver"):
        tables[folder], other = (office.run(f"import('/{folder}/words-{language}.js').then(({{ WORDS }}) => ({NAMES})(WORDS))")
            for language in ("en", "de"))
        yield f"the names of the sentences of {folder}", other, tables[folder]
    for folder in ("office", "driver"):
        yield f"sentences of {folder} in shared", [one for one in tables[folder] if one in tables["shared"]], []
    amounts = dict(re.findall(r"^    (B\d+) Art .* amount (\d+)$", section("RULES.md", "Evidence"), re.M))
    kinds = [f"B{number}" for number in range(1, 11)]
    yield "the kinds of the examples", sorted(amounts), sorted(kinds)
    calls = ", ".join(f"WORDS.{kind}({amounts.get(kind)})" for kind in kinds)
    told = [office.run(f"import('/shared/words-{language}.js').then(({{ WORDS }}) => [{calls}])") for language in ("en", "de")]
    rows = re.findall(r"^\| (B\d+) \| (.*) \| (.*) \|$", section("OFFICE.md", "A letter to a driver"), re.M)
    yield "the sentences of docs/OFFICE.md", rows, list(zip(kinds, *told))


def languages(office: Office) -> Comparisons:
    """The page loads the sentences of the language that it shows. Where those of another can't be loaded, it says so."""
    yield "the sentences that are loaded", office.run("performance.getEntriesByType('resource').map((one) => new URL(one.name).pathname)"
        ".filter((path) => path.includes('/words-')).sort()"), ["/office/words-en.js", "/shared/words-en.js"]
    office.site.pages.fail("GET /office/words-de.js", "before", 3)
    office.speak("de")
    yield "no connection to the German sentences", (office.notice().split(",")[0], office.run("document.querySelector('#language').value"),
        office.text("#log-out")), ("The service isn't running", "en", "Log out")
    office.site.pages.faults.clear()
    for language, text in [("de", "Abmelden"), ("en", "Log out")]:
        office.speak(language)
        yield f"the language {language}", (office.text("#log-out"), office.run("document.documentElement.lang")), (text, language)


# Comparisons: signing in, and registering

def signing_in(office: Office) -> Comparisons:
    """Wrong keys, and the right one."""
    office.page.open(office.site.address)
    for key, is_sent in [("short", False), ("schlüssel-ä", False), (WRONG_KEY, True)]:
        before = len(office.site.pages.asked)
        office.run("document.querySelector('#content .box')?.remove()")
        office.sign_in(key)
        office.until("document.querySelector('#content .box') !== null")
        yield f"the key {key}", office.text("#content .box"), "This key isn't known. Check it, or ask whoever keeps the service."
        yield f"how often {key} is sent", len(office.site.pages.asked) - before, int(is_sent)
        yield f"what is kept of {key}", office.run("[Object.keys(sessionStorage), document.title]"), [[], "Tachograph office"]
    office.mark()
    office.sign_in(f" {OFFICE[:6]} {OFFICE[6:]} ")
    yield "signed in", office.shown(), True
    yield "the start without drivers", office.text("#content .box"), "No driver is registered yet. Manage drivers"
    yield "the version in the foot", office.until("/ · tacho \\d/.test(document.querySelector('#foot').textContent)"), True
    yield ("where the key is kept", office.run("[Object.keys(sessionStorage), Object.keys(localStorage), document.cookie, "
        "location.search]"), [["tacho.key"], [], "", ""])


def csv_of_drivers() -> bytes:
    """The CSV file with the drivers, without keys, as a spreadsheet saves it."""
    rows = [f"{number},{holder_of(number)},{base},{name}" for number, name, base, _ in DRIVERS]
    return ("\ufeffdriver,holder,base,name\r\n" + "".join(f"{row}\r\n" for row in [*rows, "17,00,2024-03-04,Nobody"])).encode()


def registering(office: Office) -> Comparisons:
    """Drivers from a CSV file: a line for each, and a slip with the key of each."""
    path = os.path.join(office.site.folder, "drivers.csv")
    write(path, csv_of_drivers())
    office.go("/people", "#many")
    office.mark()
    office.page.choose_files("#many", [path])
    office.shown(".slips")
    yield "what becomes of the rows", office.texts("#many-results li"), [
        *[f"{number} {name}: registered" for number, name, _, _ in DRIVERS],
        "17 Nobody: A value has another form than it may have. E9 bad value for holder"]
    yield "how many were registered", office.notice(), f"{len(DRIVERS)} of {len(DRIVERS) + 1} drivers registered. Print the slips."
    lines = office.site.text("/drivers").split("\n")[:-1]
    yield "the drivers", [line.split(" ", 5)[::5] for line in lines], [[str(number), name] for number, name, _, _ in sorted(DRIVERS)]
    keys = [key.replace(" ", "") for key in office.texts(".slip code")]
    yield "the form of the keys", [key for key in keys if not re.fullmatch(r"[2-9a-km-zA-HJ-NP-Z]{32}", key)], []
    yield "each key is another one", len(set(keys)), len(DRIVERS)
    yield "whose the keys are", [office.site.ask("/me/driver", key)[1].decode().split(" ")[0] for key in keys], [str(one[0])
        for one in DRIVERS]
    office.set("#where", "https://hours.example/driver/")
    text = office.printed("slips")
    if text:
        yield "the printed slips", (text.count("https://hours.example/driver/"), "Manage drivers" in text,
            keys[3][:4] in text), (len(DRIVERS), False, True)
    yield ("the names are texts", office.run("[document.querySelectorAll('#content img').length, "
        "document.querySelectorAll('.slip')[0].children[1].textContent]"), [0, MARKUP])
    office.mark()
    office.press_button("The slips are printed")
    office.confirm()
    office.shown()
    yield "the slips are gone", (office.texts(".slip"), OFFICE not in office.text("#content")), ([], True)
    yield "the list of drivers", [row[0] for row in office.table("#content table")], [f"{name} {number}" for number, name, _,
        _ in sorted(DRIVERS)]


# Comparisons: card files

def card_files(site: Site) -> list[tuple[str, bytes, str]]:
    """Card files with their names, and what is said of each."""
    chance = random.Random("office pages")
    files = []
    for number, name, _, spans in DRIVERS:
        for place, one in enumerate(spans):
            said = f"added to {name} as file {place + 1}.November 2024"
            files.append((f"{number}-{place}.ddd", card(holder_of(number), "Some Body", one), said))
    first = files[0]
    good = plainly("2024-10-21", "2024-10-22")
    files += [
        ("again.ddd", first[1], f"nothing new for {MARKUP}. Keep the file: the archive doesn't."),
        ("broken.ddd", card(holder_of(13), "Some Body", good)[:-3], "no file of a driver card, or damaged. Nothing was taken. C"),
        ("large.ddd", bytes(262_145), "too large (at most 262,144 bytes). It wasn't sent."),
        ("later.ddd", card(holder_of(UNKNOWN), LATER[1], LATER[3][0]),
         f"the card of a driver who isn't registered ({LATER[1]}, D D{UNKNOWN:013}..). Nothing was taken. S4 unknown driver"
         "Register this driver"),
        ("other.ddd", card(holder_of(13), "Some Body", [(start, past, "work") for start, past, _ in good]),
         "contradicts what is held for "),
        ("unit.ddd", b"\x76\x01" + chance.randbytes(200), "no file of a driver card."),
    ]
    return files


def taken(office: Office, count: int) -> bool:
    """Waits until a number of files has been dealt with."""
    return office.until(f"""(() => {{
        const all = [...document.querySelectorAll('.results li')];
        return all.length === {count} && all.every((one) => !/: (waiting|being sent …)/.test(one.textContent));
    }})()""")


def importing(office: Office) -> Comparisons:
    """Card files: chosen, dropped in a folder, sent again; a driver is registered from a file."""
    folder = os.path.join(office.site.folder, "cards")
    os.makedirs(os.path.join(folder, "below"))
    files = card_files(office.site)
    for name, given, _ in files:
        write(os.path.join(folder, name), given)
    office.go("/files", ".drop")
    office.page.choose_files("#files", [os.path.join(folder, name) for name, _, _ in files])
    taken(office, len(files))
    shown = office.texts(".results li")
    for (name, _, said), told in zip(files, shown, strict=True):
        yield f"what is said of {name}", told[:len(name) + 2 + len(said)], f"{name}: {said}"
    added = sum(len(spans) for _, _, _, spans in DRIVERS)
    yield ("the sums of the files", office.text("#content > [role=status]"),
        f"{len(files)} of {len(files)} sent: {added} added, 1 with nothing new, {len(files) - added - 1} not taken")
    yield ("no mark of colour alone", office.run("[...document.querySelectorAll('.results li')].every((one) => getComputedStyle(one, "
        "'::before').content !== 'none')"), True)
    # A driver from their file: to the form, whose fields are filled in, and back to the file.
    office.mark()
    office.press_button("Register this driver")
    office.shown("#add")
    yield ("the form has the card's name and holder",
        office.run("['#f-name', '#f-holder'].map((one) => document.querySelector(one).value)"), [LATER[1], holder_of(UNKNOWN)])
    office.set("#f-number", str(UNKNOWN))
    office.set("#f-base", "2024-10-21")
    office.mark()
    before = posts(office, "/drivers")
    office.run("(() => { const form = document.querySelector('#add'); form.requestSubmit(); form.requestSubmit(); })()")
    office.shown(".slips")
    yield "the driver is registered", office.notice(), f"{LATER[1]} is registered as driver {UNKNOWN}. Print the slip with the key."
    yield "two clicks register once", posts(office, "/drivers") - before, 1
    office.go("/files", ".results")
    item = "[...document.querySelectorAll('.results li')].find((one) => one.textContent.startsWith('later.ddd'))"
    office.press_button("Send again", item)
    yield "the file is sent again", office.until(f"{item}.textContent === 'later.ddd: added to {LATER[1]} as file 1.November 2024'"), True
    # A folder: its card files are sent, and the others are one line.
    dropped = os.path.join(office.site.folder, "dropped")
    os.makedirs(os.path.join(dropped, "below"))
    write(os.path.join(dropped, "below", "new.DDD"), card(holder_of(SOON), "Some Body", plainly("2024-10-10", "2024-10-12")))
    write(os.path.join(dropped, "notes.txt"), b"nothing")
    office.page.drop_files(".drop", [dropped])
    taken(office, len(files) + 2)
    yield "a folder", office.texts(".results li")[-2:], ["new.DDD: added to Karin Schöne as file 2.November 2024",
                                                       "1 other file in the folders: no card files by their names, and not sent."]


def contradiction(office: Office) -> Comparisons:
    """The way from a file that contradicts to the day in the driver's month."""
    item = "[...document.querySelectorAll('.results li')].find((one) => one.textContent.startsWith('other.ddd'))"
    day = re.search(r"S6 contradiction at (\d{4}-\d\d-\d\d)", office.run(f"{item}.textContent"))
    office.mark()
    office.press_button("Look at that day", item)
    office.shown(".chart")
    yield "the day of a contradiction", office.run("document.querySelector('.seek')?.id"), f"day-{day[1]}" if day else None
    yield "whose day it is", office.text("#title"), f"{COMBINED} (13), October 2024"
    office.go("/files", ".results")


def broken_uploads(office: Office) -> Comparisons:
    """Uploads whose connection breaks, a service that fails, and too many requests."""
    pages = office.site.pages
    path = os.path.join(office.site.folder, "more.ddd")
    write(path, card(holder_of(SOON), "Some Body", plainly("2024-10-12", "2024-10-13")))
    count = len(office.texts(".results li"))
    item = f"document.querySelectorAll('.results li')[{count - 1}]"  # the line of other files is the last one
    unsure = "more.ddd: it isn't known whether it was taken. Send it again: if it was, it has nothing new.Send again"
    for name, way in [("after the program got it", "after"), ("by 503", (503, "text/plain; charset=utf-8", b"unavailable\n")),
                      ("by 502", (502, "text/html", b"<html><b>Bad gateway</b></html>"))]:
        pages.fail("POST /cards/both", way)
        if name.startswith("after"):
            office.page.choose_files("#files", [path])
        else:
            office.press_button("Send again", item)
        office.until(f"{item}.className === 'bad' && /isn't known/.test({item}.textContent)")
        yield f"an upload that broke {name}", office.run(f"{item}.textContent").replace(" unavailable", ""), unsure
    pages.fail("POST /cards/both", (429, "text/html", b"<html>slow down</html>"))
    office.press_button("Send again", item)
    yield "too many requests", office.until("/Too many requests/.test(document.querySelector('#busy').textContent)"), True
    yield ("then it is sent again by itself",
        office.until(f"{item}.textContent === 'more.ddd: nothing new for Karin Schöne. Keep the file: the archive doesn\\'t.'"), True)
    # Files that wait keep the page from being left.
    pages.fail("POST /cards/both", (429, "text/html", b"<html>slow down</html>"))
    office.page.choose_files("#files", [path])
    office.until("/Too many requests/.test(document.querySelector('#busy').textContent)")
    yield ("leaving while a file waits", office.run("(() => { const event = new Event('beforeunload', { cancelable: true }); "
        "dispatchEvent(event); return event.defaultPrevented; })()"), True)
    taken(office, count + 1)
    yield ("leaving when all are sent", office.run("(() => { const event = new Event('beforeunload', { cancelable: true }); "
        "dispatchEvent(event); return event.defaultPrevented; })()"), False)


# Comparisons: what the pages show

def start_page(office: Office) -> Comparisons:
    """The start page, also where the reading of what is left fails."""
    yield from start_rows(office)
    office.site.pages.fail("GET /forecast", "before")
    office.mark()
    office.press_button("Refresh")
    office.shown("table.cards")
    yield ("what is left where the reading fails",
        office.until("[...document.querySelectorAll('.left-cell')].every((one) => one.textContent === '?')"), True)


def months(office: Office) -> Comparisons:
    """The months of all drivers."""
    kinds: set[str] = set()
    for driver, _, _, _ in sorted(DRIVERS):
        for month in (MONTH_BEFORE, MONTH):
            yield from month_page(office, driver, month)
            kinds |= {found[1] for found, _ in Month(office.site.text, driver, month).why}
    yield "kinds of breaches that were shown", sorted(kinds), sorted(SHORT)
    # The archive changes while a page is read: it is read again.
    before = len(office.site.pages.asked)
    office.site.pages.fail("GET /drivers/13/entries", lambda text: b'1 2024-03-01 00:00 2024-03-02 00:00 rest kept "office" ""\n')
    office.go(f"/drivers/13/{MONTH_BEFORE}", ".chart")
    asked = office.site.pages.asked[before:]
    yield "readings after a change", sum(one.endswith("/stretches") for one in asked), 2
    office.site.pages.fail("GET /drivers/13/files", (200, "text/plain; charset=utf-8", b""), 1)
    for _ in range(3):
        office.site.pages.fail("GET /drivers/13/files", lambda text: text, 1)
        office.site.pages.fail("GET /drivers/13/files", (200, "text/plain; charset=utf-8", b""), 1)
    before = len(office.site.pages.asked)
    office.go(f"/drivers/13/{MONTH}", ".box.bad")
    yield "an archive that changes each time", (office.notice(),
        sum(one.endswith("/stretches") for one in office.site.pages.asked[before:])), (
        "The archive changed while this page was read. Try again.", 3)
    office.site.pages.faults.clear()


def all_drivers(office: Office) -> Comparisons:
    """The month of all drivers against `overview` and `incidents`."""
    office.go(f"/month/{MONTH_BEFORE}", "table.cards")
    rows, incidents = office.site.rows(f"/overview/{MONTH_BEFORE}"), office.site.rows(f"/incidents/{MONTH_BEFORE}")
    names = ["drive", "work", "available", "rest", "crew", "none"]
    seen = [name for name in names if name == "drive" or any(row[name] != "0" for row in rows)]
    broken = [kind for kind in SHORT if any(row[kind] != "0" for row in rows)]
    def cells(row: dict[str, int]) -> list[str]:
        """The cells of a row but the first."""
        missing = row["all"] - row["examined"]
        return [*(hours(row[name]) if row[name] else "–" for name in seen), hours(missing) if missing else "–",
            *(str(row[kind]) if row[kind] else "–" for kind in broken)]
    numbers = [{name: int(row[name]) for name in (*names, "examined", *SHORT)} | {"all": 31 * DAY} for row in rows]
    total = {name: sum(row[name] for row in numbers) for name in numbers[0]}
    yield "the month of all", office.table("#content table:first-of-type")[:len(rows)], [[f"{row['name']} {row['driver']}", *cells(one)]
        for row, one in zip(rows, numbers)]
    yield ("its sums", office.run("[...document.querySelectorAll('#content table')[0].querySelectorAll('tfoot tr > *')].map((one) => "
        "one.textContent)"), ["Month", *cells(total)])
    shown = office.run("[...document.querySelectorAll('#content table')[1].querySelectorAll('tbody tr')].map((row) => "
        "[...row.children].map((one) => one.textContent))")
    yield "its breaches", shown, [[f"{row['name']} {row['driver']}", f"{SHORT[row['kind']]} ({row['kind']})",
        amount_of(row["kind"], int(row["amount"])) or "–",
                                   both(row["moment"]), both(row["since"])] for row in incidents]


def what_is_left(office: Office) -> Comparisons:
    """What is left against `forecast` and `ahead`, also from a time that comes twice and one that doesn't exist."""
    office.go("/left", "table.cards")
    rows = office.site.rows("/forecast/2024-11-05/05:00")
    yield "what is left", squeezed(office.table("#content table")), squeezed([left_row(row) for row in rows if is_told(row)])
    yield "of whom nothing can be said", [one.split(" (")[1].split(")")[0] for one in office.texts("#untold li")], [row["driver"]
        for row in rows if not is_told(row)]
    beside = office.run("""[...document.querySelectorAll('#untold li')].map((one) => {
        const after = document.createRange();
        after.selectNode(one.firstChild.nextSibling);
        return after.getClientRects()[0].left >= one.firstChild.getBoundingClientRect().right - 1;
    })""")
    yield "no name turns what comes after it", beside, [True] * len(beside)
    for driver in (CHANGED, BOTH_NIGHTS, UNKNOWN):
        office.go(f"/drivers/{driver}/left", ".meters, .box")
        told = dict(re.findall(r"^(B\d) Art \S+ until .{16} left (\d+:\d\d)$",
            office.site.text(f"/drivers/{driver}/ahead/2024-11-05/05:00"), re.M))
        yield f"the first break of {driver}", office.text(".meters li:first-child b"), long(length_in(told["B1"]))
        used = re.findall(r"^(?:REDUCED|EXTENDED) (\d+)$", office.site.text(f"/drivers/{driver}/ahead/2024-11-05/05:00"), re.M)
        yield (f"what is used of {driver}",
            f"Reduced daily rests: {used[0]} of 3 · days over 9 h: {used[1]} of 2" in office.text("#content"), True)
    for value, said, asked in [("2025-03-30T02:30", "This local time doesn't exist: the clock was put forward.", None),
                               ("2024-10-27T02:30",
                                   "02:30 comes twice in this night. Which is meant? the first (00:30 UTC) the second (01:30 UTC)",
                                "01:30")]:
        office.go("/left", "#start-at")
        office.set("#start-at", value)
        yield f"the start {value}", office.text("#start-at-which"), said
        before = len(office.site.pages.asked)
        if asked:
            office.run("document.querySelectorAll('#start-at-which input')[1].click()")
            office.mark()
        office.run("document.querySelector('form').requestSubmit()")
        if asked:
            office.shown()
            yield "the second one is asked for", [one for one in office.site.pages.asked[before:]
                if "forecast" in one], [f"GET /forecast/2024-10-27/{asked}"]
        else:
            yield "nothing is asked for", office.site.pages.asked[before:], []


# Comparisons: gaps and entries

def posts(office: Office, path: str) -> int:
    """How many commands with a path the program's service was sent."""
    return office.site.pages.asked.count(f"POST {path}")


def spring_gap(office: Office) -> Comparisons:
    """The night in which the clock is put forward: a time that doesn't exist, and hours that are entered once."""
    path = f"/drivers/{BOTH_NIGHTS}"
    office.go(f"{path}/gaps", ".gap")
    yield "the gap in spring", rows_of_form(office), ["Sat 30 Mar 2024 21:00 to Sun 31 Mar 2024 11:00"]
    yield "its length and UTC", office.text(".gap .note"), "13 h · 2024-03-30 20:00 to 2024-03-31 09:00 UTC"
    yield "a time that doesn't exist", split(office, 0, "2024-03-31T02:30"), "This local time doesn't exist: the clock was put forward."
    yield "it divides nothing", len(rows_of_form(office)), 1
    split(office, 0, "2024-03-31T03:00")
    yield "divided at the change", rows_of_form(office), ["Sat 30 Mar 2024 21:00 to Sun 31 Mar 2024 03:00",
        "Sun 31 Mar 2024 03:00 to Sun 31 Mar 2024 11:00"]
    pick(office, 0, "work")
    pick(office, 1, "rest")
    yield "how many rows will be saved", office.text("#gaps-told"), "2 rows will be saved."
    office.set("#author", "Eva, Lund")
    yield ("a comma in the author", office.run("document.querySelector('#author').validationMessage"),
        "No comma, no double quote and no control character.")
    office.set("#author", "ä" * 33)
    yield "an author of 66 bytes", office.run("document.querySelector('#author').validationMessage"), "At most 64 bytes."
    office.set("#author", f"Ed {TURNED}")
    office.set("#note-0", "roster 13; <b>paper</b>")
    office.mark()
    before = posts(office, f"{path}/entries")
    office.run("(() => { const save = document.querySelector('#save'); save.click(); save.click(); "
        "document.querySelector('form').requestSubmit(); })()")
    office.shown(".box.good")
    yield "it is saved", office.notice(), "Saved as entries 1 to 2."
    yield "a double click sends once", posts(office, f"{path}/entries") - before, 1
    yield "what is entered", office.site.text(f"{path}/entries"), (
        f'1 2024-03-30 20:00 2024-03-31 01:00 work kept "Ed {TURNED}" "roster 13; <b>paper</b>"\n'
        f'2 2024-03-31 01:00 2024-03-31 09:00 rest kept "Ed {TURNED}" ""\n')
    yield "then there is no gap", office.until("/There are no gaps/.test(document.querySelector('#content').textContent)"), True


def autumn_gap(office: Office) -> Comparisons:
    """The night in which an hour comes twice: which is meant is asked, and each can be chosen."""
    path = f"/drivers/{UNKNOWN}"
    file = os.path.join(office.site.folder, "autumn.ddd")
    holed = [(start, past, activity) for start, past, activity in plainly("2024-10-07", "2024-10-21")
        if start >= minute_of("2024-10-07 00:00")]
    write(file, card(holder_of(UNKNOWN), LATER[1], holed))
    office.go("/files", ".drop")
    count = len(office.texts(".results li"))
    office.page.choose_files("#files", [file])
    taken(office, count + 1)
    office.go("/people", "table.cards")
    office.mark()
    office.run(f"""(() => {{
        const rows = [...document.querySelectorAll('#content table tbody tr')];
        const row = rows.find((one) => one.textContent.startsWith({json.dumps(LATER[1])}));
        const date = row.querySelector('input[type=date]');
        date.value = '2024-09-30';
        date.form.requestSubmit();
    }})()""")
    office.shown(".box.good")
    yield "another base", (office.notice(), office.site.text(path).split(" ")[2]), (f"{LATER[1]} is examined from Mon 30 Sep 2024 on.",
        "2024-09-30")
    office.go(f"{path}/gaps", ".gap")
    yield "the gap before the first file", rows_of_form(office), ["Mon 30 Sep 2024 02:00 to Mon 7 Oct 2024 02:00"]
    autumn = f"/drivers/{SOON}"
    night = os.path.join(office.site.folder, "night.ddd")
    write(night, card(holder_of(SOON), "Some Body", without(plainly("2024-10-13", "2024-10-29"), "2024-10-26 22:00", "2024-10-27 04:00")))
    office.go("/files", ".drop")
    office.page.choose_files("#files", [night])
    taken(office, count + 2)
    office.go(f"{autumn}/gaps", ".gap")
    yield "the gap in autumn", rows_of_form(office), ["Sun 27 Oct 2024 00:00 to Sun 27 Oct 2024 05:00"]
    yield "its length", office.text(".gap .note"), "6 h · 2024-10-26 22:00 to 2024-10-27 04:00 UTC"
    said = split(office, 0, "2024-10-27T02:30")
    yield "a time that comes twice", said, "02:30 comes twice in this night. Which is meant? the first (00:30 UTC) the second (01:30 UTC)"
    split(office, 1, "2024-10-27T02:30", second=True)
    yield "divided at both", rows_of_form(office), ["Sun 27 Oct 2024 00:00 to Sun 27 Oct 2024 02:30 (the first)",
                                                   "Sun 27 Oct 2024 02:30 (the first) to Sun 27 Oct 2024 02:30 (the second)",
                                                   "Sun 27 Oct 2024 02:30 (the second) to Sun 27 Oct 2024 05:00"]
    office.set("#author", "Eva Lund")
    for row, activity in enumerate(["rest", "drive", "available"]):
        pick(office, row, activity)
    # The connection breaks before the program gets the hours: nothing is there, and it can be sent again.
    office.site.pages.fail(f"POST {autumn}/entries", "before", 2)  # a browser may send a request twice by itself
    office.run("document.querySelector('#save').click()")
    yield ("a broken connection before", office.until("document.querySelector('#gaps-told .box')?.textContent === 'Nothing was saved. Try "
        "again.'"), True)
    office.site.pages.faults.clear()
    # It breaks after that: the page looks, and finds the hours.
    office.site.pages.fail(f"POST {autumn}/entries", "after")
    office.mark()
    office.run("document.querySelector('#save').click()")
    office.shown(".box.good")
    yield "a broken connection after", office.notice(), "Saved as entries 1 to 3."
    yield "the night's hours", office.site.text(f"{autumn}/entries"), (
        '1 2024-10-26 22:00 2024-10-27 00:30 rest kept "Eva Lund" ""\n2 2024-10-27 00:30 2024-10-27 01:30 drive kept "Eva Lund" ""\n'
        '3 2024-10-27 01:30 2024-10-27 04:00 available kept "Eva Lund" ""\n')
    # By days, and an hour that contradicts nothing; 503 and then a reading that fails: it isn't known, and nothing can be sent.
    office.go(f"{path}/gaps", ".gap")
    office.run("document.querySelector('.gap details').open = true")
    office.press_button("Split by days (8)")
    yield "divided by days", rows_of_form(office)[:2], ["Mon 30 Sep 2024 02:00 to Tue 1 Oct 2024 00:00",
        "Tue 1 Oct 2024 00:00 to Wed 2 Oct 2024 00:00"]
    pick(office, 1, "rest")
    office.site.pages.fail(f"POST {path}/entries", (503, "text/plain; charset=utf-8", b"unavailable\n"))
    office.site.pages.fail(f"GET {path}/entries", (503, "text/plain; charset=utf-8", b"unavailable\n"))
    office.run("document.querySelector('#save').click()")
    yield ("it isn't known", office.until("/Before that is known, nothing can be "
        "sent/.test(document.querySelector('#gaps-told').textContent)"), True)
    yield "the button is dead", office.run("document.querySelector('#save').disabled"), True
    office.press_button("Look again")
    yield "then it is known", office.until("/Nothing was saved/.test(document.querySelector('#gaps-told').textContent)"), True
    office.run("document.querySelectorAll('.gap')[1].querySelector('input[value=\"\"]').click()")  # so that the page may be left


def withdrawals(office: Office) -> Comparisons:
    """Entries are withdrawn: one, and several."""
    path = f"/drivers/{SOON}"
    office.go(f"{path}/entries", "table.cards")
    yield "the entries", [row[:3] for row in office.table("#content table")], [
        [number, f"{both(start)} to {both(past)} {long(minute_of(past) - minute_of(start))}", what] for number, start, past, what in [
            ("3", "2024-10-27 01:30", "2024-10-27 04:00", "available"), ("2", "2024-10-27 00:30", "2024-10-27 01:30", "driving"),
            ("1", "2024-10-26 22:00", "2024-10-27 00:30", "rest")]]
    office.mark()
    office.run("document.querySelector('#content tbody tr:nth-child(3) button').click()")
    yield "the question", office.until("document.querySelector('dialog')?.textContent.startsWith('Withdraw entry 1?')"), True
    office.confirm()
    office.shown(".box.good")
    yield "one is withdrawn", (office.notice(), re.findall("kept|withdrawn",
        office.site.text(f"{path}/entries"))), ("Entry 1 is withdrawn.", ["withdrawn", "kept", "kept"])
    for first, last, said, kept in [("1", "3", "An entry of these was withdrawn before. Nothing was changed. S8 already withdrawn",
        ["withdrawn", "kept", "kept"]),
                                    ("2", "3", "Entries 2 to 3 are withdrawn.", ["withdrawn"] * 3)]:
        office.set("#first", first)
        office.set("#last", last)
        office.mark()
        office.run("document.querySelector('form').requestSubmit()")
        office.confirm()
        office.shown(".box")
        yield f"entries {first} to {last}", (office.notice(), re.findall("kept|withdrawn", office.site.text(f"{path}/entries"))), (said,
            kept)
    office.go(f"/drivers/{BOTH_NIGHTS}/entries", "table.cards")
    yield "author and note are texts", (office.table("#content table")[1][3:5],
        office.run("document.querySelectorAll('#content td b').length")), (
        [f"Ed {TURNED}", "roster 13; <b>paper</b>"], 0)


# Comparisons: letters, inspections, drivers

def letters(office: Office) -> Comparisons:
    """Letters in both languages: every breach that is complete, with its numbers."""
    for driver in (CHANGED, WRONG, 13):
        month = Month(office.site.text, driver, MONTH_BEFORE)
        ready = [(found, evidence) for found, evidence in month.why if not is_open(found[1], evidence)]
        for language, head, words in [("en", "Your driving and rest times in October 2024", "Regulation (EC) No 561/2006"),
                                      ("de", "Ihre Lenk- und Ruhezeiten im Oktober 2024", "Verordnung (EG) Nr. 561/2006")]:
            office.go(f"/drivers/{driver}/{MONTH_BEFORE}/letter", ".sheet")
            if office.run("document.querySelector('#letter-language').value") != language:
                office.mark()
                office.set("#letter-language", language)
                office.shown(".sheet")
            office.set("#sender", "Spedition Lund\nHafenstraße 1")
            yield f"the letter to {driver} {language}", (office.text(".sheet h2"), office.text("html") != "",
                office.run("document.documentElement.lang")), (head, True, "en")
            yield f"its breaches {driver} {language}", office.run("[...document.querySelectorAll('.sheet .breach')].map((one) => "
                "one.id)"), [
                f"breach-{found[1]}-{minute_of(found[3])}" for found, _ in ready]
            left_out = len(month.why) - len(ready)
            yield f"what is left out {driver} {language}", office.text("#left-out"), "" if left_out == 0 else (
                f"{left_out} breach{' is' if left_out == 1 else 'es are'} left out: what shows {'it' if left_out == 1 else 'them'} isn't "
                    f"complete yet. "
                "Import the next card file first.")
            text = office.printed(f"letter-{driver}-{language}")
            if text and ready:
                text = re.sub(r"\s+", " ", text)
                moments = re.findall(r"\d\d:\d\d UTC \(", text)
                yield f"the printed letter {driver} {language}", (head in text, words in text, "Spedition Lund" in text, "Log out" in text,
                    len(moments) >= 2 * len(ready)), (
                    True, True, True, False, True)
    yield "where the language is kept", office.run(f"localStorage.getItem('tacho.letter.{CHANGED}')"), "de"
    office.go(f"/drivers/{BOTH_NIGHTS}/2024-03/letter", ".sheet")
    yield "a letter without breaches", "There is no finished breach" in office.text(".sheet"), True


def inspection(office: Office) -> Comparisons:
    """What is handed over: shown, saved, and read back."""
    office.go("/inspection", "#who")
    for driver, first, last, past in [(BOTH_NIGHTS, "2024-03-25", "2024-04-30", "2024-05-01"),
        (SOON, "2024-10-01", "2024-10-31", "2024-11-01")]:
        office.set("#who", str(driver))
        office.set("#from", first)
        office.set("#to", last)
        office.mark()
        office.run("document.querySelector('form').requestSubmit()")
        office.shown("#save-tar")
        given = office.site.ask(f"/drivers/{driver}/handover/{first}/{past}")[1]
        members = tars.members_of(given)
        contents = dict(members)["contents.txt"].decode()
        files = re.findall(r"^FILE (\S+) (\d+) (\S+)$", contents, re.M)
        shown = office.table("#content table")
        yield f"what is handed over of {driver}", [[row[0], row[2], row[3]] for row in shown], [list(one) for one in files]
        gaps = re.findall(r"^NOT HELD (.{16}) (.{16})$", contents, re.M)
        yield f"what isn't known of {driver}", office.texts("#not-held li"), [f"{both(start)} to {both(end)}" for start, end in gaps]
        name = os.path.join(office.site.folder, f"{driver}-{first}-{last}.tar")
        office.run("document.querySelector('#save-tar').click()")
        ends = time.monotonic() + 20
        while not os.path.isfile(name) and time.monotonic() < ends:
            time.sleep(0.05)
        yield f"what is saved of {driver}", tars.members_of(read(name)) if os.path.isfile(name) else None, members
    office.set("#from", "2024-01-01")
    office.set("#to", "2025-01-01")
    office.mark()
    office.run("document.querySelector('form').requestSubmit()")
    office.shown("#content .box.bad")
    yield "a period of 367 days", office.text("#content .box.bad"), "The period has to have 1 to 366 days."


def changes(office: Office) -> Comparisons:
    """A driver's name, base and key."""
    row = f"[...document.querySelectorAll('#content table tbody tr')].find((one) => one.querySelector('small').textContent === ' {ABSENT}')"
    office.go("/people", "table.cards")
    for name, said in [("Bert Falk", "The name is Bert Falk now."),
        ("Falk, Bert", "A value has another form than it may have. E9 bad value for name"),
                       (TURNED, f"The name is {TURNED} now.")]:
        office.mark()
        office.run(f"(() => {{ const input = {row}.querySelector('form input'); input.value = {json.dumps(name)}; "
            f"input.form.requestSubmit(); }})()")
        office.shown(".box")
        yield f"the name {name}", office.notice(), said
    yield "the name in the archive", office.site.text(f"/drivers/{ABSENT}").split(" ", 5)[5], f"{TURNED}\n"
    keys = []
    for turn in range(2):
        office.mark()
        office.run(f"{row}.querySelector('button').click()")
        office.until("document.querySelector('dialog[open]') !== null")
        yield (f"the question of a new key {turn}", office.text("dialog p"),
            f"A new key for {TURNED}? The present key will open nothing from then on.")
        if turn == 0:
            office.press_button("Cancel")
            yield "no key was changed", office.until("document.querySelector('dialog') === null") and posts(office,
                f"/drivers/{ABSENT}/key"), 0
        office.run("document.querySelector('dialog') === null && true")
        if turn == 0:
            office.run(f"{row}.querySelector('button').click()")
        office.confirm()
        office.shown(".slip")
        keys.append(office.texts(".slip code")[-1].replace(" ", ""))
    yield "the new key opens, the one before doesn't", [office.site.ask("/me/driver", key)[0] for key in keys], [403, 200]
    office.site.pages.fail(f"POST /drivers/{ABSENT}/base", (503, "text/plain; charset=utf-8", b"unavailable\n"))
    office.mark()
    office.run(f"(() => {{ const date = {row}.querySelector('input[type=date]'); date.value = '2024-10-07'; date.form.requestSubmit(); "
        f"}})()")
    office.shown(".box")
    yield ("a base whose reply is 503", office.notice(),
        "It isn't known whether this was done. Look at the list, and do it again if it wasn't.")
    office.mark()
    office.press_button("The slips are printed")
    office.confirm()
    office.shown()


# Comparisons: faults, keys, the look of the pages

def faults(office: Office) -> Comparisons:
    """Replies that aren't the archive's, a service that is down, and too many requests."""
    pages = office.site.pages
    text = "text/plain; charset=utf-8"
    down = ("The archive can't be reached at the moment. Nothing that was saved is lost. Try again in a minute; if that doesn't help, ask "
        "whoever keeps the service.")
    gone = ("The service isn't running, or there is no connection to it. Nothing that was saved is lost. Ask whoever keeps the service "
        "(systemctl status tacho).")
    unreadable = "The archive gave a reply that this page can't read, so it shows none of it. Program and page may be of two versions."
    for name, way, said in [
        ("503", (503, text, b"unavailable\n"), down), ("502", (502, "text/html", b"<html>"), down), ("504", (504, "text/html", b"<html>"),
            down),
        ("no connection", "before", gone), ("html", (200, "text/html", b"<h1>Hello</h1>"), unreadable), ("nothing", (200, text, b""),
            unreadable),
        ("another head", lambda told: told.replace(b"horizon", b"horizin"), unreadable), ("another number",
            lambda told: told.replace(b",0,", b",0x,", 1), unreadable),
        ("a row that is cut", lambda told: told[:-5], unreadable), ("a cell more", lambda told: told.replace(b"\n", b",\n", 2), unreadable),
    ]:
        pages.fail("GET /standing", way, 3 if way == "before" else 1)
        office.run("location.hash = '/x'")
        office.until("document.querySelector('#title')?.textContent === 'There is no such page.'")
        office.go("/", "#content .box")
        pages.faults.clear()
        yield f"the start page after {name}", (office.text("#content .box"), office.texts("#content td"), office.texts("#log-out")), (said,
            [], ["Log out"])
        if name == "503":
            office.mark()
            office.press_button("Try again")
            yield "then it is tried again", office.shown("table.cards"), True
    for driver, month, wanted in [(999, MONTH, "There is no driver with this number.")]:
        office.go(f"/drivers/{driver}/{month}", "#content .box")
        yield "a driver that isn't there", office.text("#content .box"), wanted
    for path, changed in [("why", lambda told: told.replace(b" Art ", b" art ", 1)),
        ("stretches", lambda told: told.replace(b"EXAMINED", b"EXAMINET", 1)),
                          ("gaps", lambda told: told.replace(b"-", b"/", 1) or b"x"), ("sheet",
                              lambda told: told.replace(b"TOTAL", b"TOTAI", 1)),
                          ("spans", lambda told: told.replace(b",rest,", b",Rest,", 1)), ("debts",
                              lambda told: told.replace(b"FROM", b"FORM", 1)),
                          ("files", lambda told: told.replace(b" both ", b" bath ", 1)), ("entries", lambda told: b"1\n")]:
        pages.fail(f"GET /drivers/{CHANGED}/{path}", changed, 9)
        office.go("/", "table.cards")
        office.go(f"/drivers/{CHANGED}/{MONTH_BEFORE}", "#content .box")
        yield f"one changed byte of {path}", (office.text("#content .box"), office.texts(".breach, .day, #content td")), (unreadable, [])
        pages.faults.clear()
    office.go("/", "table.cards")
    waits = "/asks again by itself/.test(document.querySelector('#busy').textContent)"
    office.until("[...document.querySelectorAll('.left-cell .v')].every((one) => one.textContent !== '…')")
    pages.fail(f"GET /drivers/{CHANGED}/files", (429, "text/html", b"<html>"))
    pages.fail(f"GET /drivers/{CHANGED}/why", (429, "text/html", b"<html>"))
    before = len(pages.asked)
    office.run(f"location.hash = '/drivers/{CHANGED}/{MONTH_BEFORE}'")
    yield "too many requests", office.until(waits), True
    time.sleep(1)
    yield "that is said as long as the page waits", office.run(waits), True
    yield "the page's content stays", office.text("#title").startswith("Drivers on"), True
    yield "then the page comes by itself", office.until("document.querySelector('.chart') !== null"), True
    asked = re.findall(rf"^GET /drivers/{CHANGED}/(\w+)", "\n".join(pages.asked[before:]), re.MULTILINE)
    yield "what it has got isn't asked for again", {name: asked.count(name) for name in ("files", "sheet", "spans", "why", "debts")}, {
        "files": 3, "sheet": 1, "spans": 1, "why": 2, "debts": 1}
    pages.fail("GET /forecast", (429, "text/html", b"<html>"))
    office.go("/", "table.cards")
    yield "too many requests while the page is shown", office.until(waits), True
    yield "then nothing is said", office.until("document.querySelector('#busy').textContent === ''"), True


def silence(office: Office) -> Comparisons:
    """A reading that gets no reply: after 35 seconds the page ends it, by waits that are a fifth as long. Readings that are slow but come
    are waited for."""
    pages = office.site.pages

    def slow(told: bytes) -> bytes:
        """A reply that comes late."""
        time.sleep(4.5)
        return told

    office.go("/", "table.cards")
    office.run("globalThis.hurry = 5")
    for path in ("files", "entries"):
        pages.fail(f"GET /drivers/{CHANGED}/{path}", slow)
    office.go(f"/drivers/{CHANGED}/{MONTH_BEFORE}", ".chart")
    yield "two replies after 22 seconds each", office.text("#title").startswith(MARKUP), True
    office.run("globalThis.hurry = 1")
    office.go("/people", "table.cards")
    office.run("globalThis.hurry = 5")
    pages.fail(f"GET /drivers/{CHANGED}/spans", "never")
    office.go(f"/drivers/{CHANGED}/{MONTH_BEFORE}", ".box.bad")
    yield "no reply in 35 seconds", office.texts("#content .box, #content button"), [
        "The archive can't be reached at the moment. Nothing that was saved is lost. Try again in a minute; if that doesn't help, ask "
        "whoever keeps the service.", "Try again"]
    office.run("globalThis.hurry = 1")
    office.mark()
    office.press_button("Try again")
    yield "then it is tried again", office.shown(".chart"), True


ROWS_SAID = "[...document.querySelectorAll('.gap input:checked')].map((one) => one.value).filter((one) => one !== '')"
IS_KEPT = """(() => {
    const event = new Event("beforeunload", { cancelable: true });
    dispatchEvent(event);
    return event.defaultPrevented;
})()"""


def leaving(office: Office) -> Comparisons:
    """The form for gaps with a row that is filled in: each way out of it asks first."""
    here, others = f"/drivers/{WRONG}/gaps", f"/drivers/{BOTH_NIGHTS}/gaps"
    question = "Hours are filled in here and not saved.Leave without savingStay"
    for name, leave, title in [
        ("a link", lambda: office.press_button("Card files"), "Card files"),
        ("another driver's gaps", lambda: office.run(f"location.hash = '{others}'"), "Eva Lund: Unknown hours"),
        ("the way back", lambda: office.run("(history.back(), 0)"), "Manage drivers"),
        ("another language", lambda: office.set("#language", "de"), f"{SEPARATED}: Unbekannte Stunden"),
    ]:
        office.go("/people", "table.cards")
        office.go(here, ".gap")
        yield f"{name}: the tab without a row", office.run(IS_KEPT), False
        pick(office, 0, "rest")
        yield f"{name}: the tab with a row", office.run(IS_KEPT), True
        leave()
        office.until("document.querySelector('dialog[open]') !== null")
        yield f"{name}: the question", (office.text("dialog[open]"), office.run("location.hash")), (question, f"#{here}")
        office.press_button("Stay")
        office.until("document.querySelector('dialog') === null")
        yield f"{name}: to stay", office.run(f"[location.hash, {ROWS_SAID}, document.querySelector('#language').value]"), [
            f"#{here}", ["rest"], "en"]
        leave()
        office.confirm()
        yield f"{name}: to leave", office.until(f"document.querySelector('#title').textContent === {json.dumps(title)}"), True
        yield f"{name}: then nothing is asked", office.run(f"[document.querySelector('dialog'), {IS_KEPT}]"), [None, False]
    office.speak("en")


# The texts with a name that are in no element of their own, and those that don't stand after a name which they follow.
LOOSE = """((names) => {
    const walk = document.createTreeWalker(document.body, NodeFilter.SHOW_TEXT), found = [];
    while (walk.nextNode()) {
        const text = walk.currentNode;
        if (names.some((name) => text.data.includes(name)) && text.parentElement.closest("bdi, option, textarea") === null) {
            found.push(text.data);
        }
    }
    for (const name of document.querySelectorAll("bdi")) {
        const next = name.nextSibling, box = name.getBoundingClientRect(), { display, overflow } = getComputedStyle(name);
        if (display !== "inline-block" || overflow !== "clip") found.push([name.textContent, display, overflow]);
        if (next?.nodeType !== Node.TEXT_NODE) continue;
        const after = document.createRange();
        after.setStart(next, 0);
        after.setEnd(next, 1);
        const [at] = after.getClientRects();
        if (at && at.left < box.right - 1 && at.bottom < box.bottom - 1) found.push([name.textContent, next.data]);
    }
    return found;
})(%s)"""


def names(office: Office) -> Comparisons:
    """Names that are markup, end lines, turn the direction of writing, or pile up: wherever one stands, it changes nothing beside it."""
    all_names = [MARKUP, SEPARATED, COMBINED, TURNED]
    loose = LOOSE % json.dumps(all_names)
    for address in [*ADDRESSES, *(f"/drivers/{driver}/{page}" for driver in (ABSENT, 13)
                                  for page in (MONTH, f"{MONTH_BEFORE}/letter", "left", "gaps", "entries"))]:
        office.go(address)
        office.run("document.querySelectorAll('details').forEach((one) => { one.open = true; })")
        yield f"names on {address}", office.run(loose), []
    office.go(f"/drivers/{BOTH_NIGHTS}/entries", "table.cards")
    yield "an author", (office.run(LOOSE % json.dumps(["Ed ", "roster 13"])), office.texts("td bdi")), (
        [], [f"Ed {TURNED}", "", f"Ed {TURNED}", "roster 13; <b>paper</b>"])
    office.go("/inspection", "#who")
    shown = office.run("[...document.querySelectorAll('#who option')].map((one) => one.textContent)")
    yield "names in a list to choose from", [one for one in shown if re.search("[\u202a-\u202e\u2066\u2067]", one)], []
    office.set("#who", str(ABSENT))
    office.mark()
    office.run("document.querySelector('form').requestSubmit()")
    office.shown("#save-tar")
    yield "names of an inspection", office.run(loose), []
    for number, name in [(number, name) for number, name, *_ in DRIVERS if name in all_names]:
        office.go("/people", "table.cards")
        row = f"[...document.querySelectorAll('#content tr')].find((one) => one.querySelector('small')?.textContent === ' {number}')"
        office.run(f"{row}.querySelector('button').click()")
        office.until("document.querySelector('dialog[open]') !== null")
        yield f"{name!r} in a question", (office.texts("dialog bdi"), office.run(loose)), ([name], [])
        office.press_button("Cancel")
        office.mark()
        office.run(f"(({{ form }}) => form.requestSubmit())({row}.querySelector('form input'))")
        office.shown(".box")
        kept = name.strip(" \u2028\u2029")  # the page sends it without blanks at its ends
        yield f"{name!r} in what became of it", (office.notice(), office.texts(".box bdi"), office.run(loose)), (
            f"The name is {kept} now.", [kept], [])


def by_hand(office: Office) -> Comparisons:
    """The marks of evidence that was entered by hand: hours that were unknown, hours that the card has too, and a withdrawn entry."""
    path = f"/drivers/{WRONG}"
    runs = re.findall(r"^  drive (.{16}) (.{16}) ", office.site.text(f"{path}/why/{MONTH_BEFORE}"), re.MULTILINE)
    given = [("2024-10-16 07:13", "2024-10-16 08:13", "drive"), ("2024-10-16 08:13", "2024-10-18 22:41", "rest"),
             (*runs[0], "drive"), (*runs[-1], "drive")]
    for row in given:
        yield f"entered {row}", office.site.ask(f"{path}/entries", posted=f"start,past,activity\n{','.join(row)}\n".encode())[0], 201
    yield "one is withdrawn", office.site.ask(f"{path}/withdraw/4", posted=b"")[0], 200
    entries = driver_month.kept_entries(office.site.text(f"{path}/entries"))
    why = [(found[1], [line[2:] for line in evidence]) for found, evidence in Month(office.site.text, WRONG, MONTH_BEFORE).why]
    marks = [[driver_month.is_by_hand(line, entries) for line in evidence] for kind, evidence in why if kind != "B9"]
    yield "lines of both kinds", {mark for one in marks for mark in one}, {True, False}
    ready = [driver_month.is_by_hand(line, entries) for found, evidence in Month(office.site.text, WRONG, MONTH_BEFORE).why
             if found[1] != "B9" and not is_open(found[1], evidence) for line in [one[2:] for one in evidence]]
    seen = """[...document.querySelectorAll('.breach:not([id^=breach-B9])')].map((one) =>
        [[...one.querySelectorAll('tbody th')].map((head) => head.textContent.endsWith(%s)),
            [...one.querySelectorAll('.evidence + .note')].map((note) => note.textContent)])"""
    for language, (mark, said) in driver_month.HAND.items():
        office.speak(language)
        office.go(f"{path}/{MONTH_BEFORE}", ".chart")
        yield f"the month {language}", office.run(seen % json.dumps(mark)), [[one, [said] * any(one)] for one in marks]
        office.go(f"{path}/{MONTH_BEFORE}/letter", ".sheet")
        office.mark()
        office.set("#letter-language", language)
        office.shown(".sheet")
        told = office.run(seen % json.dumps(mark))
        yield f"the letter {language}", ([mark for one, _ in told for mark in one], [notes for _, notes in told]), (
            ready, [[said] * any(one) for one, _ in told])
    office.speak("en")


def versions(office: Office) -> Comparisons:
    """A program of another version than the pages that are loaded: the page says so."""
    office.page.open("about:blank")
    office.page.open(office.site.address)
    office.shown("table.cards")
    office.until("/ · tacho \\d/.test(document.querySelector('#foot').textContent)")
    office.site.pages.fail("GET /version", lambda told: re.sub(rb"tacho [0-9.]+", b"tacho 9.9.9", told))
    office.go("/people", "table.cards")
    yield "another version", office.until("document.querySelector('#content > .box.warn') !== null") and office.notice(), (
        "The program is of another version now. Refresh")


def sessions(office: Office) -> Comparisons:
    """A key that is changed amid use, a log-out, half an hour without a key press, and the way back."""
    pages = office.site.pages
    for name, leave, said in [
        ("403 amid use", lambda: (pages.fail("GET /drivers", (403, "text/plain; charset=utf-8", b"forbidden\n")),
            office.run("location.hash = '/files'")),
         "This key isn't known. Check it, or ask whoever keeps the service."),
        ("a log-out", lambda: office.click("#log-out"), "You are logged out."),
        ("half an hour",
            lambda: office.run("(globalThis.clockLater = (globalThis.clockLater ?? 0) + 30 * 60000, document.dispatchEvent(new "
                "Event('visibilitychange')), 0)"),
         "You are logged out: for half an hour no key was pressed and nothing was clicked."),
        ("the way back", lambda: office.run("(dispatchEvent(new PageTransitionEvent('pageshow', { persisted: true })), 0)"),
            "You are logged out."),
        ("the way back after a log-out elsewhere",
            lambda: office.run("(sessionStorage.clear(), dispatchEvent(new PageTransitionEvent('pageshow', { persisted: true })), 0)"),
            "You are logged out."),
    ]:
        office.go("/", "table.cards")
        if name == "half an hour":
            office.click("#title")
            office.run("(globalThis.clockLater = 29 * 60000, document.dispatchEvent(new Event('visibilitychange')), 0)")
            yield "29 minutes", office.texts("#log-out"), ["Log out"]
            office.click("#title")
        leave()
        office.until("document.querySelector('#key') !== null")
        yield name, (office.text("#content .box"),
            office.run("[Object.keys(sessionStorage), document.title, document.querySelector('#nav').textContent]")), (
            said, [[], "Tachograph office", ""])
        yield f"{name}: nothing is left", office.run("document.body.textContent.includes('Richter')"), False
        office.run("location.hash = '/'")
        office.sign_in()
        office.shown("table.cards")


ADDRESSES = ["/", "/files", "/left", f"/month/{MONTH_BEFORE}", "/people", "/inspection", f"/drivers/{CHANGED}/{MONTH_BEFORE}",
             f"/drivers/{CHANGED}/{MONTH_BEFORE}/letter", f"/drivers/{CHANGED}/left", f"/drivers/{WRONG}/gaps", f"/drivers/{SOON}/entries"]


WIDTH = "document.documentElement.scrollWidth"
# What lies beyond the margins of the page, but for what scrolls by itself.
BEYOND = """(() => {
    const main = document.querySelector("#content");
    const right = main.getBoundingClientRect().right - parseFloat(getComputedStyle(main).paddingRight);
    return [...main.querySelectorAll("*:not(.wide *, .hush)")].filter((one) => one.getBoundingClientRect().right > right + 1)
        .map((one) => `${one.tagName} ${one.textContent.slice(0, 20)}`).slice(0, 3);
})()"""


def looks(office: Office, pictures: str) -> Comparisons:
    """The pages at two widths, light and dark, in both languages: nothing lies beside the screen, and no word is missing."""
    for language, scheme, width in [("en", "light", 1280), ("de", "dark", 360), ("de", "light", 360), ("en", "dark", 1280)]:
        office.page.resize(width)
        office.page.call("Emulation.setEmulatedMedia", features=[{"name": "prefers-color-scheme", "value": scheme}])
        office.speak(language)
        for address in ADDRESSES:
            office.go(address)
            time.sleep(0.1)
            name = address.strip("/").replace("/", "-") or "start"
            office.page.picture(os.path.join(pictures, f"{name}-{language}-{scheme}-{width}.png"))
            for other in [1200, width] if width > 1200 else [width]:
                office.page.resize(other)
                yield f"{address} {language} {other}: the width", office.run(f"[{WIDTH}, {BEYOND}]"), [other, []]
            yield f"{address} {language} {width}: words that are missing", re.findall(r"undefined|NaN|\[object|=>", office.text("body")), []
    office.page.resize(1280)
    office.speak("en")


def budget(office: Office) -> Comparisons:
    """How much each page loads in each language, when it is the first one. (A letter in another language loads that one too.)"""
    office.run(f"localStorage.removeItem('tacho.letter.{CHANGED}')")
    for language, address in itertools.product(("en", "de"), ADDRESSES):
        office.run(f"localStorage.setItem('tacho.language', '{language}')")
        office.page.open(f"{office.site.address}?")  # leaves the page, so that the next one is loaded anew
        office.page.call("Network.setCacheDisabled", cacheDisabled=True)
        before = len(office.page.events("Network.requestWillBeSent"))
        office.page.open("about:blank")
        office.page.open(f"{office.site.address}#{address}")
        office.shown("#title")
        urls = [one["request"]["url"] for one in office.page.events("Network.requestWillBeSent")[before:]]
        files = sorted({url.split("#")[0].split("/", 3)[3] for url in urls if re.search(r"/(office|shared)/", url)})
        texts = [read(os.path.join(PAGES, f"{name}index.html" if name.endswith("/") else name)) for name in files]
        sizes = sum(map(len, texts)), sum(len(gzip.compress(text, 9)) for text in texts), len(files)
        yield f"{address} in {language}: the sentences", [name for name in files if "words-" in name], [
            f"office/words-{language}.js", f"shared/words-{language}.js"]
        yield f"{address} in {language}: bytes, bytes with gzip, requests: {sizes}", [
            one <= most for one, most in zip(sizes, BUDGET)], [True] * 3
    office.speak("en")


def quiet(office: Office) -> Comparisons:
    """What the browser has to say of the pages: nothing but the replies that failed, and no request to others."""
    said = [one["args"] for one in office.page.events("Runtime.consoleAPICalled")] + office.page.events("Runtime.exceptionThrown")
    yield "messages of the pages", said, []
    logged = [one["entry"]["text"] for one in office.page.events("Log.entryAdded")]
    yield "messages of the browser", [one for one in logged
        if not re.match(r"Failed to load resource: (the server responded with a status of [45]|net::ERR_)", one)], []
    hosts = {one["request"]["url"].split("/")[2] for one in office.page.events("Network.requestWillBeSent")
        if one["request"]["url"].startswith("http")}
    yield "whom the pages asked", sorted(hosts), [f"127.0.0.1:{office.site.pages.port}"]


def comparisons(program: str, pictures: str | None = None) -> Comparisons:
    """All comparisons."""
    yield from office_files()
    if not browser.installed():
        print("left out: the office's pages in a browser, since chromium isn't installed: apt install chromium", flush=True)
        return
    if not shutil.which("pdftotext"):
        print("left out: the texts of printed pages, since pdftotext isn't installed: apt install poppler-utils", flush=True)
    with tempfile.TemporaryDirectory(ignore_cleanup_errors=True) as folder, Site(os.path.abspath(program), folder) as site:
        kept = pictures or os.path.join(folder, "pictures")
        os.makedirs(kept, exist_ok=True)
        with Browser(os.path.join(folder, "browser"), "en-GB,en", ZONES[-1].key) as driven:
            office = Office(site, driven.page())
            driven.call("Browser.setDownloadBehavior", behavior="allow", downloadPath=site.folder)
            for part in (
                signing_in, languages, sentences, registering, importing, contradiction, broken_uploads, start_page, months, all_drivers,
                what_is_left, spring_gap, autumn_gap, withdrawals, letters, inspection, changes, leaving, names, faults, silence, versions,
                sessions,
            ):
                yield from part(office)
            yield from looks(office, kept)
            yield from budget(office)
            yield from by_hand(office)
            yield from quiet(office)


if __name__ == "__main__":
    sys.exit(counting.count(comparisons(*sys.argv[1:])))
