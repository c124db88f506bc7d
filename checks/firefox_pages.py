#!/usr/bin/env python3
"""Opens the office's pages and the driver's page in headless Firefox, before a fresh service (`listen`) without a server between: wrong
keys and right ones, the start page, months of the office and of drivers, two tabs at once, and many visits in a row. What the pages show is
compared with the program's texts as in Chromium (office_pages.py, driver_page.py), at the same moment of the clock.

Argument: the program. Where Firefox isn't installed, only the replies to what fills the archive are looked at. The last line is
'N passed, M failed'."""
import os
import sys
import tempfile
from typing import Any

from lib import counting, driver_tab, firefox
from lib.counting import Comparisons
from lib.driver_month import OTHERS
from lib.driver_month import Month as DriversMonth
from lib.driver_month import minutes_of
from lib.firefox import Browser, Page
from lib.office_month import MONTH, MONTH_BEFORE, NOW, ZONES
from lib.office_site import BOTH_NIGHTS, CHANGED, DRIVERS, GONE, LATER, WRONG, Site, key_of
from lib.office_tab import CLOCK, Office, month_page, squeezed, start_rows
from lib.server import OFFICE

WRONG_KEY = "nobody-has-this-key"
VISITS = 50
ROWS = len(DRIVERS) + 1 - len([GONE])  # of the start page
ROUNDS = 5  # in which two tabs load their pages at once
IS_FILLED = "document.querySelector('table.cards') && " \
    "[...document.querySelectorAll('.left-cell .v')].every((one) => one.textContent !== '…')"
SHOWN = "[document.querySelectorAll('#content table tbody tr').length, document.querySelectorAll('.box').length]"


def readings(page: Page) -> int:
    """How many requests the page has made but those for its files."""
    urls = [one["request"]["url"] for one in page.events("network.beforeRequestSent")]
    return sum(not url.split("/", 3)[3].startswith(("office/", "driver/", "shared/")) for url in urls if url.startswith("http"))


def office_keys(office: Office[Page]) -> Comparisons:
    """A wrong key, of which nothing is kept or shown, and the right one."""
    office.page.open(office.site.direct("office"))
    yield "before a key", (office.texts("#nav a"), office.texts("#content table"), office.text("#title")), ([], [], "Tachograph office")
    before = readings(office.page)
    office.sign_in(WRONG_KEY)
    office.until("document.querySelector('#content .box') !== null")
    yield "a wrong key", office.text("#content .box"), "This key isn't known. Check it, or ask whoever keeps the service."
    yield "what is kept and shown of it", office.run("[Object.keys(sessionStorage), Object.keys(localStorage), document.title, "
        "document.querySelectorAll('#nav a, #content table').length]"), [[], [], "Tachograph office", 0]
    yield "how often it is sent", readings(office.page) - before, 1
    office.mark()
    office.sign_in()
    yield "the right key", office.shown("table.cards"), True
    yield "where it is kept", office.run("[{...sessionStorage}, Object.keys(localStorage), document.cookie, location.search]"), [
        {"tacho.key": OFFICE}, [], "", ""]


def office_months(office: Office[Page]) -> Comparisons:
    """The months of some drivers."""
    for driver in (CHANGED, WRONG, 13, BOTH_NIGHTS, LATER[0]):
        for month in (MONTH_BEFORE, MONTH):
            yield from month_page(office, driver, month)
    yield from month_page(office, BOTH_NIGHTS, "2024-03")


def visits(office: Office[Page]) -> Comparisons:
    """Many visits in a row: the page shows all rows each time."""
    office.go("/", "table.cards")
    office.until(IS_FILLED)
    first = squeezed(office.table("#content table"))
    found = []
    for _ in range(VISITS):
        office.page.open("about:blank")
        office.page.open(office.site.direct("office"))
        found.append((office.until(IS_FILLED), office.run(SHOWN)))
    yield "visits in a row", found, [(True, [ROWS, 0])] * VISITS
    yield "the rows of the last one", squeezed(office.table("#content table")), first


def two_tabs(office: Office[Page], other: Office[Page]) -> Comparisons:
    """A second tab has a key of its own, and both load their pages at once."""
    other.page.open(office.site.direct("office"))
    yield "the second tab asks for a key", other.until("document.querySelector('#key') !== null") and other.texts("#content table"), []
    other.sign_in()
    other.until(IS_FILLED)
    rows = squeezed(office.table("#content table"))
    for number in range(ROUNDS):
        for tab in (office, other):
            tab.run("(globalThis.isOld = true)")
            tab.page.reload()
        for name, tab in (("first", office), ("second", other)):
            tab.until(f"globalThis.isOld === undefined && {IS_FILLED}")
            yield f"the rows of the {name} tab, {number}", squeezed(tab.table("#content table")), rows
    other.click("#log-out")
    yield "the second tab is left", other.until("document.querySelector('#key') !== null") and other.run("sessionStorage.length"), 0
    office.go(f"/month/{MONTH_BEFORE}", "table.cards")
    yield "the first one has its key", office.texts("#log-out"), ["Log out"]


def driver_page(site: Site, page: Page) -> Comparisons:
    """The driver's page: a wrong key, and months in both languages."""
    page.open(site.direct("driver"))
    page.until(driver_tab.IS_DONE + " || !document.querySelector('#sign-in').hidden")
    driver_tab.sign_in(page, WRONG_KEY)
    yield "a wrong key of a driver", page.run(driver_tab.MESSAGE), OTHERS["en"]["bad key"]
    yield "what is kept and shown of it", page.run("[sessionStorage.length, localStorage.length, document.cookie, "
        "document.querySelector('#hours').hidden, document.querySelector('#hours').childNodes.length]"), [0, 0, "", True, 0]
    for driver, month in [(CHANGED, MONTH_BEFORE), (CHANGED, MONTH), (WRONG, MONTH_BEFORE), (BOTH_NIGHTS, "2024-03")]:
        if page.run("document.querySelector('#sign-in').hidden"):
            page.run("document.querySelector('#log-out').click()")
        driver_tab.speak(page, "en")
        driver_tab.sign_in(page, key_of(driver))
        driver_tab.show(page, month)
        said = page.run(driver_tab.MESSAGE)
        yield f"what the page of driver {driver} {month} says", said, ""
        if said:
            continue
        wanted = DriversMonth(lambda path: site.text(path, key_of(driver)), month, NOW)
        for language in ("en", "de"):
            driver_tab.speak(page, language)
            yield from driver_tab.month_comparisons(f"the page of driver {driver} {month} {language}", page, wanted, language)
    driver_tab.speak(page, "en")


def quiet(driven: Browser, site: Site) -> Comparisons:
    """What Firefox has to say of all pages: messages, refusals of the policy, connections that failed, and whom they asked."""
    driven.settle()
    events = driven.events
    yield "messages of the browser", [one["text"] for name, one in events if name == "log.entryAdded"], []
    # A page gives up its readings when it is left.
    failed = [(one["request"]["url"].split("/")[3], one["errorText"]) for name, one in events if name == "network.fetchError"]
    yield "requests that failed", [one for one in failed if one[1] != "NS_BINDING_ABORTED"], []
    replies: list[Any] = [one["response"] for name, one in events if name == "network.responseCompleted"]
    yield "statuses but 200", [one["status"] for one in replies if one["url"].startswith("http") and one["status"] != 200], [403, 403]
    hosts = {one["request"]["url"].split("/")[2] for name, one in events if name == "network.beforeRequestSent"
             and one["request"]["url"].startswith("http")}
    yield "whom the pages asked", hosts, {f"127.0.0.1:{site.serving.port}"}


def pages(site: Site, driven: Browser) -> Comparisons:
    """The comparisons of all pages."""
    office = Office(site, driven.page())
    for part in (office_keys, start_rows, office_months, visits):
        yield from part(office)
    yield from two_tabs(office, Office(site, driven.page()))
    driver = driven.page()
    driver.before_each(CLOCK % (60_000 * minutes_of(NOW)))
    yield from driver_page(site, driver)
    yield from quiet(driven, site)


def comparisons(program: str) -> Comparisons:
    """All comparisons."""
    with tempfile.TemporaryDirectory(ignore_cleanup_errors=True) as folder, Site(os.path.abspath(program), folder) as site:
        yield "the replies to drivers and card files", set(site.fill()), {201}
        if not firefox.installed():
            print("left out: the pages in Firefox, since it isn't installed: apt install firefox-esr", flush=True)
            return
        with Browser(os.path.join(folder, "browser"), "en-GB,en", ZONES[-1].key) as driven:
            yield from pages(site, driven)


if __name__ == "__main__":
    sys.exit(counting.count(comparisons(*sys.argv[1:])))
