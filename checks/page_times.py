#!/usr/bin/env python3
"""Measures in headless Chromium how soon the pages are there: the first content of the office's page and of the driver's, and all rows of
the start page, at an archive of 50 drivers with a year of hours each; and once more beside 50 connections that are open and send nothing.
No file comes from the browser's cache.

A limit is for the least of several tries. Other work on the machine makes any single try late and none early, so the least one says most of
the pages and the program. One try within the limit is enough, and a page that is too slow has none.

Argument: the program. Where Chromium isn't installed, only the replies to what fills the archive are looked at. The last line is
'N passed, M failed'."""
import contextlib
import itertools
import os
import select
import socket
import sys
import tempfile
from collections.abc import Callable, Iterator

from inputs.working_lives import DRIVERS, Driver, Life, first_day, holder_of, key_of
from lib import browser, counting
from lib.browser import Browser, Page
from lib.counting import Comparisons
from lib.driver_month import DAY, minutes_of, text_of
from lib.office_month import NOW, ZONES
from lib.office_site import Site
from lib.office_tab import Office

COUNT = 50  # of drivers
SILENT = 50  # connections that send nothing
LAST = minutes_of(NOW) // DAY - 1  # the day on which the cards are read

# The most seconds: of the first content, and of all rows; alone, and beside silent connections.
FIRST, ROWS = 0.5, 1
FIRST_BESIDE, ROWS_BESIDE = 1, 2
TRIES = 12  # at most: the first that is within the limit is the last

# Notes when all rows have been drawn, in milliseconds since the page was asked for.
WATCH = """new MutationObserver((_, watcher) => {
    if (document.querySelectorAll("#content table.cards tbody tr").length === %d) {
        watcher.disconnect();
        requestAnimationFrame(() => setTimeout(() => { globalThis.drawnAt = performance.now(); }));
    }
}).observe(document, { childList: true, subtree: true })""" % COUNT
PAINTED = "performance.getEntriesByName('first-contentful-paint')[0]?.startTime"
DRAWN = "globalThis.drawnAt"


def drivers() -> Iterator[Driver]:
    """The drivers: the examples' ones again and again, each with a life of their own."""
    for number, driver in zip(range(1, COUNT + 1), itertools.cycle(DRIVERS)):
        yield driver._replace(number=number, name=f"{driver.name} {number}", has_file=True, age=0)


def fill(site: Site) -> list[int]:
    """Registers the drivers, and imports a year of each. Returns the statuses of the replies."""
    base = text_of(DAY * first_day(LAST))[:10]
    statuses = []
    for one in drivers():
        row = f"driver,holder,key,base,name\n{one.number},{holder_of(one).hex()},{key_of(one)},{base},{one.name}\n"
        statuses += [site.ask("/drivers", posted=row.encode())[0], site.ask("/cards/both", posted=Life(one, LAST).file(LAST))[0]]
    return statuses


def seconds(page: Page, address: str, value: str) -> float:
    """After how many seconds a page that is loaded from an address notes a value; infinity if it doesn't."""
    page.open(address)
    return page.run(value) / 1000 if page.until(f"{value} !== undefined") else float("inf")


def within(name: str, measured: list[float], most: float) -> tuple[str, object, object]:
    """The comparison of the least of some times with a limit. Prints them all."""
    print(f"{name}: {', '.join(f'{one:.2f}' for one in measured)} s", flush=True)
    return f"{name}, at most {most} s", min(measured) <= most or measured, True


@contextlib.contextmanager
def silent(site: Site) -> Iterator[Callable[[], int]]:
    """Connections that are opened and send nothing: how many of them are open and have got nothing."""
    with contextlib.ExitStack() as stack:
        clients: list[socket.socket] = [stack.enter_context(site.serving.connection()) for _ in range(SILENT)]
        yield lambda: SILENT - len(select.select(clients, [], [], 0)[0])


def leave(page: Page, site: Site) -> None:
    """Leaves the page, and waits until the program has answered what it had still asked for."""
    page.open("about:blank")
    site.ask("/version")


def alone(page: Page, site: Site, name: str, address: str, value: str, most: float) -> Comparisons:
    """The time of a page."""
    measured: list[float] = []
    while len(measured) < TRIES and min(measured, default=most + 1) > most:
        leave(page, site)
        measured.append(seconds(page, address, value))
    yield within(name, measured, most)


def beside(page: Page, site: Site, name: str, address: str, value: str, most: float) -> Comparisons:
    """The time of a page beside silent connections, which are open when the page is asked for."""
    measured: list[float] = []
    counts: list[int] = []
    while len(measured) < TRIES and min(measured, default=most + 1) > most:
        leave(page, site)
        with silent(site) as still_open:
            counts.append(still_open())
            measured.append(seconds(page, address, value))
    yield f"{name}: silent connections before it", counts, [SILENT] * len(counts)
    yield within(name, measured, most)


def pages(site: Site, page: Page) -> Comparisons:
    """The times of all pages."""
    page.call("Network.setCacheDisabled", cacheDisabled=True)
    page.before_each(WATCH)
    office = Office(site, page)
    addresses = [(f"/{name}/", site.direct(name)) for name in ("office", "driver")]
    for name, address in addresses:
        yield from alone(page, site, f"the first content of {name}", address, PAINTED, FIRST)
    for name, address in addresses:
        yield from beside(page, site, f"the first content of {name} beside silent connections", address, PAINTED, FIRST_BESIDE)
    page.open(site.direct("office"))
    office.sign_in()
    yield "all rows", page.until(f"{DRAWN} !== undefined"), True
    yield from alone(page, site, "all rows of the start page", site.direct("office"), DRAWN, ROWS)
    yield from beside(page, site, "all rows beside silent connections", site.direct("office"), DRAWN, ROWS_BESIDE)


def comparisons(program: str) -> Comparisons:
    """All comparisons."""
    with tempfile.TemporaryDirectory(ignore_cleanup_errors=True) as folder, Site(os.path.abspath(program), folder) as site:
        yield "the replies to drivers and card files", set(fill(site)), {201}
        if not browser.installed():
            print("left out: the times of the pages, since chromium isn't installed: apt install chromium", flush=True)
            return
        with Browser(os.path.join(folder, "browser"), "en-GB,en", ZONES[-1].key) as driven:
            yield from pages(site, driven.page())


if __name__ == "__main__":
    sys.exit(counting.count(comparisons(*sys.argv[1:])))
