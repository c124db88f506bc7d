#!/usr/bin/env python3
"""Opens the office's pages in headless Chromium in other time zones than that of office_pages.py: months, and the form of a driver's gaps
on both nights in which the clock is changed, with local times that don't exist and that come twice. What the pages show, and what is
entered then, is compared with the program's texts and with the zones of Python's own library.

Argument: the program. Where Chromium isn't installed, only the replies to what fills the archive are looked at. The last line is
'N passed, M failed'."""
import datetime
import os
import sys
import tempfile
from typing import NamedTuple

from lib import browser, counting
from lib.browser import Browser, Page
from lib.counting import Comparisons
from lib.driver_month import minutes_of, text_of
from lib.office_month import ZONES, in_zone, local
from lib.office_site import Site, card, holder_of, plainly, without
from lib.office_tab import Office, month_page, pick, rows_of_form, split

EUROPE = [("2024-03-30 20:00", "2024-03-31 09:00"), ("2024-10-26 20:00", "2024-10-27 06:00")]
AMERICA = [("2024-03-10 02:00", "2024-03-10 12:00"), ("2024-11-03 02:00", "2024-11-03 12:00")]
GAPS = sorted(EUROPE + AMERICA)  # of each driver, in UTC
BASE = "2024-03-04"
FARTHEST = 14 * 60  # minutes that local time is from UTC at the most


class Place(NamedTuple):
    """A zone, a driver whose gaps are filled in there, and local times: one that doesn't exist, the first one after it, and one that comes
    twice."""
    zone: str
    driver: int
    nights: list[tuple[str, str]]
    absent: str
    after: str
    twice: str


PLACES = [
    Place("Europe/London", 41, EUROPE, "2024-03-31 01:30", "2024-03-31 02:00", "2024-10-27 01:30"),
    Place("Europe/Lisbon", 42, EUROPE, "2024-03-31 01:30", "2024-03-31 02:00", "2024-10-27 01:30"),
    Place("Europe/Kyiv", 43, EUROPE, "2024-03-31 03:30", "2024-03-31 04:00", "2024-10-27 03:30"),
    Place("America/New_York", 44, AMERICA, "2024-03-10 02:30", "2024-03-10 03:00", "2024-11-03 01:30"),
]


def fill(site: Site) -> list[int]:
    """Registers the drivers, and imports their card files. Returns the statuses of the replies."""
    spans = plainly(BASE, "2024-11-04")
    for start, past in GAPS:
        spans = without(spans, start, past)
    statuses = []
    for place in PLACES:
        row = f"driver,holder,key,base,name\n{place.driver},{holder_of(place.driver)},driver-{place.driver}-key,{BASE},Eva Lund\n"
        statuses += [site.ask("/drivers", posted=row.encode())[0],
                     site.ask("/cards/both", posted=card(holder_of(place.driver), "Eva Lund", spans))[0]]
    return statuses


def minutes_at(text: str) -> list[str]:
    """The minutes in UTC that a clock of the zone shows as a local time: none, one or two."""
    middle = minutes_of(text)
    return [text_of(minute) for minute in range(middle - FARTHEST, middle + FARTHEST + 1)
            if f"{datetime.datetime.fromtimestamp(60 * minute, ZONES[-1]):%Y-%m-%d %H:%M}" == text]


def row_text(*ends: tuple[str, str]) -> str:
    """A row of the form: its ends in local time, each with what is said of it."""
    return " to ".join(f"{local(text, True)}{said}" for text, said in ends)


def nights(office: Office[Page], place: Place) -> Comparisons:
    """The form of a driver's gaps: both nights, from the later one on, and what is entered."""
    office.go(f"/drivers/{place.driver}/gaps", ".gap")
    rows = [row_text((start, ""), (past, "")) for start, past in GAPS]
    yield f"{place.zone}: the gaps", rows_of_form(office), rows
    spring, autumn = (GAPS.index(night) for night in place.nights)
    (begin, end), first_and_second = GAPS[autumn], minutes_at(place.twice)
    first, second = first_and_second
    yield f"{place.zone}: a time that comes twice", split(office, autumn, place.twice.replace(" ", "T")), (
        f"{place.twice[11:]} comes twice in this night. Which is meant? the first ({first[11:]} UTC) the second ({second[11:]} UTC)")
    split(office, autumn + 1, place.twice.replace(" ", "T"), second=True)
    ends = [(begin, ""), (first, " (the first)"), (second, " (the second)"), (end, "")]
    rows[autumn:autumn + 1] = [row_text(*pair) for pair in zip(ends, ends[1:])]
    yield f"{place.zone}: divided at both", rows_of_form(office), rows
    yield f"{place.zone}: a time that doesn't exist", (split(office, spring, place.absent.replace(" ", "T")), minutes_at(place.absent)), (
        "This local time doesn't exist: the clock was put forward.", [])
    yield f"{place.zone}: it divides nothing", rows_of_form(office), rows
    split(office, spring, place.after.replace(" ", "T"))
    (start, past), [change] = GAPS[spring], minutes_at(place.after)
    rows[spring:spring + 1] = [row_text((start, ""), (change, "")), row_text((change, ""), (past, ""))]
    yield f"{place.zone}: divided at the change", rows_of_form(office), rows
    chosen = [(spring, start, change, "work"), (spring + 1, change, past, "rest"), (autumn + 1, begin, first, "rest"),
              (autumn + 2, first, second, "drive"), (autumn + 3, second, end, "available")]
    for row, _, _, activity in chosen:
        pick(office, row, activity)
    office.set("#author", "Eva Lund")
    office.mark()
    office.run("document.querySelector('#save').click()")
    office.shown(".box.good")
    yield f"{place.zone}: what is entered", office.site.text(f"/drivers/{place.driver}/entries"), "".join(
        f'{number} {since} {until} {activity} kept "Eva Lund" ""\n' for number, (_, since, until, activity) in enumerate(chosen, 1))


def in_place(site: Site, folder: str, place: Place) -> Comparisons:
    """The pages in a zone."""
    with in_zone(place.zone), Browser(os.path.join(folder, str(place.driver)), "en-GB,en", place.zone) as driven:
        office = Office(site, driven.page())
        office.page.open(site.direct("office"))
        office.sign_in()
        office.shown("table.cards")
        yield "the browser's zone", office.run("Intl.DateTimeFormat().resolvedOptions().timeZone").replace("Kiev", "Kyiv"), place.zone
        for month in ("2024-03", "2024-10", "2024-11"):
            for name, told, wanted in month_page(office, place.driver, month):
                yield f"{place.zone}: {name}", told, wanted
        yield from nights(office, place)


def comparisons(program: str) -> Comparisons:
    """All comparisons."""
    with tempfile.TemporaryDirectory(ignore_cleanup_errors=True) as folder, Site(os.path.abspath(program), folder) as site:
        yield "the replies to drivers and card files", set(fill(site)), {201}
        if not browser.installed():
            print("left out: the pages in other time zones, since chromium isn't installed: apt install chromium", flush=True)
            return
        for place in PLACES:
            yield from in_place(site, folder, place)


if __name__ == "__main__":
    sys.exit(counting.count(comparisons(*sys.argv[1:])))
