"""A tab of a browser with the office's pages, and what is compared of the start page and of a driver's month. The browser is Chromium
(browser.py) or Firefox (firefox.py)."""
import json
import os
import re
import shutil
import subprocess
from collections.abc import Sequence
from typing import Any, Generic, TypeVar

from lib import browser, firefox
from lib.counting import Comparisons
from lib.driver_month import length_in, minutes_of, month_text
from lib.files import write
from lib.office_month import MONTH, NOW, Month, ago, both, local, long, start_row, task_of
from lib.office_site import GONE, Site
from lib.server import OFFICE

P = TypeVar("P", browser.Page, firefox.Page)

CLOCK = """(() => {
    const Real = Date, moved = %d - Date.now();
    class Moved extends Real {
        constructor(...given) { if (given.length) super(...given); else super(Moved.now()); }
        static now() { return Real.now() + moved + (globalThis.clockLater ?? 0); }
    }
    globalThis.Date = Moved;
    const wait = setTimeout;
    globalThis.setTimeout = (act, milliseconds) => wait(act, milliseconds / (globalThis.hurry ?? 1));
})()"""


def plain(value: Any) -> Any:
    """A value of the page with usual blanks in place of those at which no line ends."""
    return json.loads(json.dumps(value, ensure_ascii=False).replace("\u00a0", " "))


class Office(Generic[P]):
    """A tab of the browser with the office's pages, at a moment that is set."""

    def __init__(self, site: Site, page: P) -> None:
        self.site = site
        self.page: P = page
        page.before_each(CLOCK % (60_000 * minutes_of(NOW)))

    def run(self, expression: str) -> Any:
        """The value of an expression."""
        return plain(self.page.run(expression))

    def until(self, expression: str) -> bool:
        """Waits until an expression is true."""
        return self.page.until(expression)

    def sign_in(self, key: str = OFFICE) -> None:
        """Types a key, and presses Enter."""
        self.until("document.querySelector('#key') !== null")
        self.run("(document.querySelector('#key').value = '', document.querySelector('#key').focus())")
        self.page.type(key)
        self.page.press("Enter")

    def go(self, to: str, shown: str = "#title") -> None:
        """Opens a page by its address, and waits until it is shown."""
        self.mark()
        self.run(f"location.hash = {json.dumps(to)}")
        self.shown(shown)

    def mark(self) -> None:
        """Marks what is shown, so that one can wait for what comes next."""
        self.run("document.querySelector('#content').firstElementChild?.classList.add('old')")

    def shown(self, selector: str = "#title") -> bool:
        """Waits until another content is shown that has a selector."""
        return self.until(f"document.querySelector('#content > .old') === null && document.querySelector({json.dumps(selector)}) !== null")

    def texts(self, selector: str) -> list[str]:
        """The texts of elements."""
        return self.run(f"[...document.querySelectorAll({json.dumps(selector)})].map((one) => one.textContent)")

    def text(self, selector: str) -> str:
        """The text of an element."""
        return self.run(f"document.querySelector({json.dumps(selector)})?.textContent ?? ''")

    def table(self, selector: str) -> list[list[str]]:
        """The cells of a table's rows, each with its spaces as they are seen."""
        return self.run(f"[...document.querySelectorAll({json.dumps(selector + ' tbody tr')})].map((row) => [...row.children].map((one) "
            f"=> one.textContent))")

    def click(self, selector: str) -> None:
        """Clicks an element by its middle, as a mouse does."""
        x, y = self.run(f"""(() => {{
            const one = document.querySelector({json.dumps(selector)});
            one.scrollIntoView({{ block: "center" }});
            const box = one.getBoundingClientRect();
            return [box.x + box.width / 2, box.y + box.height / 2];
        }})()""")
        self.page.press_at(x, y)

    def press_button(self, text: str, within: str = "document") -> None:
        """Clicks the button or link with a text."""
        self.run(f"[...{within}.querySelectorAll('button, a')].find((one) => one.textContent === {json.dumps(text)}).click()")

    def confirm(self) -> None:
        """Chooses the action of a dialog, and waits for what comes of it."""
        self.until("document.querySelector('dialog[open]') !== null")
        self.run("document.querySelector('dialog .main').click()")

    def set(self, selector: str, value: str) -> None:
        """Writes a value into a field."""
        self.run(f"""(() => {{
            const field = document.querySelector({json.dumps(selector)});
            field.value = {json.dumps(value)};
            field.dispatchEvent(new Event("input", {{ bubbles: true }}));
            field.dispatchEvent(new Event("change", {{ bubbles: true }}));
        }})()""")

    def speak(self, language: str) -> None:
        """Chooses a language."""
        self.mark()
        self.set("#language", language)
        self.shown()

    def printed(self, name: str) -> str:
        """The text of the page as it is printed."""
        path = os.path.join(self.site.folder, f"{name}.pdf")
        write(path, self.page.printed())
        return subprocess.run(["pdftotext", "-layout", path, "-"], capture_output=True,
            check=True).stdout.decode() if shutil.which("pdftotext") else ""

    def notice(self) -> str:
        """What the page says became of something."""
        return self.text("#content > .box")


# What the pages show

def squeezed(rows: Sequence[Sequence[str]]) -> list[list[str]]:
    """Cells with single blanks."""
    return [[re.sub(r"[^\S\u2028\u2029]+", " ", cell).strip(" ") for cell in row] for row in rows]


def start_rows(office: Office) -> Comparisons:
    """The start page against `standing` and `forecast`, and its sums."""
    office.go("/", "table.cards")
    office.until("[...document.querySelectorAll('.left-cell .v')].every((one) => one.textContent !== '…')")
    rows = office.site.rows(f"/standing/{MONTH}")
    left = {row["driver"]: row for row in office.site.rows("/forecast/2024-11-05/05:00")}
    gone = [row for row in rows if row["held"] and ago(row["held"]) > 56]
    there = sorted((row for row in rows if row not in gone), key=lambda row: (*task_of(row)[:2], int(row["driver"])))
    yield "who may have left", [row["driver"] for row in gone], [str(GONE)]
    yield "the folded list", office.texts("details.gone li"), [f"{row['name']} ({row['driver']}) · Known to {local(row['held'], True)}"
        for row in gone]
    yield "the rows of the start page", squeezed(office.table("#content table")), squeezed([start_row(row, left[row["driver"]])
        for row in there])
    ranks = {task_of(row)[0] for row in there}
    yield "tasks that were seen", {0, 1, 2, 4, 5, 7} - ranks, set()
    sums = {"drivers": there, "card files due": [row for row in there if not row["held"] or ago(row["held"]) > 21],
            "with unknown hours": [row for row in there if row["unknown"] != "0"], "with breaches in October": [row for row in there
                if row["last_month"] != "0"],
            "with breaches in November": [row for row in there if row["breaches"] != "0"], "with rest to make up": [row for row in there
                if row["debts"] != "0"],
            "with nothing to do": [row for row in there if task_of(row)[0] == 7]}
    yield "the sums", office.texts(".sums button"), [f"{len(of)}{name}" for name, of in sums.items()]
    for place, (name, of) in enumerate(sums.items(), 1):
        office.click(f".sums li:nth-child({place}) button")
        yield f"the rows {name}", [row[0] for row in office.table("#content table")], [f"{row['name']} {row['driver']}" for row in of]
        if place > 1:
            office.click(f".sums li:nth-child({place}) button")


FACTS = {"Driving": 3, "Other work": 2, "Available": 1, "Rest": 0, "Second driver": 4}


def month_page(office: Office, driver: int, month: str) -> Comparisons:
    """A driver's month against the sheet, the evidence, the stretches, the debts and the gaps."""
    office.go(f"/drivers/{driver}/{month}", ".chart")
    wanted, name = Month(office.site.text, driver, month), f"driver {driver} {month}"
    total = wanted.total()
    yield (f"{name}: heading", office.text("#title"),
        f"{wanted.sheet[0].split(' ', 2)[2]} ({driver}), {month_text('en', month)}")
    yield f"{name}: sums", office.texts(".facts div"), [f"{label}{total[k]}" for label, k in FACTS.items() if k == 3 or total[k] != "0:00"]
    shown = office.run("""[...document.querySelectorAll('.breach')].map((one) =>
        [one.querySelector('.top').textContent, one.querySelector('.limits').textContent.replace(/^limit reached: /, '')])""")
    yield f"{name}: breaches", shown, wanted.breaches()
    yield f"{name}: lines of evidence", office.run("[...document.querySelectorAll('.breach')].map((one) => one.querySelectorAll('tbody "
        "tr').length)"), [
        len(evidence) if found[1] != "B9" else office.run(f"document.querySelectorAll('.breach')[{k}].querySelectorAll('tbody tr').length")
        for k, (found, evidence) in enumerate(wanted.why)]
    table = office.table(".tight")
    days = wanted.days()
    yield f"{name}: days", table[:len(days)], days
    yield f"{name}: the days that haven't come", table[len(days):], wanted.later()
    yield f"{name}: sums of the table", office.texts(".tight tfoot td"), [one if one != "0:00" else "–" for one in total]
    yield f"{name}: gaps", office.texts("#gaps li"), wanted.open_gaps()
    shown = office.texts("#debts > ul > li")
    last = next((k for k, line in reversed(list(enumerate(wanted.debts))) if line.startswith("FROM ")), 0)
    owed = [line for line in wanted.debts[last:] if line.startswith("WEEK ") and " paid " not in line]
    told = [one.split(" for the week")[0] for one in shown[:len(owed)]]
    yield f"{name}: debts", told, [long(int(line.split(" ")[3])) for line in owed]
    bars = office.run("[...document.querySelectorAll('.day .bar')].reduce((sum, one) => sum + Number(one.getAttribute('width')), 0)")
    yield f"{name}: minutes of the bars", bars, sum(length_in(one) for one in total[:5])
    ends = [line for line in wanted.stretches if line.startswith("NOT EXAMINED") and line[13:20] <= month <= line[30:37]]
    yield f"{name}: ranges that aren't examined", [one for one in ends if both(one[13:29]) not in office.text("#content")
        and one[13:20] == month], []


# The form of a driver's gaps

def pick(office: Office, row: int, activity: str) -> None:
    """Chooses what happened in a row of the form."""
    office.run(f"document.querySelectorAll('.gap')[{row}].querySelector('input[value={activity}]').click()")


def split(office: Office, row: int, at: str, second: bool = False) -> str:
    """Divides a row at a local time, and returns what the field says of the time."""
    office.run(f"document.querySelectorAll('.gap')[{row}].querySelector('details').open = true")
    office.set(f"#cut-{row}", at)
    said = office.text(f"#cut-{row}-which")
    if second:
        office.run(f"document.querySelectorAll('#cut-{row}-which input')[1].click()")
    office.run(f"[...document.querySelectorAll('.gap')[{row}].querySelectorAll('button')].find((one) => one.textContent === "
        f"'Split').click()")
    return said


def rows_of_form(office: Office) -> list[str]:
    """The hours of the form's rows."""
    return office.texts(".gap b")
