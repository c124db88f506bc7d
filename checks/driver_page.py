#!/usr/bin/env python3
"""Opens the driver's page (pages/driver, pages/shared) in headless Chromium, by nginx with examples/nginx.conf before the program, and
compares what stands on the page with the replies of the program: what is left, each breach in a sentence with what shows it, the bars, what
isn't examined, known or made up for, and what becomes of card files. It signs in with good and bad keys, by the keyboard too, in both
languages and at two widths, at several clocks, and with replies of which a byte was changed. lib/driver_month.py has what is expected.

Arguments: the program, and, if you like, a folder that gets the pictures of the page. Where nginx, openssl or Chromium isn't installed,
only the files of the page are looked at. The last line is 'N passed, M failed'."""
import contextlib
import gzip
import http.client
import json
import os
import re
import ssl
import sys
import tempfile
from collections.abc import Sequence
from typing import Any

from inputs.random_commands import hours_csv
from lib import browser, counting, office_rows, proxy, rules
from lib.browser import Browser, Page
from lib.counting import Comparisons
from lib.driver_month import AMOUNTS, BREACHES, FIRST_BREACHES, KINDS, MINUTES, OTHERS, ZONE, Month, Texts, instant, minutes_of
from lib.driver_tab import IS_DONE, LOADED_SENTENCES, MESSAGE, SHOWN, choose, month_comparisons, plain, show, sign_in, speak
from lib.files import read, write
from lib.office_rows import DRIVER_HEAD, HOLDER
from lib.programs import told_by
from lib.server import OFFICE, Serving, asking, free_port
from lib.served import FIELDS, PAGES

PAGE_FILES = [
    "driver/driver.js", "driver/index.html", "shared/page.css", "shared/page.js", "shared/parts.js", "shared/read.js", "shared/say.js",
    "shared/tables.js", "shared/time.js",
]
# The files with the sentences of each language, of which the page loads those of one.
SENTENCES = {language: [f"{folder}/words-{language}.js" for folder in ("shared", "driver")] for language in ("en", "de")}
ALL_FILES = [*PAGE_FILES, *SENTENCES["en"], *SENTENCES["de"]]
# The most that the page may have: bytes as they are and compressed, and requests.
LARGEST = {"raw": 160 * 1024, "compressed": 45 * 1024, "files": 12}
MOST_CONNECTIONS = 1_000_000
WRONG_KEY = "nobody-has-this-key"
CLOCK = "2024-04-20 12:00"

# Names that are markup, that end lines for some programs, that change the direction of writing, and whose signs stand above each other.
NAME = "Zoë <b>Müller</b> & Söhne <script>alert(1)</script>"
NAMES = [NAME, "Anna\u2028Berg\u2029</h1>", "\u202eAnna\u202d \u2066Berg", "\u0301" * 32]


# What stands on the page

# For each text that is seen, its contrast with the background. The answer has the least contrast, and the texts below 4.5.
CONTRASTS = """(() => {
    const parts = (color) => color.match(/[0-9.]+/g).map(Number);
    const light = (color) => {
        const [r, g, b] = parts(color).map((one) => one / 255).map((one) => one <= 0.04045 ? one / 12.92 : ((one + 0.055) / 1.055) ** 2.4);
        return 0.2126 * r + 0.7152 * g + 0.0722 * b;
    };
    const behind = (one) => {
        for (let at = one; at !== null; at = at.parentElement) {
            const color = getComputedStyle(at).backgroundColor;
            if (parts(color).length < 4 || parts(color)[3] === 1) {
                return color;
            }
        }
        return "rgb(255, 255, 255)";
    };
    const low = [];
    let count = 0;
    const walk = document.createTreeWalker(document.body, NodeFilter.SHOW_TEXT);
    while (walk.nextNode()) {
        const one = walk.currentNode.parentElement;
        if (walk.currentNode.textContent.trim() === "" || one.closest("svg, noscript, script") || one.getClientRects().length === 0) {
            continue;
        }
        const [high, less] = [light(getComputedStyle(one).color), light(behind(one))].sort((a, b) => b - a);
        count += 1;
        if ((high + 0.05) / (less + 0.05) < 4.5) {
            low.push(walk.currentNode.textContent);
        }
    }
    return { low, isEnough: count > 5 };
})()"""

# For each kind of bar, how much the mark of a breach, or the light line beside it, differs from it at the least; and from the page.
MARKS = """(() => {
    const light = (color) => {
        const [r, g, b] = color.match(/[0-9.]+/g).map(Number).map((one) => one / 255)
            .map((one) => one <= 0.04045 ? one / 12.92 : ((one + 0.055) / 1.055) ** 2.4);
        return 0.2126 * r + 0.7152 * g + 0.0722 * b;
    };
    const contrast = (...colors) => {
        const [high, low] = colors.map(light).sort((a, b) => b - a);
        return (high + 0.05) / (low + 0.05);
    };
    const ns = "http://www.w3.org/2000/svg";
    const box = document.querySelector(".bars").appendChild(document.createElementNS(ns, "g"));
    const made = (kind, name) => {
        const one = box.appendChild(document.createElementNS(ns, "rect"));
        one.setAttribute("class", kind);
        return getComputedStyle(one)[name];
    };
    const [mark, halo] = [made("mark", "stroke"), made("halo", "stroke")];
    const low = ["rest", "available", "work", "drive", "back", "unknown"].map((kind) => [kind, made(kind, "fill")])
        .filter(([, color]) => Math.max(contrast(mark, color), contrast(halo, color)) < 3).map(([kind]) => kind);
    const flag = contrast(made("flag", "fill"), getComputedStyle(document.body).backgroundColor);
    box.remove();
    return [low, contrast(mark, halo) >= 3, flag >= 3];
})()"""

# The pairs of texts in the chart that hide each other or touch, and the bars that aren't drawn where their minutes are.
MISPLACED = """(() => {
    const found = [];
    const place = (one) => {
        const range = document.createRange();
        range.selectNodeContents(one);
        return range.getBoundingClientRect();
    };
    for (const day of document.querySelectorAll("#chart .hours, #chart .day")) {
        const texts = [...day.querySelectorAll("span")].filter((one) => getComputedStyle(one).visibility === "visible")
            .map((one) => [one.textContent, place(one)]);
        texts.forEach(([text, box], number) => texts.slice(number + 1).forEach(([other, next]) => {
            if (box.left < next.right + 2 && next.left < box.right + 2 && box.top < next.bottom - 0.5 && next.top < box.bottom - 0.5) {
                found.push([text, other]);
            }
        }));
        if (day.className === "hours") {
            continue;
        }
        const whole = day.querySelector(".back").getBoundingClientRect();
        for (const flag of day.querySelectorAll(".flag")) {
            const box = flag.getBoundingClientRect();
            if (box.bottom > whole.top + 1 || box.left < whole.left - 2 || box.right > whole.right + 2) {
                found.push(["flag", box.left, box.right, box.bottom - whole.top]);
            }
        }
        for (const [text, box] of texts) {
            if (box.left < whole.right && whole.left < box.right && box.top < whole.bottom - 1 && whole.top + 1 < box.bottom) {
                found.push([text, "bars"]);
            }
        }
        for (const bar of day.querySelectorAll("rect.bar")) {
            const box = bar.getBoundingClientRect();
            const [x, width] = ["x", "width"].map((name) => Number(bar.getAttribute(name)) / 1440 * whole.width);
            if (Math.abs(box.left - whole.left - x) > 1.5 || Math.abs(box.width - width) > 3 || box.height < 3) {
                found.push([bar.getAttribute("class"), box.left, box.width]);
            }
        }
    }
    return found;
})()"""


# The program, and nginx before it

def driver_row(number: int, digits: str, key: str, base: str, name: str) -> bytes:
    """The CSV of a driver. The digits are the last of the holder."""
    return f"{DRIVER_HEAD}{number},{HOLDER[:-len(digits)]}{digits},{key},{base},{name}\n".encode()


# Worked examples of the rules (lib/rules.py) that have each kind of breach, and debts of each end: each is a driver.
EXAMPLES_OF_RULES = [
    "breaks, a minute over", "breaks, 30 and then 15", "a rest of a minute less than 9 hours", "a rest of 539 minutes ends no day",
    "a fourth reduced rest", "a third day of more than 9 hours, and one of more than 10", "56 hours and a minute in a week",
    "90 hours and a minute in two weeks", "two weeks without weekly rests", "a debt is overdue", "a debt is due in a minute",
    "a main rest pays", "a month with two reduced weekly rests", "a week of driving is in two pairs", "a reduced rest every 541 minutes",
    "two weeks with short weekly rests",
]

# Hours of all activities in two months, the shorter of 28 days, over midnight, and over the change of local time (26 March, 01:00).
FEBRUARY = [
    ("2023-01-30 00:00", "2023-01-31 22:10", "rest"), ("2023-01-31 22:10", "2023-02-01 01:20", "available"),
    ("2023-02-01 01:20", "2023-02-01 01:21", "work"), ("2023-02-01 01:21", "2023-02-01 07:00", "drive"),
    ("2023-02-01 07:00", "2023-02-27 23:00", "rest"), ("2023-02-27 23:00", "2023-03-01 02:00", "drive"),
    ("2023-03-25 22:30", "2023-03-26 03:30", "drive"), ("2023-03-31 23:59", "2023-04-01 00:01", "work"),
]


# Two weeks of which the driver has rested all but an hour of driving at the end of a day, up to its last minutes.
FORTNIGHT = [
    (minutes_of("2024-03-04 00:00"), minutes_of("2024-03-08 18:00"), "rest"),
    (minutes_of("2024-03-08 18:00"), minutes_of("2024-03-08 23:55"), "drive"),
    (minutes_of("2024-03-08 23:55"), minutes_of("2024-03-18 00:00"), "rest"),
]

# A week with a reduced weekly rest, then a gap, and a later stretch.
BROKEN = [
    (minutes_of("2024-03-04 00:00"), minutes_of("2024-03-04 06:00"), "rest"),
    *[span for day in range(4, 10)
      for span in rules.joined(rules.work([day], "06:00-16:00"), rules.at(day, "06:00"), rules.at(day + 1, "06:00"))],
    (rules.at(10, "06:00"), rules.at(10, "20:00"), "rest"),
    *rules.joined(rules.work([10, 11, 12], "20:00-23:00"), rules.at(10, "20:00"), rules.at(13, "12:00")),
    *rules.joined(rules.drive([18, 19], "06:00-10:31"), rules.at(18, "00:00"), rules.at(20, "12:00")),
]


# The card's second driver on 4 March 2024; see CREW_DAY. Its holder is changed to that of another driver.
def of_holder(file: bytes, digits: str) -> bytes:
    """A card file with another holder."""
    return file.replace(bytes.fromhex(HOLDER), bytes.fromhex(HOLDER[:-len(digits)] + digits))


# Each driver: what is registered, then what is given to the program.
DRIVERS: list[tuple[bytes, list[tuple[str, bytes]]]] = [
    (office_rows.ANNA, [("import", office_rows.DAY)]),
    (driver_row(18, "38", "crew-key-1", "2024-03-04", NAME), [("import", of_holder(office_rows.CREW_DAY, "38"))]),
    (driver_row(19, "39", "empty-key-1", "2024-03-04", "Nobody"), []),
    (driver_row(20, "3a", "shorter-key-1", "2023-01-30", "Jörg Größe"),
     [("enter", hours_csv([(minutes_of(start), minutes_of(past), what) for start, past, what in FEBRUARY]))]),
    *[(driver_row(30 + number, f"4{number}", f"name-key-{number}", "2024-03-04", name), [("enter", hours_csv(FORTNIGHT))])
      for number, name in enumerate(NAMES)],
    (driver_row(40, "50", "broken-key-1", "2024-03-04", "Gap"), [("enter", hours_csv(BROKEN))]),
    *[(driver_row(100 + number, f"{number:02x}", f"rules-key-{number}", "2024-03-04", f"Driver of example {number}"),
       [("enter", hours_csv(rules.joined(rules.row_of(name).busy, rules.BASE, rules.row_of(name).horizon)))])
      for number, name in enumerate(EXAMPLES_OF_RULES)],
]

# The months of which the page is compared: a key, and the month.
SHOWN_MONTHS = [
    ("anna-key-1", "2024-03"), ("anna-key-1", "2024-02"), ("anna-key-1", "2024-04"),
    ("crew-key-1", "2024-03"), ("empty-key-1", "2024-03"),
    ("shorter-key-1", "2023-01"), ("shorter-key-1", "2023-02"), ("shorter-key-1", "2023-03"),
    *[(f"rules-key-{number}", "2024-03") for number in range(len(EXAMPLES_OF_RULES))],
    *[(f"rules-key-{number}", "2024-04") for number, name in enumerate(EXAMPLES_OF_RULES)
      if rules.row_of(name).horizon >= rules.at(31, "23:59")],
    ("rules-key-13", "2024-02"), ("broken-key-1", "2024-03"), ("broken-key-1", "2024-04"),
    *[(f"name-key-{number}", "2024-03") for number in range(len(NAMES))],
]


class Site:
    """The program as a server on an archive with drivers, and nginx before it twice: with uploads shut, and with uploads open."""

    def __init__(self, program: str, folder: str) -> None:
        self.folder = folder
        self.program = program
        self.path = os.path.join(folder, "archive.db")
        self.stack = contextlib.ExitStack()

    def __enter__(self) -> "Site":
        with contextlib.ExitStack() as stack:
            self.command("init")
            for row, given in DRIVERS:
                self.command("register", given=row)
                number = row.splitlines()[1].split(b",")[0].decode()
                for word, text in given:
                    self.command(word, *(["both"] if word == "import" else [number]), given=text)
            self.serving = stack.enter_context(Serving(self.program, self.path, OFFICE, MOST_CONNECTIONS, listens=True))
            service = self.serving.port
            # proxy_limits.py tries the limits of requests as they are.
            changes = [*proxy.UNLIMITED]
            self.shut = stack.enter_context(proxy.Proxy(os.path.join(self.folder, "shut"), free_port(), service, changes))
            changes.append(proxy.OPENED)
            self.open = stack.enter_context(proxy.Proxy(os.path.join(self.folder, "open"), free_port(), service, changes))
            self.stack = stack.pop_all()
        return self

    def __exit__(self, *_: object) -> None:
        self.stack.close()

    def command(self, *words: str, given: bytes = b"") -> None:
        """Gives the program a command, which has to be done."""
        made = told_by([self.program, words[0], self.path, *words[1:]], given)
        if made[1] != 0:
            raise RuntimeError(f"{words}: {made}")

    def told(self, key: str, path: str) -> bytes:
        """The body of the program's reply to a driver, past nginx."""
        reply = self.serving.ask([asking(f"GET {path}", key)], False)
        if not isinstance(reply, bytes) or not reply.startswith(b"HTTP/1.1 200 "):
            raise RuntimeError(f"{path}: {reply!r}")
        return reply.partition(b"\r\n\r\n")[2]

    def month(self, key: str, month: str, clock: str = CLOCK) -> Month:
        """A driver's month."""
        return Month(lambda path: self.told(key, path).decode(), month, clock)


def by_nginx(port: int, method: str, path: str, key: str | None = None, body: bytes | None = None,
             compressed: bool = False) -> tuple[int, dict[str, str], bytes]:
    """The reply of nginx to a request: status, fields and body."""
    context = ssl.create_default_context()
    context.check_hostname = False
    context.verify_mode = ssl.CERT_NONE
    connection = http.client.HTTPSConnection("127.0.0.1", port, timeout=60, context=context)
    with contextlib.closing(connection):
        fields = {} if key is None else {"x-key": key}
        connection.request(method, path, body=body, headers={**fields, "accept-encoding": "gzip"} if compressed else fields)
        reply = connection.getresponse()
        return reply.status, {name.lower(): value for name, value in reply.getheaders()}, reply.read()


# Comparisons

# What no file of the page may have: what would run a text as a program or as markup, styles and scripts in a place that the
# Content-Security-Policy forbids, and addresses of other hosts.
FORBIDDEN = [
    r"innerHTML|outerHTML|insertAdjacentHTML|document\.write|DOMParser|createContextualFragment|srcdoc",
    r"\beval\(|new Function|javascript:", r"\sstyle=|<style|\.style\b|\"style\"", r"\son\w+=", r"<script(?![^>]* src=)",
    r"(https?:)?//\w(?!ww\.w3\.org/2000/svg\")", r"@import [^{]|url\(", r"document\.cookie",
]
UPLOADS = "driver/uploads"  # says whether the page may send card files
DATA_FIELDS = {"cache-control": "no-store", "x-content-type-options": "nosniff"}


def files() -> Comparisons:
    """The files of the page, as texts, and how large they are."""
    texts = {name: read(os.path.join(PAGES, *name.split("/"))) for name in ALL_FILES}
    for folder in ("driver", "shared"):
        names = [f"{folder}/{name}" for name in sorted(os.listdir(os.path.join(PAGES, folder)))]
        others = [name for name in names if name not in ALL_FILES and name != UPLOADS]
        yield f"other files of the folder {folder}", others, []
    for name, text in texts.items():
        yield f"what {name} may not have", [match[0] for form in FORBIDDEN for match in re.finditer(form, text.decode())], []
    page = texts["driver/index.html"].decode()
    loaded = re.findall(r"(?:src|href)=\"([^\"]*)\"", page)
    yield "what index.html loads", sorted(loaded), sorted(["data:,", *(f"/{name}" for name in PAGE_FILES if name != "driver/index.html")])
    imported = {match for text in texts.values() for match in re.findall(r"from \"(/[^\"]*)\"", text.decode())}
    yield "modules that aren't named in index.html", sorted(imported - set(loaded)), []
    for language, names in SENTENCES.items():
        given = [texts[name] for name in (*PAGE_FILES, *names)]
        sizes = {"raw": sum(map(len, given)), "compressed": sum(len(gzip.compress(text, 6)) for text in given), "files": len(given)}
        yield f"what is larger than it may be, {language}", [(name, size) for name, size in sizes.items() if size > LARGEST[name]], []
    yield "the line of the uploads", proxy.example().count(proxy.UPLOADS), 1


def replies_of_nginx(site: Site) -> Comparisons:
    """The replies of nginx: fields, methods, and paths."""
    port = site.shut.port
    for path, kind in [("/driver/", "text/html"), ("/driver/driver.js", "text/javascript"), ("/shared/page.css", "text/css"),
                       ("/shared/words-en.js", "text/javascript")]:
        status, fields, _ = by_nginx(port, "GET", path)
        yield f"the fields of {path}", (status, fields.get("content-type"), {name: fields.get(name) for name in FIELDS}), \
            (200, f"{kind}; charset=utf-8", FIELDS)
    status, fields, body = by_nginx(port, "GET", "/shared/words-en.js", compressed=True)
    yield "a compressed module", (status, fields.get("content-encoding"), gzip.decompress(body)), \
        (200, "gzip", read(os.path.join(PAGES, "shared", "words-en.js")))
    for path, kind in [("/driver/uploads", "text/plain"), ("/me/owed", "text/plain; charset=utf-8")]:
        status, fields, _ = by_nginx(port, "GET", path, "anna-key-1", compressed=True)
        told = {name: fields.get(name) for name in ("content-type", "content-encoding", *FIELDS)}
        wanted = {**dict.fromkeys(told), **DATA_FIELDS, "content-type": kind}
        yield f"the fields of {path}", (status, told), (200, wanted)
    for method, path, wanted in [
        ("POST", "/me/cards/both", 405), ("PUT", "/me/owed", 405), ("HEAD", "/me/owed", 405), ("DELETE", "/me/owed", 405),
        ("OPTIONS", "/me/owed", 405), ("GET", "/drivers/17/owed", 404), ("POST", "/driver/", 405), ("HEAD", "/shared/words-en.js", 405),
        ("GET", "/driver/nothing", 403), ("GET", "/driver/../nginx.conf", 404), ("GET", "/office/", 404), ("GET", "/office/office.js", 404),
        ("GET", "/driver/../office/", 404), ("GET", "/shared/%2e%2e/office/", 404), ("GET", "/", 404), ("GET", "/favicon.ico", 404),
    ]:
        body = office_rows.DAY if method == "POST" else None
        status, _, _ = by_nginx(port, method, path, None if "nothing" in path else "anna-key-1", body)
        yield f"{method} {path} with uploads shut", status, wanted
    status, fields, _ = by_nginx(port, "GET", "/driver")
    yield "the page without its slash", (status, fields.get("location", "").endswith("/driver/")), (301, True)
    status, fields, _ = by_nginx(port, "GET", "/me/owed")
    yield "a request without a key", (status, fields.get("cache-control")), (403, "no-store")
    for port, word in [(port, b"shut\n"), (site.open.port, b"open\n")]:
        yield f"what /driver/uploads says: {word.decode().strip()}", by_nginx(port, "GET", "/driver/uploads")[2], word
    for method, body, wanted in [("GET", None, 405), ("POST", office_rows.DAY, 200), ("PUT", office_rows.DAY, 405), ("HEAD", None, 405)]:
        told = by_nginx(site.open.port, method, "/me/cards/both", "anna-key-1", body)
        yield f"{method} /me/cards/both with uploads open", (told[0], told[1].get("cache-control")), (wanted, "no-store")


# Makes a clock begin at a minute, in each document that is loaded from then on. Waits are shorter by the factor `hurry`.
CLOCK_SCRIPT = """(() => {
    const Real = Date;
    let shift = %d - Real.now();
    const wait = setTimeout;
    globalThis.setTimeout = (act, milliseconds) => wait(act, milliseconds / (globalThis.hurry ?? 1));
    globalThis.Date = class extends Real {
        constructor(...parts) {
            super(...(parts.length === 0 ? [Real.now() + shift] : parts));
        }
        static now() {
            return Real.now() + shift;
        }
    };
})()"""


def set_clock(page: Page, clock: str) -> str:
    """Sets the clock of the documents that are loaded from now on. Returns the name by which it is taken back."""
    milliseconds = 60_000 * minutes_of(clock)
    return page.call("Page.addScriptToEvaluateOnNewDocument", source=CLOCK_SCRIPT % milliseconds)["identifier"]


def click(page: Page, selector: str) -> None:
    """Clicks an element by its middle, as a mouse does."""
    x, y = page.run(f"""(() => {{
        const one = document.querySelector({json.dumps(selector)});
        one.scrollIntoView({{ block: "center" }});
        const box = one.getBoundingClientRect();
        return [box.x + box.width / 2, box.y + box.height / 2];
    }})()""")
    page.press_at(x, y)


def reload(page: Page, until: str) -> None:
    """Loads the page again, and waits until an expression is true of the new one."""
    page.run("window.isOld = true")
    page.call("Page.reload")
    page.until(f"window.isOld === undefined && {until}")


KEPT = """[Object.entries(sessionStorage), Object.entries(localStorage), document.cookie]"""
HAS_DATA = """!document.querySelector("#hours").hidden || document.querySelector("#hours").childNodes.length > 0
    || /2024|20\\d\\d-/.test(document.title)"""
FORMS = """["sign-in", "upload", "hours"].filter((id) => !document.getElementById(id).hidden)"""


def requests(page: Page) -> int:
    """How many requests the page has made."""
    return len(page.events("Network.requestWillBeSent"))


def wrong_keys(page: Page) -> Comparisons:
    """Keys that aren't a driver's: each gets the page's own sentence, is sent once or not at all, and nothing is kept or shown."""
    for key, sent in [(WRONG_KEY, 1), (OFFICE, 1), ("short", 0), ("anna_key_1", 0), ("schlüssel-1", 0)]:
        before = requests(page)
        sign_in(page, key)
        yield f"the key {key}", page.run(MESSAGE), OTHERS["en"]["bad key"]
        yield f"what is shown for {key}", (page.run(FORMS), page.run(HAS_DATA), page.run(KEPT)), (["sign-in"], False, [[], [], ""])
        yield f"how often {key} is sent", requests(page) - before, sent


def months(site: Site, page: Page) -> Comparisons:
    """Months of all drivers, each in both languages."""
    signed = ""
    for key, month in SHOWN_MONTHS:
        if key != signed:
            if signed:
                click(page, "#log-out")
            speak(page, "en")
            sign_in(page, key)
            signed = key
        show(page, month)
        wanted = site.month(key, month)
        for language in ("en", "de"):
            speak(page, language)
            yield from month_comparisons(f"{key} {month} {language}", page, wanted, language)
        yield f"{key} {month}: texts that hide others", page.run(MISPLACED), []
    kinds = {line.split(" ")[0] for key, month in SHOWN_MONTHS for line in site.month(key, month).breaches()}
    yield "all kinds of breaches were shown", sorted(kinds), sorted(KINDS)
    speak(page, "en")


def sentence_limits(page: Page) -> Comparisons:
    """The sentence of each kind at many amounts, in both languages."""
    asked = {kind: AMOUNTS.get(kind, MINUTES) for kind in KINDS}
    for language, sentences in BREACHES.items():
        told = page.run(f"""import("/shared/words-{language}.js").then(({{ WORDS }}) => Object.fromEntries(
            Object.entries({json.dumps(asked)}).map(([kind, amounts]) => [kind, amounts.map((amount) => WORDS[kind](amount))])))""")
        for kind, amounts in asked.items():
            yield f"sentences of {kind} in {language}", plain(told[kind]), [sentences[kind](amount) for amount in amounts]


CHART_TOP = """document.querySelector("#chart .hours").getBoundingClientRect().top + scrollY"""


def widths(page: Page, what: str, pictures: str) -> Comparisons:
    """The page at two widths, in both languages, light and dark: nothing goes past the screen, contrasts, and pictures."""
    for width in (360, 1280):
        page.resize(width)
        for language in ("en", "de"):
            speak(page, language)
            name = f"{what} at {width} pixels, {language}"
            yield f"{name}: width", page.run("document.documentElement.scrollWidth"), width
            yield f"{name}: texts that hide others", page.run(MISPLACED), []
            page.picture(os.path.join(pictures, f"{what}-{language}-{width}.png"))
            if page.run("document.querySelector('.bars') !== null"):
                yield f"{name}: the chart is on the first two screens", page.run(CHART_TOP) < 1600, True
        for scheme in ("dark", "light"):
            page.call("Emulation.setEmulatedMedia", features=[{"name": "prefers-color-scheme", "value": scheme}])
            yield f"{what} at {width} pixels, {scheme}: contrasts", page.run(CONTRASTS), {"low": [], "isEnough": True}
            if page.run("document.querySelector('.bars') !== null"):
                yield f"{what} at {width} pixels, {scheme}: the marks of breaches", page.run(MARKS), [[], True, True]
    speak(page, "en")


def of_tree(page: Page) -> list[dict[str, Any]]:
    """What a screen reader gets: the nodes of the page."""
    return [node for node in page.call("Accessibility.getFullAXTree")["nodes"] if not node["ignored"]]


def accessibility(page: Page, month: Month) -> Comparisons:
    """Names of all controls, and the text alternative of the chart."""
    nodes = of_tree(page)
    controls = [(node["role"]["value"], node.get("name", {}).get("value", "")) for node in nodes
                if node["role"]["value"] in ("button", "link", "textbox", "combobox", "InputTime", "Date", "DateTime", "file", "listbox")]
    yield "controls without a name", [control for control in controls if not control[1].strip()], []
    yield "controls", len(controls) >= 8, True
    images = [node for node in nodes if node["role"]["value"] in ("img", "image")]
    yield "the name of the chart", [node["name"]["value"] for node in images], [f"Chart of the month {' '.join(month.heading('en'))}"]
    told = plain(images[0].get("description", {}).get("value", ""))
    yield "what of the first breaches the chart's text alternative lacks", \
        [text for breach in month.breach_texts("en")[:FIRST_BREACHES] for text in breach[:4] if text not in told], []
    unlabelled = page.run("""[...document.querySelectorAll("input, textarea")].filter((one) => one.labels.length === 0).length""")
    yield "fields without a label", unlabelled, 0
    yield "the language of the page", page.run("document.documentElement.lang"), "en"
    roles = {node["role"]["value"] for node in nodes}
    yield "landmarks", sorted(roles & {"main", "contentinfo", "banner"}), ["banner", "contentinfo", "main"]
    levels = page.run("""[...document.querySelectorAll("h1, h2, h3")].filter((one) => one.getClientRects().length > 0)
        .map((one) => Number(one.tagName[1]))""")
    yield "headings that leave out a level", [pair for pair in zip(levels, levels[1:], strict=False) if pair[1] > pair[0] + 1], []
    yield "the first heading", levels[0], 1


def printed(page: Page) -> Comparisons:
    """What is printed: the breaches that are folded up too, and no control."""
    page.run("""document.querySelectorAll("details").forEach((one) => { one.open = false; }); dispatchEvent(new Event("beforeprint"))""")
    page.call("Emulation.setEmulatedMedia", media="print")
    seen = page.run("""[
        [...document.querySelectorAll("li.breach, #chart rect.bar")].filter((one) => one.getClientRects().length === 0).length,
        [...document.querySelectorAll("button, input, select, a.button")].filter((one) => one.getClientRects().length > 0)
            .map((one) => one.id)]""")
    yield "breaches and bars that aren't printed, and controls that are", seen, [0, []]
    page.call("Emulation.setEmulatedMedia", media="")


def walked(page: Page, presses: int, modifiers: int = 0) -> Texts:
    """The elements that get the focus, one after the other, by the key Tab."""
    found: Texts = []
    for _ in range(presses):
        page.press("Tab", modifiers)
        name = page.run("(() => { const one = document.activeElement; return one.id || one.textContent.trim(); })()")
        if not found or found[-1] != name:
            found.append(name)
    return found


def keyboard(page: Page, address: str) -> Comparisons:
    """All by keys: to each control by Tab, a key that is typed and sent by Enter, months, what shows a breach, and the log-out."""
    page.open("about:blank")
    page.open(f"{address}#2024-03")
    page.until("""!document.querySelector("#sign-in").hidden""")
    page.run("""document.activeElement.blur()""")
    yield "the order of Tab before the sign-in", walked(page, 3), ["language", "key", "Show my hours"]
    page.press("Tab", browser.SHIFT)
    page.type("anna- key -1")
    page.press("Enter")
    page.until(IS_DONE)
    yield "where the focus is after the sign-in", page.run("document.activeElement.id"), "title"
    page.run("""document.activeElement.blur(); document.querySelector("#language").focus()""")
    yield "the order of Tab after it", walked(page, 15)[:6], ["log-out", "start-at", "Show", "earlier", "later", "Why?"]
    page.run("""document.querySelector("#earlier").focus()""")
    page.press("Enter")
    page.until("""document.querySelector("#month-head").textContent.includes("February")""")
    told = page.run("""[document.querySelector("#month-head").textContent, location.hash, document.activeElement.id]""")
    yield "the month before", told, ["February 2024", "#2024-02", "month-head"]
    page.run("""document.querySelector("#later").focus()""")
    page.press("Enter")
    page.until("""document.querySelector("#month-head").textContent.includes("March")""")
    page.run("""document.querySelector(".breach summary").focus()""")
    page.press("Enter")
    yield "what shows a breach", page.run("""document.querySelector(".breach table").getClientRects().length > 0"""), True
    page.run("history.back()")
    page.until("""document.querySelector("#month-head").textContent.includes("February")""")
    yield "the browser's way back", page.run("""document.querySelector("#month-head").textContent"""), "February 2024"
    page.run("""document.querySelector("#log-out").focus()""")
    page.press("Enter")
    yield "the log-out", (page.run(FORMS), page.run(HAS_DATA), page.run("document.activeElement.id")), (["sign-in"], False, "key")


def sessions(site: Site, driven: Browser, page: Page, address: str) -> Comparisons:
    """How long the key is kept: over a reload of its tab, not in another tab, and not over a log-out."""
    page.open("about:blank")
    page.open(f"{address}#2024-03")
    sign_in(page, "anna-key-1")
    kept = [["tacho.key", "anna-key-1"]], [["tacho.language", "en"]], ""
    yield "what is kept", page.run(KEPT), [*kept]
    yield "the field of the key", page.run("""document.querySelector("#key").value"""), ""
    reload(page, f"""{IS_DONE} && document.querySelector("#breaches li") !== null""")
    yield from month_comparisons("after a reload", page, site.month("anna-key-1", "2024-03"), "en")
    other = driven.page()
    other.open(f"{address}#2024-03")
    other.until("""!document.querySelector("#sign-in").hidden""")
    yield "another tab", (other.run(FORMS), other.run(KEPT)), (["sign-in"], [[], kept[1], ""])
    speak(page, "de")
    reload(page, f"""{IS_DONE} && document.querySelector("#breaches li") !== null""")
    yield "the language after a reload", page.run("""[document.documentElement.lang, document.title]"""), ["de", "Ihre Stunden: März 2024"]
    speak(page, "en")
    click(page, "#log-out")
    yield "what is kept after the log-out", (page.run(KEPT), page.run(FORMS), page.run(HAS_DATA)), ([[], kept[1], ""], ["sign-in"], False)
    reload(page, """!document.querySelector("#sign-in").hidden""")
    yield "what is kept after a reload", page.run(KEPT), [[], kept[1], ""]
    sign_in(page, "anna-key-1")
    page.run("""sessionStorage.setItem("tacho.key", "nobody-has-this-key")""")
    show(page, "2024-02")
    yield "a key that is no longer known", (page.run(MESSAGE), page.run(KEPT), page.run(HAS_DATA), page.run(FORMS)), \
        (OTHERS["en"]["bad key"], [[], kept[1], ""], False, ["sign-in"])


# Clocks: the key, the address's month, the clock, and the month that is shown. Without a month it is the last that has data.
CLOCKS = [
    ("anna-key-1", "", "2024-03-04 20:00", "2024-03"), ("anna-key-1", "", "2024-03-06 12:00", "2024-03"),
    ("anna-key-1", "", "2024-03-07 12:00", "2024-03"), ("anna-key-1", "", "2024-03-08 12:00", "2024-03"),
    ("anna-key-1", "", "2024-03-05 00:30", "2024-03"), ("anna-key-1", "", "2025-01-01 00:00", "2024-03"),
    ("shorter-key-1", "", "2023-04-02 12:00", "2023-04"), ("shorter-key-1", "", "2023-03-25 22:00", "2023-04"),
    ("empty-key-1", "", "2024-03-31 22:30", "2024-03"), ("empty-key-1", "", "2024-04-01 00:00", "2024-04"),
    ("rules-key-4", "", "2024-03-07 22:00", "2024-03"), ("rules-key-5", "", "2024-03-06 18:00", "2024-03"),
    ("broken-key-1", "", "2024-03-20 12:30", "2024-03"), ("broken-key-1", "", "2024-03-24 12:30", "2024-03"),
    ("crew-key-1", "", "2024-03-05 12:00", "2024-03"), ("anna-key-1", "#2024-13", "2024-03-05 12:00", "2024-03"),
]


def clocks(site: Site, page: Page, address: str) -> Comparisons:
    """What is left, and which month is shown, at several clocks."""
    for key, hash_, clock, month in CLOCKS:
        page.open("about:blank")
        script = set_clock(page, clock)
        page.open(f"{address}{hash_}")
        page.until("""!document.querySelector("#sign-in").hidden""")
        sign_in(page, key)
        ends = site.month(key, month, clock)
        shown = ends if ends.end else site.month(key, clock[:7], clock)
        yield from month_comparisons(f"{key} at {clock}", page, shown, "en")
        start = page.run("""document.querySelector("#start-at").value""")
        yield f"{key} at {clock}: the start", start, local_start(shown)
        click(page, "#log-out")
        page.call("Page.removeScriptToEvaluateOnNewDocument", identifier=script)


def local_start(month: Month) -> str:
    """The start of driving in its field: six o'clock, or the horizon if that is later."""
    line = month.ahead.splitlines()[2]
    start = line.removeprefix("START ") if line.startswith("START ") else month.start()
    return f"{instant(start).astimezone(ZONE):%Y-%m-%dT%H:%M}"


def other_starts(site: Site, page: Page) -> Comparisons:
    """What is left from another start; and a start that the clock leaves out."""
    sign_in(page, "anna-key-1")
    for value, wanted in [("2024-03-05T08:30", "2024-03-05 07:30"), ("2024-03-06T09:00", "2024-03-06 08:00")]:
        page.run(f"""document.querySelector("#hours").setAttribute("aria-busy", "true");
            document.querySelector("#start-at").value = "{value}"; document.querySelector("#start").requestSubmit(); null""")
        page.until(IS_DONE)
        month = site.month("anna-key-1", "2024-03")
        month.ahead = site.told("anna-key-1", f"/me/ahead/{wanted.replace(' ', '/')}").decode()
        yield f"what is left from {value}", plain(page.run(SHOWN))["left"], month.left_texts("en")
    page.run("""document.querySelector("#start-at").value = "2024-03-31T02:30"; document.querySelector("#start").requestSubmit(); null""")
    yield "a start that doesn't exist", page.run(MESSAGE), "This time doesn't exist: the clocks are changed."
    click(page, "#log-out")


UNREADABLE = "The archive gave a reply that this page can't read, so it shows nothing of it. Reload the page. If that doesn't help, tell " \
    "your office."
DOWN = "The archive can't be reached at the moment. Nothing that was saved is lost. Try again in a minute."

# What the page says of replies that it doesn't get otherwise here: the status, the body, and the text.
FAULTS = [
    (502, "<html>", DOWN), (503, "unavailable\n", DOWN), (504, "", DOWN),
    (400, "Z3 out of range\n", "The archive gave an unexpected reply: 400 Z3 out of range"),
    (200, "DRIVER 17 Anna Berg\nMONTH 2024-03\n", UNREADABLE), (200, "", UNREADABLE),
    (0, "", "There is no connection to the archive. Nothing that was saved is lost. Try again later, or ask your office."),
]
WAIT = "new Promise((done) => setTimeout(done, 300)).then(() => null)"
RENEW = """document.querySelector("#hours").setAttribute("aria-busy", "true");"""


def faults(page: Page, address: str) -> Comparisons:
    """What the page says of other replies, which are made in the page itself; and of a reply that comes after a log-out."""
    page.open("about:blank")
    page.open(f"{address}#2024-03")
    sign_in(page, "anna-key-1")
    page.run("window.kept = window.fetch; null")
    for status, body, wanted in FAULTS:
        fields = """headers: { "content-type": "text/plain" }"""
        made = f"new Response({json.dumps(body)}, {{ status: {status}, {fields} }})" if status else "null"
        page.run(f"""window.fetch = async (path, ...others) => {{
            if (!path.startsWith("/me/sheet")) {{ return window.kept(path, ...others); }}
            if ({status} === 0) {{ throw new TypeError("no"); }}
            return {made};
        }}; {RENEW} document.querySelector("#choose").requestSubmit(); null""")
        page.until(f"""{MESSAGE} !== "" """)
        yield f"a reply of {status} {body.strip()}", (page.run(MESSAGE), page.run(HAS_DATA), page.run(FORMS)), (wanted, False, [])
        page.run("window.fetch = window.kept; document.querySelector('#again').click(); null")
        page.until("""!document.querySelector("#hours").hidden""")
    for name, changed, wanted in [
        ("once", 1, ["Anna Berg", ""]),
        ("always", 100, ["", "The archive was changed each time it was asked. Try again in a minute."]),
    ]:
        page.run(f"""window.left = {changed}; window.asked = 0; window.fetch = async (path, ...others) => {{
            if (path !== "/me/entries" || window.asked++ === 0 || window.left-- <= 0) {{ return window.kept(path, ...others); }}
            return new Response(`1 2024-05-01 00:00 2024-05-01 00:0${{window.left % 2 + 1}} rest kept "office" ""\\n`,
                {{ headers: {{ "content-type": "text/plain" }} }});
        }}; {RENEW} document.querySelector("#choose").requestSubmit(); null""")
        page.until(IS_DONE)
        told = page.run(f"""[document.querySelector("#title")?.textContent ?? "", {MESSAGE}]""")
        yield f"entries that change {name}", told, wanted
        page.run("window.fetch = window.kept; document.querySelector('#again')?.click(); null")
        page.until("""!document.querySelector("#hours").hidden""")
    for path in ("/me/sheet/2024-03", "/me/files"):
        page.run(f"""window.goOn = undefined; window.fetch = async (path, ...others) => {{
            const reply = await window.kept(path, ...others);
            if (path === "{path}") {{
                await new Promise((done) => {{ window.goOn = done; }});
            }}
            return reply;
        }}; document.querySelector("#choose").requestSubmit(); null""")
        page.until("window.goOn !== undefined")
        page.run(WAIT)
        before = requests(page)
        page.run(f"""document.querySelector("#log-out").click(); window.goOn(); {WAIT}""")
        yield f"the reply to {path} after the log-out", (page.run(HAS_DATA), page.run(KEPT)[0], page.run(MESSAGE)), \
            (False, [], "You are logged out.")
        yield f"requests after the log-out before {path}", requests(page) - before, 0
        page.run("window.fetch = window.kept; null")
        sign_in(page, "anna-key-1")


def silence(page: Page) -> Comparisons:
    """Readings that get no reply: 35 seconds after the last reply the page ends them all, by waits that are a tenth as long."""
    sign_in(page, "anna-key-1")
    page.run(f"""window.hurry = 10; window.last = 0; window.ended = []; window.fetch = async (path, options) => {{
        if (/debts|why/.test(path)) {{
            await new Promise((_, end) => options.signal.addEventListener("abort", () => {{
                window.ended.push(performance.now() - window.last);
                end(options.signal.reason);
            }}));
        }}
        const late = [["sheet", 20000], ["spans", 40000]].find(([what]) => path.includes(what));
        await new Promise((done) => setTimeout(done, late?.[1] ?? 0));
        window.last = performance.now();
        return window.kept(path, options);
    }}; {RENEW} document.querySelector("#choose").requestSubmit(); null""")
    page.until(f"""{MESSAGE} !== "" """)
    told = page.run(f"""[{MESSAGE}, document.querySelector("#again").textContent, window.ended.length,
        window.ended.every((one) => one > 3499)]""")
    yield "readings without a reply", told, [DOWN, "Try again", 2, True]
    page.run("window.fetch = window.kept; window.hurry = 1; document.querySelector('#again').click(); null")
    yield "then they are asked for again", page.until("""!document.querySelector("#hours").hidden"""), True
    page.run("""sessionStorage.clear(); dispatchEvent(new PageTransitionEvent("pageshow", { persisted: true })); null""")
    yield "the way back to a page after a log-out elsewhere", (page.run(FORMS), page.run(HAS_DATA)), (["sign-in"], False)


def too_many(page: Page) -> Comparisons:
    """Replies of 429: what is shown stays, the page waits and asks again by itself, and what it has got it doesn't ask for again."""
    page.run("""window.count = {}; window.fetch = async (path, ...others) => {
        window.count[path] = (window.count[path] ?? 0) + 1;
        const isRefused = path === "/me/sheet/2024-02" && window.count[path] < 3;
        return isRefused ? new Response("", { status: 429 }) : window.kept(path, ...others);
    }; location.hash = "2024-02"; null""")
    page.until("""document.querySelector("#busy").textContent.includes("waits")""")
    told = page.run("""[document.querySelector("#month-head").textContent, document.querySelector("#hours").hidden]""")
    yield "what is shown while the page waits", told, ["March 2024", False]
    yield "what it says", page.run("""document.querySelector("#busy span").textContent"""), \
        "Too many requests have come from your connection. The page waits 2 seconds, and then asks again."
    page.until("""document.querySelector("#month-head").textContent.includes("February")""")
    told = page.run("""["sheet/2024-02", "spans/2024-02", "stretches", "files"].map((what) => window.count[`/me/${what}`])""")
    yield "how often it has asked", told, [3, 1, 1, 2]
    page.run("""window.fetch = async (path, ...others) =>
            path === "/me/debts" ? new Response("", { status: 429 }) : window.kept(path, ...others);
        location.hash = "2024-03"; null""")
    page.until("""document.querySelector("#busy button") !== null""")
    page.run("""document.querySelector("#busy button").click()""")
    page.until(f"""{MESSAGE} !== "" """)
    told = page.run(f"""[{MESSAGE}, document.querySelector("#month-head").textContent]""")
    yield "after the wait is ended", told, ["The page has stopped waiting.", "February 2024"]
    page.run("window.fetch = window.kept; null")
    click(page, "#log-out")


READERS = {
    "files": "readFiles", "entries": "readEntries", "stretches": "readBreaches", "debts": "readDebts", "ahead": "readAhead",
    "form": "readForm", "sheet": "readSheet", "spans": "readSpans", "gaps": "readGaps", "why": "readWhy",
}

# Reads each text, and then each with one byte changed: it is refused as unreadable, or it says something else.
CHANGED = """import("/shared/read.js").then((readers) => {
    const found = [];
    let count = 0;
    for (const [number, [reader, text]] of TEXTS.entries()) {
        const read = (one) => JSON.stringify(readers[reader](one));
        let whole = "";
        try {
            whole = read(text);
        } catch (fault) {
            found.push([reader, "refused", text]);
            continue;
        }
        const bytes = new TextEncoder().encode(text);
        const step = Math.max(1, Math.ceil(bytes.length / 60));
        for (let at = number % step; at < bytes.length; at += step) {
            const was = bytes[at];
            for (const other of [was ^ 1, was ^ 16, 10]) {
                bytes[at] = other;
                count += 1;
                try {
                    if (other !== was && read(new TextDecoder().decode(bytes)) === whole) {
                        found.push([reader, at, other, text.slice(at - 30, at + 30)]);
                    }
                } catch (fault) {
                    if (fault.name !== "unreadable") {
                        found.push([reader, at, other, String(fault)]);
                    }
                }
            }
            bytes[at] = was;
        }
    }
    return [count, found.slice(0, 5)];
})"""


def readers(site: Site, page: Page) -> Comparisons:
    """The replies to all drivers, as they are and with one byte changed."""
    texts = []
    for key, month in SHOWN_MONTHS:
        for word, reader in READERS.items():
            path = f"{word}/{month}" if word in ("sheet", "spans", "gaps", "why") else "ahead/2024-03-08/05:00" if word == "ahead" else word
            texts.append([reader, site.told(key, f"/me/{path}").decode()])
    count = 0
    for first in range(0, len(texts), 50):
        tried, overlooked = page.run(CHANGED.replace("TEXTS", json.dumps(texts[first:first + 50])))
        count += tried
        yield f"bytes that the readers overlook, from text {first} on", overlooked, []
    yield "how often a byte was changed", count > 10000, True


# The digits of a reply that are changed in the page: each time another part of the page would be wrong.
SPOILED = [
    ("/me/sheet/2024-03", "Anna Berg\nMONTH", "Anna Berg\nMONTHS"), ("/me/sheet/2024-03", "8:30", "8:31"),
    ("/me/spans/2024-03", "17:00", "17:01"), ("/me/stretches", "amount 240", "amount 241"),
    ("/me/why/2024-03", "amount 240", "amount 241"), ("/me/why/2024-03", "8:30 8:30", "8:31 8:30"),
    ("/me/debts", "17:00", "17:01"), ("/me/gaps/2024-03", "17:00", "17:01"), ("/me/files", "1 both", "2 both"), ("/me/entries", "", "1\n"),
]


def spoiled(page: Page, address: str) -> Comparisons:
    """A reply with another digit: nothing is shown."""
    page.open("about:blank")
    page.open(f"{address}#2024-03")
    page.until("""!document.querySelector("#sign-in").hidden""")
    page.run("window.kept = window.fetch; null")
    for path, old, new in SPOILED:
        page.run(f"""window.fetch = async (path, ...others) => {{
            const reply = await window.kept(path, ...others);
            const text = path === {json.dumps(path)} ? (await reply.text()).replace({json.dumps(old)}, {json.dumps(new)}) : null;
            return text === null ? reply : new Response(text, {{ headers: {{ "content-type": "text/plain" }} }});
        }}; null""")
        sign_in(page, "anna-key-1")
        yield f"{path} with {new!r} for {old!r}", (page.run(MESSAGE), page.run(HAS_DATA)), (UNREADABLE, False)
        click(page, "#log-out")
    page.run("window.fetch = window.kept; null")


def downloads(site: Site, page: Page) -> Comparisons:
    """A card file, and all of a month, as the page saves them."""
    sign_in(page, "anna-key-1")
    page.run("""window.saved = []; URL.createObjectURL = (blob) => { window.saved.push(blob); return "data:,"; };
        HTMLAnchorElement.prototype.click = function () { window.saved.push(this.download); }; null""")
    for selector, path, name in [("#files li:last-child button", "/me/files/1", "card-1.ddd"),
                                 ("#handover", "/me/handover/2024-03-01/2024-04-01", "tacho-2024-03.tar")]:
        page.run(f"""window.saved.length = 0; document.querySelector("{selector}").click()""")
        page.until("window.saved.length === 2")
        told = page.run("""window.saved[0].arrayBuffer().then((bytes) => [[...new Uint8Array(bytes)], window.saved[1]])""")
        yield f"what is saved of {path}", (bytes(told[0]), told[1]), (site.told("anna-key-1", path), name)
    reload(page, IS_DONE)
    click(page, "#log-out")


RESULTS = """[...document.querySelectorAll("#results li")].map((one) => [...one.querySelectorAll("p")].map((child) => child.textContent))"""

# The card file of the day after that of SATURDAY.
SUNDAY = office_rows.SATURDAY.replace(bytes.fromhex("65eba680"), bytes.fromhex("65ecf800"))

# The files that a driver sends: the bytes, and what the page says of each, with the program's line.
SENT = {
    "saturday.ddd": (office_rows.SATURDAY, "saturday.ddd was added: it is your file number 2.", "added driver 17 number 2"),
    "day.ddd": (office_rows.DAY, "day.ddd has nothing new. The archive already had all of it.", "repeated driver 17"),
    "cut.ddd": (office_rows.DAY[:-1], "cut.ddd is broken, or isn't the file of a driver card. Nothing of it was taken.",
                "C1 truncated block at 22"),
    "empty.ddd": (b"", "empty.ddd is broken, or isn't the file of a driver card. Nothing of it was taken.", "C3 no identification"),
    "both.ddd": (office_rows.BOTH, "both.ddd contradicts itself. Nothing of it was taken. Give it to your office.",
                 "C14 file contradicts itself at 2024-03-04 08:00"),
    "other.ddd": (office_rows.OTHER_CARD, "other.ddd is from another driver's card. Nothing of it was taken.", "S5 not your card"),
    "contradiction.ddd": (office_rows.OTHER_DAY,
                          "contradiction.ddd contradicts what the archive has for Mon 4 Mar 09:00 (08:00 UTC). "
                          "Nothing of it was taken. Tell your office.", "S6 contradiction at 2024-03-04 08:00"),
    "large.ddd": (office_rows.TOO_LARGE, "large.ddd is too large: a card file has at most 262,144 bytes. Nothing of it was taken.", ""),
    "<img src=x onerror=alert(1)>.ddd": (office_rows.DAY,
                                         "<img src=x onerror=alert(1)>.ddd has nothing new. The archive already had all of it.",
                                         "repeated driver 17"),
}


def wait_for_results(page: Page, count: int) -> Any:
    """The results on the page, once there are so many and none is still being sent."""
    page.until(f"""document.querySelectorAll("#results li").length === {count}
        && document.querySelectorAll("#results li.good, #results li.bad, #results li.same").length === {count} && {IS_DONE}""")
    return plain(page.run(RESULTS))


def uploads(site: Site, page: Page, address: str) -> Comparisons:
    """Files by the field and by drag: each is reported in a sentence, with the program's line; and the page then shows the new month."""
    folder = os.path.join(site.folder, "files")
    os.makedirs(folder)
    for name, (given, _, _) in SENT.items():
        write(os.path.join(folder, name), given)
    wanted = {name: [said, *([line] if line else [])] for name, (_, said, line) in SENT.items()}
    set_clock(page, CLOCK)
    page.open("about:blank")
    page.open(f"{address}#2024-03")
    sign_in(page, "anna-key-1")
    page.until("""!document.querySelector("#upload").hidden""")
    yield "the upload part while uploads are open", page.run(FORMS), ["upload", "hours"]
    page.run("""document.querySelector("#handover").focus()""")
    yield "the order of Tab with uploads", walked(page, 2)[-1:], ["file"]
    found = []
    first, *others = SENT
    page.choose_files("#file", [os.path.join(folder, first)])
    found.append(wanted[first])
    yield f"{first} by the field", wait_for_results(page, 1), found
    page.until("""document.querySelector("#day-2024-03-09 rect.bar") !== null""")
    yield from month_comparisons("after an upload", page, site.month("anna-key-1", "2024-03"), "en")
    yield "the file as it was kept", site.told("anna-key-1", "/me/files/2"), office_rows.SATURDAY
    page.choose_files("#file", [os.path.join(folder, name) for name in others])
    found += [wanted[name] for name in others]
    yield "the other files by the field", wait_for_results(page, len(found)), found
    write(os.path.join(folder, "sunday.ddd"), SUNDAY)
    wanted["sunday.ddd"] = ["sunday.ddd was added: it is your file number 3.", "added driver 17 number 3"]
    for name in ("day.ddd", "cut.ddd", "sunday.ddd"):
        page.drop_files("#drop", [os.path.join(folder, name)])
        found.append(wanted[name])
        yield f"{name} by drag", wait_for_results(page, len(found)), found
    page.until("""document.querySelector("#day-2024-03-10 rect.bar") !== null""")
    yield from month_comparisons("after an upload by drag", page, site.month("anna-key-1", "2024-03"), "en")
    page.drop_files("#title", [os.path.join(folder, "day.ddd")])
    yield "a file that is dropped elsewhere", (wait_for_results(page, len(found)), page.run("location.pathname")), (found, "/driver/")
    yield "markup from a file's name", page.run("""document.querySelectorAll("#results img").length"""), 0
    speak(page, "de")
    yield "a result in German", plain(page.run(RESULTS)[1][0]), "day.ddd bringt nichts Neues. Das Archiv hatte schon alles davon."
    speak(page, "en")
    page.run("window.kept = window.fetch; window.fetch = async () => new Response('', { status: 405 }); null")
    page.choose_files("#file", [os.path.join(folder, "day.ddd")])
    found.append(["day.ddd wasn't taken: the office doesn't take files from drivers here.", "405"])
    yield "a file after the uploads were shut", wait_for_results(page, len(found)), found
    page.run("window.fetch = async () => { throw new TypeError('no'); }; null")
    page.choose_files("#file", [os.path.join(folder, "day.ddd")])
    found.append(["It isn't known whether day.ddd was taken. Send it again later: if it was, you will see that it has nothing new."])
    yield "a file without a reply", wait_for_results(page, len(found)), found
    page.run("window.fetch = window.kept; null")
    click(page, "#log-out")
    yield "the results after the log-out", (page.run(RESULTS), page.run(FORMS)), ([], ["sign-in"])


# The replies that Chromium puts on the console although they are expected: the status, and the beginning of the path.
EXPECTED_ENTRIES = {(403, "/me/files"), (409, "/me/cards/both"), (422, "/me/cards/both"), (403, "/me/cards/both")}
READINGS = ["files", "entries", "stretches", "debts", "version", "sheet/MONTH", "spans/MONTH", "gaps/MONTH", "why/MONTH", "ahead/DAY/TIME",
            "files/1", "handover/DAY/DAY", "cards/both"]


def quiet(page: Page, name: str, ports: Sequence[int]) -> Comparisons:
    """What the page has asked for, and what stands on its console."""
    addresses = [parameters["request"]["url"] for parameters in page.events("Network.requestWillBeSent")]
    origins = tuple(f"https://127.0.0.1:{port}/" for port in ports)
    elsewhere = [address for address in addresses if not address.startswith((*origins, "data:", "about:blank", "blob:"))]
    yield f"{name}: requests to others", elsewhere, []
    yield f"{name}: requests", len(addresses) > 10, True
    paths = {re.sub(r"^https://[^/]*|#.*", "", address) for address in addresses if address.startswith("https:")}
    for form, word in [(r"\d{4}-\d\d-\d\d", "DAY"), (r"\d{4}-\d\d", "MONTH"), (r"\d\d:\d\d", "TIME")]:
        paths = {re.sub(form, word, path) for path in paths}
    own = {"/driver/", "/driver/uploads", *(f"/{name}" for name in ALL_FILES if name != "driver/index.html")}
    known = own | {f"/me/{one}" for one in READINGS}
    yield f"{name}: other paths", sorted(paths - known), []
    entries = []
    for parameters in page.events("Log.entryAdded"):
        entry = parameters["entry"]
        match = re.search(r"status of (\d+)", entry["text"])
        path = re.sub(r"^https://[^/]*", "", entry.get("url", ""))
        if entry["level"] in ("warning", "error") and not any(
                match and int(match[1]) == status and path.startswith(start) for status, start in EXPECTED_ENTRIES):
            entries.append((entry["level"], entry["text"], path))
    yield f"{name}: entries of the console", entries, []
    yield f"{name}: exceptions", [parameters["exceptionDetails"] for parameters in page.events("Runtime.exceptionThrown")], []
    yield f"{name}: what the script prints", len(page.events("Runtime.consoleAPICalled")), 0


def pages(site: Site, pictures: str) -> Comparisons:
    """The page in the browser."""
    shut, opened = (f"https://127.0.0.1:{one.port}/driver/" for one in (site.shut, site.open))
    with Browser(os.path.join(site.folder, "profile"), "en-GB,en", ZONE.key) as driven:
        page = driven.page()
        script = set_clock(page, CLOCK)
        page.resize(1280)
        page.open(f"{shut}#2024-03")
        page.until("""!document.querySelector("#sign-in").hidden""")
        yield from wrong_keys(page)
        yield from widths(page, "sign-in", pictures)
        yield from sentence_limits(page)
        yield from readers(site, page)
        yield from months(site, page)
        click(page, "#log-out")
        for key, month in [("rules-key-13", "2024-03"), ("anna-key-1", "2024-03"), ("crew-key-1", "2024-03"),
                           ("shorter-key-1", "2023-02"), ("rules-key-9", "2024-03"),
                           *[(f"name-key-{one}", "2024-03") for one in range(len(NAMES))]]:
            sign_in(page, key)
            show(page, month)
            yield from widths(page, f"{key}-{month}", pictures)
            click(page, "#log-out")
        page.resize(360)
        sign_in(page, "shorter-key-1")
        page.run("""document.querySelectorAll("details").forEach((one) => { one.open = true; })""")
        yield "the width with all open", page.run("document.documentElement.scrollWidth"), 360
        page.resize(1280)
        click(page, "#log-out")
        sign_in(page, "rules-key-13")
        show(page, "2024-03")
        yield "breaches that are folded up", page.run("document.querySelectorAll('.more li.breach').length"), \
            len(site.month("rules-key-13", "2024-03").breaches()) - FIRST_BREACHES
        yield from accessibility(page, site.month("rules-key-13", "2024-03"))
        yield from printed(page)
        yield "the upload part while uploads are shut", page.run(FORMS), ["hours"]
        click(page, "#log-out")
        yield from keyboard(page, shut)
        yield from sessions(site, driven, page, shut)
        yield from other_starts(site, page)
        yield from faults(page, shut)
        yield from too_many(page)
        yield from silence(page)
        yield from spoiled(page, shut)
        yield from downloads(site, page)
        page.call("Page.removeScriptToEvaluateOnNewDocument", identifier=script)
        yield from clocks(site, page, shut)
        yield from quiet(page, "uploads shut", [site.shut.port])
        other = driven.page()
        other.resize(1280)
        yield from uploads(site, other, opened)
        for width in (360, 1280):
            other.resize(width)
            sign_in(other, "anna-key-1")
            other.until("""!document.querySelector("#upload").hidden""")
            other.choose_files("#file", [os.path.join(site.folder, "files", name) for name in ("day.ddd", "cut.ddd", "contradiction.ddd")])
            wait_for_results(other, 3)
            yield f"{width} pixels with uploads: width", other.run("document.documentElement.scrollWidth"), width
            yield f"{width} pixels with uploads: contrasts", other.run(CONTRASTS), {"low": [], "isEnough": True}
            other.picture(os.path.join(pictures, f"uploads-en-{width}.png"))
            click(other, "#log-out")
        yield from quiet(other, "uploads open", [site.open.port])
    with Browser(os.path.join(site.folder, "german"), "de-AT,de,en", ZONE.key) as driven:
        page = driven.page()
        page.open(f"{shut}#2024-03")
        page.until("""!document.querySelector("#sign-in").hidden""")
        yield "the language of a German browser", page.run("[document.documentElement.lang, document.title]"), ["de", "Ihre Stunden"]
        sign_in(page, WRONG_KEY)
        yield "a wrong key in German", page.run(MESSAGE), OTHERS["de"]["bad key"]
        yield "the sentences that are loaded", page.run(LOADED_SENTENCES), sorted(f"/{name}" for name in SENTENCES["de"])
        page.call("Network.setBlockedURLs", urls=["*/words-en.js"])
        choose(page, "en")
        page.until(f"/Verbindung/.test({MESSAGE})")
        yield "no connection to the English sentences", page.run(f"[{MESSAGE}, document.querySelector('#language').value]"), \
            [OTHERS["de"]["no connection"], "de"]
        page.call("Network.setBlockedURLs", urls=[])
        speak(page, "en")
        yield "then they are loaded", page.run("document.title"), "Your hours"


def comparisons(program: str, pictures: str | None = None) -> Comparisons:
    """All comparisons."""
    yield from files()
    missing = [*proxy.missing(), *([] if browser.installed() else ["chromium"])]
    if missing:
        lacks = ", ".join(missing)
        print(f"left out: the driver's page in a browser, since {lacks} isn't installed: apt install nginx-light openssl chromium",
              flush=True)
        return
    with tempfile.TemporaryDirectory(ignore_cleanup_errors=True) as folder, Site(os.path.abspath(program), folder) as site:
        kept = pictures or os.path.join(folder, "pictures")
        os.makedirs(kept, exist_ok=True)
        yield from replies_of_nginx(site)
        yield from pages(site, kept)


if __name__ == "__main__":
    sys.exit(counting.count(comparisons(*sys.argv[1:])))
