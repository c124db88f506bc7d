"""A tab of a browser with the driver's page, and what is compared of a month. The browser is Chromium (browser.py) or Firefox
(firefox.py)."""
import json
import re
from typing import Any

from lib import browser, firefox
from lib.counting import Comparisons
from lib.driver_month import Month

Page = browser.Page | firefox.Page

SHOWN = """(() => {
    const of = (root, selector) => [...root.querySelectorAll(selector)];
    const number = (one, name) => Number(one.getAttribute(name));
    const texts = (selector, root = document) => of(root, selector).map((one) => one.textContent);
    const ranges = (root, selector) => of(root, selector).map((one) => [number(one, "x"), number(one, "width")]);
    const breach = (one) => [...texts("h3, .amount, .sentence, .limits", one), one.querySelector("details > .note").textContent];
    const table = document.querySelector("#days");
    return {
        heading: texts("#title, #month-head"),
        left: texts("#left > p, #left .meter, #left > .box > p, #left > .box li"),
        breaches: document.querySelector("#breaches li.breach") === null ? [texts("#breaches p")]
            : of(document, "#breaches li.breach").map(breach),
        more: texts("#breaches .more > summary"),
        evidence: of(document, "#breaches li.breach").map((one) =>
            of(one, "tbody tr, .evidence + .note").map((row) => row.matches("tr") ? texts("th, td", row) : [row.textContent])),
        others: texts("#others summary, #others a"),
        examined: texts("#not-examined > p, #not-examined li, #not-examined .box > p"),
        debts: texts("#debts > p, #debts li"),
        gaps: texts("#gaps > p, #gaps > ul li"),
        days: of(document, "#chart .day").map((day) => ({
            id: day.id,
            bars: of(day, ".bars rect.bar").map((one) => [one.getAttribute("class"), number(one, "x"), number(one, "width")]),
            unknown: ranges(day, ".bars rect.unknown"),
            unseen: ranges(day, ".bars rect.unseen"),
            marks: of(day, ".bars line.mark").map((one) => number(one, "x1")),
            flags: of(day, ".flags > svg").map((one) => [Math.round(1e6 * parseFloat(one.getAttribute("x"))) / 1e6,
                one.firstChild.getAttribute("d").includes("h-9") ? "left" : "right"]),
            labels: texts(".labels span", day),
            sum: day.querySelector(".sum").textContent,
        })),
        table: of(table, "tbody tr, tfoot tr").map((row) => texts("th, td", row)),
    };
})()"""


def plain(value: Any) -> Any:
    """A value of the page with usual blanks in its texts, in place of those at which no line ends; without signs that isolate a name."""
    return json.loads(re.sub("[\u2068\u2069]", "", json.dumps(value, ensure_ascii=False).replace("\u00a0", " ")))


# Whether the page shows a month, or says what is wrong, and no longer asks.
IS_DONE = """document.querySelector("#message") !== null && !document.querySelector("#hours").hasAttribute("aria-busy")
    && (!document.querySelector("#hours").hidden || document.querySelector("#message").textContent !== "")"""


def sign_in(page: Page, key: str) -> None:
    """Types a key once the page has its sentences, presses Enter, and waits for what comes next. What the page said before is taken away, so
    that it isn't that."""
    page.until("""!document.querySelector("#sign-in").hidden""")
    page.run("""(document.querySelector("#message").replaceChildren(), document.querySelector("#key").value = "",
        document.querySelector("#key").focus())""")
    page.type(key)
    page.press("Enter")
    page.until(IS_DONE)


def show(page: Page, month: str) -> None:
    """Shows another month."""
    page.run(f"""(() => {{
        document.querySelector("#hours").setAttribute("aria-busy", "true");
        const field = document.querySelector("#month");
        field.value = {json.dumps(month)};
        field.form.requestSubmit();
    }})()""")
    page.until(IS_DONE)


def choose(page: Page, language: str) -> None:
    """Chooses a language."""
    page.run(f"""(() => {{
        const language = document.querySelector("#language");
        language.value = "{language}";
        language.dispatchEvent(new Event("change", {{ bubbles: true }}));
    }})()""")


def speak(page: Page, language: str) -> None:
    """Chooses a language, and waits until the page has it."""
    choose(page, language)
    page.until(f"document.documentElement.lang === '{language}'")


LOADED_SENTENCES = """performance.getEntriesByType("resource").map((one) => new URL(one.name).pathname)
    .filter((path) => path.includes("/words-")).sort()"""
MESSAGE = """(document.querySelector("#message p")?.textContent ?? "")"""

# The elements of names that might be read as markup.
MARKUP = """document.querySelectorAll("#hours b:not(.meter b, #not-examined b), #hours script").length"""
# The box of the driver's name, beyond which its signs change nothing.
BOX = """(({ display, overflow }) => [display, overflow])(getComputedStyle(document.querySelector("#title bdi")))"""
PARTS = ["heading", "left", "breaches", "more", "evidence", "others", "examined", "debts", "gaps", "table"]


def month_comparisons(name: str, page: Page, month: Month, language: str) -> Comparisons:
    """What stands on the page of a month, part by part."""
    shown = plain(page.run(SHOWN))
    wanted = {
        "heading": month.heading(language), "left": month.left_texts(language), "breaches": month.breach_texts(language),
        "more": month.more_text(language), "evidence": month.evidence_texts(language), "others": month.other_texts(language),
        "examined": month.examined_texts(language), "debts": month.debt_texts(language), "gaps": month.gap_texts(language),
        "table": month.table(language),
    }
    for part in PARTS:
        yield f"{name}: {part}", shown[part], plain(wanted[part])
    days = month.day_shapes(language)
    yield f"{name}: days", [day["id"] for day in shown["days"]], [day["id"] for day in days]
    for part in ("bars", "unknown", "unseen", "marks", "flags", "labels", "sum"):
        yield f"{name}: {part}", [day[part] for day in shown["days"]], [day[part] for day in days]
    yield f"{name}: markup from a text", page.run(MARKUP), 0
    yield f"{name}: the box of the name", page.run(BOX), ["inline-block", "clip"]
