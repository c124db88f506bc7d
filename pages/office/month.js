// A driver's month.
import { Problem, h, written } from "/shared/page.js";
import { monthStep, now, offsetText, rangeOf, zone } from "/shared/time.js";
import { debtsPart, monthName, say } from "/shared/say.js";
import { readBreaches, readDebts, readEntries, readFiles, readGaps, readSheet, readSpans, readWhy } from "/shared/read.js";
import { breachItem, chart, gapsPart, notExaminedBox, sheetTable, unseenOf } from "/shared/parts.js";
import { ask, head, link, printButton, tool } from "./office.js";

const TURNS = 3, DRIVE = 3;

/** The replies for a month, all of one state: the files and entries are the same before and after the others.
 * @type {(driver: string, month: string, signal: AbortSignal) => Promise<Record<string, string>>} */
async function repliesOf(driver, month, signal) {
  const all = { sheet: `sheet/${month}`, spans: `spans/${month}`, gaps: `gaps/${month}`, stretches: "stretches", why: `why/${month}`,
    debts: "debts" };
  const state = async () => ({ files: await ask(`/drivers/${driver}/files`, signal),
    entries: await ask(`/drivers/${driver}/entries`, signal) });
  let before = await state();
  for (let turn = 1; turn <= TURNS; turn += 1) {
    /** @type {Record<string, string>} */
    const replies = {};
    for (const [name, path] of Object.entries(all)) replies[name] = await ask(`/drivers/${driver}/${path}`, signal);
    const after = await state();
    if (after.files === before.files && after.entries === before.entries) return { ...replies, ...after };
    before = after;
  }
  throw new Problem("changing");
}

/** The end of what is held; 0 where nothing is.
 * @type {(stretches: any[]) => number} */
function endOf(stretches) {
  const last = stretches.at(-1);
  return last.to ?? (last.horizon === last.from ? 0 : last.horizon);
}

/** The sums of the month; driving first, and no column that is empty.
 * @type {(total: string[]) => HTMLElement} */
const facts = (total) => h("dl", { class: "facts" },
  [DRIVE, 2, 1, 0, 4].filter((k) => k === DRIVE || total[k] !== "0:00").map((k) => h("div", {}, h("dt", {}, say.sheetColumns[k + 1]),
    h("dd", {}, total[k]))));

/** What the month was made of.
 * @type {(driver: string, files: any[], entries: any[]) => import("./office.js").Content} */
const sourceOf = (driver, files, entries) => h("p", {}, `${say.cards}: ${files.map((file) => file.number).join(", ") || "–"}`, h("br"),
  link(`/drivers/${driver}/entries`, say.entriesOf(entries.filter((one) => one.state === "kept").length)));

/** @type {(driver: string, month: string) => import("./office.js").Content} the tools of the head */
const toolsOf = (driver, month) => [tool(`/drivers/${driver}/${monthStep(month, -1)}`, "←", say.monthBefore),
  tool(`/drivers/${driver}/${monthStep(month, 1)}`, "→", say.monthAfter), tool(`/drivers/${driver}/left`, say.left),
  tool(`/drivers/${driver}/gaps`, say.gapForm), tool(`/drivers/${driver}/entries`, say.entries), printButton(),
  link(`/drivers/${driver}/${month}/letter`, say.letter, { class: "button main" })];

/** @type {(context: import("./office.js").Context) => Promise<import("./office.js").Content>} */
export async function page({ signal, args: [driver, month, day] }) {
  const replies = await repliesOf(driver, month, signal);
  const sheet = readSheet(replies.sheet), range = rangeOf(month), stretches = readBreaches(replies.stretches),
    breaches = readWhy(replies.why);
  const debts = readDebts(replies.debts), spans = readSpans(replies.spans), files = readFiles(replies.files),
    entries = readEntries(replies.entries);
  const end = endOf(stretches), unseen = unseenOf(stretches, range);
  const gaps = readGaps(replies.gaps).map((gap) => ({ ...gap, past: Math.min(gap.past, end) })).filter((gap) => gap.start < gap.past);
  const isThere = (/** @type {{ start: number }} */ one) => one.start < Math.max(end, now()), days = sheet.days.filter(isThere),
    later = sheet.days.filter((one) => !isThere(one));
  const seen = range[1] - range[0] - unseen.reduce((sum, one) => sum + one.past - one.start, 0);
  const shown = chart({ spans, gaps, breaches, unseen, days, range });
  if (day) shown.map((one) => one.querySelector(`#day-${month}-${day}`)).find(Boolean)?.classList.add("seek");
  return [head([written(sheet.name), ` (${driver}), ${monthName(month)}`], toolsOf(driver, month)), facts(sheet.total),
    notExaminedBox(stretches, range, end, gaps, link(`/drivers/${driver}/gaps`, say.gapForm)),
    h("h2", { id: "breaches-head" }, `${say.breaches}${breaches.length ? `: ${breaches.length}` : ""}`),
    breaches.length ? h("ul", { class: "list", "aria-labelledby": "breaches-head" }, breaches.map((one) => breachItem(one, { entries })))
      : h("p", { id: "no-breach" }, seen > 0 ? say.noBreach : say.nothingExamined),
    h("section", { class: "keep" }, h("h2", {}, say.chart), shown),
    h("div", { class: "tellings" },
      h("aside", {}, h("section", { id: "debts" }, h("h2", {}, say.debts), debtsPart(debts)),
        h("section", { id: "gaps" }, h("h2", {}, say.gaps), gapsPart(gaps)),
        h("section", { id: "source" }, h("h2", {}, say.source), sourceOf(driver, files, entries))),
      h("div", {}, h("h2", {}, say.sheet), sheetTable({ days, later, total: sheet.total }))),
    h("p", { class: "note" }, say.zoneNote(zone(), offsetText(range[0])))];
}
