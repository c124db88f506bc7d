// The start page: all drivers, most urgent first. What is left comes later, into cells that are there already.
import { h, listed, written } from "/shared/page.js";
import { DAY, localText, monthStep, now, textOf, tomorrow } from "/shared/time.js";
import { daysSince, length, localMoment, localTime, monthName, say } from "/shared/say.js";
import { leftOf, readForecast, readStanding } from "/shared/tables.js";
import { ask, button, head, link, listRow, listTable, printButton, thisMonth, zoneLine } from "./office.js";

const OVERDUE = 28, SOON = 21, GONE = 56, FEW_DAYS = 10, STALE = 4;

/** @typedef {import("/shared/tables.js").Standing} Standing */
/** @typedef {{ level: "bad" | "warn" | "look" | "good", text: string, to: string, by: number, rank: number }} Task */

/** How many days ago the last known hour was; 0 where none is known.
 * @type {(row: Standing) => number} */
const ageOf = (row) => (row.held === null ? 0 : daysSince(row.held, now()));
/** Whether the driver may have left: nothing records that.
 * @type {(row: Standing) => boolean} */
const mayHaveLeft = (row) => row.held !== null && ageOf(row) > GONE;
/** @type {(row: Standing) => boolean} */
const isDue = (row) => row.held === null || ageOf(row) > SOON;

/** Whether the month is young, so that the one before is still of interest.
 * @type {() => boolean} */
const isEarly = () => Number(localText(now()).slice(8, 10)) <= FEW_DAYS;

/** What is to be done first: the first that holds. Within one rank the least `by` is the most urgent.
 * @type {(row: Standing) => Task} */
function taskOf(row) {
  const month = thisMonth(), before = monthStep(month, -1), age = ageOf(row), to = `/drivers/${row.driver}`;
  const tasks = [
    row.held === null && { level: "bad", text: row.files ? say.doNone : say.doNever, to: "/files", by: 0 },
    age > OVERDUE && { level: "bad", text: say.doLate(age), to: "/files", by: -age },
    age > SOON && { level: "warn", text: say.doSoon(OVERDUE - age), to: "/files", by: -age },
    row.by !== null && row.by - now() < FEW_DAYS * DAY && { level: "warn", text: say.doDebt(localMoment(row.by)), to: `${to}/${month}`,
      by: row.by },
    row.unknown > 0 && { level: "warn", text: say.doGaps(length(row.unknown)), to: `${to}/gaps`, by: -row.unknown },
    row.breaches > 0 && { level: "look", text: say.doBreaches(row.breaches), to: `${to}/${month}`, by: -row.breaches },
    isEarly() && row.last_month > 0 && { level: "look", text: say.doBreachesIn(row.last_month, monthName(before)), to: `${to}/${before}`,
      by: -row.last_month },
    { level: "good", text: say.doNothing, to: `${to}/${month}`, by: 0 },
  ];
  const rank = tasks.findIndex((task) => task !== false);
  return /** @type {Task} */ ({ ...tasks[rank], rank });
}

/** @type {Record<string, (row: Standing & { task: Task }) => boolean>} the rows that each sum counts */
const FILTERS = {
  all: () => true, download: isDue, gaps: (row) => row.unknown > 0, breaches: (row) => row.breaches > 0,
    before: (row) => row.last_month > 0,
  debts: (row) => row.debts > 0, fine: (row) => row.task.level === "good",
};

/** @type {(row: Standing) => import("./office.js").Content} the last known hour, and how long ago it was */
function heldCell(row) {
  if (row.held === null) return "–";
  const age = ageOf(row);
  return h("span", { class: "v" }, localMoment(row.held),
    h("small", { class: age > OVERDUE ? "bad-text" : age > SOON ? "warn-text" : null }, ` ${say.ago(age)}`));
}
/** @type {(shown: boolean, value: () => string, more: () => string) => import("./office.js").Content} a value and a remark, or a dash */
const withMore = (shown, value, more) => (shown ? h("span", { class: "v" }, value(), h("small", {}, ` ${more()}`)) : "–");
/** @type {(isEmpty: (row: Standing) => boolean) => (row: Standing) => string} */
const dimIf = (isEmpty) => (row) => (isEmpty(row) ? "quiet dim" : "");

/** @type {(leftCells: Map<number, HTMLElement>) => import("./office.js").Column[]} */
function columnsOf(leftCells) {
  const month = thisMonth(), before = monthStep(month, -1);
  const breachesOf = (/** @type {"last_month" | "breaches"} */ name, /** @type {string} */ which) => ({
    head: say.colBreaches(monthName(which).split(" ")[0]), kind: "num", kindOf: dimIf((row) => row[name] === 0),
    cell: (/** @type {Standing} */ row) => (row[name] ? link(`/drivers/${row.driver}/${which}`, String(row[name])) : "–"),
  });
  return [
    { head: say.colDriver, cell: (row) => [link(`/drivers/${row.driver}/${month}`, written(row.name)), h("small", {}, ` ${row.driver}`)] },
    { head: say.colFirst, kind: "first", cell: (row) => link(row.task.to, h("span", {}, row.task.text),
      { class: `todo ${row.task.level}` }) },
    { head: say.colHeld, kind: "when", kindOf: (row) => (row.held === null ? "quiet" : ""), cell: heldCell },
    { head: say.gaps, kind: "num", kindOf: dimIf((row) => row.unknown === 0),
      cell: (row) => withMore(row.unknown > 0, () => length(row.unknown), () => say.inPlaces(row.gaps)) },
    breachesOf("last_month", before), breachesOf("breaches", month),
    { head: say.colDebts, kind: "num", kindOf: dimIf((row) => row.debts === 0),
      cell: (row) => withMore(row.debts > 0, () => length(row.owes), () => `${say.before} ${localMoment(row.by)}`) },
    { head: say.colLeft, kind: "num left-cell", cell: (row) => leftCells.get(row.driver) },
  ];
}

/** The driving that is left, from a forecast: nothing where the last known hour is too old; and what isn't known is said.
 * @type {(row: import("/shared/tables.js").Forecast) => import("./office.js").Content} */
function leftText(row) {
  if (row.held === null || row.ahead === null || row.ahead.start - row.held > STALE * DAY) return "–";
  const left = leftOf(row.ahead);
  const least = Math.min(...[left.day, left.week, left.isYoung ? null : left.two].map((one) => one ?? Infinity));
  return [link(`/drivers/${row.driver}/left`, length(least)), left.isYoung ? h("small", {}, ` ${say.twoUnknown}`) : null];
}

/** Fills the cells of what is left; `?` if that fails.
 * @type {(cells: Map<number, HTMLElement>, signal: AbortSignal) => Promise<void>} */
async function fillLeft(cells, signal) {
  try {
    const rows = readForecast(await ask(`/forecast/${textOf(tomorrow()).replace(" ", "/")}`, signal));
    for (const row of rows) cells.get(row.driver)?.replaceChildren(...listed([leftText(row)]));
  } catch {
    cells.forEach((cell) => cell.replaceChildren("?"));
  }
}

/** The sums, as buttons that choose rows.
 * @type {(rows: any[], show: (chosen: string) => void) => { node: HTMLElement, press: (chosen: string) => void }} */
function sums(rows, show) {
  const month = thisMonth(), before = monthStep(month, -1);
  let chosen = "all";
  const all = [["all", say.all, ""], ["download", say.sumDownload, "bad"], ["gaps", say.sumGaps, "warn"],
    ...(isEarly() ? [["before", say.sumBreaches(monthName(before)), ""]] : []), ["breaches", say.sumBreaches(monthName(month)), ""],
      ["debts", say.sumDebts, ""],
    ["fine", say.sumFine, "good"]];
  const buttons = all.map(([name, text, level]) => [name, h("button", {
    type: "button", class: level, onclick: () => { chosen = chosen === name ? "all" : name; show(chosen); },
  }, h("b", {}, String(rows.filter(FILTERS[name]).length)), text)]);
  return {
    node: h("ul", { class: "sums no-print" }, buttons.map(([, one]) => h("li", {}, one))),
    press: (name) => buttons.forEach(([each, one]) => one.setAttribute("aria-pressed", String(each === name))),
  };
}

/** @type {(rows: Standing[]) => import("./office.js").Content} the drivers of whom nothing has been known for long, folded */
const goneList = (rows) => (rows.length === 0 ? null : h("details", { class: "gone" }, h("summary", {}, say.gone(rows.length, GONE)),
  h("p", { class: "note" }, say.goneWhy),
  h("ul", {}, rows.map((row) => h("li", {}, link(`/drivers/${row.driver}/${thisMonth()}`, written(row.name)),
    ` (${row.driver}) · ${say.colHeld} `, localMoment(/** @type {number} */ (row.held), true))))));

/** @type {(context: import("./office.js").Context) => Promise<import("./office.js").Content>} */
export async function page({ signal, again }) {
  const standing = readStanding(await ask(`/standing/${thisMonth()}`, signal));
  const rows = standing.filter((row) => !mayHaveLeft(row)).map((row) => ({ ...row, task: taskOf(row) }));
  rows.sort((a, b) => a.task.rank - b.task.rank || a.task.by - b.task.by || a.driver - b.driver);
  const leftCells = new Map(rows.map((row) => [row.driver, h("span", { class: "v" }, "…")]));
  const columns = columnsOf(leftCells), body = h("tbody", { role: "rowgroup" }), count = h("p", { class: "note", role: "status" });
  const show = (/** @type {string} */ chosen) => {
    const shown = rows.filter(FILTERS[chosen]);
    body.replaceChildren(...shown.map((row) => listRow(columns, row)));
    count.textContent = say.showing(shown.length, rows.length);
    filters.press(chosen);
  };
  const filters = sums(rows, show), table = listTable(columns, rows, body);
  show("all");
  fillLeft(leftCells, signal);
  return [head(say.startHead(localMoment(now(), true).slice(0, -6)), h("span", { class: "note" }, say.asOf(localTime(now()))),
    button(say.again, () => again()), printButton()),
  rows.length === 0 && standing.length === 0 ? h("p", { class: "box" }, say.noDriversYet, " ", link("/people", say.people))
    : [filters.node, table, count],
  goneList(standing.filter(mayHaveLeft)), zoneLine()];
}
