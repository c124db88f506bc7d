// A month of all drivers: what each did, how much of it was examined, and each breach.
import { h, written } from "/shared/page.js";
import { DAY, monthStep, now, rangeOf } from "/shared/time.js";
import { amountText, both, hm, length, monthName, say } from "/shared/say.js";
import { readIncidents, readOverview } from "/shared/tables.js";
import { ask, head, link, listTable, printButton, tool, zoneLine } from "./office.js";

/** The columns of a sheet, in their order. */
const COLUMNS = ["rest", "available", "work", "drive", "crew", "none"];
const RULES = ["B1", "B2", "B3", "B4", "B5", "B6", "B7", "B8", "B9", "B10"];
const SUMMED = ["drive", "work", "available", "rest", "crew", "none", "examined", ...RULES];

/** @type {(text: string) => string} */
const capital = (text) => text[0].toUpperCase() + text.slice(1);
/** How many minutes of the month have passed.
 * @type {(month: string) => number} */
const passedOf = (month) => { const [first, past] = rangeOf(month); return Math.max(0, Math.min(past, now()) - first); };

/** @type {(name: string) => (row: any) => string} */
const time = (name) => (row) => (row[name] ? hm(row[name]) : "–");
/** @type {(name: string) => (row: any) => string} */
const count = (name) => (row) => (row[name] ? String(row[name]) : "–");
/** @type {(name: string) => (row: any) => string} */
const dimIfNone = (name) => (row) => (row[name] ? "" : "quiet dim");

/** The columns; those of rules that nobody broke are left out.
 * @type {(month: string, total: any) => import("./office.js").Column[]} */
const columnsOf = (month, total) => [
  { head: say.colDriver, cell: (row) => (row.driver === null ? row.name
    : [link(`/drivers/${row.driver}/${month}`, written(row.name)), h("small", {}, ` ${row.driver}`)]) },
  ...["drive", "work", "available", "rest", "crew", "none"].filter((name) => total[name] || name === "drive")
    .map((name) => ({ head: say.sheetColumns[1 + COLUMNS.indexOf(name)], kind: "num", kindOf: dimIfNone(name), cell: time(name) })),
  { head: say.notExamined, kind: "num", kindOf: (row) => (row.missing > 0 ? "" : "quiet dim"),
    cell: (row) => (row.missing > 0 ? h("span", { class: row.missing > DAY ? "warn-text" : null }, hm(row.missing)) : "–") },
  ...RULES.filter((rule) => total[rule]).map((rule) => ({ head: rule, kind: "num", kindOf: dimIfNone(rule), cell: count(rule) })),
];

/** The table of the month, which may have many columns.
 * @type {(columns: import("./office.js").Column[], rows: any[], total: any) => HTMLElement} */
function monthTable(columns, rows, total) {
  const table = listTable(columns, rows, undefined, total);
  table.classList.add("many");
  return table;
}

/** The breaches of each driver.
 * @type {(rows: any[], month: string) => import("./office.js").Content} */
function breachesOf(rows, month) {
  if (rows.length === 0) return h("p", {}, say.noBreach);
  return listTable([
    { head: say.colDriver, cell: (row) => [link(`/drivers/${row.driver}/${month}`, written(row.name)), h("small", {}, ` ${row.driver}`)] },
    { head: say.breach, kind: "first", cell: (row) => `${say.short[row.kind]} (${row.kind})` },
    { head: say.extent, kind: "num", cell: (row) => amountText(row) || "–" },
    { head: capital(say.at), cell: (row) => h("span", { class: "v" }, both(row.moment)) },
    { head: capital(say.since), cell: (row) => h("span", { class: "v" }, both(row.since)) },
  ], rows);
}

/** @type {(context: import("./office.js").Context) => Promise<import("./office.js").Content>} */
export async function page({ signal, args: [month] }) {
  const rows = readOverview(await ask(`/overview/${month}`, signal)), incidents = readIncidents(await ask(`/incidents/${month}`, signal));
  const passed = passedOf(month);
  rows.forEach((row) => { row.missing = Math.max(0, passed - row.examined); });
  const total = Object.fromEntries([...SUMMED, "missing"].map((name) => [name, rows.reduce((sum, row) => sum + row[name], 0)]));
  return [head(say.monthAllHead(monthName(month)), tool(`/month/${monthStep(month, -1)}`, "←", say.monthBefore),
    tool(`/month/${monthStep(month, 1)}`, "→", say.monthAfter), printButton()),
    rows.length === 0 ? h("p", { class: "box" }, say.noDriversYet)
      : [monthTable(columnsOf(month, total), rows, { ...total, driver: null, name: say.wholeMonth }),
        h("p", { class: "note" }, say.unseenHelp(length(passed))),
        h("p", { class: "note" }, RULES.filter((rule) => total[rule]).map((rule) => `${rule}: ${say.short[rule]}`).join(" · "))],
    h("h2", {}, `${say.breaches}${incidents.length ? `: ${incidents.length}` : ""}`), breachesOf(incidents, month),
    incidents.length ? h("p", { class: "note" }, say.noLooks) : null, zoneLine()];
}
