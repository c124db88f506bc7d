// What is left until the limits, for all drivers and for one.
import { h, written } from "/shared/page.js";
import { DAY, textOf, tomorrow } from "/shared/time.js";
import { both, debtsPart, length, localMoment, monthName, say, shortUtcDay } from "/shared/say.js";
import { readAhead, readDebts, readDrivers } from "/shared/read.js";
import { leftOf, meters, readForecast } from "/shared/tables.js";
import { ask, atLogOut, head, link, listTable, momentField, printButton, thisMonth, tool, zoneLine } from "./office.js";

/** @typedef {import("/shared/tables.js").Forecast} Forecast */

const UNRELIABLE = 2, STALE = 4, LOW = 600, BREAK = 270;

/** @type {number | null} the start of driving that was chosen; null is tomorrow at six */
let chosen = null;
atLogOut.push(() => { chosen = null; });

/** @type {(again: () => void) => HTMLElement} */
function startForm(again) {
  const moment = momentField("start-at", say.startAt, startOfDriving());
  return h("form", { class: "row end no-print", onsubmit: (event) => {
    event.preventDefault();
    if (moment.minute() !== null) { chosen = moment.minute(); again(); }
  } }, moment.node, h("button", {}, say.show));
}
/** @type {() => number} */
const startOfDriving = () => chosen ?? tomorrow();

/** How many days before the start the last known hour is; Infinity where nothing can be said.
 * @type {(row: Forecast) => number} */
const staleOf = (row) => (row.held === null || row.ahead === null ? Infinity : Math.floor((row.ahead.start - row.held) / DAY));
/** Whether a row says anything.
 * @type {(row: Forecast) => boolean} */
const isTold = (row) => staleOf(row) <= STALE;

/** @type {(value: number | null, least: number) => string} */
const low = (value, least) => (value !== null && value < least ? "warn-text" : "");
/** @type {(value: number | null) => string} */
const bare = (value) => (value === null ? "–" : length(value));

/** The driving that is left, and what ends it.
 * @type {(left: any) => import("./office.js").Content} */
function drivingCell(left) {
  const bounds = [["day", left.day], ["week", left.week], ["two", left.isYoung ? null : left.two]].filter(([, value]) => value !== null);
  const [name, value] = bounds.sort((a, b) => a[1] - b[1])[0] ?? [];
  if (value === undefined) return "–";
  const remark = [say.binds[name], left.isYoung ? say.twoUnknown : ""].filter(Boolean).join(", ");
  return h("span", { class: "v" }, h("b", { class: low(value, LOW) || null }, length(value)), remark ? h("small", {}, ` ${remark}`) : null);
}

/** @type {(row: any) => import("./office.js").Content} */
const heldCell = (row) => h("span", { class: "v" }, localMoment(row.held),
  staleOf(row) > UNRELIABLE ? h("small", { class: "warn-text" }, ` ${say.leftStale(staleOf(row))}`) : null);
/** @type {(left: any) => import("./office.js").Content} */
function restCell(left) {
  if (left.needsLong) return h("span", { class: "v warn-text" }, localMoment(left.long), h("small", {}, " 11 h"));
  return left.rest === null ? "–" : localMoment(left.rest);
}
/** @type {(left: any, row: any) => import("./office.js").Content} */
const twoCell = (left, row) => (left.isYoung
  ? h("span", { class: "v wrap warn-text" }, "?", h("small", {}, ` ${say.young(shortUtcDay(row.from))}`)) : bare(left.two));

/** @type {() => import("./office.js").Column[]} */
function columns() {
  const [driver, held, ...heads] = say.leftCols;
  /** @type {[(left: any, row: any) => import("./office.js").Content, (left: any, row: any) => string][]} */
  const cells = [
    [drivingCell, () => ""],
    [(left) => bare(left.now), (left) => (left.now === BREAK ? "quiet" : low(left.now, BREAK))],
    [restCell, () => ""],
    [(left) => bare(left.week), (left) => low(left.week, LOW)],
    [twoCell, (left) => low(left.two, LOW)],
    [(left) => (left.weekly === null ? "–" : localMoment(left.weekly)),
      (left, row) => (left.weekly !== null && left.weekly - row.ahead.start < DAY ? "warn-text" : "")],
    [(_, row) => `${row.ahead.reduced}/3 · ${row.ahead.extended}/2`, () => "quiet"],
  ];
  return [{ head: driver, cell: (row) => [link(`/drivers/${row.driver}/left`, written(row.name)), h("small", {}, ` ${row.driver}`)] },
    { head: held, kind: "when", cell: heldCell },
    ...cells.map(([cell, kind], k) => ({
      head: heads[k], kind: "num", kindOf: (/** @type {any} */ row) => kind(leftOf(row.ahead), row),
      cell: (/** @type {any} */ row) => cell(leftOf(row.ahead), row),
    }))];
}

/** Of whom nothing can be said, and why.
 * @type {(rows: Forecast[]) => import("./office.js").Content} */
const untold = (rows) => (rows.length === 0 ? null : [h("h2", {}, say.leftUntold), h("ul", { id: "untold" }, rows.map((row) => h("li", {},
  link(`/drivers/${row.driver}/${thisMonth()}`, written(row.name)), ` (${row.driver}): `,
    row.held === null ? say.noLeft : row.ahead === null ? say.leftCrew
    : `${say.colHeld} ${localMoment(row.held)}. ${say.leftStale(staleOf(row))}`)))]);

/** @type {(context: import("./office.js").Context) => Promise<import("./office.js").Content>} */
async function leftAll({ signal, again }) {
  const rows = readForecast(await ask(`/forecast/${textOf(startOfDriving()).replace(" ", "/")}`, signal)), told = rows.filter(isTold);
  return [head(`${say.left}: ${localMoment(startOfDriving(), true)}`, printButton()), startForm(again),
    h("p", { class: "box" }, say.leftAssume),
    told.length ? listTable(columns(), told) : null, untold(rows.filter((row) => !isTold(row))),
    h("p", { class: "note" }, `– : ${say.notBinding}.`), zoneLine()];
}

/** Whether nothing is held.
 * @type {(ahead: import("/shared/read.js").Ahead) => boolean} */
const isNever = (ahead) => ahead.held === ahead.from && ahead.restSince === null;
/** @type {(text: string) => HTMLElement} */
const warning = (text) => h("p", { class: "box warn" }, text);

/** The breaches that come even if nothing is driven.
 * @type {(breaches: import("/shared/read.js").Breach[]) => import("./office.js").Content} */
const comingBox = (breaches) => (breaches.length === 0 ? null : h("div", { class: "box bad" }, h("p", {}, say.coming),
  h("ul", {}, breaches.map((one) => h("li", {}, say[one.kind](one.amount), " ", both(one.at))))));

/** What a forecast of one driver says.
 * @type {(ahead: import("/shared/read.js").Ahead) => import("./office.js").Content} */
function toldOf(ahead) {
  const days = Math.floor((ahead.start - ahead.held) / DAY);
  if (ahead.not) return warning(say.leftCrew);
  if (isNever(ahead)) return warning(say.noLeft);
  if (days > STALE) return warning(say.leftStale(days));
  return [days > UNRELIABLE ? warning(say.leftStale(days)) : null, meters(ahead), comingBox(ahead.coming),
    leftOf(ahead).isYoung ? warning(say.youngHelp(shortUtcDay(ahead.from))) : null,
      h("p", {}, say.leftUsed(ahead.reduced, ahead.extended))];
}

/** @type {(context: import("./office.js").Context) => Promise<import("./office.js").Content>} */
async function leftOne({ signal, args: [driver], again }) {
  const ahead = readAhead(await ask(`/drivers/${driver}/ahead/${textOf(startOfDriving()).replace(" ", "/")}`, signal)),
    [person] = readDrivers(await ask(`/drivers/${driver}`, signal));
  const debts = readDebts(await ask(`/drivers/${driver}/debts`, signal));
  const title = head([written(person.name), `: ${say.left}`], tool(`/drivers/${driver}/${thisMonth()}`, monthName(thisMonth())),
    printButton());
  const held = isNever(ahead) ? "" : ` · ${say.colHeld} ${both(ahead.held)}`;
  return [title, startForm(again), h("p", {}, h("b", {}, `${say.startAt}: ${both(ahead.start)}`), held), toldOf(ahead),
    h("p", { class: "note" }, say.leftAssume), h("h2", {}, say.debts), debtsPart(debts)];
}

/** @type {(context: import("./office.js").Context) => Promise<import("./office.js").Content>} */
export const page = (context) => (context.args.length ? leftOne(context) : leftAll(context));
