// What the replies in CSV say (docs/FORMATS.md): a row for each driver, or for each breach. A text of another form is a problem. Then: what
// is left, by a forecast.
import { Problem, h, svg } from "./page.js";
import { hm, length, localMoment, localTime, say, undivided } from "./say.js";
import { DAY, minuteOf, weekOf } from "./time.js";

const DATE = /^\d{4}-\d\d-\d\d$/, MOMENT = /^\d{4}-\d\d-\d\d \d\d:\d\d$/, NUMBER = /^\d+$/;
const RULES = ["B1", "B2", "B3", "B4", "B5", "B6", "B7", "B8", "B9"];

/** @type {(form: RegExp, read: (text: string) => any) => (text: string) => any} reads a cell that has a form */
const cell = (form, read) => (text) => {
  if (!form.test(text)) throw new Problem("unreadable");
  return read(text);
};
const number = cell(NUMBER, Number), day = cell(DATE, minuteOf), moment = cell(MOMENT, minuteOf), word = String;
/** @type {(read: (text: string) => any) => (text: string) => any} a cell that may be empty */
const orNone = (read) => (text) => (text === "" ? null : read(text));

/** The rows of a text with given columns: how each is named and read.
 * @type {(text: string, columns: Record<string, (text: string) => any>) => any[]} */
function rowsOf(text, columns) {
  const names = Object.keys(columns);
  const [head, ...rows] = text.split("\n");
  if (head !== names.join(",") || rows.pop() !== "") throw new Problem("unreadable");
  return rows.map((row) => {
    const cells = row.split(",");
    if (cells.length !== names.length) throw new Problem("unreadable");
    return Object.fromEntries(names.map((name, k) => [name, columns[name](cells[k])]));
  });
}

/** @typedef {{ driver: number, name: string, files: number, held: number | null, horizon: number, cause: string, gaps: number,
 *  unknown: number, first: number | null, last_month: number, breaches: number, debts: number, owes: number, by: number | null }}
 *  Standing */
/** @type {(text: string) => Standing[]} `standing` */
export const readStanding = (text) => rowsOf(text, {
  driver: number, name: word, files: number, held: orNone(moment), horizon: moment, cause: cell(/^(unknown|crew)$/, String), gaps: number,
  unknown: number, first: orNone(moment), last_month: number, breaches: number, debts: number, owes: number, by: orNone(moment),
});

/** A forecast of a driver: null where nothing can be said of them.
 * @typedef {{ driver: number, name: string, from: number, held: number | null, ahead: Omit<import("./read.js").Ahead, "held" | "cause"> |
 *  null }} Forecast */
/** @type {(text: string) => Forecast[]} `forecast` */
export function readForecast(text) {
  const rules = Object.fromEntries(RULES.map((rule) => [rule, orNone(moment)]));
  const rows = rowsOf(text, {
    driver: number, name: word, from: day, held: orNone(moment), start: orNone(moment), ...rules,
    reduced: orNone(number), extended: orNone(number), before: orNone(number), week: orNone(number),
  });
  return rows.map((row) => ({ driver: row.driver, name: row.name, from: row.from, held: row.held,
    ahead: row.start === null ? null : aheadOf(row) }));
}
/** @type {(row: Record<string, any>) => any} a row of `forecast` in the form of `ahead` */
const aheadOf = (row) => ({
  from: row.from, start: row.start, reduced: row.reduced, extended: row.extended, weeks: [{ drive: row.before }, { drive: row.week }],
  kinds: Object.fromEntries(RULES.filter((rule) => row[rule] !== null).map((rule) => [rule,
    { until: row[rule], left: row[rule] - row.start }])),
});

/** @typedef {{ driver: number, name: string, rest: number, available: number, work: number, drive: number, crew: number, none: number,
 *  examined: number } & Record<string, number>} Overview */
/** @type {(text: string) => Overview[]} `overview` */
export const readOverview = (text) => rowsOf(text, {
  driver: number, name: word, rest: number, available: number, work: number, drive: number, crew: number, none: number, examined: number,
  ...Object.fromEntries([...RULES, "B10"].map((rule) => [rule, number])),
});

/** @typedef {{ driver: number, name: string, kind: string, article: string, moment: number, since: number, amount: number }} Incident */
/** @type {(text: string) => Incident[]} `incidents` */
export const readIncidents = (text) => rowsOf(text, {
  driver: number, name: word, kind: cell(/^B([1-9]|10)$/, String), article: cell(/^Art \S+$/, String), moment, since: moment,
    amount: number,
});

// What is left

/**
 * What is left, from a forecast: how much driving until the next break, in the day, in the week and in two weeks, and when the daily and
 * the weekly rest have to begin at the latest. Null: no limit is reached.
 * @param {Pick<import("./read.js").Ahead, "kinds" | "start" | "from" | "weeks" | "reduced">} ahead
 */
export function leftOf({ kinds, start, from, weeks }) {
  const left = (/** @type {string} */ kind) => kinds[kind]?.left ?? null;
  const until = (/** @type {string} */ kind) => kinds[kind]?.until ?? null;
  const least = (/** @type {Array<number | null>} */ all) => {
    const known = /** @type {number[]} */ (all.filter((one) => one !== null));
    return known.length > 0 ? Math.min(...known) : null;
  };
  const [ten, nine, rest, long] = [left("B4"), left("B5"), until("B2"), until("B3")];
  return {
    now: left("B1"),
    day: least([ten, nine]),
    // Whether the two days of the week with more than nine hours are used.
    nine: nine !== null && (ten === null || nine < ten),
    week: left("B6"),
    two: left("B7"),
    rest,
    // B3 is reached once the three reduced rests are used: then the rest of eleven hours has to begin in time.
    long: long ?? (rest === null ? null : rest - 120),
    needsLong: long !== null && (rest === null || long <= rest),
    weekly: least([until("B8"), until("B9")]),
    // What was driven in the week before isn't known.
    isYoung: from > weekOf(start) - 7 * DAY,
    weekDrive: weeks.at(-1)?.drive ?? null,
    twoDrive: weeks.reduce((sum, one) => sum + one.drive, 0),
  };
}

/**
 * A field with what is left: a length with a bar, or a moment.
 * @param {string} value
 * @param {string} text
 * @param {{left: number, most: number, isFirst?: boolean} | null} [amount] null for a moment
 * @returns {HTMLElement}
 */
function meter(value, text, amount = null) {
  if (amount === null) {
    return h("li", { class: "meter moment" }, h("b", {}, value), h("span", {}, undivided(text)));
  }
  const { left, most, isFirst } = amount;
  const part = Math.max(0, Math.min(100, 100 * left / most));
  return h("li", { class: `meter${part < 10 ? " low" : ""}${isFirst ? " first" : ""}` }, h("b", {}, value), h("span", {}, undivided(text)),
    svg("svg", { viewBox: "0 0 100 4", preserveAspectRatio: "none", "aria-hidden": "true" },
      svg("rect", { class: "full", width: 100, height: 4 }), svg("rect", { class: "used", width: part, height: 4 })));
}

/**
 * What is left, in fields.
 * @param {import("./read.js").Ahead} ahead
 * @returns {HTMLElement}
 */
export function meters(ahead) {
  const left = leftOf(ahead);
  const made = [];
  if (left.now !== null) {
    made.push(meter(length(left.now), say.leftBreak, { left: left.now, most: 270, isFirst: true }));
  }
  if (left.day !== null) {
    const [text, most] = left.nine ? [say.leftDay9, 540] : [say.leftDay, 600];
    made.push(meter(length(left.day), text, { left: left.day, most, isFirst: true }));
  }
  if (left.long !== null && left.needsLong) {
    made.push(meter(localMoment(left.long), say.leftLong));
  } else if (left.rest !== null && left.long !== null) {
    made.push(meter(localMoment(left.rest), left.long >= ahead.start ? say.leftRest(localTime(left.long)) : say.leftShort));
  }
  if (left.week !== null) {
    const driven = say.driven(hm(left.weekDrive ?? 0));
    made.push(meter(length(left.week), `${say.leftWeek} (${driven} ${say.of} 56:00)`, { left: left.week, most: 3360 }));
  }
  if (left.two !== null && !left.isYoung) {
    made.push(meter(length(left.two), `${say.leftTwo} (${say.driven(hm(left.twoDrive))} ${say.of} 90:00)`, { left: left.two, most: 5400 }));
  }
  if (left.weekly !== null) {
    made.push(meter(localMoment(left.weekly), say.leftWeekly));
  }
  return h("ul", { class: "meters" }, made);
}
