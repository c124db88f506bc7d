// What the replies say (docs/FORMATS.md). Every line has to have its form and its place, else the reply is unreadable: what can't be read
// is never left out. Each function that reads takes the text of a reply, and throws a Problem `unreadable`.
import { Problem } from "./page.js";
import { DAY, dateOf, minuteOf, monthOf, rangeOf, textOf, weekdayOf, weekOf } from "./time.js";

/**
 * A breach: `at` its moment, `since` its first minute, `amount` in minutes (of B3 a count, of B9 always 0).
 * @typedef {{kind: string, article: string, at: number, since: number, amount: number}} Breach
 */
/**
 * A line of evidence: what it is, and what stands on it. A start or past that is null isn't known.
 * @typedef {{word: string, start?: number | null, past?: number | null, length?: number | null, total?: number, portion?: number,
 *   room?: number, number?: number, day?: number, limit?: number, weeks?: number[], isAtRest?: boolean}} Evidence
 */
/** @typedef {Breach & {evidence: Evidence[]}} ShownBreach a breach with what shows it */
/**
 * A debt: the week's first minute, what is owed in minutes, the deadline, `open`, `late` or `paid`, and the start of the rest that paid it.
 * @typedef {{week: number, owes: number, by: number, end: string, at: number | null}} Debt
 */
/**
 * A stretch: its first minute, its breaches or debts, its horizon with the cause, and the past of what isn't examined after it, or null.
 * @typedef {{from: number, items: T[], horizon: number, cause: string, to: number | null}} Stretch
 * @template T
 */
/** @typedef {{start: number, past: number}} Range */
/** @typedef {Range & {activity: string, isCrew: boolean}} Span */
/** @typedef {{number: string, part: string, size: number, start: number, past: number, digest: string}} CardFile */
/** @typedef {Range & {number: string, activity: string, state: string, author: string, note: string}} Entry */
/** @typedef {{number: number, holder: string, base: string, files: number, entries: number, name: string}} Driver */
/** @typedef {{start: number, columns: string[]}} Day a day of a sheet: its first minute, and its six amounts */
/**
 * The sheet of a month.
 * @typedef {{number: string, name: string, month: string, days: Day[], total: string[], breaches: Breach[], horizon: number,
 *   cause: string}} Sheet
 */
/**
 * A forecast. `held` is the horizon. Where minutes after it aren't examined, `not` is their range, and there is nothing else. `kinds` has
 * the limit of each rule that is reached, `weeks` the driving of the week before that of `start` and of that week.
 * @typedef {{from: number, held: number, cause: string, not: Range | null, start: number, restSince: number | null, daySince: number,
 *   reduced: number, extended: number, weeks: Array<{week: number, drive: number}>, coming: Breach[], debts: Debt[],
 *   kinds: Record<string, {until: number, left: number}>}} Ahead
 */

// Pieces of lines, as parts of regular expressions

const NUMBER = String.raw`(0|[1-9]\d*)`;
const DATE = String.raw`(\d{4}-\d\d-\d\d)`;
const AT = String.raw`(\d{4}-\d\d-\d\d \d\d:\d\d)`;
const LENGTH = String.raw`(-?(?:0|[1-9]\d*):[0-5]\d)`;
const RUN = String.raw`(-|\d{4}-\d\d-\d\d \d\d:\d\d) (-|\d{4}-\d\d-\d\d \d\d:\d\d) (-|(?:0|[1-9]\d*):[0-5]\d)`;
const ACTIVITY = "(rest|available|work|drive)";
// Of a name, an author or a note. Their lengths are limited in bytes; see `textIn`.
const PLAIN = String.raw`([^\x00-\x1f\x7f",]*)`;

/** @type {Record<string, string>} The Article of each kind of breach. */
export const ARTICLES = {
  B1: "7", B2: "8(2)", B3: "8(4)", B4: "6(1)", B5: "6(1)", B6: "6(2)", B7: "6(3)", B8: "8(6)", B9: "8(6)", B10: "8(6b)",
};
const KINDS = Object.keys(ARTICLES);
const DAYS = ["Sun", "Mon", "Tue", "Wed", "Thu", "Fri", "Sat"];
const LARGEST_FILE = 262144;
/** What a reduced weekly rest of 24 hours owes. */
const MOST_OWED = 1260;

const FORMS = {
  breach: form(`(B[1-9]|B10) Art (\\S+) at ${AT} since ${AT} amount ${NUMBER}`),
  from: form(`FROM ${DATE}`),
  horizon: form(`EXAMINED TO ${AT} (unknown|crew)`),
  not: form(`NOT EXAMINED ${AT} ${AT}`),
  debt: form(`WEEK ${DATE} owes ${NUMBER} by ${AT} (?:(open|late)|paid ${AT})`),
  driver: form(`DRIVER ${NUMBER} ${PLAIN}`),
  month: form(String.raw`MONTH (\d{4}-\d\d)`),
  columns: form("DATE       DAY   REST  AVAIL   WORK  DRIVE   CREW   NONE"),
  day: form(`${DATE} ([A-Z][a-z]{2})([ 0-9:]{42})`),
  total: form("TOTAL {9}([ 0-9:]{42})"),
  spans: form("start,past,activity,manning"),
  span: form(`${AT},${AT},${ACTIVITY},(single|crew)`),
  gap: form(`${AT} ${AT}`),
  form: form("start,past,activity,author,note"),
  row: form(`${AT},${AT},,,`),
  file: form(`${NUMBER} (both|first|second) ${NUMBER} ${AT} ${AT} ([0-9a-f]{64})`),
  entry: form(`${NUMBER} ${AT} ${AT} ${ACTIVITY} (kept|withdrawn) "${PLAIN}" "${PLAIN}"`),
  person: form(`${NUMBER} ([0-9a-f]{30}) ${DATE} ${NUMBER} ${NUMBER} ${PLAIN}`),
  start: form(`START ${AT}`),
  restSince: form(`REST SINCE (?:-|${AT})`),
  daySince: form(`DAY SINCE ${AT}`),
  reduced: form(`REDUCED ${NUMBER}`),
  extended: form(`EXTENDED ${NUMBER}`),
  driven: form(`DRIVEN ${DATE} ${LENGTH}`),
  left: form(`(B[1-9]) Art (\\S+) until ${AT} left ${LENGTH}`),
  schema: form(`schema ${NUMBER}`),
};

/**
 * The form of a whole line.
 * @param {string} text
 * @returns {RegExp}
 */
function form(text) {
  return new RegExp(`^${text}$`, "u");
}

/**
 * Refuses the reply, unless a condition holds.
 * @param {unknown} holds
 */
function must(holds) {
  if (!holds) {
    throw new Problem("unreadable");
  }
}

/**
 * The lines of a reply.
 * @param {string} text
 * @returns {string[]}
 */
export function linesOf(text) {
  must(text === "" || text.endsWith("\n"));
  return text.split("\n").slice(0, -1);
}

/**
 * The parts of a line.
 * @param {RegExp} wanted
 * @param {string | undefined} line
 * @returns {string[]}
 */
function partsOf(wanted, line) {
  const found = wanted.exec(line ?? "");
  must(line !== undefined && found !== null);
  return /** @type {string[]} */ (found).slice(1);
}

/**
 * The minute of a day or a time, which has to be in the calendar.
 * @param {string} text
 * @returns {number}
 */
function minuteIn(text) {
  const minute = minuteOf(text);
  must(Number.isFinite(minute) && textOf(minute).startsWith(text));
  return minute;
}

/**
 * The first minute of a day that has to be a Monday.
 * @param {string} text
 * @returns {number}
 */
function mondayIn(text) {
  const minute = minuteIn(text);
  must(weekOf(minute) === minute);
  return minute;
}

/**
 * A range that isn't empty.
 * @param {string} start
 * @param {string} past
 * @returns {Range}
 */
function rangeIn(start, past) {
  const range = { start: minuteIn(start), past: minuteIn(past) };
  must(range.start < range.past);
  return range;
}

/**
 * A text of a limited length.
 * @param {string} text
 * @param {number} least in bytes of UTF-8
 * @param {number} most
 * @returns {string}
 */
function textIn(text, least, most) {
  const size = new TextEncoder().encode(text).length;
  must(size >= least && size <= most);
  return text;
}

/**
 * The minutes of a length.
 * @param {string} text as in `4:30` or `-11:00`
 * @returns {number}
 */
export function lengthOf(text) {
  const [, sign, hours, minutes] = /** @type {string[]} */ (/^(-?)(\d+):(\d\d)$/.exec(text));
  return (sign ? -1 : 1) * (60 * Number(hours) + Number(minutes));
}

/**
 * Refuses ranges that aren't in order, or that touch.
 * @param {Range[]} ranges
 * @param {(one: Range, next: Range) => boolean} [mayTouch]
 */
function mustBeInOrder(ranges, mayTouch = () => false) {
  ranges.slice(1).forEach((next, number) => {
    const one = ranges[number];
    must(one.past < next.start || (one.past === next.start && mayTouch(one, next)));
  });
}

// Breaches, debts and stretches

/**
 * @param {string} line
 * @returns {Breach}
 */
function breachOf(line) {
  const [kind, article, at, since, amount] = partsOf(FORMS.breach, line);
  const breach = { kind, article, at: minuteIn(at), since: minuteIn(since), amount: Number(amount) };
  must(article === ARTICLES[kind] && (breach.amount === 0) === (kind === "B9"));
  return breach;
}

/**
 * Whether a breach may stand before another: by moment, then by kind, then by first minute.
 * @param {Breach} one
 * @param {Breach} next
 * @returns {boolean}
 */
function isBefore(one, next) {
  const keys = [one, next].map((breach) => [breach.at, KINDS.indexOf(breach.kind), breach.since]);
  const differs = [0, 1, 2].find((at) => keys[0][at] !== keys[1][at]);
  return differs !== undefined && keys[0][differs] < keys[1][differs];
}

/**
 * @param {string} line
 * @returns {Debt}
 */
function debtOf(line) {
  const [week, owes, by, end = "paid", at] = partsOf(FORMS.debt, line);
  const debt = { week: mondayIn(week), owes: Number(owes), by: minuteIn(by), end, at: at === undefined ? null : minuteIn(at) };
  must(debt.owes > 0 && debt.owes <= MOST_OWED && debt.week < debt.by);
  return debt;
}

/**
 * The horizon and its cause.
 * @param {string | undefined} line
 * @returns {{horizon: number, cause: string}}
 */
function horizonOf(line) {
  const [at, cause] = partsOf(FORMS.horizon, line);
  return { horizon: minuteIn(at), cause };
}

/**
 * What stands between `FROM` and `EXAMINED TO`, and what isn't examined after it.
 * @param {string} text
 * @param {(line: string) => T} itemOf
 * @param {(one: T, next: T) => boolean} inOrder
 * @template T
 * @returns {Array<Stretch<T>>}
 */
function stretchesOf(text, itemOf, inOrder) {
  const lines = linesOf(text);
  /** @type {Array<Stretch<T>>} */
  const made = [];
  must(lines.length > 0);
  for (let at = 0; at < lines.length;) {
    const from = mondayIn(partsOf(FORMS.from, lines[at])[0]);
    const before = made.at(-1);
    must(before === undefined || before.to === from);
    at += 1;
    const items = [];
    for (; at < lines.length && !lines[at].startsWith("EXAMINED TO "); at += 1) {
      const item = itemOf(lines[at]);
      must(items.length === 0 || inOrder(/** @type {T} */ (items.at(-1)), item));
      items.push(item);
    }
    const { horizon, cause } = horizonOf(lines[at]);
    at += 1;
    must(from <= horizon);
    let to = null;
    if (at < lines.length && lines[at].startsWith("NOT EXAMINED ")) {
      const range = rangeIn(.../** @type {[string, string]} */ (partsOf(FORMS.not, lines[at])));
      must(range.start === horizon);
      to = range.past;
      at += 1;
    }
    made.push({ from, items, horizon, cause, to });
  }
  return made;
}

/**
 * `stretches`.
 * @param {string} text
 * @returns {Array<Stretch<Breach>>}
 */
export function readBreaches(text) {
  return stretchesOf(text, breachOf, isBefore);
}

/**
 * `debts`.
 * @param {string} text
 * @returns {Array<Stretch<Debt>>}
 */
export function readDebts(text) {
  const made = stretchesOf(text, debtOf, (one, next) => one.week < next.week);
  for (const { items, horizon } of made) {
    must(items.every((debt) => debt.end === "paid" || (debt.end === "open") === debt.by > horizon));
  }
  return made;
}

// Evidence

/**
 * A rest run: its length stands there if both its ends are known.
 * @param {string} start
 * @param {string} past
 * @param {string} length
 * @returns {Omit<Evidence, "word">}
 */
function runOf(start, past, length) {
  const isOpen = start === "-" || past === "-";
  must(isOpen === (length === "-"));
  const run = { start: start === "-" ? null : minuteIn(start), past: past === "-" ? null : minuteIn(past), length: null };
  return isOpen ? run : { ...rangeIn(start, past), length: lengthIn(length, minuteIn(past) - minuteIn(start)) };
}

/**
 * A length of exactly this many minutes.
 * @param {string} text
 * @param {number} minutes
 * @returns {number}
 */
function lengthIn(text, minutes) {
  must(lengthOf(text) === minutes);
  return minutes;
}

/**
 * The lines of evidence, each under a letter: the word, the rest of the line, and what is made of its parts.
 * @type {Record<string, [string, string, (...parts: string[]) => Omit<Evidence, "word">]>}
 */
const LINES = {
  b: ["break", RUN, runOf],
  r: ["rest", RUN, runOf],
  p: ["rest", `${RUN} portion ${LENGTH}`, (start, past, length, portion) =>
    ({ ...runOf(start, past, length), portion: lengthOf(portion) })],
  o: ["rest", `${RUN} room ${LENGTH}`, (start, past, length, room) =>
    ({ ...runOf(start, past, length), room: lengthOf(room) })],
  w: ["weekly", RUN, runOf],
  i: ["weekly", `${RUN} in (${DATE}(?: ${DATE})*)`, (start, past, length, weeks) =>
    ({ ...runOf(start, past, length), weeks: weeks.split(" ").map(mondayIn) })],
  m: ["main", RUN, runOf],
  d: ["drive", `${AT} ${AT} ${LENGTH} ${LENGTH}`, (start, past, length, total) =>
    ({ ...runOf(start, past, length), total: lengthOf(total) })],
  y: ["day", `${AT} ${AT}`, (start, past) => rangeIn(start, past)],
  n: ["day", `${NUMBER} ${AT} ${AT} drive ${LENGTH}`, (number, start, past, total) =>
    ({ ...rangeIn(start, past), number: Number(number), total: lengthOf(total) })],
  l: ["limit", AT, (limit) => ({ limit: minuteIn(limit) })],
  k: ["reduced", `${NUMBER} ${AT} ${AT} ${LENGTH} day ${AT} portion ${LENGTH}`, (number, start, past, length, day, portion) =>
    ({ ...runOf(start, past, length), number: Number(number), day: minuteIn(day), portion: lengthOf(portion) })],
  W: ["week", DATE, (week) => ({ day: mondayIn(week) })],
  z: ["week", `${DATE} at rest`, (week) => ({ day: mondayIn(week), isAtRest: true })],
  D: ["week", `${DATE} drive ${LENGTH}`, (week, total) => ({ day: mondayIn(week), total: lengthOf(total) })],
  t: ["date", `${DATE} drive ${LENGTH} ${LENGTH}`, (date, length, total) =>
    ({ day: minuteIn(date), length: lengthOf(length), total: lengthOf(total) })],
  f: ["from", DATE, (week) => ({ day: mondayIn(week) })],
  O: ["owes", `${DATE} ${LENGTH} by ${AT}`, (week, length, limit) =>
    ({ day: mondayIn(week), length: lengthOf(length), limit: minuteIn(limit) })],
};
const LINE_FORMS = Object.fromEntries(Object.entries(LINES).map(([letter, [word, rest]]) => [letter, form(`${word} ${rest}`)]));

/** @type {Record<string, RegExp>} The order of the lines of each rule, by their letters. */
const ORDERS = {
  B1: /^b[dr]*d[dr]*b$/, B2: /^ylr*p$/, B3: /^wk+$/, B4: /^yd+$/, B5: /^Wn+d+$/, B6: /^Wt+d+t*$/, B7: /^Dt*(?:td+t*)?Dt*(?:td+t*)?$/,
  B8: /^ww$/, B9: /^f[Wz]+i*$/, B10: /^Omo*$/,
};

/**
 * What shows a breach.
 * @param {string} kind
 * @param {string[]} lines
 * @returns {Evidence[]}
 */
function evidenceOf(kind, lines) {
  const order = ORDERS[kind];
  const allowed = Object.keys(LINES).filter((letter) => order.source.includes(letter));
  let letters = "";
  const made = lines.map((line) => {
    const letter = allowed.find((one) => LINE_FORMS[one].test(line)) ?? "";
    must(letter !== "");
    letters += letter;
    const [word, , make] = LINES[letter];
    return { word, ...make(...partsOf(LINE_FORMS[letter], line)) };
  });
  must(order.test(letters));
  return made;
}

/**
 * `why`: the breaches of a month with their evidence.
 * @param {string} text
 * @returns {ShownBreach[]}
 */
export function readWhy(text) {
  const lines = linesOf(text);
  const made = [];
  for (let at = 0; at < lines.length;) {
    const breach = breachOf(lines[at]);
    const before = made.at(-1);
    must(before === undefined || before.at < breach.at || isBefore(before, breach));
    const past = lines.findIndex((line, number) => number > at && !line.startsWith("  "));
    const own = lines.slice(at + 1, past < 0 ? lines.length : past);
    made.push({ ...breach, evidence: evidenceOf(breach.kind, own.map((line) => line.slice(2))) });
    at += 1 + own.length;
  }
  return made;
}

// A month

/**
 * The six amounts of a line of a sheet: each in seven places, right-aligned.
 * @param {string} text
 * @returns {string[]}
 */
function columnsOf(text) {
  return Array.from({ length: 6 }, (_, number) => {
    const place = text.slice(7 * number, 7 * number + 7);
    const amount = place.trimStart();
    must(amount.length < 7 && /^(?:0|[1-9]\d*):[0-5]\d$/.test(amount));
    return amount;
  });
}

/**
 * The sum of lengths.
 * @param {string[]} lengths
 * @returns {number}
 */
function sumOf(lengths) {
  return lengths.reduce((sum, one) => sum + lengthOf(one), 0);
}

/**
 * `sheet`: the sums of each day and of the month have to be right.
 * @param {string} text
 * @returns {Sheet}
 */
export function readSheet(text) {
  const lines = linesOf(text);
  const [number, name] = partsOf(FORMS.driver, lines[0]);
  const [month] = partsOf(FORMS.month, lines[1]);
  partsOf(FORMS.columns, lines[2]);
  const [first, past] = rangeOf(month);
  must(monthOf(first) === month);
  const count = (past - first) / DAY;
  const days = lines.slice(3, 3 + count).map((line, at) => {
    const [date, weekday, columns] = partsOf(FORMS.day, line);
    const start = first + at * DAY;
    must(date === dateOf(start) && weekday === DAYS[weekdayOf(start)]);
    return { start, columns: columnsOf(columns) };
  });
  const total = columnsOf(partsOf(FORMS.total, lines[3 + count])[0]);
  must(days.every((day) => sumOf(day.columns) === DAY));
  must(total.every((sum, at) => lengthOf(sum) === sumOf(days.map((day) => day.columns[at]))));
  const breaches = lines.slice(4 + count, -1).map(breachOf);
  must(breaches.every((breach, at) => monthOf(breach.at) === month && (at === 0 || isBefore(breaches[at - 1], breach))));
  must(lines.length > 4 + count);
  return { number, name: textIn(name, 1, 64), month, days, total, breaches, ...horizonOf(lines.at(-1)) };
}

/**
 * `spans`.
 * @param {string} text
 * @returns {Span[]}
 */
export function readSpans(text) {
  const [head, ...rows] = linesOf(text);
  partsOf(FORMS.spans, head);
  const spans = rows.map((row) => {
    const [start, past, activity, manning] = partsOf(FORMS.span, row);
    return { ...rangeIn(start, past), activity, isCrew: manning === "crew" };
  });
  mustBeInOrder(spans, (one, next) => JSON.stringify({ ...one, ...SAME }) !== JSON.stringify({ ...next, ...SAME }));
  return spans;
}

/** In place of the ends of two spans, so that their marks are compared. */
const SAME = { start: 0, past: 0 };

/**
 * `gaps`.
 * @param {string} text
 * @returns {Range[]}
 */
export function readGaps(text) {
  const gaps = linesOf(text).map((line) => rangeIn(.../** @type {[string, string]} */ (partsOf(FORMS.gap, line))));
  mustBeInOrder(gaps);
  return gaps;
}

/**
 * `form`. A gap of more than 366 days has several rows, which touch.
 * @param {string} text
 * @returns {Range[]}
 */
export function readForm(text) {
  const [head, ...rows] = linesOf(text);
  partsOf(FORMS.form, head);
  const gaps = rows.map((row) => rangeIn(.../** @type {[string, string]} */ (partsOf(FORMS.row, row))));
  mustBeInOrder(gaps, (one) => one.past - one.start === 366 * DAY);
  return gaps;
}

/**
 * `version`: the program, as in `tacho 1.1.0`.
 * @param {string} text
 * @returns {string}
 */
export function readVersion(text) {
  const [program = "", schema, logic, ...others] = linesOf(text);
  partsOf(FORMS.schema, schema);
  must(/^tacho \d+\.\d+\.\d+$/.test(program) && logic && others.length === 0);
  return program;
}

// Card files, entries and drivers

/**
 * `files`: numbered from 1.
 * @param {string} text
 * @returns {CardFile[]}
 */
export function readFiles(text) {
  return linesOf(text).map((line, at) => {
    const [number, part, size, start, past, digest] = partsOf(FORMS.file, line);
    must(Number(number) === at + 1 && Number(size) > 0 && Number(size) <= LARGEST_FILE);
    return { number, part, size: Number(size), ...rangeIn(start, past), digest };
  });
}

/**
 * `entries`: numbered from 1.
 * @param {string} text
 * @returns {Entry[]}
 */
export function readEntries(text) {
  return linesOf(text).map((line, at) => {
    const [number, start, past, activity, state, author, note] = partsOf(FORMS.entry, line);
    must(Number(number) === at + 1);
    return { number, ...rangeIn(start, past), activity, state, author: textIn(author, 1, 64), note: textIn(note, 0, 200) };
  });
}

/**
 * `drivers`: by their numbers.
 * @param {string} text
 * @returns {Driver[]}
 */
export function readDrivers(text) {
  let last = 0;
  return linesOf(text).map((line) => {
    const [number, holder, base, files, entries, name] = partsOf(FORMS.person, line);
    must(Number(number) > last && Number(number) <= 999999);
    last = Number(number);
    mondayIn(base);
    return { number: last, holder, base, files: Number(files), entries: Number(entries), name: textIn(name, 1, 64) };
  });
}

// A forecast

/**
 * The limits of a forecast, by kind.
 * @param {string[]} lines
 * @param {number} start
 * @returns {Record<string, {until: number, left: number}>}
 */
function limitsOf(lines, start) {
  /** @type {Record<string, {until: number, left: number}>} */
  const made = {};
  let last = -1;
  for (const line of lines) {
    const [kind, article, until, left] = partsOf(FORMS.left, line);
    const at = KINDS.indexOf(kind);
    must(at > last && article === ARTICLES[kind]);
    last = at;
    made[kind] = { until: minuteIn(until), left: lengthIn(left, minuteIn(until) - start) };
  }
  return made;
}

/**
 * `ahead`.
 * @param {string} text
 * @returns {Ahead}
 */
export function readAhead(text) {
  const lines = linesOf(text);
  const from = mondayIn(partsOf(FORMS.from, lines[0])[0]);
  const { horizon: held, cause } = horizonOf(lines[1]);
  must(from <= held);
  if ((lines[2] ?? "").startsWith("NOT EXAMINED ")) {
    const not = rangeIn(.../** @type {[string, string]} */ (partsOf(FORMS.not, lines[2])));
    must(not.start === held && lines.length === 3);
    const none = { start: held, restSince: null, daySince: held, reduced: 0, extended: 0, weeks: [], coming: [], debts: [], kinds: {} };
    return { from, held, cause, not, ...none };
  }
  const start = minuteIn(partsOf(FORMS.start, lines[2])[0]);
  const rest = partsOf(FORMS.restSince, lines[3])[0];
  const daySince = minuteIn(partsOf(FORMS.daySince, lines[4])[0]);
  const [reduced] = partsOf(FORMS.reduced, lines[5]);
  const [extended] = partsOf(FORMS.extended, lines[6]);
  const weeks = lines.slice(7, 9).map((line, at) => {
    const [week, drive] = partsOf(FORMS.driven, line);
    must(minuteIn(week) === weekOf(start) - (1 - at) * 7 * DAY);
    return { week: minuteIn(week), drive: lengthOf(drive) };
  });
  must(weeks.length === 2 && held <= start && daySince <= start);
  const others = lines.slice(9);
  const coming = others.filter((line) => / since /.test(line)).map(breachOf);
  const debts = others.filter((line) => line.startsWith("WEEK ")).map(debtOf);
  const kinds = limitsOf(others.slice(coming.length + debts.length), start);
  must(others.slice(0, coming.length).every((line) => / since /.test(line)));
  must(coming.every((breach, at) => at === 0 || isBefore(coming[at - 1], breach)));
  must(debts.every((debt, at) => debt.end === "open" && debt.by > start && (at === 0 || debts[at - 1].week < debt.week)));
  return {
    from, held, cause, not: null, start, restSince: rest === undefined ? null : minuteIn(rest), daySince, reduced: Number(reduced),
    extended: Number(extended), weeks, coming, debts, kinds,
  };
}

// Cards

/** The states of Annex IC, by the first byte of a holder. */
const STATES = ("- A AL AND ARM AZ B BG BIH BY CH CY CZ D DK E EST F FIN FL FR UK GE GR H HR I IRL IS KZ L LT LV M MC MD MK N NL P PL "
  + "RO RSM RUS S SK SLO TM TR UA V YU MNE SRB UZ TJ").split(" ");

/**
 * The number of a card, from its holder. The archive has no more than these 14 signs of it.
 * @param {string} holder
 * @returns {string} as in `D DF000000000001..`
 */
export function cardOf(holder) {
  const [state, ...signs] = (holder.match(/../g) ?? []).map((pair) => parseInt(pair, 16));
  return `${STATES[state] ?? holder.slice(0, 2)} ${String.fromCharCode(...signs)}..`;
}
