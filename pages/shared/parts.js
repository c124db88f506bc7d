// Parts of a month that both pages show: breaches with their evidence, what isn't examined, the chart, the sheet, and gaps.
import { h, svg } from "./page.js";
import { ARTICLES } from "./read.js";
import { amountText, both, bothTimes, formal, hm, length, localMoment, say, shortFormal, shortUtcDay, undivided, utcDay, utcTime }
  from "./say.js";
import { DAY, dateOf, offsetText, weekdayOf } from "./time.js";

/** @import { Breach, Day, Entry, Evidence, Range, ShownBreach, Span, Stretch } from "./read.js" */
/** @typedef {Range & {cause: string, from: number}} Unseen what isn't examined, why, and from when on it is examined again */

// Breaches

/** The minutes that a rule allows, of the rules that add driving up. */
const LIMITS = new Map([["B1", 270], ["B4", 600], ["B5", 540], ["B6", 3360], ["B7", 5400]]);

/**
 * What stands in the last column of a line of evidence, in words.
 * @param {Evidence} line
 * @returns {string[]}
 */
function remarksOf(line) {
  const remarks = [];
  if (line.portion !== undefined) {
    remarks.push(say.within(hm(Math.max(0, line.portion))));
  }
  if (line.room !== undefined) {
    remarks.push(say.room(hm(Math.max(0, line.room))));
  }
  if (line.weeks !== undefined) {
    remarks.push(say.inWeeks(line.weeks.map(utcDay).join(", ")));
  }
  if (line.isAtRest) {
    remarks.push(say.atRest);
  }
  return remarks;
}

/**
 * A moment in a line of evidence.
 * @param {number | null | undefined} minute null where it isn't known, undefined where there is none
 * @param {boolean} isFormal
 * @returns {import("./page.js").Child[]}
 */
function momentCell(minute, isFormal) {
  if (minute === undefined) {
    return [];
  }
  if (minute === null) {
    return [h("i", {}, say.open)];
  }
  return isFormal ? [shortFormal(minute)] : [localMoment(minute), h("span", { class: "utc note" }, ` ${utcTime(minute)} UTC`)];
}

/**
 * Whether hours that were entered by hand lie in a line of evidence; in a sum of driving, whether driving does. A card file may have given
 * the same hours: the archive doesn't tell. Of a rest of which one end isn't known, the minute at the other end counts.
 * @param {Evidence} line
 * @param {Entry[]} entries
 * @returns {boolean}
 */
function isByHand({ word, start, past, day = NaN, total, isAtRest }, entries) {
  const isSum = word === "date" || (word === "week" && total !== undefined);
  const known = isSum || isAtRest ? [day, day + (word === "date" ? DAY : 7 * DAY)]
    : [start ?? (past ?? NaN) - 1, past ?? (start ?? NaN) + 1];
  return entries.some((one) =>
    one.state === "kept" && (!isSum || one.activity === "drive") && one.start < known[1] && known[0] < one.past);
}

/**
 * A line of evidence as a row: what it is, from, to, length, and the sum or a remark.
 * @param {Breach} breach
 * @param {Evidence} line
 * @param {boolean} isFormal
 * @param {Entry[]} entries
 * @returns {HTMLElement}
 */
function evidenceRow(breach, line, isFormal, entries) {
  const limit = LIMITS.get(breach.kind);
  const isOver = limit !== undefined && line.word === "drive" && (line.total ?? 0) > limit;
  const remarks = remarksOf(line);
  const isDay = line.day !== undefined && line.word !== "reduced";
  const first = isDay ? [shortUtcDay(/** @type {number} */ (line.day))] : momentCell(line.start ?? line.limit ?? line.start, isFormal);
  const last = remarks.length > 0 ? remarks.join(", ") : line.total === undefined ? "" : hm(line.total);
  return h("tr", { class: isOver ? "over" : null },
    h("th", { scope: "row" }, say.ev[line.word], isByHand(line, entries) ? h("i", { class: "hand" }, ` (${say.byHand})`) : null),
    h("td", {}, first),
    h("td", {}, isDay ? momentCell(line.limit, isFormal) : momentCell(line.past, isFormal)),
    h("td", { class: "num" }, typeof line.length === "number" ? hm(line.length) : ""),
    h("td", { class: remarks.length > 0 ? null : "num" }, last));
}

/**
 * The lines of evidence that are shown. A B9 may go back for years: of it only the last weeks are.
 * @param {ShownBreach} breach
 * @returns {Evidence[]}
 */
function shownEvidence({ kind, since, evidence }) {
  if (kind !== "B9") {
    return evidence;
  }
  const from = since - 14 * DAY;
  const isLate = (/** @type {Evidence} */ line) => (line.word === "week" ? line.day ?? 0 : line.past ?? from) >= from;
  return evidence.filter((line) => line.word !== "from" && isLate(line));
}

/**
 * What shows a breach, as a table.
 * @param {ShownBreach} breach
 * @param {boolean} isFormal whether times are UTC first, as in a letter
 * @param {Entry[]} entries
 * @returns {HTMLElement}
 */
function evidenceTable(breach, isFormal, entries) {
  const heads = (isFormal ? say.evHeadFormal : say.evHead).map((/** @type {string} */ one, /** @type {number} */ at) =>
    h("th", { scope: "col", class: at === 3 ? "num" : null }, one));
  const rows = shownEvidence(breach).map((line) => evidenceRow(breach, line, isFormal, entries));
  const hasHand = rows.some((row) => row.querySelector(".hand"));
  return h("div", { class: "wide" }, h("table", { class: "evidence" }, h("thead", {}, h("tr", {}, heads)), h("tbody", {}, rows)),
    hasHand ? h("p", { class: "note" }, say.byHandHelp) : null);
}

/**
 * Of a B2: how much of the longest rest lay within the 24 hours.
 * @param {ShownBreach} breach
 * @returns {string} empty where none did
 */
function longestWithin({ since, evidence }) {
  const limit = since + DAY;
  let best = { within: 0, all: 0 };
  for (const { word, start, past } of evidence) {
    if (word === "rest" && typeof start === "number" && typeof past === "number") {
      const within = Math.min(past, limit) - Math.max(start, since);
      best = within > best.within ? { within, all: past - start } : best;
    }
  }
  return best.within > 0 ? say.longest(length(best.within), length(best.all)) : "";
}

/**
 * The sentence on a breach.
 * @param {ShownBreach} breach
 * @returns {string}
 */
function sentenceOf(breach) {
  const more = breach.kind === "B2" ? longestWithin(breach) : "";
  return undivided(`${say[breach.kind](breach.amount)}${more ? ` ${more}` : ""}`);
}

/**
 * A breach: its sentence, when, by which Article, and what shows it.
 * @param {ShownBreach} breach
 * @param {{entries: Entry[], open?: boolean, formalTimes?: boolean, number?: number | null}} options
 * @returns {HTMLElement}
 */
export function breachItem(breach, { entries, open = false, formalTimes = false, number = null }) {
  const { kind, at, since, evidence } = breach;
  const moment = formalTimes ? formal : both;
  const article = say.article(ARTICLES[kind], kind);
  const counted = `${say.since} ${moment(since)}`;
  const table = evidenceTable(breach, formalTimes, entries);
  const limits = (/** @type {string} */ text) => h("p", { class: "note limits" }, text);
  const folded = h("details", { open }, h("summary", {}, say.evidence), h("p", { class: "note" }, `${counted} · ${article}`), table);
  return h("li", { class: `breach${evidence.length < 13 ? " short" : ""}`, id: `breach-${kind}-${at}` },
    h("div", { class: "top" },
      h("h3", {}, number ? `${number}. ` : "", say.short[kind]), h("span", { class: "amount" }, amountText(breach))),
    h("p", { class: "sentence" }, sentenceOf(breach)),
    formalTimes ? [limits(`${say.at}: ${moment(at)} · ${counted} · ${article}`), table]
      : h("div", { class: "foot" }, limits(moment(at)), folded));
}

// What isn't examined

/**
 * What isn't examined of a month: before the first stretch, between the stretches, and after the last.
 * @param {Array<Stretch<any>>} stretches
 * @param {[number, number]} range the month's
 * @returns {Unseen[]}
 */
export function unseenOf(stretches, [first, past]) {
  const made = [];
  let start = -Infinity;
  let cause = "base";
  for (const one of stretches) {
    made.push({ start, past: one.from, cause, from: one.from });
    start = one.horizon;
    cause = one.cause;
  }
  made.push({ start, past: Infinity, cause, from: Infinity });
  return made.map((one) => ({ ...one, start: Math.max(one.start, first), past: Math.min(one.past, past) }))
    .filter((one) => one.start < one.past);
}

/**
 * Why a range isn't examined, as an item of a list.
 * @param {Unseen} one
 * @param {Range[]} gaps
 * @param {import("./page.js").Child} form a link to the form for gaps
 * @returns {HTMLElement}
 */
function unseenItem(one, gaps, form) {
  if (one.cause === "base") {
    return h("li", {}, say.beforeBase(utcDay(one.past)));
  }
  const gap = one.cause === "unknown" ? gaps.find((each) => each.start === one.start) : undefined;
  const isOpen = one.from === Infinity;
  const reason = gap ? say.unknownGap(both(gap.start), both(gap.past), length(gap.past - gap.start)) : say[one.cause];
  const range = isOpen ? say.openEnd(both(one.start)) : say.notFrom(both(one.start), both(one.past));
  const again = isOpen ? "" : ` ${say.restart(utcDay(one.from))}`;
  return h("li", {}, h("b", {}, range), ". ", undivided(reason), again, gap && form ? [" ", form] : null);
}

/**
 * The line on where what is held ends. Where nothing comes after it, this is no reason for an alarm.
 * @param {Unseen} last what isn't examined after the last stretch
 * @param {number} horizon
 * @param {number} first the month's first minute
 * @param {number} end the end of what is held, 0 where nothing is
 * @returns {HTMLElement}
 */
function endLine(last, horizon, first, end) {
  if (end === 0) {
    return h("p", { class: "box warn" }, say.noLeft);
  }
  return h("p", { class: "note" }, last.start > first ? say.knownTo(both(last.start)) : say.knownBefore(both(horizon)));
}

/**
 * What isn't examined of a month, and why. A month that is examined whole has a quiet line.
 * @param {Array<Stretch<any>>} stretches
 * @param {[number, number]} range the month's
 * @param {number} [end] the end of what is held, 0 where nothing is
 * @param {Range[]} [gaps]
 * @param {import("./page.js").Child} [form] a link to the form for gaps
 * @returns {import("./page.js").Child}
 */
export function notExaminedBox(stretches, range, end = 0, gaps = [], form = null) {
  const all = unseenOf(stretches, range);
  const last = all.at(-1);
  const horizon = stretches.at(-1)?.horizon ?? 0;
  const isEnd = last !== undefined && last.from === Infinity && last.cause === "unknown" && horizon >= end;
  const unseen = isEnd ? all.slice(0, -1) : all;
  const ended = isEnd ? endLine(last, horizon, range[0], end) : null;
  if (unseen.length === 0) {
    return ended ?? h("p", { class: "note" }, say.examinedAll);
  }
  return [ended, h("section", { class: "box warn", "aria-labelledby": "not-head" }, h("h3", { id: "not-head" }, say.notExamined),
    h("ul", {}, unseen.map((one) => unseenItem(one, gaps, form))),
    h("p", { class: "note" }, say.noLooks))];
}

// The chart

/** @type {Record<string, number>} The heights of the bars, of 24: they tell the activities apart without colours. */
const HEIGHTS = { rest: 7, available: 12, work: 17, drive: 24 };
const HOURS = [0, 6, 12, 18, 24];

/** From this minute of a day on, a flag points to the left, so that it stays within the row. */
const LAST_RIGHT = 23 * 60;

// A pole with a flag, twelve pixels high, whose foot is at the minute.
const FLAG = "M-1 12h2V8h9L7 4l3-4H-1z";
const FLAG_TO_THE_LEFT = "M1 12h-2V8h-9l3-4-3-4H1z";

/**
 * The pieces of ranges that lie in a day, with their places in it.
 * @param {T[]} ranges
 * @param {number} day its first minute
 * @returns {Array<{range: T, x: number, width: number}>}
 * @template {Range} T
 */
function piecesOf(ranges, day) {
  return ranges.map((range) => {
    const start = Math.max(range.start, day);
    return { range, x: start - day, width: Math.min(range.past, day + DAY) - start };
  }).filter((piece) => piece.width > 0);
}

/**
 * A vertical line through a day's bars, as wide on every screen.
 * @param {number} x
 * @param {string} kind its class
 * @returns {SVGElement}
 */
function upright(x, kind) {
  return svg("line", { class: kind, x1: x, y1: 0, x2: x, y2: 24, "vector-effect": "non-scaling-stroke" });
}

/**
 * The line of a breach. It is dark and light, so that one of both differs from any bar.
 * @param {number} x
 * @returns {SVGElement[]}
 */
function markOf(x) {
  return [upright(x, "halo"), upright(x, "mark")];
}

/**
 * A rectangle in a day's row.
 * @param {string} kind its class
 * @param {number} x
 * @param {number} width
 * @param {number} height of 24
 * @param {...SVGElement} children
 * @returns {SVGElement}
 */
function block(kind, x, width, height, ...children) {
  return svg("rect", { class: kind, x, y: 24 - height, width, height, "vector-effect": "non-scaling-stroke" }, ...children);
}

/**
 * The bar of an activity.
 * @param {string} activity
 * @param {boolean} isCrew
 * @param {number} x
 * @param {number} width
 * @param {...SVGElement} children
 * @returns {SVGElement}
 */
function bar(activity, isCrew, x, width, ...children) {
  const height = HEIGHTS[activity];
  return block(`bar ${activity}${isCrew ? " crew" : ""}`, x, width, height, ...children);
}

/**
 * What a bar says when it is pointed at.
 * @param {Range} range
 * @param {string} what
 * @returns {SVGElement}
 */
function tip(range, what) {
  return svg("title", {}, `${both(range.start)} ${say.to} ${both(range.past)}: ${what}`);
}

/**
 * The flags of a day's breaches: above the bars, so that they hide none. They aren't stretched with the bars.
 * @param {number[]} minutes of the day
 * @returns {SVGElement | null}
 */
function flags(minutes) {
  if (minutes.length === 0) {
    return null;
  }
  return svg("svg", { class: "flags" }, minutes.map((minute) =>
    svg("svg", { x: `${100 * minute / DAY}%`, overflow: "visible" },
      svg("path", { class: "flag", d: minute > LAST_RIGHT ? FLAG_TO_THE_LEFT : FLAG }))));
}

/**
 * The bars of a day.
 * @param {{spans: Span[], gaps: Range[], unseen: Range[]}} month
 * @param {number} day its first minute
 * @param {number[]} marks the minutes of the day at which breaches are
 * @returns {SVGElement}
 */
function bars({ spans, gaps, unseen }, day, marks) {
  return svg("svg", { class: "bars", viewBox: "0 0 1440 24", preserveAspectRatio: "none" },
    block("back", 0, DAY, 24),
    HOURS.map((hour) => upright(60 * hour, "hour")),
    piecesOf(gaps, day).map(({ range, x, width }) => block("unknown", x, width, 24, tip(range, say.notKnown))),
    piecesOf(spans, day).map(({ range, x, width }) =>
      bar(range.activity, range.isCrew, x, width, tip(range, say[range.activity] + (range.isCrew ? `, ${say.withCrew}` : "")))),
    piecesOf(unseen, day).map(({ x, width }) => block("unseen", x, width, 24)),
    marks.map(markOf));
}

/**
 * The row of a day: its name, its bars, its driving, and below them a label for each breach.
 * @param {{spans: Span[], gaps: Range[], unseen: Range[], breaches: Breach[]}} month
 * @param {Day} day
 * @returns {HTMLElement}
 */
function dayRow(month, { start, columns }) {
  const breaches = month.breaches.filter((breach) => breach.at >= start && breach.at < start + DAY);
  const marks = breaches.map((breach) => breach.at - start);
  const label = (/** @type {Breach} */ breach) => h("span", {}, `${bothTimes(breach.at)} ${say.short[breach.kind]} ${amountText(breach)}`);
  return h("div", { class: weekdayOf(start) === 0 ? "day sunday" : "day", id: `day-${dateOf(start)}` },
    h("span", { class: "name" }, `${say.days[weekdayOf(start)]} ${Number(dateOf(start).slice(8))}`),
    h("div", { class: "strip", "aria-hidden": "true" }, flags(marks), bars(month, start, marks)),
    h("span", { class: "sum" }, columns[3] === "0:00" ? "" : columns[3]),
    breaches.length > 0 ? h("div", { class: "labels" }, breaches.map(label)) : null);
}

/**
 * What the shapes of a chart mean.
 * @param {boolean} hasCrew
 * @returns {HTMLElement}
 */
function legend(hasCrew) {
  const sample = (/** @type {string} */ text, /** @type {import("./page.js").Child[]} */ ...shapes) =>
    h("span", {}, svg("svg", { viewBox: "0 0 60 24", preserveAspectRatio: "none" }, shapes), text);
  return h("div", { class: "legend", "aria-hidden": "true" },
    Object.keys(HEIGHTS).map((activity) => sample(say[activity], bar(activity, false, 0, 60))),
    hasCrew ? sample(say.withCrew, bar("drive", true, 0, 60)) : null,
    sample(say.notKnown, block("unknown", 0, 60, 24)),
    sample(say.unseen, block("back", 0, 60, 24), block("unseen", 0, 60, 24)),
    h("span", {}, svg("svg", { class: "sample-flag" }, svg("path", { class: "flag", transform: "translate(4 2)", d: FLAG })), say.mark));
}

/**
 * The chart of a month. For a screen reader it is one image, which the list of breaches describes.
 * @param {{spans: Span[], gaps: Range[], breaches: Breach[], unseen: Range[], days: Day[], range: [number, number], labelledBy?: string,
 *   describedBy?: string}} month
 * @returns {HTMLElement[]}
 */
export function chart({ days, range, labelledBy, describedBy = "breaches-head", ...month }) {
  const offsets = new Set([offsetText(range[0]), offsetText(range[1] - 1)]);
  const name = labelledBy ? { "aria-labelledby": labelledBy } : { "aria-label": say.chart };
  const scale = h("div", { class: "scale" }, HOURS.map((hour) => h("span", {}, String(hour))));
  return [
    h("p", { class: "note" }, say.chartNote([...offsets].join(" / "))),
    h("div", { class: "chart", role: "img", ...name, "aria-describedby": describedBy },
      h("div", { class: "hours" }, scale, h("span", { class: "sum" }, say.sum)),
      days.map((day) => dayRow(month, day))),
    legend(month.spans.some((span) => span.isCrew)),
  ];
}

// The sheet

/**
 * The table of a month's days.
 * @param {{days: Day[], total: string[], later?: Day[]}} sheet `later`: the days that haven't come yet, which are one row
 * @returns {HTMLElement}
 */
export function sheetTable({ days, total, later = [] }) {
  const cell = (/** @type {string} */ text) => h("td", { class: text === "0:00" ? "num dim" : "num" }, text === "0:00" ? "–" : text);
  const heads = say.sheetColumns.map((/** @type {string} */ name, /** @type {number} */ at) =>
    h("th", { scope: "col", class: at > 0 ? "num" : null }, name));
  const row = (/** @type {Day} */ day) => h("tr", { class: weekdayOf(day.start) === 0 ? "sunday" : null },
    h("th", { scope: "row" }, utcDay(day.start)), day.columns.map(cell));
  const rest = later.length === 0 ? null : h("tr", { class: "later" },
    h("th", { scope: "row" }, say.notYet(shortUtcDay(later[0].start), utcDay(/** @type {Day} */ (later.at(-1)).start))),
    ["0:00", "0:00", "0:00", "0:00", "0:00", `${24 * later.length}:00`].map(cell));
  return h("div", { class: "wide", tabindex: "0", role: "region", "aria-label": say.sheet }, h("table", { class: "tight" },
    h("thead", {}, h("tr", {}, heads)),
    h("tbody", {}, days.map(row), rest),
    h("tfoot", {}, h("tr", {}, h("th", { scope: "row" }, say.wholeMonth), total.map(cell)))));
}

// Gaps

/**
 * The gaps.
 * @param {Range[]} gaps
 * @returns {HTMLElement}
 */
export function gapsPart(gaps) {
  if (gaps.length === 0) {
    return h("p", {}, say.noGaps);
  }
  const text = (/** @type {Range} */ { start, past }) => `${both(start)} ${say.to} ${both(past)} · ${length(past - start)}`;
  return h("ul", {}, gaps.map((gap) => h("li", {}, text(gap))));
}
