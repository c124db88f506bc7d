// The language, and how times, lengths and debts are said in it. Its sentences are in two files, words-en.js or words-de.js: those of both
// pages in shared/, the others in the page's own folder. Only the files of the language that is shown are loaded.
import { h, moduleAt } from "./page.js";
import { DAY, dateOf, localText, minuteOf, textOf, weekdayOf } from "./time.js";

/** Where the language is kept: in localStorage, since it is no secret and holds for all visits. */
const PLACE = "tacho.language";

/** @type {Array<[string, string]>} The languages that there are, each with its own name. */
export const LANGUAGES = [["en", "English"], ["de", "Deutsch"]];

/**
 * The language to begin with: the one that was chosen, else the first of the browser's that there is, else English.
 * @returns {string}
 */
function firstLanguage() {
  const wanted = [localStorage.getItem(PLACE), ...navigator.languages.map((one) => one.split("-")[0].toLowerCase())];
  return wanted.find((one) => LANGUAGES.some(([language]) => language === one)) ?? "en";
}

/**
 * The sentences of a language.
 * @param {string} language
 * @returns {Promise<Record<string, any>>}
 */
async function wordsOf(language) {
  const folders = ["shared", location.pathname.split("/")[1]];
  const modules = await Promise.all(folders.map((folder) => moduleAt(`/${folder}/words-${language}.js`)));
  return Object.assign({}, ...modules.map((module) => module.WORDS));
}

let language = firstLanguage();

/** @type {Record<string, any>} The sentences of the present language. There are none before `ready`. */
export let say = {};

/** A page waits for this before it shows anything. */
export const ready = wordsOf(language).then((words) => { say = words; });

/**
 * The present language.
 * @returns {string} as in `en`
 */
export function languageNow() {
  return language;
}

/**
 * Takes another language, and keeps it for later visits, unless one is chosen while its sentences are loading.
 * @param {string} other
 */
export async function speak(other) {
  localStorage.setItem(PLACE, other);
  const words = await wordsOf(other);
  if (localStorage.getItem(PLACE) === other) {
    [language, say] = [other, words];
  }
}

/**
 * What a function makes in another language.
 * @param {string} other
 * @param {() => T} make
 * @template T
 * @returns {Promise<T>}
 */
export async function withLanguage(other, make) {
  const words = await wordsOf(other);
  const was = /** @type {const} */ ([language, say]);
  [language, say] = [other, words];
  try {
    return make();
  } finally {
    [language, say] = was;
  }
}

// Days and times

/**
 * Year, month, day and day of the week of a text.
 * @param {string} text it begins with `YYYY-MM-DD`
 * @returns {[number, number, number, number]}
 */
function fieldsOf(text) {
  const [year, month, day] = text.slice(0, 10).split("-").map(Number);
  return [year, month, day, weekdayOf(minuteOf(text.slice(0, 10)))];
}

/**
 * A month: 'November 2026'.
 * @param {string} month `YYYY-MM`
 * @returns {string}
 */
export function monthName(month) {
  return say.month(...month.split("-").map(Number));
}

/**
 * The day of a minute in UTC: 'Sat 14 Nov 2026'.
 * @param {number} minute
 * @returns {string}
 */
export function utcDay(minute) {
  return say.date(...fieldsOf(dateOf(minute)));
}

/**
 * The same without the year: 'Sat 14 Nov'.
 * @param {number} minute
 * @returns {string}
 */
export function shortUtcDay(minute) {
  return say.shortDate(...fieldsOf(dateOf(minute)));
}

/**
 * The time of a minute in UTC: '07:03'.
 * @param {number} minute
 * @returns {string}
 */
export function utcTime(minute) {
  return textOf(minute).slice(11);
}

/**
 * The local time of a minute: '08:03'.
 * @param {number} minute
 * @returns {string}
 */
export function localTime(minute) {
  return localText(minute).slice(11);
}

/**
 * The local day and time of a minute: 'Sat 14 Nov 08:03'.
 * @param {number} minute
 * @param {boolean} [isLong] whether with the year
 * @returns {string}
 */
export function localMoment(minute, isLong = false) {
  const day = (isLong ? say.date : say.shortDate)(...fieldsOf(localText(minute)));
  return `${day} ${localTime(minute)}`;
}

/**
 * Whether a minute is of the same day in UTC and in local time.
 * @param {number} minute
 * @returns {boolean}
 */
function isOneDay(minute) {
  return localText(minute).slice(0, 10) === dateOf(minute);
}

/**
 * A minute in local time, with UTC in brackets: 'Sat 14 Nov 08:03 (07:03 UTC)'.
 * @param {number} minute
 * @returns {string}
 */
export function both(minute) {
  const day = isOneDay(minute) ? "" : `${shortUtcDay(minute)} `;
  return `${localMoment(minute)} (${day}${utcTime(minute)}\u00a0UTC)`;
}

/**
 * The time of a minute in local time, with UTC in brackets: '08:03 (07:03 UTC)'.
 * @param {number} minute
 * @returns {string}
 */
export function bothTimes(minute) {
  return `${localTime(minute)} (${utcTime(minute)}\u00a0UTC)`;
}

/**
 * A minute in UTC, with local time in brackets: '07:03 UTC (08:03 local)', after a day.
 * @param {number} minute
 * @param {string} day the day in UTC, as it is said
 * @param {string} [utc] what stands after the time in UTC
 * @param {string} [local] what stands after the local time
 * @returns {string}
 */
function utcFirst(minute, day, utc = "", local = "") {
  const other = isOneDay(minute) ? "" : `${say.shortDate(...fieldsOf(localText(minute)))} `;
  return `${day} ${utcTime(minute)}${utc} (${other}${localTime(minute)}${local})`;
}

/**
 * A minute as it is said in a letter: 'Sat 14 Nov 2026 07:03 UTC (08:03 local)'.
 * @param {number} minute
 * @returns {string}
 */
export function formal(minute) {
  return utcFirst(minute, utcDay(minute), "\u00a0UTC", `\u00a0${say.local}`);
}

/**
 * The same for a table whose head names the year and UTC: 'Sat 14 Nov 07:03 (08:03)'.
 * @param {number} minute
 * @returns {string}
 */
export function shortFormal(minute) {
  return utcFirst(minute, shortUtcDay(minute));
}

// Lengths

/**
 * A number of minutes as hours and minutes: '4:30'.
 * @param {number} minutes
 * @returns {string}
 */
export function hm(minutes) {
  const size = Math.abs(minutes);
  return `${minutes < 0 ? "−" : ""}${Math.floor(size / 60)}:${String(size % 60).padStart(2, "0")}`;
}

/**
 * A number of minutes in words: '4 h 30', '20 min'.
 * @param {number} minutes
 * @returns {string}
 */
export function length(minutes) {
  return say.lengthOf(minutes);
}

/**
 * How many local days ago a minute was.
 * @param {number} minute
 * @param {number} present
 * @returns {number}
 */
export function daysSince(minute, present) {
  const dayOf = (/** @type {number} */ one) => minuteOf(localText(one).slice(0, 10));
  return Math.floor((dayOf(present) - dayOf(minute - 1)) / DAY);
}

/**
 * A sentence whose lengths, such as '4 h 30', no end of a line divides.
 * @param {string} text
 * @returns {string}
 */
export function undivided(text) {
  return text.replace(/(\d) (h|min|minutes|Minuten)\b/g, "$1\u00a0$2").replace(/(h) (\d\d)\b/g, "$1\u00a0$2");
}

// Breaches

/** The sentences on the amount of a breach; of the other kinds it is how much is over the limit. */
const AMOUNTS = new Map([["B2", "late"], ["B8", "late"], ["B10", "lacking"]]);

/**
 * The amount of a breach in a few words: '12 h 34 late'.
 * @param {import("./read.js").Breach} breach
 * @returns {string} empty where it has none
 */
export function amountText({ kind, amount }) {
  if (kind === "B9") {
    return "";
  }
  return kind === "B3" ? `+${amount}` : say[AMOUNTS.get(kind) ?? "overBy"](length(amount));
}

// Debts

/** @import { Debt } from "./read.js" */

/**
 * The rest that is to be made up, and below it the rest that was. Where the examination broke off, it isn't known what became of a debt.
 * @param {Array<import("./read.js").Stretch<Debt>>} stretches
 * @returns {import("./page.js").Child}
 */
export function debtsPart(stretches) {
  const last = stretches.at(-1);
  const open = last === undefined ? [] : last.items.filter((debt) => debt.end !== "paid");
  const before = stretches.slice(0, -1).flatMap((one) => one.items);
  const broken = before.filter((debt) => debt.end === "open" && debt.by > (last?.horizon ?? 0));
  const paid = stretches.flatMap((one) => one.items).filter((debt) => debt.end === "paid").reverse();
  const item = (/** @type {Debt} */ debt, /** @type {string} */ sentence, /** @type {string} */ kind) =>
    h("li", { class: kind }, undivided(say[sentence](utcDay(debt.week), length(debt.owes), both(debt.by))));
  const items = [
    ...open.map((debt) => (debt.end === "late" ? item(debt, "debtLate", "box bad") : item(debt, "debt", "box warn"))),
    ...broken.map((debt) => item(debt, "debtBroken", "box warn")),
  ];
  const paidItem = (/** @type {Debt} */ debt) =>
    h("li", {}, undivided(say.debtWas(utcDay(debt.week), length(debt.owes), both(/** @type {number} */ (debt.at)))));
  return [
    items.length > 0 ? h("ul", { class: "list" }, items) : h("p", {}, say.noDebts),
    paid.length > 0 ? h("details", {}, h("summary", {}, say.debtPaid(paid.length)), h("ul", {}, paid.slice(0, 12).map(paidItem))) : null,
  ];
}
