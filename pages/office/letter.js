// A letter to a driver about the breaches of a month, in UTC with local time.
import { h, written } from "/shared/page.js";
import { DAY, now, rangeOf } from "/shared/time.js";
import { formal, languageNow, localMoment, monthName, say, withLanguage } from "/shared/say.js";
import { cardOf, readDrivers, readEntries, readFiles, readVersion, readWhy } from "/shared/read.js";
import { breachItem } from "/shared/parts.js";
import { ask, button, head, languageField, telling, tool } from "./office.js";

const SENDER = "tacho.sender", LANGUAGE = "tacho.letter.", DAYS_TO_ANSWER = 14, DIGITS = 12, ANSWER_LINES = 3;

/** The language of a driver's letters.
 * @type {(driver: string) => string} */
const languageOf = (driver) => localStorage.getItem(LANGUAGE + driver) ?? languageNow();

/** Whether what shows a breach ends in time that isn't known: no letter is written from it.
 * @type {(breach: import("/shared/read.js").ShownBreach) => boolean} */
function isUnfinished({ kind, evidence }) {
  const last = evidence.filter((line) => ["break", "rest", "weekly"].includes(line.word)).at(-1);
  return ["B1", "B2", "B8"].includes(kind) && last !== undefined && last.past === null;
}

/** @type {() => { field: HTMLElement, printed: HTMLElement }} the sender: a field, and its text as it is printed */
function sender() {
  const kept = localStorage.getItem(SENDER) ?? "", printed = h("div", { class: "print-only" }, kept);
  const field = h("textarea", { rows: 3, id: "sender", class: "no-print", "aria-label": say.from, placeholder: say.from, oninput: () => {
    localStorage.setItem(SENDER, field.value);
    printed.textContent = field.value;
  } });
  field.value = kept;
  return { field, printed };
}

/** Where the letter's hours come from.
 * @type {(files: any[], entries: any[], program: string) => HTMLElement} */
function sourceLine(files, entries, program) {
  const fileTexts = files.map((file) => `${file.number} (SHA-256 ${file.digest.slice(0, DIGITS)}…)`);
  const entryTexts = entries.map((one) => `${one.number} (${say[one.activity]}, ${formal(one.start)} ${say.to} ${formal(one.past)})`);
  return h("p", { class: "note" }, say.letterFiles(fileTexts.join(", ") || "–", program),
    ` ${say.foot}`, entries.length ? ` ${say.letterHand} ${entryTexts.join("; ")}.` : "");
}

/** The sheet that is printed, in the language that is set. `ofMonth` are the month's entries; evidence may be of earlier months.
 * @type {(parts: { person: any, ready: any[], files: any[], entries: any[], ofMonth: any[], program: string, month: string,
 *  language: string }) => HTMLElement} */
function sheetOf({ person, ready, files, entries, ofMonth, program, month, language }) {
  const { field, printed } = sender();
  const day = (/** @type {number} */ minute) => localMoment(minute, true).slice(0, -6);
  return h("article", { class: "sheet", lang: language },
    h("div", { class: "address" }, h("div", {}, field, printed), h("div", {}, `${say.date2}: ${day(now())}`)),
    h("p", {}, written(person.name), h("br"), h("span", { class: "note" }, `${say.cardNo}: ${cardOf(person.holder)}`)),
    h("h2", {}, say.letterHead(monthName(month))), h("p", {}, telling(say.dear, person.name)),
    ready.length === 0 ? h("p", {}, say.letterNone) : [
      h("p", {}, say.letterIntro(ready.length, monthName(month))),
      h("ol", { class: "list" }, ready.map((one, k) => breachItem(one, { formalTimes: true, number: k + 1, entries }))),
      h("div", { class: "end" }, h("p", {}, `${say.letterAsk} ${day(now() + DAYS_TO_ANSWER * DAY)}.`), h("p", {}, say.letterInstruct),
        sourceLine(files, ofMonth, program),
        h("h3", {}, say.answer), Array.from({ length: ANSWER_LINES }, () => h("div", { class: "lines" })),
        h("div", { class: "signs" }, h("div", {}, say.forOffice, h("br"), say.signed), h("div", {}, say.forDriver, h("br"), say.signed)))]);
}

/** @type {(context: import("./office.js").Context) => Promise<import("./office.js").Content>} */
export async function page({ signal, args: [driver, month], again }) {
  const at = (/** @type {string} */ what) => ask(`/drivers/${driver}${what}`, signal);
  const [person] = readDrivers(await at("")), all = readWhy(await at(`/why/${month}`)), files = readFiles(await at("/files")),
    entries = readEntries(await at("/entries"));
  const program = readVersion(await ask("/version", signal)), [first, past] = rangeOf(month);
  const isWithin = (/** @type {import("/shared/read.js").Range} */ one) => one.start < past && first < one.past;
  const ready = all.filter((one) => !isUnfinished(one)), language = languageOf(driver);
  const choose = languageField(language, (one) => { localStorage.setItem(LANGUAGE + driver, one); again(); }, { id: "letter-language" });
  return [h("div", { class: "no-print" },
    head([`${say.letter}: `, written(person.name), `, ${monthName(month)}`],
      h("label", { for: "letter-language" }, say.letterLanguage), choose,
      tool(`/drivers/${driver}/${month}`, monthName(month)), button(say.print, () => print(), { class: "main" })),
    ready.length < all.length ? h("div", { class: "box warn", id: "left-out" }, h("p", {}, say.letterOpen(all.length - ready.length)))
      : null,
    h("p", { class: "note" }, `${say.from}: ${say.senderHelp}`)),
  await withLanguage(language, () => sheetOf({
    person, ready, month, language, program, files: files.filter(isWithin),
      entries, ofMonth: entries.filter((one) => one.state === "kept" && isWithin(one)),
  }))];
}
