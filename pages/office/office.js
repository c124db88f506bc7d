// The frame of the office's pages: the key, the address after #, which names the page, and what several pages use. Each page is a module
// that is loaded when it is first opened.
import { $, KEY_FORM, MODULE, Problem, forget, h, isAbort, keep, key, listed, moduleAt, reading, written } from "/shared/page.js";
import { localText, minutesOfLocal, monthOf, now, offsetText, textOf, zone } from "/shared/time.js";
import { readVersion } from "/shared/read.js";
import { LANGUAGES, languageNow, ready, say, speak } from "/shared/say.js";

/** @typedef {import("/shared/page.js").Child} Content */
/** @typedef {{ signal: AbortSignal, args: string[], again: (notice?: Node) => void }} Context what a page gets: a signal that ends its
 *  requests, the parts of its address, and how to show it anew */
/** @typedef {{ head: string, cell: (row: any) => Content, kind?: string, kindOf?: (row: any) => string }} Column a column of a list */

const IDLE = 30 * 60_000;

// What pages leave to others. A log-out clears it.

/** @type {{ person: { holder: string, name: string } | null }} whose card is to be registered */
export const proposed = { person: null };
/** @type {(() => void)[]} what else a log-out clears */
export const atLogOut = [() => { proposed.person = null; }];
/** @type {Set<string>} what would be lost if the page were left */
export const unfinished = new Set();

// Elements that several pages use

/** @type {(to: string, text: Content, attributes?: Record<string, unknown>) => HTMLElement} a link to a page */
export const link = (to, text, attributes = {}) => h("a", { href: `#${to}`, ...attributes }, text);
/** @type {(to: string, text: Content, label?: string) => HTMLElement} a link that looks like a button */
export const tool = (to, text, label) => link(to, text, { class: "button", "aria-label": label, title: label });
/** @type {(title: Content, ...tools: Content[]) => HTMLElement} the head of a page */
export const head = (title, ...tools) =>
  h("div", { class: "head" }, h("h1", { tabindex: "-1", id: "title" }, title), h("div", { class: "row no-print" }, tools));
/** @type {(text: string, act: () => void, attributes?: Record<string, unknown>) => HTMLButtonElement} a button */
export const button = (text, act, attributes = {}) => h("button", { type: "button", onclick: act, ...attributes }, text);
/** @type {() => HTMLButtonElement} the button that prints the page */
export const printButton = () => button(say.print, () => print());
/** @type {(language: string, change: (other: string) => void, attributes: Record<string, string>) => HTMLElement} the field of a language
 *  */
export const languageField = (language, change, attributes) => h("select",
  { onchange: (event) => change(event.target.value), ...attributes },
  LANGUAGES.map(([one, text]) => h("option", { value: one, selected: one === language }, text)));
/** @type {() => string} this month, in UTC */
export const thisMonth = () => monthOf(now());
/** @type {(kind: string, ...children: Content[]) => HTMLElement} a box that says what became of something */
export const notice = (kind, ...children) =>
  h("div", { class: `box ${kind}`, role: kind === "bad" ? "alert" : "status", tabindex: "-1" }, h("p", {}, children));
/** @type {() => HTMLElement} the line about local time */
export const zoneLine = () => h("p", { class: "note" }, say.zoneNote(zone(), offsetText(now())));

/** A sentence with texts that somebody wrote, each in its element. The sentence gets a sign of no script in place of each text, so that no
 *  text is taken for another.
 * @type {(sentence: (...texts: string[]) => string, ...texts: string[]) => Content} */
export function telling(sentence, ...texts) {
  const signs = texts.map((_, k) => String.fromCharCode(0xe000 + k));
  return sentence(...signs).split(/([\ue000-\uf8ff])/).map((part, k) => (k % 2 ? written(texts[signs.indexOf(part)]) : part));
}

/** A row of a list.
 * @type {(columns: Column[], row: any) => HTMLElement} */
export const listRow = (columns, row) => h("tr", { role: "row" }, columns.map((column, k) => {
  const kind = `${column.kind ?? ""} ${column.kindOf?.(row) ?? ""}`.trim();
  if (k === 0) return h("th", { scope: "row", role: "rowheader", class: kind || null }, column.cell(row));
  return h("td", { role: "cell", "data-head": column.head, class: kind || null }, column.cell(row));
}));

/** A list as a table; on a phone its rows become cards. Its roles are named, since a table that isn't laid out as one loses them.
 * @type {(columns: Column[], rows: any[], body?: HTMLElement, foot?: any) => HTMLElement} */
export function listTable(columns, rows, body = h("tbody", { role: "rowgroup" }), foot = null) {
  body.replaceChildren(...rows.map((row) => listRow(columns, row)));
  const heads = columns.map(({ head: text, kind = "" }) =>
    h("th", { scope: "col", role: "columnheader", class: /\bnum\b/.test(kind) ? "num" : null }, text));
  return h("table", { class: "cards", role: "table" }, h("thead", { role: "rowgroup" }, h("tr", { role: "row" }, heads)), body,
    foot && h("tfoot", { role: "rowgroup" }, listRow(columns, foot)));
}

/** Asks a question in a dialog. Resolves to whether the action was chosen.
 * @type {(question: Content, action: string, other?: string) => Promise<boolean>} */
export const confirmed = (question, action, other = say.keepIt) => new Promise((resolve) => {
  const dialog = h("dialog", { "aria-labelledby": "question", onclose: () => { dialog.remove(); resolve(dialog.returnValue === "yes"); } },
    h("p", { id: "question" }, question),
    h("div", { class: "row" }, button(action, () => dialog.close("yes"), { class: "main" }), button(other, () => dialog.close(""))));
  document.body.append(dialog);
  dialog.showModal();
});

/** A field for a local time. In the hour that autumn repeats it asks which of the two is meant; in the hour that spring leaves out it says
 *  so, and has no minute.
 * @type {(id: string, label: string, start: number | null) =>
 *  { node: HTMLElement, input: HTMLInputElement, minute: () => number | null }} */
export function momentField(id, label, start) {
  const value = start === null ? "" : localText(start).replace(" ", "T");
  const input = h("input", { type: "datetime-local", id, value, required: true, "aria-describedby": `${id}-which` });
  const which = h("div", { id: `${id}-which`, class: "which", "aria-live": "polite" });
  /** @type {number[]} */
  let minutes = start === null ? [] : [start];
  let chosen = 0;
  const ask = () => {
    minutes = input.value ? minutesOfLocal(input.value) : [];
    chosen = 0;
    input.setCustomValidity(input.value && minutes.length === 0 ? say.noSuchTime : "");
    which.replaceChildren(...(input.value && minutes.length === 0 ? [h("span", { class: "warn-text" }, say.noSuchTime)] : []),
      ...(minutes.length === 2 ? [h("span", {}, say.whichTime(input.value.slice(11))), ...minutes.map((minute, k) => h("label", {},
        h("input", { type: "radio", name: `${id}-time`, value: String(k), checked: k === 0, onchange: () => { chosen = k; } }),
        ` ${say.nthTime(k)} (${textOf(minute).slice(11)} UTC)`))] : []));
  };
  input.addEventListener("input", ask);
  if (start !== null && minutesOfLocal(value).length === 2) {
    ask();
    chosen = minutes.indexOf(start);
    which.querySelectorAll("input")[chosen].checked = true;
  }
  const node = h("div", { class: "field" }, h("label", { for: id }, label), input, which);
  return { node, input, minute: () => minutes[chosen] ?? null };
}

// Requests

/** @type {Promise<unknown>} */
let queue = Promise.resolve();

/** Says that there were too many requests, and that the page asks again. What takes long says no more beside it.
 * @type {(seconds: number) => void} */
export const tellWait = (seconds) => { timers.forEach(clearTimeout); tellBusy(say.askAgain(seconds), true); };

/** A reading, once the readings before it have ended: the archive answers one after the other, and a wrong key is sent once.
 * @type {(path: string, signal: AbortSignal) => Promise<string>} */
export function ask(path, signal) {
  const mine = queue.then(() => reading(path, { signal, wait: tellWait }));
  queue = mine.then(() => undefined, () => undefined);
  return busy(mine);
}

/** @type {(fault: any) => string} the sentence of a fault of a reading */
function sentenceOf(fault) {
  if (!(fault instanceof Problem)) return `${say.pageFault} (${fault})`;
  const said = say[fault.name];
  return typeof said === "function" ? said(...fault.values) : said;
}

// What takes long says so, after half a second, and again after five.

let working = 0;
/** @type {number[]} */
let timers = [];

/** @type {(text: string, canStop?: boolean) => void} */
export function tellBusy(text, canStop = false) {
  const stop = canStop ? button(say.cancel, () => current.abort(), { class: "small" }) : null;
  $("busy").replaceChildren(...(text ? [h("span", {}, text), ...(stop ? [stop] : [])] : []));
}

/** Waits for something, and says so where it takes long.
 * @type {(work: Promise<any>) => Promise<any>} */
export async function busy(work) {
  working += 1;
  if (working === 1) timers = [setTimeout(() => tellBusy(say.busy), 500), setTimeout(() => tellBusy(say.busyLong, true), 5000)];
  try {
    return await work;
  } finally {
    working -= 1;
    if (working === 0) { timers.forEach(clearTimeout); tellBusy(""); }
  }
}

// Pages

const MONTH = "(\\d{4}-(?:0[1-9]|1[0-2]))", DRIVER = "/drivers/([1-9]\\d{0,5})";
/** @type {(text: string) => RegExp} */
const form = (text) => new RegExp(`^${text}$`);
/** @type {[RegExp, string][]} the form of an address, and the module of its page */
const PAGES = [
  [/^\/?$/, "start"], [/^\/files$/, "files"], [/^\/left$/, "left"], [form(`/month/${MONTH}`), "overview"], [/^\/people$/, "people"],
  [/^\/inspection$/, "inspection"], [form(`${DRIVER}/${MONTH}(?:-(\\d\\d))?`), "month"], [form(`${DRIVER}/${MONTH}/letter`), "letter"],
  [form(`${DRIVER}/left`), "left"], [form(`${DRIVER}/gaps`), "gaps"], [form(`${DRIVER}/entries`), "entries"],
];
let current = new AbortController();
/** @type {string | null} the program's version, once it is known */
let version = null;

/** @type {() => string} the address of the page */
const address = () => location.hash.slice(1) || "/";

/** @type {(to: string) => void} shows what is around a page */
function showFrame(to) {
  document.documentElement.lang = languageNow();
  $("skip").textContent = say.skip;
  $("nav").setAttribute("aria-label", say.nav);
  showFoot();
  const isIn = key() !== null;
  const places = [["/", say.start], ["/files", say.cards], ["/left", say.left], [`/month/${thisMonth()}`, say.wholeMonth],
    ["/people", say.people], ["/inspection", say.inspection]];
  const isAt = (/** @type {string} */ where) => (where === "/" ? to === "/" : to.startsWith(where.startsWith("/month") ? "/month" : where));
  $("nav").replaceChildren(...(isIn ? places.map(([where, text]) => link(where, text, { "aria-current": isAt(where) ? "page" : null }))
    : []));
  const change = async (/** @type {string} */ language) => {
    if (!await mayLeave()) { showFrame(to); return; }
    busy(speak(language)).then(() => render(), (fault) => render(notice("bad", sentenceOf(fault))));
  };
  const select = languageField(languageNow(), change, { id: "language", class: "small", "aria-label": say.language });
  $("tools").replaceChildren(select, ...(isIn ? [button(say.logOut, leave, { class: "small", id: "log-out" })] : []));
}

/** @type {() => void} */
function showFoot() {
  $("foot").textContent = version === null ? say.foot : `${say.foot} · ${version}`;
}

/** Asks for the program's version. If it is another one than before, the page's modules may be of both, and the page has to be loaded anew.
 * @type {(signal: AbortSignal) => Promise<void>} */
async function compareVersion(signal) {
  const program = readVersion(await ask("/version", signal));
  if (version !== null && program !== version) {
    $("content").prepend(notice("warn", say.otherVersion, " ", button(say.again, () => location.reload())));
  }
  version ??= program;
  showFoot();
}

/** @type {Set<string>} the modules that were loaded */
const loaded = new Set();

/** The content of the page at an address.
 * @type {(to: string, signal: AbortSignal, again: (notice?: Node) => void) => Promise<Content>} */
async function contentOf(to, signal, again) {
  const found = PAGES.find(([one]) => one.test(to));
  if (!found) return [head(say.noPage), h("p", {}, link("/", say.start))];
  const module = await moduleAt(`/office/${found[1]}.js`);
  return module.page({ signal, args: found[0].exec(to)?.slice(1), again });
}

/** The address of what is shown, or is about to be. */
let place = "";

/** Whether the page may be left: where hours are filled in and not saved it asks, once at a time.
 * @type {() => Promise<boolean>} */
const mayLeave = async () => !unfinished.has("gaps")
  || ($("question") === null && await confirmed(say.leaveGaps, say.leaveUnsaved, say.stay));

/** Shows the page of another address, if this one may be left. Until that is answered, the address is that of what is shown.
 * @type {() => Promise<void>} */
async function follow() {
  if (!unfinished.has("gaps")) { render(); return; }
  history.pushState(null, "", `#${place}`);
  if (!await mayLeave()) return;
  unfinished.delete("gaps");
  history.back();
}

/** Shows the page of the address. Its content stays until the next one is there.
 * @type {(notice?: Node | null) => Promise<void>} */
async function render(told = null) {
  current.abort();
  unfinished.delete("gaps");
  const mine = new AbortController(), to = address();
  [current, place] = [mine, to];
  showFrame(to);
  if (key() === null) { showSignIn(told); return; }
  let made;
  try {
    made = await busy(contentOf(to, mine.signal, render));
  } catch (fault) {
    if (isAbort(fault) && mine !== current) return;
    if (fault instanceof Problem && fault.name === "badKey") { dropKey(); return; }
    const sentence = isAbort(fault) ? say.stopped : sentenceOf(fault);
    made = [h("h1", { id: "title", class: "hush", tabindex: "-1" }, say.office), notice("bad", sentence),
      button(say.retry, () => again(fault))];
  }
  if (mine !== current) return;
  show(made, told);
  await afterShown(to, mine.signal);
}

/** @type {(fault: any) => unknown} repeats a page; where a module couldn't be loaded, some browsers do so only when all is loaded anew */
const again = (fault) => (fault.values?.includes(MODULE) ? location.reload() : render());

/** @type {(made: Content, told: Node | null) => void} */
function show(made, told) {
  $("content").replaceChildren(...listed([made]));
  const title = $("title");
  document.title = `${title?.textContent ?? say.office} · tacho`;
  if (told) (title?.closest(".head") ?? title).after(told);
  (told ?? title)?.focus({ preventScroll: true });
  if (!document.querySelector(".seek")) scrollTo(0, 0);
  document.querySelector(".seek")?.scrollIntoView({ block: "center" });
}

/** @type {(to: string, signal: AbortSignal) => Promise<void>} */
async function afterShown(to, signal) {
  const name = PAGES.find(([one]) => one.test(to))?.[1] ?? "";
  if (key() === null || loaded.has(name)) return;
  loaded.add(name);
  try { await compareVersion(signal); } catch { loaded.delete(name); } // the page says by itself if the service can't be reached
}

// The key

/** @type {(told: Node | null) => void} */
function showSignIn(told) {
  const input = h("input", { type: "password", id: "key", autocomplete: "off", required: true, "aria-describedby": "key-help" });
  const message = h("div", { role: "alert" }, told);
  const submit = (/** @type {Event} */ event) => {
    event.preventDefault();
    const value = input.value.replace(/\s/g, "");
    if (!KEY_FORM.test(value)) { message.replaceChildren(notice("bad", say.badKey)); return; }
    keep(value);
    active = Date.now();
    render();
  };
  $("content").replaceChildren(h("h1", { id: "title" }, say.office), h("form", { onsubmit: submit },
    h("div", { class: "field" }, h("label", { for: "key" }, say.keyLabel),
      h("div", { class: "row" }, input, h("button", { class: "main" }, say.signIn))),
    h("p", { id: "key-help", class: "note" }, say.keyHelp)), message);
  document.title = say.office;
  input.focus();
}

/** Ends all requests, and drops the key and all that is known by it.
 * @type {(told: Node) => void} */
function logOut(told) {
  forget();
  current.abort();
  $("content").replaceChildren();
  document.querySelectorAll("dialog").forEach((one) => one.remove());
  document.title = "";
  atLogOut.forEach((clear) => clear());
  unfinished.clear();
  loaded.clear();
  render(told);
}
/** @type {() => void} */
export const dropKey = () => logOut(notice("bad", say.badKey));

/** @type {() => Promise<void>} */
async function leave() {
  if (unfinished.size > 0 && !await confirmed(say.leaveUnfinished, say.logOut)) return;
  logOut(notice("good", say.loggedOut));
}

let active = Date.now();
const stay = () => { active = Date.now(); };
/** @type {() => void} logs out after half an hour without a key press or a click */
const leaveIfIdle = () => { if (key() !== null && Date.now() - active >= IDLE) logOut(notice("warn", say.idle)); };

addEventListener("keydown", stay, true);
addEventListener("pointerdown", stay, true);
setInterval(leaveIfIdle, 5000);
document.addEventListener("visibilitychange", leaveIfIdle);
// The browser may keep the page while another is shown, whose log-out this one knows nothing of.
addEventListener("pageshow", (event) => { if (event.persisted) logOut(notice("good", say.loggedOut)); });
addEventListener("beforeunload", (event) => { if (unfinished.size > 0) event.preventDefault(); });
$("skip").addEventListener("click", (/** @type {Event} */ event) => { event.preventDefault(); $("content").focus(); });
ready.then(() => {
  addEventListener("hashchange", follow);
  render();
});
