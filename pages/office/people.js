// The drivers: one or many are added, and a key, base or name is changed. A key is made here, at random, and shown once.
import { $, h, isAbort, key, written } from "/shared/page.js";
import { DAY, dateOf, minuteOf, now, weekdayOf } from "/shared/time.js";
import { say, utcDay } from "/shared/say.js";
import { cardOf, readDrivers } from "/shared/read.js";
import { ask, atLogOut, button, confirmed, head, link, listTable, notice, proposed, telling } from "./office.js";
import { command, field, holderOf, isUnsure, refusal } from "./commands.js";

const LETTERS = "abcdefghijkmnopqrstuvwxyzABCDEFGHJKLMNPQRSTUVWXYZ23456789", KEY_LENGTH = 32, BYTES = 256;
const PLACE = "tacho.driverspage", FIRST_DAY = "2000-01-03", DAYS_BEFORE = 56;

/** @typedef {{ name: string, key: string }} Slip */
/** @typedef {{ driver: string, holder: string, key: string, base: string, name: string }} Registration */

/** @type {(keyof Registration)[]} */
const HEAD = ["driver", "holder", "key", "base", "name"];

/** The slips that wait to be printed: a page that is shown anew keeps them, a log-out drops them.
 * @type {Slip[]} */
let slips = [];
atLogOut.push(() => { slips = []; });

/** A new key. Bytes that would make some letters likelier than others are thrown away.
 * @type {() => string} */
function newKey() {
  let made = "";
  while (made.length < KEY_LENGTH) {
    const [byte] = crypto.getRandomValues(new Uint8Array(1));
    if (byte < BYTES - (BYTES % LETTERS.length)) made += LETTERS[byte % LETTERS.length];
  }
  return made;
}

// Slips

/** @type {(slip: Slip) => HTMLElement} */
const slipOf = (slip) => h("article", { class: "sheet slip" }, h("h2", {}, say.slipHead), h("p", {}, written(slip.name)),
  h("p", {}, say.slipText, " ", h("b", { class: "where" }, localStorage.getItem(PLACE) || "………………………………")),
  h("p", { class: "key" }, h("code", {}, slip.key.replace(/(.{4})(?=.)/g, "$1 "))), h("p", { class: "note" }, say.slipCare));

/** The slips with their tools; the address of the drivers' page is typed once, and printed on each.
 * @type {(again: (notice?: Node) => void) => import("./office.js").Content} */
function slipsPart(again) {
  if (slips.length === 0) return null;
  const where = h("input", { id: "where", value: localStorage.getItem(PLACE) ?? "", placeholder: "https://…/driver/", oninput: () => {
    localStorage.setItem(PLACE, where.value);
    document.querySelectorAll(".where").forEach((one) => { one.textContent = where.value || "………………………………"; });
  } });
  const done = async () => { if (await confirmed(say.slipsDoneAsk, say.slipsDone)) { slips = []; again(); } };
  return h("section", { class: "slips", "aria-label": say.keySlip },
    h("div", { class: "box warn no-print" }, h("p", {}, h("b", {}, say.keyOnce)),
      h("div", { class: "row end" }, h("div", { class: "field" }, h("label", { for: "where" }, say.slipWhere), where),
        button(say.print, () => print(), { class: "main" }), button(say.slipsDone, done))),
    slips.map(slipOf));
}

// Commands

/** Registers a driver. Returns the status and line of the reply; where the key is the office's, the page refuses it itself.
 * @type {(one: Registration) => Promise<{ status: number, line: string }>} */
async function register(one) {
  if (one.key === key()) return { status: 409, line: "S2 key taken" };
  const cell = (/** @type {string} */ text) => (/[",\r\n]/.test(text) ? `"${text.replaceAll('"', '""')}"` : text);
  const row = HEAD.map((name) => cell(one[name])).join(",");
  const told = await command("/drivers", `${HEAD.join(",")}\n${row}\n`);
  if (told.status === 201) slips.push({ name: one.name, key: one.key });
  return told;
}

let isActing = false;

/** Does something, once, and shows the page anew with what became of it.
 * @type {(work: () => Promise<{ status: number, line: string }>, expected: string, said: () => import("./office.js").Content,
 *  again: (notice?: Node) => void) => Promise<void>} */
async function act(work, expected, said, again) {
  if (isActing) return;
  isActing = true;
  try {
    const { status, line } = await work();
    if (line === expected) again(notice("good", said()));
    else again(isUnsure(status) ? notice("warn", say.unsureDone) : notice("bad", refusal(status, line)));
  } catch (fault) {
    if (!isAbort(fault)) again(notice("warn", say.unsureDone));
  } finally {
    isActing = false;
  }
}

/** Gives a driver a new key, after a question.
 * @type {(person: any, again: (notice?: Node) => void) => Promise<void>} */
async function changeKey(person, again) {
  if (!await confirmed(telling(say.newKeyAsk, person.name), say.newKey)) return;
  const made = newKey();
  await act(async () => {
    const told = await command(`/drivers/${person.number}/key`, `${made}\n`);
    if (told.line === `key ${person.number}` || isUnsure(told.status)) slips.push({ name: person.name, key: made });
    return told;
  }, `key ${person.number}`, () => telling(say.newKeyDone, person.name), again);
}

/** The form that changes a driver's name and base.
 * @type {(person: any, again: (notice?: Node) => void) => HTMLElement} */
function changeForms(person, again) {
  const name = h("input", { "aria-label": `${say.fullName}: ${person.name}`, value: person.name, required: true });
  const base = h("input", { type: "date", "aria-label": `${say.base}: ${person.name}`, min: FIRST_DAY, step: 7, value: person.base,
    required: true });
  const number = person.number;
  return h("details", { class: "change no-print" }, h("summary", { "aria-label": `${say.setBase}: ${person.name}` }, say.setBase),
    h("form", { class: "row", onsubmit: (event) => {
      event.preventDefault();
      act(() => command(`/drivers/${number}/name`, `${name.value.trim()}\n`), `name ${number}`,
        () => telling(say.nameDone, name.value.trim()), again);
    } }, name, h("button", { class: "small" }, say.setName)),
    h("form", { class: "row", onsubmit: (event) => {
      event.preventDefault();
      act(() => command(`/drivers/${number}/base/${base.value}`), `base ${base.value}`,
        () => telling((who) => say.baseDone(who, utcDay(minuteOf(base.value))), person.name), again);
    } }, base, h("button", { class: "small" }, say.setBaseTo)));
}

// One driver

/** The Monday eight weeks ago.
 * @type {() => string} */
const usualBase = () => dateOf(now() - ((weekdayOf(now()) + 6) % 7) * DAY - DAYS_BEFORE * DAY);

/** @type {(people: any[], again: (notice?: Node) => void) => HTMLElement} the form for one driver */
function addForm(people, again) {
  const at = (/** @type {string} */ id) => $(id).value.trim(), person = proposed.person;
  const submit = (/** @type {Event} */ event) => {
    event.preventDefault();
    const one = { driver: at("f-number"), holder: at("f-holder"), key: newKey(), base: at("f-base"), name: at("f-name") };
    act(async () => {
      const told = await register(one);
      if (told.status === 201) proposed.person = null;
      return told;
    }, `registered ${one.driver}`, () => telling((who) => say.addedDriver(who, one.driver), one.name), again);
  };
  const fromFile = async (/** @type {File} */ file) => {
    const whose = holderOf(await file.arrayBuffer());
    $("f-file-told").textContent = whose ? "" : say.noCard(file.name);
    if (whose) { $("f-name").value = whose.name; $("f-holder").value = whose.holder; }
  };
  return h("form", { class: "row end", id: "add", onsubmit: submit },
    h("div", { class: "field" }, h("label", { for: "f-file" }, say.fromFile),
      h("input", { id: "f-file", type: "file", onchange: (event) => fromFile(event.target.files[0]) }),
      h("span", { id: "f-file-told", class: "warn-text", role: "status" })),
    field("f-number", say.number, { type: "number", min: 1, max: 999999, value: Math.max(0, ...people.map((one) => one.number)) + 1 }),
    field("f-name", say.fullName, { value: person?.name ?? "" }),
    field("f-holder", say.card, { pattern: "[0-9a-f]{30}", size: 32, title: say.cardForm, value: person?.holder ?? "" }),
    field("f-base", say.base, { type: "date", step: 7, min: FIRST_DAY, value: usualBase() }),
      h("button", { class: "main" }, say.addDriver));
}

// Many drivers

/** The records of CSV as an office writes it (docs/FORMATS.md, 'CSV'); a semicolon may stand between fields.
 * @type {(text: string) => string[][]} */
function readRecords(text) {
  /** @type {string[][]} */
  const records = [];
  /** @type {string[]} */
  let fields = [];
  let at = text.startsWith("\ufeff") ? 1 : 0;
  const between = /^[^\r\n,]*;/.test(text.slice(at)) ? ";" : ",";
  const end = () => { if (fields.length > 1 || fields[0] !== "") records.push(fields); fields = []; };
  while (at < text.length) {
    const quoted = text[at] === '"' ? /^"((?:[^"]|"")*)(?:"|$)/.exec(text.slice(at)) : null;
    at += quoted ? quoted[0].length : 0;
    const rest = (new RegExp(`^[^\r\n${between}]*`).exec(text.slice(at)) ?? [""])[0];
    at += rest.length;
    fields.push((quoted ? quoted[1].replaceAll('""', '"') : "") + rest);
    if (text[at] === between) { at += 1; if (at === text.length) fields.push(""); continue; }
    at += text.startsWith("\r\n", at) ? 2 : 1;
    end();
  }
  if (fields.length) end();
  return records;
}

/** The registrations of a CSV file: the columns that `register` takes; without the column `key` each gets a new one.
 * @type {(text: string) => Registration[] | null} */
function registrationsOf(text) {
  const [columns, ...rows] = readRecords(text);
  const isHead = (/** @type {string[]} */ names) => [...names].sort().join() === [...HEAD].sort().join();
  if (!columns || !(isHead(columns) || isHead([...columns, "key"]))) return null;
  return rows.map((row) => {
    const cells = Object.fromEntries(HEAD.map((name) => [name, row[columns.indexOf(name)] ?? ""]));
    return /** @type {Registration} */ ({ ...cells, key: cells.key || newKey() });
  });
}

/** Registers many drivers, one after the other, with a line for each.
 * @type {(file: File, list: HTMLElement, again: (notice?: Node) => void) => Promise<void>} */
async function addMany(file, list, again) {
  const all = registrationsOf(await file.text());
  if (all === null) { list.replaceChildren(h("li", { class: "bad" }, h("span", {}, say.csvHead(HEAD.join(","))))); return; }
  let added = 0;
  const waiting = (/** @type {Registration} */ one) =>
    h("li", {}, h("span", {}, telling((who) => say.waiting(`${one.driver} ${who}`), one.name)));
  const items = all.map((one) => list.appendChild(waiting(one)));
  for (const [k, one] of all.entries()) {
    const { status, line } = await register(one).catch(() => ({ status: 0, line: "" }));
    const isAdded = status === 201;
    added += isAdded ? 1 : 0;
    items[k].className = isAdded ? "good" : "bad";
    items[k].replaceChildren(h("span", {}, `${one.driver} `, written(one.name), ": ",
      isAdded ? say.isAdded : isUnsure(status) ? say.unsureDone : refusal(status, line)));
  }
  manyResults = [...items];
  again(notice(added === all.length ? "good" : "warn", say.addedMany(added, all.length)));
}
/** @type {HTMLElement[]} what became of each driver of the last file */
let manyResults = [];
atLogOut.push(() => { manyResults = []; });

/** @type {(again: (notice?: Node) => void) => HTMLElement} */
function manyForm(again) {
  const list = h("ul", { class: "list results", id: "many-results", "aria-live": "polite" }, manyResults);
  const take = () => { manyResults = []; list.replaceChildren(); addMany(input.files[0], list, again); };
  const input = h("input", { id: "many", type: "file", accept: ".csv,text/csv", onchange: take });
  return h("div", {}, h("p", {}, say.manyHelp, " ", h("code", {}, "driver,holder,base,name")),
    h("div", { class: "field" }, h("label", { for: "many" }, say.manyFile), input), list);
}

/** @type {(again: (notice?: Node) => void) => import("./office.js").Column[]} */
const columnsOf = (again) => [
  { head: say.colDriver, cell: (one) => [written(one.name), h("small", {}, ` ${one.number}`)] },
    { head: say.card, cell: (one) => cardOf(one.holder) },
  { head: say.base, kind: "when", cell: (one) => utcDay(minuteOf(one.base)) }, { head: say.cards, kind: "num", cell: (one) => one.files },
  { head: say.newKey, cell: (one) => button(say.newKey, () => changeKey(one, again),
    { class: "small no-print", "aria-label": `${say.newKey}: ${one.name}` }) },
  { head: say.setBase, cell: (one) => changeForms(one, again) },
];

/** @type {(context: import("./office.js").Context) => Promise<import("./office.js").Content>} */
export async function page({ signal, again }) {
  const people = readDrivers(await ask("/drivers", signal));
  const isOpen = proposed.person !== null || people.length === 0;
  return [head(say.people), slipsPart(again),
    slips.length && !proposed.person ? h("p", { class: "no-print" }, link("/files", say.toCards)) : null,
    h("details", { class: "no-print panel", open: isOpen }, h("summary", {}, say.addDriver), addForm(people, again),
      h("p", { class: "note" }, `${say.base}: ${say.baseHelp}`)),
    h("details", { class: "no-print panel", open: manyResults.length > 0 }, h("summary", {}, say.addMany), manyForm(again)),
    people.length ? h("div", { class: "no-print" }, listTable(columnsOf(again), people)) : null];
}
