// Card files, one after the other. The list outlives the page, so that an office can look at other pages meanwhile.
import { h, listed } from "/shared/page.js";
import { minuteOf, textOf } from "/shared/time.js";
import { both, monthName, say } from "/shared/say.js";
import { cardOf, readDrivers } from "/shared/read.js";
import { ask, atLogOut, button, confirmed, head, link, proposed, telling, thisMonth, unfinished } from "./office.js";
import { codeOf, command, holderOf, isUnsure } from "./commands.js";

const MOST = 262_144, NAME = /\.(ddd|c1b|tgd|esm)$/i, FAULTS_IN_A_ROW = 2;

/** What became of a file: a name of a sentence, the status and line of the reply, and whose card it is, if that could be read.
 * @typedef {{ what: string, status: number, line: string, whose: { holder: string, name: string } | null }} Outcome */
/** @typedef {{ file: File, part: string, outcome: Outcome, node: HTMLElement }} Item */

/** @type {Item[]} */
let items = [];
let others = 0, faults = 0;
let isSending = false, isStopped = false;
/** @type {import("/shared/read.js").Driver[]} */
let people = [];
const list = h("ul", { class: "list results", "aria-live": "polite" }), progress = h("div", { role: "status", class: "row" });
atLogOut.push(() => { items = []; people = []; others = 0; isStopped = true; draw(); });

const WAITING = { what: "waiting", status: 0, line: "", whose: null };

/** @type {(number: string) => string} the name of a driver */
const nameOf = (number) => people.find((one) => String(one.number) === number)?.name ?? number;

/** What a reply says of a file.
 * @type {(status: number, line: string, whose: Outcome["whose"]) => string} */
function whatOf(status, line, whose) {
  const code = codeOf(line);
  if (/^added driver \d+ number \d+$/.test(line)) return "added";
  if (/^repeated driver \d+$/.test(line)) return "repeated";
  if (code === "S4") return "unknownCard";
  if (code === "S6") return "contradicts";
  if (code === "C14") return "generations";
  if (code?.startsWith("C")) return whose === null ? "noCard" : "broken";
  return isUnsure(status) ? "unsure" : "refused";
}

/** @type {Record<string, string>} */
const KINDS = { added: "good", repeated: "same", noCard: "same", waiting: "", sending: "" };

/** The sentence of an item.
 * @type {(item: Item) => import("./office.js").Content} */
function sentenceOf({ file, outcome: { what, line, whose } }) {
  const [, driver, number] = /driver (\d+)(?: number (\d+))?$/.exec(line) ?? [];
  if (what === "added") return telling((name, who) => say.added(name, who, number), file.name, nameOf(driver));
  if (what === "repeated") return telling(say.repeated, file.name, nameOf(driver));
  if (what === "unknownCard" && whose) {
    return telling((name, who) => say.unknownCard(name, `${who}, ${cardOf(whose.holder)}`), file.name, whose.name);
  }
  if (what === "contradicts") return telling((name) => say.contradicts(name, both(minuteOf(line.slice(-16)))), file.name);
  return telling((name) => say[what](name, line), file.name);
}

/** What can be done about an item.
 * @type {(item: Item) => import("./office.js").Content} */
function actionsOf(item) {
  const { what, line, whose } = item.outcome, small = { class: "button small" };
  const sendAgain = button(say.sendAgain, () => retry(item, item.part), { class: "small" });
  if (what === "added") {
    const driver = /driver (\d+)/.exec(line)?.[1];
    return link(`/drivers/${driver}/${thisMonth()}`, monthName(thisMonth()), small);
  }
  if (what === "unknownCard") {
    const isKnown = whose && people.some((one) => one.holder === whose.holder);
    if (isKnown) return sendAgain;
    return whose ? link("/people", say.register, { ...small, onclick: () => { proposed.person = whose; } }) : null;
  }
  if (what === "contradicts") {
    const person = people.find((one) => one.holder === whose?.holder), day = textOf(minuteOf(line.slice(-16))).slice(0, 10);
    return [person ? [link(`/drivers/${person.number}/${day}`, say.look, small),
      link(`/drivers/${person.number}/entries`, say.entries, small)] : null, sendAgain];
  }
  if (what === "generations") return ["first", "second"].map((part) => button(say.tryPart[part], () => retry(item, part),
    { class: "small" }));
  return ["unsure", "refused"].includes(what) ? sendAgain : null;
}

/** @type {(item: Item) => void} shows what became of an item */
function drawItem(item) {
  const { what, line } = item.outcome;
  item.node.className = KINDS[what] ?? "bad";
  const isRaw = !(what in KINDS) && line !== "";
  item.node.replaceChildren(h("span", {}, sentenceOf(item), isRaw ? h("small", { class: "raw" }, ` ${line}`) : ""),
    ...listed([actionsOf(item)]));
}

/** @type {(what: string) => number} */
const countOf = (what) => items.filter((item) => item.outcome.what === what).length;

/** Shows all items, and how far the sending is.
 * @type {() => void} */
function draw() {
  items.forEach(drawItem);
  list.replaceChildren(...items.map((item) => item.node), ...(others ? [h("li", { class: "same" }, h("span", {}, say.noCards(others)))]
    : []));
  drawProgress();
}

/** @type {() => void} */
function drawProgress() {
  const waiting = countOf("waiting") + countOf("sending");
  unfinished.delete("files");
  if (waiting) unfinished.add("files");
  if (items.length === 0) { progress.replaceChildren(); return; }
  const sent = say.sent(items.length - waiting, items.length), counted = say.counted(countOf("added"), countOf("repeated"),
    items.length - waiting - countOf("added") - countOf("repeated"));
  progress.replaceChildren(h("span", {}, `${sent}: ${counted}`), ...(waiting === 0 ? [] : isSending
    ? [button(say.stop, () => { isStopped = true; }, { class: "small" })]
    : [h("span", { class: "warn-text" }, say.stoppedFiles(waiting)), button(say.goOn, () => sendAll(), { class: "small main" })]));
}

/** Sends one file.
 * @type {(item: Item) => Promise<void>} */
async function sendOne(item) {
  item.outcome = { ...WAITING, what: "sending" };
  drawItem(item);
  drawProgress();
  if (item.file.size > MOST) { item.outcome = { ...WAITING, what: "tooLarge" }; return; }
  try {
    const whose = holderOf(await item.file.arrayBuffer());
    const { status, line } = await command(`/cards/${item.part}`, item.file);
    item.outcome = { what: whatOf(status, line, whose), status, line, whose };
  } catch {
    item.outcome = { ...WAITING, what: "unsure" };
  }
  faults = item.outcome.what === "unsure" ? faults + 1 : 0;
}

/** Sends all files that wait, one after the other. It stops by itself where several in a row aren't answered.
 * @type {() => Promise<void>} */
async function sendAll() {
  if (isSending) return;
  [isSending, isStopped, faults] = [true, false, 0];
  for (let item = nextItem(); item && !isStopped && faults < FAULTS_IN_A_ROW; item = nextItem()) {
    await sendOne(item);
    drawItem(item);
  }
  isSending = false;
  drawProgress();
}
const nextItem = () => items.find((item) => item.outcome.what === "waiting");

/** @type {(item: Item, part: string) => void} sends a file again */
function retry(item, part) {
  Object.assign(item, { part, outcome: WAITING });
  drawItem(item);
  sendAll();
}

/** @type {(files: File[]) => void} */
function take(files) {
  for (const file of files) items.push({ file, part: "both", outcome: WAITING, node: h("li") });
  draw();
  sendAll();
}

// Folders

/** @type {(entry: FileSystemFileEntry) => Promise<File>} */
const fileOf = (entry) => new Promise((resolve, reject) => entry.file(resolve, reject));
/** @type {(reader: FileSystemDirectoryReader) => Promise<FileSystemEntry[]>} some entries of a folder; none after the last */
const someOf = (reader) => new Promise((resolve, reject) => reader.readEntries(resolve, reject));

/** All files of a folder, and of those below it.
 * @type {(entry: any) => Promise<File[]>} */
async function filesOf(entry) {
  if (entry.isFile) return [await fileOf(entry)];
  const reader = entry.createReader(), found = [];
  for (let some = await someOf(reader); some.length > 0; some = await someOf(reader)) {
    for (const one of some) found.push(...await filesOf(one));
  }
  return found;
}

/** Takes what was dropped. Within a folder only names of card files count; the others are one line.
 * @type {(dropped: DataTransfer) => Promise<void>} */
async function takeDropped(dropped) {
  const entries = [...dropped.items].flatMap((item) => item.webkitGetAsEntry() ?? []);
  const single = entries.filter((entry) => entry.isFile), folders = entries.filter((entry) => entry.isDirectory);
  const files = [...dropped.files].filter((file) => single.some((entry) => entry.name === file.name));
  for (const folder of folders) {
    const found = await filesOf(folder);
    files.push(...found.filter((file) => NAME.test(file.name)));
    others += found.filter((file) => !NAME.test(file.name)).length;
  }
  take(files.sort((a, b) => (a.name < b.name ? -1 : a.name > b.name ? 1 : 0)));
}

/** @type {() => HTMLElement} where files are dropped or chosen */
function dropPlace() {
  const input = h("input", { type: "file", multiple: true, id: "files", class: "hush", tabindex: "-1", "aria-label": say.choose });
  input.addEventListener("change", () => { take([...input.files]); input.value = ""; });
  const drop = h("div", {
    class: "drop", ondragover: (event) => { event.preventDefault(); drop.classList.add("over"); },
    ondragleave: () => drop.classList.remove("over"),
    ondrop: (event) => { event.preventDefault(); drop.classList.remove("over"); takeDropped(event.dataTransfer); },
  }, h("p", {}, say.drop), button(say.choose, () => input.click(), { class: "main" }), input, h("p", { class: "note" }, say.cardsHelp));
  return drop;
}

/** Empties the list, after a question where files wait.
 * @type {() => Promise<void>} */
async function clear() {
  if (unfinished.has("files") && !await confirmed(say.leaveUnfinished, say.clearList)) return;
  items = isSending ? items.filter((item) => item.outcome.what === "sending") : [];
  others = 0;
  draw();
}

/** @type {(context: import("./office.js").Context) => Promise<import("./office.js").Content>} */
export async function page({ signal }) {
  people = readDrivers(await ask("/drivers", signal));
  draw();
  return [head(say.cards, items.length ? button(say.clearList, clear) : null), dropPlace(), progress, list];
}
