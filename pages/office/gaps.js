// The gaps as a form, in local time. It sends UTC.
import { h, isAbort, written } from "/shared/page.js";
import { DAY, dateOf, localText, minuteOf, minutesOfLocal, textOf } from "/shared/time.js";
import { length, localMoment, monthName, say } from "/shared/say.js";
import { readDrivers, readEntries, readForm } from "/shared/read.js";
import { ask, busy, button, head, momentField, notice, thisMonth, tool, unfinished } from "./office.js";
import { command, isUnsure, refusal } from "./commands.js";

const AUTHOR = "tacho.author", AUTHOR_BYTES = 64, NOTE_BYTES = 200, FEW = 60;

/** A piece of a gap: what it is said to be (empty: left open), and by which paper.
 * @typedef {{ start: number, past: number, activity: string, note: string }} Piece */

/** Says at a field whether the archive would take its text: at most some bytes, without commas, double quotes and control characters.
 * @type {(input: HTMLInputElement, most: number) => void} */
function judge(input, most) {
  const text = input.value.trim();
  const isLong = new TextEncoder().encode(text).length > most;
  input.setCustomValidity(isLong ? say.textTooLong(most) : /[\u0000-\u001f\u007f,"]/.test(text) ? say.textSigns : "");
}

/** A moment of a gap, and which of two it is in the hour that comes twice.
 * @type {(minute: number) => string} */
function momentText(minute) {
  const all = minutesOfLocal(localText(minute));
  return `${localMoment(minute, true)}${all.length === 2 ? ` (${say.nthTime(all.indexOf(minute))})` : ""}`;
}

/** The pieces of a gap, cut at the midnights of local time.
 * @type {(piece: Piece) => Piece[]} */
function byDays(piece) {
  const pieces = [];
  let start = piece.start;
  while (start < piece.past) {
    const next = dateOf(minuteOf(localText(start).slice(0, 10)) + DAY);
    const past = Math.min(piece.past, minutesOfLocal(`${next} 00:00`)[0] ?? piece.past);
    pieces.push({ ...piece, start, past });
    start = past;
  }
  return pieces;
}

/** The CSV that `enter` takes.
 * @type {(pieces: Piece[], author: string) => string} */
const csvOf = (pieces, author) => `start,past,activity,author,note\n${pieces.map((one) =>
  `${textOf(one.start)},${textOf(one.past)},${one.activity},${author},${one.note}\n`).join("")}`;

/** Whether an entry is a piece that was sent.
 * @type {(entry: any, piece: Piece, author: string) => boolean} */
const isSame = (entry, piece, author) => entry.start === piece.start && entry.past === piece.past && entry.activity === piece.activity
  && entry.author === author && entry.note === piece.note;

/** The form of a driver's gaps. */
class GapForm {
  /**
   * @param {string} driver
   * @param {Piece[]} pieces
   * @param {number} count how many entries there are
   * @param {import("./office.js").Context} context
   */
  constructor(driver, pieces, count, context) {
    this.driver = driver;
    this.pieces = pieces;
    this.count = count;
    this.context = context;
    this.isSending = false;
    this.list = h("div", {});
    this.told = h("p", { role: "status", id: "gaps-told" });
    const name = localStorage.getItem(AUTHOR) ?? "";
    this.author = h("input", { id: "author", required: true, autocomplete: "name", value: name,
      oninput: () => judge(this.author, AUTHOR_BYTES) });
    this.save = h("button", { class: "main", id: "save" }, say.save);
    this.node = h("form", { onsubmit: (event) => { event.preventDefault(); this.send(); } }, this.list,
      h("div", { class: "row end" }, h("div", { class: "field" }, h("label", { for: "author" }, say.author), this.author), this.save),
        this.told,
      h("datalist", { id: "papers" }, say.papers.map((/** @type {string} */ one) => h("option", { value: one }))));
    this.draw();
  }

  /** @type {() => void} */
  draw() {
    this.list.replaceChildren(...this.pieces.map((piece, k) => this.rowOf(piece, k)));
    this.tellCount();
  }

  /** @type {() => void} */
  tellCount() {
    const count = this.chosen().length;
    this.told.textContent = say.rows(count);
    this.save.disabled = count === 0 || this.isSending;
    unfinished.delete("gaps");
    if (count && this.node.isConnected) unfinished.add("gaps"); // a reply may come when another page is shown
  }

  /** @type {() => Piece[]} the pieces that are to be saved */
  chosen() {
    return this.pieces.filter((one) => one.activity);
  }

  /** @type {(piece: Piece, k: number) => HTMLElement} */
  rowOf(piece, k) {
    const pick = (/** @type {string} */ value, /** @type {string} */ text) => h("label", {}, h("input", {
      type: "radio", name: `what-${k}`, value, checked: piece.activity === value,
      onchange: () => { piece.activity = value; this.tellCount(); },
    }), text);
    const keep = () => { piece.note = note.value.trim(); judge(note, NOTE_BYTES); };
    const note = h("input", { id: `note-${k}`, list: "papers", value: piece.note, oninput: keep });
    return h("fieldset", { class: "gap" }, h("legend", { class: "hush" }, momentText(piece.start)),
      h("div", {}, h("b", {}, `${momentText(piece.start)} ${say.to} ${momentText(piece.past)}`), h("br"),
        h("span", { class: "note" }, `${length(piece.past - piece.start)} · ${textOf(piece.start)} ${say.to} ${textOf(piece.past)} UTC`)),
      h("div", { class: "choice", role: "radiogroup", "aria-label": say.what },
        pick("rest", say.rest), pick("work", say.work), pick("available", say.available), pick("drive", say.drive), pick("", say.skipRow)),
      h("div", { class: "field" }, h("label", { for: `note-${k}` }, say.noteLabel), note), this.splitter(piece, k));
  }

  /** @type {(piece: Piece, k: number) => HTMLElement} divides a gap at a local time, or at each midnight */
  splitter(piece, k) {
    const cut = momentField(`cut-${k}`, say.splitAt, null), told = h("span", { class: "warn-text", role: "status" });
    const [min, max] = [piece.start, piece.past].map((one) => localText(one).replace(" ", "T"));
    Object.assign(cut.input, { required: false, min, max });
    const split = () => {
      const at = cut.minute();
      if (at === null || at <= piece.start || at >= piece.past) { told.textContent = say.splitWithin; return; }
      this.pieces.splice(k, 1, { ...piece, past: at }, { ...piece, start: at, activity: "" });
      this.draw();
    };
    const days = byDays(piece);
    const each = () => { this.pieces.splice(k, 1, ...days); this.draw(); };
    return h("details", { class: "split" }, h("summary", {}, say.split),
      h("div", { class: "row end" }, cut.node, button(say.split, split, { class: "small" }),
      days.length > 1 && days.length <= FEW ? button(say.splitDays(days.length), each, { class: "small" }) : null, told));
  }

  /** Saves what was chosen, once.
   * @type {() => Promise<void>} */
  async send() {
    const pieces = this.chosen(), author = this.author.value.trim();
    if (this.isSending || pieces.length === 0) return;
    this.isSending = true;
    this.tellCount();
    this.told.textContent = say.saving;
    localStorage.setItem(AUTHOR, author);
    try {
      const { status, line } = await command(`/drivers/${this.driver}/entries`, csvOf(pieces, author));
      const saved = /^entered (\d+) to (\d+)$/.exec(line);
      if (status === 201 && saved) this.isSaved(saved.slice(1));
      else if (isUnsure(status)) await this.look(pieces, author);
      else this.refused(refusal(status, line));
    } catch (fault) {
      if (!isAbort(fault)) await this.look(pieces, author);
    }
  }

  /** @type {(numbers: (string | number)[]) => void} */
  isSaved([first, last]) {
    unfinished.delete("gaps");
    this.context.again(notice("good", say.savedEntries(Number(first), Number(last))));
  }

  /** @type {(sentence: import("./office.js").Content) => void} */
  refused(sentence) {
    this.isSending = false;
    this.tellCount();
    this.told.replaceChildren(notice("bad", sentence));
  }

  /** After a broken connection: looks at what is there. Until that is known nothing can be sent again.
   * @type {(pieces: Piece[], author: string) => Promise<void>} */
  async look(pieces, author) {
    this.told.textContent = say.looking;
    try {
      const entries = readEntries(await busy(ask(`/drivers/${this.driver}/entries`, this.context.signal)));
      const added = entries.slice(this.count);
      const found = added.filter((entry, k) => k < pieces.length && isSame(entry, pieces[k], author));
      if (added.length > 0 && found.length === pieces.length) this.isSaved([found[0].number, found[found.length - 1].number]);
      else if (added.length === 0) this.refused(say.notSaved);
      else this.context.again(notice("warn", say.otherEntries));
    } catch (fault) {
      if (isAbort(fault)) return;
      this.told.replaceChildren(notice("bad", say.unsureEntries, " ",
        button(say.lookAgain, () => this.look(pieces, author), { class: "small" })));
    }
  }
}

/** @type {(context: import("./office.js").Context) => Promise<import("./office.js").Content>} */
export async function page(context) {
  const { signal, args: [driver] } = context;
  const [person] = readDrivers(await ask(`/drivers/${driver}`, signal));
  const gaps = readForm(await ask(`/drivers/${driver}/form`, signal)),
    entries = readEntries(await ask(`/drivers/${driver}/entries`, signal));
  const title = head([written(person.name), `: ${say.gaps}`], tool(`/drivers/${driver}/entries`, say.entries),
    tool(`/drivers/${driver}/${thisMonth()}`, monthName(thisMonth())));
  if (gaps.length === 0) return [title, h("p", { class: "box good" }, say.noGapsAtAll)];
  const form = new GapForm(driver, gaps.map((gap) => ({ ...gap, activity: "", note: "" })), entries.length, context);
  return [title, h("p", {}, say.gapsHelp), h("p", { class: "note" }, say.workHelp), h("p", { class: "box" }, say.neverIllness), form.node];
}
