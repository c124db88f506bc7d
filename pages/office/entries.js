// A driver's entries, and their withdrawal.
import { $, h, isAbort, written } from "/shared/page.js";
import { both, length, monthName, say } from "/shared/say.js";
import { readDrivers, readEntries } from "/shared/read.js";
import { ask, button, confirmed, head, listTable, notice, thisMonth, tool } from "./office.js";
import { command, field, isUnsure, refusal } from "./commands.js";

/** Withdraws the entries from one number to another, after a question. After a broken connection the page shows what is there.
 * @type {(driver: string, first: number, last: number, again: (notice?: Node) => void) => Promise<void>} */
async function withdraw(driver, first, last, again) {
  if (!await confirmed(say.withdrawAsk(first, last), say.withdraw)) return;
  const path = first === last ? String(first) : `${first}/${last}`;
  try {
    const { status, line } = await command(`/drivers/${driver}/withdraw/${path}`);
    if (/^withdrawn \d+( to \d+)?$/.test(line)) again(notice("good", say.withdrawn(first, last)));
    else again(isUnsure(status) ? notice("warn", say.unsureWithdrawn) : notice("bad", refusal(status, line)));
  } catch (fault) {
    if (!isAbort(fault)) again(notice("warn", say.unsureWithdrawn));
  }
}

/** @type {(withdrawOne: (number: number) => void) => import("./office.js").Column[]} */
const columnsOf = (withdrawOne) => [
  { head: say.number, cell: (one) => one.number },
  { head: say.fromTo, cell: (one) => h("span", { class: "v" }, `${both(one.start)} ${say.to} ${both(one.past)}`,
    h("small", {}, ` ${length(one.past - one.start)}`)) },
  { head: say.what, cell: (one) => say[one.activity] },
  { head: say.author, cell: (one) => written(one.author) }, { head: say.noteLabel, kindOf: (one) => (one.note ? "" : "quiet"),
    cell: (one) => written(one.note) },
  { head: say.state, cell: (one) => (one.state === "withdrawn" ? h("span", { class: "dim" }, say.isWithdrawn)
    : button(say.withdraw, () => withdrawOne(Number(one.number)),
      { class: "small no-print", "aria-label": `${say.withdraw}: ${one.number}` })) },
];

/** The form for several entries.
 * @type {(most: number, act: (first: number, last: number) => void) => HTMLElement} */
function rangeForm(most, act) {
  const numbers = { type: "number", min: 1, max: most, step: 1 };
  return h("form", { class: "row end no-print", onsubmit: (event) => {
    event.preventDefault();
    const [first, last] = ["first", "last"].map((id) => Number($(id).value));
    act(Math.min(first, last), Math.max(first, last));
  } }, field("first", say.firstEntry, numbers), field("last", say.lastEntry, numbers), h("button", {}, say.withdrawRange));
}

/** @type {(context: import("./office.js").Context) => Promise<import("./office.js").Content>} */
export async function page({ signal, args: [driver], again }) {
  const [person] = readDrivers(await ask(`/drivers/${driver}`, signal));
  const entries = readEntries(await ask(`/drivers/${driver}/entries`, signal));
  const act = (/** @type {number} */ first, /** @type {number} */ last) => withdraw(driver, first, last, again);
  return [head([written(person.name), `: ${say.entries}`], tool(`/drivers/${driver}/gaps`, say.gapForm),
    tool(`/drivers/${driver}/${thisMonth()}`, monthName(thisMonth()))),
    h("p", {}, say.entriesHelp), entries.length === 0 ? h("p", { class: "box" }, say.noEntries)
      : [entries.length > 1 ? rangeForm(entries.length, act) : null,
        listTable(columnsOf((number) => act(number, number)), entries.reverse())]];
}
