// The driver's page: what is left first, then a month. It asks the archive with the driver's key, and shows the replies. The address after
// `#` is the month; without one it is the last month that has data.
import { $, KEY_FORM, Problem, bytes, forget, h, isAbort, keep, key, listed, reading, send, watch, written } from "/shared/page.js";
import { breachItem, chart, gapsPart, notExaminedBox, sheetTable, unseenOf } from "/shared/parts.js";
import { lengthOf, readAhead, readBreaches, readDebts, readEntries, readFiles, readGaps, readSheet, readSpans, readVersion, readWhy }
  from "/shared/read.js";
import { LANGUAGES, both, debtsPart, languageNow, monthName, ready, say, speak, undivided, utcDay } from "/shared/say.js";
import { meters } from "/shared/tables.js";
import { DAY, dateOf, localText, minuteOf, minutesOfLocal, monthOf, monthStep, nextMorning, now, offsetText, rangeOf, textOf, zone }
  from "/shared/time.js";

/** @import { Ahead, Breach, CardFile, Debt, Entry, Range, Sheet, ShownBreach, Span, Stretch } from "/shared/read.js" */
/** @import { Child } from "/shared/page.js" */
/**
 * All that the page shows of a month. `end` is the end of what is held, 0 where nothing is. `ahead` is null where there is no forecast.
 * @typedef {{month: string, sheet: Sheet, spans: Span[], gaps: Range[], stretches: Array<Stretch<Breach>>, why: ShownBreach[],
 *   debts: Array<Stretch<Debt>>, files: CardFile[], entries: Entry[], ahead: Ahead | null, end: number}} Month
 */
/** @typedef {{sentence: () => string, line: string, kind: string}} Result what became of a file that was sent */

const MONTH = /^20\d\d-(0[1-9]|1[0-2])$/;
const TRIES = 3;
/** From so many days between the last known hour and the start on, what is left isn't to be relied on, and isn't shown. */
const OLD = { doubtful: 2, useless: 4 };
/** How many breaches come before the chart. The others are folded up, so that the chart isn't far down on a phone. */
const FIRST_BREACHES = 2;
const LARGEST_FILE = 262144;

// `session` grows with each sign-in and log-out, so that what comes too late isn't shown. `asking` ends the requests for a month. `start`
// is the start that was chosen. A message makes its text, so that it changes with the language.
const state = {
  session: 0,
  /** @type {AbortController | null} */ asking: null,
  /** @type {Month | null} */ month: null,
  /** @type {number | null} */ start: null,
  /** @type {{text: () => string, isBad: boolean, again: boolean} | null} */ message: null,
  /** @type {Result[]} */ results: [],
  isSending: false,
  uploads: false,
  program: "",
};

/** What the state has of no driver. */
const NOBODY = { month: null, start: null, results: [], isSending: false, uploads: false, program: "" };

// Asking

/**
 * A reading of the driver's own.
 * @param {string} what
 * @param {AbortSignal} signal
 * @returns {Promise<string>}
 */
function own(what, signal) {
  return reading(`/me/${what}`, { signal, wait: tellWait });
}

/**
 * The end of what the driver holds, 0 where nothing is held.
 * @param {CardFile[]} files
 * @param {Entry[]} entries
 * @param {Array<Stretch<Breach>>} stretches
 * @returns {number}
 */
function endOf(files, entries, stretches) {
  const kept = entries.filter((entry) => entry.state === "kept");
  const last = /** @type {Stretch<Breach>} */ (stretches.at(-1));
  const examined = Math.max(last.horizon, last.to ?? 0);
  return Math.max(0, ...files.map((file) => file.past), ...kept.map((entry) => entry.past), examined > last.from ? examined : 0);
}

/**
 * The forecast from a start. Null where the archive has none for so late a minute.
 * @param {number} start
 * @param {AbortSignal} signal
 * @returns {Promise<Ahead | null>}
 */
async function aheadOf(start, signal) {
  try {
    return readAhead(await own(`ahead/${textOf(start).replace(" ", "/")}`, signal));
  } catch (fault) {
    if (fault instanceof Problem && fault.name === "otherReply" && fault.values[1] === "Z3 out of range") {
      return null;
    }
    throw fault;
  }
}

/**
 * The minutes of a month's spans and gaps by the columns of the sheet.
 * @param {Span[]} spans
 * @param {Range[]} gaps
 * @returns {number[]}
 */
function sumsOf(spans, gaps) {
  const sums = [0, 0, 0, 0, 0, 0];
  for (const { start, past, activity, isCrew } of spans) {
    sums[isCrew ? 4 : ["rest", "available", "work", "drive"].indexOf(activity)] += past - start;
  }
  for (const { start, past } of gaps) {
    sums[5] += past - start;
  }
  return sums;
}

/**
 * Whether replies are of one state of the archive: the horizons, the breaches and the sums are the same in all of them.
 * @param {Month} replies
 * @returns {boolean}
 */
function agree({ month, sheet, spans, gaps, stretches, why, debts, ahead }) {
  const [first, past] = rangeOf(month);
  const frame = (/** @type {Stretch<any>} */ { from, horizon, cause, to }) => ({ from, horizon, cause, to });
  const inMonth = (/** @type {Stretch<Breach>} */ one) => one.items.filter((breach) => breach.at >= first && breach.at < past);
  const last = /** @type {Stretch<Breach>} */ (stretches.at(-1));
  const pairs = [
    [stretches.map(frame), debts.map(frame)],
    [stretches.flatMap(inMonth), why.map(({ evidence, ...breach }) => breach)],
    [[sheet.month, sheet.horizon, sheet.cause], [month, stretches[0].horizon, stretches[0].cause]],
    [sheet.breaches, inMonth(stretches[0])],
    [sheet.total.map(lengthOf), sumsOf(spans, gaps)],
    [ahead === null ? null : [ahead.from, ahead.held, ahead.cause], ahead === null ? null : [last.from, last.horizon, last.cause]],
  ];
  return pairs.every(([one, other]) => JSON.stringify(one) === JSON.stringify(other))
    && [...spans, ...gaps].every((range) => range.start >= first && range.past <= past);
}

/**
 * A month. The card files come first, and alone, so that a wrong key is sent once. If they and the entries are the same at the end, all
 * that came between is of one state. Else it is asked for again.
 * @param {string | null} wanted the month, or null for the last that has data
 * @param {AbortSignal} signal
 * @returns {Promise<Month>}
 */
async function monthOfArchive(wanted, signal) {
  let before = [await own("files", signal), await own("entries", signal)];
  for (let tries = 0; ; tries += 1) {
    const [files, entries, stretches] = [readFiles(before[0]), readEntries(before[1]), readBreaches(await own("stretches", signal))];
    const end = endOf(files, entries, stretches);
    const month = wanted ?? (end > 0 ? monthOf(end - 1) : monthOf(now()));
    const [ahead, sheet, spans, gaps, why, debts] = await Promise.all([
      aheadOf(state.start ?? nextMorning(), signal),
      ...[`sheet/${month}`, `spans/${month}`, `gaps/${month}`, `why/${month}`, "debts"].map((what) => own(what, signal)),
    ]);
    const replies = {
      month, sheet: readSheet(sheet), spans: readSpans(spans), gaps: readGaps(gaps), stretches, why: readWhy(why), debts: readDebts(debts),
      files, entries, ahead, end,
    };
    const after = await Promise.all([own("files", signal), own("entries", signal)]);
    const isSame = before[0] === after[0] && before[1] === after[1];
    if (isSame && agree(replies)) {
      return replies;
    }
    if (tries + 1 === TRIES) {
      throw new Problem(isSame ? "unreadable" : "keepsChanging");
    }
    before = after;
  }
}

/**
 * The sentence on what went wrong.
 * @param {unknown} fault
 * @returns {() => string}
 */
function sentenceOn(fault) {
  if (fault instanceof Problem) {
    return () => (typeof say[fault.name] === "string" ? say[fault.name] : say[fault.name](...fault.values));
  }
  // A fault of the page itself: what it can't read it doesn't show.
  console.error(fault);
  return () => say.unreadable;
}

/**
 * Drops the key, and all that the page has of the driver, if that is what went wrong.
 * @param {unknown} fault
 */
function dropKey(fault) {
  if (fault instanceof Problem && fault.name === "badKey") {
    forget();
    Object.assign(state, NOBODY);
    render();
  }
}

/**
 * Tells what went wrong. What is shown stays.
 * @param {() => string} text
 */
function tell(text) {
  state.message = { text, isBad: true, again: false };
  renderMessage();
}

/**
 * Asks for something, and shows it, or what went wrong. What was asked for before is given up.
 * @param {(signal: AbortSignal) => Promise<void>} ask
 * @returns {Promise<boolean>} whether it is shown
 */
async function attempt(ask) {
  const asking = new AbortController();
  state.asking?.abort();
  state.asking = asking;
  try {
    await ask(asking.signal);
    state.message = null;
  } catch (fault) {
    if (asking !== state.asking) {
      return false;
    }
    const isStopped = isAbort(fault);
    // Where the driver has stopped it, or only the limit of requests stands against it, what is there stays.
    if (!isStopped && !(fault instanceof Problem && fault.name === "tooOften")) {
      state.month = null;
    }
    dropKey(fault);
    state.message = { text: isStopped ? () => say.stopped : sentenceOn(fault), isBad: !isStopped, again: true };
  }
  if (asking !== state.asking) {
    return false;
  }
  state.asking = null;
  render();
  return state.message === null;
}

/**
 * Asks for the month of the address, and shows it.
 * @returns {Promise<boolean>} whether it is shown
 */
function showMonth() {
  const wanted = MONTH.test(location.hash.slice(1)) ? location.hash.slice(1) : null;
  $("hours").setAttribute("aria-busy", "true");
  return attempt(async (signal) => {
    const session = state.session;
    const month = await monthOfArchive(wanted, signal);
    const program = state.program || readVersion(await own("version", signal));
    if (session === state.session) {
      Object.assign(state, { month, program });
    }
  });
}

/** Asks what is left from another start, and shows it. */
async function showLeft() {
  await attempt(async (signal) => {
    const ahead = await aheadOf(state.start ?? nextMorning(), signal);
    const month = state.month;
    if (month !== null) {
      const next = { ...month, ahead };
      if (!agree(next)) {
        state.month = await monthOfArchive(month.month, signal);
      } else {
        state.month = next;
      }
    }
  });
  $("start-at")?.focus();
}

/** Asks whether drivers may send card files: /driver/uploads says so. */
async function askUploads() {
  const session = state.session;
  let isOpen = false;
  try {
    const reply = await fetch("/driver/uploads", { cache: "no-store", credentials: "omit" });
    isOpen = reply.ok && (await reply.text()).trim() === "open";
  } catch {
    // Without a connection there are no uploads either.
  }
  if (session === state.session) {
    state.uploads = isOpen;
    $("upload").hidden = !isOpen;
  }
}

/**
 * Saves a reply as a file.
 * @param {string} path
 * @param {string} name
 */
async function save(path, name) {
  const session = state.session;
  try {
    const link = h("a", { href: URL.createObjectURL(await bytes(path, { wait: tellWait })), download: name });
    if (session === state.session) {
      link.click();
    }
    setTimeout(() => URL.revokeObjectURL(link.href), 60000);
  } catch (fault) {
    if (session === state.session) {
      dropKey(fault);
      tell(sentenceOn(fault));
    }
  }
}

// What is left

/**
 * The field with the start of driving.
 * @param {number} start
 * @returns {HTMLElement}
 */
function startField(start) {
  const field = h("input", { type: "datetime-local", id: "start-at", value: localText(start).replace(" ", "T"), required: true });
  const take = (/** @type {Event} */ event) => {
    event.preventDefault();
    const [chosen] = field.value === "" ? [] : minutesOfLocal(field.value);
    if (chosen === undefined) {
      tell(() => say.badStart);
    } else {
      state.start = chosen;
      showLeft();
    }
  };
  return h("form", { class: "row no-print", id: "start", onsubmit: take },
    h("label", { for: "start-at" }, say.startAt), field, h("button", {}, say.show));
}

/**
 * What the forecast says, or why it says nothing.
 * @param {Month} month
 * @returns {Child}
 */
function leftTexts({ ahead, end }) {
  if (end === 0) {
    return h("p", { class: "box warn" }, say.noLeft);
  }
  if (ahead === null) {
    return h("p", { class: "box warn" }, say.leftNone);
  }
  if (ahead.not !== null) {
    return h("p", { class: "box warn" }, say.leftBroken(both(ahead.not.start), both(ahead.not.past)));
  }
  const days = Math.floor((ahead.start - ahead.held) / DAY);
  if (ahead.start - ahead.held > OLD.useless * DAY) {
    return h("p", { class: "box warn" }, say.leftOld(days, both(ahead.held)));
  }
  const isDoubtful = ahead.start - ahead.held > OLD.doubtful * DAY;
  const known = `${say.colHeld} ${both(ahead.held)}. ${isDoubtful ? `${say.leftStale(days)}. ` : ""}${say.leftAssume}`;
  const coming = ahead.coming.map(({ kind, at, amount }) =>
    h("li", {}, undivided(`${say.short[kind]}, ${both(at)}: ${say[kind](amount)}`)));
  return [
    h("p", { class: isDoubtful ? "box warn" : "note", id: "left-known" }, known),
    meters(ahead),
    h("p", { class: "note" }, say.leftUsed(ahead.reduced, ahead.extended)),
    coming.length === 0 ? null : h("div", { class: "box warn" }, h("p", {}, say.leftComing), h("ul", {}, coming)),
  ];
}

/**
 * What is left.
 * @param {Month} month
 * @returns {HTMLElement}
 */
function leftPart(month) {
  return h("section", { id: "left", "aria-labelledby": "left-head" },
    h("h2", { id: "left-head" }, say.left),
    startField(month.ahead && !month.ahead.not ? month.ahead.start : state.start ?? nextMorning()),
    leftTexts(month));
}

// A month

/**
 * The head of the month, with the ways to other months.
 * @param {Month} month
 * @returns {HTMLElement}
 */
function monthHead({ month }) {
  const step = (/** @type {number} */ by, /** @type {string} */ id, /** @type {string} */ sign, /** @type {string} */ text) => {
    const other = monthStep(month, by);
    return MONTH.test(other) ? h("a", { class: "button", id, href: `#${other}`, "aria-label": text, title: text }, sign) : null;
  };
  return h("div", { class: "head month" }, step(-1, "earlier", "←", say.monthBefore),
    h("h2", { id: "month-head", tabindex: "-1" }, monthName(month)), step(1, "later", "→", say.monthAfter));
}

/**
 * The field with the month, for a month that is far away.
 * @param {string} month
 * @returns {HTMLElement}
 */
function monthField(month) {
  const field = h("input", {
    id: "month", type: "month", min: "2000-01", max: "2099-12", required: true, pattern: "20[0-9][0-9]-(0[1-9]|1[0-2])", value: month,
  });
  const take = (/** @type {Event} */ event) => {
    event.preventDefault();
    goTo(field.value.trim());
  };
  return h("form", { id: "choose", class: "row", onsubmit: take },
    h("label", { for: "month" }, say.wholeMonth), field, h("button", {}, say.show));
}

/**
 * The month's breaches: the first ones, and the others folded up.
 * @param {ShownBreach[]} why
 * @param {boolean} isSeen whether a minute of the month is examined
 * @param {Entry[]} entries
 * @returns {Child}
 */
function breachList(why, isSeen, entries) {
  if (why.length === 0) {
    return h("p", {}, isSeen ? say.noBreach : say.nothingExamined);
  }
  const list = (/** @type {ShownBreach[]} */ some) => h("ul", { class: "list" }, some.map((breach) => breachItem(breach, { entries })));
  const others = why.slice(FIRST_BREACHES);
  return [
    list(why.slice(0, FIRST_BREACHES)),
    others.length === 0 ? null : h("details", { class: "more" }, h("summary", {}, say.moreBreaches(others.length)), list(others)),
  ];
}

/**
 * Other months: a field, and a link to each that has breaches, the latest first.
 * @param {Month} month
 * @returns {Child}
 */
function otherMonths({ month, stretches }) {
  const counts = new Map();
  for (const breach of stretches.flatMap((one) => one.items)) {
    counts.set(monthOf(breach.at), (counts.get(monthOf(breach.at)) ?? 0) + 1);
  }
  counts.delete(month);
  const count = [...counts.values()].reduce((sum, one) => sum + one, 0);
  const links = [...counts].reverse().map(([other, number]) =>
    h("a", { class: "button small", href: `#${other}` }, `${monthName(other)} (${number})`));
  return h("details", { id: "others", class: "no-print" },
    h("summary", {}, say.others(count)), monthField(month), h("div", { class: "row links" }, links));
}

/**
 * The card files, and all of the month as one file.
 * @param {Month} month
 * @returns {Child}
 */
function filesPart({ month, files }) {
  const [first, past] = rangeOf(month);
  const file = (/** @type {CardFile} */ { number, start, past: end }) => h("li", {}, h("button", {
    type: "button", class: "small", onclick: () => save(`/me/files/${number}`, `card-${number}.ddd`),
  }, say.fileName(number, utcDay(start), utcDay(end - 1))));
  const all = h("button", {
    type: "button", class: "small", id: "handover",
    onclick: () => save(`/me/handover/${dateOf(first)}/${dateOf(past)}`, `tacho-${month}.tar`),
  }, say.handover(monthName(month)));
  return [h("p", { class: "note" }, say.filesHelp), h("ul", { class: "list files" }, h("li", {}, all), [...files].reverse().map(file))];
}

/**
 * The hours of the month that were entered by hand.
 * @param {Month} month
 * @returns {Child}
 */
function entriesPart({ month, entries }) {
  const [first, past] = rangeOf(month);
  const inMonth = entries.filter((entry) => entry.start < past && first < entry.past);
  if (inMonth.length === 0) {
    return null;
  }
  const item = (/** @type {Entry} */ entry) => h("li", {},
    `${both(entry.start)} ${say.to} ${both(entry.past)}: ${say[entry.activity]}, `, written(entry.author),
    entry.note ? [", ", written(entry.note)] : null, entry.state === "withdrawn" ? ` (${say.isWithdrawn})` : "");
  return h("details", { id: "entries" }, h("summary", {}, say.entered(inMonth.length)), h("ul", {}, inMonth.map(item)));
}

/**
 * All parts of the month.
 * @param {Month} month
 * @returns {Child[]}
 */
function monthParts(month) {
  const { sheet, spans, stretches, why, debts, entries, end } = month;
  const range = rangeOf(month.month);
  const unseen = unseenOf(stretches, range);
  const isSeen = unseen.reduce((sum, one) => sum + one.past - one.start, 0) < range[1] - range[0];
  // Hours that haven't come yet are no gap.
  const gaps = month.gaps.map((gap) => ({ ...gap, past: Math.min(gap.past, end) })).filter((gap) => gap.start < gap.past);
  const isOver = (/** @type {{start: number}} */ day) => day.start < Math.max(end, now());
  const [days, later] = [sheet.days.filter(isOver), sheet.days.filter((day) => !isOver(day))];
  return [
    h("h1", { id: "title", tabindex: "-1" }, written(sheet.name)),
    leftPart(month),
    monthHead(month),
    h("h2", { id: "breaches-head" }, `${say.breaches}${why.length > 0 ? `: ${why.length}` : ""}`),
    h("div", { id: "breaches" }, breachList(why, isSeen, entries)),
    otherMonths(month),
    h("section", { class: "keep", id: "chart" }, h("h2", {}, say.chart), chart({
      spans, gaps, breaches: why, unseen, days, range, labelledBy: "chart-name title month-head", describedBy: "breaches",
    })),
    h("span", { id: "chart-name", hidden: true }, say.chartName),
    h("div", { id: "not-examined" }, notExaminedBox(stretches, range, end, gaps)),
    h("h2", {}, say.debts),
    h("div", { id: "debts" }, debtsPart(debts)),
    h("h2", {}, say.gaps),
    h("div", { id: "gaps" }, end <= range[0] ? h("p", {}, say.noHours) : gapsPart(gaps), entriesPart(month)),
    h("details", { id: "days" }, h("summary", {}, say.sheet), sheetTable({ days, total: sheet.total, later })),
    h("section", { id: "files", class: "no-print", "aria-labelledby": "files-head" },
      h("h2", { id: "files-head" }, say.files), filesPart(month)),
  ];
}

// Rendering

/** Shows what went wrong, and a button to ask again. */
function renderMessage() {
  const { message } = state;
  const again = h("button", { type: "button", id: "again", class: "small", onclick: showMonth }, say.retry);
  $("message").className = message === null ? "" : message.isBad ? "box bad" : "box";
  $("message").replaceChildren(...(message === null ? [] : listed([h("p", {}, message.text()), message.again && key() ? again : null])));
}

/** Shows what became of the files. An item that stays the same is left alone, so that a screen reader doesn't repeat it. */
function renderResults() {
  const list = $("results");
  while (list.children.length > state.results.length) {
    list.lastElementChild.remove();
  }
  state.results.forEach(({ sentence, line, kind }, number) => {
    const raw = line ? h("p", { class: "note" }, h("code", {}, line)) : null;
    const made = h("li", { class: kind }, h("div", {}, h("p", {}, undivided(sentence())), raw));
    const shown = list.children[number];
    if (shown === undefined) {
      list.append(made);
    } else if (shown.textContent !== made.textContent) {
      shown.replaceWith(made);
    }
  });
}

/** Shows the state. Without a key, removes all that the page has of a driver. */
function render() {
  const { month, program } = state;
  const isIn = key() !== null;
  document.documentElement.lang = languageNow();
  for (const one of document.querySelectorAll("[data-text]")) {
    one.textContent = say[/** @type {HTMLElement} */ (one).dataset.text ?? ""];
  }
  $("language").setAttribute("aria-label", say.language);
  $("sign-in").hidden = isIn;
  $("log-out").hidden = !isIn;
  $("upload").hidden = !(isIn && state.uploads);
  $("hours").hidden = month === null;
  $("hours").removeAttribute("aria-busy");
  $("hours").replaceChildren(...(month === null ? [] : listed(monthParts(month))));
  $("zone").textContent = month === null ? "" : say.zoneNote(zone(), offsetText(rangeOf(month.month)[0]));
  $("program").textContent = program === "" ? "" : say.program(program);
  document.title = month === null ? say.yourHours : `${say.yourHours}: ${monthName(month.month)}`;
  renderMessage();
  renderResults();
}

// What is slow says so, after half a second, and again after five. After 429 the page says that it waits.

/** @type {number[]} */
let timers = [];
let isWaiting = false;

/**
 * Shows a text in the corner, with a button that ends the wait.
 * @param {string} text
 * @param {boolean} canStop
 */
function tellBusy(text, canStop) {
  const stop = h("button", { type: "button", class: "small", onclick: () => state.asking?.abort() }, say.cancel);
  $("busy").replaceChildren(h("span", {}, text), ...(canStop ? [stop] : []));
}

/**
 * Says that the page waits, since there were too many requests.
 * @param {number} seconds
 */
function tellWait(seconds) {
  isWaiting = true;
  timers.forEach(clearTimeout);
  tellBusy(say.waits(seconds), true);
  timers = [setTimeout(() => {
    isWaiting = false;
    $("busy").replaceChildren();
  }, 1000 * seconds)];
}

watch((count) => {
  if (isWaiting) {
    return;
  }
  timers.forEach(clearTimeout);
  if (count === 0) {
    $("busy").replaceChildren();
  } else {
    timers = [setTimeout(() => tellBusy(say.busy, false), 500), setTimeout(() => tellBusy(say.busyLong, true), 5000)];
  }
});

// What the driver does

/**
 * Shows a month: the address names it, so that the browser can go back.
 * @param {string} month
 */
function goTo(month) {
  if (!MONTH.test(month)) {
    tell(() => say.badMonth);
  } else if (location.hash === `#${month}`) {
    showMonth();
  } else {
    location.hash = month;
  }
}

/**
 * Signs in with the key in the field. Blanks within it are dropped, since slips print keys in groups. A text that isn't a key isn't sent.
 * @param {Event} event
 */
async function signIn(event) {
  event.preventDefault();
  const wanted = $("key").value.replace(/\s/g, "");
  state.session += 1;
  if (!KEY_FORM.test(wanted)) {
    tell(() => say.badKey);
    return;
  }
  keep(wanted);
  $("key").value = "";
  state.message = null;
  if (await showMonth()) {
    $("title").focus();
    await askUploads();
  } else if (key() === null) {
    $("key").focus();
  }
}

/** Removes the key, and all that the page has of the driver. */
function logOut() {
  state.session += 1;
  state.asking?.abort();
  forget();
  Object.assign(state, { ...NOBODY, asking: null });
  state.message = { text: () => say.loggedOut, isBad: false, again: false };
  $("key").value = "";
  $("file").value = "";
  render();
  $("key").focus();
}

/** Shows another month, and goes to its head. */
async function changeMonth() {
  if (key() !== null && await showMonth()) {
    $("month-head").focus();
  }
}

// Uploads

/** By the code of a fault, or its letter: the sentence. */
const BY_CODE = new Map([["C", "broken"], ["C14", "contradictsItself"], ["S5", "notYours"], ["S14", "isFull"]]);
/** By the status, where no fault has a line. */
const BY_STATUS = new Map([
  [403, "badKey"], [405, "isShut"], [413, "tooLarge"], [429, "notSent"], [502, "sendAgain"], [503, "sendAgain"], [504, "sendAgain"],
]);

/**
 * What became of a file, from the reply to it.
 * @param {string} name the file's
 * @param {number} status
 * @param {string} line
 * @returns {Result}
 */
function resultOf(name, status, line) {
  const added = /^added driver \d+ number (\d+)$/.exec(line);
  const contradiction = /^S6 contradiction at (\d{4}-\d\d-\d\d \d\d:\d\d)$/.exec(line);
  if (status === 201 && added) {
    return { sentence: () => say.sent.added(name, added[1]), line, kind: "good" };
  }
  if (status === 200 && /^repeated driver \d+$/.test(line)) {
    return { sentence: () => say.sent.repeated(name), line, kind: "same" };
  }
  if (status === 409 && contradiction) {
    return { sentence: () => say.sent.contradicts(name, both(minuteOf(contradiction[1]))), line, kind: "bad" };
  }
  const [code, letter] = /^([A-Z])\d+/.exec(line) ?? [];
  const sentence = BY_CODE.get(code) ?? BY_CODE.get(letter) ?? BY_STATUS.get(status) ?? "refused";
  return { sentence: () => say.sent[sentence](name), line: line || String(status), kind: "bad" };
}

/**
 * Sends a file, and says what became of it.
 * @param {File} file
 * @param {string} name as it is said
 * @returns {Promise<{status: number, result: Result}>}
 */
async function sendFile(file, name) {
  if (file.size > LARGEST_FILE) {
    return { status: 0, result: { sentence: () => say.sent.tooLarge(name), line: "", kind: "bad" } };
  }
  try {
    const { status, text } = await send("/me/cards/both", { method: "POST", body: file });
    return { status, result: resultOf(name, status, text.trim()) };
  } catch {
    return { status: 0, result: { sentence: () => say.sent.sendAgain(name), line: "", kind: "bad" } };
  }
}

/**
 * Sends files one after the other, and then shows the month anew if one was added.
 * @param {File[]} files
 */
async function sendFiles(files) {
  const session = state.session;
  // In a sentence a name is isolated, so that its direction of writing doesn't change that of the sentence.
  const items = files.map((file) => ({ file, name: `\u2068${file.name}\u2069`, at: state.results.length }));
  items.forEach((item, number) => {
    item.at += number;
    state.results.push({ sentence: () => say.sent.waiting(item.name), line: "", kind: "" });
  });
  let isChanged = false;
  state.isSending = true;
  for (const { file, name, at } of items) {
    state.results[at] = { sentence: () => say.sent.sending(name), line: "", kind: "" };
    renderResults();
    const { status, result } = await sendFile(file, name);
    if (session !== state.session) {
      return;
    }
    state.results[at] = result;
    renderResults();
    isChanged ||= status === 201;
  }
  state.isSending = false;
  if (isChanged) {
    await showMonth();
  }
}

/** Lets files be dropped on the upload part. Dropped elsewhere, a file would replace the page. */
function takeDrops() {
  const drop = $("drop");
  const isOver = (/** @type {DragEvent} */ event) => !$("upload").hidden && drop.contains(event.target);
  addEventListener("dragover", (event) => {
    event.preventDefault();
    drop.classList.toggle("over", isOver(event));
    if (event.dataTransfer !== null) {
      event.dataTransfer.dropEffect = isOver(event) ? "copy" : "none";
    }
  });
  addEventListener("drop", (event) => {
    event.preventDefault();
    drop.classList.remove("over");
    if (isOver(event)) {
      sendFiles([...(event.dataTransfer?.files ?? [])]);
    }
  });
  drop.addEventListener("dragleave", () => drop.classList.remove("over"));
}

/** What is folded up is printed too, but for the evidence. */
function unfoldForPrint() {
  for (const one of document.querySelectorAll("details.more")) {
    one.setAttribute("open", "");
  }
}

/** Shows the language that is chosen. */
async function changeLanguage() {
  try {
    await speak($("language").value);
    render();
  } catch (fault) {
    $("language").value = languageNow();
    tell(sentenceOn(fault));
  }
}

/** Begins: with the key of this tab if there is one. */
async function begin() {
  await ready;
  $("language").append(...LANGUAGES.map(([language, name]) => h("option", { value: language, lang: language }, name)));
  $("language").value = languageNow();
  $("language").addEventListener("change", changeLanguage);
  $("sign-in").addEventListener("submit", signIn);
  $("log-out").addEventListener("click", logOut);
  $("file").addEventListener("change", () => {
    const files = [...$("file").files];
    // So that the same file can be chosen once more.
    $("file").value = "";
    sendFiles(files);
  });
  takeDrops();
  addEventListener("hashchange", changeMonth);
  addEventListener("beforeprint", unfoldForPrint);
  addEventListener("beforeunload", (event) => {
    if (state.isSending) {
      event.preventDefault();
    }
  });
  // The browser may keep the page while another is shown: after a log-out nothing of it may come back.
  addEventListener("pageshow", (event) => {
    if (event.persisted && key() === null) {
      logOut();
    }
  });
  render();
  if (key() !== null && await showMonth()) {
    await askUploads();
  }
}

begin();
