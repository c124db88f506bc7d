// Elements, requests and modules.

// Elements. A string becomes a text, never markup: no reply of the server is ever read as HTML.

const SVG = "http://www.w3.org/2000/svg";

/**
 * What an element can have in it. Lists may be nested; null, undefined and false are left out, so that a part can be left out in place.
 * @typedef {Node | string | null | undefined | false | Children} Child
 */
/** @typedef {{ [at: number]: Child, length: number }} Children */

/**
 * The attributes of an element by their names. `true` is an attribute without a value; null, undefined and false are none. A name that
 * begins with `on` is an event, and its value the function that gets it.
 * @typedef {Record<string, string | number | boolean | null | undefined | ((event: any) => void)>} Attributes
 */

/**
 * An element with attributes and children.
 * @template {Element} T
 * @param {T} made
 * @param {Attributes | null} attributes
 * @param {Child[]} children
 * @returns {T}
 */
function filled(made, attributes, children) {
  for (const [name, value] of Object.entries(attributes ?? {})) {
    if (value === null || value === undefined || value === false) {
      continue;
    }
    if (typeof value === "function") {
      made.addEventListener(name.slice(2), value);
    } else {
      made.setAttribute(name, value === true ? "" : String(value));
    }
  }
  made.append(...listed(children));
  return made;
}

/**
 * The children as a flat list, without those that are left out.
 * @param {Child[]} children
 * @returns {Array<Node | string>}
 */
export function listed(children) {
  return /** @type {any[]} */ (children).flat(Infinity).filter((child) => child !== null && child !== undefined && child !== false);
}

/**
 * A new element of HTML.
 * @param {string} name
 * @param {Attributes | null} [attributes]
 * @param {...Child} children
 * @returns {any} the element; its type depends on the name
 */
export function h(name, attributes = {}, ...children) {
  return filled(document.createElement(name), attributes, children);
}

/**
 * A new element of SVG.
 * @param {string} name
 * @param {Attributes | null} [attributes]
 * @param {...Child} children
 * @returns {SVGElement}
 */
export function svg(name, attributes = {}, ...children) {
  return filled(document.createElementNS(SVG, name), attributes, children);
}

/**
 * A text that somebody wrote, as a name, an author or a note. It may have signs that turn the direction of writing, end lines or pile up:
 * they change nothing outside of its element (page.css).
 * @param {string} text
 * @returns {HTMLElement}
 */
export function written(text) {
  return h("bdi", {}, text);
}

/**
 * The element with an id.
 * @param {string} id
 * @returns {any} the element, or null
 */
export function $(id) {
  return document.getElementById(id);
}

// Requests. The key is in sessionStorage: the browser drops it with the tab.

const PLACE = "tacho.key";

/** The form of a key. A text of another form isn't sent. */
export const KEY_FORM = /^[A-Za-z0-9-]{8,64}$/;

/**
 * The key of this tab.
 * @returns {string | null}
 */
export function key() {
  return sessionStorage.getItem(PLACE);
}

/**
 * Keeps a key for this tab.
 * @param {string} value
 */
export function keep(value) {
  sessionStorage.setItem(PLACE, value);
}

/** Drops the key. */
export function forget() {
  sessionStorage.removeItem(PLACE);
}

/** A problem that the page tells: the name of a sentence, and the values that go into it. */
export class Problem extends Error {
  /**
   * @param {string} name
   * @param {...(string | number)} values
   */
  constructor(name, ...values) {
    super(name);
    this.name = name;
    this.values = values;
  }
}

/**
 * Whether a request was given up.
 * @param {unknown} fault
 * @returns {boolean}
 */
export function isAbort(fault) {
  return fault instanceof Error && fault.name === "AbortError";
}

/** The sentences on statuses that aren't from a command. */
const TOLD = new Map([[403, "badKey"], [429, "tooOften"], [502, "isDown"], [503, "isDown"], [504, "isDown"]]);

let asking = 0;
/** @type {Array<(count: number) => void>} */
const watchers = [];

/**
 * Has a function told how many requests are waiting, whenever that changes.
 * @param {(count: number) => void} tell
 */
export function watch(tell) {
  watchers.push(tell);
}

/**
 * Counts the requests that are waiting.
 * @param {number} by
 */
function change(by) {
  asking += by;
  watchers.forEach((tell) => tell(asking));
}

/**
 * What a request has beside its path. `key` is another key than that of the tab. `wait` is called before a reading is sent again.
 * @typedef {{method?: string, body?: BodyInit, signal?: AbortSignal, key?: string, wait?: (seconds: number) => void}} Options
 */

/** How long a reading waits for its reply, in milliseconds. The service gives a client 30 seconds. */
const PATIENCE = 35000;

/** @type {Set<() => void>} Each begins the wait of a reading anew. */
const waits = new Set();

/**
 * A request and its reply. The service answers one request after the other, so a reading's wait begins anew whenever another request has
 * ended. A command has no such end: it may have been done.
 * @param {string} path
 * @param {Options} options
 * @param {(reply: Response) => Promise<T>} take what takes the body
 * @template T
 * @returns {Promise<T>}
 */
async function asked(path, { method = "GET", body, signal, key: other }, take) {
  const ending = new AbortController();
  const end = () => ending.abort();
  let timer = 0;
  let isLate = false;
  const wait = () => {
    clearTimeout(timer);
    timer = setTimeout(() => {
      isLate = true;
      end();
    }, PATIENCE);
  };
  const stop = () => {
    clearTimeout(timer);
    waits.delete(wait);
  };
  change(1);
  try {
    signal?.throwIfAborted();
    signal?.addEventListener("abort", end);
    if (method === "GET") {
      waits.add(wait);
      wait();
    }
    const headers = { "x-key": other ?? key() ?? "" };
    const reply = await fetch(path, {
      method, body, signal: ending.signal, headers, cache: "no-store", credentials: "omit", redirect: "error",
    });
    stop();
    return await take(reply);
  } catch (fault) {
    if (isLate) {
      throw new Problem("isDown");
    }
    throw isAbort(fault) ? fault : new Problem("noConnection");
  } finally {
    stop();
    if (!isLate) {
      waits.forEach((again) => again());
    }
    change(-1);
  }
}

/**
 * A request, and the status and text of its reply. Only a plain text or CSV is a reply of the archive, and its text is kept; other texts
 * are of servers between.
 * @param {string} path
 * @param {Options} [options]
 * @returns {Promise<{status: number, text: string}>}
 */
export function send(path, options = {}) {
  return asked(path, options, async (reply) => {
    const text = await reply.text();
    const isOurs = /^text\/(plain|csv)\b/.test(reply.headers.get("content-type") ?? "");
    return { status: reply.status, text: isOurs ? text : "" };
  });
}

/**
 * The problem of a reply that isn't what was asked for.
 * @param {number} status
 * @param {string} text
 * @returns {Problem}
 */
function problemOf(status, text) {
  if (text === "S4 unknown driver\n") {
    return new Problem("noDriver");
  }
  const name = TOLD.get(status);
  return name === undefined ? new Problem("otherReply", status, text.trim()) : new Problem(name);
}

/**
 * Waits, unless it is given up.
 * @param {number} seconds
 * @param {AbortSignal} [signal]
 * @returns {Promise<void>}
 */
function pause(seconds, signal) {
  return new Promise((done, giveUp) => {
    const timer = setTimeout(done, 1000 * seconds);
    signal?.addEventListener("abort", () => {
      clearTimeout(timer);
      giveUp(signal.reason);
    }, { once: true });
  });
}

/** The seconds of each wait after 429, one after the other. */
const WAITS = [2, 4, 8, 16, 30, 30, 30];

/**
 * What a request gives. With `wait` it is sent again after 429, since nothing was asked of the archive then; each time later than before.
 * @param {Options} options
 * @param {() => Promise<T>} ask throws a Problem `tooOften` after 429
 * @template T
 * @returns {Promise<T>}
 */
async function patiently({ signal, wait }, ask) {
  for (const seconds of WAITS) {
    try {
      return await ask();
    } catch (fault) {
      if (wait === undefined || !(fault instanceof Problem) || fault.name !== "tooOften") {
        throw fault;
      }
      wait(seconds);
      await pause(seconds, signal);
    }
  }
  return ask();
}

/**
 * The text of a reading.
 * @param {string} path
 * @param {Options} [options]
 * @returns {Promise<string>}
 */
export function reading(path, options = {}) {
  return patiently(options, async () => {
    const { status, text } = await send(path, options);
    if (status === 200) {
      return text;
    }
    throw problemOf(status, text);
  });
}

/**
 * The bytes of a card file, or of a handover.
 * @param {string} path
 * @param {Options} [options]
 * @returns {Promise<Blob>}
 */
export function bytes(path, options = {}) {
  return patiently(options, () => asked(path, options, async (reply) => {
    if (reply.status === 200) {
      return reply.blob();
    }
    throw problemOf(reply.status, "");
  }));
}

// Modules

/** The value of a problem with a module. */
export const MODULE = "module";

/**
 * A module.
 * @param {string} path
 * @returns {Promise<any>}
 */
export function moduleAt(path) {
  return import(path).catch((fault) => { throw fault instanceof TypeError ? new Problem("noConnection", MODULE) : fault; });
}
