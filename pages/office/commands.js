// Commands: what is sent to change the archive, what is said of a refusal, and whose a card file is.
import { h, send } from "/shared/page.js";
import { say } from "/shared/say.js";
import { busy, dropKey, tellBusy } from "./office.js";

const PAUSE = 4, TURNS = 15;

/** A command: the status and the line of its reply. After a wrong key the page asks for the key; too many requests aren't a fault, since
 *  the archive got none.
 * @param {string} path
 * @param {string | Blob} [body]
 * @returns {Promise<{ status: number, line: string }>} */
export async function command(path, body) {
  for (let turn = 1; ; turn += 1) {
    const { status, text } = await busy(send(path, { method: "POST", body }));
    if (status === 403 && text === "forbidden\n") {
      dropKey();
      throw new DOMException("another key is needed", "AbortError");
    }
    if (status !== 429 || turn === TURNS) return { status, line: text.replace(/\n$/, "") };
    tellBusy(say.askAgain(PAUSE));
    await new Promise((resolve) => { setTimeout(resolve, 1000 * PAUSE); });
    tellBusy("");
  }
}

/** Whether it isn't known what a command did: the service failed after it had got it.
 * @type {(status: number) => boolean} */
export const isUnsure = (status) => status >= 500 || status === 0;

/** @type {(line: string) => string | undefined} the code of a fault */
export const codeOf = (line) => /^([A-Z]\d+) /.exec(line)?.[1];

/** What is said of a refusal, with its line below it, for a telephone call.
 * @type {(status: number, line: string) => import("/shared/page.js").Child} */
export const refusal = (status, line) =>
  [say.refusals[codeOf(line) ?? ""] ?? say.refusedOther, h("small", { class: "raw" }, ` ${line || `HTTP ${status}`}`)];

/** @type {(id: string, label: string, attributes: Record<string, unknown>) => HTMLElement} a field with its label */
export const field = (id, label, attributes) =>
  h("div", { class: "field" }, h("label", { for: id }, label), h("input", { id, required: true, ...attributes }));

/**
 * A name in a card file: 35 bytes in a code page of ISO 8859.
 * @param {ArrayBuffer} file
 * @param {number} at where the code page stands; the name follows
 * @returns {string}
 */
function nameIn(file, at) {
  const page = new DataView(file).getUint8(at);
  // There are no other parts of ISO 8859.
  const part = page > 0 && page <= 16 && page !== 12 ? page : 1;
  return new TextDecoder(`iso-8859-${part}`).decode(new Uint8Array(file, at + 1, 35)).replace(/[\0 ]+$/, "");
}

/**
 * Whose a card file is, by its EF Identification (0520) of either generation. Nothing is judged by it: the archive reads the file itself.
 * @param {ArrayBuffer} file
 * @returns {{holder: string, name: string} | null}
 */
export function holderOf(file) {
  const view = new DataView(file);
  for (let at = 0; at + 5 <= view.byteLength;) {
    const [id, kind, size] = [view.getUint16(at), view.getUint8(at + 2), view.getUint16(at + 3)];
    const start = at + 5;
    if (id === 0x0520 && (kind === 0 || kind === 2) && size >= 143 && start + 143 <= view.byteLength) {
      const holder = [...new Uint8Array(file, start, 15)].map((one) => one.toString(16).padStart(2, "0")).join("");
      return { holder, name: `${nameIn(file, start + 101)} ${nameIn(file, start + 65)}`.trim() };
    }
    at = start + size;
  }
  return null;
}
