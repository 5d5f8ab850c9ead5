/* Which requests there are, and what a client needs to be allowed for each. */

import { REQUESTS, isChange } from "./client_package.mjs";

/** @param {unknown} word */
const formOf = (word) => REQUESTS.get(/** @type {string} */ (word));

/** Requests of a document that needn't be open.
 *  @type {Set<unknown>} */
const MAKING = new Set(["open", "create"]);

/** What is asked, by the first word of a request. */
export const asks = {
  /** Whether it may change a document.
   *  @param {unknown} word */
  changes: (word) => isChange(/** @type {string} */ (word)),
  /** Whether it names no document.
   *  @param {unknown} word */
  isBare: (word) => formOf(word)?.kind === "bare",
  /** Whether a cursor follows the document's name.
   *  @param {unknown} word */
  withCursor: (word) => formOf(word)?.items[1] === "CUR",
  /** Whether its document is to be open.
   *  @param {unknown} word */
  ofDocument: (word) => !MAKING.has(word) && formOf(word)?.items[0] === "doc",
  /** Whether the hub answers it.
   *  @param {any[]} request */
  ofHub: ([word, ...items]) => {
    const form = formOf(word);
    if (form?.kind !== "hub") return false;
    const isWhole = items.length === form.items.length + form.optional.length
      && form.optional.every((it, at) => JSON.stringify(items[form.items.length + at]) === it);
    return items.length === form.items.length || isWhole;
  },
};

/** The name of a document, and the generation that is read of it, where one is named: NAME/GENERATION.
 *  @param {string} document
 *  @returns {[name: string, generation: string | undefined]} */
export function splitName(document) {
  const at = document.indexOf("/");
  return at < 0 ? [document, undefined] : [document.slice(0, at), document.slice(at + 1)];
}

/** Whether a client may send a request. A word that the hub doesn't know may change something.
 *  @param {import("./rights.mjs").Rights} rights
 *  @param {unknown} word
 *  @param {unknown} document */
export function mayAsk(rights, word, document) {
  const form = formOf(word);
  if (rights.isFull || form?.kind === "bare") return true;
  if (typeof document !== "string") return true; // the server refuses it, whatever it is
  const isReading = form && form.kind !== "change";
  return isReading ? rights.mayRead(document) : rights.mayWrite(document);
}
