/* Where the carets of others are in a field's text. A caret is bound to the element behind which it
   is, so it moves with that while others type. Where that is deleted, it stays where it was. */

import { isMap, print } from "./json.mjs";
import { isId } from "./operations.mjs";

/** @typedef {[number, string]} Id */
/** @typedef {{ id: Id, text: string }} Character */
/** @typedef {0 | Id} Reference An element, or 0 for the place before the first. */

/** @typedef {object} Caret Of another one, in UTF-16 units of the field's text.
 *  @property {string} guest by which the hub knows who it is
 *  @property {string} name what it says of itself; else the guest
 *  @property {string} color as #b42318: what it says, or one that its guest's name gives
 *  @property {number} from where the selection begins, and the caret is where nothing is selected
 *  @property {number} to where it ends */

const MOST_NAME = 32; // characters
const COLORS = ["#b42318", "#175cd3", "#067647", "#93370d", "#6941c6", "#0e7090", "#c11574",
  "#475467"];

/** What a field says of its own caret.
 *  @param {(0 | string | number | Id)[]} place of the list
 *  @param {readonly Character[]} shown
 *  @param {number} from in UTF-16 units
 *  @param {number} to */
export function saidCaret(place, shown, from, to) {
  const [first, last] = referencesAt(shown, [from, to]);
  return { place, from: first, to: last };
}

/** The elements behind which these offsets are.
 *  @param {readonly Character[]} shown
 *  @param {number[]} offsets
 *  @returns {Reference[]} */
function referencesAt(shown, offsets) {
  return offsets.map((offset) => {
    let [count, at] = [0, 0];
    while (count < shown.length && at < offset) at += shown[count++].text.length;
    return count === 0 ? 0 : shown[count - 1].id;
  });
}

/** Those of others, as they were shown last. */
export class Carets {
  /** @type {Map<string, { from: number, to: number }>} by guest */
  #last = new Map();
  #place;

  /** @param {(0 | string | number | Id)[]} place of the list */
  constructor(place) {
    this.#place = print(place);
  }

  /** Where they are now.
   *  @param {ReadonlyMap<string, any>} others what they say
   *  @param {readonly Character[]} shown the text as it is now
   *  @param {(offset: number) => number} [moved] from the text before
   *  @returns {Caret[]} */
  in(others, shown, moved = (offset) => offset) {
    const here = [...others].filter(([, value]) => this.#isHere(value?.caret));
    const references = here.flatMap(([, { caret }]) => [caret.from, caret.to]);
    const offsets = offsetsOf(shown, references);
    const before = this.#last;
    this.#last = new Map();
    return here.flatMap(([guest, value]) => {
      const last = before.get(guest);
      const of = (/** @type {"from" | "to"} */ end) =>
        offsets.get(String(value.caret[end])) ?? (last && moved(last[end]));
      const [from, to] = [of("from"), of("to")];
      if (from === undefined || to === undefined) return [];
      this.#last.set(guest, { from, to });
      const [start, stop] = [from, to].sort((a, b) => a - b);
      return [{ guest, ...looksOf(guest, value), from: start, to: stop }];
    });
  }

  /** Whether this is a caret in this list: others may say anything.
   *  @param {any} caret */
  #isHere(caret) {
    const isReference = (/** @type {any} */ it) => it === 0 || isId(it);
    return isMap(caret) && Array.isArray(caret.place) && print(caret.place) === this.#place
      && isReference(caret.from) && isReference(caret.to);
  }
}

/** Where each of these elements ends, of those that are shown.
 *  @param {readonly Character[]} shown
 *  @param {Reference[]} references
 *  @returns {Map<string, number>} */
function offsetsOf(shown, references) {
  const found = new Map([["0", 0]]);
  const counters = new Set(references.map((it) => (it === 0 ? 0 : it[0])));
  let offset = 0;
  for (const { id, text } of shown) {
    offset += text.length;
    if (counters.has(id[0])) found.set(String(id), offset);
  }
  return found;
}

/** The name and the colour that one says, or those that a guest has where it says none.
 *  @param {string} guest by which the hub knows who it is
 *  @param {any} value what it says: anything
 *  @returns {{ name: string, color: string }} */
export function looksOf(guest, value) {
  const { name, color } = isMap(value) ? value : /** @type {any} */ ({});
  const isColor = typeof color === "string" && /^#[0-9a-f]{6}$/i.test(color);
  const sum = [...guest].reduce((all, it) => all * 31 + it.charCodeAt(0), 7) % 65_521;
  const said = typeof name === "string" ? name.trim() : "";
  return {
    name: [...said].slice(0, MOST_NAME).join("") || guest,
    color: isColor ? color : COLORS[sum % COLORS.length],
  };
}
