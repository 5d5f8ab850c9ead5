/* A list of an engine that only answers requests, as whoever follows it was told of it: the ids of
   its elements in order, and their last values. This is no second tree or log: where a changed
   element is, and what it holds, the engine says. It is asked three times for a change, and for the
   whole list where much of it may have changed. */

import { isArray, isMap, parse, print } from "./json.mjs";
import { MOST } from "./limits.mjs";
import { compareIds, isId } from "./operations.mjs";
import { endOf, placeOf, writtenOf } from "./places.mjs";

/** @typedef {import("./operations.mjs").Cursor} Cursor */
/** @typedef {import("./operations.mjs").Id} Id */
/** @typedef {import("./operations.mjs").Operation} Operation */
/** @typedef {import("./events.mjs").Source} Source */
/** @typedef {import("./events.mjs").Splice} Splice */
/** @typedef {import("./followers.mjs").Read} Read */
/** @typedef {import("./followers.mjs").ReadText} ReadText */

/** @typedef {{index: number, key: number, id: Id}} Found A changed element, and how many are before
 *    it. */

/** Fewer changes than this, and this part of the list, are looked for one by one. */
const [FEW, PART] = [8, 1 / 32];
const ITEMS = '["items",[';
/** An element with one text, in a reply to `items`. A longer text would keep all of the reply. */
const ELEMENT = /\[\[(\d+),"([a-z0-9-]+)"\],\["((?:[^"\\]|\\.){0,12})"\]\](?:,|\]\]$)/y;
/** @type {any} */
const EMPTY_LIST = Object.freeze([]);
const EMPTY_MAP = Object.freeze({});

/** Whether the line of an operation assigns or inserts a scalar, or deletes, as it is seen at the end
 *  of it: most lines end with a text.
 *  @param {string} line */
const isOfScalar = (line) => line.endsWith('"]]') ||
  (!line.endsWith("[]]]") && !line.endsWith("{}]]") && !line.includes('["add",'));

/** @implements {Source} */
export class Mirror {
  /** @type {Map<string, number>} Of each replica: what its counters are added to, in keys. */
  #bases = new Map();
  /** @type {number[]} Of the elements, in order: their ids as numbers. */
  #keys = [];
  /** @type {Map<number, any>} Of each element its last value; `undefined` if it has none. */
  #values = new Map();
  /** @type {Map<number, Id>} Those that may have come, gone or changed since. */
  #changed = new Map();
  /** @type {Map<number, string>} The texts of those that were inserted, and not changed, since. */
  #fresh = new Map();
  #isAll = false; // whether any may have
  #isFlat = false; // whether all of them have scalars alone
  #read;
  #readText;
  #place;

  /** Throws Refused for a head.
   *  @param {Read} read
   *  @param {Cursor} place
   *  @param {ReadText} [readText] */
  constructor(read, place, readText = () => undefined) {
    this.#read = read;
    this.#readText = readText;
    this.#place = place;
    this.#values = this.#all();
    this.#keys = [...this.#values.keys()];
  }

  get length() { return this.#keys.length; }

  /** An id as a number: a map of these is made in a tenth of the time that one of texts takes.
   *  @param {Id} id */
  #keyOf(id) {
    const replica = id[1];
    let base = this.#bases.get(replica);
    if (base === undefined) this.#bases.set(replica, (base = this.#bases.size * (MOST.log + 1)));
    return base + id[0];
  }

  end() {}

  /** @param {Id} id */
  has(id) { return this.#values.has(this.#keyOf(id)); }

  /** Notes an operation that was logged: one at, under or above the place.
   *  @param {Operation} op */
  note(op) {
    const [end, [word, value]] = [endOf(op), op[4]];
    const { length } = this.#place;
    const id = end[length];
    if (end.length <= length && (word === "assign" || word === "delete")) this.renew();
    if (this.#isAll || !isId(id)) return;
    const isDeeper = end.length > length + 1;
    if (word === "insert" && !isDeeper && typeof value === "string") this.#fresh.set(this.#keyOf(id), value);
    else this.#fresh.delete(this.#keyOf(id));
    this.#noteElement(id, isDeeper);
  }

  /** Notes that anything may have changed.
   *  @param {string[]} [lines] All operations that the engine has, where these are known. */
  renew(lines) {
    this.#isAll = true;
    this.#isFlat = lines !== undefined && this.#areOfScalars(lines);
    this.#changed.clear();
    this.#fresh.clear();
  }

  /** Whether operations leave elements of the list with scalars alone. Most lines aren't read for it:
   *  a quotation mark within a string has a backslash before it, so no string has what is looked for.
   *  @param {string[]} lines */
  #areOfScalars(lines) {
    const [path] = writtenOf([...this.#place, 0]);
    const here = `${print(path)},`;
    return lines.every((line) => (isOfScalar(line) && line.includes(here)) || this.#isOfScalar(parse(line)));
  }

  /** Whether an operation leaves elements of the list with scalars alone.
   *  @param {Operation} op */
  #isOfScalar([, , , [path], [word, value]]) {
    const { length } = this.#place;
    if (path.length !== length) return path.length < length;
    return word === "delete" || (word !== "add" && !isArray(value) && !isMap(value));
  }

  /** An operation deeper in an element makes it present, and leaves its value.
   *  @param {Id} id
   *  @param {boolean} isDeeper */
  #noteElement(id, isDeeper) {
    if (isDeeper && this.has(id)) return;
    this.#changed.set(this.#keyOf(id), id);
    if (this.#changed.size > FEW + this.#keys.length * PART) this.renew();
  }

  /** What has changed since it was last called.
   *  @returns {Splice[]} */
  take() {
    if (!this.#isAll && this.#changed.size === 0) return [];
    const splices = this.#isAll ? this.#takeAll() : this.#takeChanged();
    this.#isAll = this.#isFlat = false;
    this.#changed.clear();
    this.#fresh.clear();
    return splices;
  }

  #takeAll() {
    const [before, now] = [this.#keys, this.#all()];
    const was = this.#values;
    this.#keys = [...now.keys()];
    this.#values = now;
    const isSame = (/** @type {number} */ key) => was.get(key) === now.get(key);
    return difference(before, this.#keys, { was, is: now, isSame, index: 0 }).map(toldOf(now));
  }

  /** The last value of each element, as now.
   *  @returns {Map<number, any>} */
  #all() {
    const cursor = [writtenOf(this.#place)];
    const written = this.#isFlat ? this.#readText("items", cursor) : undefined;
    const texts = written && this.#textsIn(written);
    if (texts) return texts;
    /** @type {[Id, any[]][]} */
    const items = written?.startsWith(ITEMS) ? parse(written)[1] : this.#read("items", cursor);
    const all = new Map();
    if (items.length === 0) return all;
    const shown = this.#isFlat ? [] :
      this.#read("show", cursor).find((/** @type {any[]} */ [kind]) => kind === "list")[1];
    for (let at = 0; at < items.length; at++) { // by indices: of a long list that takes a third
      const id = items[at][0];
      const values = items[at][1];
      // A map or list may be the last value only where it is shown.
      const isPlain = this.#isFlat
        || (values.length > 0 && shown[at].every((/** @type {any[]} */ [kind]) => kind === "val"));
      all.set(this.#keyOf(id), isPlain ? values[values.length - 1] : this.#valueOf(id));
    }
    return all;
  }

  /** The elements of a reply to `items`, where each of them has one short text: so most of what reading
   *  makes isn't made.
   *  @param {string} written
   *  @returns {Map<number, string> | undefined} */
  #textsIn(written) {
    if (!written.startsWith(ITEMS)) return undefined;
    const all = new Map();
    ELEMENT.lastIndex = ITEMS.length;
    for (let found; (found = ELEMENT.exec(written)); ) {
      const text = found[3];
      const key = this.#keyOf([Number(found[1]), found[2]]);
      all.set(key, text.includes("\\") ? JSON.parse(`"${text}"`) : text);
      if (ELEMENT.lastIndex === written.length) return all;
    }
    return undefined;
  }

  /** @param {Id} id */
  #valueOf(id) {
    const fresh = this.#fresh.get(this.#keyOf(id));
    if (fresh !== undefined) return fresh;
    const value = this.#read("conflicts", [writtenOf([...this.#place, id])]).pop()?.[1];
    return isArray(value) ? EMPTY_LIST : isMap(value) ? EMPTY_MAP : value;
  }

  #takeChanged() {
    const old = this.#old();
    const kept = old.length > 0 ? [...this.#keys] : this.#keys;
    for (let at = old.length; at-- > 0; ) kept.splice(old[at], 1);
    const found = this.#found();
    return this.#splices(old, kept, found, new Map(found.map(({ key, id }) => [key, this.#valueOf(id)])));
  }

  /** Where the changed elements were. */
  #old() {
    /** @type {number[]} */
    const old = [];
    if (![...this.#changed.keys()].some((key) => this.#values.has(key))) return old;
    for (let at = 0; at < this.length; at++) if (this.#changed.has(this.#keys[at])) old.push(at);
    return old;
  }

  /** Where the changed elements are that are present, in order.
   *  @returns {Found[]} */
  #found() {
    const all = [...this.#changed].map(([key, id]) => ({ index: this.#indexOf(id) - 1, key, id }));
    return all.filter(({ index }) => index >= 0).sort((a, b) => a.index - b.index);
  }

  /** The index of an element; 0 where it isn't present.
   *  @param {Id} id
   *  @returns {number} */
  #indexOf(id) {
    const index = this.#read("index", [writtenOf([...this.#place, id])]);
    const there = placeOf(this.#read("cursor", [writtenOf(this.#place), index])).pop();
    return isId(there) && compareIds(there, id) === 0 ? index : 0; // of one that isn't, another one's
  }

  /** Makes of what was what is, from the first change to the last one.
   *  @param {number[]} old Where the changed elements were.
   *  @param {number[]} kept
   *  @param {Found[]} found
   *  @param {Map<number, any>} now The values of these.
   *  @returns {Splice[]} */
  #splices(old, kept, found, now) {
    const from = Math.min(old[0] ?? Infinity, found[0]?.index ?? Infinity);
    if (from === Infinity) return [];
    const length = kept.length + found.length;
    const rest = Math.min(this.length - 1 - (old.at(-1) ?? -1), length - 1 - (found.at(-1)?.index ?? -1));
    const before = this.#keys.slice(from, this.length - rest);
    const after = kept.slice(from, kept.length - rest);
    for (const { index, key } of found) after.splice(index - from, 0, key);
    const [was, changed] = [this.#values, this.#changed];
    const is = { has: (/** @type {number} */ key) => !changed.has(key) || now.has(key) };
    const isSame = (/** @type {number} */ key) => !changed.has(key) || was.get(key) === now.get(key);
    const splices = difference(before, after, { was, is, isSame, index: from });
    for (const key of changed.keys()) was.delete(key);
    for (const [key, value] of now) was.set(key, value);
    for (const { index, remove, insert } of splices) this.#keys.splice(index, remove, ...insert);
    return splices.map(toldOf(now));
  }
}

/** @param {ReadonlyMap<number, any>} values
 *  @returns {(splice: Splice) => Splice} */
const toldOf = (values) => ({ index, remove, insert }) =>
  ({ index, remove, insert: insert.map((key) => values.get(key) ?? null) });

/** The splices, of keys, that make a list of another one of its states.
 *  @param {number[]} before
 *  @param {number[]} after
 *  @param {object} states
 *  @param {{has: (key: number) => boolean}} states.was Whether one was present.
 *  @param {{has: (key: number) => boolean}} states.is Whether one is.
 *  @param {(key: number) => boolean} states.isSame Whether its value is the same.
 *  @param {number} states.index How many are before these.
 *  @returns {Splice[]} */
function difference(before, after, { was, is, isSame, index }) {
  if (before.length === 0) return after.length > 0 ? [{ index, remove: 0, insert: after }] : [];
  /** @type {Splice[]} */
  const found = [];
  let count = index;
  const last = () => {
    const splice = found[found.length - 1];
    if (splice && splice.index + splice.insert.length === count) return splice;
    found.push({ index: count, remove: 0, insert: [] });
    return found[found.length - 1];
  };
  for (let [old, now] = [0, 0]; old < before.length || now < after.length; ) {
    if (old < before.length && !is.has(before[old])) {
      last().remove++;
      old++;
      continue;
    }
    const key = after[now++];
    const isNew = !was.has(key);
    if (isNew || !isSame(key)) {
      const splice = last();
      splice.remove += isNew ? 0 : 1;
      splice.insert.push(key);
    }
    if (!isNew) old++;
    count++;
  }
  return found;
}
