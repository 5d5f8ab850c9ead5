/* What listeners of a replica hear: one event for all that was logged together, one at a time. */

import { parse } from "./json.mjs";
import { reserve } from "./lasting.mjs";
import { endOf, isPrefix, textsOf } from "./places.mjs";

/** @typedef {import("./operations.mjs").Cursor} Cursor */
/** @typedef {import("./operations.mjs").Id} Id */
/** @typedef {import("./operations.mjs").Operation} Operation */
/** @typedef {{index: number, remove: number, insert: any[]}} Splice As of Array.splice: to be
 *    made one after another. */
/** @typedef {"own" | "undo" | "taken" | "remade"} Why */

/** @typedef {object} Change Where an operation ended, by ids, and what it was.
 *  @property {Id} id
 *  @property {import("./protocol.mjs").EditWord} word
 *  @property {Cursor} place
 *  @property {any} [value] */

/** @typedef {object} Event
 *  @property {Why} why
 *  @property {string[]} lines The operations, as they are stored. None with "remade".
 *  @property {string[]} [gone] With "remade": what was in the log, and isn't any more.
 *  @property {Id[]} ids
 *  @property {Change[]} changes */

/** @typedef {(event: Event) => any} Heard */
/** @typedef {(splices: Splice[], why: Why) => any} Changed */

/** @typedef {object} Source What a watch asks for splices.
 *  @property {() => Splice[]} take What has changed since it was last called.
 *  @property {(op: Operation) => void} [note] Is called with each operation at, under or above the
 *    watch's place, once the engine has it, before `take`.
 *  @property {(lines: string[]) => void} [renew] Anything may have changed before `take`: these are
 *    all operations.
 *  @property {() => void} end
 *  @property {number} [length] Of the list, if the source knows it. */

/** @typedef {object} Watch
 *  @property {Cursor} place
 *  @property {string[]} texts Of the place.
 *  @property {Source} source
 *  @property {number} length Of the list, as the splices made it.
 *  @property {Changed} changed */

/** Operations that were logged. What is known by its line alone is read once it is asked for. */
class Logged {
  #ops;

  /** @param {string[]} lines
   *  @param {Operation[]} [ops] */
  constructor(lines, ops = []) {
    this.lines = lines;
    this.#ops = ops;
  }

  /** @param {number} at
   *  @returns {Operation} */
  #op(at) { return (this.#ops[at] ??= /** @type {Operation} */ (parse(this.lines[at]))); }

  /** @returns {Operation[]} */
  get ops() { return this.lines.map((_, at) => this.#op(at)); }

  /** Whether one of them is such. Those behind it aren't read.
   *  @param {(op: Operation) => boolean} isSuch */
  some(isSuch) { return this.lines.some((_, at) => isSuch(this.#op(at))); }
}

export class Events {
  /** @type {Set<Heard>} */
  #listeners = new Set();
  /** @type {Set<Watch>} */
  #watches = new Set();
  /** @type {(() => void)[]} Calls that wait for the one under way. */
  #queue = [];
  #isCalling = false;
  #depth = 0; // of batches
  /** @type {Logged[]} What the batch has logged. */
  #logged = [];
  /** @type {Why} */
  #why = "own";
  #failed;

  /** @param {(error: any) => any} failed Is called with what a listener has thrown. */
  constructor(failed) {
    this.#failed = failed;
  }

  get hasWatches() { return this.#watches.size > 0; }

  /** @param {Heard} heard */
  listen(heard) {
    this.#listeners.add(heard);
    return () => void this.#listeners.delete(heard);
  }

  /** @param {Cursor} place
   *  @param {Source} source
   *  @param {number} length
   *  @param {Changed} changed */
  watch(place, source, length, changed) {
    const watch = { place, texts: textsOf(place), source, length, changed };
    this.#watches.add(watch);
    return () => {
      if (this.#watches.delete(watch)) watch.source.end();
    };
  }

  /** All that is logged within `work` is one event, at its end. Where the stack is nearly exhausted
   *  it throws instead: what was begun there could be logged, and not heard.
   *  @template T
   *  @param {() => T} work
   *  @returns {T} */
  batch(work) {
    if (this.#depth === 0) reserve();
    this.#depth++;
    try {
      return work();
    } finally {
      if (--this.#depth === 0) this.#close();
    }
  }

  /** Is called with what the engine has logged at once, before `log`.
   *  @param {Operation[]} ops */
  note(ops) {
    if (this.#watches.size === 0) return;
    for (const op of ops) {
      const texts = textsOf(endOf(op));
      for (const watch of this.#watches) if (concerns(watch, op, texts)) watch.source.note?.(op);
    }
  }

  /** Is called in place of `note` and `log` with all that the engine has, where all of it is new.
   *  @param {string[]} lines
   *  @param {Why} why */
  begin(lines, why) {
    for (const { source } of this.#watches) source.renew?.(lines);
    this.#log(new Logged(lines), why);
  }

  /** @param {string} line
   *  @param {Operation} op
   *  @param {Why} why */
  log(line, op, why) { this.#log(new Logged([line], [op]), why); }

  /** @param {Logged} logged
   *  @param {Why} why */
  #log(logged, why) {
    if (why !== this.#why) this.#close(false);
    this.#why = why;
    this.#logged.push(logged);
  }

  /** Makes an event of what was logged. */
  #close(isCalled = true) {
    const [why, logged] = [this.#why, this.#logged.splice(0)];
    if (logged.length > 0) {
      const event = eventOf(why, logged);
      this.#queue.push(() => this.#call(this.#listeners, event));
      for (const watch of this.#watches) this.#look(watch, why, logged);
    }
    if (isCalled) this.#drain();
  }

  /** @param {Watch} watch
   *  @param {Why} why
   *  @param {Logged[]} logged */
  #look(watch, why, logged) {
    if (!logged.some((it) => it.some((op) => concerns(watch, op, textsOf(endOf(op)))))) return;
    this.#queueSplices(watch, watch.source.take(), why);
  }

  /** @param {Watch} watch
   *  @param {Splice[]} splices
   *  @param {Why} why */
  #queueSplices(watch, splices, why) {
    for (const { remove, insert } of splices) watch.length += insert.length - remove;
    this.#queue.push(() => this.#watches.has(watch) && this.#guard(watch.changed, splices, why));
  }

  /** @param {Set<Heard>} listeners
   *  @param {Event} event */
  #call(listeners, event) {
    for (const heard of [...listeners]) if (listeners.has(heard)) this.#guard(heard, event);
  }

  /** @param {(...items: any[]) => any} callback
   *  @param {...any} items */
  #guard(callback, ...items) {
    try {
      callback(...items);
    } catch (error) {
      this.#failed(error);
    }
  }

  /** Makes the calls in their order. Those that a call brings about come behind it. */
  #drain() {
    if (this.#isCalling) return;
    this.#isCalling = true;
    try {
      for (let call; (call = this.#queue.shift()); ) call();
    } finally {
      this.#isCalling = false;
    }
  }

  /** Everything is another: watches go on at the places of now.
   *  @param {string[]} gone
   *  @param {(place: Cursor) => {place: Cursor, source: Source, values: any[]} | undefined} again */
  remade(gone, again) {
    const event = { ...eventOf("remade", []), gone };
    this.#queue.push(() => this.#call(this.#listeners, event));
    for (const watch of this.#watches) {
      watch.source.end();
      const now = again(watch.place);
      const insert = now?.values ?? [];
      const splice = { index: 0, remove: watch.length, insert };
      if (now) Object.assign(watch, { ...now, texts: textsOf(now.place) });
      else Object.assign(watch, { source: { take: () => [], end() {} }, texts: ["gone"] });
      this.#queueSplices(watch, splice.remove || insert.length > 0 ? [splice] : [], "remade");
    }
    this.#drain();
  }
}

/** Whether an operation is at, under or above a watch's place.
 *  @param {Watch} watch
 *  @param {Operation} op
 *  @param {string[]} texts Of where it ends. */
const concerns = (watch, op, texts) => isPrefix(watch.texts, texts) ||
  (clears(op) && isPrefix(texts, watch.texts));

/** Whether an operation can change what is under its place.
 *  @param {Operation} op */
const clears = (op) => op[4][0] === "assign" || op[4][0] === "delete";

/** @param {Why} why
 *  @param {Logged[]} logged
 *  @returns {Event} */
function eventOf(why, logged) {
  /** @type {Change[] | undefined} */
  let changes;
  return {
    why,
    lines: logged.length === 1 ? logged[0].lines : logged.flatMap(({ lines }) => lines),
    get ids() { return logged.flatMap(({ ops }) => ops.map((op) => op[1])); },
    get changes() { return (changes ??= logged.flatMap(({ ops }) => ops.map(changeOf))); },
  };
}

/** @param {Operation} op
 *  @returns {Change} */
const changeOf = (op) => ({ id: op[1], word: op[4][0], place: endOf(op), value: op[4][1] });
