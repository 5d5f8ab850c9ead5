/* Undo and redo of a replica: by new operations, which put back what its own edits have cleared.
   Values are put back where nothing else is by now, counters by amounts: what others have added
   meanwhile stays, and what the edit had cleared is added to it. */

import { operationsOf } from "./followers.mjs";
import { print } from "./json.mjs";
import { covers, keysOf } from "./operations.mjs";
import { isPrefix, endOf, textsOf, writtenOf } from "./places.mjs";
import { pieces } from "./values.mjs";

/** @typedef {import("./operations.mjs").Branches} Branches */
/** @typedef {import("./operations.mjs").Cursor} Cursor */
/** @typedef {import("./operations.mjs").Front} Front */
/** @typedef {import("./operations.mjs").Id} Id */
/** @typedef {import("./operations.mjs").Operation} Operation */
/** @typedef {import("./followers.mjs").Read} Read */

const MOST_STEPS = 1000;

/** @typedef {object} Back What puts back a part of what an edit has cleared.
 *  @property {Cursor} place
 *  @property {"assign" | "add"} word
 *  @property {any} value
 *  @property {Id[]} ids The puts that it stands for.
 *  @property {Edit[]} terms The own additions that it stands for. */

/** @typedef {object} Edit
 *  @property {import("./protocol.mjs").EditWord} word
 *  @property {Cursor} place
 *  @property {string[]} texts Of the place.
 *  @property {Id} id
 *  @property {any} value
 *  @property {Back[]} back
 *  @property {boolean} hadPuts Whether a value was at the place before.
 *  @property {Cursor | null} fresh The topmost place on the way to it that held nothing before.
 *  @property {Front} seen What was logged before it; empty where it has cleared no counter.
 *  @property {Id | null} counted Of an addition: the operation that counts it now. */

/** @typedef {object} Before What an edit is about to change.
 *  @property {{steps: (string | Id)[], word: "assign" | "add", value: any, ids: Id[]}[]} remains
 *  @property {number} fresh How many steps lead to the topmost place that holds nothing; 0: none. */

export class History {
  /** @type {{undo: Edit[][], redo: Edit[][]}} */
  #steps = { undo: [], redo: [] };
  /** @type {"undo" | "redo"} Which of these an edit goes to. */
  #into = "undo";
  /** @type {Edit[] | null} The step that is open. */
  #group = null;
  /** @type {Map<string, Id>} A put that undo made again: the one that stands for it. */
  #now = new Map();
  /** @type {Set<Edit>} Own additions. */
  #adds = new Set();
  #isTurning = false;
  #ask;
  #read;
  #edit;

  /** @param {(request: any[]) => {reply: any[]}} ask
   *  @param {Read} read Throws Refused.
   *  @param {(word: Edit["word"], place: Cursor, ...value: any[]) => Id} edit */
  constructor(ask, read, edit) {
    this.#ask = ask;
    this.#read = read;
    this.#edit = edit;
  }

  get isTurning() { return this.#isTurning; }

  /** What it can take back, and make again. */
  get steps() { return this.#steps; }

  /** Takes over the steps of a generation before: those up to which all can be taken back here.
   *  @param {{undo: Edit[][], redo: Edit[][]}} steps
   *  @param {Map<string, Id>} ids of elements: as they were, and as they are now
   *  @param {Front} start what this generation began with */
  adopt({ undo, redo }, ids, start) {
    const known = /** @type {Id} */ ([start[0]?.[1] ?? 1, start[0]?.[0] ?? ""]);
    const of = (/** @type {Edit[][]} */ steps) => {
      const kept = [];
      for (const step of [...steps].reverse()) {
        const edits = step.map((edit) => this.#adopted(edit, ids, known));
        if (!edits.every((it) => it !== undefined)) break;
        kept.push(/** @type {Edit[]} */ (edits));
      }
      return kept.reverse();
    };
    this.#steps = { undo: of(undo), redo: of(redo) };
    for (const edit of [...this.#steps.undo, ...this.#steps.redo].flat()) {
      if (edit.word === "add") this.#adds.add(edit);
    }
  }

  /** An edit with the ids of now; `undefined` where one isn't there, or what it has cleared counts.
   *  @param {Edit} edit
   *  @param {Map<string, Id>} ids
   *  @param {Id} known
   *  @returns {Edit | undefined} */
  #adopted(edit, ids, known) {
    const mapped = (/** @type {Cursor} */ place) => {
      const now = place.map((step) => (typeof step === "object" ? ids.get(String(step)) : step));
      return now.includes(undefined) ? undefined : /** @type {Cursor} */ (now);
    };
    const [place, fresh] = [mapped(edit.place), edit.fresh && mapped(edit.fresh)];
    const back = edit.back.map((it) => ({ ...it, terms: [], place: mapped(it.place) ?? [] }));
    const isWhole = back.every((it) => it.place.length > 0 && it.word === "assign");
    if (!place || fresh === undefined || !isWhole) return undefined;
    const id = edit.word === "insert" ? ids.get(String(edit.id)) : this.#putOf(edit, place) ?? edit.id;
    const counted = edit.word === "add" && edit.counted ? known : null;
    return id && { ...edit, place, texts: textsOf(place), id, fresh, back, seen: [], counted };
  }

  /** The put at a place that has the value of an assignment.
   *  @param {Edit} edit
   *  @param {Cursor} place */
  #putOf({ word, value }, place) {
    if (word !== "assign") return undefined;
    const same = this.#puts(place).filter(([, it]) => print(it) === print(value));
    return same[same.length - 1]?.[0];
  }

  clear() {
    this.#steps = { undo: [], redo: [] };
    this.#now.clear();
    this.#adds.clear();
  }

  // ---- Recording

  /** Reads what an edit is about to change.
   *  @param {Edit["word"]} word
   *  @param {any[]} request The cursor, as `requestOf` makes it.
   *  @returns {Before} */
  before(word, request) {
    const isClearing = word === "assign" || word === "delete";
    const shown = isClearing ? this.#read("show", request) : [];
    /** @type {Before["remains"]} */
    const remains = [];
    if (shown.length > 0) this.#findRemains(request, shown, [], remains);
    const isNew = word !== "delete" && shown.length === 0;
    return { remains, fresh: isNew ? this.#freshOf(word, request) : 0 };
  }

  /** What is at a place and under it: of several values the last.
   *  @param {any[]} request
   *  @param {Branches} shown
   *  @param {(string | Id)[]} steps
   *  @param {Before["remains"]} found */
  #findRemains(request, shown, steps, found) {
    const [first] = shown;
    const isLone = shown.length === 1 && first[0] === "val";
    const puts = isLone ? [[first[1], first[2]]] : this.#read("conflicts", request);
    const ids = puts.map((/** @type {[Id]} */ [id]) => id);
    if (ids.length > 0) found.push({ steps, word: "assign", value: puts[ids.length - 1][1], ids });
    for (const [kind, inner] of shown) {
      if (kind === "cnt") {
        for (const value of pieces(BigInt(inner))) found.push({ steps, word: "add", value, ids: [] });
      } else if (kind === "map") {
        for (const [key, it] of inner) {
          if (it.length > 0) this.#findRemains([...request, key], it, [...steps, key], found);
        }
      } else if (kind === "list" && inner.length > 0) {
        for (const [at, [id]] of this.#read("items", request).entries()) {
          const it = inner[at];
          if (it.length > 0) this.#findRemains([...request, at + 1], it, [...steps, id], found);
        }
      }
    }
  }

  /** @param {Edit["word"]} word
   *  @param {any[]} request
   *  @returns {number} */
  #freshOf(word, request) {
    const [start, ...rest] = request;
    const before = start === 0 ? 0 : start[0].length;
    const all = before + rest.length;
    let fresh = 0;
    for (let steps = word === "insert" ? all - 1 : all; steps > 0; steps--) {
      const cursor = steps >= before
        ? [start, ...rest.slice(0, steps - before)]
        : [[start[0].slice(0, steps), keysOf(start)[steps]]];
      if (this.#holds(cursor)) break;
      fresh = steps;
    }
    return fresh;
  }

  /** Whether a place holds anything. A counter of 0 is nothing.
   *  @param {any[]} cursor */
  #holds(cursor) {
    if (this.#read("conflicts", cursor).length > 0 || this.#hasElements(cursor)) return true;
    return this.#read("keys", cursor).length > 0 || this.#read("sum", cursor) !== "0";
  }

  /** @param {any[]} cursor */
  #hasElements(cursor) {
    return this.#ask(["sum", [...cursor, 1]]).reply[0] !== "no";
  }

  /** Records an edit that was made.
   *  @param {Operation} op
   *  @param {Before} before */
  after(op, { remains, fresh }) {
    const [, id, , , [word, value]] = op;
    const place = endOf(op);
    const back = remains.map(({ steps, ...it }) => ({ ...it, place: [...place, ...steps] }));
    /** @type {Edit} */
    const edit = {
      word, place, id, value, texts: textsOf(place), counted: word === "add" ? id : null,
      back: back.map((it) => ({ ...it, terms: it.word === "add" ? this.#termsAt(it.place) : [] })),
      hadPuts: back.some((it) => it.word === "assign" && it.place.length === place.length),
      fresh: fresh > 0 ? place.slice(0, fresh + 1) : null,
      seen: back.some((it) => it.word === "add") ? this.#read("front") : [],
    };
    if (word === "add") this.#adds.add(edit);
    if (!this.#isTurning) this.#drop("redo", this.#steps.redo.length);
    this.group(() => this.#group?.push(edit));
  }

  /** @param {Cursor} place */
  #termsAt(place) {
    if (this.#adds.size === 0) return [];
    const here = textsOf(place).join("\0");
    return [...this.#adds].filter(({ texts, counted }) => counted && texts.join("\0") === here);
  }

  /** Is to be called with each logged operation, behind `after`: what it clears counts no more.
   *  @param {Operation} op */
  note(op) {
    const [, id, front, , [word]] = op;
    if (this.#adds.size === 0 || word === "add" || word === "insert") return;
    const [texts, seen] = [textsOf(endOf(op)), new Map(front)];
    for (const edit of this.#adds) {
      if (!edit.counted || edit.counted === id || !isPrefix(texts, edit.texts)) continue;
      if (covers(seen, edit.counted)) edit.counted = null;
    }
  }

  /** Forgets the oldest steps.
   *  @param {"undo" | "redo"} stack
   *  @param {number} count */
  #drop(stack, count) {
    for (const step of this.#steps[stack].splice(0, count)) {
      for (const edit of step) this.#adds.delete(edit);
    }
  }

  /** All edits within `work` are one step.
   *  @template T
   *  @param {() => T} work
   *  @returns {T} */
  group(work) {
    if (this.#group) return work();
    this.#group = [];
    try {
      return work();
    } finally {
      const steps = this.#steps[this.#into];
      if (this.#group.length > 0 || this.#isTurning) steps.push(this.#group);
      this.#drop(this.#into, steps.length - Math.min(steps.length, MOST_STEPS));
      this.#group = null;
    }
  }

  // ---- Taking back

  /** Takes back the last step. `checkRoom` throws if so many operations can't be made; then nothing
   *  was changed, and the step stays.
   *  @param {"undo" | "redo"} from
   *  @param {(count: number) => void} checkRoom
   *  @returns {boolean} Whether there was a step. */
  turn(from, checkRoom) {
    const steps = this.#steps[from];
    const edits = steps[steps.length - 1];
    if (!edits) return false;
    const outermost = this.#outermost(edits);
    const inner = edits.filter((edit) => edit.word === "add" && !outermost.includes(edit));
    checkRoom(outermost.reduce((count, edit) => count + this.#needOf(edit, inner), 0));
    steps.pop();
    [this.#into, this.#isTurning] = [from === "undo" ? "redo" : "undo", true];
    try {
      this.group(() => {
        for (const edit of outermost.reverse()) this.#takeBack(edit, inner);
      });
    } finally {
      [this.#into, this.#isTurning] = ["undo", false];
      for (const edit of edits) this.#adds.delete(edit);
    }
    return true;
  }

  /** The edits of a step without those under a place that the step assigned or inserted before:
   *  these go, and come, with that.
   *  @param {Edit[]} edits */
  #outermost(edits) {
    /** @type {Map<string, boolean>} */
    const roots = new Map();
    return edits.filter((edit) => {
      const { texts, word } = edit;
      const isUnder = texts.some((_, at) => roots.get(texts.slice(0, at).join("\0")));
      const key = texts.join("\0");
      if (!isUnder && (word === "assign" || word === "insert") && !roots.get(key)) {
        roots.set(key, this.#isThere(edit));
      }
      return !isUnder;
    });
  }

  /** Whether what an edit put is still there.
   *  @param {Edit} edit */
  #isThere({ word, place, id }) {
    if (word === "insert") return this.#holds([writtenOf(place)]);
    const mine = this.#stand(id);
    return this.#puts(place).some(([it]) => isSame(it, mine));
  }

  /** @param {Cursor} place
   *  @returns {[Id, any][]} */
  #puts(place) { return this.#read("conflicts", [writtenOf(place)]); }

  /** The put that stands for one now.
   *  @param {Id} id */
  #stand(id) {
    let now = id;
    for (let next; (next = this.#now.get(String(now))); ) now = next;
    return now;
  }

  /** How many operations it takes, at most, to take an edit back.
   *  @param {Edit} edit
   *  @param {Edit[]} inner */
  #needOf(edit, inner) {
    const { word, value, back, counted } = edit;
    if (word === "add") return counted ? pieces(-BigInt(value)).length : 0;
    if (word === "delete") return back.length;
    if (!this.#isThere(edit)) return 0;
    const added = word === "assign" ? this.#addedSince(edit, inner) : [];
    const again = added.reduce((count, { sum }) => count + pieces(sum).length, 0);
    return (edit.hadPuts ? 0 : 1) + back.length + again;
  }

  /** @param {Edit} edit
   *  @param {Edit[]} inner The additions of its step that go with what the step put above them. */
  #takeBack(edit, inner) {
    const { word, place, back } = edit;
    if (word === "add") return this.#takeBackAddition(edit);
    if (word === "delete") return this.#restore(this.#missingOf(edit));
    if (!this.#isThere(edit)) return;
    const others = this.#puts(place).filter(([id]) => !isSame(id, this.#stand(edit.id)));
    if (word === "assign" && others.length > 0) return this.#leave(place, others);
    const added = word === "assign" ? this.#addedSince(edit, inner) : [];
    if (!edit.hadPuts) this.#edit("delete", this.#extent(edit).place);
    this.#restore(back);
    for (const { place: at, sum } of added) this.#addAll(at, sum);
  }

  /** What a deletion has cleared and nobody has put back since.
   *  @param {Edit} edit
   *  @returns {Back[]} */
  #missingOf(edit) {
    const { place, back } = edit;
    if (!this.#holds([writtenOf(place)])) return back;
    const anew = this.#countedAnew(edit);
    return back.filter((it) => {
      if (it.word === "assign") return !this.#holds([writtenOf(it.place)]);
      return BigInt(it.value) !== 0n && !anew.has(keyOf(it.place));
    });
  }

  /** The counters that a deletion has cleared, and that others have counted or put anew, knowing of
   *  it. Who didn't know of it has added to what was there.
   *  @param {Edit} edit
   *  @returns {Set<string>} */
  #countedAnew({ id, back, seen }) {
    const places = back.filter((it) => it.word === "add").map((it) => textsOf(it.place));
    /** @type {Set<string>} */
    const anew = new Set();
    if (places.length === 0) return anew;
    for (const op of operationsOf(this.#read, seen)) {
      const [, [, name], front, , [word]] = op;
      if (name === id[1] || !covers(new Map(front), id)) continue;
      const end = textsOf(endOf(op));
      for (const texts of places) {
        const isAt = isPrefix(end, texts) && (word === "assign" || end.length === texts.length);
        if (isAt) anew.add(texts.join("\0"));
      }
    }
    return anew;
  }

  /** What others have added at the places that an assignment's end clears, or puts back.
   *  @param {Edit} edit
   *  @param {Edit[]} inner
   *  @returns {{place: Cursor, sum: bigint}[]} */
  #addedSince({ place, back }, inner) {
    const cursor = [writtenOf(place)];
    const shown = this.#read("show", cursor);
    if (!hasCounter(shown)) return [];
    /** @type {Before["remains"]} */
    const remains = [];
    this.#findRemains(cursor, shown, [], remains);
    /** @type {Map<string, {place: Cursor, sum: bigint}>} */
    const sums = new Map([place, ...back.map((it) => it.place)].map((it) =>
      [keyOf(it), { place: it, sum: 0n }]));
    for (const { steps, word, value } of remains) {
      const found = word === "add" && sums.get(keyOf([...place, ...steps]));
      if (found) found.sum += BigInt(value);
    }
    for (const { counted, place: at, value } of inner) {
      const found = counted && sums.get(keyOf(at));
      if (found) found.sum -= BigInt(value);
    }
    return [...sums.values()].filter(({ sum }) => sum !== 0n);
  }

  /** @param {Cursor} place
   *  @param {bigint} sum */
  #addAll(place, sum) {
    for (const number of pieces(sum)) this.#edit("add", place, number);
  }

  /** Leaves what others have put at the same time.
   *  @param {Cursor} place
   *  @param {[Id, any][]} puts */
  #leave(place, puts) {
    const shown = this.#read("show", [writtenOf(place)]);
    const isScalar = shown.every((/** @type {any[]} */ [kind]) => kind === "val");
    if (isScalar) this.#edit("assign", place, puts[puts.length - 1][1]);
  }

  /** @param {Edit} edit */
  #takeBackAddition(edit) {
    const { place, value, fresh, counted } = edit;
    if (!counted) return;
    const extent = this.#extent(edit);
    const [[kind, sum] = [], ...others] = extent.shown;
    const isAll = kind === "cnt" && sum === String(value) && others.length === 0;
    if (fresh && isAll) this.#edit("delete", extent.place);
    else this.#addAll(place, -BigInt(value));
  }

  /** @param {Back[]} back */
  #restore(back) {
    for (const { place, word, value, ids, terms } of back) {
      const id = this.#edit(word, place, value);
      for (const it of ids) this.#now.set(String(it), id);
      for (const edit of terms) edit.counted = id;
    }
  }

  /** What goes if an edit goes: the topmost place that held nothing before and has nothing else in
   *  it now; and what the edit's place shows. A counter of 0 is nothing.
   *  @param {Edit} edit
   *  @returns {{place: Cursor, shown: Branches}} */
  #extent({ fresh, place }) {
    let length = (fresh ?? place).length;
    /** @type {Branches} */
    let shown = this.#read("show", [writtenOf(place.slice(0, length))]);
    for (let at = length; at < place.length; at++) {
      const cursor = [writtenOf(place.slice(0, at))];
      const { inner, others } = this.#inner(cursor, shown, place[at]);
      if (others > 0 || this.#read("conflicts", cursor).length > 0) length = at + 1;
      shown = inner;
    }
    return { place: place.slice(0, length), shown };
  }

  /** What a step from a place leads to, and how much else is there.
   *  @param {any[]} cursor
   *  @param {Branches} shown
   *  @param {any} step
   *  @returns {{inner: Branches, others: number}} */
  #inner(cursor, shown, step) {
    const isKey = typeof step === "string";
    const branch = shown.find(([kind]) => kind === (isKey ? "map" : "list"));
    const elements = /** @type {any[]} */ (branch?.[1] ?? []);
    const keys = isKey
      ? elements.map(([key]) => key)
      : this.#read("items", cursor).map((/** @type {[Id]} */ [id]) => String(id));
    const index = keys.indexOf(String(step));
    const values = isKey ? elements.map(([, it]) => it) : elements;
    const beside = values.filter((it, at) => at !== index && it.length > 0);
    const branches = shown.filter((it) => it !== branch && !isZero(it));
    return { inner: values[index] ?? [], others: beside.length + branches.length };
  }
}

/** Whether a counter is in what `show` gives.
 *  @param {Branches} branches
 *  @returns {boolean} */
const hasCounter = (branches) => branches.some(([kind, inner]) => kind === "cnt" ||
  (kind === "map" && inner.some((/** @type {[string, Branches]} */ [, it]) => hasCounter(it))) ||
  (kind === "list" && inner.some(hasCounter)));

/** A place as a key.
 *  @param {Cursor} place */
const keyOf = (place) => textsOf(place).join("\0");

/** @param {any[]} branch */
const isZero = ([kind, sum]) => kind === "cnt" && sum === "0";

/** @param {Id} a
 *  @param {Id} b */
const isSame = (a, b) => a[0] === b[0] && a[1] === b[1];
