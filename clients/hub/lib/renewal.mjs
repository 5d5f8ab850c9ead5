/* The operations that make what a document shows, for its next generation.

   A value is what `show` gives: branches ["map",..], ["list",..], ["val",ID,scalar] and ["cnt",TEXT].
   One replica makes all but what it can't: of several scalars at one place, or an empty map or list
   beside a scalar, each further one is assigned by another replica that doesn't know of the first.

   So that an assignment of another replica clears nothing, it must not know of what is at its place and
   below it, and it must know of the elements on the way to it. Therefore the first replica works in
   stages: stage 0 is what lies under no conflict, stage 1 is what is at and under one, and so on. What
   others assign at a conflict of stage n knows of the stages before n.

   What is changed while the next generation is made comes behind: each time the first replica, which
   knows of all before, changes what it made into what is shown now. A place whose values are others is
   made anew, by stages again. */

import { frontPairs, pieces, print } from "./client_package.mjs";

/** @typedef {import("../../js/wire.mjs").Id} Id */
/** @typedef {import("../../js/wire.mjs").Operation} Operation */
/** @typedef {any[][] & { element?: Id, now?: Id }} Branches An element of a list has its id of before,
 *    and once it is made that of now. */
/** @typedef {[path: any[], key: any]} Place */
/** @typedef {{ mine: (() => void)[], others: ((before: Map<string, number>) => void)[] }} Stage What
 *    the first replica does, and what others do before it with the front of the stages before. */

/** @type {Place} */
const ROOT = [[], 0];

/** The path to what is in the map at a place, or in its list.
 *  @param {Place} place @param {"m" | "l"} kind @returns {any[]} */
const pathInto = ([path, last], kind) => [...path, [kind, last]];

/** @param {Place} place @param {"m" | "l"} kind @param {any} key @returns {Place} */
const below = (place, kind, key) => [pathInto(place, kind), key];

/** What is in the map, what is in the list, the scalars, and the counter.
 *  @param {Branches} branches */
function parted(branches) {
  const of = (/** @type {string} */ kind) => branches.find(([it]) => it === kind)?.[1];
  const scalars = branches.filter(([kind]) => kind === "val").map((it) => it[2]);
  return { map: of("map"), list: of("list"), scalars, counter: of("cnt") };
}

/** What is to be assigned for these branches: by the first replica the first of them, and each other
 *  by another one. A map or list with something in it comes about by what is put into it, unless it is
 *  all there is.
 *  @param {Branches} branches */
function valuesToPut(branches) {
  const { map, list, scalars } = parted(branches);
  const inside = [{ value: {}, inner: map }, { value: [], inner: list }].filter((it) => it.inner);
  const values = [...scalars, ...inside.filter((it) => it.inner.length === 0).map((it) => it.value)];
  return values.length > 0 ? values : inside.slice(0, 1).map((it) => it.value);
}

/** Whether a place stays as it is but for what is in its map, in its list and in its counter: it has
 *  the same kinds of branches, and the same scalars. A map or list beside others may be there by what is
 *  in it alone: once it is empty, its place is made anew.
 *  @param {Branches} before @param {Branches} now */
function isKept(before, now) {
  const [old, of] = [parted(before), parted(now)];
  /** @param {"map" | "list" | "counter"} kind */
  const isAlike = (kind) => (old[kind] === undefined) === (of[kind] === undefined);
  /** @param {"map" | "list"} kind */
  const isEmptied = (kind) => old[kind]?.length > 0 && of[kind]?.length === 0;
  return isAlike("map") && isAlike("list") && isAlike("counter") && hasSame(old.scalars, of.scalars)
    && (now.length === 1 || !(isEmptied("map") || isEmptied("list")));
}

/** Whether these are the same scalars, in whatever order.
 *  @param {any[]} some @param {any[]} others */
function hasSame(some, others) {
  if (some.length !== others.length) return false;
  if (some.length === 1) return some[0] === others[0];
  const [left, right] = [some, others].map((all) => all.map((it) => print(it)).sort());
  return left.every((it, at) => it === right[at]);
}

/** What each element of a list was before, and which of those before are gone. Most lists are as they
 *  were at their beginning and at their end.
 *  @param {Branches[]} before @param {Branches[]} now */
function paired(before, now) {
  const most = Math.min(before.length, now.length);
  const start = countSame(most, (at) => [before[at], now[at]]);
  const end = countSame(most - start, (at) => [before[before.length - 1 - at], now[now.length - 1 - at]]);
  const gone = new Map(before.slice(start, before.length - end).map((it) => [String(it.element), it]));
  const olds = now.map((inner, at) => {
    if (at < start) return before[at];
    if (at >= now.length - end) return before[at + before.length - now.length];
    const key = String(inner.element);
    const old = gone.get(key);
    gone.delete(key);
    return old;
  });
  return { olds, gone: [...gone.values()] };
}

/** How many pairs are of the same id, until one isn't.
 *  @param {number} most @param {(at: number) => (Branches | undefined)[]} pair */
function countSame(most, pair) {
  for (let at = 0; at < most; at++) {
    const [one, other] = pair(at);
    if (!isSameId(one?.element, other?.element)) return at;
  }
  return most;
}

/** @param {Id | undefined} one @param {Id | undefined} other */
const isSameId = (one, other) => one?.[0] === other?.[0] && one?.[1] === other?.[1];

/** A replica that makes operations. */
class Maker {
  last = 0;
  name;

  /** @param {string} name */
  constructor(name) {
    this.name = name;
  }

  /** An operation whose maker knows of these others, and of its own.
   *  @param {Map<string, number>} known @param {Place} place @param {any} mutation
   *  @returns {Operation} */
  make(known, place, mutation) {
    /** @type {[string, number][]} */
    const own = this.last ? [[this.name, this.last]] : [];
    const front = known.size === 0 ? own : frontPairs(new Map([...known, ...own]));
    this.last = 1 + Math.max(this.last, ...known.values());
    return ["op", [this.last, this.name], front, place, mutation];
  }
}

/** The operations of a renewal, in an order in which they can be delivered. The first of them changes
 *  nothing: it is a delete where nothing is, so that each generation has an operation. */
export class Renewal {
  /** @type {Operation[]} */
  operations = [];
  #name;
  #makers;
  /** @type {Stage[]} */
  #stages = [];
  /** What the first replica knows of the others: all that they made before it goes on.
   *  @type {Map<string, number>} */
  #known = new Map();
  #shown;

  /** @param {string} name what the names of its replicas begin with
   *  @param {Branches} branches */
  constructor(name, branches) {
    this.#name = name;
    const first = new Maker(`${name}-1`);
    this.#makers = [first];
    this.#shown = branches;
    this.#mine(ROOT, ["delete"]);
    this.#atStage(0, ROOT, branches, false);
    this.#carryOut();
  }

  /** Goes on to what is shown now. Returns the operations that it takes.
   *  @param {Branches} branches
   *  @returns {Operation[]} */
  goOn(branches) {
    const from = this.operations.length;
    this.#stages = [];
    this.#known = new Map(this.#makers.slice(1).map(({ name, last }) => [name, last]));
    this.#change(ROOT, this.#shown, branches);
    this.#carryOut();
    this.#shown = branches;
    return this.operations.slice(from);
  }

  #carryOut() {
    const first = /** @type {Maker} */ (this.#makers[0]);
    for (let at = 0; at < this.#stages.length; at++) {
      const { mine, others } = this.#plan(at);
      const before = new Map([...this.#known, [first.name, first.last]]);
      for (const work of others) work(before);
      // Work of this stage may add more to it, and to later ones.
      for (let next = 0; next < mine.length; next++) mine[next]?.();
    }
  }

  /** The elements of each list, in its order: their ids of before, and of now.
   *  @returns {[old: Id, now: Id][][]} */
  get lists() {
    /** @type {[Id, Id][][]} */
    const lists = [];
    /** @param {Branches} branches */
    const look = (branches) => {
      const { map, list } = parted(branches);
      for (const [, inner] of map ?? []) look(inner);
      if (list?.[0]) lists.push(list.map((/** @type {Branches} */ it) => [it.element, it.now]));
      for (const inner of list ?? []) if (!isPlain(inner)) look(inner);
    };
    look(this.#shown);
    return lists;
  }

  /** What each of its replicas made last.
   *  @returns {[string, number][]} */
  get front() {
    /** @type {[string, number][]} */
    const pairs = this.#makers.map(({ name, last }) => [name, last]);
    return frontPairs(pairs);
  }

  /** Plans what is at a place. `hasValue`: an insertion has put its one value there.
   *  @param {number} stage @param {Place} place @param {Branches} branches
   *  @param {boolean} hasValue */
  #atStage(stage, place, branches, hasValue) {
    if (isPlain(branches) && !hasValue) return void this.#mine(place, ["assign", branches[0]?.[2]]);
    const [first, ...others] = valuesToPut(branches).map((value) => ({ value }));
    const conflict = others.length > 0 ? stage + 1 : stage;
    for (const [at, { value }] of others.entries()) {
      this.#plan(conflict).others.push((before) => this.#assignApart(at + 1, before, place, value));
    }
    const assigned = first && !hasValue ? [first.value] : [];
    this.#plan(conflict).mine.push(() => this.#fill(conflict, place, branches, assigned));
  }

  /** @param {number} stage @returns {Stage} */
  #plan(stage) {
    return (this.#stages[stage] ??= { mine: [], others: [] });
  }

  /** @param {Place} place @param {any} mutation @returns {Id} */
  #mine(place, mutation) {
    const [first] = this.#makers;
    const made = /** @type {Maker} */ (first).make(this.#known, place, mutation);
    this.operations.push(made);
    return made[1];
  }

  /** @param {number} number @param {Map<string, number>} before @param {Place} place
   *  @param {any} value */
  #assignApart(number, before, place, value) {
    const maker = (this.#makers[number] ??= new Maker(`${this.#name}-${number + 1}`));
    this.operations.push(maker.make(before, place, ["assign", value]));
  }

  /** Makes what is at a place, and plans what is below it.
   *  @param {number} stage @param {Place} place @param {Branches} branches @param {any[]} assigned */
  #fill(stage, place, branches, assigned) {
    const { map, list, counter } = parted(branches);
    for (const value of assigned) this.#mine(place, ["assign", value]);
    if (branches.length === 0 && place !== ROOT) {
      // It is there and holds nothing: what is put below it and deleted leaves it so.
      this.#mine(below(place, "m", ""), ["assign", null]);
      this.#mine(below(place, "m", ""), ["delete"]);
    }
    const path = pathInto(place, "m");
    for (const [key, inner] of map ?? []) this.#atStage(stage, [path, key], inner, false);
    if (list) this.#insert(stage, pathInto(place, "l"), list);
    const parts = counter === undefined ? [] : pieces(BigInt(counter));
    for (const part of parts) this.#mine(place, ["add", part]);
  }

  /** @param {number} stage @param {any[]} path @param {Branches[]} elements */
  #insert(stage, path, elements) {
    /** @type {1 | Id} */
    let last = 1;
    for (const inner of elements) last = this.#insertOne(stage, path, last, inner);
  }

  /** @param {number} stage @param {any[]} path @param {1 | Id} behind @param {Branches} inner
   *  @returns {Id} */
  #insertOne(stage, path, behind, inner) {
    if (isPlain(inner)) return (inner.now = this.#mine([path, behind], ["insert", inner[0]?.[2]]));
    const values = valuesToPut(inner);
    // What conflicts is assigned later; until then null is there.
    const value = values.length === 1 ? values[0] : null;
    const now = (inner.now = this.#mine([path, behind], ["insert", value]));
    // What follows the deletion makes the element present again.
    if (values.length === 0) this.#mine([path, now], ["delete"]);
    this.#atStage(stage, [path, now], inner, values.length === 1);
    return now;
  }

  // ---- What was changed meanwhile

  /** Changes what was made at a place into what is shown now.
   *  @param {Place} place @param {Branches} before @param {Branches} now */
  #change(place, before, now) {
    if (!isKept(before, now)) {
      if (valuesToPut(now).length === 0) this.#mine(place, ["delete"]); // else what is assigned clears it
      return this.#atStage(0, place, now, false);
    }
    const [old, of] = [parted(before), parted(now)];
    if (of.map) this.#changeMap(pathInto(place, "m"), old.map, of.map);
    if (of.list) this.#changeList(pathInto(place, "l"), old.list, of.list);
    if (of.counter === old.counter) return;
    for (const part of pieces(BigInt(of.counter) - BigInt(old.counter))) this.#mine(place, ["add", part]);
  }

  /** @param {any[]} path @param {[string, Branches][]} before @param {[string, Branches][]} now */
  #changeMap(path, before, now) {
    const gone = new Map(before);
    for (const [key, inner] of now) {
      const old = gone.get(key);
      gone.delete(key);
      if (!old) this.#atStage(0, [path, key], inner, false);
      else if (!isSamePlain(old, inner)) this.#change([path, key], old, inner);
    }
    this.#delete(path, gone.keys());
  }

  /** @param {any[]} path @param {Branches[]} before @param {Branches[]} now */
  #changeList(path, before, now) {
    const { olds, gone } = paired(before, now);
    /** @type {1 | Id} */
    let last = 1;
    for (const [at, inner] of now.entries()) {
      const old = olds[at];
      inner.now = old?.now ?? this.#insertOne(0, path, last, inner);
      last = inner.now;
      if (old && !isSamePlain(old, inner)) this.#change([path, last], old, inner);
    }
    this.#delete(path, gone.map((it) => it.now));
  }

  /** @param {any[]} path @param {Iterable<any>} keys */
  #delete(path, keys) {
    for (const key of keys) this.#mine([path, key], ["delete"]);
  }
}

/** Whether there is one scalar at a place, and nothing else.
 *  @param {Branches} branches */
const isPlain = (branches) => branches.length === 1 && branches[0]?.[0] === "val";

/** @param {Branches} before @param {Branches} now */
const isSamePlain = (before, now) => isPlain(before) && isPlain(now) && before[0]?.[2] === now[0]?.[2];

/** Whether two documents show the same, but for the ids of values. Scalars that conflict are in the order
 *  of their ids, which are others in another document.
 *  @param {Branches} some @param {Branches} others
 *  @returns {boolean} */
export function showSame(some, others) {
  if (isSamePlain(some, others)) return true;
  const [left, right] = [parted(some), parted(others)];
  const isAlike = left.counter === right.counter && hasSame(left.scalars, right.scalars)
    && left.map?.length === right.map?.length && left.list?.length === right.list?.length;
  return isAlike
    && (left.map ?? []).every((/** @type {[string, Branches]} */ [key, it], /** @type {number} */ at) =>
      key === right.map[at][0] && showSame(it, right.map[at][1]))
    && (left.list ?? []).every((/** @type {Branches} */ it, /** @type {number} */ at) =>
      showSame(it, right.list[at]));
}
