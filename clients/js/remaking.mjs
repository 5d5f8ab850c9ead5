/* Going on under a new name, where another has the old one: own operations that the server lacks are
   made again.

   Copies of one store have the same operations. So what was restored from a store is made again
   under a name that is made of what it says: copies make the same of it, and the server has it once.
   It is sent while it is made, one by one, since copies may go on in different ways: where one is
   refused, another copy was first, and what follows gets a further name. What was edited since the
   store was opened is nobody else's, unless it is a file, which may be copied meanwhile: it goes under
   the new name of this replica. */

import { Comparison, isSaying } from "./copies.mjs";
import { Refused, refusalOf } from "./errors.mjs";
import { operationsOf, reading } from "./followers.mjs";
import { isArray, print } from "./json.mjs";
import { nameOf } from "./names.mjs";
import { covers, frontPairs, isId, keysOf, nextCounter } from "./operations.mjs";
import { NAME_USED_TWICE } from "./protocol.mjs";

/** @typedef {import("./exchange.mjs").Ask} Ask */
/** @typedef {import("./exchange.mjs").Core} Core */
/** @typedef {import("./operations.mjs").Id} Id */
/** @typedef {import("./operations.mjs").Key} Key */
/** @typedef {import("./operations.mjs").Operation} Operation */
/** @typedef {import("./operations.mjs").Path} Path */
/** @typedef {import("./jcrdt.mjs").Engine} Engine */

/** @typedef {object} Remade
 *  @property {number} remade How many own operations were made again.
 *  @property {string[]} lost The operations that couldn't be.
 *  @property {string[]} melted Own insertions that the server already has, and that another of this
 *    name may have made there: their elements are one. */

/** @typedef {object} How
 *  @property {string} name The new one.
 *  @property {number} forked From this counter on others have the ids of own operations.
 *  @property {number} sure Own insertions up to this counter are this replica's own.
 *  @property {(same: number) => boolean} isOurs Whether what the server has up to this counter, and is
 *    the same here, is this replica's own.
 *  @property {() => number} stored Up to this counter copies of the store may have own operations.
 *  @property {Set<number>} strays Own operations that the server has logged behind another's.
 *  @property {boolean} isRemade Whether own operations that the server lacks are made again.
 *  @property {boolean} maySend Whether the server may take what is made again. */

/** A log under way from one name to another. */
export class Remaking {
  /** Whether the server takes what is made again, as far as is known. */
  maySend;
  /** @type {Map<string, Id>} Of own operations: as they were, and as they are now. */
  #ids = new Map();
  /** @type {string[]} */
  #lost = [];
  /** @type {string[]} */
  #melted = [];
  /** @type {Map<string, number>} Of a replica: the last of its operations that are the same here
   *  and there. */
  #good = new Map();
  /** @type {Map<string, number>} Of the names under which something was made again: the last one. */
  #made = new Map();
  /** @type {Map<string, number>} Of another replica: from which of its operations on the server has
   *  others. */
  #barred = new Map();
  /** @type {Map<string, {counter: number, need: number}[]>} Of a replica: from which of its
   *  operations on they depend on more of the old name than is the same here and there. */
  #needs = new Map();
  /** @type {Map<string, number>} What was seen of the old log. */
  #seen = new Map();
  /** @type {Operation[]} What the server is to log next. */
  #due = [];
  #shared = ""; // the name under which copies make the same
  #comparison;
  #isForked = false;
  /** @type {Set<string>} Names before of which the server has others' operations. */
  #forked = new Set();
  #core;
  #scratch;
  #how;

  /** @param {Core} core
   *  @param {Engine} scratch It has what the server has.
   *  @param {How} how */
  constructor(core, scratch, how) {
    this.#core = core;
    this.#scratch = scratch;
    this.#how = how;
    this.maySend = how.maySend;
    this.#comparison = new Comparison(core, 0);
  }

  free() { this.#scratch.free(); }

  /** Up to this counter the server has the very same own operations, as far as they were taken. */
  get same() { return this.#good.get(this.#core.name()) ?? 0; }

  /** Takes what the server has, in log order.
   *  @param {any} op */
  begin(op) {
    refusalOf(() => this.#scratch.ask(["deliver", op]).reply);
    this.#comparison.take(op);
  }

  /** Whether copies of the store may have own operations that weren't made again yet. */
  get isBehind() {
    const front = this.#core.front();
    const isUnseen = (/** @type {string} */ name, most = Infinity) =>
      Math.min(front.get(name) ?? 0, most) > (this.#seen.get(name) ?? 0);
    return isUnseen(this.#core.name(), this.#how.stored())
      || [...this.#core.formers().keys()].some((name) => isUnseen(name));
  }

  /** Makes these again, and has the server log it. Returns whether it has; else the server has
   *  something that isn't known here.
   *  @param {Ask} ask
   *  @returns {Promise<boolean>} */
  async send(ask) {
    for (const op of this.#rest()) {
      this.#take(op);
      const last = this.#due[this.#due.length - 1];
      if (last?.[1][1] === this.#shared && !(await this.#isLogged(ask))) return false;
    }
    return true;
  }

  /** Takes the rest of the old log, and returns the lines to go on with: the server's, those of
   *  others that it lacks, and own ones, made again.
   *  @returns {Remade & {lines: string[], ids: Map<string, Id>}} */
  run() {
    for (const op of this.#rest()) this.#take(op);
    const lines = [...operationsOf(reading(this.#scratch), [])].map(print);
    const [ids, lost, melted] = [this.#ids, this.#lost, this.#melted];
    return { remade: ids.size, lost, melted, lines, ids };
  }

  /** What wasn't seen of the old log. */
  *#rest() {
    for (const op of operationsOf(this.#core.read, this.#seen)) {
      this.#seen.set(op[1][1], op[1][0]);
      yield op;
    }
  }

  /** @param {Operation} op */
  #take(op) {
    const [, [, replica]] = op;
    if (replica === this.#core.name()) this.#takeOwn(op);
    else if (this.#core.formers().has(replica)) this.#takeFormer(op);
    else this.#takeOther(op);
  }

  /** One of a name before, which goes on elsewhere: it is another's, as long as the server has no other
   *  one of its id, or of one that it depends on.
   *  @param {Operation} op */
  #takeFormer(op) {
    const [, id] = op;
    const isThere = this.#isThere(op);
    const isTaken = !isThere && covers(new Map(this.#scratch.ask(["front"]).reply[1]), id);
    const isGiven = this.#how.isRemade && !this.#isBarred(op);
    const isOthers = !this.#forked.has(id[1]) && !isTaken && (isThere || isGiven);
    if (isOthers) return this.#takeOther(op);
    this.#forked.add(id[1]);
    this.#makeAgain(op);
  }

  /** Whether the server has logged what is due. One at a time: where another copy has gone on in
   *  another way, nothing may go behind its operations.
   *  @param {Ask} ask */
  async #isLogged(ask) {
    for (const op of this.#due.splice(0)) {
      /** @type {unknown} */
      const reply = await ask("deliver", op).catch((error) => error);
      if (reply instanceof Refused) {
        this.maySend &&= NAME_USED_TWICE.has(reply.number);
        return false;
      }
      if (reply instanceof Error) throw reply;
      if (!isArray(reply)) continue;
      await ask("forget", op[1]); // it is held: the server lacks what it had before
      return false;
    }
    return true;
  }

  /** @param {Operation} op */
  #deliver(op) {
    const reply = refusalOf(() => this.#scratch.ask(["deliver", op]).reply);
    const [word] = reply instanceof Refused ? reply.reply : reply;
    if (word === "held") this.#scratch.ask(["forget", op[1]]);
    return word;
  }

  /** @param {Operation} op */
  #takeOther(op) {
    const [counter, replica] = op[1];
    const word = this.#isBarred(op) && !this.#isThere(op) ? "barred" : this.#deliver(op);
    if (word === "applied") this.#due.push(op);
    if (word !== "applied" && word !== "known") {
      this.#lost.push(print(op));
      if (!this.#barred.has(replica)) this.#barred.set(replica, counter);
    } else if (!this.#barred.has(replica)) {
      this.#good.set(replica, counter);
      this.#noteNeed(op);
    }
  }

  /** Whether it depends on an operation of another replica in whose place the server has another one.
   *  Who made it makes it again.
   *  @param {Operation} op */
  #isBarred([, [counter, replica], front]) {
    const known = [...front, /** @type {[string, number]} */ ([replica, counter])];
    return known.some(([name, last]) => last >= (this.#barred.get(name) ?? Infinity));
  }

  /** @param {Operation} op */
  #takeOwn(op) {
    const [, [counter, replica], , , [word]] = op;
    const { forked, sure } = this.#how;
    if (!this.#isForked && counter < forked && this.#isThere(op) && !this.#isOfAnother(op)) {
      this.#good.set(replica, counter);
      if (word === "insert" && counter > sure) this.#melted.push(print(op));
      return;
    }
    // What was said of a name before is of no use: what that made is made again, too.
    if (this.#core.formers().size > 0 && isSaying(op)) return;
    this.#isForked = true;
    if (this.#how.strays.has(counter) && this.#isThere(op)) {
      this.#ids.set(String(op[1]), op[1]);
      return void this.#made.set(replica, counter);
    }
    this.#makeAgain(op);
  }

  /** @param {Operation} op */
  #makeAgain(op) {
    const id = this.#how.isRemade && (this.#madeShared(op) ?? this.#madeOwn(op));
    if (id) this.#ids.set(String(op[1]), id);
    else this.#lost.push(print(op));
  }

  /** Whether the server has the very same operation.
   *  @param {Operation} op */
  #isThere(op) {
    const front = new Map(this.#scratch.ask(["front"]).reply[1]);
    return covers(front, op[1]) && this.#deliver(op) === "known";
  }

  /** Whether it inserts an element that another of this name inserted alike: at the server something
   *  else is put into it at once, as another title into a new card. Of one that was begun before a copy
   *  of the store was made the copy says so: it stays one.
   *  @param {Operation} op */
  #isOfAnother([, id, , , [word]]) {
    const [counter, own] = id;
    const { same, copied } = this.#comparison;
    const ours = this.#how.isOurs(same) ? same : Math.min(same, copied);
    if (word !== "insert" || counter <= ours) return false;
    const front = new Map(this.#core.front()).set(own, counter);
    const [next] = operationsOf(this.#core.read, front);
    if (!next || !next[3][0].some(([, key]) => String(key) === String(id))) return false;
    const theirs = new Map(this.#scratch.ask(["front"]).reply[1]);
    return covers(theirs, next[1]) && !this.#isThere(next);
  }

  /** Makes it again as each copy of the store does, where copies may have it.
   *  @param {Operation} op
   *  @returns {Id | undefined} */
  #madeShared(op) {
    const [, [counter, replica]] = op;
    const isLater = replica === this.#core.name() && counter > this.#how.stored();
    if (isLater || this.#made.has(this.#how.name) || !this.#isMakeable(op)) return undefined;
    const session = this.#core.sessionOf(counter, replica);
    const what = [op[1], this.#renamed(op, "")];
    const fresh = nameOf("again", print(session === "" ? what : [...what, session]));
    const ways = [this.#shared, fresh].filter((name) => name !== "").map((name) => this.#renamed(op, name));
    const there = ways.find((it) => this.#isThere(it)); // another copy was first
    const again = there ?? (this.maySend ? ways.find((it) => this.#deliver(it) === "applied") : undefined);
    if (!again) return undefined;
    if (!there) this.#due.push(again);
    [, [, this.#shared]] = again;
    return this.#noted(again);
  }

  /** Makes it again under the new name.
   *  @param {Operation} op
   *  @returns {Id | undefined} */
  #madeOwn(op) {
    if (!this.#isMakeable(op)) return undefined;
    const again = this.#renamed(op, this.#how.name);
    return this.#deliver(again) === "applied" ? this.#noted(again) : undefined;
  }

  /** @param {Operation} op */
  #noted(op) {
    const [, id] = op;
    this.#made.set(id[1], id[0]);
    this.#noteNeed(op);
    return id;
  }

  /** Notes what is needed of the old name by who depends on an operation.
   *  @param {Operation} op */
  #noteNeed([, [counter, replica], front]) {
    const own = this.#core.name();
    const need = front.find(([name]) => name === own)?.[1] ?? 0;
    if (need <= (this.#good.get(own) ?? 0)) return;
    const needs = this.#needs.get(replica) ?? [];
    this.#needs.set(replica, needs);
    if (needs[needs.length - 1]?.need !== need) needs.push({ counter, need });
  }

  /** What is needed of the old name by who depends on all of these.
   *  @param {Map<string, number>} front */
  #needOf(front) {
    let most = 0;
    for (const [replica, last] of front) {
      for (const { counter, need } of this.#needs.get(replica) ?? []) {
        if (counter <= last) most = Math.max(most, need);
      }
    }
    return most;
  }

  /** Whether each element that an operation is about is there.
   *  @param {Operation} op */
  #isMakeable([, , , cursor]) {
    const ids = keysOf(cursor).filter(isId);
    return ids.every((id) => this.#ids.has(String(id)) || covers(this.#good, id));
  }

  /** The operation under another name, with what it knew.
   *  @param {Operation} op
   *  @param {string} name
   *  @returns {Operation} */
  #renamed([, , front, [path, key], mutation], name) {
    const known = new Map(front);
    /** @type {Map<string, number>} */
    const last = new Map(this.#made);
    for (const [replica, good] of this.#good) {
      const counter = Math.min(good, known.get(replica) ?? 0);
      if (counter > (last.get(replica) ?? 0)) last.set(replica, counter);
    }
    const [own, need] = [this.#core.name(), this.#needOf(last)];
    if (need > (last.get(own) ?? 0)) last.set(own, need); // that of another who has the name
    const all = frontPairs(last);
    /** @param {Key} it @returns {Key} */
    const now = (it) => (isId(it) ? this.#ids.get(String(it)) ?? it : it);
    /** @type {Path} */
    const where = path.map(([tag, it]) => [tag, now(it)]);
    return ["op", [nextCounter(all), name], all, [where, now(key)], mutation];
  }
}
