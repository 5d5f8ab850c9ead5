/* A replica for Node and browsers: it has the document, reads and edits it offline, and exchanges
   operations with servers.

     import { freshName, openReplica } from "jcrdt";
     const me = await openReplica(freshName("ada"), "notes");
     me.put([0], { title: "Plan", steps: ["ask", "build"] }); // needs no server
     await me.sync(answer); // answer(line) sends a request line and resolves its reply's line

   The caller sees to two things: one replica alone ever uses a name, and lines that `listen`
   reports are stored before `sync`. (provider.mjs does both.)

   A cursor is an array, as in requests: 0 for the document, then texts (down into maps) and
   indices (into lists: 0 is the head, 1 the first element). A step can also be an element's id,
   [counter,replica]. Integers beyond 2^53 are BigInt, in both directions.

   Log and tree are the engine's: the proved replica, jcrdt.wasm. */

import { CLOCK } from "./clock.mjs";
import { copyPlace, placeOfSayings, sayings } from "./copies.mjs";
import { Refused, refusalOf } from "./errors.mjs";
import { Events } from "./events.mjs";
import { Exchange } from "./exchange.mjs";
import { operationsOf, placeAt, reading } from "./followers.mjs";
import { carried, composed } from "./generations.mjs";
import { History } from "./history.mjs";
import { load, loaded } from "./jcrdt.mjs";
import { isArray, isMap, parse, print } from "./json.mjs";
import { LastingEngine } from "./lasting.mjs";
import { MOST } from "./limits.mjs";
import { Mirror } from "./mirror.mjs";
import { isName } from "./names.mjs";
import { covers, frontPairs, isId } from "./operations.mjs";
import { endOf, requestOf, writtenOf } from "./places.mjs";
import { REFUSALS } from "./protocol.mjs";
import { remakeIn } from "./renewal.mjs";
import { cut, lengthOf } from "./runs.mjs";
import {
  Counter, bare, byteLength, checkValue, checkedInteger, integer, isBare, isGiven, pieces, plain,
} from "./values.mjs";

/** @typedef {import("./events.mjs").Changed} Changed */
/** @typedef {import("./events.mjs").Heard} Heard */
/** @typedef {import("./events.mjs").Why} Why */
/** @typedef {import("./exchange.mjs").Answer} Answer */
/** @typedef {import("./exchange.mjs").Remade} Remade */
/** @typedef {import("./exchange.mjs").Report} Report */
/** @typedef {import("./exchange.mjs").Taken} Taken */
/** @typedef {import("./jcrdt.mjs").Open} Open */
/** @typedef {import("./operations.mjs").Cursor} Cursor */
/** @typedef {import("./operations.mjs").Id} Id */
/** @typedef {import("./operations.mjs").Operation} Operation */
/** @typedef {import("./operations.mjs").Scalar} Scalar */

/** @typedef {object} Options
 *  @property {Open} [engine] What makes the engine: what `load` has given, unless it is said. */

/** @typedef {{line: string, number: number, name: string}} Unread A line that couldn't be taken. */

/** A new replica, or the one of stored operations: see `Replica` and `restore`. It loads the engine
 *  first, where that isn't loaded yet.
 *  @param {string} name
 *  @param {string} doc
 *  @param {string[]} [lines] The operations' lines.
 *  @returns {Promise<Replica>} */
export async function openReplica(name, doc, lines = []) {
  await load();
  return Replica.restore([print(["replica", name, doc]), ...lines]);
}

export class Replica {
  /** @type {Unread[]} After `restore`: the lines that couldn't be taken, and why. */
  unread = [];
  /** Whether others may send own operations for this replica, as tabs that share a store. If not,
   *  an own operation at a server that wasn't sent from here shows that another has the name. */
  isShared = false;
  /** Whether a file has what is edited here, so that copies may be made of it meanwhile. */
  isFiled = false;
  /** Whether what was restored may be that of a program that goes on: its store wasn't closed. */
  wasOpen = false;
  /** Whether its name is of this opening of the store: so only copies that were made since have it. */
  isNew = false;
  /** For tests: what waiting goes by.
   *  @type {import("./clock.mjs").Clock} */
  clock = CLOCK;
  /** Words of the times in which own operations were made, each from behind a counter on.
   *  @type {import("./copies.mjs").Sessions} */
  sessions = [];
  /** The same of names before this one, which go on in stores of which this one is a copy.
   *  @type {Map<string, import("./copies.mjs").Sessions>} */
  formers = new Map();
  /** Called with what a listener has thrown. The others go on.
   *  @type {(error: any) => any} */
  failed = (error) => console.error(error);
  /** Called while `sync` gets operations of a server: with how many have come until now.
   *  @type {(count: number) => any} */
  fetched = () => {};
  #name;
  #doc;
  /** @type {Open} */
  #open;
  #engine;
  #count = 0;
  /** @type {Map<string, number>} */
  #front = new Map();
  #mayHold = false; // whether operations may be held
  /** @type {Map<string, Id>} Elements of generations before: what they are now. */
  #moved = new Map();
  #events = new Events((error) => this.failed(error));
  /** @type {Set<() => void>} What is asked before each change of one's own. */
  #guards = new Set();
  #history;
  #exchange;

  /** A new replica, without operations. Throws TypeError for a name or document that can't be one:
   *  both have 1 to 32 of a-z, 0-9, -. Throws an Error before `await load()`: openReplica does that.
   *  @param {string} name That no other replica of the document ever has.
   *  @param {string} doc
   *  @param {Options} [options] */
  constructor(name, doc, options = {}) {
    if (![name, doc].every(isName)) throw new TypeError(`${name}, ${doc}: 1 to 32 of a-z, 0-9, -`);
    this.#name = name;
    this.#doc = doc;
    this.#open = options.engine ?? loaded();
    this.#engine = new LastingEngine(this.#open, name);
    this.#history = new History((request) => this.#engine.ask(request), this.#read,
      (word, place, ...value) => this.#edit(word, place, ...value));
    this.#exchange = this.#newExchange(0);
  }

  /** @param {number} stored */
  #newExchange(stored) {
    return new Exchange({
      name: () => this.#name, doc: this.#doc, read: this.#read, front: () => this.#front,
      take: (operations) => this.deliverAll(operations), isShared: () => this.isShared,
      begin: (lines) => this.#mayBegin(lines.length) && this.#events.batch(() => this.#begin(lines)),
      now: () => this.clock.now(), isFiled: () => this.isFiled, wasOpen: () => this.wasOpen,
      isNew: () => this.isNew, sessionOf: this.#sessionOf, formers: () => this.formers,
      last: (count) => this.#engine.last(count).map((line) => /** @type {Operation} */ (parse(line))),
      say: (place) => this.#say(place), sayFormers: () => this.#sayFormers(),
      fetched: (count) => this.fetched(count),
    }, stored);
  }

  /** @type {import("./copies.mjs").SessionOf} */
  #sessionOf = (counter, name = this.#name) => {
    const sessions = name === this.#name ? this.sessions : this.formers.get(name) ?? [];
    return sessions.filter(({ after }) => after < counter).pop()?.word ?? "";
  };

  get name() { return this.#name; }
  /** Whether what was restored may be that of a program that goes on, and nobody was told. */
  get isDoubtful() { return this.#exchange.isDoubtful; }
  get doc() { return this.#doc; }
  /** How many operations are logged: at most 100,000. */
  get count() { return this.#count; }

  /** The lines to store: the names, and below them the log.
   *  @returns {string[]} */
  lines() {
    const names = print(["replica", this.#name, this.#doc]);
    return [names, ...[...operationsOf(this.#read, [])].map(print)];
  }

  /** The logged operations that a front doesn't cover, in log order. They aren't to be changed.
   *  @param {Iterable<[string, number]>} [front]
   *  @returns {Iterable<Operation>} */
  operations(front = []) { return operationsOf(this.#read, front); }

  /** A replica from its lines. It takes what it can: `unread` has the others, as a line that is
   *  there twice, isn't an operation, or depends on one that is missing. Throws TypeError if the
   *  first line doesn't name a replica.
   *  @param {string[]} lines
   *  @param {Options} [options]
   *  @returns {Replica} */
  static restore([first, ...lines], options) {
    const [word, name, doc] = parsedLine(first) ?? [];
    if (word !== "replica") throw new TypeError(`the first line names no replica: ${first}`);
    const replica = new Replica(name, doc, options);
    const engine = refusalOf(() => new LastingEngine(replica.#open, name, lines));
    if (engine instanceof Refused) replica.#restoreSome(lines);
    else replica.#use(engine, lines.length);
    replica.#exchange = replica.#newExchange(replica.#front.get(name) ?? 0);
    return replica;
  }

  /** @param {string[]} lines */
  #restoreSome(lines) {
    const scratch = this.#open("scratch", []);
    /** @type {Map<string, string>} */
    const held = new Map();
    for (const line of lines) {
      const op = parsedLine(line);
      const { reply } = op ? scratch.ask(["deliver", op]) : new Refused(REFUSALS["not-json"]);
      if (reply[0] === "held") held.set(String(op?.[1]), line);
      const isKnown = reply[0] === "known";
      const [, number, name] = isKnown ? new Refused(REFUSALS["id-conflict"]).reply : reply;
      if (reply[0] === "no" || isKnown) this.unread.push({ line, number, name });
    }
    const { number, name } = new Refused(REFUSALS["bad-front"]);
    for (const [id] of scratch.ask(["held"]).reply[1]) {
      this.unread.push({ line: held.get(String(id)) ?? "", number, name });
    }
    const good = [...operationsOf(reading(scratch), [])].map(print);
    scratch.free();
    this.#use(new LastingEngine(this.#open, this.#name, good), good.length);
  }

  /** @param {LastingEngine} engine
   *  @param {number} count */
  #use(engine, count) {
    this.#engine.free();
    this.#engine = engine;
    this.#count = count;
    this.#front = new Map(this.#read("front"));
    this.#mayHold = false;
    this.#history.clear();
  }

  /** Gives up the engine's memory. The replica isn't used any more. */
  free() { this.#engine.free(); }

  /** Asks the engine, and returns what is behind the word.
   *  @type {import("./followers.mjs").Read} */
  #read = (word, ...items) => reading(this.#engine)(word, ...items);

  /** @type {import("./followers.mjs").ReadText} */
  #readText = (word, ...items) => this.#engine.text([word, ...items]);

  /** The cursor as the engine takes it.
   *  @param {Cursor} cursor */
  #request(cursor) {
    return requestOf(this.#ofNow(cursor), (it) => placeAt(this.#read, it));
  }

  /** The cursor with the ids that elements have now.
   *  @param {Cursor} cursor
   *  @returns {Cursor} */
  #ofNow(cursor) {
    if (this.#moved.size === 0) return cursor;
    return cursor.map((step) => (isId(step) ? this.#moved.get(String(step)) ?? step : step));
  }

  // ---- Changes. Each returns the id of the new operation. A refused one changes nothing.

  /** Calls `check` before each change of one's own, `undo` and `redo` among them. What it throws
   *  refuses that change: nothing is changed. Returns a function that ends it.
   *  @param {() => void} check
   *  @returns {() => void} */
  guard(check) {
    this.#guards.add(check);
    return () => void this.#guards.delete(check);
  }

  /** One change of one's own: guards are asked before, and it is one event.
   *  @template T
   *  @param {() => T} work
   *  @returns {T} */
  #change(work) {
    for (const check of this.#guards) check();
    return this.#events.batch(() => {
      this.#sayFormers();
      this.#exchange.say();
      return work();
    });
  }

  /** Deletes what isn't there, so that an operation says something: it is no step of undo.
   *  @param {Cursor} place */
  #say(place) {
    const { reply, line = "" } = this.#engine.ask(["delete", this.#request(place)]);
    if (reply[0] !== "no") this.#events.batch(() => this.#log(parse(line), line, reply[1], "own"));
  }

  /** Says of each name before this one, once, up to where this may be a copy. These operations are the
   *  first ones of this name, and know of nothing but of the beginning of their generation: so they are at
   *  a server before what they are about. */
  #sayFormers() {
    if (this.formers.size === 0 || this.#front.has(this.#name)) return;
    const places = [...this.formers.keys()].map((name) => this.#placeOfCopy(name));
    const operations = sayings(this.#name, places, this.#front);
    const lines = operations.map(print);
    const all = this.lines().slice(1);
    all.splice(placeOfSayings([...this.operations()]), 0, ...lines);
    this.#use(new LastingEngine(this.#open, this.#name, all), all.length);
    this.#events.batch(() => {
      this.#events.note(operations);
      for (const [at, op] of operations.entries()) this.#events.log(lines[at], op, "own");
    });
  }

  /** @param {string} name */
  #placeOfCopy(name) {
    const last = this.#front.get(name) ?? 0;
    return copyPlace(name, last, this.#sessionOf(Infinity), this.#sessionOf(last, name));
  }

  /** Assigns a scalar, {} or [].
   *  @param {Cursor} cursor
   *  @param {any} value
   *  @returns {Id} */
  assign(cursor, value) {
    return this.#change(() => this.#edit("assign", cursor, checkedOperand(value)));
  }
  /** Inserts behind the element or head at the cursor.
   *  @param {Cursor} cursor
   *  @param {any} value
   *  @returns {Id} */
  insert(cursor, value) {
    return this.#change(() => this.#edit("insert", cursor, checkedOperand(value)));
  }
  /** @param {Cursor} cursor @returns {Id} */
  delete(cursor) {
    return this.#change(() => this.#edit("delete", cursor));
  }
  /** Adds an integer of 64 bits to the counter at the cursor.
   *  @param {Cursor} cursor
   *  @param {number | bigint} number
   *  @returns {Id} */
  add(cursor, number) {
    return this.#change(() => this.#edit("add", cursor, checkedInteger(number)));
  }

  /** Puts a nested value, as `plain` gives it: {} or [] first, and then what is in it, one operation
   *  each. It is one step of undo and one event. The whole value is checked before: a refusal
   *  changes nothing. Counters are added; `undefined` in objects and arrays is left out. Where memory
   *  lacks in the middle it throws Refused (22), and what was made by then stays: `undo` takes it back.
   *  @param {Cursor} cursor
   *  @param {any} value
   *  @returns {Id[]} */
  put(cursor, value) {
    return this.#change(() => {
      this.#checkRoom(checkValue(value, cursor.length - 1));
      return this.group(() => this.#put(cursor, value));
    });
  }

  /** @param {Cursor} cursor
   *  @param {any} value
   *  @returns {Id[]} */
  #put(cursor, value) {
    if (!(value instanceof Counter)) {
      const id = this.#edit("assign", cursor, bare(value));
      return [id, ...this.#fill(this.#lastPlace, value)];
    }
    const ids = value.value === undefined ? [] : this.#put(cursor, value.value);
    return [...ids, ...this.#addAll(cursor, value.sum)];
  }

  /** Where the last own operation ended.
   *  @type {Cursor} */
  #lastPlace = [0];

  /** @param {Cursor} place
   *  @param {number | bigint} sum */
  #addAll(place, sum) { return pieces(sum).map((number) => this.#edit("add", place, number)); }

  /** @param {Cursor} place
   *  @param {any} value
   *  @returns {Id[]} */
  #fill(place, value) {
    if (isArray(value)) return this.#insertAll(place, 0, value.filter(isGiven)).all;
    if (!isMap(value)) return [];
    const fields = Object.entries(value).filter(([, inner]) => isGiven(inner));
    return fields.flatMap(([key, inner]) => this.#put([...place, key], inner));
  }

  /** Inserts behind an element or head, one after another.
   *  @param {Cursor} list
   *  @param {0 | Id} reference
   *  @param {any[]} values */
  #insertAll(list, reference, values) {
    if (values.length > 1 && values.every(isBare)) {
      const ids = this.#insertBare(list, reference, values);
      return { ids, all: ids };
    }
    /** @type {[ids: Id[], all: Id[]]} */
    const [ids, all] = [[], []];
    let before = reference;
    for (const value of values) {
      const isCounter = value instanceof Counter;
      const inner = isCounter ? value.value ?? null : value;
      before = this.#edit("insert", [...list, before], bare(inner));
      ids.push(before);
      all.push(before);
      for (const id of this.#fill([...list, before], inner)) all.push(id);
      if (isCounter) all.push(...this.#addAll([...list, before], value.sum));
    }
    return { ids, all };
  }

  /** Inserts scalars, {} and [] behind an element or head, one behind another.
   *  @param {Cursor} list
   *  @param {0 | Id} reference
   *  @param {any[]} values
   *  @returns {Id[]} */
  #insertBare(list, reference, values) {
    /** @type {Id[]} */
    const ids = [];
    const length = this.#lengthOf(list, ["insert", 0]);
    const runs = cut(values.map(bare), (value) => length + byteLength(print(value)));
    for (const some of runs) {
      const request = this.#request([...list, ids.length === 0 ? reference : ids[ids.length - 1]]);
      const first = ids.length === 0 ? this.#history.before("insert", request) : NOTHING_BEFORE;
      const befores = some.map((_, at) => (at === 0 ? first : NOTHING_BEFORE));
      for (const id of this.#run("inserts", request, some, befores)) ids.push(id);
    }
    return ids;
  }

  /** Deletes so many elements of a list, the first one at an index, which are these.
   *  @param {Cursor} list
   *  @param {number} index
   *  @param {Id[]} ids */
  #deleteAll(list, index, ids) {
    const length = this.#lengthOf(list, ["delete"]);
    for (const some of cut(ids, () => length)) {
      const befores = some.map((id) => this.#history.before("delete", this.#request([...list, id])));
      this.#run("deletes", [writtenOf(list), index], some.length, befores);
    }
  }

  /** The bytes that the line of a change of a list has at most: see `lengthOf`.
   *  @param {Cursor} list
   *  @param {any[]} mutation */
  #lengthOf(list, mutation) {
    const held = this.#mayHold ? this.#read("held").map((/** @type {[Id]} */ [[, name]]) => name) : [];
    return lengthOf(this.#name, [...this.#front.keys(), ...held], writtenOf([...list, 0])[0], mutation);
  }

  /** Makes several changes by one request. Where memory lacks in the middle, what was made is noted before that
   *  is thrown.
   *  @param {"inserts" | "deletes"} word
   *  @param {any[]} request
   *  @param {any} operand
   *  @param {import("./history.mjs").Before[]} befores What each is about to change.
   *  @returns {Id[]} */
  #run(word, request, operand, befores) {
    return this.#events.batch(() => {
      const { reply, line = "" } = this.#engine.ask([word, request, operand]);
      if (reply[0] === "no") throw new Refused(reply[1], reply[2], reply[3]);
      const lines = line.split("\n");
      const made = lines.map((it) => parse(it));
      for (const [at, op] of made.entries()) this.#history.after(op, befores[at]);
      this.#logAll(made, lines, reply[1]);
      this.#lastPlace = endOf(made[made.length - 1]);
      if (made.length < befores.length) throw new Refused(REFUSALS["no-memory"]);
      return made.map(([, id]) => id);
    });
  }

  /** Notes what one request has logged: own operations, and held ones that they released.
   *  @param {Operation[]} made
   *  @param {string[]} lines
   *  @param {number} count */
  #logAll(made, lines, count) {
    const all = count === made.length ? made : [...operationsOf(this.#read, this.#front)];
    const own = new Map(made.map(({ 1: id }, at) => [String(id), lines[at]]));
    const why = this.#history.isTurning ? "undo" : "own";
    this.#events.note(all);
    for (const op of all) {
      const line = own.get(String(op[1]));
      this.#note(op, line ?? print(op), line === undefined ? "taken" : why);
    }
  }

  /** As Array.splice: behind the first `index` elements it inserts the values, nested or not, and
   *  deletes `count` others. A string counts as its characters. Returns the ids of the new
   *  elements. It is one step of undo and one event; a refusal changes nothing, but for 22 as of `put`.
   *  @param {Cursor} cursor
   *  @param {number} index
   *  @param {number} count
   *  @param {Iterable<any>} values
   *  @returns {Id[]} */
  splice(cursor, index, count, values) {
    return this.#change(() => this.#splice(cursor, index, count, values));
  }

  /** @param {Cursor} cursor
   *  @param {number} index
   *  @param {number} count
   *  @param {Iterable<any>} values
   *  @returns {Id[]} */
  #splice(cursor, index, count, values) {
    const list = this.place(cursor);
    const all = [...values];
    const operations = all.map((value) => checkElement(value, list.length));
    if (![index, count].every((it) => Number.isSafeInteger(it) && it >= 0)) {
      throw new Refused(REFUSALS["index-past-end"]);
    }
    const near = this.#elements(list, index, count);
    this.#checkRoom(operations.reduce((sum, it) => sum + it, count));
    return this.group(() => {
      const { ids } = this.#insertAll(list, index > 0 ? near[0] : 0, all);
      this.#deleteAll(list, index + ids.length + 1, near.slice(index > 0 ? 1 : 0));
      return ids;
    });
  }

  /** The ids of the element before an index, if there is one, and of `count` behind it.
   *  @param {Cursor} list
   *  @param {number} index
   *  @param {number} count
   *  @returns {Id[]} */
  #elements(list, index, count) {
    const from = index > 0 ? index : 1;
    const length = count + (index > 0 ? 1 : 0);
    if (length <= MOST_SINGLY) {
      return Array.from({ length }, (_, at) => /** @type {Id} */ (
        placeAt(this.#read, [writtenOf(list), from + at]).pop()));
    }
    /** @type {Id[]} */
    const ids = this.#read("items", [writtenOf(list)]).map((/** @type {[Id]} */ [id]) => id);
    const found = ids.slice(from - 1, from - 1 + length);
    if (found.length !== length) throw new Refused(REFUSALS["index-past-end"]);
    return found;
  }

  /** How many more operations it can make: none where 256 others have made some, and it hasn't. */
  get room() {
    const isKnown = this.#front.has(this.#name);
    return isKnown || this.#front.size < MOST.replicas ? this.#left : 0;
  }

  /** How many operations the log has room for, beside those that are held. */
  get #left() {
    return MOST.log - this.#count - (this.#mayHold ? this.#read("held").length : 0);
  }

  /** Refuses what would need more operations than are left.
   *  @param {number} operations */
  #checkRoom(operations) {
    if (operations > 0 && operations > this.room) {
      throw new Refused(operations > this.#left ? 18 : 19);
    }
  }

  /** @param {import("./protocol.mjs").EditWord} word
   *  @param {Cursor} cursor
   *  @param {...any} value
   *  @returns {Id} */
  #edit(word, cursor, ...value) {
    return this.#events.batch(() => {
      const request = this.#request(cursor);
      const before = this.#history.before(word, request);
      const { reply, line = "" } = this.#engine.ask([word, request, ...value]);
      if (reply[0] === "no") throw new Refused(reply[1], reply[2], reply[3]);
      const op = parse(line);
      const isTurning = this.#history.isTurning;
      this.#history.after(op, before);
      this.#log(op, line, reply[1], isTurning ? "undo" : "own");
      this.#lastPlace = endOf(op);
      return op[1];
    });
  }

  /** Notes what one call has logged: the operation, and held ones that it released.
   *  @param {Operation} op
   *  @param {string} line
   *  @param {number} count
   *  @param {Why} why */
  #log(op, line, count, why) {
    const released = count === 1 ? [] : [...operationsOf(this.#read, this.#frontWith(op))];
    this.#events.note([op, ...released]);
    this.#note(op, line, why);
    for (const it of released) this.#note(it, print(it), "taken");
  }

  /** @param {Operation} op */
  #frontWith([, [counter, name]]) { return new Map(this.#front).set(name, counter); }

  /** @param {Operation} op
   *  @param {string} line
   *  @param {Why} why */
  #note(op, line, why) {
    this.#engine.logged(line);
    this.#count++;
    this.#front.set(op[1][1], op[1][0]);
    this.#history.note(op);
    this.#events.log(line, op, why);
  }

  /** The same place by ids: it goes on to mean that element when the list moves.
   *  @param {Cursor} cursor
   *  @returns {Cursor} */
  place(cursor) { return placeAt(this.#read, this.#request(cursor)); }

  /** The index of an element or head; of a deleted element, that of the present one before it.
   *  @param {Cursor} place
   *  @returns {number} */
  indexOf(place) { return this.#read("index", this.#request(place)); }

  // ---- Undo and redo, by new operations

  /** All edits within `work` are one step of undo and one event. If it throws, what it has edited
   *  before stays.
   *  @template T
   *  @param {() => T} work
   *  @returns {T} */
  group(work) { return this.#events.batch(() => this.#history.group(work)); }

  /** Takes back one's own last step, but for what has changed since. Returns if there was one.
   *  Refused with 18 if the document has no room for it; the step stays then.
   *
   *  Places that it made vanish, if there is nothing else in them. A counter beside a value stays,
   *  as 0: only a new assignment clears it. Counters come back by amounts: what others have added
   *  meanwhile stays. Two that undo the same deletion at the same time count it twice. */
  undo() { return this.#turn("undo"); }
  redo() { return this.#turn("redo"); }

  /** @param {"undo" | "redo"} from */
  #turn(from) {
    return this.#change(() => this.#history.turn(from, (count) => this.#checkRoom(count)));
  }

  // ---- Readings: what a server answers. Refused as there.

  /** @param {Cursor} cursor
   *  @returns {any[][]} */
  show(cursor) { return this.#read("show", this.#request(cursor)); }
  /** What `show` gives as a plain value: see `plain` of wire.mjs.
   *  @param {Cursor} cursor
   *  @returns {any} */
  plain(cursor) { return plain(this.show(cursor)); }
  /** @param {Cursor} cursor @returns {string[]} */
  keys(cursor) { return this.#read("keys", this.#request(cursor)); }
  /** @param {Cursor} cursor @returns {Scalar[]} */
  values(cursor) { return this.#read("values", this.#request(cursor)); }
  /** @param {Cursor} cursor @returns {[Id, Scalar[]][]} */
  items(cursor) { return this.#read("items", this.#request(cursor)); }
  /** @param {Cursor} cursor @returns {[Id, any][]} */
  conflicts(cursor) { return this.#read("conflicts", this.#request(cursor)); }
  /** @param {Cursor} cursor
   *  @returns {number | bigint} a BigInt beyond 2^53, as of a session */
  sum(cursor) { return integer(this.#read("sum", this.#request(cursor))); }
  /** @returns {[string, number][]} */
  front() { return frontPairs(this.#front); }
  /** By which two logs are compared, as `chains` of a session.
   *  @param {ReadonlyMap<string, number>} after
   *  @param {ReadonlyMap<string, number>} front
   *  @returns {[string, number, string][]} */
  chains(after, front) { return this.#read("chains", frontPairs(after), frontPairs(front)); }
  /** The held operations, each with what is missing.
   *  @returns {[Id, Id[]][]} */
  held() { return this.#read("held"); }

  /** The strings of a list as one text; of several values of an element, the last.
   *  @param {Cursor} cursor
   *  @returns {string} */
  text(cursor) {
    const values = this.items(cursor).map(([, found]) => found[found.length - 1]);
    return values.filter((value) => typeof value === "string").join("");
  }

  // ---- Events. Each call returns a function that ends it.

  /** Calls `heard({ why, lines, ids, changes })` for what was logged together: an edit, a `put`, a
   *  page of a server. `why` is "own", "undo" or "taken". `lines` are to be stored. After `remake`
   *  it calls `heard({ why: "remade", .. })`; then all of `lines()` is.
   *
   *  Listeners are called one after another. What one of them throws goes to `failed`, and what it
   *  edits is heard after this. When one is called, the replica may already be further on.
   *  @param {Heard} heard */
  listen(heard) { return this.#events.listen(heard); }

  /** Calls `changed(splices, why)` when something has changed at the place or under it. `splices`
   *  are [{ index, remove, insert }, ..]: they do to an array of the last values of the list's
   *  elements what happened to the list. They are empty if none came, went or got another value. It
   *  may be called though nothing differs, when something above the place was assigned.
   *  @param {Cursor} cursor
   *  @param {Changed} changed */
  watch(cursor, changed) {
    const place = this.place(cursor);
    const source = new Mirror(this.#read, place, this.#readText); // refuses a head
    const { length = this.#read("items", [writtenOf(place)]).length } = source;
    return this.#events.watch(place, source, length, changed);
  }

  // ---- Operations of others

  /** Takes a line, or an operation that `parse` read. Returns what a server answers:
   *  ["applied",count,dropped,id], ["known"] or ["held",[id,..]].
   *  @param {string | Operation} operation
   *  @returns {any[]} */
  deliver(operation) {
    return this.#events.batch(() => {
      const op = typeof operation === "string" ? parse(operation) : operation;
      const { reply, line } = this.#engine.ask(["deliver", op]);
      if (reply[0] === "no") throw new Refused(reply[1], reply[2], reply[3]);
      if (reply[0] === "held") this.#mayHold = true;
      if (reply[0] === "applied") this.#log(op, line ?? print(op), reply[1], "taken");
      return reply;
    });
  }

  /** Takes operations, as lines or read, as one event. Goes on behind one that is refused.
   *  @param {(string | Operation)[]} operations
   *  @returns {Taken} */
  deliverAll(operations) {
    return this.#events.batch(() => {
      if (this.#beginWith(operations)) return { taken: operations.length, refused: [] };
      /** @type {Taken} */
      const report = { taken: 0, refused: [] };
      for (const op of operations) {
        const line = () => (typeof op === "string" ? op : refusedText(op));
        const reply = refusalOf(() => this.deliver(typeof op === "string" ? readLine(op) : op));
        if (reply instanceof Refused) report.refused.push({ line: line(), refusal: reply });
        else if (reply[0] === "applied") report.taken += reply[1];
      }
      return report;
    });
  }

  /** Whether it may take so many operations by an engine that begins with them.
   *  @param {number} count */
  #mayBegin(count) { return this.#count === 0 && !this.#mayHold && count >= MANY; }

  /** Takes many operations into an empty replica at once, if it can: see `#begin`.
   *  @param {(string | Operation)[]} operations */
  #beginWith(operations) {
    if (!this.#mayBegin(operations.length)) return false;
    const lines = refusalOf(() =>
      operations.map((it) => checkedLine(typeof it === "string" ? parsedLine(it) : it)));
    return !(lines instanceof Refused) && this.#begin(lines);
  }

  /** Takes many operations into an empty replica by an engine that begins with them: that is several
   *  times quicker. Returns whether it has taken them. Where one of them can't be logged, they are to
   *  be delivered one by one.
   *  @param {string[]} lines */
  #begin(lines) {
    const engine = refusalOf(() => new LastingEngine(this.#open, this.#name, lines));
    if (engine instanceof Refused) return false;
    this.#use(engine, lines.length);
    this.#events.begin(lines, "taken");
    return true;
  }

  /** Drops a held operation.
   *  @param {Id} id */
  forget(id) { this.#read("forget", id); }

  // ---- Exchange with a server

  /** Takes what the server has, and gives it what it lacks. Sends requests before earlier ones are
   *  answered; replies come in their order. Resolves { taken, given, refused }, where `refused`
   *  has { line, number, name, own } for each operation that was refused, here or there. If one
   *  of the own name was, by 14, 15 or 16, another replica has that name: see `remake`.
   *
   *  Before that it compares what both have: all of it with a new `answer`, later what has come to
   *  both. Where the server has another operation of one id, as one that was started over an older
   *  file, nothing is exchanged, and `differs` has its { name, counter }: see `remake`. An `answer`
   *  is of one connection, and behind a hub of one session of its server (`reopened`).
   *
   *  One goes on at a time; a call with the same `answer` as one that waits is one with it. Throws
   *  what `answer` throws, and TypeError for a reply that no server gives.
   *  @param {Answer} answer
   *  @returns {Promise<Report>} */
  sync(answer) { return this.#exchange.sync(answer); }

  /** Says that `logged` will be called with all that a server logs behind this front. So `sync` with
   *  this very `answer` asks for nothing that is known. Without a front, as where something wasn't
   *  said, the next `sync` asks for it.
   *  @param {Answer} answer
   *  @param {Iterable<[string, number]>} [front] */
  follow(answer, front) { this.#exchange.follow(answer, front); }

  /** Takes what a server that is followed has logged, as one event: what fits. Returns whether
   *  nothing of it differs now; if not, `sync` is to be called.
   *  @param {Answer} answer
   *  @param {Operation[]} operations In log order.
   *  @returns {boolean} */
  logged(answer, operations) { return this.#exchange.logged(answer, operations); }

  /** Whether a name is this replica's, or was that of one of which its store is a copy.
   *  @param {string} name
   *  @returns {boolean} */
  isOwnName(name) { return this.#exchange.isOwnName(name); }

  /** Goes on under a new name, after the server refused an operation of one's own since another
   *  has its id, or where the server has others of somebody. Takes the server's log, the operations
   *  of others that it lacks, and those of one's own that it lacks: under the new name, with what
   *  they knew. Own ones that were never stored or sent from here aren't taken for the server's,
   *  however alike. Watches go on. Then store all lines, and sync.
   *  @param {string} name
   *  @param {Answer} answer
   *  @returns {Promise<Remade>} */
  remake(name, answer) { return this.#goOnAs(name, answer, true); }

  /** Goes on under a new name without the operations of one's own that the server lacks, as where
   *  it refuses them: `lost` has them. Takes the server's log, and the operations of others that it
   *  lacks, but for those that depend on what is lost. Watches go on. Then store all lines.
   *  @param {string} name
   *  @param {Answer} answer
   *  @returns {Promise<{lost: string[]}>} */
  async discard(name, answer) {
    const { lost } = await this.#goOnAs(name, answer, false);
    return { lost };
  }

  /** Goes on in another generation of the document: with its log, and with one's own operations that
   *  the hub lacks made again there. Places by ids of before go on to mean the same elements, watches
   *  go on, and so does `undo` as far as what it takes back is there. Then store all lines, and sync.
   *  @param {string} name That no other replica of the document ever has.
   *  @param {import("./generations.mjs").Step[]} steps from the generation of this replica on: one at
   *    least, else RangeError
   *  @param {Operation[]} log of the last generation
   *  @param {import("./generations.mjs").Own} [own] what the hub had of this one's own operations
   *  @returns {{remade: number, lost: string[]}} */
  renew(name, steps, log, own) {
    if (!isName(name)) throw new TypeError(`${name}: 1 to 32 of a-z, 0-9, -`);
    if (steps.length === 0) throw new RangeError("it is in that generation");
    const { operations, ids, lost } = carried(this.operations(), steps, own);
    const front = new Map(log.map(([, [counter, replica]]) => [replica, counter]));
    const again = operations.filter(([, id]) => !covers(front, id));
    const before = this.lines().slice(1);
    const lines = [...log, ...again].map(print);
    const engine = new LastingEngine(this.#open, name, lines);
    this.#name = name;
    const done = this.#history.steps;
    this.#use(engine, lines.length);
    this.#moved = composed(this.#moved, ids);
    this.#history.adopt(done, ids, steps[steps.length - 1]?.start ?? []);
    this.#beginName();
    this.#events.remade(before, (place) => this.#watchAgain(place, ids));
    return { remade: again.length, lost: lost.map(print) };
  }

  /** What the hub had of one's own operations at the end of a generation.
   *  @param {Answer} answer
   *  @param {string} past what that generation is read as
   *  @param {Map<string, number>} end what the hub had
   *  @returns {Promise<import("./generations.mjs").Own>} */
  async ownBefore(answer, past, end) {
    const found = await this.#exchange.before(past, end, answer, this.#open);
    return { name: this.#name, sessionOf: this.#sessionOf, ...found };
  }

  /** @param {string} name
   *  @param {Answer} answer
   *  @param {boolean} isRemade Whether own operations that the server lacks are made again.
   *  @returns {Promise<Remade>} */
  async #goOnAs(name, answer, isRemade) {
    if (!isName(name)) throw new TypeError(`${name}: 1 to 32 of a-z, 0-9, -`);
    return this.#exchange.remade(name, answer, this.#open, isRemade, (remaking) => {
      const before = this.lines().slice(1);
      const { lines, ids, ...report } = remaking.run();
      const engine = new LastingEngine(this.#open, name, lines);
      this.#name = name;
      this.#use(engine, lines.length);
      this.#beginName();
      const now = new Set(lines);
      const gone = before.filter((line) => !now.has(line));
      this.#events.remade(gone, (place) => this.#watchAgain(place, ids));
      return report;
    });
  }

  /** What is known of the operations of a name that it has from now on. */
  #beginName() {
    this.#exchange = this.#newExchange(0);
    this.isNew = true;
    this.sessions = this.sessions.slice(-1).map(({ word }) => ({ after: 0, word }));
    this.formers = new Map();
  }

  /** @param {Cursor} old
   *  @param {Map<string, Id>} ids */
  #watchAgain(old, ids) {
    const place = old.map((step) => (isId(step) ? ids.get(String(step)) ?? step : step));
    const source = refusalOf(() => new Mirror(this.#read, place, this.#readText));
    if (source instanceof Refused) return undefined;
    const values = this.items(place).map(([id]) =>
      this.conflicts([...place, id]).pop()?.[1] ?? null);
    return { place, source, values };
  }

  /** Makes own edits that the old document's server refused again in a new one, whose content
   *  `python -m jcrdt renew` made of the old one's. `map` has the lines that it writes, or pairs of
   *  ids: see renewal.mjs. All are one event and one step of undo of `other`.
   *  @param {Replica} other The replica of the new document, synced.
   *  @param {Iterable<string | [Id, Id]>} map
   *  @param {string[]} [lines] The edits: the own operations that no server has.
   *  @returns {{remade: number, lost: string[]}} */
  remakeIn(other, map, lines = this.#unsent()) {
    return other.group(() => remakeIn(this, other, map, lines));
  }

  #unsent() {
    const { confirmed } = this.#exchange;
    if (confirmed === undefined) throw new TypeError("sync with the old document's server first");
    const front = new Map(this.#front).set(this.#name, confirmed);
    return [...operationsOf(this.#read, front)].map(print);
  }
}

const MANY = 256; // operations that an empty replica takes at once
/** @type {import("./history.mjs").Before} */
const NOTHING_BEFORE = { remains: [], fresh: 0 };
const MOST_SINGLY = 256; // so many elements are asked for one by one, and not with the whole list

/** @param {any} value */
function checkedOperand(value) {
  if (checkValue(value) !== 1 || value instanceof Counter) throw new Refused(REFUSALS["bad-value"]);
  return typeof value === "number" || typeof value === "bigint" ? checkedInteger(value) : bare(value);
}

/** How many operations an element of a list takes.
 *  @param {any} value
 *  @param {number} depth */
function checkElement(value, depth) {
  const isLone = value instanceof Counter && value.value === undefined;
  return checkValue(value, depth) + (isLone ? 1 : 0);
}

/** @param {string} line
 *  @returns {any[] | undefined} */
function parsedLine(line) {
  try {
    const value = parse(line);
    return isArray(value) ? value : undefined;
  } catch {
    return undefined;
  }
}

/** @param {string} line */
function readLine(line) {
  const op = parsedLine(line);
  if (!op) throw new Refused(REFUSALS["bad-operation"]);
  return /** @type {Operation} */ (op);
}

/** The line of what may be an operation. Throws Refused for what JSON has no form for.
 *  @param {any} op */
function checkedLine(op) {
  if (!isArray(op)) throw new Refused(REFUSALS["bad-operation"]);
  try {
    return print(op);
  } catch {
    throw new Refused(REFUSALS["bad-operation"]);
  }
}

/** What was delivered as a text, also if it is no operation.
 *  @param {any} op */
function refusedText(op) {
  try {
    return print(op);
  } catch {
    return String(op);
  }
}
