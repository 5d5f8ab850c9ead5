/* The rules of docs/RULES.md by hand, as an engine of clients/js: what the proved replica is compared
   with. `open` makes one. */

import { createHash } from "node:crypto";
import { Refused, refusalOf } from "../clients/js/errors.mjs";
import { isArray, isMap, parse, print } from "../clients/js/json.mjs";
import { MOST } from "../clients/js/limits.mjs";
import {
  checkShape, compareIds, covers, frontPairs, isAscending, isFront, isId, isPlaced, keysOf,
  nextCounter,
} from "../clients/js/operations.mjs";
import { REPLICA_REQUESTS } from "../clients/js/protocol.mjs";
import { checkedInteger, checkedScalar, isText } from "../clients/js/values.mjs";

/** @typedef {import("../clients/js/operations.mjs").Branches} Branches */
/** @typedef {import("../clients/js/operations.mjs").Front} Front */
/** @typedef {import("../clients/js/operations.mjs").Id} Id */
/** @typedef {import("../clients/js/operations.mjs").Key} Key */
/** @typedef {import("../clients/js/operations.mjs").Operation} Operation */
/** @typedef {import("../clients/js/operations.mjs").Path} Path */

/** @typedef {import("../clients/js/jcrdt.mjs").Answer} Answer */
/** @typedef {import("../clients/js/jcrdt.mjs").Engine} Engine */
/** @typedef {import("../clients/js/jcrdt.mjs").Open} Open */

/** UTF-16 units moved so that they order texts as their bytes in UTF-8 do: surrogates last.
 *  @param {string} text */
const inByteOrder = (text) => text.replace(/[\ud800-\uffff]/g, (unit) =>
  String.fromCharCode(unit.charCodeAt(0) + (unit < "\ue000" ? 0x2000 : -0x800)));

/** @param {string[]} texts */
function sortedByBytes(texts) {
  if (texts.every((text) => !/[\ud800-\uffff]/.test(text))) return texts.sort();
  /** @type {[string, string][]} */
  const pairs = texts.map((text) => [inByteOrder(text), text]);
  return pairs.sort(([a], [b]) => (a < b ? -1 : 1)).map(([, text]) => text);
}

/** @param {Id} id */
const keyOf = ([counter, replica]) => `${counter} ${replica}`;

// ---- The tree

/** An operation that is logged or held. */
class Entry {
  /** @param {Operation} op It and its arrays stay the caller's. */
  constructor(op) {
    const [, [counter, replica], front, , mutation] = op;
    /** @type {Id} */
    this.id = [counter, replica];
    this.counter = counter;
    this.replica = replica;
    this.text = typeof mutation[1] === "bigint" ? print(op) : JSON.stringify(op); // its line
    /** While it is held, or the last of its replica. Then it is read from the text.
     *  @type {Front | null} */
    this.front = front.map(([name, last]) => [name, last]);
    this.word = mutation[0];
    const value = mutation[1];
    this.value = isArray(value) ? EMPTY_LIST : isMap(value) ? EMPTY_MAP : value;
    /** @type {Node | null} */
    this.element = null; // what an insertion made
  }

  get isScalar() { return typeof this.value !== "object" || this.value === null; }
  /** @returns {Front} */
  readFront() { return this.front ?? parse(this.text)[2]; }
}

/** @type {any} */
const EMPTY_LIST = Object.freeze([]);
const EMPTY_MAP = Object.freeze({});
/** @type {never[]} */
const NONE = [];

/** A place. It is present while an operation that ended there, or passed it, isn't cleared. Of
 *  those that passed, the last of each replica is enough: who has seen it has seen the others. */
class Node {
  /** @type {Entry[]} In id order: those that put a value here. Those of scalars are the register. */
  puts = [];
  /** @type {Entry[]} The additions. */
  terms = [];
  sum = 0n;
  /** @type {Map<string, number> | null} A replica: its last counter. */
  passed = null;
  /** @type {Map<string, Node> | null} */
  map = null;
  /** @type {List | null} */
  list = null;
  /** @type {Block | null} Of an element. */
  block = null;
  isCounted = false; // in its block, as present

  /** @param {Node | null} parent
   *  @param {0 | string | Entry} key The document, a text, the insertion of an element. */
  constructor(parent, key) {
    this.parent = parent;
    this.key = key;
  }

  get register() { return this.puts.filter((entry) => entry.isScalar); }
  get values() { return this.register.map((entry) => entry.value); }
  get elements() { return this.list?.present() ?? NONE; }
  get isPresent() {
    return this.puts.length > 0 || this.passed !== null || this.terms.length > 0;
  }

  get keys() {
    const present = [...(this.map ?? NONE)].filter(([, node]) => node.isPresent);
    return sortedByBytes(present.map(([text]) => text));
  }

  /** @param {string} text @returns {Node} */
  child(text) {
    this.map ??= new Map();
    const found = this.map.get(text);
    if (found) return found;
    const made = new Node(this, text);
    this.map.set(text, made);
    return made;
  }

  /** Makes an element behind `reference` (null: the head).
   *  @param {Entry} entry
   *  @param {Node | null} reference */
  grow(entry, reference) {
    this.list ??= new List();
    entry.element = new Node(this, entry);
    this.list.place(entry.element, entry.id, reference);
    return entry.element;
  }

  /** Counts it as present or not, after it has changed. */
  count() {
    if (!this.block || this.isCounted === this.isPresent) return;
    this.isCounted = !this.isCounted;
    this.block.present += this.isCounted ? 1 : -1;
  }

  /** @param {Entry} entry */
  pass({ replica, counter }) {
    (this.passed ??= new Map()).set(replica, counter);
    this.count();
  }

  /** @param {Entry} entry */
  end(entry) {
    if (entry.word === "add") {
      this.terms.push(entry);
      this.sum += BigInt(entry.value);
    } else {
      this.puts.push(entry);
      if (this.puts.length > 1) this.puts.sort((a, b) => compareIds(a.id, b.id));
    }
    this.count();
  }

  /** Clears what a front covers, here and below. What is under a place passed it: where nothing is
   *  present, nothing under it is.
   *  @param {ReadonlyMap<string, number>} seen */
  clear(seen) {
    if (!this.isPresent) return;
    const left = [...(this.passed ?? NONE)].filter(([name, last]) => last > (seen.get(name) ?? 0));
    this.passed = left.length > 0 ? new Map(left) : null;
    if (this.puts.length > 0) this.puts = this.puts.filter(({ id }) => !covers(seen, id));
    if (this.terms.length > 0) {
      this.terms = this.terms.filter(({ id }) => !covers(seen, id));
      this.sum = this.terms.reduce((sum, { value }) => sum + BigInt(value), 0n);
    }
    this.count();
    for (const node of this.map?.values() ?? NONE) node.clear(seen);
    for (const block of this.list?.blocks ?? NONE) for (const it of block.nodes) it.clear(seen);
  }

  /** @returns {Branches} */
  show() {
    const { puts, keys, elements, terms } = this;
    const found = [];
    if (keys.length > 0 || puts.some((entry) => isMap(entry.value))) {
      found.push(["map", keys.map((text) => [text, this.child(text).show()])]);
    }
    if (elements.length > 0 || puts.some((entry) => isArray(entry.value))) {
      found.push(["list", elements.map((node) => node.show())]);
    }
    for (const entry of puts) if (entry.isScalar) found.push(["val", entry.id, entry.value]);
    if (terms.length > 0) found.push(["cnt", String(this.sum)]);
    return found;
  }
}

const BLOCK = 512; // elements

class Block {
  present = 0;

  /** @param {Node[]} nodes Elements in list order, deleted ones too. */
  constructor(nodes) {
    this.nodes = nodes;
    for (const node of nodes) {
      node.block = this;
      if (node.isCounted) this.present++;
    }
  }
}

/** All elements that were ever inserted into a list, in its order. */
class List {
  blocks = [new Block([])];

  /** Places an element behind `reference` (null: the head), past following ones of greater ids.
   *  @param {Node} node
   *  @param {Id} id
   *  @param {Node | null} reference */
  place(node, id, reference) {
    let block = reference?.block ?? this.blocks[0];
    let at = reference ? block.nodes.indexOf(reference) + 1 : 0;
    for (;;) {
      if (at === block.nodes.length) {
        const next = this.blocks[this.blocks.indexOf(block) + 1];
        if (!next || !isGreater(next.nodes[0], id)) break;
        [block, at] = [next, 0];
      }
      if (!isGreater(block.nodes[at], id)) break;
      at++;
    }
    block.nodes.splice(at, 0, node);
    node.block = block;
    if (block.nodes.length > BLOCK) this.#split(block);
  }

  /** @param {Block} block */
  #split(block) {
    const halves = [block.nodes.slice(0, BLOCK / 2), block.nodes.slice(BLOCK / 2)];
    this.blocks.splice(this.blocks.indexOf(block), 1, ...halves.map((nodes) => new Block(nodes)));
  }

  /** @returns {Node[]} */
  present() {
    const found = [];
    for (const { nodes, present } of this.blocks) {
      if (present > 0) for (const node of nodes) if (node.isCounted) found.push(node);
    }
    return found;
  }

  /** The present element at an index from 1.
   *  @param {number} index */
  at(index) {
    let left = index;
    for (const { nodes, present } of this.blocks) {
      if (left <= present) return nodes.find((node) => node.isCounted && --left === 0);
      left -= present;
    }
    return undefined;
  }

  /** How many present elements come up to one of them, itself included.
   *  @param {Node} node */
  countTo(node) {
    const nodes = this.blocks.flatMap((block) => block.nodes);
    return nodes.slice(0, nodes.indexOf(node) + 1).filter((it) => it.isCounted).length;
  }
}

/** @param {Node} node
 *  @param {Id} id */
const isGreater = (node, id) => compareIds(/** @type {Entry} */ (node.key).id, id) > 0;

const NOWHERE = new Node(null, 0); // stands for places that have no node

// ---- The engine

/** @type {Open} */
export const open = (name, lines = []) => new Rules(name, lines);

/** @typedef {{path: Path, key: Key, node: Node}} Found A place: its path, last key and node. */

/** @implements {Engine} */
class Rules {
  /** @type {Entry[]} */
  #log = [];
  /** @type {Map<string, Entry>} A replica: its last entry. */
  #last = new Map();
  /** @type {Map<string, Entry>} */
  #byId = new Map();
  /** @type {Map<string, Entry>} */
  #held = new Map();
  #root = new Node(null, 0);
  #name = ""; // none while the log is restored, so that its own operations are taken
  /** Where the page of `ops` behind the last one begins: the front that asks for it, its place. */
  #page = { front: "[]", at: 0 };

  /** @param {string} name
   *  @param {string[]} lines */
  constructor(name, lines) {
    for (const [at, line] of lines.entries()) {
      const word = refusalOf(() => this.#deliver(parsedLine(line)).reply[0]);
      const why = word === "applied" ? null : word instanceof Refused ? word : new Refused(13);
      if (why) throw Object.assign(why, { at });
    }
    this.#name = name;
  }

  free() {
    this.#log = [];
    this.#root = new Node(null, 0);
    for (const map of [this.#last, this.#byId, this.#held]) map.clear();
  }

  /** @param {any[]} request
   *  @returns {Answer} */
  ask([word, ...items]) {
    try {
      return this.#answer(word, items);
    } catch (error) {
      if (error instanceof Refused) return { reply: error.reply };
      throw error;
    }
  }

  /** @param {string} word
   *  @param {any[]} items
   *  @returns {Answer} */
  #answer(word, items) {
    const [first, second] = items;
    const form = REPLICA_REQUESTS.get(word);
    if (items.length !== form?.items.length) throw new Refused(2);
    if (form.items[0] === "CUR") checkForm(first);
    switch (word) {
      case "assign": case "insert": return this.#edit(first, word, operand(second));
      case "add": return this.#edit(first, word, checkedInteger(second));
      case "delete": return this.#edit(first, word);
      case "inserts": return this.#inserts(first, second);
      case "deletes": return this.#deletes(first, second);
      case "deliver": return this.#deliver(first);
      case "ops": return { reply: [word, this.#ops(first, second)] };
      case "chains": return { reply: [word, this.#chains(first, second)] };
      case "front": return { reply: [word, this.#front()] };
      case "held": return { reply: ["waiting", this.#waiting().map(({ id, front }) =>
        [id, this.#missing(front ?? NONE)])] };
      case "forget": return this.#forget(first);
      case "cursor": return { reply: [word, this.place(first)] };
      case "index": return { reply: [word, this.#index(first)] };
      default: return { reply: [word, this.#read(word, first)] };
    }
  }

  /** @param {string} word
   *  @param {any[]} cursor */
  #read(word, cursor) {
    const { key, node } = this.#find(cursor);
    if (key === 1) throw new Refused(10);
    switch (word) {
      case "keys": return node.keys;
      case "values": return node.values;
      case "items": return node.elements.map((it) => [/** @type {Entry} */ (it.key).id, it.values]);
      case "conflicts": return node.puts.map((entry) => [entry.id, entry.value]);
      case "sum": return String(node.sum);
      case "show": return node.show();
      default: throw new Refused(2);
    }
  }

  // ---- Places

  /** @param {any[]} cursor
   *  @returns {Found} */
  #find(cursor) {
    checkForm(cursor);
    const [start, ...steps] = cursor;
    let { path, key, node } = start === 0 ? this.#start() : this.#written(start);
    for (const step of steps) {
      const isKey = typeof step === "string";
      if (key === 1) throw new Refused(10);
      if (path.length === MOST.path) throw new Refused(20);
      if (isKey && !isText(step)) throw new Refused(7);
      path.push([isKey ? "m" : "l", key]);
      if (isKey) [key, node] = [step, node.map?.get(step) ?? NOWHERE];
      else [key, node] = step === 0 ? [/** @type {Key} */ (1), NOWHERE] : elementAt(node, step);
    }
    return { path, key, node };
  }

  /** @returns {Found} */
  #start() { return { path: [], key: 0, node: this.#root }; }

  /** @param {any[]} cursor In its written form.
   *  @returns {Found} */
  #written([path, last]) {
    if (path.length > MOST.path) throw new Refused(20);
    if (!isPlaced([path, last])) throw new Refused(7);
    let node = this.#root;
    for (const key of keysOf([path, last]).slice(1)) {
      if (isId(key)) {
        const element = this.#byId.get(keyOf(key))?.element;
        if (element?.parent !== node) throw new Refused(7);
        node = element;
      } else node = key === 1 ? NOWHERE : node.map?.get(/** @type {string} */ (key)) ?? NOWHERE;
    }
    return { path: path.map((/** @type {any} */ it) => [it[0], it[1]]), key: last, node };
  }

  /** @param {any[]} cursor
   *  @returns {[Path, Key]} */
  place(cursor) {
    const { path, key } = this.#find(cursor);
    return [path, key];
  }

  /** How many present elements come up to the one at a cursor.
   *  @param {any[]} cursor */
  #index(cursor) {
    const { path, key, node } = this.#find(cursor);
    if (path[path.length - 1]?.[0] !== "l") throw new Refused(11);
    return key === 1 ? 0 : /** @type {List} */ (node.parent?.list).countTo(node);
  }

  // ---- Changes of one's own

  /** @param {any[]} cursor
   *  @param {import("../clients/js/protocol.mjs").EditWord} word
   *  @param {any} [value]
   *  @returns {Answer} */
  #edit(cursor, word, value) {
    const { path, key } = this.#find(cursor);
    if (word === "insert" && path[path.length - 1]?.[0] !== "l") throw new Refused(11);
    if (word !== "insert" && key === 1) throw new Refused(10);
    this.#checkRoom(this.#name);
    const front = this.#front();
    const mutation = /** @type {any} */ (word === "delete" ? [word] : [word, value]);
    const entry = new Entry(["op", [nextCounter(front), this.#name], front, [path, key], mutation]);
    this.#append(entry, [path, key]);
    const { logged, dropped } = this.#drain();
    return { reply: ["applied", 1 + logged, dropped, entry.id], line: entry.text };
  }

  // ---- Runs

  /** @param {any[]} cursor
   *  @param {any} values
   *  @returns {Answer} */
  #inserts(cursor, values) {
    if (!Array.isArray(values) || values.length === 0) throw new Refused(2);
    const operands = values.map(operand);
    this.#checkRun(operands.length);
    let at = cursor;
    return this.#run(operands.map((value) => () => {
      const { path } = this.#find(at);
      const answer = this.#edit(at, "insert", value);
      at = [[path, answer.reply[3]]];
      return answer;
    }));
  }

  /** @param {any[]} cursor
   *  @param {any} count
   *  @returns {Answer} */
  #deletes(cursor, count) {
    if (!Number.isInteger(count) || count < 1) throw new Refused(2);
    this.#checkRun(count);
    const last = cursor[cursor.length - 1];
    if (cursor.length > 1 && typeof last !== "string") this.#find([...cursor.slice(0, -1), Number(last) + count - 1]);
    else this.#find(cursor);
    return this.#run(Array.from({ length: count }, () => () => this.#edit(cursor, "delete")));
  }

  /** @param {number} count */
  #checkRun(count) {
    if (this.#log.length + count > MOST.log) throw new Refused(18);
  }

  /** Makes changes up to the first that is refused. The first one's refusal is that of all.
   *  @param {(() => Answer)[]} changes
   *  @returns {Answer} */
  #run(changes) {
    const made = [];
    for (const change of changes) {
      try {
        made.push(change());
      } catch (error) {
        if (made.length === 0 || !(error instanceof Refused)) throw error;
        break;
      }
    }
    const sum = (/** @type {number} */ at) => made.reduce((all, { reply }) => all + reply[at], 0);
    return { reply: ["applied", sum(1), sum(2), made[0].reply[3]], line: made.map(({ line }) => line).join("\n") };
  }

  // ---- The log

  /** @returns {Front} */
  #front() { return frontPairs([...this.#last].map(([name, { counter }]) => [name, counter])); }

  /** @param {any} after
   *  @param {any} front
   *  @returns {[string, number, string][]} */
  #chains(after, front) {
    if (!isFront(after) || !isFront(front)) throw new Refused(2);
    if (!isAscending(after) || !isAscending(front)) throw new Refused(13);
    const seen = new Map(after);
    return front.map(([name, last]) => {
      const hash = createHash("sha256");
      for (const { counter, replica, text } of this.#log) {
        if (replica === name && counter > (seen.get(name) ?? 0) && counter <= last) hash.update(`${text}\n`);
      }
      return [name, last, hash.digest("hex")];
    });
  }

  /** @param {any} front
   *  @param {any} limit
   *  @returns {Operation[]} */
  #ops(front, limit) {
    if (!isFront(front) || !Number.isInteger(limit)) throw new Refused(2);
    if (limit < 1 || limit > MOST.page) throw new Refused(2);
    if (!isAscending(front)) throw new Refused(13);
    const seen = new Map(front);
    let at = print(front) === this.#page.front ? this.#page.at : 0;
    const found = [];
    for (; at < this.#log.length && found.length < limit; at++) {
      const { id, text } = this.#log[at];
      if (!covers(seen, id)) found.push(parse(text));
    }
    for (const [, [counter, name]] of found) seen.set(name, counter);
    this.#page = { front: print(frontPairs(seen)), at };
    return found;
  }

  /** @param {Front} front
   *  @returns {Id[]} */
  #missing(front) {
    /** @type {Id[]} */
    const ids = front.map(([name, counter]) => [counter, name]);
    return ids.filter((id) => !this.#byId.has(keyOf(id)));
  }

  #waiting() { return [...this.#held.values()].sort((a, b) => compareIds(a.id, b.id)); }

  /** @param {string} replica */
  #checkRoom(replica) {
    if (this.#log.length >= MOST.log) throw new Refused(18);
    if (!this.#last.has(replica) && this.#last.size >= MOST.replicas) throw new Refused(19);
  }

  /** Refuses an operation of right shape, with a logged front, that doesn't fit the log.
   *  @param {Operation} op */
  #checkFits([, [, replica], front, cursor]) {
    const seen = new Map(front);
    const previous = seen.get(replica) ?? 0;
    // What is in the front of the replica's previous operation was checked with that one.
    const checked = new Map(previous ? this.#entry([previous, replica]).readFront() : NONE);
    for (const [name, counter] of front) {
      if (checked.get(name) === counter) continue;
      const theirs = this.#entry([counter, name]).readFront();
      if (theirs.some(([other, least]) => least > (seen.get(other) ?? 0))) throw new Refused(13);
    }
    const last = this.#last.get(replica)?.counter ?? 0;
    if (last !== previous) throw new Refused(14, undefined, last);
    this.#checkElements(seen, cursor);
    this.#checkRoom(replica);
  }

  /** @param {ReadonlyMap<string, number>} seen
   *  @param {[Path, Key]} cursor */
  #checkElements(seen, cursor) {
    let node = this.#root;
    for (const key of keysOf(cursor).slice(1)) {
      if (isId(key)) {
        const element = this.#byId.get(keyOf(key))?.element;
        if (element?.parent !== node || !covers(seen, key)) throw new Refused(7);
        node = element;
      } else node = node.map?.get(/** @type {string} */ (key)) ?? NOWHERE;
    }
  }

  /** A logged operation.
   *  @param {Id} id */
  #entry(id) { return /** @type {Entry} */ (this.#byId.get(keyOf(id))); }

  /** Logs an operation that fits.
   *  @param {Entry} entry
   *  @param {[Path, Key]} cursor */
  #append(entry, cursor) {
    const previous = this.#last.get(entry.replica);
    if (previous) previous.front = null;
    this.#last.set(entry.replica, entry);
    this.#byId.set(keyOf(entry.id), entry);
    this.#log.push(entry);
    this.#step(entry, keysOf(cursor).slice(1));
  }

  /** @param {Entry} entry
   *  @param {Key[]} keys */
  #step(entry, keys) {
    const isInsertion = entry.word === "insert";
    let node = this.#root;
    for (const [at, key] of keys.entries()) {
      if (entry.word !== "delete") node.pass(entry);
      const element = isId(key) ? this.#entry(key).element : null;
      if (isInsertion && at === keys.length - 1) node = node.grow(entry, element);
      else node = element ?? node.child(/** @type {string} */ (key));
    }
    if (entry.word === "assign" || entry.word === "delete") node.clear(new Map(entry.front));
    if (entry.word !== "delete") node.end(entry);
  }

  /** Logs the held operations that are ready, the least first, and drops those that don't fit. */
  #drain() {
    const counts = { logged: 0, dropped: 0 };
    /** @param {Entry} entry */
    const isReady = ({ front }) => this.#missing(front ?? NONE).length === 0;
    for (let entry; this.#held.size > 0 && (entry = this.#waiting().find(isReady)); ) {
      const logged = entry;
      this.#held.delete(keyOf(logged.id));
      const op = parse(logged.text);
      const refusal = refusalOf(() => this.#checkFits(op));
      if (!refusal) this.#append(logged, op[3]);
      counts[refusal ? "dropped" : "logged"]++;
    }
    return counts;
  }

  // ---- Operations of others

  /** @param {any} op
   *  @returns {Answer} */
  #deliver(op) {
    checkShape(op);
    const entry = new Entry(op);
    const key = keyOf(entry.id);
    const known = this.#byId.get(key);
    const held = this.#held.get(key);
    if ((known ?? held ?? entry).text !== entry.text) throw new Refused(15);
    if (known) return { reply: ["known"], line: entry.text };
    if (entry.replica === this.#name) throw new Refused(16);
    const missing = this.#missing(op[2]);
    if (missing.length > 0) {
      if (!held && this.#held.size >= MOST.held) throw new Refused(17);
      this.#held.set(key, entry);
      return { reply: ["held", missing], line: entry.text };
    }
    this.#checkFits(op);
    this.#append(entry, op[3]);
    const { logged, dropped } = this.#drain();
    return { reply: ["applied", 1 + logged, dropped, entry.id], line: entry.text };
  }

  /** @param {any} id
   *  @returns {Answer} */
  #forget(id) {
    if (!isId(id)) throw new Refused(2);
    if (!this.#held.delete(keyOf(id))) throw new Refused(24);
    return { reply: ["forgotten"] };
  }
}

/** @param {string} line */
function parsedLine(line) {
  try {
    return parse(line);
  } catch {
    throw new Refused(12);
  }
}

/** Refuses what isn't a start and steps: 2. A start is 0, or a cursor in its written form.
 *  @param {any} cursor */
function checkForm(cursor) {
  if (!isArray(cursor) || cursor.length === 0) throw new Refused(2);
  const [start, ...steps] = cursor;
  const isStep = (/** @type {any} */ step) => typeof step === "string" || isIndex(step);
  if ((start !== 0 && !isWritten(start)) || !steps.every(isStep)) throw new Refused(2);
}

/** @param {any} cursor */
function isWritten(cursor) {
  const isKey = (/** @type {any} */ key) =>
    key === 0 || key === 1 || typeof key === "string" || isId(key);
  const isTagged = (/** @type {any} */ it) =>
    isArray(it, 2) && (it[0] === "m" || it[0] === "l") && isKey(it[1]);
  return isArray(cursor, 2) && isArray(cursor[0]) && cursor[0].every(isTagged) && isKey(cursor[1]);
}

/** What one operation can hold.
 *  @param {any} value */
function operand(value) {
  if (typeof value !== "object" || value === null) return checkedScalar(value);
  if (Object.keys(value).length > 0) throw new Refused(6);
  return isArray(value) ? [] : {};
}

/** @param {any} step */
const isIndex = (step) => typeof step === "bigint" ? step >= 0 : Number.isSafeInteger(step) && step >= 0;

/** @param {Node} node
 *  @param {number | bigint} index
 *  @returns {[Key, Node]} */
function elementAt(node, index) {
  const element = node.list?.at(Number(index));
  if (!element) throw new Refused(9);
  return [/** @type {Entry} */ (element.key).id, element];
}
