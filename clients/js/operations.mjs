/* Ids, fronts, and the shape of an operation. */

import { Refused, refusalOf } from "./errors.mjs";
import { isArray, isPlain, parse } from "./json.mjs";
import { MOST } from "./limits.mjs";
import { isName } from "./names.mjs";
import { REFUSALS } from "./protocol.mjs";
import { checkedInteger, checkedScalar, isText } from "./values.mjs";

/** @typedef {[counter: number, replica: string]} Id The name of an operation. */
/** @typedef {[replica: string, counter: number][]} Front Pairs, ascending by the replicas' names. */
/** @typedef {string | number | bigint | boolean | null} Scalar A number here is a safe integer. */
/** @typedef {0 | string | number | bigint | Id | [Path, Key]} Step A start, or a step behind it. */
/** @typedef {Step[]} Cursor A place: see `Replica` and `Client`. */
/** @typedef {0 | 1 | string | Id} Key The document, a head, a text of a map, an element. */
/** @typedef {["m" | "l", Key][]} Path */
/** @typedef {["assign" | "insert", any] | ["delete"] | ["add", number | bigint]} Mutation */
/** @typedef {["op", Id, Front, [Path, Key], Mutation]} Operation */
/** @typedef {any[][]} Branches An element as `show` gives it. */

/** Whether a front, a Map from replicas to counters, has the operation of this id.
 *  @param {ReadonlyMap<string, number>} front
 *  @param {Id} id */
export const covers = (front, [counter, replica]) => (front.get(replica) ?? 0) >= counter;

/** A front in its written form: pairs of a replica and a counter, ascending by name.
 *  @param {Iterable<[string, number]>} front
 *  @returns {Front} */
export const frontPairs = (front) => [...front].sort(([a], [b]) => (a < b ? -1 : 1));

/** The order of ids: by counter, then by name.
 *  @param {Id} a
 *  @param {Id} b */
export const compareIds = (a, b) => a[0] - b[0] || (a[1] < b[1] ? -1 : a[1] > b[1] ? 1 : 0);

/** @param {any} value */
const isCounter = (value) => Number.isInteger(value) && value >= 1 && value <= MOST.log;

/** @param {any} value @returns {value is Id} */
export const isId = (value) => isArray(value, 2) && isCounter(value[0]) && isName(value[1]);

/** @param {any} value */
const isPair = (value) => isArray(value, 2) && isName(value[0]) && isCounter(value[1]);

/** @param {any} value @returns {value is Front} */
export const isFront = (value) => isArray(value) && value.every(isPair);

/** @param {Front} front */
export const isAscending = (front) =>
  front.every(([name], at) => at === 0 || front[at - 1][0] < name);

/** The counter of an operation with this front.
 *  @param {Front} front */
export const nextCounter = (front) =>
  1 + front.reduce((most, [, counter]) => Math.max(most, counter), 0);

/** The keys of a cursor in an operation, from the document on.
 *  @param {[Path, Key]} cursor
 *  @returns {Key[]} */
export const keysOf = ([path, key]) => [...path.map((item) => item[1]), key];

/** Whether a cursor of an operation has the right form: 0 comes first and nowhere else; below maps
 *  are texts, below lists elements, or a last head.
 *  @param {[Path, Key]} cursor */
export function isPlaced([path, key]) {
  const [first, ...keys] = keysOf([path, key]);
  /** @param {any} it @param {number} at */
  const isBelowList = (it, at) => isId(it) || (it === 1 && at === path.length - 1);
  return first === 0 &&
    keys.every((it, at) => (path[at][0] === "m" ? isText(it) : isBelowList(it, at)));
}

/** @param {any} path @returns {path is Path} */
const isPath = (path) =>
  path.every((/** @type {any} */ it) => isArray(it, 2) && (it[0] === "m" || it[0] === "l"));

/** @param {any} mutation
 *  @param {[Path, Key]} cursor */
function isMutation(mutation, [path, key]) {
  const [word, value] = isArray(mutation) ? mutation : [];
  if (word === "insert" ? path[path.length - 1]?.[0] !== "l" : key === 1) return false;
  if (word === "delete") return mutation.length === 1;
  if (mutation?.length !== 2) return false;
  if (word === "add") return !(refusalOf(() => checkedInteger(value)) instanceof Refused);
  return (word === "assign" || word === "insert") && isOperand(value);
}

/** Whether one operation can hold the value.
 *  @param {any} value */
function isOperand(value) {
  if (typeof value !== "object" || value === null) {
    return !(refusalOf(() => checkedScalar(value)) instanceof Refused);
  }
  return (Array.isArray(value) || isPlain(value)) && Object.keys(value).length === 0;
}

/** Refuses what isn't an operation: 20, 12 or 13. Looks at no log.
 *  @param {any} op
 *  @returns {asserts op is Operation} */
export function checkShape(op) {
  const [word, id, front, cursor, mutation] = isArray(op, 5) ? op : [];
  const path = isArray(cursor, 2) ? cursor[0] : undefined;
  if (word !== "op" || !isArray(path)) throw new Refused(REFUSALS["bad-operation"]);
  if (path.length > MOST.path) throw new Refused(REFUSALS["too-deep"]);
  const isFormed = isId(id) && isFront(front) && isPath(path);
  if (!isFormed || !isPlaced(cursor) || !isMutation(mutation, cursor)) {
    throw new Refused(REFUSALS["bad-operation"]);
  }
  if (!isAscending(front) || id[0] !== nextCounter(front)) throw new Refused(REFUSALS["bad-front"]);
}

// ---- Operations that came in a reply

const START = '["op",[';
const BETWEEN = `,${START}`;
const ID = /^\["op",\[(\d{1,6}),"([a-z0-9-]{1,32})"\],/;

/** The operations of a reply `[WORD,[OPERATION,..]]`. Where it is written as a server writes it, they
 *  are known by their texts, and aren't read before they are asked for: reading them takes several
 *  times as long. */
export class Page {
  /** @type {Map<string, number>} Of each replica: the last of its operations that is here. */
  last = new Map();
  /** @type {string[] | undefined} The operations' texts, where the reply is written so. */
  texts;
  #reply;
  /** @type {any[] | undefined} */
  #operations;

  /** Throws SyntaxError for what is no JSON, and TypeError where there is no array of operations; or
   *  `operations` does so later.
   *  @param {string} reply */
  constructor(reply) {
    this.#reply = reply;
    const texts = this.#textsIn(reply);
    // By a page that isn't full a server says that it has no more: so that is read.
    const isFull = texts && texts.length > 0 && texts.length % MOST.page === 0;
    if (isFull || texts?.length === this.operations.length) this.texts = texts;
    else for (const op of this.operations) if (isArray(op) && isId(op[1])) this.#note(op[1]);
  }

  get length() { return this.texts?.length ?? this.operations.length; }

  /** @returns {any[]} */
  get operations() {
    this.#operations ??= parse(this.#reply)[1];
    if (!isArray(this.#operations)) throw new TypeError("there is no array of operations");
    return this.#operations;
  }

  /** Cuts a reply into the texts of its operations, and notes the last id of each replica. A quotation
   *  mark within a string has a backslash before it: so where `,["op",[` is, one begins. Of operations
   *  of one replica behind each other only the first and the last id are read.
   *  @param {string} reply */
  #textsIn(reply) {
    const from = /^\["[a-z]+",\[/.exec(reply)?.[0].length;
    if (from === undefined || !reply.endsWith("]]")) return undefined;
    const texts = [];
    let [first, before, named, width] = ["", "", "", 0];
    for (let [at, end] = [from, reply.length - 2]; at < end; at += before.length + 1) {
      const next = reply.indexOf(BETWEEN, at);
      const text = reply.slice(at, next < 0 ? end : next);
      if (named === "" || !text.startsWith(named, width)) {
        const id = this.#noteIn(text);
        if (!id || (before !== first && !this.#noteIn(before))) return undefined;
        [first, named, width] = [text, `,"${id[1]}"],`, START.length + String(id[0]).length];
      }
      texts.push(text);
      before = text;
    }
    return before === first || this.#noteIn(before) ? texts : undefined;
  }

  /** Notes the id of an operation's text. Returns it, if it is written as a server writes it.
   *  @param {string} text
   *  @returns {Id | undefined} */
  #noteIn(text) {
    const [, counter, name] = ID.exec(text) ?? [];
    if (!isCounter(Number(counter))) return undefined;
    this.#note([Number(counter), name]);
    return [Number(counter), name];
  }

  /** @param {Id} id */
  #note([counter, name]) {
    if (counter > (this.last.get(name) ?? 0)) this.last.set(name, counter);
  }
}
