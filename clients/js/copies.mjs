/* Copies of a store that were made while its program went on with it, as by a backup. Such a copy has
   operations that the program hasn't sent yet. Whoever opens a store that wasn't closed says so by an
   operation that changes nothing: it deletes a key that nobody has, which names the replica, its last
   operation in the copy, and the opening of the store in which that was made. So the program knows its
   own operations at a server though it didn't send them, and takes what comes behind them for another's,
   however alike. */

import { operationsOf } from "./followers.mjs";
import { beginningOf } from "./generations.mjs";
import { print } from "./json.mjs";
import { frontPairs, isFront, isId, nextCounter } from "./operations.mjs";

/** @typedef {import("./exchange.mjs").Core} Core */
/** @typedef {import("./operations.mjs").Cursor} Cursor */
/** @typedef {import("./operations.mjs").Operation} Operation */
/** @typedef {{ after: number, word: string }[]} Sessions Words of openings of a store, each from behind
 *    a counter on. */
/** @typedef {(counter: number, name?: string) => string} SessionOf The word of the opening of the store
 *    in which an own operation was made, or one of a name before; none where the store has none. */

const WORDS = "jcrdt copy of";

/** The place that is deleted. Two copies don't say the same.
 *  @param {string} name
 *  @param {number} counter
 *  @param {string} session A word of this opening of the store.
 *  @param {string} origin That of the opening in which its last operation was made.
 *  @returns {Cursor} */
export const copyPlace = (name, counter, session, origin) =>
  [0, [WORDS, name, counter, session, origin].filter((it) => it !== "").join(" ")];

/** Operations that say so at these places, before all others of a name. They know of what began their
 *  generation: without that a hub takes them for those of another one.
 *  @param {string} name
 *  @param {Cursor[]} places
 *  @param {Iterable<[string, number]>} front
 *  @returns {Operation[]} */
export function sayings(name, places, front) {
  const known = new Map(beginningOf(front).map(([maker]) => [maker, 1]));
  return places.map(([, key]) => {
    const before = frontPairs(known);
    known.set(name, nextCounter(before));
    return ["op", [nextCounter(before), name], before, [[["m", 0]], /** @type {string} */ (key)], ["delete"]];
  });
}

/** How many operations of a log come before what says so: those up to the beginning of the generation.
 *  @param {Operation[]} log */
export const placeOfSayings = (log) => log.findIndex(({ 1: id }) => isBeginning([id[1], id[0]])) + 1;

/** @param {[string, number]} pair */
const isBeginning = ([maker, counter]) => counter === 1 && beginningOf([[maker, counter]]).length > 0;

/** Whether an operation says that something is a copy.
 *  @param {Operation} op */
export const isSaying = ([, , , [path, key], [word]]) =>
  path.length === 1 && word === "delete" && typeof key === "string" && key.startsWith(`${WORDS} `);

/** Operations with the first ones of a name in front, which say of so many names that they are copied. A
 *  file has them behind what they are about.
 *  @param {() => Iterable<Operation>} operations
 *  @param {string} name
 *  @param {number} count
 *  @returns {Generator<Operation>} */
export function* sayingsFirst(operations, name, count) {
  const isFirst = (/** @type {Operation} */ op) =>
    op[1][1] === name && op[1][0] <= count + beginningOf(op[2]).length && isSaying(op);
  if (count > 0) for (const op of operations()) if (isFirst(op)) yield op;
  for (const op of operations()) if (!isFirst(op)) yield op;
}

/** Up to which operation of a replica a copy has them, where an operation says so; else 0. One that
 *  was copied in another opening has others, however alike.
 *  @param {any} op
 *  @param {string} name
 *  @param {SessionOf} sessionOf */
function copiedBy(op, name, sessionOf) {
  const [path, key] = op?.[3] ?? [];
  if (path?.length !== 1 || typeof key !== "string" || op[4]?.[0] !== "delete") return 0;
  // One that was made again speaks for a copy that sends nothing more under this name.
  const isAhead = isFront(op[2]) && op[2].every((it) => it[0] === op[1][1] || isBeginning(it));
  if (op[1][1] !== name && !isAhead) return 0;
  const start = `${WORDS} ${name} `;
  if (!key.startsWith(start)) return 0;
  const [number, , origin = ""] = key.slice(start.length).split(" ");
  const counter = parseInt(number, 10) || 0;
  return origin === "" || origin === sessionOf(counter) ? counter : 0;
}

/** A server's operations of a replica's name beside the replica's own ones. */
export class Comparison {
  /** Up to this counter they are the same. */
  same;
  /** Up to this counter a copy says that it has them. */
  copied = 0;
  /** Up to this counter the server has any of this name. */
  last = 0;
  #isSame = true;
  #core;
  #own;

  /** @param {Core} core
   *  @param {number} from Up to this counter they are the same: those behind it are compared. */
  constructor(core, from) {
    this.same = from;
    this.#core = core;
    this.#own = ownBehind(core, from);
  }

  /** Hears what an operation says, whoever made it.
   *  @param {any} op */
  hear(op) {
    this.copied = Math.max(this.copied, copiedBy(op, this.#core.name(), this.#core.sessionOf));
  }

  /** Takes the server's next operation.
   *  @param {any} op */
  take(op) {
    const name = this.#core.name();
    if (!isId(op?.[1])) return;
    this.hear(op);
    if (op[1][1] !== name) return;
    [this.last] = op[1];
    if (!this.#isSame) return;
    const { value } = this.#own.next();
    this.#isSame = value !== undefined && print(op) === print(value);
    if (this.#isSame) [this.same] = op[1];
  }
}

/** @param {Core} core
 *  @param {number} counter
 *  @returns {Generator<Operation, void>} */
function* ownBehind(core, counter) {
  const name = core.name();
  for (const op of operationsOf(core.read, new Map(core.front()).set(name, counter))) {
    if (op[1][1] === name) yield op;
  }
}
