/* Edits of a full document, made again in the new one that was made of its content.

   `python -m jcrdt renew` writes a map of ids: for each element of a list that it copied, one line
   of JSON, [[oldCounter,oldReplica],[newCounter,newReplica]]. Keys of maps are the same in both. */

import { Refused, refusalOf } from "./errors.mjs";
import { isArray, parse, print } from "./json.mjs";
import { checkShape, isId } from "./operations.mjs";
import { endOf } from "./places.mjs";

/** @typedef {import("./replica.mjs").Replica} Replica */
/** @typedef {import("./operations.mjs").Cursor} Cursor */
/** @typedef {import("./operations.mjs").Id} Id */
/** @typedef {import("./operations.mjs").Operation} Operation */

/** @param {Iterable<string | [Id, Id]>} map
 *  @returns {Map<string, Id>} */
function idsOf(map) {
  /** @type {Map<string, Id>} */
  const ids = new Map();
  for (const item of map) {
    if (item === "") continue;
    const pair = typeof item === "string" ? parse(item) : item;
    if (!isArray(pair, 2) || !pair.every(isId)) throw new TypeError(`no pair of ids: ${item}`);
    ids.set(String(pair[0]), pair[1]);
  }
  return ids;
}

/** Makes the operations of these lines again in `other`. An element that the new document doesn't
 *  have, or that was deleted there, can't be edited there: such a line is lost, and the element stays
 *  away. What is behind a deleted element goes behind the one before it.
 *  @param {Replica} old
 *  @param {Replica} other
 *  @param {Iterable<string | [Id, Id]>} map
 *  @param {string[]} lines
 *  @returns {{remade: number, lost: string[]}} */
export function remakeIn(old, other, map, lines) {
  const ids = idsOf(map);
  const edits = lines.filter((it) => it.trim() !== "").map((line) => ({ line, op: operationOf(line) }));
  for (const id of deletedIn(other, ids, edits.flatMap(({ op }) => (op ? [op] : [])))) ids.delete(id);
  /** @type {string[]} */
  const lost = [];
  let remade = 0;
  for (const { line, op } of edits) {
    const made = op && refusalOf(() => again(old, other, ids, op));
    if (!made || made instanceof Refused) lost.push(line);
    else remade++;
  }
  return { remade, lost };
}

/** The elements that operations are about and that were deleted in the new document.
 *  @param {Replica} other
 *  @param {Map<string, Id>} ids
 *  @param {Operation[]} operations
 *  @returns {Set<string>} */
function deletedIn(other, ids, operations) {
  /** @type {Map<string, Set<string>>} Of a list of the new document: its elements. */
  const lists = new Map();
  const isIn = (/** @type {Cursor} */ list, /** @type {Id} */ id) => {
    const name = print(list);
    const found = lists.get(name) ?? new Set(other.items(list).map(([it]) => String(it)));
    lists.set(name, found);
    return found.has(String(id));
  };
  const deleted = new Set();
  for (const op of operations) {
    const place = endOf(op);
    for (const [at, step] of place.entries()) {
      const list = mapped(ids, place.slice(0, at));
      const now = isId(step) ? ids.get(String(step)) : undefined;
      if (list && now && !isIn(list, now)) deleted.add(String(step));
    }
  }
  return deleted;
}

/** The operation of a line, of whatever replica; `undefined` where it is none.
 *  @param {string} line
 *  @returns {Operation | undefined} */
function operationOf(line) {
  try {
    const op = parse(line);
    checkShape(op);
    return op;
  } catch {
    return undefined;
  }
}

/** Returns whether it was made.
 *  @param {Replica} old
 *  @param {Replica} other
 *  @param {Map<string, Id>} ids
 *  @param {Operation} op */
function again(old, other, ids, op) {
  const [, id, , , [word, value]] = op;
  const end = endOf(op);
  if (word !== "insert") {
    const place = mapped(ids, end);
    if (!place) return word === "delete"; // what isn't there needn't be deleted
    if (word === "delete") other.delete(place);
    else if (word === "add") other.add(place, value);
    else other.assign(place, value);
    return true;
  }
  const list = mapped(ids, end.slice(0, -1));
  if (!list) return false;
  ids.set(String(id), other.insert([...list, referenceOf(old, ids, op)], value));
  return true;
}

/** The place in the new document, if it is there.
 *  @param {Map<string, Id>} ids
 *  @param {Cursor} place
 *  @returns {Cursor | undefined} */
function mapped(ids, place) {
  /** @type {Cursor} */
  const found = [];
  for (const step of place) {
    const now = isId(step) ? ids.get(String(step)) : step;
    if (now === undefined) return undefined;
    found.push(now);
  }
  return found;
}

/** The element of the new document behind which an insertion goes, or its head.
 *  @param {Replica} old
 *  @param {Map<string, Id>} ids
 *  @param {Operation} op
 *  @returns {0 | Id} */
function referenceOf(old, ids, op) {
  const reference = op[3][1];
  if (!isId(reference)) return 0;
  const here = ids.get(String(reference));
  if (here) return here;
  const list = endOf(op).slice(0, -1);
  const items = old.items(list);
  for (let at = old.indexOf([...list, reference]); at > 0; at--) {
    const before = ids.get(String(items[at - 1][0]));
    if (before) return before;
  }
  return 0;
}
