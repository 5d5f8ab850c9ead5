/* How many changes one request makes: as many as memory surely suffices for.

   The library has made room for a text of ROOM bytes before it changes anything. A longer text takes
   memory once the changes are made: where that lacks, nobody learns which. So a run is cut into requests
   whose answers, the reply and the line of each operation, surely have no more. */

import { print } from "./json.mjs";
import { MOST } from "./limits.mjs";
import { byteLength } from "./values.mjs";

/** @typedef {import("./operations.mjs").Path} Path */

/** The bytes of a text for which the library has memory before it changes anything. */
export const ROOM = 65_536;
const REPLY = 128; // bytes: ["applied",COUNT,DROPPED,ID] has fewer

/** The bytes that the line of an operation has at most, its newline included. No counter has more digits
 *  than a full log's. Its front names the replicas at most that have operations, or held ones, which a
 *  change may release. Its element is of one of these.
 *  @param {string} own
 *  @param {string[]} others
 *  @param {Path} path
 *  @param {any[]} mutation */
export function lengthOf(own, others, path, mutation) {
  const names = [...new Set([own, ...others])];
  const longest = names.reduce((one, other) => (other.length > one.length ? other : one));
  const front = names.map((name) => [name, MOST.log]);
  return byteLength(print(["op", [MOST.log, own], front, [path, [MOST.log, longest]], mutation])) + 1;
}

/** The items in their order, cut so that the lines of each part fit beside the reply. One that doesn't fit
 *  comes alone.
 *  @template T
 *  @param {T[]} items
 *  @param {(item: T) => number} lengthOf The bytes of its line.
 *  @returns {T[][]} */
export function cut(items, lengthOf) {
  /** @type {T[][]} */
  const parts = [];
  let left = 0;
  for (const item of items) {
    const length = lengthOf(item);
    if (parts.length === 0 || length > left) {
      parts.push([]);
      left = ROOM - REPLY;
    }
    parts[parts.length - 1].push(item);
    left -= length;
  }
  return parts;
}
