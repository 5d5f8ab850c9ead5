/* Places of a replica, and its operations: found by requests. */

import { Refused } from "./errors.mjs";
import { MOST } from "./limits.mjs";
import { frontPairs } from "./operations.mjs";
import { placeOf } from "./places.mjs";

/** @typedef {import("./operations.mjs").Cursor} Cursor */
/** @typedef {import("./operations.mjs").Id} Id */
/** @typedef {import("./operations.mjs").Operation} Operation */
/** @typedef {import("./jcrdt.mjs").Engine} Engine */
/** @typedef {(word: string, ...items: any[]) => any} Read Asks; returns what is behind the word. */
/** @typedef {(word: string, ...items: any[]) => string | undefined} ReadText Asks; returns the line of
 *    the reply, where it can be had unread. */

/** Reads of an engine.
 *  @param {Engine} engine
 *  @returns {Read} */
export const reading = (engine) => (word, ...items) => {
  const { reply } = engine.ask([word, ...items]);
  if (reply[0] === "no") throw new Refused(reply[1], reply[2], reply[3]);
  return reply[1];
};

/** The place of a cursor.
 *  @param {Read} read
 *  @param {any[]} cursor Without ids, but for its start.
 *  @returns {Cursor} */
export const placeAt = (read, cursor) => placeOf(read("cursor", cursor));

/** In log order, the operations that a front doesn't cover.
 *  @param {Read} read
 *  @param {Iterable<[string, number]>} front
 *  @returns {Generator<Operation>} */
export function* operationsOf(read, front) {
  const seen = new Map([...front].filter(([, counter]) => counter > 0));
  for (let page = /** @type {{ length: number }} */ ({ length: MOST.page }); page.length === MOST.page; ) {
    /** @type {Operation[]} */
    const ops = read("ops", frontPairs(seen), MOST.page);
    for (const [, [counter, name]] of ops) seen.set(name, counter);
    yield* ops;
    page = ops;
  }
}
