/* Cursors of a replica, and cursors in their written form.

   A place is a cursor by ids: 0, then texts, elements' ids, and 0 for a head at the end. It goes on
   to mean the same when lists move. Its written form is [PATH,KEY], as operations have it. */

import { Refused } from "./errors.mjs";
import { isArray } from "./json.mjs";
import { isId, keysOf } from "./operations.mjs";
import { REFUSALS } from "./protocol.mjs";

/** @typedef {import("./operations.mjs").Cursor} Cursor */
/** @typedef {import("./operations.mjs").Id} Id */
/** @typedef {import("./operations.mjs").Key} Key */
/** @typedef {import("./operations.mjs").Operation} Operation */
/** @typedef {import("./operations.mjs").Path} Path */

/** @param {[Path, Key]} written
 *  @returns {Cursor} */
export const placeOf = (written) => {
  const [, ...steps] = keysOf(written);
  return [0, ...steps.map((key) => (key === 1 ? 0 : key))];
};

/** @param {Cursor} place
 *  @returns {[Path, Key]} */
export function writtenOf(place) {
  /** @type {Path} */
  const path = [];
  /** @type {Key} */
  let key = 0;
  for (const step of place.slice(1)) {
    path.push([typeof step === "string" ? "m" : "l", key]);
    key = step === 0 ? 1 : /** @type {string | Id} */ (step);
  }
  return [path, key];
}

/** The cursor as an engine takes it: with the ids in its start. An index before an id is made an
 *  id by `resolve`, which returns the place of a cursor without ids.
 *  @param {Cursor} cursor
 *  @param {(cursor: any[]) => Cursor} resolve
 *  @returns {any[]} */
export function requestOf(cursor, resolve) {
  if (!isArray(cursor) || cursor.length === 0) throw new Refused(REFUSALS["bad-request"]);
  if (cursor[0] !== 0) throw new Refused(typeof cursor[0] === "string" ? 8 : 2);
  let start = 0; // behind the last id
  for (const [at, step] of cursor.entries()) {
    if (Array.isArray(step) && !isId(step)) throw new Refused(REFUSALS["bad-request"]);
    if (isId(step)) start = at;
  }
  if (start === 0) return cursor;
  let prefix = cursor.slice(0, start + 1);
  if (prefix.some((step, at) => at > 0 && isIndex(step))) prefix = resolved(prefix, resolve);
  return [writtenOf(prefix), ...cursor.slice(start + 1)];
}

/** @param {any} step */
const isIndex = (step) => typeof step === "number" || typeof step === "bigint";

/** @param {Cursor} cursor
 *  @param {(cursor: any[]) => Cursor} resolve
 *  @returns {Cursor} */
function resolved(cursor, resolve) {
  /** @type {Cursor} */
  let place = [0];
  for (const step of cursor.slice(1)) {
    place = isIndex(step) ? resolve([writtenOf(place), step]) : [...place, step];
  }
  return place;
}

/** Where an operation ends: an insertion at the element that it makes.
 *  @param {Operation} op
 *  @returns {Cursor} */
export function endOf([, id, , written, [word]]) {
  const place = placeOf(written);
  return word === "insert" ? [...place.slice(0, -1), id] : place;
}

/** The steps of a place as texts, to compare.
 *  @param {Cursor} place
 *  @returns {string[]} */
export const textsOf = (place) => place.slice(1).map((step) =>
  typeof step === "string" ? `m${step}` : isId(step) ? `l${step[0]} ${step[1]}` : "h");

/** Whether all of `texts` is where `others` begins.
 *  @param {string[]} texts
 *  @param {string[]} others */
export const isPrefix = (texts, others) =>
  texts.length <= others.length && texts.every((text, at) => others[at] === text);
