/* Values as programs have them, and what an operation can hold of them. */

import { Refused } from "./errors.mjs";
import { isMap, isPlain, kindOf, shortest } from "./json.mjs";
import { MOST } from "./limits.mjs";
import { REFUSALS } from "./protocol.mjs";

/** @typedef {import("./operations.mjs").Branches} Branches */
/** @typedef {import("./operations.mjs").Scalar} Scalar */

const I64 = 2n ** 63n;

/** A counter at a place, and the value beside it, `undefined` if there is none. */
export class Counter {
  /** @param {number | bigint} sum
   *  @param {any} [value] */
  constructor(sum, value) {
    this.sum = sum;
    this.value = value;
  }
}

/** Several values at one place: a map, a list and scalars, these in the order of their ids. */
export class Conflict {
  /** @param {any[]} values */
  constructor(values) {
    this.values = values;
  }

  /** The same one at every replica: the scalar with the greatest id, where there is one. */
  get last() {
    return this.values[this.values.length - 1];
  }
}

/** A sum in its written form as a number, or as a BigInt beyond 2^53.
 *  @param {string} text */
export const integer = (text) => shortest(BigInt(text));

/** An element of a reply to `show` as a plain value: an object for a map, an array for a list, and
 *  scalars as they are. Counters and conflicts are apart from values, as `Counter` and `Conflict`.
 *  A place that holds nothing is `undefined`; JSON's null is null.
 *  @param {Branches} branches
 *  @returns {any} */
export function plain(branches) {
  const values = [];
  let sum;
  for (const [kind, inner, scalar] of branches) {
    if (kind === "map") values.push(Object.fromEntries(inner.map(plainField)));
    else if (kind === "list") values.push(inner.map(plain));
    else if (kind === "val") values.push(scalar);
    else sum = integer(inner);
  }
  const value = values.length > 1 ? new Conflict(values) : values[0];
  return sum === undefined ? value : new Counter(sum, value);
}

/** @param {[string, Branches]} field */
const plainField = ([key, inner]) => [key, plain(inner)];

/** A value of `plain` with one value a conflict: the last, or what `choose` gives.
 *  @param {any} value
 *  @param {(conflict: Conflict) => any} [choose]
 *  @returns {any} */
export function settled(value, choose = (conflict) => conflict.last) {
  /** @param {any} it */
  const inner = (it) => settled(it, choose);
  if (value instanceof Conflict) return inner(choose(value));
  if (value instanceof Counter) return new Counter(value.sum, inner(value.value));
  if (Array.isArray(value)) return value.map(inner);
  if (!isMap(value)) return value;
  return Object.fromEntries(Object.entries(value).map(([key, it]) => [key, inner(it)]));
}

/** What one operation can put: {} and [] without what is in them, and a scalar as it is.
 *  @param {any} value */
export const bare = (value) => (Array.isArray(value) ? [] : isMap(value) ? {} : value);

/** Whether one operation puts all of a value.
 *  @param {any} value */
export const isBare = (value) => !(value instanceof Counter)
  && (typeof value !== "object" || value === null || !Object.values(value).some(isGiven));

/** The scalar as it is kept. Refuses with 6, `bad-value`, what no operation can hold.
 *  @param {any} value
 *  @returns {Scalar} */
export function checkedScalar(value) {
  if (value === null || typeof value === "boolean") return value;
  if (typeof value !== "string") return checkedInteger(value);
  if (!fits(value, MOST.value)) throw badValue(whyUnfit(value, "text", MOST.value));
  return value;
}

/** @param {any} value */
export function checkedInteger(value) {
  if (Number.isSafeInteger(value)) return value + 0; // -0 is 0
  if (typeof value === "bigint" && value >= -I64 && value < I64) return shortest(value);
  const isUnsafe = typeof value === "number" && Number.isInteger(value);
  throw badValue(isUnsafe ? `${value}: beyond 2^53 an integer is a BigInt` : kindOf(value));
}

/** @param {string} why */
const badValue = (why) => new Refused(REFUSALS["bad-value"], undefined, undefined, why);

/** Checks a nested value, all of it, before any of it is put. It is what `plain` gives: scalars,
 *  arrays and plain objects, and counters. `undefined` within an object or array is left out, as
 *  `plain` has it where a place holds nothing. Returns how many operations it takes. Refuses with 6
 *  what no operation can hold (fractions, unsafe integers, Date, Map, classes, conflicts), with 7 a
 *  key of more than 128 bytes, and with 20 what lies deeper than 30 keys.
 *  @param {any} value
 *  @param {number} [depth] How many keys lead to the place.
 *  @returns {number} */
export function checkValue(value, depth = 0) {
  if (depth > MOST.path) throw new Refused(REFUSALS["too-deep"]);
  if (value instanceof Counter) {
    const beside = value.value === undefined ? 0 : checkValue(value.value, depth);
    return beside + pieces(checkedSum(value.sum)).length;
  }
  if (value instanceof Conflict) throw badValue("values in conflict: settle them first");
  if (Array.isArray(value)) return value.filter(isGiven).reduce(countingElements(depth), 1);
  if (!isMap(value)) return checkedScalar(value), 1;
  if (!isPlain(value)) throw badValue(kindOf(value));
  const fields = Object.entries(value).filter(([, inner]) => isGiven(inner));
  const unfit = fields.find(([key]) => !isText(key))?.[0];
  if (unfit !== undefined) {
    throw new Refused(REFUSALS["bad-cursor"], undefined, undefined, whyUnfit(unfit, "key", MOST.key));
  }
  return fields.reduce((count, [, inner]) => count + checkValue(inner, depth + 1), 1);
}

/** An element with a counter alone takes a null beside it.
 *  @param {number} depth */
const countingElements = (depth) => (/** @type {number} */ count, /** @type {any} */ item) => {
  const isLone = item instanceof Counter && item.value === undefined;
  return count + checkValue(item, depth + 1) + (isLone ? 1 : 0);
};

/** @param {any} value */
export const isGiven = (value) => value !== undefined;

/** @param {any} sum */
function checkedSum(sum) {
  if (typeof sum !== "bigint" && !Number.isSafeInteger(sum)) throw badValue(kindOf(sum));
  if (pieces(sum).length > 1000) throw badValue("a counter too great");
  return sum;
}

/** A sum as integers of 64 bits: what to add, one operation each.
 *  @param {number | bigint} sum
 *  @returns {(number | bigint)[]} */
export function pieces(sum) {
  const found = [];
  let left = BigInt(sum);
  do {
    const piece = left >= I64 ? I64 - 1n : left < -I64 ? -I64 : left;
    found.push(shortest(piece));
    left -= piece;
  } while (left !== 0n && found.length <= 1000);
  return found;
}

/** Whether UTF-8 writes the text in so many bytes. It can't write half a surrogate pair.
 *  @param {string} text
 *  @param {number} bytes */
export function fits(text, bytes) {
  if (hasLoneSurrogate(text)) return false;
  return text.length * 3 <= bytes || byteLength(text) <= bytes;
}

/** @param {string} text
 *  @param {string} what
 *  @param {number} bytes */
const whyUnfit = (text, what, bytes) => (hasLoneSurrogate(text)
  ? `a ${what} with half a character: a lone surrogate, which UTF-8 can't write`
  : `a ${what} of more than ${bytes} bytes`);

/** @param {string} text */
const hasLoneSurrogate = (text) => /[^\0-\x7f]/.test(text) && /\p{Surrogate}/u.test(text);

const encoder = new TextEncoder();

/** The bytes of a text in UTF-8.
 *  @param {string} text */
export const byteLength = (text) => encoder.encode(text).length;

/** Whether it is a text that can be a key.
 *  @param {any} value
 *  @returns {value is string} */
export const isText = (value) => typeof value === "string" && fits(value, MOST.key);
