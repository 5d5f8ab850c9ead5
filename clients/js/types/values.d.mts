/** An element of a reply to `show` as a plain value: an object for a map, an array for a list, and
 *  scalars as they are. Counters and conflicts are apart from values, as `Counter` and `Conflict`.
 *  A place that holds nothing is `undefined`; JSON's null is null.
 *  @param {Branches} branches
 *  @returns {any} */
export function plain(branches: import("./operations.mjs").Branches): any;
/** A value of `plain` with one value a conflict: the last, or what `choose` gives.
 *  @param {any} value
 *  @param {(conflict: Conflict) => any} [choose]
 *  @returns {any} */
export function settled(value: any, choose?: ((conflict: Conflict) => any) | undefined): any;
/** The scalar as it is kept. Refuses with 6, `bad-value`, what no operation can hold.
 *  @param {any} value
 *  @returns {Scalar} */
export function checkedScalar(value: any): Scalar;
/** @param {any} value */
export function checkedInteger(value: any): any;
/** Checks a nested value, all of it, before any of it is put. It is what `plain` gives: scalars,
 *  arrays and plain objects, and counters. `undefined` within an object or array is left out, as
 *  `plain` has it where a place holds nothing. Returns how many operations it takes. Refuses with 6
 *  what no operation can hold (fractions, unsafe integers, Date, Map, classes, conflicts), with 7 a
 *  key of more than 128 bytes, and with 20 what lies deeper than 30 keys.
 *  @param {any} value
 *  @param {number} [depth] How many keys lead to the place.
 *  @returns {number} */
export function checkValue(value: any, depth?: number | undefined): number;
/** A sum as integers of 64 bits: what to add, one operation each.
 *  @param {number | bigint} sum
 *  @returns {(number | bigint)[]} */
export function pieces(sum: number | bigint): (number | bigint)[];
/** Whether UTF-8 writes the text in so many bytes. It can't write half a surrogate pair.
 *  @param {string} text
 *  @param {number} bytes */
export function fits(text: string, bytes: number): boolean;
/** A counter at a place, and the value beside it, `undefined` if there is none. */
export class Counter {
    /** @param {number | bigint} sum
     *  @param {any} [value] */
    constructor(sum: number | bigint, value?: any);
    sum: number | bigint;
    value: any;
}
/** Several values at one place: a map, a list and scalars, these in the order of their ids. */
export class Conflict {
    /** @param {any[]} values */
    constructor(values: any[]);
    values: any[];
    /** The same one at every replica: the scalar with the greatest id, where there is one. */
    get last(): any;
}
export function integer(text: string): number | bigint;
export function bare(value: any): any;
export function isBare(value: any): boolean;
export function isGiven(value: any): boolean;
export function byteLength(text: string): number;
export function isText(value: any): value is string;
export type Branches = import("./operations.mjs").Branches;
export type Scalar = import("./operations.mjs").Scalar;
