/** The bytes that the line of an operation has at most, its newline included. No counter has more digits
 *  than a full log's. Its front names the replicas at most that have operations, or held ones, which a
 *  change may release. Its element is of one of these.
 *  @param {string} own
 *  @param {string[]} others
 *  @param {Path} path
 *  @param {any[]} mutation */
export function lengthOf(own: string, others: string[], path: import("./operations.mjs").Path, mutation: any[]): number;
/** The items in their order, cut so that the lines of each part fit beside the reply. One that doesn't fit
 *  comes alone.
 *  @template T
 *  @param {T[]} items
 *  @param {(item: T) => number} lengthOf The bytes of its line.
 *  @returns {T[][]} */
export function cut<T>(items: T[], lengthOf: (item: T) => number): T[][];
/** @typedef {import("./operations.mjs").Path} Path */
/** The bytes of a text for which the library has memory before it changes anything. */
export const ROOM: 65536;
export type Path = import("./operations.mjs").Path;
