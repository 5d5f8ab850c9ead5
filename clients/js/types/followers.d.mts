/** In log order, the operations that a front doesn't cover.
 *  @param {Read} read
 *  @param {Iterable<[string, number]>} front
 *  @returns {Generator<Operation>} */
export function operationsOf(read: Read, front: Iterable<[string, number]>): Generator<import("./operations.mjs").Operation>;
export function reading(engine: Engine): Read;
export function placeAt(read: Read, cursor: any[]): import("./operations.mjs").Cursor;
export type Cursor = import("./operations.mjs").Cursor;
export type Id = import("./operations.mjs").Id;
export type Operation = import("./operations.mjs").Operation;
export type Engine = import("./jcrdt.mjs").Engine;
/**
 * Asks; returns what is behind the word.
 */
export type Read = (word: string, ...items: any[]) => any;
/**
 * Asks; returns the line of
 *   the reply, where it can be had unread.
 */
export type ReadText = (word: string, ...items: any[]) => string | undefined;
