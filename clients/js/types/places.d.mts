/** @param {Cursor} place
 *  @returns {[Path, Key]} */
export function writtenOf(place: import("./operations.mjs").Cursor): [import("./operations.mjs").Path, Key];
/** The cursor as an engine takes it: with the ids in its start. An index before an id is made an
 *  id by `resolve`, which returns the place of a cursor without ids.
 *  @param {Cursor} cursor
 *  @param {(cursor: any[]) => Cursor} resolve
 *  @returns {any[]} */
export function requestOf(cursor: import("./operations.mjs").Cursor, resolve: (cursor: any[]) => import("./operations.mjs").Cursor): any[];
/** Where an operation ends: an insertion at the element that it makes.
 *  @param {Operation} op
 *  @returns {Cursor} */
export function endOf([, id, , written, [word]]: import("./operations.mjs").Operation): import("./operations.mjs").Cursor;
export function placeOf(written: [import("./operations.mjs").Path, Key]): import("./operations.mjs").Cursor;
export function textsOf(place: import("./operations.mjs").Cursor): string[];
export function isPrefix(texts: string[], others: string[]): boolean;
export type Cursor = import("./operations.mjs").Cursor;
export type Id = import("./operations.mjs").Id;
export type Key = import("./operations.mjs").Key;
export type Operation = import("./operations.mjs").Operation;
export type Path = import("./operations.mjs").Path;
