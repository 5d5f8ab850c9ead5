/** Makes the operations of these lines again in `other`. An element that the new document doesn't
 *  have, or that was deleted there, can't be edited there: such a line is lost, and the element stays
 *  away. What is behind a deleted element goes behind the one before it.
 *  @param {Replica} old
 *  @param {Replica} other
 *  @param {Iterable<string | [Id, Id]>} map
 *  @param {string[]} lines
 *  @returns {{remade: number, lost: string[]}} */
export function remakeIn(old: Replica, other: Replica, map: Iterable<string | [import("./operations.mjs").Id, import("./operations.mjs").Id]>, lines: string[]): {
    remade: number;
    lost: string[];
};
export type Replica = import("./replica.mjs").Replica;
export type Cursor = import("./operations.mjs").Cursor;
export type Id = import("./operations.mjs").Id;
export type Operation = import("./operations.mjs").Operation;
