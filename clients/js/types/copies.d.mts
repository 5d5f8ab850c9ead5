/** Operations that say so at these places, before all others of a name. They know of what began their
 *  generation: without that a hub takes them for those of another one.
 *  @param {string} name
 *  @param {Cursor[]} places
 *  @param {Iterable<[string, number]>} front
 *  @returns {Operation[]} */
export function sayings(name: string, places: import("./operations.mjs").Cursor[], front: Iterable<[string, number]>): import("./operations.mjs").Operation[];
/** Operations with the first ones of a name in front, which say of so many names that they are copied. A
 *  file has them behind what they are about.
 *  @param {() => Iterable<Operation>} operations
 *  @param {string} name
 *  @param {number} count
 *  @returns {Generator<Operation>} */
export function sayingsFirst(operations: () => Iterable<import("./operations.mjs").Operation>, name: string, count: number): Generator<import("./operations.mjs").Operation>;
export function copyPlace(name: string, counter: number, session: string, origin: string): import("./operations.mjs").Cursor;
export function placeOfSayings(log: import("./operations.mjs").Operation[]): number;
export function isSaying([, , , [path, key], [word]]: import("./operations.mjs").Operation): boolean;
/** A server's operations of a replica's name beside the replica's own ones. */
export class Comparison {
    /** @param {Core} core
     *  @param {number} from Up to this counter they are the same: those behind it are compared. */
    constructor(core: Core, from: number);
    /** Up to this counter they are the same. */
    same: number;
    /** Up to this counter a copy says that it has them. */
    copied: number;
    /** Up to this counter the server has any of this name. */
    last: number;
    /** Hears what an operation says, whoever made it.
     *  @param {any} op */
    hear(op: any): void;
    /** Takes the server's next operation.
     *  @param {any} op */
    take(op: any): void;
    #private;
}
export type Core = import("./exchange.mjs").Core;
export type Cursor = import("./operations.mjs").Cursor;
export type Operation = import("./operations.mjs").Operation;
/**
 * Words of openings of a store, each from behind
 *   a counter on.
 */
export type Sessions = {
    after: number;
    word: string;
}[];
/**
 * The word of the opening of the store
 *   in which an own operation was made, or one of a name before; none where the store has none.
 */
export type SessionOf = (counter: number, name?: string) => string;
