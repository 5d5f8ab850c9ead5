/** How many elements a list has, without reading it: by asking for elements at some indices.
 *  @param {Client} client
 *  @param {string} document
 *  @param {Cursor} list
 *  @param {number} guess
 *  @returns {Promise<number>} */
export function lengthOf(client: Client, document: string, list: import("./operations.mjs").Cursor, guess: number): Promise<number>;
/** One nested value on its way. */
export class Filling {
    /** @param {Client} client
     *  @param {string} document */
    constructor(client: Client, document: string);
    /** @type {Id[]} */
    ids: import("./operations.mjs").Id[];
    /** @param {Cursor} cursor
     *  @param {any} value */
    put(cursor: import("./operations.mjs").Cursor, value: any): Promise<import("./operations.mjs").Id[]>;
    /** Inserts behind the first `length` elements, fewer if there are fewer by then.
     *  @param {Cursor} cursor
     *  @param {any} value
     *  @param {number} length
     *  @returns {Promise<{id: Id, index: number}>} */
    append(cursor: import("./operations.mjs").Cursor, value: any, length: number): Promise<{
        id: import("./operations.mjs").Id;
        index: number;
    }>;
    #private;
}
export type Client = import("./session.mjs").Client;
export type Cursor = import("./operations.mjs").Cursor;
export type Id = import("./operations.mjs").Id;
