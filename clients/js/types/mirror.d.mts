/** @implements {Source} */
export class Mirror implements Source {
    /** Throws Refused for a head.
     *  @param {Read} read
     *  @param {Cursor} place
     *  @param {ReadText} [readText] */
    constructor(read: Read, place: import("./operations.mjs").Cursor, readText?: import("./followers.mjs").ReadText | undefined);
    get length(): number;
    end(): void;
    /** @param {Id} id */
    has(id: import("./operations.mjs").Id): boolean;
    /** Notes an operation that was logged: one at, under or above the place.
     *  @param {Operation} op */
    note(op: import("./operations.mjs").Operation): void;
    /** Notes that anything may have changed.
     *  @param {string[]} [lines] All operations that the engine has, where these are known. */
    renew(lines?: string[] | undefined): void;
    /** What has changed since it was last called.
     *  @returns {Splice[]} */
    take(): Splice[];
    #private;
}
export type Cursor = import("./operations.mjs").Cursor;
export type Id = import("./operations.mjs").Id;
export type Operation = import("./operations.mjs").Operation;
export type Source = import("./events.mjs").Source;
export type Splice = import("./events.mjs").Splice;
export type Read = import("./followers.mjs").Read;
export type ReadText = import("./followers.mjs").ReadText;
/**
 * A changed element, and how many are before
 *   it.
 */
export type Found = {
    index: number;
    key: number;
    id: [counter: number, replica: string];
};
