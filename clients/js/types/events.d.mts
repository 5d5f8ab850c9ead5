export class Events {
    /** @param {(error: any) => any} failed Is called with what a listener has thrown. */
    constructor(failed: (error: any) => any);
    get hasWatches(): boolean;
    /** @param {Heard} heard */
    listen(heard: Heard): () => undefined;
    /** @param {Cursor} place
     *  @param {Source} source
     *  @param {number} length
     *  @param {Changed} changed */
    watch(place: import("./operations.mjs").Cursor, source: Source, length: number, changed: Changed): () => void;
    /** All that is logged within `work` is one event, at its end. Where the stack is nearly exhausted
     *  it throws instead: what was begun there could be logged, and not heard.
     *  @template T
     *  @param {() => T} work
     *  @returns {T} */
    batch<T>(work: () => T): T;
    /** Is called with what the engine has logged at once, before `log`.
     *  @param {Operation[]} ops */
    note(ops: import("./operations.mjs").Operation[]): void;
    /** Is called in place of `note` and `log` with all that the engine has, where all of it is new.
     *  @param {string[]} lines
     *  @param {Why} why */
    begin(lines: string[], why: Why): void;
    /** @param {string} line
     *  @param {Operation} op
     *  @param {Why} why */
    log(line: string, op: import("./operations.mjs").Operation, why: Why): void;
    /** Everything is another: watches go on at the places of now.
     *  @param {string[]} gone
     *  @param {(place: Cursor) => {place: Cursor, source: Source, values: any[]} | undefined} again */
    remade(gone: string[], again: (place: import("./operations.mjs").Cursor) => {
        place: import("./operations.mjs").Cursor;
        source: Source;
        values: any[];
    } | undefined): void;
    #private;
}
export type Cursor = import("./operations.mjs").Cursor;
export type Id = import("./operations.mjs").Id;
export type Operation = import("./operations.mjs").Operation;
/**
 * As of Array.splice: to be
 *   made one after another.
 */
export type Splice = {
    index: number;
    remove: number;
    insert: any[];
};
export type Why = "own" | "undo" | "taken" | "remade";
/**
 * Where an operation ended, by ids, and what it was.
 */
export type Change = {
    id: import("./operations.mjs").Id;
    word: import("./protocol.mjs").EditWord;
    place: import("./operations.mjs").Cursor;
    value?: any;
};
export type Event = {
    why: Why;
    /**
     * The operations, as they are stored. None with "remade".
     */
    lines: string[];
    /**
     * With "remade": what was in the log, and isn't any more.
     */
    gone?: string[] | undefined;
    ids: import("./operations.mjs").Id[];
    changes: Change[];
};
export type Heard = (event: Event) => any;
export type Changed = (splices: Splice[], why: Why) => any;
/**
 * What a watch asks for splices.
 */
export type Source = {
    /**
     * What has changed since it was last called.
     */
    take: () => Splice[];
    /**
     * Is called with each operation at, under or above the
     * watch's place, once the engine has it, before `take`.
     */
    note?: ((op: import("./operations.mjs").Operation) => void) | undefined;
    /**
     * Anything may have changed before `take`: these are
     * all operations.
     */
    renew?: ((lines: string[]) => void) | undefined;
    end: () => void;
    /**
     * Of the list, if the source knows it.
     */
    length?: number | undefined;
};
export type Watch = {
    place: import("./operations.mjs").Cursor;
    /**
     * Of the place.
     */
    texts: string[];
    source: Source;
    /**
     * Of the list, as the splices made it.
     */
    length: number;
    changed: Changed;
};
