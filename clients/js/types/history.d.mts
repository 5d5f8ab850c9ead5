/** @typedef {object} Back What puts back a part of what an edit has cleared.
 *  @property {Cursor} place
 *  @property {"assign" | "add"} word
 *  @property {any} value
 *  @property {Id[]} ids The puts that it stands for.
 *  @property {Edit[]} terms The own additions that it stands for. */
/** @typedef {object} Edit
 *  @property {import("./protocol.mjs").EditWord} word
 *  @property {Cursor} place
 *  @property {string[]} texts Of the place.
 *  @property {Id} id
 *  @property {any} value
 *  @property {Back[]} back
 *  @property {boolean} hadPuts Whether a value was at the place before.
 *  @property {Cursor | null} fresh The topmost place on the way to it that held nothing before.
 *  @property {Front} seen What was logged before it; empty where it has cleared no counter.
 *  @property {Id | null} counted Of an addition: the operation that counts it now. */
/** @typedef {object} Before What an edit is about to change.
 *  @property {{steps: (string | Id)[], word: "assign" | "add", value: any, ids: Id[]}[]} remains
 *  @property {number} fresh How many steps lead to the topmost place that holds nothing; 0: none. */
export class History {
    /** @param {(request: any[]) => {reply: any[]}} ask
     *  @param {Read} read Throws Refused.
     *  @param {(word: Edit["word"], place: Cursor, ...value: any[]) => Id} edit */
    constructor(ask: (request: any[]) => {
        reply: any[];
    }, read: Read, edit: (word: Edit["word"], place: import("./operations.mjs").Cursor, ...value: any[]) => import("./operations.mjs").Id);
    get isTurning(): boolean;
    /** What it can take back, and make again. */
    get steps(): {
        undo: Edit[][];
        redo: Edit[][];
    };
    /** Takes over the steps of a generation before: those up to which all can be taken back here.
     *  @param {{undo: Edit[][], redo: Edit[][]}} steps
     *  @param {Map<string, Id>} ids of elements: as they were, and as they are now
     *  @param {Front} start what this generation began with */
    adopt({ undo, redo }: {
        undo: Edit[][];
        redo: Edit[][];
    }, ids: Map<string, import("./operations.mjs").Id>, start: import("./operations.mjs").Front): void;
    clear(): void;
    /** Reads what an edit is about to change.
     *  @param {Edit["word"]} word
     *  @param {any[]} request The cursor, as `requestOf` makes it.
     *  @returns {Before} */
    before(word: Edit["word"], request: any[]): Before;
    /** Records an edit that was made.
     *  @param {Operation} op
     *  @param {Before} before */
    after(op: import("./operations.mjs").Operation, { remains, fresh }: Before): void;
    /** Is to be called with each logged operation, behind `after`: what it clears counts no more.
     *  @param {Operation} op */
    note(op: import("./operations.mjs").Operation): void;
    /** All edits within `work` are one step.
     *  @template T
     *  @param {() => T} work
     *  @returns {T} */
    group<T>(work: () => T): T;
    /** Takes back the last step. `checkRoom` throws if so many operations can't be made; then nothing
     *  was changed, and the step stays.
     *  @param {"undo" | "redo"} from
     *  @param {(count: number) => void} checkRoom
     *  @returns {boolean} Whether there was a step. */
    turn(from: "undo" | "redo", checkRoom: (count: number) => void): boolean;
    #private;
}
export type Branches = import("./operations.mjs").Branches;
export type Cursor = import("./operations.mjs").Cursor;
export type Front = import("./operations.mjs").Front;
export type Id = import("./operations.mjs").Id;
export type Operation = import("./operations.mjs").Operation;
export type Read = import("./followers.mjs").Read;
/**
 * What puts back a part of what an edit has cleared.
 */
export type Back = {
    place: import("./operations.mjs").Cursor;
    word: "assign" | "add";
    value: any;
    /**
     * The puts that it stands for.
     */
    ids: import("./operations.mjs").Id[];
    /**
     * The own additions that it stands for.
     */
    terms: Edit[];
};
export type Edit = {
    word: import("./protocol.mjs").EditWord;
    place: import("./operations.mjs").Cursor;
    /**
     * Of the place.
     */
    texts: string[];
    id: import("./operations.mjs").Id;
    value: any;
    back: Back[];
    /**
     * Whether a value was at the place before.
     */
    hadPuts: boolean;
    /**
     * The topmost place on the way to it that held nothing before.
     */
    fresh: import("./operations.mjs").Cursor | null;
    /**
     * What was logged before it; empty where it has cleared no counter.
     */
    seen: import("./operations.mjs").Front;
    /**
     * Of an addition: the operation that counts it now.
     */
    counted: import("./operations.mjs").Id | null;
};
/**
 * What an edit is about to change.
 */
export type Before = {
    remains: {
        steps: (string | import("./operations.mjs").Id)[];
        word: "assign" | "add";
        value: any;
        ids: import("./operations.mjs").Id[];
    }[];
    /**
     * How many steps lead to the topmost place that holds nothing; 0: none.
     */
    fresh: number;
};
