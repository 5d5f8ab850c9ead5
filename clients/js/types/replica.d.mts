/** @typedef {import("./events.mjs").Changed} Changed */
/** @typedef {import("./events.mjs").Heard} Heard */
/** @typedef {import("./events.mjs").Why} Why */
/** @typedef {import("./exchange.mjs").Answer} Answer */
/** @typedef {import("./exchange.mjs").Remade} Remade */
/** @typedef {import("./exchange.mjs").Report} Report */
/** @typedef {import("./exchange.mjs").Taken} Taken */
/** @typedef {import("./jcrdt.mjs").Open} Open */
/** @typedef {import("./operations.mjs").Cursor} Cursor */
/** @typedef {import("./operations.mjs").Id} Id */
/** @typedef {import("./operations.mjs").Operation} Operation */
/** @typedef {import("./operations.mjs").Scalar} Scalar */
/** @typedef {object} Options
 *  @property {Open} [engine] What makes the engine: what `load` has given, unless it is said. */
/** @typedef {{line: string, number: number, name: string}} Unread A line that couldn't be taken. */
/** A new replica, or the one of stored operations: see `Replica` and `restore`. It loads the engine
 *  first, where that isn't loaded yet.
 *  @param {string} name
 *  @param {string} doc
 *  @param {string[]} [lines] The operations' lines.
 *  @returns {Promise<Replica>} */
export function openReplica(name: string, doc: string, lines?: string[] | undefined): Promise<Replica>;
export class Replica {
    /** A replica from its lines. It takes what it can: `unread` has the others, as a line that is
     *  there twice, isn't an operation, or depends on one that is missing. Throws TypeError if the
     *  first line doesn't name a replica.
     *  @param {string[]} lines
     *  @param {Options} [options]
     *  @returns {Replica} */
    static restore([first, ...lines]: string[], options?: Options | undefined): Replica;
    /** A new replica, without operations. Throws TypeError for a name or document that can't be one:
     *  both have 1 to 32 of a-z, 0-9, -. Throws an Error before `await load()`: openReplica does that.
     *  @param {string} name That no other replica of the document ever has.
     *  @param {string} doc
     *  @param {Options} [options] */
    constructor(name: string, doc: string, options?: Options | undefined);
    /** @type {Unread[]} After `restore`: the lines that couldn't be taken, and why. */
    unread: Unread[];
    /** Whether others may send own operations for this replica, as tabs that share a store. If not,
     *  an own operation at a server that wasn't sent from here shows that another has the name. */
    isShared: boolean;
    /** Whether a file has what is edited here, so that copies may be made of it meanwhile. */
    isFiled: boolean;
    /** Whether what was restored may be that of a program that goes on: its store wasn't closed. */
    wasOpen: boolean;
    /** Whether its name is of this opening of the store: so only copies that were made since have it. */
    isNew: boolean;
    /** For tests: what waiting goes by.
     *  @type {import("./clock.mjs").Clock} */
    clock: import("./clock.mjs").Clock;
    /** Words of the times in which own operations were made, each from behind a counter on.
     *  @type {import("./copies.mjs").Sessions} */
    sessions: import("./copies.mjs").Sessions;
    /** The same of names before this one, which go on in stores of which this one is a copy.
     *  @type {Map<string, import("./copies.mjs").Sessions>} */
    formers: Map<string, import("./copies.mjs").Sessions>;
    /** Called with what a listener has thrown. The others go on.
     *  @type {(error: any) => any} */
    failed: (error: any) => any;
    /** Called while `sync` gets operations of a server: with how many have come until now.
     *  @type {(count: number) => any} */
    fetched: (count: number) => any;
    get name(): string;
    /** Whether what was restored may be that of a program that goes on, and nobody was told. */
    get isDoubtful(): boolean;
    get doc(): string;
    /** How many operations are logged: at most 100,000. */
    get count(): number;
    /** The lines to store: the names, and below them the log.
     *  @returns {string[]} */
    lines(): string[];
    /** The logged operations that a front doesn't cover, in log order. They aren't to be changed.
     *  @param {Iterable<[string, number]>} [front]
     *  @returns {Iterable<Operation>} */
    operations(front?: Iterable<[string, number]> | undefined): Iterable<import("./operations.mjs").Operation>;
    /** Gives up the engine's memory. The replica isn't used any more. */
    free(): void;
    /** Calls `check` before each change of one's own, `undo` and `redo` among them. What it throws
     *  refuses that change: nothing is changed. Returns a function that ends it.
     *  @param {() => void} check
     *  @returns {() => void} */
    guard(check: () => void): () => void;
    /** Assigns a scalar, {} or [].
     *  @param {Cursor} cursor
     *  @param {any} value
     *  @returns {Id} */
    assign(cursor: import("./operations.mjs").Cursor, value: any): import("./operations.mjs").Id;
    /** Inserts behind the element or head at the cursor.
     *  @param {Cursor} cursor
     *  @param {any} value
     *  @returns {Id} */
    insert(cursor: import("./operations.mjs").Cursor, value: any): import("./operations.mjs").Id;
    /** @param {Cursor} cursor @returns {Id} */
    delete(cursor: import("./operations.mjs").Cursor): import("./operations.mjs").Id;
    /** Adds an integer of 64 bits to the counter at the cursor.
     *  @param {Cursor} cursor
     *  @param {number | bigint} number
     *  @returns {Id} */
    add(cursor: import("./operations.mjs").Cursor, number: number | bigint): import("./operations.mjs").Id;
    /** Puts a nested value, as `plain` gives it: {} or [] first, and then what is in it, one operation
     *  each. It is one step of undo and one event. The whole value is checked before: a refusal
     *  changes nothing. Counters are added; `undefined` in objects and arrays is left out. Where memory
     *  lacks in the middle it throws Refused (22), and what was made by then stays: `undo` takes it back.
     *  @param {Cursor} cursor
     *  @param {any} value
     *  @returns {Id[]} */
    put(cursor: import("./operations.mjs").Cursor, value: any): import("./operations.mjs").Id[];
    /** As Array.splice: behind the first `index` elements it inserts the values, nested or not, and
     *  deletes `count` others. A string counts as its characters. Returns the ids of the new
     *  elements. It is one step of undo and one event; a refusal changes nothing, but for 22 as of `put`.
     *  @param {Cursor} cursor
     *  @param {number} index
     *  @param {number} count
     *  @param {Iterable<any>} values
     *  @returns {Id[]} */
    splice(cursor: import("./operations.mjs").Cursor, index: number, count: number, values: Iterable<any>): import("./operations.mjs").Id[];
    /** How many more operations it can make: none where 256 others have made some, and it hasn't. */
    get room(): number;
    /** The same place by ids: it goes on to mean that element when the list moves.
     *  @param {Cursor} cursor
     *  @returns {Cursor} */
    place(cursor: import("./operations.mjs").Cursor): import("./operations.mjs").Cursor;
    /** The index of an element or head; of a deleted element, that of the present one before it.
     *  @param {Cursor} place
     *  @returns {number} */
    indexOf(place: import("./operations.mjs").Cursor): number;
    /** All edits within `work` are one step of undo and one event. If it throws, what it has edited
     *  before stays.
     *  @template T
     *  @param {() => T} work
     *  @returns {T} */
    group<T>(work: () => T): T;
    /** Takes back one's own last step, but for what has changed since. Returns if there was one.
     *  Refused with 18 if the document has no room for it; the step stays then.
     *
     *  Places that it made vanish, if there is nothing else in them. A counter beside a value stays,
     *  as 0: only a new assignment clears it. Counters come back by amounts: what others have added
     *  meanwhile stays. Two that undo the same deletion at the same time count it twice. */
    undo(): boolean;
    redo(): boolean;
    /** @param {Cursor} cursor
     *  @returns {any[][]} */
    show(cursor: import("./operations.mjs").Cursor): any[][];
    /** What `show` gives as a plain value: see `plain` of wire.mjs.
     *  @param {Cursor} cursor
     *  @returns {any} */
    plain(cursor: import("./operations.mjs").Cursor): any;
    /** @param {Cursor} cursor @returns {string[]} */
    keys(cursor: import("./operations.mjs").Cursor): string[];
    /** @param {Cursor} cursor @returns {Scalar[]} */
    values(cursor: import("./operations.mjs").Cursor): Scalar[];
    /** @param {Cursor} cursor @returns {[Id, Scalar[]][]} */
    items(cursor: import("./operations.mjs").Cursor): [import("./operations.mjs").Id, Scalar[]][];
    /** @param {Cursor} cursor @returns {[Id, any][]} */
    conflicts(cursor: import("./operations.mjs").Cursor): [import("./operations.mjs").Id, any][];
    /** @param {Cursor} cursor
     *  @returns {number | bigint} a BigInt beyond 2^53, as of a session */
    sum(cursor: import("./operations.mjs").Cursor): number | bigint;
    /** @returns {[string, number][]} */
    front(): [string, number][];
    /** By which two logs are compared, as `chains` of a session.
     *  @param {ReadonlyMap<string, number>} after
     *  @param {ReadonlyMap<string, number>} front
     *  @returns {[string, number, string][]} */
    chains(after: ReadonlyMap<string, number>, front: ReadonlyMap<string, number>): [string, number, string][];
    /** The held operations, each with what is missing.
     *  @returns {[Id, Id[]][]} */
    held(): [import("./operations.mjs").Id, import("./operations.mjs").Id[]][];
    /** The strings of a list as one text; of several values of an element, the last.
     *  @param {Cursor} cursor
     *  @returns {string} */
    text(cursor: import("./operations.mjs").Cursor): string;
    /** Calls `heard({ why, lines, ids, changes })` for what was logged together: an edit, a `put`, a
     *  page of a server. `why` is "own", "undo" or "taken". `lines` are to be stored. After `remake`
     *  it calls `heard({ why: "remade", .. })`; then all of `lines()` is.
     *
     *  Listeners are called one after another. What one of them throws goes to `failed`, and what it
     *  edits is heard after this. When one is called, the replica may already be further on.
     *  @param {Heard} heard */
    listen(heard: Heard): () => undefined;
    /** Calls `changed(splices, why)` when something has changed at the place or under it. `splices`
     *  are [{ index, remove, insert }, ..]: they do to an array of the last values of the list's
     *  elements what happened to the list. They are empty if none came, went or got another value. It
     *  may be called though nothing differs, when something above the place was assigned.
     *  @param {Cursor} cursor
     *  @param {Changed} changed */
    watch(cursor: import("./operations.mjs").Cursor, changed: Changed): () => void;
    /** Takes a line, or an operation that `parse` read. Returns what a server answers:
     *  ["applied",count,dropped,id], ["known"] or ["held",[id,..]].
     *  @param {string | Operation} operation
     *  @returns {any[]} */
    deliver(operation: string | import("./operations.mjs").Operation): any[];
    /** Takes operations, as lines or read, as one event. Goes on behind one that is refused.
     *  @param {(string | Operation)[]} operations
     *  @returns {Taken} */
    deliverAll(operations: (string | import("./operations.mjs").Operation)[]): Taken;
    /** Drops a held operation.
     *  @param {Id} id */
    forget(id: import("./operations.mjs").Id): void;
    /** Takes what the server has, and gives it what it lacks. Sends requests before earlier ones are
     *  answered; replies come in their order. Resolves { taken, given, refused }, where `refused`
     *  has { line, number, name, own } for each operation that was refused, here or there. If one
     *  of the own name was, by 14, 15 or 16, another replica has that name: see `remake`.
     *
     *  Before that it compares what both have: all of it with a new `answer`, later what has come to
     *  both. Where the server has another operation of one id, as one that was started over an older
     *  file, nothing is exchanged, and `differs` has its { name, counter }: see `remake`. An `answer`
     *  is of one connection, and behind a hub of one session of its server (`reopened`).
     *
     *  One goes on at a time; a call with the same `answer` as one that waits is one with it. Throws
     *  what `answer` throws, and TypeError for a reply that no server gives.
     *  @param {Answer} answer
     *  @returns {Promise<Report>} */
    sync(answer: Answer): Promise<Report>;
    /** Says that `logged` will be called with all that a server logs behind this front. So `sync` with
     *  this very `answer` asks for nothing that is known. Without a front, as where something wasn't
     *  said, the next `sync` asks for it.
     *  @param {Answer} answer
     *  @param {Iterable<[string, number]>} [front] */
    follow(answer: Answer, front?: Iterable<[string, number]> | undefined): void;
    /** Takes what a server that is followed has logged, as one event: what fits. Returns whether
     *  nothing of it differs now; if not, `sync` is to be called.
     *  @param {Answer} answer
     *  @param {Operation[]} operations In log order.
     *  @returns {boolean} */
    logged(answer: Answer, operations: import("./operations.mjs").Operation[]): boolean;
    /** Whether a name is this replica's, or was that of one of which its store is a copy.
     *  @param {string} name
     *  @returns {boolean} */
    isOwnName(name: string): boolean;
    /** Goes on under a new name, after the server refused an operation of one's own since another
     *  has its id, or where the server has others of somebody. Takes the server's log, the operations
     *  of others that it lacks, and those of one's own that it lacks: under the new name, with what
     *  they knew. Own ones that were never stored or sent from here aren't taken for the server's,
     *  however alike. Watches go on. Then store all lines, and sync.
     *  @param {string} name
     *  @param {Answer} answer
     *  @returns {Promise<Remade>} */
    remake(name: string, answer: Answer): Promise<Remade>;
    /** Goes on under a new name without the operations of one's own that the server lacks, as where
     *  it refuses them: `lost` has them. Takes the server's log, and the operations of others that it
     *  lacks, but for those that depend on what is lost. Watches go on. Then store all lines.
     *  @param {string} name
     *  @param {Answer} answer
     *  @returns {Promise<{lost: string[]}>} */
    discard(name: string, answer: Answer): Promise<{
        lost: string[];
    }>;
    /** Goes on in another generation of the document: with its log, and with one's own operations that
     *  the hub lacks made again there. Places by ids of before go on to mean the same elements, watches
     *  go on, and so does `undo` as far as what it takes back is there. Then store all lines, and sync.
     *  @param {string} name That no other replica of the document ever has.
     *  @param {import("./generations.mjs").Step[]} steps from the generation of this replica on: one at
     *    least, else RangeError
     *  @param {Operation[]} log of the last generation
     *  @param {import("./generations.mjs").Own} [own] what the hub had of this one's own operations
     *  @returns {{remade: number, lost: string[]}} */
    renew(name: string, steps: import("./generations.mjs").Step[], log: import("./operations.mjs").Operation[], own?: import("./generations.mjs").Own | undefined): {
        remade: number;
        lost: string[];
    };
    /** What the hub had of one's own operations at the end of a generation.
     *  @param {Answer} answer
     *  @param {string} past what that generation is read as
     *  @param {Map<string, number>} end what the hub had
     *  @returns {Promise<import("./generations.mjs").Own>} */
    ownBefore(answer: Answer, past: string, end: Map<string, number>): Promise<import("./generations.mjs").Own>;
    /** Makes own edits that the old document's server refused again in a new one, whose content
     *  `python -m jcrdt renew` made of the old one's. `map` has the lines that it writes, or pairs of
     *  ids: see renewal.mjs. All are one event and one step of undo of `other`.
     *  @param {Replica} other The replica of the new document, synced.
     *  @param {Iterable<string | [Id, Id]>} map
     *  @param {string[]} [lines] The edits: the own operations that no server has.
     *  @returns {{remade: number, lost: string[]}} */
    remakeIn(other: Replica, map: Iterable<string | [import("./operations.mjs").Id, import("./operations.mjs").Id]>, lines?: string[] | undefined): {
        remade: number;
        lost: string[];
    };
    #private;
}
export type Changed = import("./events.mjs").Changed;
export type Heard = import("./events.mjs").Heard;
export type Why = import("./events.mjs").Why;
export type Answer = import("./exchange.mjs").Answer;
export type Remade = import("./exchange.mjs").Remade;
export type Report = import("./exchange.mjs").Report;
export type Taken = import("./exchange.mjs").Taken;
export type Open = import("./jcrdt.mjs").Open;
export type Cursor = import("./operations.mjs").Cursor;
export type Id = import("./operations.mjs").Id;
export type Operation = import("./operations.mjs").Operation;
export type Scalar = import("./operations.mjs").Scalar;
export type Options = {
    /**
     * What makes the engine: what `load` has given, unless it is said.
     */
    engine?: import("./jcrdt.mjs").Open | undefined;
};
/**
 * A line that couldn't be taken.
 */
export type Unread = {
    line: string;
    number: number;
    name: string;
};
