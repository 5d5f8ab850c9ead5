/** Connects to a server or the hub at HOST:PORT, from Node, and resolves once the session has
 *  begun. Fails with `Away` if it doesn't within 10 seconds: a server with no session left accepts
 *  connections and never replies. Fails with `Refused` (103) if a hub doesn't admit this client. A
 *  request whose reply takes more than 60 seconds ends the session. A number in place of the
 *  options is its seconds.
 *  @param {string} address
 *  @param {number | Options} [options]
 *  @returns {Promise<Client>} */
export function connected(address: string, options?: number | Options | undefined): Promise<Client>;
/** Connects to the hub over WebSocket, and resolves once the session has begun: see `connected`. In
 *  Node the second argument is the class of `ws`. Behind 10 seconds without a request it asks
 *  for the version, so that a hub that is frozen is noticed.
 *  @param {string | URL} url
 *  @param {any} [WebSocket]
 *  @param {Options} [options]
 *  @returns {Promise<Client>} */
export function connectedToHub(url: string | URL, WebSocket?: any, options?: Options | undefined): Promise<Client>;
/** @typedef {object} Waiting
 *  @property {string} word
 *  @property {(line: string) => void} answered
 *  @property {(error: Error) => void} failed */
/** @typedef {object} Watch
 *  @property {Map<Changed, string>} watchers With the front that each was called with, "" before.
 *  @property {boolean} isPushed Whether the hub pushes it.
 *  @property {Promise<void>} begun */
/** @typedef {object} Following
 *  @property {Set<Follower>} followers
 *  @property {number} [last] The number of the last push of operations; none behind a front.
 *  @property {boolean} isBegun Whether a front was pushed. */
/** One session: see `connected`. */
export class Client {
    /** @param {(line: string) => void} sent Sends a line.
     *  @param {() => void} ended Ends the connection.
     *  @param {Options} [options] */
    constructor(sent: (line: string) => void, ended: () => void, options?: Options | undefined);
    /** @type {Promise<Lost>} Resolves with the cause when the connection has ended. */
    closed: Promise<Lost>;
    /** Called when the hub has a new session, with the variables that are gone.
     *  @type {(gone: [document: string, name: string][]) => any} */
    reopened: (gone: [document: string, name: string][]) => any;
    /** Called when a document that is watched goes on in another generation.
     *  @type {(document: string, generation: string) => any} */
    renewed: (document: string, generation: string) => any;
    /** Called with what a callback of the caller has thrown. The session goes on.
     *  @type {(error: any) => any} */
    failed: (error: any) => any;
    /** The connection calls this for each line that came.
     *  @param {string} line */
    receive(line: string): void;
    /** Ends the connection for a cause of this side.
     *  @param {string} cause */
    breakOff(cause: string): void;
    /** The connection calls this when it has ended.
     *  @param {string} cause */
    lose(cause: string): void;
    /** How many requests wait for their replies. */
    waiting: () => number;
    /** Ends the connection without a word. */
    end(): void;
    /** Sends a line of text, and returns the line of its reply.
     *  @param {string} line
     *  @returns {Promise<string>} */
    answer(line: string): Promise<string>;
    /** From now on asks for the version where nothing else is asked for so long. */
    ping(): void;
    /** Sends one request, and returns the items of its reply behind the word. Throws RangeError, and
     *  sends nothing, if the request has more than 65,536 bytes.
     *  @param {string} word
     *  @param {...any} items
     *  @returns {Promise<any[]>} */
    ask(word: string, ...items: any[]): Promise<any[]>;
    /** @param {string} document */
    open: (document: string) => Promise<any>;
    /** Assigns a scalar, {} or []. What is in them is put by `put`.
     *  @param {string} document
     *  @param {Cursor} place
     *  @param {any} value
     *  @returns {Promise<Id>} */
    assign: (document: string, place: import("./operations.mjs").Cursor, value: any) => Promise<import("./operations.mjs").Id>;
    /** Inserts behind the element at the place. Index 0 is the place before the first.
     *  @param {string} document
     *  @param {Cursor} place
     *  @param {any} value
     *  @returns {Promise<Id>} */
    insert: (document: string, place: import("./operations.mjs").Cursor, value: any) => Promise<import("./operations.mjs").Id>;
    /** @param {string} document
     *  @param {Cursor} place
     *  @returns {Promise<Id>} */
    delete: (document: string, place: import("./operations.mjs").Cursor) => Promise<import("./operations.mjs").Id>;
    /** @param {string} document
     *  @param {Cursor} place
     *  @param {number | bigint} number
     *  @returns {Promise<Id>} */
    add: (document: string, place: import("./operations.mjs").Cursor, number: number | bigint) => Promise<import("./operations.mjs").Id>;
    /** Binds a name to a place. It goes on to mean that element when the list moves.
     *  @param {string} document
     *  @param {string} name
     *  @param {Cursor} cursor */
    let: (document: string, name: string, cursor: import("./operations.mjs").Cursor) => Promise<any[]>;
    /** Inserts a value, nested or not, behind the last element of the list at the cursor. Returns the
     *  element's id. What is in the value goes into that very element, as by `put`.
     *  @param {string} document
     *  @param {Cursor} cursor
     *  @param {any} value
     *  @returns {Promise<Id>} */
    append(document: string, cursor: import("./operations.mjs").Cursor, value: any): Promise<import("./operations.mjs").Id>;
    /** Puts a nested value, as `plain` gives it: {} or [] first, then what is in it. Returns the ids.
     *  The whole value is checked before. Others may read it half done. An element that somebody
     *  deletes or assigns meanwhile isn't filled. A refusal ends it there.
     *
     *  A conflict isn't put: `settled` helps. A counter as an element of a list gets null beside it.
     *  `undefined` in an object or array is left out. Names that begin with "put:" are bound.
     *  @param {string} document
     *  @param {Cursor} cursor
     *  @param {any} value
     *  @returns {Promise<Id[]>} */
    put(document: string, cursor: import("./operations.mjs").Cursor, value: any): Promise<import("./operations.mjs").Id[]>;
    /** @param {string} document @param {Cursor} cursor @returns {Promise<string[]>} */
    keys: (document: string, cursor: import("./operations.mjs").Cursor) => Promise<string[]>;
    /** @param {string} document @param {Cursor} cursor @returns {Promise<Scalar[]>} */
    values: (document: string, cursor: import("./operations.mjs").Cursor) => Promise<Scalar[]>;
    /** @param {string} document @param {Cursor} cursor @returns {Promise<[Id, Scalar[]][]>} */
    items: (document: string, cursor: import("./operations.mjs").Cursor) => Promise<[import("./operations.mjs").Id, Scalar[]][]>;
    /** @param {string} document @param {Cursor} cursor @returns {Promise<[Id, any][]>} */
    conflicts: (document: string, cursor: import("./operations.mjs").Cursor) => Promise<[import("./operations.mjs").Id, any][]>;
    /** @param {string} document @param {Cursor} cursor @returns {Promise<number | bigint>} */
    sum: (document: string, cursor: import("./operations.mjs").Cursor) => Promise<number | bigint>;
    /** @param {string} document @param {Cursor} cursor @returns {Promise<any[][]>} */
    show: (document: string, cursor: import("./operations.mjs").Cursor) => Promise<any[][]>;
    /** The value at the cursor: see `plain` of wire.mjs.
     *  @param {string} document
     *  @param {Cursor} cursor
     *  @returns {Promise<any>} */
    plain: (document: string, cursor: import("./operations.mjs").Cursor) => Promise<any>;
    /** Returns how many operations were logged: 0 where it is known, or held until others come.
     *  @param {string} document
     *  @param {Operation} operation
     *  @returns {Promise<number>} */
    deliver(document: string, operation: import("./operations.mjs").Operation): Promise<number>;
    /** What the server has: a Map from each replica to its last counter.
     *  @param {string} document
     *  @returns {Promise<Map<string, number>>} */
    front: (document: string) => Promise<Map<string, number>>;
    /** In log order, the operations that the front doesn't cover: `for await (const op of ..)`. Ends
     *  also if the server repeats itself.
     *  @param {string} document
     *  @param {ReadonlyMap<string, number>} [front] */
    operations(document: string, front?: ReadonlyMap<string, number> | undefined): AsyncGenerator<import("./operations.mjs").Operation, void, unknown>;
    /** By which two logs are compared: for each pair of `front` the replica, the counter, and the SHA-256
     *  in hex of the lines of the replica's operations with counters above that of `after`, or 0, and at
     *  most that of `front`, in log order.
     *  @param {string} document
     *  @param {ReadonlyMap<string, number>} after
     *  @param {ReadonlyMap<string, number>} front
     *  @returns {Promise<[string, number, string][]>} */
    chains: (document: string, after: ReadonlyMap<string, number>, front: ReadonlyMap<string, number>) => Promise<[string, number, string][]>;
    /** Which of these ids of one's own operations this server doesn't have. After connecting to a
     *  server that was started again: these are lost, and have to be made again.
     *  @param {string} document
     *  @param {Id[]} ids */
    unsaved(document: string, ids: import("./operations.mjs").Id[]): Promise<import("./operations.mjs").Id[]>;
    /** At the hub: resolves once the operation of this id is in the server's file. Refused with 104,
     *  `not-kept`, if the hub can't know, and with 2 by a server, which has no such request.
     *  @param {string} document
     *  @param {Id} id
     *  @param {{ signal?: AbortSignal }} [wait] ends the wait: then the signal's reason is thrown */
    stored(document: string, id: import("./operations.mjs").Id, wait?: {
        signal?: AbortSignal | undefined;
    } | undefined): Promise<void>;
    /** @param {string} document @returns {Promise<[Id, Id[]][]>} */
    held: (document: string) => Promise<[import("./operations.mjs").Id, import("./operations.mjs").Id[]][]>;
    /** @param {string} document @param {Id} id */
    forget: (document: string, id: import("./operations.mjs").Id) => Promise<any[]>;
    /** How many operations are logged, how many of them the server's file has (0 in `run`), and of how
     *  many replicas they are. Servers before 1.2.0 refuse it with 2.
     *  @param {string} document
     *  @returns {Promise<{ logged: number, copied: number, replicas: number }>} */
    size(document: string): Promise<{
        logged: number;
        copied: number;
        replicas: number;
    }>;
    /** Whether the server's file has the operation of this id now. Servers before 1.2.0 refuse it
     *  with 2. See `stored`, which waits.
     *  @param {string} document @param {Id} id @returns {Promise<boolean>} */
    copied: (document: string, id: import("./operations.mjs").Id) => Promise<boolean>;
    /** @param {string} document @returns {Promise<number>} */
    account: (document: string) => Promise<number>;
    /** @returns {Promise<number>} */
    version: () => Promise<number>;
    quit(): Promise<void>;
    /** Calls `changed(front)` now and whenever the document changed, until the connection ends or the
     *  returned function is called. The hub says when; a server is asked every so many milliseconds.
     *  Refused if the document isn't open.
     *  @param {string} document
     *  @param {Changed} changed
     *  @param {number | { every?: number, signal?: AbortSignal }} [options] a number is `every`: 500
     *    ms. The signal ends it, as `AbortSignal.timeout(ms)` does after so long
     *  @returns {Promise<() => void>} */
    watch(document: string, changed: Changed, options?: number | {
        every?: number | undefined;
        signal?: AbortSignal | undefined;
    } | undefined): Promise<() => void>;
    /** @param {string} document
     *  @param {Changed} changed */
    unwatch(document: string, changed: Changed): void;
    /** Through the hub: calls `begins(front)` now, and then `logged(operations)` for what the document
     *  logs, own changes among it, until the connection ends or the returned function is called. A
     *  server and an older hub push no operations: then `changed(front)` is called, as by `watch`.
     *  Refused if the document isn't open.
     *  @param {string} document
     *  @param {Follower} follower
     *  @param {number} [every] as of `watch`
     *  @returns {Promise<() => void>} */
    follow(document: string, follower: Follower, every?: number | undefined): Promise<() => void>;
    /** Whether the hub pushes a document's operations.
     *  @param {string} document */
    isFollowed: (document: string) => boolean;
    /** Through the hub: calls `heard(value, guest)` for what others `say` of the document, until the
     *  returned function is called. The hub keeps nothing of it.
     *  @param {string} document
     *  @param {Heard} heard
     *  @returns {Promise<() => void>} */
    hear(document: string, heard: Heard): Promise<() => void>;
    /** Through the hub: says a value to those who `hear` the document.
     *  @param {string} document
     *  @param {any} value */
    say: (document: string, value: any) => Promise<undefined>;
    /** At a hub that renews documents: the generations of one, the last of which takes changes. One of
     *  before is read as the document NAME/GENERATION, if the hub has kept it.
     *  @param {string} document
     *  @returns {Promise<[generation: string, operations: number, replicas: number][]>} */
    history: (document: string) => Promise<[generation: string, operations: number, replicas: number][]>;
    /** Makes a document. Refused with 105, `there-already`, where there is one of this name, with 103
     *  where this client may not, and with 2 by a server and by a hub that has one.
     *  @param {string} document */
    create: (document: string) => Promise<undefined>;
    /** The names of all documents that this client may read, in byte order. Refused with 103 where it
     *  may not ask that, and with 2 by a server and by a hub that has one.
     *  @returns {Promise<string[]>} */
    list(): Promise<string[]>;
    #private;
}
export type Cursor = import("./operations.mjs").Cursor;
export type Id = import("./operations.mjs").Id;
export type Operation = import("./operations.mjs").Operation;
export type Scalar = import("./operations.mjs").Scalar;
export type Changed = (front: Map<string, number>) => any;
export type Heard = (value: any, guest: string) => any;
/**
 * What is called for a document that is followed.
 */
export type Follower = {
    /**
     * With the front as it is: `logged` is called with what comes behind it.
     */
    begins: Changed;
    /**
     * With what was logged behind the last call.
     */
    logged: (operations: import("./operations.mjs").Operation[]) => any;
    /**
     * Something was logged that no call had: the server is to be asked.
     */
    misses: () => any;
    /**
     * In place of these, where operations aren't pushed.
     */
    changed: Changed;
};
export type Options = {
    /**
     * How long the oldest request may wait for its reply (60).
     */
    seconds?: number | undefined;
    /**
     * How long until the session has begun (10).
     */
    connectSeconds?: number | undefined;
    /**
     * After so many seconds without a request `version` is asked (10), while
     * something is watched, and over WebSocket always: a server gives a session that is silent for 30
     * seconds to another that waits.
     */
    ping?: number | undefined;
    /**
     * Of a reply, in bytes (256 MiB).
     */
    most?: number | undefined;
    /**
     * Ends the session when it is aborted, also before it begins.
     */
    signal?: AbortSignal | undefined;
    /**
     * For tests: what pings and `watch` go by.
     */
    clock?: import("./clock.mjs").Clock | undefined;
};
export type Waiting = {
    word: string;
    answered: (line: string) => void;
    failed: (error: Error) => void;
};
export type Watch = {
    /**
     * With the front that each was called with, "" before.
     */
    watchers: Map<Changed, string>;
    /**
     * Whether the hub pushes it.
     */
    isPushed: boolean;
    begun: Promise<void>;
};
export type Following = {
    followers: Set<Follower>;
    /**
     * The number of the last push of operations; none behind a front.
     */
    last?: number | undefined;
    /**
     * Whether a front was pushed.
     */
    isBegun: boolean;
};
import { Lost } from "./errors.mjs";
