/** @typedef {import("./stores.mjs").Store} Store */
/** @typedef {import("./stores.mjs").Stored} Stored */
/** @typedef {import("./session.mjs").Client} Client */
/** @typedef {import("./errors.mjs").Refused} Refused */
/**
 * Whether the replica exchanges with a server: true within 10 seconds, whatever froze or broke.
 * @typedef {object} State
 * @property {"online" | "connecting" | "offline" | "refused"} word "online": all that is stored
 *   here was given or is on its way, and all that the server has is here or on its way. "refused":
 *   the same, but for one's own changes that the server refuses: these stay here. Where `refused`
 *   has `differs` nothing is exchanged
 * @property {Date} since when it began
 * @property {string} why why it is offline, or what is refused, in words; else ""
 * @property {RefusedChanges} [refused] of "refused"
 */
/**
 * @typedef {object} RefusedChanges
 * @property {number} count how many operations of this replica the server lacks
 * @property {Refused} cause why it refused the first of them
 * @property {import("./chains.mjs").Difference} [differs] where the server has other operations than
 *   are here: of which replica, and the counter of the first one. Nothing is sent or taken then
 */
/**
 * How long a call waits.
 * @typedef {object} Wait
 * @property {number} [seconds] 10, unless it is said
 * @property {AbortSignal} [signal] ends it before: then the signal's reason is thrown
 */
/**
 * Something that a person should know, until it is over.
 * @typedef {object} Problem
 * @property {"store" | "memory" | "unread" | "server" | "refused" | "remade" | "renewed"
 *    | "listener"} kind
 *   "store": what was edited last isn't stored, and edits are refused. "memory": the store can't be
 *   opened, so nothing is stored. "unread": a part of the store couldn't be read. "server": it
 *   refuses to exchange. "refused": it refused some of one's own operations, which stay here.
 *   "remade": another had this replica's name, so that changes were made again. "renewed": the
 *   document goes on in another generation, where some changes couldn't be made again. "listener": a
 *   function that `listen` was given threw.
 * @property {string} words
 * @property {unknown} [cause] the error, if there is one
 * @property {string[]} [lines] the operations that it is about
 */
/**
 * What `listen` gives.
 * @typedef {object} Event
 * @property {"changed" | "state" | "problem" | "server" | "presence" | "progress"} what "changed":
 *   operations were logged, one event for all that came at once. "state", "problem", "presence",
 *   "progress": these are others now. "server": the server has another front.
 * @property {string} [why] of "changed": "own", "undo", "taken" or "remade"
 * @property {string[]} [lines] of "changed": the operations; none where it was remade
 */
/**
 * @typedef {object} Options
 * @property {string} document its name
 * @property {string} [at] where the server or the hub is
 * @property {Store} [store] in memory if there is none
 * @property {boolean} [orMemory] whether it goes on in memory where the store can't be opened, as
 *   in a browser without IndexedDB. `problems` says so then. Without it the store's error is thrown
 * @property {string} [word] what a new name of the replica begins with: up to 21 of a-z, 0-9, -
 * @property {boolean} [isOnline] whether it connects at once: true, unless it is said
 * @property {import("./jcrdt.mjs").Open} [engine] what keeps the document: what `load` gives, unless
 *   it is said
 * @property {any} [WebSocket] for ws:// in Node: the class of the package ws
 * @property {(line: string, reply: string) => void} [onReply] is called with each request of the
 *   exchange and its reply, as for a protocol
 * @property {import("./clock.mjs").Clock} [clock] for tests: what its pauses and limits go by
 * @property {() => number} [random] for tests: what the pauses between two tries go by, from 0 to 1
 */
/** A replica with a store, and an exchange that goes on by itself. */
export class Provider {
    /** Loads the engine where it isn't loaded, reads the store, and connects. Throws Busy where another
     *  program has the store open, TypeError where it has something else, Unstored where it can't store,
     *  and what `load` throws.
     *  @param {Options} options
     *  @returns {Promise<Provider>} */
    static open(options: Options): Promise<Provider>;
    /** By `Provider.open` alone.
     *  @param {Options} options
     *  @param {Store} store
     *  @param {Replica} replica
     *  @param {Problem[]} problems of the store */
    constructor(options: Options, store: Store, replica: Replica, problems: Problem[]);
    /** The document as it is here. It is read and edited at any time, and isn't `sync`ed by hand.
     *  @type {Replica} */
    replica: Replica;
    /** Who else has the document open at the hub: see presence.mjs.
     *  @type {Presence} */
    presence: Presence;
    /** @type {State} */
    state: State;
    /** Whether everything that was edited here is stored. If not, it is under way, or has failed. */
    get isStored(): boolean;
    /** What is stored and what isn't, as a text that file_store.mjs reads. */
    get saved(): string;
    /** The operations that no server is known to have. */
    get unsent(): string[];
    /** What the server had when it was last asked: pairs of a replica and its last counter.
     *  `undefined` before that. */
    get serverFront(): [string, number][] | undefined;
    /** Whether the server takes what is edited here: false for a client that may only read, for a
     *  document without room, and while the state is "refused". `undefined` before it is known. */
    get canWrite(): boolean | undefined;
    /** Takes back one's own changes that the server refuses: they go from the replica and the store,
     *  which goes on under a new name. Resolves their lines, which nobody else has; none where
     *  nothing is refused. Watches go on, `undo` has no steps then. Other tabs show them until they
     *  are loaded again. Throws Away where there is no exchange in time: then nothing is taken back.
     *  @param {{ seconds?: number }} [wait] 10, unless it is said
     *  @returns {Promise<string[]>} */
    discardRefused(wait?: {
        seconds?: number | undefined;
    } | undefined): Promise<string[]>;
    /** Where the server has other operations of somebody than are here (`state.refused.differs`), as one
     *  that was started over an older file: goes on with what the server has, and makes one's own changes
     *  that it lacks again under a new name. Resolves the lines of those that couldn't be made, and of
     *  others' that are here alone; none where nothing differs. Watches go on. Throws Away where there is
     *  no exchange in time: then nothing is made.
     *  @param {{ seconds?: number }} [wait] 10, unless it is said
     *  @returns {Promise<string[]>} */
    remakeRefused(wait?: {
        seconds?: number | undefined;
    } | undefined): Promise<string[]>;
    /** How many operations the exchange that goes on has got of the server, which show once they are
     *  taken; `undefined` where it gets none. An event "progress" says twice a second that it is
     *  another. */
    get progress(): {
        fetched: number;
    } | undefined;
    /** What a person should know, by kind, until it is over. */
    get problems(): Map<"unread" | "renewed" | "refused" | "remade" | "store" | "memory" | "server" | "listener", Problem>;
    /** Calls a function with each event, one at a time, until what this returns is called.
     *  @param {(event: Event) => void} heard
     *  @returns {() => void} */
    listen(heard: (event: Event) => void): () => void;
    /** Whether it is online, or tries to be. */
    get isSwitchedOn(): boolean;
    /** Connects, and exchanges from now on. Where it does so already, it goes on, and tries at once
     *  if it was waiting to. Throws TypeError where it has no server, or is closed. */
    goOnline(): void;
    /** Ends the connection, and makes none. Edits are stored, and sent later. */
    goOffline(): void;
    /** Stores what isn't stored, ends the connection and lets others open the store. Throws Unstored
     *  where that fails: then something is lost that only `saved` has. */
    close(): Promise<void>;
    /** Deletes what is stored. Where `unsent` has something, that is lost. It is closed then. */
    deleteStored(): Promise<void>;
    /** Resolves once it is online and everything is exchanged that was logged here before. Where it
     *  is offline for now, it connects at once. Throws Refused where the server refuses changes of
     *  this replica, with how many and why: these stay here. Throws Away at once where it is closed.
     *  @param {number | Wait} [wait] how long: a number is its seconds. Then Away is thrown, with
     *    what is known
     *  @returns {Promise<void>} */
    synced(wait?: number | Wait | undefined): Promise<void>;
    #private;
}
export type Store = import("./stores.mjs").Store;
export type Stored = import("./stores.mjs").Stored;
export type Client = import("./session.mjs").Client;
export type Refused = import("./errors.mjs").Refused;
/**
 * Whether the replica exchanges with a server: true within 10 seconds, whatever froze or broke.
 */
export type State = {
    /**
     * "online": all that is stored
     * here was given or is on its way, and all that the server has is here or on its way. "refused":
     * the same, but for one's own changes that the server refuses: these stay here. Where `refused`
     * has `differs` nothing is exchanged
     */
    word: "online" | "connecting" | "offline" | "refused";
    /**
     * when it began
     */
    since: Date;
    /**
     * why it is offline, or what is refused, in words; else ""
     */
    why: string;
    /**
     * of "refused"
     */
    refused?: RefusedChanges | undefined;
};
export type RefusedChanges = {
    /**
     * how many operations of this replica the server lacks
     */
    count: number;
    /**
     * why it refused the first of them
     */
    cause: Refused;
    /**
     * where the server has other operations than
     * are here: of which replica, and the counter of the first one. Nothing is sent or taken then
     */
    differs?: import("./chains.mjs").Difference | undefined;
};
/**
 * How long a call waits.
 */
export type Wait = {
    /**
     * 10, unless it is said
     */
    seconds?: number | undefined;
    /**
     * ends it before: then the signal's reason is thrown
     */
    signal?: AbortSignal | undefined;
};
/**
 * Something that a person should know, until it is over.
 */
export type Problem = {
    /**
     *   "store": what was edited last isn't stored, and edits are refused. "memory": the store can't be
     *   opened, so nothing is stored. "unread": a part of the store couldn't be read. "server": it
     *   refuses to exchange. "refused": it refused some of one's own operations, which stay here.
     *   "remade": another had this replica's name, so that changes were made again. "renewed": the
     *   document goes on in another generation, where some changes couldn't be made again. "listener": a
     *   function that `listen` was given threw.
     */
    kind: "store" | "memory" | "unread" | "server" | "refused" | "remade" | "renewed" | "listener";
    words: string;
    /**
     * the error, if there is one
     */
    cause?: unknown;
    /**
     * the operations that it is about
     */
    lines?: string[] | undefined;
};
/**
 * What `listen` gives.
 */
export type Event = {
    /**
     * "changed":
     * operations were logged, one event for all that came at once. "state", "problem", "presence",
     * "progress": these are others now. "server": the server has another front.
     */
    what: "changed" | "state" | "problem" | "server" | "presence" | "progress";
    /**
     * of "changed": "own", "undo", "taken" or "remade"
     */
    why?: string | undefined;
    /**
     * of "changed": the operations; none where it was remade
     */
    lines?: string[] | undefined;
};
export type Options = {
    /**
     * its name
     */
    document: string;
    /**
     * where the server or the hub is
     */
    at?: string | undefined;
    /**
     * in memory if there is none
     */
    store?: import("./stores.mjs").Store | undefined;
    /**
     * whether it goes on in memory where the store can't be opened, as
     * in a browser without IndexedDB. `problems` says so then. Without it the store's error is thrown
     */
    orMemory?: boolean | undefined;
    /**
     * what a new name of the replica begins with: up to 21 of a-z, 0-9, -
     */
    word?: string | undefined;
    /**
     * whether it connects at once: true, unless it is said
     */
    isOnline?: boolean | undefined;
    /**
     * what keeps the document: what `load` gives, unless
     * it is said
     */
    engine?: import("./jcrdt.mjs").Open | undefined;
    /**
     * for ws:// in Node: the class of the package ws
     */
    WebSocket?: any;
    /**
     * is called with each request of the
     * exchange and its reply, as for a protocol
     */
    onReply?: ((line: string, reply: string) => void) | undefined;
    /**
     * for tests: what its pauses and limits go by
     */
    clock?: import("./clock.mjs").Clock | undefined;
    /**
     * for tests: what the pauses between two tries go by, from 0 to 1
     */
    random?: (() => number) | undefined;
};
import { Replica } from "./replica.mjs";
import { Presence } from "./presence.mjs";
export { Busy, Unstored, memoryStore } from "./stores.mjs";
