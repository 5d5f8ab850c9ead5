/** @typedef {object} Way
 *  @property {string} at HOST:PORT, ws:// or wss://
 *  @property {string} document
 *  @property {any} [WebSocket]
 *  @property {() => number} random From 0 to 1: how long it waits between two tries. */
/** @typedef {object} User Who uses the connection.
 *  @property {(link: Link) => Promise<void>} begin Begins to work over a new one.
 *  @property {() => void} resume Works again: the server replies again.
 *  @property {() => boolean} isAwaited Whether somebody waits for it.
 *  @property {() => void} changed Its state may be another.
 *  @property {(words: string, cause: Refused) => void} refused The server refuses to work. */
export class Connection {
    /** @param {Way} way
     *  @param {User} user
     *  @param {Span} life */
    constructor(way: Way, user: User, life: Span);
    /** Why it isn't online, in words; "" while it is, or begins to be. */
    why: string;
    /** Whether nothing has failed since it was switched on. */
    isFirst: boolean;
    /** @type {Link | undefined} */
    link: Link | undefined;
    /** Whether it is online, or tries to be. */
    get isSwitchedOn(): boolean;
    /** Connects from now on. Where it does so already, it tries at once. */
    goOnline(): void;
    /** Ends the connection, and makes none. */
    goOffline(): void;
    /** Ends the pause between two tries. */
    wake(): void;
    /** Notes why it isn't online.
     *  @param {unknown} error */
    fail(error: unknown): void;
    #private;
}
export type Span = import("./clock.mjs").Span;
export type Client = import("./session.mjs").Client;
export type Way = {
    /**
     * HOST:PORT, ws:// or wss://
     */
    at: string;
    document: string;
    WebSocket?: any;
    /**
     * From 0 to 1: how long it waits between two tries.
     */
    random: () => number;
};
/**
 * Who uses the connection.
 */
export type User = {
    /**
     * Begins to work over a new one.
     */
    begin: (link: Link) => Promise<void>;
    /**
     * Works again: the server replies again.
     */
    resume: () => void;
    /**
     * Whether somebody waits for it.
     */
    isAwaited: () => boolean;
    /**
     * Its state may be another.
     */
    changed: () => void;
    /**
     * The server refuses to work.
     */
    refused: (words: string, cause: Refused) => void;
};
import { Link } from "./link.mjs";
import { Refused } from "./errors.mjs";
