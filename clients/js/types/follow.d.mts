/** @typedef {object} FollowOptions
 *  @property {Iterable<[string, number]>} [front] what was handled already: nothing
 *  @property {number} [every] how often a server is asked, in milliseconds: 500
 *  @property {AbortSignal} [signal] ends it: then its reason is thrown
 *  @property {any} [WebSocket] for ws:// in Node: the class of the package ws
 *  @property {import("./clock.mjs").Clock} [clock] for tests: what the pauses go by */
/** Gives each operation of a document that the front doesn't cover, in log order, for ever. It
 *  connects again whenever the server or hub has gone.
 *
 *  A hub says when something has changed. If it knows what is in the server's file, an operation
 *  comes once it is there. A server is asked, and what it has logged comes: a kill may take the last
 *  of it back, and then its writer may write it again.
 *
 *  Throws Refused where the document can't be opened.
 *  @param {string} at HOST:PORT of a server or a hub, or a hub's ws:// or wss:// address
 *  @param {string} document
 *  @param {FollowOptions} [options]
 *  @returns {AsyncGenerator<Operation, never, void>} */
export function followed(at: string, document: string, options?: FollowOptions | undefined): AsyncGenerator<import("./operations.mjs").Operation, never, void>;
/** The front that covers the operation as well.
 *  @param {Iterable<[string, number]>} front
 *  @param {Operation} operation
 *  @returns {Front} */
export function frontAfter(front: Iterable<[string, number]>, [, [counter, replica]]: import("./operations.mjs").Operation): import("./operations.mjs").Front;
export type FollowOptions = {
    /**
     * what was handled already: nothing
     */
    front?: Iterable<[string, number]> | undefined;
    /**
     * how often a server is asked, in milliseconds: 500
     */
    every?: number | undefined;
    /**
     * ends it: then its reason is thrown
     */
    signal?: AbortSignal | undefined;
    /**
     * for ws:// in Node: the class of the package ws
     */
    WebSocket?: any;
    /**
     * for tests: what the pauses go by
     */
    clock?: import("./clock.mjs").Clock | undefined;
};
export type Front = import("./operations.mjs").Front;
export type Operation = import("./operations.mjs").Operation;
export type Client = import("./session.mjs").Client;
