/** @typedef {object} Parts What it works with.
 *  @property {Replica} replica
 *  @property {StoreWriter} writer
 *  @property {Notices} notices
 *  @property {Connection} connection
 *  @property {() => void} changed Its state may be another.
 *  @property {string} word What a new name of the replica begins with.
 *  @property {(line: string, reply: string) => void} [onReply]
 *  @property {Clock} clock
 *  @property {Span} life Of the provider. */
export class Synchronizer {
    /** @param {Parts} parts */
    constructor(parts: Parts);
    /** Whether the server lets this client edit; `undefined` before it was asked.
     *  @type {boolean | undefined} */
    mayWrite: boolean | undefined;
    /** How many own operations the last exchange left here since the server refuses them, and why. Where
     *  that is a difference, nothing is exchanged.
     *  @type {{ count: number, cause: Refused, differs?: Difference } | undefined} */
    refused: {
        count: number;
        cause: Refused;
        differs?: Difference;
    } | undefined;
    /** How many operations the exchange under way has fetched, once it is some.
     *  @type {number | undefined} */
    fetched: number | undefined;
    /** Whether nothing differs, as far as is known. */
    get isDone(): boolean;
    /** What the server had when it last said so, by a push or a reply.
     *  @returns {[string, number][] | undefined} */
    get serverFront(): [string, number][] | undefined;
    /** The operations that no server is known to have. */
    get unsent(): import("./operations.mjs").Operation[];
    /** Begins over a new connection: opens the document, and asks for word of changes.
     *  @param {Link} link */
    begin(link: Link): Promise<void>;
    /** Exchanges, as something may differ: the server is asked for all that it has. */
    now(): void;
    /** Exchanges what is known to differ, once for all that happens at this moment. What was pushed
     *  differs no more.
     *  @param {Logged["why"]} [why] of what was logged here */
    soon(why?: import("./events.mjs").Why | undefined): void;
    /** Returns whether what was logged is a part of the exchange that goes on, and is told with it.
     *  @param {Logged} event */
    hears({ why, lines }: Logged): boolean;
    /** Takes back what the server refuses, at the next exchange. Resolves its lines. Throws Away
     *  where there is none for so long.
     *  @param {number} ms
     *  @returns {Promise<string[]>} */
    discard(ms: number): Promise<string[]>;
    /** Goes on with what the server has, where that differs, and makes own operations that it lacks
     *  again under a new name, at the next exchange. Resolves the lines of those that couldn't be made,
     *  and of others' that the server has others of. Throws Away where there is none for so long.
     *  @param {number} ms
     *  @returns {Promise<string[]>} */
    remake(ms: number): Promise<string[]>;
    #private;
}
export type Clock = import("./clock.mjs").Clock;
export type Span = import("./clock.mjs").Span;
export type Difference = import("./chains.mjs").Difference;
export type Connection = import("./connection.mjs").Connection;
export type Logged = import("./events.mjs").Event;
export type Refusal = import("./exchange.mjs").Refusal;
export type Link = import("./link.mjs").Link;
export type Notices = import("./notices.mjs").Notices;
export type Replica = import("./replica.mjs").Replica;
export type StoreWriter = import("./store_writer.mjs").StoreWriter;
export type Answer = (line: string) => Promise<string>;
/**
 * What it works with.
 */
export type Parts = {
    replica: Replica;
    writer: StoreWriter;
    notices: Notices;
    connection: Connection;
    /**
     * Its state may be another.
     */
    changed: () => void;
    /**
     * What a new name of the replica begins with.
     */
    word: string;
    onReply?: ((line: string, reply: string) => void) | undefined;
    clock: Clock;
    /**
     * Of the provider.
     */
    life: Span;
};
import { Refused } from "./errors.mjs";
