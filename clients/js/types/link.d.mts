/** @typedef {object} Watcher
 *  @property {() => void} silent The server doesn't reply.
 *  @property {() => void} alive It replies to what was asked since nothing else was.
 *  @property {(error: unknown) => void} failed It couldn't: the hub has no server. */
export class Link {
    /** @param {Client} client
     *  @param {Span} turn its end is the link's
     *  @param {Watcher} watcher */
    constructor(client: Client, turn: Span, watcher: Watcher);
    /** Whether everything was exchanged once over it. */
    isSynced: boolean;
    client: import("./session.mjs").Client;
    end(): void;
    /** Notes that something came unasked: that is a sign of life, too. */
    noteSign(): void;
    /** Does something that asks the server, and notes how long its reply takes.
     *  @template T
     *  @param {() => Promise<T>} work
     *  @returns {Promise<T>} */
    timed<T>(work: () => Promise<T>): Promise<T>;
    /** Sends a line and resolves its reply. Throws Away where the hub has no server, and Lost where
     *  the server ended before it replied.
     *  @param {string} line
     *  @returns {Promise<string>} */
    ask(line: string): Promise<string>;
    #private;
}
export type Span = import("./clock.mjs").Span;
export type Client = import("./session.mjs").Client;
export type Watcher = {
    /**
     * The server doesn't reply.
     */
    silent: () => void;
    /**
     * It replies to what was asked since nothing else was.
     */
    alive: () => void;
    /**
     * It couldn't: the hub has no server.
     */
    failed: (error: unknown) => void;
};
