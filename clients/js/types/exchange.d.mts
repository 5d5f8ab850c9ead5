export class Exchange {
    /** @param {Core} core
     *  @param {number} stored The counter of the last own operation that was restored. */
    constructor(core: Core, stored: number);
    /** The counter of the last own operation that a server is known to have; `undefined` if none was
     *  asked. */
    get confirmed(): number | undefined;
    /** @param {Answer} answer
     *  @returns {Promise<Report>} */
    sync(answer: Answer): Promise<Report>;
    /** From now on `logged` is called with all that this server logs behind the front. So `sync` with
     *  this very `answer` asks for nothing that is known. Without a front the next `sync` asks for it.
     *  @param {Answer} answer
     *  @param {Iterable<[string, number]>} [front] */
    follow(answer: Answer, front?: Iterable<[string, number]> | undefined): void;
    /** Takes what a server that is followed has logged. Returns whether nothing differs in it now:
     *  else the caller is to `sync`. Before a server was compared nothing is taken.
     *  @param {Answer} answer
     *  @param {Operation[]} operations Each has an id, at least. */
    logged(answer: Answer, operations: import("./operations.mjs").Operation[]): boolean;
    /** Whether a name is this replica's, or was that of one of which its store is a copy.
     *  @param {string} name */
    isOwnName(name: string): boolean;
    /** Whether what was restored may be that of a program that goes on, and nobody was told. */
    get isDoubtful(): boolean;
    /** Says, where the store wasn't closed, which operations the program that had it may have, too. It
     *  is to come right behind them, and before any of them is sent. */
    say(): void;
    /** Goes on under a new name: `goOn` is called with what to go on with. What copies of the store may
     *  have is made again the same by each of them, and is at the server by then.
     *  @template T
     *  @param {string} name
     *  @param {Answer} answer
     *  @param {Open} open
     *  @param {boolean} isRemade Whether own operations that the server lacks are made again.
     *  @param {(remaking: Remaking) => T} goOn
     *  @returns {Promise<T>} */
    remade<T>(name: string, answer: Answer, open: Open, isRemade: boolean, goOn: (remaking: Remaking) => T): Promise<T>;
    /** What a hub had of own operations at the end of a generation, beside others' of this name: from
     *  which counter on it had those, and what copies of the store had made again by then.
     *  @param {string} past
     *  @param {Map<string, number>} end
     *  @param {Answer} answer
     *  @param {Open} open
     *  @returns {Promise<{ forked: number, made: Map<string, Id> }>} */
    before(past: string, end: Map<string, number>, answer: Answer, open: Open): Promise<{
        forked: number;
        made: Map<string, import("./operations.mjs").Id>;
    }>;
    #private;
}
export type Ask = (word: string, ...items: any[]) => Promise<any>;
export type Front = import("./operations.mjs").Front;
export type Id = import("./operations.mjs").Id;
export type Operation = import("./operations.mjs").Operation;
export type Path = import("./operations.mjs").Path;
export type Key = import("./operations.mjs").Key;
export type Engine = import("./jcrdt.mjs").Engine;
export type Open = import("./jcrdt.mjs").Open;
export type Read = import("./followers.mjs").Read;
/**
 * Sends a request's line; resolves its reply.
 */
export type Answer = (line: string) => Promise<string>;
export type Refusal = {
    /**
     * The operation.
     */
    line: string;
    number: number;
    name: string;
    /**
     * Whether this replica made it.
     */
    own: boolean;
};
export type Report = {
    /**
     * Operations that the replica has logged.
     */
    taken: number;
    /**
     * Operations that the server has logged.
     */
    given: number;
    /**
     * Operations that were refused, here or there: at most 1,000.
     */
    refused: Refusal[];
    /**
     * The first operation that the server has
     * another one of than this replica: nothing was exchanged then, and where only a refusal shows it,
     * nothing more. One of another replica comes first.
     */
    differs?: import("./chains.mjs").Difference | undefined;
};
export type Remade = import("./remaking.mjs").Remade;
/**
 * A server that says what it logs.
 */
export type Followed = {
    answer: Answer;
    /**
     * What it has, by its replies and by what it said.
     */
    theirs: Map<string, number>;
    /**
     * Whether that is all it has; else the next exchange asks for it.
     */
    isKnown: boolean;
    /**
     * Whether it said something that wasn't taken, since it was asked last.
     */
    isMissed: boolean;
};
/**
 * What a replica gives to its exchange.
 */
export type Core = {
    name: () => string;
    doc: string;
    read: Read;
    front: () => Map<string, number>;
    /**
     * Delivers operations as one batch.
     */
    take: (operations: any[]) => Taken;
    /**
     * Begins with operations, of which a server wrote
     * these texts. Returns whether it has: else nothing is changed, and they are to be delivered.
     */
    begin: (lines: string[]) => boolean;
    isShared: () => boolean;
    /**
     * In milliseconds since some moment.
     */
    now: () => number;
    /**
     * Whether copies may be made of what is edited: a file has it.
     */
    isFiled: () => boolean;
    /**
     * Whether what was restored may be that of a program that goes on.
     */
    wasOpen: () => boolean;
    /**
     * Whether its name is of this opening of the store.
     */
    isNew: () => boolean;
    /**
     * Deletes what isn't there.
     */
    say: (place: import("./operations.mjs").Cursor) => void;
    /**
     * The last ones of the log.
     */
    last: (count: number) => import("./operations.mjs").Operation[];
    /**
     * Says so of names before this one, if it has said nothing.
     */
    sayFormers: () => void;
    /**
     * These names.
     */
    formers: () => ReadonlyMap<string, any>;
    sessionOf: import("./copies.mjs").SessionOf;
    /**
     * Is called with the operations that came, once more
     * have come, and are to be taken.
     */
    fetched: (count: number) => void;
};
export type Taken = {
    taken: number;
    refused: {
        line: string;
        refusal: Refused;
    }[];
};
import { Remaking } from "./remaking.mjs";
import { Refused } from "./errors.mjs";
