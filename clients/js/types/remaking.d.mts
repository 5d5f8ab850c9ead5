/** @typedef {import("./exchange.mjs").Ask} Ask */
/** @typedef {import("./exchange.mjs").Core} Core */
/** @typedef {import("./operations.mjs").Id} Id */
/** @typedef {import("./operations.mjs").Key} Key */
/** @typedef {import("./operations.mjs").Operation} Operation */
/** @typedef {import("./operations.mjs").Path} Path */
/** @typedef {import("./jcrdt.mjs").Engine} Engine */
/** @typedef {object} Remade
 *  @property {number} remade How many own operations were made again.
 *  @property {string[]} lost The operations that couldn't be.
 *  @property {string[]} melted Own insertions that the server already has, and that another of this
 *    name may have made there: their elements are one. */
/** @typedef {object} How
 *  @property {string} name The new one.
 *  @property {number} forked From this counter on others have the ids of own operations.
 *  @property {number} sure Own insertions up to this counter are this replica's own.
 *  @property {(same: number) => boolean} isOurs Whether what the server has up to this counter, and is
 *    the same here, is this replica's own.
 *  @property {() => number} stored Up to this counter copies of the store may have own operations.
 *  @property {Set<number>} strays Own operations that the server has logged behind another's.
 *  @property {boolean} isRemade Whether own operations that the server lacks are made again.
 *  @property {boolean} maySend Whether the server may take what is made again. */
/** A log under way from one name to another. */
export class Remaking {
    /** @param {Core} core
     *  @param {Engine} scratch It has what the server has.
     *  @param {How} how */
    constructor(core: Core, scratch: Engine, how: How);
    /** Whether the server takes what is made again, as far as is known. */
    maySend: boolean;
    free(): void;
    /** Up to this counter the server has the very same own operations, as far as they were taken. */
    get same(): number;
    /** Takes what the server has, in log order.
     *  @param {any} op */
    begin(op: any): void;
    /** Whether copies of the store may have own operations that weren't made again yet. */
    get isBehind(): boolean;
    /** Makes these again, and has the server log it. Returns whether it has; else the server has
     *  something that isn't known here.
     *  @param {Ask} ask
     *  @returns {Promise<boolean>} */
    send(ask: Ask): Promise<boolean>;
    /** Takes the rest of the old log, and returns the lines to go on with: the server's, those of
     *  others that it lacks, and own ones, made again.
     *  @returns {Remade & {lines: string[], ids: Map<string, Id>}} */
    run(): Remade & {
        lines: string[];
        ids: Map<string, import("./operations.mjs").Id>;
    };
    #private;
}
export type Ask = import("./exchange.mjs").Ask;
export type Core = import("./exchange.mjs").Core;
export type Id = import("./operations.mjs").Id;
export type Key = import("./operations.mjs").Key;
export type Operation = import("./operations.mjs").Operation;
export type Path = import("./operations.mjs").Path;
export type Engine = import("./jcrdt.mjs").Engine;
export type Remade = {
    /**
     * How many own operations were made again.
     */
    remade: number;
    /**
     * The operations that couldn't be.
     */
    lost: string[];
    /**
     * Own insertions that the server already has, and that another of this
     * name may have made there: their elements are one.
     */
    melted: string[];
};
export type How = {
    /**
     * The new one.
     */
    name: string;
    /**
     * From this counter on others have the ids of own operations.
     */
    forked: number;
    /**
     * Own insertions up to this counter are this replica's own.
     */
    sure: number;
    /**
     * Whether what the server has up to this counter, and is
     * the same here, is this replica's own.
     */
    isOurs: (same: number) => boolean;
    /**
     * Up to this counter copies of the store may have own operations.
     */
    stored: () => number;
    /**
     * Own operations that the server has logged behind another's.
     */
    strays: Set<number>;
    /**
     * Whether own operations that the server lacks are made again.
     */
    isRemade: boolean;
    /**
     * Whether the server may take what is made again.
     */
    maySend: boolean;
};
