/** The first operation of a replica that differs between two sides with these fronts; `undefined`
 *  where nothing differs of what moved since they were compared last, or where one can't be asked.
 *  @param {Chains} here
 *  @param {Chains} there
 *  @param {[ReadonlyMap<string, number>, ReadonlyMap<string, number>]} fronts
 *  @param {Compared} compared
 *  @returns {Promise<Difference | undefined>} */
export function firstDifference(here: Chains, there: Chains, fronts: [ReadonlyMap<string, number>, ReadonlyMap<string, number>], compared: Compared): Promise<Difference | undefined>;
/** Up to which counter of each replica two sides had the same. It is of a connection: a server that
 *  comes back may have another file. */
export class Compared {
    /** @type {Map<string, number>} */
    same: Map<string, number>;
    /** Whether all was compared that both had, and nothing differed; or one of them can't be asked. */
    isSame: boolean;
    /** Whether both can be asked: an older server can't. */
    isKnown: boolean;
    /** Whether a server that can't be asked was tried, by what it refuses. */
    isTried: boolean;
    /** What a refusal has shown.
     *  @type {Difference | undefined} */
    shown: Difference | undefined;
    /** Is to be called with the fronts. Where a side has lost something all is compared anew: it may
     *  have got something else.
     *  @param {ReadonlyMap<string, number>[]} fronts */
    look(...fronts: ReadonlyMap<string, number>[]): void;
    /** Is to be called with what a refusal shows.
     *  @param {Difference} difference */
    show(difference: Difference): void;
    /** @param {string} name
     *  @param {number} counter */
    note(name: string, counter: number): void;
    /** Whether an operation of a side depends on something that the other one has, too, and that wasn't
     *  compared: it came there since.
     *  @param {import("./operations.mjs").Operation} operation
     *  @param {ReadonlyMap<string, number>} front of the other side */
    lacks([, , known]: import("./operations.mjs").Operation, front: ReadonlyMap<string, number>): boolean;
    /** Of each replica that both have and that has moved: what to compare. The last operation that was
     *  the same is looked at again.
     *  @param {ReadonlyMap<string, number>} here
     *  @param {ReadonlyMap<string, number>} there
     *  @returns {Piece} */
    due(here: ReadonlyMap<string, number>, there: ReadonlyMap<string, number>): Piece;
    #private;
}
export type Front = import("./operations.mjs").Front;
export type Chain = [name: string, counter: number, digest: string];
/**
 * What one request asks for: of each
 *   replica the operations behind a counter, and up to one.
 */
export type Piece = Map<string, {
    after: number;
    last: number;
}>;
/**
 * Asks a side.
 */
export type Chains = (after: import("./operations.mjs").Front, last: import("./operations.mjs").Front) => Chain[] | Promise<Chain[]>;
/**
 * The first operation of a replica that isn't the same on both sides, or
 *   that one of them lacks.
 */
export type Difference = {
    name: string;
    counter: number;
};
