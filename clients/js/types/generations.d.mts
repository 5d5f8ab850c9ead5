/** The generation of a log, by its front.
 *  @param {Iterable<[string, number]>} front */
export function generationOf(front: Iterable<[string, number]>): string;
/** What of a front names the generation: of the first one nothing.
 *  @param {Iterable<[string, number]>} front
 *  @returns {Front} */
export function beginningOf(front: Iterable<[string, number]>): import("./operations.mjs").Front;
/** A replica whose document goes on in another generation.
 *  @typedef {object} Behind
 *  @property {string} doc
 *  @property {() => [string, number][]} front
 *  @property {(front: Iterable<[string, number]>) => Iterable<Operation>} operations
 *  @property {(answer: Answer, past: string, end: Map<string, number>) => Promise<Own>} ownBefore */
/** Whether the operation of a line is of a generation: it began that, or knows of its beginning. A
 *  replica that was never synced knows of none, and is of the first. What is no operation is refused
 *  as what it is.
 *  @param {string} line
 *  @param {string} generation */
export function isOfGeneration(line: string, generation: string): boolean;
/** What a hub has of a document that is in another generation than a replica: the steps from that one
 *  on, the log of the last one, and what of the replica's own it had. Throws UnknownGeneration, and Away
 *  where the last one is that of the replica.
 *  @param {Answer} answer
 *  @param {Behind} replica
 *  @returns {Promise<{ steps: Step[], log: Operation[], own: Own }>} */
export function laterGenerations(answer: Answer, replica: Behind): Promise<{
    steps: Step[];
    log: import("./operations.mjs").Operation[];
    own: Own;
}>;
/** What a log has that the hub lacked at the end of its generation, made again in the last one.
 *  @param {Iterable<Operation>} log
 *  @param {Step[]} steps
 *  @param {Own} [own]
 *  @returns {Carried} */
export function carried(log: Iterable<import("./operations.mjs").Operation>, steps: Step[], own?: Own | undefined): Carried;
/** @param {Map<string, Id>} first @param {Map<string, Id>} second
 *  @returns {Map<string, Id>} */
export function composed(first: Map<string, import("./operations.mjs").Id>, second: Map<string, import("./operations.mjs").Id>): Map<string, import("./operations.mjs").Id>;
/** The hub has no such generation of the document, as behind an older backup. */
export class UnknownGeneration extends Error {
}
/**
 * A replica whose document goes on in another generation.
 */
export type Behind = {
    doc: string;
    front: () => [string, number][];
    operations: (front: Iterable<[string, number]>) => Iterable<import("./operations.mjs").Operation>;
    ownBefore: (answer: Answer, past: string, end: Map<string, number>) => Promise<Own>;
};
export type Answer = import("./exchange.mjs").Answer;
export type Front = import("./operations.mjs").Front;
export type Id = import("./operations.mjs").Id;
export type Key = import("./operations.mjs").Key;
export type Operation = import("./operations.mjs").Operation;
export type Path = import("./operations.mjs").Path;
/**
 * From one generation to the next.
 */
export type Step = {
    /**
     * What the hub had at the end of the first.
     */
    end: Map<string, number>;
    /**
     * What the next one began with.
     */
    start: import("./operations.mjs").Front;
    /**
     * What of the first one isn't in the log that is carried: what others
     * stored there. None of it where it isn't kept any more, or where nothing is carried that clears.
     */
    others: import("./operations.mjs").Operation[];
    /**
     * The elements, by lists in their order; of the
     * first one of a list there is a third item.
     */
    pairs: [old: import("./operations.mjs").Id, now: import("./operations.mjs").Id, isFirst?: 0][];
};
export type Carried = {
    /**
     * Of the last generation, in an order of a log.
     */
    operations: import("./operations.mjs").Operation[];
    /**
     * Of elements: as they were, and as they are now.
     */
    ids: Map<string, import("./operations.mjs").Id>;
    /**
     * Operations as they were that aren't made again: those whose places the
     * next generation hasn't got, and those that would clear what others stored there meanwhile.
     */
    lost: import("./operations.mjs").Operation[];
};
/**
 * What the hub had, at the end of a generation, of a replica's own operations.
 */
export type Own = {
    /**
     * of the replica
     */
    name: string;
    /**
     * From this counter on the hub had others of this name.
     */
    forked: number;
    /**
     * Those that it had all the same, and under which ids.
     */
    made: Map<string, import("./operations.mjs").Id>;
    sessionOf: import("./copies.mjs").SessionOf;
};
/**
 * What a replica has read of generations that take no changes any more, on its way from one of them:
 * each step by the names of both, and which of them have all that others stored. A document that is
 * renewed meanwhile, or a connection that ends, doesn't have it begin anew.
 */
export type Way = {
    from: string;
    steps: Map<string, Step>;
    withOthers: Set<Step>;
};
