/** An error in words.
 *  @param {unknown} error */
export function wordsOf(error: unknown): string;
/** @typedef {import("./provider.mjs").Event} Event */
/** @typedef {import("./provider.mjs").Problem} Problem */
export class Notices {
    /** Those that aren't over, by kind.
     *  @type {Map<Problem["kind"], Problem>} */
    problems: Map<Problem["kind"], Problem>;
    /** @param {(event: Event) => void} heard
     *  @returns {() => void} */
    listen(heard: (event: Event) => void): () => void;
    /** Calls each listener. What one of them throws is a problem, and the others go on.
     *  @param {Event} event */
    tell(event: Event): void;
    /** @param {Problem} problem */
    report(problem: Problem): void;
    /** @param {Problem["kind"]} kind */
    solve(kind: Problem["kind"]): void;
    #private;
}
export type Event = import("./provider.mjs").Event;
export type Problem = import("./provider.mjs").Problem;
