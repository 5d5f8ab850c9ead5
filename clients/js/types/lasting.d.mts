export function reserve(): void;
/** @implements {Engine} */
export class LastingEngine implements Engine {
    /** Throws Refused for a line that doesn't fit.
     *  @param {Open} open
     *  @param {string} name
     *  @param {string[]} [lines] */
    constructor(open: Open, name: string, lines?: string[] | undefined);
    /** Answers a request. Throws Broken where the engine stops within: then nothing was changed, and
     *  the next call finds one that was opened again. What was held is gone then.
     *  @param {any[]} request
     *  @returns {Answer} */
    ask(request: any[]): Answer;
    /** The line of a reply, unread; `undefined` where the engine reads it. Throws as `ask`.
     *  @param {any[]} request One that makes no operation.
     *  @returns {string | undefined} */
    text(request: any[]): string | undefined;
    /** Is to be called with each operation that was logged.
     *  @param {string} line */
    logged(line: string): void;
    /** The last lines of the log, so many at most.
     *  @param {number} count
     *  @returns {string[]} */
    last(count: number): string[];
    free(): void;
    #private;
}
export type Answer = import("./jcrdt.mjs").Answer;
export type Engine = import("./jcrdt.mjs").Engine;
export type Open = import("./jcrdt.mjs").Open;
