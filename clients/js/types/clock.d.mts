/** @typedef {object} Clock
 *  @property {() => number} now In milliseconds since some moment. It never goes back.
 *  @property {(ms: number, work: () => void, isHolding?: boolean) => Ending} after Calls `work`
 *    once, so much later. Until then it keeps a program of Node alive, if it `isHolding`.
 *  @property {(ms: number, work: () => void) => Ending} every Calls it again and again. */
/** @typedef {() => void} Ending Prevents calls that haven't been made. */
/** The clock of the machine.
 *  @type {Clock} */
export const CLOCK: Clock;
export function pauseBy(clock: Clock, ms: number): Promise<void>;
/** A part of a program's time: it ends with a signal, and so do all its timers. */
export class Span {
    /** @param {Clock} clock
     *  @param {AbortSignal} signal */
    constructor(clock: Clock, signal: AbortSignal);
    signal: AbortSignal;
    /** In milliseconds since some moment. */
    get now(): number;
    /** Calls `work` after so many milliseconds, unless the span has ended by then.
     *  @param {number} ms
     *  @param {() => void} work */
    later(ms: number, work: () => void): void;
    /** Resolves after so many milliseconds, when the span ends, or when `wake` is called, which it is
     *  given. Until then a program of Node stays alive.
     *  @param {number} ms
     *  @param {(wake: () => void) => void} woken
     *  @returns {Promise<void>} */
    rest(ms: number, woken: (wake: () => void) => void): Promise<void>;
    /** Calls `work` every so many milliseconds, until the span ends.
     *  @param {number} ms
     *  @param {() => void} work */
    repeat(ms: number, work: () => void): void;
    /** A span that ends with this one, or before it by what is returned beside it.
     *  @returns {{ span: Span, end: () => void }} */
    inner(): {
        span: Span;
        end: () => void;
    };
    #private;
}
export type Clock = {
    /**
     * In milliseconds since some moment. It never goes back.
     */
    now: () => number;
    /**
     * Calls `work`
     * once, so much later. Until then it keeps a program of Node alive, if it `isHolding`.
     */
    after: (ms: number, work: () => void, isHolding?: boolean) => Ending;
    /**
     * Calls it again and again.
     */
    every: (ms: number, work: () => void) => Ending;
};
/**
 * Prevents calls that haven't been made.
 */
export type Ending = () => void;
