/* Time, as those see it who wait for it. It is handed in, so that a test needn't wait. */

/** @typedef {object} Clock
 *  @property {() => number} now In milliseconds since some moment. It never goes back.
 *  @property {(ms: number, work: () => void, isHolding?: boolean) => Ending} after Calls `work`
 *    once, so much later. Until then it keeps a program of Node alive, if it `isHolding`.
 *  @property {(ms: number, work: () => void) => Ending} every Calls it again and again. */

/** @typedef {() => void} Ending Prevents calls that haven't been made. */

/** The clock of the machine.
 *  @type {Clock} */
export const CLOCK = {
  now: () => performance.now(),
  after(ms, work, isHolding = false) {
    const timer = setTimeout(work, ms);
    if (!isHolding) loosen(timer);
    return () => clearTimeout(timer);
  },
  every(ms, work) {
    const timer = setInterval(work, ms);
    loosen(timer);
    return () => clearInterval(timer);
  },
};

/** Lets a program of Node end while the timer runs.
 *  @param {any} timer */
function loosen(timer) {
  timer.unref?.();
}

/** Resolves after so many milliseconds.
 *  @param {Clock} clock
 *  @param {number} ms
 *  @returns {Promise<void>} */
export const pauseBy = (clock, ms) => new Promise((resume) => void clock.after(ms, resume));

/** A part of a program's time: it ends with a signal, and so do all its timers. */
export class Span {
  #clock;
  signal;

  /** @param {Clock} clock
   *  @param {AbortSignal} signal */
  constructor(clock, signal) {
    this.#clock = clock;
    this.signal = signal;
  }

  /** In milliseconds since some moment. */
  get now() {
    return this.#clock.now();
  }

  /** Calls `work` after so many milliseconds, unless the span has ended by then.
   *  @param {number} ms
   *  @param {() => void} work */
  later(ms, work) {
    if (this.signal.aborted) return;
    const stop = this.#clock.after(ms, () => {
      this.signal.removeEventListener("abort", stop);
      work();
    });
    this.signal.addEventListener("abort", stop, { once: true });
  }

  /** Resolves after so many milliseconds, when the span ends, or when `wake` is called, which it is
   *  given. Until then a program of Node stays alive.
   *  @param {number} ms
   *  @param {(wake: () => void) => void} woken
   *  @returns {Promise<void>} */
  rest(ms, woken) {
    return new Promise((resume) => {
      const wake = () => {
        stop();
        this.signal.removeEventListener("abort", wake);
        resume();
      };
      const stop = this.#clock.after(ms, wake, true);
      this.signal.addEventListener("abort", wake, { once: true });
      woken(wake);
    });
  }

  /** Calls `work` every so many milliseconds, until the span ends.
   *  @param {number} ms
   *  @param {() => void} work */
  repeat(ms, work) {
    if (this.signal.aborted) return;
    this.signal.addEventListener("abort", this.#clock.every(ms, work), { once: true });
  }

  /** A span that ends with this one, or before it by what is returned beside it.
   *  @returns {{ span: Span, end: () => void }} */
  inner() {
    const inner = new AbortController();
    const end = () => inner.abort();
    if (this.signal.aborted) end();
    else this.signal.addEventListener("abort", end, { once: true, signal: inner.signal });
    return { span: new Span(this.#clock, inner.signal), end };
  }
}
