/* An engine that goes on after the module has stopped within a call, as by an exhausted stack: it is
   opened again from the log, whose lines are kept beside it. */

/** @typedef {import("./jcrdt.mjs").Answer} Answer */
/** @typedef {import("./jcrdt.mjs").Engine} Engine */
/** @typedef {import("./jcrdt.mjs").Open} Open */

/** Arguments of a call: they take more of the stack than a change does, with all that it calls. */
const WIDE = new Array(8192).fill(0);
const nothing = (/** @type {number[]} */ ..._) => {};

/** Throws what an exhausted stack throws, where less is left than a change takes: before it has begun. */
export const reserve = () => nothing.apply(undefined, WIDE);

const PART = 512; // so many lines are kept apart; more of them as one text, which takes less

/** The lines of a log. */
class Lines {
  /** @type {string[]} */
  #parts = [];
  /** @type {string[]} */
  #last;

  /** @param {string[]} lines */
  constructor(lines) {
    this.#last = [...lines];
    this.#pack();
  }

  /** @param {string} line */
  add(line) {
    this.#last.push(line);
    this.#pack();
  }

  #pack() {
    if (this.#last.length < PART) return;
    this.#parts.push(this.#last.join("\n"));
    this.#last = [];
  }

  /** The last ones: so many at most, and fewer where they weren't kept apart.
   *  @param {number} count
   *  @returns {string[]} */
  last(count) {
    const before = this.#last.length < count ? this.#parts[this.#parts.length - 1]?.split("\n") ?? [] : [];
    return [...before, ...this.#last].slice(-count);
  }

  /** @returns {string[]} */
  all() {
    return [...this.#parts.flatMap((part) => part.split("\n")), ...this.#last];
  }
}

/** @implements {Engine} */
export class LastingEngine {
  #open;
  #name;
  #engine;
  #lines;

  /** Throws Refused for a line that doesn't fit.
   *  @param {Open} open
   *  @param {string} name
   *  @param {string[]} [lines] */
  constructor(open, name, lines = []) {
    this.#open = open;
    this.#name = name;
    this.#engine = open(name, lines);
    this.#lines = new Lines(lines);
  }

  /** Answers a request. Throws Broken where the engine stops within: then nothing was changed, and
   *  the next call finds one that was opened again. What was held is gone then.
   *  @param {any[]} request
   *  @returns {Answer} */
  ask(request) { return this.#unbroken.ask(request); }

  /** The line of a reply, unread; `undefined` where the engine reads it. Throws as `ask`.
   *  @param {any[]} request One that makes no operation.
   *  @returns {string | undefined} */
  text(request) { return this.#unbroken.text?.(request); }

  get #unbroken() {
    if (this.#engine.isBroken) this.#engine = this.#open(this.#name, this.#lines.all());
    return this.#engine;
  }

  /** Is to be called with each operation that was logged.
   *  @param {string} line */
  logged(line) { this.#lines.add(line); }

  /** The last lines of the log, so many at most.
   *  @param {number} count
   *  @returns {string[]} */
  last(count) { return this.#lines.last(count); }

  free() { this.#engine.free(); }
}
