/* What a replica logs, on its way into the store: written at once, one write at a time, and tried
   again after a failure; so is a new name. Nothing is sent that isn't flushed. Nothing is edited
   while it fails. */

import { wordsOf } from "./notices.mjs";
import { Unstored } from "./stores.mjs";

/** @typedef {import("./clock.mjs").Span} Span */
/** @typedef {import("./notices.mjs").Notices} Notices */
/** @typedef {import("./stores.mjs").Store} Store */

/** @typedef {{ name: string, lines: string[], gone: string[] }} Naming As `rename` takes it. */

const RETRY_MS = 1000;

export class StoreWriter {
  /** @type {string[]} lines that aren't stored yet */
  #unwritten = [];
  /** @type {Naming | undefined} the name that isn't stored yet: it goes before these lines */
  #naming;
  /** @type {Promise<void> | undefined} the write that is under way */
  #writing;
  /** @type {Promise<void> | undefined} the flush of what is written */
  #flushing;
  #isRetrySet = false;
  #store;
  #notices;
  #life;

  /** @param {Store} store
   *  @param {Notices} notices
   *  @param {Span} life of the provider */
  constructor(store, notices, life) {
    this.#store = store;
    this.#notices = notices;
    this.#life = life;
  }

  /** Whether everything is stored. If not, it is under way, or has failed. */
  get isDone() {
    return this.#unwritten.length === 0 && !this.#naming;
  }

  /** @param {string[]} lines */
  add(lines) {
    this.#unwritten = this.#unwritten.concat(lines);
    this.#write();
  }

  /** Goes on under another name, with all of the log: also in place of what isn't stored yet.
   *  @param {string} name
   *  @param {string[]} lines
   *  @param {string[]} gone what may be stored, and isn't in the log any more */
  rename(name, lines, gone) {
    this.#naming = { name, lines, gone: [...(this.#naming?.gone ?? []), ...gone] };
    this.#unwritten = [];
    this.#write();
  }

  /** Throws Unstored where an edit couldn't be stored: what came before it isn't. */
  check() {
    if (this.#life.signal.aborted) throw new Unstored("this provider is closed");
    this.retry();
    this.#throwProblem();
  }

  /** Writes again what couldn't be written. */
  retry() {
    if (this.#notices.problems.has("store")) this.#write();
  }

  #throwProblem() {
    const problem = this.#notices.problems.get("store");
    if (problem) throw new Unstored(problem.words, { cause: problem.cause });
  }

  /** Writes what isn't written. At once where the store is one that does so at once. */
  #write() {
    if (this.#writing || this.isDone) return;
    const naming = this.#naming;
    const lines = naming ? [] : this.#unwritten;
    const isDone = () => {
      // What came meanwhile is still to be written: lines behind these, or another name.
      if (this.#naming === naming) this.#unwritten = this.#unwritten.slice(lines.length);
      if (this.#naming === naming) this.#naming = undefined;
      this.#flushing = undefined;
      this.#notices.solve("store");
    };
    try {
      const writing = naming ? this.#store.rename(naming.name, naming.lines, naming.gone)
        : this.#store.append([...lines]);
      if (!writing) return this.#goOn(isDone);
      this.#writing = writing.then(isDone, (error) => this.#fail(error)).then(() => {
        this.#writing = undefined;
        if (!this.#notices.problems.has("store")) this.#write();
      });
    } catch (error) {
      this.#fail(error);
    }
  }

  /** @param {() => void} isDone */
  #goOn(isDone) {
    isDone();
    this.#write();
  }

  /** @param {unknown} error */
  #fail(error) {
    const lines = [...(this.#naming?.lines ?? []), ...this.#unwritten];
    const count = this.#unwritten.length;
    const what = this.#naming ? "a new name and the log under it aren't"
      : count === 1 ? "1 change isn't" : `${count} changes aren't`;
    const words = `${what} stored: ${wordsOf(error)}. Nothing more can be edited until they are`;
    this.#notices.report({ kind: "store", words, cause: error, lines });
    if (this.#isRetrySet) return;
    this.#isRetrySet = true;
    this.#life.later(RETRY_MS, () => {
      this.#isRetrySet = false;
      this.#write();
    });
  }

  /** Resolves once everything that was added until now is stored for good. Throws Unstored. */
  async flushed() {
    // What is under way, a new name, and lines behind it.
    for (let count = 0; this.#writing && count < 3; count++) await this.#writing;
    this.#throwProblem();
    await (this.#flushing ??= this.#flush());
  }

  async #flush() {
    try {
      await this.#store.flush();
    } catch (error) {
      this.#flushing = undefined;
      throw error;
    }
  }
}
