/* What a provider tells those who listen: events, and the problems that a person should know. */

/** @typedef {import("./provider.mjs").Event} Event */
/** @typedef {import("./provider.mjs").Problem} Problem */

export class Notices {
  /** Those that aren't over, by kind.
   *  @type {Map<Problem["kind"], Problem>} */
  problems = new Map();
  /** @type {Set<(event: Event) => void>} */
  #listeners = new Set();

  /** @param {(event: Event) => void} heard
   *  @returns {() => void} */
  listen(heard) {
    this.#listeners.add(heard);
    return () => this.#listeners.delete(heard);
  }

  /** Calls each listener. What one of them throws is a problem, and the others go on.
   *  @param {Event} event */
  tell(event) {
    for (const heard of [...this.#listeners]) {
      try {
        heard(event);
      } catch (error) {
        this.problems.set("listener", { kind: "listener", words: wordsOf(error), cause: error });
        globalThis.reportError?.(error);
      }
    }
  }

  /** @param {Problem} problem */
  report(problem) {
    const old = this.problems.get(problem.kind);
    this.problems.set(problem.kind, problem);
    if (old?.words !== problem.words) this.tell({ what: "problem" });
  }

  /** @param {Problem["kind"]} kind */
  solve(kind) {
    if (this.problems.delete(kind)) this.tell({ what: "problem" });
  }
}

/** An error in words.
 *  @param {unknown} error */
export function wordsOf(error) {
  const { name = "", message = "" } = /** @type {Partial<Error>} */ (error ?? {});
  if (name === "QuotaExceededError") return "the store is full";
  return message || name || String(error);
}
