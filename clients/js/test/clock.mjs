/* Clocks of tests: one that a test sets, by which no time passes but by `pass`, and a quick one. Isn't run by
   itself. */

import { CLOCK } from "../clock.mjs";

/** @typedef {{ at: number, ms: number, work: () => void, isRepeated: boolean }} Timer */

/** @implements {import("../clock.mjs").Clock} */
export class TestClock {
  #now = 0;
  /** @type {Set<Timer>} */
  #timers = new Set();
  /** @type {Set<() => void>} who waits until a timer is set */
  #seekers = new Set();

  now = () => this.#now;
  after = (ms, work) => this.#set({ at: this.#now + ms, ms, work, isRepeated: false });
  every = (ms, work) => this.#set({ at: this.#now + ms, ms, work, isRepeated: true });

  #set(timer) {
    this.#timers.add(timer);
    for (const seek of [...this.#seekers]) seek();
    return () => this.#timers.delete(timer);
  }

  /** The milliseconds of each timer that waits, in the order in which they are due. */
  get waiting() {
    return this.#inOrder.map(({ ms }) => ms);
  }

  get #inOrder() {
    return [...this.#timers].sort((a, b) => a.at - b.at);
  }

  /** Resolves once something holds of the timers that wait: it is looked at whenever one is set.
   *  @param {(waiting: number[]) => any} holds */
  until(holds) {
    return new Promise((resolve) => {
      const seek = () => {
        const found = holds(this.waiting);
        if (!found) return;
        this.#seekers.delete(seek);
        resolve(found);
      };
      this.#seekers.add(seek);
      seek();
    });
  }

  /** As where the program was held up for so many milliseconds: what is due is called once, late.
   *  @param {number} ms */
  holdUp(ms) {
    this.#now += ms;
    for (const timer of this.#inOrder.filter(({ at }) => at <= this.#now)) {
      if (timer.isRepeated) timer.at = this.#now + timer.ms;
      else this.#timers.delete(timer);
      timer.work();
    }
  }

  /** Lets so many milliseconds pass. What is due then is called, in its order.
   *  @param {number} ms */
  pass(ms) {
    const end = this.#now + ms;
    for (let timer; (timer = this.#inOrder.find(({ at }) => at <= end)); ) {
      this.#now = Math.max(this.#now, timer.at);
      if (timer.isRepeated) timer.at = this.#now + timer.ms;
      else this.#timers.delete(timer);
      timer.work();
    }
    this.#now = end;
  }
}

/** A clock by which so many seconds pass in one.
 *  @param {number} times
 *  @returns {import("../clock.mjs").Clock} */
export const quickClock = (times) => ({
  now: () => CLOCK.now() * times,
  after: (ms, work, isHolding) => CLOCK.after(ms / times, work, isHolding),
  every: (ms, work) => CLOCK.every(ms / times, work),
});
