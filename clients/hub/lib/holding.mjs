/* While a document is renewed, who uses it waits at times. */

import { pauseBy } from "./client_package.mjs";

/** @typedef {import("./open_document.mjs").OpenDocument} OpenDocument */

const IN_USE_MS = 10_000; // so long a document may be in use until it is held back

/** Holds back who uses a document. */
export class Holding {
  /** How long it has held anybody back at once, in ms, at most. */
  longest = 0;
  #renewing;
  #document;
  #open;
  #clock;
  #began = 0;
  #goOn = () => {};

  /** @param {Map<string, Promise<void>>} renewing documents that are held back: who uses them waits
   *  @param {string} document @param {OpenDocument} open whose one use is that of who renews it
   *  @param {import("../../js/clock.mjs").Clock} clock */
  constructor(renewing, document, open, clock) {
    this.#renewing = renewing;
    this.#document = document;
    this.#open = open;
    this.#clock = clock;
  }

  /** Holds back, and resolves once nobody else uses the document. Throws where somebody does for long. */
  async begin() {
    this.#began = this.#clock.now();
    this.#renewing.set(this.#document, new Promise((resolve) => (this.#goOn = () => resolve())));
    while (this.#open.uses > 1) {
      if (this.#clock.now() - this.#began > IN_USE_MS) throw new Error("it is in use");
      await pauseBy(this.#clock, 1);
    }
  }

  /** Lets all go on. */
  end() {
    if (!this.#renewing.delete(this.#document)) return;
    this.longest = Math.max(this.longest, this.#clock.now() - this.#began);
    this.#goOn();
  }
}

/** What is known of renewals, for monitors. */
export class Renewals {
  /** How many there were. */
  count = 0;
  /** How long the last one held anybody back at once, in ms. */
  last = 0;
  /** The longest time of all. */
  longest = 0;

  /** @param {number} held in ms */
  note(held) {
    this.count++;
    this.last = held;
    this.longest = Math.max(this.longest, held);
  }
}
