/* Which operations are in the server's file. */

import { covers, pauseBy } from "./client_package.mjs";

/** @typedef {import("../../js/wire.mjs").Id} Id */
/** @typedef {(line: string) => Promise<string>} Ask Has a line answered by the server. */

const MOST_MS = 30_000; // so long an operation of the log may take to be in the file
/** How long the server isn't asked again, at first and later. */
const FIRST_MS = 5;
const LONGEST_MS = 200;

/** What the hub knows of the file by other ways than the server's answer, of which servers before
 *  1.2.0 had none: nothing, or the front of each document's rows. */
export class Storage {
  #isDurable;
  #clock;
  #file;

  /** @param {boolean} isDurable whether the server was started with `--durable`
   *  @param {import("../../js/clock.mjs").Clock} clock
   *  @param {import("./file.mjs").StoredFronts} [file] */
  constructor(isDurable, clock, file) {
    this.#isDurable = isDurable;
    this.#clock = clock;
    this.#file = file;
  }

  /** Resolves once the operation is in the file; with false where that can't be known, or won't be.
   *  @param {string} document
   *  @param {Id} id
   *  @param {Ask} ask */
  async isStored(document, id, ask) {
    const end = this.#clock.now() + MOST_MS;
    for (let pause = FIRST_MS; ; pause = Math.min(2 * pause, LONGEST_MS)) {
      const isCopied = await copiedOf(document, id, ask);
      if (isCopied === undefined) return this.#isStoredUnasked(document, id, ask);
      if (isCopied) return true;
      // What the server doesn't have won't be in its file.
      const has = covers(await frontOf(document, ask), id);
      if (!has || this.#clock.now() >= end) return false;
      await pauseBy(this.#clock, pause);
    }
  }

  /** The same beside a server that doesn't know `copied`.
   *  @param {string} document
   *  @param {Id} id
   *  @param {Ask} ask */
  async #isStoredUnasked(document, id, ask) {
    if (!this.#isDurable && !this.#file) return false;
    const isCovered = () => this.#file && covers(this.#file.front(document), id);
    if (isCovered()) return true;
    if (!covers(await frontOf(document, ask), id)) return false;
    if (this.#isDurable || !this.#file) return true;
    for (const end = this.#clock.now() + MOST_MS; !isCovered(); ) {
      if (this.#clock.now() >= end) return false;
      await this.#file.next(end - this.#clock.now());
    }
    return true;
  }

  /** The front of a document's rows, if the hub reads the file.
   *  @param {string} document */
  front(document) {
    return this.#file?.front(document);
  }

  stop() {
    this.#file?.stop();
  }
}

/** @param {string} document @param {Ask} ask @returns {Promise<Map<string, number>>} */
async function frontOf(document, ask) {
  const [word, front] = JSON.parse(await ask(JSON.stringify(["front", document])));
  return new Map(word === "front" ? front : []);
}

/** Whether the server says that its file has the operation; undefined where it doesn't say.
 *  @param {string} document @param {Id} id @param {Ask} ask
 *  @returns {Promise<boolean | undefined>} */
async function copiedOf(document, id, ask) {
  const [word, isCopied] = JSON.parse(await ask(JSON.stringify(["copied", document, id])));
  return word === "copied" ? isCopied : undefined;
}
