/* The documents that clients watch, looked at over one session. What was logged is asked for once,
   and written once, however many clients it is pushed to. */

import { MOST, frontPairs } from "./client_package.mjs";

/** @typedef {import("./guest.mjs").Guest} Guest */
/** @typedef {import("./link.mjs").Link} Link */

/** @typedef {object} Follower What a client that watches gets.
 *  @property {boolean} takesOperations Whether `logged` is pushed to it, and not only `changed`.
 *  @property {number} number Of the last `logged`, or of the `changed` in its place. */

/** @typedef {object} Watch
 *  @property {Map<Guest, Follower>} guests
 *  @property {Map<string, number>} [front] As it was pushed last.
 *  @property {string} [changed] The line that pushes it.
 *  @property {Link} [link] The session that said so: what another one has may be less.
 *  @property {boolean} isAsking
 *  @property {boolean} isStale */

export class Watches {
  #places;
  #stop;
  /** @type {Map<string, Watch>} */
  #watched = new Map();

  /** Looks at each document after so many milliseconds, for what others changed at the server.
   *  @param {Pick<import("./state.mjs").Places, "watching">} places
   *  @param {number} every
   *  @param {import("../../js/clock.mjs").Clock} clock */
  constructor(places, every, clock) {
    this.#places = places;
    this.#stop = clock.every(every, () => {
      for (const document of this.#watched.keys()) this.look(document);
    });
  }

  /** Whether clients watch a document.
   *  @param {string} document */
  isWatched = (document) => this.#watched.has(document);

  /** @param {Guest} guest */
  has = (guest) => [...this.#watched.values()].some(({ guests }) => guests.has(guest));

  /** Pushes a document's front to a client now, and then the front or the operations whenever it
   *  changes.
   *  @param {string} document
   *  @param {Guest} guest
   *  @param {boolean} takesOperations @returns {void} */
  add(document, guest, takesOperations) {
    /** @type {Watch} */
    const watch = this.#watched.get(document) ??
      { guests: new Map(), isAsking: false, isStale: false };
    this.#watched.set(document, watch);
    watch.guests.set(guest, { takesOperations, number: watch.guests.get(guest)?.number ?? 0 });
    if (watch.front) guest.push(about(document), changedLine(document, watch));
    this.look(document);
  }

  /** @param {string} document @param {Guest} guest */
  remove(document, guest) {
    const watch = this.#watched.get(document);
    watch?.guests.delete(guest);
    if (watch?.guests.size === 0) this.#watched.delete(document);
  }

  /** @param {Guest} guest */
  leave(guest) {
    for (const document of [...this.#watched.keys()]) this.remove(document, guest);
  }

  /** A document goes on in another generation.
   *  @param {string} document @param {string} generation */
  renewed(document, generation) {
    const line = JSON.stringify(["renewed", document, generation]);
    const guests = this.#watched.get(document)?.guests.keys() ?? [];
    for (const guest of guests) guest.push(`renewed ${document}`, line);
    this.look(document);
  }

  /** Nobody watches a document any more: it goes, or gets another name.
   *  @param {string} document */
  forget(document) {
    this.#watched.delete(document);
  }

  /** Asks for what is new in a document, and pushes it. However many changes come while it asks, it
   *  asks once more.
   *  @param {string} document */
  async look(document) {
    const watch = this.#watched.get(document);
    if (!watch) return;
    watch.isStale = true;
    if (watch.isAsking) return;
    watch.isAsking = true;
    while (watch.isStale) {
      watch.isStale = false;
      await this.#update(document, watch);
    }
    watch.isAsking = false;
  }

  stop() {
    this.#stop();
  }

  /** @param {string} document @param {Watch} watch */
  async #update(document, watch) {
    const link = this.#places.watching(document);
    if (!link) return;
    link.open(document);
    if (watch.link === link && [...watch.guests.values()].some((it) => it.takesOperations)) {
      const operations = await operationsBehind(link, document, watch.front ?? new Map());
      if (operations) return this.#pushOperations(document, watch, operations);
    }
    this.#pushFront(document, watch, link, await frontOf(link, document));
  }

  /** @param {string} document @param {Watch} watch @param {Link} link
   *  @param {string | undefined} front */
  #pushFront(document, watch, link, front) {
    if (front === undefined) return;
    const line = `["changed",${JSON.stringify(document)},${front}]`;
    watch.link = link;
    if (watch.front && line === changedLine(document, watch)) return;
    [watch.front, watch.changed] = [new Map(JSON.parse(front)), line];
    for (const guest of watch.guests.keys()) guest.push(about(document), line);
  }

  /** @param {string} document @param {Watch} watch
   *  @param {{ text: string, ids: [counter: number, replica: string][] }} operations */
  #pushOperations(document, watch, { text, ids }) {
    if (ids.length === 0) return;
    watch.isStale ||= ids.length === MOST.page; // there may be more
    for (const [counter, replica] of ids) watch.front?.set(replica, counter);
    watch.changed = undefined;
    const lineOf = numbered(`["logged",${JSON.stringify(document)},`, `,${text}]`);
    const what = about(document);
    for (const [guest, follower] of watch.guests) {
      follower.number++;
      const isSent = follower.takesOperations && !guest.isBehind(what);
      if (isSent) guest.say(lineOf(follower.number));
      else guest.push(what, changedLine(document, watch));
    }
  }
}

/** What a push of a document is about: one that isn't read gives way to the next one.
 *  @param {string} document */
const about = (document) => `changed ${document}`;

/** The line that pushes the front: it is written once for all.
 *  @param {string} document @param {Watch} watch */
const changedLine = (document, watch) => (watch.changed ??=
  `["changed",${JSON.stringify(document)},${JSON.stringify(frontPairs(watch.front ?? []))}]`);

/** Lines that differ by a number. Most clients have the same one.
 *  @param {string} before @param {string} behind */
function numbered(before, behind) {
  /** @type {Map<number, string>} */
  const lines = new Map();
  return (/** @type {number} */ number) => {
    const line = lines.get(number) ?? `${before}${number}${behind}`;
    lines.set(number, line);
    return line;
  };
}

/** A page of operations that a front doesn't cover, as it is written, and their ids. `undefined`
 *  where there is no server, or where it doesn't answer with operations.
 *  @param {Link} link @param {string} document @param {Map<string, number>} front */
async function operationsBehind(link, document, front) {
  const reply = await link.ask(JSON.stringify(["ops", document, frontPairs(front), MOST.page]));
  const text = typeof reply === "string" ? /^\["ops",(.*)\]$/s.exec(reply)?.[1] : undefined;
  if (text === undefined) return undefined;
  /** @type {any[]} */
  const operations = JSON.parse(text);
  return { text, ids: operations.map((it) => it[1]) };
}

/** As it is written; `undefined` where there is no server.
 *  @param {Link} link @param {string} document */
async function frontOf(link, document) {
  const reply = await link.ask(JSON.stringify(["front", document]));
  return typeof reply === "string" ? /^\["front",(.*)\]$/.exec(reply)?.[1] : undefined;
}
