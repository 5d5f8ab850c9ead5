/* Presence: values that clients say to each other, as where a caret is. None is stored. */

/** @typedef {import("./guest.mjs").Guest} Guest */
/** @typedef {import("../../js/clock.mjs").Clock} Clock */

const PUSH_MS = 100; // so often, at most, a client's value is pushed: of those between, the last
const LOOK_MS = 1000;
const NOBODY = "null"; // in place of a value: the client is there no more

/** @typedef {object} Said What a client says of a document.
 *  @property {string} value as it was said last
 *  @property {string} pushed as it was pushed last
 *  @property {number} pushedAt
 *  @property {boolean} isWaiting whether it will be pushed later */

/** Who hears a document, and what each that is connected said last, for those who come later. */
export class Presence {
  /** @type {Map<string, Set<Guest>>} by document */
  #hearers = new Map();
  /** @type {Map<string, Map<Guest, Said>>} by document */
  #said = new Map();
  #clock;
  #patience;
  #stop;

  /** @param {Clock} clock
   *  @param {number} patience in milliseconds: who has sent nothing for so long is there no more,
   *    until it sends something again */
  constructor(clock, patience) {
    this.#clock = clock;
    this.#patience = patience / 1000;
    this.#stop = clock.every(LOOK_MS, () => this.#look());
  }

  /** @param {Guest} guest */
  has = (guest) => [...this.#hearers.values()].some((hearers) => hearers.has(guest));

  /** How many clients say something of a document.
   *  @param {string} document */
  count = (document) => this.#said.get(document)?.size ?? 0;

  stop() {
    this.#stop();
  }

  /** Pushes to a client what others said, and what they say from now on.
   *  @param {string} document
   *  @param {Guest} guest @returns {void} */
  hear(document, guest) {
    const hearers = this.#hearers.get(document) ?? new Set();
    this.#hearers.set(document, hearers.add(guest));
    for (const [other, { pushed }] of this.#said.get(document) ?? []) {
      if (other === guest || pushed === NOBODY) continue;
      guest.push(`heard ${document} ${other.name}`, heard(document, other, pushed));
    }
  }

  /** @param {string} document @param {Guest} guest */
  unhear(document, guest) {
    const hearers = this.#hearers.get(document);
    hearers?.delete(guest);
    if (hearers?.size === 0) this.#hearers.delete(document);
  }

  /** Pushes what a client says to the others. `null` says that it is there no more.
   *  @param {string} document
   *  @param {Guest} guest @param {string} value as it is written */
  say(document, guest, value) {
    /** @type {Map<Guest, Said>} */
    const all = this.#said.get(document) ?? new Map();
    const said = all.get(guest) ??
      { value: NOBODY, pushed: NOBODY, pushedAt: -PUSH_MS, isWaiting: false };
    said.value = value;
    this.#said.set(document, all.set(guest, said));
    if (said.isWaiting) return;
    const left = said.pushedAt + PUSH_MS - this.#clock.now();
    if (left <= 0) return this.#push(document, guest, said);
    said.isWaiting = true;
    this.#clock.after(left, () => this.#push(document, guest, said));
  }

  /** @param {Guest} guest */
  leave(guest) {
    for (const document of [...this.#hearers.keys()]) this.unhear(document, guest);
    for (const [document, all] of [...this.#said]) {
      const said = all.get(guest);
      if (said) this.#push(document, guest, Object.assign(said, { value: NOBODY }));
    }
  }

  /** Pushes the last value of a client, unless the others have it. Who says nothing any more is
   *  forgotten: who comes later doesn't hear of it.
   *  @param {string} document @param {Guest} guest @param {Said} said */
  #push(document, guest, said) {
    const value = guest.silence > this.#patience ? NOBODY : said.value;
    said.isWaiting = false;
    if (said.value === NOBODY) this.#forget(document, guest);
    if (value === said.pushed) return;
    [said.pushed, said.pushedAt] = [value, this.#clock.now()];
    const line = heard(document, guest, value);
    for (const other of this.#hearers.get(document) ?? []) {
      if (other !== guest) other.push(`heard ${document} ${guest.name}`, line);
    }
  }

  /** @param {string} document @param {Guest} guest */
  #forget(document, guest) {
    const all = this.#said.get(document);
    all?.delete(guest);
    if (all?.size === 0) this.#said.delete(document);
  }

  /** Looks who has been silent for long, or is no more. */
  #look() {
    for (const [document, all] of this.#said) {
      for (const [guest, said] of [...all]) {
        if (!said.isWaiting) this.#push(document, guest, said);
      }
    }
  }
}

/** @param {string} document @param {Guest} guest @param {string} value */
const heard = (document, guest, value) =>
  `["heard",${JSON.stringify(document)},${JSON.stringify(guest.name)},${value}]`;
