/* The clients that don't read what was sent to them, and how much waits for them. */

/** @typedef {import("./guest.mjs").Guest} Guest */

/** Drops the client with the most that it hasn't read, where all together is more than a limit. */
export class Unread {
  /** @type {Set<Guest>} */
  #guests = new Set();
  #limit;
  #note;

  /** @param {number} limit in bytes @param {import("./notes.mjs").Note} note */
  constructor(limit, note) {
    this.#limit = limit;
    this.#note = note;
  }

  /** @param {Guest} guest */
  add(guest) {
    this.#guests.add(guest);
    const guests = [...this.#guests];
    if (guests.reduce((sum, { unread }) => sum + unread, 0) <= this.#limit) return;
    const worst = guests.reduce((a, b) => (b.unread > a.unread ? b : a));
    this.#note(`${worst.name} doesn't read its replies: it is dropped`);
    this.#guests.delete(worst);
    worst.drop();
  }

  /** @param {Guest} guest */
  delete(guest) {
    this.#guests.delete(guest);
  }
}
