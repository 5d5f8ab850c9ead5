/* Who else has a document open, and what they say of themselves, as a name and where a caret is. It
   goes by a hub, and is stored nowhere. A server without a hub has none of it.

     provider.presence.set({ name: "Ada", color: "#b42318" });
     provider.listen(({ what }) => what === "presence" && show(provider.presence.others));

   What is said is bounded: 4,096 bytes, and ten times a second; of those between the last counts. A
   client whose connection ends is gone at once, and one that stands still after 30 seconds. */

import { Refused } from "./errors.mjs";
import { print } from "./json.mjs";
import { MOST } from "./limits.mjs";
import { byteLength } from "./values.mjs";

/** @typedef {import("./clock.mjs").Span} Span */
/** @typedef {import("./link.mjs").Link} Link */
/** @typedef {Record<string, any>} Fields */

const SAY_MS = 100;

/** @typedef {object} Parts
 *  @property {string} doc
 *  @property {Span} life Of the provider.
 *  @property {() => void} changed Others say something else now. */

export class Presence {
  /** What the others say, by the names that the hub gives them.
   *  @type {ReadonlyMap<string, any>} */
  others = new Map();
  /** What this client says: nothing, while it has no field.
   *  @type {Readonly<Fields>} */
  own = {};
  #parts;
  /** @type {Link | undefined} over which it goes */
  #link;
  #saidAt = -SAY_MS;
  #isWaiting = false;
  #isTold = false; // whether others may have heard something

  /** @param {Parts} parts */
  constructor(parts) {
    this.#parts = parts;
  }

  /** Says these fields beside those that were said before. One that is `undefined` is said no more.
   *  Throws RangeError where all have more than 4,096 bytes, and TypeError for what JSON has no form
   *  for: then nothing is changed.
   *  @param {Fields} fields */
  set(fields) {
    const all = Object.entries({ ...this.own, ...fields }).filter(([, it]) => it !== undefined);
    const own = Object.fromEntries(all);
    const text = print(own);
    if (byteLength(text) > MOST.said) {
      throw new RangeError(`what is said has more than ${MOST.said} bytes`);
    }
    if (text === print(this.own)) return;
    this.own = own;
    this.#say();
  }

  /** Begins over a new connection. A server refuses to.
   *  @param {Link} link */
  async begin(link) {
    const { client } = link;
    [this.#link, this.#isTold] = [link, false];
    client.closed.then(() => this.#link === link && this.#end());
    const heard = (/** @type {any} */ value, /** @type {string} */ guest) =>
      this.#link === link && this.#hear(guest, value);
    try {
      await client.hear(this.#parts.doc, heard);
      this.#say();
    } catch (error) {
      if (this.#link === link) this.#link = undefined;
      if (!(error instanceof Refused)) throw error;
    }
  }

  #end() {
    this.#link = undefined;
    if (this.others.size === 0) return;
    this.others = new Map();
    this.#parts.changed();
  }

  /** @param {string} guest
   *  @param {any} value */
  #hear(guest, value) {
    const others = new Map(this.others);
    if (value === null) others.delete(guest);
    else others.set(guest, value);
    this.others = others;
    this.#parts.changed();
  }

  /** Says what there is to say: at once, or later where it was said just now. */
  #say() {
    const { life } = this.#parts;
    if (!this.#link || this.#isWaiting) return;
    const left = this.#saidAt + SAY_MS - life.now;
    if (left <= 0) return this.#sayNow(this.#link);
    this.#isWaiting = true;
    life.later(left, () => {
      this.#isWaiting = false;
      if (this.#link) this.#sayNow(this.#link);
    });
  }

  /** @param {Link} link */
  #sayNow(link) {
    const isNothing = Object.keys(this.own).length === 0;
    if (isNothing && !this.#isTold) return;
    [this.#saidAt, this.#isTold] = [this.#parts.life.now, !isNothing];
    // Where it fails the connection ends, and it is said again over the next one.
    link.client.say(this.#parts.doc, isNothing ? null : this.own).catch(() => {});
  }
}
