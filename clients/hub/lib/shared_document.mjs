/* A document that hubs of several machines share, as one hub has it: its stream, and the right to take
   changes. That right is for a lease, from before Redis was asked on. So whoever renews the document
   waits until each other hub has given it back, or its lease is over. */

import { pauseBy } from "./client_package.mjs";
import { OtherGeneration } from "./fleet.mjs";
import { messageOf } from "./notes.mjs";
import { Stream } from "./stream.mjs";

/** @typedef {import("./fleet.mjs").Fleet} Fleet */
/** @typedef {import("./fleet.mjs").Decision} Decision */

/** @typedef {object} Parts
 *  @property {string} document
 *  @property {string} key Of its stream.
 *  @property {Decision} decision Its generation.
 *  @property {import("./stream.mjs").Ask} ask
 *  @property {(operations: any[]) => void} came
 *  @property {() => void} followed A later generation was decided: no change is taken any more.
 *  @property {() => Promise<void>} putBack Puts its generations back into Redis.
 *  @property {import("./notes.mjs").Note} note */

const OPEN_MS = 3000; // so long its opening waits for what others have
const LOOK_MS = 100; // until it is looked again whether a renewal is over
const CUT_MS = 5000; // about so often it is looked whether the stream was cut
const POLL_MS = 10;

export class SharedDocument {
  stream;
  /** Whether it has ended: the document is opened anew. */
  isOver = false;
  /** The hub that is home of it, as far as it is known.
   *  @type {string | null} */
  home = null;
  #fleet;
  #parts;
  #clock;
  #until = 0;
  #from = 0;
  #changing = 0;
  /** @type {string | null} the hold that it has given way to */
  #gaveWayTo = null;
  /** @type {string | undefined} the token of its own hold */
  #token;
  #isOther = false; // the fleet has another generation of its number
  #cutLookAt = 0;
  /** @type {Promise<void> | undefined} */
  #looking;
  #isStale = false;

  /** @param {Fleet} fleet @param {Parts} parts */
  constructor(fleet, parts) {
    this.#fleet = fleet;
    this.#parts = parts;
    this.#clock = fleet.clock;
    const { key, document, ask, came, note } = parts;
    this.stream = new Stream({
      key, document, ask, came, note, hub: fleet.me, redis: () => fleet.redis,
      noticed: () => void this.touch(),
    });
  }

  /** Begins, and waits a while for what others have. */
  async begin() {
    const begun = async () => {
      await this.#fleet.share(this);
      await this.touch();
      await this.stream.begin();
    };
    const { document, note } = this.#parts;
    const begins = begun().catch((error) => note(`${document}: ${messageOf(error)}`));
    await Promise.race([begins, pauseBy(this.#clock, OPEN_MS)]);
  }

  get generation() {
    return this.#parts.decision.generation;
  }

  // ---- The right to take changes

  /** Whether a change may be taken now. */
  get mayChange() {
    return this.hasRight && this.#token === undefined && this.#gaveWayTo === null;
  }

  /** Whether no other generation takes changes now. */
  get hasRight() {
    const now = this.#clock.now();
    return now < this.#until && now >= this.#from && now >= this.#fleet.notBefore;
  }

  /** Resolves whether a change may be taken, or the document is to be opened anew, within a while.
   *  @param {number} ms */
  async allowed(ms) {
    for (const end = this.#clock.now() + ms; !this.mayChange && !this.isOver; ) {
      if (this.#clock.now() >= end) return false;
      await pauseBy(this.#clock, POLL_MS);
    }
    return true;
  }

  /** Has a change carried out. It was taken if the right lasted until it was carried out.
   *  @param {() => Promise<string>} work @param {string} unknown the reply if it didn't */
  async change(work, unknown) {
    this.#changing++;
    try {
      const reply = await work();
      return reply.startsWith('["applied",') && !this.hasRight ? unknown : reply;
    } finally {
      this.#changing--;
    }
  }

  forgetRight() {
    this.#until = 0;
  }

  /** Redis can be reached again. */
  connected() {
    this.touch();
    this.stream.look().catch(() => {});
  }

  /** Looks into the directory, and whether the stream was cut. */
  touch() {
    if (this.isOver) return Promise.resolve();
    this.#lookForCut();
    this.#isStale = true;
    return (this.#looking ??= this.#lookAll().finally(() => (this.#looking = undefined)));
  }

  async #lookAll() {
    while (this.#isStale && !this.isOver) {
      this.#isStale = false;
      await this.#look().catch(() => {}); // the next one comes
    }
  }

  #lookForCut() {
    const now = this.#clock.now();
    if (now < this.#cutLookAt) return;
    this.#cutLookAt = now + CUT_MS * (0.5 + Math.random());
    this.stream.look().catch(() => {});
  }

  async #look() {
    const { document, decision, note, followed, putBack } = this.#parts;
    const sentAt = this.#clock.now();
    const look = await this.#fleet.look(document, decision).catch((error) => {
      const isNew = error instanceof OtherGeneration && !this.#isOther;
      if (error instanceof OtherGeneration) this.#isOther = true;
      if (isNew) note(`${document} takes no changes: ${error.message}`);
      this.#until = error instanceof OtherGeneration ? 0 : this.#until;
      throw error;
    });
    this.#fleet.learn(look.id);
    if (this.isOver) return;
    if (look.isBack) {
      // Until then others may take changes in the generation before, which they didn't know to be over.
      this.#from = this.#clock.now() + this.#fleet.lease;
      await putBack();
    }
    this.home = look.home;
    if (look.next !== null) {
      this.forgetRight();
      return followed();
    }
    if (look.hold !== null && look.hold !== this.#token) return this.#giveWay(look.hold);
    if (look.hold !== null) return;
    this.#gaveWayTo = null;
    this.#until = sentAt + this.#fleet.lease;
  }

  /** Another hub renews it: what was taken goes into the stream, and then the right is given back.
   *  @param {string} hold */
  async #giveWay(hold) {
    this.#clock.after(LOOK_MS, () => void this.touch());
    if (this.#gaveWayTo === hold) return;
    this.#gaveWayTo = hold;
    this.forgetRight();
    await this.#unchanging();
    await this.stream.flush();
    await this.#fleet.leave(this.#parts.document);
  }

  async #unchanging() {
    while (this.#changing > 0) await pauseBy(this.#clock, 1);
  }

  // ---- Renewal and removal, at its home

  /** Has nobody take changes, and takes what others had taken. Throws where it isn't home of it.
   *  @param {"renews" | "deletes"} does */
  async gather(does) {
    const { document } = this.#parts;
    this.#token = await this.#fleet.hold(document, does);
    this.forgetRight();
    await this.#unchanging();
    await this.stream.notify();
    await this.#fleet.untaken(document, this.#token);
    await this.stream.catchUp();
  }

  /** @param {Decision} decision */
  decide = (decision) => this.#fleet.decide(this.#parts.document, this.#token ?? "", decision);

  /** Deletes it at all hubs, for good.
   *  @param {string[]} generations */
  async remove(generations) {
    await this.#fleet.remove(this.#parts.document, this.#token ?? "", generations);
    await this.stream.notify().catch(() => {}); // others learn it within a quarter of a lease
  }

  /** Others may go on: in the next generation, if it was decided. */
  async release() {
    const token = this.#token;
    this.#token = undefined;
    if (token === undefined) return;
    await this.#fleet.release(this.#parts.document, token);
    await this.stream.notify();
    this.touch();
  }

  /** Takes no further change, and adds what the stream lacks.
   *  @param {boolean} [isHomeStill] whether it goes on as home, in the next generation */
  async end(isHomeStill = false) {
    if (this.isOver) return;
    this.forgetRight();
    await this.#unchanging();
    if (!isHomeStill) await this.stream.flush().catch(() => {});
    this.isOver = true;
    this.stream.end();
    this.#fleet.unshare(this);
    if (!isHomeStill) await this.#fleet.leave(this.#parts.document).catch(() => {});
  }
}
