/* The hub's sessions of the server: got one after the other, watched, renewed, and got again. */

import { pauseBy } from "./client_package.mjs";
import { Link } from "./link.mjs";

const TICK_MS = 1000;
const PING_TICKS = 4; // a session that is silent for so long is asked something
const REPLY_TICKS = 9; // nothing from the server for so long, with a request due: it hangs
const LONG_TICKS = 60; // of a request, while the server answers others
const UNSERVED_TICKS = 5; // accepted for so long, without a reply
const MOST_UNSERVED_TICKS = 60; // then another connection is tried
const ALONE_TICKS = 2; // clients of a session that ended so long ago get another one
const AWAY_MS = 5_000; // so long a request waits for a server that restarts
const RETRY_MS = [100, 200, 500, 1000, 2000]; // the pauses between attempts to connect
const UNSERVED = "no reply for a minute"; // why a connection is ended, which is noted before
const AWAY = 10_000; // as many clients more has a session that isn't connected, when one is chosen

/** @typedef {import("./guest.mjs").Guest} Guest */
/** @typedef {{ server: () => string | undefined, inner?: string, sessions: number, replyBytes: number, linesPerSession: number,
 *    note: import("./notes.mjs").Note, connected: import("./notes.mjs").Note,
 *    clock: import("../../js/clock.mjs").Clock }} PoolOptions `server` says where it is, once it is
 *    there, and `connected` gets the notes that all is well. */

/** A place for a link, and the clients that it carries, or that have a variable there. */
export class Session {
  /** @type {Link | undefined} */
  #link;
  /** @type {Set<Guest>} */
  clients = new Set();
  /** By the clock of the pool. */
  endedAt = 0;

  /** The link, if it takes lines. */
  get link() {
    return this.#link?.over ? undefined : this.#link;
  }

  set link(link) {
    this.#link = link;
  }

  /** How many clients it has, to choose the one with the fewest. */
  get load() {
    return this.clients.size + (this.link ? 0 : AWAY);
  }
}

/** The sessions that the hub has at the server: some that carry clients, and one that watches. */
export class Pool {
  /** Since when the number of sessions has been 0, or not. */
  since = new Date();
  /** Why there isn't the number of sessions that is wanted; empty while there is. */
  trouble = "not connected yet";
  /** @type {Session[]} */
  sessions;
  #options;
  #stopped = false;
  #ticks = 0; // stands still with the process, so that nothing is too late after a pause of it
  #isAway = true;
  #awaySince;
  /** @type {Link | undefined} the one that the server doesn't serve yet */
  #pending;
  #pendingSince = 0;
  #version = "";
  #next = new Signal(); // of a link more
  #fewer = new Signal(); // of a link less
  #stopTicks;

  /** @param {PoolOptions} options */
  constructor(options) {
    this.#options = options;
    this.sessions = Array.from({ length: options.sessions + 1 }, () => new Session());
    this.#awaySince = options.clock.now();
    this.#stopTicks = options.clock.every(TICK_MS, () => this.#tick());
    this.#keep();
  }

  /** @returns {Link[]} */
  get links() {
    return this.sessions.flatMap(({ link }) => (link ? [link] : []));
  }

  /** Where clients are carried: the session that watches is one where there is no other. */
  get carrying() {
    const [first, , ...others] = this.sessions;
    const carrying = [/** @type {Session} */ (first), ...others];
    return carrying.some(({ link }) => link) ? carrying : this.sessions;
  }

  /** The session with the fewest clients. */
  get leastLoaded() {
    return this.carrying.reduce((a, b) => (b.load < a.load ? b : a));
  }

  /** The link that watches documents, or any other.
   *  @returns {Link | undefined} */
  get watching() {
    return this.sessions[1]?.link ?? this.links[0];
  }

  /** The server's reply to `["version"]`, while a session of it answers. */
  get version() {
    return this.links.length > 0 ? this.#version : undefined;
  }

  /** The link that carries a client. `undefined` where there is none for some seconds.
   *  @param {Guest} guest
   *  @returns {Promise<Link | undefined>} */
  async linkOf(guest) {
    while (!guest.isGone) {
      const { link } = guest.homeAt(this);
      if (link) return link;
      this.#lookIfAway();
      if (!this.#isAway) guest.move(this, this.leastLoaded);
      else if (!(await this.#mayCome())) return undefined;
    }
    return undefined;
  }

  /** The link that watches, or any other, for what the hub asks itself. `undefined` where there is
   *  none for some seconds.
   *  @returns {Promise<Link | undefined>} */
  async linked() {
    while (!this.watching) {
      this.#lookIfAway();
      if (!(await this.#mayCome())) return undefined;
    }
    return this.watching;
  }

  /** Waits for a link. False: there was none for so long that nobody is to wait. */
  async #mayCome() {
    const left = this.#awaySince + AWAY_MS - this.#options.clock.now();
    if (left <= 0 || this.#stopped) return false;
    await Promise.race([this.#next.promise, pauseBy(this.#options.clock, left)]);
    return true;
  }

  /** Ends the sessions behind what was asked. Clients that it carries find another pool. */
  stop() {
    this.#stopped = true;
    this.#stopTicks();
    this.#pending?.destroy("the hub ends");
    for (const link of this.links) link.quit();
    const guests = new Set(this.sessions.flatMap(({ clients }) => [...clients]));
    for (const guest of guests) guest.leavePool(this);
    this.#next.give();
    this.#fewer.give();
  }

  /** Gets sessions one after the other, while some are missing or worn out. */
  async #keep() {
    for (let failures = 0; !this.#stopped; ) {
      if (!this.#wanting) {
        await this.#fewer.promise;
        continue;
      }
      const link = await this.#connected();
      if (this.#stopped) return;
      if (link instanceof Link) {
        failures = 0;
        this.#take(link);
      } else {
        if (link !== UNSERVED) this.#notes(this.#explained(link));
        const ms = RETRY_MS[Math.min(failures++, RETRY_MS.length - 1)] ?? 0;
        await pauseBy(this.#options.clock, ms);
      }
    }
  }

  /** @param {string} cause why there is no connection */
  #explained(cause) {
    const isFull = this.links.length > 0 && cause.includes("ECONNREFUSED");
    const why = isFull ? "it has no session left" : "trying again";
    return `${this.#options.server() ?? "the server"}: ${cause}: ${why}`;
  }

  /** The first session without a link, or the one whose link is worn out most. */
  get #wanting() {
    const worn = this.sessions.filter(({ link }) => link?.isWorn);
    worn.sort((a, b) => (b.link?.lines ?? 0) - (a.link?.lines ?? 0));
    return this.sessions.find(({ link }) => !link) ?? worn[0];
  }

  async #connected() {
    const { replyBytes, linesPerSession, inner } = this.#options;
    const server = this.#options.server();
    if (server === undefined) return "it isn't there yet";
    this.#pending = new Link({
      server, replyBytes, linesPerSession, ...(inner !== undefined && { inner }),
      clock: () => this.#ticks, wornOut: () => this.#fewer.give(),
    });
    this.#pendingSince = this.#ticks;
    const link = await this.#pending.begun();
    this.#pending = undefined;
    return link;
  }

  /** @param {Link} link */
  #take(link) {
    const session = this.#wanting;
    if (!session) return link.quit();
    session.link?.quit();
    session.link = link;
    this.#version = link.version;
    this.#lookIfAway();
    link.closed.then((cause) => this.#ended(session, cause));
    const [got, wanted] = [this.links.length, this.sessions.length];
    if (got === wanted) this.trouble = "";
    if (got === 1 || got === wanted) {
      const { server, connected } = this.#options;
      connected(`connected with ${server()}: ${got} of ${wanted} sessions`);
    }
    this.#next.give();
    // One that was renewed, or is back, has none of the variables that its clients had.
    for (const guest of session.clients) guest.reopen();
  }

  /** @param {Session} session @param {string} cause */
  #ended(session, cause) {
    if (session.link || this.#stopped) return; // it was renewed
    session.endedAt = this.#ticks;
    this.#lookIfAway();
    this.#notes(cause);
    this.#fewer.give();
  }

  #lookIfAway() {
    if (this.#isAway === (this.links.length === 0)) return;
    this.#isAway = !this.#isAway;
    this.since = new Date();
    if (this.#isAway) this.#awaySince = this.#options.clock.now();
  }

  /** @param {string} trouble */
  #notes(trouble) {
    this.trouble = trouble;
    const [got, wanted] = [this.links.length, this.sessions.length];
    this.#options.note(`${trouble} (${got} of ${wanted} sessions)`);
  }

  #tick() {
    this.#ticks++;
    this.#endSilent();
    this.#lookAtPending();
    this.#lookIfAway();
    for (const session of this.sessions) {
      const { link, clients, endedAt } = session;
      const isAlone = !link && clients.size > 0 && this.#ticks - endedAt >= ALONE_TICKS;
      if (isAlone && this.links.length > 0) {
        for (const guest of [...clients]) guest.move(this, this.leastLoaded, session);
      }
    }
  }

  /** Ends the links at which the server hangs. One reply may take long while others come. */
  #endSilent() {
    const heardAt = Math.max(...this.links.map((link) => link.heardAt));
    const isSilent = this.#ticks - heardAt >= REPLY_TICKS;
    for (const link of this.links) {
      const { oldest } = link;
      const waits = oldest ? this.#ticks - oldest.sentAt : 0;
      const silence = this.#ticks - link.heardAt;
      const isLate = waits >= (isSilent || oldest?.isPing ? REPLY_TICKS : LONG_TICKS);
      if (isLate && silence >= REPLY_TICKS) link.destroy(`no reply for ${waits} seconds`);
      else if (!oldest && silence >= PING_TICKS) link.ping();
    }
  }

  #lookAtPending() {
    const pending = this.#pending;
    const ticks = this.#ticks - this.#pendingSince;
    if (!pending || pending.heardAt > this.#pendingSince) return;
    if (ticks === UNSERVED_TICKS) {
      const why = this.links.length > 0 ? "has no session left" : "has no session left, or hangs";
      this.#notes(`${this.#options.server()} accepts and doesn't reply: it ${why}`);
    }
    if (ticks >= MOST_UNSERVED_TICKS) pending.destroy(UNSERVED);
  }
}

/** Wakes all that wait for it, each time that it is given. */
class Signal {
  #give = () => {};
  /** @type {Promise<void>} */
  promise = Promise.resolve();

  constructor() {
    this.#arm();
  }

  give() {
    const give = this.#give;
    this.#arm();
    give();
  }

  #arm() {
    this.promise = new Promise((resolve) => (this.#give = resolve));
  }
}
