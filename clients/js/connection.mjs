/* The wish of a provider to be online, and what comes of it: it connects, and connects again when
   that has ended, with longer pauses the more often it fails. */

import { Refused } from "./errors.mjs";
import { Link } from "./link.mjs";
import { wordsOf } from "./notices.mjs";
import { REFUSALS } from "./protocol.mjs";
import { connected, connectedToHub } from "./session.mjs";

/** @typedef {import("./clock.mjs").Span} Span */
/** @typedef {import("./session.mjs").Client} Client */

const CONNECT_SECONDS = 8;
const RETRY_MS = { first: 250, most: 15_000, awaited: 1000 }; // `awaited` while somebody waits

/** @typedef {object} Way
 *  @property {string} at HOST:PORT, ws:// or wss://
 *  @property {string} document
 *  @property {any} [WebSocket]
 *  @property {() => number} random From 0 to 1: how long it waits between two tries. */

/** @typedef {object} User Who uses the connection.
 *  @property {(link: Link) => Promise<void>} begin Begins to work over a new one.
 *  @property {() => void} resume Works again: the server replies again.
 *  @property {() => boolean} isAwaited Whether somebody waits for it.
 *  @property {() => void} changed Its state may be another.
 *  @property {(words: string, cause: Refused) => void} refused The server refuses to work. */

export class Connection {
  /** Why it isn't online, in words; "" while it is, or begins to be. */
  why = "";
  /** Whether nothing has failed since it was switched on. */
  isFirst = true;
  /** @type {Link | undefined} */
  link;
  /** @type {{ span: Span, end: () => void } | undefined} the time from `goOnline` to `goOffline` */
  #turn;
  #wake = () => {};
  #way;
  #user;
  #life;

  /** @param {Way} way
   *  @param {User} user
   *  @param {Span} life */
  constructor(way, user, life) {
    this.#way = way;
    this.#user = user;
    this.#life = life;
  }

  /** Whether it is online, or tries to be. */
  get isSwitchedOn() {
    return this.#turn !== undefined;
  }

  /** Connects from now on. Where it does so already, it tries at once. */
  goOnline() {
    if (this.#turn) return this.wake();
    this.#turn = this.#life.inner();
    [this.isFirst, this.why] = [true, ""];
    this.#user.changed();
    this.#run(this.#turn.span);
  }

  /** Ends the connection, and makes none. */
  goOffline() {
    this.#turn?.end();
    [this.#turn, this.link, this.why] = [undefined, undefined, ""];
    this.#user.changed();
  }

  /** Ends the pause between two tries. */
  wake() {
    this.#wake();
  }

  /** @param {Span} turn */
  async #run(turn) {
    const { signal } = turn;
    for (let failures = 0; !signal.aborted; ) {
      const wasSynced = await this.#connect(turn).catch((error) => this.#failed(signal, error));
      if (signal.aborted) return;
      failures = wasSynced ? 0 : failures + 1;
      this.isFirst = false;
      this.why ||= "the connection has ended";
      this.#user.changed();
      await turn.rest(this.#restOf(failures), (wake) => (this.#wake = wake));
    }
  }

  /** Works over a connection until it ends. Resolves whether everything was exchanged once.
   *  @param {Span} turn */
  async #connect(turn) {
    const { signal } = turn;
    /** @type {Link} */
    const link = new Link(await this.#opened(signal), turn, {
      silent: () => this.#explain(link, "the server doesn't reply"),
      alive: () => this.link === link && this.why !== "" && this.#user.resume(),
      failed: (error) => this.link === link && this.#explain(link, this.#wordsOf(error)),
    });
    this.link = link;
    try {
      await this.#user.begin(link);
      throw await link.client.closed;
    } catch (error) {
      if (!signal.aborted) this.fail(error);
    } finally {
      link.end();
      if (this.link === link) this.link = undefined;
    }
    return link.isSynced;
  }

  /** @param {AbortSignal} signal
   *  @returns {Promise<Client>} */
  #opened(signal) {
    const { at, WebSocket } = this.#way;
    const options = { connectSeconds: CONNECT_SECONDS, signal };
    return /^wss?:/.test(at) ? connectedToHub(at, WebSocket, options) : connected(at, options);
  }

  /** @param {AbortSignal} signal
   *  @param {unknown} error
   *  @returns {false} */
  #failed(signal, error) {
    if (!signal.aborted) this.fail(error);
    return false;
  }

  /** So many milliseconds it waits behind so many failures. Not all clients come back at once.
   *  @param {number} failures */
  #restOf(failures) {
    const longest = this.#user.isAwaited() ? RETRY_MS.awaited : RETRY_MS.most;
    const most = Math.min(longest, RETRY_MS.first * 2 ** failures);
    return most * (0.5 + this.#way.random() / 2);
  }

  /** @param {Link} link
   *  @param {string} words */
  #explain(link, words) {
    if (this.link !== link) return;
    this.why = words;
    this.#user.changed();
  }

  /** Notes why it isn't online.
   *  @param {unknown} error */
  fail(error) {
    this.why = this.#wordsOf(error);
  }

  /** @param {unknown} error */
  #wordsOf(error) {
    if (!(error instanceof Refused)) return wordsOf(error);
    const words = error.number === REFUSALS["no-such-document"]
      ? `the server has no document ${this.#way.document}`
      : `the server refuses: ${error.number} ${error.name}`;
    this.#user.refused(words, error);
    return words;
  }
}
