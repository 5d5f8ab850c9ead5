/* One connection of a provider. It knows how long the server has been silent: asks for a sign of
   life where nothing else is asked, and drops the connection where none comes. */

import { Away, Lost } from "./errors.mjs";
import { isRefusedBy } from "./protocol.mjs";

/** @typedef {import("./clock.mjs").Span} Span */
/** @typedef {import("./session.mjs").Client} Client */

const PING_MS = 2000; // where nothing was asked for so long, a reply is asked for
const SILENT_MS = 4500; // requests wait, and no reply came for so long: the server is offline
const DROP_MS = 20_000; // and so long: the connection is dropped
const LOOK_MS = 250; // how often these are looked at
const LATE_MS = 2000; // a look that is later was held up: no more of it counts as silence

/** @typedef {object} Watcher
 *  @property {() => void} silent The server doesn't reply.
 *  @property {() => void} alive It replies to what was asked since nothing else was.
 *  @property {(error: unknown) => void} failed It couldn't: the hub has no server. */

export class Link {
  /** Whether everything was exchanged once over it. */
  isSynced = false;
  client;
  #watcher;
  #life;
  #waiting = 0; // requests without a reply
  #silentMs = 0; // how long none of them had one
  #lookedAt;
  #askedAt;

  /** @param {Client} client
   *  @param {Span} turn its end is the link's
   *  @param {Watcher} watcher */
  constructor(client, turn, watcher) {
    this.client = client;
    this.#watcher = watcher;
    this.#life = turn.inner();
    const { span } = this.#life;
    this.#lookedAt = this.#askedAt = span.now;
    client.closed.then(() => this.end());
    span.signal.addEventListener("abort", () => client.end(), { once: true });
    span.repeat(LOOK_MS, () => this.#look());
  }

  end() {
    this.#life.end();
  }

  /** Notes that something came unasked: that is a sign of life, too. */
  noteSign() {
    this.#askedAt = this.#life.span.now;
  }

  /** Does something that asks the server, and notes how long its reply takes.
   *  @template T
   *  @param {() => Promise<T>} work
   *  @returns {Promise<T>} */
  async timed(work) {
    this.#askedAt = this.#life.span.now;
    this.#waiting += 1;
    try {
      return await work();
    } finally {
      this.#waiting -= 1;
      this.#silentMs = 0;
    }
  }

  /** Sends a line and resolves its reply. Throws Away where the hub has no server, and Lost where
   *  the server ended before it replied.
   *  @param {string} line
   *  @returns {Promise<string>} */
  async ask(line) {
    const reply = await this.timed(() => this.client.answer(line));
    if (isRefusedBy(reply, "server-away")) throw new Away("the hub has no server");
    if (isRefusedBy(reply, "server-lost")) throw new Lost("the server ended before it replied");
    return reply;
  }

  /** Sees how long no reply has come, and asks for one where nothing else was asked. While a page
   *  is held up, or a machine sleeps, replies wait for it: that isn't the server's silence. */
  #look() {
    const late = Math.min(this.#life.span.now - this.#lookedAt, LATE_MS);
    this.#lookedAt = this.#life.span.now;
    this.#silentMs = this.#waiting > 0 ? this.#silentMs + late : 0;
    if (this.#silentMs > DROP_MS) return this.end();
    if (this.#silentMs > SILENT_MS) return this.#watcher.silent();
    if (this.#waiting === 0 && this.#life.span.now - this.#askedAt > PING_MS) this.#ping();
  }

  async #ping() {
    try {
      await this.ask('["version"]');
      this.#watcher.alive();
    } catch (error) {
      this.#watcher.failed(error);
    }
  }
}
