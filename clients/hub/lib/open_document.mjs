/* A document whose server runs: the process, which is started again whenever it ends, and the hub's
   sessions of it. */

import { frontPairs, MOST, pauseBy } from "./client_package.mjs";
import { Pool } from "./pool.mjs";
import { ServerProcess } from "./server_process.mjs";

const LOCKED = "another program uses it"; // as the server of a hub that was killed, while it drains
const LOCKED_MS = 30_000; // so long that may last
const RETRY_MS = [100, 200, 500, 1000, 2000]; // the pauses between attempts to start it
const SIZE_MS = 1000; // so long is waited for the size of a document
const SPARE = 10; // sessions beside the hub's: those that are renewed, and an operator's

/** @typedef {Omit<import("./pool.mjs").PoolOptions, "server" | "inner" | "connected">} Sessions */
/** @typedef {Omit<import("./server_process.mjs").Serving, "clients">} Serving */

export class OpenDocument {
  /** How many requests use it now. */
  uses = 0;
  /** When it was used last, by the clock. */
  usedAt;
  /** How many operations its log has, as far as it is known. */
  operations = 0;
  /** The replicas that made them.
   *  @type {Set<string>} */
  replicas = new Set();
  /** Whether its server is to end. */
  isClosing = false;
  /** Whether nobody waits for its beginning any more. */
  isAbandoned = false;
  /** The sessions of its server, once that listens.
   *  @type {Pool | undefined} */
  pool;
  /** Resolves whether it can be used.
   *  @type {Promise<boolean>} */
  opening = Promise.resolve(false);
  /** Resolves when its server has ended, and another may be started.
   *  @type {Promise<void>} */
  closed;
  #setClosed = () => {};
  #serving;
  #sessions;
  #counted = 0;
  /** @type {ServerProcess | undefined} */
  #process;

  /** @param {Serving} serving @param {Sessions} sessions */
  constructor(serving, sessions) {
    this.#serving = serving;
    this.#sessions = sessions;
    this.usedAt = sessions.clock.now();
    this.closed = new Promise((resolve) => (this.#setClosed = () => resolve()));
  }

  /** Asks its server for the hub itself. `undefined` where that doesn't reply.
   *  @param {string} document @param {string} line */
  async ask(document, line) {
    const link = this.pool?.watching ?? (await this.pool?.linked());
    link?.open(document);
    const reply = await link?.ask(line);
    return typeof reply === "string" ? reply : undefined;
  }

  /** Notes how large its log is: so many operations, and those of these replicas.
   *  @param {number} operations @param {Iterable<string>} replicas */
  noteSize(operations, replicas) {
    this.operations = operations;
    for (const it of replicas) this.replicas.add(it);
  }

  /** Learns how large its log is. What is answered meanwhile may be counted twice, or not at all: that
   *  would only renew it a little earlier or later. */
  async measure() {
    const [size, replicas] = await Promise.all([this.askSize(), this.askReplicas()]);
    if (size) this.noteSize(Math.max(this.operations, size.operations), replicas ?? []);
    else await this.#measurePages();
  }

  /** By the operations themselves: servers before 1.2.0 don't tell how many there are. */
  async #measurePages() {
    const { document } = this.#serving;
    const front = new Map();
    for (let page; page === undefined || page.length === MOST.page; ) {
      const reply = await this.ask(document, JSON.stringify(["ops", document, frontPairs(front), MOST.page]));
      if (!reply?.startsWith('["ops",')) return;
      /** @type {any[]} */
      const operations = JSON.parse(reply)[1];
      for (const [, [counter, replica]] of operations) front.set(replica, counter);
      this.#counted += operations.length;
      page = operations;
    }
    this.noteSize(Math.max(this.operations, this.#counted), front.keys());
  }

  /** Asks which replicas its log has, while its server still runs. */
  async askReplicas() {
    const reply = await this.#asked("front");
    /** @type {[string, number][] | undefined} */
    const front = reply?.[0];
    return front?.map(([name]) => name);
  }

  /** Asks how large its log is; `undefined` where its server doesn't tell.
   *  @returns {Promise<{ operations: number, replicas: number } | undefined>} */
  async askSize() {
    const reply = await this.#asked("size");
    return reply && { operations: reply[0], replicas: reply[2] };
  }

  /** What its server replies behind the word of a request, within a while.
   *  @param {string} word
   *  @returns {Promise<any[] | undefined>} */
  async #asked(word) {
    const { document } = this.#serving;
    const asked = this.ask(document, JSON.stringify([word, document]));
    const reply = await Promise.race([asked, pauseBy(this.#sessions.clock, SIZE_MS)]);
    return reply?.startsWith(`["${word}",`) ? JSON.parse(reply).slice(1) : undefined;
  }

  /** Starts the server, and resolves once it listens. Throws the cause why it doesn't. */
  async begin() {
    const { clock } = this.#sessions;
    for (const end = clock.now() + LOCKED_MS; ; ) {
      this.#process = this.#start();
      if (await this.#process.listening) break;
      const cause = await this.#process.ended;
      const isWorthAWhile = cause.includes(LOCKED) && clock.now() < end && !this.isAbandoned;
      if (!isWorthAWhile) throw new Error(cause || "it has ended");
      await pauseBy(clock, RETRY_MS[0] ?? 0);
    }
    this.pool = new Pool({
      ...this.#sessions, server: () => this.#process?.address, inner: this.#serving.document,
      connected: () => {},
    });
    this.#keep();
  }

  #start() {
    const clients = this.#sessions.sessions + 1 + SPARE;
    return new ServerProcess({ ...this.#serving, clients }, this.#sessions.note);
  }

  /** Starts the server again, whenever it ends. */
  async #keep() {
    const { clock, note } = this.#sessions;
    for (let failures = 0; ; ) {
      const cause = await this.#process?.ended;
      if (this.isClosing) return;
      note(`${cause || "the server has ended"}: it is started again`);
      await pauseBy(clock, RETRY_MS[Math.min(failures++, RETRY_MS.length - 1)] ?? 0);
      if (this.isClosing) return;
      this.#process = this.#start();
      if (await this.#process.listening) failures = 0;
    }
  }

  /** Ends the sessions and lets the server drain. Resolves when it has ended, with the size of its
   *  document, as far as it is known.
   *  @returns {Promise<{ operations?: number, replicas?: number }>} */
  async close() {
    this.isClosing = true;
    const replicas = (await this.askReplicas())?.length;
    this.pool?.stop();
    const cause = await this.#process?.stop();
    if (cause) this.#sessions.note(`at the end of the server: ${cause}`);
    const operations = this.#process?.stored;
    return { ...(operations !== undefined && { operations }), ...(replicas !== undefined && { replicas }) };
  }

  /** Lets those go on who wait for its end. */
  noteClosed() {
    this.#setClosed();
  }
}
