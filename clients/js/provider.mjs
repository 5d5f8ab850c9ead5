/* A provider: a replica that connects, exchanges and is stored by itself, in Node and browsers.

     import { Provider } from "jcrdt/provider";
     const notes = await Provider.open({ document: "notes", at: "127.0.0.1:7001" });
     notes.listen(() => console.log(notes.state.word, notes.replica.keys([0])));
     notes.replica.assign([0, "title"], "Plan"); // stored, then sent, now or once it is online

   `at` is a server's or a hub's HOST:PORT (from Node), or a hub's ws:// or wss:// address. Without
   it the replica stays offline. `store` is one of stores.mjs, file_store.mjs or browser_store.mjs.

   What is stored is sent, and nothing else. While something can't be stored, as on a full disk,
   edits are refused by Unstored, so that nothing more is at stake; it is tried again by itself. */

import { CLOCK, Span } from "./clock.mjs";
import { Connection } from "./connection.mjs";
import { Away } from "./errors.mjs";
import { generationOf, isOfGeneration } from "./generations.mjs";
import { load } from "./jcrdt.mjs";
import { print } from "./json.mjs";
import { freshName } from "./names.mjs";
import { Notices, wordsOf } from "./notices.mjs";
import { Presence } from "./presence.mjs";
import { Replica } from "./replica.mjs";
import { StoreWriter } from "./store_writer.mjs";
import { memoryStore } from "./stores.mjs";
import { Synchronizer } from "./synchronizer.mjs";

export { Busy, Unstored, memoryStore } from "./stores.mjs";

/** @typedef {import("./stores.mjs").Store} Store */
/** @typedef {import("./stores.mjs").Stored} Stored */
/** @typedef {import("./session.mjs").Client} Client */
/** @typedef {import("./errors.mjs").Refused} Refused */

/**
 * Whether the replica exchanges with a server: true within 10 seconds, whatever froze or broke.
 * @typedef {object} State
 * @property {"online" | "connecting" | "offline" | "refused"} word "online": all that is stored
 *   here was given or is on its way, and all that the server has is here or on its way. "refused":
 *   the same, but for one's own changes that the server refuses: these stay here. Where `refused`
 *   has `differs` nothing is exchanged
 * @property {Date} since when it began
 * @property {string} why why it is offline, or what is refused, in words; else ""
 * @property {RefusedChanges} [refused] of "refused"
 */

/**
 * @typedef {object} RefusedChanges
 * @property {number} count how many operations of this replica the server lacks
 * @property {Refused} cause why it refused the first of them
 * @property {import("./chains.mjs").Difference} [differs] where the server has other operations than
 *   are here: of which replica, and the counter of the first one. Nothing is sent or taken then
 */

/**
 * How long a call waits.
 * @typedef {object} Wait
 * @property {number} [seconds] 10, unless it is said
 * @property {AbortSignal} [signal] ends it before: then the signal's reason is thrown
 */

/**
 * Something that a person should know, until it is over.
 * @typedef {object} Problem
 * @property {"store" | "memory" | "unread" | "server" | "refused" | "remade" | "renewed"
 *    | "listener"} kind
 *   "store": what was edited last isn't stored, and edits are refused. "memory": the store can't be
 *   opened, so nothing is stored. "unread": a part of the store couldn't be read. "server": it
 *   refuses to exchange. "refused": it refused some of one's own operations, which stay here.
 *   "remade": another had this replica's name, so that changes were made again. "renewed": the
 *   document goes on in another generation, where some changes couldn't be made again. "listener": a
 *   function that `listen` was given threw.
 * @property {string} words
 * @property {unknown} [cause] the error, if there is one
 * @property {string[]} [lines] the operations that it is about
 */

/**
 * What `listen` gives.
 * @typedef {object} Event
 * @property {"changed" | "state" | "problem" | "server" | "presence" | "progress"} what "changed":
 *   operations were logged, one event for all that came at once. "state", "problem", "presence",
 *   "progress": these are others now. "server": the server has another front.
 * @property {string} [why] of "changed": "own", "undo", "taken" or "remade"
 * @property {string[]} [lines] of "changed": the operations; none where it was remade
 */

/**
 * @typedef {object} Options
 * @property {string} document its name
 * @property {string} [at] where the server or the hub is
 * @property {Store} [store] in memory if there is none
 * @property {boolean} [orMemory] whether it goes on in memory where the store can't be opened, as
 *   in a browser without IndexedDB. `problems` says so then. Without it the store's error is thrown
 * @property {string} [word] what a new name of the replica begins with: up to 21 of a-z, 0-9, -
 * @property {boolean} [isOnline] whether it connects at once: true, unless it is said
 * @property {import("./jcrdt.mjs").Open} [engine] what keeps the document: what `load` gives, unless
 *   it is said
 * @property {any} [WebSocket] for ws:// in Node: the class of the package ws
 * @property {(line: string, reply: string) => void} [onReply] is called with each request of the
 *   exchange and its reply, as for a protocol
 * @property {import("./clock.mjs").Clock} [clock] for tests: what its pauses and limits go by
 * @property {() => number} [random] for tests: what the pauses between two tries go by, from 0 to 1
 */

/** A replica with a store, and an exchange that goes on by itself. */
export class Provider {
  /** The document as it is here. It is read and edited at any time, and isn't `sync`ed by hand.
   *  @type {Replica} */
  replica;
  /** Who else has the document open at the hub: see presence.mjs.
   *  @type {Presence} */
  presence;
  /** @type {State} */
  state = { word: "offline", since: new Date(), why: "it is opened" };
  #options;
  #store;
  #life = new AbortController(); // ends each part: timers, listeners, the connection
  #notices = new Notices();
  #clock;
  #writer;
  #connection;
  #exchange;
  #isTakingStored = false;
  /** @type {Set<() => void>} who waits until the state may be another */
  #waiters = new Set();
  #awaited = 0; // calls of `synced` that wait
  /** @type {Promise<void> | undefined} */
  #closing;

  /** Loads the engine where it isn't loaded, reads the store, and connects. Throws Busy where another
   *  program has the store open, TypeError where it has something else, Unstored where it can't store,
   *  and what `load` throws.
   *  @param {Options} options
   *  @returns {Promise<Provider>} */
  static async open(options) {
    if (!options.engine) await load();
    const { store, stored, problem } = await openedStore(options);
    try {
      const { replica, lost } = await restored(options, store, stored);
      const problems = lost.length > 0 ? [unreadProblem(lost, replica.count)] : [];
      return new Provider(options, store, replica, problem ? [problem] : problems);
    } catch (error) {
      await store.close();
      throw error;
    }
  }

  /** By `Provider.open` alone.
   *  @param {Options} options
   *  @param {Store} store
   *  @param {Replica} replica
   *  @param {Problem[]} problems of the store */
  constructor(options, store, replica, problems) {
    const { document, at = "", WebSocket, word = "replica", onReply } = options;
    const { clock = CLOCK, random = Math.random } = options;
    const life = new Span(clock, this.#life.signal);
    this.#options = options;
    this.#store = store;
    this.replica = replica;
    this.#clock = this.replica.clock = clock;
    this.#writer = new StoreWriter(store, this.#notices, life);
    this.#connection = new Connection({ at, document, WebSocket, random }, this.#user(), life);
    this.#exchange = new Synchronizer({
      replica, writer: this.#writer, notices: this.#notices, connection: this.#connection,
      changed: () => this.#show(), word, onReply, clock, life,
    });
    const heard = () => this.#notices.tell({ what: "presence" });
    this.presence = new Presence({ doc: document, life, changed: heard });
    for (const problem of problems) this.#notices.report(problem);
    this.#begin();
  }

  /** What the connection calls.
   *  @returns {import("./connection.mjs").User} */
  #user() {
    return {
      begin: async (link) => {
        await this.#exchange.begin(link);
        this.presence.begin(link).catch(() => {}); // the connection has ended
      },
      resume: () => this.#exchange.now(),
      isAwaited: () => this.#awaited > 0,
      changed: () => this.#show(),
      refused: (words, cause) => this.#notices.report({ kind: "server", words, cause }),
    };
  }

  #begin() {
    const { signal } = this.#life;
    this.replica.guard(() => this.#writer.check()); // also behind `close`
    const unlisten = this.replica.listen((event) => this.#hear(event));
    signal.addEventListener("abort", unlisten, { once: true });
    this.#store.follow?.((others) => this.#takeStored(others));
    if (typeof addEventListener === "function") { // of a page
      addEventListener("online", () => this.#connection.wake(), { signal });
    }
    if (this.#options.isOnline !== false && this.#options.at) this.goOnline();
    else this.#show();
  }

  /** Stores what the replica logged, sends it, and says so.
   *  @param {import("./events.mjs").Event} event */
  #hear(event) {
    const { why, lines, gone } = event;
    if (gone) this.#writer.rename(this.replica.name, this.replica.lines().slice(1), gone);
    else if (!this.#isTakingStored) this.#writer.add(lines);
    if (this.#exchange.hears(event)) return;
    this.#notices.tell({ what: "changed", why, lines });
    if (why !== "remade") this.#exchange.soon(why);
  }

  /** Takes what another tab stored.
   *  @param {string[] | undefined} lines */
  #takeStored(lines) {
    if (!lines) {
      const words = "another tab has deleted what this browser stored, and begun anew";
      const all = this.replica.lines().slice(1);
      return this.#notices.report({ kind: "store", words, lines: all });
    }
    const generation = generationOf(this.replica.front());
    const own = lines.filter((line) => isOfGeneration(line, generation));
    this.#isTakingStored = true;
    this.replica.deliverAll(own); // one that doesn't fit stays where it is
    this.#isTakingStored = false;
    // The other tab has gone on in another generation: so will this one.
    if (own.length < lines.length) this.#exchange.now();
  }

  // ---- What is stored, and what is sent

  /** Whether everything that was edited here is stored. If not, it is under way, or has failed. */
  get isStored() {
    return this.#writer.isDone;
  }

  /** What is stored and what isn't, as a text that file_store.mjs reads. */
  get saved() {
    return this.replica.lines().map((line) => `${line}\n`).join("");
  }

  /** The operations that no server is known to have. */
  get unsent() {
    return this.#exchange.unsent.map(print);
  }

  /** What the server had when it was last asked: pairs of a replica and its last counter.
   *  `undefined` before that. */
  get serverFront() {
    return this.#exchange.serverFront;
  }

  /** Whether the server takes what is edited here: false for a client that may only read, for a
   *  document without room, and while the state is "refused". `undefined` before it is known. */
  get canWrite() {
    if (this.replica.room === 0 || this.#exchange.refused) return false;
    return this.#exchange.mayWrite;
  }

  /** Takes back one's own changes that the server refuses: they go from the replica and the store,
   *  which goes on under a new name. Resolves their lines, which nobody else has; none where
   *  nothing is refused. Watches go on, `undo` has no steps then. Other tabs show them until they
   *  are loaded again. Throws Away where there is no exchange in time: then nothing is taken back.
   *  @param {{ seconds?: number }} [wait] 10, unless it is said
   *  @returns {Promise<string[]>} */
  async discardRefused(wait) {
    const { seconds = 10 } = wait ?? {};
    return this.#exchange.refused ? this.#exchange.discard(seconds * 1000) : [];
  }

  /** Where the server has other operations of somebody than are here (`state.refused.differs`), as one
   *  that was started over an older file: goes on with what the server has, and makes one's own changes
   *  that it lacks again under a new name. Resolves the lines of those that couldn't be made, and of
   *  others' that are here alone; none where nothing differs. Watches go on. Throws Away where there is
   *  no exchange in time: then nothing is made.
   *  @param {{ seconds?: number }} [wait] 10, unless it is said
   *  @returns {Promise<string[]>} */
  async remakeRefused(wait) {
    const { seconds = 10 } = wait ?? {};
    return this.#exchange.refused?.differs ? this.#exchange.remake(seconds * 1000) : [];
  }

  /** How many operations the exchange that goes on has got of the server, which show once they are
   *  taken; `undefined` where it gets none. An event "progress" says twice a second that it is
   *  another. */
  get progress() {
    const { fetched } = this.#exchange;
    return fetched === undefined ? undefined : { fetched };
  }

  // ---- Events

  /** What a person should know, by kind, until it is over. */
  get problems() {
    return this.#notices.problems;
  }

  /** Calls a function with each event, one at a time, until what this returns is called.
   *  @param {(event: Event) => void} heard
   *  @returns {() => void} */
  listen(heard) {
    return this.#notices.listen(heard);
  }

  /** Sets the state by what is known, and says where it is another. */
  #show() {
    const now = this.#known();
    const { word, why, since } = this.state;
    if (now.word !== word || now.why !== why) {
      this.state = { ...now, since: now.word === word ? since : now.since };
      this.#notices.tell({ what: "state" });
    }
    this.#resumeAll();
  }

  /** Lets those who wait look at the state again. */
  #resumeAll() {
    for (const resume of [...this.#waiters]) resume();
  }

  /** @returns {State} */
  #known() {
    const since = new Date();
    if (!this.isSwitchedOn) {
      const why = this.#options.at ? "it is switched off" : "it has no server";
      return { word: "offline", since, why };
    }
    const { link, why, isFirst } = this.#connection;
    if (why !== "") return { word: "offline", since, why };
    const { refused } = this.#exchange;
    if (link?.isSynced && refused) {
      return { word: "refused", since, why: refused.cause.message, refused };
    }
    if (link?.isSynced) return { word: "online", since, why };
    if (isFirst) return { word: "connecting", since, why };
    return { word: "offline", since, why: "the connection has ended" };
  }

  // ---- The connection

  /** Whether it is online, or tries to be. */
  get isSwitchedOn() {
    return this.#connection.isSwitchedOn;
  }

  /** Connects, and exchanges from now on. Where it does so already, it goes on, and tries at once
   *  if it was waiting to. Throws TypeError where it has no server, or is closed. */
  goOnline() {
    if (!this.#options.at) throw new TypeError("this provider has no server");
    if (this.#life.signal.aborted) throw new TypeError("this provider is closed");
    this.#connection.goOnline();
  }

  /** Ends the connection, and makes none. Edits are stored, and sent later. */
  goOffline() {
    this.#connection.goOffline();
  }

  /** Whether it is closed, or is being closed. */
  get #isClosed() {
    return this.#closing !== undefined || this.#life.signal.aborted;
  }

  /** Stores what isn't stored, ends the connection and lets others open the store. Throws Unstored
   *  where that fails: then something is lost that only `saved` has. */
  close() {
    this.#closing ??= this.#close();
    this.#resumeAll();
    return this.#closing;
  }

  async #close() {
    this.goOffline();
    this.#writer.retry();
    try {
      await this.#writer.flushed();
    } finally {
      this.#life.abort();
      await this.#store.close(this.replica.isDoubtful);
    }
  }

  /** Deletes what is stored. Where `unsent` has something, that is lost. It is closed then. */
  async deleteStored() {
    this.goOffline();
    this.#life.abort();
    this.#resumeAll();
    await this.#store.clear();
  }

  /** Resolves once it is online and everything is exchanged that was logged here before. Where it
   *  is offline for now, it connects at once. Throws Refused where the server refuses changes of
   *  this replica, with how many and why: these stay here. Throws Away at once where it is closed.
   *  @param {number | Wait} [wait] how long: a number is its seconds. Then Away is thrown, with
   *    what is known
   *  @returns {Promise<void>} */
  async synced(wait = {}) {
    /** @type {Wait} */
    const { seconds = 10, signal } = typeof wait === "number" ? { seconds: wait } : wait;
    const end = this.#clock.now() + seconds * 1000;
    this.#awaited += 1;
    this.#connection.wake();
    this.#exchange.now();
    try {
      while (!this.#exchange.isDone || !["online", "refused"].includes(this.state.word)) {
        signal?.throwIfAborted();
        if (this.#isClosed) throw new Away("not exchanged: this provider is closed");
        const left = end - this.#clock.now();
        if (left <= 0) throw new Away(`not exchanged: ${this.state.why || "it takes long"}`);
        await this.#stateOrTime(left, signal);
      }
    } finally {
      this.#awaited -= 1;
    }
    if (this.state.refused) throw this.state.refused.cause;
  }

  /** Resolves when the state may have changed, or after so long. It leaves no timer behind: that
   *  would keep a program from ending.
   *  @param {number} ms
   *  @param {AbortSignal} [signal] */
  #stateOrTime(ms, signal) {
    return new Promise((/** @type {(_?: unknown) => void} */ resolve) => {
      const resume = () => {
        stop();
        signal?.removeEventListener("abort", resume);
        this.#waiters.delete(resume);
        resolve();
      };
      const stop = this.#clock.after(ms, resume, true);
      signal?.addEventListener("abort", resume, { once: true });
      this.#waiters.add(resume);
    });
  }
}

/** The store that is open, and what it had. Where it can't be opened it may be one in memory.
 *  @param {Options} options
 *  @returns {Promise<{ store: Store, stored: Stored, problem?: Problem }>} */
async function openedStore({ document, store = memoryStore(), orMemory, word = "replica" }) {
  const openOf = (/** @type {Store} */ it) => it.open(document, () => freshName(word));
  try {
    return { store, stored: await openOf(store) };
  } catch (error) {
    if (!orMemory) throw error;
    const words = `Nothing can be stored here (${wordsOf(error)}). What is edited here is lost when`
      + " this is closed, unless a server has it by then";
    const memory = memoryStore();
    const problem = { kind: /** @type {const} */ ("memory"), words, cause: error };
    return { store: memory, stored: await openOf(memory), problem };
  }
}

/** The replica of what is stored, and what of that couldn't be read or used. Where there is some,
 *  it goes on under a new name: operations of the old one may be among it.
 *  @param {Options} options
 *  @param {Store} store
 *  @param {Stored} stored
 *  @returns {Promise<{ replica: Replica, lost: string[] }>} */
async function restored({ document, engine, word = "replica" }, store, stored) {
  const { name, lines, unread } = stored;
  const replicaOf = (/** @type {string} */ own, /** @type {string[]} */ all) => {
    const head = JSON.stringify(["replica", own, document]);
    const replica = Replica.restore([head, ...all], { engine });
    replica.isShared = store.follow !== undefined;
    replica.isFiled = stored.wasOpen !== undefined;
    replica.wasOpen = stored.wasOpen ?? false;
    replica.isNew = own !== name || (stored.isNew ?? false);
    const sessions = stored.sessions ?? [];
    replica.sessions = sessionsOf(own, sessions, stored.lines);
    for (const [at, { former }] of sessions.entries()) {
      if (former) replica.formers.set(former, sessionsOf(former, sessions.slice(0, at), stored.lines));
    }
    return replica;
  };
  const first = replicaOf(name, lines);
  const taken = new Set(first.unread.length > 0 ? first.lines() : []);
  const unused = first.unread.map(({ line }) => line).filter((line) => !taken.has(line));
  const lost = [...unread, ...unused];
  if (lost.length === 0) return { replica: first, lost };
  const [, ...good] = first.lines();
  const fresh = freshName(word);
  const replica = replicaOf(fresh, good);
  await store.rename(fresh, good, []);
  return { replica, lost };
}

/** From behind which of its operations on each opening was there.
 *  @param {string} name
 *  @param {import("./stores.mjs").Session[]} sessions
 *  @param {string[]} lines */
const sessionsOf = (name, sessions, lines) =>
  sessions.map(({ before, word }) => ({ after: lastOwn(lines.slice(0, before), name), word }));

/** The counter of the last operation of a replica.
 *  @param {string[]} lines
 *  @param {string} name */
function lastOwn(lines, name) {
  const start = new RegExp(`^\\["op",\\[(\\d+),"${name}"\\]`);
  return lines.reduce((last, line) => Number(start.exec(line)?.[1] ?? last), 0);
}

/** @param {string[]} lost
 *  @param {number} good how many lines were read
 *  @returns {Problem} */
function unreadProblem(lost, good) {
  const all = lost.length + good;
  const words = `${lost.length} of ${all} stored lines couldn't be read or used`;
  return { kind: "unread", words, lines: lost };
}
