/* Each operation of a document, once, for as long as the caller likes: for an index or a mail.

     for await (const operation of followed("127.0.0.1:7001", "notes", { front })) {
       await handle(operation);
       front = frontAfter(front, operation); // kept with what was handled: the next start goes on there
     }
*/

import { CLOCK } from "./clock.mjs";
import { Away, Lost, Refused } from "./errors.mjs";
import { covers, frontPairs } from "./operations.mjs";
import { REFUSALS } from "./protocol.mjs";
import { connected, connectedToHub } from "./session.mjs";

/** @typedef {import("./operations.mjs").Front} Front */
/** @typedef {import("./operations.mjs").Operation} Operation */
/** @typedef {import("./session.mjs").Client} Client */

const RETRY_MS = { first: 200, most: 5000 }; // the pauses before it connects again

/** @typedef {object} FollowOptions
 *  @property {Iterable<[string, number]>} [front] what was handled already: nothing
 *  @property {number} [every] how often a server is asked, in milliseconds: 500
 *  @property {AbortSignal} [signal] ends it: then its reason is thrown
 *  @property {any} [WebSocket] for ws:// in Node: the class of the package ws
 *  @property {import("./clock.mjs").Clock} [clock] for tests: what the pauses go by */

/** Gives each operation of a document that the front doesn't cover, in log order, for ever. It
 *  connects again whenever the server or hub has gone.
 *
 *  A hub says when something has changed. If it knows what is in the server's file, an operation
 *  comes once it is there. A server is asked, and what it has logged comes: a kill may take the last
 *  of it back, and then its writer may write it again.
 *
 *  Throws Refused where the document can't be opened.
 *  @param {string} at HOST:PORT of a server or a hub, or a hub's ws:// or wss:// address
 *  @param {string} document
 *  @param {FollowOptions} [options]
 *  @returns {AsyncGenerator<Operation, never, void>} */
export async function* followed(at, document, options = {}) {
  const { front = [], signal, clock = CLOCK } = options;
  const followedFrom = new Following(document, front);
  for (let pause = RETRY_MS.first; ; pause = Math.min(2 * pause, RETRY_MS.most)) {
    signal?.throwIfAborted();
    try {
      for await (const operation of followedFrom.over(at, options)) {
        pause = RETRY_MS.first;
        yield operation;
      }
    } catch (error) {
      signal?.throwIfAborted();
      if (!(error instanceof Away || error instanceof Lost)) throw error;
    }
    await rest(clock, pause, signal);
  }
}

/** The front that covers the operation as well.
 *  @param {Iterable<[string, number]>} front
 *  @param {Operation} operation
 *  @returns {Front} */
export function frontAfter(front, [, [counter, replica]]) {
  return frontPairs(new Map(front).set(replica, counter));
}

/** What was given of a document, over each of its connections. */
class Following {
  #known;
  #document;
  #isKept = false; // whether a hub has said that something is in the file

  /** @param {string} document
   *  @param {Iterable<[string, number]>} front */
  constructor(document, front) {
    this.#document = document;
    this.#known = new Map(front);
  }

  /** Gives what is new until the connection ends: then Lost is thrown.
   *  @param {string} at
   *  @param {FollowOptions} options */
  async *over(at, { every = 500, signal, WebSocket }) {
    const client = await (/^wss?:/.test(at) ? connectedToHub(at, WebSocket, { signal })
      : connected(at, { signal }));
    try {
      await client.open(this.#document);
      for await (const _ of changesOf(client, this.#document, every)) {
        for (const operation of await this.#stored(client)) {
          const [, [counter, replica]] = operation;
          this.#known.set(replica, counter);
          yield operation;
        }
      }
    } finally {
      client.end();
    }
  }

  /** What is new, once it is in the server's file if a hub knows that. Throws Lost where the server
   *  has lost some of it, or a hub knew and doesn't any more.
   *  @param {Client} client
   *  @returns {Promise<Operation[]>} */
  async #stored(client) {
    /** @type {Operation[]} */
    const found = [];
    for await (const it of client.operations(this.#document, this.#known)) found.push(it);
    const last = new Map(found.map(([, [counter, replica]]) => [replica, counter]));
    try {
      for (const [replica, counter] of last) await client.stored(this.#document, [counter, replica]);
      this.#isKept ||= last.size > 0;
    } catch (error) {
      // No hub, or one that doesn't know the file, or what it was asked for was lost by a kill.
      if (!(error instanceof Refused) || !UNKNOWN.has(error.number)) throw error;
      const front = await client.front(this.#document);
      const hasAll = [...last].every(([replica, counter]) => covers(front, [counter, replica]));
      if (this.#isKept || !hasAll) {
        throw new Lost(`${this.#document}: not all that was read is known to be in the file`);
      }
    }
    return found;
  }
}

/** @type {Set<number>} */
const UNKNOWN = new Set([REFUSALS["bad-request"], REFUSALS["not-kept"]]);

/** Gives something at first and whenever a document has changed. Throws Lost where the session has
 *  ended.
 *  @param {Client} client
 *  @param {string} document
 *  @param {number} every
 *  @returns {AsyncGenerator<void, never, void>} */
async function* changesOf(client, document, every) {
  let [wake, isDue] = [() => {}, true];
  /** @type {Lost | undefined} */
  let lost;
  const note = () => {
    isDue = true;
    wake();
  };
  client.closed.then((it) => {
    lost = it;
    wake();
  });
  const end = await client.watch(document, note, every);
  try {
    for (;;) {
      if (lost) throw lost;
      /** @type {Promise<void>} */
      const changed = isDue ? Promise.resolve() : new Promise((resume) => (wake = resume));
      await changed;
      const isChanged = isDue;
      isDue = false; // what changes while the caller works is looked at behind it
      if (isChanged) yield;
    }
  } finally {
    end();
  }
}

/** Resolves after so long, or when the signal is aborted.
 *  @param {import("./clock.mjs").Clock} clock
 *  @param {number} ms
 *  @param {AbortSignal} [signal]
 *  @returns {Promise<void>} */
function rest(clock, ms, signal) {
  return new Promise((resume) => {
    const end = () => {
      stop();
      signal?.removeEventListener("abort", end);
      resume();
    };
    const stop = clock.after(ms, end, true);
    signal?.addEventListener("abort", end, { once: true });
    if (signal?.aborted) end();
  });
}
