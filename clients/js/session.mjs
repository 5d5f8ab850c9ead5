/* A session of a server, for Node and browsers: over TCP, or through the hub.

     import { connected } from "jcrdt";
     const alice = await connected("127.0.0.1:7001");
     await alice.open("d");
     await alice.put("d", [0], { title: "Plan", steps: ["ask", "build"] });
     console.log(await alice.plain("d", [0]));
     await alice.quit();

   A cursor is an array: first 0 for the document or the name of a variable, then texts (down into
   maps) and indices (into lists: 0 is the head, 1 the first element).

   Every call sends its request at once and returns a promise. The server answers a session in
   order, so calls may be made without waiting for the one before (pipelining):

     await Promise.all(names.map((name) => alice.insert("d", [0, "list", 0], name)));

   A call fails with one of three errors. `Refused`: nothing was changed. `Away`: it wasn't sent, or
   the hub has no server. `Lost`: the connection ended before the reply, so whether it was carried
   out is unknown. Integers beyond 2^53 are BigInt, in both directions. */

import { CLOCK, pauseBy } from "./clock.mjs";
import { Away, Lost, Refused, errorOf } from "./errors.mjs";
import { Filling, lengthOf } from "./filling.mjs";
import { isMap, parse, print } from "./json.mjs";
import { MOST } from "./limits.mjs";
import { LineCutter, addressParts } from "./lines.mjs";
import { covers, frontPairs, isId } from "./operations.mjs";
import { PUSHES, REFUSALS, REQUESTS, isRefusedBy } from "./protocol.mjs";
import {
  bare, byteLength, checkValue, checkedInteger, checkedScalar, integer, plain,
} from "./values.mjs";

/** @typedef {import("./operations.mjs").Cursor} Cursor */
/** @typedef {import("./operations.mjs").Id} Id */
/** @typedef {import("./operations.mjs").Operation} Operation */
/** @typedef {import("./operations.mjs").Scalar} Scalar */
/** @typedef {(front: Map<string, number>) => any} Changed */
/** @typedef {(value: any, guest: string) => any} Heard */

/** @typedef {object} Follower What is called for a document that is followed.
 *  @property {Changed} begins With the front as it is: `logged` is called with what comes behind it.
 *  @property {(operations: Operation[]) => any} logged With what was logged behind the last call.
 *  @property {() => any} misses Something was logged that no call had: the server is to be asked.
 *  @property {Changed} changed In place of these, where operations aren't pushed. */

/** @typedef {object} Options
 *  @property {number} [seconds] How long the oldest request may wait for its reply (60).
 *  @property {number} [connectSeconds] How long until the session has begun (10).
 *  @property {number} [ping] After so many seconds without a request `version` is asked (10), while
 *    something is watched, and over WebSocket always: a server gives a session that is silent for 30
 *    seconds to another that waits.
 *  @property {number} [most] Of a reply, in bytes (256 MiB).
 *  @property {AbortSignal} [signal] Ends the session when it is aborted, also before it begins.
 *  @property {import("./clock.mjs").Clock} [clock] For tests: what pings and `watch` go by. */

/** @param {string} line */
const firstWord = (line) => /^\s*\[\s*"([a-z]+)"/.exec(line)?.[1] ?? "";

/** @typedef {object} Waiting
 *  @property {string} word
 *  @property {(line: string) => void} answered
 *  @property {(error: Error) => void} failed */

/** @typedef {object} Watch
 *  @property {Map<Changed, string>} watchers With the front that each was called with, "" before.
 *  @property {boolean} isPushed Whether the hub pushes it.
 *  @property {Promise<void>} begun */

/** @typedef {object} Following
 *  @property {Set<Follower>} followers
 *  @property {number} [last] The number of the last push of operations; none behind a front.
 *  @property {boolean} isBegun Whether a front was pushed. */

/** One session: see `connected`. */
export class Client {
  /** @type {(line: string) => void} */
  #sent;
  /** @type {() => void} */
  #ended;
  #seconds;
  #pingSeconds;
  #clock;
  #askedAt = 0; // when the last request was sent, in ms
  #stopPings = () => {};
  #asked = 0;
  #answered = 0;
  /** @type {Map<number, Waiting>} The number of a request: who waits for its reply. */
  #waiting = new Map();
  #since = 0; // when the oldest of them became the oldest, in ms
  /** @type {ReturnType<typeof setTimeout> | undefined} */
  #timer;
  /** @type {Map<string, Watch>} By document. */
  #watches = new Map();
  /** @type {Map<string, Following>} By document. */
  #followings = new Map();
  /** @type {Map<string, Set<Heard>>} By document. */
  #hearers = new Map();
  /** @type {Map<string, number>} A list: how many elements it had when one was appended. */
  #lengths = new Map();
  /** @type {Promise<any>} The nested values that are being put, one after another. */
  #filling = Promise.resolve();
  /** @type {Lost | undefined} */
  #lost;
  /** @type {(lost: Lost) => void} */
  #resolveClosed = () => {};

  /** @type {Promise<Lost>} Resolves with the cause when the connection has ended. */
  closed = new Promise((resolve) => (this.#resolveClosed = resolve));

  /** Called when the hub has a new session, with the variables that are gone.
   *  @type {(gone: [document: string, name: string][]) => any} */
  reopened = () => {};

  /** Called when a document that is watched goes on in another generation.
   *  @type {(document: string, generation: string) => any} */
  renewed = () => {};

  /** Called with what a callback of the caller has thrown. The session goes on.
   *  @type {(error: any) => any} */
  failed = (error) => console.error(error);

  /** @param {(line: string) => void} sent Sends a line.
   *  @param {() => void} ended Ends the connection.
   *  @param {Options} [options] */
  constructor(sent, ended, options = {}) {
    this.#sent = sent;
    this.#ended = ended;
    this.#seconds = options.seconds ?? 60;
    this.#pingSeconds = options.ping ?? PING_SECONDS;
    this.#clock = options.clock ?? CLOCK;
  }

  // ---- The connection

  /** The connection calls this for each line that came.
   *  @param {string} line */
  receive(line) {
    if (this.#lost) return;
    const word = firstWord(line);
    if (PUSHES.has(word)) return this.#push(line);
    const waits = this.#waiting.get(this.#answered);
    const due = waits && (REQUESTS.get(waits.word)?.replies ?? [waits.word]);
    // Behind a line that answers nothing each reply would be taken for that of another request.
    if (!waits || !due || (word !== "no" && waits.word && !due.includes(word))) {
      return this.breakOff(`this line answers no request: ${line.slice(0, 80)}`);
    }
    this.#waiting.delete(this.#answered++);
    this.#since = performance.now();
    waits.answered(line);
  }

  /** Ends the connection for a cause of this side.
   *  @param {string} cause */
  breakOff(cause) {
    this.lose(cause);
    this.#ended();
  }

  /** The connection calls this when it has ended.
   *  @param {string} cause */
  lose(cause) {
    if (this.#lost) return;
    this.#lost = new Lost(cause);
    clearTimeout(this.#timer);
    this.#stopPings();
    for (const waits of this.#waiting.values()) waits.failed(this.#lost);
    this.#waiting.clear();
    this.#watches.clear();
    this.#followings.clear();
    this.#hearers.clear();
    this.#resolveClosed(this.#lost);
  }

  /** How many requests wait for their replies. */
  waiting = () => this.#waiting.size;

  /** Ends the connection without a word. */
  end() {
    this.breakOff("this client has ended the session");
  }

  /** Sends a line of text, and returns the line of its reply.
   *  @param {string} line
   *  @returns {Promise<string>} */
  answer(line) {
    if (this.#lost) return Promise.reject(new Away(`not sent, as the session has ended: ${this.#lost.message}`));
    return new Promise((answered, failed) => {
      this.#askedAt = this.#clock.now();
      if (this.#waiting.size === 0) this.#since = performance.now();
      this.#waiting.set(this.#asked++, { word: firstWord(line), answered, failed });
      this.#timer ??= this.#check(this.#seconds * 1000);
      this.#sent(line);
    });
  }

  /** From now on asks for the version where nothing else is asked for so long. */
  ping() {
    const half = (this.#pingSeconds * 1000) / 2;
    this.#stopPings();
    this.#stopPings = this.#clock.every(half, () => {
      const isSilent = this.#waiting.size === 0 && this.#clock.now() - this.#askedAt >= half;
      if (isSilent) this.version().catch(() => {});
    });
  }

  /** Looks at the oldest request after so many milliseconds.
   *  @param {number} after
   *  @returns {ReturnType<typeof setTimeout>} */
  #check(after) {
    const timer = setTimeout(() => {
      const left = this.#since + this.#seconds * 1000 - performance.now();
      this.#timer = undefined;
      if (this.#waiting.size === 0) return;
      if (left > 0) this.#timer = this.#check(left);
      else this.breakOff(`no reply for ${this.#seconds} seconds`);
    }, after);
    // The socket keeps a program of Node alive, and not the timer.
    /** @type {any} */ (timer).unref?.();
    return timer;
  }

  /** Sends one request, and returns the items of its reply behind the word. Throws RangeError, and
   *  sends nothing, if the request has more than 65,536 bytes.
   *  @param {string} word
   *  @param {...any} items
   *  @returns {Promise<any[]>} */
  async ask(word, ...items) {
    const line = print([word, ...items]);
    if (line.length * 3 > MOST.line && byteLength(line) > MOST.line) {
      throw new RangeError(`the request has more than ${MOST.line} bytes, and wasn't sent`);
    }
    const text = await this.answer(line);
    const reply = parsedReply(text);
    if (!reply) this.breakOff(`this reply isn't JSON: ${text.slice(0, 80)}`);
    if (!reply) throw this.#lost;
    if (reply[0] === "no") throw errorOf(reply, word);
    return reply.slice(1);
  }

  /** @param {string} document */
  open = async (document) => (await this.ask("open", document))[0];

  // ---- Changes. Each returns the id of its operation.

  /** Assigns a scalar, {} or []. What is in them is put by `put`.
   *  @param {string} document
   *  @param {Cursor} place
   *  @param {any} value
   *  @returns {Promise<Id>} */
  assign = async (document, place, value) =>
    (await this.ask("assign", document, place, operand(value)))[2];

  /** Inserts behind the element at the place. Index 0 is the place before the first.
   *  @param {string} document
   *  @param {Cursor} place
   *  @param {any} value
   *  @returns {Promise<Id>} */
  insert = async (document, place, value) =>
    (await this.ask("insert", document, place, operand(value)))[2];

  /** @param {string} document
   *  @param {Cursor} place
   *  @returns {Promise<Id>} */
  delete = async (document, place) => (await this.ask("delete", document, place))[2];

  /** @param {string} document
   *  @param {Cursor} place
   *  @param {number | bigint} number
   *  @returns {Promise<Id>} */
  add = async (document, place, number) =>
    (await this.ask("add", document, place, checkedInteger(number)))[2];

  /** Binds a name to a place. It goes on to mean that element when the list moves.
   *  @param {string} document
   *  @param {string} name
   *  @param {Cursor} cursor */
  let = (document, name, cursor) => this.ask("let", document, name, cursor);

  /** Inserts a value, nested or not, behind the last element of the list at the cursor. Returns the
   *  element's id. What is in the value goes into that very element, as by `put`.
   *  @param {string} document
   *  @param {Cursor} cursor
   *  @param {any} value
   *  @returns {Promise<Id>} */
  append(document, cursor, value) {
    checkValue(value, depthOf(cursor) + 1);
    const key = print([document, cursor]);
    return this.#inTurn(async () => {
      const length = await lengthOf(this, document, cursor, this.#lengths.get(key) ?? 0);
      const { id, index } = await new Filling(this, document).append(cursor, value, length);
      this.#lengths.set(key, index);
      return id;
    });
  }

  /** Puts a nested value, as `plain` gives it: {} or [] first, then what is in it. Returns the ids.
   *  The whole value is checked before. Others may read it half done. An element that somebody
   *  deletes or assigns meanwhile isn't filled. A refusal ends it there.
   *
   *  A conflict isn't put: `settled` helps. A counter as an element of a list gets null beside it.
   *  `undefined` in an object or array is left out. Names that begin with "put:" are bound.
   *  @param {string} document
   *  @param {Cursor} cursor
   *  @param {any} value
   *  @returns {Promise<Id[]>} */
  async put(document, cursor, value) {
    checkValue(value, depthOf(cursor));
    return this.#inTurn(() => new Filling(this, document).put(cursor, value));
  }

  /** The names that `put` binds are those of one call at a time.
   *  @template T
   *  @param {() => Promise<T>} work
   *  @returns {Promise<T>} */
  #inTurn(work) {
    const done = this.#filling.then(work, work);
    this.#filling = done.catch(() => {});
    return done;
  }

  // ---- Readings

  /** @param {string} document @param {Cursor} cursor @returns {Promise<string[]>} */
  keys = async (document, cursor) => (await this.ask("keys", document, cursor))[0];
  /** @param {string} document @param {Cursor} cursor @returns {Promise<Scalar[]>} */
  values = async (document, cursor) => (await this.ask("values", document, cursor))[0];
  /** @param {string} document @param {Cursor} cursor @returns {Promise<[Id, Scalar[]][]>} */
  items = async (document, cursor) => (await this.ask("items", document, cursor))[0];
  /** @param {string} document @param {Cursor} cursor @returns {Promise<[Id, any][]>} */
  conflicts = async (document, cursor) => (await this.ask("conflicts", document, cursor))[0];
  /** @param {string} document @param {Cursor} cursor @returns {Promise<number | bigint>} */
  sum = async (document, cursor) => integer((await this.ask("sum", document, cursor))[0]);
  /** @param {string} document @param {Cursor} cursor @returns {Promise<any[][]>} */
  show = async (document, cursor) => (await this.ask("show", document, cursor))[0];
  /** The value at the cursor: see `plain` of wire.mjs.
   *  @param {string} document
   *  @param {Cursor} cursor
   *  @returns {Promise<any>} */
  plain = async (document, cursor) => plain(await this.show(document, cursor));

  // ---- What servers exchange

  /** Returns how many operations were logged: 0 where it is known, or held until others come.
   *  @param {string} document
   *  @param {Operation} operation
   *  @returns {Promise<number>} */
  async deliver(document, operation) {
    const reply = await this.ask("deliver", document, operation);
    return reply.length === 3 ? reply[0] : 0;
  }

  /** What the server has: a Map from each replica to its last counter.
   *  @param {string} document
   *  @returns {Promise<Map<string, number>>} */
  front = async (document) => new Map((await this.ask("front", document))[0]);

  /** In log order, the operations that the front doesn't cover: `for await (const op of ..)`. Ends
   *  also if the server repeats itself.
   *  @param {string} document
   *  @param {ReadonlyMap<string, number>} [front] */
  async *operations(document, front = new Map()) {
    const known = new Map(front);
    for (;;) {
      const [page] = await this.ask("ops", document, frontPairs(known), MOST.page);
      const before = print(frontPairs(known));
      for (const operation of page) {
        const [counter, replica] = operation[1];
        known.set(replica, Math.max(counter, known.get(replica) ?? 0));
        yield /** @type {Operation} */ (operation);
      }
      if (page.length < MOST.page || print(frontPairs(known)) === before) return;
    }
  }

  /** By which two logs are compared: for each pair of `front` the replica, the counter, and the SHA-256
   *  in hex of the lines of the replica's operations with counters above that of `after`, or 0, and at
   *  most that of `front`, in log order.
   *  @param {string} document
   *  @param {ReadonlyMap<string, number>} after
   *  @param {ReadonlyMap<string, number>} front
   *  @returns {Promise<[string, number, string][]>} */
  chains = async (document, after, front) =>
    (await this.ask("chains", document, frontPairs(after), frontPairs(front)))[0];

  /** Which of these ids of one's own operations this server doesn't have. After connecting to a
   *  server that was started again: these are lost, and have to be made again.
   *  @param {string} document
   *  @param {Id[]} ids */
  async unsaved(document, ids) {
    const front = await this.front(document);
    return ids.filter((id) => !covers(front, id));
  }

  /** At the hub: resolves once the operation of this id is in the server's file. Refused with 104,
   *  `not-kept`, if the hub can't know, and with 2 by a server, which has no such request.
   *  @param {string} document
   *  @param {Id} id
   *  @param {{ signal?: AbortSignal }} [wait] ends the wait: then the signal's reason is thrown */
  async stored(document, id, wait) {
    const signal = wait?.signal;
    signal?.throwIfAborted();
    const asked = this.ask("stored", document, id);
    await (signal ? endedBy(signal, asked) : asked);
  }

  /** @param {string} document @returns {Promise<[Id, Id[]][]>} */
  held = async (document) => (await this.ask("held", document))[0];
  /** @param {string} document @param {Id} id */
  forget = (document, id) => this.ask("forget", document, id);
  /** How many operations are logged, how many of them the server's file has (0 in `run`), and of how
   *  many replicas they are. Servers before 1.2.0 refuse it with 2.
   *  @param {string} document
   *  @returns {Promise<{ logged: number, copied: number, replicas: number }>} */
  async size(document) {
    const [logged, copied, replicas] = await this.ask("size", document);
    return { logged, copied, replicas };
  }

  /** Whether the server's file has the operation of this id now. Servers before 1.2.0 refuse it
   *  with 2. See `stored`, which waits.
   *  @param {string} document @param {Id} id @returns {Promise<boolean>} */
  copied = async (document, id) => (await this.ask("copied", document, id))[0];
  /** @param {string} document @returns {Promise<number>} */
  account = async (document) => (await this.ask("account", document))[0];
  /** @returns {Promise<number>} */
  version = async () => (await this.ask("version"))[0];

  async quit() {
    await this.ask("quit");
    this.end();
  }

  // ---- What others change and say

  /** Calls `changed(front)` now and whenever the document changed, until the connection ends or the
   *  returned function is called. The hub says when; a server is asked every so many milliseconds.
   *  Refused if the document isn't open.
   *  @param {string} document
   *  @param {Changed} changed
   *  @param {number | { every?: number, signal?: AbortSignal }} [options] a number is `every`: 500
   *    ms. The signal ends it, as `AbortSignal.timeout(ms)` does after so long
   *  @returns {Promise<() => void>} */
  async watch(document, changed, options) {
    const given = typeof options === "number" ? { every: options } : options;
    const { every = 500, signal } = given ?? {};
    signal?.throwIfAborted();
    const end = await this.#watch(document, changed, every);
    if (signal?.aborted) end();
    signal?.throwIfAborted();
    signal?.addEventListener("abort", end, { once: true });
    return () => {
      signal?.removeEventListener("abort", end);
      end();
    };
  }

  /** @param {string} document
   *  @param {Changed} changed
   *  @param {number} every
   *  @returns {Promise<() => void>} */
  async #watch(document, changed, every) {
    const add = (/** @type {Watch | undefined} */ watch) =>
      watch?.watchers.set(changed, watch.watchers.get(changed) ?? "");
    add(this.#watches.get(document)); // a push may come just behind the reply
    const front = await this.front(document);
    const watch = this.#watches.get(document) ?? this.#beginWatch(document, every);
    add(watch);
    await watch.begun;
    if (watch.watchers.get(changed) === "") this.#tell(watch, [changed], front);
    return () => this.unwatch(document, changed);
  }

  /** @param {string} document
   *  @param {Changed} changed */
  unwatch(document, changed) {
    const watch = this.#watches.get(document);
    if (!watch?.watchers.delete(changed) || watch.watchers.size > 0) return;
    this.#watches.delete(document);
    if (watch.isPushed) this.#unwatch(document);
  }

  /** Ends the pushes of fronts. Where it is followed too, operations are pushed again.
   *  @param {string} document */
  #unwatch(document) {
    const asked = this.#followings.has(document)
      ? this.ask("watch", document, "ops") : this.ask("unwatch", document);
    asked.catch(() => {}); // an older hub has no such word
  }

  /** Through the hub: calls `begins(front)` now, and then `logged(operations)` for what the document
   *  logs, own changes among it, until the connection ends or the returned function is called. A
   *  server and an older hub push no operations: then `changed(front)` is called, as by `watch`.
   *  Refused if the document isn't open.
   *  @param {string} document
   *  @param {Follower} follower
   *  @param {number} [every] as of `watch`
   *  @returns {Promise<() => void>} */
  async follow(document, follower, every = 500) {
    const following = this.#followings.get(document) ?? { followers: new Set(), isBegun: false };
    this.#followings.set(document, following); // a push may come just behind the reply
    following.followers.add(follower);
    const end = () => {
      if (!following.followers.delete(follower) || following.followers.size > 0) return false;
      return this.#followings.delete(document);
    };
    try {
      await this.ask("watch", document, "ops");
      return () => void (end() && this.ask("unwatch", document).catch(() => {}));
    } catch (refused) {
      end();
      if (!isBadRequest(refused)) throw refused;
      return this.watch(document, follower.changed, every);
    }
  }

  /** Whether the hub pushes a document's operations.
   *  @param {string} document */
  isFollowed = (document) => this.#followings.has(document);

  /** @param {string} document
   *  @param {[string, number][]} front */
  #pushFront(document, front) {
    const watch = this.#watches.get(document);
    if (watch) this.#tell(watch, watch.watchers.keys(), new Map(front));
    const following = this.#followings.get(document);
    if (!following) return;
    [following.last, following.isBegun] = [undefined, true];
    for (const { begins } of [...following.followers]) this.#run(begins, new Map(front));
  }

  /** @param {string} document
   *  @param {number} number
   *  @param {any[]} operations */
  #pushOperations(document, number, operations) {
    const watch = this.#watches.get(document);
    const tell = (/** @type {Map<string, number>} */ front) =>
      watch && this.#tell(watch, watch.watchers.keys(), front);
    if (watch) this.front(document).then(tell, () => {});
    const following = this.#followings.get(document);
    if (!following) return;
    const { last = number - 1, isBegun, followers } = following;
    following.last = number;
    const isFormed = operations.every((it) => Array.isArray(it) && isId(it[1]));
    for (const { misses, logged } of [...followers]) {
      if (!isFormed || !isBegun || number !== last + 1) this.#run(misses);
      if (isFormed) this.#run(logged, operations);
    }
  }

  /** @param {string} document
   *  @param {number} every
   *  @returns {Watch} */
  #beginWatch(document, every) {
    /** @type {Watch} */
    const watch = { watchers: new Map(), isPushed: true, begun: Promise.resolve() };
    this.#watches.set(document, watch);
    this.ping();
    watch.begun = this.ask("watch", document).then(() => {}, (refused) => {
      if (!isBadRequest(refused)) throw refused; // a server has no such word
      watch.isPushed = false;
      this.#poll(document, watch, every);
    });
    watch.begun.catch(() => this.#watches.delete(document));
    return watch;
  }

  /** @param {string} document
   *  @param {Watch} watch
   *  @param {number} every */
  async #poll(document, watch, every) {
    while (this.#watches.get(document) === watch) {
      const front = await this.front(document).catch(() => undefined);
      if (front) this.#tell(watch, watch.watchers.keys(), front);
      await pauseBy(this.#clock, every);
    }
  }

  /** Calls those of them that were last called with another front.
   *  @param {Watch} watch
   *  @param {Iterable<Changed>} watchers
   *  @param {Map<string, number>} front */
  #tell(watch, watchers, front) {
    const pairs = print(frontPairs(front));
    for (const changed of [...watchers]) {
      if ([undefined, pairs].includes(watch.watchers.get(changed))) continue; // one that has ended
      watch.watchers.set(changed, pairs);
      this.#run(changed, new Map(front));
    }
  }

  /** Through the hub: calls `heard(value, guest)` for what others `say` of the document, until the
   *  returned function is called. The hub keeps nothing of it.
   *  @param {string} document
   *  @param {Heard} heard
   *  @returns {Promise<() => void>} */
  async hear(document, heard) {
    const hearers = this.#hearers.get(document) ?? new Set();
    this.#hearers.set(document, hearers.add(heard));
    await this.ask("hear", document);
    return () => {
      if (!hearers.delete(heard) || hearers.size > 0) return;
      this.#hearers.delete(document);
      this.ask("unhear", document).catch(() => {});
    };
  }

  /** Through the hub: says a value to those who `hear` the document.
   *  @param {string} document
   *  @param {any} value */
  say = async (document, value) => void (await this.ask("say", document, value));

  /** At a hub that renews documents: the generations of one, the last of which takes changes. One of
   *  before is read as the document NAME/GENERATION, if the hub has kept it.
   *  @param {string} document
   *  @returns {Promise<[generation: string, operations: number, replicas: number][]>} */
  history = async (document) => (await this.ask("history", document))[0];

  // ---- Which documents there are, at a hub that runs their servers

  /** Makes a document. Refused with 105, `there-already`, where there is one of this name, with 103
   *  where this client may not, and with 2 by a server and by a hub that has one.
   *  @param {string} document */
  create = async (document) => void (await this.ask("create", document));

  /** The names of all documents that this client may read, in byte order. Refused with 103 where it
   *  may not ask that, and with 2 by a server and by a hub that has one.
   *  @returns {Promise<string[]>} */
  async list() {
    /** @type {string[]} */
    const names = [];
    for (let page; page === undefined || page.length === MOST.listed; ) {
      [page] = await this.ask("list", names[names.length - 1] ?? "");
      names.push(...page);
    }
    return names;
  }

  /** @param {string} line */
  #push(line) {
    const [word, ...rest] = parsedReply(line) ?? [];
    if (word === "reopened") this.#run(this.reopened, rest[0]);
    const [document, first, second] = rest;
    if (word === "renewed") this.#run(this.renewed, document, first);
    if (word === "changed" && Array.isArray(first)) this.#pushFront(document, first);
    if (word === "logged" && Array.isArray(second)) this.#pushOperations(document, first, second);
    if (word !== "heard") return;
    for (const heard of [...(this.#hearers.get(document) ?? [])]) this.#run(heard, second, first);
  }

  /** Calls what the caller gave, and reports what it throws, also later.
   *  @param {(...items: any[]) => any} callback
   *  @param {...any} items */
  #run(callback, ...items) {
    try {
      Promise.resolve(callback(...items)).catch((error) => this.failed(error));
    } catch (error) {
      this.failed(error);
    }
  }
}

/** What a promise gives, unless the signal is aborted before: then its reason is thrown.
 *  @template T
 *  @param {AbortSignal} signal
 *  @param {Promise<T>} promise
 *  @returns {Promise<T>} */
function endedBy(signal, promise) {
  return new Promise((resolve, reject) => {
    const stop = () => reject(signal.reason);
    signal.addEventListener("abort", stop, { once: true });
    promise.then(resolve, reject).finally(() => signal.removeEventListener("abort", stop));
  });
}

/** Whether the other side has no such request.
 *  @param {any} error */
const isBadRequest = (error) =>
  error instanceof Refused && error.number === REFUSALS["bad-request"];

/** @param {string} line
 *  @returns {any[] | undefined} */
function parsedReply(line) {
  try {
    const reply = parse(line);
    return Array.isArray(reply) ? reply : undefined;
  } catch {
    return undefined;
  }
}

/** What one request can assign or insert. Refused with 6, as a server would, before it is sent.
 *  @param {any} value */
function operand(value) {
  const isBare = Array.isArray(value) ? value.length === 0 : isMap(value) && isEmpty(value);
  return isBare ? bare(value) : checkedScalar(value);
}

/** @param {object} value */
const isEmpty = (value) => checkValue(value) === 1 && Object.keys(value).length === 0;

/** How many keys lead to a cursor, as far as it says.
 *  @param {Cursor} cursor */
const depthOf = (cursor) => cursor.length - 1;

const PING_SECONDS = 10;

/** @param {number | Options | undefined} options
 *  @returns {Options & { seconds: number, connectSeconds: number, most: number }} */
const settings = (options) => ({
  seconds: 60, connectSeconds: 10, most: MOST.reply, signal: undefined,
  ...(typeof options === "number" ? { seconds: options } : options),
});

/** Connects to a server or the hub at HOST:PORT, from Node, and resolves once the session has
 *  begun. Fails with `Away` if it doesn't within 10 seconds: a server with no session left accepts
 *  connections and never replies. Fails with `Refused` (103) if a hub doesn't admit this client. A
 *  request whose reply takes more than 60 seconds ends the session. A number in place of the
 *  options is its seconds.
 *  @param {string} address
 *  @param {number | Options} [options]
 *  @returns {Promise<Client>} */
export async function connected(address, options) {
  const { most, ...until } = settings(options);
  const { connect } = await import("node:net");
  const alive = { noDelay: true, keepAlive: true, keepAliveInitialDelay: 30_000 };
  const socket = connect({ ...addressParts(address), ...alive });
  // What is asked at once goes out at once, so that little comes between at the server.
  const send = (/** @type {string} */ line) => {
    if (socket.writableCorked === 0) {
      socket.cork();
      queueMicrotask(() => socket.uncork());
    }
    socket.write(`${line}\n`);
  };
  const client = new Client(send, () => socket.destroySoon(), until);
  const decoder = new TextDecoder("utf-8", { ignoreBOM: true });
  const lines = new LineCutter((line) => client.receive(decoder.decode(line)), most);
  socket.on("data", (/** @type {Uint8Array} */ bytes) => {
    try {
      lines.take(bytes);
    } catch (error) {
      client.breakOff(`${address}: ${/** @type {Error} */ (error).message}`);
      socket.destroy();
    }
  });
  socket.on("error", (/** @type {Error} */ error) => client.lose(`${address}: ${error.message}`));
  socket.on("close", () => client.lose(`${address}: the server has ended the session`));
  client.closed.then(() => socket.destroySoon());
  return begun(client, address, until, () => socket.destroy());
}

/** Connects to the hub over WebSocket, and resolves once the session has begun: see `connected`. In
 *  Node the second argument is the class of `ws`. Behind 10 seconds without a request it asks
 *  for the version, so that a hub that is frozen is noticed.
 *  @param {string | URL} url
 *  @param {any} [WebSocket]
 *  @param {Options} [options]
 *  @returns {Promise<Client>} */
export async function connectedToHub(url, WebSocket = globalThis.WebSocket, options = undefined) {
  const { most, ...until } = settings(options);
  const socket = new WebSocket(url);
  const open = new Promise((opened) => socket.addEventListener("open", () => opened(undefined)));
  const send = (/** @type {string} */ line) =>
    socket.readyState === 0 ? open.then(() => socket.send(line)) : socket.send(line);
  const client = new Client(send, () => socket.close(), until);
  socket.addEventListener("message", (/** @type {{data: any}} */ { data }) => {
    if (typeof data === "string" && data.length <= most) client.receive(data);
    else client.breakOff(`${url}: a message that is no line of at most ${most} bytes`);
  });
  socket.addEventListener("error", () => client.lose(`${url}: no connection`));
  socket.addEventListener("close", () => client.lose(`${url}: the connection has ended`));
  client.ping();
  return begun(client, String(url), until, () => socket.terminate?.());
}

/** @param {Client} client
 *  @param {string} address
 *  @param {{connectSeconds: number, signal?: AbortSignal}} until
 *  @param {() => void} destroy
 *  @returns {Promise<Client>} */
async function begun(client, address, { connectSeconds, signal }, destroy) {
  let isBegun = false;
  const end = (/** @type {string} */ cause) => {
    client.breakOff(cause);
    if (!isBegun) destroy();
  };
  const timer = setTimeout(() => end(`${address}: no session within ${connectSeconds} seconds`),
    connectSeconds * 1000);
  const stop = () => end("the program has ended the session");
  signal?.addEventListener("abort", stop, { once: true });
  client.closed.then(() => signal?.removeEventListener("abort", stop));
  if (signal?.aborted) stop();
  try {
    const reply = await client.answer('["version"]'); // the first reply shows that there is a session
    isBegun = true;
    if (!isRefusedBy(reply, "not-allowed")) return client;
    client.end();
    throw new Refused(REFUSALS["not-allowed"]);
  } catch (error) {
    if (error instanceof Refused) throw error;
    throw new Away(/** @type {Error} */ (error).message);
  } finally {
    clearTimeout(timer);
  }
}
