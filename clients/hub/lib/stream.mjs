/* The operations of one generation of a document in a Redis Stream, by which hubs exchange them.

   An entry has `hub`, who added it, and either `ops`, a page of operations as a server writes it, or
   `notice`: something is to be looked at in the directory. An operation may be there more than once, and
   a hub adds what its server has and the stream lacks. So a stream that was cut or emptied is made whole
   again by each hub that has the document open. */

import { covers, frontPairs, MOST, print, parse } from "./client_package.mjs";
import { messageOf } from "./notes.mjs";
import { RedisAway } from "./redis.mjs";

/** @typedef {import("./redis.mjs").Redis} Redis */
/** @typedef {import("../../js/wire.mjs").Operation} Operation */
/** @typedef {[id: string, fields: string[]]} Entry */
/** @typedef {(line: string) => Promise<string | undefined>} Ask Has a line answered by the server. */

/** @typedef {object} StreamOptions
 *  @property {string} key
 *  @property {string} document
 *  @property {string} hub
 *  @property {Ask} ask
 *  @property {() => Redis | undefined} redis While it can be reached.
 *  @property {(operations: Operation[]) => void} came Operations of others are at the server.
 *  @property {() => void} noticed
 *  @property {import("./notes.mjs").Note} note */

const PAGE = 200; // entries that are read at once
const AT_ONCE = 1000; // operations that are delivered before their replies are awaited
const MOST_EARLY = MOST.log; // operations that wait for others
const MOST_QUEUED = 20_000; // operations until no more entries are taken
const DELIVERED = /^\["(applied|known)"[,\]]/;

export class Stream {
  key;
  /** The entry that was read last. */
  last = "0-0";
  #options;
  #first = "";
  #count = 0;
  /** What the stream has, from the beginning of each replica's chain without a gap.
   *  @type {Map<string, number>} */
  #there = new Map();
  /** What the server has, at least.
   *  @type {Map<string, number>} */
  #has = new Map();
  /** @type {Operation[]} */
  #queue = [];
  /** @type {Operation[]} those that came before something that they depend on */
  #early = [];
  /** @type {Promise<void> | undefined} */
  #draining;
  /** @type {Promise<void> | undefined} */
  #pushing;
  /** @type {Promise<void> | undefined} */
  #beginning;
  #isStale = false;
  #isReady = false;
  #isPaused = false;
  #isEnded = false;

  /** @param {StreamOptions} options */
  constructor(options) {
    this.#options = options;
    this.key = options.key;
  }

  /** Whether entries are to be read for it. */
  get takes() {
    return this.#isReady && !this.#isEnded && this.#queue.length < MOST_QUEUED;
  }

  /** How many operations wait for others that aren't there. */
  get waiting() {
    return this.#early.length;
  }

  /** Reads the stream from its beginning, and brings both to what either has. Throws where Redis or the
   *  server can't be asked. */
  begin() {
    return (this.#beginning ??= this.#begin().finally(() => (this.#beginning = undefined)));
  }

  async #begin() {
    await this.pull();
    this.#isReady = true;
    await this.flush();
  }

  /** Brings the server to what the stream has. */
  async pull() {
    this.#isReady = false;
    await this.#draining;
    this.#forget();
    this.#has = new Map(await this.#asked(["front", this.#options.document]));
    await this.catchUp();
  }

  #forget() {
    this.last = "0-0";
    this.#first = "";
    this.#count = 0;
    this.#there.clear();
    this.#early = [];
    this.#queue = [];
  }

  /** Reads to the end of the stream, and resolves once the server has what was there. */
  async catchUp() {
    for (;;) {
      const from = this.last;
      const found = await this.#redis.ask("XREAD", "COUNT", PAGE, "STREAMS", this.key, from);
      /** @type {Entry[]} */
      const entries = found?.[0]?.[1] ?? [];
      this.take(entries, from);
      await this.#draining;
      if (entries.length < PAGE) return;
    }
  }

  get #redis() {
    const redis = this.#options.redis();
    if (!redis) throw new RedisAway("Redis can't be reached");
    return redis;
  }

  /** Takes entries that follow the last one. Others were taken already.
   *  @param {Entry[]} entries @param {string} from what they were asked for behind */
  take(entries, from) {
    if (isBehind(from, this.last)) return; // it was begun again meanwhile
    let isNoticed = false;
    for (const [id, fields] of entries) {
      if (this.#isEnded || !isBehind(id, this.last)) continue;
      this.last = id;
      this.#first ||= id;
      this.#count++;
      if (this.#isReady && fields[1] === this.#options.hub) continue; // it is known what it has
      for (let at = 0; at < fields.length; at += 2) {
        if (fields[at] === "ops") this.#takeOperations(id, fields[at + 1] ?? "");
        if (fields[at] === "notice") isNoticed = true;
      }
    }
    this.#goOn();
    if (isNoticed && this.#isReady) this.#options.noticed();
  }

  /** @param {string} id @param {string} text */
  #takeOperations(id, text) {
    try {
      /** @type {Operation[]} */
      const operations = parse(text);
      for (const operation of operations) {
        const [, [counter, replica], front] = operation;
        const before = front.find(([name]) => name === replica)?.[1] ?? 0;
        if ((this.#there.get(replica) ?? 0) === before) this.#there.set(replica, counter);
        if (!covers(this.#has, operation[1])) this.#queue.push(operation);
      }
    } catch {
      this.#options.note(`${this.key}: entry ${id} is skipped: it has no operations`);
    }
  }

  /** Resolves once nothing is being delivered. What is taken waits until it goes on. */
  async pause() {
    this.#isPaused = true;
    await this.#draining;
  }

  resume() {
    this.#isPaused = false;
    this.#goOn();
  }

  #goOn() {
    if (this.#queue.length > 0 && !this.#isPaused) this.#draining ??= this.#drain();
  }

  /** Delivers what was taken, until nothing is left that can be delivered. */
  async #drain() {
    await undefined;
    try {
      while (this.#queue.length > 0 && !this.#isPaused && !this.#isEnded) await this.#deliverSome();
    } catch (error) {
      this.#isReady = false; // what was delivered isn't known: it is begun again
      this.#queue = [];
      if (!this.#isEnded) this.#options.note(`${this.#options.document}: ${messageOf(error)}`);
    } finally {
      this.#draining = undefined;
    }
  }

  async #deliverSome() {
    const { document, ask, came } = this.#options;
    const [due, early] = this.#ready(this.#early.concat(this.#queue.splice(0, AT_ONCE)));
    this.#early = early.slice(0, MOST_EARLY);
    const begin = `["deliver",${JSON.stringify(document)},`;
    const replies = await Promise.all(due.map((operation) => ask(`${begin}${print(operation)}]`)));
    const taken = due.filter((_, at) => DELIVERED.test(replies[at] ?? ""));
    // It depends on one that was refused: held there, it would take the room of others.
    const held = due.filter((_, at) => replies[at]?.startsWith('["held",'));
    for (const it of held) await ask(print(["forget", document, it[1]]));
    this.#early.push(...held);
    for (const [, [counter, replica]] of taken) {
      this.#has.set(replica, Math.max(counter, this.#has.get(replica) ?? 0));
    }
    if (taken.length > 0) came(taken);
    const refused = replies.find((it) => it?.startsWith('["no",'));
    if (replies.includes(undefined)) throw new Error("the server didn't answer a delivery");
    if (refused) this.#options.note(`${document}: an operation of another hub is refused: ${refused}`);
  }

  /** Those whose dependencies are at the server, or among those before, and the others.
   *  @param {Operation[]} operations */
  #ready(operations) {
    const will = new Map(this.#has);
    /** @type {Operation[]} */
    const due = [];
    let rest = operations;
    for (let before = -1; before !== rest.length; ) {
      before = rest.length;
      rest = rest.filter((operation) => {
        const [, [counter, replica], front] = operation;
        if (covers(this.#has, operation[1])) return false;
        if (!front.every(([name, it]) => (will.get(name) ?? 0) >= it)) return true;
        will.set(replica, Math.max(counter, will.get(replica) ?? 0));
        due.push(operation);
        return false;
      });
    }
    return [due, rest];
  }

  // ---- What the server has goes into the stream

  /** The server has something more. */
  wake() {
    this.#isStale = true;
    if (this.#isReady) this.flush().catch(() => {}); // it is begun again once Redis is there
  }

  /** Resolves once the stream has all that the server had when this was called. */
  async flush() {
    this.#isStale = true;
    while (this.#isStale && this.#isReady && !this.#isEnded) {
      this.#pushing ??= this.#push().finally(() => (this.#pushing = undefined));
      await this.#pushing;
    }
    if (!this.#isReady) throw new RedisAway("the stream isn't known");
  }

  async #push() {
    const { document, hub, ask } = this.#options;
    this.#isStale = false;
    for (;;) {
      const front = new Map(this.#there);
      const reply = await ask(print(["ops", document, frontPairs(front), MOST.page]));
      const text = reply && /^\["ops",(.*)\]$/s.exec(reply)?.[1];
      if (!text) throw new Error(`the server doesn't hand out its operations: ${reply ?? "no reply"}`);
      /** @type {Operation[]} */
      const operations = JSON.parse(text);
      if (operations.length === 0) return;
      await this.#redis.ask("XADD", this.key, "*", "hub", hub, "ops", text);
      for (const [, [counter, replica]] of operations) {
        this.#there.set(replica, Math.max(counter, this.#there.get(replica) ?? 0));
        this.#has.set(replica, Math.max(counter, this.#has.get(replica) ?? 0));
      }
      if (operations.length < MOST.page) return;
    }
  }

  /** Has the other hubs look at the directory. */
  async notify() {
    await this.#redis.ask("XADD", this.key, "*", "hub", this.#options.hub, "notice", "look");
  }

  /** Begins anew with a stream that was cut or emptied, and with one that isn't known any more. */
  async look() {
    if (this.#isEnded) return;
    if (!this.#isReady) return this.begin();
    const [redis, from] = [this.#redis, this.last];
    redis.ask("MULTI").catch(() => {});
    const asked = [["XREAD", "COUNT", PAGE, "STREAMS", this.key, from], ["XLEN", this.key],
      ["XRANGE", this.key, "-", "+", "COUNT", 1]];
    for (const words of asked) redis.ask(...words).catch(() => {});
    const [found, length, first] = await redis.ask("EXEC");
    const entries = found?.[0]?.[1] ?? [];
    this.take(entries, from);
    if (entries.length === PAGE) return; // it isn't read to its end
    if (length === this.#count && (first[0]?.[0] ?? "") === this.#first) return;
    await this.begin();
  }

  /** @param {any[]} request @returns {Promise<any>} */
  async #asked(request) {
    const reply = await this.#options.ask(print(request));
    const [word, item] = reply === undefined ? [] : parse(reply);
    if (word !== request[0]) throw new Error(`${request[0]}: ${reply ?? "no reply"}`);
    return item;
  }

  /** Takes and adds nothing more. */
  end() {
    this.#isEnded = true;
  }
}

/** Whether an entry's id follows another one.
 *  @param {string} id @param {string} other */
function isBehind(id, other) {
  const [ms = 0, count = 0] = id.split("-").map(Number);
  const [otherMs = 0, otherCount = 0] = other.split("-").map(Number);
  return ms > otherMs || (ms === otherMs && count > otherCount);
}
