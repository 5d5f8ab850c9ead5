/* What hubs of several machines know of each other, in a Redis: which of them is home of a document and
   may renew it, who takes changes in it, and which generation follows which. DECISIONS says what holds.

     jcrdt:hubs:id                       the fleet, once an operator has founded it
     jcrdt:hubs:back                     the hubs that have put back what their folders know
     jcrdt:hubs:documents                the names of documents, a stream
     jcrdt:hubs:deleted                  the names of those that were deleted, for good
     jcrdt:hubs:home:DOC                 the hub that may renew it, until its lease ends
     jcrdt:hubs:takers:DOC               the hubs that take changes in it, and until when
     jcrdt:hubs:hold:DOC                 that it is being renewed: nobody takes changes
     jcrdt:hubs:gen:DOC:N                its Nth generation, GENERATION DIGEST: written once
     jcrdt:hubs:map:DOC:GENERATION       what that was made of; DIGEST is its SHA-256
     jcrdt:hubs:ops:DOC:GENERATION       its operations, a stream */

import { createHash, randomBytes } from "node:crypto";
import { isName, pauseBy, print } from "./client_package.mjs";
import { messageOf } from "./notes.mjs";
import { Redis, RedisAway } from "./redis.mjs";
import { SCRIPTS } from "./fleet_scripts.mjs";

/** @typedef {import("./redis.mjs").RedisAddress} RedisAddress */
/** @typedef {import("./shared_document.mjs").SharedDocument} SharedDocument */
/** @typedef {import("./folder.mjs").Folder} Folder */
/** @typedef {{ address: RedisAddress, hub: string, lease: number, folder: Folder,
 *    clock: import("../../js/clock.mjs").Clock, note: import("./notes.mjs").Note }} FleetOptions
 *    `lease` is in milliseconds */
/** @typedef {{ id: string, isBack: boolean, next: string | null, hold: string | null,
 *    home: string | null }} Look */
/** @typedef {{ generation: string, digest: string }} Decision */

const PREFIX = "jcrdt:hubs:";
const RETRY_MS = [100, 200, 500, 1000, 2000];
const WAIT_MS = 500; // that a reading of streams waits for more
const TOUCHES = 4; // in the time of a lease
const HOLD_LEASES = 3; // so long a renewal may hold changes back
const ENTRY = /^(\d{1,9}-[a-z2-7]{10}) ([0-9a-f]{64})$/;
const UNFOUNDED = "unfounded"; // an id's first word until an operator founds the fleet
const UNTIL_FOUNDED = "nothing is renewed until an operator founds it";
const OVER = "its time to be renewed was over";
const LOOK_MS = 10; // between two looks whether others take changes
const DISK_MS = 2000; // until an append-only file that is synced each second has what was written
const OLD_MS = 7 * 86_400_000; // so long the operations of an older generation stay
const NAMES = 1000; // that are read at once
const PUBLISHED = 200; // operations of an entry
const GONE_MS = 60_000; // so long there is what Redis has of a document that was deleted

/** @param {string} document */
const home = (document) => `${PREFIX}home:${document}`;
/** @param {string} document */
const takers = (document) => `${PREFIX}takers:${document}`;
/** @param {string} document */
const hold = (document) => `${PREFIX}hold:${document}`;
/** @param {string} document @param {number} number */
const gen = (document, number) => `${PREFIX}gen:${document}:${number}`;
/** @param {string} document @param {string} generation */
const map = (document, generation) => `${PREFIX}map:${document}:${generation}`;
/** The stream of a generation's operations.
 *  @param {string} document @param {string} generation */
export const ops = (document, generation) => `${PREFIX}ops:${document}:${generation}`;
const ID = `${PREFIX}id`;
const BACK = `${PREFIX}back`;
const DOCUMENTS = `${PREFIX}documents`;
const DELETED = `${PREFIX}deleted`;

/** The number of a generation.
 *  @param {string} generation */
export const numberOf = (generation) => parseInt(generation, 10);

/** @param {string} text */
export const digestOf = (text) => createHash("sha256").update(text).digest("hex");

/** @param {Decision} decision */
const entryOf = ({ generation, digest }) => `${generation} ${digest}`;

/** @param {string} entry @returns {Decision}
 *  @throws {Error} for what is none: a generation is part of a file's name */
function decisionOf(entry) {
  const [, generation = "", digest = ""] = ENTRY.exec(entry) ?? [];
  if (!generation) throw new Error("Redis has something else in place of a generation");
  return { generation, digest };
}

export class Fleet {
  /** What it is called in Redis: its name, and which start of it. */
  me;
  /** Before that nothing that Redis says now allows changes, by the clock: what another said before, or
   *  what Redis has lost, may allow others some until then. */
  notBefore = 0;
  /** Whether Redis knows the fleet that this hub is of: else it renews nothing. */
  isFounded = false;
  /** Why Redis can't be reached; empty while it can. */
  trouble = "not connected yet";
  /** Is called with the name of a document that another hub has.
   *  @type {(name: string) => Promise<unknown>} */
  named = () => Promise.resolve();
  /** Is called with the name of a document that was deleted.
   *  @type {(name: string) => Promise<unknown>} */
  gone = () => Promise.resolve();
  /** Opens a document for a moment: its operations go where others lack them.
   *  @type {(name: string) => Promise<unknown>} */
  open = () => Promise.resolve();
  #options;
  /** @type {Redis | undefined} */
  #redis;
  /** @type {Redis | undefined} */
  #reader;
  #readerId = 0;
  /** @type {Set<SharedDocument>} */
  #shared = new Set();
  /** Documents that are closed and watched, by their streams: one is opened when others change it.
   *  @type {Map<string, { document: string, last: string }>} */
  #asleep = new Map();
  #run = ""; // of the Redis
  /** @type {string | undefined} the fleet that this hub is of */
  #known;
  #seen = ""; // what Redis said last
  #isBack = false; // whether Redis has what the folder knows
  #isPutting = false;
  #namesAt = "0-0";
  #namesCount = 0;
  #deletedCount = 0;
  /** @type {Set<string>} */
  #names = new Set();
  #isStopped = false;
  #stopTicks;

  /** @param {FleetOptions} options */
  constructor(options) {
    this.#options = options;
    this.me = `${options.hub}:${randomBytes(6).toString("hex")}`;
    this.#stopTicks = options.clock.every(options.lease / TOUCHES, () => this.#tick());
    this.#keep();
  }

  get lease() {
    return this.#options.lease;
  }

  get clock() {
    return this.#options.clock;
  }

  get health() {
    const { hub } = this.#options;
    return {
      hub, connected: this.trouble === "", founded: this.isFounded,
      ...(this.trouble && { trouble: this.trouble }),
    };
  }

  /** The connection for commands, while there is one. */
  get redis() {
    return this.#redis?.over ? undefined : this.#redis;
  }

  /** @param {...(string | number)} words @returns {Promise<any>} */
  async ask(...words) {
    const { redis } = this;
    if (!redis) throw new RedisAway(`Redis can't be reached: ${this.trouble}`);
    return redis.ask(...words);
  }

  /** @param {keyof typeof SCRIPTS} name @param {string[]} keys @param {...(string | number)} words
   *  @returns {Promise<any>} */
  #script = (name, keys, ...words) => this.ask("EVAL", SCRIPTS[name], keys.length, ...keys, ...words);

  // ---- The connection

  async #keep() {
    const { clock, note, address } = this.#options;
    for (let failures = 0; !this.#isStopped; ) {
      try {
        await this.#connect();
        failures = 0;
        note(`connected with Redis ${address.name}${this.isFounded ? "" : `: ${UNTIL_FOUNDED}`}`);
        await this.#read();
      } catch (error) {
        this.trouble = messageOf(error);
        if (!this.#isStopped) note(`Redis ${address.name}: ${this.trouble}: trying again`);
      }
      this.#redis?.end();
      this.#reader?.end();
      const ms = RETRY_MS[Math.min(failures++, RETRY_MS.length - 1)] ?? 0;
      if (!this.#isStopped) await pauseBy(clock, ms);
    }
  }

  async #connect() {
    const { clock, address, lease } = this.#options;
    const redis = await Redis.connected(address, Math.max(1000, lease / 2), clock);
    this.#redis = redis;
    this.#reader = await Redis.connected(address, Math.max(2000, lease / 2) + WAIT_MS, clock);
    this.#readerId = await this.#reader.ask("CLIENT", "ID");
    const info = await redis.ask("INFO", "server");
    this.#run = /run_id:(\w+)/.exec(info)?.[1] ?? "";
    const upMs = Number(/uptime_in_seconds:(\d+)/.exec(info)?.[1] ?? 0) * 1000;
    // What this Redis said before it started again may be lost, and allow others changes for a lease.
    if (upMs < lease + 1000) this.#waitALease();
    if (this.#known === undefined) this.#known = await this.#options.folder.fleet();
    this.trouble = "";
    await this.#readDeleted();
    this.learn(await this.#id());
    await this.#readNames();
    for (const it of this.#shared) it.connected();
  }

  /** What Redis says is the fleet's id. One that has none gets one, so that it is seen when it is lost.
   *  @returns {Promise<string>} */
  async #id() {
    await this.ask("SET", ID, `${UNFOUNDED} ${randomBytes(8).toString("hex")}`, "NX");
    return this.ask("GET", ID);
  }

  #waitALease() {
    this.notBefore = this.clock.now() + this.lease;
  }

  /** Reads the streams of all documents that are open, and of names, until the connection ends. */
  async #read() {
    for (;;) {
      const reader = /** @type {Redis} */ (this.#reader);
      const streams = [...this.#shared].map(({ stream }) => stream).filter((it) => it.takes);
      const from = new Map(streams.map(({ key, last }) => [key, last]));
      for (const [key, { last }] of this.#asleep) from.set(key, last);
      const found = await reader.ask("XREAD", "COUNT", 100, "BLOCK", WAIT_MS, "STREAMS",
        DOCUMENTS, ...from.keys(), this.#namesAt, ...from.values());
      for (const [key, entries] of found ?? []) {
        const stream = streams.find((it) => it.key === key);
        if (stream) stream.take(entries, from.get(key) ?? "");
        else if (key === DOCUMENTS) this.#takeNames(entries);
        else this.#wake(key);
      }
      if (this.#redis?.over) throw new RedisAway(await this.#redis.closed);
    }
  }

  /** @param {string} key of a stream */
  #wake(key) {
    const asleep = this.#asleep.get(key);
    this.#asleep.delete(key);
    if (asleep) this.open(asleep.document).catch(() => {});
  }

  /** Has the reading look at other streams than before. */
  async #readOthers() {
    await this.ask("CLIENT", "UNBLOCK", this.#readerId).catch(() => {});
  }

  #tick() {
    if (!this.redis) return;
    for (const it of this.#shared) it.touch();
    this.#id().then((id) => this.learn(id), () => {});
    this.ask("XLEN", DOCUMENTS).then((count) => {
      if (count < this.#namesCount) return this.#readNames();
    }).catch(() => {});
    this.ask("SCARD", DELETED).then((count) => {
      if (count !== this.#deletedCount) return this.#readDeleted();
    }).catch(() => {});
  }

  stop() {
    this.#isStopped = true;
    this.#stopTicks();
    this.#redis?.end();
    this.#reader?.end();
  }

  // ---- The fleet, and its documents

  /** Whether an id is that of the fleet that this hub is of. One with the run of a Redis that keeps
   *  nothing on disk ends with that run.
   *  @param {string | null} id */
  #isOurs(id) {
    const [name, run] = (id ?? "").split(" ");
    return name !== "" && name === this.#known && (run === "-" || run === this.#run);
  }

  /** Takes note of what Redis says is the fleet's id. Where it has lost that, it may have lost anything.
   *  @param {string} id */
  learn(id) {
    const isOurs = this.#isOurs(id);
    const isOther = id !== this.#seen && !isOurs;
    if (isOther) {
      if (this.isFounded) this.#options.note(`Redis has lost the fleet: ${UNTIL_FOUNDED}`);
      this.#waitALease();
      for (const it of this.#shared) it.forgetRight();
      this.#isBack = false;
    }
    this.#seen = id;
    this.isFounded = isOurs;
    if (!isOurs) this.#putAllBack(id).catch((error) => this.#options.note(messageOf(error)));
  }

  /** Puts back into Redis what the folder knows, and takes a fleet for its own that was founded since.
   *  @param {string} id */
  async #putAllBack(id) {
    if (this.#isPutting) return;
    this.#isPutting = true;
    try {
      const isNew = !this.#isBack;
      if (isNew) await this.#putBack();
      this.#isBack = true;
      const [name = UNFOUNDED, run] = id.split(" ");
      const isOfNow = name !== UNFOUNDED && (run === "-" || run === this.#run);
      if (isOfNow && (await this.ask("GET", ID)) === id) {
        await this.#options.folder.joinFleet(name);
        this.#known = name;
        this.isFounded = true;
        this.#options.note("the fleet is founded: documents are renewed");
      }
      if (isNew) this.#openAll().catch(() => {});
    } finally {
      this.#isPutting = false;
    }
  }

  async #putBack() {
    const { folder, hub } = this.#options;
    await this.#readDeleted();
    for (const name of [...folder.names]) {
      const record = await folder.record(name).catch(() => undefined);
      if (record) await this.putBack(name, record);
    }
    await this.ask("SADD", BACK, hub);
  }

  /** Opens each document once, so that Redis has what only this hub has. */
  async #openAll() {
    for (const name of [...this.#options.folder.names]) {
      if (this.#isStopped || !this.redis) return;
      await this.open(name);
    }
  }

  /** Puts the generations of a document back that Redis lacks, and what they were made of.
   *  @param {string} document @param {import("./folder.mjs").Record} record */
  async putBack(document, { generation, history }) {
    for (const it of [...history.map((past) => past.generation), generation]) {
      if (numberOf(it) === 1) continue;
      const text = await this.#options.folder.mapText(document, it);
      const entry = entryOf({ generation: it, digest: digestOf(text) });
      await this.ask("SET", map(document, it), text, "NX");
      await this.ask("SET", gen(document, numberOf(it)), entry, "NX");
    }
  }

  /** Founds the fleet: from then on its documents are renewed. An operator says which hubs it has: each
   *  of them has put back what its folder knows, so that no generation is made that there is already.
   *  @param {string[]} hubs */
  async found(hubs) {
    const back = new Set(await this.ask("SMEMBERS", BACK));
    const missing = hubs.filter((it) => !back.has(it));
    if (missing.length > 0) {
      throw new Error(`not connected since Redis lost the fleet: ${missing.join(", ")}`);
    }
    const isOnDisk = /aof_enabled:1/.test(await this.ask("INFO", "persistence"));
    if (!isOnDisk) {
      this.#options.note("Redis keeps nothing on disk (appendonly no): whenever it has started again, "
        + "the fleet is to be founded again");
    }
    const id = `${randomBytes(8).toString("hex")} ${isOnDisk ? "-" : this.#run}`;
    await this.ask("SET", ID, id);
    this.learn(id);
  }

  async #readNames() {
    this.#namesAt = "0-0";
    this.#namesCount = 0;
    this.#names.clear();
    for (;;) {
      const found = await this.ask("XREAD", "COUNT", NAMES, "STREAMS", DOCUMENTS, this.#namesAt);
      const entries = found?.[0]?.[1] ?? [];
      this.#takeNames(entries);
      if (entries.length < NAMES) break;
    }
    for (const name of this.#options.folder.names) await this.announce(name);
  }

  /** @param {import("./stream.mjs").Entry[]} entries */
  #takeNames(entries) {
    for (const [id, [, name = ""]] of entries) {
      this.#namesAt = id;
      this.#namesCount++;
      this.#names.add(name);
      const { names, deleted } = this.#options.folder;
      if (!names.has(name) && !deleted.has(name)) this.named(name).catch(() => {});
    }
  }

  /** Lets others know which documents this hub knows to be deleted, and learns of the others. */
  async #readDeleted() {
    const known = [...this.#options.folder.deleted];
    for (let at = 0; at < known.length; at += NAMES) {
      await this.ask("SADD", DELETED, ...known.slice(at, at + NAMES));
    }
    const names = await this.ask("SMEMBERS", DELETED);
    let isWhole = true;
    for (const name of names) {
      await this.#takeDeleted(name).catch((error) => {
        isWhole = false;
        this.#options.note(`${name} was deleted, and can't be put into the bin: ${messageOf(error)}`);
      });
    }
    this.#deletedCount = isWhole ? names.length : -1;
  }

  /** @param {string} name */
  async #takeDeleted(name) {
    const { names, deleted } = this.#options.folder;
    if (isName(name) && (names.has(name) || !deleted.has(name))) await this.gone(name);
  }

  /** Deletes a document for good. Nobody takes changes in it by then.
   *  @param {string} document @param {string} token of the hold @param {string[]} generations */
  async remove(document, token, generations) {
    const id = await this.ask("GET", ID);
    if (!this.#isOurs(id)) throw new Error("Redis doesn't know the fleet any more");
    const isDone = await this.#script("remove", [ID, hold(document), DELETED], id, token, document);
    if (isDone !== 1) throw new Error(OVER);
    for (const it of generations) {
      const keys = [ops(document, it), map(document, it), gen(document, numberOf(it))];
      for (const key of keys) await this.ask("PEXPIRE", key, GONE_MS).catch(() => {});
    }
  }

  /** A document isn't opened any more when others change it.
   *  @param {string} document */
  forget(document) {
    for (const [key, it] of this.#asleep) if (it.document === document) this.#asleep.delete(key);
  }

  /** Lets other hubs know of a document.
   *  @param {string} name */
  async announce(name) {
    if (this.#names.has(name) || this.#options.folder.deleted.has(name) || !this.redis) return;
    this.#names.add(name);
    await this.ask("XADD", DOCUMENTS, "*", "name", name);
  }

  /** @param {SharedDocument} shared */
  async share(shared) {
    this.#shared.add(shared);
    this.#asleep.delete(shared.stream.key);
    await this.#readOthers();
  }

  /** @param {SharedDocument} shared */
  unshare(shared) {
    this.#shared.delete(shared);
  }

  /** Has a document opened that is closed when others change it.
   *  @param {string} document @param {import("./stream.mjs").Stream} stream */
  sleep(document, { key, last }) {
    this.#asleep.set(key, { document, last });
  }

  // ---- The directory

  /** Asks for the right to take changes in a generation of a document, for the time of a lease.
   *  @param {string} document @param {Decision} own
   *  @returns {Promise<Look>}
   *  @throws {Error} where the fleet has another generation of this number */
  async look(document, { generation, digest }) {
    const number = numberOf(generation);
    const own = number === 1 ? "" : entryOf({ generation, digest });
    const keys = [ID, home(document), takers(document), hold(document), gen(document, number),
      gen(document, number + 1), DELETED];
    const [word, ...rest] = await this.#script("look", keys, this.me, this.lease, own, document);
    if (word === "deleted") {
      this.#takeDeleted(document).catch((error) => this.#options.note(messageOf(error)));
      throw new Error("it was deleted");
    }
    if (word === "other") {
      const theirs = decisionOf(rest[0]).generation;
      throw new OtherGeneration(`the fleet has ${theirs} of it, and this hub ${generation}`);
    }
    const [id, isBack, next, held, at] = rest;
    return { id, isBack: isBack === 1, next: next || null, hold: held || null, home: at || null };
  }

  /** Takes no changes in a document any more.
   *  @param {string} document */
  leave = (document) => this.#script("leave", [home(document), takers(document)], this.me);

  /** Has nobody take changes in a document. Returns the hold's token.
   *  @param {string} document @param {string} does what only its home does
   *  @returns {Promise<string>} */
  async hold(document, does) {
    const token = `${this.me}:${randomBytes(6).toString("hex")}`;
    const ms = HOLD_LEASES * this.lease;
    const id = await this.ask("GET", ID);
    if (!this.#isOurs(id)) throw new Error(`Redis doesn't know the fleet: ${UNTIL_FOUNDED}`);
    const keys = [ID, home(document), hold(document)];
    const [isHeld, at] = await this.#script("hold", keys, this.me, id, token, ms);
    const [name] = String(at || "no hub").split(":");
    if (isHeld !== 1) throw new Error(`${name} is its home and ${does} it`);
    return token;
  }

  /** Resolves once no other hub takes changes in a document: each has said so, or its lease is over.
   *  @param {string} document @param {string} token of the hold */
  async untaken(document, token) {
    for (;;) {
      const count = await this.#script("takers", [takers(document), hold(document)], this.me, token);
      if (count === 0) return;
      if (count < 0) throw new Error(OVER);
      await pauseBy(this.clock, LOOK_MS);
    }
  }

  /** Lets others take changes again.
   *  @param {string} document @param {string} token */
  release = (document, token) => this.#script("release", [hold(document)], token);

  /** Decides which generation follows: the first that is written. Returns the one that was.
   *  @param {string} document @param {string} token of the hold
   *  @param {Decision} decision
   *  @returns {Promise<Decision>} */
  async decide(document, token, decision) {
    const entry = entryOf(decision);
    const key = gen(document, numberOf(decision.generation));
    const id = await this.ask("GET", ID);
    if (!this.#isOurs(id)) throw new Error("Redis doesn't know the fleet any more");
    const keys = [ID, hold(document), key];
    const decided = await this.#script("decide", keys, id, token, entry);
    if (!decided) throw new Error(OVER);
    if (decided !== entry) return decisionOf(decided);
    const isOnDisk = /aof_enabled:1/.test(await this.ask("INFO", "persistence"));
    if (isOnDisk) await pauseBy(this.clock, DISK_MS);
    if ((await this.ask("GET", key)) !== entry) throw new Error("Redis has lost the next generation");
    return decision;
  }

  /** Lets others have what a generation was made of, before it is decided.
   *  @param {string} document @param {string} generation
   *  @param {string} text of the map @param {import("./renewal.mjs").Operation[]} operations */
  async publish(document, generation, text, operations) {
    const asked = [this.ask("SET", map(document, generation), text)];
    const key = ops(document, generation);
    for (let at = 0; at < operations.length; at += PUBLISHED) {
      const page = print(operations.slice(at, at + PUBLISHED));
      asked.push(this.ask("XADD", key, "*", "hub", this.me, "ops", page));
    }
    await Promise.all(asked);
  }

  /** Takes back what was published for a generation that another one came before.
   *  @param {string} document @param {string} generation */
  withdraw = (document, generation) =>
    this.ask("DEL", map(document, generation), ops(document, generation));

  /** An older generation's operations aren't needed for long.
   *  @param {string} document @param {string} generation */
  expire = (document, generation) => this.ask("PEXPIRE", ops(document, generation), OLD_MS);

  /** The generations behind one, as they were decided.
   *  @param {string} document @param {string} generation
   *  @returns {Promise<Decision[]>} */
  async later(document, generation) {
    const found = [];
    for (let number = numberOf(generation) + 1; ; number++) {
      const entry = await this.ask("GET", gen(document, number));
      if (!entry) return found;
      found.push(decisionOf(entry));
    }
  }

  /** The map of a generation. Throws where Redis hasn't got it, or another one.
   *  @param {string} document @param {Decision} decision
   *  @returns {Promise<string>} */
  async mapText(document, { generation, digest }) {
    const text = await this.ask("GET", map(document, generation));
    if (text === null || digestOf(text) !== digest) {
      throw new Error(`Redis hasn't got what generation ${generation} was made of`);
    }
    return text;
  }
}

/** The fleet has another generation of a number than this hub's folder. */
export class OtherGeneration extends Error {
  name = "OtherGeneration";
}
