/* The documents of a hub that runs their servers: each has a server of its own, which is started when
   the document is used, and ends when nobody has used it for a while, or when others need its room. */

import { isName, MOST, pauseBy, refusalLine, REQUESTS } from "./client_package.mjs";
import { digestOf, numberOf, ops } from "./fleet.mjs";
import { NoDocument } from "./folder.mjs";
import {
  contentOf, isFirstMaker, isMaker, makerOf, MOST_CONTENT, nextGeneration, TooLarge,
} from "./generation.mjs";
import { Holding, Renewals } from "./holding.mjs";
import { messageOf } from "./notes.mjs";
import { OpenDocument } from "./open_document.mjs";
import { asks, splitName } from "./requests.mjs";
import { SharedDocument } from "./shared_document.mjs";
import { takeOver } from "./takeover.mjs";

/** @typedef {import("./pool.mjs").Pool} Pool */
/** @typedef {import("./rights.mjs").Rights} Rights */
/** @typedef {import("./state.mjs").Places} Places */
/** @typedef {import("./folder.mjs").Record} Record */
/** @typedef {import("./renewal.mjs").Operation} Operation */
/** @typedef {{ program: string, open: number, closeAfter: number, documents: number,
 *    renewAt: number, keepGenerations: number,
 *    sessions: Omit<import("./open_document.mjs").Sessions, "note">,
 *    atStep?: (step: string) => void,
 *    fleet?: import("./fleet.mjs").Fleet,
 *    note: import("./notes.mjs").Note }} ShelfOptions `closeAfter` is in milliseconds */

const TICK_MS = 1000;
const SPARE = 0.05; // of the room for servers, so that who opens a document needn't wait for it
const PAST_MS = 5000; // so long the server of a generation of before runs that nobody uses
const ROOM_MS = 15_000; // so long a request waits for room for a server
const FAILED_MS = 1000; // so long a document isn't tried again that couldn't be opened
const VERSION = '["version",2]';
const RENEW_REPLICAS = 200; // from so many on a document is renewed
const AGAIN_MS = 60_000; // so long a document isn't renewed again that couldn't be
const HOLD_MS = 10_000; // so long a renewal waits until nobody uses the document
const GROWTH = 1.5; // of what a generation began with: before that it isn't renewed
const TOO_LARGE_MS = 3_600_000; // the same of one that shows too much for it
const WARN_CONTENT = Math.floor(MOST_CONTENT * 2 / 3);
const LOOK_EACH = 5000; // operations until it is looked again how much a document shows
const ADVICE = "Divide it, or keep its texts as lines in place of characters";

const RIGHT_MS = 5000; // so long a change waits until it may be taken
const FOLLOW_MS = 1000; // until another generation is tried again that couldn't be taken over

// Requests with a front, by which a generation is known.
const FRONTED = ["ops", "page", "chains"];
const RENEWED = refusalLine("renewed");
const UNKNOWN = refusalLine("server-lost");

/** Whether a front is of the generation that a replica began, or of the first one, which none began.
 *  @param {any} front @param {string | undefined} maker */
function isBehind(front, maker) {
  const makers = (Array.isArray(front) ? front : []).map((pair) => pair?.[0])
    .filter((name) => isFirstMaker(name));
  return makers.length === (maker ? 1 : 0) && makers[0] === maker;
}

/** @implements {Places} */
export class Shelf {
  /** The folder that it is of. */
  folder;
  /** How many servers it has started. */
  started = 0;
  renewals = new Renewals();
  /** Is called before a document goes, or gets another name.
   *  @type {(document: string) => void} */
  leaves = () => {};
  /** Says whether clients watch a document.
   *  @type {(document: string) => boolean} */
  isWatched = () => false;
  /** Is called when operations of other hubs are there.
   *  @type {(document: string) => void} */
  came = () => {};
  /** Is called when a document goes on in another generation.
   *  @type {(document: string, generation: string) => void} */
  renewed = () => {};
  #options;
  #clock;
  #since = new Date();
  /** @type {Map<string, OpenDocument>} those whose servers begin, run or end */
  #documents = new Map();
  /** @type {Map<string, { at: number, cause: string }>} documents that couldn't be opened */
  #failed = new Map();
  #taken = 0; // room for servers
  /** @type {((hasRoom: boolean) => void)[]} who waits for room */
  #waiting = [];
  /** @type {Set<string>} documents that nobody may use now */
  #shut = new Set();
  /** @type {Set<string>} names that documents are getting */
  #reserved = new Set();
  /** @type {Map<string, Promise<string | undefined>>} documents that go into the bin for good */
  #burying = new Map();
  /** @type {Map<string, Promise<void>>} documents that are renewed: who uses them waits */
  #renewing = new Map();
  /** @type {Map<string, Promise<Record>>} documents whose next generation is made */
  #making = new Map();
  /** @type {Map<string, Record>} of documents that were opened */
  #records = new Map();
  /** @type {Map<string, number>} when a document is renewed at the earliest */
  #notBefore = new Map();
  /** @type {Map<string, number>} from how many operations on it is looked how much a document shows */
  #lookAt = new Map();
  /** @type {Map<string, SharedDocument>} as other hubs have them, by the documents' names */
  #shared = new Map();
  /** @type {Map<string, Promise<string | undefined>>} documents whose later generation is taken over */
  #taking = new Map();
  #isStopped = false;
  #stopTicks;

  /** @param {import("./folder.mjs").Folder} folder @param {ShelfOptions} options */
  constructor(folder, options) {
    this.folder = folder;
    this.#options = options;
    const { fleet } = options;
    if (fleet) fleet.named = (name) => this.create(name);
    if (fleet) fleet.gone = (name) => this.#bury(name);
    if (fleet) fleet.open = (name) => this.use(name, async () => "");
    this.#clock = options.sessions.clock;
    this.#stopTicks = this.#clock.every(TICK_MS, () => this.#closeIdle());
  }

  // ---- What a hub asks of where its documents are

  get pools() {
    return [...this.#documents.values()].flatMap(({ pool, isClosing }) =>
      (pool && !isClosing ? [pool] : []));
  }

  version = VERSION;

  get health() {
    const { pools, trouble } = this;
    const { fleet } = this.#options;
    const isWell = this.#failed.size === 0 || pools.length > 0;
    const count = (/** @type {(pool: Pool) => number} */ of) =>
      pools.reduce((sum, pool) => sum + of(pool), 0);
    return {
      connected: isWell,
      since: this.#since.toISOString(),
      sessions: {
        got: count(({ links }) => links.length), wanted: count(({ sessions }) => sessions.length),
      },
      documents: { all: this.folder.names.size, open: this.#documents.size },
      ...(fleet && { fleet: fleet.health }),
      ...(trouble && { trouble }),
    };
  }

  /** How many documents can't be opened. */
  get failing() {
    return this.#failed.size;
  }

  /** Which documents can't be opened, and why; empty while all can. */
  get trouble() {
    return [...this.#failed].map(([name, { cause }]) => `${name}: ${cause}`).slice(-3).join("; ");
  }

  /** A request of another generation is refused, as it is known only now which one it goes to.
   *  @param {string} document @param {(pool: Pool) => Promise<string>} work
   *  @param {any[]} [request] */
  async use(document, work, request) {
    for (const end = this.#clock.now() + RIGHT_MS; ; ) {
      const found = await this.#opened(document);
      if (!found?.pool) return undefined;
      const { pool } = found;
      const shared = request && asks.changes(request[0]) ? this.#shared.get(document) : undefined;
      try {
        if (request && !this.#isOfNow(document, request)) return RENEWED;
        if (!shared) return await work(pool);
        if (shared.mayChange) return await shared.change(() => work(pool), UNKNOWN);
      } finally {
        found.uses--;
        found.usedAt = this.#clock.now();
        if (this.#waiting.length > 0) this.#makeRoom();
      }
      if (!(await shared.allowed(end - this.#clock.now()))) return undefined;
    }
  }

  /** Whether a request is of the generation that a document has now. One that delivers is if its
   *  operation knows of the generation's beginning, and one that asks for operations or for chains if
   *  its front does, or is empty: else operations of two generations would be mixed.
   *  @param {string} document @param {any[]} request */
  #isOfNow(document, [word, , first, second]) {
    const item = word === "chains" ? second : first;
    const record = this.#records.get(document);
    if (!record || !Array.isArray(item)) return true; // one of before, which is only read; or no request
    const maker = makerOf(record.generation);
    if (word === "deliver") {
      const replica = item[1]?.[1];
      return isMaker(replica) ? replica.startsWith(`gen${record.generation}-`)
        : isBehind(item[2], maker);
    }
    return !FRONTED.includes(word) || item.length === 0 || isBehind(item, maker);
  }

  /** @param {string} document */
  watching = (document) => this.#documents.get(document)?.pool?.watching;

  /** Ends all servers. */
  async stop() {
    this.#isStopped = true;
    this.#stopTicks();
    for (const resume of this.#waiting.splice(0)) resume(false);
    await Promise.allSettled(this.#making.values());
    await Promise.all([...this.#documents.values()].map((it) => this.#end(it)));
    await Promise.allSettled(this.#renewing.values());
    this.#options.fleet?.stop();
    this.folder.close();
  }

  // ---- Which documents there are

  /** Why a request isn't for a server; `undefined` where it is. The document is made, if it is opened,
   *  isn't there, and may be made by who asks.
   *  @param {any[]} request that names a document @param {Rights} rights
   *  @returns {Promise<Parameters<typeof import("../../js/protocol.mjs").refusalLine>[0] | undefined>} */
  async refusalOf([word, document, ...items], rights) {
    if (!REQUESTS.has(word)) return "bad-request";
    if (this.folder.names.has(document)) return undefined;
    if (document.includes("/")) return (await this.#isKept(document)) ? undefined : "no-such-document";
    if (this.isGone(document)) return "no-such-document";
    if (word === "open" && items.length > 0) return "bad-request";
    if (word !== "open" || !isName(document) || !rights.mayCreate(document)) {
      return "no-such-document";
    }
    return this.create(document).then((isMade) => (isMade === undefined ? "server-away" : undefined));
  }

  /** Founds the fleet: see `Fleet`.
   *  @param {string[]} hubs */
  async found(hubs) {
    const { fleet } = this.#options;
    if (!fleet) throw new Error("this hub has no --redis");
    await fleet.found(hubs);
  }

  /** @param {string} document also one of before: NAME/GENERATION */
  isThere = async (document) => this.folder.names.has(document) || this.#isKept(document);

  /** Whether it names a generation of a document that takes no changes any more, and is kept.
   *  @param {string} document */
  async #isKept(document) {
    const [name, generation] = splitName(document);
    if (!this.folder.names.has(name)) return false;
    const { history } = await this.folder.record(name);
    return history.some((it) => it.generation === generation && !it.isGone);
  }

  /** Makes a document. Resolves false where there is one of this name, and `undefined` where none can
   *  be made, which is noted.
   *  @param {string} document */
  async create(document) {
    const { documents, note } = this.#options;
    try {
      if (this.folder.names.has(document)) return false;
      this.checkName(document);
      if (this.folder.names.size >= documents) throw new Error(`there are ${documents} documents`);
      const isMade = await this.folder.create(document);
      this.announce(document);
      return isMade;
    } catch (error) {
      note(`${document} can't be made: ${messageOf(error)}`);
      return undefined;
    }
  }

  /** Lets other hubs know of a document: now, or when Redis can be reached again.
   *  @param {string} document */
  announce(document) {
    this.#options.fleet?.announce(document).catch(() => {});
  }

  /** Lets other hubs know of a document, and have what it shows: it is opened for that.
   *  @param {string} document */
  async offer(document) {
    if (!this.#options.fleet) return;
    this.announce(document);
    await this.use(document, async () => "").catch(() => {}); // else they get it once somebody opens it
  }

  /** The names of documents behind another one, in the order of their bytes.
   *  @param {string} [after]
   *  @returns {string[]} */
  names = (after = "") => [...this.folder.names].filter((it) => it > after).sort();

  /** The documents whose servers run, or begin or end. */
  get openNames() {
    return [...this.#documents.keys()];
  }

  /** How large the documents are whose servers run, as far as it is known. */
  get sizes() {
    return [...this.#documents].filter(([name]) => isName(name))
      .map(([name, { operations, replicas }]) => ({ name, operations, replicas: replicas.size }));
  }

  /** Whether a document's server runs, or begins to.
   *  @param {string} document */
  isOpen = (document) => this.#documents.has(document);

  /** Whether the hubs that share documents have deleted one of this name.
   *  @param {string} name */
  isGone = (name) => this.#options.fleet !== undefined && this.folder.deleted.has(name);

  /** Throws where a document can't get this name now.
   *  @param {string} name */
  checkName(name) {
    if (this.isGone(name)) {
      throw new NoDocument(`${name} was deleted at all hubs that share it: its name isn't used again`);
    }
    if (this.#reserved.has(name)) throw new NoDocument(`there is a document ${name}`);
  }

  /** @param {string} document @param {string} other */
  async rename(document, other) {
    if (this.#options.fleet) {
      throw new NoDocument(`${document} keeps its name: a hub that shares it may be away, and make ${other}`);
    }
    this.folder.checkFree(other); // before anybody is dropped
    this.checkName(other);
    this.#reserved.add(other);
    try {
      await this.#without(document, () => this.folder.rename(document, other));
    } finally {
      this.#reserved.delete(other);
    }
  }

  /** Puts a document into the bin, and resolves what it is called there. Hubs that share it all do, for
   *  good.
   *  @param {string} document
   *  @returns {Promise<string>} */
  remove(document) {
    const { fleet } = this.#options;
    return fleet ? this.#removeAtAll(document) : this.#without(document, () => this.folder.remove(document));
  }

  /** Deletes a document at all hubs that share it, where this one is home of it.
   *  @param {string} document */
  async #removeAtAll(document) {
    if (!this.folder.names.has(document)) throw new NoDocument(`there is no document ${document}`);
    const open = await this.#opened(document);
    const [shared, record] = [this.#shared.get(document), this.#records.get(document)];
    try {
      if (!open || !shared || !record) throw new Error(`${document} can't be opened`);
      if (this.#making.has(document)) throw new Error(`${document} is being renewed`);
      await shared.gather("deletes");
      await shared.remove([...record.history, record].map(({ generation }) => generation));
      this.#options.atStep?.("removed");
      return (await this.#bury(document)) ?? document;
    } finally {
      if (open) open.uses--;
      await shared?.release().catch(() => {}); // it ends by itself
    }
  }

  /** Puts a document into the bin that was deleted at all hubs.
   *  @param {string} document */
  #bury(document) {
    const burying = this.#burying.get(document)
      ?? this.#buried(document).finally(() => this.#burying.delete(document));
    this.#burying.set(document, burying);
    return burying;
  }

  /** @param {string} document */
  async #buried(document) {
    const { folder } = this;
    if (!folder.names.has(document)) return folder.removeForGood(document);
    const entry = await this.#without(document, () => folder.removeForGood(document));
    this.#options.note(`${document} was deleted: it is in the bin, as ${entry}`);
    return entry;
  }

  /** Does something while nobody uses a document, and no server has it.
   *  @template T
   *  @param {string} document @param {() => Promise<T>} work
   *  @returns {Promise<T>} */
  async #without(document, work) {
    if (!this.folder.names.has(document)) throw new NoDocument(`there is no document ${document}`);
    if (this.#shut.has(document)) throw new NoDocument(`${document} is being changed`);
    this.#shut.add(document);
    try {
      this.leaves(document);
      for (const it of [this.#making, this.#taking, this.#renewing]) {
        await it.get(document)?.catch(() => {});
      }
      await this.#forgetShared(document);
      for (const [name, open] of [...this.#documents]) {
        if (splitName(name)[0] === document) await this.#end(open);
      }
      this.#failed.delete(document);
      this.#records.delete(document);
      return await work();
    } finally {
      this.#shut.delete(document);
    }
  }

  /** What is deleted isn't given to others any more.
   *  @param {string} document */
  async #forgetShared(document) {
    await this.#unshare(document, true);
    this.#options.fleet?.forget(document);
  }

  // ---- Servers

  /** The document, whose use has begun; `undefined` where it can't be used.
   *  @param {string} document */
  async #opened(document) {
    for (;;) {
      // It may be held back again by the time that it goes on.
      while (this.#renewing.has(document)) await this.#renewing.get(document);
      const [name] = splitName(document);
      const isThere = this.folder.names.has(name) && !this.#shut.has(name);
      if (!isThere || this.#isStopped) return undefined;
      const found = this.#documents.get(document) ?? (await this.#begun(document));
      if (!found) return undefined;
      if (found.isClosing) {
        await found.closed;
        continue;
      }
      found.uses++;
      if (await found.opening) return found;
      found.uses--;
      return undefined;
    }
  }

  /** The document, whose server begins.
   *  @param {string} document */
  async #begun(document) {
    const failedAt = this.#failed.get(document)?.at ?? -Infinity;
    if (this.#clock.now() - failedAt < FAILED_MS) return undefined;
    const [name, past] = splitName(document);
    if (past === undefined && !this.#documents.has(document)) await this.#takenOver(document);
    const record = await this.folder.record(name).catch((error) => this.#fail(document, error));
    if (!record) return undefined;
    if (past === undefined) await this.folder.tidy(name, record).catch(() => {});
    const there = this.#documents.get(document);
    if (there || this.#isStopped || this.#shut.has(name)) return there;
    const begun = this.#openOf(document, name, record, past ?? record.generation);
    if (past === undefined) this.#records.set(document, record);
    this.#documents.set(document, begun);
    begun.opening = this.#isOpening(document, begun);
    return begun;
  }

  // ---- What hubs of several machines share

  /** Shares a document whose server listens, where the hub is of a fleet.
   *  @param {string} document @param {OpenDocument} open @param {Record} record */
  async #share(document, open, record) {
    const { fleet, note } = this.#options;
    if (!fleet) return;
    const { generation } = record;
    const isFirst = numberOf(generation) === 1;
    const digest = isFirst ? "" : digestOf(await this.folder.mapText(document, generation));
    const shared = new SharedDocument(fleet, {
      document, key: ops(document, generation), decision: { generation, digest }, note,
      ask: (line) => open.ask(document, line),
      came: (operations) => {
        open.noteSize(open.operations + operations.length, operations.map((it) => it[1][1]));
        this.came(document);
      },
      followed: () => void this.#follow(document).catch((error) => note(messageOf(error))),
      putBack: () => fleet.putBack(document, record),
    });
    this.#shared.set(document, shared);
    await shared.begin();
  }

  /** Others don't see changes of this hub any more, but for those before.
   *  @param {string} document @param {boolean} [isHomeStill] */
  async #unshare(document, isHomeStill) {
    const shared = this.#shared.get(document);
    await shared?.end(isHomeStill);
    const isAsleep = shared && !isHomeStill && this.isWatched(document);
    if (isAsleep) this.#options.fleet?.sleep(document, shared.stream);
    if (this.#shared.get(document) === shared) this.#shared.delete(document);
  }

  /** Goes on in a later generation of a document, which another hub has made. Who uses it waits.
   *  @param {string} document */
  async #follow(document) {
    const isBusy = () => this.#renewing.has(document) || this.#making.has(document) || this.#isStopped;
    const { fleet } = this.#options;
    if (!fleet || isBusy()) return;
    const { generation } = await this.folder.record(document);
    const later = await fleet.later(document, generation);
    for (const it of later) await fleet.mapText(document, it); // throws where it can't be followed yet
    if (later.length === 0 || isBusy()) return;
    await this.#followNow(document);
  }

  /** @param {string} document */
  async #followNow(document) {
    let goOn = () => {};
    this.#renewing.set(document, new Promise((resolve) => (goOn = () => resolve())));
    try {
      const open = this.#documents.get(document);
      for (const end = this.#clock.now() + HOLD_MS; open && open.uses > 0; ) {
        if (this.#clock.now() > end) break; // a request that takes so long is answered by `server-lost`
        await pauseBy(this.#clock, 1);
      }
      if (open) await this.#end(open);
      await this.#unshare(document);
      const generation = await this.#takenOver(document);
      if (generation !== undefined) this.#clock.after(0, () => this.#sayRenewed(document, generation));
    } finally {
      this.#renewing.delete(document);
      goOn();
    }
  }

  /** Opens a document again that goes on in another generation, and lets its clients know.
   *  @param {string} document @param {string} generation */
  async #sayRenewed(document, generation) {
    await this.use(document, async () => "").catch(() => {}); // else who asks next opens it
    this.renewed(document, generation);
  }

  /** Takes over the last generation of a document that other hubs have, where it is a later one. Returns
   *  it. Where that can't be done the document goes on as it is, and takes no changes.
   *  @param {string} document */
  #takenOver(document) {
    const taking = this.#taking.get(document)
      ?? this.#takeOver(document).finally(() => this.#taking.delete(document));
    this.#taking.set(document, taking);
    return taking;
  }

  /** @param {string} document */
  async #takeOver(document) {
    const { fleet, note, atStep = () => {} } = this.#options;
    if (!fleet?.redis) return undefined;
    const record = await this.folder.record(document);
    try {
      const later = await fleet.later(document, record.generation);
      if (later.length === 0) return undefined;
      /** @param {string} generation */
      const openOf = (generation) => this.#openOf(document, document, record, generation);
      await this.folder.tidy(document, record);
      const { folder } = this;
      const taken = await takeOver({ folder, fleet, document, record, later, openOf, atStep, note });
      return taken.generation;
    } catch (error) {
      note(`${document} can't go on in its next generation: ${messageOf(error)}`);
      await pauseBy(this.#clock, FOLLOW_MS);
      return undefined;
    }
  }

  /** @param {string} document @param {string} name @param {Record} record
   *  @param {string} generation */
  #openOf(document, name, record, generation) {
    const { program, sessions, note } = this.#options;
    const file = this.folder.fileOf(name, generation);
    return new OpenDocument({ program, file, document: record.document },
      { ...sessions, note: (text) => note(`${document}: ${text}`) });
  }

  /** @param {string} document @param {OpenDocument} begun */
  async #isOpening(document, begun) {
    if (!(await this.#hasRoom())) {
      this.#forget(document, begun);
      return false;
    }
    try {
      await begun.begin();
      this.started++;
      const record = this.#records.get(document);
      if (record) await this.#share(document, begun, record);
      this.#measure(document, begun).catch((error) => this.#options.note(messageOf(error)));
      if (this.#failed.delete(document)) this.#since = new Date();
      return true;
    } catch (error) {
      this.#fail(document, error);
      this.#forget(document, begun);
      this.#giveRoom();
      return false;
    }
  }

  /** Notes that a document can't be opened.
   *  @param {string} document @param {unknown} error */
  #fail(document, error) {
    const cause = messageOf(error);
    if (this.#failed.size === 0) this.#since = new Date();
    if (this.#failed.get(document)?.cause !== cause) {
      this.#options.note(`${document} can't be opened: ${cause}`);
    }
    this.#failed.set(document, { at: this.#clock.now(), cause });
    return undefined;
  }

  /** @param {string} document @param {OpenDocument} open */
  #forget(document, open) {
    if (this.#documents.get(document) === open) this.#documents.delete(document);
  }

  /** Ends a document's server, also one that begins.
   *  @param {OpenDocument} open */
  async #end(open) {
    open.isAbandoned = true;
    if (await open.opening) await this.#close(open);
  }

  /** @param {OpenDocument} open */
  async #close(open) {
    if (open.isClosing) return open.closed;
    const [document = ""] = [...this.#documents].find(([, it]) => it === open) ?? [];
    open.isClosing = true;
    await this.#unshare(document);
    const size = await open.close();
    if (splitName(document)[1] === undefined) await this.folder.noteSize(document, size);
    this.#forget(document, open);
    this.#records.delete(document);
    this.#giveRoom();
    open.noteClosed();
  }

  #closeIdle() {
    const { closeAfter, fleet } = this.#options;
    const names = new Map([...this.#documents].map(([name, open]) => [open, name]));
    for (const it of this.#unused()) {
      const name = names.get(it) ?? "";
      // Who follows a document reads each generation of before once, and there may be many.
      const ms = splitName(name)[1] === undefined ? closeAfter : Math.min(closeAfter, PAST_MS);
      // Where hubs share it, another one's changes are to be pushed.
      const isNeeded = fleet && this.isWatched(name);
      if (it.usedAt < this.#clock.now() - ms && !isNeeded) this.#close(it);
    }
  }

  /** Those that may be closed, the one that wasn't used for longest first. */
  #unused() {
    const unused = [...this.#documents.values()].filter(({ pool, uses, isClosing }) =>
      pool && uses === 0 && !isClosing);
    return unused.sort((a, b) => a.usedAt - b.usedAt);
  }

  // ---- Generations

  /** Learns how large a document is that was opened.
   *  @param {string} document @param {OpenDocument} open */
  async #measure(document, open) {
    if (splitName(document)[1] !== undefined) return;
    const { operations } = await this.folder.takeSize(document);
    const replicas = await open.askReplicas();
    if (operations !== undefined) open.noteSize(open.operations + operations, replicas ?? []);
    else await open.measure();
    this.#renewIfDue(document, open);
  }

  /** A change was answered: it counts, and the document may be due to be renewed.
   *  @param {string} document @param {string} reply */
  noteApplied(document, reply) {
    const open = this.#documents.get(document);
    const [, count = "0", replica = ""] = /^\["applied",(\d+),\d+,\[\d+,"([^"]+)"\]\]$/.exec(reply) ?? [];
    if (!open) return;
    open.noteSize(open.operations + Number(count), [replica]);
    this.#shared.get(document)?.stream.wake();
    this.#renewIfDue(document, open);
    this.#warnIfLarge(document, open);
  }

  /** @param {string} document @param {OpenDocument} open */
  #renewIfDue(document, { operations, replicas }) {
    const record = this.#records.get(document);
    if (!record || this.#making.has(document) || !this.#mayRenew(document)) return;
    const least = Math.max(this.#options.renewAt, GROWTH * record.began);
    const isDue = operations >= least || replicas.size >= RENEW_REPLICAS;
    if (!isDue || this.#clock.now() < (this.#notBefore.get(document) ?? 0)) return;
    this.#notBefore.set(document, this.#clock.now() + AGAIN_MS);
    this.renew(document).catch((error) => {
      const isTooLarge = error instanceof TooLarge;
      if (isTooLarge) this.#notBefore.set(document, this.#clock.now() + TOO_LARGE_MS);
      const advice = isTooLarge ? `. ${ADVICE}` : "";
      this.#options.note(`${document} can't be renewed: ${messageOf(error)}${advice}`);
    });
  }

  /** Whether no other hub is to renew it.
   *  @param {string} document */
  #mayRenew(document) {
    const { fleet } = this.#options;
    return !fleet || (fleet.isFounded && this.#shared.get(document)?.home === fleet.me);
  }

  /** Looks at times whether what a document shows grows too large to be renewed.
   *  @param {string} document @param {OpenDocument} open */
  #warnIfLarge(document, open) {
    const { operations } = open;
    if (operations < (this.#lookAt.get(document) ?? WARN_CONTENT)) return;
    this.#lookAt.set(document, operations + LOOK_EACH);
    contentOf(open, document).then((count) => {
      if (count > WARN_CONTENT) this.#warn(document, count);
    }, () => {}); // its server has ended
  }

  /** Puts what a document shows into its next generation, which takes changes from then on. Who uses
   *  the document waits for moments meanwhile. Where it fails, the document goes on as it is.
   *  @param {string} document
   *  @returns {Promise<string>} the generation */
  async renew(document) {
    if (!this.folder.names.has(document)) throw new NoDocument(`there is no document ${document}`);
    const open = await this.#opened(document);
    const record = this.#records.get(document);
    if (!open || !record) throw new Error(`${document} can't be opened`);
    try {
      if (this.#making.has(document)) throw new Error(`${document} is being renewed`);
      const making = this.#renewed(document, open, record)
        .finally(() => this.#making.delete(document));
      this.#making.set(document, making);
      const { generation, began } = await making;
      this.#notBefore.delete(document);
      if (began > WARN_CONTENT) this.#warn(document, began);
      return generation;
    } finally {
      open.uses--;
    }
  }

  /** @param {string} document @param {number} began */
  #warn(document, began) {
    this.#options.note(`what ${document} shows takes ${began} operations: from ${MOST_CONTENT} on `
      + `it can't be renewed. ${ADVICE}`);
  }

  /** @param {string} document @param {OpenDocument} open @param {Record} record */
  async #renewed(document, open, record) {
    const shared = this.#shared.get(document);
    const held = new Holding(this.#renewing, document, open, this.#clock);
    let made;
    try {
      made = await this.#goOnIn(document, open, await this.#made(document, open, record, held));
    } catch (error) {
      await this.#goOnByRecord(document, record.generation).catch(() => {});
      throw error;
    } finally {
      held.end();
      await shared?.release().catch(() => {}); // it ends by itself
    }
    this.renewals.note(held.longest);
    this.renewed(document, made.generation);
    await this.#dropOld(document, made).catch(() => {});
    return made;
  }

  /** Behind a renewal that failed the document goes on as its record says, which may have been written.
   *  @param {string} document @param {string} generation of before */
  async #goOnByRecord(document, generation) {
    const record = await this.folder.record(document).catch(() => undefined);
    const open = this.#documents.get(document);
    if (record?.generation !== generation && open) await this.#end(open);
    if (record) await this.folder.tidy(document, record);
  }

  /** @param {string} document @param {OpenDocument} open @param {Record} record
   *  @param {Holding} held */
  #made(document, open, record, held) {
    const shared = this.#shared.get(document);
    const { atStep = () => {} } = this.#options;
    return nextGeneration({
      folder: this.folder, document, record, open, atStep,
      quiet: async (work) => {
        try {
          await Promise.all([held.begin(), shared?.stream.pause()]);
          return await work();
        } finally {
          shared?.stream.resume();
          held.end();
        }
      },
      hold: async () => {
        await shared?.gather("renews");
        await held.begin();
      },
      decide: (...made) => this.#decide(document, shared, ...made),
      next: (generation) => this.#openOf(document, document, record, generation),
    });
  }

  /** Decides that a generation follows, where hubs share the document. Throws where another one does.
   *  @param {string} document @param {SharedDocument | undefined} shared
   *  @param {string} generation @param {string} map @param {Operation[]} operations */
  async #decide(document, shared, generation, map, operations) {
    const { fleet } = this.#options;
    if (!fleet || !shared) return;
    await fleet.publish(document, generation, map, operations);
    const decided = await shared.decide({ generation, digest: digestOf(map) });
    if (decided.generation === generation) {
      await fleet.expire(document, shared.generation).catch(() => {});
      return;
    }
    await fleet.withdraw(document, generation).catch(() => {});
    throw new Error(`another hub was first, with generation ${decided.generation}`);
  }

  /** Lets a document's next generation take its changes.
   *  @param {string} document @param {OpenDocument} open
   *  @param {{ open: OpenDocument, record: Record }} made */
  async #goOnIn(document, open, made) {
    made.open.opening = Promise.resolve(true);
    made.open.usedAt = this.#clock.now();
    this.#documents.set(document, made.open);
    this.#records.set(document, made.record);
    this.#lookAt.delete(document);
    await this.#shared.get(document)?.release().catch(() => {}); // it ends by itself
    await this.#unshare(document, true);
    await this.#share(document, made.open, made.record);
    open.close().then(() => open.noteClosed());
    return made.record;
  }

  /** Removes the generations that aren't kept.
   *  @param {string} document @param {Record} record */
  async #dropOld(document, record) {
    const { keepGenerations } = this.#options;
    const old = record.history.slice(0, Math.max(0, record.history.length - keepGenerations));
    if (old.every(({ isGone }) => isGone)) return;
    for (const it of old) it.isGone = true;
    await this.folder.renew(document, record);
  }

  /** The generations of a document, the last one of which takes changes.
   *  @param {string} document
   *  @returns {Promise<[generation: string, operations: number, replicas: number][]>} */
  async history(document) {
    await this.#renewing.get(document);
    const record = await this.folder.record(document);
    const past = record.history.map((it) =>
      /** @type {[string, number, number]} */ ([it.generation, it.operations, it.replicas]));
    const { operations = 0, replicas = 0 } = await this.#sizeOf(document);
    return [...past, [record.generation, operations, replicas]];
  }

  /** How large a document is: as its server says, where that runs.
   *  @param {string} document
   *  @returns {Promise<{ operations?: number, replicas?: number }>} */
  async #sizeOf(document) {
    const open = this.#documents.get(document);
    if (!open) return this.folder.sizeOf(document);
    return (await open.askSize()) ?? { operations: open.operations, replicas: open.replicas.size };
  }

  /** Which elements of a generation became which ones of the next: some of them.
   *  @param {string} document @param {string} generation @param {number} from
   *  @returns {Promise<string | undefined>} the reply; `undefined` where there is no such generation */
  async map(document, generation, from) {
    await this.#renewing.get(document);
    const { history, generation: now } = await this.folder.record(document);
    const at = history.findIndex((it) => it.generation === generation);
    if (at < 0) return undefined;
    const { ends, lines } = await this.folder.readMap(document, history[at + 1]?.generation ?? now);
    const some = lines.slice(from, from + MOST.mapped);
    return `["map",${JSON.stringify(ends.end)},${JSON.stringify(ends.start)},[${some.join(",")}]]`;
  }

  // ---- Room for servers

  /** Takes room for one server. Resolves false where there is none for long.
   *  @returns {Promise<boolean>} */
  async #hasRoom() {
    if (this.#taken < this.#options.open) {
      this.#taken++;
      this.#keepSpare();
      return true;
    }
    /** @type {(hasRoom: boolean) => void} */
    let resume = () => {};
    const room = new Promise((/** @type {(hasRoom: boolean) => void} */ resolve) => {
      resume = resolve;
      this.#waiting.push(resolve);
    });
    this.#makeRoom();
    pauseBy(this.#clock, ROOM_MS).then(() => {
      const at = this.#waiting.indexOf(resume);
      if (at < 0) return;
      this.#waiting.splice(at, 1);
      resume(false);
    });
    return room;
  }

  /** Closes as many as others wait for. */
  #makeRoom() {
    const closing = [...this.#documents.values()].filter(({ isClosing }) => isClosing).length;
    for (const it of this.#unused().slice(0, Math.max(0, this.#waiting.length - closing))) {
      this.#close(it);
    }
  }

  /** Closes some before others wait for their room. */
  #keepSpare() {
    const { open } = this.#options;
    const closing = [...this.#documents.values()].filter(({ isClosing }) => isClosing).length;
    const over = this.#taken - closing - (open - Math.floor(open * SPARE));
    for (const it of this.#unused().slice(0, Math.max(0, over))) this.#close(it);
  }

  #giveRoom() {
    const next = this.#waiting.shift();
    if (next) next(true);
    else this.#taken--;
  }
}
