/* A provider's store in the browser: IndexedDB, with a row for each operation.

     import { browserStore } from "jcrdt/browser_store";
     const provider = await Provider.open({ document: "notes", store: browserStore("notes") });

   All tabs of an origin share it. Each has a replica of its own, and sees what the others stored.
   The next tab sends what a closed one stored and didn't send. A name that a closed tab used is
   used again, since a document takes 256 names in all. */

import { Busy, Unstored } from "./stores.mjs";

/** @typedef {import("./stores.mjs").Store} Store */
/** @typedef {import("./stores.mjs").Heard} Heard */

const [TURN_MS, TURNS] = [50, 6]; // so long a tab may take to say that a name is its own
const [OPERATIONS, NAMES, ABOUT] = ["operations", "names", "about"];

/** A store in the database of a name. Where the browser has no IndexedDB, opening it throws
 *  Unstored: see `orMemory` of a provider.
 *  @param {string} name
 *  @returns {Store} */
export const browserStore = (name) => new BrowserStore(`jcrdt ${name}`);

/** The promise of a request's result.
 *  @template T
 *  @param {IDBRequest<T>} request
 *  @returns {Promise<T>} */
const resultOf = (request) => new Promise((resolve, reject) => {
  request.onsuccess = () => resolve(request.result);
  request.onerror = () => reject(request.error);
});

/** Resolves once a transaction is on the disk, and rejects if nothing of it is.
 *  @param {IDBTransaction} transaction
 *  @returns {Promise<void>} */
const endOf = (transaction) => new Promise((resolve, reject) => {
  transaction.oncomplete = () => resolve();
  transaction.onabort = () => reject(transaction.error ?? new Error("it was broken off"));
});

/** Resolves once other tabs have had the time to answer. Where this one gets few turns, as on a busy
 *  machine, so do they: then it waits longer. */
async function answersOfOthers() {
  for (let turn = 0; turn < TURNS; turn++) await new Promise((resume) => setTimeout(resume, TURN_MS));
}

/** The key of an operation's row, [replica,counter]. A line begins `["op",[COUNTER,"REPLICA"],`.
 *  @param {string} line
 *  @returns {[string, number]} */
function keyOf(line) {
  const [, counter, replica] = /^\["op",\[(\d{1,6}),"([a-z0-9-]{1,32})"\],/.exec(line) ?? [];
  if (!replica) throw new TypeError(`no operation: ${line.slice(0, 60)}`);
  return [replica, Number(counter)];
}

/** @param {unknown} line */
function isOperation(line) {
  try {
    return typeof line === "string" && keyOf(line).length === 2;
  } catch {
    return false;
  }
}

/** Operations in an order that has each behind those it depends on: these have lesser counters.
 *  @param {string[]} lines */
function inOrder(lines) {
  const keyed = lines.map((line) => ({ line, key: keyOf(line) }));
  keyed.sort(({ key: [a, m] }, { key: [b, n] }) => m - n || (a < b ? -1 : 1));
  return keyed.map(({ line }) => line);
}

/** @implements {Store} */
class BrowserStore {
  #place;
  #token = Array.from(crypto.getRandomValues(new Uint32Array(4))).join("-"); // of this tab
  #name = "";
  /** @type {Heard} */
  #heard = () => {};
  /** @type {Set<string>} */
  #taken = new Set(); // names that other tabs said they take
  /** @type {Set<string>} */
  #owned = new Set(); // names that were asked for, and that other tabs said are theirs
  #giveBack = () => {};
  /** @type {IDBDatabase | undefined} */
  #opened;
  /** @type {BroadcastChannel | undefined} */
  #others;

  /** @param {string} place the database */
  constructor(place) {
    this.#place = place;
  }

  get #database() {
    if (!this.#opened) throw new Error(`${this.#place} isn't open`);
    return this.#opened;
  }

  /** @param {IDBTransactionMode} mode */
  #transaction(mode) {
    const all = [OPERATIONS, NAMES, ABOUT];
    return this.#database.transaction(all, mode, { durability: "strict" });
  }

  /** @param {string} document
   *  @param {() => string} fresh */
  async open(document, fresh) {
    if (!globalThis.indexedDB) throw new Unstored("this browser has no IndexedDB here");
    const request = indexedDB.open(this.#place, 1);
    request.onupgradeneeded = () => {
      for (const name of [OPERATIONS, NAMES, ABOUT]) request.result.createObjectStore(name);
    };
    this.#opened = await resultOf(request);
    this.#others = new BroadcastChannel(this.#place);
    this.#others.onmessage = ({ data }) => this.#hear(data);
    try {
      await this.#check(document);
      this.#name = await this.#takeName(fresh);
      return { name: this.#name, ...(await this.#rows()) };
    } catch (error) {
      this.close();
      throw error;
    }
  }

  /** @param {string} document */
  async #check(document) {
    const transaction = this.#transaction("readwrite");
    const about = transaction.objectStore(ABOUT);
    const was = await resultOf(about.get("document"));
    if (was === undefined) about.put(document, "document");
    await endOf(transaction);
    if ((was ?? document) !== document) {
      throw new TypeError(`${this.#place} has the document ${was}, not ${document}`);
    }
  }

  async #rows() {
    const rows = this.#transaction("readonly").objectStore(OPERATIONS);
    const values = await resultOf(rows.getAll());
    const lines = inOrder(values.filter(isOperation));
    const unread = values.filter((value) => !isOperation(value)).map(String);
    return { lines, unread };
  }

  // ---- Names: each is one tab's at a time

  /** @param {() => string} fresh */
  async #takeName(fresh) {
    const names = await resultOf(this.#transaction("readonly").objectStore(NAMES).getAllKeys());
    for (const name of names.map(String)) if (await this.#isTaken(name)) return name;
    const name = fresh();
    if (!(await this.#isTaken(name))) throw new Busy(`another tab has the name ${name}`);
    return name;
  }

  /** Takes a name, unless another tab has it.
   *  @param {string} name */
  async #isTaken(name) {
    const locks = navigator.locks; // none in a page of another machine that isn't over https
    if (locks ? !(await this.#lock(locks, name)) : !(await this.#ask(name))) return false;
    const old = this.#name;
    this.#name = name;
    this.#say({ taken: name });
    const before = await this.#hold(name, { holder: this.#token });
    if (!locks) await answersOfOthers(); // two tabs that took it at once: the last one has it
    const holder = await resultOf(this.#transaction("readonly").objectStore(NAMES).get(name));
    const isLast = holder?.holder === this.#token;
    if (isLast && !this.#owned.has(name)) return true;
    this.#name = old;
    if (isLast) await this.#hold(name, before); // it is that of a tab that answered late
    return false;
  }

  /** @param {LockManager} locks
   *  @param {string} name
   *  @returns {Promise<boolean>} */
  #lock(locks, name) {
    return new Promise((resolve) => {
      locks.request(`${this.#place} ${name}`, { ifAvailable: true }, (lock) => {
        resolve(lock !== null);
        return lock && new Promise((giveBack) => (this.#giveBack = () => giveBack(undefined)));
      });
    });
  }

  /** Whether no other tab says that the name is its own.
   *  @param {string} name */
  async #ask(name) {
    for (const names of [this.#taken, this.#owned]) names.delete(name);
    this.#say({ whose: name });
    await answersOfOthers();
    return !this.#taken.has(name) && !this.#owned.has(name);
  }

  /** Writes down which tab has the name. Returns what was written down before.
   *  @param {string} name
   *  @param {{ holder: string } | undefined} holder */
  async #hold(name, holder) {
    const transaction = this.#transaction("readwrite");
    const names = transaction.objectStore(NAMES);
    const before = resultOf(names.get(name));
    if (holder) names.put(holder, name);
    else names.delete(name);
    return (await Promise.all([before, endOf(transaction)]))[0];
  }

  /** Breaks a transaction off, unless this tab still has its name. Another tab has taken it where
   *  the browser kept this one from answering.
   *  @param {IDBTransaction} transaction
   *  @returns {Promise<void>} */
  #checkName(transaction) {
    return resultOf(transaction.objectStore(NAMES).get(this.#name)).then((name) => {
      if (name?.holder === this.#token) return;
      transaction.abort();
      throw new Busy("another tab goes on as this replica, or has begun anew");
    });
  }

  // ---- What other tabs say

  /** @param {object} message */
  #say(message) {
    this.#others?.postMessage(message);
  }

  /** @param {{ whose?: string, owned?: string, taken?: string, lines?: string[], cleared?: true }} message */
  #hear({ whose, owned, taken, lines, cleared }) {
    if (whose !== undefined && whose === this.#name) this.#say({ owned: whose });
    if (owned !== undefined) this.#owned.add(owned);
    if (taken !== undefined) this.#taken.add(taken);
    if (lines) this.#heard(lines);
    if (cleared) this.#heard(undefined);
  }

  /** @param {Heard} heard */
  follow(heard) {
    this.#heard = heard;
  }

  // ---- Rows

  /** @param {string[]} lines */
  async append(lines) {
    const transaction = this.#transaction("readwrite");
    const end = endOf(transaction);
    const checked = this.#checkName(transaction);
    const rows = transaction.objectStore(OPERATIONS);
    for (const line of lines) {
      rows.add(line, keyOf(line)).onerror = (event) => {
        const { error } = /** @type {IDBRequest} */ (event.target);
        if (error?.name !== "ConstraintError") return; // all is broken off
        event.preventDefault(); // another tab has stored it
        event.stopPropagation();
      };
    }
    await Promise.all([checked, end]);
    this.#say({ lines });
  }

  flush() {} // each `append` waits for the disk

  /** @param {string} name
   *  @param {string[]} lines
   *  @param {string[]} gone */
  async rename(name, lines, gone) {
    const giveBack = this.#giveBack;
    const old = this.#name;
    if (!(await this.#isTaken(name))) throw new Busy(`another tab has the name ${name}`);
    const transaction = this.#transaction("readwrite");
    const end = endOf(transaction);
    const rows = transaction.objectStore(OPERATIONS);
    for (const line of gone) rows.delete(keyOf(line));
    for (const line of lines) rows.put(line, keyOf(line));
    transaction.objectStore(NAMES).delete(old); // another has it, so it isn't used again
    await end;
    giveBack();
    this.#say({ lines });
  }

  async clear() {
    const transaction = this.#transaction("readwrite");
    for (const name of [OPERATIONS, NAMES, ABOUT]) transaction.objectStore(name).clear();
    await endOf(transaction);
    this.#say({ cleared: true });
    this.close();
  }

  close() {
    this.#others?.close();
    this.#opened?.close();
    this.#opened = undefined;
    this.#giveBack();
  }
}
