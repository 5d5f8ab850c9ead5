/* What who runs a hub does with its documents: lists, makes, renames, deletes and exports them. */

import { frontPairs, MOST, parse, print } from "./client_package.mjs";
import { nameOf, NoDocument } from "./folder.mjs";

/** @typedef {import("./shelf.mjs").Shelf} Shelf */
/** @typedef {import("../index.js").DocumentState} DocumentState */
/** @typedef {Omit<DocumentState, "name" | "isOpen">} State */

export class Desk {
  #shelf;
  #statesOf;

  /** @param {Shelf} shelf
   *  @param {() => Promise<(document: string) => State>} statesOf what is known of documents now */
  constructor(shelf, statesOf) {
    this.#shelf = shelf;
    this.#statesOf = statesOf;
  }

  /** All documents, in the order of their names.
   *  @returns {Promise<DocumentState[]>} */
  async list() {
    const stateOf = await this.#statesOf();
    const listed = [];
    for (const name of this.#shelf.names()) {
      const state = stateOf(name);
      const size = state.operations === undefined ? await this.#shelf.folder.sizeOf(name) : {};
      listed.push({ name, isOpen: this.#shelf.isOpen(name), ...size, ...state });
    }
    return listed;
  }

  /** @param {string} name */
  async create(name) {
    this.#shelf.checkName(name);
    const isMade = await this.#shelf.folder.create(name);
    if (!isMade) throw new NoDocument(`there is a document ${name}`);
    this.#shelf.announce(name);
  }

  /** @param {string} name @param {string} other */
  rename = (name, other) => this.#shelf.rename(name, other);

  /** @param {string} name */
  delete = (name) => this.#shelf.remove(name);

  deleted = () => this.#shelf.folder.bin();

  /** @param {string} entry @param {string} [name] */
  async restore(entry, name = nameOf(entry)) {
    this.#shelf.checkName(name);
    await this.#shelf.folder.restore(entry, name);
    await this.#shelf.offer(name);
  }

  /** @param {string} name */
  renew = (name) => this.#shelf.renew(name);

  /** @param {string[]} hubs */
  found = (hubs) => this.#shelf.found(hubs);

  /** The operations as lines, in the order of the log.
   *  @param {string} name
   *  @returns {AsyncGenerator<string, void>} */
  async *export(name) {
    if (!(await this.#shelf.isThere(name))) throw new NoDocument(`there is no document ${name}`);
    const front = new Map();
    for (let page; page === undefined || page.length === MOST.page; ) {
      const request = ["ops", name, frontPairs(front), MOST.page];
      page = await this.#asked(name, JSON.stringify(request));
      for (const operation of page) {
        const [counter, replica] = operation[1];
        front.set(replica, counter);
        yield print(operation);
      }
    }
  }

  /** @param {string} name @param {string} line @returns {Promise<any[]>} */
  async #asked(name, line) {
    const reply = await this.#shelf.use(name, async (pool) => {
      const link = await pool.linked();
      link?.open(name);
      const answer = await link?.ask(line);
      return typeof answer === "string" ? answer : "";
    });
    if (!reply?.startsWith('["ops",')) throw new Error(`${name} can't be read: ${reply || "away"}`);
    return parse(reply)[1];
  }
}
