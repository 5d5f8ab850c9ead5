/* The folder of a hub that runs its servers: a folder for each document, with a record and the files
   of its servers. What a step leaves half done is no document: each comes and goes by a rename.

     DIR/hub.json                       says that it is such a folder, and which fleet it is of
     DIR/lock                           which hub has it
     DIR/documents/NAME/record.json     which file takes changes, and the document's name in it
     DIR/documents/NAME/size.json       how large it was when its server ended last
     DIR/documents/NAME/1.db, 1.db-wal  the file of its server in its first generation
     DIR/documents/NAME/2-XY.db, ..     that of its second one
     DIR/documents/NAME/2-XY.map        which element of the first became which one there
     DIR/documents/NAME/1.lost          changes of the first that can't be made in a later one
     DIR/bin/NAME.TIME                  a document that was deleted, and when, in ms
     DIR/deleted/NAME                   of a fleet: its hubs use this name no more */

import { randomUUID } from "node:crypto";
import { mkdir, open, readdir, readFile, rename, rm, writeFile } from "node:fs/promises";
import { join, resolve } from "node:path";
import { isName, locked } from "./client_package.mjs";

/** @typedef {{ generation: string, until: string, operations: number, replicas: number,
 *    isGone?: boolean }} Past A generation that takes no changes any more. */
/** @typedef {{ format: 1, generation: string, document: string, began: number,
 *    history: Past[] }} Record `document` is its name in the files: that which it was made with. `began`
 *    is how many operations its generation began with. */
/** @typedef {import("../../js/wire.mjs").Id} Id */
/** @typedef {import("../../js/wire.mjs").Front} Front */
/** @typedef {{ end: Front, start: Front }} Ends Of a generation: what it had at its end, and what the
 *    next one began with. */

const FORMAT = 1;
const RECORD = "record.json";
const SIZE = "size.json";
const FIRST = "1"; // the first generation
const MOST_MAPS = 8; // in memory
const MARK = "hub.json";
const DRAFT = ".new-"; // no name of a document begins so
const THERE_ALREADY = new Set(["EEXIST", "ENOTEMPTY", "ENOTDIR"]);

/** @typedef {{ operations?: number, replicas?: number }} Size As far as it is known. */

/** A document can't be made, renamed or found: nothing was changed. */
export class NoDocument extends Error {
  name = "NoDocument";
}

export class Folder {
  /** The names of all documents.
   *  @type {Set<string>} */
  names = new Set();
  /** The names of those that hubs of a fleet have deleted, for good.
   *  @type {Set<string>} */
  deleted = new Set();
  /** @type {Map<string, Promise<{ ends: Ends, lines: string[] }>>} the last ones, by their paths */
  #maps = new Map();
  #path;
  #lock;

  /** @param {string} path
   *  @param {{ check: () => void, giveBack: () => void }} lock */
  constructor(path, lock) {
    this.#path = path;
    this.#lock = lock;
  }

  /** Opens the folder, or makes it. Throws Busy where another hub has it, and NoDocument where it has
   *  something else.
   *  @param {string} path
   *  @returns {Promise<Folder>} */
  static async open(path) {
    const whole = resolve(path);
    await mkdir(whole, { recursive: true, mode: 0o700 });
    const mark = await json(join(whole, MARK));
    if (!mark && (await readdir(whole)).length > 0) throw new NoDocument(`${path} has other files`);
    if (mark && mark.format !== FORMAT) throw new NoDocument(`${path} is of another version`);
    if (!mark) await written(join(whole, MARK), { format: FORMAT });
    for (const it of ["documents", "bin", "deleted"]) {
      await mkdir(join(whole, it), { recursive: true, mode: 0o700 });
    }
    const folder = new Folder(whole, locked(join(whole, "lock")));
    try {
      await folder.#read();
      return folder;
    } catch (error) {
      folder.close();
      throw error;
    }
  }

  async #read() {
    for (const name of await readdir(this.#documents)) {
      if (name.startsWith(DRAFT)) await rm(join(this.#documents, name), { recursive: true });
      else if (isName(name)) this.names.add(name);
    }
    const deleted = await readdir(this.#deleted);
    this.deleted = new Set(deleted.filter((it) => isName(it)));
  }

  get #documents() {
    return join(this.#path, "documents");
  }

  get #deleted() {
    return join(this.#path, "deleted");
  }

  /** Where the hub takes commands. */
  get control() {
    return join(this.#path, "control");
  }

  /** @param {string} name */
  folderOf = (name) => join(this.#documents, name);

  /** The file of a generation of a document.
   *  @param {string} name @param {string} generation */
  fileOf = (name, generation) => join(this.folderOf(name), `${generation}.db`);

  /** The id of the fleet that the hub is of; `undefined` of one that is of none yet.
   *  @returns {Promise<string | undefined>} */
  fleet = async () => (await json(join(this.#path, MARK)))?.fleet;

  /** @param {string} id */
  async joinFleet(id) {
    this.#lock.check();
    await written(join(this.#path, MARK), { format: FORMAT, fleet: id });
  }

  /** @param {string} name @returns {Promise<Record>} */
  async record(name) {
    const path = join(this.folderOf(name), RECORD);
    const record = await json(path);
    if (record?.format === FORMAT && isName(record.document)) return record;
    throw new NoDocument(`${path} is no record of a document`);
  }

  /** Notes how large a document is, for who runs the hub. It is no harm if that is lost.
   *  @param {string} name @param {Size} size */
  async noteSize(name, size) {
    if (Object.keys(size).length === 0) return;
    const text = `${JSON.stringify(size)}\n`;
    await writeFile(join(this.folderOf(name), SIZE), text, { mode: 0o600 }).catch(() => {});
  }

  /** @param {string} name @returns {Promise<Size>} */
  sizeOf = (name) =>
    json(join(this.folderOf(name), SIZE)).then((size) => size ?? {}, () => ({}));

  /** How large a document was when its server ended last. That isn't known any more then: it changes
   *  from now on, and nothing is noted when this process is killed.
   *  @param {string} name */
  async takeSize(name) {
    const size = await this.sizeOf(name);
    await rm(join(this.folderOf(name), SIZE), { force: true }).catch(() => {});
    return size;
  }

  /** Makes a document. Returns false where there is one of this name.
   *  @param {string} name */
  async create(name) {
    this.#check(name);
    const draft = this.folderOf(`${DRAFT}${randomUUID()}`);
    await mkdir(draft, { mode: 0o700 });
    try {
      await written(join(draft, RECORD), {
        format: FORMAT, generation: FIRST, document: name, began: 0, history: [],
      });
      await rename(draft, this.folderOf(name));
    } catch (error) {
      await rm(draft, { recursive: true, force: true });
      if (isThere(error)) return false;
      throw error;
    }
    this.names.add(name);
    await synced(this.#documents);
    return true;
  }

  // ---- Generations

  /** Lets another generation take changes: this is what decides it.
   *  @param {string} name @param {Record} record */
  async renew(name, record) {
    this.#lock.check();
    await written(join(this.folderOf(name), RECORD), record);
  }

  /** Writes which element became which one, by lists, and both ends.
   *  @param {string} name @param {string} generation that begins
   *  @param {Ends} ends @param {[Id, Id][][]} lists */
  async writeMap(name, generation, ends, lists) {
    const lines = lists.flatMap((list) => list.map(([old, now], at) =>
      `[${idText(old)},${idText(now)}${at === 0 ? ",0" : ""}]\n`));
    const text = [`${JSON.stringify(ends)}\n`, ...lines].join("");
    await this.writeMapText(name, generation, text);
    return text;
  }

  /** Writes the text of a map.
   *  @param {string} name @param {string} generation @param {string} text */
  async writeMapText(name, generation, text) {
    const path = this.#mapOf(name, generation);
    const file = await open(path, "wx", 0o600);
    try {
      await file.writeFile(text);
      await file.sync();
    } finally {
      await file.close();
    }
    await synced(this.folderOf(name));
  }

  /** The text of a map.
   *  @param {string} name @param {string} generation */
  mapText = (name, generation) => readFile(this.#mapOf(name, generation), "utf8");

  /** Writes what of a generation can't be made in a later one, behind what was written before.
   *  @param {string} name @param {string} generation @param {string[]} lines */
  async writeLost(name, generation, lines) {
    const file = await open(join(this.folderOf(name), `${generation}.lost`), "a", 0o600);
    try {
      await file.writeFile(lines.map((it) => `${it}\n`).join(""));
      await file.sync();
    } finally {
      await file.close();
    }
    await synced(this.folderOf(name));
  }

  /** What `writeMap` wrote: the ends, and a line for each element, [OLD,NOW], of which the first of a
   *  list has a third item. Those that were read last are in memory: who follows a document asks for
   *  one in parts, and many follow at once.
   *  @param {string} name @param {string} generation that begins
   *  @returns {Promise<{ ends: Ends, lines: string[] }>} */
  async readMap(name, generation) {
    const path = this.#mapOf(name, generation);
    const reading = this.#maps.get(path) ?? readFile(path, "utf8").then((text) => {
      const [first = "", ...lines] = text.split("\n");
      return { ends: JSON.parse(first), lines: lines.filter((it) => it) };
    });
    this.#maps.delete(path);
    this.#maps.set(path, reading);
    const [oldest = ""] = this.#maps.keys();
    if (this.#maps.size > MOST_MAPS) this.#maps.delete(oldest);
    reading.catch(() => this.#maps.delete(path));
    return reading;
  }

  /** @param {string} name @param {string} generation */
  #mapOf = (name, generation) => join(this.folderOf(name), `${generation}.map`);

  /** Removes the files of generations that never began, and of those that aren't kept.
   *  @param {string} name @param {Record} record */
  async tidy(name, { generation, history }) {
    const kept = new Set([generation, ...history.filter((it) => !it.isGone).map((it) => it.generation)]);
    const known = new Set([generation, ...history.map((it) => it.generation)]);
    for (const file of await readdir(this.folderOf(name))) {
      const [, of = "", kind] = /^(\d[a-z0-9-]*)\.(db|db-wal|map)$/.exec(file) ?? [];
      const isOld = kind !== undefined && !(kind === "map" ? known : kept).has(of);
      const isDraft = file.startsWith(`${RECORD}${DRAFT}`);
      if (isOld || isDraft) await rm(join(this.folderOf(name), file), { force: true });
    }
  }

  /** Throws where a document can't get this name.
   *  @param {string} name */
  checkFree(name) {
    this.#check(name);
    if (this.names.has(name)) throw new NoDocument(`there is a document ${name}`);
  }

  /** @param {string} name @param {string} other a name that no document has */
  async rename(name, other) {
    this.checkFree(other);
    this.#maps.clear();
    await rename(this.folderOf(name), this.folderOf(other));
    this.names.delete(name);
    this.names.add(other);
    await synced(this.#documents);
  }

  /** Puts a document into the bin, and returns what it is called there.
   *  @param {string} name */
  async remove(name) {
    this.#lock.check();
    this.#maps.clear();
    const entry = `${name}.${Date.now()}`;
    await rename(this.folderOf(name), this.#binned(entry));
    this.names.delete(name);
    await synced(this.#documents);
    await synced(join(this.#path, "bin"));
    return entry;
  }

  /** Puts a document into the bin, if it is here, and notes that its name isn't used again.
   *  @param {string} name
   *  @returns {Promise<string | undefined>} what it is called there */
  async removeForGood(name) {
    this.#check(name);
    await writeFile(join(this.#deleted, name), "", { mode: 0o600 });
    await synced(this.#deleted);
    this.deleted.add(name);
    return this.names.has(name) ? this.remove(name) : undefined;
  }

  /** What is in the bin: NAME.TIME, oldest first. */
  async bin() {
    const entries = (await readdir(join(this.#path, "bin"))).filter((it) => isName(nameOf(it)));
    return entries.sort((a, b) => timeOf(a) - timeOf(b));
  }

  /** Takes a document out of the bin.
   *  @param {string} entry as `bin` gives it @param {string} name that no document has */
  async restore(entry, name) {
    this.checkFree(name);
    if (!(await this.bin()).includes(entry)) throw new NoDocument(`the bin has no ${entry}`);
    await rename(this.#binned(entry), this.folderOf(name));
    this.names.add(name);
    await synced(this.#documents);
  }

  /** @param {string} entry */
  #binned = (entry) => join(this.#path, "bin", entry);

  /** @param {string} name */
  #check(name) {
    if (!isName(name)) throw new NoDocument(`${JSON.stringify(name)}: 1 to 32 of a-z, 0-9 and -`);
    this.#lock.check();
  }

  /** Lets another hub take it. */
  close() {
    this.#lock.giveBack();
  }
}

/** An id as JSON: what replicas are called needs no escapes.
 *  @param {Id} id */
const idText = ([counter, replica]) => `[${counter},"${replica}"]`;

/** @param {string} entry of the bin */
export const nameOf = (entry) => entry.replace(/\.\d+$/, "");

/** @param {string} entry */
const timeOf = (entry) => Number(entry.slice(entry.lastIndexOf(".") + 1));

/** @param {unknown} error */
const isThere = (error) =>
  THERE_ALREADY.has(/** @type {NodeJS.ErrnoException} */ (error).code ?? "");

/** What a file of JSON has; `undefined` where it isn't there.
 *  @param {string} path @returns {Promise<any>} */
async function json(path) {
  try {
    return JSON.parse(await readFile(path, "utf8"));
  } catch (error) {
    if (/** @type {NodeJS.ErrnoException} */ (error).code === "ENOENT") return undefined;
    throw new NoDocument(`${path}: ${/** @type {Error} */ (error).message}`);
  }
}

/** Writes a file of JSON in place of the one before: whole and on disk, or not at all.
 *  @param {string} path @param {object} value */
async function written(path, value) {
  const draft = `${path}${DRAFT}${randomUUID()}`;
  const file = await open(draft, "wx", 0o600);
  try {
    await file.writeFile(`${JSON.stringify(value)}\n`);
    await file.sync();
  } catch (error) {
    await rm(draft, { force: true });
    throw error;
  } finally {
    await file.close();
  }
  await rename(draft, path);
  await synced(join(path, ".."));
}

/** Has what was renamed in a folder survive a power cut.
 *  @param {string} path */
async function synced(path) {
  const folder = await open(path, "r");
  await folder.sync().finally(() => folder.close());
}
