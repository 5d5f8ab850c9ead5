/* A provider's store in a file, for Node: a line for the names, then one for each operation.

     import { fileStore } from "jcrdt/file_store";
     const provider = await Provider.open({ document: "notes", store: fileStore("my.notes") });

   A tab behind the names says that a program has it open, a space that it was closed. A line for each
   opening with edits says in which file these were made: a copy of the file is another one.
   The file beside it, PATH.lock, says which process has it open. A second program is refused, also
   one that comes by a link. What a kill left is taken over, at the latest after a minute. */

import * as fs from "node:fs";
import { dirname } from "node:path";
import { codeOf, locked, realPath } from "./file_lock.mjs";
import { freshName, isName, nameOf } from "./names.mjs";

/** @typedef {import("./stores.mjs").Store} Store */
/** @typedef {import("./stores.mjs").Session} Session */

/** A store in the file at a path, which is made where there is none.
 *  @param {string} path
 *  @returns {Store} */
export const fileStore = (path) => new FileStore(path);

/** @implements {Store} */
class FileStore {
  #path;
  #file = -1;
  #size = 0; // of what is stored, in bytes
  #hasMore = false; // behind that is what a failed write left
  #markAt = -1; // the place of the mark
  #word = ""; // of this opening
  #isSaid = false; // whether the file has a line with it
  #document = "";
  /** @type {import("./file_lock.mjs").Lock | undefined} */
  #lock;

  /** @param {string} path */
  constructor(path) {
    this.#path = path;
  }

  /** @param {string} document
   *  @param {() => string} fresh */
  open(document, fresh) {
    this.#document = document;
    this.#path = realPath(this.#path);
    this.#lock = locked(`${this.#path}.lock`);
    try {
      return this.#read(document, fresh);
    } catch (error) {
      this.close();
      throw error;
    }
  }

  /** @param {string} document
   *  @param {() => string} fresh */
  #read(document, fresh) {
    const bytes = fs.existsSync(this.#path) ? fs.readFileSync(this.#path) : Buffer.alloc(0);
    const found = parts(bytes);
    const { head, lines, unread, size, mark } = found;
    [this.#word, this.#isSaid] = [freshName("at"), false];
    if (head && head[2] !== document) {
      throw new TypeError(`${this.#path} has the document ${head[2]}, not ${document}`);
    }
    if (size > 0 && !head && lines.length === 0) {
      throw new TypeError(`${this.#path} is no file of a replica`);
    }
    const isElsewhere = head !== undefined && isOfAnotherFile(found, this.#path);
    const wasOpen = head !== undefined && mark?.isOpen !== false;
    const isUsed = head !== undefined && hasOwn(lines, head[1]);
    const former = isElsewhere && isUsed ? head[1] : undefined;
    const isNew = !head || isElsewhere || (wasOpen && !isUsed);
    const name = isNew ? fresh() : head[1];
    if (mark && !isNew) this.#goOn(size, mark.at);
    else {
      const keepsOld = size > 0 && (!head || unread.length > 0 || bytes.length > size);
      this.#replace(name, found.kept, [], keepsOld, former);
    }
    const sessions = [...found.sessions, { before: lines.length, word: this.#word, former }];
    return { name, lines, unread, wasOpen: wasOpen && !isNew, isNew, sessions };
  }

  /** Opens the file to write behind so many bytes. What was cut off in writing goes.
   *  @param {number} size
   *  @param {number} markAt */
  #goOn(size, markAt) {
    this.#file = fs.openSync(this.#path, "r+");
    [this.#size, this.#hasMore, this.#markAt] = [size, true, markAt];
    this.#cut();
    fs.writeSync(this.#file, OPEN, markAt);
  }

  #cut() {
    if (this.#hasMore) fs.ftruncateSync(this.#file, this.#size);
    this.#hasMore = false;
  }

  /** @param {string[]} lines */
  append(lines) {
    this.#lock?.check();
    this.#cut();
    const session = this.#isSaid ? [] : [sessionLine(this.#word, this.#file)];
    const bytes = Buffer.from([...session, ...lines].map((line) => `${line}\n`).join(""));
    this.#hasMore = true;
    try {
      writeAll(this.#file, bytes, this.#size);
    } catch (error) {
      this.#cut();
      throw error;
    }
    this.#hasMore = false;
    this.#isSaid = true;
    this.#size += bytes.length;
  }

  flush() {
    fs.fdatasyncSync(this.#file);
  }

  /** @param {string} name
   *  @param {string[]} lines */
  rename(name, lines) {
    this.#lock?.check();
    this.#replace(name, [], lines, true);
  }

  /** Puts a new file in the old one's place. The old one stays as PATH.old where it is wanted.
   *  @param {string} name
   *  @param {string[]} before this opening
   *  @param {string[]} lines of this opening
   *  @param {boolean} keepsOld
   *  @param {string} [former] the name before, which goes on in another file */
  #replace(name, before, lines, keepsOld, former) {
    const head = JSON.stringify(["replica", name, this.#document]);
    const file = fs.openSync(`${this.#path}.new`, "w");
    const session = sessionLine(this.#word, file, former);
    const all = [`${head}${OPEN}`, ...before, session, ...lines];
    const bytes = Buffer.from(all.map((line) => `${line}\n`).join(""));
    try {
      writeAll(file, bytes, 0);
      fs.fsyncSync(file);
      if (keepsOld && fs.existsSync(this.#path)) keepOld(this.#path);
      fs.renameSync(`${this.#path}.new`, this.#path);
    } catch (error) {
      fs.closeSync(file);
      fs.rmSync(`${this.#path}.new`, { force: true });
      throw error;
    }
    if (this.#file >= 0) fs.closeSync(this.#file);
    [this.#file, this.#size, this.#hasMore] = [file, bytes.length, false];
    [this.#markAt, this.#isSaid] = [Buffer.byteLength(head), true];
    syncFolder(this.#path);
  }

  clear() {
    fs.rmSync(this.#path, { force: true });
    this.close();
  }

  /** @param {boolean} [staysOpen] */
  close(staysOpen = false) {
    if (this.#file >= 0) closeMarked(this.#file, this.#markAt, staysOpen ? OPEN : CLOSED);
    this.#file = -1;
    this.#lock?.giveBack();
    this.#lock = undefined;
  }
}

const [OPEN, CLOSED] = ["\t", " "]; // the marks
const MACHINE = machineOf("/etc/machine-id");

/** @param {number} file
 *  @param {number} markAt
 *  @param {string} mark */
function closeMarked(file, markAt, mark) {
  try {
    fs.writeSync(file, mark, markAt);
  } finally {
    fs.closeSync(file);
  }
}

/** The parts of a file: its first line, the lines of operations, other lines, and the size of all of
 *  them. A last line without an end was cut off in writing, and was never stored; one of an export may
 *  be whole.
 *  @param {Buffer} bytes */
function parts(bytes) {
  const end = bytes.lastIndexOf("\n") + 1;
  const isMarked = markOf(bytes.subarray(0, bytes.indexOf(10)).toString()) !== undefined;
  const size = !isMarked && isOperation(bytes.subarray(end).toString()) ? bytes.length : end;
  const pieces = bytes.subarray(0, size).toString().split("\n");
  const head = headOf(pieces[0]);
  const rest = (head ? pieces.slice(1) : pieces).filter((line) => line !== "");
  /** @type {(Session & { place: unknown })[]} */
  const sessions = [];
  const [lines, unread, kept] = [[], [], []].map((it) => /** @type {string[]} */ (it));
  for (const line of rest) {
    const session = sessionOf(line);
    if (isOperation(line)) lines.push(line);
    else if (session) sessions.push({ before: lines.length, ...session });
    else unread.push(line);
    if (unread[unread.length - 1] !== line) kept.push(line);
  }
  return { head, lines, unread, kept, size, mark: head && markOf(pieces[0]), sessions };
}

/** Whether a file may be a copy of another one: it was edited last as another file, or it doesn't say as
 *  which, and wasn't closed. The program of such a file may go on with it elsewhere.
 *  @param {ReturnType<typeof parts>} found
 *  @param {string} path */
function isOfAnotherFile({ sessions, mark }, path) {
  const [last] = sessions.map(({ place }) => place).filter((it) => typeof it === "string").slice(-1);
  if (last === undefined) return mark?.isOpen !== false;
  return last !== placeOf(fs.statSync(path, { bigint: true }));
}

/** What a line says of an opening with edits: its word, which file it was, and which name went on
 *  elsewhere. One of an older package has the word alone.
 *  @param {string} line */
function sessionOf(line) {
  const value = line.startsWith('["session",') ? readJson(line) : undefined;
  if (!Array.isArray(value) || typeof value[1] !== "string") return undefined;
  return { word: value[1], place: value[2], former: isName(value[3]) ? value[3] : undefined };
}

/** @param {string} word
 *  @param {number} file that is open
 *  @param {string} [former] */
function sessionLine(word, file, former) {
  const place = placeOf(fs.fstatSync(file, { bigint: true }));
  return JSON.stringify(["session", word, place, ...(former === undefined ? [] : [former])]);
}

/** Which file it is: the same text for it, also where it was moved, and another one for its copy. The
 *  number of its device isn't in it: a disk may have another one whenever the machine starts.
 *  @param {{ ino: bigint }} stat */
const placeOf = ({ ino }) => nameOf("file", `${MACHINE} ${ino}`);

/** Whether a replica of this name has made an operation.
 *  @param {string[]} lines
 *  @param {string} name */
const hasOwn = (lines, name) => lines.some((line) => line.split('"', 4)[3] === name);

/** The mark behind the names: whether the file is open, and its place. One of an older package has none.
 *  @param {string} line */
function markOf(line) {
  if (![OPEN, CLOSED].includes(line.slice(-1))) return undefined;
  return { isOpen: line.endsWith(OPEN), at: Buffer.byteLength(line) - 1 };
}

/** @param {string} line
 *  @returns {[string, string, string] | undefined} */
function headOf(line) {
  const value = readJson(line);
  return Array.isArray(value) && value[0] === "replica" && value.length === 3
    ? /** @type {[string, string, string]} */ (value) : undefined;
}

/** @param {string} line */
const isOperation = (line) => line.startsWith('["op",') && readJson(line) !== undefined;

/** @param {string} text
 *  @returns {unknown} */
function readJson(text) {
  try {
    return JSON.parse(text);
  } catch {
    return undefined;
  }
}

/** Writes all bytes at a place of a file. A disk that is nearly full takes a part of them at first.
 *  @param {number} file
 *  @param {Buffer} bytes
 *  @param {number} at */
function writeAll(file, bytes, at) {
  for (let done = 0; done < bytes.length; ) {
    done += fs.writeSync(file, bytes, done, bytes.length - done, at + done);
  }
}

/** What tells machines apart that have files of one number; "" elsewhere than on Linux.
 *  @param {string} path */
function machineOf(path) {
  try {
    return fs.readFileSync(path, "utf8").trim();
  } catch {
    return "";
  }
}

/** Gives the old file a further name, PATH.old, PATH.old-2 and so on.
 *  @param {string} path */
function keepOld(path) {
  for (let number = 1; ; number++) {
    const place = number === 1 ? `${path}.old` : `${path}.old-${number}`;
    try {
      return fs.linkSync(path, place);
    } catch (error) {
      if (codeOf(error) !== "EEXIST") throw error;
    }
  }
}

/** @param {string} path */
function syncFolder(path) {
  const folder = fs.openSync(dirname(path), "r");
  try {
    fs.fsyncSync(folder);
  } finally {
    fs.closeSync(folder);
  }
}
