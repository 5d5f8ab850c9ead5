/* A lock that one program has at a time: a file that says which, and whose time is renewed each five
   seconds. One whose program was killed is taken over: at once where that can be seen, and else, as of
   a container that has gone, when its time wasn't renewed for a minute. */

import * as fs from "node:fs";
import { hostname } from "node:os";
import { basename, dirname, join, resolve } from "node:path";
import { Busy } from "./stores.mjs";

const OVER_MS = 5000; // so long, at most, another takes over a lock that was left
const PAUSE_MS = 2;
const RENEW_MS = 5000;
const LEFT_MS = 60_000; // a lock of nobody knows whom, not renewed for so long, was left
const SURE_MS = 50_000; // nobody has taken over a lock that was renewed within this time

let count = 0; // of the locks of this program, so that each has a text of its own

/** The path of a file without links, also where the file isn't there yet.
 *  @param {string} path
 *  @returns {string} */
export function realPath(path) {
  try {
    return fs.realpathSync(path);
  } catch (error) {
    if (codeOf(error) !== "ENOENT") throw error;
  }
  const link = linkAt(path);
  if (link !== undefined) return realPath(resolve(dirname(path), link));
  return join(fs.realpathSync(dirname(path)), basename(path));
}

/** @param {string} path */
function linkAt(path) {
  try {
    return fs.readlinkSync(path);
  } catch (error) {
    if (codeOf(error) !== "ENOENT" && codeOf(error) !== "EINVAL") throw error;
    return undefined;
  }
}

/** A lock that this program has, at least until another took it over. */
export class Lock {
  #path;
  #file;
  #renewed = Date.now();
  #isLost = false;
  #timer;
  #atExit = () => this.giveBack();

  /** @param {string} path
   *  @param {number} file That was made for it, open. */
  constructor(path, file) {
    this.#path = path;
    this.#file = file;
    this.#timer = setInterval(() => this.#renew(), RENEW_MS);
    /** @type {any} */ (this.#timer).unref();
    process.on("exit", this.#atExit);
  }

  /** Whether the file at the path is this lock. */
  #isThere() {
    try {
      return fs.statSync(this.#path).ino === fs.fstatSync(this.#file).ino;
    } catch (error) {
      if (codeOf(error) !== "ENOENT") throw error;
      return false;
    }
  }

  /** Writes a byte that is there already: the file's time is of the same clock as that of others. */
  #renew() {
    try {
      fs.writeSync(this.#file, "{", 0);
      this.#isLost = !this.#isThere();
      this.#renewed = Date.now();
    } catch {
      // As of a full disk: it is tried again.
    }
  }

  /** Throws Busy if another program has taken it over, as behind a minute in which this one stood
   *  still. */
  check() {
    const isSure = !this.#isLost && Math.abs(Date.now() - this.#renewed) < SURE_MS;
    if (!isSure) this.#renew();
    if (this.#isLost) throw new Busy(`another program has taken this over: ${this.#path}`);
  }

  /** Lets others take it. */
  giveBack() {
    if (this.#file < 0) return;
    process.off("exit", this.#atExit);
    clearInterval(this.#timer);
    if (this.#isThere()) fs.rmSync(this.#path, { force: true });
    fs.closeSync(this.#file);
    this.#file = -1;
  }
}

/** Takes the lock at a path. It is given back too when the program ends. Throws Busy while another
 *  has it.
 *  @param {string} path
 *  @returns {Lock} */
export function locked(path) {
  for (;;) {
    const found = takenBy(path);
    if (found instanceof Lock) return found;
    if (found === undefined) continue; // it was given back meanwhile
    if (isHeld(found)) {
      throw new Busy(`another program has this open: ${path} has ${found.text.trim()}`);
    }
    removeLeft(path);
  }
}

/** @typedef {{text: string, age: number}} Holder A lock's text, and how many ms ago it was renewed. */

/** Takes the lock if it is free: a link is made whole or not at all. Returns it, or who has it.
 *  @param {string} path
 *  @returns {Lock | Holder | undefined} */
function takenBy(path) {
  const draft = `${path}.${process.pid}-${Math.random().toString(36).slice(2)}`;
  const file = fs.openSync(draft, "wx+");
  try {
    fs.writeSync(file, JSON.stringify({ process: process.pid, since: sinceOf(process.pid),
      space: spaceOf(), host: hostname(), number: count++ }));
    fs.linkSync(draft, path);
    return new Lock(path, file);
  } catch (error) {
    const found = codeOf(error) === "EEXIST" ? holderAt(path, fs.fstatSync(file).mtimeMs) : undefined;
    fs.closeSync(file);
    if (codeOf(error) !== "EEXIST") throw error;
    return found;
  } finally {
    fs.rmSync(draft, { force: true });
  }
}

/** Removes a lock that was left, unless it has gone meanwhile. Who does so has a lock for it, so that
 *  nobody removes the one that another has just taken in its place.
 *  @param {string} path */
function removeLeft(path) {
  const over = lockedSoon(`${path}-over`);
  try {
    const found = holderAt(path, timeBeside(path));
    if (found && !isHeld(found)) fs.rmSync(path, { force: true });
  } finally {
    over.giveBack();
  }
}

/** What the clock of the file system says.
 *  @param {string} path */
const timeBeside = (path) => fs.statSync(`${path}-over`).mtimeMs;

/** Takes a lock that others have for a moment only.
 *  @param {string} path
 *  @returns {Lock} */
function lockedSoon(path) {
  for (const end = Date.now() + OVER_MS; ; ) {
    try {
      return locked(path);
    } catch (error) {
      if (!(error instanceof Busy) || Date.now() > end) throw error;
      Atomics.wait(new Int32Array(new SharedArrayBuffer(4)), 0, 0, PAUSE_MS);
    }
  }
}

/** Who has the lock at a path, if it is there.
 *  @param {string} path
 *  @param {number} now
 *  @returns {Holder | undefined} */
function holderAt(path, now) {
  try {
    const text = fs.readFileSync(path, "utf8");
    return { text, age: now - fs.statSync(path).mtimeMs };
  } catch (error) {
    if (codeOf(error) !== "ENOENT") throw error;
    return undefined;
  }
}

/** Whether the program that a lock names still has it. Of one that can't be seen from here, as of
 *  another machine or container, its time says so.
 *  @param {Holder} holder */
function isHeld({ text, age }) {
  const lock = partsOf(text);
  if (lock.host === undefined) return false;
  if (lock.host !== hostname() || (lock.space ?? spaceOf()) !== spaceOf()) return age < LEFT_MS;
  try {
    process.kill(lock.process, 0);
  } catch (error) {
    if (codeOf(error) !== "EPERM") return false;
  }
  return lock.since === sinceOf(lock.process); // else another process has the number by now
}

/** @param {string} text
 *  @returns {Record<string, any>} */
function partsOf(text) {
  try {
    return JSON.parse(text) ?? {};
  } catch {
    return {};
  }
}

/** When a process began, as Linux counts it; "" elsewhere, "ended" where its parent alone still
 *  knows of it.
 *  @param {number} id */
function sinceOf(id) {
  try {
    const stat = fs.readFileSync(`/proc/${id}/stat`, "utf8");
    const fields = stat.slice(stat.lastIndexOf(")") + 2).split(" ");
    return fields[0] === "Z" ? "ended" : fields[19];
  } catch {
    return "";
  }
}

/** Which processes have their numbers together with this one: a container has its own. "" elsewhere
 *  than on Linux. */
function spaceOf() {
  try {
    return fs.readlinkSync("/proc/self/ns/pid");
  } catch {
    return "";
  }
}

/** @param {unknown} error
 *  @returns {string | undefined} */
export const codeOf = (error) => /** @type {{ code?: string }} */ (error).code;
