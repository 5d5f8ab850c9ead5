/* The fronts of a server's file, by the Python package jcrdt: it reads the file beside a server. */

import { spawn } from "node:child_process";
import { existsSync } from "node:fs";
import { createInterface } from "node:readline";
import { fileURLToPath } from "node:url";
import { pauseBy } from "./client_package.mjs";

/** @typedef {import("../../js/wire.mjs").Front} Front */

const RETRY_MS = 2000;
/** The Python package where it isn't installed: in the repository. */
const PYTHON = fileURLToPath(new URL("../../python", import.meta.url));

/** What is in the file, as `python3 -m jcrdt log --front --follow` says it. */
export class StoredFronts {
  #file;
  #note;
  #clock;
  /** @type {Map<string, Map<string, number>>} */
  #fronts = new Map();
  /** @type {(() => void)[]} */
  #waiting = [];
  /** @type {import("node:child_process").ChildProcess | undefined} */
  #reader;
  #isStopped = false;

  /** @param {string} file
   *  @param {import("./notes.mjs").Note} note
   *  @param {import("../../js/clock.mjs").Clock} clock */
  constructor(file, note, clock) {
    this.#file = file;
    this.#note = note;
    this.#clock = clock;
    this.#keep();
  }

  /** The last counter of each replica among the rows of a document.
   *  @param {string} document */
  front(document) {
    return this.#fronts.get(document) ?? new Map();
  }

  /** Resolves when a front changes, or after so many milliseconds.
   *  @param {number} ms */
  async next(ms) {
    /** @type {Promise<void>} */
    const changed = new Promise((resume) => this.#waiting.push(resume));
    await Promise.race([changed, pauseBy(this.#clock, ms)]);
  }

  stop() {
    this.#isStopped = true;
    this.#reader?.kill();
  }

  async #keep() {
    while (!this.#isStopped) {
      const cause = await this.#read();
      if (this.#isStopped) return;
      this.#fronts.clear(); // a start of its own knows it anew
      this.#note(`${this.#file} can't be read: ${cause}`);
      await pauseBy(this.#clock, RETRY_MS);
    }
  }

  /** Reads until the reader ends, and returns why it did. */
  async #read() {
    const words = ["-m", "jcrdt", "log", "--front", "--follow", this.#file];
    const folders = [existsSync(PYTHON) && PYTHON, process.env["PYTHONPATH"]].filter(Boolean);
    const env = { ...process.env, PYTHONPATH: folders.join(":"), PYTHONDONTWRITEBYTECODE: "1" };
    const reader = spawn("python3", words, { env, stdio: ["ignore", "pipe", "pipe"] });
    this.#reader = reader;
    let cause = "";
    reader.stderr.on("data", (text) => (cause = `${cause}${text}`.slice(-1000)));
    createInterface({ input: reader.stdout }).on("line", (line) => this.#take(line));
    await new Promise((end) => reader.on("close", end).on("error", (error) => {
      cause = error.message;
      end(undefined);
    }));
    return cause.trim().split("\n").at(-1) || "the reader has ended";
  }

  /** @param {string} line */
  #take(line) {
    let read;
    try {
      read = JSON.parse(line);
    } catch {
      return; // what another program writes between
    }
    const [word, document, front] = read;
    if (word === "front") this.#fronts.set(document, new Map(front));
    for (const resume of this.#waiting.splice(0)) resume();
  }
}
