/* A server that the hub started, for one document. It drains when its input ends, which is also when
   this process is killed. */

import { spawn } from "node:child_process";
import { createInterface } from "node:readline";
import { freshName } from "./client_package.mjs";

const WORD = "hub"; // what the names of its replicas begin with

const DRAIN_SECONDS = 10; // that its sessions have to end
const FAILED = "copying stopped";
const KILL_MS = 60_000; // so long it may take to end: what it answered is in its file by then

/** @typedef {object} Serving What a server is started with.
 *  @property {string} program
 *  @property {string} file
 *  @property {string} document
 *  @property {number} clients Sessions that it has at once. */

export class ServerProcess {
  /** Where it listens, HOST:PORT, while it does.
   *  @type {string | undefined} */
  address;
  /** Resolves with the address; with `undefined` where it ends before.
   *  @type {Promise<string | undefined>} */
  listening;
  /** Resolves when it has ended, with the cause in words: "" where it ended as it should.
   *  @type {Promise<string>} */
  ended;
  /** How many operations its file had at the end, if it said so.
   *  @type {number | undefined} */
  stored;
  #child;
  #lastWord = "";
  #note;

  /** @param {Serving} serving @param {(text: string) => void} note */
  constructor({ program, file, document, clients }, note) {
    this.#note = note;
    // A name that no start had: so a copy of the file, or an older one in its place, does no harm.
    const name = freshName(WORD);
    const words = ["serve", "--addr", "127.0.0.1:0", "--clients", `${clients}`, "--file", file,
      "--name", name, "--durable", "--until-input-ends", "--drain", `${DRAIN_SECONDS}`, "--", document];
    // A group of its own: Ctrl-C in a terminal ends the hub, which then ends it.
    this.#child = spawn(program, words, { stdio: ["pipe", "pipe", "pipe"], detached: true });
    this.#child.stdin.on("error", () => {}); // it has ended
    createInterface({ input: this.#child.stderr }).on("line", (line) => this.#hear(line));
    /** @type {(address: string | undefined) => void} */
    let listens = () => {};
    this.listening = new Promise((resolve) => (listens = resolve));
    createInterface({ input: this.#child.stdout }).on("line", (line) => {
      const [word, item, ...counts] = parsed(line);
      if (word === "listening") listens(this.address = item);
      if (word === "total") this.stored = counts[2];
    });
    this.ended = new Promise((resolve) => {
      this.#child.on("error", (error) => resolve(error.message));
      this.#child.on("close", (status, signal) => resolve(this.#cause(status, signal)));
    });
    this.ended.then(() => listens(this.address = undefined));
  }

  /** @param {number | null} status @param {NodeJS.Signals | null} signal */
  #cause(status, signal) {
    if (status === 0) return "";
    return signal ? `it was ended by ${signal}` : this.#lastWord || `it ended with status ${status}`;
  }

  /** @param {string} line */
  #hear(line) {
    if (line.startsWith("[INFO ")) return;
    this.#lastWord = line.replace(/^jcrdt: /, "");
    if (line.startsWith("[")) this.#note(line);
    // Once its file has failed, as on a full disk, it writes nothing more: another start may.
    if (line.includes(FAILED)) this.#child.stdin.end();
  }

  /** Lets it drain, and resolves with the cause when it has ended: see `ended`. */
  async stop() {
    this.#child.stdin.end();
    const timer = setTimeout(() => this.#child.kill("SIGKILL"), KILL_MS);
    return this.ended.finally(() => clearTimeout(timer));
  }
}

/** @param {string} line @returns {any[]} */
function parsed(line) {
  try {
    const read = JSON.parse(line);
    return Array.isArray(read) ? read : [];
  } catch {
    return [];
  }
}
