/* One session of the server: lines out, replies in, in their order. */

import net from "node:net";
import { LineCutter } from "./cutter.mjs";
import { MOST, addressParts, refusalLine } from "./client_package.mjs";

/** The line was sent, and no reply came: it may have been carried out. */
const UNANSWERED = Symbol("unanswered");
/** The line wasn't sent: it wasn't carried out. */
export const NOT_SENT = Symbol("not sent");
/** @typedef {string | typeof UNANSWERED | typeof NOT_SENT} Answer */

const VERSION = '["version"]';
const TOO_LONG = refusalLine("line-too-long");
const REPLY_TOO_LONG = refusalLine("reply-too-long");
const DOCUMENT = /^(\s*\[\s*"(?:[^"\\]|\\.)*"\s*,\s*)"(?:[^"\\]|\\.)*"/;
const HARD_LINES = 9_900; // so many lines more than at its renewal does a session take

/** @typedef {{ answered: (answer: Answer) => void, sentAt: number, isPing: boolean }} Waiting */
/** @typedef {{ server: string, replyBytes: number, linesPerSession: number, clock: () => number,
 *    wornOut: () => void, inner?: string }} LinkOptions `wornOut` is called once so many lines were
 *    sent. `inner` is what the server calls its only document */

/** One connection to the server: a session, with its documents and variables. */
export class Link {
  /** It takes no more lines: its connection has ended, or is to end. Its variables are gone. */
  over = false;
  /** How many lines were sent. The server ends a session after 1,000,000. */
  lines = 0;
  /** When bytes came last, by the clock of the pool. */
  heardAt;
  /** Resolves with the cause when the connection has ended.
   *  @type {Promise<string>} */
  closed;
  /** The reply to `["version"]`, which came before the link was handed out. */
  version = "";
  #socket;
  #clock;
  #linesPerSession;
  #wornOut;
  #inner;
  /** @type {Map<number, Waiting>} by the number of the line */
  #waiting = new Map();
  #answered = 0;
  /** @type {Set<string>} */
  #documents = new Set();
  /** For a document the names of this session that no client has for a variable.
   *  @type {Map<string, string[]>} */
  #free = new Map();

  /** @param {LinkOptions} options */
  constructor({ server, replyBytes, linesPerSession, clock, wornOut, inner }) {
    this.#clock = clock;
    this.#inner = inner;
    this.#linesPerSession = linesPerSession;
    this.#wornOut = wornOut;
    this.heardAt = clock();
    const settings = { noDelay: true, keepAlive: true, keepAliveInitialDelay: 10_000 };
    this.#socket = net.connect({ ...addressParts(server), ...settings });
    const replies = new LineCutter(replyBytes, (line) => {
      this.#reply(line === undefined ? REPLY_TOO_LONG : line.toString());
    });
    this.#socket.on("data", (bytes) => {
      this.heardAt = clock();
      replies.take(bytes);
    });
    let cause = "the server has ended the session";
    this.#socket.on("error", (error) => (cause = error.message));
    this.closed = new Promise((resolve) => this.#socket.on("close", () => {
      this.#lose();
      resolve(cause);
    }));
  }

  /** Resolves with the link once the server serves it, or with the cause why there is none. A
   *  server without a session left accepts the connection, and doesn't reply.
   *  @returns {Promise<Link | string>} */
  async begun() {
    const reply = await Promise.race([this.ask(VERSION), this.closed]);
    if (typeof reply !== "string") return this.closed;
    if (this.over) return reply; // why it has ended
    this.version = reply;
    if (reply.startsWith('["version",')) return this;
    this.destroy("");
    return `it is no server of jcrdt, and answers ${reply.slice(0, 80)}`;
  }

  /** How many lines wait for their replies. */
  get waiting() {
    return this.#waiting.size;
  }

  /** The line that has waited longest for its reply. */
  get oldest() {
    return this.#waiting.get(this.#answered);
  }

  /** Sends a line. Its reply may stand for one that was too long to keep.
   *  @param {string} line
   *  @returns {Promise<Answer>} */
  ask(line) {
    if (this.over) return Promise.resolve(NOT_SENT);
    const sent = this.#inner === undefined ? line : withDocument(line, this.#inner);
    if (sent !== line && Buffer.byteLength(sent) > MOST.line) return Promise.resolve(TOO_LONG);
    /** @type {Promise<Answer>} */
    const answer = new Promise((answered) => {
      const sentAt = this.#clock();
      this.#waiting.set(this.lines++, { answered, sentAt, isPing: line === VERSION });
      this.#write(`${sent}\n`);
    });
    if (this.isWorn) this.#wornOut();
    if (this.lines === this.#linesPerSession + HARD_LINES) this.quit();
    return answer;
  }

  /** What is asked at once goes out at once.
   *  @param {string} text */
  #write(text) {
    if (this.#socket.writableCorked === 0) {
      this.#socket.cork();
      queueMicrotask(() => this.#socket.uncork());
    }
    this.#socket.write(text);
  }

  /** Whether it has sent so many lines that it is to be renewed. */
  get isWorn() {
    return this.lines >= this.#linesPerSession;
  }

  ping() {
    this.ask(VERSION);
  }

  /** Opens a document in this session, unless it is open there. What is asked next comes after it.
   *  @param {string} document */
  open(document) {
    if (this.#documents.has(document)) return;
    this.#documents.add(document);
    this.ask(JSON.stringify(["open", document])).then((reply) => {
      const isOpen = typeof reply === "string" && reply.startsWith('["opened",');
      if (!isOpen) this.#documents.delete(document); // the server has other documents now
    });
  }

  /** Takes a name of this session for a client's variable; `undefined` where all are taken.
   *  @param {string} document */
  takeName(document) {
    const names = () => Array.from({ length: MOST.variables }, (_, at) => `v${at}`);
    const free = this.#free.get(document) ?? names();
    this.#free.set(document, free);
    return free.pop();
  }

  /** The name stays bound at the server. The next client that takes it binds it again.
   *  @param {string} document
   *  @param {string} name */
  giveName(document, name) {
    this.#free.get(document)?.push(name);
  }

  /** Takes no more lines, and ends the connection after the replies that are due. */
  quit() {
    if (this.over) return;
    this.ask('["quit"]').then(() => this.#socket.end());
    this.over = true;
  }

  /** Ends the connection at once.
   *  @param {string} cause */
  destroy(cause) {
    this.#socket.destroy(new Error(cause));
    this.#lose();
  }

  /** @param {string} line */
  #reply(line) {
    const waits = this.#waiting.get(this.#answered);
    // Behind it each reply would be taken for that of another request.
    if (!waits) return this.destroy("a line came that answers no request");
    this.#waiting.delete(this.#answered++);
    waits.answered(line);
  }

  #lose() {
    this.over = true;
    for (const { answered } of this.#waiting.values()) answered(UNANSWERED);
    this.#waiting.clear();
  }
}

/** The line with another name of its document, which is its second string.
 *  @param {string} line @param {string} name */
const withDocument = (line, name) =>
  line.replace(DOCUMENT, (_, before) => `${before}${JSON.stringify(name)}`);
