/* A connection of a Redis: commands out, replies in, in their order (RESP2). It tries nothing twice: a
   command whose reply didn't come may have been carried out, and who sent it decides what follows. */

import net from "node:net";
import tls from "node:tls";

/** @typedef {string | number | null | RedisError | any[]} Reply */
/** @typedef {{ host: string, port: number, isSecret: boolean, user: string, password: string,
 *    database: string, name: string }} RedisAddress `name` is without the password. */
/** @typedef {{ resolve: (reply: Reply) => void, reject: (error: Error) => void }} Waiting */

const PORT = 6379;
const CONNECT_MS = 5000;
const TICK_MS = 250;
const WRONG = "redis is HOST:PORT or a URL";
const LINE_END = "\r\n";

/** What Redis refuses. */
class RedisError extends Error {
  name = "RedisError";
}

/** The connection has ended: what was asked last may have been carried out. */
export class RedisAway extends Error {
  name = "RedisAway";
}

/** Reads HOST:PORT, or redis://[[USER]:PASSWORD@]HOST[:PORT][/N], or rediss://.. for TLS.
 *  @param {string} text
 *  @returns {RedisAddress}
 *  @throws {TypeError} for what is none */
export function redisAddress(text) {
  const whole = text.includes("://") ? text : `redis://${text}`;
  const { protocol, hostname, port, username, password, pathname } = urlOf(whole);
  const database = pathname.replace(/^\//, "");
  const isRight = /^rediss?:$/.test(protocol) && hostname !== "" && /^\d*$/.test(database);
  if (!isRight) throw new TypeError(WRONG);
  const host = hostname.replace(/^\[|\]$/g, "");
  return {
    host, port: Number(port || PORT), isSecret: protocol === "rediss:", database,
    user: decodeURIComponent(username), password: decodeURIComponent(password),
    name: `${hostname}:${port || PORT}${database && `/${database}`}`,
  };
}

/** @param {string} text */
function urlOf(text) {
  try {
    return new URL(text);
  } catch {
    throw new TypeError(WRONG);
  }
}

export class Redis {
  /** Whether it takes no more commands. */
  over = false;
  /** Resolves with the cause when it has ended.
   *  @type {Promise<string>} */
  closed;
  #socket;
  #silence;
  #ticks = 0; // since it was heard: they stand still with the process, so nothing is late after a pause
  /** @type {Waiting[]} */
  #waiting = [];
  #answered = 0; // of those that wait
  #replies = new ReplyReader();
  #stopTicks;

  /** @param {RedisAddress} address
   *  @param {number} silence milliseconds that a reply may take
   *  @param {import("../../js/clock.mjs").Clock} clock */
  constructor({ host, port, isSecret }, silence, clock) {
    this.#silence = silence;
    const at = { host, port, noDelay: true, keepAlive: true };
    this.#socket = isSecret ? tls.connect({ ...at, servername: net.isIP(host) ? "" : host })
      : net.connect(at);
    let cause = "the connection has ended";
    this.#socket.on("error", (error) => (cause = error.message || String(error)));
    this.#socket.on("data", (bytes) => this.#take(bytes));
    this.closed = new Promise((resolve) => this.#socket.on("close", () => {
      this.#lose(cause);
      resolve(cause);
    }));
    this.#stopTicks = clock.every(TICK_MS, () => this.#endSilent());
  }

  /** A connection that is greeted. Throws RedisError or RedisAway.
   *  @param {RedisAddress} address @param {number} silence
   *  @param {import("../../js/clock.mjs").Clock} clock */
  static async connected(address, silence, clock) {
    const redis = new Redis(address, Math.min(silence, CONNECT_MS), clock);
    const { user, password, database } = address;
    try {
      if (password) await redis.ask("AUTH", ...(user ? [user] : []), password);
      if (database) await redis.ask("SELECT", database);
      await redis.ask("PING");
      redis.#silence = silence;
      return redis;
    } catch (error) {
      redis.end();
      throw error;
    }
  }

  /** Resolves with the reply of a command. Throws RedisError for what Redis refuses, and RedisAway.
   *  @param {...(string | number)} words
   *  @returns {Promise<any>} */
  ask(...words) {
    if (this.over) return Promise.reject(new RedisAway("the connection has ended"));
    if (this.#waiting.length === 0) this.#ticks = 0;
    const reply = new Promise((resolve, reject) => this.#waiting.push({ resolve, reject }));
    const parts = words.map((word) => `$${Buffer.byteLength(`${word}`)}${LINE_END}${word}${LINE_END}`);
    if (this.#socket.writableCorked === 0) {
      this.#socket.cork();
      queueMicrotask(() => this.#socket.uncork());
    }
    this.#socket.write(`*${words.length}${LINE_END}${parts.join("")}`);
    return reply;
  }

  /** Ends the connection at once. */
  end() {
    this.#socket.destroy();
    this.#lose("the connection has ended");
  }

  /** @param {Buffer} bytes */
  #take(bytes) {
    this.#ticks = 0;
    this.#replies.take(bytes);
    try {
      for (let reply; (reply = this.#replies.next()) !== undefined; ) {
        const waiting = this.#waiting[this.#answered++];
        if (!waiting) throw new Error("a reply that answers no command");
        if (reply instanceof RedisError) waiting.reject(reply);
        else waiting.resolve(reply);
      }
    } catch (error) {
      this.#socket.destroy(/** @type {Error} */ (error));
    }
    this.#waiting.splice(0, this.#answered);
    this.#answered = 0;
  }

  #endSilent() {
    const isLate = ++this.#ticks * TICK_MS > this.#silence;
    if (this.#waiting.length === 0 || !isLate) return;
    this.#socket.destroy(new Error(`no reply for ${this.#silence / 1000} s`));
  }

  /** @param {string} cause */
  #lose(cause) {
    if (!this.over) this.#stopTicks();
    this.over = true;
    for (const { reject } of this.#waiting.splice(0)) reject(new RedisAway(cause));
  }
}

/** Cuts bytes into replies. What of a long one has come is read once. */
class ReplyReader {
  /** @type {Buffer[]} */
  #pieces = [];
  #size = 0;
  #needed = 1; // bytes until it is worth a look
  #bytes = Buffer.alloc(0);
  #at = 0;
  /** Arrays that aren't whole, the outer ones first.
   *  @type {{ items: Reply[], length: number }[]} */
  #open = [];

  /** @param {Buffer} bytes */
  take(bytes) {
    this.#pieces.push(bytes);
    this.#size += bytes.length;
  }

  /** The next reply; `undefined` until it is whole.
   *  @returns {Reply | undefined} */
  next() {
    if (this.#size < this.#needed) return undefined;
    if (this.#pieces.length > 0) {
      this.#bytes = Buffer.concat([this.#bytes.subarray(this.#at), ...this.#pieces.splice(0)]);
      this.#at = 0;
    }
    this.#needed = 1;
    for (;;) {
      const began = this.#at;
      const item = this.#item();
      if (item === undefined) {
        this.#at = began;
        this.#size = this.#bytes.length - began;
        this.#needed = Math.max(this.#needed - began, this.#size + 1);
        return undefined;
      }
      const reply = this.#closed(item);
      if (reply === undefined) continue;
      this.#size = this.#bytes.length - this.#at;
      return reply;
    }
  }

  /** Puts an item where it belongs. Returns what is whole by it.
   *  @param {Reply | { items: Reply[], length: number }} item
   *  @returns {Reply | undefined} */
  #closed(item) {
    if (item !== null && typeof item === "object" && "items" in item) {
      this.#open.push(item);
      if (item.length > 0) return undefined;
      this.#open.pop();
      item = item.items;
    }
    for (;;) {
      const outer = this.#open.at(-1);
      if (!outer) return /** @type {Reply} */ (item);
      outer.items.push(/** @type {Reply} */ (item));
      if (outer.items.length < outer.length) return undefined;
      item = outer.items;
      this.#open.pop();
    }
  }

  /** A reply that is no array, or the beginning of one. */
  #item() {
    const end = this.#bytes.indexOf(LINE_END, this.#at);
    if (end < 0) return undefined;
    const [kind, text] = [String.fromCharCode(this.#bytes[this.#at] ?? 0),
      this.#bytes.toString("utf8", this.#at + 1, end)];
    this.#at = end + LINE_END.length;
    switch (kind) {
      case "+": return text;
      case "-": return new RedisError(text);
      case ":": return Number(text);
      case "$": return this.#bulk(Number(text));
      case "*": return Number(text) < 0 ? null : { items: [], length: Number(text) };
      default: throw new Error("it is no Redis");
    }
  }

  /** @param {number} length */
  #bulk(length) {
    if (length < 0) return null;
    const end = this.#at + length + LINE_END.length;
    if (end > this.#bytes.length) {
      this.#needed = end;
      return undefined;
    }
    const text = this.#bytes.toString("utf8", this.#at, this.#at + length);
    this.#at = end;
    return text;
  }
}
