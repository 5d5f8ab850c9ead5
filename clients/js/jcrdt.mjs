/* The engine of a replica: the proved replica of the server, as jcrdt.wasm has it.

     import { load } from "jcrdt/jcrdt";
     import { Replica, freshName } from "jcrdt";
     await load(); // once: Provider.open and openReplica do it
     const me = new Replica(freshName("ada"), "notes");

   It runs in browsers, in workers and in Node. The module is beside this file. `load({ module })`
   takes it from elsewhere, or its bytes. */

import { Broken, Refused } from "./errors.mjs";
import { isSimple, parse, print } from "./json.mjs";
import { REFUSALS } from "./protocol.mjs";
import { ROOM } from "./runs.mjs";

/** @typedef {import("./operations.mjs").Key} Key */
/** @typedef {import("./operations.mjs").Path} Path */

/** @typedef {object} Answer
 *  @property {any[]} reply As a server's.
 *  @property {string} [line] The operation that was made or delivered, in its written form. */

/** @typedef {object} Engine Answers requests as a server does, but for the document's name, which it
 *    doesn't have: those of REPLICA_REQUESTS in protocol.mjs. To ["cursor",CURSOR] it replies
 *    ["cursor",[PATH,KEY]], which says where it leads, and to ["index",CURSOR] ["index",N]: how many
 *    present elements come up to that one, itself included where it is present. A cursor may start
 *    with a cursor in its written form, [PATH,KEY], in place of 0.
 *  @property {(request: any[]) => Answer} ask Throws Broken where the engine stopped within: then
 *    each later call does.
 *  @property {(request: any[]) => string | undefined} [text] The line of the reply to a request that
 *    makes no operation, unread, where the engine has it so. Throws as `ask`.
 *  @property {() => void} free Gives up its memory. It isn't asked any more.
 *  @property {boolean} [isBroken] */

/** @typedef {(name: string, lines?: string[]) => Engine} Open Makes an engine with a log. Throws
 *    Refused for a line that doesn't fit, with `at`, its index. */

/** @typedef {object} Options
 *  @property {URL | string | BufferSource | WebAssembly.Module} [module] Where jcrdt.wasm is, its
 *    bytes, or the compiled module. By default it is looked for beside this file. */

/** @typedef {object} Exports What the module exports. Addresses and lengths are BigInt.
 *  @property {WebAssembly.Memory} memory
 *  @property {(bytes: bigint) => bigint} malloc
 *  @property {(at: bigint) => void} free
 *  @property {(count: bigint) => void} heap_refuse For tests: refuses the count-th allocation.
 *  @property {(handle: bigint, name: bigint, nameLength: bigint, lines: bigint, length: bigint,
 *    fault: bigint) => bigint} jcrdt_open
 *  @property {(handle: bigint, line: bigint, length: bigint, out: bigint, room: bigint) => bigint
 *    } jcrdt_ask
 *  @property {(handle: bigint, out: bigint, room: bigint) => bigint} jcrdt_again
 *  @property {(handle: bigint) => void} jcrdt_close */

/** A module without anything: it can't be had just where none may be. */
const LEAST = new Uint8Array([0, 97, 115, 109, 1, 0, 0, 0]);
const FORBIDDEN = "WebAssembly is forbidden here, which jcrdt.wasm needs: script-src of the page's"
  + " Content-Security-Policy lacks 'wasm-unsafe-eval'";
const NONE = "there is no WebAssembly here, which jcrdt.wasm needs";
const UNLOADED = "the engine isn't loaded: await load() of jcrdt/jcrdt before, or make the replica by"
  + " openReplica";
const HANDLE = 16; // bytes of a handle
const FAULT = 24; // bytes of a fault: three numbers
const RUNS = new Set(["inserts", "deletes"]);
const DEPTH = 127; // of what the module reads: what is nested deeper is no JSON to it
const encoder = new TextEncoder();
const decoder = new TextDecoder();

/** What makes the engines of new replicas.
 *  @type {Open | undefined} */
let opened;
/** @type {Promise<Open> | undefined} */
let loading;

/** Compiles jcrdt.wasm, once: replicas that are made later use it. With a module it compiles that
 *  one, and they use it instead. Throws an Error that says why the module can't be had, as where a
 *  page's policy forbids it; it may be called again then.
 *  @param {Options} [options]
 *  @returns {Promise<Open>} */
export async function load(options = {}) {
  const { module } = options;
  if (module !== undefined) return (opened = await openerOf(await given(module)));
  if (opened) return opened;
  loading ??= found().then(openerOf).finally(() => (loading = undefined));
  const made = await loading;
  return (opened ??= made);
}

/** What `load` has given. Throws an Error where it hasn't been called.
 *  @returns {Open} */
export function loaded() {
  if (!opened) throw new Error(UNLOADED);
  return opened;
}

/** The module beside this file, or, in a checkout, that of the release. The first alone is named by
 *  a literal in `new URL`, which bundlers look for.
 *  @returns {Promise<BufferSource>} */
function found() {
  const beside = new URL("./jcrdt.wasm", import.meta.url);
  return bytesOf(beside).catch(async (error) => {
    const released = "../../release/jcrdt.wasm";
    const own = await bytesOf(new URL(released, import.meta.url)).catch(() => undefined);
    if (!own) throw error;
    return own;
  });
}

/** @param {URL | string | BufferSource | WebAssembly.Module} from
 *  @returns {Promise<BufferSource | WebAssembly.Module>} */
async function given(from) {
  const isPlace = typeof from === "string" || from instanceof URL;
  return isPlace ? bytesOf(new URL(from, import.meta.url)) : from;
}

/** @param {URL} url
 *  @returns {Promise<BufferSource>} */
async function bytesOf(url) {
  try {
    if (url.protocol !== "file:") return await fetched(url);
    const { readFileSync } = await import("node:fs");
    return readFileSync(url);
  } catch (cause) {
    const { message } = /** @type {Error} */ (cause);
    throw new Error(`jcrdt.wasm can't be had from ${url}: ${message}`, { cause });
  }
}

/** @param {URL} url */
async function fetched(url) {
  const response = await fetch(url);
  if (!response.ok) throw new Error(String(response.status));
  return response.arrayBuffer();
}

/** @param {BufferSource | WebAssembly.Module} from
 *  @returns {Promise<Open>} */
async function openerOf(from) {
  if (typeof WebAssembly !== "object") throw new Error(NONE);
  try {
    return opener(from instanceof WebAssembly.Module ? from : await WebAssembly.compile(from));
  } catch (cause) {
    throw (await isForbidden()) ? new Error(FORBIDDEN, { cause }) : cause;
  }
}

/** Whether no module may be compiled, or used. */
async function isForbidden() {
  try {
    new WebAssembly.Instance(await WebAssembly.compile(LEAST));
    return false;
  } catch {
    return true;
  }
}

/** What opens engines of the module. They share an instance and its memory, which never shrinks. Once
 *  a call has stopped within, what is in that memory isn't relied on: the next ones get another.
 *  @param {WebAssembly.Module} module
 *  @returns {Open} */
export function opener(module) {
  let heap = heapOf(module);
  return (name, lines = []) => {
    if (heap.isBroken) heap = heapOf(module);
    return new Proved(heap, name, lines);
  };
}

/** @param {WebAssembly.Module} module */
function heapOf(module) {
  const { exports } = new WebAssembly.Instance(module, {});
  return new Heap(/** @type {Exports} */ (/** @type {unknown} */ (exports)));
}

/** Room in the module's memory for what goes in, or comes out. */
class Room {
  at = 0n;
  /** @type {Uint8Array} Its bytes. The memory takes another buffer when it grows: then it has none. */
  #bytes = new Uint8Array();
  #length = 0;

  /** @param {Exports} exports */
  constructor(exports) { this.exports = exports; }

  /** Makes it at least so large. What was in it is lost then. Throws Refused (22) where there is no
   *  memory.
   *  @param {number} length */
  grow(length) {
    if (length <= this.#length) return;
    const least = Math.max(length, ROOM);
    const at = taken(this.exports, least);
    this.exports.free(this.at);
    [this.at, this.#length, this.#bytes] = [at, least, new Uint8Array()];
  }

  /** Gives it back where it is larger than most calls need. */
  shrink() {
    if (this.#length <= ROOM) return;
    this.exports.free(this.at);
    [this.at, this.#length, this.#bytes] = [0n, 0, new Uint8Array()];
  }

  get bytes() {
    if (this.#bytes.length === 0) this.#bytes = bytesAt(this.exports, this.at, this.#length);
    return this.#bytes;
  }
}

/** The address of so many bytes. Throws Refused (22) where there is no memory.
 *  @param {Exports} exports
 *  @param {number} length */
function taken(exports, length) {
  const at = exports.malloc(BigInt(length));
  if (at === 0n) throw new Refused(REFUSALS["no-memory"]);
  return at;
}

/** @param {Exports} exports
 *  @param {bigint} at
 *  @param {number} length */
const bytesAt = (exports, at, length) =>
  new Uint8Array(exports.memory.buffer, Number(at), length);

/** The module's memory, with room for the line that goes in and the text that comes out. */
class Heap {
  /** Whether a call has stopped within. While one goes on it counts as such: where the stack is
   *  exhausted nothing can be noted any more. */
  isBroken = false;
  #in;
  #out;

  /** @param {Exports} exports */
  constructor(exports) {
    this.exports = exports;
    this.#in = new Room(exports);
    this.#out = new Room(exports);
  }

  /** Does what calls the module. What it throws but for a refusal has stopped a call within: an
   *  exhausted stack, as a rule. Then this memory isn't used any more.
   *  @template T
   *  @param {() => T} work
   *  @returns {T} */
  run(work) {
    if (this.isBroken) throw new Broken("an earlier call has");
    this.isBroken = true;
    try {
      const found = work();
      this.isBroken = false;
      return found;
    } catch (error) {
      if (!(error instanceof Refused)) throw new Broken(error);
      this.isBroken = false;
      throw error;
    }
  }

  /** Puts a text where calls read it, and makes room for what they give. Returns how many bytes it has.
   *  Throws Refused (22) where there is no memory: no call is made then.
   *  @param {string} text */
  put(text) {
    this.#in.grow(Math.max(1, text.length * 3));
    this.#out.grow(ROOM);
    return encoder.encodeInto(text, this.#in.bytes).written ?? 0;
  }

  get in() { return this.#in.at; }

  /** The text that a call gives, or gives again where the room was too small for it. Throws Refused (22)
   *  where there is no memory for that: the call was made.
   *  @param {(at: bigint, room: bigint) => bigint} call
   *  @param {(at: bigint, room: bigint) => bigint} again */
  given(call, again) {
    const room = this.#out.bytes.length;
    const length = Number(call(this.#out.at, BigInt(room)));
    if (length > room) {
      this.#out.grow(length);
      again(this.#out.at, BigInt(length));
    }
    const text = decoder.decode(this.#out.bytes.subarray(0, length));
    this.#out.shrink();
    return text;
  }

  /** Gives back the room of a text that was put, where it was a large one. */
  shrink() { this.#in.shrink(); }
}

/** Whether a value has more arrays and objects within each other.
 *  @param {any} value
 *  @param {number} depth
 *  @returns {boolean} */
function isDeeper(value, depth) {
  if (typeof value !== "object" || value === null) return false;
  const all = Array.isArray(value) ? value : Object.values(value);
  return depth === 0 || all.some((inner) => isDeeper(inner, depth - 1));
}

/** The line of a request. What JSON doesn't have is written as NO_VALUE.
 *  @param {any[]} request */
const written = (request) =>
  isSimple(request) ? JSON.stringify(request) : print(writable(request));

/** What stands for a value that no operation can have, as NaN: what is there then is refused for the
 *  same cause. */
const NO_VALUE = { "": 0 };

/** The request with NO_VALUE in place of what JSON doesn't have.
 *  @param {any} value
 *  @returns {any} */
function writable(value) {
  if (Array.isArray(value)) return value.map(writable);
  if (typeof value === "object" && value !== null) {
    return Object.keys(value).length === 0 ? value : NO_VALUE;
  }
  const isWritable = value === null || ["string", "boolean", "bigint"].includes(typeof value);
  return isWritable || Number.isFinite(value) ? value : NO_VALUE;
}

/** Gives back the memory of an engine that nobody has any more, where `free` wasn't called. */
const abandoned = typeof FinalizationRegistry === "undefined" ? undefined :
  new FinalizationRegistry(
    (/** @type {{heap: Heap, handle: bigint}} */ { heap, handle }) => release(heap, handle));

/** @param {Heap} heap
 *  @param {bigint} handle */
function release(heap, handle) {
  if (heap.isBroken) return;
  heap.run(() => {
    heap.exports.jcrdt_close(handle);
    heap.exports.free(handle);
  });
}

/** An open replica in the module's memory.
 *  @implements {Engine} */
class Proved {
  #heap;
  #handle = 0n;

  /** @param {Heap} heap
   *  @param {string} name
   *  @param {string[]} lines */
  constructor(heap, name, lines) {
    this.#heap = heap;
    this.#handle = heap.run(() => this.#opened(name, lines));
    abandoned?.register(this, { heap, handle: this.#handle }, this);
  }

  get isBroken() { return this.#heap.isBroken; }

  /** @param {string} name
   *  @param {string[]} lines */
  #opened(name, lines) {
    const { exports } = this.#heap;
    const handle = taken(exports, HANDLE);
    bytesAt(exports, handle, HANDLE).fill(0);
    try {
      this.#open(handle, name, lines);
    } catch (error) {
      if (error instanceof Refused) exports.free(handle);
      throw error;
    }
    return handle;
  }

  /** @param {bigint} handle
   *  @param {string} name
   *  @param {string[]} lines */
  #open(handle, name, lines) {
    const { exports } = this.#heap;
    const fault = taken(exports, FAULT + 32);
    const at = fault + BigInt(FAULT);
    try {
      const { written = 0 } = encoder.encodeInto(name, bytesAt(exports, at, 32));
      const length = this.#heap.put(lines.length > 0 ? `${lines.join("\n")}\n` : "");
      const number = exports.jcrdt_open(handle, at, BigInt(written), this.#heap.in,
        BigInt(length), fault);
      if (number !== 0n) throw this.#refusal(fault);
    } finally {
      exports.free(fault);
      this.#heap.shrink();
    }
  }

  /** @param {bigint} at */
  #refusal(at) {
    const { buffer, byteOffset } = bytesAt(this.#heap.exports, at, FAULT);
    const [number, last, place] = [...new BigUint64Array(buffer, byteOffset, 3)].map(Number);
    const refused = new Refused(number, undefined, number === REFUSALS.forked ? last : undefined);
    return Object.assign(refused, { at: place });
  }

  /** Answers a request. `line` is the operation that it made. Throws Refused (22) where memory
   *  lacks for the request or for what came of it.
   *  @param {any[]} request
   *  @returns {Answer} */
  ask(request) {
    if (this.#handle === 0n) throw new TypeError("this replica was freed");
    if (isDeeper(request, DEPTH)) return { reply: new Refused(REFUSALS["not-json"]).reply };
    const line = written(request);
    return this.#heap.run(() => {
      const length = this.#heap.put(line);
      const [first, second] = RUNS.has(request[0]) ? this.#linesOfRun(length) : this.#linesFor(length);
      const reply = parse(first);
      return second === "" ? { reply } : { reply, line: second };
    });
  }

  /** As `#linesFor`. Where the text needs more than ROOM, memory may lack for that of a run that was made:
   *  then this memory isn't used any more, since nobody knows what was made.
   *  @param {number} length
   *  @returns {[string, string]} */
  #linesOfRun(length) {
    try {
      return this.#linesFor(length);
    } catch (cause) {
      throw cause instanceof Refused ? new Error("memory lacks for the text of a run", { cause }) : cause;
    }
  }

  /** Answers a request that makes no operation by the line of its reply.
   *  @param {any[]} request
   *  @returns {string} */
  text(request) {
    if (this.#handle === 0n) throw new TypeError("this replica was freed");
    const line = written(request);
    return this.#heap.run(() => this.#linesFor(this.#heap.put(line))[0]);
  }

  /** The reply's line to the request that was put, and the operation's where it made one.
   *  @param {number} length
   *  @returns {[string, string]} */
  #linesFor(length) {
    const { exports } = this.#heap;
    const handle = this.#handle;
    const text = this.#heap.given(
      (out, room) => exports.jcrdt_ask(handle, this.#heap.in, BigInt(length), out, room),
      (out, room) => exports.jcrdt_again(handle, out, room));
    const end = text.indexOf("\n");
    if (end < 0) throw new Refused(REFUSALS["no-memory"]);
    return [text.slice(0, end), text.slice(end + 1, -1)];
  }

  /** Gives up its memory. It isn't asked any more. */
  free() {
    if (this.#handle === 0n) return;
    abandoned?.unregister(this);
    const handle = this.#handle;
    this.#handle = 0n;
    release(this.#heap, handle);
  }
}
