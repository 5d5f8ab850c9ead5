/* A server, or a hub before it, within this program, and programs with stores in files. Each line, kill and pause
   comes when the dice say so: the same seed does the same again. Isn't run by itself. */

import { webcrypto } from "node:crypto"; // the global one, which Node 18 hasn't
import { readFileSync, writeFileSync } from "node:fs";
import { Replica } from "../replica.mjs";
import { Provider } from "../provider.mjs";
import { fileStore } from "../file_store.mjs";
import { isRefusedBy } from "../protocol.mjs";
import { parse, print } from "../json.mjs";
import { TestClock } from "./clock.mjs";
import { dice, random } from "./random.mjs";

const DOCUMENT = "d";
const PAGE = 64;
const SERVER_AWAY = '["no",101,"server-away"]';
const SERVER_LOST = '["no",100,"server-lost"]';

/** Lets all go on that waits for nothing but this program.  */
const settled = () => new Promise((resume) => setImmediate(resume));

/** Makes the random parts of names by a seed.
 *  @param {number} seed */
export function seedNames(seed) {
  const next = random(seed);
  /** @param {any} bytes */
  const fill = (bytes) => bytes.map(() => Math.floor(next() * 256));
  Object.defineProperty(webcrypto, "getRandomValues", {
    configurable: true, value: (/** @type {any} */ bytes) => (bytes.set(fill(bytes)), bytes),
  });
}

/** The end of a connection that a program has, in the form of a WebSocket. */
class Socket {
  readyState = 0;
  /** @type {Map<string, ((event: any) => void)[]>} */
  #listeners = new Map();

  /** @param {World} world */
  constructor(world) {
    /** Lines on their way to the server, and to the program.
     *  @type {string[]} */
    this.up = [];
    /** @type {string[]} */
    this.down = [];
    /** How much of the log was pushed; nothing while nothing is to be.
     *  @type {number | undefined} */
    this.pushed = undefined;
    this.number = 0; // of the last push
    this.world = world;
    world.sockets.add(this);
  }

  addEventListener(name, heard) {
    this.#listeners.set(name, [...(this.#listeners.get(name) ?? []), heard]);
  }

  #tell(name, event = {}) {
    for (const heard of this.#listeners.get(name) ?? []) heard(event);
  }

  send(line) { if (this.readyState === 1) this.up.push(line); }

  begin() {
    this.readyState = 1;
    this.#tell("open");
  }

  receive() {
    this.#tell("message", { data: this.down.shift() });
  }

  /** Ends it: what is on its way is lost. */
  close() {
    if (this.readyState === 3) return;
    this.readyState = 3;
    this.world.sockets.delete(this);
    this.#tell("close");
  }

  terminate() { this.close(); }
}

/** What happens to a document: a server with a file, a way to it, and programs. */
export class World {
  /** @type {Set<Socket>} */
  sockets = new Set();
  /** @type {Program[]} */
  programs = [];
  clock = new TestClock();
  /** What has happened, for who looks for a fault.
   *  @type {string[]} */
  trace = [];
  #starts = 0;

  /** @param {string} folder
   *  @param {number} seed
   *  @param {{ kind?: "server" | "hub" | "pushes", isDurable?: boolean, hasChains?: boolean, isOld?: boolean }} [options]
   *    `hasChains`: whether it gives digests, if the engine does; `isOld`: whether stores are copied as those of an older
   *    package, which don't say which file they are */
  constructor(folder, seed, { kind = "pushes", isDurable = false, hasChains = true, isOld = false } = {}) {
    this.folder = folder;
    this.dice = dice(seed);
    this.kind = kind;
    this.isDurable = isDurable;
    this.hasChains = hasChains;
    this.isOld = isOld;
    this.isUp = true; // whether the server runs
    /** @type {string[]} */
    this.stored = [];
    this.#start([]);
  }

  /** @param {string[]} lines */
  #start(lines) {
    this.log = [...lines];
    this.replica = Replica.restore([print(["replica", `srv-${++this.#starts}`, DOCUMENT]), ...lines]);
    this.replica.listen(({ lines: more }) => this.log.push(...more));
    this.isUp = true;
  }

  say(...words) { this.trace.push(words.join(" ")); }

  // ---- The server

  /** What the file has may be less than what was answered. */
  store() {
    const more = this.log.length - this.stored.length;
    this.stored = this.log.slice(0, this.stored.length + (this.isDurable ? more : this.dice.below(more + 1)));
  }

  /** Ends the server by a kill. A hub's connections stay, those of a server end. */
  kill() {
    if (!this.isUp) return;
    this.store();
    this.say("kill of the server, lost", this.log.length - this.stored.length);
    this.isUp = false;
    for (const it of [...this.sockets]) if (this.kind === "server") it.close();
  }

  startAgain() {
    if (this.isUp) return;
    this.#start(this.stored);
    this.say("start of the server");
    for (const it of this.sockets) {
      if (it.pushed === undefined) continue;
      it.down.push('["reopened",[]]', print(["changed", DOCUMENT, this.replica.front()]));
      [it.pushed, it.number] = [this.log.length, it.number + 1 + this.dice.below(3)];
    }
  }

  /** Ends the hub by a kill. */
  killHub() {
    this.say("kill of the hub");
    for (const it of [...this.sockets]) it.close();
  }

  /** Answers the first line of a connection.
   *  @param {Socket} socket */
  #answer(socket) {
    const line = /** @type {string} */ (socket.up.shift());
    const [word, , ...items] = parse(line);
    const isChange = word === "deliver";
    if (!this.isUp && word !== "version") {
      if (!(isChange && this.dice.chance(0.5))) return void socket.down.push(SERVER_AWAY);
      return void socket.down.push(SERVER_LOST);
    }
    if (isChange) this.say(names.get(socket) ?? "?", "delivers", line.slice(14, 200));
    socket.down.push(this.#reply(socket, word, items));
    if (word === "watch") {
      socket.down.push(print(["changed", DOCUMENT, this.replica.front()]));
      if (items.length > 0) socket.pushed = this.log.length;
    }
    if (isChange) this.say("  ", socket.down.at(-1));
  }

  /** @param {Socket} socket
   *  @param {string} word
   *  @param {any[]} items
   *  @returns {string} */
  #reply(socket, word, [first, second]) {
    if (word === "version") return '["version",2]';
    if (word === "open") return '["opened",1]';
    if (word === "front") return print(["front", this.replica.front()]);
    if (word === "ops" || word === "page") return print(["ops", this.#page(first)]);
    if (word === "watch" && this.kind === "pushes") return '["watching"]';
    if (!["deliver", "forget", ...(this.hasChains ? ["chains"] : [])].includes(word)) return '["no",2,"bad-request"]';
    try {
      if (word === "chains") return print([word, this.replica.chains(new Map(first), new Map(second))]);
      if (word === "deliver") return print(this.replica.deliver(first));
      this.replica.forget(first);
      return '["forgotten"]';
    } catch (refused) {
      return print(/** @type {any} */ (refused).reply);
    }
  }

  /** @param {any} front */
  #page(front) {
    const page = [];
    for (const op of this.replica.operations(front)) if (page.push(op) === PAGE) break;
    return page;
  }

  /** @param {Socket} socket */
  #push(socket) {
    const from = /** @type {number} */ (socket.pushed);
    const lines = this.log.slice(from, from + 1 + this.dice.below(PAGE));
    socket.pushed = from + lines.length;
    socket.down.push(`["logged",${print(DOCUMENT)},${++socket.number},[${lines}]]`);
  }

  // ---- What goes on

  /** What may happen next on the connections. */
  #moves() {
    /** @type {(() => void)[]} */
    const moves = [];
    for (const it of this.sockets) {
      if (it.readyState === 0) moves.push(() => (this.kind === "server" && !this.isUp ? it.close() : it.begin()));
      if (it.up.length > 0) moves.push(() => this.#answer(it));
      if (it.down.length > 0) moves.push(() => it.receive());
      if (this.isUp && it.pushed !== undefined && it.pushed < this.log.length) moves.push(() => this.#push(it));
    }
    return moves;
  }

  /** Lets so many things happen, if there is something.
   *  @param {number} count */
  async run(count) {
    for (let step = 0; step < count; step++) {
      await settled();
      const moves = this.#moves();
      if (moves.length > 0) this.dice.pick(moves)();
      else this.clock.pass(100);
    }
    await settled();
  }

  /** Lets things happen until a promise resolves.
   *  @template T
   *  @param {Promise<T>} promise
   *  @returns {Promise<T>} */
  async until(promise) {
    let isDone = false;
    promise.then(() => (isDone = true), () => (isDone = true));
    for (let step = 0; !isDone; step++) {
      if (step > 200_000) throw new Error("it goes on and on");
      await this.run(1);
    }
    return promise;
  }

  /** @param {string} name
   *  @returns {Promise<Program>} */
  async begun(name) {
    const it = new Program(this, name);
    this.programs.push(it);
    await it.open();
    return it;
  }

  /** Whose the next connection is.
   *  @param {string} name */
  socketClass(name) {
    const world = this;
    return class extends Socket {
      constructor() {
        super(world);
        names.set(this, name);
      }
    };
  }
}

/** @type {WeakMap<Socket, string>} */
const names = new WeakMap();

/** A program over a store in a file. */
export class Program {
  /** Operations that it said it couldn't make again.
   *  @type {string[]} */
  lost = [];
  goesOn = true; // with what the server has, where that differs

  /** @param {World} world
   *  @param {string} name */
  constructor(world, name) {
    this.world = world;
    this.name = name;
    this.file = `${world.folder}/${name}`;
  }

  async open() {
    const { world } = this;
    this.provider = await Provider.open({
      document: DOCUMENT, at: "ws://simulated", WebSocket: world.socketClass(this.name), clock: world.clock,
      random: world.dice.next, isOnline: false, word: "me", store: fileStore(this.file),
    });
    this.provider.listen(({ what }) => what === "problem" && this.#note());
    this.provider.listen(({ what }) => what === "state" && this.goesOn && this.#goOn(1e6).catch(() => {}));
    this.#note();
    world.say(this.name, "opens as", this.replica.name);
  }

  #note() {
    for (const { kind, words, lines = [] } of this.provider.problems.values()) {
      this.world.say(this.name, "has the problem", kind, words, ...lines);
      if (["remade", "unread"].includes(kind)) this.lost.push(...lines);
    }
  }

  get replica() { return this.provider.replica; }

  /** Goes on with what the server has, where that differs. Resolves whether it does.
   *  @param {number} seconds */
  async #goOn(seconds) {
    const { differs } = this.provider.state.refused ?? {};
    if (!differs) return false;
    this.world.say(this.name, "differs in", differs.name, differs.counter);
    await this.provider.remakeRefused({ seconds });
    return true;
  }

  /** Has exchanged everything, whatever differs.
   *  @param {number} seconds */
  async synced(seconds) {
    try {
      await this.provider.synced(seconds);
    } catch (error) {
      if (!(await this.#goOn(seconds))) throw error;
      await this.synced(seconds);
    }
  }

  async close() {
    await this.world.until(this.provider.close());
    this.world.say(this.name, "closes");
  }

  /** As a kill leaves it: what was stored is there, and nothing was said to anybody. */
  async kill() {
    this.provider.goOffline();
    const bytes = readFileSync(this.file);
    await this.close();
    writeFileSync(this.file, bytes);
    this.world.say(this.name, "was killed");
  }

  /** Another program over a copy of the store as it is.
   *  @param {string} name */
  async copied(name) {
    const text = readFileSync(this.file, "utf8");
    const isOld = this.world.isOld;
    writeFileSync(`${this.world.folder}/${name}`, isOld ? text.replace(/^(\["session","[^"]*"),"[^"]*"\]$/gm, "$1]") : text);
    this.world.say(this.name, "is copied to", name);
    return this.world.begun(name);
  }
}
