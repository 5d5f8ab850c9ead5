/* Random sessions of one document, with the reply to each line according to a replica. Isn't run
   by itself. */

import { Refused, Replica, checkedInteger, checkedScalar, parse, print } from "../index.mjs";
import { isId } from "../operations.mjs";
import { dice } from "./random.mjs";

const CHANGES = ["assign", "insert", "add", "delete"];
const READINGS = ["show", "items", "conflicts", "keys", "values", "sum"];
// Texts that differ in the order of UTF-8 and UTF-16, with each escape, at their limits.
const KEYS = ["", "a", "b", '\0\x1f"\\/', "é", "\ufb01", "😀", "𐀀", "\uffff", "z".repeat(128)];
const TEXTS = ["", "x", "a\n\t\b\f\r\x01\x7f\u2028", "😀é\ufb01", "v".repeat(4096)];
const NUMBERS = [0, 1, -7, 2 ** 53 - 1, 2n ** 53n + 1n, 2n ** 63n - 1n, -(2n ** 63n)];
const VALUES = [...TEXTS, ...NUMBERS, true, false, null, {}, {}, {}, {}, [], [], [], []];
// What no operation can hold.
const BAD_VALUES = [1.5, 2n ** 63n, [1], { a: 1 }, "v".repeat(4097), "é".repeat(2049)];

const refusedReply = ({ number, name, lastCounter }) =>
  print(["no", number, name, ...(lastCounter === undefined ? [] : [lastCounter])]);

/** What a session answers, by a replica of the server's name. */
export class Session {
  variables = new Map();
  account = 0;

  constructor(name, doc, engine) {
    this.replica = new Replica(name, doc, { engine });
  }

  answer(line) {
    const logged = this.replica.count;
    try {
      const request = parse(line);
      return this.#reply(...(Array.isArray(request) ? request : []));
    } catch (error) {
      if (error instanceof SyntaxError) return '["no",1,"not-json"]';
      if (error instanceof Refused) return refusedReply(error);
      throw error;
    } finally {
      this.account += this.replica.count - logged;
    }
  }

  #reply(word, doc, ...rest) {
    if (word === "version") return '["version",2]';
    if (word === "quit") return '["bye"]';
    if (!isRequest(word, rest)) throw new Refused(2);
    if (word === "ops" && !isAscending(rest[0])) throw new Refused(13);
    if (doc !== this.replica.doc) throw new Refused(4, "no-such-document");
    if (word === "open") return '["opened",1]';
    if (word === "let") return this.#bind(...rest);
    if (word === "front") return print(["front", this.replica.front()]);
    if (word === "held") return print(["waiting", this.replica.held()]);
    if (word === "account") return print(["account", this.account]);
    // As in `run`, which has no file.
    if (word === "size") return print([word, this.replica.count, 0, this.replica.front().length]);
    if (word === "copied") return print([word, false]);
    if (word === "forget") return this.replica.forget(rest[0]) ?? '["forgotten"]';
    if (word === "deliver") return print(this.replica.deliver(rest[0]));
    if (word === "ops") return print(["ops", page(this.replica, ...rest).map(parse)]);
    // A reply has the sum as text.
    if (word === "sum") return print([word, String(this.replica.sum(this.#place(rest[0])))]);
    if (READINGS.includes(word)) return print([word, this.replica[word](this.#place(rest[0]))]);
    return this.#change(word, ...rest);
  }

  #change(word, cursor, value) {
    // A server looks at the value before the variable.
    if (word !== "delete") checkedOperand(word, value);
    const before = { logged: this.replica.count, held: this.replica.held().length };
    const id = this.replica[word](this.#place(cursor), value);
    const count = this.replica.count - before.logged;
    const dropped = before.held - this.replica.held().length - (count - 1);
    return print(["applied", count, dropped, id]);
  }

  #bind(name, cursor) {
    const place = this.replica.place(this.#place(cursor));
    const isFull = this.variables.size >= 64 && !this.variables.has(name);
    if (isFull) throw new Refused(23, "variables-full");
    this.variables.set(name, place);
    return '["bound"]';
  }

  #place([start, ...steps]) {
    return [...(this.variables.get(start) ?? [start]), ...steps];
  }
}

/** Refuses a value that no operation holds. */
function checkedOperand(word, value) {
  if (word === "add") return checkedInteger(value);
  if (typeof value !== "object" || value === null) return checkedScalar(value);
  if (Object.keys(value).length > 0) throw new Refused(6);
}

const isAscending = (front) => front.every(([name], at) => at === 0 || front[at - 1][0] < name);

/** Whether the items behind a word and a document's name are those of a request. */
function isRequest(word, items) {
  const none = ["open", "front", "held", "account", "size"];
  const one = ["deliver", "forget", "copied", "delete", ...READINGS];
  const count = none.includes(word) ? 0 : one.includes(word) ? 1 : 2;
  if (items.length !== count) return false;
  if (word === "copied") return isId(items[0]);
  if (word === "ops") return items[1] >= 1 && items[1] <= 64;
  if (![...CHANGES, ...READINGS, "let"].includes(word)) return true;
  const cursor = items[word === "let" ? 1 : 0];
  return Array.isArray(cursor) && (cursor[0] === 0 || typeof cursor[0] === "string");
}

/** In log order, the first lines that a front doesn't cover. */
function page(replica, front, limit) {
  const found = [];
  for (const op of replica.operations(front)) {
    if (found.push(print(op)) >= limit) break;
  }
  return found;
}

/** An array that follows a list by the splices that a replica reports. */
function watched(replica, cursor) {
  const model = [];
  replica.watch(cursor, (splices) => {
    for (const { index, remove, insert } of splices) model.splice(index, remove, ...insert);
  });
  return model;
}

/** A session with peers that edit, exchange and deliver in any order, some of it false. */
export class RandomSession {
  lines = [];
  replies = [];
  #pool = []; // lines of the operations that peers made, in a causal order
  #delivered = 0; // how many of these were delivered in their order

  constructor(doc, seed, engine) {
    this.next = dice(seed).next;
    this.doc = doc;
    this.session = new Session("srv-1", doc, engine);
    this.replica = this.session.replica;
    const names = ["p", "q-1", "z"].slice(0, this.#below(3) + 1);
    this.peers = names.map((name) => new Replica(name, doc, { engine }));
    for (const peer of this.peers) {
      peer.listen(({ lines, why }) => why === "taken" || this.#pool.push(...lines));
    }
    const lists = this.peers.flatMap((peer) => [[peer, [0]], [peer, [0, "a"]]]);
    this.watched = lists.map(([peer, cursor]) => ({ peer, cursor, model: watched(peer, cursor) }));
    this.#ask("open");
    const steps = this.#chance(0.03) ? 1000 : 20 + this.#below(100);
    for (let at = 0; at < steps; at++) this.#step();
    this.#deliverAll();
    this.#readAll([0], this.replica.show([0]));
    this.#ask("ops", [], 64);
  }

  #below = (limit) => Math.floor(this.next() * limit);
  #pick = (items) => items[this.#below(items.length)];
  #chance = (share) => this.next() < share;

  #send(line) {
    this.lines.push(line);
    this.replies.push(this.session.answer(line));
  }

  #ask(word, ...items) {
    this.#send(print([word, this.doc, ...items]));
  }

  #deliver(line) {
    this.#send(`["deliver",${print(this.doc)},${line}]`);
  }

  #step() {
    const steps = [
      [35, () => this.#edit(this.#pick(this.peers))],
      [16, () => this.#request()],
      [22, () => this.#deliverSome()],
      [12, () => this.#take(this.#pick(this.peers), this.#pick([this.replica, ...this.peers]))],
      [6, () => this.#deliverFalse()],
      [5, () => this.#read(this.#cursor(this.replica, this.#chance(0.1)))],
      [2, () => ["held", "front", "account"].forEach((word) => this.#ask(word))],
      [1, () => this.#ask("forget", this.#pick([...this.replica.held(), [[1, "nobody"]]])[0])],
      [1, () => this.#ask("ops", this.#someFront(), this.#below(65))],
    ];
    let left = this.next() * 100;
    steps.find(([share]) => (left -= share) < 0)[1]();
  }

  /** Delivers what is next, or any operation: early ones are held, known ones come again. */
  #deliverSome() {
    const isInOrder = this.#chance(0.6);
    const lines = isInOrder ? this.#pool.slice(this.#delivered, this.#delivered + 6) : this.#pool;
    if (lines.length === 0) return;
    if (!isInOrder) return this.#deliver(this.#pick(lines));
    lines.forEach((line) => this.#deliver(line));
    this.#delivered += lines.length;
  }

  #someFront() {
    const pairs = this.replica.front().filter(() => this.#chance(0.5));
    return pairs.map(([name, counter]) => [name, Math.max(1, counter - this.#below(3))]);
  }

  /** A random place, most often one that a replica shows. */
  #cursor(replica, isInsertion) {
    const cursor = [0];
    const branch = (word, shown) => shown.find(([kind]) => kind === word)?.[1] ?? [];
    let shown = replica.show([0]);
    for (let depth = this.#below(4); depth > 0; depth--) {
      const [fields, elements] = [branch("map", shown), branch("list", shown)];
      if (elements.length && this.#chance(fields.length ? 0.5 : 0.85)) {
        const at = this.#below(elements.length);
        cursor.push(at + 1);
        shown = elements[at];
      } else {
        const isShown = fields.length > 0 && this.#chance(0.8);
        const [key, inner] = isShown ? this.#pick(fields) : [this.#pick(KEYS), []];
        cursor.push(key);
        shown = inner;
      }
    }
    if (isInsertion) return [...cursor, this.#below(branch("list", shown).length + 1)];
    if (this.#chance(0.03)) cursor.push(this.#pick([0, 1, 99]));
    if (this.#chance(0.01)) cursor.push("w".repeat(129));
    if (this.#chance(0.01)) while (cursor.length < 33) cursor.push("deep");
    return cursor;
  }

  #edit(peer) {
    const edits = [
      [30, () => peer.assign(this.#cursor(peer), this.#pick(VALUES))],
      [30, () => peer.insert(this.#cursor(peer, true), this.#pick(VALUES))],
      [12, () => peer.delete(this.#cursor(peer))],
      [12, () => peer.add(this.#cursor(peer), this.#pick(NUMBERS))],
      [6, () => this.#splice(peer, this.#cursor(peer))],
      [3, () => peer.put(this.#cursor(peer), { t: [1, { x: null }], "": "u" })],
      [4, () => peer.undo()],
      [3, () => peer.redo()],
    ];
    let left = this.next() * 100;
    try {
      edits.find(([share]) => (left -= share) < 0)[1]();
    } catch (error) {
      if (!(error instanceof Refused)) throw error;
    }
  }

  #splice(peer, cursor) {
    const { length } = peer.items(cursor);
    const index = this.#below(length + 1);
    const text = this.#pick(["", "hé", "hé😀"]);
    peer.splice(cursor, index, this.#below(length - index + 1), text);
  }

  /** A change by the session itself. */
  #request() {
    const variable = this.#pick([...this.session.variables.keys(), "nobody"]);
    const cursor = this.#chance(0.2) ? [variable] : this.#cursor(this.replica);
    const value = this.#pick([...VALUES, ...BAD_VALUES]);
    const word = this.#pick([...CHANGES, "assign", "insert", "insert", "let"]);
    if (word === "let") this.#ask("let", this.#pick(["v", "w", ""]), this.#cursor(this.replica));
    else if (word === "insert" && this.#chance(0.9)) {
      this.#ask(word, this.#cursor(this.replica, true), value);
    } else if (word === "delete") this.#ask(word, cursor);
    else this.#ask(word, cursor, word === "add" ? this.#pick([...NUMBERS, ...BAD_VALUES]) : value);
  }

  #take(peer, other) {
    for (const line of page(other, peer.front(), Infinity)) {
      try {
        peer.deliver(line);
      } catch (error) {
        if (!(error instanceof Refused)) throw error;
      }
    }
  }

  /** Delivers an operation with something else in it. */
  #deliverFalse() {
    const logged = [...this.replica.operations()];
    const lines = [...this.#pool, ...logged.map(print)];
    if (lines.length === 0) return;
    const op = parse(this.#pick(lines));
    const [, [counter, name], front, [path, key]] = op;
    const someId = logged.length ? this.#pick(logged)[1] : [1, "p"];
    const otherPair = ([it, last]) => [it, last + this.#pick([-1, 1])];
    const long = Array.from({ length: this.#pick([30, 31]) }, (_, at) => ["m", at ? "a" : 0]);
    const item = [this.#pick(["m", "l", "x"]), this.#pick(["a", 0, 1, someId])];
    const changes = [
      () => (op[1] = [counter + this.#pick([-1, 1, 100_000]), name]),
      () => (op[1] = [counter, this.#pick(["p", "srv-1", "P", "h", "", "h-9"])]),
      () => (op[2] = front.slice(0, -1)),
      () => (op[2] = [...front, [this.#pick(["p", "zz", "srv-1"]), this.#below(4)]]),
      () => (op[2] = front.map((pair, at) => (at ? pair : otherPair(pair)))),
      () => (op[2] = []),
      () => (op[2] = this.replica.front()),
      () => (op[3] = [path, this.#pick([0, 1, 2, "a", null, "w".repeat(129), someId])]),
      () => (op[3] = [[...path, item], key]),
      () => (op[3] = [long, "a"]),
      () => (op[3] = [path.map((it) => (Array.isArray(it[1]) ? [it[0], someId] : it)), key]),
      () => (op[4] = ["assign", this.#pick([...VALUES, ...BAD_VALUES])]),
      () => (op[4] = [this.#pick([...CHANGES, "move"]), this.#pick([1, "1", 2n ** 63n])]),
      () => (op[4] = this.#pick([["delete"], ["add"], "delete"])),
      () => op.push(1),
    ];
    this.#pick(changes)();
    if (this.#chance(0.3)) this.#pick(changes)();
    if (this.#chance(0.3)) op[1] = [1 + Math.max(0, ...op[2].map((pair) => pair[1])), op[1][1]];
    const blank = this.#chance(0.1) ? print(op).replaceAll(",", " ,\t") : print(op);
    this.#deliver(this.#chance(0.05) ? blank.replace(/\d/, "$&.0") : blank);
  }

  #deliverAll() {
    const order = this.#pool.map((line) => [this.next(), line]).sort(([a], [b]) => a - b);
    for (let round = 0; round < 2; round++) for (const [, line] of order) this.#deliver(line);
    this.#ask("held");
    this.#ask("front");
  }

  #read(cursor) {
    for (const word of READINGS) this.#ask(word, cursor);
  }

  #readAll(cursor, shown) {
    this.#read(cursor);
    for (const [kind, inner] of shown) {
      if (kind === "map") inner.forEach(([key, it]) => this.#readAll([...cursor, key], it));
      if (kind === "list") inner.forEach((it, at) => this.#readAll([...cursor, at + 1], it));
    }
  }

  /** The peers, once each has taken all that the session has. */
  settledPeers() {
    for (const peer of this.peers) this.#take(peer, this.replica);
    return this.peers;
  }
}
