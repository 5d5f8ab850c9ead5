/* A document that goes on in another generation, at a hub that renews it: what a replica of an older
   one takes over. Which generation a log is of is seen in it: a replica of a name that nobody else has
   began each but the first, and all that comes behind knows of that.

   Operations that the hub lacked when their generation ended are made again in the next one: each
   replica's under a name that is made of its own, of the generation, and of the opening of the store in
   which they were made. So copies of one store make the same of what they have in common, and the hub
   has it once. What each has edited since stays its own. */

import { Away, Refused } from "./errors.mjs";
import { isArray, parse, print } from "./json.mjs";
import { MOST } from "./limits.mjs";
import { nameOf } from "./names.mjs";
import { covers, frontPairs, isFront, isId, nextCounter } from "./operations.mjs";
import { endOf, textsOf } from "./places.mjs";

/** @typedef {import("./exchange.mjs").Answer} Answer */
/** @typedef {import("./operations.mjs").Front} Front */
/** @typedef {import("./operations.mjs").Id} Id */
/** @typedef {import("./operations.mjs").Key} Key */
/** @typedef {import("./operations.mjs").Operation} Operation */
/** @typedef {import("./operations.mjs").Path} Path */

/** @typedef {object} Step From one generation to the next.
 *  @property {Map<string, number>} end What the hub had at the end of the first.
 *  @property {Front} start What the next one began with.
 *  @property {Operation[]} others What of the first one isn't in the log that is carried: what others
 *    stored there. None of it where it isn't kept any more, or where nothing is carried that clears.
 *  @property {[old: Id, now: Id, isFirst?: 0][]} pairs The elements, by lists in their order; of the
 *    first one of a list there is a third item. */

/** @typedef {object} Carried
 *  @property {Operation[]} operations Of the last generation, in an order of a log.
 *  @property {Map<string, Id>} ids Of elements: as they were, and as they are now.
 *  @property {Operation[]} lost Operations as they were that aren't made again: those whose places the
 *    next generation hasn't got, and those that would clear what others stored there meanwhile. */

/** @typedef {object} Own What the hub had, at the end of a generation, of a replica's own operations.
 *  @property {string} name of the replica
 *  @property {number} forked From this counter on the hub had others of this name.
 *  @property {Map<string, Id>} made Those that it had all the same, and under which ids.
 *  @property {import("./copies.mjs").SessionOf} sessionOf */

/** @type {Own} */
const NOBODY = { name: "", forked: Infinity, made: new Map(), sessionOf: () => "" };

const FIRST = "1";
const MAKER = /^gen(\d+-[a-z2-7]{10})-1$/;
const BEGINNER = /^gen\d+-[a-z2-7]{10}-\d+$/;
const MOST_ROUNDS = 8; // in which a document may be renewed while it is read

/** What a replica has read of generations that take no changes any more, on its way from one of them:
 *  each step by the names of both, and which of them have all that others stored. A document that is
 *  renewed meanwhile, or a connection that ends, doesn't have it begin anew.
 *  @typedef {{ from: string, steps: Map<string, Step>, withOthers: Set<Step> }} Way */

/** @type {WeakMap<Behind, Way>} */
const ways = new WeakMap();

/** @param {Behind} replica @param {string} from @returns {Way} */
function wayOf(replica, from) {
  const there = ways.get(replica);
  if (there?.from === from) return there;
  const way = { from, steps: new Map(), withOthers: new Set() };
  ways.set(replica, way);
  return way;
}

/** The hub has no such generation of the document, as behind an older backup. */
export class UnknownGeneration extends Error {
  name = "UnknownGeneration";
}

/** The generation of a log, by its front.
 *  @param {Iterable<[string, number]>} front */
export function generationOf(front) {
  const [maker] = beginningOf(front);
  return maker ? MAKER.exec(maker[0])?.[1] ?? FIRST : FIRST;
}

/** What of a front names the generation: of the first one nothing.
 *  @param {Iterable<[string, number]>} front
 *  @returns {Front} */
export function beginningOf(front) {
  for (const pair of front) if (MAKER.test(pair[0])) return [pair];
  return [];
}

/** A replica whose document goes on in another generation.
 *  @typedef {object} Behind
 *  @property {string} doc
 *  @property {() => [string, number][]} front
 *  @property {(front: Iterable<[string, number]>) => Iterable<Operation>} operations
 *  @property {(answer: Answer, past: string, end: Map<string, number>) => Promise<Own>} ownBefore */

/** Whether the operation of a line is of a generation: it began that, or knows of its beginning. A
 *  replica that was never synced knows of none, and is of the first. What is no operation is refused
 *  as what it is.
 *  @param {string} line
 *  @param {string} generation */
export function isOfGeneration(line, generation) {
  const op = parsedLine(line);
  if (!isArray(op) || !isArray(op[1]) || !isArray(op[2])) return true;
  const [, replica] = op[1];
  if (typeof replica === "string" && BEGINNER.test(replica)) {
    return replica.startsWith(`gen${generation}-`);
  }
  return generationOf(op[2].filter((it) => isArray(it, 2))) === generation;
}

/** @param {string} line
 *  @returns {any} */
function parsedLine(line) {
  try {
    return parse(line);
  } catch {
    return undefined;
  }
}

/** What a hub has of a document that is in another generation than a replica: the steps from that one
 *  on, the log of the last one, and what of the replica's own it had. Throws UnknownGeneration, and Away
 *  where the last one is that of the replica.
 *  @param {Answer} answer
 *  @param {Behind} replica
 *  @returns {Promise<{ steps: Step[], log: Operation[], own: Own }>} */
export async function laterGenerations(answer, replica) {
  const { doc } = replica;
  const generation = generationOf(replica.front());
  const way = wayOf(replica, generation);
  for (let round = 0; round < MOST_ROUNDS; round++) {
    const [, history] = await asked(answer, ["history", doc]);
    const names = history.map((/** @type {[string]} */ [name]) => name);
    const at = names.indexOf(generation);
    if (at < 0) throw new UnknownGeneration(`the hub has no generation ${generation} of ${doc}`);
    const steps = await stepsOf(answer, doc, names.slice(at), way);
    const own = steps.length > 0
      ? await replica.ownBefore(answer, `${doc}/${generation}`, steps[0].end) : NOBODY;
    await addOthers(answer, replica, own, names.slice(at), steps, way);
    const log = await logOf(answer, doc, []);
    const now = generationOf(log.map(([, [counter, name]]) => [name, counter]));
    if (now !== names[names.length - 1]) continue;
    // What the hub lacks would be lost: nothing is carried over without a step.
    if (steps.length === 0) throw new Away(`the hub takes ${doc} for renewed, and has the generation that is here`);
    ways.delete(replica);
    return { steps, log, own };
  }
  throw new Error(`${doc} is renewed again and again`);
}

/** @param {Answer} answer @param {any[]} request @returns {Promise<any[]>} */
async function asked(answer, request) {
  const reply = parse(await answer(print(request)));
  if (isArray(reply) && reply[0] !== "no") return reply;
  if (isArray(reply)) throw new Refused(reply[1], reply[2], reply[3]);
  throw new TypeError(`the hub's reply to ${request[0]} is malformed`);
}

/** The steps between generations, of which those that were read before are known.
 *  @param {Answer} answer @param {string} doc @param {string[]} names of the generations
 *  @param {Way} way @returns {Promise<Step[]>} */
async function stepsOf(answer, doc, names, way) {
  const steps = [];
  for (const [at, name] of names.slice(0, -1).entries()) {
    const key = `${name} ${names[at + 1]}`;
    const step = way.steps.get(key) ?? await stepOf(answer, doc, name);
    way.steps.set(key, step);
    steps.push(step);
  }
  return steps;
}

/** @param {Answer} answer @param {string} doc @param {string} generation
 *  @returns {Promise<Step>} */
async function stepOf(answer, doc, generation) {
  /** @type {Step["pairs"]} */
  const pairs = [];
  for (;;) {
    const [, end, start, page] = await asked(answer, ["map", doc, generation, pairs.length]);
    const isFormed = isFront(end) && isFront(start) && isArray(page)
      && page.every((it) => isArray(it) && isId(it[0]) && isId(it[1]));
    if (!isFormed) throw new TypeError("the hub's reply to map is malformed");
    for (const it of page) pairs.push(it);
    if (page.length < MOST.mapped) return { end: new Map(end), start, pairs, others: [] };
  }
}

/** Adds what others stored in the generations of the steps, where something is carried that clears.
 *  @param {Answer} answer @param {Behind} replica @param {Own} own
 *  @param {string[]} names of the generations @param {Step[]} steps @param {Way} way */
async function addOthers(answer, replica, own, names, steps, way) {
  const [first] = steps;
  const unsent = first ? [...replica.operations(ownPart(first.end, own))] : [];
  if (!unsent.some(({ 4: [word] }) => word === "assign" || word === "delete")) return;
  for (const [at, step] of steps.entries()) {
    if (way.withOthers.has(step)) continue;
    const known = at === 0 ? ownPart(replica.front(), own) : steps[at - 1].start;
    const past = `${replica.doc}/${names[at]}`;
    try {
      await asked(answer, ["open", past]);
      step.others = await logOf(answer, past, known);
      if (at > 0) way.withOthers.add(step); // what of the first is another's changes with the replica
    } catch (error) {
      if (!(error instanceof Refused)) throw error; // it isn't kept
    }
  }
}

/** A front without what others have made under the replica's name.
 *  @param {Iterable<[string, number]>} front @param {Own} own
 *  @returns {[string, number][]} */
const ownPart = (front, { name, forked }) =>
  [...front].map(([it, counter]) => [it, it === name ? Math.min(counter, forked - 1) : counter]);

/** Whether an id at the hub is that of another who had the replica's name.
 *  @param {Own} own @param {Id} id */
const isOfAnother = ({ name, forked, made }, id) =>
  id[1] === name && id[0] >= forked && String(made.get(String(id))) !== String(id);

/** The operations of a document that a front doesn't cover.
 *  @param {Answer} answer @param {string} doc @param {Iterable<[string, number]>} front
 *  @returns {Promise<Operation[]>} */
async function logOf(answer, doc, front) {
  /** @type {Operation[]} */
  const log = [];
  const seen = new Map(front);
  for (;;) {
    const [, page] = await asked(answer, ["page", doc, frontPairs(seen), 2 ** 20]);
    for (const op of page) {
      seen.set(op[1][1], op[1][0]);
      log.push(op);
    }
    if (log.length > MOST.log) throw new TypeError("the hub's reply to page is malformed");
    if (page.length === 0 || page.length % MOST.page !== 0) return log;
  }
}

/** What a log has that the hub lacked at the end of its generation, made again in the last one.
 *  @param {Iterable<Operation>} log
 *  @param {Step[]} steps
 *  @param {Own} [own]
 *  @returns {Carried} */
export function carried(log, steps, own = NOBODY) {
  /** @type {Map<string, Key>} Of an element: what it was inserted behind. */
  let behind = new Map();
  /** @type {{ op: Operation, origin: Operation }[]} */
  let unsent = [];
  const [first] = steps;
  /** @type {Operation[]} */
  let stored = [];
  for (const op of log) {
    if (op[4][0] === "insert") behind.set(String(op[1]), op[3][1]);
    if (!first) continue;
    const isThere = covers(first.end, op[1]) && !isOfAnother(own, op[1]);
    if (isThere || own.made.has(String(op[1]))) stored.push(op);
    else unsent.push({ op, origin: op });
  }
  /** @type {Map<string, Id> | undefined} */
  let ids;
  /** @type {Operation[]} */
  const lost = [];
  for (const step of steps) {
    const maker = step === first ? own : NOBODY;
    const others = othersOf(step, maker);
    const again = new Again(step, behind, unsent.length > 0 ? stored.concat(others) : [], maker);
    for (const { op, origin } of unsent) {
      const isThere = step !== first && covers(step.end, op[1]);
      if (!isThere && !again.take(op, origin)) lost.push(origin);
    }
    const before = ids;
    ids = before ? composed(before, again.ids) : new Map(again.ids);
    [behind, unsent, stored] = [again.behind, again.made, []];
  }
  return { operations: unsent.map(({ op }) => op), ids: ids ?? new Map(), lost };
}

/** What others stored, told apart from the replica's own operations of these ids, and without those of
 *  its own that were made again.
 *  @param {Step} step @param {Own} own
 *  @returns {Operation[]} */
function othersOf({ others }, own) {
  if (own.forked === Infinity) return others;
  const made = new Set([...own.made.values()].map(String));
  /** @template {Key} T @param {T} it @returns {T} */
  const apart = (it) => (isId(it) && isOfAnother(own, it) ? /** @type {any} */ ([it[0], ""]) : it);
  return others.filter(([, id]) => !made.has(String(id))).map(([, id, front, [path, key], mutation]) =>
    ["op", apart(id), front, [path.map(([tag, it]) => [tag, apart(it)]), apart(key)], mutation]);
}

/** @param {Map<string, Id>} first @param {Map<string, Id>} second
 *  @returns {Map<string, Id>} */
export function composed(first, second) {
  const both = new Map(second);
  for (const [old, id] of first) {
    const now = second.get(String(id));
    if (now) both.set(old, now);
  }
  return both;
}

/** Makes operations of a generation again in the next one. */
class Again {
  /** @type {{ op: Operation, origin: Operation }[]} */
  made = [];
  /** @type {Map<string, Id>} Of elements: as they were, and as they are now. */
  ids = new Map();
  /** @type {Map<string, Key>} Of elements of the next one: what they were inserted behind. */
  behind = new Map();
  /** @type {Map<string, [counter: number, id: Id][]>} Of a replica: what was made of its operations. */
  #madeOf = new Map();
  /** @type {Map<string, Id[]>} By place: what was stored at it and under it. */
  #storedAt = new Map();
  #start;
  #behindBefore;
  #own;

  /** @param {Step} step
   *  @param {Map<string, Key>} behind what elements of the generation were inserted behind
   *  @param {Operation[]} stored what of that generation was stored
   *  @param {Own} own */
  constructor({ start, pairs }, behind, stored, own) {
    this.#start = start;
    this.#behindBefore = behind;
    this.#own = own;
    for (const op of stored) this.#noteStored(op);
    /** @type {Key} */
    let last = 1;
    for (const [old, now, first] of pairs) {
      if (!isOfAnother(own, old)) this.ids.set(String(old), now);
      this.behind.set(String(now), first === 0 ? 1 : last);
      last = now;
    }
    for (const [old, there] of own.made) {
      const now = this.ids.get(String(there));
      if (now) this.ids.set(old, now);
    }
  }

  /** Makes an operation again. Returns false if its place isn't there: what isn't there needn't be
   *  deleted. They come in the order of a log.
   *  @param {Operation} op
   *  @param {Operation} origin */
  take(op, origin) {
    const [, [counter, replica], front, [path, key], mutation] = op;
    const isInsert = mutation[0] === "insert";
    const place = this.#mapped(path, isInsert ? this.#reference(key) : key, isInsert);
    if (!place) return mutation[0] === "delete";
    if (this.#clearsOthers(op)) return false;
    const name = this.#nameFor(op[1]);
    const known = this.#known(front, replica);
    /** @type {Operation} */
    const again = ["op", [nextCounter(known), name], known, place, mutation];
    const [, id] = again;
    this.made.push({ op: again, origin });
    const all = this.#madeOf.get(replica) ?? [];
    this.#madeOf.set(replica, all);
    all.push([counter, id]);
    if (isInsert) {
      this.ids.set(String(op[1]), id);
      this.behind.set(String(id), place[1]);
    }
    return true;
  }

  /** The name under which an operation is made again: copies of a store that have it use the same.
   *  @param {Id} id */
  #nameFor([counter, replica]) {
    const session = this.#own.sessionOf(counter, replica);
    const what = [this.#start[0]?.[0], replica];
    return nameOf("again", print(session === "" ? what : [...what, session]));
  }

  /** @param {Operation} op */
  #noteStored(op) {
    if (op[4][0] === "delete") return;
    const texts = textsOf(endOf(op));
    for (let depth = 1; depth <= texts.length; depth++) {
      const key = texts.slice(0, depth).join("\0");
      const all = this.#storedAt.get(key) ?? [];
      this.#storedAt.set(key, all);
      all.push(op[1]);
    }
  }

  /** Whether an operation would clear what others stored at its place or under it, which its maker
   *  didn't know of: in one generation that would stay beside it.
   *  @param {Operation} op */
  #clearsOthers(op) {
    const [, [, replica], front, , [word]] = op;
    if (word !== "assign" && word !== "delete") return false;
    const known = new Map(front);
    const stored = this.#storedAt.get(textsOf(endOf(op)).join("\0")) ?? [];
    return stored.some((id) => id[1] !== replica && !covers(known, id));
  }

  /** What an operation knew, in the next generation: its beginning, and what was made again of what it
   *  knew.
   *  @param {Front} front
   *  @param {string} replica
   *  @returns {Front} */
  #known(front, replica) {
    const known = new Map(this.#start);
    for (const [other, last] of [...front, [replica, Infinity]]) {
      for (const [of, [counter, name]] of this.#madeOf.get(/** @type {string} */ (other)) ?? []) {
        if (of <= last) known.set(name, Math.max(counter, known.get(name) ?? 0));
      }
    }
    return frontPairs(known);
  }

  /** @param {Path} path
   *  @param {Key} key
   *  @param {boolean} isMapped whether the key is of the next generation already
   *  @returns {[Path, Key] | undefined} */
  #mapped(path, key, isMapped) {
    const now = (/** @type {Key} */ it) => (isId(it) ? this.ids.get(String(it)) : it);
    /** @type {Path} */
    const found = [];
    for (const [tag, it] of path) {
      const there = now(it);
      if (there === undefined) return undefined;
      found.push([tag, there]);
    }
    const last = isMapped ? key : now(key);
    return last === undefined ? undefined : [found, last];
  }

  /** What an insertion goes behind: where that was deleted, what it was inserted behind itself.
   *  @param {Key} key
   *  @returns {Key} */
  #reference(key) {
    for (let it = key; ; it = this.#behindBefore.get(String(it)) ?? 1) {
      const now = isId(it) ? this.ids.get(String(it)) : 1;
      if (now !== undefined) return now;
    }
  }
}
