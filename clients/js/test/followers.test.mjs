/* What those who follow lists are told, and where elements are: the same over each engine, and soon
   in long lists, too. */

import { deepEqual, equal, ok } from "node:assert/strict";
import { test } from "node:test";
import { Refused, Replica } from "../index.mjs";
import { engines } from "./engines.mjs";
import { dice } from "./random.mjs";
import { cpuOf, slowness, tooLong } from "./support.mjs";

/** @typedef {import("../wire.mjs").Cursor} Cursor */
/** @typedef {import("../wire.mjs").Id} Id */

const LISTS = [[0, "t"], [0, "cards"], [0, "t", 3], [0, "cards", 1, "in"], [0]];
const VALUES = ["x", "x", "y", null, 7, 2n ** 60n, true, {}, []];
const MANY = tooLong ? 2_000 : 40_000;
const KEYS = 200;
const STEPS = tooLong ? 60 : 150; // of a history
const SECONDS = 4; // of the processor, for so many keys

/** Replicas of the same name over each engine, that do the same; each says what it was told. */
class Alike {
  /** @param {string[]} lines */
  constructor(lines) {
    this.replicas = engines.map(([, engine]) => Replica.restore(lines, { engine }));
    /** @type {any[][]} */
    this.told = this.replicas.map(() => []);
    /** @type {Cursor[]} Elements, deleted ones too. */
    this.places = [];
    for (const cursor of LISTS) this.watch(/** @type {Cursor} */ (cursor));
  }

  /** @param {Cursor} cursor */
  watch(cursor) {
    for (const [at, replica] of this.replicas.entries()) {
      replica.watch(cursor, (splices, why) => this.told[at].push([cursor, why, structuredClone(splices)]));
    }
  }

  /** @param {string} what
   *  @param {(replica: Replica) => any} act */
  do(what, act) {
    const given = this.replicas.map((replica) => refusalOr(() => act(replica)));
    for (const [at, [title]] of engines.entries()) {
      deepEqual(given[at], given[0], `${what}: ${title} gives what the first one gives`);
      deepEqual(this.told[at], this.told[0], `${what}: ${title} tells what the first one tells`);
    }
    for (const it of this.told) it.splice(0);
    return given[0];
  }
}

/** @param {() => any} act */
function refusalOr(act) {
  try {
    return act();
  } catch (error) {
    if (!(error instanceof Refused)) throw error;
    return `refused: ${error.number}`;
  }
}

/** What somebody does with a document.
 *  @param {ReturnType<typeof dice>} random
 *  @returns {(replica: Replica) => any} */
function anEdit(random) {
  const list = /** @type {Cursor} */ (random.pick(LISTS));
  const [where, count, size] = [random.next(), random.below(4), random.below(4)];
  const [value, kind] = [random.pick(VALUES), random.next()];
  const values = Array.from({ length: size }, () => random.pick([...VALUES, ["in", { a: 1 }], "😀"]));
  return (replica) => {
    const { length } = replica.items(list);
    const at = 1 + Math.floor(where * length);
    if (kind < 0.4) return replica.splice(list, at - 1, Math.min(count, length - at + 1), values);
    if (kind < 0.55) return replica.assign([...list, at], value);
    if (kind < 0.65) return replica.delete([...list, at]);
    if (kind < 0.72) return replica.put([...list, at, "in"], ["deep", size]);
    if (kind < 0.77) return replica.add([...list, at], size);
    if (kind < 0.79) return replica.put(list, values);
    if (kind < 0.8) return replica.delete(list);
    return kind < 0.92 ? replica.undo() : replica.redo();
  };
}

/** Elements of a list of which some are deleted later on.
 *  @param {Alike} alike
 *  @param {ReturnType<typeof dice>} random */
function notePlaces(alike, random) {
  const list = /** @type {Cursor} */ (random.pick(LISTS));
  const at = 1 + random.below(20);
  const place = refusalOr(() => alike.replicas[0].place([...list, at]));
  if (typeof place !== "string") alike.places.push(place);
}

/** A random history of three: one over each engine, and two others.
 *  @param {number} seed */
function aHistory(seed) {
  const random = dice(seed);
  const others = ["bob", "cyd"].map((name) => new Replica(name, "d"));
  const first = new Replica("ada", "d");
  first.put([0], { t: [..."a text of some length".repeat(10)], cards: [{ in: ["one", "two"] }, "three"] });
  const alike = new Alike(first.lines());
  others.forEach((other) => other.deliverAll(first.lines().slice(1)));
  const [mine] = alike.replicas;
  for (let step = 0; step < STEPS; step++) {
    const what = `seed ${seed}, step ${step}`;
    const [kind, other, edit] = [random.next(), random.pick(others), anEdit(random)];
    const edits = Array.from({ length: random.below(6) }, () => anEdit(random));
    if (kind < 0.3) alike.do(what, edit);
    else if (kind < 0.4) {
      alike.do(what, (replica) => replica.group(() => edits.map((it) => refusalOr(() => it(replica)))));
    } else if (kind < 0.65) [edit, ...edits].forEach((it) => refusalOr(() => it(other)));
    else if (kind < 0.8) {
      const came = [...other.operations(mine.front())];
      if (random.chance(0.3)) came.reverse(); // held first, and released together
      alike.do(what, (replica) => replica.deliverAll(came).taken);
    } else if (kind < 0.9) other.deliverAll([...mine.operations(other.front())]);
    else notePlaces(alike, random);
    if (step === STEPS / 2) LISTS.forEach((list) => refusalOr(() => alike.watch(/** @type {Cursor} */ (list))));
    alike.do(what, (replica) => alike.places.map((place) => refusalOr(() => replica.indexOf(place))));
  }
}

test("who follows a list is told the same over each engine", { timeout: 900_000 }, () => {
  for (let seed = 1; seed <= Number(process.env.SEEDS ?? (tooLong ? 1 : 6)); seed++) aHistory(seed);
});

/** What may be in a list beside scalars, and what only looks so.
 *  @type {[string, (it: Replica) => any][]} */
const BESIDE = [
  ["nothing else", () => {}],
  ["texts that look like others", (it) => it.splice([0, "t"], 9, 0, ["[]]]", "{}", '["add",1]', "[]"])],
  ["a map", (it) => it.splice([0, "t"], 9, 0, [{ a: 1 }])],
  ["an empty list", (it) => it.splice([0, "t"], 9, 0, [[]])],
  ["a map in place of a character", (it) => it.assign([0, "t", 7], {})],
  ["a text in an element that has none", (it) => it.assign([0, "t", 7, "deep"], "x")],
  ["a counter in an element", (it) => it.add([0, "t", 7], 4)],
  ["a deletion", (it) => it.delete([0, "t", 7])],
  ["a list in a list of the same name", (it) => it.put([0, "other"], { t: [[], {}] })],
  ["texts that are written with backslashes", (it) => it.splice([0, "t"], 9, 0, ["\n", "\\", '"', '\\"', "\u0001"])],
  ["texts beyond ASCII", (it) => it.splice([0, "t"], 9, 0, ["é", "語", "😀", "\u2028"])],
  ["longer texts", (it) => it.splice([0, "t"], 9, 0, ["", "of twelve ch", "of thirteen c", "\n".repeat(13), '"]],[[1,"a"],["b'])],
  ["other scalars", (it) => it.splice([0, "t"], 9, 0, [5, -1, 2n ** 62n, true, null])],
  ["elements of two replicas", (it) => it.deliverAll(editedBy("ada-2", it, (ada) => ada.splice([0, "t"], 9, 0, "by ada")))],
  ["two values in an element", (it) => {
    const lines = editedBy("ada-2", it, (ada) => ada.assign([0, "t", 7], "a"));
    it.assign([0, "t", 7], "b");
    it.deliverAll(lines);
  }],
  ["nothing at all", (it) => it.splice([0, "t"], 0, 300, "")],
];

/** The lines of what another replica edits in what one has.
 *  @param {string} name
 *  @param {Replica} replica
 *  @param {(other: Replica) => any} edit */
function editedBy(name, replica, edit) {
  const other = new Replica(name, "d");
  other.deliverAll(replica.lines().slice(1));
  edit(other);
  return other.lines().slice(1);
}

/** A list as the calls of a watch make it.
 *  @param {import("../events.mjs").Splice[][]} calls */
function madeBy(calls) {
  /** @type {any[]} */
  const model = [];
  for (const splices of calls) for (const it of splices) model.splice(it.index, it.remove, ...it.insert);
  return model;
}

test("a watched list is as one that is read, where an empty replica takes all at once", () => {
  for (const [title, engine] of tooLong ? engines.slice(0, 1) : engines) {
    for (const [what, change] of BESIDE) {
      const other = new Replica("bob", "d");
      other.put([0, "t"], [..."x".repeat(300)]);
      change(other);
      const me = new Replica("ada", "d", { engine });
      const now = new Replica("carl", "d");
      /** @type {any[][][]} */
      const [calls, single] = [[], []];
      me.watch([0, "t"], (splices) => calls.push(splices));
      me.watch([0, "nowhere"], () => calls.push(["nothing concerns it"]));
      now.watch([0, "t"], (splices) => single.push(splices));
      me.deliverAll(other.lines().slice(1));
      for (const op of other.operations()) now.deliver(op);
      const insert = madeBy(single);
      deepEqual(calls, [insert.length > 0 ? [{ index: 0, remove: 0, insert }] : []], `${title}: ${what}`);
      if (insert.length > 0) other.splice([0, "t"], 6, 2, ["new", "and new"]);
      me.deliverAll([...other.operations(me.front())]);
      for (const op of other.operations(now.front())) now.deliver(op);
      deepEqual(madeBy(calls), madeBy(single), `${title}: an edit behind ${what}`);
    }
  }
});

/** The log of a text of so many characters. */
const long = (() => {
  const me = new Replica("ada", "d");
  me.put([0, "t"], [..."x".repeat(MANY)]);
  return me.lines();
})();

/** Where the changes are: all over the text. */
const STEP = Math.floor(MANY * 0.75 / KEYS);

for (const [title, engine] of engines) {
  const open = () => Replica.restore(long, { engine });

  /** @param {Replica} replica */
  const modelOf = (replica) => {
    const model = Array.from({ length: MANY }, () => "x");
    replica.watch([0, "t"], (splices) => {
      for (const { index, remove, insert } of splices) model.splice(index, remove, ...insert);
    });
    return model;
  };

  /** @param {import("node:test").TestContext} context
   *  @param {string} what
   *  @param {(at: number) => any} act */
  async function isSoon(context, what, act) {
    const took = await cpuOf(() => {
      for (let at = 0; at < KEYS; at++) act(at);
    });
    context.diagnostic(`${what}: ${(took / KEYS).toFixed(2)} ms`);
    ok(took < SECONDS * 1000 * slowness(), `${KEYS} times, ${what}: ${took} ms`);
  }

  test(`${title}: keys in a watched list of ${MANY}`, { timeout: 900_000 }, async (context) => {
    const me = open();
    const model = modelOf(me);
    await isSoon(context, "a key", (at) => me.splice([0, "t"], at * STEP, 0, "k"));
    await isSoon(context, "a deletion", (at) => me.splice([0, "t"], at * STEP, 1, ""));
    await isSoon(context, "a key of undo", () => me.undo());
    equal(model.length, MANY + KEYS);
    deepEqual(model, [...me.text([0, "t"])]);
    me.free();
  });

  test(`${title}: changes by others in a watched list of ${MANY}`, { timeout: 900_000 }, async (context) => {
    const [me, other] = [open(), Replica.restore(["[\"replica\",\"bob\",\"d\"]", ...long.slice(1)])];
    const model = modelOf(me);
    /** @type {string[]} */
    const lines = [];
    other.listen((event) => lines.push(...event.lines));
    for (let at = 0; at < KEYS; at++) other.splice([0, "t"], (at * 7919) % MANY, at % 2, at % 3 ? "o" : "");
    other.splice([0, "t"], 1, 1, "!");
    const share = lines.length / KEYS;
    await isSoon(context, "a change by another", (at) => lines.slice(at * share, (at + 1) * share).map((it) => me.deliver(it)));
    me.deliverAll(lines);
    deepEqual(model, [...other.text([0, "t"])]);
    me.free();
  });

  test(`${title}: an index in a list of ${MANY}`, { timeout: 900_000 }, async (context) => {
    const me = open();
    const place = me.place([0, "t", MANY / 2]);
    const gone = me.place([0, "t", MANY / 4]);
    await isSoon(context, "a key, and an index", (at) => {
      me.splice([0, "t"], at, 0, "k");
      equal(me.indexOf(place), MANY / 2 + at + 1);
    });
    me.delete(gone);
    equal(me.indexOf(gone), MANY / 4 + KEYS - 1);
    me.free();
  });
}
