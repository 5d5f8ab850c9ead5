/* Undo and redo: random histories of one replica, and of one beside others. */

import { deepEqual, equal, ok, throws } from "node:assert/strict";
import { test } from "node:test";
import { Conflict, Counter, MOST, Refused, Replica, plain, print } from "../index.mjs";
import { engines } from "./engines.mjs";
import { dice } from "./random.mjs";
import { tooLong } from "./support.mjs";

const HISTORIES = Number(process.env.HISTORIES ?? (tooLong ? 25 : 100)); // 10,000 before a release

/** What a replica shows. A counter of 0 beside a value is left out: undo can't clear it.
 *  @param {Replica} replica */
const shown = (replica) => text(plain(replica.show([0])));

/** A place that holds nothing may go, and none may come. Where a map held only such places it isn't
 *  compared: nothing shows whether the map was put.
 *  @param {string} found
 *  @param {string} due
 *  @param {string} what */
function isAsBefore(found, due, what) {
  if (/\{( \w+: nothing)+ \}/.test(due)) return;
  const [is, was] = [found, due].map((it) => it.split(NOTHING));
  equal(is.join(""), was.join(""), what);
  ok(is.length <= was.length, `${what}: ${found}`);
}

const NOTHING = / \w+: nothing/;

/** @param {any} value @returns {any} */
function text(value) {
  if (value instanceof Counter) {
    const inner = text(value.value);
    return BigInt(value.sum) === 0n ? inner : `${inner} + ${value.sum}`;
  }
  if (value instanceof Conflict) return `conflict of ${value.values.map(text)}`;
  if (Array.isArray(value)) return `[${value.map(text)}]`;
  if (value === undefined) return "nothing";
  if (value === null || typeof value !== "object") return print(value);
  return `{${Object.entries(value).map(([key, it]) => ` ${key}: ${text(it)}`).join("")} }`;
}

/** A replica, and edits of it.
 *  @param {Replica} replica
 *  @param {ReturnType<typeof dice>} random */
function editsOf(replica, { below, pick }) {
  const values = () => pick([below(9), {}, [], "s", null]);
  const cursor = () => {
    const count = replica.items([0, "l"]).length;
    return pick([
      [0, "m", "x"], [0, "m"], [0, "l", 1 + below(Math.max(1, count))], [0, "n"], [0, "new"],
      JSON.stringify(replica.conflicts([0, "m"]).pop()?.[1]) === "{}" ? [0, "m", "z", "deep"] : [0, "m"],
      [0, "c"], [0, "l"], [0, "list"], [0],
    ]);
  };
  const count = () => replica.items([0, "l"]).length;
  return [
    () => replica.assign(cursor(), values()),
    () => replica.delete(cursor()),
    () => replica.add(cursor(), 1 + below(9)),
    () => replica.splice([0, "l"], below(count() + 1), 0, ["i", { w: 1 }]),
    () => replica.put(cursor(), pick([{ a: [1], b: { c: 2 } }, new Counter(3, ["q"]), [[]]])),
    () => replica.splice([0, "l"], 0, 1 + below(count()), ["r"]),
    () => replica.insert([0, "fresh", 0], values()),
    () => replica.group(() => {
      replica.assign(cursor(), values());
      replica.add(cursor(), 2);
      replica.delete(cursor());
    }),
  ];
}

/** Makes a history, takes all of it back and makes it again. Each state must come again.
 *  @param {import("../jcrdt.mjs").Open} engine
 *  @param {number} seed */
function history(engine, seed) {
  const random = dice(seed);
  const replica = new Replica("a", "d", { engine });
  if (random.chance(0.8)) replica.put([0], { m: { x: 1, y: "t" }, l: [1, { q: 2 }, [3]], n: 0, c: new Counter(5) });
  const [states, steps] = [[shown(replica)], random.below(7)];
  while (replica.undo()) states.unshift(shown(replica));
  while (replica.redo());
  for (let step = 0; step < steps; step++) {
    const before = replica.count;
    try {
      random.pick(editsOf(replica, random))();
    } catch (error) {
      if (!(error instanceof Refused)) throw error;
    }
    if (replica.count > before) states.push(shown(replica));
  }
  for (let round = 0; round < 2; round++) {
    for (let at = states.length - 2; at >= 0; at--) {
      ok(replica.undo());
      isAsBefore(shown(replica), states[at], `seed ${seed}: undo to ${at} of ${states.length - 1}`);
    }
    equal(replica.undo(), false);
    for (let at = 1; at < states.length; at++) {
      ok(replica.redo());
      isAsBefore(shown(replica), states[at], `seed ${seed}: redo to ${at} of ${states.length - 1}`);
    }
    equal(replica.redo(), false);
  }
  isAsBefore(shown(Replica.restore(replica.lines())), states[states.length - 1], `seed ${seed}`);
}

for (const [name, engine] of engines) {
  test(`${name}: ${HISTORIES} random histories are taken back and made again`, () => {
    for (let seed = 1; seed <= HISTORIES; seed++) history(engine, seed);
  });

  test(`${name}: one place, assigned again and again`, () => {
    const me = new Replica("a", "d", { engine });
    for (const value of ["A", "B", "C", "D"]) me.assign([0, "title"], value);
    const back = [];
    while (me.undo()) back.push(me.values([0, "title"])[0]);
    deepEqual(back, ["C", "B", "A", undefined]);
    deepEqual(me.keys([0]), []);
    const again = [];
    while (me.redo()) again.push(me.values([0, "title"])[0]);
    deepEqual(again, ["A", "B", "C", "D"]);
  });

  test(`${name}: places that an edit made vanish with it`, () => {
    const me = new Replica("a", "d", { engine });
    me.assign([0, "a", "b"], 1);
    me.insert([0, "l", 0], "x");
    me.add([0, "n"], 5);
    while (me.undo());
    deepEqual([me.keys([0]), me.show([0])], [[], []]);
    // Not if something else is there by then.
    me.assign([0, "a", "b"], 1);
    me.deliver(`["op",[99,"p"],[["a",${me.front()[0][1]}],["q",98]],[[["m",0],["m","a"]],"c"],["assign",2]]`);
    me.deliver('["op",[1,"r"],[],[[["m",0],["m","a"]],"c"],["assign",2]]');
    ok(me.undo());
    deepEqual([me.keys([0]), me.keys([0, "a"])], [["a"], ["c"]]);
  });

  test(`${name}: what others have put since stays`, () => {
    const [ada, bob] = ["ada", "bob"].map((it) => new Replica(it, "d", { engine }));
    const meet = () => {
      for (const line of ada.lines().slice(1)) bob.deliver(line);
      for (const line of bob.lines().slice(1)) ada.deliver(line);
      equal(print(ada.show([0])), print(bob.show([0])));
    };
    ada.put([0], { title: "Plan", list: ["one", { done: false }], votes: 1 });
    ada.add([0, "votes"], 5);
    ada.assign([0, "title"], "Trip");
    meet();
    bob.assign([0, "title"], "Journey");
    meet();
    ada.undo();
    deepEqual(ada.values([0, "title"]), ["Journey"], "what bob put there since stays");
    ada.undo();
    equal(ada.sum([0, "votes"]), 0);
    const before = ada.items([0, "list"]).map(([id]) => id);
    ada.group(() => {
      ada.delete([0, "list"]);
      ada.delete([0, "title"]);
    });
    deepEqual(ada.keys([0]), ["votes"]);
    meet();
    ada.undo();
    deepEqual(ada.values([0, "title"]), ["Journey"]);
    deepEqual(ada.items([0, "list"]).map(([id]) => id), before, "the same elements");
    deepEqual(ada.values([0, "list", 2, "done"]), [false]);
    meet();
    equal(bob.undo(), true);
    equal(bob.undo(), false);
    // A value that another put at the same time stays alone.
    ada.assign([0, "day"], "Friday");
    bob.assign([0, "day"], "Monday");
    meet();
    ada.undo();
    deepEqual(ada.values([0, "day"]), ["Monday"]);
    // Of a note that one deletes and another changes, the rest comes again.
    ada.put([0, "note"], { text: "x", done: false });
    meet();
    ada.delete([0, "note"]);
    bob.assign([0, "note", "done"], true);
    meet();
    ada.undo();
    deepEqual(plain(ada.show([0, "note"])), { done: true, text: "x" });
  });

  test(`${name}: an addition is taken back unless another has cleared it`, () => {
    const me = new Replica("ada", "d", { engine });
    for (let at = 0; at < 5; at++) me.add([0, "n"], -(2n ** 63n));
    me.undo();
    me.delete([0, "n"]);
    me.undo();
    equal(me.sum([0, "n"]), -4n * 2n ** 63n);
    me.undo();
    equal(me.sum([0, "n"]), -3n * 2n ** 63n);
    const counter = me.front()[0][1];
    me.deliver(`["op",[${counter + 1},"p"],[["ada",${counter}]],[[["m",0]],"n"],["assign",0]]`);
    ok(me.undo());
    equal(me.sum([0, "n"]), 0, "it was cleared");
  });

  test(`${name}: undo without room for it changes nothing`, { timeout: 900_000, skip: tooLong }, () => {
    const me = new Replica("a", "d", { engine });
    me.put([0, "l"], Array.from({ length: 100 }, () => "x"));
    me.delete([0, "l"]);
    for (let at = 1; me.count < MOST.log - 50; at++) {
      me.deliver(["op", [at, "p"], at === 1 ? [] : [["p", at - 1]], [[["m", 0]], "k"], ["delete"]]);
    }
    const before = me.count;
    throws(() => me.undo(), { number: 18 });
    equal(me.count, before);
  });
}

/** Two replicas that meet.
 *  @param {import("../jcrdt.mjs").Open} engine */
function pair(engine) {
  const [ada, bob] = ["ada", "bob"].map((it) => new Replica(it, "d", { engine }));
  const meet = () => {
    for (const [from, to] of [[ada, bob], [bob, ada]]) to.deliverAll([...from.operations(to.front())]);
    equal(print(ada.show([0])), print(bob.show([0])));
  };
  return { ada, bob, meet };
}

for (const [name, engine] of engines) {
  for (const where of ["in a list", "in a map", "alone"]) {
    for (const isAssigned of [false, true]) {
      const title = `${name}: undo of a delete keeps what another has added, ${where}` +
        (isAssigned ? ", and assigned" : "");
      test(title, () => {
        const { ada, bob, meet } = pair(engine);
        const card = { title: "t", label: "l" };
        ada.put([0, "cards"], where === "in a list" ? [card] : { x: card });
        const place = [0, "cards", where === "in a list" ? ada.items([0, "cards"])[0][0] : "x"];
        ada.add([...place, "votes"], 2);
        meet();
        ada.delete(where === "alone" ? [...place, "votes"] : place);
        bob.add([...place, "votes"], 5);
        if (isAssigned) bob.assign([...place, "title"], "new");
        meet();
        equal(ada.sum([...place, "votes"]), 5);
        ada.undo();
        meet();
        equal(ada.sum([...place, "votes"]), 7);
        deepEqual(ada.values([...place, "label"]), ["l"]);
        deepEqual(ada.values([...place, "title"]), [isAssigned ? "new" : "t"]);
        ada.redo();
        equal(ada.sum([...place, "votes"]), 5);
        ada.undo();
        meet();
        equal(ada.sum([...place, "votes"]), 7);
      });
    }
  }

  test(`${name}: undo of a move keeps what another has added to the old place`, () => {
    const { ada, bob, meet } = pair(engine);
    ada.put([0], { todo: [{ title: "card", votes: new Counter(2) }], done: [] });
    meet();
    const [[id]] = ada.items([0, "todo"]);
    ada.group(() => {
      ada.splice([0, "done"], 0, 0, [ada.plain([0, "todo", id])]);
      ada.delete([0, "todo", id]);
    });
    bob.add([0, "todo", id, "votes"], 5);
    meet();
    ada.undo();
    meet();
    deepEqual(plain(ada.show([0])), { todo: [{ title: "card", votes: new Counter(7) }], done: [] });
  });

  test(`${name}: undo of an assignment keeps what another has added`, () => {
    for (const before of [undefined, "old", new Counter(2), new Counter(2, "old"), { votes: new Counter(2) }]) {
      const { ada, bob, meet } = pair(engine);
      if (before !== undefined) ada.put([0, "n"], before);
      const isMap = before !== undefined && typeof before === "object" && !(before instanceof Counter);
      const counter = isMap ? [0, "n", "votes"] : [0, "n"];
      const was = ada.sum(counter);
      meet();
      ada.put([0, "n"], isMap ? { votes: new Counter(30), new: 1 } : "new");
      bob.add(counter, 5);
      meet();
      ada.undo();
      meet();
      equal(ada.sum(counter), was + 5, JSON.stringify(before));
      if (before === "old" || before?.value) deepEqual(ada.values([0, "n"]), ["old"]);
      else if (!isMap) deepEqual(ada.values([0, "n"]), []);
      ada.redo();
      meet();
      equal(ada.sum(counter), isMap ? 35 : 5, JSON.stringify(before));
    }
  });

  test(`${name}: a deletion that another has undone in full isn't counted twice`, () => {
    const { ada, bob, meet } = pair(engine);
    ada.put([0, "card"], { title: "t", votes: new Counter(2) });
    meet();
    ada.delete([0, "card"]);
    bob.delete([0, "card"]);
    meet();
    bob.undo();
    meet();
    ada.undo();
    meet();
    deepEqual(plain(ada.show([0, "card"])), { title: "t", votes: new Counter(2) });
  });

  test(`${name}: undo asks for the room that it needs`, { timeout: 900_000, skip: tooLong }, () => {
    const me = new Replica("a", "d", { engine });
    const all = Array.from({ length: MOST.log - 1000 }, (_, at) =>
      ["op", [at + 1, "p"], at === 0 ? [] : [["p", at]], [[["m", 0]], "k"], ["delete"]]);
    me.deliverAll(all);
    me.splice([0, "text"], 0, 0, "x".repeat(400));
    ok(me.undo()); // one operation for each character
    equal(me.room, 200);
    deepEqual(me.items([0, "text"]), []);
    throws(() => me.redo(), { number: 18 });
    me.splice([0, "text"], 0, 0, "y".repeat(100));
    ok(me.undo());
    equal(me.room, 0);
  });
}
