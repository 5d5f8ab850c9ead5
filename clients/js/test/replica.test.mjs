/* The replica over each engine: texts, refusals, listeners, watches, restoring, speed. */

import { deepEqual, equal, ok, throws } from "node:assert/strict";
import { createHash } from "node:crypto";
import { test } from "node:test";
import { Conflict, Counter, Refused, Replica, freshName, plain, print } from "../index.mjs";
import { byHand, engines } from "./engines.mjs";
import { byteLength } from "../values.mjs";
import { RandomSession } from "./random_sessions.mjs";
import { answered, cpuOf, slowness, tooLong } from "./support.mjs";

const SECONDS = Number(process.env.SECONDS ?? (tooLong ? 0.3 : 2)); // of random sessions, for each engine
const AT_ONCE = tooLong ? 2 : 8; // documents of one `run`

for (const [title, engine] of engines) {
  /** @param {string} name */
  const replicaOf = (name) => new Replica(name, "d", { engine });

  test(`${title}: texts`, () => {
    const me = replicaOf("ada");
    me.put([0], { text: [..."Hello"] });
    const model = [..."Hello"];
    me.watch([0, "text"], (splices) => apply(model, splices));
    const caret = me.place([0, "text", 5]);
    me.splice([0, "text"], 0, 1, "J");
    me.splice([0, "text"], 5, 0, ", 😀");
    equal(me.text([0, "text"]), "Jello, 😀");
    equal(me.indexOf(caret), 5);
    me.delete(caret);
    equal(me.indexOf(caret), 4);
    ok(me.undo() && me.undo());
    equal(me.text([0, "text"]), "Jello");
    equal(me.indexOf(caret), 5);
    ok(me.redo() && me.undo() && me.undo());
    equal(me.text([0, "text"]), "Hello");
    equal(model.join(""), "Hello");
    throws(() => me.splice([0, "text"], 4, 2, ""), { number: 9, name: "index-past-end" });
    for (const bad of [0.5, -1, "1", NaN]) {
      throws(() => me.splice([0, "text"], /** @type {any} */ (bad), 0, "x"), { number: 9 });
    }
    throws(() => me.assign([0, "n"], 1.5), { number: 6, name: "bad-value" });
    throws(() => me.assign([0, "n"], "\ud800"), Refused);
    equal(me.text([0, "text"]), "Hello");
    equal(me.indexOf([0, "text", 0]), 0);
    deepEqual(me.place([0, "text", 0]), [0, "text", 0]);
    const id = me.items([0, "text"])[1][0];
    deepEqual(me.values([0, "text", id]), ["e"]);
    deepEqual(me.place([0, "text", id, "k"]), [0, "text", id, "k"]);
  });

  const skip = engine === byHand && tooLong;
  /** A replica, and the bytes of the answers to each of these requests, in order.
   *  @param {string[]} words */
  const measured = (...words) => {
    /** @type {number[]} */
    const sizes = [];
    const me = new Replica("ada", "d", {
      engine: (name, lines) => {
        const opened = engine(name, lines);
        const { ask } = opened;
        opened.ask = (request) => {
          const answer = ask.call(opened, request);
          if (words.includes(request[0])) sizes.push(byteLength(`${print(answer.reply)}\n${answer.line}\n`));
          return answer;
        };
        return opened;
      },
    });
    return { me, sizes };
  };

  test(`${title}: a paste is a request for some 600 characters, and one step of undo`, { skip }, () => {
    const { me, sizes } = measured("insert", "inserts", "delete", "deletes");
    me.put([0], { text: [..."<>"], note: "x" });
    sizes.length = 0;
    const events = /** @type {number[]} */ ([]);
    const model = [..."<>"];
    me.listen(({ lines }) => events.push(lines.length));
    me.watch([0, "text"], (splices) => apply(model, splices));
    const pasted = Array.from({ length: 2500 }, (_, at) => String.fromCodePoint(0x4e00 + at)).join("");
    const ids = me.splice([0, "text"], 1, 0, pasted);
    equal(sizes.splice(0).length, 4);
    deepEqual(ids, Array.from({ length: 2500 }, (_, at) => [6 + at, "ada"])); // behind {}, [], two and "x"
    deepEqual([me.text([0, "text"]), model.join(""), events], [`<${pasted}>`, `<${pasted}>`, [2500]]);
    equal(me.indexOf([0, "text", ids[1999]]), 2001);
    me.splice([0, "text"], 1, 2498, "");
    equal(sizes.splice(0).length, 4);
    deepEqual([me.text([0, "text"]), model.join("")], [`<${pasted.slice(-2)}>`, `<${pasted.slice(-2)}>`]);
    throws(() => me.splice([0, "text"], 1, 4, "abc"), { number: 9 });
    ok(me.undo());
    equal(me.text([0, "text"]), `<${pasted}>`);
    ok(me.undo() && me.text([0, "text"]) === "<>" && me.redo());
    equal(me.text([0, "text"]), `<${pasted}>`);
    const other = replicaOf("bob");
    other.deliverAll(me.lines().slice(1));
    equal(other.text([0, "text"]), `<${pasted}>`);
  });

  test(`${title}: no answer to a run has more bytes than the library keeps room for`, { skip }, () => {
    const { me, sizes } = measured("inserts", "deletes");
    const names = Array.from({ length: 40 }, (_, at) => `${at}-`.padEnd(32, "z"));
    for (const name of names) {
      const other = replicaOf(name);
      other.deliverAll(me.operations());
      other.assign([0, name], 1);
      me.deliverAll(other.operations());
    }
    const deep = [0, ...Array.from({ length: 12 }, (_, at) => `${at}"`.padEnd(80, "\u0001é"))];
    me.assign(deep, []);
    // Held until a run makes an operation that it has seen. From then on its name is in the front.
    const seen = me.front().map(([name, counter]) => [name, name === "ada" ? 100 : counter]);
    equal(me.deliver(print(["op", [101, "y".repeat(32)], seen, [[["m", 0]], "late"], ["assign", 1]]))[0], "held");
    const values = Array.from({ length: 300 }, (_, at) =>
      ["x", 2 ** 53 - 1, 2n ** 62n, null, {}, "\u0001".repeat(4096), "é\n".repeat(500), "x".repeat(4096), "😀"][at % 9]);
    const ids = me.splice(deep, 0, 0, values);
    deepEqual(me.plain(deep), values);
    me.splice(deep, 1, 298, []);
    deepEqual(me.items(deep).map(([id]) => id), [ids[0], ids[299]]);
    ok(me.plain([0, "late"]) === 1 && me.undo());
    deepEqual(me.plain(deep), values);
    ok(Math.max(...sizes) <= 65_536, String(sizes));
    ok(sizes.length < 1.3 * sizes.reduce((sum, it) => sum + it) / 65_536, `${sizes.length} requests: ${sizes}`);
  });

  test(`${title}: chains tell whose operations differ`, () => {
    const [ada, other, bob] = ["ada", "ada", "bob"].map(replicaOf);
    [ada, other, bob].forEach((replica, at) => replica.assign([0, "k"], at));
    for (const replica of [ada, other]) replica.deliverAll(bob.operations());
    const front = new Map(ada.front());
    /** @param {string[]} lines */
    const digest = (...lines) => createHash("sha256").update(lines.map((it) => `${it}\n`).join("")).digest("hex");
    const chains = [ada, other].map((replica) => replica.chains(new Map(), front));
    deepEqual(chains.map(([first]) => first), [ada, other].map((replica) => {
      const [, line] = replica.lines();
      return [...front].map(([name, counter]) => [name, counter, digest(line)])[0];
    }));
    ok(chains[0][0][2] !== chains[1][0][2] && chains[0][1][2] === chains[1][1][2]);
    deepEqual(ada.chains(front, front), [...front].map(([name, counter]) => [name, counter, digest()]));
  });

  test(`${title}: two that type at one spot don't interleave`, () => {
    const [ada, bob] = ["ada", "bob"].map(replicaOf);
    /** @type {(() => any)[]} */
    const pending = [];
    for (const [from, to] of [[ada, bob], [bob, ada]]) {
      from.listen(({ lines, why }) => why !== "taken" && pending.push(() => to.deliverAll(lines)));
    }
    const meet = () => pending.splice(0).forEach((deliver) => deliver());
    ada.put([0, "line"], [..."ab"]);
    meet();
    const carets = [ada, bob].map((replica) => replica.place([0, "line", 1]));
    for (let at = 0; at < 8; at++) {
      for (const [who, replica] of [ada, bob].entries()) {
        carets[who] = [0, "line", replica.insert(carets[who], ["12345678", "xyxyxyxy"][who][at])];
      }
      if (at % 3 === 2) meet();
    }
    meet();
    equal(ada.text([0, "line"]), bob.text([0, "line"]));
    const text = ada.text([0, "line"]);
    ok(["a12345678xyxyxyxyb", "axyxyxyxy12345678b"].includes(text), text);
  });

  test(`${title}: a refused put or splice changes nothing`, () => {
    const me = replicaOf("ada");
    me.put([0], { title: "Plan", list: [1, 2, 3] });
    const [before, count] = [print(me.show([0])), me.count];
    for (const bad of badValues()) {
      for (const value of [{ title: "New", bad }, [1, [bad]], new Counter(1, { bad })]) {
        throws(() => me.put([0], value), Refused);
        throws(() => me.splice([0, "list"], 0, 1, ["first", value]), Refused);
      }
      throws(() => me.assign([0, "k"], bad), Refused);
      throws(() => me.insert([0, "list", 0], bad), Refused);
    }
    throws(() => me.put([0, "k"], { ["k".repeat(129)]: 1 }), { number: 7 });
    throws(() => me.put([0], nested(31)), { number: 20 });
    throws(() => me.put([0, "list", 9], { a: 1 }), { number: 9 });
    throws(() => me.assign([0, "k"], [1]), { number: 6 });
    equal(print(me.show([0])), before);
    equal(me.count, count);
    me.put([0], nested(30));
    throws(() => me.put([0], Array.from({ length: 100_000 }, () => 1)), { number: 18 });
  });

  test(`${title}: put takes what plain gives`, () => {
    const me = replicaOf("ada");
    const value = {
      title: "Plan", steps: ["ask", ["build", { deep: null }], [], {}], yes: true, big: 2n ** 62n,
      votes: new Counter(3), both: [new Counter(2n ** 65n, "beside"), new Counter(-1, null)],
    };
    me.put([0], { ...value, nothing: undefined });
    deepEqual(plain(me.show([0])), { ...value, votes: new Counter(3) });
    deepEqual(me.plain([0]), plain(me.show([0])));
    me.put([0, "again"], plain(me.show([0])));
    deepEqual(plain(me.show([0, "again"])), value);
    me.put([0, "keys"], JSON.parse('{"__proto__":{"x":1},"constructor":2}'));
    deepEqual(me.keys([0, "keys"]), ["__proto__", "constructor"]);
    me.put([0, "list"], [1, undefined, 2]);
    deepEqual(plain(me.show([0, "list"])), [1, 2]);
    throws(() => me.put([0, "k"], undefined), { number: 6 });
    throws(() => me.put([0, "k"], new Conflict([1, 2])), { number: 6 });
  });

  test(`${title}: listeners hear in order, each on its own`, () => {
    const me = replicaOf("ada");
    /** @type {any[]} */
    const [failed, heard] = [[], []];
    me.failed = (error) => failed.push(error.message);
    const stored = me.lines();
    me.listen(({ ids }) => {
      if (ids[0][0] === 1) me.assign([0, "touched"], true); // edits while others haven't heard
    });
    me.listen(() => {
      throw new Error("disk full");
    });
    const end = me.listen(({ ids }) => heard.push(...ids.map(([counter]) => counter)));
    me.listen(({ lines }) => stored.push(...lines));
    me.assign([0, "a"], 1);
    me.assign([0, "b"], 2);
    deepEqual(heard, [1, 2, 3]);
    deepEqual(failed, ["disk full", "disk full", "disk full"]);
    deepEqual(stored, me.lines());
    deepEqual(Replica.restore(stored, { engine }).unread, []);
    end();
    me.assign([0, "c"], 3);
    equal(heard.length, 3);
  });

  test(`${title}: what is logged together is one event`, () => {
    const [me, other] = [replicaOf("ada"), replicaOf("bob")];
    /** @type {import("../events.mjs").Event[]} */
    const events = [];
    me.listen((event) => events.push(event));
    me.put([0], { list: [1, { a: 2 }], n: 1 });
    me.splice([0, "list"], 1, 1, "xy");
    me.group(() => [1, 2, 3].forEach((it) => me.assign([0, "n"], it)));
    me.undo();
    other.assign([0, "m"], 1);
    other.assign([0, "m"], 2);
    deepEqual(me.deliverAll(other.lines().slice(1)), { taken: 2, refused: [] });
    deepEqual(events.map(({ why, lines }) => [why, lines.length]),
      [["own", 6], ["own", 3], ["own", 3], ["undo", 3], ["taken", 2]]);
    deepEqual(events.flatMap(({ lines }) => lines), me.lines().slice(1));
    deepEqual(events[4].changes[1], { id: [2, "bob"], word: "assign", place: [0, "m"], value: 2 });
    // A page that releases held ones: their lines come with it.
    other.assign([0, "m"], 3);
    other.assign([0, "m"], 4);
    const [third, fourth] = other.lines().slice(-2);
    equal(me.deliver(fourth)[0], "held");
    equal(me.deliver(third)[1], 2);
    deepEqual(events[5].lines, [third, fourth]);
  });

  test(`${title}: a watch of any place hears of what changes there`, () => {
    const me = replicaOf("ada");
    me.put([0], { title: "Plan", notes: [{ text: "a" }], deep: { er: 1 } });
    /** @type {string[]} */
    const heard = [];
    /** @param {string} name @param {any} place */
    const watch = (name, place) => me.watch(place, () => heard.push(name));
    const end = watch("title", [0, "title"]);
    watch("note", [0, "notes", 1]);
    watch("deep", [0, "deep"]);
    watch("all", [0]);
    const due = (/** @type {string[]} */ ...names) => deepEqual(heard.splice(0).sort(), names.sort());
    me.assign([0, "title"], "Trip");
    due("title", "all");
    me.splice([0, "notes"], 0, 0, ["first"]);
    due("all");
    me.assign([0, "notes", 2, "text"], "b");
    due("note", "all");
    me.add([0, "deep", "er"], 1);
    due("deep", "all");
    me.undo();
    due("deep", "all");
    me.assign([0, "deep"], {});
    due("deep", "all");
    me.put([0], { title: "New" });
    due("title", "note", "deep", "all");
    end();
    me.assign([0, "title"], "Newer");
    due("all");
    throws(() => me.watch([0, "notes", 0], () => {}), { number: 10 });
  });

  test(`${title}: splices of a list, by random edits of two`, () => {
    for (let seed = 1; seed <= (tooLong ? 2 : 6); seed++) {
      const session = new RandomSession("d", seed, engine);
      session.watched.forEach(followsItems);
    }
  });

  test(`${title}: restoring takes what it can`, () => {
    const me = replicaOf("ada");
    for (let at = 0; at < 5; at++) me.assign([0, "k"], at);
    const lines = me.lines();
    const other = '["op",[9,"p"],[["p",8]],[[["m",0]],"k"],["assign",9]]';
    const cases = [
      [lines, 5, 0],
      [[...lines.slice(0, 3), ...lines.slice(2)], 5, 1],
      [[...lines, "[1,2"], 5, 1],
      [[...lines, lines[3].replace("2", "7")], 5, 1],
      [[...lines.slice(0, 4), ...lines.slice(5)], 3, 1],
      [[...lines, other], 5, 1],
    ];
    for (const [at, [stored, count, unread]] of cases.entries()) {
      const again = Replica.restore(/** @type {any} */ (stored), { engine });
      deepEqual([again.count, again.unread.length], [count, unread], `case ${at}`);
      again.assign([0, "k"], "goes on");
    }
    deepEqual(Replica.restore([...lines, other], { engine }).unread[0].line, other);
    throws(() => Replica.restore(lines.slice(1)), TypeError);
    throws(() => Replica.restore(["nonsense"]), TypeError);
    throws(() => Replica.restore([]), TypeError);
  });

  test(`${title}: what the caller gives stays the caller's`, () => {
    const me = replicaOf("ada");
    /** @type {any} */
    const op = ["op", [1, "p"], [], [[["m", 0]], "k"], ["assign", 1]];
    me.deliver(op);
    op[2].push(["zz", 7]);
    op[3][0].push(["m", "x"]);
    equal(me.deliver('["op",[2,"p"],[["p",1]],[[["m",0]],"k"],["assign",2]]')[0], "applied");
    const value = { a: [1] };
    me.put([0, "v"], value);
    value.a.push(2);
    deepEqual(plain(me.show([0, "v"])), { a: [1] });
  });

  test(`${title}: random sessions agree with the program byte for byte`, { timeout: 900_000 }, () => {
    const end = Date.now() + SECONDS * 1000;
    let count = 0;
    do {
      const docs = Array.from({ length: AT_ONCE }, (_, at) => `s${count + at}`);
      const sessions = docs.map((doc, at) => new RandomSession(doc, 1e6 + count + at, engine));
      const replies = answered(["run", ...docs], sessions.flatMap(({ lines }) => lines));
      for (const session of sessions) agrees(session, replies.splice(0, session.lines.length), engine);
      count += AT_ONCE;
    } while (Date.now() < end);
  });
}

// ---- What it costs, in processor time.

const SPEED = { timeout: 900_000, skip: tooLong };

/** A replica with so many characters at [0,"t"].
 *  @param {number} count */
function typed(count) {
  const me = new Replica(freshName("ada"), "d");
  me.assign([0, "t"], []);
  type(me, count);
  return me;
}

/** @param {Replica} me
 *  @param {number} count */
function type(me, count) {
  for (let at = 0, place = me.place([0, "t", 0]); at < count; at++) place = [0, "t", me.insert(place, "x")];
}

test("typing takes as long at the end of a long text as at first", SPEED, async (context) => {
  const me = typed(0);
  const first = await cpuOf(() => type(me, 10_000));
  type(me, 20_000);
  const last = await cpuOf(() => type(me, 10_000));
  context.diagnostic(`10,000 characters: ${first.toFixed(0)} ms, behind 30,000 others ${last.toFixed(0)} ms`);
  ok(last < 4.5 * first + 200, `typing 10,000 more: ${last} ms, at first ${first} ms`);
});

test("opening 40,000 characters, watched, takes less than 2 seconds", SPEED, async (context) => {
  const operations = [...typed(40_000).operations()];
  const other = new Replica("bob", "d");
  let [heard, spliced] = [0, 0];
  other.listen(({ lines }) => (heard += lines.length));
  other.watch([0, "t"], (splices) => splices.forEach(({ insert }) => (spliced += insert.length)));
  const opening = await cpuOf(() => {
    for (let at = 0; at < operations.length; at += 64) other.deliverAll(operations.slice(at, at + 64));
  });
  context.diagnostic(`opening 40,000 characters: ${opening.toFixed(0)} ms`);
  deepEqual([heard, spliced], [40_001, 40_000]);
  ok(opening < 2000 * slowness(), `opening 40,000: ${opening} ms`);
});

test("deleting a watched list of 50,000 takes less than a second, and is one splice", SPEED, async (context) => {
  const me = typed(50_000);
  /** @type {any[]} */
  const splices = [];
  me.watch([0, "t"], (it) => splices.push(...it));
  const deleting = await cpuOf(() => me.delete([0, "t"]));
  context.diagnostic(`deleting a watched list of 50,000: ${deleting.toFixed(0)} ms`);
  deepEqual(splices, [{ index: 0, remove: 50_000, insert: [] }]);
  ok(deleting < 1000 * slowness(), `deleting: ${deleting} ms`);
});

/** What no operation can hold. @returns {any[]} */
const badValues = () => [
  1.5, NaN, 2 ** 53, 2n ** 63n, "v".repeat(4097), "\ud800", new Date(0), new Map([["a", 1]]),
  new Set([1]), /x/, new (class {})(), Object(""), new Uint8Array([1]), () => 1, Symbol("x"),
  new Conflict([1, 2]),
];

/** @param {number} depth @returns {any} */
const nested = (depth) => (depth === 0 ? {} : { a: nested(depth - 1) });

/** @param {any[]} model
 *  @param {import("../events.mjs").Splice[]} splices */
function apply(model, splices) {
  for (const { index, remove, insert } of splices) model.splice(index, remove, ...insert);
}

/** What followed a list by its splices has the last value of each of its items.
 *  @param {any} watched */
function followsItems({ peer, cursor, model }) {
  const lastValue = (/** @type {any} */ [id]) => peer.conflicts([...cursor, id]).pop()?.[1] ?? null;
  deepEqual(model, peer.items(cursor).map(lastValue), `${peer.doc}, ${peer.name}, ${print(cursor)}`);
}

/** @param {RandomSession} session
 *  @param {string[]} replies
 *  @param {import("../jcrdt.mjs").Open} engine */
function agrees(session, replies, engine) {
  for (const [at, reply] of replies.entries()) {
    equal(reply, session.replies[at], `${session.doc}, line ${at + 1}: ${session.lines[at]}`);
  }
  session.watched.forEach(followsItems);
  const sorted = (/** @type {Replica} */ it) => print(it.lines().slice(1).sort());
  for (const peer of session.settledPeers()) {
    if (sorted(peer) !== sorted(session.replica)) continue;
    equal(print(peer.show([0])), print(session.replica.show([0])), peer.doc);
    const again = Replica.restore(peer.lines(), { engine });
    deepEqual(again.lines(), peer.lines());
    equal(print(again.show([0])), print(peer.show([0])), peer.doc);
  }
}
