/* The exchange of replicas with servers: real ones, and ones that lie. */

import { deepEqual, equal, ok, rejects, throws } from "node:assert/strict";
import { test } from "node:test";
import { Away, Counter, Replica, connected, freshName, parse, plain, print } from "../index.mjs";
import { NAME_USED_TWICE } from "../protocol.mjs";
import { engines } from "./engines.mjs";
import { dice } from "./random.mjs";
import { startServer, tooLong } from "./support.mjs";

const LIMIT = { timeout: 900_000 };
const LOST = "the module: what a server loses by a kill while it is compared doesn't differ";
const SENT_AGAIN = "the module: what a server loses while it is compared, and gets again from a copy, doesn't differ";
const KILLED = "the module: behind a kill a server has others' operations in place of what was here: it is seen";

/** @param {import("../session.mjs").Client} client
 *  @returns {(line: string) => Promise<string>} */
const answerOf = (client) => (line) => client.answer(line);

/** A server in this program: a replica that answers as one. `lies` may answer in its place.
 *  @param {(request: any[], replica: Replica) => any} [lies] */
function fakeServer(lies = () => undefined) {
  const replica = new Replica("srv-1", "d");
  /** @type {any[][]} */
  const requests = [];
  /** @param {string} line */
  const answer = async (line) => {
    await null;
    const request = parse(line);
    requests.push(request);
    if (requests.length > 5000) throw new Error("asked without end");
    const lie = await lies(request, replica);
    if (lie !== undefined) return typeof lie === "string" ? lie : print(lie);
    const [word, , first, second] = request;
    if (word === "open") return '["opened",1]';
    if (word === "front") return print(["front", replica.front()]);
    if (word === "ops") return print(["ops", [...replica.operations(first)].slice(0, second)]);
    if (word === "page") return print(["ops", [...replica.operations(first)]]); // as a hub
    if (word === "chains") return print(["chains", replica.chains(new Map(first), new Map(second))]);
    try {
      return print(replica.deliver(first));
    } catch (/** @type {any} */ refused) {
      return print(refused.reply);
    }
  };
  return { replica, requests, answer };
}

for (const [title, engine] of engines) {
  /** @param {string} name */
  const replicaOf = (name) => new Replica(name, "d", { engine });

  test(`${title}: apart, together, stored and restored`, LIMIT, async () => {
    const { address } = await startServer(["d"]);
    const [one, two] = await Promise.all([connected(address), connected(address)]);
    const ada = replicaOf(freshName("ada"));
    const stored = ada.lines();
    ada.listen(({ lines }) => stored.push(...lines));
    const bob = replicaOf(freshName("bob"));
    ada.put([0], { text: Array.from({ length: 300 }, (_, at) => `${at}`), big: 2n ** 62n });
    deepEqual(await ada.sync(answerOf(one)), { taken: 0, given: 303, refused: [] });
    deepEqual(await bob.sync(answerOf(two)), { taken: 303, given: 0, refused: [] });
    ada.assign([0, "title"], "Plan");
    bob.assign([0, "title"], "Trip");
    bob.delete([0, "text"]);
    ada.splice([0, "text"], 300, 0, "new");
    ada.add([0, "big"], 2n ** 62n);
    await two.open("d");
    await two.assign("d", [0, "by request"], true);
    const again = Replica.restore(stored, { engine });
    for (const replica of [again, bob, again]) {
      deepEqual((await replica.sync(answerOf(replica === bob ? two : one))).refused, []);
    }
    for (const [word, cursor] of [["show", [0]], ["items", [0, "text"]], ["sum", [0, "big"]]]) {
      const reply = await one.answer(print([word, "d", cursor]));
      for (const it of [again, bob]) {
        const read = /** @type {any} */ (it)[/** @type {string} */ (word)](cursor);
        equal(print([word, word === "sum" ? String(read) : read]), reply); // a reply has the sum as text
      }
    }
    equal(print(["front", bob.front()]), await one.answer('["front","d"]'));
    equal(again.text([0, "text"]), "new");
    one.end();
    two.end();
  });

  test(`${title}: three replicas and a session edit at once`, LIMIT, async () => {
    const { address } = await startServer(["d"]);
    const clients = await Promise.all(Array.from({ length: 4 }, () => connected(address)));
    const below = (/** @type {number} */ limit) => Math.floor(Math.random() * limit);
    /** @type {((it: Replica) => any)[]} */
    const edits = [
      (it) => it.assign([0, "map", `${below(9)}`], below(100)),
      (it) => it.splice([0, "text"], below(it.items([0, "text"]).length + 1), 0, "xy"),
      (it) => it.add([0, "n"], below(9)),
      (it) => it.delete([0, "map"]),
      (it) => it.undo(),
      (it) => it.redo(),
    ];
    const replicas = ["ada", "bob", "cy"].map((word) => replicaOf(freshName(word)));
    const [client, ...others] = clients;
    await client.open("d");
    const live = async (/** @type {Replica} */ replica, /** @type {any} */ with_) => {
      for (let round = 0; round < 15; round++) {
        const exchanged = replica.sync(answerOf(with_));
        for (let count = below(10); count > 0; count--) edits[below(edits.length)](replica);
        deepEqual((await exchanged).refused, []);
      }
    };
    const requests = async () => {
      for (let at = 0; at < 150; at++) await client.assign("d", [0, "map", `${at % 9}`], at);
    };
    await Promise.all([requests(), ...replicas.map((replica, at) => live(replica, others[at]))]);
    for (const replica of [...replicas, ...replicas]) await replica.sync(answerOf(client));
    for (const replica of replicas) {
      equal(print(["show", replica.show([0])]), await client.answer('["show","d",[0]]'));
      equal(print(["front", replica.front()]), await client.answer('["front","d"]'));
    }
    clients.forEach((it) => it.end());
  });

  test(`${title}: a name that two have used`, LIMIT, async () => {
    const { address } = await startServer(["d"]);
    const client = await connected(address);
    const answer = answerOf(client);
    const first = replicaOf("ada");
    first.put([0], { list: ["a"], title: "first" });
    await first.sync(answer);
    const second = replicaOf("ada");
    second.put([0], { list: ["b", "c"] });
    second.splice([0, "list"], 1, 0, ["between"]);
    second.assign([0, "title"], "second");
    second.assign([0, "day"], "Friday");
    const { refused } = await second.sync(answer);
    ok(refused.length > 0 && refused.every(({ own, number }) => own && [14, 15, 16].includes(number)));
    equal(await client.answer('["held","d"]'), '["waiting",[]]');
    /** @type {any[]} */
    const heard = [];
    second.listen(({ why }) => heard.push(why));
    /** @type {any[]} */
    const model = second.items([0, "list"]).map(([, [value]]) => value);
    second.watch([0, "list"], (splices) => {
      for (const { index, remove, insert } of splices) model.splice(index, remove, ...insert);
    });
    const { remade, lost, melted } = await second.remake("ada-again", answer);
    deepEqual([remade, lost, melted, second.name, heard], [7, [], [], "ada-again", ["remade"]]);
    deepEqual((await second.sync(answer)).refused, []);
    equal(print(["show", second.show([0])]), await client.answer('["show","d",[0]]'));
    deepEqual(second.items([0, "list"]).map(([, values]) => values[0]), ["b", "between", "c", "a"]);
    deepEqual(model, ["b", "between", "c", "a"]);
    deepEqual(second.values([0, "title"]), ["first", "second"]);
    // Who has lost what he stored is refused his own operations, and goes on under a new name.
    const third = replicaOf("ada-again");
    ok((await third.sync(answer)).refused.some(({ own, number }) => own && number === 16));
    equal((await third.remake("ada-third", answer)).remade, 0);
    equal(print(third.show([0])), print(second.show([0])));
    client.end();
  });

  test(`${title}: an older store that was put back melts nothing`, LIMIT, async () => {
    const { address } = await startServer(["d"]);
    const client = await connected(address);
    const answer = answerOf(client);
    const note = (/** @type {Replica} */ replica, /** @type {string} */ text) =>
      replica.splice([0, "notes"], replica.items([0, "notes"]).length, 0, [{ text, done: false }]);
    const me = replicaOf("me");
    note(me, "one");
    await me.sync(answer);
    const old = me.lines();
    note(me, "buy milk");
    me.add([0, "count"], 1);
    await me.sync(answer);
    const again = Replica.restore(old, { engine });
    note(again, "call mum");
    again.add([0, "count"], 1); // the very same operation, byte for byte
    const before = await client.answer('["front","d"]');
    const { refused } = await again.sync(answer);
    ok(refused.some(({ own, number }) => own && number === 16), print(refused));
    equal(await client.answer('["front","d"]'), before, "nothing was sent");
    const { lost, melted } = await again.remake("me-again", answer);
    deepEqual([lost, melted], [[], []]);
    await again.sync(answer);
    const notes = plain(again.show([0, "notes"])).map((/** @type {any} */ it) => it.text);
    deepEqual(notes.sort(), ["buy milk", "call mum", "one"]);
    equal(again.sum([0, "count"]), 2);
    equal(print(["show", again.show([0])]), await client.answer('["show","d",[0]]'));
    client.end();
  });

  test(`${title}: two programs with one store melt nothing`, LIMIT, async () => {
    const server = fakeServer();
    const both = replicaOf("me");
    both.put([0, "list"], ["x"]);
    const stored = both.lines();
    const [one, two] = [stored, stored].map((lines) => Replica.restore(lines, { engine }));
    await one.sync(server.answer);
    await two.sync(server.answer);
    one.splice([0, "list"], 1, 0, [{ who: "one" }]);
    two.splice([0, "list"], 1, 0, [{ who: "two" }]);
    await one.sync(server.answer);
    ok((await two.sync(server.answer)).refused.some(({ own }) => own));
    await two.remake("me-2", server.answer);
    await two.sync(server.answer);
    deepEqual(plain(server.replica.show([0, "list"])), ["x", { who: "two" }, { who: "one" }]);
  });

  test(`${title}: two copies of one store deliver at once: nothing is made twice`, LIMIT, async () => {
    for (const isRelayed of [false, true]) { // whether an operation of another goes before one's own
      const server = fakeServer();
      const base = replicaOf("me");
      base.put([0, "list"], ["base"]);
      await base.sync(server.answer);
      const [left, right] = [0, 1].map(() => Replica.restore(base.lines(), { engine }));
      /** @param {Replica} it @param {string} text */
      const append = (it, text) => it.splice([0, "list"], it.items([0, "list"]).length, 0, [text]);
      for (const text of ["left 1", "left 2"]) append(left, text);
      if (isRelayed) right.deliver('["op",[1,"other"],[],[[["m",0]],"k"],["assign",1]]');
      for (const text of ["right 1", "right 2", "right 3", "right 4"]) append(right, text);
      right.add([0, "votes"], 1);
      let isFirst = true;
      /** @param {string} line */
      const answer = async (line) => {
        if (isFirst && line.startsWith('["deliver",')) {
          isFirst = false;
          await left.sync(server.answer);
        }
        return server.answer(line);
      };
      ok((await right.sync(answer)).refused.some(({ own }) => own));
      await right.remake("me-2", server.answer);
      await right.sync(server.answer);
      await left.sync(server.answer);
      const texts = right.items([0, "list"]).map(([, [text]]) => text).sort();
      deepEqual(texts, ["base", "left 1", "left 2", "right 1", "right 2", "right 3", "right 4"]);
      equal(right.sum([0, "votes"]), 1);
      equal(print(left.show([0])), print(right.show([0])));
    }
  });

  /** Exchanges as a provider does: where another has the name, it goes on under a new one.
   *  @param {Replica} replica
   *  @param {(line: string) => Promise<string>} answer */
  async function exchanged(replica, answer) {
    for (let count = 0; count < 20; count++) {
      const { refused } = await replica.sync(answer);
      if (refused.length === 0) return;
      ok(refused.some(({ own, number }) => own && [14, 15, 16].includes(number)), print(refused));
      await replica.remake(freshName("again"), answer);
    }
    throw new Error("exchanged without end");
  }

  /** @param {Replica} it
   *  @param {...string} texts */
  const append = (it, ...texts) => it.splice([0, "list"], it.items([0, "list"]).length, 0, texts);
  /** @param {Replica} it */
  const listed = (it) => it.items([0, "list"]).map(([, [text]]) => String(text)).sort();
  /** @param {Replica} it */
  const opened = (it) => Replica.restore(it.lines(), { engine });

  test(`${title}: copies of a store that hold the same unsent edits make them again once`, LIMIT, async () => {
    const ways = ["first", "second", "both"];
    for (const [way, [more, others]] of ways.flatMap((it) => [[0, 0], [1, 3], [5, 0]].map((n) => /** @type {const} */ ([it, n])))) {
      const server = fakeServer();
      const base = replicaOf("me");
      base.put([0, "list"], ["base"]);
      await base.sync(server.answer);
      const third = opened(base);
      base.add([0, "votes"], 1);
      append(base, "same 1", "same 2");
      const [one, two] = [opened(base), opened(base)];
      const texts = ["base", "same 1", "same 2", "third"];
      append(third, "third");
      third.add([0, "votes"], 1);
      for (const [it, word, count] of /** @type {const} */ ([[one, "one", more], [two, "two", others]])) {
        for (let at = 0; at < count; at++) {
          append(it, `${word} ${at}`);
          texts.push(`${word} ${at}`);
          it.add([0, "votes"], 1);
        }
      }
      await third.sync(server.answer);
      // Closed and opened again: so all that they did is what their stores have.
      const [left, right] = way === "both" ? [opened(one), opened(two)] : [one, two];
      const turns = way === "second" ? [right, left] : [left, right];
      if (way === "both") await Promise.all(turns.map((it) => exchanged(it, server.answer)));
      else for (const it of turns) await exchanged(it, server.answer);
      for (const it of [left, right, third]) {
        await exchanged(it, server.answer);
        deepEqual(listed(it), texts.sort(), `${way} ${more} ${others}`);
        equal(it.sum([0, "votes"]), 2 + more + others);
        equal(print(it.show([0])), print(server.replica.show([0])));
        deepEqual(listed(opened(it)), texts);
      }
    }
  });

  test(`${title}: what two copies put into a new element each stays apart`, LIMIT, async () => {
    const server = fakeServer();
    const base = replicaOf("me");
    base.put([0, "list"], ["base"]);
    await base.sync(server.answer);
    const [one, two] = [opened(base), opened(base)];
    const card = (/** @type {Replica} */ it, /** @type {string} */ title) =>
      it.splice([0, "list"], it.items([0, "list"]).length, 0, [{ title, done: false }]);
    card(one, "one");
    card(two, "two");
    await one.sync(server.answer);
    const again = opened(two); // closed before it was online
    await exchanged(again, server.answer);
    const titles = plain(again.show([0, "list"])).map((/** @type {any} */ it) => it.title);
    deepEqual(titles.sort(), ["one", "two", undefined]);
    await exchanged(one, server.answer);
    equal(print(one.show([0])), print(again.show([0])));
  });

  test(`${title}: random copies of a store, opened and exchanged at once: each edit is there once`, LIMIT, async () => {
    for (let seed = 1; seed <= (tooLong ? 8 : 40); seed++) {
      const { next } = dice(seed);
      const below = (/** @type {number} */ limit) => Math.floor(next() * limit);
      const server = fakeServer();
      const first = replicaOf("me");
      first.put([0, "list"], ["base"]);
      await first.sync(server.answer);
      /** A connection that often breaks, before or behind what it was asked for. */
      const connection = () => {
        let isBroken = false;
        return async (/** @type {string} */ line) => {
          const [before, after] = [next() < 0.03, next() < 0.03];
          const was = isBroken;
          isBroken ||= before || after;
          const reply = was || before ? "" : await server.answer(line);
          if (isBroken) throw new Away("broken");
          return reply;
        };
      };
      /** @param {Replica} it */
      const tried = (it) => exchanged(it, connection()).catch((error) => ok(error instanceof Away, error));
      const all = [first];
      const texts = ["base"];
      for (let step = 0; step < 30; step++) {
        const at = below(all.length);
        const edit = () => {
          texts.push(`${seed} ${step}`);
          append(all[at], `${seed} ${step}`);
          all[at].add([0, "votes"], 1);
        };
        const turns = [edit, edit, edit, () => (all[at] = opened(all[at])),
          () => Promise.all(all.filter(() => next() < 0.4).map(tried)),
          () => {
            if (all.length > 5) return;
            all[at] = opened(all[at]); // it was closed while it was copied
            all.push(opened(all[at]));
          }];
        await turns[below(turns.length)]();
      }
      await Promise.all(all.map((it) => exchanged(it, server.answer)));
      for (const it of all) {
        await exchanged(it, server.answer);
        deepEqual(listed(it), [...texts].sort(), `seed ${seed}`);
        equal(it.sum([0, "votes"]), texts.length - 1, `seed ${seed}`);
        equal(print(it.show([0])), print(server.replica.show([0])));
      }
    }
  });

  test(`${title}: what is made again survives a delete by another, as it would have under its own name`, LIMIT, async () => {
    const shown = [];
    for (const isUsedTwice of [false, true]) {
      const server = fakeServer();
      const base = replicaOf("me");
      base.put([0, "list"], [{ text: "a" }, { text: "b" }, { text: "c" }, "d"]);
      await base.sync(server.answer);
      const [me, copy] = [opened(base), opened(base)];
      const other = replicaOf("other");
      await other.sync(server.answer);
      if (isUsedTwice) copy.assign([0, "title"], "of the copy");
      await copy.sync(server.answer);
      me.assign([0, "list", 1, "text"], "a of me");
      me.add([0, "list", 2, "votes"], 3);
      me.splice([0, "list"], 3, 0, [{ text: "behind c" }]);
      me.delete([0, "list", 5]);
      for (let count = 0; count < 4; count++) other.delete([0, "list", 1]);
      await other.sync(server.answer);
      await exchanged(me, server.answer);
      equal(me.name === "me", !isUsedTwice);
      equal(print(me.show([0])), print(server.replica.show([0])));
      shown.push(me.plain([0, "list"]));
    }
    deepEqual(shown[0], [{ text: "a of me" }, { votes: new Counter(3) }, { text: "behind c" }]);
    deepEqual(shown[1], shown[0]);
  });

  test(`${title}: what copies make again is made under a name of one's own where the server takes no more`, LIMIT, async () => {
    let isFull = false;
    const server = fakeServer(([word, , op]) =>
      (word === "deliver" && isFull && op[4][1] === "same 2" ? ["no", 18, "log-full"] : undefined));
    const base = replicaOf("me");
    base.put([0, "list"], ["base"]);
    await base.sync(server.answer);
    const other = opened(base);
    append(base, "same 1", "same 2");
    const me = opened(base);
    append(other, "other");
    await other.sync(server.answer);
    isFull = true;
    ok((await me.sync(server.answer)).refused.some(({ own }) => own));
    const { remade, lost } = await me.remake("me-2", server.answer);
    deepEqual([remade, lost, listed(me)], [2, [], ["base", "other", "same 1", "same 2"]]);
    deepEqual((await me.sync(server.answer)).refused.map(({ number, own }) => [number, own]), [[18, true]]);
    isFull = false;
    await exchanged(me, server.answer);
    deepEqual(listed(me), ["base", "other", "same 1", "same 2"]);
    equal(print(me.show([0])), print(server.replica.show([0])));
  });

  test(`${title}: what is edited while own operations are made again isn't lost`, LIMIT, async () => {
    const server = fakeServer();
    const base = replicaOf("me");
    base.put([0, "list"], ["base"]);
    await base.sync(server.answer);
    const [me, other] = [opened(base), opened(base)];
    append(other, "other");
    append(me, "mine");
    await other.sync(server.answer);
    let count = 0;
    const answer = (/** @type {string} */ line) => {
      append(me, `while ${count++}`);
      const reply = server.answer(line);
      // In each turn until the reply is used, and behind it.
      let turn = Promise.resolve();
      for (let at = 0; at < 20; at++) turn = turn.then(() => void append(me, `while ${count++}`));
      return reply;
    };
    await me.sync(server.answer);
    const /** @type {string[]} */ gone = [];
    me.listen((event) => gone.push(...event.gone ?? []));
    await me.remake("me-2", answer);
    equal(gone.filter((line) => line.includes('"me"]')).length > 0, true);
    for (let turn = 0; turn < 30; turn++) await null;
    await exchanged(me, server.answer);
    deepEqual(listed(me), ["base", "mine", "other", ...Array.from({ length: count }, (_, at) => `while ${at}`)].sort());
    equal(print(me.show([0])), print(server.replica.show([0])));
  });

  test(`${title}: a reply that was lost isn't taken for a name used twice`, LIMIT, async () => {
    let isBroken = false;
    const server = fakeServer(([word, , op], replica) => {
      if (word !== "deliver" || !isBroken) return undefined;
      replica.deliver(op);
      throw new Error("broken");
    });
    const me = replicaOf("me");
    me.put([0, "list"], [{ a: 1 }, { a: 2 }]);
    isBroken = true;
    await rejects(me.sync(server.answer), /broken/);
    isBroken = false;
    me.splice([0, "list"], 2, 0, [{ a: 3 }]);
    deepEqual((await me.sync(server.answer)).refused, []);
    const again = Replica.restore(me.lines(), { engine });
    deepEqual(await again.sync(server.answer), { taken: 0, given: 0, refused: [] });
    equal(print(server.replica.show([0])), print(me.show([0])));
  });

  /** @type {[how: string, lies: (request: any[]) => any][]} */
  const ways = [["", ([word]) => (word === "chains" ? ["no", 2, "bad-request"] : undefined)], [", by digests", () => undefined]];
  for (const [how, lies] of ways) {
    test(title === "the module" && how === "" ? KILLED : `${title}: behind a kill${how}`, LIMIT, async () => {
      const before = fakeServer();
      const base = replicaOf("me");
      base.put([0, "list"], ["base"]);
      await base.sync(before.answer);
      const [me, copy, peer] = [opened(base), opened(base), replicaOf("peer")];
      append(me, "lost");
      append(copy, "copy");
      await me.sync(before.answer);
      await peer.sync(before.answer);
      const server = fakeServer(lies); // its file had what `base` has
      await base.sync(server.answer);
      await copy.sync(server.answer);
      const own = await me.sync(server.answer);
      deepEqual(own.refused.map(({ number, own: isOwn }) => [NAME_USED_TWICE.has(number), isOwn]), [[true, true]]);
      peer.add([0, "n"], 1);
      const [counter, front] = [new Map(me.front()).get("me"), server.replica.front()];
      for (let turn = 0; turn < 2; turn++) {
        const { taken, given, differs, refused } = await peer.sync(server.answer);
        deepEqual([taken, given, differs], [0, 0, { name: "me", counter }]);
        deepEqual(refused.map(({ number, own: isOwn }) => [number, isOwn]), [[15, false]]);
      }
      deepEqual(server.replica.front(), front);
      await me.remake("me-2", server.answer);
      await exchanged(me, server.answer);
      await peer.remake("peer-2", server.answer);
      for (const it of [me, copy, peer]) {
        await exchanged(it, server.answer);
        deepEqual(listed(it), ["base", "copy", "lost"]);
        equal(print(it.show([0])), print(server.replica.show([0])));
      }
    });
  }

  test(`${title}: what a server had a moment ago, and lost by a kill, is nobody else's`, LIMIT, async () => {
    let isKilled = true;
    const server = fakeServer(([word]) => (word === "front" && isKilled ? ["front", [["me", 2]]] : undefined));
    const me = replicaOf("me");
    me.put([0, "list"], ["base"]); // another has sent it, as a copy
    await rejects(me.sync(server.answer), Away);
    isKilled = false;
    deepEqual(await me.sync(server.answer), { taken: 0, given: 2, refused: [] });
  });

  /** @type {[name: string, isSentAgain: boolean][]} */
  const losses = [[title === "the module" ? LOST : `${title}: lost while it is compared`, false],
    [title === "the module" ? SENT_AGAIN : `${title}: lost, and sent again by another, while it is compared`, true]];
  for (const [name, isSentAgain] of losses) test(name, LIMIT, async () => {
    const before = fakeServer();
    const [me, peer] = [replicaOf("me"), replicaOf("peer")];
    me.put([0, "list"], ["base"]);
    for (const it of [me, peer]) await it.sync(before.answer);
    for (const it of [peer, me]) {
      let fronts = 0;
      const server = fakeServer(([word], replica) => {
        if (word !== "front") return undefined;
        fronts += 1;
        if (fronts === 2 && isSentAgain) for (const op of me.operations()) replica.deliver(op);
        return fronts === 1 ? ["front", [["me", 2]]] : undefined;
      });
      const report = await it.sync(server.answer).catch((error) => {
        ok(error instanceof Away, String(error));
        return it.sync(server.answer);
      });
      deepEqual([report.refused, report.differs], [[], undefined]);
      await exchanged(it, server.answer);
      equal(print(server.replica.show([0])), print(it.show([0])));
    }
  });

  test(`${title}: another tab may send own operations, if it is said`, LIMIT, async () => {
    const server = fakeServer();
    const [me, tab] = [replicaOf("me"), replicaOf("tab")];
    me.isShared = true;
    me.listen(({ lines }) => tab.deliverAll(lines));
    me.put([0], { list: ["a"] });
    await tab.sync(server.answer);
    deepEqual((await me.sync(server.answer)).refused, []);
  });

  test(`${title}: calls of sync at once`, LIMIT, async () => {
    const server = fakeServer();
    const me = replicaOf("me");
    me.put([0, "list"], Array.from({ length: 200 }, (_, at) => at));
    const first = me.sync(server.answer);
    while (server.requests.length < 2) await null;
    const all = [first, ...Array.from({ length: 20 }, () => me.sync(server.answer))];
    me.assign([0, "late"], 1);
    const reports = await Promise.all(all);
    equal(reports[0].given + reports[1].given, 202);
    const delivered = server.requests.filter(([word]) => word === "deliver").length;
    ok(delivered <= 203, `${delivered} deliveries`);
    equal(server.requests.filter(([word]) => word === "front").length, 2);
    equal(print(server.replica.front()), print(me.front()));
    // Two servers at once are two exchanges.
    const other = fakeServer();
    me.assign([0, "later"], 1);
    await Promise.all([me.sync(server.answer), me.sync(other.answer)]);
    equal(print(other.replica.front()), print(server.replica.front()));
  });

  test(`${title}: what a server says while it is asked for its front isn't taken for known`, LIMIT, async () => {
    let isSaid = false;
    const me = replicaOf("me");
    const server = fakeServer(([word], replica) => {
      if (word !== "front" || isSaid) return undefined;
      isSaid = true;
      const before = print(["front", replica.front()]);
      replica.assign([0, "k"], 1);
      equal(me.logged(server.answer, [...replica.operations([])]), false); // nothing was compared by then
      return before;
    });
    me.follow(server.answer);
    await me.sync(server.answer);
    await me.sync(server.answer); // as `logged` asked for
    equal(me.count, 1);
    server.requests.length = 0;
    await me.sync(server.answer);
    deepEqual(server.requests, []); // by now it is known
  });

  test(`${title}: servers that lie`, LIMIT, async () => {
    const page = Array.from({ length: 64 }, (_, at) =>
      ["op", [at + 1, "p"], at ? [["p", at]] : [], [[["m", 0]], "k"], ["assign", at]]);
    const repeated = fakeServer(([word]) => (word === "ops" ? ["ops", page] : undefined));
    equal((await replicaOf("me").sync(repeated.answer)).taken, 64);
    ok(repeated.requests.length < 80);
    let names = 0;
    const endless = fakeServer(([word]) => word === "ops" ? ["ops", page.map((op) =>
      ["op", [5, `x${names++}`], [["gone", 4]], op[3], op[4]])] : undefined);
    await rejects(replicaOf("me").sync(endless.answer), TypeError);
    for (const reply of ["nonsense", "5", "{}", "[]", '["front",5]', '["front",[[1,2]]]',
      print(["front", Array.from({ length: 300 }, (_, at) => [`r${1000 + at}`, 1])])]) {
      const server = fakeServer(([word]) => (word === "front" ? reply : undefined));
      await rejects(replicaOf("me").sync(server.answer), (error) => error instanceof TypeError || error instanceof SyntaxError);
    }
    for (const ops of [[5], [["op"]], [null], [["op", [1, "p"], null, 3, 4]], "x", { a: 1 }]) {
      const server = fakeServer(([word]) => (word === "ops" ? ["ops", ops] : undefined));
      const me = replicaOf("me");
      me.assign([0, "k"], 1);
      const report = await me.sync(server.answer).catch((error) => error);
      ok(report instanceof TypeError || (report.refused.length === 1 && report.given === 1));
    }
    const bad = Array.from({ length: 64 }, (_, at) => ["op", [7, "p"], [["q", 6]], [[], 0], ["assign", "z".repeat(4096) + at]]);
    let count = 0;
    const flood = fakeServer(([word]) => word === "ops" && count++ < (tooLong ? 20 : 100)
      ? ["ops", bad.map((op) => ["op", [count + 7, "p"], [["q", 6]], op[3], op[4]])] : undefined);
    ok((await replicaOf("me").sync(flood.answer)).refused.length <= 1000);
  });

  test(`${title}: own edits that are refused bar what depends on them`, LIMIT, async () => {
    const server = fakeServer(([word, , op]) =>
      (word === "deliver" && op[1][0] === 3 ? ["no", 19, "too-many-replicas"] : undefined));
    const [me, other] = [replicaOf("me"), replicaOf("other")];
    for (let at = 0; at < 6; at++) me.assign([0, "k"], at);
    other.assign([0, "o"], 1);
    me.deliverAll(other.lines().slice(1));
    const { given, refused } = await me.sync(server.answer);
    deepEqual([given, refused.map(({ number, own }) => [number, own])], [3, [[19, true]]]);
    // A full server is sent no more than one page.
    const full = fakeServer(([word]) => (word === "deliver" ? ["no", 18, "log-full"] : undefined));
    const many = replicaOf("many");
    many.put([0, "l"], Array.from({ length: 500 }, () => 1));
    equal((await many.sync(full.answer)).refused.length, 1);
  });

  test(`${title}: refused own edits are made again in the new document`, LIMIT, async () => {
    const full = fakeServer();
    const old = replicaOf("ada");
    old.put([0], { list: ["a", { text: "b" }, "c"], title: "x", n: 1 });
    await old.sync(full.answer);
    throws(() => replicaOf("ada").remakeIn(old, []), TypeError);
    const refusing = fakeServer(([word, , op]) => word === "deliver" && op[1][1] === "ada" && op[1][0] > old.count - 9
      ? ["no", 18, "log-full"] : undefined);
    refusing.replica.deliverAll(old.lines().slice(1));
    const [a, b, c] = old.items([0, "list"]).map(([id]) => id);
    old.assign([0, "list", b, "text"], "b2");
    const [d] = old.splice([0, "list"], 3, 0, [{ text: "d" }]);
    old.assign([0, "list", d, "text"], "d2");
    old.delete([0, "list", a]);
    old.insert([0, "list", a], "behind a");
    old.add([0, "n"], 5);
    old.assign([0, "list", c], "c2");
    // The new document has the content, but for c, which another had deleted by then.
    const renewed = new Replica("renewer", "d2", { engine });
    renewed.put([0], { list: ["a", { text: "b" }], title: "x", n: 1 });
    const now = renewed.items([0, "list"]).map(([id]) => id);
    const me = new Replica("ada-2", "d2", { engine });
    me.deliverAll(renewed.lines().slice(1));
    const map = [`${print([a, now[0]])}`, print([b, now[1]]), ""];
    await old.sync(refusing.answer);
    /** @type {any[]} */
    const events = [];
    me.listen(({ lines }) => events.push(lines.length));
    const { remade, lost } = old.remakeIn(me, map);
    deepEqual([remade, lost.map((line) => parse(line)[4])], [7, [["assign", "c2"]]]);
    deepEqual(plain(me.show([0])).list, ["behind a", { text: "b2" }, { text: "d2" }]);
    equal(me.sum([0, "n"]), 5);
    deepEqual(events, [7]);
  });

  // The same is done by `renew again`, in test_late_changes_are_made_again of the Python package.
  test(`${title}: what was done meanwhile is made again, but for what another has deleted by then`, LIMIT, () => {
    const old = replicaOf("alice");
    old.put([0], { list: ["zero", "a", { text: "b" }, "c"], title: "x" });
    old.delete([0, "list", 1]);
    const before = old.front();
    const renewed = new Replica("renewer", "kept", { engine });
    renewed.put([0], { list: ["a", { text: "b" }, "c"], title: "x" });
    const now = renewed.items([0, "list"]).map(([id]) => id);
    const map = old.items([0, "list"]).map(([id], at) => print([id, now[at]]));
    renewed.delete([0, "list", 3]);
    old.assign([0, "list", 2, "text"], "b2");
    const [d] = old.splice([0, "list"], 3, 0, [{ text: "d" }]);
    old.assign([0, "list", d, "text"], "d2");
    const a = old.place([0, "list", 1]);
    old.delete(a);
    old.insert(a, "behind a");
    old.add([0, "n"], 5);
    old.assign([0, "list", 3], "c2");
    old.delete([0, "title"]);
    const lines = [...old.operations(before)].map(print);
    const me = new Replica("ada", "kept", { engine });
    me.deliverAll(renewed.lines().slice(1));
    const { remade, lost } = old.remakeIn(me, map, lines);
    deepEqual([remade, lost.map((line) => parse(line)[4])], [lines.length - 1, [["assign", "c2"]]]);
    deepEqual(me.plain([0, "list"]), ["behind a", { text: "b2" }, { text: "d2" }]);
    deepEqual([me.sum([0, "n"]), me.keys([0])], [5, ["list", "n"]]);
  });
}


test("lines of operations that are taken at once are their own, also where a value looks like one", LIMIT, async () => {
  const server = fakeServer();
  const value = '["ops",[["op",[1,"a"],[],[[["m",0]],"k"],["assign",1]],["op",[';
  for (let at = 0; at < 300; at++) server.replica.assign([0, `k${at % 7}`], at % 3 === 0 ? `${value}${at}` : 2n ** 62n);
  for (const change of [(/** @type {string} */ it) => it, (/** @type {string} */ it) => it.replaceAll(',["op",[', ', ["op",[')]) {
    const me = new Replica("me", "d");
    /** @type {string[]} */
    const heard = [];
    me.listen(({ lines }) => heard.push(...lines));
    await me.sync(async (line) => change(await server.answer(line)));
    deepEqual(heard.map((it) => print(parse(it))), server.replica.lines().slice(1));
    deepEqual(me.lines().slice(1), server.replica.lines().slice(1));
    equal(Replica.restore(me.lines()).count, 300);
  }
});

test("of many operations that an empty replica takes, those that don't fit are refused one by one", () => {
  const ada = new Replica("ada", "d");
  ada.splice([0, "t"], 0, 0, "x".repeat(300));
  const [first, ...lines] = ada.lines().slice(1);
  const later = '["op",[2,"eve"],[["carl",1]],[[["m",0]],"k"],["assign",1]]';
  for (const [title, engine] of engines) {
    const of = (taken) => {
      const replica = new Replica("bob", "d", { engine });
      const report = replica.deliverAll(taken);
      const refused = report.refused.map(({ line, refusal }) => [line, refusal.number]);
      return { taken: report.taken, refused, held: replica.held(), text: replica.text([0, "t"]) };
    };
    const text = "x".repeat(300);
    const all = { taken: 300, refused: [], held: [], text };
    deepEqual(of([first, ...lines]), all, title);
    deepEqual(of([first, first, ...lines]), all, title); // one that is known already
    deepEqual(of([first, later, ...lines]), { ...all, held: [[[2, "eve"], [[1, "carl"]]]] }, title);
    deepEqual(of([first, "no JSON", ...lines]), { ...all, refused: [["no JSON", 12]] }, title);
    const isBad = (line) => ({ ...all, taken: 300, refused: [[line, 12]] });
    deepEqual(of([first, '["op"]', ...lines]), isBad('["op"]'), title);
  }
});
