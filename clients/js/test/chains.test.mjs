/* Logs are compared before they are mixed: a replica, or a provider, and a server whose older file was
   put back under its old name. Real servers and hubs. */

import { deepEqual, equal, match, ok, rejects } from "node:assert/strict";
import { createHash } from "node:crypto";
import { copyFileSync, existsSync, mkdirSync, readFileSync, rmSync } from "node:fs";
import { test as nodeTest } from "node:test";
import { Compared, firstDifference } from "../chains.mjs";
import { fileStore } from "../file_store.mjs";
import { Replica, freshName } from "../index.mjs";
import { connected } from "../session.mjs";
import { Refused } from "../wire.mjs";
import { until } from "./chromium.mjs";
import { engines } from "./engines.mjs";
import { opened, test } from "./providing.mjs";
import { end, room, startHub, startServer } from "./serving.mjs";
import { World } from "./simulated.mjs";

const LIMIT = { timeout: 900_000 };
const DURABLE = { more: ["--durable"] };
const ENDS = ["", "-wal", "-shm"];

/** A side that has these counters of each replica; a negative one is another operation. */
function sideOf(counters) {
  const widths = [];
  const ask = (after, last) => {
    const from = new Map(after);
    widths.push(last.reduce((sum, [name, it]) => sum + it - (from.get(name) ?? 0), 0));
    return last.map(([name, it]) => {
      const some = counters[name].filter((one) => Math.abs(one) > (from.get(name) ?? 0) && Math.abs(one) <= it);
      return [name, it, createHash("sha256").update(some.map((one) => `${one}\n`).join("")).digest("hex")];
    });
  };
  const front = () => new Map(Object.entries(counters).map(([name, some]) => [name, Math.abs(some.at(-1))]));
  return { ask, front, widths, counters };
}

const found = (one, other, compared = new Compared()) =>
  firstDifference(one.ask, other.ask, [one.front(), other.front()], compared);

const upTo = (count) => Array.from({ length: count }, (_, at) => at + 1);

nodeTest("the first operation that differs is found, in pieces", LIMIT, async () => {
  const many = upTo(40_000);
  for (const at of [1, 511, 512, 513, 39_999, 40_000]) {
    const other = [...many.map((it) => (it === at ? -it : it)), 40_001];
    const one = sideOf({ a: [1], b: many });
    deepEqual(await found(one, sideOf({ a: [1, 2], b: other })), { name: "b", counter: at });
    ok(Math.max(...one.widths) <= 512);
  }
  equal(await found(sideOf({ a: [1, 2, 3] }), sideOf({ a: [1, 2], b: [5] })), undefined);
});

nodeTest("what has moved since is compared, and all where a side has lost something", LIMIT, async () => {
  const [one, other] = [sideOf({ a: [1, 2], b: upTo(2000) }), sideOf({ a: [1, 2], b: upTo(2000) })];
  const compared = new Compared();
  equal(await found(one, other, compared), undefined);
  equal(one.widths.reduce((sum, it) => sum + it), 2002);
  one.widths.length = 0;
  equal(await found(one, other, compared), undefined);
  deepEqual(one.widths, []);
  for (const { counters } of [one, other]) counters.b.push(2001);
  equal(await found(one, other, compared), undefined);
  deepEqual(one.widths, [2]); // the last one of before is looked at again
  other.counters.b = [...upTo(1000), -1001];
  deepEqual(await found(one, other, compared), { name: "b", counter: 1001 });
});

nodeTest("an older server is left to other checks, and other refusals are thrown", LIMIT, async () => {
  const one = sideOf({ a: [1] });
  const refusing = (number) => ({ ask: async () => { throw new Refused(number); }, front: one.front });
  const compared = new Compared();
  equal(await found(one, refusing(2), compared), undefined);
  equal(compared.isKnown, false);
  await rejects(found(one, refusing(22)), { number: 22 });
  await rejects(found(one, { ask: async () => [["a", 2, ""]], front: one.front }), TypeError);
});

// ---- A server whose older file is put back

async function edit(address, values) {
  const client = await connected(address, { seconds: 300 });
  await client.open("d");
  for (const [key, value] of Object.entries(values)) await client.assign("d", [0, key], value);
  await client.quit();
}

async function state(address) {
  const client = await connected(address, { seconds: 300 });
  await client.open("d");
  const found = { front: [...await client.front("d")], plain: await client.plain("d", [0]) };
  await client.quit();
  return found;
}

/** Copies what a server that has ended left. */
function copy(from, to) {
  mkdirSync(to, { recursive: true });
  for (const it of ENDS) {
    rmSync(`${to}/test.db${it}`, { force: true });
    if (existsSync(`${from}/test.db${it}`)) copyFileSync(`${from}/test.db${it}`, `${to}/test.db${it}`);
  }
}

const SEEN = { day: "Friday", town: "Oslo", count: 3 };
const OTHER = { ...SEEN, town: "Bergen" };

/** A server in its second start. `putBack` starts it over the file that it had before: it makes other
 *  operations with the same ids then, of which the last is the same. */
async function twice() {
  const first = await startServer(["d"], DURABLE);
  const { address, folder } = first;
  await edit(address, { title: "Plan" });
  await end(first);
  const backup = room();
  copy(folder, backup);
  const server = await startServer(["d"], { ...DURABLE, folder, address });
  await edit(address, SEEN);
  return {
    address,
    putBack: async (values = OTHER) => {
      await end(server);
      copy(backup, folder);
      const again = await startServer(["d"], { ...DURABLE, folder, address });
      await edit(address, values);
      return again;
    },
  };
}

/** @param {import("../session.mjs").Client} client */
const answerOf = (client) => (line) => client.answer(line);

for (const [title, engine] of engines) {
  const replicaOf = (word) => new Replica(freshName(word), "d", { engine });

  nodeTest(`${title}: a replica notices it before anything is exchanged, and goes on under a new name`, LIMIT, async () => {
    const server = await twice();
    const me = replicaOf("ada");
    let client = await connected(server.address, { seconds: 300 });
    equal((await me.sync(answerOf(client))).taken, 4);
    me.assign([0, "mine"], 1);
    await server.putBack();
    const before = await state(server.address);
    const front = me.front();
    client = await connected(server.address, { seconds: 300 });
    const answer = answerOf(client);
    for (let turn = 0; turn < 2; turn++) {
      const { taken, given, differs, refused } = await me.sync(answer);
      deepEqual([taken, given, differs], [0, 0, { name: "srv-2", counter: 3 }]);
      ok(refused.length > 0 && refused.every(({ own, number }) => !own && number === 15));
    }
    deepEqual([me.front(), await state(server.address)], [front, before]);

    const { lost } = await me.remake(freshName("ada"), answer);
    deepEqual(lost.map((line) => JSON.parse(line)[1]), [[3, "srv-2"]]);
    const report = await me.sync(answer);
    deepEqual([report.differs, report.refused], [undefined, []]);
    deepEqual(me.plain([0]), { title: "Plan", ...OTHER, mine: 1 });
    deepEqual((await state(server.address)).plain, me.plain([0]));
    await client.quit();
  });

  nodeTest(`${title}: what comes to the server behind its front is compared, too`, LIMIT, async () => {
    const server = await twice();
    const me = replicaOf("ada");
    let client = await connected(server.address, { seconds: 300 });
    await me.sync(answerOf(client));
    me.assign([0, "mine"], 1);
    const front = me.front();
    await server.putBack({});
    client = await connected(server.address, { seconds: 300 });
    let isLate = true;
    const report = await me.sync(async (line) => {
      if (isLate && line.startsWith('["ops",')) {
        isLate = false;
        await edit(server.address, { ...OTHER, late: 1 });
      }
      return client.answer(line);
    });
    deepEqual([report.taken, report.given, report.differs], [0, 0, { name: "srv-2", counter: 3 }]);
    deepEqual(me.front(), front);
    deepEqual((await state(server.address)).plain, { title: "Plan", ...OTHER, late: 1 });
    await client.quit();
  });

  nodeTest(`${title}: of the own name all is compared, not the last ones alone`, LIMIT, async () => {
    const server = await startServer(["d"]);
    const client = await connected(server.address, { seconds: 300 });
    const answer = answerOf(client);
    const [one, other] = [1, 2].map((value) => {
      const it = new Replica("ada", "d", { engine });
      it.assign([0, "first"], value);
      for (let at = 0; at < 100; at++) it.assign([0, "k"], at);
      return it;
    });
    equal((await one.sync(answer)).given, 101);
    const stored = Replica.restore(other.lines(), { engine });
    const { differs, refused } = await stored.sync(answerOf(client));
    deepEqual(differs, { name: "ada", counter: 1 });
    ok(refused.length === 101 && refused.every(({ own, number }) => own && number === 16));
    await stored.remake(freshName("ada"), answer);
    equal((await stored.sync(answer)).differs, undefined);
    deepEqual(stored.conflicts([0, "first"]).length, 2);
    await client.quit();
  });

  nodeTest(`${title}: what depends on others isn't mixed`, LIMIT, async () => {
    const server = await twice();
    const me = replicaOf("ada");
    let client = await connected(server.address, { seconds: 300 });
    await me.sync(answerOf(client));
    me.deliver(["op", [5, "carl"], [["srv-1", 1], ["srv-2", 4]], [[["m", 0]], "of carl"], ["assign", 1]]);
    await server.putBack();
    client = await connected(server.address, { seconds: 300 });
    const { lost } = await me.remake(freshName("ada"), answerOf(client));
    deepEqual(lost.map((line) => JSON.parse(line)[1]), [[3, "srv-2"], [5, "carl"]]);
    deepEqual((await me.sync(answerOf(client))).given, 0);
    deepEqual(me.plain([0]), { title: "Plan", ...OTHER });
    await client.quit();
  });

  nodeTest(`${title}: a foreign refusal doesn't stop the own operations`, LIMIT, async () => {
    const server = await startServer(["d"]);
    const client = await connected(server.address, { seconds: 300 });
    const me = replicaOf("ada");
    me.assign([0, "mine"], 1);
    me.deliver(["op", [1, "srv-1"], [], [[["m", 0]], "s"], ["assign", 1]]); // the server never made it
    me.deliver(["op", [1, "carl"], [], [[["m", 0]], "c"], ["assign", 1]]);
    const { given, refused, differs } = await me.sync(answerOf(client));
    deepEqual([given, differs], [2, undefined]);
    deepEqual(refused.map(({ own, number }) => [own, number]), [[false, 16]]);
    await client.open("d");
    deepEqual([...await client.front("d")].sort(), [["carl", 1], [me.name, 1]].sort());
    await client.quit();
  });
}

// ---- Providers

/** A provider that has an edit for a server whose older file was put back, by the way that `at` gives. */
async function differing(at) {
  const server = await twice();
  const file = `${room()}/ada`;
  const place = await at(server.address);
  const ada = await opened(place, { store: fileStore(file) });
  await ada.synced(300);
  ada.replica.assign([0, "sent"], "before");
  await ada.synced(300);
  ada.goOffline();
  ada.replica.assign([0, "mine"], "offline");
  await server.putBack();
  const there = await state(server.address);
  ada.goOnline();
  await rejects(ada.synced(300), /from 3 on the server has other operations of srv-2 than are here/);
  equal(ada.state.word, "refused");
  deepEqual(ada.state.refused.differs, { name: "srv-2", counter: 3 });
  deepEqual(await state(server.address), there);
  deepEqual(ada.replica.plain([0]), { title: "Plan", ...SEEN, sent: "before", mine: "offline" });
  return { ada, file, server, there };
}

const ownLines = (lines, name) => lines.filter((line) => line.includes(`"${name}"],`) && line.startsWith('["op",'));

test("a provider says it, sends and takes nothing, and goes on under a new name if it is told to", async () => {
  const { ada, file, server } = await differing((address) => address);
  const name = ada.replica.name;
  equal(ada.state.refused.count, 2);
  equal(ada.problems.get("refused").lines.length, 2);
  match(ada.problems.get("refused").words, /srv-2.* Nothing is sent or taken, and 2 changes of this replica stay here$/);
  equal(ada.canWrite, false);
  // What is edited or logged meanwhile stays where it is.
  ada.replica.assign([0, "later"], 1);
  await edit(server.address, { meanwhile: 1 });
  await rejects(ada.synced(300), /srv-2/);
  equal(ada.replica.plain([0, "meanwhile"]), undefined);
  ok(!("mine" in (await state(server.address)).plain));

  const lost = await ada.remakeRefused({ seconds: 300 });
  deepEqual(lost.map((line) => JSON.parse(line)[1]), [[3, "srv-2"]]);
  await ada.synced(300);
  equal(ada.state.word, "online");
  ok(!ada.problems.has("refused"));
  const due = { title: "Plan", ...OTHER, sent: "before", mine: "offline", later: 1, meanwhile: 1 };
  deepEqual(ada.replica.plain([0]), due);
  deepEqual((await state(server.address)).plain, due);
  ok(ada.replica.name !== name && readFileSync(file, "utf8").includes(ada.replica.name));
  deepEqual(await ada.remakeRefused(), []);
});

test("a provider takes its edits back where it is told to", async () => {
  const { ada, there } = await differing((address) => address);
  const lost = await ada.discardRefused({ seconds: 300 });
  equal(ownLines(lost, "srv-2").length, 1);
  ok(lost.some((line) => line.includes("offline")) && lost.some((line) => line.includes("before")));
  await ada.synced(300);
  equal(ada.state.word, "online");
  deepEqual(ada.replica.plain([0]), there.plain);
});

test("a provider that is opened again says so again, and nothing is sent", async () => {
  const { ada, file, server, there } = await differing((address) => address);
  await ada.close();
  const again = await opened(server.address, { store: fileStore(file) });
  await rejects(again.synced(300), /srv-2/);
  deepEqual(await state(server.address), there);
  equal(again.replica.plain([0, "mine"]), "offline");
});

test("behind a hub that pushes operations: none is applied before all is compared", async () => {
  const { ada, server, there } = await differing(async (address) => (await startHub(address)).lines);
  await edit(server.address, { meanwhile: 1 });
  const last = (await state(server.address)).front;
  await until("the push", () => last.every(([name, counter]) =>
    ada.serverFront?.some(([it, known]) => it === name && known >= counter)));
  await rejects(ada.synced(300), /srv-2/);
  equal(ada.replica.plain([0, "meanwhile"]), undefined);
  ok(last.length >= there.front.length);
});

test("behind a hub whose server is put back: a provider that stays online says so", async () => {
  const server = await twice();
  const hub = await startHub(server.address);
  const ada = await opened(hub.lines);
  await ada.synced(300);
  ada.replica.assign([0, "sent"], "before");
  await ada.synced(300);
  await server.putBack();
  await until("it says so", () => ada.state.refused?.differs?.name === "srv-2");
  deepEqual(ada.replica.plain([0]), { title: "Plan", ...SEEN, sent: "before" });
  deepEqual((await state(server.address)).plain, { title: "Plan", ...OTHER });
});

// ---- Servers that were killed, also such that give no digests

const assigned = (id, key, value) => ["op", id, [], [[["m", 0]], key], ["assign", value]];
const OF_ZOE = { there: assigned([1, "zoe"], "zoe", "after"), here: assigned([1, "zoe"], "zoe", "before") };

/** A program and a server that was killed, lost all, and has others' operations in its place. */
async function killed(options, { isOwnTaken }) {
  const world = new World(room(), 1, options);
  const it = await world.begun("program");
  it.goesOn = false;
  it.replica.assign([0, "mine"], 1);
  world.replica.deliver(OF_ZOE.here);
  it.provider.goOnline();
  await world.until(it.synced(4000));
  it.provider.goOffline();
  it.replica.assign([0, "later"], 2);
  world.kill();
  world.stored = [];
  world.startAgain();
  const { name } = it.replica;
  world.replica.deliver(OF_ZOE.there);
  if (isOwnTaken) world.replica.deliver(assigned([1, name], "taken", 3));
  it.provider.goOnline();
  return { world, it, name };
}

/** Of each kind of server: others' operations differ, and nothing is dropped before the program says so. */
async function nothingIsDropped(hasChains, isOwnTaken) {
  for (const kind of ["server", "hub", "pushes"]) {
    const { world, it, name } = await killed({ kind, hasChains }, { isOwnTaken });
    const { provider, replica } = it;
    const there = world.replica.front();
    for (let turn = 0; turn < 2; turn++) {
      await rejects(world.until(provider.synced(4000)), /from 1 on the server has other operations of zoe than are here/);
      deepEqual([provider.state.word, provider.state.refused.differs], ["refused", { name: "zoe", counter: 1 }]);
      deepEqual([replica.name, replica.plain([0])], [name, { mine: 1, later: 2, zoe: "before" }]);
      deepEqual(world.replica.front(), there);
    }
    deepEqual((await world.until(provider.remakeRefused({ seconds: 4000 }))).map((line) => JSON.parse(line)), [OF_ZOE.here]);
    await world.until(it.synced(4000));
    const due = { mine: 1, later: 2, zoe: "after", ...(isOwnTaken ? { taken: 3 } : {}) };
    deepEqual([provider.state.word, replica.plain([0]), world.replica.plain([0])], ["online", due, due]);
    ok(replica.name !== name);
    await world.until(it.close());
  }
}

test("a server that was killed has others' operations: nothing is dropped unasked", () => nothingIsDropped(true, false));
test("a server that gives no digests has others' operations: nothing is dropped unasked", () => nothingIsDropped(false, false));
test("others' operations differ, and its own: nothing is dropped unasked", () => nothingIsDropped(true, true));
test("others' operations differ, and its own, without digests: nothing is dropped unasked", () => nothingIsDropped(false, true));
