/* Hubs that share documents by a real Redis: changes of each arrive at all, one of them renews a document
   and the others follow, and a home that goes is followed by another one. */

import { deepEqual, equal, match, rejects } from "node:assert/strict";
import { existsSync } from "node:fs";
import { join } from "node:path";
import { test } from "node:test";
import { memoryStore, Provider } from "../../js/provider.mjs";
import { command, health } from "./data_hub.mjs";
import {
  assign, fleetOf, found, isFounded, lacking, LEASE, recordOf, RedisServer, sees, startFleetHub, startStoppedHub, Way,
} from "./redis_parts.mjs";
import { atEnd, joinLines, kill, pause, Raw, ROOM, suite, until } from "./support.mjs";

async function provider(hub, word, document = "d") {
  const opened = await Provider.open({ document, at: hub.lines, store: memoryStore(), word });
  atEnd(() => opened.close().catch(() => {}));
  return opened;
}

/** Renews a document at whichever of these hubs is home of it, and returns that and the generation. */
async function renew(hubs, name = "d") {
  return until("a hub renews it", async () => {
    for (const hub of hubs) {
      const { status, lines: [generation], stderr } = await command(hub.folder, "renew", name);
      if (status === 0) return { hub, generation };
      match(stderr, /home|founded|renewed|other hub|can't be opened/);
    }
    return undefined;
  });
}

/** Deletes a document at whichever of these hubs is home of it, and returns that, and what it is in its bin. */
async function removed(hubs, name = "d") {
  return until("a hub deletes it", async () => {
    for (const home of hubs) {
      const { status, lines: [entry], stderr } = await command(home.folder, "delete", name);
      if (status === 0) return { home, entry };
      match(stderr, /home and deletes it|founded/);
    }
    return undefined;
  });
}

const has = ({ folder }, name) => existsSync(join(folder, "documents", name));

suite("fleet", { skip: lacking, concurrency: true }, () => {
  test("changes at each hub arrive at all, also in documents that are made at one", async () => {
    const redis = await RedisServer.started();
    const [a, b] = await fleetOf(redis, "a", "b");
    const [ada, bob] = [await joinLines(a.lines, "d"), await joinLines(b.lines, "d")];
    await assign(ada, "of-a", 1);
    await assign(bob, "of-b", 2);
    for (const it of [ada, bob]) await sees(it, "of-a", 1), await sees(it, "of-b", 2);
    await command(a.folder, "create", "other");
    await until("b has it", async () => (await bob.list()).includes("other"));
    await bob.open("other");
    await ada.open("other");
    await assign(bob, "big", 2n ** 62n, "other");
    await sees(ada, "big", 2n ** 62n, "other");
  });

  test("a hub that joins later gets all, and has others get what it had", async () => {
    const redis = await RedisServer.started();
    const a = await startFleetHub(redis, "a");
    const ada = await joinLines(a.lines, "d");
    for (let at = 0; at < 300; at++) await assign(ada, `k${at}`, at);
    await kill(a.child, "SIGTERM"); // nothing of it is left but its file and Redis
    const b = await startFleetHub(redis, "b");
    const bob = await joinLines(b.lines, "d");
    await until("b has all", async () => (await bob.keys("d", [0])).length === 300);
    await assign(bob, "of-b", 2);
    redis.ask("FLUSHALL");
    await kill(b.child);
    const again = await startFleetHub(redis, "a", a.folder);
    await sees(await joinLines((await startFleetHub(redis, "b", b.folder)).lines, "d"), "of-b", 2);
    await sees(await joinLines(again.lines, "d"), "of-b", 2);
  });

  test("a stream that is cut, emptied or has something else is made whole", async () => {
    const redis = await RedisServer.started();
    const [a, b] = await fleetOf(redis, "a", "b");
    const [ada, bob] = [await joinLines(a.lines, "d"), await joinLines(b.lines, "d")];
    for (let at = 0; at < 200; at++) await assign(at % 2 ? ada : bob, `k${at}`, at);
    await sees(bob, "k199", 199);
    const [key] = redis.ask("KEYS", "jcrdt:hubs:ops:d:*").split("\n");
    const count = () => redis.ask("XRANGE", key, "-", "+").split('["op",').length - 1;
    for (const words of [["XTRIM", key, "MAXLEN", "7"], ["DEL", key]]) {
      redis.ask(...words);
      redis.ask("XADD", key, "*", "hub", "x", "ops", "[nothing]");
      await until("it is whole", () => count() >= 200);
      await assign(ada, `${words[0]}-a`, 1);
      await assign(bob, `${words[0]}-b`, 2);
      await sees(bob, `${words[0]}-a`, 1);
      await sees(ada, `${words[0]}-b`, 2);
    }
    await kill(a.child);
    await kill(b.child);
    const c = await startFleetHub(redis, "c");
    const cyd = await joinLines(c.lines, "d");
    await until("c has all", async () => (await cyd.keys("d", [0])).length === 204);
  });

  test("who watches a document gets what is changed at another hub, also once its server has ended", async () => {
    const redis = await RedisServer.started();
    const a = await startFleetHub(redis, "a");
    const b = await startFleetHub(redis, "b", undefined, "--open", "1");
    const [ada, bob] = [await joinLines(a.lines, "d"), await joinLines(b.lines, "d", "e")];
    const pushed = [];
    await bob.watch("d", (front) => pushed.push(front));
    await bob.show("e", [0]); // this takes the room of d's server
    await until("d's server has ended", async () => (await health(b)).documents.open === 1);
    await assign(ada, "x", 1);
    await until("it is pushed", () => pushed.some((front) => front.size > 0));
  });

  test("one hub renews a document, and the others follow with their clients", async () => {
    const redis = await RedisServer.started();
    const hubs = await fleetOf(redis, "a", "b", "c");
    const providers = await Promise.all(hubs.map((hub) => provider(hub, `of-${hub.name}`)));
    const [ada, bob, cyd] = providers;
    ada.replica.put([0], { text: [..."hello"], n: 1 });
    await ada.synced(240);
    await until("all have it", () => providers.every((it) => it.replica.text([0, "text"]) === "hello"));
    const first = await renew(hubs);
    await until("all follow", () => providers.every(({ replica }) =>
      replica.front().some(([name]) => name === `gen${first.generation}-1`)));
    for (const hub of hubs) await until(`${hub.name} follows`, () => recordOf(hub).generation === first.generation);
    const others = hubs.filter((it) => it !== first.hub);
    const { status, stderr } = await command(others[0].folder, "renew", "d");
    equal(status, 1);
    match(stderr, new RegExp(`${first.hub.name} is its home`));
    bob.replica.splice([0, "text"], 5, 0, "!");
    cyd.replica.assign([0, "n"], 2);
    await bob.synced(240);
    await cyd.synced(240);
    await until("all have it", () => providers.every(({ replica }) => replica.text([0, "text"]) === "hello!"
      && replica.values([0, "n"])[0] === 2));
    // The home goes: another one takes over once its lease has ended.
    await kill(first.hub.child);
    const second = await renew(others);
    match(second.generation, /^3-/);
    for (const hub of others) await until(`${hub.name} follows`, () => recordOf(hub).generation === second.generation);
    const back = await startFleetHub(redis, first.hub.name, first.hub.folder);
    const late = await joinLines(back.lines, "d");
    await until("it follows", () => recordOf(back).generation === second.generation);
    equal((await late.show("d", [0]))[0][0], "map");
    deepEqual((await late.history("d")).map(([it]) => it), ["1", first.generation, second.generation]);
  });

  test("a hub that joins when a document was renewed twice begins with its last generation", async () => {
    const redis = await RedisServer.started();
    const [a] = await fleetOf(redis, "a");
    const ada = await joinLines(a.lines, "d");
    await assign(ada, "x", 1);
    await renew([a]);
    await assign(ada, "y", 2);
    const { generation } = await renew([a]);
    const b = await startFleetHub(redis, "b");
    await isFounded(b);
    const bob = await joinLines(b.lines, "d");
    deepEqual(await bob.keys("d", [0]), ["x", "y"]);
    equal(recordOf(b).generation, generation);
    await assign(bob, "z", 3);
    await sees(ada, "z", 3);
  });

  test("until it is founded nothing is renewed, and an id of hubs that aren't there isn't made", async () => {
    const redis = await RedisServer.started();
    const a = await startFleetHub(redis, "a");
    const ada = await joinLines(a.lines, "d");
    await assign(ada, "x", 1);
    const refused = await command(a.folder, "renew", "d");
    match(refused.stderr, /until an operator founds it/);
    const { stderr } = await command(a.folder, "found", "a,b");
    match(stderr, /not connected since Redis lost the fleet: b/);
    await found(a);
    await renew([a]);
    deepEqual((await health(a)).fleet, { hub: "a", connected: true, founded: true });
    const renamed = await command(a.folder, "rename", "d", "e");
    match(renamed.stderr, /keeps its name/);
    equal((await ada.keys("d", [0])).length, 1); // nobody was dropped
  });

  test("a document that is deleted at its home goes into the bin of each hub, also of one that was away", async () => {
    const redis = await RedisServer.started();
    const way = await Way.to(redis);
    const hubs = [await startFleetHub(redis, "a"), await startFleetHub(redis, "b"), await startFleetHub(way, "c"),
      await startFleetHub(redis, "e")];
    await found(...hubs);
    const clients = [];
    for (const { lines } of hubs) clients.push(await joinLines(lines, "d", "other"));
    await assign(clients[0], "x", 1);
    await assign(clients[0], "x", 1, "other");
    for (const it of clients) await sees(it, "x", 1);
    const ada = await provider(hubs[0], "ada");
    await ada.synced(240);
    const [, , c, e] = hubs;
    await kill(e.child);
    way.cut();
    await clients[2].assign("d", [0, "late"], 2); // within its lease: nobody else learns of it
    const { home, entry } = await removed(hubs.slice(0, 2));
    match(entry, /^d\.\d+$/);
    for (const hub of hubs.slice(0, 2)) await until(`${hub.name} has none`, () => !has(hub, "d"));
    deepEqual((await command(home.folder, "bin")).lines, [entry]);
    await rejects(clients[0].keys("d", [0])); // it was dropped
    await until("a provider says why", () => /has no document d/.test(ada.state.why));
    deepEqual(ada.replica.values([0, "x"]), [1]); // what it has stays with it
    way.mend();
    hubs[3] = await startFleetHub(redis, "e", e.folder);
    for (const hub of hubs) await until(`${hub.name} has none`, () => !has(hub, "d") && has(hub, "other"));
    await pause(LEASE * 1000);
    for (const { lines } of hubs) deepEqual(await (await joinLines(lines, "other")).list(), ["other"]);
    // What was taken late is in that hub's bin.
    const [kept] = (await command(c.folder, "bin")).lines;
    match((await command(c.folder, "restore", kept)).stderr, /its name isn't used again/);
    equal((await command(c.folder, "restore", kept, "again")).status, 0);
    for (const { lines } of hubs) {
      const client = await joinLines(lines, "other");
      await until("it is there", async () => (await client.list()).includes("again"));
      await client.open("again");
      await sees(client, "late", 2, "again");
    }
  });

  test("what is deleted isn't brought back by an emptied Redis, nor made again", async () => {
    const redis = await RedisServer.started();
    const hubs = await fleetOf(redis, "a", "b");
    const ada = await joinLines(hubs[0].lines, "d", "other");
    for (const name of ["d", "other"]) await assign(ada, "x", 1, name);
    for (const hub of hubs) await until(`${hub.name} has both`, () => ["d", "other"].every((it) => has(hub, it)));
    await kill(hubs[1].child);
    await pause(LEASE * 1000);
    await removed([hubs[0]]);
    await kill(hubs[0].child);
    redis.ask("FLUSHALL");
    hubs[0] = await startFleetHub(redis, "a", hubs[0].folder);
    hubs[1] = await startFleetHub(redis, "b", hubs[1].folder);
    await found(...hubs);
    for (const hub of hubs) await until(`${hub.name} has none`, () => !has(hub, "d"));
    equal(redis.ask("SMEMBERS", "jcrdt:hubs:deleted"), "d");
    const raw = new Raw(hubs[0].lines);
    for (const word of ["open", "create"]) match(await raw.ask([word, "d"]), /"no",4,/);
    match((await command(hubs[1].folder, "create", "d")).stderr, /its name isn't used again/);
    const c = await startFleetHub(redis, "c"); // one that joins doesn't make it either
    await isFounded(c);
    await pause(LEASE * 1000);
    for (const hub of [...hubs, c]) equal(has(hub, "d"), false);
  });

  test("a home that is killed once it has deleted a document: it is deleted", async () => {
    const redis = await RedisServer.started();
    const a = await startStoppedHub(redis, "a", join(ROOM, "removing-a"), "removed", "SIGKILL");
    const b = await startFleetHub(redis, "b");
    await found(b);
    await assign(await joinLines(a.lines, "d"), "x", 1);
    await until("b has it", () => has(b, "d"));
    await until("it is killed", async () => {
      await command(a.folder, "delete", "d");
      return a.child.signalCode === "SIGKILL";
    });
    equal(has(a, "d"), true);
    await until("b has none", () => !has(b, "d"));
    const again = await startFleetHub(redis, "a", a.folder);
    await until("a has none", () => !has(again, "d"));
  });

  test("a document is removed for good once no hub runs, at each folder and in Redis", async () => {
    const redis = await RedisServer.started();
    const hubs = await fleetOf(redis, "a", "b");
    const ada = await joinLines(hubs[0].lines, "d", "e");
    for (const name of ["d", "e"]) await assign(ada, "x", 1, name);
    for (const hub of hubs) await until(`${hub.name} has both`, () => ["d", "e"].every((it) => has(hub, it)));
    for (const { child } of hubs) await kill(child, "SIGTERM");
    for (const { folder } of hubs) equal((await command(folder, "delete", "d")).status, 0);
    redis.ask("FLUSHALL");
    const again = await Promise.all(hubs.map(({ name, folder }) => startFleetHub(redis, name, folder)));
    await found(...again);
    for (const { lines } of again) await until("e is there", async () => {
      const client = await joinLines(lines, "e");
      return (await client.keys("e", [0])).length === 1 && (await client.list()).join() === "e";
    });
  });

  test("a document of a hub alone goes on in a fleet, in its generation", async () => {
    const redis = await RedisServer.started();
    const [a] = await fleetOf(redis, "a");
    const ada = await joinLines(a.lines, "d");
    await assign(ada, "x", 1);
    const { generation } = await renew([a]);
    await kill(a.child, "SIGTERM");
    const other = await RedisServer.started();
    const [again, b] = [await startFleetHub(other, "a", a.folder), await startFleetHub(other, "b")];
    await found(again, b);
    const bob = await joinLines(b.lines, "d");
    await sees(bob, "x", 1);
    equal(recordOf(b).generation, generation);
  });
});
