/* Hubs that share documents by a real Redis, while hubs are stopped past their lease or killed and Redis is
   emptied, killed or away: no change is taken in a generation once another one takes some, and nothing that
   was answered is lost. */

import { equal, match, ok, rejects } from "node:assert/strict";
import { readFileSync } from "node:fs";
import { test } from "node:test";
import { command, health, serversOf } from "./data_hub.mjs";
import {
  assign, checkFleet, fleetOf, found, isFounded, lacking, LEASE, recordOf, RedisServer, sees, startFleetHub,
  startStoppedHub, Way, Writers,
} from "./redis_parts.mjs";
import { joinLines, kill, pause, suite, until } from "./support.mjs";

const STEPS = ["file", "deliver", "hold", "meanwhile", "map", "record", "renewed"];
const LEASE_MS = LEASE * 1000;

/** Has whichever hub is home of `d` renew it, and returns the generation. */
const renewed = (hubs) => until("a hub renews it", async () => {
  for (const { folder } of hubs) {
    const { status, lines } = await command(folder, "renew", "d");
    if (status === 0) return lines[0];
  }
  return undefined;
});

const generationIs = (hub, generation) => until(`${hub.name} is in ${generation}`, () => {
  try {
    return recordOf(hub).generation === generation;
  } catch {
    return false;
  }
});

/** A home gets a signal at a step of a renewal, and goes on, or is started again, past its lease. Meanwhile the
 *  other hub renews the document, or follows. */
async function brokenHome(signal, step) {
  const redis = await RedisServer.started();
  const hubs = { b: await startFleetHub(redis, "b") };
  await found(hubs.b);
  const b = await joinLines(hubs.b.lines, "d");
  await assign(b, "first", 1);
  b.end();
  await kill(hubs.b.child, "SIGTERM"); // so that the other one is home
  hubs.a = await startStoppedHub(redis, "a", `${hubs.b.folder}-a`, step, signal);
  const a = await joinLines(hubs.a.lines, "d");
  await assign(a, "second", 1);
  hubs.b = await startFleetHub(redis, "b", hubs.b.folder);
  const writers = new Writers(hubs);
  await writers.go();
  const isAsked = command(hubs.a.folder, "renew", "d");
  await until("it has come to the step", () => hubs.a.child.exitCode !== null || hubs.a.child.signalCode !== null
    || isStopped(hubs.a.child.pid));
  await pause(LEASE_MS);
  await writers.go(5, ["b"]); // the hold ends, or the next generation is there
  const { status, stderr } = await command(hubs.b.folder, "renew", "d");
  ok(status === 0 || /renewed|home|hold/.test(stderr), stderr);
  await writers.go(5, ["b"]);
  if (signal === "SIGSTOP") hubs.a.child.kill("SIGCONT");
  else hubs.a = await startFleetHub(redis, "a", hubs.a.folder);
  await isAsked;
  await writers.go();
  await writers.stop();
  ok(await checkFleet(Object.values(hubs), writers) >= 2);
}

suite("fleet failures", { skip: lacking, concurrency: 3 }, () => {
  for (const signal of ["SIGSTOP", "SIGKILL"]) {
    for (const step of STEPS.filter((it) => signal !== "SIGSTOP" || it !== "map")) {
      test(`a home that gets ${signal} at the step ${step}, past its lease`, () => brokenHome(signal, step));
    }
  }

  test("who comes second throws its generation away and takes the first one's", () => brokenHome("SIGSTOP", "map"));

  for (const step of ["take-maps", "take-operations", "take-record", "taken"]) {
    test(`a hub that is killed at the step ${step} of its way into a generation that another one made`, async () => {
      const redis = await RedisServer.started();
      const hubs = { a: await startFleetHub(redis, "a") };
      await found(hubs.a);
      const a = await joinLines(hubs.a.lines, "d");
      await assign(a, "first", 1); // so that it is home
      hubs.b = await startStoppedHub(redis, "b", `${hubs.a.folder}-b`, step, "SIGKILL");
      const writers = new Writers(hubs);
      await writers.go();
      await renewed([hubs.a]);
      await hubs.b.child.ended;
      await writers.go(5, ["a"]);
      hubs.b = await startFleetHub(redis, "b", hubs.b.folder);
      await writers.go();
      await writers.stop();
      equal(await checkFleet(Object.values(hubs), writers), 2);
    });
  }

  test("a hub that is stopped past its lease while another one renews", async () => {
    const redis = await RedisServer.started();
    const [a, b, c] = await fleetOf(redis, "a", "b", "c");
    const hubs = { a, b, c };
    const writers = new Writers(hubs);
    await writers.go();
    for (let round = 0; round < 3; round++) {
      b.child.kill("SIGSTOP");
      const generation = await until("another hub renews it", async () => {
        for (const { folder } of [a, c]) {
          const { status, lines } = await command(folder, "renew", "d");
          if (status === 0) return lines[0];
        }
        return undefined;
      });
      await writers.go(5, ["a", "c"]);
      b.child.kill("SIGCONT");
      await generationIs(b, generation);
      await writers.go();
    }
    await writers.stop();
    equal(await checkFleet([a, b, c], writers), 4);
  });

  test("a hub that is cut off takes changes for its lease, and others renew behind that", async () => {
    const redis = await RedisServer.started();
    const way = await Way.to(redis);
    const [a, b] = [await startFleetHub(redis, "a"), await startFleetHub(way, "b")];
    await found(a, b);
    const writers = new Writers({ a, b });
    await writers.go();
    for (let round = 0; round < 2; round++) {
      way.cut();
      const cut = performance.now();
      const generation = await renewed([a]);
      await writers.go(20, ["a"]);
      const late = writers.taken.filter(({ key, sent }) => key.startsWith("b-") && sent > cut + LEASE_MS);
      equal(late.length, 0);
      way.mend();
      await generationIs(b, generation);
      await writers.go();
    }
    await writers.stop();
    equal(await checkFleet([a, b], writers), 3);
  });

  test("a change that its server carries out once the lease is over isn't answered as taken", async () => {
    const redis = await RedisServer.started();
    const [a, b] = await fleetOf(redis, "a", "b");
    const [ada, bob] = [await joinLines(a.lines, "d"), await joinLines(b.lines, "d")];
    await assign(ada, "x", 1);
    await assign(bob, "y", 1);
    await sees(ada, "y", 1);
    await kill(a.child, "SIGTERM");
    const again = await startFleetHub(redis, "a", a.folder);
    const cyd = await joinLines(again.lines, "d");
    await assign(cyd, "z", 1);
    await kill(b.child, "SIGTERM"); // so that a is home
    const other = await startFleetHub(redis, "b", b.folder);
    const dan = await joinLines(other.lines, "d");
    await assign(dan, "w", 1);
    const [server] = serversOf(other.folder);
    process.kill(server, "SIGSTOP");
    const late = dan.assign("d", [0, "late"], 1).then(() => "taken", (error) => error.name);
    const generation = await renewed([again]);
    await assign(cyd, "next", 1);
    process.kill(server, "SIGCONT");
    equal(await late, "Lost");
    await generationIs(other, generation);
    await sees(cyd, "late", 1); // it was carried out, and is made again
  });

  test("Redis is emptied while a hub is stopped that doesn't know the next generation", async () => {
    const redis = await RedisServer.started();
    const [a, b] = await fleetOf(redis, "a", "b");
    const writers = new Writers({ a, b });
    await writers.go();
    b.child.kill("SIGSTOP");
    const generation = await renewed([a]); // b's lease is over by then
    await writers.go(5, ["a"]);
    redis.ask("FLUSHALL");
    b.child.kill("SIGCONT");
    await isFounded(a, false);
    await generationIs(b, generation); // a has put it back
    await writers.go();
    const { status, stderr } = await command(a.folder, "renew", "d");
    equal(status, 1);
    match(stderr, /until an operator founds it/);
    await found(a, b);
    await renewed([a, b]);
    await writers.go();
    await writers.stop();
    equal(await checkFleet([a, b], writers), 3);
  });

  test("Redis is emptied while the hub that knows the next generation is cut off, within its lease", async () => {
    const redis = await RedisServer.started();
    const way = await Way.to(redis);
    const [a, b] = [await startFleetHub(way, "a"), await startFleetHub(redis, "b")];
    await found(b, a);
    const writers = new Writers({ a, b });
    await writers.go();
    b.child.kill("SIGSTOP");
    const generation = await renewed([a]);
    await writers.go(5, ["a"]);
    way.cut();
    const away = performance.now() + LEASE_MS; // until then a may take changes
    redis.ask("FLUSHALL");
    b.child.kill("SIGCONT");
    await writers.go(5, ["b"]);
    equal(recordOf(b).generation, "1");
    way.mend();
    await generationIs(b, generation);
    await writers.go();
    await writers.stop();
    equal(await checkFleet([a, b], writers, { away }), 2);
  });

  test("Redis is emptied while the only hub that knows the next generation is away", async () => {
    const redis = await RedisServer.started();
    const hubs = Object.fromEntries((await fleetOf(redis, "a", "b")).map((it) => [it.name, it]));
    const writers = new Writers(hubs);
    await writers.go();
    hubs.b.child.kill("SIGSTOP");
    const generation = await renewed([hubs.a]);
    await writers.go(5, ["a"]);
    await kill(hubs.a.child);
    const away = performance.now();
    redis.ask("FLUSHALL");
    hubs.b.child.kill("SIGCONT");
    await writers.go(5, ["b"]); // in the first generation, once others' leases are over
    equal(recordOf(hubs.b).generation, "1");
    const { stderr } = await command(hubs.b.folder, "renew", "d");
    match(stderr, /founds/);
    const other = await command(hubs.b.folder, "found", "a,b");
    match(other.stderr, /not connected since Redis lost the fleet: a/);
    hubs.a = await startFleetHub(redis, "a", hubs.a.folder);
    await generationIs(hubs.b, generation);
    await writers.go();
    await found(hubs.a, hubs.b);
    await renewed(Object.values(hubs));
    await writers.go();
    await writers.stop();
    equal(await checkFleet(Object.values(hubs), writers, { away }), 3);
  });

  test("Redis is away past the lease, and comes back empty: nothing is taken, and all can be read", async () => {
    const redis = await RedisServer.started();
    const [a, b] = await fleetOf(redis, "a", "b");
    const writers = new Writers({ a, b });
    await writers.go();
    await renewed([a, b]);
    await writers.go();
    await redis.kill();
    const gone = performance.now();
    const client = await joinLines(a.lines, "d");
    await pause(LEASE_MS + 500);
    await rejects(client.assign("d", [0, "x"], 1), /server-away/);
    ok((await client.keys("d", [0])).length > 10);
    equal((await health(a)).fleet.connected, false);
    const late = writers.taken.filter(({ sent }) => sent > gone + LEASE_MS + 400);
    equal(late.length, 0);
    await redis.start();
    await writers.go();
    await isFounded(a, false);
    await found(a, b);
    await renewed([a, b]);
    await writers.go();
    await writers.stop();
    equal(await checkFleet([a, b], writers), 3);
  });

  test("Redis is stopped past the lease, and goes on", async () => {
    const redis = await RedisServer.started();
    const [a, b] = await fleetOf(redis, "a", "b");
    const writers = new Writers({ a, b });
    await writers.go();
    redis.signal("SIGSTOP");
    await pause(3 * LEASE_MS);
    redis.signal("SIGCONT");
    await writers.go();
    await renewed([a, b]);
    await writers.go();
    await writers.stop();
    equal(await checkFleet([a, b], writers), 2);
  });

  test("a Redis with an append-only file is killed right behind a decision: it has that when it comes back", async () => {
    const redis = await RedisServer.started("--appendonly", "yes");
    const [a, b] = await fleetOf(redis, "a", "b");
    const writers = new Writers({ a, b });
    await writers.go();
    const generation = await renewed([a, b]);
    await redis.kill();
    await redis.start();
    await writers.go();
    await isFounded(a);
    for (const it of [a, b]) await generationIs(it, generation);
    await renewed([a, b]);
    await writers.go();
    await writers.stop();
    equal(await checkFleet([a, b], writers), 3);
  });

  test("what a hub took that the next generation lacks is made again there", async () => {
    const redis = await RedisServer.started();
    const [a, b] = await fleetOf(redis, "a", "b");
    const [ada, bob] = [await joinLines(a.lines, "d"), await joinLines(b.lines, "d")];
    await ada.put("d", [0], { list: ["x", "y"], n: 1 }).catch(() => ada.put("d", [0], { list: ["x", "y"], n: 1 }));
    await until("b has it", async () => (await bob.items("d", [0, "list"]).catch(() => [])).length === 2);
    await redis.kill(); // what is taken within the lease stays at b
    await bob.insert("d", [0, "list", 1], "z");
    await bob.assign("d", [0, "title"], "of b");
    await kill(b.child);
    await redis.start();
    await until("a goes on", () => ada.assign("d", [0, "go"], 1).then(() => true, () => false));
    const again = await startFleetHub(redis, "b", `${b.folder}-other`);
    await found(a, again);
    const generation = await renewed([a, again]);
    await kill(again.child);
    const late = await startFleetHub(redis, "b", b.folder);
    const cyd = await joinLines(late.lines, "d");
    await generationIs(late, generation);
    for (const it of [ada, cyd]) {
      await sees(it, "title", "of b");
      equal(JSON.stringify(await it.plain("d", [0, "list"])), '["x","z","y"]');
    }
  });
});

/** Whether a process is stopped. */
function isStopped(id) {
  try {
    return / T /.test(readFileSync(`/proc/${id}/stat`, "utf8").replace(/.*\)/s, ")"));
  } catch {
    return true;
  }
}
