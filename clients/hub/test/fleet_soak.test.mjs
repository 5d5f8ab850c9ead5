/* Three hubs that share a document by a real Redis, while clients change it all the time and hubs, their
   servers and Redis are stopped, killed, cut off and emptied at random, and the document is renewed: all is as
   `checkFleet` says. With JCRDT_SLOW it takes an hour, else as long as SECONDS says. */

import { ok } from "node:assert/strict";
import { test } from "node:test";
import { command, killServersOf } from "./data_hub.mjs";
import { checkFleet, found, isFounded, lacking, LEASE, RedisServer, startFleetHub, Way, Writers } from "./redis_parts.mjs";
import { kill, pause, randomOf, suite } from "./support.mjs";

const SECONDS = process.env.JCRDT_SLOW ? 3600 : Number(process.env.SECONDS ?? 45);
const SEED = Number(process.env.SEED ?? Date.now() % 2 ** 31);

suite("fleet soak", { skip: lacking, timeout: (SECONDS + 1500) * 1000 }, () => {
  test(`three hubs, by the seed ${SEED}`, async (context) => {
    const random = randomOf(SEED);
    const below = (number) => Math.floor(random() * number);
    const redis = await RedisServer.started("--appendonly", "yes");
    const names = ["a", "b", "c"];
    const ways = Object.fromEntries(await Promise.all(names.map(async (name) => [name, await Way.to(redis)])));
    const hubs = {};
    for (const name of names) hubs[name] = await startFleetHub(ways[name], name);
    const all = () => Object.values(hubs);
    await found(...all());
    const writers = new Writers(hubs, "d", 1);
    await writers.go();
    const counts = {};
    const renew = async () => {
      const { status } = await command(hubs[names[below(3)]].folder, "renew", "d");
      counts.renewed = (counts.renewed ?? 0) + (status === 0 ? 1 : 0);
    };
    const breaks = {
      stopped: async (name) => {
        hubs[name].child.kill("SIGSTOP");
        await Promise.all([pause(random() * 2.5 * LEASE * 1000), ...names.filter((it) => it !== name).map((it) =>
          command(hubs[it].folder, "renew", "d"))]);
        hubs[name].child.kill("SIGCONT");
      },
      killed: async (name) => {
        await kill(hubs[name].child);
        await pause(random() * 1000);
        hubs[name] = await startFleetHub(ways[name], name, hubs[name].folder);
      },
      server: async (name) => killServersOf(hubs[name].folder, (ids) => ids.slice(0, 1)),
      cut: async (name) => {
        ways[name].cut();
        await Promise.all([renew(), pause(random() * 2.5 * LEASE * 1000)]);
        ways[name].mend();
      },
      redisKilled: async () => {
        await redis.kill();
        await pause(random() * 2 * LEASE * 1000);
        await redis.start();
      },
      emptied: async () => {
        redis.ask("FLUSHALL");
        for (const it of all()) await isFounded(it, false);
        await found(...all());
      },
    };
    for (const end = performance.now() + SECONDS * 1000; performance.now() < end;) {
      const [what, work] = Object.entries(breaks)[below(Object.keys(breaks).length)];
      counts[what] = (counts[what] ?? 0) + 1;
      await work(names[below(3)]);
      if (below(2) === 0) await renew();
      await pause(random() * 1500);
    }
    await writers.go(1);
    await writers.stop();
    const generations = await checkFleet(all(), writers);
    context.diagnostic(JSON.stringify({ ...counts, generations, taken: writers.taken.length }));
    ok(generations > 1);
  });
});
