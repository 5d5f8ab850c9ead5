/* Each operation once: over restarts, from a front on, until a signal ends it. */

import { deepEqual, equal, rejects } from "node:assert/strict";
import node from "node:test";
import { followed, frontAfter } from "../follow.mjs";
import { connected } from "../session.mjs";
import { end, startServer } from "./serving.mjs";

const test = (name, work) => node(name, { timeout: 240_000 }, work);

async function writer(address) {
  const client = await connected(address, { seconds: 120, connectSeconds: 60 });
  await client.open("d");
  return client;
}

/** So many next ones, as their values. */
async function next(following, count) {
  const values = [];
  while (values.length < count) values.push((await following.next()).value[4][1]);
  return values;
}

test("each operation comes once, also over a restart and from a front on", async () => {
  const server = await startServer(["d"], { more: ["--durable"] }); // what was told survives its kill
  const ada = await writer(server.address);
  for (let at = 0; at < 100; at++) await ada.assign("d", [0, "k"], at);
  const following = followed(server.address, "d", { every: 10 });
  deepEqual(await next(following, 100), Array.from({ length: 100 }, (_, at) => at));
  const waits = next(following, 2);
  for (const at of [100, 101]) await ada.assign("d", [0, "k"], at);
  deepEqual(await waits, [100, 101]);
  await end(server);
  const again = next(following, 1);
  await startServer(["d"], server);
  const bob = await writer(server.address);
  await bob.assign("d", [0, "m"], "behind");
  deepEqual(await again, ["behind"]);
  await following.return();
  let front = [];
  for await (const operation of followed(server.address, "d")) {
    front = frontAfter(front, operation);
    if (operation[4][1] === 40) break;
  }
  deepEqual(front, [["srv-1", 41]]);
  const rest = followed(server.address, "d", { front });
  deepEqual(await next(rest, 2), [41, 42]);
  await rest.return();
  bob.end();
});

test("a signal ends it, and what waits; a document that isn't there refuses", async () => {
  const server = await startServer(["d"]);
  const ada = await writer(server.address);
  await ada.assign("d", [0, "k"], 1);
  const stop = new AbortController();
  const following = followed(server.address, "d", { signal: stop.signal });
  deepEqual(await next(following, 1), [1]);
  const waits = rejects(following.next(), /enough/);
  stop.abort(new Error("enough"));
  await waits;
  equal((await following.next()).done, true);
  await rejects(followed(server.address, "none").next(), { number: 4 });
  const heard = [];
  const watch = new AbortController();
  await ada.watch("d", (front) => heard.push([...front]), { every: 5, signal: watch.signal });
  deepEqual(heard, [[["srv-1", 1]]]);
  watch.abort();
  await ada.assign("d", [0, "k"], 2);
  await ada.front("d");
  deepEqual(heard.length, 1);
  await rejects(ada.watch("d", () => {}, { signal: AbortSignal.abort(new Error("no")) }), /no/);
  await rejects(ada.stored("d", [1, "srv-1"], { signal: AbortSignal.abort(new Error("no")) }), /no/);
  ada.end();
});
