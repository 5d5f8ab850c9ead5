/* The life of a provider: switched on twice, switched off and on at once, closed. */

import { deepEqual, equal, ok, rejects, throws } from "node:assert/strict";
import { getEventListeners } from "node:events";
import { createServer } from "node:net";
import { until } from "./chromium.mjs";
import { TestClock } from "./clock.mjs";
import { opened, test } from "./providing.mjs";
import { startHub, startServer } from "./serving.mjs";
import { Unstored } from "../provider.mjs";
import { connected } from "../session.mjs";
import { Away } from "../wire.mjs";

/** What a page has: listeners of its own. */
const page = new EventTarget();
globalThis.addEventListener = page.addEventListener.bind(page);

/** How many clients a hub has. */
async function clientsOf({ page: address }) {
  const text = await (await fetch(`${address}metrics`)).text();
  return Number(/^\w+clients\{way="web"\} (\d+)/m.exec(text)?.[1]);
}

/** A socket between a provider and a server that counts its connections, and can hold them up. */
async function gate(to) {
  const [host, port] = to.split(":");
  const { connect } = await import("node:net");
  const open = new Set();
  const server = createServer((near) => {
    const far = connect(Number(port), host);
    open.add(near);
    near.pipe(far).pipe(near);
    for (const it of [near, far]) it.on("error", () => {});
    near.on("close", () => { open.delete(near); far.destroy(); });
    far.on("close", () => near.destroy());
  }).listen(0, "127.0.0.1");
  await new Promise((resume) => server.on("listening", resume));
  return { at: `127.0.0.1:${server.address().port}`, open, end: () => server.close() };
}

test("a closed provider leaves no listener at the page", async () => {
  for (let count = 0; count < 10; count++) await (await opened(undefined)).close();
  equal(getEventListeners(page, "online").length, 0);
  const ada = await opened(undefined);
  equal(getEventListeners(page, "online").length, 1);
  await ada.deleteStored();
  equal(getEventListeners(page, "online").length, 0);
});

test("one that is on goes on when it is switched on", async () => {
  const { address } = await startServer(["d"]);
  const { at, open, end } = await gate(address);
  const ada = await opened(at);
  for (let count = 0; count < 5; count++) ada.goOnline();
  await ada.synced(300);
  for (let count = 0; count < 5; count++) {
    ada.goOnline();
    ada.replica.add([0, "n"], 1);
    ada.goOnline();
    await ada.synced(300);
  }
  equal(open.size, 1);
  equal(ada.unsent.length, 0);
  ada.goOffline();
  await until("no connection is left", () => open.size === 0);
  end();
});

test("one that is switched off and on at once exchanges", async () => {
  const server = await startServer(["d"]);
  const { at, open, end } = await gate(server.address);
  const ada = await opened(at);
  for (let count = 1; count <= 20; count++) {
    ada.replica.add([0, "n"], 1); // an exchange begins
    if (count % 2) await Promise.resolve();
    ada.goOffline();
    ada.goOnline();
    await ada.synced(300);
    equal(ada.unsent.length, 0);
  }
  await until("one connection is left", () => open.size === 1);
  const client = await connected(server.address);
  await client.open("d");
  equal(await client.sum("d", [0, "n"]), 20);
  await client.quit();
  await ada.close();
  await until("none is left", () => open.size === 0);
  end();
});

test("at a hub: no connection is left behind", async () => {
  const { address } = await startServer(["d"]);
  const hub = await startHub(address);
  const ada = await opened(hub.lines);
  for (let count = 0; count < 5; count++) ada.goOnline();
  await ada.synced(300);
  equal(await clientsOf(hub), 1);
  ada.goOffline();
  await until("the hub has no client", async () => (await clientsOf(hub)) === 0);
});

test("closed: it refuses edits, can't be switched on, and can be closed again", async () => {
  const { address } = await startServer(["d"]);
  const ada = await opened(address);
  ada.replica.assign([0, "title"], "Plan");
  await ada.synced(300);
  const [first, second] = [ada.close(), ada.close()];
  equal(first, second);
  await first;
  throws(() => ada.goOnline(), TypeError);
  for (const edit of [
    (replica) => replica.assign([0, "title"], "Trip"), (replica) => replica.put([0, "m"], {}),
    (replica) => replica.splice([0, "l"], 0, 0, "x"), (replica) => replica.undo(),
    (replica) => replica.group(() => replica.add([0, "n"], 1)),
  ]) throws(() => edit(ada.replica), Unstored);
  deepEqual(ada.replica.plain([0]), { title: "Plan" });
  equal(ada.state.word, "offline");
});

test("a wait for the exchange ends at once where the provider is closed", async () => {
  const silent = createServer(() => {}).listen(0, "127.0.0.1");
  await new Promise((resume) => silent.on("listening", resume));
  for (const end of ["close", "deleteStored"]) {
    // No time passes by this clock: a wait for time has no end.
    const ada = await opened(`127.0.0.1:${silent.address().port}`, { clock: new TestClock() });
    const waits = [ada.synced(300), ada.synced({ seconds: 300, signal: new AbortController().signal })];
    const ended = Promise.all(waits.map((it) => rejects(it, { name: "Away", message: /is closed/ })));
    await Promise.all([ada[end](), ended]);
    await rejects(ada.synced(300), Away);
  }
  const off = await opened(undefined, { clock: new TestClock() });
  const wait = off.synced(300);
  await Promise.all([off.close(), rejects(wait, Away)]);
  silent.close();
});

test("a wait for the exchange ends with its signal", async () => {
  const silent = createServer(() => {}).listen(0, "127.0.0.1");
  await new Promise((resume) => silent.on("listening", resume));
  const ada = await opened(`127.0.0.1:${silent.address().port}`);
  const stop = new AbortController();
  const wait = ada.synced({ seconds: 300, signal: stop.signal });
  stop.abort(new Error("enough"));
  await rejects(wait, { message: "enough" });
  await rejects(ada.synced({ seconds: 0.05 }), Away);
  await ada.close(); // while it connects
  silent.close();
});
