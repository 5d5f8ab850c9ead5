/* What a provider says where the server refuses its changes, and what becomes of these: a client
   that may only read, a document with 256 replicas, a full one. Real servers and hubs. */

import { deepEqual, equal, match, ok, rejects, throws } from "node:assert/strict";
import { readFileSync, writeFileSync } from "node:fs";
import { until } from "./chromium.mjs";
import { opened, test } from "./providing.mjs";
import { room, startHub, startServer } from "./serving.mjs";
import { tooLong } from "./support.mjs";
import { fileStore } from "../file_store.mjs";
import { connected } from "../session.mjs";
import { Refused } from "../wire.mjs";

const MOST = 100_000; // operations of a document, as docs/FORMATS.md has it

/** A hub at which everybody may read, and those of ?token=writer may write too. */
async function readers(server) {
  const file = `${room()}/admit.mjs`;
  writeFileSync(file, `export const admit = ({ url }) =>
    ({ read: true, write: url?.endsWith("token=writer") });`);
  return startHub(server.address, { more: ["--admit", file] });
}

/** Fills a document with the operations of one other replica. */
async function fill(address, count, name = "filler") {
  const client = await connected(address, { seconds: 300 });
  await client.open("d");
  for (let at = 1; at <= count; at += 1000) {
    await Promise.all(Array.from({ length: Math.min(1000, count - at + 1) }, (_, more) => {
      const counter = at + more;
      const front = counter > 1 ? [[name, counter - 1]] : [];
      return client.deliver("d", ["op", [counter, name], front, [[["m", 0]], "n"], ["add", 1]]);
    }));
  }
  return client;
}

test("a client that may only read: it is known before the first edit, and `synced` throws", async () => {
  const server = await startServer(["d"]);
  const hub = await readers(server);
  const writer = await opened(`${hub.lines}?token=writer`);
  writer.replica.assign([0, "title"], "Plan");
  await writer.synced(300);
  equal(writer.canWrite, true);
  const file = `${room()}/ada`;
  const ada = await opened(hub.lines, { store: fileStore(file) });
  await ada.synced(300);
  equal(ada.canWrite, false);
  equal(ada.state.word, "online"); // nothing is refused yet
  ada.replica.put([0, "list"], ["first", "second"]);
  ada.replica.assign([0, "title"], "Trip");
  await rejects(ada.synced(300), (error) => {
    ok(error instanceof Refused);
    equal(error.number, 103);
    match(error.message, /refuses 4 changes of this replica: 103 not-allowed\. .*only read/);
    return true;
  });
  equal(ada.state.word, "refused");
  deepEqual([ada.state.refused.count, ada.state.refused.cause.number], [4, 103]);
  equal(ada.state.why, ada.state.refused.cause.message);
  equal(ada.problems.get("refused").lines.length, 4);
  equal(ada.unsent.length, 4);

  const lines = ada.unsent;
  deepEqual((await ada.discardRefused({ seconds: 300 })).sort(), lines.sort());
  equal(ada.state.word, "online");
  equal(ada.problems.size, 0);
  await ada.synced(300);
  deepEqual(ada.replica.plain([0]), { title: "Plan" });
  deepEqual(await ada.discardRefused(), []);
  await ada.close();
  ok(!readFileSync(file, "utf8").includes("first"));
  const again = await opened(hub.lines, { store: fileStore(file) });
  await again.synced(300);
  deepEqual(again.replica.plain([0]), { title: "Plan" });
});

test("a right to write that is given later: what was refused is sent", async () => {
  const server = await startServer(["d"]);
  const hub = await readers(server);
  const file = `${room()}/ada`;
  const ada = await opened(hub.lines, { store: fileStore(file) });
  ada.replica.assign([0, "title"], "Trip");
  await rejects(ada.synced(300), { number: 103 });
  await ada.close();
  const words = [];
  const again = await opened(`${hub.lines}?token=writer`, { store: fileStore(file) });
  again.listen(({ what }) => what === "state" && words.push(again.state.word));
  await again.synced(300);
  deepEqual(words, ["online"]);
  equal(again.canWrite, true);
  equal(again.unsent.length, 0);
});

test("256 replicas: an early edit is refused, stays, and can be taken back", async () => {
  const server = await startServer(["d"]);
  const early = await opened(server.address);
  await early.synced(300);
  equal(early.canWrite, true);
  early.goOffline();
  const client = await connected(server.address);
  await client.open("d");
  await Promise.all(Array.from({ length: 256 }, (_, at) =>
    client.deliver("d", ["op", [1, `r${at}`], [], [[["m", 0]], `k${at}`], ["assign", at]])));
  early.replica.assign([0, "title"], "Plan");
  early.replica.assign([0, "date"], "May");
  early.goOnline();
  await rejects(early.synced(300), { number: 19, message: /refuses 2 changes .*19 too-many-replicas/ });
  equal(early.state.word, "refused");
  equal(early.state.refused.count, 2);
  equal(early.canWrite, false);
  match(early.saved, /"Plan"/);
  equal((await early.discardRefused()).length, 2);
  equal(early.state.word, "online");
  equal(early.canWrite, false); // it has no name in the document
  throws(() => early.replica.assign([0, "title"], "Plan"), { number: 19 });
  await early.synced(300);
  await client.quit();
});

test("a full document: each own change that the server lacks counts", async () => {
  const server = await startServer(["d"]);
  const [ada, bob] = [await opened(server.address), await opened(server.address)];
  for (const it of [ada, bob]) {
    it.replica.add([0, "n"], 1);
    await it.synced(300);
  }
  for (const it of [ada, bob]) it.goOffline();
  for (let count = 0; count < 41; count++) ada.replica.add([0, "ada"], 1);
  for (let count = 0; count < 40; count++) bob.replica.add([0, "bob"], 1);
  const client = await fill(server.address, MOST - 52); // 50 are left
  ada.goOnline();
  await ada.synced(300);
  bob.goOnline();
  await rejects(bob.synced(300), { number: 18, message: /refuses 31 changes .*18 log-full/ });
  equal(bob.state.word, "refused");
  equal(bob.state.refused.count, 31);
  equal(bob.canWrite, false);
  equal((await bob.discardRefused({ seconds: 300 })).length, 31);
  equal(bob.state.word, "online");
  deepEqual([bob.replica.sum([0, "ada"]), bob.replica.sum([0, "bob"])], [41, 9]);
  await until("both are alike", () => ada.replica.sum([0, "bob"]) === 9);
  await client.quit();
}, { skip: tooLong });
