/* A provider before real servers and hubs: kills, freezes, restarts, names used twice. */

import { deepEqual, equal, match, ok, rejects, throws } from "node:assert/strict";
import { copyFileSync, readFileSync, readdirSync } from "node:fs";
import { createServer } from "node:net";
import { until } from "./chromium.mjs";
import { TestClock } from "./clock.mjs";
import { opened, test } from "./providing.mjs";
import { end, room, start, startHub, startServer } from "./serving.mjs";
import { fileStore } from "../file_store.mjs";
import { connected } from "../session.mjs";
import { Away } from "../wire.mjs";

/** Lets a process stand still, and resolves once each of its threads does. */
async function stop({ pid }) {
  process.kill(pid, "SIGSTOP");
  const stands = (thread) => / T /.test(readFileSync(`/proc/${pid}/task/${thread}/stat`, "utf8"));
  await until("it stands still", () => readdirSync(`/proc/${pid}/task`).every(stands));
}

const valueOf = ({ replica }, key) => replica.values([0, key])[0];
const online = (provider) => until("online", () => provider.state.word === "online");

test("two providers at a server: each sees what the other edits", async () => {
  const server = await startServer(["d"]);
  const [ada, bob] = [await opened(server.address), await opened(server.address)];
  const words = [];
  ada.listen(({ what }) => what === "state" && words.push(ada.state.word));
  equal(ada.state.word, "connecting");
  ada.replica.assign([0, "title"], "Plan");
  await until("bob has it", () => valueOf(bob, "title") === "Plan");
  bob.replica.assign([0, "title"], "Trip");
  await until("ada has it", () => valueOf(ada, "title") === "Trip");
  deepEqual(words, ["online"]);
  equal(ada.unsent.length, 0);
});

test("what came at once is one event", async () => {
  const server = await startServer(["d"]);
  const ada = await opened(server.address);
  const bob = await opened(server.address, { isOnline: false });
  const events = [];
  ada.listen(({ what, why, lines }) => what === "changed" && events.push([why, lines.length]));
  bob.replica.splice([0, "text"], 0, 0, "a text of many characters ".repeat(40)); // 17 pages
  await online(ada);
  equal(bob.unsent.length, 1040);
  bob.goOnline();
  await bob.synced(300);
  equal(bob.unsent.length, 0);
  await until("ada has all", () => ada.replica.items([0, "text"]).length === 1040);
  // The last of what came is told once the exchange that took it has ended.
  await until("ada was told", () => events.reduce((sum, [, count]) => sum + count, 0) >= 1040);
  ok(events.length <= 104, `${events.length} events`); // one for what came at once, not one for each
  equal(events.reduce((sum, [, count]) => sum + count, 0), 1040);
  const late = await opened(server.address);
  const heard = [];
  late.listen(({ what, lines }) => what === "changed" && heard.push(lines.length));
  await online(late); // it isn't before all is here
  deepEqual(heard, [1040]);
});

test("what is sent was flushed before, once for all that was written", async () => {
  const server = await startServer(["d"]);
  const store = fileStore(`${room()}/notes`);
  const flush = store.flush.bind(store);
  let [count, sent] = [0, 0];
  store.flush = () => { count++; return flush(); };
  const onReply = (line) => {
    if (!line.startsWith('["deliver",')) return;
    if (sent++ === 0) ok(count > 0, "nothing is sent before");
  };
  const ada = await opened(server.address, { store, isOnline: false, onReply });
  ada.replica.splice([0, "text"], 0, 0, "x".repeat(3000));
  ada.goOnline();
  await ada.synced(300);
  equal(sent, 3000);
  ok(count < 5, `${count} flushes`); // a disk has some hundred in a second
  ada.replica.assign([0, "title"], "Plan");
  await ada.synced(300);
  ok(count < 10 && sent === 3001, `${count} flushes, ${sent} sent`);
});

test("a program that is held up doesn't take that for silence of the server", async () => {
  const server = await startServer(["d"]);
  const clock = new TestClock();
  const ada = await opened(server.address, { clock });
  await ada.synced(300);
  const words = [];
  ada.listen(({ what }) => what === "state" && words.push(ada.state.word));
  await stop(server.child); // so the reply waits, as while a page is laid out
  ada.replica.assign([0, "title"], "Plan");
  await new Promise(setImmediate); // it was asked for
  clock.holdUp(6000);
  await new Promise(setImmediate);
  deepEqual(words, []);
  clock.pass(3000); // now it is the server's silence
  deepEqual(words, ["offline"]);
  process.kill(server.child.pid, "SIGCONT");
  await ada.synced(300);
  equal(ada.state.word, "online");
});

test("a server that isn't there yet, and one that is started again", async () => {
  const first = await startServer(["d"]);
  const { address, folder } = first;
  await end(first);
  const clock = new TestClock();
  const ada = await opened(address, { clock });
  await until("offline", () => ada.state.word === "offline");
  match(ada.state.why, /ECONNREFUSED/);
  const { since } = ada.state;
  ok(since <= Date.now());
  ada.replica.assign([0, "title"], "Plan");
  for (let count = 0; count < 4; count++) clock.pass(await clock.until(pauseOf)); // further tries
  const late = rejects(ada.synced(0.5), (error) => error instanceof Away && /ECONNREFUSED/.test(error.message));
  clock.pass(500);
  await late;
  await clock.until(pauseOf);
  equal(ada.state.since, since);
  const second = await startServer(["d"], { address, folder });
  await ada.synced(300);
  const bob = await opened(address);
  await bob.synced();
  equal(valueOf(bob, "title"), "Plan");
  await end(second);
  await until("both are offline", () => [ada, bob].every(({ state }) => state.word === "offline"));
  ada.replica.assign([0, "title"], "Plan B");
  await startServer(["d"], { address, folder });
  await ada.synced(300);
  await until("bob has it", () => valueOf(bob, "title") === "Plan B");
});

/** What counts who connects, and ends each connection at once. */
async function refusing() {
  const found = { count: 0, address: "", close: () => listener.close() };
  const listener = createServer((socket) => (found.count++, socket.resetAndDestroy()));
  await new Promise((open) => listener.listen(0, "127.0.0.1", open));
  found.address = `127.0.0.1:${listener.address().port}`;
  return found;
}

test("long offline, who waits by `synced` has it tried each second, and others don't", async () => {
  const all = [await refusing(), await refusing()];
  const [ada, bob] = await Promise.all(all.map(({ address }) => opened(address)));
  // From here on the pauses between two tries are of 7 s at least.
  await until("both were tried for long", () => all.every(({ count }) => count > 6));
  const before = all.map(({ count }) => count);
  const wait = new AbortController();
  const isEnded = rejects(ada.synced({ seconds: 240, signal: wait.signal }));
  await until("ada is tried again and again", () => all[0].count >= before[0] + 12);
  const [more, few] = all.map(({ count }, at) => count - before[at]);
  ok(few <= more / 3, `${more} tries, and ${few} where nobody waits`);
  wait.abort();
  await isEnded;
  await Promise.all([ada.close(), bob.close()]);
  all.forEach((it) => it.close());
});

test("long offline, a server that is there again is met by `synced`", async () => {
  const first = await startServer(["d"]);
  const { address, folder } = first;
  await end(first);
  const clock = new TestClock();
  const provider = await opened(address, { clock, random: () => 1 });
  // From here on the pauses between two tries are as long as they get.
  for (let pause = 0; pause < 15_000; clock.pass(pause)) pause = await clock.until(pauseOf);
  await clock.until(pauseOf);
  const waits = provider.synced(60);
  equal(await clock.until((all) => all.find((ms) => ms >= 500 && ms <= 1000)), 1000);
  await startServer(["d"], { address, folder });
  clock.pass(1000); // nothing more than one short pause
  await waits;
});

test("pauses between two tries are twice as long each, up to 15 s, and not the same for all", async () => {
  const gone = await startServer(["d"]);
  await end(gone);
  const pausesOf = async (random) => {
    const clock = new TestClock();
    await opened(gone.address, { clock, random });
    const found = [];
    for (let count = 0; count < 8; count++) {
      found.push(await clock.until(pauseOf));
      clock.pass(found.at(-1));
    }
    return found;
  };
  deepEqual(await pausesOf(() => 1), [500, 1000, 2000, 4000, 8000, 15_000, 15_000, 15_000]);
  deepEqual(await pausesOf(() => 0), [250, 500, 1000, 2000, 4000, 7500, 7500, 7500]);
});

/** The pause until the next try to connect, among what a clock waits for: `Link` looks each 250 ms,
 *  and `connected` has limits of its own. */
function pauseOf(waiting) {
  return waiting[0];
}

test("a program ends once it has closed its provider", async () => {
  const server = await startServer(["d"]);
  const gone = await startServer(["d"]);
  await end(gone);
  const module = JSON.stringify(new URL("../provider.mjs", import.meta.url).href);
  const program = `const { Provider } = await import(${module});
    const [there, gone] = await Promise.all(process.argv.slice(1)
      .map((at) => Provider.open({ document: "d", at })));
    await there.synced(300);
    const isAway = await gone.synced(3).then(() => false, () => true);
    await Promise.all([there.close(), gone.close()]);
    console.log(JSON.stringify(isAway));`;
  const words = ["--input-type=module", "-e", program, server.address, gone.address];
  const { child, lines } = await start(process.execPath, words, 1);
  const begin = Date.now();
  deepEqual(lines, [true]);
  equal(await child.ended, 0);
  ok(Date.now() - begin < 60_000, `${Date.now() - begin} ms`);
});

test("a hub that is killed and started again", async () => {
  const server = await startServer(["d"]);
  const hub = await startHub(server.address);
  const [ada, bob] = [await opened(hub.lines), await opened(hub.lines)];
  ada.replica.add([0, "votes"], 1);
  await until("bob has it", () => bob.replica.sum([0, "votes"]) === 1);
  await end(hub);
  await until("offline", () => ada.state.word === "offline");
  ada.replica.add([0, "votes"], 1);
  bob.replica.add([0, "votes"], 1);
  await startHub(server.address, { web: hub.web });
  await until("both have three", () =>
    [ada, bob].every(({ replica }) => replica.sum([0, "votes"]) === 3));
  await online(ada); // its exchange may go on for a moment
});

test("a hub that is frozen", async () => {
  const server = await startServer(["d"]);
  const hub = await startHub(server.address);
  const clock = new TestClock();
  const [ada, bob] = [await opened(hub.lines, { clock }), await opened(server.address)];
  await Promise.all([online(ada), online(bob)]);
  const becomes = (word) => until(word, () => (clock.pass(250), ada.state.word === word));
  process.kill(hub.child.pid, "SIGSTOP");
  await becomes("offline");
  equal(ada.state.why, "the server doesn't reply");
  ada.replica.assign([0, "title"], "while it was frozen");
  clock.pass(5000);
  equal(ada.state.word, "offline");
  equal(bob.state.word, "online");
  process.kill(hub.child.pid, "SIGCONT");
  await becomes("online");
  await until("bob has it", () => valueOf(bob, "title") === "while it was frozen");
});

test("a hub whose server is killed, and started again", async () => {
  const server = await startServer(["d"]);
  const hub = await startHub(server.address);
  const ada = await opened(hub.lines);
  await ada.synced();
  await end(server);
  await until("it says so", () => ada.state.word === "offline");
  ada.replica.assign([0, "title"], "meanwhile");
  await startServer(["d"], server);
  await until("online again", () => ada.state.word === "online");
  await ada.synced();
  const bob = await opened(server.address);
  await bob.synced();
  equal(valueOf(bob, "title"), "meanwhile");
});

test("a server that accepts connections and never replies", async () => {
  const silent = createServer(() => {}).listen(0, "127.0.0.1");
  await new Promise((open) => silent.on("listening", open));
  const ada = await opened(`127.0.0.1:${silent.address().port}`);
  await until("it says so", () => ada.state.word === "offline");
  ok(ada.state.why !== "");
  await ada.close();
  silent.close();
});

test("a document that the server doesn't have", async () => {
  const server = await startServer(["other"]);
  const ada = await opened(server.address);
  await until("it says so", () => ada.problems.has("server"));
  equal(ada.problems.get("server").words, "the server has no document d");
  equal(ada.state.word, "offline");
  equal(ada.state.why, "the server has no document d");
});

test("a document that has 256 replicas: it is said that it is full, and what to do", async () => {
  const server = await startServer(["d"]);
  const client = await connected(server.address);
  await client.open("d");
  const early = await opened(server.address, { word: "early", isOnline: false });
  await early.goOnline();
  await early.synced(300);
  early.goOffline();
  await Promise.all(Array.from({ length: 256 }, (_, at) =>
    client.deliver("d", ["op", [1, `r${at}`], [], [[["m", 0]], `k${at}`], ["assign", at]])));
  // It was edited before this was known here: the server refuses it, and it stays here.
  early.replica.assign([0, "title"], "Plan");
  early.goOnline();
  await until("it is said", () => early.problems.has("refused"));
  const { words, lines } = early.problems.get("refused");
  equal(words, "the server refuses 1 change of this replica: 19 too-many-replicas."
    + " The document is full: its content has to be put into a new one (renew)");
  equal(lines.length, 1);
  equal(valueOf(early, "title"), "Plan");
  // Who knows all 256 refuses it at once, and readings go on.
  const late = await opened(server.address, { word: "late" });
  await late.synced(300);
  throws(() => late.replica.assign([0, "title"], "Plan"), { number: 19 });
  equal(late.replica.keys([0]).length, 256);
  await client.quit();
});

test("switched off and on, and closed", async () => {
  const server = await startServer(["d"]);
  const [ada, bob] = [await opened(server.address), await opened(server.address)];
  await Promise.all([online(ada), online(bob)]);
  ada.goOffline();
  equal(ada.state.word, "offline");
  equal(ada.state.why, "it is switched off");
  ada.replica.assign([0, "title"], "offline");
  await bob.synced(300);
  equal(valueOf(bob, "title"), undefined);
  ada.goOnline();
  await until("bob has it", () => valueOf(bob, "title") === "offline");
  const told = [];
  ada.listen(({ what }) => told.push(what));
  await ada.close();
  bob.replica.assign([0, "title"], "later");
  await bob.synced(300);
  equal(valueOf(ada, "title"), "offline");
  equal(ada.state.word, "offline");
});

test("a listener that throws, and one that edits", async () => {
  const store = { file: `${room()}/notes` };
  const ada = await opened(undefined, { store: fileStore(store.file) });
  const heard = [];
  ada.listen(() => { throw new Error("a mistake of the program"); });
  ada.listen(({ what, lines }) => {
    if (what !== "changed") return;
    heard.push(...lines);
    if (ada.replica.sum([0, "n"]) === 0) ada.replica.add([0, "n"], 1);
  });
  ada.replica.assign([0, "title"], "Plan");
  equal(heard.length, 2);
  deepEqual(heard, ada.replica.lines().slice(1)); // in the order of the log
  equal(ada.problems.get("listener").words, "a mistake of the program");
  await ada.close();
  const again = await opened(undefined, { store: fileStore(store.file) });
  equal(valueOf(again, "title"), "Plan");
  equal(again.replica.sum([0, "n"]), 1);
});

test("an old file that was put back: nothing is lost, no two elements are one", async () => {
  const server = await startServer(["d"]);
  const file = `${room()}/notes`;
  const at = server.address;
  const session = async (text) => {
    const notes = await opened(at, { store: fileStore(file) });
    notes.replica.splice([0, "notes"], notes.replica.items([0, "notes"]).length, 0, [{ text }]);
    await notes.synced();
    const found = notes.problems.get("remade")?.words;
    await notes.close();
    return found;
  };
  equal(await session("one"), undefined);
  copyFileSync(file, `${file}-copy`);
  equal(await session("buy milk"), undefined);
  copyFileSync(`${file}-copy`, file);
  match(await session("call mum"), /^another had the name of this replica: made \d changes again$/);
  const bob = await opened(at);
  await bob.synced();
  const { replica } = bob;
  const texts = replica.items([0, "notes"]).map(([id]) => replica.values([0, "notes", id, "text"]));
  deepEqual(texts.sort(), [["buy milk"], ["call mum"], ["one"]]);
});

test("the server's disk took changes back: they are given again", async () => {
  const first = await startServer(["d"]);
  const { address, folder } = first;
  const ada = await opened(address);
  ada.replica.assign([0, "title"], "Plan");
  await ada.synced();
  await end(first);
  await startServer(["d"], { address, folder: room() }); // an empty one in its place
  await until("it was given again", () => ada.state.word === "online");
  await ada.synced();
  const bob = await opened(address);
  await bob.synced();
  equal(valueOf(bob, "title"), "Plan");
  ok(folder);
});
