/* What the hub sends without being asked: only to who asked for it. Presence, too. */

import { deepEqual, equal, match, ok } from "node:assert/strict";
import { existsSync } from "node:fs";
import { test } from "node:test";
import { fileURLToPath } from "node:url";
import { TestClock } from "../../js/test/clock.mjs";
import {
  hubWithin, kill, launch, pause, Raw, startHub, startServer, suite, until,
} from "./support.mjs";

const PYTHON = fileURLToPath(new URL("../../python", import.meta.url));

/** A server, and a hub before it. */
const both = (...options) => started([], options);

/** The same with `--durable`: what the server has answered is in its file when it is started again. */
const lasting = (...options) => started(["--durable"], options);

/** How the server ends and is started again, each until the hub has seen it. */
async function started(more, options) {
  let server = await startServer(["d", "e"], { more });
  const hub = await startHub(server.address, "--poll", "20", ...options);
  // A connection that is kept open may end just as it is used again: then nothing is known.
  const health = () => fetch(`${hub.page}health`).then((it) => it.json()).catch(() => undefined);
  const leave = async () => {
    await kill(server.child);
    await until("the hub sees that the server is gone", async () => (await health())?.connected === false);
  };
  const come = async (other = {}) => {
    server = await startServer(["d", "e"], { ...server, more, ...other });
    await until("the hub has all sessions", async () => {
      const found = await health();
      return found?.connected && found.sessions.got === found.sessions.wanted;
    });
  };
  const again = async (other) => {
    await leave();
    await come(other);
  };
  return { hub, again, leave, come, stop: () => kill(server.child) };
}

/** A client that has opened a document. */
async function opened({ lines }, document = "d") {
  const client = new Raw(lines);
  const reply = await client.ask(["open", document]);
  ok(reply.startsWith('["opened",'), reply);
  return client;
}

suite("pushes", { concurrency: true }, () => {
  test("a plain client gets replies alone, also after a restart", async () => {
    const { hub, again } = await lasting();
    const client = await opened(hub);
    for (const key of ["a", "b"]) await client.ask(["assign", "d", [0, key], key]);
    await again();
    for (const key of ["a", "b", "a", "b"]) {
      equal(await client.ask(["values", "d", [0, key]]), `["values",["${key}"]]`);
    }
    deepEqual(client.lines, []);
    client.end();
  });

  test("a client that came while the server was away gets replies alone", async () => {
    const { hub, leave, come } = await lasting("--sessions", "1");
    await leave();
    const client = new Raw(hub.lines);
    client.send(["open", "d"], ["front", "d"]);
    await come();
    // One that waited for too long, on a busy machine, has been refused: it is asked again.
    const answered = async (reply, request) =>
      /^\["no",(101|5),/.test(reply) ? answered(await client.ask(request), request) : reply;
    const [first, second] = [await client.next(), await client.next()];
    match(await answered(first, ["open", "d"]), /^\["opened",/);
    match(await answered(second, ["front", "d"]), /^\["front",/);
    for (let at = 0; at < 20; at++) equal(await client.ask(["version"]), '["version",2]');
    deepEqual(client.lines, []);
    client.end();
  });

  test("who has bound a name or watches is told of a restart", async () => {
    const { hub, again } = await lasting();
    const [binds, watches, both_] = [await opened(hub), await opened(hub), await opened(hub)];
    for (const client of [binds, both_]) {
      equal(await client.ask(["let", "d", "it", [0, "k"]]), '["bound"]');
    }
    for (const client of [watches, both_]) {
      equal(await client.ask(["watch", "d"]), '["watching"]');
      equal(await client.next(), '["changed","d",[]]');
    }
    await again();
    equal(await binds.next(), '["reopened",[["d","it"]]]');
    equal(await watches.next(), '["reopened",[]]');
    equal(await both_.next(), '["reopened",[["d","it"]]]');
    equal(await binds.ask(["values", "d", ["it"]]), '["no",8,"no-such-variable"]');
    [binds, watches, both_].forEach((client) => client.end());
  });

  test("a watch ends", async () => {
    const { hub } = await both();
    const [ada, bob, eve] = [await opened(hub), await opened(hub), await opened(hub)];
    for (const it of [ada, eve]) {
      equal(await it.ask(["watch", "d"]), '["watching"]');
      equal(await it.next(), '["changed","d",[]]');
    }
    await bob.ask(["assign", "d", [0, "k"], 1]);
    for (const it of [ada, eve]) equal(await it.next(), '["changed","d",[["srv-1",1]]]');
    equal(await ada.ask(["unwatch", "d"]), '["unwatched","d"]');
    equal(await ada.ask(["unwatch", "d"]), '["unwatched","d"]');
    await bob.ask(["assign", "d", [0, "k"], 2]);
    equal(await eve.next(), '["changed","d",[["srv-1",2]]]'); // who watches still has it
    equal(await ada.ask(["version"]), '["version",2]');
    deepEqual(ada.lines, []);
    equal(await ada.ask(["watch", "none"]), '["no",5,"not-open"]');
    equal(await ada.ask(["unwatch", "d", 1]), '["no",2,"bad-request"]');
    [ada, bob, eve].forEach((client) => client.end());
  });

  test("operations are pushed with numbers, in the server's own words, once for all", async () => {
    const { hub } = await both();
    const [ada, bob, eve] = [await opened(hub), await opened(hub), await opened(hub)];
    equal(await ada.ask(["watch", "d", "ops"]), '["watching"]');
    equal(await ada.next(), '["changed","d",[]]');
    equal(await eve.ask(["watch", "d"]), '["watching"]');
    equal(await eve.next(), '["changed","d",[]]');
    const logged = async (reader, number, count) => {
      const [operation] = JSON.parse(await bob.ask(["ops", "d", count > 1 ? [["srv-1", count - 1]] : [], 64]))[1];
      const line = await reader.next();
      equal(line, JSON.stringify(["logged", "d", number, [operation]]));
      ok(line.length <= JSON.stringify(operation).length + 100);
    };
    await bob.ask(["assign", "d", [0, "k"], 1]);
    await logged(ada, 1, 1);
    equal(await eve.next(), '["changed","d",[["srv-1",1]]]');
    // Who comes later begins at 1, behind the front of then.
    equal(await bob.ask(["watch", "d", "ops"]), '["watching"]');
    equal(await bob.next(), '["changed","d",[["srv-1",1]]]');
    eve.send(["assign", "d", [0, "k"], 2]);
    const [applied, changed] = [await eve.next(), await eve.next()].sort(); // in any order
    equal(JSON.parse(applied)[0], "applied");
    equal(changed, '["changed","d",[["srv-1",2]]]');
    equal(JSON.parse(await bob.next())[2], 1);
    await logged(ada, 2, 2);
    equal(await ada.ask(["unwatch", "d"]), '["unwatched","d"]');
    equal(await ada.ask(["watch", "d", "all"]), '["no",2,"bad-request"]');
    equal(await ada.ask(["watch", "d", "ops", 1]), '["no",2,"bad-request"]');
    equal(await ada.ask(["watch", "none", "ops"]), '["no",5,"not-open"]');
    [ada, bob, eve].forEach((client) => client.end());
  });

  test("many operations at once are pushed page by page, each once", async () => {
    const { hub } = await both();
    const [ada, bob] = [await opened(hub), await opened(hub)];
    await ada.ask(["watch", "d", "ops"]);
    equal(await ada.next(), '["changed","d",[]]');
    for (let at = 1; at <= 300; at++) bob.send(["assign", "d", [0, "k"], at]);
    const counters = [];
    for (let number = 1; counters.length < 300; number++) {
      const [word, document, at, operations] = JSON.parse(await ada.next());
      deepEqual([word, document, at], ["logged", "d", number]);
      ok(operations.length <= 64);
      counters.push(...operations.map(([, [counter]]) => counter));
    }
    deepEqual(counters, Array.from({ length: 300 }, (_, at) => at + 1));
    [ada, bob].forEach((client) => client.end());
  });

  test("a page of the hub has the operations of 16 of the server, or of some bytes", async () => {
    const { hub } = await both();
    const ada = await opened(hub);
    for (let at = 0; at < 1030; at++) ada.send(["assign", "d", [0, "k"], at]);
    await until("all is logged", () => ada.lines.length === 1030, 60);
    ada.lines.length = 0;
    const counters = async (front, bytes) => {
      const [word, operations] = JSON.parse(await ada.ask(["page", "d", front, bytes]));
      equal(word, "ops");
      return operations.map(([, [counter]]) => counter);
    };
    const from = (first, length) => Array.from({ length }, (_, at) => first + at);
    deepEqual(await counters([], 2 ** 20), from(1, 1024));
    deepEqual(await counters([["srv-1", 1024]], 2 ** 20), from(1025, 6));
    deepEqual(await counters([["srv-1", 1030]], 2 ** 20), []);
    deepEqual(await counters([["srv-1", 10]], 1), from(11, 64));
    equal(await ada.ask(["page", "d", [], 0]), '["no",2,"bad-request"]');
    equal(await ada.ask(["page", "d", 1, 9]), '["no",2,"bad-request"]');
    equal(await ada.ask(["page", "e", [], 9]), '["no",5,"not-open"]');
    ada.end();
  });

  test("a server that is started again without what it had: the front is pushed", async () => {
    const { hub, again } = await lasting();
    const [ada, bob] = [await opened(hub), await opened(hub)];
    await ada.ask(["watch", "d", "ops"]);
    equal(await ada.next(), '["changed","d",[]]');
    await bob.ask(["assign", "d", [0, "k"], 1]);
    equal(JSON.parse(await ada.next())[0], "logged");
    await again({ file: "without.db" });
    equal(await ada.next(), '["reopened",[]]');
    equal(await ada.next(), '["changed","d",[]]');
    await bob.ask(["assign", "d", [0, "k"], 2]);
    const push = await ada.next(); // a front, where the hub has got another session meanwhile
    ok(push === '["changed","d",[["srv-1",1]]]' || push.startsWith('["logged","d",2,[["op",[1,"srv-1"]'), push);
    [ada, bob].forEach((client) => client.end());
  });

  test("who doesn't read gets the front in place of operations, and then operations again", async () => {
    const { hub } = await both("--patience", "60");
    const [ada, bob] = [await opened(hub), await opened(hub)];
    await ada.ask(["watch", "d", "ops"]);
    equal(await ada.next(), '["changed","d",[]]');
    ada.socket.pause();
    const text = "x".repeat(4000);
    const COUNT = 3000;
    for (let at = 0; at < COUNT; at++) bob.send(["assign", "d", [0, "k"], `${at} ${text}`]);
    await until("all is changed", () => bob.lines.length >= COUNT);
    bob.lines.length = 0;
    ada.socket.resume();
    await until("the front of all has come", () => ada.lines.includes(`["changed","d",[["srv-1",${COUNT}]]]`));
    const words = ada.lines.splice(0).map((line) => JSON.parse(line)[0]);
    equal(words.indexOf("changed"), words.length - 1); // what was written before is read first
    await bob.ask(["assign", "d", [0, "k"], 1]);
    const [word, , number, operations] = JSON.parse(await ada.next());
    deepEqual([word, operations.map(([, [counter]]) => counter)], ["logged", [COUNT + 1]]);
    ok(number > words.length, `${number} behind ${words.length} pushes`); // what was left out counts
    [ada, bob].forEach((client) => client.end());
  });

  test("presence: what one says others hear, and that it has left", async () => {
    const { hub } = await both();
    const [ada, bob, eve] = [await opened(hub), await opened(hub), await opened(hub, "e")];
    equal(await ada.ask(["hear", "d"]), '["hearing","d"]');
    equal(await eve.ask(["hear", "e"]), '["hearing","e"]');
    equal(await eve.ask(["hear", "d"]), '["no",5,"not-open"]');
    // Integers beyond 2^53 and blanks are as they were said.
    equal(await bob.ask('["say", "d",  {"caret":[5,"x"], "n":9007199254740993} ]'), '["said"]');
    const heard = JSON.parse(await ada.next());
    deepEqual([heard[0], heard[1], heard[3].caret], ["heard", "d", [5, "x"]]);
    equal(await bob.ask(["say", "d", "again"]), '["said"]');
    equal(await ada.next(), `["heard","d","${heard[2]}","again"]`);
    // Who comes later hears what is said already; nobody hears oneself.
    const late = await opened(hub);
    equal(await late.ask(["hear", "d"]), '["hearing","d"]');
    equal(await late.next(), `["heard","d","${heard[2]}","again"]`);
    equal(await late.ask(["say", "d", 9]), '["said"]');
    const second = JSON.parse(await ada.next());
    ok(second[2] !== heard[2]);
    bob.end();
    for (const client of [ada, late]) equal(await client.next(), `["heard","d","${heard[2]}",null]`);
    equal(await late.ask(["say", "d", null]), '["said"]');
    equal(await ada.next(), `["heard","d","${second[2]}",null]`);
    equal(await late.ask(["say", "d", "x".repeat(4095)]), '["no",6,"bad-value"]');
    equal(await late.ask(["unhear", "d"]), '["unheard","d"]');
    equal(await ada.ask(["say", "d", 1]), '["said"]');
    await pause(150); // presence is pushed ten times a second
    deepEqual([late.lines, eve.lines, ada.lines], [[], [], []]);
    [ada, eve, late].forEach((client) => client.end());
  });

  test("who doesn't read what others say gets the last of it", async () => {
    const { hub } = await both("--patience", "20");
    const [ada, bob] = [await opened(hub), await opened(hub)];
    await ada.ask(["hear", "d"]);
    ada.socket.pause();
    const text = "x".repeat(4000);
    for (let at = 0; at < 3000; at++) bob.send(["say", "d", `${at} ${text}`]);
    await until("all is said", () => bob.lines.length >= 3000);
    bob.lines.length = 0;
    const memory = await bob.ask(["version"]);
    equal(memory, '["version",2]');
    ada.socket.resume();
    await until("the last one is heard", () => ada.lines.at(-1)?.includes('"2999 '));
    ok(ada.lines.length < 3000, `${ada.lines.length} of 3000 were kept`);
    [ada, bob].forEach((client) => client.end());
  });

  test("presence: one client's values are pushed ten times a second at most, the last one too", async () => {
    const [clock, server] = [new TestClock(), await startServer(["d"])];
    const hub = await hubWithin({ server: server.address, lines: "127.0.0.1:0", clock, note: () => {} });
    const [ada, bob] = [await opened(hub), await opened(hub)];
    await ada.ask(["hear", "d"]);
    clock.pass(1000);
    for (let at = 0; at < 50; at++) equal(await bob.ask(["say", "d", at]), '["said"]');
    match(await ada.next(), /,0\]$/);
    clock.pass(99);
    equal(await ada.ask(["version"]), '["version",2]'); // nothing was pushed before it
    clock.pass(1);
    match(await ada.next(), /,49\]$/);
    clock.pass(1000);
    equal(await ada.ask(["version"]), '["version",2]');
    equal(await bob.ask(["say", "d", 50]), '["said"]');
    match(await ada.next(), /,50\]$/);
    [ada, bob].forEach((client) => client.end());
  });

  test("presence: who sends nothing for 30 seconds is there no more, until it sends again", async () => {
    const [clock, server] = [new TestClock(), await startServer(["d"])];
    const hub = await hubWithin({ server: server.address, lines: "127.0.0.1:0", clock, note: () => {} });
    const [ada, bob] = [await opened(hub), await opened(hub)];
    for (const client of [ada, bob]) equal(await client.ask(["hear", "d"]), '["hearing","d"]');
    await bob.ask(["say", "d", "here"]);
    match(await ada.next(), /"here"\]$/);
    for (let second = 0; second < 30; second++) {
      equal(await ada.ask(["version"]), '["version",2]');
      clock.pass(1000);
    }
    clock.pass(2000);
    match(await ada.next(), /,null\]$/);
    const late = await opened(hub);
    equal(await late.ask(["hear", "d"]), '["hearing","d"]');
    equal(await late.ask(["version"]), '["version",2]'); // it doesn't hear of it
    equal(await bob.ask(["version"]), '["version",2]');
    clock.pass(1000);
    for (const client of [ada, late]) match(await client.next(), /"here"\]$/);
    [ada, bob, late].forEach((client) => client.end());
  });

  test("presence: who has left is forgotten, and what is null isn't heard by who comes later", async () => {
    const { hub } = await both();
    const [ada, bob, eve] = [await opened(hub), await opened(hub), await opened(hub)];
    await ada.ask(["hear", "d"]);
    await bob.ask(["say", "d", 1]);
    await eve.ask(["say", "d", 2]);
    match(await ada.next(), /,1\]$/);
    match(await ada.next(), /,2\]$/);
    await bob.ask(["say", "d", null]);
    match(await ada.next(), /,null\]$/);
    eve.end();
    match(await ada.next(), /,null\]$/);
    const late = await opened(hub);
    equal(await late.ask(["hear", "d"]), '["hearing","d"]');
    equal(await late.ask(["version"]), '["version",2]');
    [ada, bob, late].forEach((client) => client.end());
  });

  const isMissing = !existsSync(`${PYTHON}/jcrdt/session.py`) && "clients/python isn't there";
  test("a Python client gets its own answers, also after a restart", { skip: isMissing }, async () => {
    const { hub, again } = await lasting();
    const script = `
import sys
sys.path.insert(0, ${JSON.stringify(PYTHON)})
from jcrdt import session
with session.connected(${JSON.stringify(hub.lines)}) as client:
    client.open("d")
    for key in "abc": client.assign("d", [0, key], key * 3)
    print("ready", flush=True)
    sys.stdin.readline()
    print([client.values("d", [0, key]) for key in "abcabc"], client.keys("d", [0]), flush=True)
`;
    const child = launch("python3", ["-B", "-c", script], { stdio: ["pipe", "pipe", "pipe"] });
    let out = "";
    child.stdout.on("data", (text) => (out += text));
    await until("it has written", () => out.startsWith("ready"));
    await again();
    child.stdin.end("\n");
    await child.ended;
    const values = ["aaa", "bbb", "ccc"].map((it) => `['${it}']`).join(", ");
    equal(out, `ready\n[${values}, ${values}] ['a', 'b', 'c']\n`, child.notes);
  });
});
