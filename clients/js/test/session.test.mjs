/* Sessions: values to and fro, refusals, others that change the same lists, lost connections. */

import { deepEqual, equal, ok, rejects } from "node:assert/strict";
import { createHash } from "node:crypto";
import net from "node:net";
import { after, test } from "node:test";
import {
  Away, Client, Conflict, Counter, Lost, Refused, connected, connectedToHub, parse, print, settled,
} from "../index.mjs";
import { startServer, until, webSockets } from "./support.mjs";

const LIMIT = { timeout: 900_000 };
const server = await startServer(["d"]);

/** @type {Set<Client>} */
const joined = new Set();
after(() => joined.forEach((client) => client.end())); // those of a test that failed, too

const join = async (address = server.address) => {
  const client = await connected(address);
  joined.add(client);
  await client.open("d");
  return client;
};

/** A peer at a port of its own, which answers each line as `reply` says.
 *  @param {(line: string, socket: net.Socket) => string | undefined} reply */
async function peer(reply) {
  const listener = net.createServer((socket) => {
    let text = "";
    socket.on("error", () => {});
    socket.unref();
    socket.on("data", (bytes) => {
      text += bytes;
      const lines = text.split("\n");
      text = lines.pop() ?? "";
      for (const line of lines) {
        const answer = reply(line, socket);
        if (answer !== undefined) socket.write(answer);
      }
    });
  });
  await new Promise((ready) => listener.listen(0, "127.0.0.1", () => ready(undefined)));
  listener.unref();
  return `127.0.0.1:${/** @type {net.AddressInfo} */ (listener.address()).port}`;
}

const VERSION = '["version",2]\n';

test("values to and fro", LIMIT, async () => {
  const client = await join();
  const value = {
    title: "Plan", steps: ["ask", ["build", { deep: null }], [], {}], empty: {}, yes: true,
    votes: new Counter(3), both: [new Counter(-2, "beside")], big: 9007199254740993n,
    great: new Counter(2n ** 66n, { a: [{ b: 1 }] }),
  };
  const ids = await client.put("d", [0], { ...value, nothing: undefined });
  deepEqual(await client.plain("d", [0]), value);
  equal(await client.sum("d", [0, "votes"]), 3);
  await client.put("d", [0, "again"], await client.plain("d", [0]));
  deepEqual(await client.plain("d", [0, "again"]), value);
  equal(await client.plain("d", [0, "nothing"]), undefined);
  await client.put("d", [0, "keys"], JSON.parse('{"__proto__":1}'));
  deepEqual(Object.keys(await client.plain("d", [0, "keys"])), ["__proto__"]);
  deepEqual(await client.unsaved("d", [...ids, [9999, "srv-1"]]), [[9999, "srv-1"]]);
  await client.quit();
});

test("chains", LIMIT, async () => {
  const client = await join();
  for (const value of [1, 2]) await client.assign("d", [0, "chained"], value);
  const front = await client.front("d");
  /** @type {Map<string, string[]>} */
  const lines = new Map([...front.keys()].map((name) => [name, []]));
  for await (const operation of client.operations("d")) {
    lines.get(operation[1][1])?.push(`${print(operation)}\n`);
  }
  /** @param {string[]} [some] */
  const digest = (some = []) => createHash("sha256").update(some.join("")).digest("hex");
  deepEqual(await client.chains("d", new Map(), front),
    [...front].map(([name, counter]) => [name, counter, digest(lines.get(name))]));
  const last = front.get("srv-1") ?? 0;
  deepEqual(await client.chains("d", new Map([["srv-1", last - 1]]), new Map([["srv-1", last]])),
    [["srv-1", last, digest(lines.get("srv-1")?.slice(-1))]]);
  deepEqual(await client.chains("d", front, new Map([["nobody", 1]])), [["nobody", 1, digest()]]);
  await client.quit();
});

test("conflicts", LIMIT, async () => {
  const client = await join();
  await client.assign("d", [0, "title"], "Plan");
  await client.deliver("d", ["op", [1, "p"], [], [[["m", 0]], "title"], ["assign", "Trip"]]);
  const shown = (await client.plain("d", [0])).title;
  deepEqual(shown, new Conflict(["Trip", "Plan"]));
  const before = print([...(await client.front("d"))]);
  await rejects(client.put("d", [0, "copy"], { shown }), { number: 6 });
  equal(print([...(await client.front("d"))]), before);
  await client.put("d", [0, "copy"], settled(shown));
  equal(await client.plain("d", [0, "copy"]), "Plan");
  await client.quit();
});

test("a bad value is refused before anything is put", LIMIT, async () => {
  const client = await join();
  await client.put("d", [0, "kept"], { keep: "me" });
  for (const bad of [1.5, 2 ** 53, new Date(0), new Map(), () => 1, "\ud800", 2n ** 63n]) {
    await rejects(client.put("d", [0, "kept"], { a: 1, bad, z: 2 }), { number: 6 });
    await rejects(client.assign("d", [0, "kept"], bad), { number: 6 });
    await rejects((async () => client.append("d", [0, "kept"], [bad]))(), { number: 6 });
  }
  await rejects(client.assign("d", [0, "kept"], [1]), { number: 6 });
  deepEqual(await client.plain("d", [0, "kept"]), { keep: "me" });
  await rejects(client.ask("assign", "d", [0, "kept"], "x".repeat(70_000)), RangeError);
  await rejects(client.values("d", [0, "steps", 99]), { constructor: Refused, number: 9, name: "index-past-end" });
  equal(await client.version(), 2);
  await client.quit();
});

test("put fills its own elements, while others insert and delete", LIMIT, async () => {
  const [client, other] = [await join(), await join()];
  for (let round = 0; round < 2; round++) {
    const place = [0, `todo${round}`];
    await client.assign("d", place, []);
    let isOver = false;
    const others = (async () => {
      for (let at = 0; !isOver; at++) {
        await other.insert("d", [...place, 0], `other ${at}`);
        if (at % 3 === 2) await other.delete("d", [...place, 1]).catch(() => {});
      }
    })();
    const items = Array.from({ length: 40 }, (_, at) => ({ title: `${at}`, tags: [{ at }, at] }));
    if (round % 2) await client.put("d", place, items);
    else for (const item of items) await client.append("d", place, item);
    isOver = true;
    await others;
    const found = (await client.plain("d", place)).filter((/** @type {any} */ it) => typeof it !== "string");
    // Elements that the other deleted are gone as a whole, and none is torn.
    for (const it of found) deepEqual(it, items[Number(it.title)], `round ${round}`);
    ok(found.length > 10, `${found.length} are left`);
  }
  await client.quit();
  other.end();
});

test("a place by index stays what it was when put began", LIMIT, async () => {
  const [client, other] = [await join(), await join()];
  await client.put("d", [0, "rows"], [{ name: "first" }, { name: "second" }]);
  const binding = client.let;
  const bound = new Promise((resolve) => {
    client.let = (...items) => {
      const reply = binding(...items);
      reply.then(resolve);
      client.let = binding;
      return reply;
    };
  });
  const putting = client.put("d", [0, "rows", 2], { cells: Array.from({ length: 300 }, (_, at) => ({ at })) });
  await bound; // what others insert from now on moves nothing
  for (let at = 0; at < 20; at++) await other.insert("d", [0, "rows", 0], "x");
  await putting;
  const rows = (await client.plain("d", [0, "rows"])).filter((/** @type {any} */ it) => it !== "x");
  deepEqual([rows[0], rows[1].cells.length], [{ name: "first" }, 300]);
  await client.quit();
  other.end();
});

test("append, without reading the list", LIMIT, async () => {
  const client = await join();
  await client.put("d", [0, "numbers"], Array.from({ length: 500 }, (_, at) => at));
  const ask = client.ask.bind(client);
  /** @type {string[]} */
  const words = [];
  client.ask = (word, ...items) => ask(...(words.push(word), /** @type {[any]} */ ([word, ...items])));
  const id = await client.append("d", [0, "numbers"], { last: true });
  await client.append("d", [0, "numbers"], "very last");
  ok(!words.includes("items") && !words.includes("show"), words.join());
  ok(words.length < 120, `${words.length} requests`);
  client.ask = ask;
  const items = await client.items("d", [0, "numbers"]);
  deepEqual([items.length, items[500][0], items[501][1]], [502, id, ["very last"]]);
  await client.append("d", [0, "new list"], 1);
  deepEqual(await client.plain("d", [0, "new list"]), [1]);
  await Promise.all([1, 2, 3].map((it) => client.append("d", [0, "at once"], { it })));
  deepEqual(await client.plain("d", [0, "at once"]), [{ it: 1 }, { it: 2 }, { it: 3 }]);
  await client.quit();
});

test("a batch stops at a refusal", LIMIT, async () => {
  let inserts = 0;
  const address = await peer((line) => {
    const [word] = parse(line);
    if (word === "version") return VERSION;
    if (word === "assign" || word === "insert") inserts++;
    return '["no",22,"no-memory"]\n';
  });
  const client = await connected(address);
  const items = Array.from({ length: 5000 }, (_, at) => at);
  await rejects(client.put("d", [0, "l"], items), { number: 22 });
  ok(inserts <= 257, `${inserts} were sent`);
  client.end();
});

test("watch, unwatch, and callbacks that throw", LIMIT, async () => {
  const [client, other, stranger] = [await join(), await join(), await connected(server.address)];
  await rejects(stranger.watch("d", () => {}), { name: "not-open" });
  await rejects(client.watch("none", () => {}), { name: "no-such-document" });
  /** @type {any[]} */
  const [failed, heard] = [[], []];
  client.failed = (error) => failed.push(error.message);
  await client.watch("d", () => {
    throw new Error("in the callback");
  }, 20);
  await client.watch("d", async () => {
    throw new Error("later");
  });
  const end = await client.watch("d", (front) => heard.push(front.get("srv-1")));
  equal(heard.length, 1);
  await other.assign("d", [0, "k"], 1);
  await until("it is called after a change", () => heard.length === 2);
  ok(failed.includes("in the callback") && failed.includes("later"));
  end();
  await other.assign("d", [0, "k"], 2);
  await until("the others are", () => failed.length >= 6);
  await other.assign("d", [0, "k"], 3);
  await until("and again", () => failed.length >= 8);
  equal(heard.length, 2);
  [client, other, stranger].forEach((it) => it.end());
});

test("who watches keeps its session at a server where others wait, and who is silent gives it back", LIMIT, async () => {
  const { address } = await startServer(["d"], { more: ["--clients", "2", "--patience", "1"] });
  const heard = [];
  const watcher = await connected(address, { ping: 0.2 });
  joined.add(watcher);
  await watcher.open("d");
  await watcher.watch("d", (front) => heard.push(front.size), { every: 3_600_000 });
  const silent = await join(address);
  await Promise.all([join(address), join(address)]); // one after the other, in the place of a silent one
  await silent.closed;
  equal(await watcher.version(), 2);
  equal(heard.length, 1);
});

test("watch tells a front once, also where it is read and pushed, and none after a newer one", LIMIT, async () => {
  let reads = 0;
  const address = await peer((line) => {
    const [word] = parse(line);
    if (word === "version") return VERSION;
    if (word === "watch") return '["watching"]\n["changed","d",[]]\n';
    return reads++ ? '["front",[["a",1]]]\n["changed","d",[["a",2]]]\n' : '["front",[]]\n';
  });
  const client = await connected(address);
  /** @type {[string, number][][][]} */
  const [first, second] = [[], []];
  await client.watch("d", (front) => first.push([...front]));
  await until("the first is called", () => first.length > 0);
  await client.version(); // what was pushed came before this reply
  deepEqual(first, [[]]);
  await client.watch("d", (front) => second.push([...front]));
  await until("the second is called", () => second.length > 0);
  await client.version();
  deepEqual(second, [[["a", 2]]]); // the push was just behind the reply
  deepEqual(first, [[], [["a", 2]]]);
  client.end();
});

test("what is lost, away and refused", LIMIT, async () => {
  const mine = await startServer(["d"]);
  const client = await join(mine.address);
  const id = await client.assign("d", [0, "k"], 1);
  mine.child.kill("SIGSTOP");
  const waiting = [client.front("d"), client.add("d", [0, "n"], 1)];
  const all = Promise.all(waiting.map((it) => rejects(it, Lost)));
  mine.child.kill("SIGKILL");
  await all;
  ok((await client.closed) instanceof Lost);
  await rejects(client.front("d"), (error) => error instanceof Away && /not sent/.test(error.message));
  await rejects(connected(mine.address), Away);
  await rejects(connected("nowhere"), TypeError);
  const again = await startServer(["d"], { file: mine.file });
  const next = await join(again.address);
  const never = /** @type {[number, string]} */ ([id[0] + 1, id[1]]);
  const unsaved = await next.unsaved("d", [id, never]);
  ok(unsaved.length >= 1 && unsaved[unsaved.length - 1][0] === never[0]);
  await next.quit();
  const address = await peer((line) => line.includes('"version"') ? VERSION
    : line.includes('"add"') ? '["no",100,"server-lost"]\n' : '["no",101,"server-away"]\n');
  const atHub = await connected(address);
  await rejects(atHub.add("d", [0, "n"], 1), Lost);
  await rejects(atHub.assign("d", [0, "n"], 1), Away);
  atHub.end();
});

test("a line that answers nothing ends the session, and is no reply to another request", LIMIT, async () => {
  for (const stray of ['["keys",["x"]]\n', "nonsense\n", "[]\n", '{"a":1}\n']) {
    const address = await peer((line) => line.includes('"version"') ? VERSION : `${stray}["values",["mine"]]\n`);
    const client = await connected(address);
    const asked = [client.values("d", [0, "a"]), client.values("d", [0, "b"])];
    for (const it of asked) await rejects(it, Lost, stray);
    ok((await client.closed) instanceof Lost);
  }
  // Pushes of the hub come between replies.
  const address = await peer((line) => line.includes('"version"') ? VERSION
    : '["reopened",[["d","x"]]]\n["changed","d",[["p",1]]]\n["heard","d","g",1]\n["values",["mine"]]\n');
  const client = await connected(address);
  /** @type {any[]} */
  const gone = [];
  client.reopened = (names) => gone.push(...names);
  deepEqual(await client.values("d", [0, "a"]), ["mine"]);
  deepEqual(gone, [["d", "x"]]);
  client.end();
});

test("the oldest request has a limit, also for who keeps sending", LIMIT, async () => {
  let isSilent = false;
  const address = await peer((line) => (isSilent ? undefined : line.includes('"version"') ? VERSION : '["front",[]]\n'));
  const client = await connected(address, { seconds: 1 });
  await client.front("d");
  isSilent = true;
  const timer = setInterval(() => client.front("d").catch(() => {}), 100);
  await rejects(client.front("d"), Lost);
  clearInterval(timer);
});

test("a session that never begins is told in time", LIMIT, async () => {
  const full = await startServer(["d"], { sessions: 1 });
  const one = await join(full.address);
  await rejects(connected(full.address, { connectSeconds: 1 }), Away);
  one.end();
});

test("a reply over the limit ends that connection alone", LIMIT, async () => {
  let sent = 0;
  const address = await peer((line, socket) => {
    if (line.includes('"version"')) return VERSION;
    const piece = "x".repeat(65_536);
    const more = () => {
      for (; sent < 1e9 && socket.writable && socket.write(piece); sent += piece.length);
    };
    socket.on("drain", more);
    more();
    return undefined;
  });
  const client = await connected(address, { most: 2 ** 20 });
  const other = await join();
  await rejects(client.show("d", [0]), (error) => error instanceof Lost && /1048576/.test(error.message));
  equal(await other.version(), 2);
  other.end();
});

const ws = webSockets();

test("over WebSocket: a hub that is frozen is noticed", { ...LIMIT, skip: !ws }, async () => {
  const listener = new ws.WebSocketServer({ port: 0, host: "127.0.0.1" });
  await new Promise((ready) => listener.on("listening", ready));
  let isFrozen = false;
  /** @type {string[]} */
  const lines = [];
  listener.on("connection", (/** @type {any} */ socket) => socket.on("message", (/** @type {any} */ data) => {
    lines.push(String(data));
    if (!isFrozen) socket.send('["version",2]');
  }));
  const url = `ws://127.0.0.1:${listener.address().port}/lines`;
  const client = await connectedToHub(url, ws.WebSocket, { ping: 0.1, seconds: 5 });
  await until("it pings", () => lines.length > 3);
  isFrozen = true;
  ok((await client.closed) instanceof Lost);
  await rejects(connectedToHub(url, ws.WebSocket, { connectSeconds: 0.5 }), Away);
  await rejects(connectedToHub("ws://127.0.0.1:1/lines", ws.WebSocket), Away);
  listener.close();
});

test("a client without a connection of its own", () => {
  /** @type {string[]} */
  const sent = [];
  const lone = new Client((line) => sent.push(line), () => {});
  const waiting = [rejects(lone.version(), Lost), rejects(lone.front("d"), Lost)];
  lone.receive('["changed","d",[]]');
  equal(lone.waiting(), 2);
  lone.lose("gone");
  equal(sent.length, 2);
  return Promise.all(waiting);
});
