/* What is pushed: a key costs one request and a push for each provider, and what isn't pushed, or
   doesn't fit, is pulled. Providers reach the hub through a proxy that counts and changes lines. */

import { deepEqual, equal, ok, rejects } from "node:assert/strict";
import { readFileSync, writeFileSync } from "node:fs";
import { connect, createServer } from "node:net";
import node from "node:test";
import { fileURLToPath } from "node:url";
import { fileStore } from "../file_store.mjs";
import { Provider } from "../provider.mjs";
import { connected } from "../session.mjs";
import { until } from "./chromium.mjs";
import { engines } from "./engines.mjs";
import { end, room, start, startServer } from "./serving.mjs";
import { tooLong } from "./support.mjs";

const HUB = fileURLToPath(new URL("../../hub/hub.mjs", import.meta.url));
const MANY = tooLong ? 5 : 20; // providers
const endings = new Set();

const test = (name, work) => node(name, { timeout: 900_000 }, async (t) => {
  try {
    await work(t);
  } finally {
    await Promise.allSettled([...endings].map((it) => it()));
    endings.clear();
  }
});

/** Passes lines on, and counts them by their first words: those of providers in `asked`, those of
 *  the hub in `came`. `change(line, side)` gives the lines in place of one of the hub; `refuse(line)`
 *  a reply of its own to one of a provider. */
class Proxy {
  asked = new Map();
  came = new Map();
  bytes = 0;
  change = (line) => [line];
  refuse = () => undefined;
  #count = 0;

  constructor(hub) {
    this.server = createServer((socket) => this.#join(socket, hub, this.#count++));
    endings.add(() => this.server.close());
  }

  async listen() {
    await new Promise((open) => this.server.listen(0, "127.0.0.1", open));
    this.address = `127.0.0.1:${this.server.address().port}`;
    return this;
  }

  #join(socket, hub, side) {
    const [host, port] = hub.split(":");
    const other = connect({ host, port: Number(port) });
    cut(socket, (line) => {
      count(this.asked, line);
      const reply = this.refuse(line);
      if (reply) socket.write(`${reply}\n`);
      else other.write(`${line}\n`);
    });
    cut(other, (line) => {
      count(this.came, line);
      if (line.startsWith('["logged"')) this.bytes += line.length;
      for (const it of this.change(line, side)) socket.write(`${it}\n`);
    });
    for (const [one, two] of [[socket, other], [other, socket]]) {
      one.on("error", () => {}).on("close", () => two.destroy());
    }
  }

  clear() {
    this.asked.clear();
    this.came.clear();
    this.bytes = 0;
  }
}

function cut(socket, take) {
  let rest = "";
  socket.setEncoding("utf8").on("data", (text) => {
    const lines = (rest + text).split("\n");
    rest = lines.pop();
    lines.forEach(take);
  });
}

const wordOf = (line) => JSON.parse(line)[0];
const count = (counts, line) => counts.set(wordOf(line), (counts.get(wordOf(line)) ?? 0) + 1);
/** What was counted, without the pings of silent providers. */
const tally = ({ asked, came }) => {
  const [requests, lines] = [Object.fromEntries(asked), Object.fromEntries(came)];
  delete requests.version;
  delete lines.version;
  return { requests, lines };
};

/** A server, a hub before it, and a proxy before that. */
async function all() {
  const server = await startServer(["d"]);
  const words = [HUB, server.address, "--lines", "127.0.0.1:0", "--sessions", "3"];
  const hub = await start(process.execPath, words, 1);
  return { server, proxy: await new Proxy(hub.lines[0][1]).listen() };
}

async function opened(proxy, options = {}) {
  const provider = await Provider.open({ document: "d", at: proxy.address, ...options });
  endings.add(() => provider.close());
  await provider.synced(300);
  return provider;
}

const texts = ({ replica }) => replica.items([0, "t"]).map(([, [text]]) => text);
const type = ({ replica }, text) => replica.insert([0, "t", 0], text);
const allHave = (providers, number) => until("all have it",
  () => providers.every(({ replica }) => replica.count === number));

for (const number of tooLong ? [3] : [3, 20]) {
  test(`${number} providers: a key is one request, and a push for each`, async () => {
    const { proxy } = await all();
    const providers = await Promise.all(Array.from({ length: number }, () => opened(proxy)));
    const [first, second] = providers;
    const KEYS = 20;
    first.replica.assign([0, "t"], []);
    await allHave(providers, 1);
    const events = [];
    second.listen((event) => event.what === "changed" && events.push(event.lines.length));
    proxy.clear();
    for (let key = 0; key < KEYS; key++) {
      type(key % 2 ? first : second, "x");
      await allHave(providers, key + 2);
      await until("each push has come", () => proxy.came.get("logged") === (key + 1) * number);
    }
    deepEqual(tally(proxy), {
      requests: { deliver: KEYS }, lines: { applied: KEYS, logged: KEYS * number },
    });
    deepEqual(events, Array(KEYS).fill(1)); // own ones, and one for each push of the other's
    const written = first.replica.lines().slice(2).reduce((sum, line) => sum + line.length, 0);
    ok(proxy.bytes <= number * (written + 100 * KEYS), `${proxy.bytes} bytes for ${written}`);
    ok(providers.every((it) => it.unsent.length === 0 && it.state.word === "online"));
  });
}

test("a push that is missing is pulled: the gap in the numbers shows it", async () => {
  const { proxy } = await all();
  const [ada, bob] = [await opened(proxy), await opened(proxy)];
  ada.replica.assign([0, "t"], []);
  await allHave([ada, bob], 1);
  let dropped = 0;
  proxy.change = (line, side) => (side === 1 && wordOf(line) === "logged" && dropped++ === 0 ? [] : [line]);
  type(ada, "one");
  await until("it was dropped", () => dropped === 1);
  await until("ada has sent it", () => ada.unsent.length === 0);
  proxy.clear();
  bob.replica.assign([0, "other"], 1); // doesn't depend on what bob lacks
  await allHave([ada, bob], 3);
  deepEqual([texts(bob), texts(ada)], [["one"], ["one"]]);
  ok(proxy.asked.get("front") >= 1 && proxy.asked.get("page") >= 1);
});

test("an operation that is pushed before what it depends on is pulled with that", async () => {
  const { proxy } = await all();
  const [ada, bob] = [await opened(proxy), await opened(proxy)];
  ada.replica.assign([0, "t"], []);
  await allHave([ada, bob], 1);
  let dropped = 0;
  proxy.change = (line, side) => {
    if (side !== 1 || wordOf(line) !== "logged") return [line];
    const [word, document, at, operations] = JSON.parse(line);
    // One is left out, and the numbers hide that.
    return dropped++ === 0 ? [] : [JSON.stringify([word, document, at - 1, operations])];
  };
  type(ada, "one");
  await until("it was dropped", () => dropped === 1);
  equal(bob.replica.count, 1);
  type(ada, "two");
  await allHave([ada, bob], 3);
  deepEqual(texts(bob), ["two", "one"]);
  deepEqual(bob.replica.held(), []);
});

test("a long document is opened by pages of the hub, as one event", async () => {
  const { proxy } = await all();
  const ada = await opened(proxy);
  ada.replica.splice([0, "t"], 0, 0, "a text of many characters ".repeat(100));
  await ada.synced(300);
  proxy.clear();
  const bob = await Provider.open({ document: "d", at: proxy.address });
  endings.add(() => bob.close());
  const events = [];
  bob.listen(({ what, lines }) => what === "changed" && events.push(lines.length));
  await bob.synced(300);
  equal(texts(bob).join(""), texts(ada).join(""));
  equal(proxy.asked.get("ops"), undefined);
  deepEqual([events, ada.replica.count], [[ada.replica.count], 2600]);
  // Of 1,024, 1,024 and 552; `synced` itself asks once more, at most.
  ok(proxy.asked.get("page") <= 4, `${proxy.asked.get("page")} pages`);
});

test("straight at a server a long document is opened as one batch, and one event", async () => {
  const server = await startServer(["d"]);
  const ada = await Provider.open({ document: "d", at: server.address });
  endings.add(() => ada.close());
  ada.replica.splice([0, "t"], 0, 0, "a text of many characters ".repeat(100));
  await ada.synced(60);
  for (const [title, engine] of engines) {
    const asked = [];
    const options = { document: "d", at: server.address, engine, isOnline: false };
    const bob = await Provider.open({ ...options, onReply: (line) => asked.push(wordOf(line)) });
    endings.add(() => bob.close());
    const [events, watched, logged] = [[], [], []];
    bob.listen(({ what, lines }) => what === "changed" && events.push(lines.length));
    bob.replica.listen(({ lines, ids }) => logged.push([lines.length, ids.length]));
    bob.replica.watch([0, "t"], (splices) => watched.push(splices));
    bob.goOnline();
    await bob.synced(60);
    deepEqual([events, logged], [[2600], [[2600, 2600]]], title);
    deepEqual(watched, [[{ index: 0, remove: 0, insert: texts(ada) }]], title);
    deepEqual(bob.replica.lines().slice(1), ada.replica.lines().slice(1), title);
    // 40 full pages and one that isn't; what is asked once all is here gives none.
    ok(asked.filter((word) => word === "ops").length <= 41 + 2, `${asked}`);
  }
});

test("lines that no hub pushes change nothing, and what there is is pulled", async () => {
  const { proxy } = await all();
  const [ada, bob] = [await opened(proxy), await opened(proxy)];
  ada.replica.assign([0, "t"], []);
  await allHave([ada, bob], 1);
  const wrong = [[1], [["op"]], [["op", [1, "x"], "y", 0, 0]], [["op", [9, "x"], [], [[["m", 0]], "k"], ["assign", 1]]]];
  let at = 0;
  proxy.change = (line) => {
    if (wordOf(line) !== "logged") return [line];
    const [word, document, number] = JSON.parse(line);
    return [JSON.stringify([word, document, number, wrong[at++ % wrong.length]])];
  };
  for (let key = 0; key < wrong.length; key++) {
    type(ada, `${key}`);
    await allHave([ada, bob], key + 2);
  }
  deepEqual(texts(bob), texts(ada));
});

test("a hub without these pushes: fronts, and what they bring", async () => {
  const { proxy } = await all();
  proxy.refuse = (line) => (line === '["watch","d","ops"]' ? '["no",2,"bad-request"]' : undefined);
  const [ada, bob] = [await opened(proxy), await opened(proxy)];
  ada.replica.assign([0, "t"], []);
  for (let key = 0; key < 5; key++) type(key % 2 ? ada : bob, `${key}`) && (await allHave([ada, bob], key + 2));
  deepEqual(texts(bob), texts(ada));
  equal(proxy.came.get("logged"), undefined);
});

test("a session that follows a document and watches it hears both", async () => {
  const { proxy } = await all();
  const [ada, bob] = [await connected(proxy.address), await connected(proxy.address)];
  [ada, bob].forEach((it) => endings.add(() => it.end()));
  await ada.open("d");
  await bob.open("d");
  const heard = [];
  const follower = {
    begins: (front) => heard.push(["begins", front.size]),
    logged: (operations) => heard.push(["logged", ...operations.map(([, [counter]]) => counter)]),
    misses: () => heard.push(["misses"]),
    changed: () => heard.push(["changed"]),
  };
  const unfollow = await ada.follow("d", follower);
  await until("it begins", () => heard.length === 1);
  await bob.assign("d", [0, "k"], 1);
  await until("it is heard", () => heard.length === 2);
  deepEqual(heard.splice(0), [["begins", 0], ["logged", 1]]);
  // A watch of the same session gets fronts, and so does the follower meanwhile.
  let last = 0;
  const unwatch = await ada.watch("d", (front) => (last = front.get("srv-1")));
  await bob.assign("d", [0, "k"], 2);
  await until("the watch has it", () => last === 2);
  await until("the follower has it", () => heard.length > 0);
  ok(heard.every(([word]) => word === "begins"));
  unwatch();
  await ada.version();
  heard.length = 0;
  await bob.assign("d", [0, "k"], 3);
  await until("it is heard again", () => heard.some(([word, counter]) => word === "logged" && counter === 3));
  unfollow();
  await ada.version();
  proxy.clear();
  await bob.assign("d", [0, "k"], 4);
  await bob.version();
  await ada.version();
  equal(proxy.came.get("logged"), undefined);
  await rejects(ada.follow("none", follower), { number: 5 });
});

for (const isOld of [false, true]) {
  const which = isOld ? "two copies of one store of an older package" : "two copies of one store";
  test(`${which} type at a hub: nothing is lost, nothing is there twice`, () => typeBoth(isOld));
}

/** @param {boolean} isOld Whether both keep one name: the files don't say which they are. */
async function typeBoth(isOld) {
  const { proxy } = await all();
  const folder = room();
  const first = await opened(proxy, { store: fileStore(`${folder}/one`) });
  first.replica.assign([0, "t"], []);
  await first.synced();
  await first.close();
  const text = readFileSync(`${folder}/one`, "utf8");
  writeFileSync(`${folder}/two`, isOld ? text.replace(/^(\["session","[^"]*").*$/gm, "$1]") : text);
  const copies = await Promise.all(["one", "two"].map((it) => opened(proxy, { store: fileStore(`${folder}/${it}`) })));
  const eve = await opened(proxy);
  const typed = [];
  for (let key = 0; key < 20; key++) {
    for (const [at, copy] of copies.entries()) {
      typed.push(`${at}-${key}`);
      type(copy, `${at}-${key}`);
    }
    if (key % 3 === 0) await until("the copies are exchanged", () => copies.every((it) => it.unsent.length === 0));
  }
  for (const it of copies) await it.synced(300);
  await allHave([...copies, eve], isOld ? 41 : 42); // a copy says that it is one
  for (const it of [...copies, eve]) deepEqual(texts(it).sort(), typed.sort());
  equal(copies.some(({ problems }) => problems.has("remade")), isOld);
}

test("the server's disk took changes back: they are given again through the hub", async () => {
  const { server, proxy } = await all();
  const [ada, bob] = [await opened(proxy), await opened(proxy)];
  ada.replica.assign([0, "t"], []);
  type(ada, "one");
  await allHave([ada, bob], 2);
  await end(server);
  await startServer(["d"], { address: server.address, folder: room() }); // an empty one in its place
  bob.replica.assign([0, "k"], 1);
  await allHave([ada, bob], 3);
  for (const it of [ada, bob]) await it.synced(300);
  const eve = await opened(proxy);
  deepEqual([texts(eve), eve.replica.count], [["one"], 3]);
});

test(`${MANY} providers type 40 keys each, at once: each has every key`, async () => {
  const { proxy } = await all();
  const providers = await Promise.all(Array.from({ length: MANY }, () => opened(proxy)));
  providers[0].replica.assign([0, "t"], []);
  await allHave(providers, 1);
  proxy.clear();
  const typed = [];
  const typing = async (provider, at) => {
    for (let key = 0; key < 40; key++) {
      typed.push(`${at}-${typed.length}`);
      type(provider, typed.at(-1));
      await new Promise((resume) => setTimeout(resume, 20 * Math.random()));
    }
  };
  await Promise.all(providers.map(typing));
  await allHave(providers, typed.length + 1);
  const [first, ...others] = providers.map(texts);
  deepEqual([...first].sort(), typed.sort());
  for (const it of others) deepEqual(it, first);
  const { requests, lines } = tally(proxy);
  equal(requests.deliver, typed.length);
  ok(lines.logged <= typed.length * MANY);
});
