/* What the tests of hubs with a Redis share: a real one, hubs that share documents by it, and what is
   looked at from outside. */

import { deepEqual, equal } from "node:assert/strict";
import { spawn, spawnSync } from "node:child_process";
import { mkdtempSync, readFileSync } from "node:fs";
import net from "node:net";
import { join } from "node:path";
import { fileURLToPath } from "node:url";
import { connected } from "../../js/session.mjs";
import { command, health, startNode, WAYS } from "./data_hub.mjs";
import { atEnd, HUB, lacks, missing, pause, PROGRAM, ROOM, until } from "./support.mjs";

const STOPPED = fileURLToPath(new URL("stopped_hub.mjs", import.meta.url));
export const LEASE = 2; // seconds: of most tests, which wait for its end
/** Why tests can't be run here, or false. */
export const lacking = missing || lacks("redis-server", "redis-cli");

const freePort = () => new Promise((resolve, reject) => {
  const server = net.createServer().on("error", reject).listen(0, "127.0.0.1", () => {
    const { port } = server.address();
    server.close(() => resolve(port));
  });
});

/** A Redis until the suite ends. It can be killed, and started again at its port. */
export class RedisServer {
  static async started(...words) {
    const redis = new this(await freePort(), words);
    atEnd(() => redis.kill());
    await redis.start();
    return redis;
  }

  constructor(port, words) {
    this.port = port;
    this.words = words;
    this.address = `127.0.0.1:${port}`;
    this.folder = mkdtempSync(join(ROOM, "redis-"));
  }

  /** The words by which it listens, and by which redis-cli asks it. */
  get ways() {
    return { served: ["--port", `${this.port}`], asked: ["-p", `${this.port}`] };
  }

  async start() {
    const words = [...this.ways.served, "--bind", "127.0.0.1", "--save", "", "--dir", this.folder, ...this.words];
    this.child = spawn("redis-server", words, { stdio: "ignore" });
    this.ended = new Promise((resolve) => this.child.on("close", resolve));
    await until("Redis answers", () => this.ask("PING") === "PONG");
  }

  /** Runs a command, and returns what redis-cli writes. */
  ask(...words) {
    return spawnSync("redis-cli", [...this.ways.asked, ...words], { encoding: "utf8" }).stdout.trim();
  }

  signal = (name) => this.child.kill(name);

  async kill() {
    this.child?.kill("SIGKILL");
    await this.ended;
  }
}

/** A way to a Redis that can be cut: what is sent then waits. */
export class Way {
  static async to(redis) {
    const way = new Way();
    way.server = net.createServer((socket) => {
      const other = net.connect(redis.port, "127.0.0.1");
      const pair = [socket, other];
      for (const it of pair) {
        way.sockets.add(it);
        it.on("error", () => {}).on("close", () => {
          way.sockets.delete(it);
          for (const one of pair) one.destroy();
        });
        it.on("data", (bytes) => pair[1 - pair.indexOf(it)].write(bytes));
        if (way.isCut) it.pause();
      }
    });
    await new Promise((resolve) => way.server.listen(0, "127.0.0.1", resolve));
    way.address = `127.0.0.1:${way.server.address().port}`;
    atEnd(() => {
      for (const it of way.sockets) it.destroy();
      way.server.close();
    });
    return way;
  }

  sockets = new Set();
  isCut = false;

  cut() {
    this.isCut = true;
    for (const it of this.sockets) it.pause();
  }

  mend() {
    this.isCut = false;
    for (const it of this.sockets) it.resume();
  }
}

let hubs = 0;
/** Starts a hub of a fleet, with a folder of its own unless one is given. */
export async function startFleetHub(redis, name, folder = join(ROOM, `fleet-${++hubs}`), ...options) {
  const words = [HUB, "--data", folder, "--program", PROGRAM, ...WAYS, "--redis", redis.address ?? redis,
    "--hub", name, "--lease", `${LEASE}`, ...options];
  const { child, lines } = await startNode(words, 2);
  return { child, folder, name, lines: lines[0][1], page: lines[1][1] };
}

/** The same of one that stops itself before a step of a renewal, or ends. */
export async function startStoppedHub(redis, name, folder, step, signal = "SIGSTOP") {
  const words = [STOPPED, folder, PROGRAM, "127.0.0.1:0", redis.address, name, `${LEASE}`, step, signal];
  const { child, lines } = await startNode(words, 1);
  return { child, folder, name, lines: lines[0][1] };
}

/** Founds a fleet of hubs, once all are connected. */
export async function found(...all) {
  const names = all.map(({ name }) => name).join(",");
  await until(`${names} are founded`, async () => {
    const { status } = await command(all[0].folder, "found", names);
    return status === 0;
  });
  for (const it of all) await isFounded(it);
}

export const isFounded = (hub, isIt = true) => until(`${hub.name} is ${isIt ? "" : "not "}founded`, async () =>
  (await health(hub)).fleet.founded === isIt);

/** A fleet of hubs with these names, founded. */
export async function fleetOf(redis, ...names) {
  const all = await Promise.all(names.map((name) => startFleetHub(redis, name)));
  await found(...all);
  return all;
}

export const recordOf = ({ folder }, name = "d") =>
  JSON.parse(readFileSync(join(folder, "documents", name, "record.json"), "utf8"));

/** Waits until a client sees a value at a key. */
export const sees = (client, key, value, document = "d") => until(`${key} is ${value}`, async () => {
  const values = await client.values(document, [0, key]).catch(() => []);
  return values.length === 1 && values[0] === value;
});

/** Tries a change until it is taken. It is there at most once, since it assigns. */
export async function assign(client, key, value, document = "d") {
  for (;;) {
    try {
      return await client.assign(document, [0, key], value);
    } catch (error) {
      if (error.name !== "Away" && error.name !== "Lost") throw error;
      await pause(50);
    }
  }
}

/** Clients that change a document at hubs all the time, each change at a key of its own, and notes of what
 *  was answered. */
export class Writers {
  /** What was answered: `sent` and `received` are times of this process. */
  taken = [];
  #isOn = true;
  #running;
  #count = 0;

  /** @param hubs as they are now: who restarts one replaces it there */
  constructor(hubs, document = "d", each = 2) {
    this.hubs = hubs;
    this.document = document;
    atEnd(() => void (this.#isOn = false)); // also where the test fails
    this.#running = Object.keys(hubs).flatMap((name) => Array.from({ length: each }, () => this.#write(name)));
  }

  async #write(name) {
    while (this.#isOn) {
      let client;
      try {
        client = await connected(this.hubs[name].lines, { seconds: 60, connectSeconds: 60 });
        await client.open(this.document);
        while (this.#isOn) await this.#change(client, name);
      } catch (error) {
        if (!["Away", "Lost", "Refused"].includes(error.name)) throw error;
        await pause(this.#isOn ? 50 : 0);
      } finally {
        client?.end();
      }
    }
  }

  async #change(client, name) {
    const key = `${name}-${++this.#count}`;
    const sent = performance.now();
    const [, replica] = await client.assign(this.document, [0, key], this.#count);
    this.taken.push({ key, sent, received: performance.now(), replica });
    await pause(5);
  }

  /** Waits until each of these hubs has taken some changes more. */
  async go(count = 5, names = Object.keys(this.hubs)) {
    const before = this.taken.length;
    for (const name of names) {
      await until(`${name} takes changes`, () =>
        this.taken.slice(before).filter(({ key }) => key.startsWith(`${name}-`)).length >= count);
    }
  }

  async stop() {
    this.#isOn = false;
    await Promise.all(this.#running);
  }
}

/** Lines of an export, as values. */
async function operationsOf({ folder }, document) {
  const { lines } = await command(folder, "export", document);
  return lines.map((line) => JSON.parse(line));
}

/** Looks at hubs once the writers have ended: all are in one generation and show the same, and whatever was
 *  answered is there. And no change was taken in a generation once one was taken in the next: but for a time
 *  when nobody knew of that, from `away` on until one is taken in it again. Returns how many generations
 *  there are. */
export async function checkFleet(hubs, writers, { document = "d", away = Infinity } = {}) {
  const { taken } = writers;
  const clients = await Promise.all(hubs.map(async ({ lines }) => {
    const client = await connected(lines, { seconds: 240, connectSeconds: 240 });
    atEnd(() => client.end());
    await until("it opens", () => client.open(document).then(() => true, () => false));
    return client;
  }));
  const shown = () => Promise.all(clients.map(async (client) => new Set(await client.keys(document, [0]).catch(() => []))));
  const missing = (keys) => taken.filter(({ key }) => !keys.has(key)).map(({ key }) => key);
  await until("all show the same, and what was taken", async () => {
    const [first, ...others] = await shown();
    return missing(first).length === 0 && others.every((it) => it.size === first.size && [...it].every((key) => first.has(key)));
  }, 240).catch(async (error) => {
    const all = await shown();
    throw new Error(`${error.message}: ${all.map((keys) => `${keys.size}, without ${missing(keys)}`).join("; ")}`);
  });
  const records = hubs.map((hub) => recordOf(hub, document));
  equal(new Set(records.map(({ generation }) => generation)).size, 1, JSON.stringify(records));
  // In which generation each change was taken, by who made it: a server has one of them.
  const generationOf = new Map();
  for (const [at, hub] of hubs.entries()) {
    const { generation, history } = records[at];
    for (const it of [...history.filter(({ isGone }) => !isGone).map((past) => past.generation), generation]) {
      const name = it === generation ? document : `${document}/${it}`;
      for (const [, [, replica]] of await operationsOf(hub, name)) {
        const before = generationOf.get(replica);
        if (!before || parseInt(it) < parseInt(before)) generationOf.set(replica, it);
      }
    }
  }
  const numbers = new Map(taken.map((it) => [it, parseInt(generationOf.get(it.replica))]));
  const firsts = new Map();
  for (const it of taken) {
    const number = numbers.get(it);
    firsts.set(number, Math.min(it.received, firsts.get(number) ?? Infinity));
  }
  const isOver = ({ sent }, at) => sent > at;
  const late = taken.filter((it) => {
    const next = numbers.get(it) + 1;
    if (!isOver(it, firsts.get(next) ?? Infinity)) return false;
    const again = taken.filter((other) => numbers.get(other) === next && other.sent > away);
    // A hub holds back what it has no right to take yet: what was sent before `away` may be taken later.
    return it.received < away || isOver(it, Math.min(...again.map(({ received }) => received)));
  });
  deepEqual(late.map(({ key, replica }) => [key, replica]), [], "taken in a generation that was over");
  return Math.max(...firsts.keys());
}
