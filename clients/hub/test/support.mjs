/* What the tests of the hub share: the program, a hub, clients, and how they end. */

import { spawn, spawnSync } from "node:child_process";
import { existsSync, mkdtempSync, rmSync } from "node:fs";
import net from "node:net";
import { tmpdir } from "node:os";
import { join, resolve } from "node:path";
import { createInterface } from "node:readline";
import { createRequire } from "node:module";
import { after, describe } from "node:test";
import { fileURLToPath } from "node:url";
import { connected, connectedToHub } from "../../js/session.mjs";
import { atPort, inTime } from "../../js/test/chromium.mjs";
import { hub as hubOf } from "../index.mjs";

const TOP = fileURLToPath(new URL("../../../", import.meta.url));
/** The program: that of JCRDT, else the released one. */
export const PROGRAM = process.env.JCRDT ?? `${TOP}release/jcrdt`;
export const HUB = fileURLToPath(new URL("../hub.mjs", import.meta.url));
/** A folder of this test's own, which is removed at its end. */
export const ROOM = mkdtempSync(join(tmpdir(), "jcrdt-hub-test-"));

const START_SECONDS = 240; // for the first lines of a command
const PATIENCE_SECONDS = 240; // for what is to come: a busy machine takes its time
const started = new Set();
const endings = [];
process.on("exit", () => started.forEach(end));

/** Something to do when the suite has ended, also after a failure. */
export const atEnd = (work) => void endings.push(work);

/** A suite of tests that need the program and node-ws. Whatever they started ends with it: else the
 *  process would go on. */
export function suite(name, options, define) {
  describe(name, { skip: missing, timeout: 1_500_000, ...options }, () => {
    after(async () => {
      for (const work of endings.splice(0)) await work();
      for (const child of started) end(child);
      await Promise.all([...started].map((child) => child.ended));
      rmSync(ROOM, { recursive: true, force: true, maxRetries: 5 });
    });
    define();
  });
}

/** Each command has a process group of its own, which ends with all that it started. */
function end(child) {
  try {
    process.kill(-child.pid, "SIGKILL");
  } catch {} // none of them is left
}

/** Starts a command whose group ends with the test, if it hasn't ended before. What it writes to
 *  standard error is in `notes`. */
export function launch(command, words, options = {}) {
  const child = spawn(command, words, { cwd: ROOM, stdio: ["ignore", "pipe", "pipe"], detached: true, ...options });
  started.add(child);
  child.notes = "";
  child.stderr.on("data", (text) => (child.notes += text));
  child.ended = new Promise((resolve) => child.on("close", resolve).on("error", resolve));
  return child;
}

/** Starts a command, and resolves with its process and so many first lines that it writes. */
export async function start(command, words, lineCount, options) {
  const child = launch(command, words, options);
  const lines = [];
  const about = () => `${command} ${words.join(" ")}: wrote ${JSON.stringify(lines)} and ${child.notes}`;
  const first = async () => {
    for await (const line of createInterface({ input: child.stdout })) {
      if (lines.push(JSON.parse(line)) === lineCount) return;
    }
    await child.ended;
    throw new Error(`it has ended. ${about()}`);
  };
  await inTime(START_SECONDS, about, first());
  return { child, lines };
}

let files = 0;
/** Starts a server, and resolves with its process, address and file. */
export async function startServer(
  documents = ["d"], {
    address = "127.0.0.1:0", file = `${++files}.db`, sessions = 200, admission = ["--sessions", `${sessions}`], more = [], env = {},
  } = {},
) {
  const words = ["serve", "--addr", address, ...admission, "--file", file, ...more, ...documents];
  const { child, lines } = await atPort(() => start(PROGRAM, words, 1, { env: { ...process.env, ...env } }));
  return { child, address: lines[0][1], file: resolve(ROOM, file) };
}

/** Starts the hub before a server, and resolves with its process and its two addresses. */
export async function startHub(server, ...options) {
  const ways = ["--lines", "127.0.0.1:0", "--web", "127.0.0.1:0"];
  const { child, lines } = await start(process.execPath, [HUB, server, ...ways, ...options], 2);
  return { child, lines: lines[0][1], page: lines[1][1] };
}

/** Ends a process by a signal, and waits for it. */
export async function kill(child, signal = "SIGKILL") {
  child.kill(signal);
  await child.ended;
}

/** Numbers from 0 to 1 that a seed gives. */
export function randomOf(seed) {
  let state = seed;
  return () => {
    state = (Math.imul(state, 1664525) + 1013904223) >>> 0;
    return state / 2 ** 32;
  };
}

export const pause = (ms) => new Promise((resume) => setTimeout(resume, ms));

/** Waits until something holds, and returns what it is. */
export async function until(what, holds, seconds = PATIENCE_SECONDS) {
  for (const stop = Date.now() + seconds * 1000; Date.now() < stop; await pause(20)) {
    const found = await holds();
    if (found) return found;
  }
  throw new Error(`not so after ${seconds} s: ${what}`);
}

/** Fails if something isn't there in time. */
export const within = (what, promise) => inTime(PATIENCE_SECONDS, () => what, promise);

/** Waits until a hub has no server, or has one again. */
export const hasServer = ({ page }, has) => until(`the hub has ${has ? "its" : "no"} server`, async () =>
  (await (await fetch(`${page}health`)).json()).connected === has);

/** The package ws, or `undefined`. */
export function webSockets() {
  for (const place of ["ws", "/usr/share/nodejs/ws"]) {
    try {
      return createRequire(import.meta.url)(place);
    } catch {}
  }
  return undefined;
}

/** Why tests can't be run here, or false. */
export const missing = !existsSync(PROGRAM) ? `${PROGRAM} isn't there`
  : !webSockets() ? "node-ws isn't installed" : false;

const isInstalled = (program) => spawnSync("sh", ["-c", `command -v ${program}`]).status === 0;

/** Which of these programs aren't installed, as a reason to skip a test, or false. */
export function lacks(...programs) {
  const lacking = programs.filter((it) => !isInstalled(it));
  return lacking.length > 0 && `${lacking.join(", ")}: not installed`;
}

/** A hub within this process, until the suite ends. */
export async function hubWithin(options) {
  const running = await hubOf(options);
  atEnd(() => running.stop());
  return running;
}

/** A client over TCP, with these documents open. */
export async function joinLines(address, ...documents) {
  const client = await connected(address, { seconds: 240, connectSeconds: 240 });
  atEnd(() => client.end());
  for (const document of documents) await client.open(document);
  return client;
}

/** A client over WebSocket, with options of `ws`. */
export async function joinWeb(page, options, path = "lines") {
  const Browser = class extends webSockets().WebSocket {
    constructor(url) {
      super(url, options);
    }
  };
  const url = `${page.replace("http", "ws")}${path}`;
  const client = await connectedToHub(url, Browser, { seconds: 240, connectSeconds: 240 });
  atEnd(() => client.end());
  return client;
}

/** A connection over TCP that sends and reads lines as they are. */
export class Raw {
  lines = [];
  #rest = "";

  constructor(address) {
    atEnd(() => this.end());
    const [host, port] = address.split(/:(?=\d+$)/);
    this.socket = net.connect({ host, port: Number(port), allowHalfOpen: true });
    this.socket.on("error", () => {});
    this.socket.setEncoding("utf8").on("data", (text) => {
      const lines = (this.#rest + text).split("\n");
      this.#rest = lines.pop();
      this.lines.push(...lines);
    });
    this.isEnded = false;
    this.ended = new Promise((resolve) => this.socket.on("end", resolve).on("close", resolve))
      .then(() => (this.isEnded = true));
  }

  send(...lines) {
    for (const line of lines) this.socket.write(`${typeof line === "string" ? line : JSON.stringify(line)}\n`);
  }

  /** Sends a line, and returns the next one that comes. */
  async ask(line) {
    this.send(line);
    return this.next();
  }

  async next() {
    await until("a line comes", () => this.lines.length > 0 || this.isEnded);
    return this.lines.shift();
  }

  end() {
    this.socket.destroy();
  }
}
