/* What tests with a server need: the program, a hub, a folder, and their end. Isn't run by itself. */

import { spawn } from "node:child_process";
import { mkdtempSync, rmSync } from "node:fs";
import { tmpdir } from "node:os";
import { join } from "node:path";
import { createInterface } from "node:readline";
import { after } from "node:test";
import { fileURLToPath } from "node:url";
import { atPort, inTime } from "./chromium.mjs";

const TOP = new URL("../../../", import.meta.url);
export const PROGRAM = process.env.JCRDT ?? fileURLToPath(new URL("release/jcrdt", TOP));
const HUB = fileURLToPath(new URL("clients/hub/hub.mjs", TOP));
const START_SECONDS = 240; // for the first lines of a command
const started = new Set();
const rooms = new Set();

// What still runs behind the last test would keep this process alive.
after(() => started.forEach(kill));
process.on("exit", () => {
  started.forEach(kill);
  for (const room of rooms) rmSync(room, { recursive: true, force: true, maxRetries: 10, retryDelay: 200 });
});

for (const signal of ["SIGTERM", "SIGINT"]) process.on(signal, () => process.exit(1)); // ends them

function kill(child) {
  try {
    process.kill(-child.pid, "SIGKILL");
  } catch {
    return; // none of its group is left
  }
}

/** An empty folder, until the test ends. */
export function room(within = tmpdir()) {
  const made = mkdtempSync(join(within, "jcrdt-js-"));
  rooms.add(made);
  return made;
}

/** Starts a command, and resolves with its process and so many lines of JSON that it writes. */
export async function start(command, words, lineCount) {
  const child = spawn(command, words, { stdio: ["ignore", "pipe", "pipe"], detached: true });
  started.add(child);
  child.ended = new Promise((end) => child.on("exit", end));
  const closed = new Promise((end) => child.on("close", end));
  let errors = "";
  child.stderr.on("data", (text) => (errors += text));
  const lines = [];
  const about = () => `${command} ${words.join(" ")}: wrote ${JSON.stringify(lines)} and ${errors}`;
  const first = async () => {
    for await (const line of createInterface({ input: child.stdout })) {
      if (lines.push(JSON.parse(line)) === lineCount) return;
    }
    await closed;
    throw new Error(`it has ended. ${about()}`);
  };
  await inTime(START_SECONDS, about, first());
  return { child, lines, errors: () => errors };
}

/** Ends a process that a test started, as a crash does. */
export async function end({ child }) {
  kill(child);
  await child.ended;
}

/** Starts a server of these documents at a port of its own, or at an address, with more options. */
export async function startServer(documents, { folder = room(), address = "127.0.0.1:0", more = [] } = {}) {
  const file = join(folder, "test.db");
  const words = ["serve", "--addr", address, "--sessions", "256", "--file", file, ...more, ...documents];
  const { child, lines } = await atPort(() => start(PROGRAM, words, 1));
  return { child, address: lines[0][1], folder };
}

/** Starts a hub before a server, and resolves with its process, its addresses and its page. */
export async function startHub(server, { web = "127.0.0.1:0", more = [] } = {}) {
  const words = [HUB, server, "--web", web, "--sessions", "3", ...more];
  const { child, lines, errors } = await atPort(() => start(process.execPath, words, 1));
  const page = lines[0][1];
  return { child, page, lines: `${page.replace("http", "ws")}lines`, web: new URL(page).host, errors };
}
