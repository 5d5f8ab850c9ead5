/* What the tests share: the program, and an end for what they start. */

import { spawn, spawnSync } from "node:child_process";
import { existsSync, mkdtempSync, rmSync } from "node:fs";
import { createRequire } from "node:module";
import { tmpdir } from "node:os";
import { join } from "node:path";
import { createInterface } from "node:readline";
import { fileURLToPath } from "node:url";

const RELEASE = fileURLToPath(new URL("../../../release/jcrdt", import.meta.url));

/** The program: `JCRDT`, that of this repository, or one in PATH. */
export const program = process.env.JCRDT ?? (existsSync(RELEASE) ? RELEASE : "jcrdt");

/** A folder that goes with the test. */
export const folder = mkdtempSync(join(tmpdir(), "jcrdt-js-"));

const started = new Set();
process.on("exit", () => {
  for (const child of started) child.kill("SIGKILL");
  rmSync(folder, { recursive: true, force: true });
});

/** Why a test of some ten seconds of a processor is left out by `tests/clients --short`, if it is. */
export const tooLong = process.env.JCRDT_SHORT ? "it takes long, and ./test runs it" : false;

const START_SECONDS = 240; // for the line that says where it listens
let files = 0;

/** Starts a server of these documents, and resolves with its process and address.
 *  @param {string[]} documents
 *  @param {{address?: string, file?: string, sessions?: number, name?: string, more?: string[]}} [options]
 *    `more` stands in place of the number of sessions. */
export async function startServer(documents, options = {}) {
  const { address = "127.0.0.1:0", file = join(folder, `${files++}.db`), sessions = 200, name = "srv" } = options;
  const { more = ["--sessions", String(sessions)] } = options;
  const words = ["serve", "--addr", address, ...more, "--file", file, "--name", name];
  const child = spawn(program, [...words, ...documents], { stdio: ["ignore", "pipe", "pipe"] });
  started.add(child);
  const ended = new Promise((end) => child.on("exit", end));
  let errors = "";
  child.stderr.on("data", (text) => (errors += text));
  const late = setTimeout(() => child.kill("SIGKILL"), START_SECONDS * 1000);
  for await (const line of createInterface({ input: child.stdout })) {
    clearTimeout(late);
    // A test ends though its servers are still there: they are killed then.
    for (const it of [child, child.stdout, child.stderr]) /** @type {any} */ (it).unref();
    return { child, file, ended, address: /** @type {string} */ (JSON.parse(line)[1]) };
  }
  throw new Error(`${program} ${words.join(" ")} has ended, or didn't listen in ${START_SECONDS} s: ${errors}`);
}

/** What `run` answers to lines: an array of lines.
 *  @param {string[]} words
 *  @param {string[]} lines */
export function answered(words, lines) {
  const input = `${lines.join("\n")}\n`;
  const { stdout, stderr } = spawnSync(program, words, { input, maxBuffer: 2 ** 30, timeout: 600_000 });
  const replies = String(stdout).split("\n");
  if (replies.pop() !== "") throw new Error(String(stderr));
  return replies;
}

/** @param {number} ms */
export const pause = (ms) => new Promise((resume) => setTimeout(resume, ms));

/** Waits until something holds.
 *  @param {string} what
 *  @param {() => any} holds
 *  @param {number} [seconds] */
export async function until(what, holds, seconds = 240) {
  for (const end = Date.now() + seconds * 1000; Date.now() < end; await pause(20)) {
    if (await holds()) return;
  }
  throw new Error(`not so after ${seconds} s: ${what}`);
}

/** The package ws, or `undefined`. */
export function webSockets() {
  for (const name of ["ws", "/usr/share/nodejs/ws"]) {
    try {
      return createRequire(import.meta.url)(name);
    } catch {}
  }
  return undefined;
}

/** The processor time of some work, in ms.
 *  @param {() => any} work */
export async function cpuOf(work) {
  const from = process.cpuUsage();
  await work();
  const { user, system } = process.cpuUsage(from);
  return (user + system) / 1000;
}

/** Processor time for a fixed piece of work, as a multiple of what an idle machine takes: other
 *  programs that share a core slow it down. */
export function slowness() {
  const from = process.cpuUsage().user;
  let sum = 0;
  for (let at = 0; at < 3e7; at++) sum = (sum * 31 + at) | 0;
  return Math.max(1, (process.cpuUsage().user - from) / 1000 / 60 + (sum === 1 ? 1 : 0));
}
