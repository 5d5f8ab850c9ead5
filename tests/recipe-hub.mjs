/* Asks the hub of a copy of the repository for the requests that tests/recipe adds to it, as a client that may only read, and as one that
   may write. A stand-in is in the server's place: it answers what the hub needs, and these requests.

   usage: node recipe-hub.mjs TOP PYTHON [PROGRAM]
   (the copy; a Python whose PYTHONPATH has the copy's package; the copy's program, which is then in the stand-in's place) */

import { deepEqual, equal, rejects } from "node:assert/strict";
import { spawn } from "node:child_process";
import { once } from "node:events";
import { mkdtempSync, rmSync } from "node:fs";
import { createServer } from "node:net";
import { tmpdir } from "node:os";
import { join } from "node:path";
import { createInterface } from "node:readline";

const [top, python, program] = process.argv.slice(2);
const { hub: startHub } = await import(`${top}/clients/hub/index.mjs`);
const { connected } = await import(`${top}/clients/js/session.mjs`);

/** What a session of the stand-in replies. It knows which variables are bound, as a server does.
 *  @param {Set<string>} bound
 *  @param {any[]} request
 *  @returns {any[]} */
function replyOf(bound, [word, , first]) {
  switch (word) {
    case "version": return ["version", 2];
    case "open": return ["opened", 1];
    case "front": return ["front", []];
    case "quit": return ["bye"];
    case "let": return bound.add(first), ["bound"];
    case "hello": return ["welcome"];
    case "count": return ["count", 3];
    case "discard": return ["discarded"];
    case "total": return first[0] === 0 || bound.has(first[0]) ? ["total", "7"] : ["no", 8, "no-such-variable"];
    default: return ["no", 2, "bad-request"];
  }
}

/** Starts a stand-in, and resolves with its address. */
async function startStandIn() {
  const server = createServer((socket) => {
    const bound = new Set();
    socket.on("error", () => {});
    createInterface({ input: socket }).on("line", (line) => {
      const reply = replyOf(bound, JSON.parse(line));
      socket.write(`${JSON.stringify(reply)}\n`);
      if (reply[0] === "bye") socket.end();
    });
  });
  await once(server.listen(0, "127.0.0.1"), "listening");
  const { port } = /** @type {import("node:net").AddressInfo} */ (server.address());
  return `127.0.0.1:${port}`;
}

/** Starts the program, has it log what the stand-in says is logged, and resolves with its address. */
async function startProgram() {
  const room = mkdtempSync(join(tmpdir(), "recipe-"));
  const words = ["serve", "--addr", "127.0.0.1:0", "--clients", "64", "--file", join(room, "test.db"), "d"];
  const server = spawn(program, words, { stdio: ["ignore", "pipe", "inherit"] });
  process.on("exit", () => (server.kill("SIGKILL"), rmSync(room, { recursive: true })));
  const [line] = await once(createInterface({ input: server.stdout }), "line");
  const [, address] = JSON.parse(line);
  const writer = await connected(address);
  await writer.open("d");
  for (const [cursor, amount] of [[[0, "n"], 7], [[0], 7], [[0, "n"], 0]]) await writer.ask("add", "d", cursor, amount);
  writer.end();
  return address;
}

let rights = { read: true, write: false };
const server = await (program ? startProgram() : startStandIn());
const hub = await startHub({ server, lines: "127.0.0.1:0", note: () => {}, admit: () => rights });
while (!hub.health().connected) await new Promise((resume) => setImmediate(resume));

/** A client's replies to lines, after it has opened the document.
 *  @param {string[]} lines */
async function replies(...lines) {
  const client = await connected(hub.lines);
  await client.open("d");
  const found = await Promise.all(lines.map((line) => client.answer(line)));
  client.end();
  return found;
}

const NOT_ALLOWED = '["no",103,"not-allowed"]';
const lines = ['["hello"]', '["let","d","x",[0,"n"]]', '["total","d",["x"]]', '["total","d",[0]]', '["count","d"]', '["discard","d",[9,"nobody"]]', '["unlisted","d"]'];
deepEqual(await replies(...lines), [
  '["welcome"]', '["bound"]', '["total","7"]', '["total","7"]', '["count",3]', NOT_ALLOWED, NOT_ALLOWED]);

const reader = await connected(hub.lines);
await reader.open("d");
await reader.hello();
await reader.let("d", "x", [0, "n"]);
deepEqual([await reader.total("d", ["x"]), await reader.count("d")], [7, 3]);
await rejects(reader.discard("d", [9, "nobody"]), { number: 103 });
reader.end();

const asks = `import jcrdt, sys
with jcrdt.connected(sys.argv[1]) as reader:
    reader.open("d")
    reader.hello()
    reader.let("d", "x", [0, "n"])
    print(reader.total("d", ["x"]), reader.count("d"))`;
const asking = spawn(python, ["-c", asks, hub.lines], { stdio: ["ignore", "pipe", "inherit"] });
const [said] = await Promise.all([asking.stdout.toArray(), once(asking, "close")]);
equal(String(Buffer.concat(said)).trim(), "7 3");

rights = { read: true, write: true };
deepEqual(await replies('["discard","d",[9,"nobody"]]', '["unlisted","d"]'), ['["discarded"]', '["no",2,"bad-request"]']);
console.log(`at a hub before ${program ? "this program" : "a stand-in"} who may only read reads by them, and is refused the change`);
await hub.stop();
process.exit(0);
