/* README as it is written: its page in a browser, and its todo list by two people, also without a server.
   run: examples/tests/readme PROGRAM */

import { deepEqual, match } from "node:assert/strict";
import { spawnSync } from "node:child_process";
import { mkdirSync, readFileSync, symlinkSync, writeFileSync } from "node:fs";
import test from "node:test";
import { fileURLToPath } from "node:url";
import { webSockets } from "../../clients/js/test/chromium.mjs";
import { PROGRAM, room, start, startServer } from "../../clients/js/test/serving.mjs";

const TOP = fileURLToPath(new URL("../../", import.meta.url));
const page = readFileSync(`${TOP}README.md`, "utf8");

/** The lines of the block of JavaScript. */
const lines = /```js\n(.*?)```/s.exec(page)[1].trimEnd().split("\n");

/** A folder with the package, and the program for a server there. Returns what the program prints. */
function person(address) {
  const folder = room();
  mkdirSync(`${folder}/node_modules`, { recursive: true });
  symlinkSync(`${TOP}clients/js`, `${folder}/node_modules/jcrdt`);
  return (text, at = address) => {
    // At the server a busy machine has more than the seconds that it says.
    const seconds = at === address ? "synced(240)" : "synced(5)";
    writeFileSync(`${folder}/todo.mjs`, lines.join("\n").replace("127.0.0.1:7000", at).replace("synced(5)", seconds));
    const { stdout, stderr, status } = spawnSync(process.execPath, ["todo.mjs", text], { cwd: folder });
    deepEqual([status, stderr.toString()], [0, ""]);
    return stdout.toString();
  };
}

test("README: the page that its commands serve", { skip: !webSockets() && "the package ws isn't installed" }, async () => {
  const [serve, hub, open] = /## See it in two browsers\n.*?```text\n(.*?)```/s.exec(page)[1].trim().split("\n");
  const folder = room();
  const free = (command) => command.replace("trip.db", `${folder}/trip.db`).replace(/127\.0\.0\.1:72?\d+/g, "127.0.0.1:0").split(" ");
  const [program, ...words] = free(serve);
  deepEqual([program, PROGRAM.endsWith("jcrdt")], ["./jcrdt", true]);
  const server = await start(PROGRAM, words, 1);
  const [node, , , ...more] = free(hub);
  const { lines: [[word, address]] } = await start(node, [`${TOP}clients/hub/hub.mjs`, server.lines[0][1], ...more], 1);
  const asked = /'http:\/\/[^/]*\/(.*)'/.exec(open)[1];
  const response = await fetch(address + asked);
  deepEqual([word, response.status, response.url], ["page", 200, `${address}web/${asked}`]);
  match(await response.text(), /Two replicas of one document/);
});

test("README: the todo list has the eight lines that it says", () => {
  deepEqual([lines.length, page.includes("## A todo list in eight lines\n")], [8, true]);
});

test("README: todos of two people, one of them without a server for a while", async () => {
  const { address } = await startServer(["trip"]);
  const [ada, bob] = [person(address), person(address)];
  match(ada("buy bread"), /^\[ \{ done: false, text: 'buy bread' \} \]\n$/);
  match(ada("call mum", "127.0.0.1:1"), /^not exchanged: .*\n\[\n.*'call mum'.*\n.*'buy bread'.*\n\]\n$/);
  match(bob("pack"), /'pack'/);
  const all = ada("sleep");
  for (const text of ["buy bread", "call mum", "pack", "sleep"]) match(all, new RegExp(`'${text}'`));
});
