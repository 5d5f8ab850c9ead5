/* The recipes of docs/GUIDE.md, run as they are in the page: what each line says that it writes. */

import { deepEqual, equal, ok } from "node:assert/strict";
import { spawnSync } from "node:child_process";
import { mkdirSync, readFileSync, symlinkSync, writeFileSync } from "node:fs";
import { test } from "node:test";
import { fileURLToPath } from "node:url";
import { room, startServer } from "./serving.mjs";

const PACKAGE = fileURLToPath(new URL("..", import.meta.url));
const page = readFileSync(new URL("../../../docs/GUIDE.md", import.meta.url), "utf8");
const blocks = [...page.matchAll(/^```js\n([^]*?)^```$/gm)].map(([, text]) => text);

/** A folder in which the package is installed. */
function installed() {
  const folder = room();
  mkdirSync(`${folder}/node_modules`);
  symlinkSync(PACKAGE, `${folder}/node_modules/jcrdt`);
  return folder;
}

/** What a program writes. */
function outputOf(text, ...words) {
  const folder = installed();
  writeFileSync(`${folder}/program.mjs`, text);
  const { status, stdout, stderr } = spawnSync(process.execPath, ["program.mjs", ...words],
    { cwd: folder, encoding: "utf8", timeout: 240_000 });
  equal(status, 0, stderr);
  return stdout.split("\n").slice(0, -1);
}

test("a todo list with an order, moves, and what survives a delete", { timeout: 900_000 }, async () => {
  const text = blocks.find((it) => it.includes("function between(")) ?? "";
  const said = [...text.matchAll(/^console\.log\(.*\); \/\/ (.*)$/gm)].map(([, it]) => it);
  ok(said.length > 3, "the recipe says what it writes");
  const { address } = await startServer(["board"]);
  deepEqual(outputOf(text, address), said);
});

test("ranks: each is between its neighbours, also of those that are next to each other", () => {
  const [, between] = /^(function between\([^]*?^})$/m.exec(page) ?? [];
  const tried = `${between}
    const ranks = ["", ""];
    for (let count = 0, at = 0; count < 3000; count++) {
      at = (at * 7919 + count) % (ranks.length - 1);
      const rank = between(ranks[at], ranks[at + 1]);
      const [low, high] = [ranks[at], ranks[at + 1]];
      if (!(rank > low && (rank < high || at + 1 === ranks.length - 1))) console.log(low, rank, high);
      if (rank.endsWith("a")) console.log("nothing is before", rank);
      ranks.splice(at + 1, 0, rank);
    }
    let low = "";
    for (let count = 0; count < 200; count++) low = between(low, "b"); // always at one end
    let high = "b";
    for (let count = 0; count < 200; count++) high = between("", high);
    console.log(low < "b" && high > "");
    console.log(between("m", "m") > "m"); // of two who inserted at once
  `;
  deepEqual(outputOf(tried), ["true", "true"]);
});
