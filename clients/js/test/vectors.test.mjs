/* The worked rows, as vectors: over each engine those of one document, and over a server all. */

import { deepEqual, equal, ok } from "node:assert/strict";
import { spawnSync } from "node:child_process";
import { readFileSync, readdirSync } from "node:fs";
import { test } from "node:test";
import { fileURLToPath } from "node:url";
import { engines } from "./engines.mjs";
import { Session } from "./random_sessions.mjs";
import { answered } from "./support.mjs";

const FOLDER = new URL("../../vectors/", import.meta.url);

/** @typedef {{name: string, arguments: string[], requests: string[], replies: string[]}} Vector */

/** @type {Vector[]} */
const vectors = readdirSync(FOLDER).filter((name) => name.endsWith(".json"))
  .map((name) => JSON.parse(readFileSync(new URL(name, FOLDER), "utf8")));

/** What only sessions have: an end by a line too long, and documents that aren't open. Chains of replicas
 *  are in tests/agreement. */
const OF_SESSIONS = /^(chains|longest_line-(ends|too_long)|request_refusals-no_open)$/;

test("the vectors are those of the rows", () => {
  const { stdout, status } = spawnSync("python3", [fileURLToPath(new URL("make", FOLDER)), "--check"]);
  equal(status, 0, String(stdout));
});

test("the program answers as they say", () => {
  for (const { name, arguments: words, requests, replies } of vectors.slice(0, 12)) {
    deepEqual(answered(words, requests), replies, name);
  }
});

for (const [title, engine] of engines) {
  test(`${title}: answers as the vectors say`, () => {
    let count = 0;
    for (const { name, arguments: words, requests, replies } of vectors) {
      if (OF_SESSIONS.test(name)) continue;
      const replica = words[1] === "--name" ? words[2] : "srv";
      const session = new Session(`${replica}-1`, words[words.length - 1], engine);
      const found = requests.slice(0, replies.length).map((line) => session.answer(line));
      deepEqual(found, replies, name);
      count++;
    }
    ok(count > 60, `${count} vectors`);
  });
}
