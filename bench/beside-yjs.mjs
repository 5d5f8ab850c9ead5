/* Yjs under the lines of bench/beside-yjs: node beside-yjs.mjs run d, with the modules in NODE_PATH

   It makes the change of each line in a Y.Doc, as a transaction of its own, and writes a short reply for each. A path's maps are made
   as they are met; where a key holds a scalar, Yjs replaces it by the map. */

import { readSync, writeSync } from "node:fs";
import { createRequire } from "node:module";

const Y = createRequire(import.meta.url)("yjs");
const root = new Y.Doc().getMap("d");
const isShared = (it) => it instanceof Y.Map || it instanceof Y.Array;

/** The shared type at a path, whose missing maps are made. */
function under(path) {
  return path.reduce((at, key) => {
    const found = at.get(key);
    return isShared(found) ? found : at.set(key, new Y.Map());
  }, root);
}

function change([request, , cursor, value]) {
  const last = cursor.at(-1);
  const at = under(cursor.slice(1, -1));
  if (request === "assign") at.set(last, Array.isArray(value) ? new Y.Array() : value);
  else if (request === "insert") at.insert(last, [value]);
  else throw new Error(`no change: ${request}`);
}

const buffer = Buffer.alloc(1 << 16);
let rest = "";
for (;;) {
  const count = readSync(0, buffer);
  if (!count) break;
  const lines = (rest + buffer.toString("latin1", 0, count)).split("\n");
  rest = lines.pop();
  for (const line of lines) {
    const request = JSON.parse(line);
    if (request[0] !== "open") change(request);
  }
  writeSync(1, "[]\n".repeat(lines.length));
}
