/* A part of file_store.test.mjs: notes on a disk of 32 KB, which is full for a moment.
   run: node full_disk.mjs FOLDER    (writes what it saw as JSON) */

import { readFileSync, rmSync, statfsSync, writeFileSync } from "node:fs";
import { Provider } from "../../provider.mjs";
import { fileStore } from "../../file_store.mjs";

const [folder] = process.argv.slice(2);
const [file, filler] = [`${folder}/notes`, `${folder}/filler`];
const provider = await Provider.open({ document: "notes", store: fileStore(file) });
const { replica } = provider;
const seen = { done: [], refused: [], problems: [] };

function add(text) {
  try {
    replica.assign([0, text], text);
    seen.done.push(text);
  } catch (error) {
    seen.refused.push(error.name);
  }
  const problem = provider.problems.get("store");
  if (problem) seen.problems.push(problem.words);
}

add("first");
const { bfree, bsize } = statfsSync(folder);
writeFileSync(filler, "x".repeat(bfree * bsize)); // the page of the file has some room yet
for (let number = 0; number < 60; number++) add(`note ${number} while it gets full`);
rmSync(filler);
for (let number = 0; number < 3; number++) add(`note ${number} with room again`);
seen.isSolved = !provider.problems.has("store");
await provider.close();
seen.lines = readFileSync(file, "utf8").split("\n").slice(0, -1).map((line) => JSON.parse(line)[0]);

const again = await Provider.open({ document: "notes", store: fileStore(file) });
seen.keys = again.replica.keys([0]);
seen.unread = again.problems.size;
await again.close();
console.log(JSON.stringify(seen));
