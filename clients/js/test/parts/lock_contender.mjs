/* A program that opens and closes a store's file again and again, for so many seconds. Every other
   time it leaves its lock behind, as a process that was killed does. It says how often it had the
   file, or "two" where another had it at the same time. */

import { closeSync, openSync, renameSync, rmSync, writeFileSync } from "node:fs";
import { hostname } from "node:os";
import { fileStore } from "../../file_store.mjs";

const [file, seconds] = [process.argv[2], Number(process.argv[3])];
const gone = JSON.stringify({ process: 2 ** 22 + 1, since: "1", host: hostname(), number: 0 });
let count = 0;

/** Has the file for a moment, and sees whether it is alone. */
function have() {
  try {
    closeSync(openSync(`${file}.inside`, "wx"));
  } catch {
    console.log("two");
    process.exit(1);
  }
  rmSync(`${file}.inside`);
}

for (const end = Date.now() + seconds * 1000; Date.now() < end; ) {
  const store = fileStore(file);
  try {
    store.open("notes", () => "ada");
  } catch (error) {
    if (error.name === "Busy") continue;
    console.log(error.stack);
    process.exit(1);
  }
  have();
  if (++count % 2 === 1) {
    writeFileSync(`${file}.left-${process.pid}`, gone);
    renameSync(`${file}.left-${process.pid}`, `${file}.lock`);
  }
  store.close();
}
console.log(count);
