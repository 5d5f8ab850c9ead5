/* What tests/on-disk runs for a provider's store in a file: it edits under a recorder, or reads what power cuts left.

     node tests/on-disk-store.mjs edit ADDRESS FILE WORD     prints each value once it is exchanged, or the store is closed
     node tests/on-disk-store.mjs read                       reads names of files, a line each, and prints what each store has */

import { createInterface } from "node:readline";
import { fileStore } from "../clients/js/file_store.mjs";
import { Provider } from "../clients/js/provider.mjs";

const SECONDS = 100; // for an exchange
const DOCUMENT = "d";

/** @param {string} file @param {string} [at] */
const opened = (file, at) =>
  Provider.open({ document: DOCUMENT, at, store: fileStore(file), word: "ada", isOnline: false });

/** Offline, online with an exchange for some of the edits, offline again, and closed behind the last ones.
 *  @param {string} at @param {string} file @param {string} word */
async function edit(at, file, word) {
  const provider = await opened(file, at);
  let count = 0;
  /** @type {string[]} */
  let made = [];
  const make = (/** @type {number} */ number) => {
    for (const end = count + number; count < end; count++) {
      made.push(`${word}${count}`);
      provider.replica.assign([0, made.at(-1)], made.at(-1));
    }
  };
  const told = () => {
    console.log(JSON.stringify(made));
    made = [];
  };
  make(3);
  provider.goOnline();
  for (let round = 0; round < 4; round++) {
    make(1 + round);
    await provider.synced(SECONDS);
    told();
  }
  provider.goOffline();
  make(4);
  await provider.close();
  told();
}

async function read() {
  for await (const file of createInterface({ input: process.stdin })) {
    const provider = await opened(file);
    const { name } = provider.replica;
    console.log(JSON.stringify({ name, lines: provider.replica.lines().slice(1) }));
    await provider.close();
  }
}

const [what, ...words] = process.argv.slice(2);
await (what === "edit" ? edit(words[0], words[1], words[2]) : read());
