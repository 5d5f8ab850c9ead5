/* Notes that work offline. Each change goes into a file, and to a server whenever there is one.

   run: node examples/notes.mjs FILE [HOST:PORT]

   Reads commands from standard input: add TEXT, edit N TEXT, tick N, delete N, list, undo, redo,
   sync (waits until all is exchanged), state. The server has a document named `notes`. */

import { createInterface } from "node:readline";
import { fileStore } from "../clients/js/file_store.mjs";
import { Provider } from "../clients/js/provider.mjs";

const NOTES = [0, "notes"];
const USAGE = "usage: notes.mjs FILE [HOST:PORT]";
const [file = "", at, ...more] = process.argv.slice(2);
if (file === "--help") {
  console.log(USAGE);
  process.exit();
}
if (file === "" || file.startsWith("-") || more.length > 0) {
  console.error(USAGE);
  process.exit(2);
}
const provider = await Provider.open({ document: "notes", at, word: "notes", store: fileStore(file) })
  .catch((error) => {
    console.error(`notes: ${error.message}`);
    process.exit(1);
  });
const { replica } = provider;
provider.listen(({ what }) => {
  if (what === "problem") for (const { words } of provider.problems.values()) console.log(words);
});

const place = (number) => replica.place([...NOTES, Number(number)]);
const commands = {
  add: (text) => void replica.splice(NOTES, replica.items(NOTES).length, 0, [{ text, done: false }]),
  edit: (text) => void replica.assign([...place(text.split(" ")[0]), "text"], text.replace(/^\S+ /, "")),
  tick: (number) => void replica.assign([...place(number), "done"], true),
  delete: (number) => void replica.delete(place(number)),
  undo: () => (replica.undo() ? undefined : "nothing to undo"),
  redo: () => (replica.redo() ? undefined : "nothing to redo"),
  sync: () => provider.synced(),
  state: () => `${provider.state.word} ${provider.state.why}`.trim(),
  list: () => replica.items(NOTES).map(([id], index) => {
    const [texts, done] = ["text", "done"].map((key) => replica.values([...NOTES, id, key]));
    // Two who edited it apart: both texts stay, until somebody edits it once more.
    const text = texts.length ? texts.join("  OR  ") : "(deleted by one, ticked by another)";
    return `${index + 1} [${done.includes(true) ? "x" : " "}] ${text}`;
  }).join("\n") || undefined,
};

for await (const line of createInterface({ input: process.stdin })) {
  const [word, ...rest] = line.trim().split(" ");
  if (word === "") continue;
  try {
    if (!Object.hasOwn(commands, word)) throw new Error(`one of ${Object.keys(commands).join(", ")}`);
    const told = await commands[word](rest.join(" "));
    if (told !== undefined) console.log(told);
  } catch (error) {
    console.log(error.message);
  }
}
await provider.close().catch((error) => {
  console.error(`notes: ${error.message}`);
  process.exitCode = 1;
});
