/* A board of cards by the recipes of GUIDE: each card has a title, a rank and votes. A move assigns a rank, and `undo` takes back
   the last step. It reads commands, a line of JSON each, and answers each by a line: how the card is now.

     node tests/page-programs-board.mjs CLONE FILE ADDRESS

     ["add",TITLE,RANK]  ["move",TITLE,RANK]  ["vote",TITLE]  ["delete",TITLE]  ["undo",TITLE]  ["show"]  ["synced"] */

import { createInterface } from "node:readline";

const [clone, file, at] = process.argv.slice(2);
const { fileStore } = await import(`${clone}/clients/js/file_store.mjs`);
const { Provider } = await import(`${clone}/clients/js/provider.mjs`);
const CARDS = [0, "cards"];
const SECONDS = 200; // for an exchange: a busy machine takes its time

const provider = await Provider.open({ document: "board", at, store: fileStore(file), word: "board" });
const { replica } = provider;
const placeOf = (id) => [...CARDS, id];
const last = (values) => values.at(-1) ?? null;

/** The cards by their ranks, and then by their ids: title, rank and votes. */
function cards() {
  const all = replica.items(CARDS).map(([id]) => ({
    id, title: last(replica.values([...placeOf(id), "title"])), rank: last(replica.values([...placeOf(id), "rank"])),
    votes: Number(replica.sum([...placeOf(id), "votes"]) ?? 0),
  }));
  return all.sort((one, other) => (one.rank === other.rank ? 0 : one.rank < other.rank ? -1 : 1));
}

const found = (title) => cards().filter((it) => it.title === title);
const place = (title) => placeOf(found(title)[0].id);

const commands = {
  add: (title, rank) => replica.splice(CARDS, replica.items(CARDS).length, 0, [{ title, rank }]),
  move: (title, rank) => replica.assign([...place(title), "rank"], rank),
  vote: (title) => replica.add([...place(title), "votes"], 1),
  delete: (title) => replica.delete(place(title)),
  undo: () => {
    if (!replica.undo()) throw new Error("no step to undo: another had the name of this replica");
  },
  show: () => {},
  synced: () => provider.synced(SECONDS),
};

console.log(JSON.stringify("open"));
for await (const line of createInterface({ input: process.stdin })) {
  const [word, ...rest] = JSON.parse(line);
  try {
    await commands[word](...rest);
    const isStored = provider.isStored;
    const shown = word === "show" ? cards().map(({ title, rank, votes }) => [title, rank, votes])
      : found(rest[0]).map(({ rank }) => rank);
    console.log(JSON.stringify({ isStored, shown }));
  } catch (error) {
    console.log(JSON.stringify({ isStored: false, error: String(error) }));
  }
}
await provider.close().catch((error) => console.error(error.message));
process.exit();
