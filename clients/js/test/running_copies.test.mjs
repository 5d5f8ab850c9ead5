/* Copies of a store that are made while a program goes on with it, as by a backup: all go online. A copy of a file
   goes on under a name of its own, also one of an older package, which doesn't say which file it is. That of a machine
   that was cloned keeps the name, and says that it may be a copy. */

import { deepEqual, equal } from "node:assert/strict";
import { readFileSync, writeFileSync } from "node:fs";
import { connect, createServer } from "node:net";
import { quickClock } from "./clock.mjs";
import { dice } from "./random.mjs";
import { opened, test } from "./providing.mjs";
import { room, startServer } from "./serving.mjs";
import { fileStore } from "../file_store.mjs";

/** @typedef {object} Program A program over a store.
 *  @property {string} file
 *  @property {string} at
 *  @property {string} document
 *  @property {keyof typeof KINDS} kind What its copies are.
 *  @property {import("../clock.mjs").Clock} [clock]
 *  @property {import("../provider.mjs").Provider} provider */

const WAIT = 1200; // seconds, of a quick clock, too
/** By it a program waits little for what a copy may send: up to five seconds. */
const clock = quickClock(4);

/** What copies are, as a test says it. */
const KINDS = { known: "", old: ", of an older package", cloned: ", of a cloned machine" };

/** A test of copies as they are, and of those that don't show that they are copies.
 *  @param {string} name
 *  @param {(kind: keyof typeof KINDS) => Promise<void>} work
 *  @param {keyof typeof KINDS} [other] What these are.
 *  @param {string} [named] The name of their test. */
function both(name, work, other = "cloned", named = `${name}${KINDS[other]}`) {
  test(name, () => work("known"));
  test(named, () => work(other));
}

/** Copies a file.
 *  @param {string} file
 *  @param {string} to
 *  @param {keyof typeof KINDS} [kind] One of an older package doesn't say which file it is. That of a cloned machine has
 *    the same number as the original. */
function copyStore(file, to, kind = "known") {
  let text = readFileSync(file, "utf8");
  if (kind === "old") text = text.replace(/^(\["session","[^"]*"),"[^"]*"\]$/gm, "$1]");
  if (kind === "cloned") text = text.replace(/"file-[^"]*"/g, placeOf(to));
  writeFileSync(to, text);
}

/** Which file it is, as a store in it says.
 *  @param {string} file that is made */
function placeOf(file) {
  const store = fileStore(file);
  store.open("d", () => "me");
  store.close();
  return /"file-[^"]*"/.exec(readFileSync(file, "utf8"))[0];
}

/** @param {string} file
 *  @param {string} at
 *  @param {string} [document]
 *  @param {keyof typeof KINDS} [kind]
 *  @param {import("../clock.mjs").Clock} [clock]
 *  @returns {Promise<Program>} */
async function storeOf(file, at, document = "d", kind = "known", clock = undefined) {
  const options = { document, store: fileStore(file), isOnline: false, word: "me", clock };
  return { file, at, document, kind, clock, provider: await opened(at, options) };
}

/** A program over a copy of a store.
 *  @param {Program} it
 *  @param {string} word */
function copied({ file, at, document, kind, clock }, word) {
  copyStore(file, `${file}-${word}`, kind);
  return storeOf(`${file}-${word}`, at, document, kind, clock);
}

/** Starts a program again that is closed.
 *  @param {Program} it */
async function anew({ file, at, document, kind, clock, provider }) {
  await provider.close();
  return storeOf(file, at, document, kind, clock);
}

/** Starts a program again behind a kill: what its store has then goes on alone.
 *  @param {Program} it */
async function killed(it) {
  const again = await copied(it, "killed");
  await it.provider.close();
  return again;
}

/** Appends a text to the list, and adds a vote: two edits.
 *  @param {Program} it
 *  @param {string} text */
function edit({ provider: { replica } }, text) {
  replica.splice([0, "list"], replica.items([0, "list"]).length, 0, [text]);
  replica.add([0, "votes"], 1);
}

const online = async (all) => {
  for (const { provider } of all) provider.goOnline();
  await Promise.all(all.map(({ provider }) => provider.synced(WAIT)));
};

const listed = ({ provider: { replica } }) => replica.items([0, "list"]).map(([, [text]]) => text).sort();

const vote = ({ provider: { replica } }, count) => {
  for (let number = 0; number < count; number++) replica.add([0, "votes"], 1);
};

/** Until all have what the others have. */
async function settled(all) {
  await online(all);
  for (let turn = 0; turn < 2; turn++) await Promise.all(all.map(({ provider }) => provider.synced(WAIT)));
}

/** Whether each edit is everywhere exactly once, also where it is opened anew.
 *  @param {Program[]} all
 *  @param {string[]} texts
 *  @param {string} words */
async function check(all, texts, words) {
  await settled(all);
  for (const it of all) {
    deepEqual(listed(it), [...texts].sort(), words);
    equal(it.provider.replica.sum([0, "votes"]), texts.length, words);
  }
}

/** A program whose first edit a server has.
 *  @param {string} file
 *  @param {string} at
 *  @param {string} [document]
 *  @param {keyof typeof KINDS} [kind]
 *  @param {import("../clock.mjs").Clock} [clock] */
async function begun(file, at, document, kind, clock) {
  const it = await storeOf(file, at, document, kind, clock);
  it.provider.replica.assign([0, "list"], []);
  edit(it, "base");
  await online([it]);
  it.provider.goOffline();
  return it;
}

both("a store copied while it is edited: whoever is online first, each edit is there once", async (kind) => {
  // Where the program was opened anew, the server has logged nothing of it since.
  const ways = ["original", "copy", "both"].flatMap((way) =>
    [[true, true], [true, false], [false, true], [false, false]].map(([isEdited, isAnew]) => ({ way, isEdited, isAnew })));
  const documents = ways.map(({ way, isEdited, isAnew }) => `${way}-${isEdited ? "edited" : "read"}-${isAnew ? "anew" : "first"}`);
  const { address } = await startServer(documents);
  for (const [at, { way, isEdited, isAnew }] of ways.entries()) {
    const folder = room();
    let me = await begun(`${folder}/store`, address, documents[at], kind);
    if (isAnew) me = await anew(me);
    edit(me, "before 1");
    edit(me, "before 2");
    const copy = await copied(me, "copy");
    edit(me, "original 1");
    const texts = ["base", "before 1", "before 2", "original 1"];
    if (isEdited) for (const text of ["copy 1", "copy 2"]) {
      edit(copy, text);
      texts.push(text);
    }
    if (way === "original") await online([me]);
    if (way === "copy") await online([copy]);
    await online([me, copy]);
    await check([me, copy], texts, documents[at]);
  }
}, "cloned", "a store copied while it is edited: whoever is online first, each edit is there once, of a cloned machine");

test("a store that is read alone goes on under its name, also behind a kill", async () => {
  const { address } = await startServer(["d"]);
  const me = await begun(`${room()}/store`, address, "d");
  const { name } = me.provider.replica;
  edit(me, "stored");
  const again = await anew(me);
  equal(again.provider.replica.name, name);
});

both("random copies of running stores, all online in any order: each edit is there once", async (kind) => {
  const usual = kind === "old" && !process.env.JCRDT_SLOW ? 4 : 12;
  const rounds = Number(process.env.ROUNDS ?? usual);
  const first = Number(process.env.SEED ?? 1);
  for (let seed = first; seed < first + rounds; seed++) await round(seed, kind);
}, "old");

/** @param {number} seed
 *  @param {keyof typeof KINDS} kind */
async function round(seed, kind) {
  const { below, chance, pick } = dice(seed);
  const { address, child } = await startServer(["d"]);
  const folder = room();
  const all = [await begun(`${folder}/0`, address, "d", kind)];
  const [texts, titles] = [["base"], []];
  const copy = async (it) => {
    if (all.length < 6) all.push(await copied(it, String(all.length)));
  };
  for (let step = 0; step < 40; step++) {
    const it = pick(all);
    const { replica } = it.provider;
    const turns = [
      ...Array(4).fill(() => {
        texts.push(`${seed} ${step}`);
        edit(it, `${seed} ${step}`);
      }),
      async () => { // a card, of which a copy may have the beginning alone
        if (!replica.keys([0]).includes("cards")) replica.put([0, "cards"], []);
        replica.insert([0, "cards", 0], {});
        const card = replica.place([0, "cards", 1]);
        if (chance(0.3)) await copy(it);
        titles.push(`${seed} ${step}`);
        replica.assign([...card, "title"], `${seed} ${step}`);
      },
      () => copy(it),
      () => it.provider.goOnline(),
      () => it.provider.goOffline(),
      async () => { all[all.indexOf(it)] = await anew(it); },
      () => online(all.filter(() => chance(0.4))),
    ];
    await turns[below(turns.length)]();
  }
  await check(all, texts, `seed ${seed}`);
  for (const { provider: { replica } } of all) {
    const cards = titles.length > 0 ? replica.plain([0, "cards"]) : [];
    deepEqual(cards.flatMap(({ title = [] }) => title).sort(), titles.sort(), `cards, seed ${seed}`);
  }
  for (const { provider } of all) await provider.close();
  child.kill();
}

both("votes alike in the original and in copies, made while it was open, closed, or one each: each counts", async (kind) => {
  const ways = ["open", "closed", "one each"].flatMap((how) => [0, 1, 2].map((first) => ({ how, first })));
  const documents = ways.map((_, at) => `d${at}`);
  const { address } = await startServer(documents);
  await Promise.all(ways.map(async ({ how, first }, at) => {
    let me = await begun(`${room()}/store`, address, documents[at], kind, clock);
    vote(me, 2);
    const copies = { open: [], closed: ["one", "two"], "one each": ["one"] }[how];
    if (copies.length > 0) await me.provider.close();
    for (const word of copies) copyStore(me.file, `${me.file}-${word}`, kind);
    if (copies.length > 0) me = await storeOf(me.file, address, documents[at], kind, clock);
    vote(me, 1);
    const others = ["one", "two"].map((word) => (copies.includes(word)
      ? storeOf(`${me.file}-${word}`, address, documents[at], kind, clock) : copied(me, word)));
    const all = [me, ...await Promise.all(others)];
    for (const it of all) vote(it, 3);
    await online([all[first]]);
    await settled(all);
    for (const it of all) equal(it.provider.replica.sum([0, "votes"]), 1 + 2 + 1 + 3 * 3, `${how} ${first}`);
  }));
}, "cloned", "votes alike in the original and in copies, made while it was open, closed, or one each: each counts, of a cloned machine");

both("a copy of what the server has says where it begins, too: votes alike count", async (kind) => {
  const ways = [true, false].flatMap((isSynced) => ["original", "copy", "both"].map((first) => ({ isSynced, first })));
  const documents = ways.map((_, at) => `d${at}`);
  const { address } = await startServer(documents);
  await Promise.all(ways.map(async ({ isSynced, first }, at) => {
    const me = await begun(`${room()}/store`, address, documents[at], kind, clock);
    const copy = await copied(me, "copy");
    if (isSynced) await online([copy]);
    copy.provider.goOffline();
    for (const it of [me, copy]) vote(it, 1);
    if (first !== "both") await online([first === "copy" ? copy : me]);
    await settled([me, copy]);
    for (const it of [me, copy]) equal(it.provider.replica.sum([0, "votes"]), 3, `${isSynced} ${first}`);
  }));
});

both("a card that was begun when the copy was made is one", async (kind) => {
  const ways = ["original", "copy", "both"].flatMap((first) => [true, false].map((isAnew) => ({ first, isAnew })));
  const documents = ways.map((_, at) => `d${at}`);
  const { address } = await startServer(documents);
  for (const [at, { first, isAnew }] of ways.entries()) {
    let me = await begun(`${room()}/store`, address, documents[at], kind);
    me.provider.replica.insert([0, "list", 0], {});
    let copy = await copied(me, "copy");
    me.provider.replica.assign([0, "list", 1, "title"], "original's");
    copy.provider.replica.assign([0, "list", 1, "text"], "copy's");
    if (isAnew) [me, copy] = [await anew(me), await anew(copy)];
    if (first !== "both") await online([first === "copy" ? copy : me]);
    await settled([me, copy]);
    for (const { provider: { replica } } of [me, copy]) {
      deepEqual(replica.plain([0, "list"]), [{ title: "original's", text: "copy's" }, "base"], `${first} ${isAnew}`);
    }
  }
});

both("cards that were begun alike behind a closed store are two", async (kind) => {
  const { address } = await startServer(["closed", "killed"]);
  await Promise.all(["closed", "killed"].map(async (how) => {
    const me = await begun(`${room()}/store`, address, how, kind, clock);
    await me.provider.close();
    copyStore(me.file, `${me.file}-copy`, kind);
    const all = [];
    for (const [at, file] of [me.file, `${me.file}-copy`].entries()) {
      const it = await storeOf(file, address, how, kind, clock);
      it.provider.replica.insert([0, "list", 0], {});
      it.provider.replica.assign([0, "list", 1, "title"], `card ${at}`);
      all.push(await (how === "closed" ? anew : killed)(it));
      vote(all[at], 1);
    }
    await online([all[0]]);
    await settled(all);
    for (const { provider: { replica } } of all) {
      const titles = replica.plain([0, "list"]).filter((it) => it !== "base").map(({ title }) => title);
      deepEqual([titles.sort(), replica.sum([0, "votes"])], [["card 0", "card 1"], 3], how);
    }
  }));
});

/** A way to a server that holds what a program sends from a delivery on, until it is opened or closed. */
class Gate {
  /** Resolves once something is held. */
  isHolding = new Promise((resolve) => (this.hold = resolve));
  #isOpen = new Promise((resolve) => (this.open = resolve));
  #sockets = new Set();
  #left;

  /** @param {string} at
   *  @param {number} count How many deliveries pass. */
  constructor(at, count) {
    this.#left = count;
    this.server = createServer((near) => this.#join(near, at.split(":")));
  }

  async listen() {
    await new Promise((resolve) => this.server.listen(0, "127.0.0.1", resolve));
    return `127.0.0.1:${this.server.address().port}`;
  }

  close() {
    this.server.close();
    for (const socket of this.#sockets) socket.destroy();
  }

  #join(near, [host, port]) {
    const far = connect(Number(port), host);
    this.#sockets.add(near);
    let [rest, sent] = ["", Promise.resolve()];
    near.setEncoding("utf8").on("data", (text) => {
      const lines = (rest + text).split("\n");
      rest = lines.pop();
      for (const line of lines) sent = sent.then(() => this.#pass(line, far));
    });
    far.pipe(near);
    for (const [one, other] of [[near, far], [far, near]]) one.on("error", () => {}).on("close", () => other.destroy());
  }

  async #pass(line, far) {
    if (line.startsWith('["deliver"') && this.#left-- <= 0) {
      this.hold();
      await this.#isOpen;
    }
    far.write(`${line}\n`);
  }
}

const EDITS = 80; // of two operations: more than two pages

both("a store copied while its program sends what it has, in pages: each edit is there once", async (kind) => {
  const ways = [1, 40, 65, 130].flatMap((count) => ["copy", "original", "both", "killed"].map((how) => ({ count, how })));
  const documents = ways.map((_, at) => `d${at}`);
  const { address } = await startServer(documents);
  for (const [at, { count, how }] of ways.entries()) {
    const file = `${room()}/store`;
    await (await begun(file, address, documents[at])).provider.close();
    const gate = new Gate(address, count);
    let me = await storeOf(file, await gate.listen(), documents[at], kind);
    const texts = ["base", ...Array.from({ length: EDITS }, (_, number) => `before ${number}`)];
    for (const text of texts.slice(1)) edit(me, text);
    me.provider.goOnline();
    await gate.isHolding;
    const copy = await copied({ ...me, at: address }, "copy");
    for (const [it, word] of [[me, "original"], [copy, "copy"]]) {
      edit(it, word);
      texts.push(word);
    }
    if (how === "copy") await online([copy]);
    if (how === "killed") me = await killed({ ...me, at: address });
    gate.open();
    if (how === "original") await online([me]);
    await check([me, copy], texts, `${how} behind ${count}`);
    gate.close();
  }
});

const BEFORE = { known: "has sent something before", new: "has a new name", anew: "was opened anew",
  edited: "was edited since it was opened anew", both: "was edited since, and the copy was opened anew, too" };

for (const [how, before] of Object.entries(BEFORE)) {
  both(`a copy is killed while it sends, the program ${before}: what came of it is its own`, async (kind) => {
    const documents = Array.from({ length: 9 }, (_, count) => `d${count}`);
    const { address } = await startServer(documents);
    for (const [count, document] of documents.entries()) {
      const file = `${room()}/store`;
      let me = await (how === "new" ? storeOf : begun)(file, address, document, kind, clock);
      if (how === "new") me.provider.replica.assign([0, "list"], []);
      for (const text of how === "new" ? ["base", "one", "two"] : ["one", "two"]) edit(me, text);
      if (how === "anew") me = await anew(me);
      const isEdited = ["edited", "both"].includes(how);
      if (isEdited) me = await anew(me);
      if (isEdited) edit(me, "three");
      const { name } = me.provider.replica;
      const gate = new Gate(address, count);
      let copy = await copied({ ...me, at: await gate.listen() }, "copy");
      edit(copy, "copy");
      edit(me, "original");
      if (how === "both") copy = await anew(copy); // its file has what it says of itself behind what it has
      copy.provider.goOnline();
      await Promise.race([gate.isHolding, copy.provider.synced(WAIT)]);
      const again = await killed({ ...copy, at: address });
      gate.close();
      await online([me]);
      const texts = ["base", "one", "two", ...(isEdited ? ["three"] : []), "copy", "original"];
      await check([me, again], texts, `behind ${count}`);
      equal(me.provider.replica.name, name, `behind ${count}`);
    }
  }, "old");
}

test("votes alike of two closed copies count, also where each was opened again before it was online", async () => {
  const ways = [0, 1, 2].flatMap((first) => [true, false].map((isSent) => ({ first, isSent })));
  const documents = ways.map((_, at) => `d${at}`);
  const { address } = await startServer(documents);
  await Promise.all(ways.map(async ({ first, isSent }, at) => {
    const me = await begun(`${room()}/store`, address, documents[at], "known", clock);
    if (!isSent) vote(me, 1);
    await me.provider.close();
    for (const word of ["one", "two"]) copyStore(me.file, `${me.file}-${word}`);
    const all = [];
    for (const file of [me.file, `${me.file}-one`, `${me.file}-two`]) {
      const it = await storeOf(file, address, documents[at], "known", clock);
      vote(it, 2);
      all.push(await anew(it));
    }
    await online([all[first]]);
    await settled(all);
    const names = all.map(({ provider: { replica: { name } } }) => name);
    equal(new Set(names).size, 3);
    for (const it of all) equal(it.provider.replica.sum([0, "votes"]), 1 + (isSent ? 0 : 1) + 3 * 2, `${first} ${isSent}`);
  }));
});

test("what is edited while edits are made again, and copied then, is there once", async () => {
  const documents = Array.from({ length: 6 }, (_, count) => `d${count}`);
  const { address } = await startServer(documents);
  for (const [count, document] of documents.entries()) {
    const first = await begun(`${room()}/store`, address, document, "old");
    await first.provider.close();
    copyStore(first.file, `${first.file}-copy`, "old");
    const me = await anew(first);
    edit(me, "me");
    await online([me]);
    // The other one has the same name, and is to make its edits again: it is held in the midst of that.
    const gate = new Gate(address, 3 + count);
    const copy = await storeOf(`${first.file}-copy`, await gate.listen(), document);
    edit(copy, "before");
    copy.provider.goOnline();
    await Promise.race([gate.isHolding, copy.provider.synced(WAIT)]);
    edit(copy, "meanwhile");
    const further = await copied({ ...copy, at: address }, "further");
    gate.open();
    await online([copy]);
    await check([me, copy, further], ["base", "me", "before", "meanwhile"], `behind ${count}`);
    gate.close();
  }
});
