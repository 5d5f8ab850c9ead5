/* A pad of five people, two of them offline for long stretches, through generations by random typing, with
   kills of servers and of the hub: equal texts, nothing that was stored is lost, and nothing is there twice.
   With JCRDT_SLOW it takes an hour, else as long as SECONDS says. */

import { deepEqual, equal, ok } from "node:assert/strict";
import { join } from "node:path";
import { test } from "node:test";
import { fileURLToPath } from "node:url";
import { fileStore } from "../../js/file_store.mjs";
import { Provider } from "../../js/provider.mjs";
import { command, freshFolder, killServersOf, startNode } from "./data_hub.mjs";
import { atEnd, kill, pause, PROGRAM, randomOf, ROOM, suite, until } from "./support.mjs";

const KILLED = fileURLToPath(new URL("killed_hub.mjs", import.meta.url));
const STEPS = ["file", "deliver", "hold", "meanwhile", "map", "record", "renewed"];
const SECONDS = process.env.JCRDT_SLOW ? 3600 : Number(process.env.SECONDS ?? 60);
const GENERATIONS = STEPS.length + 1; // the first, and one behind a kill at each step
const SEED = Number(process.env.SEED ?? Date.now() % 2 ** 31);

const isIn = (generation, { replica }) => replica.front().some(([name]) => name === `gen${generation}-1`);
const textOf = ({ replica }) => replica.items([0, "text"]).map(([, [word]]) => word);

suite("a pad through generations", { timeout: (SECONDS + 1500) * 1000 }, () => {
  test(`five people, by the seed ${SEED}`, async (context) => {
    const random = randomOf(SEED);
    const below = (number) => Math.floor(random() * number);
    const folder = freshFolder();
    let at = "127.0.0.1:0";
    let hub;
    /** Starts the hub; with a step it kills itself before that one of the next renewal. */
    const begin = async (step = "never") => {
      const { child, lines } = await startNode([KILLED, folder, PROGRAM, at, step], 1);
      [hub, at] = [child, lines[0][1]];
    };
    await begin();
    const people = [];
    for (const name of ["ada", "bob", "cyd", "dan", "eve"]) {
      const store = fileStore(join(ROOM, `${name}.pad`));
      const one = await Provider.open({ document: "pad", at, store, word: name });
      atEnd(() => one.close().catch(() => {}));
      people.push({ name, one, typed: 0, isOffline: false });
    }
    people[0].one.replica.put([0, "text"], []);
    for (const { one } of people) await one.synced(240);
    for (const { one } of people) await one.synced(240);
    const inserted = new Set(); // each word is typed once
    const deleted = new Set(); // by whomever
    const type = (person) => {
      const { replica } = person.one;
      const { length } = replica.items([0, "text"]);
      if (length > 60 && random() < 0.6) {
        const [from, count] = [below(length - 3), 1 + below(3)];
        for (const word of textOf(person.one).slice(from, from + count)) deleted.add(word);
        replica.splice([0, "text"], from, count, []);
      } else {
        const words = Array.from({ length: 1 + below(4) }, () => `${person.name}${person.typed++}`);
        for (const it of words) inserted.add(it);
        replica.splice([0, "text"], below(length + 1), 0, words);
      }
    };
    let [renewals, kills, rounds] = [0, 0, 0];
    for (const end = Date.now() + SECONDS * 1000; Date.now() < end || renewals < GENERATIONS - 1; rounds++) {
      for (const person of people) if (random() < 0.7) type(person);
      await pause(below(60));
      if (rounds % 15 === 0) {
        const person = people[3 + below(2)];
        if (person.isOffline) person.one.goOnline();
        else person.one.goOffline();
        person.isOffline = !person.isOffline;
      }
      if (rounds % 25 === 20) {
        // A renewal that a kill interrupts at each of its steps in turn, and one that nothing interrupts.
        await kill(hub);
        await begin(STEPS[kills++ % STEPS.length]);
        await command(folder, "renew", "pad");
        await hub.ended;
        await begin();
        const { status, stderr, lines: [generation] } = await command(folder, "renew", "pad");
        equal(status, 0, stderr);
        renewals++;
        const isThere = ({ one, isOffline }) => isOffline || isIn(generation, one);
        await until("who is online follows", () => people.every(isThere), 600);
      }
      if (rounds % 10 === 5) killServersOf(folder);
    }
    for (const person of people) person.one.goOnline();
    await until("all have the same", async () => {
      for (const { one } of people) await one.synced(600);
      return new Set(people.map(({ one }) => textOf(one).join())).size === 1;
    }, 600);
    const words = textOf(people[0].one);
    equal(new Set(words).size, words.length, "a word is there twice");
    deepEqual([...inserted].filter((it) => !deleted.has(it) && !words.includes(it)), [], "words are lost");
    deepEqual(words.filter((it) => deleted.has(it)), [], "words are there that were deleted");
    for (const { one } of people) deepEqual([...one.problems.keys()], []);
    const { lines } = await command(folder, "list");
    context.diagnostic(JSON.stringify({ renewals, kills, rounds, typed: inserted.size, shown: words.length, lines }));
    ok(renewals >= GENERATIONS - 1);
    await kill(hub, "SIGTERM");
  });
});
