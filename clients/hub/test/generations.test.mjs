/* A document that is renewed: what it shows goes on, who may change it, kills at each step, and providers
   that follow, also over several generations. */

import { deepEqual, equal, match, ok, rejects } from "node:assert/strict";
import { cpSync, existsSync, readdirSync, readFileSync, rmSync } from "node:fs";
import { join } from "node:path";
import { test } from "node:test";
import { fileURLToPath } from "node:url";
import { Browser, missing } from "../../js/test/chromium.mjs";
import { fileStore } from "../../js/file_store.mjs";
import { memoryStore, Provider } from "../../js/provider.mjs";
import { Conflict, Counter, Refused } from "../../js/wire.mjs";
import { command, freshFolder, health, killServersOf, startDataHub, startNode } from "./data_hub.mjs";
import { atEnd, hubWithin, joinLines, kill, pause, PROGRAM, Raw, ROOM, suite, until, within } from "./support.mjs";

const KILLED = fileURLToPath(new URL("killed_hub.mjs", import.meta.url));
const STEPS = ["file", "deliver", "hold", "meanwhile", "map", "record", "renewed"];
const NOT_OF_NOW = '["no",106,"renewed"]';

/** A provider of the document `d`, until the suite ends. */
async function provider(at, word, store = memoryStore()) {
  const opened = await Provider.open({ document: "d", at, store, word });
  atEnd(() => opened.close().catch(() => {}));
  return opened;
}

/** Renews a document by a command, and returns its generation. */
async function renew(folder, name = "d") {
  const { status, lines: [generation], stderr } = await command(folder, "renew", name);
  equal(status, 0, stderr);
  match(generation, /^\d+-[a-z2-7]{10}$/);
  return generation;
}

const record = (folder, name = "d") =>
  JSON.parse(readFileSync(join(folder, "documents", name, "record.json"), "utf8"));
const isIn = (generation) => ({ replica }) =>
  replica.front().some(([name]) => name === `gen${generation}-1`);
const allSynced = async (...providers) => {
  for (const it of [...providers, ...providers, ...providers]) await it.synced(240);
};
const textOf = ({ replica }) => replica.text([0, "text"]);

/** Whether the store of a tab's pad has something of a generation. */
const hasStored = (tab, generation) => tab.evaluate(`new Promise((done, failed) => {
  const request = indexedDB.open("jcrdt d pad");
  request.onerror = () => failed(request.error);
  request.onsuccess = () => {
    const rows = request.result.transaction("operations").objectStore("operations").getAll();
    rows.onsuccess = () => { request.result.close(); done(JSON.stringify(rows.result).includes("gen${generation}-1")); };
  };
})`);

suite("generations", { concurrency: true }, () => {
  test("what it shows goes on: order, counters, conflicts, empty values, big integers", async () => {
    const hub = await startDataHub();
    const [ada, bob] = [await provider(hub.lines, "ada"), await provider(hub.lines, "bob")];
    const value = {
      text: [..."order"], nested: { list: [1, { deep: [true, null] }, "x"], empty: {}, none: [] },
      big: 2n ** 62n, least: -(2n ** 63n), count: new Counter(7), "": "no name",
    };
    ada.replica.put([0], value);
    await allSynced(ada, bob);
    for (const it of [ada, bob]) it.goOffline();
    ada.replica.assign([0, "title"], "Oslo");
    bob.replica.put([0, "title"], { city: "Bergen" });
    ada.replica.assign([0, "text", 2], "R");
    bob.replica.assign([0, "text", 2], "Я");
    ada.replica.assign([0, "both"], 1);
    bob.replica.put([0, "both"], []);
    bob.replica.add([0, "count"], -2);
    for (const it of [ada, bob]) it.goOnline();
    await allSynced(ada, bob);
    const before = ada.replica.plain([0]);
    const generation = await renew(hub.folder);
    await until("both follow", () => [ada, bob].every(isIn(generation)));
    for (const it of [ada, bob]) deepEqual(it.replica.plain([0]), before);
    // By hand: what these edits make, by the rules.
    equal(ada.replica.sum([0, "count"]), 5);
    deepEqual(ada.replica.values([0, "text", 2]).sort(), ["R", "Я"].sort());
    ok(ada.replica.plain([0, "title"]) instanceof Conflict);
    deepEqual(ada.replica.values([0, "title"]), ["Oslo"]);
    deepEqual(ada.replica.values([0, "title", "city"]), ["Bergen"]);
    deepEqual(ada.replica.values([0, "big"]), [2n ** 62n]);
    deepEqual(ada.replica.keys([0, "nested"]), ["empty", "list", "none"]);
    // Who edits now is a replica of it; who doesn't isn't.
    equal(ada.replica.front().filter(([name]) => !name.startsWith("gen")).length, 0);
  });

  test("online ones follow in one event, with their watches, places and undo", async () => {
    const hub = await startDataHub();
    const [ada, bob] = [await provider(hub.lines, "ada"), await provider(hub.lines, "bob")];
    ada.replica.put([0, "text"], []);
    await allSynced(ada, bob);
    ada.replica.splice([0, "text"], 0, 0, "hello");
    const place = ada.replica.place([0, "text", 5]);
    ada.replica.splice([0, "text"], 5, 0, "!");
    ada.replica.assign([0, "title"], "Oslo");
    ada.replica.assign([0, "title"], "Bergen");
    await allSynced(ada, bob);
    const [events, spliced] = [[], []];
    ada.listen(({ what, why }) => what === "changed" && events.push(why));
    ada.replica.watch([0, "text"], (splices, why) => spliced.push([why, splices]));
    const first = await renew(hub.folder);
    await until("both follow", () => [ada, bob].every(isIn(first)));
    const second = await renew(hub.folder);
    await until("both follow again", () => [ada, bob].every(isIn(second)));
    deepEqual(events, ["remade", "remade"]);
    deepEqual(spliced, Array(2).fill(["remade", [{ index: 0, remove: 6, insert: [..."hello!"] }]]));
    equal(ada.replica.indexOf(place), 5);
    deepEqual(ada.replica.values(place), ["o"]);
    equal(ada.state.word, "online");
    equal(ada.replica.undo(), true);
    deepEqual(ada.replica.values([0, "title"]), ["Oslo"]);
    ada.replica.undo();
    deepEqual(ada.replica.keys([0]), ["text"]);
    ada.replica.undo();
    equal(textOf(ada), "hello");
    ada.replica.redo();
    equal(textOf(ada), "hello!");
    ada.replica.insert([...place], "O"); // behind that very element
    await allSynced(ada, bob);
    deepEqual([textOf(ada), textOf(bob)], ["helloO!", "helloO!"]);
  });

  test("who comes back to a long document of a later generation goes on with it, and brings all over", async () => {
    const hub = await startDataHub();
    const [ada, bob] = [await provider(hub.lines, "ada"), await provider(hub.lines, "bob")];
    ada.replica.put([0, "text"], [..."x".repeat(1200)]); // logs are compared in pieces
    await allSynced(ada, bob);
    const generation = await renew(hub.folder);
    await until("both follow", () => [ada, bob].every(isIn(generation)));
    for (const [at, one] of [ada, bob].entries()) one.replica.splice([0, "text"], at, 0, [..."y".repeat(700)]);
    await allSynced(ada, bob);
    const { name } = ada.replica;
    ada.goOffline();
    ada.replica.splice([0, "text"], 0, 0, [..."back"]);
    ada.goOnline();
    await allSynced(ada, bob);
    killServersOf(hub.folder);
    bob.replica.splice([0, "text"], 0, 0, [..."server "]);
    await allSynced(ada, bob);
    for (const one of [ada, bob]) equal(textOf(one).replace(/[xy]+/, "."), "server back.");
    equal(ada.replica.name, name);
    for (const one of [ada, bob]) deepEqual([...one.problems.keys()], []);
  });

  test("offline ones bring their edits over, also over two generations and a restart", async () => {
    const hub = await startDataHub();
    const file = join(ROOM, "weeks.notes");
    const ada = await provider(hub.lines, "ada");
    let bob = await provider(hub.lines, "bob", fileStore(file));
    ada.replica.put([0], { text: [..."one two three"], cards: [{ title: "a" }, { title: "b" }], votes: new Counter(1) });
    await allSynced(ada, bob);
    bob.goOffline();
    bob.replica.splice([0, "text"], 3, 0, ",");
    bob.replica.splice([0, "text"], 0, 1, "O");
    bob.replica.assign([0, "cards", 1, "title"], "A");
    bob.replica.assign([0, "cards", 2, "title"], "B");
    bob.replica.splice([0, "cards"], 2, 0, [{ title: "c", tags: ["new"] }]);
    bob.replica.add([0, "votes"], 5);
    await bob.close();
    ada.replica.splice([0, "text"], 8, 5, "3"); // "one two 3"
    ada.replica.delete([0, "cards", 2]); // what bob has edited
    await ada.synced(240);
    await renew(hub.folder);
    ada.replica.splice([0, "text"], 4, 3, "2"); // "one 2 3"
    await ada.synced(240);
    const last = await renew(hub.folder);
    await until("ada follows", () => isIn(last)(ada));
    bob = await provider(hub.lines, "bob", fileStore(file));
    await allSynced(bob, ada);
    for (const it of [ada, bob]) {
      equal(textOf(it), "One, 2 3");
      deepEqual(it.replica.plain([0, "cards"]), [{ title: "A" }, { title: "c", tags: ["new"] }]);
      equal(it.replica.sum([0, "votes"]), 6);
    }
    const { lines, words } = bob.problems.get("renewed");
    equal(lines.length, 1); // what was edited in the card that is deleted: it is said, with its content
    match(lines[0], /"assign","B"/);
    match(words, /1 change/);
    await bob.close();
    const again = await provider(hub.lines, "bob", fileStore(file));
    await allSynced(again);
    equal(textOf(again), "One, 2 3");
  });

  test("what others stored meanwhile isn't cleared by what was edited offline: that is said", async () => {
    const hub = await startDataHub();
    const [ada, bob] = [await provider(hub.lines, "ada"), await provider(hub.lines, "bob")];
    ada.replica.put([0], { title: "plan", place: "here", cards: [{ n: 1 }, { n: 2 }, { n: 3 }] });
    await allSynced(ada, bob);
    bob.goOffline();
    bob.replica.assign([0, "title"], "of bob");
    bob.replica.assign([0, "place"], "there");
    bob.replica.splice([0, "cards"], 0, 2, []);
    ada.replica.assign([0, "title"], "of ada");
    ada.replica.assign([0, "cards", 1, "note"], "stored");
    await ada.synced(240);
    await renew(hub.folder);
    ada.replica.assign([0, "cards", 3, "n"], 4);
    await ada.synced(240);
    await renew(hub.folder);
    bob.goOnline();
    await allSynced(bob, ada);
    for (const it of [ada, bob]) {
      deepEqual(it.replica.plain([0]), { title: "of ada", place: "there", cards: [{ n: 1, note: "stored" }, { n: 4 }] });
    }
    const { lines } = bob.problems.get("renewed");
    equal(lines.length, 2);
    match(lines[0], /"assign","of bob"/);
    match(lines[1], /\["delete"\]/);
  });

  test("from 200 replicas on it is renewed by itself", async () => {
    const hub = await startDataHub();
    const client = await joinLines(hub.lines, "d");
    for (let at = 0; at < 200; at++) {
      await client.deliver("d", ["op", [1, `r${at}`], [], [[["m", 0]], `k${at}`], ["assign", at]]);
    }
    const [generation, operations] = await until("it is in its second generation", async () =>
      (await client.history("d"))[1]);
    match(generation, /^2-/);
    equal(operations, 202); // a deletion of nothing, the map, and what is in it
    equal((await client.keys("d", [0])).length, 200);
    client.end();
  });

  test("the history tells as many operations as there are, also while a document is measured", async () => {
    const hub = await startDataHub();
    const client = await joinLines(hub.lines);
    const names = Array.from({ length: 30 }, (_, at) => `h${at}`);
    await Promise.all(names.map((it) => client.create(it)));
    const told = await Promise.all(names.map(async (it) => {
      const asked = [client.open(it), client.assign(it, [0, "k"], 1), client.assign(it, [0, "k"], 2)];
      await Promise.all(asked);
      return client.history(it);
    }));
    deepEqual(told, names.map(() => [["1", 2, 1]]));
    client.end();
  });

  test("a document whose hub was killed is counted again", async () => {
    const hub = await startDataHub(freshFolder(), "--renew-at", "200");
    const client = await joinLines(hub.lines, "d");
    for (let at = 0; at < 190; at++) await client.add("d", [0, "n"], 1);
    client.end();
    await kill(hub.child);
    const next = await startDataHub(hub.folder, "--renew-at", "200");
    const other = await joinLines(next.lines, "d");
    await until("it is renewed behind its 200th change", async () => {
      if ((await other.history("d")).length > 1) return true;
      await other.add("d", [0, "n"], 1);
      return false;
    });
    const sum = Number(await other.sum("d", [0, "n"]));
    ok(sum >= 200 && sum < 400, `${sum}`);
    other.end();
  });

  const slow = !process.env.JCRDT_SLOW && "51,000 changes take a minute: set JCRDT_SLOW";
  test("what shows too much isn't renewed: it says so before, and goes on", { skip: slow }, async () => {
    const hub = await startDataHub(freshFolder(), "--renew-at", "50500");
    // The lines of one client are answered one after the other, each once it is in the file.
    const clients = await Promise.all(Array.from({ length: 40 }, () => joinLines(hub.lines, "d")));
    const [client] = clients;
    await client.assign("d", [0, "text"], []);
    for (let at = 0; at < 51; at++) {
      await Promise.all(Array.from({ length: 1000 }, (_, of) => clients[of % 40].insert("d", [0, "text", 0], "x")));
      if (at === 36) await until("it says so", () => /what d shows takes 3\d+ operations/.test(hub.child.notes));
    }
    await until("it says that it can't be", () => /d can't be renewed: .* takes 5\d+ operations\. Divide/.test(hub.child.notes));
    await client.insert("d", [0, "text", 0], "y");
    equal((await client.items("d", [0, "text"])).length, 51_001);
    deepEqual((await client.history("d")).map(([name]) => name), ["1"]);
    deepEqual(readdirSync(join(hub.folder, "documents", "d")).filter((it) => it.endsWith(".db")), ["1.db"]);
    clients.forEach((it) => it.end());
  });

  test("copies of one store bring an edit over once", async () => {
    const hub = await startDataHub();
    const [one, other] = [join(ROOM, "one.notes"), join(ROOM, "other.notes")];
    let ada = await provider(hub.lines, "ada", fileStore(one));
    ada.replica.put([0, "text"], [..."ab"]);
    await ada.synced(240);
    ada.goOffline();
    ada.replica.splice([0, "text"], 1, 0, "xyz");
    await ada.close();
    cpSync(one, other);
    await renew(hub.folder);
    const both = await Promise.all([one, other].map((it) => provider(hub.lines, "ada", fileStore(it))));
    await allSynced(...both);
    for (const it of both) equal(textOf(it), "axyzb");
  });

  test("a copy in a later generation sends what it has, and the original knows its own", async () => {
    const hub = await startDataHub();
    const files = [join(ROOM, "later.notes"), join(ROOM, "later-copy.notes")];
    const openAt = async (store) => {
      const it = await Provider.open({ document: "d", at: hub.lines, store, word: "ada", isOnline: false });
      atEnd(() => it.close().catch(() => {}));
      return it;
    };
    const first = await provider(hub.lines, "ada", fileStore(files[0]));
    first.replica.put([0, "text"], [..."ab"]);
    await first.synced(240);
    const generation = await renew(hub.folder);
    await until("it follows", () => isIn(generation)(first));
    await first.synced(240);
    await first.close();
    const ada = await openAt(fileStore(files[0])); // it has sent nothing since
    ada.replica.splice([0, "text"], 1, 0, "x");
    await until("it is stored", () => readFileSync(files[0], "utf8").includes('"x"'));
    cpSync(files[0], files[1]);
    const copy = await openAt(fileStore(files[1]));
    const { name } = ada.replica;
    copy.replica.splice([0, "text"], 0, 0, "c");
    for (const it of [copy, ada, copy]) {
      it.goOnline();
      await it.synced(60);
    }
    for (const it of [ada, copy]) equal(textOf(it), "caxb");
    equal(ada.replica.name, name);
  });

  test("copies of one store that are edited apart bring all edits over: each is there once", async () => {
    const [keeping, other] = [await startDataHub(), await startDataHub(freshFolder(), "--keep-generations", "0")];
    const ways = ["open", "closed"].flatMap((how) => [
      { how, before: [], then: [0, 1] }, { how, before: [0], then: [1, 0] }, { how, before: [1], then: [0, 1] },
      { how, before: [], then: [1, "again", 0] }, { how, before: [0], then: [1, 0], isClosed: true },
      { how, before: [], then: ["killed", 0, 1] },
    ]).concat({ how: "closed", before: [0], then: [1, 0], hub: other });
    await Promise.all(ways.map(async ({ how, before, then, isClosed, hub = keeping }, at) => {
      const [document, file] = [`apart-${at}`, join(ROOM, `apart-${at}.notes`)];
      const files = [file, `${file}-copy`];
      const options = (path) => ({ document, at: hub.lines, store: fileStore(path), word: "ada", isOnline: false });
      const all = [];
      const openAt = async (of, path = files[of]) => {
        files[of] = path;
        all[of] = await Provider.open(options(path));
        const it = all[of];
        atEnd(() => it.close().catch(() => {}));
      };
      const edit = ({ replica }, text) => {
        replica.splice([0, "list"], replica.items([0, "list"]).length, 0, [text]);
        replica.add([0, "votes"], 1);
      };
      const sync = async (it) => {
        it.goOnline();
        await it.synced(240);
      };
      await openAt(0);
      all[0].replica.put([0], { list: [], votes: new Counter(0) });
      await sync(all[0]);
      all[0].goOffline();
      edit(all[0], "both");
      if (how === "closed") await all[0].close();
      cpSync(files[0], files[1]);
      if (how === "closed") await openAt(0);
      await openAt(1);
      if (!isClosed) for (const it of all) edit(it, "alike"); // what was restored is taken for the same
      for (const [of, it] of all.entries()) edit(it, `of ${of}`);
      for (const of of before) {
        await sync(all[of]);
        all[of].goOffline();
      }
      if (isClosed) for (const of of [0, 1]) {
        await all[of].close();
        await openAt(of);
      }
      await renew(hub.folder, document);
      for (const of of then) {
        if (of === "again") {
          all[1].goOffline();
          await renew(hub.folder, document);
        } else if (of === "killed") { // what it has stored by then goes on, once it has brought its edits over
          const path = `${files[0]}-killed`;
          cpSync(files[0], path);
          await sync(all[0]);
          await all[0].close();
          await openAt(0, path);
        } else await sync(all[of]);
      }
      for (const it of [...all, ...all]) await sync(it);
      for (const { replica, problems } of all) {
        const words = `${how} ${before} ${then} ${isClosed}`;
        const texts = [...(isClosed ? [] : ["alike", "alike"]), "both", "of 0", "of 1"];
        deepEqual(replica.items([0, "list"]).map(([, [text]]) => text).sort(), texts, words);
        equal(replica.sum([0, "votes"]), texts.length, words);
        equal(problems.has("renewed"), false, words);
      }
    }));
  });

  test("what another tab stored of a later generation isn't mixed with this one's", async () => {
    const hub = await startDataHub();
    const bob = await provider(hub.lines, "bob");
    const shared = { ...memoryStore(), follow: (heard) => (shared.heard = heard) };
    const ada = await provider(hub.lines, "ada", shared);
    ada.replica.put([0, "text"], [..."ab"]);
    await allSynced(ada, bob);
    ada.goOffline();
    ada.replica.splice([0, "text"], 1, 0, "X");
    const generation = await renew(hub.folder);
    await until("bob follows", () => isIn(generation)(bob));
    shared.heard(bob.replica.lines().slice(1));
    equal(textOf(ada), "aXb");
    equal(isIn(generation)(ada), false);
    ada.goOnline();
    await allSynced(ada, bob);
    for (const it of [ada, bob]) equal(textOf(it), "aXb");
    shared.heard([JSON.stringify(["op", [1, "late"], [], [[["m", 0]], "text"], ["assign", "of the first"]])]);
    equal(textOf(ada), "aXb");
  });

  test("a replica of another generation gets and gives nothing by itself", async () => {
    const hub = await startDataHub();
    const client = await joinLines(hub.lines, "d");
    const id = await client.assign("d", [0, "k"], 1);
    await client.let("d", "it", [0, "k"]);
    const gone = new Promise((resolve) => (client.reopened = resolve));
    const told = new Promise((resolve) => (client.renewed = (...items) => resolve(items)));
    const fronts = [];
    await client.watch("d", (front) => fronts.push(front));
    const [, old] = [await client.front("d"), [...(await client.front("d"))]];
    const generation = await renew(hub.folder);
    deepEqual(await within("it hears of it", told), ["d", generation]);
    deepEqual(await within("its variable is gone", gone), [["d", "it"]]);
    await until("it sees the front of now", () => fronts.at(-1)?.has(`gen${generation}-1`));
    deepEqual(await client.values("d", [0, "k"]), [1]); // a session goes on
    await client.assign("d", [0, "k"], 2);
    const raw = new Raw(hub.lines);
    await raw.ask(["open", "d"]);
    const fake = ["op", [1, "gen3-aaaaaaaaaa-1"], [], [[["m", 0]], "k"], ["assign", 9]];
    for (const request of [
      ["ops", "d", old, 64], ["page", "d", old, 1000], ["chains", "d", [], old],
      ["deliver", "d", ["op", [1, "bob"], [], [[["m", 0]], "k"], ["assign", 3]]],
      ["deliver", "d", ["op", [2, "bob"], [id].map(([at, name]) => [name, at]), [[["m", 0]], "k"], ["assign", 3]]],
      ["deliver", "d", fake],
    ]) equal(await raw.ask(request), NOT_OF_NOW, JSON.stringify(request));
    match(await raw.ask(["ops", "d", [], 64]), /^\["ops",\[\["op",\[1,"gen2-/);
    equal(await raw.ask(["deliver", "d", "nothing"]), '["no",12,"bad-operation"]');
    const other = new Raw(hub.lines);
    await other.ask(["open", "first"]); // one in its first generation takes nothing of a later one
    const ofLater = [["gen2-aaaaaaaaaa-1", 1]];
    for (const request of [
      ["ops", "first", ofLater, 64], ["deliver", "first", fake],
      ["deliver", "first", ["op", [2, "bob"], ofLater, [[["m", 0]], "k"], ["assign", 3]]],
    ]) equal(await other.ask(request), NOT_OF_NOW, JSON.stringify(request));
    other.end();
    raw.end();
    client.end();
  });

  test("generations of before can be read, and no more; so many as are kept", async () => {
    const hub = await startDataHub(freshFolder(), "--keep-generations", "1");
    const client = await joinLines(hub.lines, "d");
    const generations = ["1"];
    for (let at = 0; at < 3; at++) {
      await client.assign("d", [0, "k"], at);
      if (at < 2) generations.push(await renew(hub.folder));
    }
    const history = await client.history("d");
    deepEqual(history.map(([name]) => name), generations);
    deepEqual(history.map(([, , replicas]) => replicas), [1, 2, 2]);
    await rejects(client.open("d/1"), (error) => error instanceof Refused && error.number === 4);
    await client.open(`d/${generations[1]}`);
    deepEqual(await client.values(`d/${generations[1]}`, [0, "k"]), [1]);
    await rejects(client.assign(`d/${generations[1]}`, [0, "k"], 5), (error) => error.number === 103);
    for (const name of [`d/${generations[2]}`, "d/", "d/x", "e/1", "d/../d", "/1"]) {
      await rejects(client.open(name), (error) => error.number === 4, name);
    }
    deepEqual((await client.list()), ["d"]);
    const { lines } = await command(hub.folder, "export", `d/${generations[1]}`);
    ok(lines.length > 1);
    await kill(hub.child, "SIGTERM");
    const next = await startDataHub(hub.folder);
    const other = await joinLines(next.lines, "d");
    deepEqual(await other.values("d", [0, "k"]), [2]);
    const files = readdirSync(join(hub.folder, "documents", "d"));
    ok(!files.includes("1.db") && files.includes(`${generations[1]}.db`) && files.includes(`${generations[1]}.map`), files.join());
    for (const it of [client, other]) it.end();
  });

  test("a generation of before has a server while it is read, and the document keeps its own", async () => {
    const hub = await startDataHub();
    const client = await joinLines(hub.lines, "d");
    for (let at = 0; at < 3; at++) {
      await client.assign("d", [0, "k"], at);
      await renew(hub.folder);
    }
    const past = (await client.history("d")).slice(0, -1).map(([name]) => `d/${name}`);
    for (const name of past) {
      await client.open(name);
      equal((await client.values(name, [0, "k"])).length, 1);
    }
    await until("theirs have ended", async () => (await health(hub)).documents.open === 1); // within --close-after
    deepEqual(await client.values(past[1], [0, "k"]), [1]);
    client.end();
  });

  test("from so many operations on it is renewed by itself, while it is typed into", async () => {
    const hub = await startDataHub(freshFolder(), "--renew-at", "300");
    const [ada, bob] = [await provider(hub.lines, "ada"), await provider(hub.lines, "bob")];
    ada.replica.put([0, "text"], []);
    await allSynced(ada, bob);
    for (let at = 0; at < 400; at++) {
      const it = [ada, bob][at % 2];
      it.replica.splice([0, "text"], 0, 0, String(at % 10));
      const { length } = it.replica.items([0, "text"]);
      if (length > 20) it.replica.splice([0, "text"], length - 2, 2, "");
      if (at % 10 === 0) await until("it is sent", () => it.unsent.length === 0);
    }
    await allSynced(ada, bob);
    await until("it is in its second generation, at least", () => Number.parseInt(record(hub.folder).generation, 10) >= 2);
    await allSynced(ada, bob);
    equal(textOf(ada), textOf(bob));
    equal(hub.child.notes.includes("can't be renewed"), false, hub.child.notes);
  });

  test("what sessions change while it is renewed is in the next generation", async () => {
    const hub = await startDataHub();
    const clients = await Promise.all(Array.from({ length: 6 }, () => joinLines(hub.lines, "d")));
    await clients[0].assign("d", [0, "list"], []);
    await Promise.all(Array.from({ length: 1200 }, (_, at) => clients[at % 6].insert("d", [0, "list", 0], at)));
    const before = await clients[0].plain("d", [0, "list"]);
    let [answered, isOn] = [0, true];
    const keys = new Set();
    const adding = clients.map(async (client, at) => {
      for (let own = 0; isOn; answered++) {
        await client.add("d", [0, "n"], 1);
        const key = `of-${at}-${own++}`;
        await client.assign("d", [0, "map", key], at);
        if (own % 3 === 0) await client.delete("d", [0, "map", key]);
        else keys.add(key);
        if (at === 0) await client.insert("d", [0, "list", 7], `${own}`);
        await pause(Math.random() * 3 * at);
      }
    });
    const someMore = (from = answered) => until("some more are answered", () => answered > from + 20);
    for (let at = 0; at < 4; at++) {
      await someMore();
      await renew(hub.folder);
    }
    await someMore();
    isOn = false;
    await Promise.all(adding);
    equal(Number(await clients[0].sum("d", [0, "n"])), answered);
    deepEqual(await clients[0].keys("d", [0, "map"]), [...keys].sort());
    const list = await clients[0].plain("d", [0, "list"]);
    deepEqual(list.filter((it) => typeof it === "number"), before, "those of before keep their order");
    const words = list.filter((it) => typeof it === "string");
    deepEqual(words, words.map((_, at) => `${words.length - at}`));
    ok(answered > 20);
    clients.forEach((it) => it.end());
  });

  test("changes are answered while most of the next generation is made", async () => {
    const steps = [];
    let change = () => {};
    const atStep = (step) => {
      if (step === "deliver") change().then(() => steps.push("answered"));
      steps.push(step);
    };
    const hub = await hubWithin({ data: freshFolder(), program: PROGRAM, lines: "127.0.0.1:0", atStep, note() {} });
    const clients = await Promise.all(Array.from({ length: 16 }, () => joinLines(hub.lines, "d")));
    await Promise.all(Array.from({ length: 6000 }, (_, at) => clients[at % 16].assign("d", [0, `k${at}`], at)));
    change = () => clients[0].assign("d", [0, "k7"], "meanwhile");
    await hub.documents.renew("d");
    deepEqual(steps.filter((it) => ["deliver", "answered", "hold"].includes(it)), ["deliver", "answered", "hold"]);
    deepEqual(await clients[1].values("d", [0, "k7"]), ["meanwhile"]);
    const [, held] = /^jcrdt_hub_renewal_held_seconds (.*)$/m.exec(await hub.metrics());
    ok(Number(held) > 0 && Number(held) < 60, held);
    match(await hub.metrics(), /^jcrdt_hub_renewals_total 1$/m);
  });

  test("a renewal that fails once its record is written: the document goes on in that generation", async () => {
    const data = freshFolder();
    const options = { data, program: PROGRAM, lines: "127.0.0.1:0", note() {} };
    const hub = await hubWithin({ ...options, atStep(step) {
      if (step === "renewed") throw new Error("the disk fails");
    } });
    const client = await joinLines(hub.lines, "d");
    await client.assign("d", [0, "k"], 1);
    // On a busy machine it may fail before.
    await until("it has come so far", () => hub.documents.renew("d").then(() => false, (error) => /the disk fails/.test(error.message)));
    await client.assign("d", [0, "later"], 2);
    const history = await client.history("d");
    deepEqual(history.map(([name]) => name), ["1", record(data).generation]);
    await hub.stop();
    const again = await hubWithin(options);
    deepEqual(await (await joinLines(again.lines, "d")).keys("d", [0]), ["k", "later"]);
    await again.stop();
  });

  test("a hub that has another history says so, and gets nothing", async () => {
    const hub = await startDataHub();
    const ada = await provider(hub.lines, "ada");
    ada.replica.put([0, "text"], [..."ab"]);
    await ada.synced(240);
    const backup = freshFolder();
    await renew(hub.folder);
    await ada.synced(240);
    const generation = record(hub.folder).generation;
    await until("ada follows", () => isIn(generation)(ada));
    await kill(hub.child, "SIGTERM");
    // As of an older backup that was renewed again.
    cpSync(hub.folder, backup, { recursive: true });
    for (const it of readdirSync(join(backup, "documents", "d"))) {
      if (it.startsWith("2-")) rmSync(join(backup, "documents", "d", it));
    }
    const old = { ...record(hub.folder), generation: "1", history: [], began: 0 };
    const { writeFileSync } = await import("node:fs");
    writeFileSync(join(backup, "documents", "d", "record.json"), JSON.stringify(old));
    const words = ["--lines", hub.lines];
    const { child } = await startNode([fileURLToPath(new URL("../hub.mjs", import.meta.url)), "--data", backup, "--program", PROGRAM, ...words], 1);
    await renew(backup);
    ada.replica.splice([0, "text"], 0, 0, "z");
    await until("it says why", () => /no generation/.test(ada.state.why));
    match(ada.problems.get("server").words, /no generation 2-/);
    const client = await joinLines(hub.lines, "d");
    deepEqual(await client.plain("d", [0, "text"]), ["a", "b"]);
    equal(textOf(ada), "zab"); // it stays here
    client.end();
    await kill(child, "SIGTERM");
  });

  test("a text pad in two tabs of one store, and in another browser", { skip: missing() || false }, async () => {
    const hub = await startDataHub();
    const browser = await Browser.open();
    atEnd(() => browser.close());
    const [own, other] = [await browser.profile(), await browser.profile()];
    const url = `${hub.page}web/pad.html?doc=d`;
    const tabs = [];
    for (const profile of [own, own, other]) tabs.push(await browser.tab(url, { profile }));
    for (const tab of tabs) await tab.until(`document.querySelector("#state").textContent === "online "`);
    const all = (text) => until(`all have ${text}`, async () => {
      const texts = await Promise.all(tabs.map(async (tab) => (await tab.textOf("#text"))[0]));
      return texts.every((it) => it === text);
    });
    const caretOf = (tab) => tab.evaluate(`document.querySelector("#text").selectionStart`);
    await tabs[0].type("#text", "Hello");
    await all("Hello");
    await tabs[1].type("#text", " you", 5);
    await all("Hello you");
    await tabs[1].evaluate(`document.querySelector("#text").setSelectionRange(5, 5)`);
    const generation = await renew(hub.folder);
    await until("the tabs follow", () => hasStored(tabs[1], generation));
    await tabs[1].insert(","); // where the caret is
    await all("Hello, you");
    equal(await caretOf(tabs[1]), 6);
    await renew(hub.folder);
    await tabs[2].type("#text", "!", 10);
    await all("Hello, you!");
    await tabs[0].press("z", 2);
    await all(", you!"); // what this tab typed
    for (const tab of tabs) await tab.reload();
    for (const tab of tabs) await tab.until(`document.querySelector("#state").textContent === "online "`);
    await all(", you!");
    await tabs[0].type("#text", "O", 0);
    await all("O, you!");
    deepEqual(tabs.flatMap(({ faults }) => faults), []);
    const [, , [, operations]] = await (await joinLines(hub.lines, "d")).history("d");
    // A deletion of nothing, the map, the list, ten characters; then one, five deletions, and one more.
    equal(operations, 20, "each once");
  });

  for (const step of STEPS) {
    test(`a kill before the step ${step}: one generation takes changes, and nothing is lost`, async () => {
      const folder = freshFolder();
      const { child, lines: [[, at]] } = await startNode([KILLED, folder, PROGRAM, "127.0.0.1:0", step], 1);
      const [ada, bob] = [await provider(at, "ada"), await provider(at, "bob")];
      ada.replica.put([0], { text: [..."ab"], votes: new Counter(1) });
      await allSynced(ada, bob);
      bob.goOffline();
      bob.replica.splice([0, "text"], 1, 0, "offline");
      bob.replica.add([0, "votes"], 10);
      const asked = command(folder, "renew", "d");
      for (let typed = 0; typed < 20; typed++) {
        ada.replica.splice([0, "text"], 0, 0, String(typed % 10));
        ada.replica.add([0, "votes"], 1);
        await pause(10);
      }
      await child.ended;
      equal((await asked).status, 1);
      const begun = record(folder);
      equal(begun.generation === "1", step !== "renewed");
      const hub = fileURLToPath(new URL("../hub.mjs", import.meta.url));
      const again = await startNode([hub, "--data", folder, "--program", PROGRAM, "--lines", at], 1);
      bob.goOnline();
      await allSynced(ada, bob);
      const expected = [..."ab".replace("a", "aoffline"), ..."01234567890123456789"].sort().join("");
      for (const it of [ada, bob]) {
        equal([...textOf(it)].sort().join(""), expected);
        match(textOf(it), /^98765432109876543210aofflineb$/);
        equal(it.replica.sum([0, "votes"]), 31);
      }
      // What was begun and not decided is gone once the document is opened.
      const databases = readdirSync(join(folder, "documents", "d")).filter((it) => it.endsWith(".db"));
      equal(databases.length, step === "renewed" ? 2 : 1, databases.join());
      const generation = await renew(folder);
      await until("both follow", () => [ada, bob].every(isIn(generation)));
      await allSynced(ada, bob);
      for (const it of [ada, bob]) match(textOf(it), /^98765432109876543210aofflineb$/);
      await kill(again.child, "SIGTERM");
      ok(existsSync(join(folder, "documents", "d", `${generation}.map`)));
    });
  }
});
