/* What who runs a hub does with its documents, while it runs and while it doesn't. */

import { deepEqual, equal, match, ok, rejects } from "node:assert/strict";
import { execFile } from "node:child_process";
import { cpSync, rmSync, writeFileSync } from "node:fs";
import { join } from "node:path";
import { test } from "node:test";
import { fileURLToPath } from "node:url";
import { promisify } from "node:util";
import { Browser, missing } from "../../js/test/chromium.mjs";
import { memoryStore, Provider } from "../../js/provider.mjs";
import { tooLong } from "../../js/test/support.mjs";
import { Refused } from "../../js/wire.mjs";
import { command, freshFolder, startDataHub } from "./data_hub.mjs";
import { atEnd, joinLines, kill, PROGRAM, Raw, suite, until } from "./support.mjs";

const BACKUP = fileURLToPath(new URL("../../../operations/backup.sh", import.meta.url));

/** Runs backup.sh, and resolves with its status and what it wrote. */
const backup = (...words) => promisify(execFile)(BACKUP, words, { env: { ...process.env, JCRDT: PROGRAM } })
  .then(({ stdout }) => ({ status: 0, stdout, stderr: "" }), ({ code, stdout, stderr }) => ({ status: code, stdout, stderr }));

suite("what who runs it does", { concurrency: true }, () => {
  /** Does the same while a hub runs, and where none does. */
  for (const isRunning of [true, false]) {
    test(`list, create, rename, delete, restore, export: ${isRunning ? "by the hub" : "without one"}`, { skip: !isRunning && tooLong }, async () => {
      const folder = freshFolder();
      const hub = await startDataHub(folder);
      const client = await joinLines(hub.lines, "trip");
      await client.put("trip", [0], { title: "Oslo", big: 2n ** 60n });
      if (!isRunning) await kill(hub.child, "SIGTERM");
      const done = async (...words) => {
        const { status, lines, stderr } = await command(folder, ...words);
        equal(status, 0, `${words.join(" ")}: ${stderr}`);
        return lines;
      };
      const refused = async (said, ...words) => {
        const { status, stderr } = await command(folder, ...words);
        equal(status, 1, words.join(" "));
        match(stderr, said);
      };
      await done("create", "plans");
      await refused(/there is a document plans/, "create", "plans");
      await refused(/1 to 32 of a-z/, "create", "../plans");
      await refused(/there is a document plans/, "rename", "trip", "plans");
      await refused(/there is no document none/, "rename", "none", "other");
      await done("rename", "trip", "journey");
      const lines = await done("export", "journey");
      const ops = lines.map((it) => JSON.parse(it));
      equal(ops.length, lines.length);
      ok(lines.some((it) => it.includes("1152921504606846976")), "integers are exact");
      deepEqual((await done("list")).map((it) => JSON.parse(it).name), ["journey", "plans"]);
      const [entry] = await done("delete", "journey");
      match(entry, /^journey\.\d+$/);
      await refused(/there is no document journey/, "export", "journey");
      deepEqual(await done("bin"), [entry]);
      await done("restore", entry, "again");
      await refused(/the bin has no/, "restore", entry);
      deepEqual(await done("bin"), []);
      deepEqual(await done("export", "again"), lines);
      const next = isRunning ? hub : await startDataHub(folder);
      const other = await joinLines(next.lines, "again");
      deepEqual(await other.values("again", [0, "title"]), ["Oslo"]);
      await other.assign("again", [0, "title"], "Bergen");
      await rejects(client.values("trip", [0, "title"])); // it was dropped
      other.end();
    });
  }

  test("a name that a document can't get is refused before any client is dropped", async () => {
    const hub = await startDataHub();
    const client = await joinLines(hub.lines, "trip", "plans");
    await client.assign("trip", [0, "title"], "Oslo");
    await client.let("trip", "it", [0, "title"]);
    for (const [name, said] of [["plans", /there is a document plans/], ["../plans", /1 to 32 of a-z/], ["trip", /there is a document trip/]]) {
      const { status, stderr } = await command(hub.folder, "rename", "trip", name);
      equal(status, 1);
      match(stderr, said);
    }
    deepEqual(await client.values("trip", ["it"]), ["Oslo"]); // its session goes on, with its variables
    deepEqual((await client.list()), ["plans", "trip"]);
  });

  test("a copy of the folder goes on under other names", async () => {
    const hub = await startDataHub();
    const client = await joinLines(hub.lines, "d");
    const [, first] = await client.assign("d", [0, "k"], 1);
    client.end();
    await kill(hub.child, "SIGTERM");
    const copy = freshFolder();
    cpSync(hub.folder, copy, { recursive: true });
    const both = await Promise.all([startDataHub(hub.folder), startDataHub(copy)]);
    const ids = [];
    for (const it of both) {
      const other = await joinLines(it.lines, "d");
      ids.push((await other.assign("d", [0, "k"], 2))[1]);
      other.end();
    }
    equal(new Set([first, ...ids]).size, 3);
  });

  test("a client whose document is deleted learns it, and its provider keeps what it has", async () => {
    const hub = await startDataHub(freshFolder());
    const provider = await Provider.open({ document: "d", at: hub.lines, store: memoryStore() });
    atEnd(() => provider.close());
    provider.replica.assign([0, "k"], 1);
    await provider.synced(120);
    equal((await command(hub.folder, "delete", "d")).status, 0);
    await until("it is made again by who may", async () => {
      await provider.synced(120).catch(() => {});
      const raw = new Raw(hub.lines);
      await raw.ask(["open", "d"]);
      const reply = await raw.ask(["values", "d", [0, "k"]]);
      raw.end();
      return reply === '["values",[1]]';
    });
  });

  test("refusals of an older client's words are those of a server", async () => {
    const hub = await startDataHub();
    const client = await joinLines(hub.lines, "d");
    await rejects(client.ask("watch", "d", "all"), (error) => error instanceof Refused && error.number === 2);
    await rejects(client.ask("ops", "d", [], 65), (error) => error instanceof Refused && error.number === 2);
    client.end();
  });

  test("a backup that is made while it runs and is written to has what was answered before", async () => {
    const hub = await startDataHub(freshFolder(), "--close-after", "1");
    const names = ["-x", "a", "b", "c"];
    const client = await joinLines(hub.lines, ...names);
    await client.create("never-opened");
    for (const name of names) await client.add(name, [0, "n"], 100);
    let isOn = true;
    const writing = (async () => {
      for (let at = 0; isOn; at++) await client.add(names[at % 4], [0, "n"], 1).catch(() => {});
    })();
    const copy = freshFolder();
    const { status, stderr } = await backup(hub.folder, copy);
    isOn = false;
    await writing;
    equal(status, 0, stderr);
    match((await backup(hub.folder, copy)).stderr, /is there already/);
    const other = await startDataHub(copy);
    const restored = await joinLines(other.lines, ...names);
    deepEqual(await restored.list(), [...names, "never-opened"].sort());
    for (const name of names) {
      const [before, now] = [await restored.sum(name, [0, "n"]), await client.sum(name, [0, "n"])];
      ok(before >= 100 && before <= now, `${name}: ${before} of ${now}`);
      await restored.add(name, [0, "n"], 1);
    }
    const [ids, others] = await Promise.all([client, restored].map(async (it) => [...(await it.front("a")).keys()]));
    equal(others.filter((it) => !ids.includes(it)).length, 1); // it goes on under a name of its own
    for (const it of [client, restored]) it.end();
  });

  test("a backup leaves out what is damaged, and says so", async () => {
    const hub = await startDataHub();
    const client = await joinLines(hub.lines, "good", "bad");
    for (const name of ["good", "bad"]) await client.add(name, [0, "n"], 1);
    client.end();
    await kill(hub.child, "SIGTERM");
    writeFileSync(join(hub.folder, "documents", "bad", "1.db"), "no database, but a text of some length\n".repeat(50));
    rmSync(join(hub.folder, "documents", "bad", "1.db-wal"));
    const copy = freshFolder();
    const { status, stderr } = await backup(hub.folder, copy);
    equal(status, 3);
    match(stderr, /bad is left out/);
    deepEqual((await command(copy, "list")).lines.map((it) => JSON.parse(it).name), ["good"]);
  });

  test("the page shows who runs it what there is", { skip: missing() || tooLong }, async () => {
    const hub = await startDataHub();
    const client = await joinLines(hub.lines, "trip", "plans");
    await client.add("trip", [0, "n"], 1);
    const browser = await Browser.open();
    atEnd(() => browser.close());
    const tab = await browser.tab(`${hub.page}web/documents.html`);
    await tab.until(`[...document.querySelectorAll("tbody tr")].some((it) =>
      /^tripruns1?1 of 100,0001 of 256\\d+ ms$/.test(it.textContent.replace(/^(tripruns)\\d/, "$1")))`);
    await tab.until(`document.getElementById("state").textContent === "2 documents, 2 servers run, 1 clients"`);
    client.end();
    await tab.until(`document.getElementById("state").textContent === "2 documents, 2 servers run, 0 clients"`);
  });
});
