/* The servers that a hub runs: they come and go with their use, are killed, and have room for some. */

import { deepEqual, equal, match, ok } from "node:assert/strict";
import { execFileSync, spawnSync } from "node:child_process";
import { mkdirSync, rmSync, writeFileSync } from "node:fs";
import { join } from "node:path";
import { test } from "node:test";
import { fileURLToPath } from "node:url";
import { memoryStore, Provider } from "../../js/provider.mjs";
import { tooLong } from "../../js/test/support.mjs";
import { TestClock } from "../../js/test/clock.mjs";
import { AWAY, freshFolder, health, killServersOf, metrics, serversOf, serversStartedBy, startDataHub, startNode } from "./data_hub.mjs";
import {
  atEnd, HUB, hubWithin, joinLines, kill, lacks, pause, PROGRAM, Raw, ROOM, suite, until, within,
} from "./support.mjs";

const HOLDER = fileURLToPath(new URL("../../../tests/hold-writes.c", import.meta.url));

suite("servers that come and go", { concurrency: true }, () => {
  test("one that nobody uses ends, and comes back with what it had; who watches sees what follows", async () => {
    const [clock, folder] = [new TestClock(), freshFolder()];
    const ways = { lines: "127.0.0.1:0", web: "127.0.0.1:0" };
    const hub = await hubWithin({ data: folder, program: PROGRAM, ...ways, closeAfter: 8, clock, note() {} });
    const isUnused = async () => {
      for (let second = 0; second < 10; second++) clock.pass(1000);
      await until("its server has ended", () => serversOf(folder).length === 0);
    };
    const [ada, bob] = [await joinLines(hub.lines, "d"), await joinLines(hub.lines, "d")];
    await ada.let("d", "it", [0, "k"]);
    const gone = new Promise((resolve) => (ada.reopened = resolve));
    const fronts = [];
    await bob.watch("d", (front) => fronts.push([...front.values()]));
    await ada.assign("d", ["it"], "word");
    await until("bob has seen it", () => fronts.some((it) => it.length === 1));
    await isUnused();
    deepEqual(await within("ada hears that her name is gone", gone), [["d", "it"]]);
    deepEqual(await ada.values("d", [0, "k"]), ["word"]);
    await isUnused();
    await ada.assign("d", [0, "k"], "other");
    await until("bob has seen that, too", () => fronts.some((it) => it.length === 2));
    await until("its size is known", async () => { // whether its server runs or has ended again
      const [{ operations, replicas }] = (await (await fetch(`${hub.page}documents`)).json()).documents;
      return operations === 2 && replicas === 2;
    });
    for (const it of [ada, bob]) it.end();
  });

  test("no more run at once than have room, and all are served", async () => {
    const hub = await startDataHub(freshFolder(), "--open", "3");
    let most = 0;
    const watching = setInterval(() => (most = Math.max(most, serversStartedBy(hub.child, hub.folder).length)), 20);
    const [documents, people, rounds] = tooLong ? [12, 4, 2] : [24, 8, 3];
    const names = Array.from({ length: documents }, (_, at) => `d${at}`);
    const clients = await Promise.all(Array.from({ length: people }, () => joinLines(hub.lines)));
    let away = 0;
    // On a loaded machine a request may wait too long for room: then it is sent again.
    const insist = async (work) => {
      for (;;) {
        try {
          return await work();
        } catch (error) {
          if (error.name !== "Away" || ++away > 2000) throw error;
          await pause(100);
        }
      }
    };
    await Promise.all(clients.map(async (client, at) => {
      for (let round = 0; round < rounds; round++) {
        for (const name of names.slice(at * 3).concat(names.slice(0, at * 3))) {
          if (round === 0) await insist(() => client.open(name));
          await insist(() => client.add(name, [0, "n"], 1));
        }
      }
    }));
    for (const name of names) equal(await insist(() => clients[0].sum(name, [0, "n"])), people * rounds, name);
    clearInterval(watching);
    ok(most >= 1 && most <= 3, `${most} ran at once`);
    clients.forEach((it) => it.end());
  });

  test("a server that is killed comes back, and what was answered is there", async () => {
    const hub = await startDataHub();
    const client = await joinLines(hub.lines, "d");
    let [answered, sent] = [0, 0];
    let isOn = true;
    const killing = (async () => {
      for (let kills = 0; kills < 5; kills++) {
        const before = answered;
        await until("some more are answered", () => answered > before + 20);
        const [id] = await until("its server runs", () => serversOf(hub.folder).length > 0 && serversOf(hub.folder));
        process.kill(id, "SIGKILL");
      }
      isOn = false;
    })();
    while (isOn) {
      sent++;
      await client.add("d", [0, "n"], 1).then(() => answered++, () => pause(50));
    }
    await killing;
    const sum = await until("it answers", () => client.sum("d", [0, "n"]).catch(() => undefined));
    ok(answered > 0 && sum >= answered && sum <= sent, `${answered} answered of ${sent}, ${sum} there`);
    match(hub.child.notes, /d: it was ended by SIGKILL: it is started again/);
    client.end();
  });

  test("a hub that is killed: its servers end by themselves, and the next hub waits for them", async () => {
    const hub = await startDataHub();
    const client = await joinLines(hub.lines, "d", "e");
    for (const name of ["d", "e"]) await client.assign(name, [0, "k"], name);
    equal(serversOf(hub.folder).length, 2);
    const ids = serversOf(hub.folder);
    for (const id of ids) process.kill(id, "SIGSTOP"); // as on a machine that is busy
    await kill(hub.child);
    const next = await startDataHub(hub.folder);
    const other = new Raw(next.lines);
    other.send(["open", "d"]);
    await pause(150); // it isn't answered meanwhile
    deepEqual(other.lines, []);
    for (const id of ids) process.kill(id, "SIGCONT");
    match(await other.next(), /^\["opened",/);
    equal(await other.ask(["values", "d", [0, "k"]]), '["values",["d"]]');
    match(await other.ask(["open", "e"]), /^\["opened",/);
    equal(await other.ask(["values", "e", [0, "k"]]), '["values",["e"]]');
    await until("those of the first hub have ended", () => !serversOf(hub.folder).some((id) => ids.includes(id)));
    other.end();
  });

  test("what is answered by stored is in the file", { skip: lacks("cc") }, async () => {
    const [library, hold, program] = ["own-hold.so", "own-hold", "held-jcrdt"].map((it) => join(ROOM, it));
    execFileSync("cc", ["-shared", "-fPIC", "-o", library, HOLDER, "-ldl"]);
    writeFileSync(program, `#!/bin/sh\nLD_PRELOAD=${library} HOLD=${hold} exec ${PROGRAM} "$@"\n`, { mode: 0o755 });
    const hub = await startDataHub(freshFolder(), "--program", program);
    const [client, other] = [new Raw(hub.lines), new Raw(hub.lines)];
    for (const it of [client, other]) await it.ask(["open", "d"]);
    const [, , , id] = JSON.parse(await client.ask('["assign","d",[0,"k"],9007199254740993]'));
    equal(await other.ask(["stored", "d", id]), JSON.stringify(["stored", "d", id]));
    equal(await other.ask(["stored", "d", [2, id[1]]]), '["no",104,"not-kept"]');
    equal(await other.ask(["stored", "d", [1, "nobody"]]), '["no",104,"not-kept"]');
    writeFileSync(hold, "");
    client.send(["assign", "d", [0, "k"], 2]);
    await until("others see it", async () => /,2\]\]\]$/.test(await other.ask(["front", "d"])));
    other.send(["stored", "d", [2, id[1]]]);
    await pause(150);
    deepEqual([client.lines, other.lines], [[], []]); // neither is told so
    rmSync(hold);
    equal(await client.next(), `["applied",1,0,[2,"${id[1]}"]]`);
    equal(await other.next(), `["stored","d",[2,"${id[1]}"]]`);
    for (const it of [client, other]) it.end();
  });

  test("deliveries of one client wait together, and are answered in their order", async () => {
    const hub = await startDataHub();
    const client = new Raw(hub.lines);
    await client.ask(["open", "d"]);
    const op = (at) => ["op", [at, "ada"], at === 1 ? [] : [["ada", at - 1]], [[["m", 0]], "k"], ["assign", at]];
    const lines = [];
    for (let at = 1; at <= 300; at++) {
      lines.push([["deliver", "d", op(at)], `["applied",1,0,[${at},"ada"]]`]);
      if (at % 50 === 0) lines.push([["front", "d"], `["front",[["ada",${at}]]]`]);
      if (at % 70 === 0) lines.push([["deliver", "d", op(at)], '["known"]']);
      if (at % 90 === 0) lines.push([["deliver", "d", 5], '["no",12,"bad-operation"]'], [["deliver", "e", op(1)], '["no",5,"not-open"]']);
    }
    client.send(...lines.map(([line]) => line), ["quit"]);
    for (const [at, [line, reply]] of lines.entries()) equal(await client.next(), reply, `${at}: ${JSON.stringify(line)}`);
    equal(await client.next(), '["bye"]');
    await client.ended;
  });

  test("a file that is damaged ends no other document", async () => {
    const hub = await startDataHub();
    const client = new Raw(hub.lines);
    for (const name of ["good", "bad"]) await client.ask(["open", name]);
    await kill(hub.child, "SIGTERM");
    writeFileSync(join(hub.folder, "documents", "bad", "1.db"), "no database at all, but a text of some length\n".repeat(40));
    const next = await startDataHub(hub.folder);
    const other = new Raw(next.lines);
    equal(await other.ask(["open", "bad"]), AWAY);
    equal((await health(next)).connected, false); // none that was asked for could be opened
    match(await other.ask(["open", "good"]), /^\["opened",/);
    const { connected, trouble } = await health(next);
    equal(connected, true);
    match(trouble, /^bad: /);
    match(await metrics(next), /^jcrdt_hub_documents_failing 1$/m);
    match(next.child.notes, /hub: bad can't be opened: /);
    for (const it of [client, other]) it.end();
  });

  test("a program that isn't there: it says so, and answers", async () => {
    const hub = await startDataHub(freshFolder(), "--program", "/nowhere/jcrdt");
    const client = new Raw(hub.lines);
    equal(await client.ask(["open", "d"]), AWAY);
    equal((await fetch(`${hub.page}health`)).status, 503);
    match((await health(hub)).trouble, /ENOENT/);
    client.end();
  });

  test("a disk that is full, and then has room", { skip: process.getuid() !== 0 && "mounting a small disk needs root" }, async (context) => {
    const folder = freshFolder();
    mkdirSync(folder);
    const mounted = spawnSync("mount", ["-t", "tmpfs", "-o", "size=2m,mode=700", "tmpfs", folder]);
    if (mounted.status !== 0) return context.skip("no small disk can be mounted here");
    atEnd(() => spawnSync("umount", ["-l", folder]));
    const hub = await startDataHub(folder);
    const client = new Raw(hub.lines);
    match(await client.ask(["open", "d"]), /^\["opened",/);
    match(await client.ask(["assign", "d", [0, "k"], 1]), /^\["applied",/);
    spawnSync("sh", ["-c", `cat /dev/zero > ${folder}/fill 2>/dev/null`]);
    equal(await client.ask(["create", "e"]), AWAY);
    for (let at = 0, reply = ""; !reply.startsWith('["no"'); at++) {
      reply = await client.ask(["assign", "d", [0, `k${at}`], "x".repeat(4000)]);
      ok(at < 200, "the disk isn't full");
    }
    rmSync(join(folder, "fill"));
    await until("it goes on", async () => (await client.ask(["assign", "d", [0, "last"], 2])).startsWith('["applied",'));
    match(await client.ask(["create", "e"]), /^\["created",/);
    equal(await client.ask(["values", "d", [0, "k"]]), '["values",[1]]');
    client.end();
    await kill(hub.child, "SIGTERM");
  });

  test("two providers, and kills of servers and of the hub", async () => {
    const folder = freshFolder();
    let hub = await startDataHub(folder, "--close-after", "1");
    const at = hub.lines;
    const open = (word) => Provider.open({ document: "pad", at, store: memoryStore(), word });
    const both = [await open("ada"), await open("bob")];
    for (const it of both) atEnd(() => it.close());
    both[0].replica.assign([0, "text"], []);
    for (const it of both) await it.synced(240);
    for (let round = 0; round < 30; round++) {
      both[round % 2].replica.splice([0, "text"], 0, 0, [`${round}`]);
      if (round % 10 === 4) killServersOf(folder);
      if (round % 10 === 8) {
        await kill(hub.child);
        const words = ["--data", folder, "--program", PROGRAM, "--lines", at, "--close-after", "1"];
        const { child } = await startNode([HUB, ...words], 1);
        hub = { child };
      } else if (round % 10 !== 4) await until("it is sent", () => both[round % 2].unsent.length === 0);
    }
    for (const it of both) await it.synced(240);
    for (const it of both) await it.synced(240);
    const [ada, bob] = both.map(({ replica }) => replica.plain([0, "text"]));
    deepEqual(ada, bob);
    deepEqual(ada.map(Number).sort((a, b) => a - b), Array.from({ length: 30 }, (_, at) => at));
  });
});
