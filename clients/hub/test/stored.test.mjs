/* `stored`: an answer that means "on disk". */

import { deepEqual, equal, match, ok } from "node:assert/strict";
import { execFileSync } from "node:child_process";
import { rmSync, writeFileSync } from "node:fs";
import { join } from "node:path";
import { test } from "node:test";
import { fileURLToPath } from "node:url";
import {
  joinLines, kill, lacks, PROGRAM, Raw, ROOM, startHub, startServer, suite,
} from "./support.mjs";

const NOT_KEPT = '["no",104,"not-kept"]';
const HOLDER = fileURLToPath(new URL("../../../tests/hold-writes.c", import.meta.url));

/** How many operations of a document are in a file that nobody serves. */
const rows = (file) => {
  const lines = execFileSync(PROGRAM, ["check", "--file", file], { encoding: "utf8", stdio: "pipe" });
  return JSON.parse(lines.split("\n")[0])[2];
};

suite("stored", { concurrency: true }, () => {
  test("a hub without the file asks the server: what is answered survives a kill at once", async () => {
    const server = await startServer(["d"]);
    const hub = await startHub(server.address);
    const client = new Raw(hub.lines);
    equal(await client.ask(["stored", "d", [1, "srv-1"]]), '["no",5,"not-open"]');
    await client.ask(["open", "d"]);
    for (let at = 0; at < 300; at++) client.send(["assign", "d", [0, "k"], at]);
    for (let at = 0; at < 300; at++) await client.next();
    equal(await client.ask(["stored", "d", [300, "srv-1"]]), '["stored","d",[300,"srv-1"]]');
    await kill(server.child);
    equal(rows(server.file), 300);
    client.end();
  });

  test("with the server's file: what is answered survives a kill at once", async () => {
    const server = await startServer(["d", "e"]);
    const hub = await startHub(server.address, "--file", server.file);
    const client = await joinLines(hub.lines, "d", "e");
    await client.add("e", [0, "n"], 1);
    let last;
    for (let at = 0; at < 3000; at++) {
      const adding = client.add("d", [0, "n"], 1);
      if (at === 2999) last = await adding;
    }
    deepEqual(last, [3000, "srv-1"]);
    equal(await client.answer(JSON.stringify(["stored", "d", last])), '["stored","d",[3000,"srv-1"]]');
    await kill(server.child);
    equal(rows(server.file), 3000);
    client.end();
  });

  test("what the server hasn't written to its file isn't stored", { skip: lacks("cc") }, async () => {
    const [library, hold] = [join(ROOM, "hold.so"), join(ROOM, "hold")];
    execFileSync("cc", ["-shared", "-fPIC", "-o", library, HOLDER, "-ldl"]);
    const server = await startServer(["d"], { env: { LD_PRELOAD: library, HOLD: hold } });
    const hub = await startHub(server.address, "--file", server.file);
    const [client, other] = [new Raw(hub.lines), new Raw(hub.lines)];
    for (const it of [client, other]) await it.ask(["open", "d"]);
    await client.ask(["assign", "d", [0, "k"], 1]);
    equal(await client.ask(["stored", "d", [1, "srv-1"]]), '["stored","d",[1,"srv-1"]]');
    writeFileSync(hold, "");
    equal(await client.ask(["assign", "d", [0, "k"], 2]), '["applied",1,0,[2,"srv-1"]]');
    client.send(["stored", "d", [2, "srv-1"]]);
    for (let it = 0; it < 100; it++) await other.ask(["values", "d", [0, "k"]]); // a reply would have come
    deepEqual(client.lines, []);
    rmSync(hold);
    equal(await client.next(), '["stored","d",[2,"srv-1"]]');
    await kill(server.child);
    equal(rows(server.file), 2);
    for (const it of [client, other]) it.end();
  });

  test("what isn't in the log won't be in the file, and what is no id is no request", async () => {
    const server = await startServer(["d"]);
    const hub = await startHub(server.address, "--file", server.file);
    const client = new Raw(hub.lines);
    await client.ask(["open", "d"]);
    await client.ask(["assign", "d", [0, "k"], 1]);
    equal(await client.ask(["stored", "d", [1, "srv-1"]]), '["stored","d",[1,"srv-1"]]');
    equal(await client.ask(["stored", "d", [2, "srv-1"]]), NOT_KEPT);
    equal(await client.ask(["stored", "d", [1, "nobody"]]), NOT_KEPT);
    for (const id of [5, null, [0, "a"], ["a", 1], [1]]) {
      equal(await client.ask(["stored", "d", id]), '["no",2,"bad-request"]', JSON.stringify(id));
    }
    client.end();
  });

  test("after a kill, what was lost isn't kept, and what came again is", async () => {
    let server = await startServer(["d"]);
    const hub = await startHub(server.address, "--file", server.file);
    const client = await joinLines(hub.lines, "d");
    const ids = await Promise.all(Array.from({ length: 500 }, () => client.add("d", [0, "n"], 1)));
    await kill(server.child);
    const kept = rows(server.file);
    server = await startServer(["d"], server);
    const answers = await Promise.all(ids.map((id) => client.answer(JSON.stringify(["stored", "d", id]))));
    equal(answers.filter((it) => it.startsWith('["stored",')).length, kept);
    equal(answers.filter((it) => it === NOT_KEPT).length, 500 - kept);
    const id = await client.add("d", [0, "n"], 1);
    match(await client.answer(JSON.stringify(["stored", "d", id])), /^\["stored",/);
    await kill(server.child);
    equal(rows(server.file), kept + 1);
    client.end();
  });

  test("with --durable what the server has is stored", async () => {
    const server = await startServer(["d"]);
    const hub = await startHub(server.address, "--durable");
    const client = new Raw(hub.lines);
    await client.ask(["open", "d"]);
    await client.ask(["assign", "d", [0, "k"], 1]);
    equal(await client.ask(["stored", "d", [1, "srv-1"]]), '["stored","d",[1,"srv-1"]]');
    equal(await client.ask(["stored", "d", [2, "srv-1"]]), NOT_KEPT);
    client.end();
  });

  test("a file that isn't there is noted, and asked for again", async () => {
    const server = await startServer(["d"]);
    const hub = await startHub(server.address, "--file", "no/such/folder.db");
    const client = new Raw(hub.lines);
    await client.ask(["open", "d"]);
    equal(await client.ask(["version"]), '["version",2]');
    ok(hub.child.exitCode === null);
    client.end();
  });
});
