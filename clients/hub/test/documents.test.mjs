/* A hub that runs its servers: documents on demand, what they may be called, and who may make them. */

import { deepEqual, equal, match, ok } from "node:assert/strict";
import { execFileSync } from "node:child_process";
import { existsSync, mkdirSync, readdirSync, statSync, writeFileSync } from "node:fs";
import { join } from "node:path";
import { test } from "node:test";
import { freshFolder, NO_DOCUMENT, serversOf, startDataHub, WAYS } from "./data_hub.mjs";
import { HUB, hubWithin, joinWeb, kill, launch, PROGRAM, Raw, ROOM, suite } from "./support.mjs";

suite("documents on demand", { concurrency: true }, () => {
  test("a document is there when it is opened first, and has a file of its own", async () => {
    const hub = await startDataHub();
    const client = new Raw(hub.lines);
    equal(await client.ask(["version"]), '["version",2]');
    deepEqual(serversOf(hub.folder), []);
    const names = ["trip", "-x", "--durable", "--", "-", "0", "a".repeat(32), "a", "con", "lock"];
    for (const [at, name] of names.entries()) {
      match(await client.ask(["open", name]), /^\["opened",\d+\]$/, name);
      match(await client.ask(["assign", name, [0, "at"], at]), /^\["applied",1,0,/);
    }
    for (const [at, name] of names.entries()) {
      equal(await client.ask(["values", name, [0, "at"]]), `["values",[${at}]]`, name);
    }
    equal(await client.ask(["list", ""]), JSON.stringify(["documents", names.slice().sort()]));
    equal(await client.ask(["list", "a"]), JSON.stringify(["documents", names.filter((it) => it > "a").sort()]));
    equal(statSync(hub.folder).mode & 0o777, 0o700);
    await kill(hub.child, "SIGTERM");
    deepEqual(serversOf(hub.folder), []);
    for (const name of names) {
      const file = join(hub.folder, "documents", name, "1.db");
      const [doc] = execFileSync(PROGRAM, ["check", "--file", file], { encoding: "utf8", stdio: "pipe" }).split("\n");
      deepEqual(JSON.parse(doc).slice(0, 3), ["doc", name, 1]);
      equal(statSync(file).mode & 0o777, 0o600);
    }
    client.end();
  });

  test("what is no name of a document is refused, and leaves nothing", async () => {
    const hub = await startDataHub();
    const client = new Raw(hub.lines);
    for (const name of ["", "A", "a/b", "..", ".", "../x", "a".repeat(33), "a b", "ä", "a\u0000", "__proto__"]) {
      equal(await client.ask(["open", name]), NO_DOCUMENT, name);
      equal(await client.ask(["create", name]), '["no",2,"bad-request"]', name);
    }
    for (const line of [["open"], ["open", 5], ["open", "d", 1], ["nothing", "d"], ["list"], ["list", 1], [], "x", ["version", 1]]) {
      equal(await client.ask(JSON.stringify(line)), '["no",2,"bad-request"]', JSON.stringify(line));
    }
    equal(await client.ask(["values", "d", [0]]), '["no",5,"not-open"]');
    deepEqual(readdirSync(join(hub.folder, "documents")), []);
    client.end();
  });

  test("a document that is made isn't made twice, also by many at once", async () => {
    const hub = await startDataHub();
    const clients = Array.from({ length: 20 }, () => new Raw(hub.lines));
    const replies = await Promise.all(clients.map((it) => it.ask(["create", "one"])));
    equal(replies.filter((it) => it === '["created","one"]').length, 1);
    equal(replies.filter((it) => it === '["no",105,"there-already"]').length, 19);
    deepEqual(serversOf(hub.folder), []); // a server is for who opens it
    const opened = await Promise.all(clients.map((it) => it.ask(["open", "two"])));
    for (const it of opened) match(it, /^\["opened",/);
    equal(serversOf(hub.folder).length, 1);
    clients.forEach((it) => it.end());
  });

  test("admit says who may open, make and list", async () => {
    const folder = freshFolder();
    const admit = ({ url }) => ({
      all: { read: true, write: true },
      reader: { read: true },
      ada: { write: (document) => document.startsWith("ada-"), list: true },
      guest: { write: ["notes"], create: false },
    }[url.split("?")[1]] ?? false);
    const hub = await hubWithin({ data: folder, program: PROGRAM, web: "127.0.0.1:0", note: () => {}, admit });
    const joined = (who) => joinWeb(hub.page, {}, `lines?${who}`);
    const [all, reader, ada, guest] = await Promise.all(["all", "reader", "ada", "guest"].map(joined));
    const ask = (client, ...request) => client.answer(JSON.stringify(request));
    equal(await ask(guest, "open", "notes"), NO_DOCUMENT); // it may not make it
    match(await ask(all, "open", "notes"), /^\["opened",/);
    match(await ask(guest, "open", "notes"), /^\["opened",/);
    equal(await ask(reader, "open", "plans"), NO_DOCUMENT);
    match(await ask(reader, "open", "notes"), /^\["opened",/);
    equal(await ask(reader, "assign", "notes", [0, "k"], 1), '["no",103,"not-allowed"]');
    match(await ask(ada, "open", "ada-1"), /^\["opened",/);
    equal(await ask(ada, "open", "notes"), '["no",103,"not-allowed"]');
    equal(await ask(ada, "create", "notes"), '["no",103,"not-allowed"]');
    equal(await ask(ada, "list", ""), '["documents",["ada-1"]]');
    equal(await ask(reader, "list", ""), '["documents",["ada-1","notes"]]');
    equal(await ask(guest, "list", ""), '["no",103,"not-allowed"]');
    const documents = async (who) => {
      const response = await fetch(`${hub.page}documents?${who}`);
      return response.status === 200 ? (await response.json()).documents.map(({ name }) => name) : response.status;
    };
    deepEqual(await Promise.all(["all", "ada", "guest", "nobody"].map(documents)), [["ada-1", "notes"], ["ada-1"], 403, 403]);
    for (const it of [all, reader, ada, guest]) it.end();
  });

  test("a hub has its folder alone, and takes no other one", async () => {
    const hub = await startDataHub();
    const second = launch(process.execPath, [HUB, "--data", hub.folder, "--program", PROGRAM, ...WAYS]);
    await second.ended;
    equal(second.exitCode, 1);
    match(second.notes, /another program has this open/);
    const other = freshFolder();
    mkdirSync(other);
    writeFileSync(join(other, "letter.txt"), "");
    const third = launch(process.execPath, [HUB, "--data", other, ...WAYS]);
    await third.ended;
    equal(third.exitCode, 1);
    match(third.notes, /has other files/);
    deepEqual(readdirSync(other), ["letter.txt"]);
  });

  test("command lines that don't fit together are status 2", async () => {
    const wrong = [
      [["--data", "x"], /neither lines nor web/], [["--data", "x", ...WAYS, "--file", "f"], /for a hub with a server/],
      [["--data", "x", ...WAYS, "--durable"], /for a hub with a server/], [["--data", "x", "dance"], /dance is no command/],
      [["--data", "x", "rename", "a"], /rename takes: NAME OTHER/], [["a:1", ...WAYS, "--program", "p"], /program is for data/],
      [["--data", "x", ...WAYS, "--open", "0"], /open is 1 to/], [["--data", "x", "toString"], /toString is no command/],
    ];
    await Promise.all(wrong.map(async ([words, said]) => {
      const child = launch(process.execPath, [HUB, ...words]);
      await child.ended;
      equal(child.exitCode, 2, words.join(" "));
      match(child.notes, said);
    }));
    ok(!existsSync(join(ROOM, "x")));
  });
});
