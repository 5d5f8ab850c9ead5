/* A provider's store in a file: full disks, two programs, kills, damaged lines. */

import { deepEqual, equal, match, ok, rejects, throws } from "node:assert/strict";
import { spawn, spawnSync } from "node:child_process";
import {
  appendFileSync, copyFileSync, existsSync, lstatSync, readFileSync, readdirSync, renameSync, rmSync, statSync, symlinkSync,
  utimesSync, writeFileSync,
} from "node:fs";
import { once } from "node:events";
import node from "node:test";
import { fileURLToPath } from "node:url";
import { Busy, Provider, Unstored } from "../provider.mjs";
import { fileStore } from "../file_store.mjs";
import { until } from "./chromium.mjs";
import { room } from "./serving.mjs";
import { tooLong } from "./support.mjs";

const test = (name, work, skip = false) => node(name, { timeout: 900_000, skip }, work);
const part = (name) => fileURLToPath(new URL(`parts/${name}`, import.meta.url));
const opened = (file, document = "notes") =>
  Provider.open({ document, word: "ada", store: fileStore(file) });
const isOfSession = (line) => line.startsWith('["session",');
const linesOf = (file) => readFileSync(file, "utf8").split("\n").slice(0, -1).filter((it) => !isOfSession(it));

test("what is edited is in the file at once, and there at the next start", async () => {
  const file = `${room()}/notes`;
  const first = await opened(file);
  first.replica.put([0], { title: "Plan", steps: ["ask", "build"] });
  const { name } = first.replica;
  equal(linesOf(file).length, 1 + 5); // the head, the map, the title, the list, two steps
  await first.close();
  const second = await opened(file);
  equal(second.replica.name, name);
  deepEqual(second.replica.values([0, "title"]), ["Plan"]);
  second.replica.assign([0, "title"], "Plan B");
  await second.close();
  equal(linesOf(file).length, 7);
});

test("a disk that is full for a moment", (t) => {
  const folder = room();
  const words = `mount -t tmpfs -o size=32k none ${folder} && exec "$0" ${part("full_disk.mjs")} ${folder}`;
  const run = spawnSync("unshare", ["-rm", "sh", "-c", words, process.execPath]);
  const told = run.stderr?.toString() ?? "";
  if (run.error || /unshare|mount/.test(told)) return t.skip(`no mount here: ${told || run.error}`);
  equal(told, "");
  const seen = JSON.parse(run.stdout.toString());
  // One more edit is taken when the disk is full, and then none until it is stored.
  ok(seen.refused.length > 20, `${seen.refused.length} refused`);
  ok(seen.refused.every((name) => name === "Unstored"));
  match(seen.problems[0], /^1 change isn't stored: ENOSPC/);
  equal(seen.done.length + seen.refused.length, 64);
  ok(seen.isSolved);
  deepEqual(seen.lines, ["replica", "session", ...seen.done.map(() => "op")]);
  deepEqual([...seen.keys].sort(), [...seen.done].sort());
  equal(seen.unread, 0);
});

test("a second program on one file", async () => {
  const folder = room();
  const file = `${folder}/notes`;
  const first = await opened(file);
  await rejects(opened(file), (error) => error instanceof Busy && /another program/.test(error.message));
  const program = `import { fileStore } from ${JSON.stringify(part("../../file_store.mjs"))};
    try { fileStore(${JSON.stringify(file)}).open("notes", () => "ada"); console.log("open"); }
    catch (error) { console.log(error.name); }`;
  const words = ["--input-type=module", "-e", program];
  equal(spawnSync(process.execPath, words).stdout.toString(), "Busy\n");
  first.replica.assign([0, "title"], "Plan");
  await first.close();
  equal(spawnSync(process.execPath, words).stdout.toString(), "open\n");
  deepEqual(readdirSync(folder), ["notes"]); // no lock is left
  const again = await opened(file);
  deepEqual(again.replica.values([0, "title"]), ["Plan"]);
  await again.close();
});

test("a link to a file is that file: one program has it, and the link stays", async () => {
  const folder = room();
  const [file, link] = [`${folder}/notes`, `${folder}/link`];
  symlinkSync("notes", link); // it leads nowhere yet
  const first = await opened(link);
  for (const path of [file, link]) await rejects(opened(path), Busy);
  first.replica.assign([0, "title"], "Plan");
  await first.close();
  deepEqual(readdirSync(folder).sort(), ["link", "notes"]);
  const lines = linesOf(file);
  writeFileSync(file, `${lines.join("\n")}\n["op",]\n`); // so it is opened under a new name
  const second = await opened(link);
  await rejects(opened(file), Busy);
  second.replica.assign([0, "other"], 1);
  await second.close();
  ok(lstatSync(link).isSymbolicLink());
  deepEqual(linesOf(file).length, 3);
});

/** Writes the lock of a program that can't be seen from here, last renewed so many seconds ago. */
function leave(file, seconds, more) {
  writeFileSync(`${file}.lock`, JSON.stringify({ process: 1, since: "1", number: 0, ...more }));
  const then = Date.now() / 1000 - seconds;
  utimesSync(`${file}.lock`, then, then);
}

test("a lock of a container that was killed is taken over after a minute", async () => {
  const { hostname } = await import("node:os");
  for (const holder of [{ host: "c0ffee012345" }, { host: hostname(), space: "pid:[1]" }]) {
    const file = `${room()}/notes`;
    leave(file, 50, holder);
    await rejects(opened(file), Busy);
    leave(file, 61, holder);
    await (await opened(file)).close();
  }
});

test("the time of a lock is renewed, and who lost it stores nothing more", async () => {
  const file = `${room()}/notes`;
  const first = await opened(file);
  const before = Date.now() - 40_000;
  utimesSync(`${file}.lock`, before / 1000, before / 1000);
  await until("it is renewed", () => statSync(`${file}.lock`).mtimeMs > before + 30_000);
  leave(`${file}.of-another`, 0, { host: "c0ffee012345" });
  renameSync(`${file}.of-another.lock`, `${file}.lock`); // as behind a minute in which this one stood still
  await until("it sees that", () => {
    first.replica.assign([0, "title"], "Plan");
    return first.problems.has("store");
  });
  match(first.problems.get("store").words, /another program has taken this over/);
  throws(() => first.replica.assign([0, "title"], "Plan B"), Unstored);
  await rejects(first.close(), Unstored);
  ok(existsSync(`${file}.lock`)); // it is the other one's
});

test("a lock whose process was killed is taken over, by one program alone", async () => {
  const file = `${room()}/notes`;
  const module = JSON.stringify(part("../../file_store.mjs"));
  const holder = `import { fileStore } from ${module};
    const stored = fileStore(${JSON.stringify(file)}).open("notes", () => "ada");
    console.log(stored.name); setInterval(() => {}, 1000);`;
  const child = spawn(process.execPath, ["--input-type=module", "-e", holder]);
  await once(child.stdout, "data");
  await rejects(opened(file), Busy);
  child.kill("SIGKILL");
  await once(child, "exit");
  ok(existsSync(`${file}.lock`));
  const results = await Promise.allSettled([opened(file), opened(file), opened(file)]);
  const providers = results.filter((it) => it.status === "fulfilled").map((it) => it.value);
  equal(providers.length, 1);
  await providers[0].close();
});

test("many programs that start at once beside a lock that was left: one has it", async () => {
  const file = `${room()}/notes`;
  const left = { process: 2 ** 22 + 1, since: "1", host: "" };
  left.host = (await import("node:os")).hostname();
  writeFileSync(`${file}.lock`, JSON.stringify(left));
  const program = `import { fileStore } from ${JSON.stringify(part("../../file_store.mjs"))};
    try { fileStore(${JSON.stringify(file)}).open("notes", () => "ada"); console.log("open");
      setInterval(() => {}, 1000); }
    catch (error) { console.log(error.name); }`;
  const children = Array.from({ length: 6 }, () =>
    spawn(process.execPath, ["--input-type=module", "-e", program]));
  const told = await Promise.all(children.map(async (child) =>
    (await once(child.stdout, "data"))[0].toString().trim()));
  children.forEach((child) => child.kill());
  deepEqual(told.sort(), ["Busy", "Busy", "Busy", "Busy", "Busy", "open"]);
});

test("locks that are left again and again: never do two programs have one file", async () => {
  const memory = existsSync("/dev/shm") ? "/dev/shm" : undefined; // no disk slows them down there
  const file = `${room(memory)}/notes`;
  const children = Array.from({ length: 8 }, () =>
    spawn(process.execPath, [part("lock_contender.mjs"), file, "4"]));
  const told = await Promise.all(children.map(async (child) => {
    let text = "";
    child.stdout.on("data", (piece) => (text += piece));
    await once(child, "close");
    return text.trim();
  }));
  for (const text of told) match(text, /^\d+$/); // how often it had the file
  ok(told.reduce((sum, text) => sum + Number(text), 0) > 20);
}, tooLong);

test("a lock of a program that has ended, and whose parent hasn't asked how", async () => {
  const file = `${room()}/notes`;
  const holder = `require("fs").writeFileSync(process.argv[1] + ".lock", JSON.stringify({
    process: process.pid, host: require("os").hostname(), number: 0,
    since: require("fs").readFileSync("/proc/self/stat", "utf8").split(") ")[1].split(" ")[19] }));`;
  const words = `"$0" -e '${holder}' "$1" & echo $!; exec sleep 600`; // sleep never asks
  const child = spawn("sh", ["-c", words, process.execPath, file]);
  const id = String((await once(child.stdout, "data"))[0]).trim();
  await until("it has ended", () => /\) Z /.test(readFileSync(`/proc/${id}/stat`, "utf8")));
  ok(existsSync(`${file}.lock`));
  await (await opened(file)).close();
  child.kill();
});

test("a last line that was cut off in writing", async () => {
  const file = `${room()}/notes`;
  const first = await opened(file);
  first.replica.assign([0, "a"], 1);
  await first.close();
  const before = readFileSync(file, "utf8");
  appendFileSync(file, '["op",[2,"ada');
  const second = await opened(file);
  equal(second.problems.size, 0);
  second.replica.assign([0, "b"], 2);
  await second.close();
  equal(linesOf(file).length, 3);
  ok(readFileSync(file, "utf8").startsWith(before));
});

test("a damaged line: the others are taken, and it is said and kept", async () => {
  const folder = room();
  const file = `${folder}/notes`;
  const first = await opened(file);
  for (const key of ["a", "b", "c"]) first.replica.assign([0, key], key);
  const old = first.replica.name;
  await first.close();
  const lines = linesOf(file);
  lines[2] = lines[2].replace('"b"', '"b'); // the second operation
  writeFileSync(file, `${lines.join("\n")}\n`);
  const second = await opened(file);
  deepEqual(second.replica.keys([0]), ["a"]);
  const { words, lines: lost } = second.problems.get("unread");
  match(words, /^2 of 3 stored lines couldn't be read or used/); // the third one knew the second
  deepEqual(lost.sort(), lines.slice(2).sort());
  ok(second.replica.name !== old); // since the old name made operations that aren't here
  second.replica.assign([0, "d"], "d");
  await second.close();
  deepEqual(readFileSync(`${file}.old`, "utf8").replace("\t\n", " \n"), `${lines.join("\n")}\n`);
  const third = await opened(file);
  deepEqual(third.replica.keys([0]), ["a", "d"]);
  equal(third.problems.size, 0);
  await third.close();
});

test("a damaged line of a file that an older package wrote, or of an export: it is said once, and kept", async () => {
  const folder = room();
  const file = `${folder}/notes`;
  const first = await opened(file);
  for (const key of ["a", "b"]) first.replica.assign([0, key], key);
  const lines = first.saved.trimEnd().split("\n"); // without the mark
  await first.close();
  for (const [damaged, kept] of [[["", '["op",[3,"x"', "hello"], ["a", "b"]], [["hello"], ["a", "b"]]]) {
    for (const it of readdirSync(folder)) rmSync(`${folder}/${it}`);
    const text = [...lines, ...damaged].map((line) => `${line}\n`).join("");
    writeFileSync(file, text);
    const second = await opened(file);
    deepEqual(second.replica.keys([0]), kept);
    const { words, lines: lost } = second.problems.get("unread");
    const unread = damaged.filter((line) => line !== "");
    match(words, new RegExp(`^${unread.length} of ${unread.length + 2} stored lines couldn't be read or used`));
    deepEqual(lost, unread);
    await second.close();
    equal(readFileSync(`${file}.old`, "utf8"), text);
    const third = await opened(file);
    equal(third.problems.size, 0);
    await third.close();
  }
});

test("an export whose last line has no end: that is taken where it is whole, and else kept", async () => {
  const folder = room();
  const file = `${folder}/notes`;
  const first = await opened(file);
  for (const key of ["a", "b"]) first.replica.assign([0, key], key);
  const text = first.saved.trimEnd();
  await first.close();
  for (const [cut, keys] of [[text, ["a", "b"]], [text.slice(0, -1), ["a"]]]) {
    for (const it of readdirSync(folder)) rmSync(`${folder}/${it}`);
    writeFileSync(file, cut);
    const second = await opened(file);
    deepEqual(second.replica.keys([0]), keys);
    await second.close();
    equal(existsSync(`${file}.old`) && readFileSync(`${file}.old`, "utf8"), keys.length === 2 ? false : cut);
  }
});

test("a copy of a file goes on under a name of its own; a file that was moved or killed keeps it", async () => {
  const folder = room();
  const [file, copy, moved] = [`${folder}/notes`, `${folder}/copy`, `${folder}/moved`];
  const first = await opened(file);
  const { name: empty } = first.replica;
  copyFileSync(file, copy); // nothing was edited yet
  const early = await opened(copy);
  ok(early.replica.name !== empty);
  await early.close();
  first.replica.assign([0, "a"], 1);
  copyFileSync(file, copy);
  const bytes = readFileSync(file);
  await first.close();
  const running = await opened(copy);
  ok(running.replica.name !== empty);
  deepEqual(running.replica.values([0, "a"]), [1]);
  const { name } = running.replica;
  await running.close();
  const again = await opened(copy); // it is no copy any more
  equal(again.replica.name, name);
  await again.close();
  writeFileSync(file, bytes); // as a kill leaves it
  renameSync(file, moved);
  const last = await opened(moved);
  equal(last.replica.name, empty);
  await last.close();
  deepEqual(readdirSync(folder).sort(), ["copy", "moved"]);
});

test("a line that is there twice is taken once", async () => {
  const file = `${room()}/notes`;
  const first = await opened(file);
  for (const key of ["a", "b"]) first.replica.assign([0, key], key);
  const { name } = first.replica;
  await first.close();
  const lines = linesOf(file);
  writeFileSync(file, `${[...lines.slice(0, 2), ...lines.slice(1)].join("\n")}\n`);
  const second = await opened(file);
  deepEqual(second.replica.keys([0]), ["a", "b"]);
  equal(second.replica.name, name);
  equal(second.problems.size, 0);
  await second.close();
});

test("a file of something else stays as it is", async () => {
  const folder = room();
  writeFileSync(`${folder}/letter`, "Dear Grace,\nhow are you?\n");
  await rejects(opened(`${folder}/letter`), /is no file of a replica/);
  equal(readFileSync(`${folder}/letter`, "utf8"), "Dear Grace,\nhow are you?\n");
  await (await opened(`${folder}/notes`)).close();
  await rejects(opened(`${folder}/notes`, "other"), /has the document notes, not other/);
  await (await opened(`${folder}/notes`)).close();
});

test("a program that is killed at any moment loses nothing that it had said", async () => {
  const file = `${room()}/notes`;
  const program = `import { Provider } from ${JSON.stringify(part("../../provider.mjs"))};
    import { fileStore } from ${JSON.stringify(part("../../file_store.mjs"))};
    const notes = await Provider.open({ document: "notes", store: fileStore(${JSON.stringify(file)}) });
    for (let number = 0; ; number++) {
      notes.replica.assign([0, "last"], number);
      process.stdout.write(number + "\\n");
      await new Promise(setImmediate);
    }`;
  let said = -1;
  for (const count of [1, 40, 150]) {
    const child = spawn(process.execPath, ["--input-type=module", "-e", program]);
    let text = "";
    child.stdout.on("data", (piece) => (text += piece));
    await until("it has said so much", () => text.split("\n").length > count);
    child.kill("SIGKILL");
    await once(child, "close");
    said = Number(text.trimEnd().split("\n").at(-1));
    const again = await opened(file);
    ok(again.replica.values([0, "last"])[0] >= said);
    equal(again.problems.size, 0);
    await again.close();
  }
});

test("after its end a provider takes no edits", async () => {
  const file = `${room()}/notes`;
  const first = await opened(file);
  await first.close();
  throws(() => first.replica.assign([0, "a"], 1), Unstored);
  equal(linesOf(file).length, 1);
  copyFileSync(file, `${file}-2`);
});
