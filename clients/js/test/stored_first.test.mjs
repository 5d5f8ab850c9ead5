/* What is on disk, and when: writes, syncs and sends in their order, and what is left of a write that
   failed. Each test is that of a planted bug in tests/mutations/js. */

import { deepEqual, equal, rejects, throws } from "node:assert/strict";
import fs from "node:fs";
import { syncBuiltinESMExports } from "node:module";
import { tmpdir } from "node:os";
import { join } from "node:path";
import { after, test } from "node:test";
import { CLOCK, Span } from "../clock.mjs";
import { fileStore } from "../file_store.mjs";
import { Notices } from "../notices.mjs";
import { Provider } from "../provider.mjs";
import { StoreWriter } from "../store_writer.mjs";
import { Unstored } from "../stores.mjs";
import { TestClock } from "./clock.mjs";

const room = fs.mkdtempSync(join(tmpdir(), "jcrdt-stored-"));
after(() => fs.rmSync(room, { recursive: true }));
const settle = () => new Promise((resume) => setImmediate(resume));

/** Calls `work`, and gives which calls of the system it made, in order: each by what it was about,
 *  the file or its folder. */
function callsOf(path, work) {
  const { openSync, writeSync, fsyncSync, fdatasyncSync, renameSync } = fs;
  const before = { openSync, writeSync, fsyncSync, fdatasyncSync, renameSync };
  const names = new Map();
  const calls = [];
  const note = (name, about) => calls.push(`${name} ${about}`);
  fs.openSync = (place, ...more) => {
    const file = before.openSync(place, ...more);
    names.set(file, place === room ? "folder" : place.startsWith(`${path}.lock`) ? "lock" : "file");
    return file;
  };
  for (const name of ["writeSync", "fsyncSync", "fdatasyncSync"]) {
    fs[name] = (file, ...more) => {
      if (names.get(file) !== "lock") note(name, names.get(file) ?? "file");
      return before[name](file, ...more);
    };
  }
  fs.renameSync = (from, to) => {
    if (to === path) note("renameSync", "file");
    return before.renameSync(from, to);
  };
  syncBuiltinESMExports();
  try {
    work();
  } finally {
    Object.assign(fs, before);
    syncBuiltinESMExports();
  }
  return calls;
}

test("a new file is on disk before it has its name, and its name before it is used", () => {
  const path = join(room, "new");
  const store = fileStore(path);
  deepEqual(callsOf(path, () => store.open("d", () => "ada")),
    ["writeSync file", "fsyncSync file", "renameSync file", "fsyncSync folder"]);
  deepEqual(callsOf(path, () => store.append(["one", "two"])), ["writeSync file"]);
  deepEqual(callsOf(path, () => store.flush()), ["fdatasyncSync file"]);
  deepEqual(callsOf(path, () => store.rename("bob", ["one"])),
    ["writeSync file", "fsyncSync file", "renameSync file", "fsyncSync folder"]);
  store.close();
});

test("half a line of a write that failed doesn't stay", () => {
  const path = join(room, "half");
  const store = fileStore(path);
  store.open("d", () => "ada");
  store.append(['["op",1]']);
  const whole = fs.readFileSync(path, "utf8");
  const { writeSync } = fs;
  fs.writeSync = (file, bytes, from, length, at) => {
    if (from > 0) throw Object.assign(new Error("no space left"), { code: "ENOSPC" });
    return writeSync(file, bytes, 0, Math.min(5, length), at);
  };
  syncBuiltinESMExports();
  try {
    throws(() => store.append(['["op",2]']), { code: "ENOSPC" });
    equal(fs.readFileSync(path, "utf8"), whole);
  } finally {
    fs.writeSync = writeSync;
    syncBuiltinESMExports();
  }
  store.append(['["op",3]']);
  equal(fs.readFileSync(path, "utf8"), `${whole}["op",3]\n`);
  store.close();
});

/** A store that keeps nothing, and flushes when a test says so. */
class HeldStore {
  calls = [];
  #ends = [];
  open = async () => ({ name: "ada", lines: [], unread: [] });
  append = (lines) => void this.calls.push(`append ${lines.length}`);
  flush() {
    this.calls.push("flush begins");
    return new Promise((end) => this.#ends.push(() => {
      this.calls.push("flush ends");
      end();
    }));
  }
  endFlush() {
    this.#ends.splice(0).forEach((end) => end());
  }
  rename = async () => {};
  clear = async () => {};
  close = async () => void this.calls.push("close");
}

test("what is added is flushed only once the store has flushed it", async () => {
  const store = new HeldStore();
  const writer = new StoreWriter(store, new Notices(), new Span(CLOCK, new AbortController().signal));
  writer.add(["one"]);
  let count = 0;
  const waits = [writer.flushed(), writer.flushed()].map((it) => it.then(() => count++));
  await settle();
  deepEqual([count, store.calls], [0, ["append 1", "flush begins"]]);
  store.endFlush();
  await Promise.all(waits);
  deepEqual([count, store.calls], [2, ["append 1", "flush begins", "flush ends"]]);
});

test("a provider that is closed has flushed, before the store is closed", async () => {
  const store = new HeldStore();
  const provider = await Provider.open({ document: "d", store });
  provider.replica.assign([0, "k"], 1);
  let isClosed = false;
  const closing = provider.close().then(() => (isClosed = true));
  await settle();
  deepEqual([isClosed, store.calls], [false, ["append 1", "flush begins"]]);
  store.endFlush();
  await closing;
  deepEqual(store.calls, ["append 1", "flush begins", "flush ends", "close"]);
});

test("a new name that can't be stored goes before what comes behind it, and nothing is edited until then", async () => {
  const calls = [];
  let isFull = true;
  const store = {
    append: (lines) => void calls.push(["append", ...lines]),
    flush() {},
    rename(...named) {
      if (isFull) throw new Error("no space left");
      calls.push(["rename", ...named]);
    },
  };
  const clock = new TestClock();
  const notices = new Notices();
  const writer = new StoreWriter(store, notices, new Span(clock, new AbortController().signal));
  writer.add(["one"]);
  writer.rename("bob", ["two"], ["one"]);
  writer.add(["three"]); // what a server had logged
  writer.rename("cy", ["two", "three", "four"], ["two"]);
  deepEqual(calls, [["append", "one"]]);
  equal(writer.isDone, false);
  throws(() => writer.check(), Unstored);
  await rejects(writer.flushed(), Unstored);
  equal(notices.problems.get("store").words, "a new name and the log under it aren't stored: "
    + "no space left. Nothing more can be edited until they are");
  isFull = false;
  clock.pass(1000);
  writer.add(["five"]);
  deepEqual(calls.slice(1), [["rename", "cy", ["two", "three", "four"], ["one", "two"]], ["append", "five"]]);
  equal(writer.isDone, true);
  deepEqual([...notices.problems], []);
  await writer.flushed();
});

test("a new name that comes while lines are written goes behind them", async () => {
  const calls = [];
  const ends = [];
  const call = (...words) => {
    calls.push(words);
    return new Promise((end) => ends.push(end));
  };
  const store = { append: (lines) => call("append", ...lines), flush() {}, rename: (name, lines) => call(name, ...lines) };
  const writer = new StoreWriter(store, new Notices(), new Span(CLOCK, new AbortController().signal));
  writer.add(["one"]);
  writer.add(["two"]);
  writer.rename("bob", ["one", "two"], []);
  writer.add(["three"]);
  const flushed = writer.flushed();
  for (let turn = 0; turn < 3; turn++) {
    await settle();
    ends.shift()();
  }
  await flushed;
  deepEqual(calls, [["append", "one"], ["bob", "one", "two"], ["append", "three"]]);
  equal(writer.isDone, true);
});

test("a problem is told once, also where each try fails for the same cause", () => {
  const notices = new Notices();
  const told = [];
  notices.listen(({ what }) => told.push(what));
  const problem = { kind: "store", words: "the disk is full" };
  for (let time = 0; time < 3; time++) notices.report({ ...problem });
  deepEqual(told, ["problem"]);
  notices.report({ ...problem, words: "2 changes aren't stored" });
  notices.solve("store");
  notices.solve("store");
  deepEqual(told, ["problem", "problem", "problem"]);
});

test("a listener that was taken away hears nothing more", () => {
  const notices = new Notices();
  const heard = [];
  const ends = [1, 2].map((number) => notices.listen(() => heard.push(number)));
  notices.tell({ what: "state" });
  ends[0]();
  notices.tell({ what: "state" });
  deepEqual(heard, [1, 2, 2]);
});
