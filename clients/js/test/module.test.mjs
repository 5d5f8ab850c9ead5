/* Where jcrdt.wasm is loaded from, what is said where it can't be, and that a replica goes on after a
   call has stopped within it. */

import { deepEqual, equal, match, ok, rejects, throws } from "node:assert/strict";
import { spawnSync } from "node:child_process";
import { copyFileSync, cpSync, existsSync, mkdirSync, readFileSync, readdirSync } from "node:fs";
import { join } from "node:path";
import { test } from "node:test";
import { fileURLToPath } from "node:url";
import { Worker } from "node:worker_threads";
import { Broken, Refused, Replica, load, openReplica, parse } from "../index.mjs";
import { opener } from "../jcrdt.mjs";
import { LastingEngine } from "../lasting.mjs";
import { folder, tooLong } from "./support.mjs";

const PACKAGE = fileURLToPath(new URL("..", import.meta.url));
const places = ["../jcrdt.wasm", "../../../release/jcrdt.wasm"].map((it) => new URL(it, import.meta.url));
const MODULE = places.find((it) => existsSync(it)) ?? places[1];

/** What a program in a process of its own prints.
 *  @param {string} program
 *  @param {string} at The folder of the package. */
function printed(program, at = PACKAGE) {
  const text = program.replaceAll("PACKAGE", JSON.stringify(join(at, "index.mjs")));
  const { stdout, stderr } = spawnSync("node", ["--input-type=module", "-e", text], { encoding: "utf8" });
  equal(stderr, "");
  return stdout.trimEnd();
}

/** The package's files in a folder of their own, without the module.
 *  @param {string} name */
function copied(name) {
  const room = join(folder, name, "js");
  mkdirSync(room, { recursive: true });
  for (const it of readdirSync(PACKAGE).filter((it) => it.endsWith(".mjs"))) copyFileSync(join(PACKAGE, it), join(room, it));
  return room;
}

test("a replica before `load` says what to do, and one behind it needs nothing", () => {
  const said = printed(`
    import { Replica, load } from PACKAGE;
    try { new Replica("ada", "d"); } catch (error) { console.log(error.message); }
    await load();
    console.log(new Replica("ada", "d").assign([0, "k"], 1).join());`);
  match(said, /^the engine isn't loaded: await load\(\) .*\n1,ada$/);
});

test("it is loaded once, also by several at once, and beside the file", () => {
  const room = copied("beside");
  cpSync(fileURLToPath(MODULE), join(room, "jcrdt.wasm"));
  equal(printed(`
    import { load, openReplica } from PACKAGE;
    const all = await Promise.all([load(), load(), openReplica("ada", "d")]);
    console.log(all[0] === all[1], all[0] === await load(), all[2].plain([0]));`, room), "true true undefined");
});

test("without the file it says where it looked, and takes it from elsewhere then", () => {
  const room = copied("without");
  const said = printed(`
    import { load, openReplica } from PACKAGE;
    await load().catch(({ message }) => console.log(message));
    await load({ module: ${JSON.stringify(MODULE)} });
    console.log((await openReplica("ada", "d")).plain([0]));`, room).split("\n");
  match(said[0], /^jcrdt\.wasm can't be had from file:.*\/without\/js\/jcrdt\.wasm: ENOENT/);
  equal(said[1], "undefined");
});

test("from bytes, and compiled; a later one serves new replicas", async () => {
  const bytes = readFileSync(MODULE);
  for (const module of [bytes, new Uint8Array(bytes).buffer, await WebAssembly.compile(bytes)]) {
    equal(await load({ module }), await load());
    equal(new Replica("ada", "d").assign([0, "k"], 1).join(), "1,ada");
  }
  await rejects(load({ module: new Uint8Array(8) }), WebAssembly.CompileError);
  await rejects(load({ module: "nowhere.wasm" }), /can't be had from file:.*nowhere\.wasm: ENOENT/);
});

test("where WebAssembly is forbidden it names the policy", async () => {
  const { compile } = WebAssembly;
  WebAssembly.compile = async () => { throw new WebAssembly.CompileError("by its policy"); };
  try {
    await rejects(load({ module: MODULE }), (/** @type {any} */ { message, cause }) =>
      message.includes("'wasm-unsafe-eval'") && cause.message === "by its policy");
  } finally {
    WebAssembly.compile = compile;
  }
});

test("in a worker", async () => {
  const program = `
    const { parentPort } = require("node:worker_threads");
    import(${JSON.stringify(new URL("../index.mjs", import.meta.url).href)}).then(async ({ openReplica }) => {
      const me = await openReplica("ada", "d");
      me.put([0], { a: [1, 2] });
      parentPort.postMessage(me.plain([0]));
    });`;
  const worker = new Worker(program, { eval: true });
  const told = await new Promise((told, failed) => worker.on("message", told).on("error", failed));
  deepEqual(told, { a: [1, 2] });
  await worker.terminate();
});

/** Makes a call with ever more of the stack left, from none on, as somebody else's program may, and
 *  swallows what is thrown.
 *  @param {() => void} call
 *  @param {(error: unknown) => void} after Is called after each call, with what it threw. */
function nearTheEnd(call, after) {
  const deep = (/** @type {number} */ left) => {
    if (left > 0) return 1 + deep(left - 1);
    call();
    return 0;
  };
  const errorAt = (/** @type {number} */ depth) => {
    try {
      deep(depth);
      return undefined;
    } catch (error) {
      return error;
    }
  };
  /** A depth at which the call is done. Somewhat deeper it isn't. */
  const lastGood = () => {
    let [good, bad] = [0, 100];
    while (!errorAt(bad)) bad *= 2;
    while (bad - good > 10) {
      const depth = Math.floor((good + bad) / 2);
      if (errorAt(depth)) bad = depth;
      else good = depth;
    }
    return good;
  };
  let [good, times] = [lastGood(), 0];
  for (let depth = good + 500; depth > good - 20; depth -= 2) {
    const error = errorAt(depth);
    after(error);
    if (error || depth < good + 100 || times++ > 9) continue;
    good = lastGood(); // its frames are smaller since the engine of JavaScript has optimized it
    depth = good + 500;
  }
}

const isBroken = (/** @type {unknown} */ error) => error instanceof Broken;

test("an exhausted stack costs the call that met it, and no other", { skip: tooLong }, async (context) => {
  await load({ module: MODULE });
  const [me, other] = [await openReplica("ada", "d"), await openReplica("bob", "d")];
  let [count, broken, refused, done] = [0, 0, 0, 0];
  /** @type {string[]} */
  const stored = [];
  me.listen(({ lines }) => stored.push(...lines));
  me.put([0], { list: [], n: 1 });
  other.deliverAll([...me.operations()]);
  me.watch([0, "list"], (splices) => splices.forEach(({ insert, remove }) => (count += insert.length - remove)));
  for (const call of [() => me.values([0, "n"]), () => me.insert([0, "list", 0], "x")]) {
    nearTheEnd(call, (error) => {
      if (isBroken(error)) broken++;
      else if (error) refused++;
      else done++;
      const before = me.items([0, "list"]).length;
      equal(count, before);
      me.insert([0, "list", 0], "y");
      equal(count, before + 1);
      equal(stored.length, me.count);
    });
    deepEqual(stored, me.lines().slice(1));
    other.deliverAll(stored);
    deepEqual(other.plain([0]), me.plain([0]));
  }
  context.diagnostic(`${done} calls done, ${refused} not begun, ${broken} stopped within`);
  ok(done > 10 && refused + broken > 100);
});

/** A replica in a memory of the module's own: what puts a line there, what asks it, and what reads the
 *  answer.
 *  @param {WebAssembly.Module} module */
function rawReplica(module) {
  const { memory, malloc, jcrdt_open, jcrdt_ask } = /** @type {any} */ (new WebAssembly.Instance(module).exports);
  const bytes = (/** @type {bigint} */ at, /** @type {number} */ size) => new Uint8Array(memory.buffer, Number(at), size);
  const ROOM = 4096;
  const [handle, fault, line, out] = [64, 64, ROOM, ROOM].map((size) => malloc(BigInt(size)));
  bytes(handle, 64).fill(0);
  const put = (/** @type {string} */ text) =>
    BigInt(new TextEncoder().encodeInto(text, bytes(line, ROOM)).written ?? 0);
  equal(jcrdt_open(handle, line, put("ada"), line, 0n, fault), 0n);
  return {
    put,
    ask: (/** @type {bigint} */ length) => jcrdt_ask(handle, line, length, out, BigInt(ROOM)),
    answer: (/** @type {bigint} */ length) => new TextDecoder().decode(bytes(out, Number(length))),
  };
}

test("a stack that ends while a line is read leaves the replica as it was", async () => {
  const module = await WebAssembly.compile(readFileSync(MODULE));
  const line = `["deliver",${"[".repeat(100)}${"]".repeat(100)}]`;
  let stopped = 0;
  let replica = rawReplica(module);
  let length = replica.put(line);
  nearTheEnd(() => replica.ask(length), (error) => {
    if (error) stopped++;
    equal(replica.answer(replica.ask(replica.put('["front"]'))), '["front",[]]\n');
    replica = rawReplica(module); // what stops within keeps a part of the module's own stack
    length = replica.put(line);
  });
  ok(stopped > 100);
});

test("what stops within changed nothing, and what is logged is there again", async () => {
  const module = await WebAssembly.compile(readFileSync(MODULE));
  /** @type {import("../jcrdt.mjs").Engine | undefined} */
  let engine;
  let stopping = "";
  const open = opener(module);
  const me = new Replica("ada", "d", {
    engine: (name, lines) => {
      engine = open(name, lines);
      const { ask } = engine;
      engine.ask = (request) => {
        const answer = ask.call(engine, request);
        if (request[0] === stopping) stop(/** @type {any} */ (engine));
        return answer;
      };
      return engine;
    },
  });
  /** The module as it is once an unreachable place was reached. @param {any} it */
  const stop = (it) => {
    Object.defineProperty(it, "isBroken", { value: true });
    throw new Broken(new WebAssembly.RuntimeError("unreachable"));
  };
  me.put([0, "t"], [..."x".repeat(1500)]);
  const lines = me.lines();
  stopping = "assign";
  throws(() => me.assign([0, "k"], 1), isBroken);
  deepEqual(me.lines(), lines);
  stopping = "values";
  throws(() => me.values([0, "k"]), isBroken);
  stopping = "";
  deepEqual(me.lines(), lines);
  deepEqual(me.assign([0, "k"], 2), [1502, "ada"]);
  me.undo();
  equal(me.plain([0]).k, undefined);
});

/** What opens engines in a memory of their own, and what makes the module refuse the allocation after so many there. */
function refusing() {
  const { Instance } = WebAssembly;
  /** @type {any} */
  let made;
  const noted = function (/** @type {WebAssembly.Module} */ module) { return (made = new Instance(module, {})); };
  Object.assign(WebAssembly, { Instance: noted });
  try {
    const open = opener(new WebAssembly.Module(readFileSync(MODULE)));
    return { open, refuse: (/** @type {number} */ count) => made.exports.heap_refuse(BigInt(count)) };
  } finally {
    Object.assign(WebAssembly, { Instance });
  }
}

/** Does something with each allocation of the module refused in turn, until none is refused any more.
 *  @param {(refused: number) => string} work Returns how it went: "done" where nothing was refused.
 *  @returns {Record<string, number>} How often it went so. */
function eachRefused(work) {
  /** @type {Record<string, number>} */
  const counts = {};
  for (let [refused, done] = [1, 0]; done < 20; refused++) {
    const how = work(refused);
    counts[how] = (counts[how] ?? 0) + 1;
    done = how === "done" ? done + 1 : 0;
  }
  return counts;
}

const TEXTS = Array.from({ length: 20 }, (_, at) => `${at} `.padEnd(4000, "long "));

test("where memory lacks, a splice makes what it says, and the engine isn't broken", { skip: tooLong }, () => {
  const counts = eachRefused((refused) => {
    const { open, refuse } = refusing();
    const me = new Replica("ada", "d", { engine: open });
    me.put([0], { list: ["x"] });
    const stored = me.lines();
    me.listen(({ lines }) => stored.push(...lines));
    refuse(refused);
    let how = "done";
    try {
      me.splice([0, "list"], 1, 0, TEXTS);
    } catch (/** @type {any} */ error) {
      equal(error.message, "refused: 22 no-memory");
      how = me.count === 3 ? "none made" : "some made";
    }
    refuse(0);
    deepEqual([stored.length, me.lines()], [me.count + 1, stored]);
    deepEqual(me.plain([0, "list"]), ["x", ...TEXTS.slice(0, me.count - 3)]);
    return how;
  });
  ok(counts["none made"] > 0 && counts["some made"] > 0, JSON.stringify(counts));
});

test("a run whose text met no memory stops the engine, which is opened again as before it", { skip: tooLong }, () => {
  const counts = eachRefused((refused) => {
    const { open, refuse } = refusing();
    const engine = new LastingEngine(open, "ada", []);
    engine.logged(engine.ask(["assign", [0, "l"], []]).line ?? "");
    refuse(refused);
    let [how, made] = ["refused", 0];
    try {
      const { reply, line = "" } = engine.ask(["inserts", [0, "l", 0], TEXTS]);
      if (reply[0] === "applied") [how, made] = [reply[1] === TEXTS.length ? "done" : "cut", reply[1]];
      equal(line === "" ? 0 : line.split("\n").length, made);
    } catch (error) {
      if (isBroken(error)) how = "broken";
      else ok(error instanceof Refused);
    }
    refuse(0);
    deepEqual(engine.ask(["front"]).reply, ["front", [["ada", 1 + made]]]);
    return how;
  });
  ok(counts.broken > 0 && counts.cut > 0, JSON.stringify(counts));
});

test("a freed replica says so, and not that memory lacks", async () => {
  const me = await openReplica("ada", "d");
  me.free();
  throws(() => me.plain([0]), /freed/);
  throws(() => new LastingEngine(opener(new WebAssembly.Module(readFileSync(MODULE))), "ada", ["{"]),
    (error) => error instanceof Refused && error.number === 1);
});

test("a peer's line that is nested deep is one refusal", async () => {
  const me = await openReplica("ada", "d");
  const op = '["op",[1,"bob"],[],[[["m",0]],"k"],["assign",1]]';
  for (const depth of [100, 200, 5_000]) {
    const deep = `["op",[1,"bob"],[],[[["m",0]],"k"],["assign",${"[".repeat(depth)}${"]".repeat(depth)}]]`;
    const { taken, refused } = (await openReplica("cyd", "d")).deliverAll([deep, op]);
    deepEqual([taken, refused.length], [1, 1], String(depth));
  }
  deepEqual(me.deliver(parse(op)), ["applied", 1, 0, [1, "bob"]]);
});
