/* The columns of a row of bench/replicas: node replicas.mjs module|yjs MODULE */

import { readFileSync } from "node:fs";
import { createRequire } from "node:module";
import { gzipSync } from "node:zlib";

const [which, module] = process.argv.slice(2);
const CLIENTS = new URL("../clients/js/", import.meta.url);
const megabytes = () => { globalThis.gc?.(); return process.memoryUsage().rss / 1e6; };

/** Milliseconds of the processor for what `work` does, and what it returns. */
async function timed(work) {
  const began = process.cpuUsage();
  const found = await work();
  const { user, system } = process.cpuUsage(began);
  return [(user + system) / 1000, found];
}

const [WATCHED, KEYS] = [40_000, 500]; // the length of the watched list, the keys

let seed = 1;
const random = (n) => (seed = (seed * 1103515245 + 12345) % 2147483648) % n;

/** What types at an index, and what takes operations, of an engine. */
function ofEngine(open) {
  const list = [0, "l"];
  const make = (name) => {
    const engine = open(name, []);
    const lines = [engine.ask(["assign", list, []]).line];
    return { engine, lines, type: (at) => lines.push(engine.ask(["insert", [...list, at], "x"]).line) };
  };
  const take = (lines) => {
    const { engine } = make("reader");
    for (const line of lines) engine.ask(["deliver", JSON.parse(line)]);
    return engine;
  };
  /** Opens what `writer` has stored, its lines. */
  const reopen = (writer) => open("writer", writer.lines);
  return { make, take, reopen, watched: (lines) => watched(open, lines) };
}

/** What types a key at random into a list that is watched; and what takes a key of another. */
async function watched(open, lines) {
  const { Replica } = await import(new URL("replica.mjs", CLIENTS));
  const of = (name) => Replica.restore([`["replica","${name}","d"]`, ...lines], { engine: open });
  const [me, other] = [of("me"), of("other")];
  let heard = 0;
  me.watch([0, "l"], (splices) => (heard += splices.length));
  const came = [];
  other.listen((event) => came.push(...event.lines));
  for (let at = 0; at < KEYS; at++) other.splice([0, "l"], random(WATCHED), 0, "y");
  return {
    type: () => me.splice([0, "l"], random(WATCHED), 0, "x"),
    take: () => me.deliver(came.shift()),
    isHeard: () => heard === 2 * KEYS,
  };
}

function ofYjs(Y) {
  const make = () => {
    const doc = new Y.Doc();
    const list = doc.getArray("l");
    const lines = [];
    doc.on("update", (update) => lines.push(update));
    return { doc, lines, type: (at) => list.insert(at, ["x"]) };
  };
  const take = (lines) => {
    const doc = new Y.Doc();
    for (const line of lines) Y.applyUpdate(doc, line);
    return doc;
  };
  const watched = async (lines) => {
    const { doc, lines: came, type } = make();
    for (const line of lines) Y.applyUpdate(doc, line);
    const me = take(came);
    const list = me.getArray("l");
    let heard = 0;
    list.observe(() => heard++);
    came.splice(0);
    for (let at = 0; at < KEYS; at++) type(random(WATCHED));
    return {
      type: () => list.insert(random(WATCHED), ["x"]),
      take: () => Y.applyUpdate(me, came.shift()),
      isHeard: () => heard === 2 * KEYS,
    };
  };
  /** Opens what `writer` would store, one update of all. */
  const reopen = (writer) => take([Y.encodeStateAsUpdate(writer.doc)]);
  return { make, take, reopen, watched };
}

const FILES = {
  module: () => [readFileSync(module), ...["jcrdt.mjs", "errors.mjs", "json.mjs", "protocol.mjs"].map((it) => readFileSync(new URL(it, CLIENTS)))],
  yjs: () => [readFileSync("/usr/share/nodejs/yjs/dist/yjs.cjs")],
};
const LOAD = {
  module: async () => {
    const { load } = await import(new URL("jcrdt.mjs", CLIENTS));
    const open = await load({ module: readFileSync(module) });
    open("none", []).free();
    return ofEngine(open);
  },
  yjs: async () => ofYjs(createRequire(import.meta.url)("/usr/share/nodejs/yjs")),
};

const bytes = Buffer.concat(FILES[which]());
const before = megabytes();
const [load, { make, take, reopen, watched: watchedOf }] = await timed(LOAD[which]);
const writer = make("writer");
const [type] = await timed(() => { for (let at = 0; at < 20_000; at++) writer.type(random(at + 1)); });
for (let at = 20_000; writer.lines.length < 50_000; at++) writer.type(random(at + 1));
const [took, reader] = await timed(() => take(writer.lines));
const grown = megabytes() - before;
const [opening, opened] = await timed(() => reopen(writer));
const list = await watchedOf(writer.lines.slice(0, WATCHED + 1));
const [key] = await timed(() => { for (let at = 0; at < KEYS; at++) list.type(); });
const [theirs] = await timed(() => { for (let at = 0; at < KEYS; at++) list.take(); });
console.log([bytes.length / 1000, gzipSync(bytes).length / 1000, load, type / 1000, took / 1000, grown, opening / 1000, key / KEYS, theirs / KEYS].join(" "));
if (!reader || !opened || !list.isHeard()) process.exit(1);
