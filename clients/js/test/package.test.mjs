/* The package: packed, installed in an empty folder without a network, its page's example run there,
   its types used there. */

import { deepEqual, equal, match } from "node:assert/strict";
import { spawnSync } from "node:child_process";
import { mkdirSync, readFileSync, readdirSync, writeFileSync } from "node:fs";
import { join } from "node:path";
import { test } from "node:test";
import { fileURLToPath } from "node:url";
import { folder, startServer, tooLong } from "./support.mjs";

const PACKAGE = fileURLToPath(new URL("..", import.meta.url));
const MODULE = new URL("../../../release/jcrdt.wasm", import.meta.url);
const EMBEDDED = new URL("../../../docs/EMBEDDED.md", import.meta.url);
const read = (/** @type {string} */ name) => readFileSync(join(PACKAGE, name), "utf8");

/** @param {string} command
 *  @param {string[]} words
 *  @param {string} cwd */
function run(command, words, cwd) {
  const env = { ...process.env, npm_config_cache: join(folder, "cache"), npm_config_update_notifier: "false" };
  const { status, stdout, stderr } = spawnSync(command, words, { cwd, encoding: "utf8", env, timeout: 900_000 });
  equal(status, 0, `${command} ${words.join(" ")}: ${stdout}${stderr}`);
  return stdout;
}

/** @param {string} command */
const lacks = (command) => spawnSync(command, ["--version"]).status !== 0 && `${command} isn't installed`;

test("one version everywhere", () => {
  equal(JSON.parse(read("package.json")).version, read("../../VERSION").trim());
});

// `tools/check types` finds what this test and the next one find, in one run. The next finds all errors but those of index.d.ts.
test("types", { skip: lacks("tsc") || tooLong, timeout: 1_000_000 }, () => {
  run("tsc", ["-p", "."], PACKAGE);
});

test("types/ is what the comments say", { skip: lacks("tsc") || tooLong, timeout: 1_000_000 }, () => {
  const made = join(folder, "types");
  run("tsc", ["-p", "types.json", "--outDir", made], PACKAGE);
  const names = readdirSync(made).sort();
  deepEqual(readdirSync(join(PACKAGE, "types")).sort(), names);
  for (const name of names) {
    equal(read(`types/${name}`), readFileSync(join(made, name), "utf8"), `npm run types: ${name}`);
  }
});

test("packed and installed in an empty folder", { skip: lacks("npm"), timeout: 2_000_000 }, async (context) => {
  run("npm", ["pack", "--offline", "--pack-destination", folder], PACKAGE);
  const packed = readdirSync(folder).find((name) => name.endsWith(".tgz")) ?? "";
  const room = join(folder, "project");
  mkdirSync(room);
  writeFileSync(join(room, "package.json"), '{"name":"project","type":"module"}');
  run("npm", ["install", "--offline", "--no-audit", "--no-fund", join(folder, packed)], room);
  const examples = [...read("README.md").matchAll(/```js\n([^]*?)```/g)].map(([, text]) => text);
  const example = examples.find((text) => text.includes("operations to store")) ?? "";
  writeFileSync(join(room, "example.mjs"), example);
  const { address } = await startServer(["notes"]);
  const said = run("node", ["example.mjs", address], room).trimEnd().split("\n");
  deepEqual(said.map((line) => line.replace(/^\d+ /, "")), [
    "operations to store", "operations to store", "operations to store", "operations to store",
    "{ steps: [ 'ask', 'think', 'build' ], title: 'Plan' }",
  ]);
  match(read("README.md"), /It ends with `\{ steps: \[ 'ask', 'think', 'build' \], title: 'Plan' \}`/);
  const installed = join(room, "node_modules", "jcrdt");
  deepEqual(readFileSync(join(installed, "jcrdt.wasm")), readFileSync(MODULE), "the engine is the released module");
  equal(readdirSync(installed).filter((it) => /wasm$|rules/.test(it)).join(), "jcrdt.wasm", "and there is no other");
  const { exports } = JSON.parse(read("package.json"));
  for (const part of Object.keys(exports).filter((it) => it !== "./package.json")) {
    const name = `jcrdt${part.slice(1)}`;
    run("node", ["-e", `import("${name}").then((it) => Object.keys(it).length || process.exit(1))`], room);
  }
  const page = readFileSync(EMBEDDED, "utf8");
  writeFileSync(join(room, "offline.mjs"), /```js\n([^]*?)```/.exec(page)?.[1] ?? "");
  const due = /It prints `([^`]*)`/.exec(page)?.[1];
  for (let time = 0; time < 2; time++) { // the second time it has what the first one stored
    equal(run("node", ["offline.mjs"], room).trimEnd(), due);
  }
  if (lacks("tsc")) return context.diagnostic("tsc isn't installed: the types weren't used");
  writeFileSync(join(room, "use.ts"), USE);
  const strict = ["--strict", "--noEmit", "--target", "es2022", "--lib", "es2022,dom"];
  for (const kind of tooLong ? ["node16"] : ["node16", "node"]) { // `node` reads no `exports`
    const module = kind === "node" ? "es2022" : kind;
    run("tsc", [...strict, "--module", module, "--moduleResolution", kind, "use.ts"], room);
  }
});

/** A program that uses each export, and what is an error. */
const USE = `
  import { Broken, Client, Counter, Refused, Replica, connected, openReplica, plain, type Id } from "jcrdt";
  import { browserStore } from "jcrdt/browser_store";
  import { fileStore } from "jcrdt/file_store";
  import { caretMarks } from "jcrdt/caret_marks";
  import { followed } from "jcrdt/follow";
  import { load } from "jcrdt/jcrdt";
  import { Provider, type State } from "jcrdt/provider";
  import { Replica as Same } from "jcrdt/replica";
  import { connectedToHub } from "jcrdt/session";
  import { memoryStore, type Store } from "jcrdt/stores";
  import { bindText } from "jcrdt/text_field";
  import { Away, parse } from "jcrdt/wire";
  await load({ module: new Uint8Array() });
  const me: Replica = new Same("ada", "d");
  const other: Replica = await openReplica("bob", "d", me.lines().slice(1));
  const id: Id = me.assign([0, "k"], 1);
  const stop: () => void = me.listen(({ lines }) => lines.map((line: string) => line.length));
  const client: Client = await connected("127.0.0.1:1", { seconds: 5 });
  let sum: number | bigint = await client.sum("d", [0, "n"]);
  sum = me.sum([0, "n"]);
  for await (const [, [counter]] of followed("127.0.0.1:1", "d", { front: [["a", 1]] })) sum = counter;
  const stores: Store[] = [memoryStore(), fileStore("notes"), browserStore("notes")];
  const notes: Provider = await Provider.open({ document: "d", at: "wss://h/lines", store: stores[0] });
  const others: ReadonlyMap<string, any> = notes.presence.others;
  const state: State = notes.state;
  const word: "online" | "connecting" | "offline" | "refused" = state.word;
  const taken: string[] = await notes.discardRefused({ seconds: 1 });
  const unmade: string[] = await notes.remakeRefused({ seconds: 1 });
  const differing: string | undefined = state.refused?.differs?.name;
  const may: boolean | undefined = notes.canWrite;
  await notes.synced({ seconds: 5, signal: new AbortController().signal });
  const field = document.querySelector("textarea")!;
  const end: () => void = bindText(notes, [0, "text"], field, { carets: caretMarks(field) });
  const front: Map<string, number> = await (await connectedToHub("wss://h/lines")).front("d");
  // @ts-expect-error: a cursor is an array
  me.values(0);
  // @ts-expect-error: a place is an array
  me.assign("d", "title");
  // @ts-expect-error: so is that of a session
  await client.assign("d", "title", "Plan");
  // @ts-expect-error: a document is wanted
  await Provider.open({ at: "127.0.0.1:1" });
  // @ts-expect-error: there is no such state
  const wrong: "lost" = notes.state.word;
  console.log(taken, may, state.refused?.count, id, stop, sum, new Counter(1), Refused, Broken, Away, other, plain([]), parse("[]"), load, word, end, front, wrong, others);
  export {};
`;
