/* Tries jcrdt.wasm: node library-module.mjs MODULE. Its heap, each allocation of a session refused in turn, and the refusals of
   `open`. Prints one line, or what went wrong, with status 1. */

import assert from "node:assert/strict";
import { readFile } from "node:fs/promises";
import { opener } from "../clients/js/jcrdt.mjs";
import { Refused, print } from "../clients/js/wire.mjs";

const REQUESTS = [
  ["assign", [0, "l"], []], ["insert", [0, "l", 0], "a text that has no room in a scalar by itself"],
  ["insert", [0, "l", 1], {}], ["assign", [0, "l", 2, "a key that has no room in place of its own"], 9],
  ["deliver", ["op", [1, "bob"], [], [[["m", 0]], "b"], ["add", 5]]],
  ["deliver", ["op", [9, "eve"], [["eve", 8]], [[["m", 0]], "b"], ["add", 5]]],
  ["show", [0]], ["cursor", [0, "l", 1]], ["index", [0, "l", 1]], ["items", [0, "l"]], ["conflicts", [0, "b"]], ["sum", [0, "b"]],
  ["ops", [], 64], ["chains", [], [["ada", 9], ["bob", 1]]], ["front"], ["held"], ["forget", [9, "eve"]], ["delete", [0, "l", 1]], ["keys", [0]],
];
const FIRST = '["op",[1,"p"],[],[[["m",0]],"a"],["delete"]]';

/** The module's own exports: `opener` makes an instance, and gives it to nobody else. */
function instanceOf(module) {
  const { Instance } = WebAssembly;
  let made;
  WebAssembly.Instance = function (...words) { return (made = new Instance(...words)); };
  try {
    const open = opener(module);
    return { open, exports: made.exports };
  } finally {
    WebAssembly.Instance = Instance;
  }
}

/** What a call gives; where it is refused for lack of memory, what it gives the second time: nothing was changed. */
function asked(call) {
  const twice = () => { try { return call(); } catch (error) { if (error.number === 22) return call(); throw error; } };
  const found = twice();
  return found.reply?.[1] === 22 ? twice() : found;
}

/** A session with the n-th allocation refused. */
function session({ open, exports }, n) {
  exports.heap_refuse(BigInt(n));
  const replica = asked(() => open("ada", [FIRST]));
  const told = REQUESTS.map((request) => { const { reply, line } = asked(() => replica.ask(request)); return print([reply, line ?? null]); });
  replica.free();
  exports.heap_refuse(0n);
  return told;
}

function heap({ malloc, free, memory }) {
  for (const bytes of [0n, 1n, 15n, 1024n, 1025n, 65_536n, 1_000_000n]) {
    const at = malloc(bytes);
    assert.ok(at > 0n && at % 16n === 0n);
    new Uint8Array(memory.buffer, Number(at), Number(bytes)).fill(255);
    free(at);
    assert.equal(malloc(bytes), at, "a free block isn't used again");
  }
  for (const bytes of [1n << 38n, 1n << 45n, (1n << 64n) - 1n]) assert.equal(malloc(bytes), 0n);
}

/** Blocks taken, moved and given back at random: none lies in another, each keeps its bytes, and the memory stays small. */
function blocks({ malloc, realloc, free, memory }) {
  let seed = 1;
  const random = (n) => (seed = (seed * 1103515245 + 12345) % 2147483648) % n;
  const size = () => 1 + random(2 ** (1 + random(18)));
  const bytesOf = ({ at, length }) => new Uint8Array(memory.buffer, Number(at), length);
  const isKept = (it) => bytesOf(it).every((byte) => byte === it.mark);
  const live = [];
  let most = 0, taken = 0;
  for (let step = 0; step < 20_000; step++) {
    const choice = random(10);
    const length = size();
    if (choice < 5 || live.length === 0) {
      live.push({ at: malloc(BigInt(length)), length, mark: step % 251 });
      bytesOf(live[live.length - 1]).fill(step % 251);
      taken += length;
    } else if (choice < 7) {
      const it = live[random(live.length)];
      const kept = { ...it, length: Math.min(length, it.length) };
      kept.at = it.at = realloc(it.at, BigInt(length));
      assert.ok(isKept(kept), "a block that is moved loses bytes");
      taken += length - it.length;
      it.length = length;
      bytesOf(it).fill(it.mark);
    } else {
      const [it] = live.splice(random(live.length), 1);
      assert.ok(isKept(it), "a block's bytes are written by another");
      free(it.at);
      taken -= it.length;
    }
    if (live.length > 200) live.splice(0, 100).forEach((it) => { assert.ok(isKept(it)); free(it.at); taken -= it.length; });
    most = Math.max(most, taken);
  }
  assert.ok(live.every(isKept));
  assert.ok(memory.buffer.byteLength < 4 * most, `${memory.buffer.byteLength} bytes for ${most}`);
}

/** What a moved array leaves serves for small blocks: the memory doesn't grow for these. */
function leavings({ malloc, free, memory }) {
  const large = malloc(8_000_000n);
  free(large);
  const { byteLength } = memory.buffer;
  for (let at = 0; at < 7_000_000; at += 1000) assert.ok(malloc(900n) > 0n);
  assert.equal(memory.buffer.byteLength, byteLength);
}

function refusals(open) {
  const refused = (name, lines) => {
    try { open(name, lines).free(); } catch (error) { assert.ok(error instanceof Refused); return [error.number, error.at, error.lastCounter]; }
    return null;
  };
  assert.deepEqual(refused("ada", [FIRST, "{"]), [1, 1, undefined]);
  assert.deepEqual(refused("ada", [FIRST, FIRST]), [15, 1, undefined]);
  const second = '["op",[2,"p"],[["p",1]],[[["m",0]],"a"],["delete"]]';
  assert.deepEqual(refused("ada", [FIRST, second, '["op",[1,"q"],[],[[],0],["delete"]]', '["op",[2,"q"],[["p",1]],[[],0],["delete"]]']), [14, 3, 1]);
  assert.equal(refused("ada", [FIRST, second]), null);
}

const module = await WebAssembly.compile(await readFile(process.argv[2]));
assert.deepEqual(WebAssembly.Module.imports(module), []);
for (const it of [heap, blocks, leavings]) it(instanceOf(module).exports);
refusals(opener(module));
const due = session(instanceOf(module), 0);
let n = 1;
for (; n < 2000; n++) {
  const instance = instanceOf(module);
  assert.deepEqual(session(instance, n), due, `with allocation ${n} refused`);
  if (n > 400) break;
}
console.log(`the module's heap, its refusals, and each of ${n} allocations refused in turn: as they are to be`);
