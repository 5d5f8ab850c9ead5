/* JSON, values, fronts, the shape of operations, lines. */

import { deepEqual, equal, match, ok, throws } from "node:assert/strict";
import { spawnSync } from "node:child_process";
import { mkdtempSync, rmSync, writeFileSync } from "node:fs";
import { tmpdir } from "node:os";
import { dirname, join } from "node:path";
import { test } from "node:test";
import {
  Away, Conflict, Counter, LineCutter, Lost, Refused, addressParts, checkShape, checkValue, covers,
  errorOf, freshName, frontPairs, isName, parse, pieces, plain, print, settled,
} from "../index.mjs";
import { Page } from "../operations.mjs";

test("JSON has exact integers, to and fro", () => {
  const long = '["a",12345678901234567890,"12345678901234567890\\"",{},[-9223372036854775808],1]';
  deepEqual(parse(long),
    ["a", 12345678901234567890n, '12345678901234567890"', {}, [-9223372036854775808n], 1]);
  equal(print(parse(long)), long);
  deepEqual(parse(' [ 9007199254740991 ,\t9007199254740992, {"x":9007199254740993}]'),
    [9007199254740991, 9007199254740992n, { x: 9007199254740993n }]);
  for (const text of ["1.0", "1e2", "-0", "0.5", "1E1"]) ok(Number.isNaN(parse(`[${text}]`)[0]), text);
  deepEqual(parse('["1.5","1e2 -0"]'), ["1.5", "1e2 -0"]);
  for (const none of ["", "[", "[1,]", "01", "[-]", "nul", "[1.]"]) {
    throws(() => parse(none), SyntaxError, none);
  }
  equal(print({ a: [1n, { b: undefined, c: null }], __proto__: null }), '{"a":[1,{"c":null}]}');
  for (const none of [NaN, Infinity, undefined, () => 1, Symbol("x"), new Map(), new Date(0)]) {
    throws(() => print(["a", none]), TypeError);
  }
});

test("what no operation can hold is refused, and counted before it is put", () => {
  for (const bad of [1.5, NaN, 2 ** 53, 2n ** 63n, -(2n ** 63n) - 1n, "é".repeat(2049), "\ud800",
    new Date(0), new Map(), new Set(), /x/, new (class {})(), Object(""), new Uint8Array(1),
    () => 1, Symbol("x"), new Conflict([1]), undefined, new Counter(1.5), new Counter(1, 1.5)]) {
    throws(() => checkValue(bad), { number: 6, name: "bad-value" }, String(bad?.constructor?.name));
    if (bad !== undefined) throws(() => checkValue({ a: [bad] }), { number: 6 });
  }
  throws(() => checkValue({ ["é".repeat(65)]: 1 }), { number: 7 });
  /** @type {any} */
  const circle = {};
  circle.self = circle;
  throws(() => checkValue(circle), { number: 20 });
  for (const [value, count] of /** @type {[any, number][]} */ ([
    [1, 1], ["v".repeat(4096), 1], [2n ** 63n - 1n, 1], [-0, 1], [{}, 1], [{ a: undefined }, 1],
    [[undefined, 1], 2], [{ a: [1, { b: null }] }, 5], [new Counter(1), 1], [new Counter(0, "x"), 2],
    [[new Counter(1)], 3], [new Counter(2n ** 65n), 5], [Object.create(null), 1],
  ])) equal(checkValue(value), count);
  deepEqual(pieces(2n ** 64n), [2n ** 63n - 1n, 2n ** 63n - 1n, 2]);
  deepEqual([pieces(0), pieces(-(2n ** 63n) - 1n)], [[0], [-(2n ** 63n), -1]]);
});

test("plain values, and what is settled", () => {
  const shown = parse('[["map",[["k",[["val",[1,"p"],"x"],["val",[1,"q"],"y"],["cnt","18446744073709551616"]]],["n",[]]]]]');
  const value = plain(shown);
  deepEqual(value, { k: new Counter(2n ** 64n, new Conflict(["x", "y"])), n: undefined });
  deepEqual(settled(value), { k: new Counter(2n ** 64n, "y"), n: undefined });
  equal(settled(value, ({ values }) => values[0]).k.value, "x");
  deepEqual(Object.keys(plain(parse('[["map",[["__proto__",[["val",[1,"p"],1]]]]]]'))), ["__proto__"]);
});

test("fronts and names", () => {
  ok(covers(new Map([["p", 2]]), [2, "p"]) && !covers(new Map([["p", 2]]), [3, "p"]));
  ok(!covers(new Map(), [1, "constructor"]));
  deepEqual(frontPairs(new Map([["b", 1], ["a", 2], ["a-1", 3]])), [["a", 2], ["a-1", 3], ["b", 1]]);
  ok(isName(freshName("ada")) && freshName("ada") !== freshName("ada"));
  deepEqual(addressParts("[::1]:70"), { host: "::1", port: 70 });
  throws(() => addressParts("nowhere"), TypeError);
});

test("the shape of operations", () => {
  const good = ["op", [2, "p"], [["o", 1]], [[["m", 0], ["l", "k"]], [1, "o"]], ["assign", 1]];
  checkShape(good);
  const path = (/** @type {number} */ length) => Array.from({ length }, (_, at) => ["m", at ? "a" : 0]);
  /** @type {[any, number][]} */
  const bad = [
    [5, 12], [null, 12], [["op"], 12], [[...good, 1], 12], [["op", 1, 2, 3, 4], 12],
    [good.with?.(1, [0, "p"]) ?? ["op", [0, "p"], ...good.slice(2)], 12],
    [["op", [2, "P"], ...good.slice(2)], 12], [["op", [2, "p"], {}, ...good.slice(3)], 12],
    [["op", [2, "p"], [["o", 0]], ...good.slice(3)], 12],
    [["op", [3, "p"], [["o", 1]], ...good.slice(3)], 13],
    [["op", [2, "p"], [["o", 1], ["a", 1]], ...good.slice(3)], 13],
    [["op", [1, "p"], [], [path(31), "a"], ["assign", 1]], 20],
    [["op", [1, "p"], [], [path(1), 1], ["assign", 1]], 12],
    [["op", [1, "p"], [], [[["m", 0]], "a"], ["insert", 1]], 12],
    [["op", [1, "p"], [], [[["l", 0]], 1], ["assign", 1]], 12],
    [["op", [1, "p"], [], [[], 0], ["assign", { a: 1 }]], 12],
    [["op", [1, "p"], [], [[], 0], ["add", "1"]], 12],
    [["op", [1, "p"], [], [[], 0], ["move"]], 12],
  ];
  for (const [op, number] of bad) throws(() => checkShape(op), { number }, print(op));
  checkShape(["op", [1, "p"], [], [path(30), "a"], ["assign", 1]]);
});

test("a page knows its operations by their texts, and the last one of each replica", () => {
  /** @param {number | string} counter @param {string} name */
  const op = (counter, name, value = "x") => `["op",[${counter},"${name}"],[],[[["m",0]],"k"],["assign",${print(value)}]]`;
  /** @param {string[]} texts */
  const page = (texts) => new Page(`["ops",[${texts.join(",")}]]`);
  const runs = [op(8, "ada"), op(9, "ada"), op(10, "ada"), op(11, "bob"), op(12, "ada-2"), op(13, "ada"), op(14, "ada"),
    op(99_999, "ada-2", ',["op",[1,"cyd"],'), op(100_000, "ada-2")];
  for (let count = 0; count <= runs.length; count++) {
    const some = runs.slice(0, count);
    const { texts, length, last, operations } = page(some);
    deepEqual([texts, length, operations], [some, count, some.map((it) => parse(it))]);
    deepEqual(last, new Map(some.map((it) => /** @type {[string, number]} */ ([parse(it)[1][1], parse(it)[1][0]]))));
  }
  for (const bad of [op(0, "ada"), op(100_001, "ada"), op(7, "Ada"), op(7.5, "ada")]) {
    for (const some of [[bad], [op(8, "ada"), bad], [op(8, "bob"), bad], [bad, op(8, "ada")]]) {
      const { texts, length, last } = page(some);
      deepEqual([texts, length, [...last.values()]], [undefined, some.length, some.length > 1 ? [8] : []], some.join());
    }
  }
});

test("one error for each kind of failure", () => {
  const lost = errorOf(["no", 100, "server-lost"], "add");
  ok(lost instanceof Lost && !(lost instanceof Refused));
  ok(errorOf(["no", 101, "server-away"], "add") instanceof Away);
  ok(errorOf(["no", 102, "reply-too-long"], "show") instanceof Refused);
  for (const word of ["assign", "insert", "delete", "add", "deliver", "forget"]) {
    ok(errorOf(["no", 102, "reply-too-long"], word) instanceof Lost, word);
  }
  for (const word of ["let", "open", "ops", "front", "held", "say", "no such word"]) {
    ok(errorOf(["no", 102, "reply-too-long"], word) instanceof Refused, word);
  }
  const forked = errorOf(["no", 14, "forked", 7], "deliver");
  ok(forked instanceof Refused && forked.lastCounter === 7);
  deepEqual(forked instanceof Refused && forked.reply, ["no", 14, "forked", 7]);
});

test("lines of any length, in pieces of any length, up to a limit", () => {
  const text = ["", "a", "é😀".repeat(100), "", "z".repeat(1000)].join("\n") + "\n";
  const bytes = new TextEncoder().encode(text);
  for (const size of [1, 3, 64, 5000]) {
    /** @type {string[]} */
    const lines = [];
    const cutter = new LineCutter((line) => lines.push(new TextDecoder().decode(line)), 1000);
    for (let at = 0; at < bytes.length; at += size) cutter.take(bytes.subarray(at, at + size));
    equal(lines.map((line) => `${line}\n`).join(""), text);
    equal(cutter.size(), 0);
  }
  const cutter = new LineCutter(() => {}, 10);
  cutter.take(new Uint8Array(10));
  throws(() => cutter.take(new Uint8Array(1)), RangeError);
});

test("names are made also where Node has no global `crypto`, as Debian's Node 18", (context) => {
  const flag = "--no-experimental-global-webcrypto";
  if (!process.allowedNodeEnvironmentFlags.has(flag)) return context.skip("this Node has always one");
  const file = join(mkdtempSync(join(tmpdir(), "jcrdt-js-")), "names.mjs");
  writeFileSync(file, `import { freshName } from ${JSON.stringify(new URL("../wire.mjs", import.meta.url).href)};
    console.log(typeof globalThis.crypto, freshName("ada"));`);
  const { stdout, stderr } = spawnSync(process.execPath, [flag, file], { encoding: "utf8" });
  rmSync(dirname(file), { recursive: true });
  match(stdout, /^undefined ada-[a-z0-9]{10}\n$/, stderr);
});

test("a refusal's code is its name, and what UTF-8 can't write is said so", () => {
  const full = new Refused(18);
  deepEqual([full.code, full.name, full.number], ["log-full", "log-full", 18]);
  const message = /half a character/;
  for (const value of ["a\ud800", ["\udc00"]]) throws(() => checkValue(value), { code: "bad-value", message });
  throws(() => checkValue({ "\ud800": 1 }), { code: "bad-cursor", message });
  throws(() => checkValue("x".repeat(4097)), { message: /a text of more than 4096 bytes/ });
});
