/* Random runs of programs over copied stores: in the end all are online, and each edit is everywhere, once.

     SEEDS=1000 SEED=1 node --test clients/js/test/random_copies.test.mjs   so many of each; the first one
     TRACE=1 SEED=17 SEEDS=1 ..                                              what happened in one */

import { deepEqual } from "node:assert/strict";
import { existsSync } from "node:fs";
import { test } from "node:test";
import { load } from "../jcrdt.mjs";
import { faultOf } from "./random_copies.mjs";
import { room } from "./serving.mjs";
import { tooLong } from "./support.mjs";

const FIRST = Number(process.env.SEED ?? 1);
const LIMIT = { timeout: 3_600_000 };

/** @param {Parameters<typeof faultOf>[2]} which
 *  @param {number} usual How many seeds.
 *  @param {number} slow How many where there is time.
 *  @param {number[]} [more] Seeds at which something went wrong once. */
async function runs(which, usual, slow, more = []) {
  await load();
  const folder = room(existsSync("/dev/shm") ? "/dev/shm" : undefined); // no disk slows it down there
  const count = Number(process.env.SEEDS ?? (process.env.JCRDT_SLOW ? slow : tooLong ? Math.ceil(usual / 5) : usual));
  const seeds = Array.from({ length: count }, (_, at) => FIRST + at);
  const faults = [];
  for (const seed of new Set([...seeds, ...(process.env.SEEDS ? [] : more)])) {
    const fault = await faultOf(folder, seed, which);
    if (fault !== undefined) faults.push(fault);
  }
  deepEqual(faults, []);
}

test("random copies of stores, and kills: each edit is there once, and a name is one program's", LIMIT,
  () => runs("copies", 40, 2000));

test("copies of an older package's store, online for moments: each edit is there once", LIMIT,
  () => runs("moments", 10, 1000, [40, 52, 182, 204]));

test("a server is killed while it is compared: what others send again is there once", LIMIT,
  () => runs("losses", 10, 1000, [53]));
