/* Where the package jcrdt is: where Node finds it, installed or linked as a workspace of the
   repository, and else in the folder beside this package's, as in a fresh clone. */

import { existsSync } from "node:fs";

/** Where a module of the package jcrdt is.
 *  @param {string} part as `wire`
 *  @returns {string} a URL */
function placeOf(part) {
  try {
    // Since Node 18.19 it returns a text at once.
    return /** @type {any} */ (import.meta).resolve(`jcrdt/${part}`);
  } catch {
    return new URL(`../../js/${part}.mjs`, import.meta.url).href;
  }
}

/** The folder of the package jcrdt, as a URL: what browsers get is there. */
export const FOLDER = new URL(".", placeOf("wire"));

/** The module jcrdt.wasm: in that folder, and in the repository in its release. */
const packed = new URL("jcrdt.wasm", FOLDER);
export const MODULE = existsSync(packed) ? packed : new URL("../../release/jcrdt.wasm", FOLDER);

/** @type {typeof import("../../js/wire.mjs")} */
const wire = await import(placeOf("wire"));
export const {
  addressParts, covers, freshName, frontPairs, isId, isName, MOST, parse, pieces, print,
} = wire;

/** @type {typeof import("../../js/clock.mjs")} */
const clock = await import(placeOf("clock"));
export const { CLOCK, pauseBy } = clock;

/** @type {typeof import("../../js/file_lock.mjs")} */
const lock = await import(placeOf("file_lock"));
export const { locked } = lock;

/** @type {typeof import("../../js/protocol.mjs")} */
const protocol = await import(placeOf("protocol"));
export const { REQUESTS, isChange, refusalLine } = protocol;

/** It isn't exported: pages and programs don't need it.
 *  @type {typeof import("../../js/generations.mjs")} */
export const generations = await import(new URL("generations.mjs", FOLDER).href);
