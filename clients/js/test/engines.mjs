/* The engines that the tests of a replica run over: the one of the package, and the rules by hand. */

import { load } from "../jcrdt.mjs";
import { open as byHand } from "../../../tests/rules.mjs";

/** @typedef {import("../jcrdt.mjs").Open} Open */

/** @type {[name: string, open: Open][]} */
export const engines = [["the module", await load()], ["the rules by hand", byHand]];
export { byHand };
