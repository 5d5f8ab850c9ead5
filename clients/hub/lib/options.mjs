/* What the table of the hub's options gives: its numbers, checked, and the help. */

import { OPTIONS } from "./option_table.mjs";

/** @typedef {import("../index.js").HubOptions} HubOptions */
/** @typedef {{ least: number, most: number, usual: number }} Bounds */
/** @typedef {{ word?: string, value?: string, isMany?: boolean, help?: string, bounds?: Bounds }} Option */

/** @type {[keyof typeof OPTIONS, Option][]} */
const EVERY = /** @type {any} */ (Object.entries(OPTIONS));

/** Those of the command line, each with its word there. */
export const ON_COMMAND_LINE = EVERY.filter(([, { help }]) => help !== undefined)
  .map(([name, option]) => ({ name, word: option.word ?? name, ...option }));

/** What is usual where the hub runs its servers: nobody else changes their documents. */
const OF_DATA = { sessions: 2, poll: 2000 };

/** Each number that is given, or what it usually is.
 *  @param {HubOptions} options
 *  @throws {RangeError} for one that is out of its bounds */
export function numbersOf(options) {
  /** @type {Partial<Record<keyof HubOptions, number>>} */
  const usualOf = options.data === undefined ? {} : OF_DATA;
  const checked = EVERY.flatMap(([name, { bounds }]) => {
    if (!bounds) return [];
    const { least, most, usual } = bounds;
    const number = /** @type {number} */ (options[name] ?? usualOf[name] ?? usual);
    if (number >= least && number <= most) return [[name, number]];
    throw new RangeError(`${name} is ${least} to ${most}`);
  });
  return /** @type {Record<Numbers, number>} */ (Object.fromEntries(checked));
}

/** @typedef {{ [Name in keyof typeof OPTIONS]:
 *    (typeof OPTIONS)[Name] extends { bounds: Bounds } ? Name : never }[keyof typeof OPTIONS]} Numbers */

const INDENT = " ".repeat(24); // of what is said of an option

/** The lines of the help, with the usual value of each number. */
export function help() {
  const lines = ON_COMMAND_LINE.map(({ word, value, help = "", bounds }) => {
    const said = `${help}${bounds ? ` (${bounds.usual})` : ""}`.replaceAll("\n", `\n${INDENT}`);
    return `${`  --${word} ${value ?? ""}`.padEnd(INDENT.length)}${said}\n`;
  });
  return lines.join("");
}
