#!/usr/bin/env node
/* The hub as a program: see HELP. `index.mjs` has it as a function. */

import { existsSync } from "node:fs";
import { join, resolve } from "node:path";
import { parseArgs } from "node:util";
import { pathToFileURL } from "node:url";
import { atDesk, hub } from "./index.mjs";
import { askedHub, commandOf, COMMANDS, runCommand, write } from "./lib/control.mjs";
import { help, ON_COMMAND_LINE } from "./lib/options.mjs";

const HELP = `usage: jcrdt-hub SERVER [--lines ADDRESS] [--web ADDRESS] [OPTION..]
       jcrdt-hub --data DIR [--lines ADDRESS] [--web ADDRESS] [OPTION..]
       jcrdt-hub --data DIR COMMAND

Carries many clients on a few lasting sessions of the server at SERVER, HOST:PORT, or of servers that
it runs itself: one for each document that is used, with its file below DIR.

${help()}  --help, --version

A COMMAND is done by the hub that has DIR, or by this program where none has:
${Object.entries(COMMANDS).map(([name, { words, help: does }]) =>
    `  ${`${name} ${words}`.padEnd(22)}${does}\n`).join("")}
Writes ["lines",ADDRESS] and ["page",URL] to standard output, and notes to standard error. Ends at
SIGTERM and SIGINT with status 0. A wrong command line is status 2, other errors are 1.
`;

const PARENT_MS = 500; // how often is looked whether npx has ended

/** What `parseArgs` takes. A flag has no value. */
const ARGUMENTS = Object.fromEntries([
  ...ON_COMMAND_LINE.map(({ word, value, isMany = false }) =>
    [word, { type: value ? "string" : "boolean", multiple: isMany }]),
  ...["help", "version"].map((word) => [word, { type: "boolean" }]),
]);

/** Ends the program: the command line is wrong.
 *  @param {unknown} error
 *  @returns {never} */
function misused(error) {
  const usage = HELP.slice(0, HELP.indexOf("\n"));
  process.stderr.write(`jcrdt-hub: ${/** @type {Error} */ (error).message}\n${usage}; --help\n`);
  process.exit(2);
}

/** What is given, by the words of the command line. With `data` a command may follow.
 *  @param {string[]} words
 *  @returns {Record<string, any>} */
function read(words) {
  try {
    /** @type {{ values: Record<string, any>, positionals: string[] }} */
    const { values, positionals } = parseArgs(
      { args: words, options: ARGUMENTS, allowPositionals: true });
    const isAsked = values.help || values.version;
    if (isAsked) return values;
    if (values.data !== undefined) return { ...values, command: positionals };
    if (positionals.length !== 1) throw new TypeError("one SERVER is to be given");
    return { ...values, server: positionals[0] };
  } catch (error) {
    throw misused(error);
  }
}

/** A number as it is written; NaN, which is out of all bounds, for what is none.
 *  @param {string} text */
const number = (text) => (/^\d+$/.test(text) ? Number(text) : NaN);

/** The function admit of a module.
 *  @param {string} file */
async function admitOf(file) {
  const { admit, default: other } = await import(pathToFileURL(resolve(file)).href);
  const found = admit ?? other?.admit ?? other;
  if (typeof found !== "function") throw new TypeError(`${file} exports no function admit`);
  return found;
}

/** The options of a hub, by the words of the command line that are given.
 *  @param {Record<string, any>} values */
async function givenOf({ server, ...values }) {
  const given = ON_COMMAND_LINE.filter(({ word }) => values[word] !== undefined)
    .map(({ name, word, bounds }) => [name, bounds ? number(values[word]) : values[word]]);
  const { JCRDT_REDIS: redis } = process.env;
  const isOfFleet = redis !== undefined && values.hub !== undefined;
  const options = {
    ...(server !== undefined && { server }), ...(isOfFleet && { redis }), ...Object.fromEntries(given),
  };
  return values.admit === undefined ? options : { ...options, admit: await admitOf(values.admit) };
}

async function main() {
  const values = read(process.argv.slice(2));
  if (values.help) return void process.stdout.write(HELP);
  if (values.version) return void process.stdout.write(`jcrdt-hub ${await version()}\n`);
  if (values.command?.length > 0) return runOn(values.data, values.program, values.command);
  const given = await givenOf(values);
  const running = await hub(/** @type {any} */ (given)).catch((error) => {
    if (error instanceof TypeError || error instanceof RangeError) misused(error);
    throw error;
  });
  const stop = () => void running.stop().then(() => process.exit(0));
  process.on("SIGTERM", stop).on("SIGINT", stop);
  endWithNpx(stop);
  if (running.lines) console.log(JSON.stringify(["lines", running.lines]));
  if (running.page) console.log(JSON.stringify(["page", running.page]));
}

/** Has a command done by the hub that has a folder, or does it where none has.
 *  @param {string} data @param {string | undefined} program @param {[string, ...string[]]} words */
async function runOn(data, program, [word, ...words]) {
  try {
    commandOf(word, words);
  } catch (error) {
    misused(error);
  }
  const say = (/** @type {string} */ line) => write(process.stdout, line);
  if (await askedHub(join(resolve(data), "control"), [word, ...words], say)) return;
  if (word !== "create" && !existsSync(data)) throw new Error(`${data} isn't there`);
  await atDesk({ data, ...(program !== undefined && { program }) },
    (desk) => runCommand(desk, word, words, say));
}

/** npx keeps SIGTERM to itself, so its end is what this program sees of it.
 *  @param {() => void} stop */
function endWithNpx(stop) {
  if (process.env.npm_command !== "exec") return;
  const parent = process.ppid;
  const timer = setInterval(() => process.ppid === parent || stop(), PARENT_MS);
  timer.unref();
}

async function version() {
  const { readFile } = await import("node:fs/promises");
  return JSON.parse(await readFile(new URL("package.json", import.meta.url), "utf8")).version;
}

main().catch((error) => {
  process.stderr.write(`jcrdt-hub: ${error.message}\n`);
  process.exit(1);
});
