/* The commands of a hub's operator, over a socket in its folder: whoever may open that folder may use
   it. A connection sends one line, and gets lines; the last one says how it ended. */

import { chmod, rm } from "node:fs/promises";
import net from "node:net";
import { createInterface } from "node:readline";
import { messageOf } from "./notes.mjs";

/** @typedef {import("./desk.mjs").Desk} Desk */
/** @typedef {(desk: Desk, ...words: string[]) => AsyncIterable<string> | Iterable<string> |
 *    Promise<Iterable<string>>} Command Its lines for the operator. */
/** @typedef {{ words: string, help: string, run: Command }} Entry */

const DONE = '["done"]';

/** By their names, with their words and what they do.
 *  @type {Record<string, Entry>} */
export const COMMANDS = {
  list: {
    words: "", help: "each document, with what is known of it",
    run: async (desk) => (await desk.list()).map((it) => JSON.stringify(it)),
  },
  create: {
    words: "NAME", help: "make a document",
    run: (desk, name = "") => desk.create(name).then(() => []),
  },
  rename: {
    words: "NAME OTHER", help: "give a document another name; clients that have it open are dropped",
    run: (desk, name = "", other = "") => desk.rename(name, other).then(() => []),
  },
  delete: {
    words: "NAME", help: "put it into the bin, with --redis of each hub; its clients are dropped",
    run: (desk, name = "") => desk.delete(name).then((entry) => [entry]),
  },
  bin: {
    words: "", help: "what is in the bin",
    run: (desk) => desk.deleted(),
  },
  restore: {
    words: "ENTRY [NAME]", help: "take a document out of the bin",
    run: (desk, entry = "", name) => desk.restore(entry, name).then(() => []),
  },
  renew: {
    words: "NAME", help: "put what a document shows into its next generation, which is said",
    run: (desk, name = "") => desk.renew(name).then((generation) => [generation]),
  },
  found: {
    words: "HUB,..", help: "with --redis: documents of these hubs, all that there are, are renewed",
    run: (desk, hubs = "") => desk.found(hubs.split(",")).then(() => []),
  },
  export: {
    words: "NAME", help: "a document's operations as lines, as `clients/python/run load` takes them",
    run: (desk, name = "") => desk.export(name),
  },
};

/** Takes commands at a path, and resolves with how to end that.
 *  @param {Desk} desk @param {string} path @param {import("./notes.mjs").Note} note */
export async function openControl(desk, path, note) {
  await rm(path, { force: true }); // of a hub that was killed: this one has the folder's lock
  const server = net.createServer((socket) => {
    socket.on("error", () => {}); // its close follows
    createInterface({ input: socket }).once("line", (line) => {
      answer(desk, line, (it) => write(socket, it))
        .catch((error) => socket.write(`${JSON.stringify(["error", messageOf(error)])}\n`))
        .finally(() => socket.end());
    });
  });
  const isListening = await new Promise((resolve) => {
    server.on("error", (error) => {
      note(`no commands can be taken at ${path}: ${error.message}`);
      resolve(false);
    });
    server.listen(path, () => resolve(true));
  });
  if (isListening) await chmod(path, 0o600);
  return () => void server.close();
}

/** @param {Desk} desk @param {string} line @param {(line: string) => Promise<void>} say */
async function answer(desk, line, say) {
  const [word, ...words] = JSON.parse(line);
  await runCommand(desk, word, words, say);
  await say(DONE);
}

/** @param {Desk} desk @param {string} word @param {string[]} words
 *  @param {(line: string) => Promise<void>} say */
export async function runCommand(desk, word, words, say) {
  for await (const it of await commandOf(word, words).run(desk, ...words)) await say(it);
}

/** @param {string} word @param {string[]} words
 *  @throws {TypeError} where it is none, or has other words */
export function commandOf(word, words) {
  const command = Object.hasOwn(COMMANDS, word) ? COMMANDS[word] : undefined;
  const named = command?.words.split(" ").filter((it) => it) ?? [];
  const least = named.filter((it) => !it.startsWith("[")).length;
  const isRight = words.length >= least && words.length <= named.length;
  if (!command) throw new TypeError(`${word} is no command`);
  if (!isRight) throw new TypeError(`${word} takes: ${command.words || "nothing"}`);
  return command;
}

/** Has the hub at a path run a command. Resolves false where none listens there.
 *  @param {string} path @param {string[]} words @param {(line: string) => Promise<void>} say
 *  @returns {Promise<boolean>} */
export async function askedHub(path, words, say) {
  const socket = net.connect(path);
  const isThere = await new Promise((resolve) => {
    socket.on("connect", () => resolve(true)).on("error", () => resolve(false));
  });
  if (!isThere) return false;
  socket.write(`${JSON.stringify(words)}\n`);
  for await (const line of createInterface({ input: socket })) {
    if (line === DONE) return true;
    const failure = /^\["error",(.*)\]$/.exec(line)?.[1];
    if (failure !== undefined) throw new Error(JSON.parse(failure));
    await say(line);
  }
  throw new Error("the hub has ended meanwhile");
}

/** Writes a line, and resolves once more may be written.
 *  @param {import("node:stream").Writable} stream @param {string} line
 *  @returns {Promise<void>} */
export const write = (stream, line) => new Promise((resolve) => {
  if (stream.write(`${line}\n`) || stream.destroyed) return resolve();
  stream.once("drain", resolve).once("close", resolve);
});
