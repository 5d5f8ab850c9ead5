/* A document's way into a later generation that another hub has made. What this hub had taken and that
   one lacked is made again there, as a provider's edits are that were made offline. */

import { covers, frontPairs, generations, MOST, parse, print } from "./client_package.mjs";
import { ops } from "./fleet.mjs";
import { Stream } from "./stream.mjs";

/** @typedef {import("./fleet.mjs").Fleet} Fleet */
/** @typedef {import("./fleet.mjs").Decision} Decision */
/** @typedef {import("./folder.mjs").Folder} Folder */
/** @typedef {import("./folder.mjs").Record} Record */
/** @typedef {import("./open_document.mjs").OpenDocument} OpenDocument */
/** @typedef {import("../../js/wire.mjs").Operation} Operation */
/** @typedef {import("../../js/generations.mjs").Step} Step */

/** @typedef {object} TakeOver
 *  @property {Folder} folder
 *  @property {Fleet} fleet
 *  @property {string} document
 *  @property {Record} record
 *  @property {Decision[]} later
 *  @property {(generation: string) => OpenDocument} openOf
 *  @property {(step: string) => void} atStep for tests: is called before each step
 *  @property {import("./notes.mjs").Note} note */

const AT_ONCE = 1000;

/** Takes over the last of the later generations, and resolves with the document's record. Where that
 *  fails, nothing was changed.
 *  @param {TakeOver} taking
 *  @returns {Promise<Record>} */
export async function takeOver(taking) {
  const { folder, fleet, document, record, later, openOf, atStep, note } = taking;
  atStep("take-maps");
  const texts = await Promise.all(later.map((it) => fleet.mapText(document, it)));
  const steps = texts.map((text) => stepOf(text));
  await addOthers(taking, steps);
  const { operations, lost, size } = await carriedFrom(taking, steps);
  const last = /** @type {Decision} */ (later.at(-1));
  const open = openOf(last.generation);
  try {
    await open.begin();
    atStep("take-operations");
    const began = await filled(taking, open, last, steps.at(-1), operations);
    atStep("take-record");
    for (const [at, it] of later.entries()) {
      await folder.writeMapText(document, it.generation, texts[at] ?? "");
    }
    const until = new Date().toISOString();
    const past = [{ generation: record.generation, until, ...size },
      ...later.slice(0, -1).map(({ generation }) =>
        ({ generation, until, operations: 0, replicas: 0, isGone: true }))];
    const history = [...record.history, ...past];
    const taken = { ...record, generation: last.generation, began, history };
    if (lost.length > 0) {
      await folder.writeLost(document, record.generation, lost.map((it) => print(it)));
      note(`${document}: ${lost.length} changes of generation ${record.generation} can't be made in `
        + `${last.generation}: ${record.generation}.lost has them`);
    }
    await folder.renew(document, taken);
    atStep("taken");
    return taken;
  } finally {
    await open.close();
    open.noteClosed();
  }
}

/** @param {string} text of a map @returns {Step} */
function stepOf(text) {
  const [first = "", ...lines] = text.split("\n");
  const { end, start } = JSON.parse(first);
  const pairs = lines.filter((it) => it).map((it) => JSON.parse(it));
  return { end: new Map(end), start, pairs, others: [] };
}

/** Adds what others stored in the generations between, as far as it is still there.
 *  @param {TakeOver} taking @param {Step[]} steps */
async function addOthers({ fleet, document, later }, steps) {
  for (const [at, step] of steps.entries()) {
    const generation = at > 0 && later[at - 1]?.generation;
    if (!generation) continue;
    const start = new Map(steps[at - 1]?.start);
    const entries = await fleet.ask("XRANGE", ops(document, generation), "-", "+");
    for (const [, fields] of entries) {
      if (fields[2] !== "ops") continue;
      /** @type {Operation[]} */
      const operations = parse(fields[3]);
      step.others.push(...operations.filter((it) => !covers(start, it[1])));
    }
  }
}

/** What this hub's file has that the next generation wasn't made of, made again in the last one.
 *  @param {TakeOver} taking @param {Step[]} steps */
async function carriedFrom({ fleet, document, record, openOf, note }, steps) {
  const open = openOf(record.generation);
  try {
    await open.begin();
    /** @param {string} line */
    const ask = (line) => open.ask(document, line);
    const stream = streamOf(fleet, document, record.generation, ask, note);
    await stream.pull().catch(() => {}); // it may have lost what this hub knows well
    stream.end();
    const log = await logOf(ask, document);
    const replicas = new Set(log.map(([, [, replica]]) => replica)).size;
    const { operations, lost } = generations.carried(log, steps);
    return { operations, lost, size: { operations: log.length, replicas } };
  } finally {
    await open.close();
    open.noteClosed();
  }
}

/** @param {Fleet} fleet @param {string} document @param {string} generation
 *  @param {import("./stream.mjs").Ask} ask @param {import("./notes.mjs").Note} note */
const streamOf = (fleet, document, generation, ask, note) => new Stream({
  key: ops(document, generation), document, ask, note, hub: fleet.me, redis: () => fleet.redis,
  came: () => {}, noticed: () => {},
});

/** Fills the file of the generation, and returns how many operations it began with.
 *  @param {TakeOver} taking @param {OpenDocument} open @param {Decision} last
 *  @param {Step | undefined} step @param {Operation[]} operations */
async function filled({ fleet, document, note }, open, { generation }, step, operations) {
  /** @param {string} line */
  const ask = (line) => open.ask(document, line);
  const stream = streamOf(fleet, document, generation, ask, note);
  try {
    await stream.begin();
    const front = new Map(await asked(ask, ["front", document]));
    const isWhole = step?.start.every((it) => covers(front, [it[1], it[0]]));
    if (!isWhole) throw new Error(`Redis hasn't got the beginning of generation ${generation}`);
    await deliver(ask, document, operations);
    await stream.flush();
  } finally {
    stream.end();
  }
  return (await logOf(ask, document)).length;
}

/** @param {import("./stream.mjs").Ask} ask @param {string} document @param {Operation[]} operations */
async function deliver(ask, document, operations) {
  for (let at = 0; at < operations.length; at += AT_ONCE) {
    const lines = operations.slice(at, at + AT_ONCE)
      .map((op) => `["deliver",${JSON.stringify(document)},${print(op)}]`);
    const replies = await Promise.all(lines.map((line) => ask(line)));
    const other = replies.find((it) => !/^\["(applied|known)"/.test(it ?? ""));
    if (replies.some((it) => it === undefined) || other) {
      throw new Error(`what was taken can't be made again: ${other ?? "no reply"}`);
    }
  }
}

/** @param {import("./stream.mjs").Ask} ask @param {string} document @returns {Promise<Operation[]>} */
async function logOf(ask, document) {
  const front = new Map();
  const log = [];
  for (let page; page === undefined || page.length === MOST.page; ) {
    page = /** @type {Operation[]} */ (await asked(ask, ["ops", document, frontPairs(front), MOST.page]));
    for (const op of page) front.set(op[1][1], op[1][0]);
    log.push(...page);
  }
  return log;
}

/** @param {import("./stream.mjs").Ask} ask @param {any[]} request @returns {Promise<any>} */
async function asked(ask, request) {
  const reply = await ask(print(request));
  const [word, item] = reply === undefined ? [] : parse(reply);
  if (word !== request[0]) throw new Error(`${request[0]}: ${reply ?? "no reply"}`);
  return item;
}

