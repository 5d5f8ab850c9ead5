/* The next generation of a document: a fresh file, which begins with what the document shows. One
   record says which file takes changes. Until it is replaced, by a rename, the next one is nothing;
   from then on the one before takes no change any more.

   Most of it is made while changes go on. They are held back for a moment while the document is read,
   and at the end, while what was changed meanwhile is made behind the rest. */

import { freshName, MOST, parse, print } from "./client_package.mjs";
import { Renewal, showSame } from "./renewal.mjs";

/** @typedef {import("./folder.mjs").Folder} Folder */
/** @typedef {import("./folder.mjs").Record} Record */
/** @typedef {import("./open_document.mjs").OpenDocument} OpenDocument */
/** @typedef {import("./renewal.mjs").Branches} Branches */
/** @typedef {import("./renewal.mjs").Operation} Operation */
/** @typedef {(request: any[]) => Promise<any>} Ask Resolves what is behind the word of the reply. */

/** @typedef {object} Making
 *  @property {Folder} folder
 *  @property {string} document
 *  @property {Record} record
 *  @property {OpenDocument} open
 *  @property {(generation: string) => OpenDocument} next
 *  @property {<T>(work: () => Promise<T>) => Promise<T>} quiet Lets nobody else use the document while
 *    it does something.
 *  @property {() => Promise<void>} hold Lets nobody else use the document from then on.
 *  @property {(generation: string, map: string, operations: Operation[]) => Promise<void>} decide
 *    Decides that this generation follows, where several hubs might make one. Throws where another one
 *    does.
 *  @property {(step: string) => void} atStep for tests: is called before each step */

const AT_ONCE = 2000; // operations that are delivered before their replies are awaited
export const MOST_CONTENT = MOST.log / 2; // operations that what is shown may take
const MOST_BEGUN = MOST.log * 0.6; // the same with what was changed while it was made
const FEW = 200; // changes that are left until the rest is held back
const MOST_ROUNDS = 3; // until it is, however many are left
const MAKER = /^gen\d+-[a-z2-7]{10}-\d+$/;

/** The number of a generation.
 *  @param {string} generation */
const numberOf = (generation) => parseInt(generation, 10);

/** The name of the replica that began a generation: all that comes behind it knows of it. The first
 *  generation has none.
 *  @param {string} generation */
export const makerOf = (generation) => (generation === "1" ? undefined : `gen${generation}-1`);

/** Whether an operation of this replica is that of a generation's beginning.
 *  @param {any} replica */
export const isMaker = (replica) => typeof replica === "string" && MAKER.test(replica);

/** Whether a replica is the one by whose name a generation is known.
 *  @param {any} replica */
export const isFirstMaker = (replica) => isMaker(replica) && replica.endsWith("-1");

/** What a document shows takes too many operations to begin its next generation. */
export class TooLarge extends Error {
  name = "TooLarge";
}

/** Makes the next generation, and resolves it with its record. Where that fails, the document goes on
 *  as it is.
 *  @param {Making} making
 *  @returns {Promise<{ open: OpenDocument, record: Record }>} */
export async function nextGeneration(making) {
  const { record, next, atStep } = making;
  const generation = freshName(`${numberOf(record.generation) + 1}`);
  atStep("file");
  const begun = next(generation);
  try {
    await begun.begin();
    const renewal = await prepared(making, begun, generation);
    const renewed = await finished(making, begun, generation, renewal);
    begun.noteSize(renewed.began, renewal.front.map(([name]) => name));
    return { open: begun, record: renewed };
  } catch (error) {
    await begun.close();
    begun.noteClosed();
    throw error;
  }
}

/** Makes what is shown, while changes go on, until few are left that it lacks.
 *  @param {Making} making @param {OpenDocument} begun @param {string} generation
 *  @returns {Promise<Renewal>} */
async function prepared({ document, open, quiet, atStep }, begun, generation) {
  const ask = askingOf(open, document);
  let known = open.operations;
  const renewal = new Renewal(`gen${generation}`, await quiet(() => read(ask, document)));
  const count = renewal.operations.length;
  if (count > MOST_CONTENT) throw new TooLarge(`what it shows takes ${count} operations`);
  atStep("deliver");
  await deliver(begun, document, renewal.operations);
  for (let round = 0; round < MOST_ROUNDS && open.operations - known > FEW; round++) {
    known = open.operations;
    await deliver(begun, document, renewal.goOn(await quiet(() => read(ask, document))));
  }
  return renewal;
}

/** Makes what was changed meanwhile, while changes are held back, and lets the generation take them.
 *  @param {Making} making @param {OpenDocument} begun @param {string} generation
 *  @param {Renewal} renewal
 *  @returns {Promise<Record>} */
async function finished(making, begun, generation, renewal) {
  const { folder, document, record, open, hold, decide, atStep } = making;
  const ask = askingOf(open, document);
  atStep("hold");
  await hold();
  const [end, shown] = await Promise.all([ask(["front", document]), read(ask, document)]);
  atStep("meanwhile");
  const operations = renewal.goOn(shown);
  const began = renewal.operations.length;
  if (began > MOST_BEGUN) throw new Error("too much was changed while it was renewed");
  const ends = { end, start: renewal.front };
  const [map] = await Promise.all([
    folder.writeMap(document, generation, ends, renewal.lists),
    makeAll(begun, document, operations, shown),
  ]);
  atStep("map");
  await decide(generation, map, renewal.operations);
  const size = { operations: open.operations, replicas: end.length };
  const past = { generation: record.generation, until: new Date().toISOString(), ...size };
  const renewed = { ...record, generation, began, history: [...record.history, past] };
  atStep("record");
  await folder.renew(document, renewed);
  atStep("renewed");
  return renewed;
}

/** How many operations what a document shows would take.
 *  @param {OpenDocument} open @param {string} document */
export async function contentOf(open, document) {
  const shown = await askingOf(open, document)(["show", document, [0]]);
  return new Renewal("content", shown).operations.length;
}

/** @param {OpenDocument} open @param {string} document @returns {Ask} */
const askingOf = (open, document) => async (request) => {
  const reply = await open.ask(document, print(request));
  const [word, ...items] = reply === undefined ? [] : parse(reply);
  if (word === undefined || word === "no") throw new Error(`${request[0]}: ${reply ?? "no reply"}`);
  return items[0];
};

/** What a document shows, with the ids of elements.
 *  @param {Ask} ask @param {string} document @returns {Promise<Branches>} */
async function read(ask, document) {
  const shown = await ask(["show", document, [0]]);
  /** @type {Promise<void>[]} */
  const asked = [];
  /** @param {Branches} branches @param {any[]} cursor */
  const look = (branches, cursor) => {
    for (const [kind, inner] of branches) {
      if (kind === "map") for (const [key, it] of inner) look(it, [...cursor, key]);
      if (kind !== "list" || inner.length === 0) continue;
      asked.push(ask(["items", document, cursor]).then((items) => {
        if (items.length !== inner.length) throw new Error("it was changed while it was read");
        for (const [at, it] of inner.entries()) it.element = items[at][0];
      }));
      for (const [at, it] of inner.entries()) look(it, [...cursor, at + 1]);
    }
  };
  look(shown, [0]);
  await Promise.all(asked);
  return shown;
}

/** Has a server log operations that begin the generation.
 *  @param {OpenDocument} open @param {string} document
 *  @param {Operation[]} operations */
async function deliver(open, document, operations) {
  const begin = `["deliver",${JSON.stringify(document)},`;
  for (let at = 0; at < operations.length; at += AT_ONCE) {
    const some = operations.slice(at, at + AT_ONCE);
    const replies = await Promise.all(some.map((op) => open.ask(document, `${begin}${print(op)}]`)));
    const isTaken = (/** @type {string | undefined} */ it) => it?.startsWith('["applied",1,0,');
    const other = replies.find((it) => !isTaken(it));
    if (!replies.every(isTaken)) {
      throw new Error(`the next generation can't be made: ${other ?? "no reply"}`);
    }
  }
}

/** The same, and throws where the document shows something else then.
 *  @param {OpenDocument} open @param {string} document @param {Operation[]} operations
 *  @param {Branches} shown */
async function makeAll(open, document, operations, shown) {
  const delivering = deliver(open, document, operations);
  if (operations.length > AT_ONCE) await delivering; // else what it shows is asked for right behind
  await Promise.all([delivering, check(open, document, shown)]);
}

/** Throws where a document shows something else.
 *  @param {OpenDocument} open @param {string} document @param {Branches} shown */
async function check(open, document, shown) {
  const now = await askingOf(open, document)(["show", document, [0]]);
  if (!showSame(now, shown)) throw new Error("the next generation shows something else");
}
