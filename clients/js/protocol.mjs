/* The words and the limits of the protocol: docs/FORMATS.md says what they mean.
   Made by tools/protocol from protocol.json. Don't edit it. */

/** @typedef {"bare" | "session" | "look" | "state" | "change" | "hub"} Kind A `bare` request names
 *    no document. A `session` one opens a document or binds a name. A `look` reads at a cursor, a
 *    `state` one without. The hub alone answers `hub`. */

/** @typedef {"assign" | "insert" | "delete" | "add"} EditWord What makes an operation. */

/** @typedef {object} Form
 *  @property {Kind} kind
 *  @property {readonly string[]} items What follows the word: `doc` is a document's name, `CUR` a
 *    cursor.
 *  @property {readonly string[]} replies The first words of its replies, but "no".
 *  @property {readonly string[]} optional What may follow the items: all of it, or nothing. */

/** @param {Kind} kind
 *  @param {string[]} items
 *  @param {string[]} replies
 *  @param {string[]} optional
 *  @returns {Form} */
const form = (kind, items, replies, optional = []) =>
  Object.freeze({ kind, items, replies, optional });

/** What a server or the hub answers.
 *  @type {ReadonlyMap<string, Form>} */
export const REQUESTS = new Map([
  ["open", form("session", ["doc"], ["opened"])],
  ["assign", form("change", ["doc", "CUR", "VALUE"], ["applied"])],
  ["insert", form("change", ["doc", "CUR", "VALUE"], ["applied"])],
  ["delete", form("change", ["doc", "CUR"], ["applied"])],
  ["add", form("change", ["doc", "CUR", "n"], ["applied"])],
  ["let", form("session", ["doc", "name", "CUR"], ["bound"])],
  ["keys", form("look", ["doc", "CUR"], ["keys"])],
  ["values", form("look", ["doc", "CUR"], ["values"])],
  ["items", form("look", ["doc", "CUR"], ["items"])],
  ["conflicts", form("look", ["doc", "CUR"], ["conflicts"])],
  ["sum", form("look", ["doc", "CUR"], ["sum"])],
  ["show", form("look", ["doc", "CUR"], ["show"])],
  ["deliver", form("change", ["doc", "operation"], ["applied", "known", "held"])],
  ["ops", form("state", ["doc", "FRONT", "limit"], ["ops"])],
  ["chains", form("state", ["doc", "AFTER", "FRONT"], ["chains"])],
  ["front", form("state", ["doc"], ["front"])],
  ["held", form("state", ["doc"], ["waiting"])],
  ["forget", form("change", ["doc", "ID"], ["forgotten"])],
  ["account", form("state", ["doc"], ["account"])],
  ["size", form("state", ["doc"], ["size"])],
  ["copied", form("state", ["doc", "ID"], ["copied"])],
  ["version", form("bare", [], ["version"])],
  ["quit", form("bare", [], ["bye"])],
  ["watch", form("hub", ["doc"], ["watching"], ["\"ops\""])],
  ["unwatch", form("hub", ["doc"], ["unwatched"])],
  ["page", form("hub", ["doc", "FRONT", "bytes"], ["ops"])],
  ["hear", form("hub", ["doc"], ["hearing"])],
  ["unhear", form("hub", ["doc"], ["unheard"])],
  ["say", form("hub", ["doc", "VALUE"], ["said"])],
  ["stored", form("hub", ["doc", "ID"], ["stored"])],
  ["create", form("hub", ["doc"], ["created"])],
  ["history", form("hub", ["doc"], ["generations"])],
  ["map", form("hub", ["doc", "GENERATION", "from"], ["map"])],
  ["list", form("bare", ["AFTER"], ["documents"])],
]);

/** What a replica answers, without a document's name.
 *  @type {ReadonlyMap<string, Form>} */
export const REPLICA_REQUESTS = new Map([
  ["assign", form("change", ["CUR", "VALUE"], ["applied"])],
  ["insert", form("change", ["CUR", "VALUE"], ["applied"])],
  ["delete", form("change", ["CUR"], ["applied"])],
  ["add", form("change", ["CUR", "n"], ["applied"])],
  ["keys", form("look", ["CUR"], ["keys"])],
  ["values", form("look", ["CUR"], ["values"])],
  ["items", form("look", ["CUR"], ["items"])],
  ["conflicts", form("look", ["CUR"], ["conflicts"])],
  ["sum", form("look", ["CUR"], ["sum"])],
  ["show", form("look", ["CUR"], ["show"])],
  ["deliver", form("change", ["operation"], ["applied", "known", "held"])],
  ["ops", form("state", ["FRONT", "limit"], ["ops"])],
  ["chains", form("state", ["AFTER", "FRONT"], ["chains"])],
  ["front", form("state", [], ["front"])],
  ["held", form("state", [], ["waiting"])],
  ["forget", form("change", ["ID"], ["forgotten"])],
  ["cursor", form("look", ["CUR"], ["cursor"])],
  ["index", form("look", ["CUR"], ["index"])],
  ["inserts", form("change", ["CUR", "[VALUE,..]"], ["applied"])],
  ["deletes", form("change", ["CUR", "count"], ["applied"])],
]);

/** The first words of the hub's lines that answer no request.
 *  @type {ReadonlySet<string>} */
export const PUSHES = new Set(["changed", "logged", "heard", "renewed", "reopened"]);

/** The numbers of refusals: from 100 on the hub's. */
export const REFUSALS = Object.freeze({
  "not-json": 1,
  "bad-request": 2,
  "line-too-long": 3,
  "no-such-document": 4,
  "not-open": 5,
  "bad-value": 6,
  "bad-cursor": 7,
  "no-such-variable": 8,
  "index-past-end": 9,
  "at-head": 10,
  "not-in-list": 11,
  "bad-operation": 12,
  "bad-front": 13,
  "forked": 14,
  "id-conflict": 15,
  "own-name": 16,
  "held-full": 17,
  "log-full": 18,
  "too-many-replicas": 19,
  "too-deep": 20,
  "seats-full": 21,
  "no-memory": 22,
  "variables-full": 23,
  "not-held": 24,
  "lists-differ": 25,
  "copy-refused": 26,
  "server-lost": 100,
  "server-away": 101,
  "reply-too-long": 102,
  "not-allowed": 103,
  "not-kept": 104,
  "there-already": 105,
  "renewed": 106,
});

/** Two starts, or two replicas, had one name: one side is to be kept.
 *  @type {ReadonlySet<number>} */
export const NAME_USED_TWICE = new Set([14, 15, 16]);

/** The document takes no more, for good.
 *  @type {ReadonlySet<number>} */
export const DOCUMENT_FULL = new Set([18, 19]);

/** The most of each. */
export const LIMITS = Object.freeze({
  log: 100_000, // operations of a document
  replicas: 256, // replicas that have operations of a document
  held: 256, // operations that a document holds
  path: 30, // keys of a path
  key: 128, // bytes of a text that is a key
  value: 4_096, // bytes of a text that is a value
  line: 65_536, // bytes of a request's line
  page: 64, // operations of a reply to `ops`
  variables: 64, // variables of a session at a document
  variable: 128, // bytes of a variable's name
  lines: 1_000_000, // lines of a session
  sessions: 256, // sessions of a server
  said: 4_096, // bytes of a value that a client of the hub says
  listed: 1_000, // documents of a reply to `list`
  mapped: 1_000, // elements of a reply to `map`
});

/** Whether a request may change a document, or what it holds.
 *  @param {string} word */
export const isChange = (word) => REQUESTS.get(word)?.kind === "change";

/** @type {ReadonlyMap<number, string>} The names of refusals. */
export const NAMES = new Map(Object.entries(REFUSALS).map(([name, number]) =>
  /** @type {const} */ ([number, name])));

/** The line that refuses a request.
 *  @param {keyof typeof REFUSALS} name */
export const refusalLine = (name) => JSON.stringify(["no", REFUSALS[name], name]);

/** Whether a reply's line is this refusal.
 *  @param {string} line
 *  @param {keyof typeof REFUSALS} name */
export const isRefusedBy = (line, name) => line.startsWith(`["no",${REFUSALS[name]},`);
