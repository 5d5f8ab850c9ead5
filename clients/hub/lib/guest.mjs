/* A client of the hub: its lines, its documents, its variables, and what is pushed to it. */

import { MOST, frontPairs, isId, isName, refusalLine } from "./client_package.mjs";
import { NOT_SENT } from "./link.mjs";
import { asks, mayAsk, splitName } from "./requests.mjs";

const MOST_LATE = 1000; // pushes that wait until the client reads
const MOST_PAGES = 16; // replies to `ops` that one to `page` has
const MOST_BEHIND = 2 ** 18; // bytes that may wait until it reads while operations are pushed to it
const TRIES = 3; // sessions for a line that none has carried out
const MOST_LOST = 2; // sessions that may end on a reading, as one that is too long for the server

const TOO_LONG = refusalLine("line-too-long");
const SERVER_AWAY = refusalLine("server-away");
const BYE = '["bye"]';
const UNBOUND = "unbound"; // a name that no session has bound

/** @typedef {import("./link.mjs").Link} Link */
/** @typedef {import("./pool.mjs").Pool} Pool */
/** @typedef {import("./pool.mjs").Session} Session */
/** @typedef {{ document: string, name: string, link: Link, bound: string }} Variable */
/** @typedef {import("./state.mjs").State} State */
/** @typedef {import("./rights.mjs").Rights} Rights */

/** A client of the hub. Its lines are answered one after the other, so that they keep their order
 *  whatever sessions they go to. */
export class Guest {
  /** What others hear it as. */
  name;
  /** For how many seconds it has sent nothing. They are counted, not taken from a clock: none pass
   *  while the process stands still. */
  silence = 0;
  /** How many lines it has sent. */
  lines = 0;
  #hub;
  #stream;
  #ending; // of a line: a newline over TCP, nothing over WebSocket
  #rights;
  /** The sessions that carry it, by the pools that they are of.
   *  @type {Map<Pool, Session>} */
  #homes = new Map();
  /** @type {Set<string>} */
  #opened = new Set();
  /** By "DOCUMENT NAME".
   *  @type {Map<string, Variable>} */
  #variables = new Map();
  #hasAsked = false; // for pushes: by `watch` or `let`
  /** Pushes that wait until the client reads, by what they are about.
   *  @type {Map<string, string>} */
  #late = new Map();
  /** Ends the time in which it is to read: then it would be dropped.
   *  @type {(() => void) | undefined} */
  #unread;
  #readAgain = () => {};
  /** Resolves once what was begun is answered.
   *  @type {Promise<void>} */
  #said = Promise.resolve();
  /** Whether its connection has ended. */
  isGone = false;

  /** @param {State} hub
   *  @param {import("node:stream").Duplex} stream
   *  @param {string} ending
   *  @param {Rights} rights */
  constructor(hub, stream, ending, rights) {
    this.#hub = hub;
    this.#stream = stream;
    this.#ending = ending;
    this.#rights = rights;
    this.name = `${rights.name}-${++hub.guestCount}`;
    stream.on("drain", () => this.#drained());
    stream.on("error", () => {}); // its close follows
  }

  /** Whether it is silent by right: something may be pushed to it. */
  get isListening() {
    return this.#hub.watches.has(this) || this.#hub.presence.has(this);
  }

  /** Whether it has opened a document.
   *  @param {string} document */
  hasOpen = (document) => this.#opened.has(document);

  /** How many bytes wait until the client reads. */
  get unread() {
    return this.#stream.writableLength;
  }

  /** Ends the connection at once. */
  drop() {
    this.#stream.destroy();
  }

  /** @param {string} line */
  say(line) {
    if (this.#stream.destroyed || this.#stream.writableEnded) return;
    if (this.#stream.write(line + this.#ending)) return;
    this.#unread ??= this.#hub.clock.after(this.#hub.patience, () => this.drop());
    this.#hub.unread.add(this);
  }

  /** Says a line about something. Where the client doesn't read, the last one waits for that.
   *  @param {string} about
   *  @param {string} line */
  push(about, line) {
    if (!this.#stream.writableNeedDrain) this.say(line);
    else if (this.#late.size < MOST_LATE || this.#late.has(about)) this.#late.set(about, line);
  }

  /** Whether so much waits until the client reads that operations aren't pushed to it.
   *  @param {string} about what they would be about: where a push about it waits, they don't pass it */
  isBehind(about) {
    return this.unread > MOST_BEHIND || this.#late.has(about);
  }

  /** A session that carried it has ended: it says which variables are gone, if it was asked to. */
  reopen() {
    const gone = [...this.#variables.values()].filter(({ link }) => link.over);
    for (const { document, name } of gone) this.#variables.delete(`${document} ${name}`);
    if (!this.#hasAsked) return;
    this.say(JSON.stringify(["reopened", gone.map(({ document, name }) => [document, name])]));
  }

  /** The session of a pool that carries it: at first the one with the fewest clients.
   *  @param {Pool} pool */
  homeAt(pool) {
    const home = this.#homes.get(pool) ?? pool.leastLoaded;
    this.#homes.set(pool, home);
    home.clients.add(this);
    return home;
  }

  /** Goes on at another session, since the one before has ended.
   *  @param {Pool} pool
   *  @param {Session} session
   *  @param {Session} [from] */
  move(pool, session, from = this.homeAt(pool)) {
    from.clients.delete(this);
    if (from === this.#homes.get(pool)) this.#homes.set(pool, session);
    this.homeAt(pool);
    this.reopen();
  }

  /** A pool's sessions have ended. It says which variables are gone, if it had some there.
   *  @param {Pool} pool */
  leavePool(pool) {
    this.#homes.delete(pool);
    for (const session of pool.sessions) session.clients.delete(this);
    if ([...this.#variables.values()].some(({ link }) => link.over)) this.reopen();
  }

  /** Answers a line, and waits until the client has read. False: the connection is to end.
   *  @param {string} line
   *  @returns {Promise<boolean>} */
  async serve(line) {
    this.silence = 0;
    this.lines++;
    const isLong = Buffer.byteLength(line) > MOST.line;
    const reply = isLong ? TOO_LONG : await this.#reply(line);
    this.#answer(reply);
    if (reply === BYE || reply === TOO_LONG) return false;
    if (this.#stream.writableNeedDrain && !this.isGone) {
      /** @type {Promise<void>} */
      const isRead = new Promise((readAgain) => (this.#readAgain = readAgain));
      await isRead;
    }
    return !this.isGone;
  }

  /** Answers a line, while others of before wait for their replies. These come in their order.
   *  @param {string} line
   *  @returns {Promise<void>} resolves once it is answered */
  begin(line) {
    this.silence = 0;
    this.lines++;
    this.#said = Promise.all([this.#reply(line), this.#said]).then(([reply]) => this.#answer(reply));
    return this.#said;
  }

  /** @param {string | undefined} reply */
  #answer(reply) {
    if (!reply) return;
    this.#hub.figures.answered(reply);
    this.say(reply);
  }

  /** Gives back what the client has. */
  leave() {
    this.isGone = true;
    this.#unread?.();
    this.#hub.unread.delete(this);
    this.#readAgain();
    this.#hub.watches.leave(this);
    this.#hub.presence.leave(this);
    for (const pool of this.#homes.keys()) {
      for (const session of pool.sessions) session.clients.delete(this);
    }
    for (const { document, link, bound } of this.#variables.values()) {
      link.giveName(document, bound);
    }
  }

  #drained() {
    this.#unread?.();
    this.#unread = undefined;
    this.#hub.unread.delete(this);
    this.#readAgain();
    const late = [...this.#late];
    this.#late.clear();
    for (const [about, line] of late) this.push(about, line);
  }

  /** @param {string} text @returns {Promise<string | undefined>} */
  async #reply(text) {
    let value;
    try {
      value = JSON.parse(text);
    } catch {
      return refusalLine("not-json");
    }
    const request = Array.isArray(value) ? value : []; // the server says what is wrong with it
    // A break within the line is a blank to JSON, and would end it at the server.
    const line = text.replace(/[\r\n]/g, " ");
    const [word, document] = request;
    if (word === "quit" && request.length === 1) return BYE;
    if (!this.#mayAsk(word, document)) return refusalLine("not-allowed");
    const isBare = typeof document !== "string" || asks.isBare(word);
    if (isBare) return this.#withoutDocument(line, request);
    if (asks.ofDocument(word) && !this.#opened.has(document)) return refusalLine("not-open");
    const refusal = word === "create" ? undefined
      : await this.#hub.shelf?.refusalOf(request, this.#rights);
    if (refusal) return refusalLine(refusal);
    if (asks.ofHub(request)) return this.#ofHub(line, request);
    const reply = await this.#forward(line, request);
    if (reply.startsWith('["opened",')) {
      this.#opened.add(document);
      if (!this.#hub.shelf) this.#hub.documents.add(document);
    }
    if (reply.startsWith('["applied",')) {
      this.#hub.watches.look(document);
      this.#hub.shelf?.noteApplied(document, reply);
    }
    return reply;
  }

  /** @param {string} line @param {any[]} request */
  async #withoutDocument(line, request) {
    // Clients ask for the version to see whether the server is there. The hub knows.
    const isVersion = request.length === 1 && request[0] === "version";
    const { places, shelf } = this.#hub;
    if (isVersion && places.version) return places.version;
    return shelf ? this.#listed(shelf, request) : this.#forward(line, request);
  }

  /** Whether it may send a request. What a document was before it was renewed, NAME/GENERATION, is for
   *  reading alone.
   *  @param {unknown} word @param {unknown} document */
  #mayAsk(word, document) {
    if (!this.#hub.shelf || typeof document !== "string") return mayAsk(this.#rights, word, document);
    const [name, generation] = splitName(document);
    return mayAsk(this.#rights, word, name) && !(generation !== undefined && asks.changes(word));
  }

  /** The names of documents that it may read, some at once.
   *  @param {import("./shelf.mjs").Shelf} shelf @param {any[]} request */
  #listed(shelf, [word, after, ...more]) {
    if (word !== "list" || typeof after !== "string" || more.length > 0) {
      return refusalLine("bad-request");
    }
    if (!this.#rights.mayList) return refusalLine("not-allowed");
    const names = shelf.names(after).filter(this.#rights.mayRead).slice(0, MOST.listed);
    return JSON.stringify(["documents", names]);
  }

  /** Makes a document.
   *  @param {string} document */
  async #created(document) {
    const { shelf } = this.#hub;
    if (!shelf || !isName(document)) return refusalLine("bad-request");
    if (!this.#rights.mayCreate(document)) return refusalLine("not-allowed");
    if (shelf.isGone(document)) return refusalLine("no-such-document");
    const isMade = await shelf.create(document);
    if (isMade === undefined) return SERVER_AWAY;
    return isMade ? JSON.stringify(["created", document]) : refusalLine("there-already");
  }

  /** What the hub answers itself.
   *  @param {string} line @param {any[]} request */
  #ofHub(line, [word, document, argument, bytes]) {
    const { watches, presence } = this.#hub;
    const name = JSON.stringify(document);
    switch (word) {
      case "watch":
        this.#hasAsked = true;
        this.say('["watching"]');
        return void this.#watch(document, argument === "ops");
      case "unwatch":
        watches.remove(document, this);
        return `["unwatched",${name}]`;
      case "hear":
        this.say(`["hearing",${name}]`);
        return void presence.hear(document, this);
      case "unhear":
        presence.unhear(document, this);
        return `["unheard",${name}]`;
      case "say":
        return this.#tell(document, valueOf(line));
      case "create":
        return this.#created(document);
      case "history":
        return this.#history(document);
      case "map":
        return this.#map(document, argument, bytes);
      case "page":
        return Number.isSafeInteger(bytes) && bytes > 0
          ? this.#page(document, argument, bytes) : refusalLine("bad-request");
      default:
        return isId(argument) ? this.#stored(document, argument) : refusalLine("bad-request");
    }
  }

  /** Has it pushed what changes in a document. A server that doesn't run is started for that.
   *  @param {string} document @param {boolean} takesOperations */
  #watch(document, takesOperations) {
    const { watches, shelf } = this.#hub;
    watches.add(document, this, takesOperations);
    shelf?.use(document, async () => (await watches.look(document), ""))
      .catch((error) => this.#hub.note(error.stack));
  }

  /** @param {string} document */
  async #history(document) {
    const { shelf } = this.#hub;
    if (!shelf) return refusalLine("bad-request");
    return JSON.stringify(["generations", await shelf.history(document)]);
  }

  /** @param {string} document @param {any} generation @param {any} from */
  async #map(document, generation, from) {
    const isFormed = typeof generation === "string" && Number.isSafeInteger(from) && from >= 0;
    const reply = isFormed && await this.#hub.shelf?.map(document, generation, from);
    return reply || refusalLine("bad-request");
  }

  /** Hands a value to the others that hear the document.
   *  @param {string} document
   *  @param {string} value */
  #tell(document, value) {
    if (Buffer.byteLength(value) > MOST.said) return refusalLine("bad-value");
    this.#hub.presence.say(document, this, value);
    return '["said"]';
  }

  /** Operations that a front doesn't cover: the server's pages together, until one isn't full.
   *  @param {string} document
   *  @param {any} front the server refuses what is none
   *  @param {number} bytes behind which no further page is asked for */
  async #page(document, front, bytes) {
    /** @type {Map<string, number> | undefined} */
    let seen;
    const texts = [];
    for (let size = 0; texts.length < MOST_PAGES && size < bytes; size += texts.at(-1)?.length ?? 0) {
      const request = ["ops", document, seen ? frontPairs(seen) : front, MOST.page];
      const reply = await this.#forward(JSON.stringify(request), request);
      const text = /^\["ops",\[(.*)\]\]$/s.exec(reply)?.[1];
      if (text === undefined && texts.length === 0) return reply;
      if (!text) break; // who asks again learns why
      texts.push(text);
      /** @type {any[]} */
      const operations = JSON.parse(`[${text}]`);
      seen ??= new Map(front);
      for (const [, [counter, replica]] of operations) seen.set(replica, counter);
      if (operations.length < MOST.page) break;
    }
    return `["ops",[${texts.join(",")}]]`;
  }

  /** Answers once an operation is in the server's file.
   *  @param {string} document
   *  @param {import("../../js/wire.mjs").Id} id */
  async #stored(document, id) {
    const isStored = await this.#hub.storage.isStored(document, id,
      (line) => this.#forward(line, JSON.parse(line)));
    return isStored ? JSON.stringify(["stored", document, id]) : refusalLine("not-kept");
  }

  /** Has a line answered by the server that has its document.
   *  @param {string} line
   *  @param {any[]} request @returns {Promise<string>} */
  async #forward(line, request) {
    const { places } = this.#hub;
    const reply = await places.use(request[1], (pool) => (request[0] === "let" && isVariable(request[2])
      ? this.#bind(pool, line, request) : this.#sendWhole(pool, line, request)), request);
    return reply ?? SERVER_AWAY;
  }

  /** Sends a line to the session that has the variable of its cursor, or to the client's own.
   *  @param {Pool} pool
   *  @param {string} line
   *  @param {any[]} request @returns {Promise<string>} */
  async #sendWhole(pool, line, [word, document, cursor]) {
    let lost = 0; // sessions that ended before the reply
    for (let tries = 0; tries < TRIES && lost < MOST_LOST && !this.isGone; tries++) {
      const inCursor = asks.withCursor(word);
      const carrying = await pool.linkOf(this);
      if (!carrying) return SERVER_AWAY;
      const start = inCursor ? this.#startOf(document, cursor) : {};
      const sent = start.bound ? withStrings(line, { 2: start.bound }) : line;
      const reply = await this.#send(start.link ?? carrying, document, sent);
      if (typeof reply === "string") return reply;
      if (reply !== NOT_SENT && asks.changes(word)) return refusalLine("server-lost");
      if (reply !== NOT_SENT) lost++;
    }
    return SERVER_AWAY;
  }

  /** `let`: binds a name of the session that has the cursor's variable, or of one that has a free
   *  name, the client's own first. A name that was bound already is bound anew where it is.
   *  @param {Pool} pool
   *  @param {string} line
   *  @param {any[]} request @returns {Promise<string>} */
  async #bind(pool, line, [, document, name, cursor]) {
    this.#hasAsked = true;
    for (let tries = 0; tries < TRIES && !this.isGone; tries++) {
      const carrying = await pool.linkOf(this);
      if (!carrying) return SERVER_AWAY;
      const old = this.#variable(document, name);
      const start = this.#startOf(document, cursor);
      const found = this.#nameFor(pool, document, start, old, carrying);
      if (!found) return refusalLine("variables-full");
      const { link, bound } = found;
      const sent = withStrings(line, { 2: bound, 3: start.bound });
      const reply = await this.#send(link, document, sent);
      const isBound = reply === '["bound"]' && !this.isGone;
      if (isBound) this.#keep(pool, old, { document, name, link, bound });
      else if (bound !== old?.bound || link !== old.link) link.giveName(document, bound);
      if (typeof reply === "string") return reply;
    }
    return SERVER_AWAY; // where a session ended, so did its variables: nothing is bound
  }

  /** A name to bind, and the link that has it.
   *  @param {Pool} pool
   *  @param {string} document
   *  @param {{ link?: Link }} start
   *  @param {Variable | undefined} old
   *  @param {Link} carrying */
  #nameFor(pool, document, start, old, carrying) {
    const home = start.link ?? old?.link ?? carrying;
    const others = pool.sessions.flatMap(({ link }) => (link ? [link] : []));
    for (const link of start.link ? [home] : [home, ...others]) {
      const bound = old?.link === link ? old.bound : link.takeName(document);
      if (bound) return { link, bound };
    }
    return undefined;
  }

  /** @param {Pool} pool @param {Variable | undefined} old @param {Variable} variable */
  #keep(pool, old, variable) {
    const { document, name, link } = variable;
    if (old && old.link !== link) old.link.giveName(document, old.bound);
    pool.sessions.find((session) => session.link === link)?.clients.add(this);
    this.#variables.set(`${document} ${name}`, variable);
  }

  /** @param {string} document @param {string} name */
  #variable(document, name) {
    const variable = this.#variables.get(`${document} ${name}`);
    return variable && !variable.link.over ? variable : undefined;
  }

  /** Where a cursor's variable is bound, and as what. The server refuses one that isn't bound.
   *  @param {string} document
   *  @param {any} cursor
   *  @returns {{ link?: Link, bound?: string }} */
  #startOf(document, cursor) {
    const name = Array.isArray(cursor) ? cursor[0] : undefined;
    if (!isVariable(name)) return {};
    const isGone = this.#variables.get(`${document} ${name}`)?.link.over;
    if (isGone) this.reopen(); // it is told before it is refused
    return this.#variable(document, name) ?? { bound: UNBOUND };
  }

  /** @param {Link} link @param {string} document @param {string} line */
  async #send(link, document, line) {
    if (Buffer.byteLength(line) > MOST.line) return TOO_LONG;
    if (this.#opened.has(document)) link.open(document);
    return link.ask(line);
  }
}

/** @param {unknown} value */
const isVariable = (value) =>
  typeof value === "string" && Buffer.byteLength(value) <= MOST.variable;

/** The line with some of its strings replaced, by their place among all of them.
 *  @param {string} line
 *  @param {Record<number, string | undefined>} others */
function withStrings(line, others) {
  let at = 0;
  return line.replace(/"(?:[^"\\]|\\.)*"/g, (text) => {
    const other = others[at++];
    return other === undefined ? text : JSON.stringify(other);
  });
}

/** The third item of a request as it is written: its integers may be beyond 2^53.
 *  @param {string} line */
function valueOf(line) {
  const [, text] = /^\s*\[(?:\s*"(?:[^"\\]|\\.)*"\s*,){2}(.*)\]\s*$/s.exec(line) ?? [];
  return (text ?? "null").trim();
}
