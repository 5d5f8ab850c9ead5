/* The exchange of a provider: once at a time, as long as something may differ between the replica
   and the server. It knows what the server has, and what the server refuses. */

import { Away, Refused } from "./errors.mjs";
import { print } from "./json.mjs";
import { freshName } from "./names.mjs";
import { laterGenerations, UnknownGeneration } from "./generations.mjs";
import { frontPairs } from "./operations.mjs";
import { DOCUMENT_FULL, NAME_USED_TWICE, REFUSALS, isRefusedBy } from "./protocol.mjs";
import { Unstored } from "./stores.mjs";

/** @typedef {import("./clock.mjs").Clock} Clock */
/** @typedef {import("./clock.mjs").Span} Span */
/** @typedef {import("./chains.mjs").Difference} Difference */
/** @typedef {import("./connection.mjs").Connection} Connection */
/** @typedef {import("./events.mjs").Event} Logged */
/** @typedef {import("./exchange.mjs").Refusal} Refusal */
/** @typedef {import("./link.mjs").Link} Link */
/** @typedef {import("./notices.mjs").Notices} Notices */
/** @typedef {import("./replica.mjs").Replica} Replica */
/** @typedef {import("./store_writer.mjs").StoreWriter} StoreWriter */
/** @typedef {(line: string) => Promise<string>} Answer */

const RETRY_MS = 2000;
const TELL_MS = 500; // so often, at most, is said what a long exchange has taken
const NOT_ALLOWED = REFUSALS["not-allowed"];
const RENEWED = REFUSALS.renewed;

/** @typedef {object} Parts What it works with.
 *  @property {Replica} replica
 *  @property {StoreWriter} writer
 *  @property {Notices} notices
 *  @property {Connection} connection
 *  @property {() => void} changed Its state may be another.
 *  @property {string} word What a new name of the replica begins with.
 *  @property {(line: string, reply: string) => void} [onReply]
 *  @property {Clock} clock
 *  @property {Span} life Of the provider. */

export class Synchronizer {
  /** Whether the server lets this client edit; `undefined` before it was asked.
   *  @type {boolean | undefined} */
  mayWrite;
  /** How many own operations the last exchange left here since the server refuses them, and why. Where
   *  that is a difference, nothing is exchanged.
   *  @type {{ count: number, cause: Refused, differs?: Difference } | undefined} */
  refused;
  #parts;
  /** What the server had when it last said so.
   *  @type {Map<string, number> | undefined} */
  #serverFront;
  /** @type {WeakMap<Link, Answer>} what sends lines over a connection */
  #answers = new WeakMap();
  /** @type {Link | undefined} over which operations are pushed */
  #pushing;
  #isTakingPush = false;
  #isStale = false; // something may differ
  #isDoubtful = false; // what was pushed isn't all: the server is asked
  #isRunning = false;
  #isRetrySet = false;
  /** @type {Map<string, number>} what was given to the server, beside what its front covers */
  #given = new Map();
  /** @type {string[]} what the exchange that goes on has taken, and nobody was told */
  #taken = [];
  #toldAt = -TELL_MS;
  /** How many operations the exchange under way has fetched, once it is some.
   *  @type {number | undefined} */
  fetched;
  #progressAt = -TELL_MS;
  /** @type {Set<(lines: string[]) => void>} who waits until what is refused was taken back */
  #discards = new Set();
  /** @type {Set<(lines: string[]) => void>} who waits until what differs was made again */
  #remakes = new Set();

  /** @param {Parts} parts */
  constructor(parts) {
    this.#parts = parts;
    parts.replica.fetched = (count) => this.#noteFetched(count);
  }

  /** Whether nothing differs, as far as is known. */
  get isDone() {
    return !this.#isStale && !this.#isRunning;
  }

  /** What the server had when it last said so, by a push or a reply.
   *  @returns {[string, number][] | undefined} */
  get serverFront() {
    return this.#serverFront && frontPairs(this.#serverFront);
  }

  /** The operations that no server is known to have. */
  get unsent() {
    const front = new Map(this.#serverFront ?? []);
    for (const [name, it] of this.#given) front.set(name, Math.max(it, front.get(name) ?? 0));
    return [...this.#parts.replica.operations(front)];
  }

  // ---- When

  /** Begins over a new connection: opens the document, and asks for word of changes.
   *  @param {Link} link */
  async begin(link) {
    this.#given.clear();
    const { client } = link;
    const { doc } = this.#parts.replica;
    await link.timed(() => client.open(doc));
    this.mayWrite = await mayWrite(link, doc);
    client.reopened = () => {
      this.#answers.delete(link); // another session may be that of a server started again
      this.now();
    };
    client.renewed = () => this.now();
    const changed = (/** @type {Map<string, number>} */ front) => {
      this.#learn(front);
      if (!this.#hasSame(front)) this.soon();
    };
    let isBegun = false;
    await client.follow(doc, {
      changed,
      begins: (front) => {
        if (isBegun) this.#answers.delete(link); // what was given to the server may be gone there
        isBegun = true;
        this.#parts.replica.follow(this.#answerOf(link), front);
        changed(front);
      },
      logged: (operations) => this.#takePushed(link, operations),
      misses: () => this.now(),
    });
    if (client.isFollowed(doc)) this.#pushing = link;
    this.now();
  }

  /** Takes what was pushed, as one event. Exchanges where that isn't all.
   *  @param {Link} link
   *  @param {import("./operations.mjs").Operation[]} operations */
  #takePushed(link, operations) {
    if (this.#parts.connection.link !== link) return;
    link.noteSign();
    const isAll = this.#isAllTaken(link, operations);
    const front = new Map(this.#serverFront ?? []);
    for (const [, [counter, name]] of operations) front.set(name, counter);
    this.#learn(front);
    if (!isAll || this.refused) this.soon();
  }

  /** Takes what was pushed, and returns whether nothing differs in it now.
   *  @param {Link} link
   *  @param {import("./operations.mjs").Operation[]} operations */
  #isAllTaken(link, operations) {
    this.#isTakingPush = true;
    try {
      return this.#parts.replica.logged(this.#answerOf(link), operations);
    } finally {
      this.#isTakingPush = false;
    }
  }

  /** Exchanges, as something may differ: the server is asked for all that it has. */
  now() {
    this.#isStale = this.#isDoubtful = true;
    this.#run();
  }

  /** Exchanges what is known to differ, once for all that happens at this moment. What was pushed
   *  differs no more.
   *  @param {Logged["why"]} [why] of what was logged here */
  soon(why) {
    if (why === "taken" && this.#isTakingPush) return;
    this.#isStale = true;
    queueMicrotask(() => this.#run());
  }

  /** Exchanges, once at a time. What happens meanwhile is looked at afterwards, also over another
   *  connection. */
  async #run() {
    const { connection } = this.#parts;
    if (this.#isRunning) return;
    this.#isRunning = true;
    for (let link; this.#isStale && (link = connection.link); ) {
      if (!(await this.#exchangeOver(link))) break;
    }
    this.#isRunning = false;
    this.#parts.changed();
  }

  /** Returns whether to go on at once.
   *  @param {Link} link */
  async #exchangeOver(link) {
    const { connection, notices } = this.#parts;
    const isSame = () => connection.link === link;
    this.#isStale = false;
    try {
      await this.#exchange(link);
      if (!isSame()) return true;
      if (!this.#isStale) [link.isSynced, connection.why] = [true, ""];
      notices.solve("server");
    } catch (error) {
      this.#isStale = this.#isDoubtful = true;
      if (!isSame()) return true;
      if (!(error instanceof Unstored)) connection.fail(error);
      this.#retry();
      return false;
    }
    return true;
  }

  #retry() {
    if (this.#isRetrySet) return;
    this.#isRetrySet = true;
    this.#parts.life.later(RETRY_MS, () => {
      this.#isRetrySet = false;
      this.#run();
    });
  }

  // ---- What

  /** @param {Link} link */
  async #exchange(link) {
    const answer = this.#answerOf(link);
    if (this.#isDoubtful && this.#pushing === link) this.#parts.replica.follow(answer);
    this.#isDoubtful = false;
    const { refused, differs, isRenewed } = await this.#synced(answer);
    if (isRenewed) return this.#renew(answer);
    const own = refused.filter((it) => it.own);
    const isOthers = differs !== undefined && !this.#parts.replica.isOwnName(differs.name);
    const isTaken = own.some(({ number }) => NAME_USED_TWICE.has(number));
    // Of others' operations the last copy may be here: nothing is done by itself then.
    if (isOthers ? this.#remakes.size > 0 : isTaken) return this.#remake(answer, !isOthers);
    if ((differs || own.length > 0) && this.#discards.size > 0) return this.#discard(answer);
    for (const resolve of [...this.#discards, ...this.#remakes]) resolve([]);
    if (differs) this.#noteDifference(differs);
    else this.#noteRefused(own);
  }

  /** Exchanges, as far as the replica is of the generation that the document is in.
   *  @param {Answer} answer */
  async #synced(answer) {
    try {
      const { refused, differs } = await this.#parts.replica.sync(answer);
      return { refused, differs, isRenewed: refused.some(({ number }) => number === RENEWED) };
    } catch (error) {
      if (!(error instanceof Refused) || error.number !== RENEWED) throw error;
      return { refused: [], differs: undefined, isRenewed: true };
    } finally {
      this.#endTaking();
    }
  }

  /** Goes on in the generation that the document is in. What was edited meanwhile goes along.
   *  @param {Answer} answer */
  async #renew(answer) {
    const { replica, word, notices } = this.#parts;
    const { steps, log, own } = await laterGenerations(answer, replica).catch((error) => {
      const isUnknown = error instanceof UnknownGeneration;
      if (isUnknown) notices.report({ kind: "server", words: error.message, cause: error });
      throw error;
    });
    const { lost } = replica.renew(freshName(word), steps, log, own);
    this.#given.clear();
    this.#isStale = this.#isDoubtful = true;
    if (lost.length > 0) {
      const words = `the document was renewed, and ${changes(lost.length)} of before can't be made in it:`
        + " what they changed isn't there any more, or others changed it meanwhile";
      notices.report({ kind: "renewed", words, lines: lost });
    }
    await this.#parts.writer.flushed();
  }

  /** What sends lines over a connection: always the same one.
   *  @param {Link} link
   *  @returns {Answer} */
  #answerOf(link) {
    const answer = this.#answers.get(link) ?? this.#newAnswer(link);
    this.#answers.set(link, answer);
    return answer;
  }

  /** What sends a line. What is delivered was flushed before.
   *  @param {Link} link
   *  @returns {Answer} */
  #newAnswer(link) {
    return async (line) => {
      const isDelivery = line.startsWith('["deliver",');
      if (isDelivery) await this.#parts.writer.flushed();
      const reply = await link.ask(line);
      if (isDelivery) this.#noteGiven(line, reply);
      this.#parts.onReply?.(line, reply);
      return reply;
    };
  }

  /** @param {string} line a delivery
   *  @param {string} reply */
  #noteGiven(line, reply) {
    if (!reply.startsWith('["applied",') && reply !== '["known"]') return;
    const [counter, name] = idOf(line.slice(line.indexOf('["op",')));
    this.#given.set(name, counter);
  }

  /** @param {Map<string, number>} front */
  #learn(front) {
    const before = [...(this.#serverFront ?? [])];
    const hasLost = before.some(([name, it]) => (front.get(name) ?? 0) < it);
    if (hasLost) this.#given.clear(); // as a server that was killed
    this.#serverFront = front;
    this.#parts.notices.tell({ what: "server" });
  }

  /** @param {Map<string, number>} front */
  #hasSame(front) {
    const own = this.#parts.replica.front();
    return own.length === front.size
      && own.every(([name, counter]) => front.get(name) === counter);
  }

  // ---- What it took, together: at first when all of it is here, later twice a second

  /** Returns whether what was logged is a part of the exchange that goes on, and is told with it.
   *  @param {Logged} event */
  hears({ why, lines }) {
    if (why !== "taken" || !this.#isRunning || this.#isTakingPush) return false;
    this.#taken = this.#taken.concat(lines);
    const isLater = this.#parts.connection.link?.isSynced;
    if (isLater && this.#parts.clock.now() - this.#toldAt > TELL_MS) this.#tellTaken();
    return true;
  }

  /** @param {number} count */
  #noteFetched(count) {
    this.fetched = count;
    if (this.#parts.clock.now() - this.#progressAt < TELL_MS) return;
    this.#progressAt = this.#parts.clock.now();
    this.#parts.notices.tell({ what: "progress" });
  }

  #endTaking() {
    this.#tellTaken();
    this.#progressAt = -TELL_MS;
    if (this.fetched === undefined) return;
    this.fetched = undefined;
    this.#parts.notices.tell({ what: "progress" });
  }

  #tellTaken() {
    const lines = this.#taken;
    this.#taken = [];
    this.#toldAt = this.#parts.clock.now();
    if (lines.length > 0) this.#parts.notices.tell({ what: "changed", why: "taken", lines });
  }

  // ---- What the server refuses

  /** @param {Refusal[]} own */
  #noteRefused(own) {
    const { notices } = this.#parts;
    this.refused = undefined;
    if (own.length === 0) return notices.solve("refused");
    const lines = this.#ownUnsent;
    const [{ number, name }] = own;
    const count = Math.max(lines.length, own.length);
    const words = `the server refuses ${changes(count)} of this replica: ${number} ${name}`
      + adviceFor(number);
    this.refused = { count, cause: new Refused(number, name, undefined, words) };
    if (number === NOT_ALLOWED) this.mayWrite = false;
    notices.report({ kind: "refused", words, cause: this.refused.cause, lines });
  }

  /** The lines of own operations that no server is known to have. */
  get #ownUnsent() {
    const { replica } = this.#parts;
    return this.unsent.filter(([, [, name]]) => name === replica.name).map(print);
  }

  /** Says that the server has other operations of somebody: nothing is sent or taken.
   *  @param {Difference} differs */
  #noteDifference(differs) {
    const { name, counter } = differs;
    const lines = this.#ownUnsent;
    const words = `from ${counter} on the server has other operations of ${name} than are here: two`
      + ` starts had this name. Nothing is sent or taken, and ${changes(lines.length)} of this replica`
      + " stay here";
    const cause = new Refused(REFUSALS["id-conflict"], "id-conflict", undefined, words);
    this.refused = { count: lines.length, cause, differs };
    this.#parts.notices.report({ kind: "refused", words, cause, lines });
  }

  /** Takes back what the server refuses, at the next exchange. Resolves its lines. Throws Away
   *  where there is none for so long.
   *  @param {number} ms
   *  @returns {Promise<string[]>} */
  discard(ms) {
    return this.#awaited(this.#discards, ms, "nothing was taken back");
  }

  /** Goes on with what the server has, where that differs, and makes own operations that it lacks
   *  again under a new name, at the next exchange. Resolves the lines of those that couldn't be made,
   *  and of others' that the server has others of. Throws Away where there is none for so long.
   *  @param {number} ms
   *  @returns {Promise<string[]>} */
  remake(ms) {
    return this.#awaited(this.#remakes, ms, "nothing was made again");
  }

  /** @param {Set<(lines: string[]) => void>} wishes
   *  @param {number} ms
   *  @param {string} what
   *  @returns {Promise<string[]>} */
  async #awaited(wishes, ms, what) {
    /** @type {(lines: string[]) => void} */
    let resume = () => {};
    let stop = () => {};
    const done = new Promise((/** @type {(lines: string[]) => void} */ resolve, reject) => {
      resume = resolve;
      const why = this.#parts.connection.why || "it takes long";
      const late = () => reject(new Away(`${what}: ${why}`));
      stop = this.#parts.clock.after(ms, late, true);
    });
    wishes.add(resume);
    this.now();
    return done.finally(() => {
      stop();
      wishes.delete(resume);
    });
  }

  /** Goes on under a new name, without the own operations that the server lacks.
   *  @param {Answer} answer */
  async #discard(answer) {
    const { lost } = await this.#goOnAs((replica, name) => replica.discard(name, answer));
    this.#noteRefused([]);
    this.#parts.changed();
    await this.#parts.writer.flushed();
    for (const resolve of this.#discards) resolve(lost);
  }

  /** Goes on under a new name with what the server has, and makes own operations again that it lacks.
   *  @param {Answer} answer
   *  @param {boolean} isOwn whether another had this replica's name */
  async #remake(answer, isOwn) {
    const { remade, lost, melted } =
      await this.#goOnAs((replica, name) => replica.remake(name, answer));
    const why = isOwn ? "another had the name of this replica"
      : "the server has other operations in place of some that were here";
    const words = `${why}: ${remadeWords(remade, lost, melted)}`;
    this.#parts.notices.report({ kind: "remade", words, lines: lost });
    if (this.refused?.differs) {
      this.#noteRefused([]);
      this.#parts.changed();
    }
    await this.#parts.writer.flushed();
    for (const resolve of this.#remakes) resolve(lost);
  }

  /** Goes on under a new name. The provider stores it before anything is edited behind it.
   *  @template T
   *  @param {(replica: Replica, name: string) => Promise<T>} rename
   *  @returns {Promise<T>} */
  async #goOnAs(rename) {
    const { replica, word } = this.#parts;
    const report = await rename(replica, freshName(word));
    this.#isStale = this.#isDoubtful = true;
    return report;
  }
}

/** Whether the server lets this client edit. It is asked to forget what nobody holds: that changes
 *  nothing, and is refused to who may only read.
 *  @param {Link} link
 *  @param {string} doc */
async function mayWrite(link, doc) {
  const reply = await link.ask(print(["forget", doc, [1, freshName("nobody")]]));
  return !isRefusedBy(reply, "not-allowed");
}

/** @param {number} count */
const changes = (count) => (count === 1 ? "1 change" : `${count} changes`);

/** What to do about a refusal.
 *  @param {number} number */
function adviceFor(number) {
  if (DOCUMENT_FULL.has(number)) {
    return ". The document is full: its content has to be put into a new one (renew)";
  }
  return number === NOT_ALLOWED ? ". This client may only read" : "";
}

/** @param {number} remade
 *  @param {string[]} lost
 *  @param {string[]} melted */
function remadeWords(remade, lost, melted) {
  const parts = [`made ${remade} changes again`];
  if (lost.length) parts.push(`couldn't make ${lost.length}`);
  if (melted.length) parts.push(`${melted.length} elements may be those of the other as well`);
  return parts.join(", ");
}

/** The id of an operation's line, which begins `["op",[COUNTER,"REPLICA"],`.
 *  @param {string} line
 *  @returns {[number, string]} */
function idOf(line) {
  const [, counter, name] = /^\["op",\[(\d+),"([^"]+)"\]/.exec(line) ?? [];
  return [Number(counter), name];
}
