/* The exchange of a replica with servers. */

import { Compared, firstDifference } from "./chains.mjs";
import { Comparison, copyPlace, sayingsFirst } from "./copies.mjs";
import { Away, Refused, refusalOf } from "./errors.mjs";
import { operationsOf } from "./followers.mjs";
import { beginningOf, generationOf } from "./generations.mjs";
import { isArray, parse, print } from "./json.mjs";
import { MOST } from "./limits.mjs";
import { freshName } from "./names.mjs";
import { covers, frontPairs, isAscending, isFront, isId, Page } from "./operations.mjs";
import { NAME_USED_TWICE, REFUSALS } from "./protocol.mjs";
import { Remaking } from "./remaking.mjs";

/** @typedef {import("./operations.mjs").Front} Front */
/** @typedef {import("./operations.mjs").Id} Id */
/** @typedef {import("./operations.mjs").Operation} Operation */
/** @typedef {import("./operations.mjs").Path} Path */
/** @typedef {import("./operations.mjs").Key} Key */
/** @typedef {import("./jcrdt.mjs").Engine} Engine */
/** @typedef {import("./jcrdt.mjs").Open} Open */
/** @typedef {import("./followers.mjs").Read} Read */
/** @typedef {(line: string) => Promise<string>} Answer Sends a request's line; resolves its reply. */

/** @typedef {object} Refusal
 *  @property {string} line The operation.
 *  @property {number} number
 *  @property {string} name
 *  @property {boolean} own Whether this replica made it. */

/** @typedef {object} Report
 *  @property {number} taken Operations that the replica has logged.
 *  @property {number} given Operations that the server has logged.
 *  @property {Refusal[]} refused Operations that were refused, here or there: at most 1,000.
 *  @property {import("./chains.mjs").Difference} [differs] The first operation that the server has
 *    another one of than this replica: nothing was exchanged then, and where only a refusal shows it,
 *    nothing more. One of another replica comes first. */

/** @typedef {import("./remaking.mjs").Remade} Remade */

/** @typedef {object} Followed A server that says what it logs.
 *  @property {Answer} answer
 *  @property {Map<string, number>} theirs What it has, by its replies and by what it said.
 *  @property {boolean} isKnown Whether that is all it has; else the next exchange asks for it.
 *  @property {boolean} isMissed Whether it said something that wasn't taken, since it was asked last. */

/** @typedef {object} Core What a replica gives to its exchange.
 *  @property {() => string} name
 *  @property {string} doc
 *  @property {Read} read
 *  @property {() => Map<string, number>} front
 *  @property {(operations: any[]) => Taken} take Delivers operations as one batch.
 *  @property {(lines: string[]) => boolean} begin Begins with operations, of which a server wrote
 *    these texts. Returns whether it has: else nothing is changed, and they are to be delivered.
 *  @property {() => boolean} isShared
 *  @property {() => number} now In milliseconds since some moment.
 *  @property {() => boolean} isFiled Whether copies may be made of what is edited: a file has it.
 *  @property {() => boolean} wasOpen Whether what was restored may be that of a program that goes on.
 *  @property {() => boolean} isNew Whether its name is of this opening of the store.
 *  @property {(place: import("./operations.mjs").Cursor) => void} say Deletes what isn't there.
 *  @property {(count: number) => Operation[]} last The last ones of the log.
 *  @property {() => void} sayFormers Says so of names before this one, if it has said nothing.
 *  @property {() => ReadonlyMap<string, any>} formers These names.
 *  @property {import("./copies.mjs").SessionOf} sessionOf
 *  @property {(count: number) => void} fetched Is called with the operations that came, once more
 *    have come, and are to be taken. */

/** @typedef {{taken: number, refused: {line: string, refusal: Refused}[]}} Taken */

const MOST_REFUSED = 1000; // operations of a report
const PAGE_BYTES = 2 ** 18; // of a hub's page, about
const AT_ONCE = 1024; // operations that are taken together; an empty replica takes all so
const MOST_ROUNDS = 8; // in which copies of a store may be in each other's way
const MOST_TURNS = 1000; // in which something is edited while what was before is made again
const MOST_PAGES = 16; // of the server, that one of a hub has
/** @type {Set<number>} */
const IS_ANOTHER = new Set([REFUSALS.forked, REFUSALS["id-conflict"]]);
/** @type {Set<number>} */
const NOT_KEPT = new Set([REFUSALS["no-such-document"], REFUSALS["not-allowed"]]);
/** @type {Set<number>} */
const FOR_ALL = new Set([REFUSALS["log-full"], REFUSALS["no-memory"]]);
const HAS_LOST = "the server has lost what it had a moment ago: it is asked again";
const WAIT_MS = 5000; // behind the last operation of this replica that another sends, for the next one

export class Exchange {
  #core;
  #restored; // own operations up to this counter were in the store when that was opened
  #stored; // own operations up to this counter were stored, and may have been sent then
  #sent; // up to this counter they were sent, perhaps
  #underWay = 0; // up to this counter replies to them are due
  #applied = 0; // up to this counter a server has logged them, as they were sent
  #checked = 0; // up to this counter the server over this connection has them, and they are the same
  /** @type {Answer | undefined} The connection that is meant by that. */
  #over;
  /** @type {WeakMap<Answer, number>} The same of other connections. */
  #checkedOver = new WeakMap();
  #confirmed = 0; // up to this counter a server has them, and they are the same
  #ours; // up to this counter a server has them, and no other program had others by then
  #forked = Infinity; // from this counter on others have the ids of own operations, or may
  #hasSeenFront = false;
  #copied = 0; // up to this counter a copy of the store says that it has them
  /** @type {Set<number>} Own operations that a server has logged behind another's of this name. */
  #strays = new Set();
  #hasSaid = false; // whether a copy has said up to which operation it may be one, or needn't
  #isCopy = false; // whether it has said so: then others may send under this name at any time
  /** Another sends own operations: the last one, and when that was seen. */
  #foreign = { last: 0, seenAt: 0 };
  #isLogging = false; // whether the server has logged an own one in this exchange
  /** @type {WeakMap<Answer, Compared>} Up to where a server has had the same as this replica. */
  #sides = new WeakMap();
  /** @type {Followed | undefined} */
  #followed;
  /** @type {{answer: Answer, done: Promise<Report>} | undefined} The last one that waits. */
  #waiting;
  /** @type {Promise<any>} */
  #running = Promise.resolve();

  /** @param {Core} core
   *  @param {number} stored The counter of the last own operation that was restored. */
  constructor(core, stored) {
    this.#core = core;
    this.#restored = this.#stored = this.#sent = this.#ours = stored;
  }

  /** The counter of the last own operation that a server is known to have; `undefined` if none was
   *  asked. */
  get confirmed() { return this.#hasSeenFront ? this.#confirmed : undefined; }

  /** @param {Answer} answer
   *  @returns {Promise<Report>} */
  sync(answer) {
    if (this.#waiting?.answer === answer) return this.#waiting.done;
    /** @type {() => Promise<Report>} */
    const work = () => {
      if (this.#waiting === waiting) this.#waiting = undefined;
      return this.#sync(answer);
    };
    const waiting = { answer, done: this.#running.then(work, work) };
    this.#waiting = waiting;
    this.#running = waiting.done.catch(() => {});
    return waiting.done;
  }

  /** From now on `logged` is called with all that this server logs behind the front. So `sync` with
   *  this very `answer` asks for nothing that is known. Without a front the next `sync` asks for it.
   *  @param {Answer} answer
   *  @param {Iterable<[string, number]>} [front] */
  follow(answer, front) {
    const theirs = new Map(front ?? []);
    this.#followed = { answer, theirs, isKnown: front !== undefined, isMissed: false };
    if (front) this.#noteLoss(answer, this.#followed.theirs);
  }

  /** A server that was killed may lack what it had logged, and another program may have sent others of
   *  this name by then. So over each connection own operations are compared anew.
   *  @param {Answer} answer
   *  @param {Map<string, number>} theirs */
  #noteLoss(answer, theirs) {
    const last = theirs.get(this.#core.name()) ?? 0;
    if (answer !== this.#over) {
      if (this.#over) this.#checkedOver.set(this.#over, this.#checked);
      [this.#over, this.#checked] = [answer, this.#checkedOver.get(answer) ?? 0];
    }
    this.#lower(last);
  }

  /** Notes that a server has own operations up to a counter alone.
   *  @param {number} last */
  #lower(last) {
    this.#checked = Math.min(this.#checked, last);
    if (last >= this.#applied) return;
    [this.#applied, this.#ours] = [last, Math.min(this.#ours, last)];
  }

  /** @param {Answer} answer */
  #comparedBy(answer) {
    const compared = this.#sides.get(answer) ?? new Compared();
    this.#sides.set(answer, compared);
    return compared;
  }

  /** Takes what a server that is followed has logged. Returns whether nothing differs in it now:
   *  else the caller is to `sync`. Before a server was compared nothing is taken.
   *  @param {Answer} answer
   *  @param {Operation[]} operations Each has an id, at least. */
  logged(answer, operations) {
    const followed = this.#followedBy(answer);
    if (!followed) return false;
    const isAll = this.#comparedBy(answer).isSame && this.#isAllSame(answer, followed, operations);
    // What isn't known to be the same isn't taken for what is here: the next exchange compares it.
    followed.isKnown &&= isAll;
    followed.isMissed ||= !isAll;
    return isAll;
  }

  /** @param {Answer} answer
   *  @param {Followed} followed
   *  @param {Operation[]} operations */
  #isAllSame(answer, followed, operations) {
    const name = this.#core.name();
    const own = operations.filter(([, [, replica]]) => replica === name);
    const isOwn = own.every((op) => this.#hearOwn(op));
    for (const op of own) if (op[1][0] <= this.#applied) this.#isSame(answer, op);
    const others = operations.filter(([, [, replica]]) => replica !== name);
    const compared = this.#comparedBy(answer);
    const before = this.#core.front();
    if (others.some((op) => compared.lacks(op, before))) return false;
    const ready = this.#readyOf(others);
    const { refused } = this.#core.take(ready);
    if (refused.length === 0) for (const [, id] of ready) this.#noteSame(answer, id);
    const front = this.#core.front();
    const isAll = isOwn && refused.length === 0 && operations.every(([, id]) => covers(front, id))
      && others.every((op) => this.#isSame(answer, op));
    if (isAll) for (const [, id] of operations) raise(followed.theirs, id);
    return isAll;
  }

  /** Whether an operation that a server has logged is the very same as here, and all before it of its
   *  replica.
   *  @param {Answer} answer
   *  @param {Operation} op */
  #isSame(answer, op) {
    const { same, isKnown } = this.#comparedBy(answer);
    const [, [counter, name], front] = op;
    if (!isKnown || counter <= (same.get(name) ?? 0)) return true;
    if (!isArray(front)) return false;
    const before = front.find(([it]) => it === name)?.[1] ?? 0;
    if (before > (same.get(name) ?? 0)) return false;
    const [here] = operationsOf(this.#core.read, new Map(this.#core.front()).set(name, before));
    if (!here || print(here) !== print(op)) return false;
    this.#noteSame(answer, op[1]);
    return true;
  }

  /** Whether an own operation that a server has logged is this replica's own, as it was sent.
   *  @param {Operation} op */
  #hearOwn(op) {
    const [, [counter, name], front] = op;
    if (counter <= Math.max(this.#applied, this.#underWay)) return true; // a reply says it, or will
    const before = isArray(front) ? front.find(([it]) => it === name)?.[1] ?? 0 : Infinity;
    if (counter > this.#sent && !this.#core.isShared()) return false; // another has this name
    if (before > this.#applied || counter >= this.#forked) return false;
    const known = new Map(this.#core.front()).set(name, before);
    const [same] = operationsOf(this.#core.read, known);
    if (!same || print(same) !== print(op)) return false;
    this.#hasSeenFront = true;
    this.#confirm(counter, true);
    return true;
  }

  /** Those that this replica lacks, and that depend on nothing else that it lacks.
   *  @param {Operation[]} operations In log order. */
  #readyOf(operations) {
    const front = this.#core.front();
    /** @type {Map<string, number>} */
    const taken = new Map();
    const has = (/** @type {any} */ pair) => isArray(pair, 2)
      && (taken.get(pair[0]) ?? front.get(pair[0]) ?? 0) >= pair[1];
    return operations.filter(([, [counter, name], deps]) => {
      if (has([name, counter]) || !isArray(deps) || !deps.every(has)) return false;
      taken.set(name, counter);
      return true;
    });
  }

  /** @param {Answer} answer */
  #followedBy(answer) {
    return this.#followed?.answer === answer ? this.#followed : undefined;
  }

  /** @param {Answer} answer
   *  @returns {Promise<Report>} */
  async #sync(answer) {
    /** @type {Report} */
    const report = { taken: 0, given: 0, refused: [] };
    const ask = asking(answer, this.#core.doc);
    const isHub = this.#followedBy(answer) !== undefined; // it may begin anew meanwhile
    const theirs = await this.#frontOf(answer, ask);
    this.#noteLoss(answer, theirs);
    await this.#look(ask, theirs, report);
    if (await this.#differs(answer, ask, theirs, report)) return report;
    this.#sayWhatIsLacking(theirs);
    const isFollowed = this.#followedBy(answer) !== undefined;
    if (!isFollowed || !this.#hasAll(theirs)) await this.#take(ask, answer, theirs, report, isHub);
    if (report.differs) return report;
    await this.#give(ask, answer, theirs, report);
    return report;
  }

  /** What a server has: asked for, unless it is known.
   *  @param {Answer} answer
   *  @param {Ask} ask */
  async #frontOf(answer, ask) {
    const followed = this.#followedBy(answer);
    if (followed?.isKnown) return followed.theirs;
    if (followed) followed.isMissed = false;
    const [, front] = await Promise.all([ask("open"), ask("front")]);
    const now = checkedFront(front);
    if (!followed) return new Map(now);
    for (const [name, counter] of now) raise(followed.theirs, [counter, name]);
    // What it said meanwhile, and wasn't taken, may have come behind this front.
    followed.isKnown = !followed.isMissed;
    return followed.theirs;
  }

  /** @param {Map<string, number>} theirs */
  #hasAll(theirs) {
    const front = this.#core.front();
    return [...theirs].every(([name, counter]) => covers(front, [counter, name]));
  }

  /** Notes that a server that is followed has an operation.
   *  @param {Answer} answer
   *  @param {Map<string, number>} theirs
   *  @param {Id} id */
  #noteTheirs(answer, theirs, id) {
    const followed = this.#followedBy(answer);
    if (!followed) return;
    raise(theirs, id);
    raise(followed.theirs, id);
  }

  /** Looks for own operations at the server that were never sent. Then another has this name, as
   *  where an older store was put back: the own ones with their ids aren't sent.
   *  @param {Ask} ask
   *  @param {Map<string, number>} theirs
   *  @param {Report} report */
  async #look(ask, theirs, report) {
    const name = this.#core.name();
    const last = theirs.get(name) ?? 0;
    if (last > this.#mostSent && this.#forked === Infinity) await this.#findCopied(ask, theirs);
    this.#hasSeenFront = true;
    if (last > this.#mostSent) this.#forked = Math.min(this.#forked, this.#mostSent + 1);
    else this.#confirmed = Math.max(this.#confirmed, Math.min(last, this.#forked - 1));
    if (this.#forked === Infinity) return;
    const front = new Map(this.#core.front()).set(name, this.#forked - 1);
    const refusal = new Refused(REFUSALS["own-name"]);
    for (const op of operationsOf(this.#core.read, front)) this.#refuse(report, op, refusal);
  }

  /** Compares what both have, before anything is given or taken. Resolves whether something differs.
   *  @param {Answer} answer
   *  @param {Ask} ask
   *  @param {Map<string, number>} theirs
   *  @param {Report} report */
  async #differs(answer, ask, theirs, report) {
    const found = await this.#differenceOf(answer, ask, theirs) ?? await this.#shownOf(answer, ask, theirs);
    if (!found) return false;
    report.differs = found;
    const { name, counter } = found;
    if (name === this.#core.name()) this.#fork(counter);
    const refusal = new Refused(this.isOwnName(name) ? REFUSALS["own-name"] : REFUSALS["id-conflict"]);
    const behind = new Map(this.#core.front()).set(name, counter - 1);
    for (const op of operationsOf(this.#core.read, behind)) this.#refuse(report, op, refusal);
    return true;
  }

  /** The first operation that differs, as digests of both sides show it: of another replica, where one
   *  of these differs. Throws Away where the server has lost what was to be compared.
   *  @param {Answer} answer
   *  @param {Ask} ask
   *  @param {Map<string, number>} theirs */
  async #differenceOf(answer, ask, theirs) {
    const { name, front, read } = this.#core;
    /** @param {Map<string, number>} mine */
    const first = (mine) => firstDifference((after, last) => read("chains", after, last),
      (after, last) => ask("chains", after, last), [mine, theirs], this.#comparedBy(answer));
    const mine = new Map(front());
    if (this.#forked < Infinity) mine.delete(name()); // that is known
    const found = await first(mine);
    if (!found) return void (this.#comparedBy(answer).isKnown && this.#noteOwnSame(theirs));
    await this.#checkLoss(answer, ask, theirs, found);
    if (!this.isOwnName(found.name)) return found;
    const others = await first(new Map([...mine].filter(([it]) => !this.isOwnName(it))));
    if (others) await this.#checkLoss(answer, ask, theirs, others);
    return others ?? found;
  }

  /** Throws Away where the server has less than it had, or had so a moment ago, and somebody has sent it
   *  again: a server that was killed since differs by that.
   *  @param {Answer} answer
   *  @param {Ask} ask
   *  @param {Map<string, number>} before
   *  @param {import("./chains.mjs").Difference} found */
  async #checkLoss(answer, ask, before, found) {
    const now = new Map(checkedFront(await ask("front")));
    const isThere = [...before].every(([name, counter]) => covers(now, [counter, name]));
    if (isThere && (await this.#isAnother(ask, now, found))) return;
    if (this.#followedBy(answer)) this.follow(answer);
    throw new Away(HAS_LOST);
  }

  /** Whether the server has another operation than this replica, from a counter on.
   *  @param {Ask} ask
   *  @param {Map<string, number>} theirs
   *  @param {import("./chains.mjs").Difference} found */
  async #isAnother(ask, theirs, { name, counter }) {
    const isBeginning = counter === 1 && beginningOf([[name, counter]]).length > 0;
    if (isBeginning) return true; // a front without it is none of this generation
    const [here] = operationsOf(this.#core.read, upTo(this.#core.front(), name, counter - 1));
    for await (const { operations } of pagesOf(ask, upTo(theirs, name, counter - 1), false)) {
      const there = operations.find(([, [, maker]]) => maker === name);
      if (there) return print(there) !== print(here);
    }
    return false;
  }

  /** Notes that a server has the own operations as they are here, as far as it has them.
   *  @param {Map<string, number>} theirs */
  #noteOwnSame(theirs) {
    if (this.#forked < Infinity) return; // they weren't compared
    this.#confirm(Math.min(theirs.get(this.#core.name()) ?? 0, this.#mostSent), false);
  }

  /** What the refusals of a server show that gives no digests: of the last operations of others, one of
   *  each replica and all of names before this one, it refuses those in whose place it has others. These
   *  were logged behind a kill, which took the former ones.
   *  @param {Answer} answer
   *  @param {Ask} ask
   *  @param {Map<string, number>} theirs */
  async #shownOf(answer, ask, theirs) {
    const compared = this.#comparedBy(answer);
    if (compared.isKnown || compared.isTried) return compared.isKnown ? undefined : compared.shown;
    const { name, formers } = this.#core;
    const there = this.#core.last(MOST.page).filter(({ 1: id }) => id[1] !== name() && covers(theirs, id));
    const lastOf = new Map(there.map((op) => [op[1][1], op]));
    const last = there.filter((op) => formers().has(op[1][1]) || lastOf.get(op[1][1]) === op);
    const replies = await Promise.all(last.map((op) => ask("deliver", op).catch((error) => error)));
    for (const [at, reply] of replies.entries()) {
      if (reply instanceof Error && !(reply instanceof Refused)) throw reply;
      if (reply instanceof Refused) this.#noteShown(compared, last[at][1], reply);
    }
    compared.isTried = true;
    return compared.shown;
  }

  /** Notes of a refusal whether two operations have an id: of other replicas' the first one.
   *  @param {Compared} compared
   *  @param {Id | undefined} id
   *  @param {Refused} refusal */
  #noteShown(compared, id, { number }) {
    if (!id || !IS_ANOTHER.has(number)) return;
    const [counter, name] = id;
    const isOwn = compared.shown && this.isOwnName(compared.shown.name);
    if (!compared.shown || (isOwn && !this.isOwnName(name))) compared.show({ name, counter });
  }

  /** Whether a name is this replica's, or was that of one of which its store is a copy.
   *  @param {string} name */
  isOwnName(name) { return name === this.#core.name() || this.#core.formers().has(name); }

  /** Notes that a server has what is here of a replica, up to an operation.
   *  @param {Answer} answer
   *  @param {Id} id */
  #noteSame(answer, [counter, name]) { this.#comparedBy(answer).note(name, counter); }

  /** Up to this counter own operations may have been sent from here. */
  get #mostSent() {
    const { isShared, front, name } = this.#core;
    return isShared() ? front().get(name()) ?? 0 : this.#sent;
  }

  /** Takes for its own what a copy has sent of it: what is the same here, up to where the copy says
   *  that it was made. Throws Away while that may still come.
   *  @param {Ask} ask
   *  @param {Map<string, number>} theirs */
  async #findCopied(ask, theirs) {
    const last = theirs.get(this.#core.name()) ?? 0;
    const { same, copied, last: there } = await this.#compared(ask);
    if (there < last) throw new Away(HAS_LOST);
    const isOurs = this.#isOurs(same);
    const sure = isOurs ? same : Math.min(same, copied);
    if (sure > this.#sent) {
      this.#sent = this.#stored = sure;
      this.#ours = Math.max(this.#ours, sure);
    } else if (same > this.#sent && !isOurs) this.#waitFor(last);
  }

  /** Whether what a server has up to an own operation, and is the same here, is this replica's own. A
   *  copy that was made before this opening of the store can't have sent it: one of these has said
   *  something else by then. One that was made since says where it begins.
   *  @param {number} same */
  #isOurs(same) {
    const isAlone = this.#core.isNew() || this.#isCopy || this.#ours > this.#restored;
    return same > this.#restored && isAlone;
  }

  /** @param {number} last Of the server's operations of this name. */
  #waitFor(last) {
    const now = this.#core.now();
    if (last > this.#foreign.last) this.#foreign = { last, seenAt: now };
    if (this.#core.isFiled() && now - this.#foreign.seenAt < WAIT_MS) {
      throw new Away("another program sends what this one has: a copy of its store, perhaps");
    }
  }

  /** The server's operations of this name that weren't sent from here beside the own ones, and what
   *  copies say.
   *  @param {Ask} ask */
  async #compared(ask, from = this.#sent) {
    const { name, front, read } = this.#core;
    const comparison = new Comparison(this.#core, from);
    for (const op of operationsOf(read, [])) comparison.hear(op);
    for await (const { operations } of pagesOf(ask, upTo(front(), name(), from), false)) {
      for (const op of operations) comparison.take(op);
    }
    this.#copied = Math.max(this.#copied, comparison.copied);
    return comparison;
  }

  /** Whether what was restored may be that of a program that goes on, and nobody was told. */
  get isDoubtful() {
    return this.#core.wasOpen() && !this.#hasSaid && this.#stored > 0;
  }

  /** Says, where the store wasn't closed, which operations the program that had it may have, too. It
   *  is to come right behind them, and before any of them is sent. */
  say() {
    if (!this.isDoubtful) return;
    this.#hasSaid = this.#isCopy = true;
    const { name, say, sessionOf } = this.#core;
    say(copyPlace(name(), this.#stored, sessionOf(Infinity), sessionOf(this.#stored)));
  }

  /** @param {Map<string, number>} theirs */
  #sayWhatIsLacking(theirs) {
    const { formers, front, sayFormers } = this.#core;
    const isLacking = (/** @type {string} */ name) => (theirs.get(name) ?? 0) < (front().get(name) ?? 0);
    if ([...formers().keys()].some(isLacking)) sayFormers();
    if (this.#forked < Infinity) return;
    if ((theirs.get(this.#core.name()) ?? 0) < this.#stored) this.say();
  }

  /** @param {Report} report
   *  @param {Operation | string} op
   *  @param {Refused} refusal */
  #refuse(report, op, { number, name }) {
    if (report.refused.length >= MOST_REFUSED) return;
    const line = typeof op === "string" ? op : print(op);
    const own = this.isOwnName((typeof op === "string" ? idOf(op) : op[1])?.[1] ?? "");
    report.refused.push({ line: line.slice(0, MOST.line), number, name, own });
  }

  /** @param {Ask} ask
   *  @param {Answer} answer
   *  @param {Map<string, number>} theirs
   *  @param {Report} report
   *  @param {boolean} isHub Whether it is a hub that has pages of its own */
  async #take(ask, answer, theirs, report, isHub) {
    const front = this.#core.front();
    const pages = pagesOf(ask, front, isHub);
    const came = counted(pages, this.#core.fetched);
    for await (const some of joined(came, front.size > 0 ? AT_ONCE : Infinity)) {
      if (front.size > 0 && (await this.#differsBehind(answer, ask, theirs, some, report))) return;
      for (const { last } of some) {
        for (const [name, counter] of last) this.#noteTheirs(answer, theirs, [counter, name]);
      }
      const { taken, refused } = this.#takePages(some);
      report.taken += taken;
      for (const { last } of refused.length > 0 ? [] : some) {
        for (const [name, counter] of last) this.#noteSame(answer, [counter, name]);
      }
      for (const { line, refusal } of refused) {
        this.#refuse(report, line, refusal);
        this.#noteShown(this.#comparedBy(answer), idOf(line), refusal);
      }
    }
    const { shown } = this.#comparedBy(answer);
    if (shown) report.differs = shown;
  }

  /** Compares what came to the server since it said its front, where pages depend on that. Resolves
   *  whether something differs.
   *  @param {Answer} answer
   *  @param {Ask} ask
   *  @param {Map<string, number>} theirs
   *  @param {Page[]} pages
   *  @param {Report} report */
  async #differsBehind(answer, ask, theirs, pages, report) {
    const [compared, front] = [this.#comparedBy(answer), this.#core.front()];
    const lacking = pages.flatMap(({ operations }) => operations).filter((op) => compared.lacks(op, front));
    if (lacking.length === 0) return false;
    const now = new Map(theirs);
    for (const [, , known] of lacking) for (const [name, last] of known) raise(now, [last, name]);
    return this.#differs(answer, ask, now, report);
  }

  /** @param {Page[]} pages
   *  @returns {Taken} */
  #takePages(pages) {
    const count = pages.reduce((sum, { length }) => sum + length, 0);
    /** @type {string[]} */
    const texts = [];
    for (const page of pages) for (const text of page.texts ?? []) texts.push(text);
    if (texts.length === count && this.#core.begin(texts)) return { taken: count, refused: [] };
    return this.#core.take(pages.flatMap(({ operations }) => operations));
  }

  /** @param {Ask} ask
   *  @param {Answer} answer
   *  @param {Map<string, number>} theirs
   *  @param {Report} report */
  async #give(ask, answer, theirs, report) {
    /** @type {Map<string, number>} Of a replica: the first that was refused. */
    const barred = new Map();
    const name = this.#core.name();
    if (this.#forked < Infinity) barred.set(name, this.#forked);
    const unsure = this.#unsure(theirs);
    /** @param {Operation[]} page */
    const give = (page) => this.#givePage(ask, page, barred, report, (id) => {
      this.#noteTheirs(answer, theirs, id);
      this.#noteSame(answer, id);
    });
    if (unsure.length > 0 && (await give(unsure))) return;
    const lacking = () => operationsOf(this.#core.read, theirs);
    const lacked = sayingsFirst(lacking, name, this.#core.formers().size);
    this.#isLogging = false;
    for (const page of pagesToGive(lacked, name, () => this.#isLogging && !this.#isCopy)) {
      // What a server that is followed has logged meanwhile isn't sent to it.
      if (await give(page.filter((it) => !isBarred(barred, it) && !covers(theirs, it[1])))) return;
    }
  }

  /** The last own operations that the server has and that weren't compared over this connection: these
   *  go first. It refuses them if it has others of this name.
   *  @param {Map<string, number>} theirs */
  #unsure(theirs) {
    const name = this.#core.name();
    const last = Math.min(theirs.get(name) ?? 0, this.#forked - 1);
    if (last <= this.#checked) return [];
    const from = Math.max(this.#checked, last - MOST.page);
    const front = new Map(this.#core.front()).set(name, from);
    return [...operationsOf(this.#core.read, front)].filter(([, [counter]]) => counter <= last);
  }

  /** Returns whether nothing more is to be sent.
   *  @param {Ask} ask
   *  @param {Operation[]} page
   *  @param {Map<string, number>} barred
   *  @param {Report} report
   *  @param {(id: Id) => void} given Is called with what the server has now. */
  async #givePage(ask, page, barred, report, given) {
    const before = this.#sent;
    const replies = await this.#sendPage(ask, page, before);
    for (const [at, reply] of replies.entries()) {
      if (reply instanceof Error && !(reply instanceof Refused)) throw reply;
      const [, [counter, replica]] = page[at];
      const isOwn = replica === this.#core.name();
      const isNew = this.#isStrange(page[at], reply, before);
      if (isNew && page.length === 1 && this.#core.isFiled()) {
        this.#sent = before; // it came from another: the next exchange looks who that is
        this.#waitFor(counter);
      }
      const refusal = reply instanceof Refused ? reply
        : isNew ? new Refused(REFUSALS["id-conflict"]) : undefined;
      if (refusal) {
        this.#refuse(report, page[at], refusal);
        barred.set(replica, Math.min(counter, barred.get(replica) ?? Infinity));
        if (isOwn && NAME_USED_TWICE.has(refusal.number)) this.#fork(counter);
      } else {
        if (typeof reply === "number") report.given++;
        this.#isLogging ||= isOwn && typeof reply === "number";
        if (!isArray(reply)) given(page[at][1]); // it isn't held
        if (isOwn && barred.has(replica) && typeof reply === "number") this.#strays.add(counter);
        if (isOwn && !barred.has(replica)) this.#confirm(counter, typeof reply === "number");
      }
    }
    return replies.some((reply) => reply instanceof Refused && isForAll(reply));
  }

  /** Delivers operations, and resolves what the server answers to each.
   *  @param {Ask} ask
   *  @param {Operation[]} page
   *  @param {number} before Up to this own counter they were sent, perhaps.
   *  @returns {Promise<any[]>} */
  async #sendPage(ask, page, before) {
    for (const [, [counter, replica]] of page) {
      if (replica === this.#core.name()) this.#sent = Math.max(this.#sent, counter);
    }
    this.#underWay = this.#sent;
    const sent = page.map((op) => ask("deliver", op).catch((/** @type {Error} */ error) => error));
    const replies = await Promise.all(sent);
    this.#underWay = 0;
    if (page.some((op, at) => this.#isStrange(op, replies[at], before))) await this.#compared(ask, before);
    return replies;
  }

  /** Whether a server had an own operation that wasn't sent from here, as far as is known, and not by a
   *  copy of the store.
   *  @param {Operation} op
   *  @param {any} reply
   *  @param {number} before */
  #isStrange([, [counter, replica]], reply, before) {
    const { name, isShared } = this.#core;
    return reply === undefined && replica === name() && counter > Math.max(before, this.#copied)
      && !isShared() && !this.#isOurs(counter);
  }

  /** Others have the ids of own operations from a counter on.
   *  @param {number} counter */
  #fork(counter) {
    this.#forked = Math.min(this.#forked, counter);
    this.#lower(counter - 1);
  }

  /** @param {number} counter
   *  @param {boolean} isApplied */
  #confirm(counter, isApplied) {
    this.#confirmed = Math.max(this.#confirmed, counter);
    this.#checked = Math.max(this.#checked, counter);
    if (isApplied || counter <= this.#stored) this.#applied = Math.max(this.#applied, counter);
    if (isApplied) this.#ours = Math.max(this.#ours, counter);
  }

  /** Goes on under a new name: `goOn` is called with what to go on with. What copies of the store may
   *  have is made again the same by each of them, and is at the server by then.
   *  @template T
   *  @param {string} name
   *  @param {Answer} answer
   *  @param {Open} open
   *  @param {boolean} isRemade Whether own operations that the server lacks are made again.
   *  @param {(remaking: Remaking) => T} goOn
   *  @returns {Promise<T>} */
  async remade(name, answer, open, isRemade, goOn) {
    const ask = asking(answer, this.#core.doc);
    for (let round = 1, maySend = true; ; round++) {
      const sure = Math.max(this.#applied, this.#stored);
      const forked = await this.#forkedAt(ask);
      const scratch = open(freshName("scratch"));
      const stored = () => (isRemade ? this.#copyable : 0);
      const isOurs = (/** @type {number} */ same) => this.#isOurs(same);
      const how = { name, forked, sure, isOurs, stored, strays: this.#strays, isRemade, maySend };
      /** @type {Remaking} */
      const remaking = new Remaking(this.#core, scratch, how);
      try {
        for await (const { operations } of pagesOf(ask, new Map(), false)) {
          for (const op of operations) remaking.begin(op);
        }
        this.#checkGeneration(scratch);
        let isLogged = true;
        for (let turn = 0; isLogged && remaking.isBehind && turn < MOST_TURNS; turn++) {
          isLogged = await remaking.send(ask);
        }
        if (isLogged) return goOn(remaking); // at once: nothing is edited in between
        maySend = remaking.maySend && round < MOST_ROUNDS;
      } finally {
        remaking.free();
      }
    }
  }

  /** What a hub had of own operations at the end of a generation, beside others' of this name: from
   *  which counter on it had those, and what copies of the store had made again by then.
   *  @param {string} past
   *  @param {Map<string, number>} end
   *  @param {Answer} answer
   *  @param {Open} open
   *  @returns {Promise<{ forked: number, made: Map<string, Id> }>} */
  async before(past, end, answer, open) {
    const name = this.#core.name();
    const last = end.get(name) ?? 0;
    const own = this.#core.front().get(name) ?? 0;
    if (Math.min(own, last) <= this.#applied) return { forked: this.#forked, made: new Map() };
    const ask = asking(answer, past);
    if (!(await isKept(ask))) {
      // What can't have been sent from here is taken for another's.
      const forked = last > this.#mostSent ? this.#mostSent + 1 : Infinity;
      return { forked: Math.min(this.#forked, forked), made: new Map() };
    }
    const { same, copied } = await this.#compared(ask, this.#applied);
    const sure = this.#isOurs(same) ? same : Math.min(same, Math.max(copied, this.#mostSent));
    const forked = Math.min(this.#forked, sure < last ? sure + 1 : Infinity);
    return forked > last ? { forked, made: new Map() } : this.#madeBefore(ask, forked, open);
  }

  /** @param {Ask} ask
   *  @param {number} forked
   *  @param {Open} open */
  async #madeBefore(ask, forked, open) {
    const name = freshName("unmade"); // what is under it wasn't there
    const how = {
      name, forked, sure: Infinity, isOurs: (/** @type {number} */ same) => this.#isOurs(same),
      stored: () => this.#copyable, strays: this.#strays, isRemade: true, maySend: false,
    };
    const remaking = new Remaking(this.#core, open(freshName("scratch")), how);
    try {
      for await (const { operations } of pagesOf(ask, new Map(), true)) {
        for (const op of operations) remaking.begin(op);
      }
      const { ids } = remaking.run();
      const made = new Map([...ids].filter(([, [, maker]]) => maker !== name));
      return { forked: Math.min(forked, remaking.same + 1), made };
    } finally {
      remaking.free();
    }
  }

  /** Up to this counter copies of the store may have own operations. */
  get #copyable() {
    const last = this.#core.front().get(this.#core.name()) ?? 0;
    return this.#core.isFiled() ? last : this.#stored;
  }

  /** Throws where the server has another generation of the document than this replica.
   *  @param {Engine} scratch It has what the server has. */
  #checkGeneration(scratch) {
    const front = scratch.ask(["front"]).reply[1];
    const isSame = front.length === 0 || generationOf(front) === generationOf(this.#core.front());
    if (!isSame) throw new Refused(REFUSALS.renewed);
  }

  /** From where on others have the ids of own operations.
   *  @param {Ask} ask */
  async #forkedAt(ask) {
    const [, front] = await Promise.all([ask("open"), ask("front")]);
    await this.#look(ask, new Map(checkedFront(front)), { taken: 0, given: 0, refused: [] });
    return this.#forked;
  }
}

/** @param {Map<string, number>} front
 *  @param {Id} id */
function raise(front, [counter, name]) {
  front.set(name, Math.max(counter, front.get(name) ?? 0));
}

/** A front that has a replica's operations up to a counter alone.
 *  @param {ReadonlyMap<string, number>} front
 *  @param {string} name
 *  @param {number} counter */
function upTo(front, name, counter) {
  const known = new Map(front).set(name, counter);
  if (counter === 0) known.delete(name);
  return known;
}

/** @typedef {(word: string, ...items: any[]) => Promise<any>} Ask */

/** What sends requests: resolves what is behind the word of the reply, a `Page` where that is
 *  operations, or throws Refused.
 *  @param {Answer} answer
 *  @param {string} doc
 *  @returns {Ask} */
function asking(answer, doc) {
  return async (word, ...items) => {
    const line = await answer(print([word, doc, ...items]));
    if (/^\["(?:page|ops)",\[/.test(line)) return new Page(line);
    const reply = parse(line);
    if (!isArray(reply) || reply.length === 0) throw malformed(word);
    const [kind, first, second, third] = reply;
    if (kind === "no") throw new Refused(first, second, third);
    return first;
  };
}

/** Whether a hub has kept a generation, and lets it be read.
 *  @param {Ask} ask of that one */
async function isKept(ask) {
  try {
    await ask("open");
    return true;
  } catch (error) {
    if (error instanceof Refused && NOT_KEPT.has(error.number)) return false;
    throw error;
  }
}

/** @param {string} word */
const malformed = (word) => new TypeError(`the server's reply to ${word} is malformed`);

/** @param {any} front
 *  @returns {Front} */
function checkedFront(front) {
  const isGood = isFront(front) && front.length <= MOST.replicas && isAscending(front);
  if (!isGood) throw malformed("front");
  return front;
}

/** Operations in pages, as they are delivered. The first one goes alone, and own ones until the
 *  server logs one: one that is refused bars the others. So of two copies of one store that deliver
 *  at once, one gets nothing logged under the name of both, but for what both have.
 *  @param {Iterable<Operation>} operations
 *  @param {string} name
 *  @param {() => boolean} isLogged Whether the server has logged an own one of these.
 *  @returns {Generator<Operation[]>} */
function* pagesToGive(operations, name, isLogged) {
  /** @type {Operation[]} */
  let page = [];
  let isFirst = true;
  for (const op of operations) {
    const isAlone = isFirst || (op[1][1] === name && !isLogged());
    if (isAlone && page.length > 0) {
      yield page;
      page = [];
    }
    page.push(op);
    isFirst = false;
    if (!isAlone && page.length < MOST.page) continue;
    yield page;
    page = [];
  }
  if (page.length > 0) yield page;
}

/** The pages of what a server has and a front doesn't cover. The next one is asked for before one
 *  is used. Ends if the server repeats itself, and throws if it has more than a document can have.
 *  @param {Ask} ask
 *  @param {Map<string, number>} front
 *  @param {boolean} isHub Whether it is a hub that has pages of its own.
 *  @returns {AsyncGenerator<Page>} */
async function* pagesOf(ask, front, isHub) {
  const seen = new Map(front);
  const next = () => {
    const page = isHub ? ask("page", frontPairs(seen), PAGE_BYTES)
      : ask("ops", frontPairs(seen), MOST.page);
    page.catch(() => {}); // it is thrown where the page is used, if it is
    return page;
  };
  let asked = next();
  for (let count = 0, isMore = true; isMore; ) {
    const page = await asked;
    const most = MOST.page * (isHub ? MOST_PAGES : 1);
    if (!(page instanceof Page) || page.length > most) throw malformed("ops");
    const isFull = page.length > 0 && page.length % MOST.page === 0;
    isMore = isFull && isNews(seen, page);
    count += page.length;
    if (count > MOST.log || seen.size > 2 * MOST.replicas) throw malformed("ops");
    if (isMore) asked = next();
    yield page;
  }
}

/** Pages as they come, of which `fetched` is called with how many operations they have together.
 *  @param {AsyncIterable<Page>} pages
 *  @param {(count: number) => void} fetched */
async function* counted(pages, fetched) {
  let count = 0;
  for await (const page of pages) {
    count += page.length;
    if (page.length > 0) fetched(count);
    yield page;
  }
}

/** Pages together, of so many operations at least. Where a page can't be had, those before come
 *  first, and then it is thrown.
 *  @param {AsyncIterable<Page>} pages
 *  @param {number} least */
async function* joined(pages, least) {
  /** @type {Page[]} */
  let found = [];
  let count = 0;
  /** @type {unknown[]} */
  const errors = [];
  try {
    for await (const page of pages) {
      found.push(page);
      count += page.length;
      if (count < least) continue;
      yield found;
      [found, count] = [[], 0];
    }
  } catch (error) {
    errors.push(error);
  }
  if (count > 0) yield found;
  for (const error of errors) throw error;
}

/** Adds the ids of a page to what was seen. Returns whether one of them is new.
 *  @param {Map<string, number>} seen
 *  @param {Page} page */
function isNews(seen, { last }) {
  let isNew = false;
  for (const [name, counter] of last) {
    if (covers(seen, [counter, name])) continue;
    seen.set(name, counter);
    isNew = true;
  }
  return isNew;
}

/** @param {Map<string, number>} barred
 *  @param {Operation} op */
const isBarred = (barred, [, [counter, replica], front]) =>
  counter >= (barred.get(replica) ?? Infinity) ||
  front.some(([name, last]) => last >= (barred.get(name) ?? Infinity));

/** Whether a refusal holds for whatever is sent: one of these, or of the hub.
 *  @param {Refused} refusal */
const isForAll = ({ number }) => FOR_ALL.has(number) || number >= REFUSALS["server-lost"];

/** @param {string} line */
function idOf(line) {
  try {
    const id = parse(line)?.[1];
    return isId(id) ? id : undefined;
  } catch {
    return undefined;
  }
}
