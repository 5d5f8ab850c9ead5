/* Two logs are compared before they are mixed: one id may mean two operations, as where a server has
   an older file under its old name. Of each replica that both have, both are asked for digests of its
   operations, up to the counter that both have: in pieces, since a server hashes them while others
   wait. A hub knows by a front of which generation a request is: so each piece names the replica that
   began it. */

import { Refused } from "./errors.mjs";
import { beginningOf } from "./generations.mjs";
import { frontPairs } from "./operations.mjs";
import { REFUSALS } from "./protocol.mjs";

/** @typedef {import("./operations.mjs").Front} Front */
/** @typedef {[name: string, counter: number, digest: string]} Chain */
/** @typedef {Map<string, {after: number, last: number}>} Piece What one request asks for: of each
 *    replica the operations behind a counter, and up to one. */
/** @typedef {(after: Front, last: Front) => Chain[] | Promise<Chain[]>} Chains Asks a side. */

/** @typedef {object} Difference The first operation of a replica that isn't the same on both sides, or
 *    that one of them lacks.
 *  @property {string} name
 *  @property {number} counter */

const WIDTH = 512; // over so many counters a request reaches
const AT_ONCE = 64; // requests that are asked before their replies are read

/** Up to which counter of each replica two sides had the same. It is of a connection: a server that
 *  comes back may have another file. */
export class Compared {
  /** @type {Map<string, number>} */
  same = new Map();
  /** Whether all was compared that both had, and nothing differed; or one of them can't be asked. */
  isSame = false;
  /** Whether both can be asked: an older server can't. */
  isKnown = true;
  /** Whether a server that can't be asked was tried, by what it refuses. */
  isTried = false;
  /** What a refusal has shown.
   *  @type {Difference | undefined} */
  shown;
  /** @type {ReadonlyMap<string, number>[]} */
  #fronts = [];

  /** Is to be called with the fronts. Where a side has lost something all is compared anew: it may
   *  have got something else.
   *  @param {ReadonlyMap<string, number>[]} fronts */
  look(...fronts) {
    const hasLost = fronts.some((front, at) => [this.same, this.#fronts[at] ?? new Map()].some(
      (before) => [...before].some(([name, counter]) => counter > (front.get(name) ?? 0))));
    if (hasLost) this.same.clear();
    this.#fronts = fronts.map((front) => new Map(front));
  }

  /** Is to be called with what a refusal shows.
   *  @param {Difference} difference */
  show(difference) { [this.shown, this.isSame] = [difference, false]; }

  /** @param {string} name
   *  @param {number} counter */
  note(name, counter) {
    this.same.set(name, Math.max(counter, this.same.get(name) ?? 0));
  }

  /** Whether an operation of a side depends on something that the other one has, too, and that wasn't
   *  compared: it came there since.
   *  @param {import("./operations.mjs").Operation} operation
   *  @param {ReadonlyMap<string, number>} front of the other side */
  lacks([, , known], front) {
    return this.isKnown && Array.isArray(known) && known.some(([name, last]) =>
      Math.min(last, front.get(name) ?? 0) > (this.same.get(name) ?? 0));
  }

  /** Of each replica that both have and that has moved: what to compare. The last operation that was
   *  the same is looked at again.
   *  @param {ReadonlyMap<string, number>} here
   *  @param {ReadonlyMap<string, number>} there
   *  @returns {Piece} */
  due(here, there) {
    /** @type {Piece} */
    const due = new Map();
    for (const [name, counter] of frontPairs(here)) {
      const last = Math.min(counter, there.get(name) ?? 0);
      const same = this.same.get(name) ?? 0;
      if (last > same) due.set(name, { after: Math.max(0, same - 1), last });
    }
    return due;
  }
}

/** A piece that names the beginning of a generation, too.
 *  @param {Piece} piece
 *  @param {Front} beginning
 *  @returns {Piece} */
function naming(piece, beginning) {
  /** @type {Piece} */
  const named = new Map(beginning.map(([name, last]) => [name, { after: last, last }]));
  const all = new Map([...named, ...piece]);
  return new Map([...all].sort(([a], [b]) => (a < b ? -1 : 1)));
}

/** Requests for all of it, each of which reaches over so many counters at most.
 *  @param {Piece} due
 *  @returns {Generator<Piece>} */
function* piecesOf(due) {
  /** @type {Piece} */
  let piece = new Map();
  let room = WIDTH;
  for (const [name, { after, last }] of due) {
    for (let at = after; at < last; ) {
      const end = Math.min(last, at + room);
      piece.set(name, { after: at, last: end });
      [room, at] = [room - (end - at), end];
      if (room > 0) continue;
      yield piece;
      [piece, room] = [new Map(), WIDTH];
    }
  }
  if (piece.size > 0) yield piece;
}

/** The first operation of a replica that differs between two sides with these fronts; `undefined`
 *  where nothing differs of what moved since they were compared last, or where one can't be asked.
 *  @param {Chains} here
 *  @param {Chains} there
 *  @param {[ReadonlyMap<string, number>, ReadonlyMap<string, number>]} fronts
 *  @param {Compared} compared
 *  @returns {Promise<Difference | undefined>} */
export async function firstDifference(here, there, fronts, compared) {
  compared.look(...fronts);
  compared.isSame = false;
  let found;
  try {
    if (compared.isKnown) {
      const pieces = [...piecesOf(compared.due(...fronts))];
      found = await differenceIn(pieces, beginningOf(fronts[0]), here, there, compared);
    }
  } catch (error) {
    if (!(error instanceof Refused) || error.number !== REFUSALS["bad-request"]) throw error;
    compared.isKnown = false;
  }
  if (compared.isKnown) compared.shown = undefined;
  compared.isSame = !(found ?? compared.shown);
  return found;
}

/** @param {Piece[]} pieces
 *  @param {Front} beginning of the generation
 *  @param {Chains} here
 *  @param {Chains} there
 *  @param {Compared} compared */
async function differenceIn(pieces, beginning, here, there, compared) {
  for (let at = 0; at < pieces.length; at += AT_ONCE) {
    const some = pieces.slice(at, at + AT_ONCE).map((piece) => naming(piece, beginning));
    const replies = some.map((piece) => asked(there, piece));
    for (const reply of replies) Promise.resolve(reply).catch(() => {}); // it is thrown where it is awaited
    for (const [index, piece] of some.entries()) {
      const theirs = await replies[index];
      const name = differing(piece, await asked(here, piece), theirs);
      if (name !== undefined) return narrowed(name, piece, beginning, here, there);
      for (const [same, { after, last }] of piece) if (after < last) compared.note(same, last);
    }
  }
  return undefined;
}

/** The first operation that differs in a piece.
 *  @param {string} name
 *  @param {Piece} piece
 *  @param {Front} beginning of the generation
 *  @param {Chains} here
 *  @param {Chains} there
 *  @returns {Promise<Difference>} */
async function narrowed(name, piece, beginning, here, there) {
  let { after, last } = piece.get(name) ?? { after: 0, last: 0 };
  while (last - after > 1) {
    const middle = Math.floor((after + last) / 2);
    const half = naming(new Map([[name, { after, last: middle }]]), beginning);
    const theirs = await asked(there, half);
    if (differing(half, await asked(here, half), theirs) === undefined) after = middle;
    else last = middle;
  }
  return { name, counter: last };
}

/** @param {Chains} side
 *  @param {Piece} piece */
function asked(side, piece) {
  const pairs = [...piece];
  const after = pairs.filter((it) => it[1].after > 0);
  return side(after.map(([name, it]) => [name, it.after]), pairs.map(([name, it]) => [name, it.last]));
}

/** The first replica of a piece whose digests differ. Throws TypeError for what wasn't asked for.
 *  @param {Piece} piece
 *  @param {Chain[]} one
 *  @param {Chain[]} other */
function differing(piece, one, other) {
  const names = [...piece.keys()];
  for (const chains of [one, other]) {
    const isGood = Array.isArray(chains) && chains.length === names.length && names.every((name, at) =>
      chains[at]?.[0] === name && chains[at][1] === piece.get(name)?.last);
    if (!isGood) throw new TypeError("the server's reply to chains is malformed");
  }
  return names.find((_, at) => one[at][2] !== other[at][2]);
}
