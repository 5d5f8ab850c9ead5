/* What a call of a client fails with: errors, by what was changed. */

import { NAMES, REFUSALS, isChange } from "./protocol.mjs";

/** A refusal, by a server or a replica. Nothing was changed. `number` and `code` say which: 18 and
 *  "log-full". `name` is the same as `code`. `lastCounter` comes with `forked`: it is the last
 *  logged counter of that replica. */
export class Refused extends Error {
  /** @param {number} number
   *  @param {string} [name]
   *  @param {number} [lastCounter]
   *  @param {string} [why] What to read beside the name. */
  constructor(number, name = NAMES.get(number) ?? "unknown", lastCounter = undefined, why = "") {
    super(`refused: ${number} ${name}${why && `: ${why}`}`);
    this.number = number;
    this.name = name;
    this.code = name;
    this.lastCounter = lastCounter;
  }

  /** The reply that says it.
   *  @returns {any[]} */
  get reply() {
    const last = this.lastCounter === undefined ? [] : [this.lastCounter];
    return ["no", this.number, this.name, ...last];
  }
}

/** Whether the request was carried out is unknown: the connection ended before its reply. */
export class Lost extends Error {
  name = "Lost";
}

/** The request wasn't carried out: there is no connection, or the hub has no server. */
export class Away extends Error {
  name = "Away";
}

/** A replica's engine stopped within the call, as by an exhausted stack: `cause` says why. Nothing was
 *  changed. The next call finds it opened again, from the log. */
export class Broken extends Error {
  name = "Broken";

  /** @param {unknown} cause */
  constructor(cause) {
    super(`the engine stopped within a call, which changed nothing: ${cause}`, { cause });
  }
}

/** What `work` returns, or its refusal.
 *  @template T
 *  @param {() => T} work
 *  @returns {T | Refused} */
export function refusalOf(work) {
  try {
    return work();
  } catch (error) {
    if (error instanceof Refused) return error;
    throw error;
  }
}

/** The error of a reply `["no",number,name,..]`. The hub's 100, and its 102 to a change, leave
 *  unknown whether it was made.
 *  @param {any[]} reply
 *  @param {string} word The first item of the request. */
export function errorOf([, number, name, lastCounter], word) {
  if (number === REFUSALS["server-away"]) return new Away(`${number} ${name}`);
  const isCut = number === REFUSALS["reply-too-long"];
  const isUnknown = number === REFUSALS["server-lost"] || (isCut && isChange(word));
  return isUnknown ? new Lost(`${number} ${name}`) : new Refused(number, name, lastCounter);
}
