/** What `work` returns, or its refusal.
 *  @template T
 *  @param {() => T} work
 *  @returns {T | Refused} */
export function refusalOf<T>(work: () => T): Refused | T;
/** The error of a reply `["no",number,name,..]`. The hub's 100, and its 102 to a change, leave
 *  unknown whether it was made.
 *  @param {any[]} reply
 *  @param {string} word The first item of the request. */
export function errorOf([, number, name, lastCounter]: any[], word: string): Refused | Lost | Away;
/** A refusal, by a server or a replica. Nothing was changed. `number` and `code` say which: 18 and
 *  "log-full". `name` is the same as `code`. `lastCounter` comes with `forked`: it is the last
 *  logged counter of that replica. */
export class Refused extends Error {
    /** @param {number} number
     *  @param {string} [name]
     *  @param {number} [lastCounter]
     *  @param {string} [why] What to read beside the name. */
    constructor(number: number, name?: string | undefined, lastCounter?: number | undefined, why?: string | undefined);
    number: number;
    code: string;
    lastCounter: number | undefined;
    /** The reply that says it.
     *  @returns {any[]} */
    get reply(): any[];
}
/** Whether the request was carried out is unknown: the connection ended before its reply. */
export class Lost extends Error {
}
/** The request wasn't carried out: there is no connection, or the hub has no server. */
export class Away extends Error {
}
/** A replica's engine stopped within the call, as by an exhausted stack: `cause` says why. Nothing was
 *  changed. The next call finds it opened again, from the log. */
export class Broken extends Error {
    /** @param {unknown} cause */
    constructor(cause: unknown);
}
