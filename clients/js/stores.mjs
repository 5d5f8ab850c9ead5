/* What a provider's store is, and the one in memory. file_store.mjs and browser_store.mjs have the
   stores that last. */

/**
 * What a store had when it was opened.
 * @typedef {object} Stored
 * @property {string} name the replica's name, which this program alone uses while it is open
 * @property {string[]} lines the operations as lines, each behind those it depends on
 * @property {string[]} unread what is there and is no line of an operation, as text
 * @property {boolean} [wasOpen] whether it wasn't closed: its program was killed, or goes on with what
 *   this is a copy of. Only of a store of which copies can be made
 * @property {boolean} [isNew] whether the name was made now
 * @property {Session[]} [sessions] how often it was opened and edited. The last one is of this opening
 */

/**
 * An opening of a store.
 * @typedef {object} Session
 * @property {number} before how many lines were there before
 * @property {string} word a random one
 * @property {string} [former] the name that made own operations until then, and that goes on in the
 *   store of which this one is a copy
 */

/**
 * Where a provider keeps the operations of a replica. A method may return a promise or not.
 * @typedef {object} Store
 * @property {(document: string, fresh: () => string) => Stored | Promise<Stored>} open
 *   Reads what is stored, and takes it for this program alone. `fresh` makes a name for a store
 *   that has none. Throws Busy where another program has it, and TypeError where it has something
 *   else than this document; nothing is changed then.
 * @property {(lines: string[]) => void | Promise<void>} append
 *   Stores operations behind the others: all of them, or none if it throws.
 * @property {() => void | Promise<void>} flush
 *   Returns once what was appended survives a power cut. Throws where that isn't sure.
 * @property {(name: string, lines: string[], gone: string[]) => void | Promise<void>} rename
 *   Goes on under another name, with these lines in place of `gone` and of its own: all or nothing.
 * @property {() => void | Promise<void>} clear
 *   Deletes everything. It is open no more.
 * @property {(staysOpen?: boolean) => void | Promise<void>} close
 *   Lets others open it, who find that it `wasOpen` if it is to stay so.
 * @property {(heard: Heard) => void} [follow]
 *   Calls `heard` when another tab stored or cleared something. Only of a store that is shared.
 */

/**
 * @callback Heard
 * @param {string[] | undefined} lines operations of others; `undefined` once all was deleted
 * @returns {void}
 */

/** Another program has the store open. Nothing was changed. */
export class Busy extends Error {
  name = "Busy";
}

/** An edit that wasn't made, since what was edited before couldn't be stored. Nothing was changed.
 *  `cause` is the error of the store. */
export class Unstored extends Error {
  name = "Unstored";
}

/** A store that lasts as long as the program.
 *  @returns {Store} */
export function memoryStore() {
  return {
    open: (_, fresh) => ({ name: fresh(), lines: [], unread: [] }),
    append() {},
    flush() {},
    rename() {},
    clear() {},
    close() {},
  };
}
