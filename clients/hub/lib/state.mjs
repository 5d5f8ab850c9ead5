/* What the parts of a hub share. It is a part of `index.mjs`. */

/** @typedef {import("../../js/clock.mjs").Clock} Clock */
/** @typedef {import("./guest.mjs").Guest} Guest */
/** @typedef {import("./pool.mjs").Pool} Pool */
/** @typedef {import("./link.mjs").Link} Link */

/** @typedef {object} Places Where the documents are: at one server, or each at one of its own.
 *  @property {Pool[]} pools Those that are there now.
 *  @property {string | undefined} version The reply to `["version"]`, while there is a server.
 *  @property {Omit<import("../index.js").Health, "clients">} health
 *  @property {(document: string, work: (pool: Pool) => Promise<string>, request?: any[]) =>
 *    Promise<string | undefined>} use Has a document's sessions asked. `undefined` where there are
 *    none.
 *  @property {(document: string) => Link | undefined} watching The link that looks at a document, or
 *    any other of it; none where no server of it runs.
 *  @property {() => Promise<void>} stop */

/** @typedef {{
 *    places: Places,
 *    shelf?: import("./shelf.mjs").Shelf,
 *    desk?: import("./desk.mjs").Desk,
 *    watches: import("./watches.mjs").Watches,
 *    presence: import("./presence.mjs").Presence,
 *    storage: import("./storage.mjs").Storage,
 *    figures: import("./figures.mjs").Figures,
 *    unread: import("./unread.mjs").Unread,
 *    documents: Set<string>,
 *    guests: Record<import("../index.js").Way, Set<Guest>>,
 *    guestCount: number,
 *    patience: number,
 *    idle: number,
 *    mostClients: number,
 *    clock: Clock,
 *    admit?: import("../index.js").Admit,
 *    note: import("./notes.mjs").Note,
 *  }} State
 */

export {};
