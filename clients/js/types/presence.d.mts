/** @typedef {object} Parts
 *  @property {string} doc
 *  @property {Span} life Of the provider.
 *  @property {() => void} changed Others say something else now. */
export class Presence {
    /** @param {Parts} parts */
    constructor(parts: Parts);
    /** What the others say, by the names that the hub gives them.
     *  @type {ReadonlyMap<string, any>} */
    others: ReadonlyMap<string, any>;
    /** What this client says: nothing, while it has no field.
     *  @type {Readonly<Fields>} */
    own: Readonly<Fields>;
    /** Says these fields beside those that were said before. One that is `undefined` is said no more.
     *  Throws RangeError where all have more than 4,096 bytes, and TypeError for what JSON has no form
     *  for: then nothing is changed.
     *  @param {Fields} fields */
    set(fields: Fields): void;
    /** Begins over a new connection. A server refuses to.
     *  @param {Link} link */
    begin(link: Link): Promise<void>;
    #private;
}
export type Span = import("./clock.mjs").Span;
export type Link = import("./link.mjs").Link;
export type Fields = Record<string, any>;
export type Parts = {
    doc: string;
    /**
     * Of the provider.
     */
    life: Span;
    /**
     * Others say something else now.
     */
    changed: () => void;
};
