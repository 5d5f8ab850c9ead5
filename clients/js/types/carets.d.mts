/** What a field says of its own caret.
 *  @param {(0 | string | number | Id)[]} place of the list
 *  @param {readonly Character[]} shown
 *  @param {number} from in UTF-16 units
 *  @param {number} to */
export function saidCaret(place: (0 | string | number | Id)[], shown: readonly Character[], from: number, to: number): {
    place: (string | number | Id)[];
    from: Reference;
    to: Reference;
};
/** The name and the colour that one says, or those that a guest has where it says none.
 *  @param {string} guest by which the hub knows who it is
 *  @param {any} value what it says: anything
 *  @returns {{ name: string, color: string }} */
export function looksOf(guest: string, value: any): {
    name: string;
    color: string;
};
/** Those of others, as they were shown last. */
export class Carets {
    /** @param {(0 | string | number | Id)[]} place of the list */
    constructor(place: (0 | string | number | Id)[]);
    /** Where they are now.
     *  @param {ReadonlyMap<string, any>} others what they say
     *  @param {readonly Character[]} shown the text as it is now
     *  @param {(offset: number) => number} [moved] from the text before
     *  @returns {Caret[]} */
    in(others: ReadonlyMap<string, any>, shown: readonly Character[], moved?: ((offset: number) => number) | undefined): Caret[];
    #private;
}
export type Id = [number, string];
export type Character = {
    id: [number, string];
    text: string;
};
/**
 * An element, or 0 for the place before the first.
 */
export type Reference = 0 | [number, string];
/**
 * Of another one, in UTF-16 units of the field's text.
 */
export type Caret = {
    /**
     * by which the hub knows who it is
     */
    guest: string;
    /**
     * what it says of itself; else the guest
     */
    name: string;
    /**
     * as #b42318: what it says, or one that its guest's name gives
     */
    color: string;
    /**
     * where the selection begins, and the caret is where nothing is selected
     */
    from: number;
    /**
     * where it ends
     */
    to: number;
};
