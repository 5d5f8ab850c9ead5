/**
 * @typedef {object} TextOptions
 * @property {(error: unknown) => void} [refused] is called when an edit was refused; the field
 *   shows the text as it is then. And with `undefined` when the next one wasn't.
 * @property {number} [long] how many characters at once are asked for: 2,000 unless it is said
 * @property {(count: number) => Promise<boolean>} [confirm] asks whether so many are to come in;
 *   they do where there is none
 * @property {(carets: import("./carets.mjs").Caret[]) => void} [carets] is called with the carets of
 *   others whenever they are elsewhere: `caretMarks` of caret_marks.mjs draws them. With it the
 *   field's own caret is said to the others, while the field has the focus
 */
/** Shows the text at a place in a field, and takes what is typed there. What this returns ends it.
 *
 *  The field is read-only where the provider's `canWrite` is false. Given the promise of a
 *  provider, it is read-only until that is open: nothing is typed that would be lost. (In the
 *  page's HTML it begins with `readonly`, for the time until this is called.) If it can't be
 *  opened, `refused` is called with the error, and the field stays read-only.
 *  @param {Provider | Promise<Provider>} provider
 *  @param {(0 | string | number | Id)[]} place a list, or where one is to be
 *  @param {Field} field
 *  @param {TextOptions} [options]
 *  @returns {() => void} */
export function bindText(provider: Provider | Promise<Provider>, place: (0 | string | number | Id)[], field: Field, options?: TextOptions | undefined): () => void;
export type TextOptions = {
    /**
     * is called when an edit was refused; the field
     * shows the text as it is then. And with `undefined` when the next one wasn't.
     */
    refused?: ((error: unknown) => void) | undefined;
    /**
     * how many characters at once are asked for: 2,000 unless it is said
     */
    long?: number | undefined;
    /**
     * asks whether so many are to come in;
     * they do where there is none
     */
    confirm?: ((count: number) => Promise<boolean>) | undefined;
    /**
     * is called with the carets of
     * others whenever they are elsewhere: `caretMarks` of caret_marks.mjs draws them. With it the
     * field's own caret is said to the others, while the field has the focus
     */
    carets?: ((carets: import("./carets.mjs").Caret[]) => void) | undefined;
};
export type Provider = import("./provider.mjs").Provider;
export type Field = HTMLTextAreaElement | HTMLInputElement;
export type Id = [number, string];
export type Character = {
    id: [number, string];
    text: string;
};
/**
 * Of the list; without an id where it has just come.
 */
export type Element = {
    id?: [number, string];
    text?: string;
};
