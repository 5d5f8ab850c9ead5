/** A function that shows these carets in place of those before, as `bindText` calls it.
 *  @param {HTMLTextAreaElement | HTMLInputElement} field
 *  @returns {(carets: Caret[]) => void} */
export function caretMarks(field: HTMLTextAreaElement | HTMLInputElement): (carets: Caret[]) => void;
export type Caret = import("./carets.mjs").Caret;
