/** A name that nobody else has: a word of up to 21 characters, and ten random ones.
 *  @param {string} word
 *  @returns {string} */
export function freshName(word: string): string;
/** A name that is made of what it stands for: of the same text always the same, else another.
 *  @param {string} word of up to 7 characters
 *  @param {string} text
 *  @returns {string} */
export function nameOf(word: string, text: string): string;
export function isName(value: any): value is string;
