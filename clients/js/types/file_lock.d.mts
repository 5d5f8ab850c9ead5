/** The path of a file without links, also where the file isn't there yet.
 *  @param {string} path
 *  @returns {string} */
export function realPath(path: string): string;
/** Takes the lock at a path. It is given back too when the program ends. Throws Busy while another
 *  has it.
 *  @param {string} path
 *  @returns {Lock} */
export function locked(path: string): Lock;
/** A lock that this program has, at least until another took it over. */
export class Lock {
    /** @param {string} path
     *  @param {number} file That was made for it, open. */
    constructor(path: string, file: number);
    /** Throws Busy if another program has taken it over, as behind a minute in which this one stood
     *  still. */
    check(): void;
    /** Lets others take it. */
    giveBack(): void;
    #private;
}
export function codeOf(error: unknown): string | undefined;
/**
 * A lock's text, and how many ms ago it was renewed.
 */
export type Holder = {
    text: string;
    age: number;
};
