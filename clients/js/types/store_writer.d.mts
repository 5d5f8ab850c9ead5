export class StoreWriter {
    /** @param {Store} store
     *  @param {Notices} notices
     *  @param {Span} life of the provider */
    constructor(store: Store, notices: Notices, life: Span);
    /** Whether everything is stored. If not, it is under way, or has failed. */
    get isDone(): boolean;
    /** @param {string[]} lines */
    add(lines: string[]): void;
    /** Goes on under another name, with all of the log: also in place of what isn't stored yet.
     *  @param {string} name
     *  @param {string[]} lines
     *  @param {string[]} gone what may be stored, and isn't in the log any more */
    rename(name: string, lines: string[], gone: string[]): void;
    /** Throws Unstored where an edit couldn't be stored: what came before it isn't. */
    check(): void;
    /** Writes again what couldn't be written. */
    retry(): void;
    /** Resolves once everything that was added until now is stored for good. Throws Unstored. */
    flushed(): Promise<void>;
    #private;
}
export type Span = import("./clock.mjs").Span;
export type Notices = import("./notices.mjs").Notices;
export type Store = import("./stores.mjs").Store;
/**
 * As `rename` takes it.
 */
export type Naming = {
    name: string;
    lines: string[];
    gone: string[];
};
