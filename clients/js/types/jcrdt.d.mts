/** Compiles jcrdt.wasm, once: replicas that are made later use it. With a module it compiles that
 *  one, and they use it instead. Throws an Error that says why the module can't be had, as where a
 *  page's policy forbids it; it may be called again then.
 *  @param {Options} [options]
 *  @returns {Promise<Open>} */
export function load(options?: Options | undefined): Promise<Open>;
/** What `load` has given. Throws an Error where it hasn't been called.
 *  @returns {Open} */
export function loaded(): Open;
/** What opens engines of the module. They share an instance and its memory, which never shrinks. Once
 *  a call has stopped within, what is in that memory isn't relied on: the next ones get another.
 *  @param {WebAssembly.Module} module
 *  @returns {Open} */
export function opener(module: WebAssembly.Module): Open;
export type Key = import("./operations.mjs").Key;
export type Path = import("./operations.mjs").Path;
export type Answer = {
    /**
     * As a server's.
     */
    reply: any[];
    /**
     * The operation that was made or delivered, in its written form.
     */
    line?: string | undefined;
};
/**
 * Answers requests as a server does, but for the document's name, which it
 *   doesn't have: those of REPLICA_REQUESTS in protocol.mjs. To ["cursor",CURSOR] it replies
 *   ["cursor",[PATH,KEY]], which says where it leads, and to ["index",CURSOR] ["index",N]: how many
 *   present elements come up to that one, itself included where it is present. A cursor may start
 *   with a cursor in its written form, [PATH,KEY], in place of 0.
 */
export type Engine = {
    /**
     * Throws Broken where the engine stopped within: then
     * each later call does.
     */
    ask: (request: any[]) => Answer;
    /**
     * The line of the reply to a request that
     * makes no operation, unread, where the engine has it so. Throws as `ask`.
     */
    text?: ((request: any[]) => string | undefined) | undefined;
    /**
     * Gives up its memory. It isn't asked any more.
     */
    free: () => void;
    isBroken?: boolean | undefined;
};
/**
 * Makes an engine with a log. Throws
 *   Refused for a line that doesn't fit, with `at`, its index.
 */
export type Open = (name: string, lines?: string[]) => Engine;
export type Options = {
    /**
     * Where jcrdt.wasm is, its
     * bytes, or the compiled module. By default it is looked for beside this file.
     */
    module?: string | BufferSource | URL | WebAssembly.Module | undefined;
};
/**
 * What the module exports. Addresses and lengths are BigInt.
 */
export type Exports = {
    memory: WebAssembly.Memory;
    malloc: (bytes: bigint) => bigint;
    free: (at: bigint) => void;
    /**
     * For tests: refuses the count-th allocation.
     */
    heap_refuse: (count: bigint) => void;
    jcrdt_open: (handle: bigint, name: bigint, nameLength: bigint, lines: bigint, length: bigint, fault: bigint) => bigint;
    jcrdt_ask: (handle: bigint, line: bigint, length: bigint, out: bigint, room: bigint) => bigint;
    jcrdt_again: (handle: bigint, out: bigint, room: bigint) => bigint;
    jcrdt_close: (handle: bigint) => void;
};
