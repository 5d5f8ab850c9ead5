/** What a server or the hub answers.
 *  @type {ReadonlyMap<string, Form>} */
export const REQUESTS: ReadonlyMap<string, Form>;
/** What a replica answers, without a document's name.
 *  @type {ReadonlyMap<string, Form>} */
export const REPLICA_REQUESTS: ReadonlyMap<string, Form>;
/** The first words of the hub's lines that answer no request.
 *  @type {ReadonlySet<string>} */
export const PUSHES: ReadonlySet<string>;
/** The numbers of refusals: from 100 on the hub's. */
export const REFUSALS: Readonly<{
    "not-json": 1;
    "bad-request": 2;
    "line-too-long": 3;
    "no-such-document": 4;
    "not-open": 5;
    "bad-value": 6;
    "bad-cursor": 7;
    "no-such-variable": 8;
    "index-past-end": 9;
    "at-head": 10;
    "not-in-list": 11;
    "bad-operation": 12;
    "bad-front": 13;
    forked: 14;
    "id-conflict": 15;
    "own-name": 16;
    "held-full": 17;
    "log-full": 18;
    "too-many-replicas": 19;
    "too-deep": 20;
    "seats-full": 21;
    "no-memory": 22;
    "variables-full": 23;
    "not-held": 24;
    "lists-differ": 25;
    "copy-refused": 26;
    "server-lost": 100;
    "server-away": 101;
    "reply-too-long": 102;
    "not-allowed": 103;
    "not-kept": 104;
    "there-already": 105;
    renewed: 106;
}>;
/** Two starts, or two replicas, had one name: one side is to be kept.
 *  @type {ReadonlySet<number>} */
export const NAME_USED_TWICE: ReadonlySet<number>;
/** The document takes no more, for good.
 *  @type {ReadonlySet<number>} */
export const DOCUMENT_FULL: ReadonlySet<number>;
/** The most of each. */
export const LIMITS: Readonly<{
    log: 100000;
    replicas: 256;
    held: 256;
    path: 30;
    key: 128;
    value: 4096;
    line: 65536;
    page: 64;
    variables: 64;
    variable: 128;
    lines: 1000000;
    sessions: 256;
    said: 4096;
    listed: 1000;
    mapped: 1000;
}>;
export function isChange(word: string): boolean;
/** @type {ReadonlyMap<number, string>} The names of refusals. */
export const NAMES: ReadonlyMap<number, string>;
export function refusalLine(name: keyof typeof REFUSALS): string;
export function isRefusedBy(line: string, name: keyof typeof REFUSALS): boolean;
/**
 * A `bare` request names
 *   no document. A `session` one opens a document or binds a name. A `look` reads at a cursor, a
 *   `state` one without. The hub alone answers `hub`.
 */
export type Kind = "bare" | "session" | "look" | "state" | "change" | "hub";
/**
 * What makes an operation.
 */
export type EditWord = "assign" | "insert" | "delete" | "add";
export type Form = {
    kind: Kind;
    /**
     * What follows the word: `doc` is a document's name, `CUR` a
     * cursor.
     */
    items: readonly string[];
    /**
     * The first words of its replies, but "no".
     */
    replies: readonly string[];
    /**
     * What may follow the items: all of it, or nothing.
     */
    optional: readonly string[];
};
