/** Whether a cursor of an operation has the right form: 0 comes first and nowhere else; below maps
 *  are texts, below lists elements, or a last head.
 *  @param {[Path, Key]} cursor */
export function isPlaced([path, key]: [Path, Key]): boolean;
/** Refuses what isn't an operation: 20, 12 or 13. Looks at no log.
 *  @param {any} op
 *  @returns {asserts op is Operation} */
export function checkShape(op: any): asserts op is Operation;
export function covers(front: ReadonlyMap<string, number>, [counter, replica]: Id): boolean;
export function frontPairs(front: Iterable<[string, number]>): Front;
export function compareIds(a: Id, b: Id): number;
export function isId(value: any): value is Id;
export function isFront(value: any): value is Front;
export function isAscending(front: Front): boolean;
export function nextCounter(front: Front): number;
export function keysOf([path, key]: [Path, Key]): Key[];
/** The operations of a reply `[WORD,[OPERATION,..]]`. Where it is written as a server writes it, they
 *  are known by their texts, and aren't read before they are asked for: reading them takes several
 *  times as long. */
export class Page {
    /** Throws SyntaxError for what is no JSON, and TypeError where there is no array of operations; or
     *  `operations` does so later.
     *  @param {string} reply */
    constructor(reply: string);
    /** @type {Map<string, number>} Of each replica: the last of its operations that is here. */
    last: Map<string, number>;
    /** @type {string[] | undefined} The operations' texts, where the reply is written so. */
    texts: string[] | undefined;
    get length(): number;
    /** @returns {any[]} */
    get operations(): any[];
    #private;
}
/**
 * The name of an operation.
 */
export type Id = [counter: number, replica: string];
/**
 * Pairs, ascending by the replicas' names.
 */
export type Front = [replica: string, counter: number][];
/**
 * A number here is a safe integer.
 */
export type Scalar = string | number | bigint | boolean | null;
/**
 * A start, or a step behind it.
 */
export type Step = 0 | string | number | bigint | [counter: number, replica: string] | [["m" | "l", Key][], Key];
/**
 * A place: see `Replica` and `Client`.
 */
export type Cursor = Step[];
/**
 * The document, a head, a text of a map, an element.
 */
export type Key = 0 | 1 | string | [counter: number, replica: string];
export type Path = ["m" | "l", Key][];
export type Mutation = ["assign" | "insert", any] | ["delete"] | ["add", number | bigint];
export type Operation = ["op", [counter: number, replica: string], [replica: string, counter: number][], [["m" | "l", Key][], Key], Mutation];
/**
 * An element as `show` gives it.
 */
export type Branches = any[][];
