/** Reads JSON with exact integers: beyond 2^53 they are BigInt. A number that isn't written as an
 *  integer, as 1.0, is NaN, which no document may have. Throws SyntaxError for what is no JSON.
 *  @param {string} text
 *  @returns {any} */
export function parse(text: string): any;
/** Whether JSON.stringify writes a value as `print` does: one without objects and BigInt.
 *  @param {any} value
 *  @returns {boolean} */
export function isSimple(value: any): boolean;
/** Whether an object is one that `{}` makes, also one of another window: no Date, Map, class.
 *  @param {any} value */
export function isPlain(value: any): boolean;
export function shortest(integer: bigint): number | bigint;
export function print(value: any): string;
export function isArray(value: any, length?: number | undefined): value is any[];
export function isMap(value: any): boolean;
export function kindOf(value: any): string;
