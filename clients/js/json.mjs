/* JSON with exact integers, and what kind of value one is. */

/** An integer as a number, if it is a safe one.
 *  @param {bigint} integer */
export const shortest = (integer) => (Number.isSafeInteger(Number(integer)) ? Number(integer) : integer);

/** Reads JSON with exact integers: beyond 2^53 they are BigInt. A number that isn't written as an
 *  integer, as 1.0, is NaN, which no document may have. Throws SyntaxError for what is no JSON.
 *  @param {string} text
 *  @returns {any} */
export function parse(text) {
  if (!/\d{16}|\d[.eE]|-0/.test(text)) return JSON.parse(text);
  JSON.parse(text); // for its errors
  /** @type {string[]} */
  const numbers = [];
  const marked = text.replace(/"(?:[^"\\]|\\.)*"|-?\d[\d.eE+-]*/g, (token) =>
    token.startsWith('"') ? token : String(numbers.push(token) - 1));
  /** @param {string} token */
  const read = (token) => (/^(0|-?[1-9]\d*)$/.test(token) ? shortest(BigInt(token)) : NaN);
  return JSON.parse(marked, (_, it) => (typeof it === "number" ? read(numbers[it]) : it));
}

/** Writes compact JSON, as the server does. Throws TypeError for what JSON has no form for: it
 *  isn't written as null.
 *  @param {any} value
 *  @returns {string} */
export const print = (value) => (isSimple(value) ? JSON.stringify(value) : printed(value));

/** Whether JSON.stringify writes a value as `print` does: one without objects and BigInt.
 *  @param {any} value
 *  @returns {boolean} */
export function isSimple(value) {
  if (Array.isArray(value)) return value.every(isSimple);
  return typeof value === "string" || Number.isFinite(value) || typeof value === "boolean" ||
    value === null;
}

/** @param {any} value
 *  @returns {string} */
function printed(value) {
  if (typeof value === "bigint") return value.toString();
  if (Array.isArray(value)) return `[${value.map(printed).join(",")}]`;
  if (isMap(value)) {
    if (!isPlain(value)) throw new TypeError(`${kindOf(value)} is no value of JSON`);
    const fields = Object.entries(value).filter(([, it]) => it !== undefined);
    return `{${fields.map(([key, it]) => `${JSON.stringify(key)}:${printed(it)}`).join(",")}}`;
  }
  const isLostInText = typeof value === "number" && !Number.isFinite(value);
  const text = isLostInText ? undefined : JSON.stringify(value);
  if (text === undefined) throw new TypeError(`${kindOf(value)} is no value of JSON`);
  return text;
}

// ---- Kinds of values

/** @param {any} value
 *  @param {number} [length]
 *  @returns {value is any[]} */
export const isArray = (value, length = value?.length) =>
  Array.isArray(value) && value.length === length;

/** @param {any} value */
export const isMap = (value) =>
  typeof value === "object" && value !== null && !Array.isArray(value);

/** Whether an object is one that `{}` makes, also one of another window: no Date, Map, class.
 *  @param {any} value */
export function isPlain(value) {
  const prototype = Object.getPrototypeOf(value);
  return prototype === null || Object.getPrototypeOf(prototype) === null;
}

/** @param {any} value */
export const kindOf = (value) =>
  isMap(value) ? `a ${value.constructor?.name ?? "object"}` : String(value);
