/* What all clients share, under one name. It needs neither Node nor a browser. Each part is a
   module of its own: errors, JSON, values, operations, lines, names. */

export { Away, Broken, Lost, Refused, errorOf, refusalOf } from "./errors.mjs";
export { isArray, isMap, parse, print } from "./json.mjs";
export { MOST } from "./limits.mjs";
export { LineCutter, addressParts } from "./lines.mjs";
export { freshName, isName } from "./names.mjs";
export {
  checkShape, compareIds, covers, frontPairs, isAscending, isFront, isId, isPlaced, keysOf,
  nextCounter,
} from "./operations.mjs";
export {
  Conflict, Counter, bare, byteLength, checkValue, checkedInteger, checkedScalar, fits, integer,
  isGiven, isText, pieces, plain, settled,
} from "./values.mjs";

/** @typedef {import("./operations.mjs").Id} Id */
/** @typedef {import("./operations.mjs").Front} Front */
/** @typedef {import("./operations.mjs").Scalar} Scalar */
/** @typedef {import("./operations.mjs").Step} Step */
/** @typedef {import("./operations.mjs").Cursor} Cursor */
/** @typedef {import("./operations.mjs").Key} Key */
/** @typedef {import("./operations.mjs").Path} Path */
/** @typedef {import("./operations.mjs").Mutation} Mutation */
/** @typedef {import("./operations.mjs").Operation} Operation */
/** @typedef {import("./operations.mjs").Branches} Branches */
