/* The limits of documents and lines. */

import { LIMITS } from "./protocol.mjs";

/** The limits of documents and lines. Texts and lines are in bytes of UTF-8. */
export const MOST = Object.freeze({
  ...LIMITS,
  reply: 2 ** 28, // bytes of a reply: a client's own limit
});
