/* Names of documents and replicas. */

/** Whether it is a name of a document or a replica: 1 to 32 of a-z, 0-9, -.
 *  @param {any} value
 *  @returns {value is string} */
export const isName = (value) => typeof value === "string" && /^[a-z0-9-]{1,32}$/.test(value);

/** A name that nobody else has: a word of up to 21 characters, and ten random ones.
 *  @param {string} word
 *  @returns {string} */
export function freshName(word) {
  const bytes = Array.from(crypto.getRandomValues(new Uint8Array(10)));
  return `${word}-${bytes.map((byte) => "abcdefghijklmnopqrstuvwxyz234567"[byte % 32]).join("")}`;
}

/** A name that is made of what it stands for: of the same text always the same, else another.
 *  @param {string} word of up to 7 characters
 *  @param {string} text
 *  @returns {string} */
export function nameOf(word, text) {
  // Four sums of 32 bits: enough where nobody tries to make two texts of one name.
  const sums = [0x9e3779b1, 0x85ebca77, 0xc2b2ae3d, 0x27d4eb2f];
  for (let at = 0; at < text.length; at++) {
    for (let of = 0; of < 4; of++) {
      const sum = Math.imul(sums[of] ^ text.charCodeAt(at), MULTIPLIERS[of]);
      sums[of] = sum ^ (sum >>> 15) ^ sums[(of + 3) % 4];
    }
  }
  return `${word}-${sums.map((sum) => (sum >>> 0).toString(36).padStart(7, "0").slice(-6)).join("")}`;
}

const MULTIPLIERS = [0x2c1b3c6d, 0x297a2d39, 0x1b56c4e9, 0x9e3779b1];

/** Node 18 has it only in a module. */
const { crypto } = globalThis.crypto
  ? globalThis
  : { crypto: /** @type {Crypto} */ ((await import("node:" + "crypto")).webcrypto) };
