/* Bytes cut into lines, and addresses. */

/** Cuts bytes as they come into lines, and calls `onLine` with each, without its newline. `take`
 *  throws RangeError for a line of more than `most` bytes, and is then of no more use. */
export class LineCutter {
  /** @type {Uint8Array[]} */
  #pieces = [];
  #size = 0;

  /** @param {(line: Uint8Array) => void} onLine
   *  @param {number} [most] */
  constructor(onLine, most = Infinity) {
    this.onLine = onLine;
    this.most = most;
  }

  /** How many bytes have come of the line that hasn't ended. */
  size = () => this.#size;

  /** @param {Uint8Array} bytes */
  take(bytes) {
    let from = 0;
    for (let at = bytes.indexOf(10); at >= 0; at = bytes.indexOf(10, from)) {
      this.#keep(bytes.subarray(from, at));
      const line = this.#pieces.length === 1 ? this.#pieces[0] : joined(this.#pieces, this.#size);
      this.#pieces = [];
      this.#size = 0;
      from = at + 1;
      this.onLine(line);
    }
    if (from < bytes.length) this.#keep(bytes.subarray(from));
  }

  /** @param {Uint8Array} piece */
  #keep(piece) {
    this.#size += piece.length;
    if (this.#size > this.most) throw new RangeError(`a line of more than ${this.most} bytes`);
    this.#pieces.push(piece);
  }
}

/** @param {Uint8Array[]} pieces
 *  @param {number} size */
function joined(pieces, size) {
  const whole = new Uint8Array(size);
  let at = 0;
  for (const piece of pieces) {
    whole.set(piece, at);
    at += piece.length;
  }
  return whole;
}

/** HOST:PORT as its parts. Throws TypeError for another text.
 *  @param {string} address */
export function addressParts(address) {
  const [, host, port] = /^\[?(.+?)\]?:(\d{1,5})$/.exec(address) ?? [];
  if (!host) throw new TypeError(`${address} isn't HOST:PORT`);
  return { host, port: Number(port) };
}
