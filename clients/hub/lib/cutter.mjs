/* Cuts bytes into lines. What is longer than a limit is counted, and isn't kept. */

const NEWLINE = 10;

/** Cuts bytes as they come into lines. */
export class LineCutter {
  /** @type {Uint8Array[]} */
  #pieces = [];
  #size = 0;
  #limit;
  #onLine;

  /**
   *  @param {number} limit the most bytes of a line, without its newline
   *  @param {(line: Buffer | undefined) => void} onLine gets each line without its newline;
   *   `undefined` for one that is longer than the limit
   */
  constructor(limit, onLine) {
    this.#limit = limit;
    this.#onLine = onLine;
  }

  /** How many bytes have come of the line that hasn't ended. */
  get size() {
    return this.#size;
  }

  /** @param {Uint8Array} bytes */
  take(bytes) {
    let from = 0;
    for (let at = bytes.indexOf(NEWLINE); at >= 0; at = bytes.indexOf(NEWLINE, from)) {
      this.#keep(bytes.subarray(from, at));
      this.flush();
      from = at + 1;
    }
    if (from < bytes.length) this.#keep(bytes.subarray(from));
  }

  /** Ends the line that has begun, without a newline. */
  flush() {
    const line = this.#size > this.#limit ? undefined : Buffer.concat(this.#pieces);
    this.#pieces = [];
    this.#size = 0;
    this.#onLine(line);
  }

  /** @param {Uint8Array} piece */
  #keep(piece) {
    this.#size += piece.length;
    if (this.#size > this.#limit) this.#pieces = [];
    else this.#pieces.push(piece);
  }
}
