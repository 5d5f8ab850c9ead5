/** HOST:PORT as its parts. Throws TypeError for another text.
 *  @param {string} address */
export function addressParts(address: string): {
    host: string;
    port: number;
};
/** Cuts bytes as they come into lines, and calls `onLine` with each, without its newline. `take`
 *  throws RangeError for a line of more than `most` bytes, and is then of no more use. */
export class LineCutter {
    /** @param {(line: Uint8Array) => void} onLine
     *  @param {number} [most] */
    constructor(onLine: (line: Uint8Array) => void, most?: number | undefined);
    onLine: (line: Uint8Array) => void;
    most: number;
    /** How many bytes have come of the line that hasn't ended. */
    size: () => number;
    /** @param {Uint8Array} bytes */
    take(bytes: Uint8Array): void;
    #private;
}
