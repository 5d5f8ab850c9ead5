/** A function that does the work soon: once for all calls of a moment, and at once if it was done
 *  long enough ago. Behind the last call it is always done.
 *  @param {() => void} work
 *  @returns {() => void} */
export function paced(work: () => void): () => void;
