/* What the hub writes to standard error, and errors in words. */

/** @typedef {(text: string) => void} Note */

/** Makes a function that writes notes, each with its time. The same note isn't repeated.
 *  @param {(line: string) => void} [write]
 *  @returns {Note} */
export function notes(write = (line) => process.stderr.write(line)) {
  let last = "";
  return (text) => {
    if (text === last) return;
    last = text;
    const time = new Date().toISOString().replace(/\.\d+Z$/, "Z");
    // Control bytes could forge lines, or steer a terminal.
    write(`${time} hub: ${text.replace(/[\u0000-\u001f\u007f-\u009f]/g, escaped)}\n`);
  };
}

/** @param {string} character */
const escaped = (character) => `\\u${character.charCodeAt(0).toString(16).padStart(4, "0")}`;

/** @param {unknown} error @returns {string} */
export const messageOf = (error) => (error instanceof Error ? error.message : String(error));
