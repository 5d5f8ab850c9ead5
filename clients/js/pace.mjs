/* Work that is asked for again and again, as showing what has changed: done soon, but never so often
   that it leaves no time for anything else. */

const FRAME_MS = 16; // so soon an idle browser shows what the work has changed
const HIDDEN_MS = 250; // a page that isn't seen shows nothing: so long counts as the work
const SHARE = 3; // others have so many times what the work took
const MOST_MS = 1500; // and no longer than this

/** A function that does the work soon: once for all calls of a moment, and at once if it was done
 *  long enough ago. Behind the last call it is always done.
 *  @param {() => void} work
 *  @returns {() => void} */
export function paced(work) {
  let [isDue, isResting] = [false, false];
  const rest = (/** @type {number} */ from) => {
    const took = performance.now() - from - FRAME_MS;
    setTimeout(() => {
      isResting = false;
      if (isDue) queueMicrotask(run);
    }, Math.min(MOST_MS, SHARE * took));
  };
  const run = () => {
    [isDue, isResting] = [false, true];
    const from = performance.now();
    afterFrame(() => rest(from));
    work();
  };
  return () => {
    if (!isDue && !isResting) queueMicrotask(run);
    isDue = true;
  };
}

/** Calls a function once the browser has shown what is changed now.
 *  @param {() => void} then */
function afterFrame(then) {
  let isDone = false;
  const once = () => {
    if (!isDone) then();
    isDone = true;
  };
  setTimeout(once, HIDDEN_MS);
  requestAnimationFrame(() => setTimeout(once));
}
