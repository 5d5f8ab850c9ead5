/* What the tests do with a replica in each browser, in workers and in Node. Isn't run by itself. */

import { openReplica } from "../replica.mjs";

/** Calls until the stack is exhausted.
 *  @param {() => void} call
 *  @returns {number} */
function deeper(call) {
  call();
  return 1 + deeper(call);
}

/** Types, reads until the stack is exhausted, and goes on. Returns the replica's lines.
 *  @param {string} name */
export async function typed(name) {
  const me = await openReplica(name, "notes");
  me.put([0], { title: "Plan", steps: ["ask", "build", { at: "Oslo" }], sum: 2n ** 62n });
  me.splice([0, "steps"], 1, 1, "né😀");
  for (let at = 0; at < 3; at++) {
    try {
      deeper(() => me.values([0, "title"]));
    } catch {
      me.add([0, "votes"], at);
    }
  }
  me.undo();
  for (let at = 0; at < 2000; at++) me.insert([0, "steps", 0], at);
  const { length } = me.items([0, "steps"]);
  me.assign([0, "length"], length);
  return me.lines();
}
