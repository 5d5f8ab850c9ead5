/* The todo list, by two people, also offline. run: examples/tests/todo PROGRAM */

import { deepEqual, equal, match, ok } from "node:assert/strict";
import { spawnSync } from "node:child_process";
import test from "node:test";
import { fileURLToPath } from "node:url";
import { room, startServer } from "../../clients/js/test/serving.mjs";

const place = (name) => fileURLToPath(new URL(`../${name}`, import.meta.url));

/** What a program prints, and what it writes to standard error. */
function run(name, words, input = "") {
  const { stdout, stderr, status } = spawnSync(process.execPath, [place(name), ...words], { input });
  return { text: stdout.toString(), errors: stderr.toString(), status };
}

test("todos: by two people, also offline", async () => {
  const { address } = await startServer(["todos"]);
  const [ada, bob] = ["ada", "bob"].map((name) => `${room()}/${name}`);
  const todo = (...words) => run("todo.mjs", words);
  equal(todo(ada, "add", "buy", "milk").text, "1 [ ] buy milk\n");
  equal(todo(ada, address, "add", "call mum").text, "1 [ ] buy milk\n2 [ ] call mum\n");
  equal(todo(bob, address).text, "1 [ ] buy milk\n2 [ ] call mum\n");
  equal(todo(ada, address, "delete", "1").text, "1 [ ] call mum\n");
  // Bob's list still has two: its 2 is the same todo.
  equal(todo(bob, address, "done", "2").text, "1 [x] call mum\n");
  todo(ada, "edit", "1", "call", "dad");
  todo(bob, "edit", "1", "call", "aunt");
  todo(bob, address);
  match(todo(ada, address).text, /^1 \[x] call (dad|aunt) {2}OR {2}call (dad|aunt)\n$/);
  todo(ada, address, "delete", "1");
  deepEqual(todo(bob, address, "done", "1"),
    { text: "", errors: "todo: another has deleted it\n", status: 1 });
  equal(todo(bob, "done", "7").status, 1);
  const begin = performance.now();
  match(todo(bob, "127.0.0.1:1", "add", "offline").errors, /^todo: not exchanged: .*\n$/);
  ok(performance.now() - begin < 9000, "a server that is away is waited for once: 5 s");
  equal(todo(bob, address).text, "1 [ ] offline\n");
});
