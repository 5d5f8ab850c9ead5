/* The notes: apart and together at a server, undo, damaged and copied files.
   run: examples/tests/notes PROGRAM */

import { doesNotMatch, equal, match } from "node:assert/strict";
import { spawnSync } from "node:child_process";
import { appendFileSync, copyFileSync, readFileSync } from "node:fs";
import test from "node:test";
import { fileURLToPath } from "node:url";
import { end, room, startServer } from "../../clients/js/test/serving.mjs";

const place = (name) => fileURLToPath(new URL(`../${name}`, import.meta.url));

/** What a program prints, and what it writes to standard error. */
function run(name, words, input = "") {
  const { stdout, stderr, status } = spawnSync(process.execPath, [place(name), ...words], { input });
  return { text: stdout.toString(), errors: stderr.toString(), status };
}

function notes(file, address, ...commands) {
  const { text, errors } = run("notes.mjs", [file, ...(address ? [address] : [])], commands.join("\n"));
  equal(errors, "");
  return text;
}

test("notes: offline and together", async () => {
  const { address } = await startServer(["notes"]);
  const [ada, bob] = ["ada", "bob"].map((name) => `${room()}/${name}`);
  equal(notes(ada, undefined, "add milk", "add bread", "tick 1", "list"), "1 [x] milk\n2 [ ] bread\n");
  equal(notes(ada, address, "sync", "state"), "online\n");
  equal(notes(bob, address, "sync", "list"), "1 [x] milk\n2 [ ] bread\n");
  notes(bob, undefined, "edit 2 dark bread", "add tea");
  notes(ada, address, "edit 2 white bread", "sync");
  match(notes(bob, address, "sync", "list"), /^1 .x. milk\n2 . . (dark|white) bread {2}OR {2}(white|dark) bread\n3 . . tea\n$/);
  notes(bob, address, "edit 2 rye bread", "delete 1", "sync");
  equal(notes(ada, address, "sync", "list"), "1 [ ] rye bread\n2 [ ] tea\n");
  const said = notes(bob, undefined, "add eggs", "undo", "redo", "undo", "tick 9", "sing", "list");
  equal(said, "refused: 9 index-past-end\none of add, edit, tick, delete, undo, redo, sync, state, list\n"
    + "1 [ ] rye bread\n2 [ ] tea\n");
});

test("notes: no server, a torn line, a copied file", async () => {
  const server = await startServer(["notes"]);
  const file = `${room()}/ada`;
  notes(file, server.address, "add one", "sync");
  const before = readFileSync(file, "utf8");
  appendFileSync(file, '["op",[99,"no');
  equal(notes(file, undefined, "list"), "1 [ ] one\n");
  equal(readFileSync(file, "utf8"), before);
  copyFileSync(file, `${file}-copy`);
  notes(file, server.address, "add by ada", "sync");
  const said = notes(`${file}-copy`, server.address, "add by the copy", "sync", "list");
  doesNotMatch(said, /another had the name/); // it has one of its own
  match(said, /1 \[ ] one\n2 \[ ] by (ada|the copy)\n3 \[ ] by (ada|the copy)\n$/); // two notes, not one
  await end(server);
  match(notes(file, server.address, "add offline", "sync", "list"), /^not exchanged: .*\n1 /);
});
