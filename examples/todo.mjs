/* A todo list that works offline: a replica in a file, exchanged with a server or a hub.

   run: node examples/todo.mjs FILE [HOST:PORT] [add TEXT | edit N TEXT | done N | delete N | list]

   The server has a document named `todos`. N is a number of the list as FILE last showed it. */

import { fileStore } from "../clients/js/file_store.mjs";
import { Provider } from "../clients/js/provider.mjs";

const USAGE = "usage: todo.mjs FILE [HOST:PORT] [add TEXT | edit N TEXT | done N | delete N | list]";
const TODOS = [0, "todos"];
const [file = "", ...rest] = process.argv.slice(2);
if (file === "--help") {
  console.log(USAGE);
  process.exit();
}
const at = /:\d+$/.test(rest[0] ?? "") ? rest.shift() : undefined;
const [word = "list", ...words] = rest;
const isKnown = ["add", "edit", "done", "delete", "list"].includes(word);
if (file === "" || file.startsWith("-") || !isKnown) {
  console.error(USAGE);
  process.exit(2);
}

const provider = await Provider.open({ document: "todos", at, word: "todo", store: fileStore(file) });
const { replica } = provider;
const say = (text) => process.stderr.write(`todo: ${text}\n`);
const exchange = () => at && provider.synced(5).catch((error) => say(error.message));
const textsOf = (todo) => replica.values([...todo, "text"]);

/** What a command does. The todo that it names is the same one, also if the list has moved. */
const commands = {
  add: () => replica.splice(TODOS, replica.items(TODOS).length, 0, [{ text: words.join(" ") }]),
  edit: (todo) => replica.assign([...todo, "text"], words.slice(1).join(" ")),
  done: (todo) => replica.assign([...todo, "done"], true),
  delete: (todo) => replica.delete(todo),
  list: () => {},
};

try {
  const isNumbered = ["edit", "done", "delete"].includes(word);
  const todo = isNumbered ? replica.place([...TODOS, Number(words[0])]) : TODOS;
  await exchange();
  if (isNumbered && textsOf(todo).length === 0) throw new Error("another has deleted it");
  commands[word](todo);
  if (provider.state.word === "online") await exchange(); // else it was waited for just now
} catch (error) {
  say(error.message);
  process.exitCode = 1;
}
replica.items(TODOS).forEach(([id], index) => {
  const isDone = replica.values([...TODOS, id, "done"]).includes(true);
  const text = textsOf([...TODOS, id]).join("  OR  "); // of two who edited it apart
  console.log(`${index + 1} [${isDone ? "x" : " "}] ${text || "(deleted by one, edited by another)"}`);
});
for (const { words: problem } of provider.problems.values()) say(problem);
await provider.close();
