/* The engines of tests/agreement that run in Node: node agreement-engines.mjs module|rules JOBS MODULE
   JOBS has one job a line, {"name":..,"requests":[line,..]}. For each it prints [[reply,operation|null],..]. */

import { createReadStream } from "node:fs";
import { readFile } from "node:fs/promises";
import { createInterface } from "node:readline";
import { load } from "../clients/js/jcrdt.mjs";
import { parse, print } from "../clients/js/wire.mjs";
import { open as byHand } from "./rules.mjs";

const [engine, jobs, module] = process.argv.slice(2);
const open = engine === "rules" ? byHand : await load({ module: await readFile(module) });
for await (const line of createInterface({ input: createReadStream(jobs) })) {
  const { name, requests } = JSON.parse(line);
  const replica = open(name, []);
  const told = requests.map((request) => {
    const asked = parse(request);
    const { reply, line: made } = replica.ask(asked);
    const isChange = ["assign", "insert", "delete", "add", "inserts", "deletes"].includes(asked[0]);
    return [print(reply), isChange && made ? made : null];
  });
  replica.free();
  process.stdout.write(`${JSON.stringify(told)}\n`);
}
