/* A hub of a fleet that gives itself a signal before a step of a renewal, once:
   `node stopped_hub.mjs DATA PROGRAM LINES REDIS NAME LEASE STEP SIGNAL`. */

import { hub } from "../index.mjs";

const [, , data, program, lines, redis, name, lease, step, signal] = process.argv;
let isDone = false;
const atStep = (now) => {
  if (now !== step || isDone) return;
  isDone = true;
  console.log(JSON.stringify(["at", step]));
  process.kill(process.pid, signal);
};
const running = await hub({ data, program, lines, redis, hub: name, lease: Number(lease), atStep });
console.log(JSON.stringify(["lines", running.lines]));
