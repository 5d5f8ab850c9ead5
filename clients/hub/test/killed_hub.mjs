/* A hub that kills itself before a step of a renewal: `node killed_hub.mjs DATA PROGRAM LINES STEP`. */

import { hub } from "../index.mjs";

const [, , data, program, lines, step] = process.argv;
const atStep = (now) => now === step && process.kill(process.pid, "SIGKILL");
const running = await hub({ data, program, lines, atStep });
console.log(JSON.stringify(["lines", running.lines]));
