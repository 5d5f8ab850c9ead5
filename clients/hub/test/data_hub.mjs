/* What the tests of a hub that runs its servers share: such a hub, its folder, its commands, its servers. */

import { existsSync, readdirSync, readFileSync } from "node:fs";
import { join } from "node:path";
import { atPort } from "../../js/test/chromium.mjs";
import { HUB, launch, PROGRAM, ROOM, start } from "./support.mjs";

export const NO_DOCUMENT = '["no",4,"no-such-document"]';
export const AWAY = '["no",101,"server-away"]';
export const WAYS = ["--lines", "127.0.0.1:0", "--web", "127.0.0.1:0"];

/** Starts a program of Node, where its port may be another program's for a moment. */
export const startNode = (words, lineCount) => atPort(() => start(process.execPath, words, lineCount));

let folders = 0;
/** A folder for a hub, which isn't there yet. */
export const freshFolder = () => join(ROOM, `data-${++folders}`);

/** Starts a hub with a folder, and resolves with its process, folder and addresses. */
export async function startDataHub(folder = freshFolder(), ...options) {
  const words = [HUB, "--data", folder, "--program", PROGRAM, ...WAYS, ...options];
  const { child, lines } = await startNode(words, 2);
  return { child, folder, lines: lines[0][1], page: lines[1][1] };
}

/** Runs a command of an operator. */
export async function command(folder, ...words) {
  const child = launch(process.execPath, [HUB, "--data", folder, ...words]);
  let stdout = "";
  child.stdout.on("data", (text) => (stdout += text));
  await child.ended;
  return { status: child.exitCode, lines: stdout.split("\n").filter((it) => it), stderr: child.notes };
}

/** The processes of servers whose file is below a folder, by their numbers. */
export const serversOf = (folder) => serversAmong(readdirSync("/proc").filter((it) => /^\d+$/.test(it)), folder);

/** Those of them that a hub has started and that haven't ended. It reads far less than all of /proc. */
export function serversStartedBy({ pid }, folder) {
  const children = `/proc/${pid}/task/${pid}/children`; // not every kernel has it
  return existsSync(children) ? serversAmong(readFileSync(children, "utf8").match(/\d+/g) ?? [], folder) : serversOf(folder);
}

/** @param {string[]} ids */
function serversAmong(ids, folder) {
  return ids.flatMap((id) => {
    try {
      const words = readFileSync(`/proc/${id}/cmdline`, "utf8").split("\0");
      const isEnded = / Z /.test(readFileSync(`/proc/${id}/stat`, "utf8").replace(/.*\)/s, ")"));
      const isServer = words[1] === "serve" && words.some((it) => it.startsWith(`${folder}/`));
      return isServer && !isEnded ? [Number(id)] : [];
    } catch {
      return []; // it has ended meanwhile
    }
  });
}

/** Kills some of the servers below a folder. One that has ended meanwhile is left out. */
export function killServersOf(folder, choose = (ids) => ids) {
  for (const id of choose(serversOf(folder))) {
    try {
      process.kill(id, "SIGKILL");
    } catch (error) {
      if (error.code !== "ESRCH") throw error;
    }
  }
}

export const health = async ({ page }) => (await fetch(`${page}health`)).json();
export const metrics = async ({ page }) => (await fetch(`${page}metrics`)).text();
