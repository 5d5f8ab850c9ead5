/* Many documents by many clients, of which few have a server at once, with kills of servers and of the hub
   all along: nothing that was answered is lost. With JCRDT_SLOW 2,000 documents by 500 clients, 50 at once. */

import { deepEqual, ok } from "node:assert/strict";
import { readFileSync } from "node:fs";
import { test } from "node:test";
import { connected } from "../../js/session.mjs";
import { freshFolder, serversOf, startNode } from "./data_hub.mjs";
import { HUB, kill, pause, PROGRAM, suite } from "./support.mjs";

const [DOCUMENTS, CLIENTS, OPEN, SECONDS] = process.env.JCRDT_SLOW ? [2000, 500, 50, 240] : [100, 40, 8, 20];
const HUB_KILLS = 3;

/** Resident memory of a process in MB, and the seconds of a processor that it has used. */
function usage(id) {
  const pages = Number(readFileSync(`/proc/${id}/statm`, "utf8").split(" ")[1]);
  const fields = readFileSync(`/proc/${id}/stat`, "utf8").replace(/.*\) /s, "").split(" ");
  return { mb: Math.round(pages * 4096 / 1e6), seconds: (Number(fields[11]) + Number(fields[12])) / 100 };
}

suite("many documents", { timeout: (SECONDS + 1500) * 1000 }, () => {
  test(`${DOCUMENTS} by ${CLIENTS} clients, ${OPEN} at once`, async (context) => {
    const folder = freshFolder();
    let at = "127.0.0.1:0";
    let hub;
    const begin = async () => {
      const words = ["--data", folder, "--program", PROGRAM, "--lines", at, "--open", `${OPEN}`];
      const { child, lines } = await startNode([HUB, ...words], 1);
      [hub, at] = [child, lines[0][1]];
    };
    await begin();
    const counts = Array.from({ length: DOCUMENTS }, () => ({ answered: 0, unknown: 0 }));
    const totals = { answered: 0, unknown: 0, away: 0, connections: 0, most: 0, slowest: 0 };
    const names = counts.map((_, number) => `doc-${number}`);
    let isOn = true;
    const use = async (client, open, number) => {
      const began = performance.now();
      try {
        if (!open.has(number)) await client.open(names[number]);
        open.add(number);
      } catch (error) {
        if (error.name !== "Away") throw error;
        return void totals.away++;
      }
      const count = counts[number];
      await client.add(names[number], [0, "n"], 1).then(() => {
        count.answered++;
        totals.answered++;
        totals.slowest = Math.max(totals.slowest, performance.now() - began);
      }, (error) => {
        if (error.name === "Away") totals.away++;
        else totals.unknown += 1, count.unknown++;
        if (!/server-lost/.test(error.message) && error.name === "Lost") throw error;
      });
    };
    const live = async () => {
      while (isOn) {
        let client;
        try {
          client = await connected(at, { seconds: 120, connectSeconds: 60 });
          totals.connections++;
          const open = new Set();
          for (let round = 0; isOn; round++) {
            await use(client, open, Math.floor(Math.random() * DOCUMENTS));
            if (round % 3 === 0) await pause(Math.random() * 100);
          }
        } catch {
          await pause(50); // the hub was killed
        } finally {
          client?.end();
        }
      }
    };
    const living = Array.from({ length: CLIENTS }, live);
    const figures = [];
    for (const end = Date.now() + SECONDS * 1000, hubs = SECONDS * 1000 / (HUB_KILLS + 1); Date.now() < end;) {
      const next = Date.now() + hubs;
      while (Date.now() < Math.min(next, end)) {
        await pause(500);
        const servers = serversOf(folder);
        totals.most = Math.max(totals.most, servers.length);
        const id = servers[Math.floor(Math.random() * servers.length)];
        if (id) try { process.kill(id, "SIGKILL"); } catch {}
      }
      figures.push(usage(hub.pid));
      if (Date.now() < end) {
        await kill(hub);
        await begin();
      }
    }
    isOn = false;
    await Promise.all(living);
    const client = await connected(at, { seconds: 120, connectSeconds: 60 });
    const wrong = [];
    for (const [number, { answered, unknown }] of counts.entries()) {
      if (answered + unknown === 0) continue;
      for (;;) {
        try {
          await client.open(names[number]);
          const sum = Number(await client.sum(names[number], [0, "n"]));
          if (sum < answered || sum > answered + unknown) wrong.push([number, sum, answered, unknown]);
          break;
        } catch (error) {
          if (error.name !== "Away") throw error;
        }
      }
    }
    client.end();
    context.diagnostic(JSON.stringify({ ...totals, perSecond: totals.answered / SECONDS, figures }));
    deepEqual(wrong, []);
    ok(totals.answered > 0 && totals.most <= 2 * OPEN + 1, `${totals.most} at once`); // those of a killed hub drain
    await kill(hub, "SIGTERM");
  });
});
