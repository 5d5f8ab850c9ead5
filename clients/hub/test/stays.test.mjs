/* The hub at a server that takes back sessions: by itself, since it must not be held up for a second. */

import { deepEqual } from "node:assert/strict";
import { test } from "node:test";
import { TestClock } from "../../js/test/clock.mjs";
import { Raw, hubWithin, startServer, suite, until } from "./support.mjs";

suite("sessions that stay", {}, () => {
  test("it keeps its sessions, though nobody uses them, where others wait at the server", async () => {
    const server = await startServer(["d"], { admission: ["--clients", "3", "--patience", "2"] });
    const [clock, notes] = [new TestClock(), []];
    const note = (text) => notes.push(text);
    await hubWithin({ server: server.address, lines: "127.0.0.1:0", sessions: 1, clock, note });
    await until("it has both", () => notes.some((text) => text.includes("2 of 2 sessions")));
    const time = setInterval(() => clock.pass(1000), 50);
    const clients = [0, 1].map(() => new Raw(server.address)); // one has the third session after the other
    const replies = await Promise.all(clients.map((it) => it.ask(["version"])));
    clearInterval(time);
    deepEqual(replies, Array(2).fill('["version",2]'));
    deepEqual(notes.filter((text) => !text.startsWith("connected with")), []);
  });
});
