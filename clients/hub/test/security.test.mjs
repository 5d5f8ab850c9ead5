/* What keeps a client to what is its own: its rights, its origin, its lines, its replies. Each test
   is that of a planted bug in tests/mutations/hub. */

import { deepEqual, equal, match, rejects } from "node:assert/strict";
import net from "node:net";
import { test } from "node:test";
import { TestClock } from "../../js/test/clock.mjs";
import {
  hubWithin, joinLines, joinWeb, Raw, startServer, suite, within,
} from "./support.mjs";

const QUIET = { lines: "127.0.0.1:0", web: "127.0.0.1:0", sessions: 1, note: () => {} };

/** A server with documents, and a hub before it within this process. */
async function both(documents, options = {}) {
  const server = await startServer(documents);
  return { server, hub: await hubWithin({ ...QUIET, server: server.address, ...options }) };
}

/** Sends bytes, and resolves with all that comes until the hub ends the connection. */
async function saidTo(address, ...pieces) {
  const [host, port] = address.split(":");
  const socket = net.connect({ host, port: Number(port), allowHalfOpen: true });
  let said = "";
  socket.on("data", (bytes) => (said += bytes)).on("error", () => {});
  const ended = new Promise((end) => socket.on("end", end).on("close", end));
  for (const piece of pieces) socket.write(piece);
  socket.end();
  await within("the hub ends the connection", ended);
  socket.destroy();
  return said;
}

suite("security", { concurrency: true }, () => {
  test("a break within a message is a blank: the replies of others stay theirs", async () => {
    const { hub } = await both(["d"]);
    const [ada, bob] = [await joinWeb(hub.page), await joinWeb(hub.page)];
    await bob.open("d");
    await bob.assign("d", [0, "k"], 1);
    match(await ada.answer('["open",\n"d"]'), /^\["opened",/);
    match(await ada.answer('["open",\r\n"d"]'), /^\["opened",/);
    deepEqual(await bob.keys("d", [0]), ["k"]);
    deepEqual([...await bob.front("d")], [["srv-1", 1]]);
    deepEqual(await ada.values("d", [0, "k"]), [1]);
    [ada, bob].forEach((client) => client.end());
  });

  test("an origin that only begins like the hub's own is refused", async () => {
    const { hub } = await both(["d"], { origins: ["https://pad.example"] });
    const own = hub.page.slice(0, -1);
    for (const origin of [own, "https://pad.example"]) (await joinWeb(hub.page, { origin })).end();
    const others = [`${own}0`, `${own}.example.org`, "https://pad.example.org",
      "http://pad.example", "https://pad.example:444"];
    for (const origin of others) {
      await rejects(joinWeb(hub.page, { origin }), { name: "Away" }, origin);
    }
  });

  test("rights for d are no rights for dd", async () => {
    const admit = () => ({ read: ["r"], write: ["d"] });
    const { hub } = await both(["d", "dd", "r", "rr"], { admit });
    const client = new Raw(hub.lines);
    for (const document of ["dd", "rr", ""]) {
      equal(await client.ask(["open", document]), '["no",103,"not-allowed"]', document);
    }
    for (const document of ["d", "r"]) match(await client.ask(["open", document]), /^\["opened",/);
    equal(await client.ask(["assign", "r", [0, "k"], 1]), '["no",103,"not-allowed"]');
    client.end();
  });

  test("an admit that never answers refuses, and says so", async () => {
    const [clock, noted] = [new TestClock(), []];
    const admit = () => new Promise(() => {});
    const { hub } = await both(["d"], { admit, clock, note: (text) => noted.push(text) });
    const coming = rejects(joinLines(hub.lines), { number: 103, name: "not-allowed" });
    const fromWeb = rejects(joinWeb(hub.page), { name: "Away" });
    await clock.until((waiting) => waiting.filter((ms) => ms === 10_000).length === 2);
    clock.pass(10_000);
    await within("both are refused", Promise.all([coming, fromWeb]));
    equal(noted.filter((it) => it === "admit didn't answer within 10 s").length, 2);
  });

  test("bytes that are no UTF-8 are no JSON, and are stored nowhere", async () => {
    const { hub } = await both(["d"]);
    const bad = Buffer.concat([
      Buffer.from('["assign","d",[0,"k"],"'), Buffer.from([0xff]), Buffer.from('"]\n')]);
    const said = await saidTo(hub.lines, '["open","d"]\n', bad, '["keys","d",[0]]\n');
    equal(said, '["opened",1]\n["no",1,"not-json"]\n["keys",[]]\n');
  });

  test("what looks like HTTP ends the connection: nothing of it is carried out", async () => {
    const { hub } = await both(["d"]);
    const body = '["open","d"]\n["assign","d",[0,"k"],1]\n';
    for (const first of ["POST / HTTP/1.1", "GET /a?b=c HTTP/1.0", "PUT http://x/ HTTP/1.1"]) {
      equal(await saidTo(hub.lines, `${first}\r\nHost: x\r\n\r\n${body}`), "", first);
    }
    const client = await joinLines(hub.lines, "d");
    deepEqual(await client.keys("d", [0]), []);
    client.end();
  });
});
