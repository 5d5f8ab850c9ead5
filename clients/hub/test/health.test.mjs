/* /health and /metrics: what a monitor gets, and that it costs no session. */

import { deepEqual, equal, match, ok } from "node:assert/strict";
import { test } from "node:test";
import { joinLines, joinWeb, kill, Raw, startHub, startServer, suite, until } from "./support.mjs";

/** The figures of /metrics, by their names with labels. */
async function figures({ page }) {
  const response = await fetch(`${page}metrics`);
  equal(response.status, 200);
  match(response.headers.get("content-type"), /^text\/plain; version=0\.0\.4/);
  const lines = (await response.text()).trimEnd().split("\n");
  const named = new Map();
  for (const line of lines) {
    if (line.startsWith("#")) {
      match(line, /^# (HELP jcrdt_hub_\w+ .+|TYPE jcrdt_hub_\w+ (gauge|counter))$/);
      continue;
    }
    match(line, /^jcrdt_hub_[a-z_]+(\{[a-z]+="[a-z0-9-]+"\})? (NaN|\d+(\.\d+)?(e-\d+)?)$/);
    const [name, value] = line.split(" ");
    named.set(name.replace("jcrdt_hub_", ""), Number(value));
  }
  return named;
}

suite("what monitors ask", { concurrency: true }, () => {
  test("health follows the server", async () => {
    const began = Date.now();
    let server = await startServer(["d"]);
    const hub = await startHub(server.address);
    const ask = async () => {
      const response = await fetch(`${hub.page}health`);
      return { status: response.status, body: await response.json() };
    };
    const { body } = await until("it is well", async () => {
      const found = await ask();
      return found.body.sessions.got === 6 && found;
    });
    const expected = { connected: true, sessions: { got: 6, wanted: 6 }, clients: { lines: 0, web: 0 } };
    deepEqual(body, { ...expected, since: body.since });
    ok(Date.parse(body.since) > began - 2000 && Date.parse(body.since) <= Date.now(), body.since);
    await kill(server.child);
    const ill = await until("it says that there is none", async () => {
      const found = await ask();
      return found.status === 503 && /ECONNREFUSED/.test(found.body.trouble) && found.body;
    });
    equal(ill.connected, false);
    ok(ill.since >= body.since);
    server = await startServer(["d"], server);
    await until("it is well again", async () => {
      const found = await ask();
      return found.status === 200 && found.body.sessions.got === 6 && !found.body.trouble;
    });
    match(hub.child.notes, /^20\d\d-\d\d-\d\dT\d\d:\d\d:\d\dZ hub: connected with /m);
  });

  test("metrics count, and cost no session", async () => {
    const server = await startServer(["d", "e"]);
    const hub = await startHub(server.address, "--file", server.file);
    const ada = await joinLines(hub.lines, "d", "e");
    const bob = await joinWeb(hub.page);
    await Promise.all(Array.from({ length: 200 }, () => ada.add("d", [0, "n"], 1)));
    for (const name of ["p", "q"]) {
      await ada.deliver("e", ["op", [1, name], [], [[["m", 0]], "k"], ["assign", 1]]);
    }
    const raw = new Raw(hub.lines);
    await raw.ask(["open", "none"]);
    await raw.ask(["open", "none"]);
    await raw.ask("{");
    await until("all six are there", async () => (await figures(hub)).get("sessions") === 6);
    for (let at = 0; at < 50; at++) await figures(hub);
    const unstored = 'document_unstored_operations{document="d"}';
    await until("all is stored", async () => (await figures(hub)).get(unstored) === 0);
    const found = await figures(hub);
    const expected = {
      connected: 1, sessions: 6, sessions_wanted: 6,
      'clients{way="lines"}': 2, 'clients{way="web"}': 1,
      'refused_total{number="1"}': 1, 'refused_total{number="4"}': 2,
      'document_operations{document="d"}': 200, 'document_operations{document="e"}': 2,
      'document_replicas{document="d"}': 1, 'document_replicas{document="e"}': 2,
      document_operations_limit: 100_000, document_replicas_limit: 256,
    };
    for (const [name, value] of Object.entries(expected)) equal(found.get(name), value, name);
    ok(found.get("lines_total") >= 207);
    ok(found.get("lag_seconds") >= 0);
    equal([...server.child.notes.matchAll(/session \d+ of/g)].length, 6);
    [ada, bob, raw].forEach((client) => client.end());
  });

  test("metrics after a kill that took changes back", async () => {
    let server = await startServer(["d"]);
    const hub = await startHub(server.address);
    const ada = await joinLines(hub.lines, "d");
    await Promise.all(Array.from({ length: 3000 }, () => ada.add("d", [0, "n"], 1)));
    equal((await figures(hub)).get('document_operations{document="d"}'), 3000);
    await kill(server.child);
    equal((await figures(hub)).get("connected"), 0);
    server = await startServer(["d"], server);
    await until("it is there", async () => (await figures(hub)).get("connected") === 1);
    const sum = await ada.sum("d", [0, "n"]);
    equal((await figures(hub)).get('document_operations{document="d"}'), Number(sum));
    ada.end();
  });
});
