/* Requests, variables, watching, who is refused, slow readers, and a server that is started again. */

import { deepEqual, equal, ok, rejects } from "node:assert/strict";
import http from "node:http";
import net from "node:net";
import { before, test } from "node:test";
import { Away, freshName, openReplica } from "../../js/index.mjs";
import { tooLong } from "../../js/test/support.mjs";
import { hasServer, joinLines, joinWeb, kill, pause, startHub, startServer, suite, until, within } from "./support.mjs";

const DOCUMENTS = ["d", "e"];
const [STAYING, COMING] = tooLong ? [100, 200] : [300, 1000]; // clients
let server, hub;
const join = (...documents) => joinLines(hub.lines, ...documents);
const refusal = (number, name) => ({ number, name });

/** What a server answers to a request over HTTP: its status. */
const status = (method, url) => new Promise((resolve, failed) => {
  const request = http.request(url, { method, agent: false }, (response) => {
    resolve(response.resume().statusCode);
  });
  request.on("error", failed).end(method === "POST" ? '["version"]\n' : "");
});

suite("the hub", { concurrency: false }, () => {
  before(async () => {
    server = await startServer(DOCUMENTS);
    hub = await startHub(server.address, "--poll", "50");
  });

  test("requests are answered as by the server", async () => {
    const ada = await join();
    const lines = ["null", '"quit"', '[["quit"]]', '["quit",1]', '["watch"]', '["watch","d","d"]'];
    const badRequest = '["no",2,"bad-request"]';
    for (const line of lines.slice(0, 5)) equal(await ada.answer(line), badRequest, line);
    equal(await ada.answer("nonsense"), '["no",1,"not-json"]');
    await rejects(ada.values("d", [0]), refusal(5, "not-open"));
    await rejects(ada.open("none"), refusal(4, "no-such-document"));
    await ada.open("d");
    equal(await ada.answer(lines[5]), badRequest);
    equal(await ada.answer('["assign","d",[0,"n"],1.0]'), '["no",6,"bad-value"]');
    // A WebSocket message is one line, whatever is in it.
    const web = await joinWeb(hub.page);
    equal(await web.answer('["version"\n\n]'), '["version",2]');
    equal(await web.answer('["version"]\n["version"]'), '["no",1,"not-json"]');
    // Each ends its own connection alone.
    await web.quit();
    const longLine = `["assign","d",[0,"k"],"${"x".repeat(70_000)}"]`;
    equal(await ada.answer(longLine), '["no",3,"line-too-long"]');
    equal((await ada.closed).name, "Lost");
    equal(await (await join()).version(), 2);
  });

  test("names of two clients are apart", async () => {
    const [ada, bob] = [await join("d"), await join("d")];
    await ada.put("d", [0, "list"], ["one", "two"]);
    await ada.let("d", "it", [0, "list", 1]);
    await bob.let("d", "it", [0, "list", 2]);
    deepEqual([await ada.values("d", ["it"]), await bob.values("d", ["it"])], [["one"], ["two"]]);
    await ada.let("d", "same", ["it"]);
    await ada.insert("d", [0, "list", 0], "zero");
    deepEqual(await ada.values("d", ["same"]), ["one"]);
    await ada.let("d", "it", [0, "list", 1]);
    deepEqual(await ada.values("d", ["it"]), ["zero"]);
    // Names as they are bound at the server mean nothing to a client.
    for (let at = 0; at < 64; at++) {
      await rejects(bob.values("d", [`v${at}`]), refusal(8, "no-such-variable"));
    }
    await rejects(bob.let("d", "other", ["unbound"]), refusal(8, "no-such-variable"));
    equal(await bob.answer(`["let","d","${"n".repeat(129)}",[0]]`), '["no",2,"bad-request"]');
    ada.end();
    bob.end();
  });

  test("variables run out and come back", async () => {
    const [greedy, other] = [await join("e"), await join("e")];
    await greedy.assign("e", [0, "list"], []);
    await greedy.insert("e", [0, "list", 0], "one");
    const bind = (count, from = 0) => Promise.all(
      Array.from({ length: count }, (_, at) => greedy.let("e", `n${from + at}`, [0, "list", 1])));
    await bind(5 * 64 + 64).catch(() => {}); // five carry clients, and one watches
    await bind(64); // names that are bound already take no others
    await rejects(other.let("e", "mine", [0]), refusal(23, "variables-full"));
    deepEqual(await greedy.values("e", ["n319"]), ["one"]);
    greedy.end();
    const isFree = () => other.let("e", "mine", [0]).then(() => true, () => false);
    await until("they are free again", isFree);
    for (let at = 0; at < 400; at++) {
      const short = await join("e");
      await short.let("e", "caret", [0, "list", 1]);
      await short.quit();
    }
    other.end();
  });

  test(`${STAYING} clients are notified, while ${COMING} come and go`, async (context) => {
    const joinEither = (_, at) => (at % 3 ? join() : joinWeb(hub.page));
    const lasting = await Promise.all(Array.from({ length: STAYING }, joinEither));
    let pushes = [];
    const sum = (front) => [...front.values()].reduce((a, b) => a + b, 0);
    await Promise.all(lasting.map(async (client) => {
      await client.open("d");
      await client.let("d", "caret", [0, "list", 1]);
      await client.watch("d", (front) => pushes.push([performance.now(), sum(front)]));
    }));
    await until("each has the front", () => pushes.length >= STAYING);
    const waits = [];
    for (let round = 0; round < 10; round++) {
      const front = sum(await lasting[0].front("d"));
      pushes = [];
      const from = performance.now();
      await lasting[round].insert("d", ["caret"], round);
      await until("all are notified", () => pushes.filter(([, has]) => has > front).length === STAYING);
      waits.push(...pushes.filter(([, has]) => has > front).map(([at]) => at - from));
    }
    waits.sort((a, b) => a - b);
    const [median, worst] = [waits[waits.length >> 1], waits.at(-1)].map((ms) => ms.toFixed(1));
    context.diagnostic(`${STAYING} clients notified of a change: median ${median} ms, worst ${worst} ms`);
    for (let batch = 0; batch < COMING / 50; batch++) {
      await Promise.all(Array.from({ length: 50 }, async (_, at) => {
        const client = await join("d");
        await client.add("d", [0, "visits"], 1);
        await (at % 2 ? client.quit() : client.end());
      }));
    }
    equal(await lasting[0].sum("d", [0, "visits"]), COMING);
    // A change that somebody makes at the server itself.
    const direct = await joinLines(server.address);
    await direct.open("d");
    const before = sum(await direct.front("d"));
    pushes = [];
    await direct.assign("d", [0, "k"], "direct");
    await until("all are notified", () => pushes.filter(([, has]) => has > before).length >= STAYING);
    lasting.forEach((client) => client.end());
    direct.end();
  });

  test("three type in one line", async () => {
    const LINE = [0, "line"];
    const first = await join("e");
    await first.put("e", LINE, [..."Dear , yours, "]);
    /** A replica with its caret behind what the line begins with. */
    const place = async (client, beginning) => {
      const replica = await openReplica(freshName("typist"), "e");
      await client.open("e");
      let turn = Promise.resolve();
      const sync = () => (turn = turn.then(() => replica.sync((line) => client.answer(line))));
      await client.watch("e", sync);
      await sync();
      return { replica, sync, caret: replica.place([...LINE, beginning.length]) };
    };
    const type = async ({ replica, sync, caret }, text) => {
      for (const character of text) {
        caret = [...LINE, replica.insert(caret, character)];
        sync();
        await pause(Math.random() * 10);
      }
      await sync();
    };
    // All carets are placed by an index, so before the first character is typed.
    const typists = await Promise.all([
      place(await join(), "Dear "),
      place(await joinWeb(hub.page), "Dear , yours, "),
      place(await join(), ""),
    ]);
    const texts = ["Grace Brewster Murray Hopper", "the whole compiler team", "My "];
    await Promise.all(typists.map((typist, at) => type(typist, texts[at])));
    const text = (await first.plain("e", LINE)).join("");
    equal(text, "My Dear Grace Brewster Murray Hopper, yours, the whole compiler team");
  });

  test("the page keeps the document that its address names", async () => {
    const asked = ["", "?doc=trip", "a/web?doc=a-1&x=%20", "?doc=a\"b"].map(async (path) => {
      const response = await fetch(hub.page + path, { redirect: "manual" });
      return response.headers.get("location");
    });
    deepEqual(await Promise.all(asked), ["web/", "web/?doc=trip", "web/?doc=a-1&x=%20", "web/?doc=a%22b"]);
  });

  test("who is refused", async () => {
    const found = ["", "web/", "web/page.mjs", "js/replica.mjs", "a/b/js/wire.mjs", "health", "metrics"];
    deepEqual(await Promise.all(found.map((path) => status("GET", hub.page + path))),
      [302, 200, 200, 200, 200, 200, 200]);
    const hidden = ["hub.mjs", "web/../hub.mjs", "..%2fhub.mjs", "lib/web.mjs", "web/%2e%2e/hub.mjs",
      "js/package.json", "js/", "js/test/support.mjs", "web/page.mjs/", "lines"];
    for (const path of hidden) equal(await status("GET", hub.page + path), 404, path);
    equal(await status("POST", hub.page), 405);
    await rejects(status("POST", `http://${hub.lines}/`)); // lines that look like HTTP
    const own = hub.page.slice(0, -1);
    (await joinWeb(hub.page, { origin: own })).end();
    (await joinWeb(hub.page, { origin: own }, "below/a/path/lines?token=1")).end();
    for (const origin of ["http://127.0.0.1", "https://example.org", "null"]) {
      await rejects(joinWeb(hub.page, { origin }), { name: "Away" }, origin);
    }
  });

  test("who doesn't read is dropped", async () => {
    // The others aren't before this one: on a busy machine a client of theirs is held up for longer.
    const hasty = await startHub(server.address, "--patience", "2");
    const ada = await join("d");
    for (let at = 0; at < 20; at++) await ada.insert("d", [0, "long", 0], "x".repeat(4000));
    const deaf = net.connect({ port: Number(hasty.lines.split(":")[1]), host: "127.0.0.1" });
    const closed = new Promise((close) => deaf.on("error", () => {}).on("close", close));
    deaf.write('["open","d"]\n');
    const asking = setInterval(() => deaf.write('["show","d",[0,"long"]]\n'.repeat(100)), 5);
    await within("it is dropped", closed);
    clearInterval(asking);
    equal(await (await joinLines(hasty.lines)).version(), 2);
    await kill(hasty.child);
    ada.end();
  });

  test("a server that goes and comes", async () => {
    const [ada, bob] = [await join("d"), await joinWeb(hub.page)];
    await bob.open("d");
    await ada.let("d", "it", [0, "list", 1]);
    const gone = new Promise((resolve) => (ada.reopened = resolve));
    let fronts = 0;
    await bob.watch("d", () => fronts++);
    const id = await ada.assign("d", ["it"], "before");
    await kill(server.child);
    await hasServer(hub, false);
    const from = performance.now();
    const waiting = ada.version().catch((error) => error); // there is no server now: it waits for one, 5 s
    server = await startServer(DOCUMENTS, { address: server.address, file: server.file });
    deepEqual(await gone, [["d", "it"]]);
    const isLate = performance.now() - from > 4000; // as on a slow machine
    ok((await waiting) === 2 || isLate, `${await waiting}`);
    await rejects(ada.values("d", ["it"]), refusal(8, "no-such-variable"));
    const lost = await ada.unsaved("d", [id, [9999, "srv-1"]]);
    deepEqual(lost.at(-1), [9999, "srv-1"]);
    const before = fronts;
    const [, replica] = await ada.assign("d", [0, "k"], "after");
    equal(replica, "srv-2");
    await until("bob is notified", () => fronts > before);
    await kill(server.child);
    await hasServer(hub, false);
    await rejects(ada.version(), Away);
    await kill(hub.child, "SIGTERM");
    equal(hub.child.exitCode, 0, hub.child.notes);
    equal((await ada.closed).name, "Lost");
  });
});
