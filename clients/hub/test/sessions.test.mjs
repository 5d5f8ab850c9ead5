/* The hub's sessions of the server: few of them, none, renewed, and a server that hangs. */

import { deepEqual, equal, match, ok, rejects } from "node:assert/strict";
import net from "node:net";
import { test } from "node:test";
import { tooLong } from "../../js/test/support.mjs";
import { Away, Lost } from "../../js/wire.mjs";
import {
  atEnd, hasServer, hubWithin, joinLines, kill, Raw, startHub, startServer, suite, until, within,
} from "./support.mjs";

/** What /health says, with its status. */
async function health({ page }) {
  const response = await fetch(`${page}health`);
  return { status: response.status, ...(await response.json()) };
}

/** Uses up sessions of a server, as long as the test runs. */
async function takeSessions({ address }, count) {
  for (let at = 0; at < count; at++) {
    const raw = new Raw(address);
    equal(await raw.ask(["version"]), '["version",2]');
  }
}

/** A TCP proxy that hands bytes on, until it is silenced: as a cable that is cut. */
async function startProxy(target) {
  const [host, port] = target.split(":");
  const sockets = [];
  const lines = []; // of each connection
  const proxy = net.createServer((socket) => {
    const other = net.connect({ host, port });
    sockets.push(socket, other);
    const at = lines.push(0) - 1;
    socket.on("data", (bytes) => (lines[at] += bytes.toString().split("\n").length - 1));
    const end = () => (socket.destroy(), other.destroy());
    for (const it of [socket, other]) it.on("error", () => {}).on("close", end);
    socket.pipe(other).pipe(socket);
  });
  await new Promise((open) => proxy.listen(0, "127.0.0.1", open));
  atEnd(() => (proxy.close(), sockets.forEach((it) => it.destroy())));
  const silence = () => sockets.forEach((it) => it.unpipe().pause());
  /** Resets one connection of all, so that nobody knows what has arrived. */
  const cut = () => {
    const open = sockets.filter((it) => !it.destroyed);
    open[Math.floor(Math.random() * open.length)]?.resetAndDestroy();
  };
  const address = `127.0.0.1:${proxy.address().port}`;
  return { address, silence, cut, lines, count: () => sockets.length / 2 };
}

const slow = !process.env.JCRDT_SLOW && "a million lines take minutes: set JCRDT_SLOW";
const LIMIT = slow ? {} : { timeout: 2_400_000 };

suite("sessions of the server", { concurrency: true, ...LIMIT }, () => {
  test("four of six: it says so, and all clients are served", async () => {
    const server = await startServer(["d"], { sessions: 4 });
    const hub = await startHub(server.address);
    const early = await joinLines(hub.lines, "d");
    const found = await until("it says what is missing", async () => {
      const now = await health(hub);
      return /no session left/.test(now.trouble) && now;
    });
    deepEqual([found.status, found.connected, found.sessions], [200, true, { got: 4, wanted: 6 }]);
    await until("a note says it", () => hub.child.notes.includes("no session left (4 of 6 sessions)"));
    const clients = await Promise.all(Array.from({ length: 12 }, () => joinLines(hub.lines, "d")));
    const seen = clients.map((client) => new Promise((resolve) => {
      client.watch("d", (front) => front.get("srv-1") === 12 && resolve());
    }));
    await Promise.all(clients.map((client) => client.add("d", [0, "n"], 1)));
    await within("each sees all changes", Promise.all(seen));
    equal(await early.sum("d", [0, "n"]), 12);
    [early, ...clients].forEach((client) => client.end());
  });

  test("one of six: that one carries the clients and watches", async () => {
    const server = await startServer(["d"], { sessions: 2 });
    await takeSessions(server, 1);
    const hub = await startHub(server.address);
    const [ada, bob] = [await joinLines(hub.lines, "d"), await joinLines(hub.lines, "d")];
    const seen = new Promise((resolve) => bob.watch("d", (front) => front.size > 0 && resolve()));
    await ada.let("d", "it", [0, "k"]);
    await ada.assign("d", ["it"], "word");
    await within("bob sees it", seen);
    deepEqual(await bob.values("d", [0, "k"]), ["word"]);
    [ada, bob].forEach((client) => client.end());
  });

  test("none: clients learn it, and it says so", async () => {
    const server = await startServer(["d"], { sessions: 1 });
    await takeSessions(server, 1);
    const hub = await startHub(server.address);
    const client = new Raw(hub.lines);
    equal(await client.ask(["open", "d"]), '["no",101,"server-away"]');
    // The next ones needn't wait: one takes 5 s where all do.
    const again = performance.now();
    for (let at = 0; at < 20; at++) equal(await client.ask(["version"]), '["no",101,"server-away"]');
    ok(performance.now() - again < 20 * 4000, "at once");
    client.end();
    const found = await until("it says why", async () => {
      const now = await health(hub);
      return /no session left, or hangs/.test(now.trouble) && now;
    });
    deepEqual([found.status, found.connected, found.sessions], [503, false, { got: 0, wanted: 6 }]);
    await until("a note says it", () => hub.child.notes.includes("left, or hangs (0 of 6 sessions)"));
  });

  test("a session is renewed: nothing is lost, and nothing is done twice", async () => {
    const server = await startServer(["d"]);
    const hub = await hubWithin({
      server: server.address, lines: "127.0.0.1:0", sessions: 2, linesPerSession: 100, note: () => {},
    });
    const clients = await Promise.all(Array.from({ length: 40 }, () => joinLines(hub.lines, "d")));
    // The hub looks once a second whether a session is worn out, so a fast machine has more rounds.
    const isRenewed = () => [...server.child.notes.matchAll(/session (\d+) of/g)].length > 6;
    let [reopened, added] = [0, 0];
    await Promise.all(clients.map(async (client, at) => {
      client.reopened = () => reopened++;
      for (let round = 0; round < 100 || (!isRenewed() && added < 90_000); round++) {
        await client.add("d", [0, "n"], 1);
        added++;
        if (at === 0 && round % 20 === 0) await client.let("d", "it", [0, "n"]);
      }
    }));
    equal(await clients[0].sum("d", [0, "n"]), added);
    ok(reopened > 0, "who bound names was told");
    equal(await clients[0].ask("keys", "d", [0]).then(([keys]) => keys.join()), "n");
    ok(isRenewed(), "sessions were renewed");
  });

  test("a session takes its limit and 9,900 lines more at most, however fast they come", { skip: tooLong }, async () => {
    const server = await startServer(["d"]);
    const proxy = await startProxy(server.address);
    const hub = await hubWithin({
      server: proxy.address, lines: "127.0.0.1:0", sessions: 1, linesPerSession: 400, note: () => {},
    });
    const clients = await Promise.all(Array.from({ length: 4 }, () => joinLines(hub.lines, "d")));
    await Promise.all(clients.map(async (client, at) => {
      const [add, sum] = [`["add","d",[0,"n${at}"],1]`, `["sum","d",[0,"n${at}"]]`];
      const lines = Array.from({ length: 15_000 }, (_, it) => (it % 10 === 0 ? add : sum));
      const replies = await Promise.all(lines.map((line) => client.answer(line)));
      replies.forEach((reply, it) => {
        const due = it % 10 === 0 ? '["applied",1,0,' : `["sum","${Math.ceil(it / 10)}"]`;
        ok(reply.startsWith(due), reply);
      });
    }));
    ok(Math.max(...proxy.lines) <= 400 + 9900 + 1, `lines of each session: ${proxy.lines}`);
    ok(proxy.lines.length > 6, `sessions: ${proxy.lines.length}`);
  });

  test("a session is renewed before the server's million lines", { skip: slow, ...LIMIT }, async () => {
    const [each, batch] = [255_000, 1000]; // 1,020,000 lines of four clients, by one session
    const server = await startServer(["d"]);
    const hub = await startHub(server.address, "--sessions", "1");
    const clients = await Promise.all(Array.from({ length: 4 }, () => joinLines(hub.lines, "d")));
    let reopened = 0;
    clients[0].reopened = () => reopened++;
    await clients[0].let("d", "it", [0, "n0"]);
    await Promise.all(clients.map(async (client, at) => {
      const [add, sum] = [`["add","d",[0,"n${at}"],1]`, `["sum","d",[0,"n${at}"]]`];
      for (let [sent, due] = [0, 0]; sent < each; sent += batch) {
        const lines = Array.from({ length: batch }, (_, it) => (it % 50 === 0 ? add : sum));
        const replies = await Promise.all(lines.map((line) => client.answer(line)));
        // Each reply is that of its own request, and each addition counts once.
        replies.forEach((reply, it) => {
          if (it % 50 === 0) due += reply.startsWith('["applied",1,0,') ? 1 : NaN;
          else equal(reply, `["sum","${due}"]`);
        });
      }
    }));
    for (const at of clients.keys()) equal(await clients[at].sum("d", [0, `n${at}`]), each / 50);
    equal(reopened, 1);
    // Two at first, and one more: the server has ended none of them.
    await until("the old one has ended", () => /session 3 of/.test(server.child.notes));
    ok(!/line|limit/.test(server.child.notes), server.child.notes);
  });

  test("a server that hangs: noticed in time, and what may have been done is told apart", async () => {
    const server = await startServer(["d"]);
    const hub = await startHub(server.address);
    const ada = await joinLines(hub.lines, "d");
    await ada.add("d", [0, "n"], 1);
    await until("all sessions are there", async () => (await health(hub)).sessions.got === 6);
    server.child.kill("SIGSTOP");
    const from = performance.now();
    const [bob, eve] = [await joinLines(hub.lines), await joinLines(hub.lines)];
    await Promise.all([
      rejects(ada.add("d", [0, "n"], 10), Lost),
      until("it is unhealthy", async () => (await health(hub)).status === 503),
    ]);
    await rejects(bob.open("d"), Away); // a reading changes nothing
    await rejects(eve.version(), Away);
    server.child.kill("SIGCONT");
    await until("it is healthy again", async () => (await health(hub)).sessions.got === 6);
    await ada.open("d");
    equal(await ada.sum("d", [0, "n"]), 11); // this one was made
    // 6 at first, 6 now, and those that were tried meanwhile, one at a time.
    const used = [...server.child.notes.matchAll(/session (\d+) of/g)].length;
    ok(used <= 13 + (performance.now() - from) / 4000, `it took ${used} sessions`);
    [ada, bob, eve].forEach((client) => client.end());
  });

  test("a line that is cut without a word is noticed in time", async () => {
    const server = await startServer(["d"]);
    const proxy = await startProxy(server.address);
    const hub = await startHub(proxy.address);
    const ada = await joinLines(hub.lines, "d");
    await until("all sessions are there", async () => (await health(hub)).sessions.got === 6);
    proxy.silence();
    await until("it has six new ones", () => proxy.count() === 12);
    match(hub.child.notes, /no reply for/);
    await until("it is healthy again", async () => (await health(hub)).sessions.got === 6);
    equal(await ada.add("d", [0, "n"], 1).then((id) => id[0]), 1);
    ada.end();
  });

  test("sessions that are cut at random: what is told to clients is true", async (context) => {
    const server = await startServer(["d"], { sessions: 256 });
    const proxy = await startProxy(server.address);
    const hub = await hubWithin({
      server: proxy.address, lines: "127.0.0.1:0", sessions: 4, linesPerSession: 300, note: () => {},
    });
    const told = { applied: 0, lost: 0, away: 0 };
    const end = performance.now() + 600_000;
    const isOver = () => (told.applied > 1000 && told.lost > 10) || performance.now() > end;
    let [ready, cutting] = [0];
    atEnd(() => clearInterval(cutting));
    await Promise.all(Array.from({ length: 20 }, async () => {
      const client = new Raw(hub.lines);
      match(await client.ask(["open", "d"]), /^\["opened",/);
      ready++;
      if (ready === 20) cutting = setInterval(() => proxy.count() < 220 && proxy.cut(), 150);
      while (!isOver()) {
        const reply = await client.ask(["add", "d", [0, "n"], 1]);
        if (reply.startsWith('["applied"')) told.applied++;
        else told[reply === '["no",100,"server-lost"]' ? "lost" : "away"]++;
        ok(/^\["(applied",1,0|no",10[01]),/.test(reply), reply);
      }
      client.end();
    }));
    clearInterval(cutting);
    const direct = await joinLines(server.address, "d");
    const sum = await direct.sum("d", [0, "n"]);
    context.diagnostic(`${JSON.stringify(told)}, sum ${sum}`);
    ok(told.applied <= sum && sum <= told.applied + told.lost, `${JSON.stringify(told)}, sum ${sum}`);
    ok(told.applied > 1000 && told.lost > 10);
  });

  test("one long reply doesn't end the sessions", async () => {
    // A session that waits for its document's lock is no sign of a server that hangs.
    const server = await startServer(["d"]);
    const hub = await startHub(server.address, "--sessions", "2");
    const ada = await joinLines(hub.lines, "d");
    for (let at = 0; at < 400; at++) ada.insert("d", [0, "list", 0], "\u0001".repeat(4000));
    await ada.version();
    const shown = await Promise.all(Array.from({ length: 10 }, () => ada.ask("show", "d", [0]).catch((it) => it.number)));
    deepEqual(new Set(shown), new Set([102]));
    equal((await health(hub)).sessions.got, 3);
    ada.end();
  });

  test("the server is ended: what it doesn't have yet is told as away", async () => {
    const server = await startServer(["d"]);
    const hub = await startHub(server.address);
    const client = new Raw(hub.lines);
    equal(await client.ask(["open", "d"]), '["opened",1]');
    await kill(server.child);
    await hasServer(hub, false);
    equal(await client.ask(["add", "d", [0, "n"], 1]), '["no",101,"server-away"]');
    client.end();
  });
});
