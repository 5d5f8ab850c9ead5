/* Parts of the hub by themselves: no server, and no time that passes. Each test is that of a planted
   bug in tests/mutations/hub. */

import { deepEqual, equal, match, ok } from "node:assert/strict";
import { EventEmitter } from "node:events";
import { chmodSync, mkdtempSync, rmSync, writeFileSync } from "node:fs";
import net from "node:net";
import { tmpdir } from "node:os";
import { join } from "node:path";
import { test } from "node:test";
import { TestClock } from "../../js/test/clock.mjs";
import { StoredFronts } from "../lib/file.mjs";
import { Guest } from "../lib/guest.mjs";
import { Link } from "../lib/link.mjs";
import { notes } from "../lib/notes.mjs";
import { Presence } from "../lib/presence.mjs";
import { Rights } from "../lib/rights.mjs";
import { Storage } from "../lib/storage.mjs";
import { Watches } from "../lib/watches.mjs";
import { hubWithin, Raw, startServer, suite, webSockets, within } from "./support.mjs";

const LIMIT = { timeout: 240_000 };

/** Lets everything go on that waits for nothing but promises. */
const settle = () => new Promise((resume) => setImmediate(resume));

/** Whether a promise is settled by now. */
const isSettled = async (promise) => {
  let isIt = false;
  promise.then(() => (isIt = true), () => (isIt = true));
  await settle();
  return isIt;
};

/** A file whose fronts a test sets. */
class File {
  fronts = new Map();
  #waiting = [];
  front = (document) => this.fronts.get(document) ?? new Map();
  next = () => new Promise((resume) => this.#waiting.push(resume));
  set(document, front) {
    this.fronts.set(document, new Map(front));
    this.#waiting.splice(0).forEach((resume) => resume());
  }
}

test("what the server has is stored only once it is in the file", LIMIT, async () => {
  const file = new File();
  const storage = new Storage(false, new TestClock(), file);
  const asked = storage.isStored("d", [5, "a"], async () => '["front",[["a",9]]]');
  file.set("d", [["a", 4], ["b", 9]]);
  equal(await isSettled(asked), false);
  file.set("e", [["a", 5]]);
  equal(await isSettled(asked), false);
  file.set("d", [["a", 5]]);
  equal(await asked, true);
  equal(await storage.isStored("d", [10, "a"], async () => '["front",[["a",9]]]'), false); // nobody has it
});

test("what isn't in the file after half a minute isn't stored", LIMIT, async () => {
  const [clock, file] = [new TestClock(), new File()];
  file.next = (ms) => new Promise((resume) => void clock.after(ms, resume));
  const asked = new Storage(false, clock, file).isStored("d", [5, "a"], async () => '["front",[["a",9]]]');
  await clock.until((waiting) => waiting.length > 0);
  clock.pass(29_999);
  equal(await isSettled(asked), false);
  clock.pass(1);
  equal(await asked, false);
});

test("the server is asked until its file has the operation, or for half a minute", LIMIT, async () => {
  const clock = new TestClock();
  let isCopied = false;
  const ask = async (line) => (line.startsWith('["copied"') ? `["copied",${isCopied}]` : '["front",[["a",9]]]');
  const storage = new Storage(false, clock);
  equal(await storage.isStored("d", [10, "a"], ask), false); // nobody has it
  const [first, second] = [0, 0].map(() => storage.isStored("d", [5, "a"], ask));
  await clock.until((waiting) => waiting.length > 1);
  equal(await isSettled(first), false);
  isCopied = true;
  clock.pass(5);
  deepEqual(await Promise.all([first, second]), [true, true]);
});

test("a server that doesn't know of copied ones isn't believed without --durable", LIMIT, async () => {
  const ask = async (line) => (line.startsWith('["copied"') ? '["no",2,"bad-request"]' : '["front",[["a",9]]]');
  equal(await new Storage(false, new TestClock()).isStored("d", [5, "a"], ask), false);
  equal(await new Storage(true, new TestClock()).isStored("d", [5, "a"], ask), true);
});

test("where the reader of the file ends, what it said counts no more", LIMIT, async () => {
  const folder = mkdtempSync(join(tmpdir(), "jcrdt-reader-"));
  const program = join(folder, "python3");
  writeFileSync(program, `#!/bin/sh\necho '["front","d",[["a",5]]]'\nread line\n`);
  chmodSync(program, 0o755);
  const path = process.env["PATH"];
  process.env["PATH"] = `${folder}:${path}`;
  const clock = new TestClock();
  try {
    // Its input is empty, so it ends behind its line.
    const fronts = new StoredFronts("a.db", () => {}, clock);
    await clock.until((waiting) => waiting.includes(2000)); // the pause until it is started again
    deepEqual([...fronts.front("d")], []);
    fronts.stop();
  } finally {
    process.env["PATH"] = path;
    rmSync(folder, { recursive: true });
  }
});

test("what changes while the hub asks is asked for once more", LIMIT, async () => {
  const asked = [];
  const link = { open() {}, ask: () => new Promise((answer) => asked.push(answer)) };
  const watches = new Watches({ watching: () => link }, 200, new TestClock());
  const pushed = [];
  watches.add("d", { push: (_, line) => pushed.push(line) }, false);
  equal(asked.length, 1);
  for (let time = 0; time < 3; time++) watches.look("d");
  equal(asked.length, 1); // one at a time
  asked[0]('["front",[["a",1]]]');
  await settle();
  equal(asked.length, 2);
  asked[1]('["front",[["a",2]]]');
  await settle();
  deepEqual(pushed, ['["changed","d",[["a",1]]]', '["changed","d",[["a",2]]]']);
  equal(asked.length, 2);
});

test("control bytes of a note are written as texts: they forge no line", LIMIT, () => {
  const written = [];
  notes((line) => written.push(line))("a\n2026-01-01T00:00:00Z hub: forged \u001b[2J\u009b\u007f");
  equal(written.length, 1);
  match(written[0], /^\S+ hub: a\\u000a2026-01-01T00:00:00Z hub: forged \\u001b\[2J\\u009b\\u007f\n$/);
});

test("who said something and has left is kept nowhere", LIMIT, () => {
  const presence = new Presence(new TestClock(), 30_000);
  const [ada, bob] = [{ silence: 0, name: "ada" }, { silence: 0, name: "bob" }];
  presence.say("d", ada, "1");
  presence.say("d", bob, "2");
  equal(presence.count("d"), 2);
  presence.leave(ada);
  equal(presence.count("d"), 1);
  presence.say("d", bob, "null");
  presence.leave(bob);
  equal(presence.count("d"), 0);
});

/** What a client's stream is to the hub. */
class Stream extends EventEmitter {
  destroyed = false;
  writableEnded = false;
  writableNeedDrain = false;
  writableLength = 0;
  said = [];
  write(line) {
    this.said.push(line);
    return !this.writableNeedDrain;
  }
  destroy() {
    this.destroyed = true;
  }
}

/** A link that replies at once, and keeps the lines. */
class FakeLink {
  over = false;
  lines = [];
  #names = 0;
  open() {}
  giveName() {}
  takeName = () => `v${this.#names++}`;
  async ask(line) {
    if (this.over) return NOT_SENT;
    this.lines.push(line);
    const [word] = JSON.parse(line);
    return { open: '["opened",1]', let: '["bound"]' }[word] ?? `["${word}",[]]`;
  }
}
const { NOT_SENT } = await import("../lib/link.mjs");

/** A client at a hub of which each part only notes what is asked of it. */
function guestAt(link) {
  const session = { clients: new Set(), link };
  const left = [];
  const part = (name) => ({ leave: (guest) => left.push([name, guest]), look() {}, has: () => false });
  const pool = { leastLoaded: session, sessions: [session], linkOf: async () => session.link };
  const hub = {
    places: { version: '["version",2]', use: (_, work) => work(pool) },
    watches: part("watches"), presence: part("presence"), unread: { add() {}, delete() {} },
    figures: { answered() {} }, documents: new Set(), guestCount: 0, patience: 30_000, clock: new TestClock(),
  };
  const stream = new Stream();
  const guest = new Guest(hub, stream, "\n", new Rights({ read: true, write: true }));
  return { guest, stream, session, left };
}

test("a client that leaves watches and hears nothing any more", LIMIT, () => {
  const { guest, left, session } = guestAt(new FakeLink());
  guest.leave();
  deepEqual(left.map(([name, who]) => [name, who === guest]), [["watches", true], ["presence", true]]);
  equal(session.clients.size, 0);
});

test("the next line of a client waits until it has read the reply to this one", LIMIT, async () => {
  const { guest, stream } = guestAt(new FakeLink());
  equal(await guest.serve('["version"]'), true);
  stream.writableNeedDrain = true;
  const served = guest.serve('["version"]');
  equal(await isSettled(served), false);
  deepEqual(stream.said, ['["version",2]\n', '["version",2]\n']);
  stream.writableNeedDrain = false;
  stream.emit("drain");
  equal(await served, true);
});

test("a name whose session has ended is bound anew at another one", LIMIT, async () => {
  const [first, second] = [new FakeLink(), new FakeLink()];
  const { guest, stream, session } = guestAt(first);
  for (const line of ['["open","d"]', '["let","d","it",[0,"k"]]']) await guest.serve(line);
  first.over = true;
  session.link = second;
  await guest.serve('["let","d","it",[0,"k"]]');
  equal(stream.said.at(-1), '["bound"]\n');
  equal(second.lines.length, 1);
  await guest.serve('["values","d",["it"]]');
  equal(second.lines.at(-1), '["values","d",["v0"]]');
});

/** A server that answers each line, and then writes what a test wants. */
async function fakeServer(context, more = () => "") {
  const [came, sockets] = [[], []];
  const server = net.createServer((socket) => {
    sockets.push(socket);
    socket.on("error", () => {}).setEncoding("utf8");
    let rest = "";
    socket.on("data", (text) => {
      const lines = (rest + text).split("\n");
      rest = lines.pop();
      for (const line of lines) {
        came.push(line);
        socket.write(`${line === '["quit"]' ? '["bye"]' : '["version",2]'}\n${more(came.length)}`);
      }
    });
  });
  await new Promise((open) => server.listen(0, "127.0.0.1", open));
  context.after(() => {
    server.close();
    for (const socket of sockets) socket.destroy();
  });
  const linkOf = (options = {}) => new Link({ server: `127.0.0.1:${server.address().port}`,
    replyBytes: 2 ** 20, linesPerSession: 100, clock: () => 0, wornOut() {}, ...options });
  return { came, linkOf };
}

test("a line of the server that answers no request ends the session", LIMIT, async (context) => {
  const { linkOf } = await fakeServer(context, (count) => (count === 2 ? '["values",[1]]\n' : ""));
  const link = linkOf();
  equal(await link.begun(), link);
  equal(await link.ask('["version"]'), '["version",2]');
  equal(await within("it ends", link.closed), "a line came that answers no request");
  equal(await link.ask('["version"]'), NOT_SENT);
});

test("a session that isn't renewed ends itself before the server would", LIMIT, async (context) => {
  const { came, linkOf } = await fakeServer(context);
  const link = linkOf({ linesPerSession: 100 });
  equal(await link.begun(), link);
  const asked = Array.from({ length: 10_100 }, () => link.ask('["version"]'));
  const replies = await within("all are settled", Promise.all(asked));
  equal(link.over, true);
  equal(replies.filter((it) => it === NOT_SENT).length, 10_100 - (10_000 - 1));
  equal(came.at(-1), '["quit"]');
  ok(came.length < 10_100, `${came.length} lines`);
});

suite("ways in", { concurrency: true }, () => {
  test("a message of more than a megabyte ends the connection", async () => {
    const server = await startServer(["d"]);
    const hub = await hubWithin({ server: server.address, web: "127.0.0.1:0", note: () => {} });
    const web = new (webSockets().WebSocket)(`${hub.page.replace("http", "ws")}lines`);
    const closed = new Promise((close) => web.on("error", () => {}).on("close", close));
    await new Promise((open) => web.on("open", open));
    web.send("x".repeat(2 ** 20 + 1));
    equal(await within("it is closed", closed), 1009);
  });

  test("each way in has room of its own", async () => {
    const server = await startServer(["d"]);
    const ways = { lines: "127.0.0.1:0", web: "127.0.0.1:0" };
    const hub = await hubWithin({ server: server.address, ...ways, mostClients: 1, note: () => {} });
    const raw = new Raw(hub.lines);
    equal(await raw.ask(["version"]), '["version",2]');
    equal(await new Raw(hub.lines).ask(["version"]), '["no",101,"server-away"]');
    const opened = (count) => Promise.all(Array.from({ length: count }, () => new Promise((says) => {
      const web = new (webSockets().WebSocket)(`${hub.page.replace("http", "ws")}lines`);
      web.on("open", () => says("open")).on("error", (error) => says(error.message));
    })));
    deepEqual(await opened(1), ["open"]);
    deepEqual(await opened(1), ["Unexpected server response: 503"]);
    raw.end();
  });
});
