/* What clients send and what they don't read has limits, and none ends the hub. */

import { deepEqual, equal, match, ok } from "node:assert/strict";
import { readdirSync, readFileSync } from "node:fs";
import net from "node:net";
import { test } from "node:test";
import {
  atEnd, hubWithin, joinLines, pause, Raw, startHub, startServer, suite, until, webSockets, within,
} from "./support.mjs";
import { TestClock } from "../../js/test/clock.mjs";
import { tooLong } from "../../js/test/support.mjs";

/** A connection that sends some bytes, with how long it lives. */
function held(address, text = "") {
  const [host, port] = address.replace(/^http:\/\/|\/$/g, "").split(":");
  const socket = net.connect({ host, port: Number(port) });
  atEnd(() => socket.destroy());
  socket.on("error", () => {}).resume();
  if (text) socket.write(text);
  const closed = new Promise((resolve) => socket.on("close", resolve));
  return { socket, closed };
}

/** Lets seconds pass by a clock. In each of them what is on its way may come.
 *  @param {TestClock} clock
 *  @param {number} count */
async function secondsOf(clock, count) {
  for (let second = 0; second < count; second++) {
    clock.pass(1000);
    await pause(20);
  }
}

/** How many files and connections a process has open. */
const openFiles = ({ pid }) => readdirSync(`/proc/${pid}/fd`).length;

const UPGRADE = "GET /lines HTTP/1.1\r\nHost: x\r\nConnection: Upgrade\r\nUpgrade: websocket\r\n"
  + "Sec-WebSocket-Version: 13\r\nSec-WebSocket-Key: dGhlIHNhbXBsZSBub25jZQ==\r\n";

suite("limits", { concurrency: false }, () => {
  test("a last line without a newline is answered, as by the server", async () => {
    const server = await startServer(["d"]);
    const hub = await startHub(server.address);
    const lines = ['["open","d"]\n["version"]', '["open","d"]\n["version"]\n', '["quit"]', "[", ""];
    for (const text of [...lines, "?".repeat(65_537)]) {
      const answers = [server.address, hub.lines].map(async (address) => {
        const raw = new Raw(address);
        raw.socket.end(text);
        await within("its end", raw.ended);
        return raw.lines.map((line) => line.replace(/^\["opened",\d+\]$/, '["opened"]'));
      });
      const [ofServer, ofHub] = await Promise.all(answers);
      deepEqual(ofHub, ofServer, text.slice(0, 80));
    }
  });

  test("a line of 65,536 bytes is answered, one more is refused, over both ways", async () => {
    const server = await startServer(["d"]);
    const hub = await startHub(server.address);
    const line = (size) => `["open","${"x".repeat(size - 11)}"]`;
    equal(line(65_536).length, 65_536);
    const raw = new Raw(hub.lines);
    equal(await raw.ask(line(65_536)), '["no",4,"no-such-document"]');
    equal(await raw.ask(line(65_537)), '["no",3,"line-too-long"]');
    await within("its end", raw.ended);
    const web = new (webSockets().WebSocket)(`${hub.page.replace("http", "ws")}lines`);
    const came = [];
    const closed = new Promise((resolve) => web.on("message", (data) => came.push(`${data}`)).on("close", resolve));
    await new Promise((open) => web.on("open", open));
    web.send(line(65_536));
    web.send(line(65_537));
    web.send('["version"]');
    await within("its end", closed);
    deepEqual(came, ['["no",4,"no-such-document"]', '["no",3,"line-too-long"]']);
  });

  test("a reply that is too long is refused, and the hub goes on", async () => {
    const server = await startServer(["d"]);
    const hub = await startHub(server.address, "--reply-limit", "5");
    const ada = await joinLines(hub.lines, "d");
    const insert = () => ada.insert("d", [0, "list", 0], "\u0001".repeat(4000)); // 24,000 bytes shown
    for (let at = 0; at < 200; at++) insert();
    equal(JSON.stringify(await ada.show("d", [0])).length > 200 * 24_000, true); // 4.8 MB
    for (let at = 0; at < 50; at++) insert();
    await ada.version();
    const replies = [["show", "d", [0]], ["version"], ["show", "d", [0, "list"]], ["sum", "d", [0, "n"]]];
    deepEqual(await Promise.all(replies.map((it) => ada.answer(JSON.stringify(it)))), [
      '["no",102,"reply-too-long"]', '["version",2]', '["no",102,"reply-too-long"]', '["sum","0"]']);
    equal(hub.child.exitCode, null);
    ada.end();
  });

  test("a reply beyond what a text can have is refused, in little memory", { skip: tooLong }, async () => {
    const pieces = 2700; // of 200,000 bytes: 540 MB
    const replies = { version: '["version",2]', open: '["opened",1]', sum: '["sum","0"]' };
    const fake = net.createServer((socket) => {
      const write = (text) => new Promise((resolve) => socket.write(text, resolve));
      let turn = Promise.resolve();
      socket.on("error", () => {}).on("data", (bytes) => {
        for (const [, word] of `${bytes}`.matchAll(/^\["([a-z]+)"/gm)) {
          turn = turn.then(async () => {
            for (let at = 0; word === "show" && at < pieces; at++) await write("x".repeat(200_000));
            await write(`${replies[word] ?? ""}\n`);
          });
        }
      });
    });
    await new Promise((open) => fake.listen(0, "127.0.0.1", open));
    atEnd(() => fake.close());
    const hub = await startHub(`127.0.0.1:${fake.address().port}`, "--sessions", "1");
    const ada = new Raw(hub.lines);
    ada.send(["open", "d"], ["show", "d", [0]], ["sum", "d", [0, "n"]]);
    await until("all is answered", () => ada.lines.length === 3);
    deepEqual(ada.lines, ['["opened",1]', '["no",102,"reply-too-long"]', '["sum","0"]']);
    const status = readFileSync(`/proc/${hub.child.pid}/status`, "utf8");
    const peak = Number(/VmHWM:\s*(\d+) kB/.exec(status)[1]) / 1024;
    ok(peak < 300, `${peak} MB`);
    ada.end();
  });

  test("a client that is held up, or whose requests wait, isn't dropped before its time", async () => {
    const server = await startServer(["d"]);
    const [slow, quick] = [new TestClock(), new TestClock()];
    const [hub, hasty] = await Promise.all([[slow, 100], [quick, 3]].map(([clock, patience]) =>
      hubWithin({ server: server.address, web: "127.0.0.1:0", patience, clock, note() {} })));
    const opened = async ({ page }) => {
      const web = new (webSockets().WebSocket)(`${page.replace("http", "ws")}lines`);
      atEnd(() => web.terminate());
      await new Promise((open) => web.on("open", open));
      web.replies = 0;
      web.on("message", () => web.replies++);
      web.send('["version"]');
      await until("it is answered", () => web.replies === 1);
      return web;
    };
    const [held, asking, gone] = [await opened(hub), await opened(hasty), await opened(hasty)];
    held._socket.pause(); // as a program that does something else for 22 s
    gone._socket.pause();
    process.kill(server.child.pid, "SIGSTOP");
    for (let at = 0; at < 40; at++) asking.send('["open","d"]'); // more than the hub reads ahead
    await secondsOf(quick, 7);
    process.kill(server.child.pid, "SIGCONT");
    await until("all is answered", () => asking.replies === 41 || asking.readyState !== 1);
    equal(asking.replies, 41);
    await secondsOf(slow, 22);
    held._socket.resume();
    held.send('["version"]');
    await until("it is answered", () => held.replies === 2 || held.readyState !== 1);
    equal(held.replies, 2);
    gone._socket.resume();
    await until("who was silent for long is dropped", () => gone.readyState === 3);
  });

  test("who sends nothing doesn't keep others out", async () => {
    const [server, clock] = [await startServer(["d"]), new TestClock()];
    const hub = await hubWithin({
      server: server.address, lines: "127.0.0.1:0", patience: 2, idle: 4, clock, note() {},
    });
    const watching = new Raw(hub.lines);
    await watching.ask(["open", "d"]);
    await watching.ask(["watch", "d"]);
    const silent = Array.from({ length: 50 }, () => held(hub.lines));
    await until("they are connected", () => silent.every(({ socket }) => socket.readyState === "open"));
    const asked = held(hub.lines, '["version"]\n');
    await until("it is answered", () => asked.socket.bytesRead > 0);
    await secondsOf(clock, 2);
    equal(silent.filter(({ socket }) => socket.destroyed).length, 0);
    await secondsOf(clock, 1);
    await within("the silent are dropped", Promise.all(silent.map(({ closed }) => closed)));
    await secondsOf(clock, 1);
    equal(asked.socket.destroyed, false);
    await secondsOf(clock, 1);
    await within("so is the one that asked", asked.closed);
    equal(watching.isEnded, false);
    watching.send(["unwatch", "d"]);
    await until("it watches no more", () => watching.lines.includes('["unwatched","d"]'));
    await secondsOf(clock, 5);
    await within("now it is, too", watching.ended);
  });

  test("2,001 idle clients: the one that was idle for longest makes room", { skip: tooLong }, async () => {
    const server = await startServer(["d"]);
    const clock = new TestClock();
    const hub = await hubWithin({
      server: server.address, lines: "127.0.0.1:0", patience: 20, clock, note() {},
    });
    const idle = [];
    for (let batch = 0; batch < 40; batch++) {
      const some = Array.from({ length: 50 }, () => held(hub.lines, '["version"]\n'));
      await until("each is answered", () => some.every(({ socket }) => socket.bytesRead > 0));
      idle.push(...some);
    }
    await secondsOf(clock, 22);
    const ada = await within("another client is served", joinLines(hub.lines, "d"));
    equal(await ada.add("d", [0, "n"], 1).then((id) => id[0]), 1);
    equal(idle.filter(({ socket }) => socket.destroyed).length, 1);
    idle.forEach(({ socket }) => socket.destroy());
    ada.end();
  });

  test("half-sent requests are closed in time", async () => {
    const server = await startServer(["d"]);
    const hub = await startHub(server.address);
    const half = Array.from({ length: 300 }, () => held(hub.page, "GET /web/ HTTP/1.1\r\n"));
    half.push(held(hub.page)); // nothing at all
    await until("it has them", () => openFiles(hub.child) > half.length);
    equal((await fetch(`${hub.page}web/`)).status, 200);
    await within("all are closed", Promise.all(half.map(({ closed }) => closed)));
  });

  test("refused upgrades are closed at once, also where the other side stays", async () => {
    const server = await startServer(["d"]);
    const hub = await startHub(server.address, "--patience", "3600");
    await fetch(`${hub.page}health`, { headers: { connection: "close" } });
    const before = openFiles(hub.child);
    for (let at = 0; at < 200; at++) {
      const { socket } = held(hub.page);
      socket.allowHalfOpen = true;
      socket.write(`${UPGRADE}Origin: http://evil.example\r\n\r\n`);
    }
    await until("all came", async () => {
      const text = await (await fetch(`${hub.page}metrics`)).text();
      return text.includes("connections_refused_total 200");
    });
    await until("all are closed", () => openFiles(hub.child) <= before + 6);
  });

  test("the page can't be framed, and says what it may load", async () => {
    const server = await startServer(["d"]);
    const hub = await startHub(server.address);
    const { headers } = await fetch(`${hub.page}web/`);
    match(headers.get("content-security-policy"), /default-src 'self'.*frame-ancestors 'none'/);
    equal(headers.get("x-content-type-options"), "nosniff");
  });

  test("what many don't read has a limit of memory", { skip: tooLong }, async () => {
    const server = await startServer(["d"]);
    const notes = [];
    const hub = await hubWithin({
      server: server.address, lines: "127.0.0.1:0", note: (text) => notes.push(text),
    });
    const ada = await joinLines(hub.lines, "d");
    for (let at = 0; at < 300; at++) ada.insert("d", [0, "list", 0], "\u0001".repeat(4000));
    await ada.version(); // a reply of 7.2 MB
    const deaf = Array.from({ length: 60 }, () => {
      const found = held(hub.lines, '["open","d"]\n["show","d",[0]]\n["show","d",[0]]\n');
      found.socket.pause();
      return found;
    });
    await until("some are dropped", () => notes.some((it) => it.includes("doesn't read")));
    equal(await ada.version(), 2);
    deaf.forEach(({ socket }) => socket.destroy());
    ada.end();
  });
});
