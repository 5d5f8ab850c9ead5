/* Who has a document open, and what they say: by a hub, bounded, gone with the connection. */

import { deepEqual, equal, ok, throws } from "node:assert/strict";
import node from "node:test";
import { Provider } from "../provider.mjs";
import { connectedToHub } from "../session.mjs";
import { bindText } from "../text_field.mjs";
import { until, webSockets } from "./chromium.mjs";
import { TestClock } from "./clock.mjs";
import { Field } from "./field.mjs";
import { end, startHub, startServer } from "./serving.mjs";

const { WebSocket } = webSockets();
const endings = new Set();

const test = (name, work) => node(name, { timeout: 240_000 }, async () => {
  try {
    await work();
  } finally {
    await Promise.allSettled([...endings].map((it) => it()));
    endings.clear();
  }
});

async function opened(at, options = {}) {
  const provider = await Provider.open({ document: "d", at, WebSocket, ...options });
  endings.add(() => provider.close());
  await provider.synced(120);
  return provider;
}

const valuesOf = ({ presence }) => [...presence.others.values()];
const hears = (provider, values) => until(`it hears ${JSON.stringify(values)}`, () =>
  JSON.stringify(valuesOf(provider)) === JSON.stringify(values));

test("each hears who the others are, who comes later too, and who has left", async () => {
  const hub = await startHub((await startServer(["d"])).address);
  const [ada, bob] = [await opened(hub.lines), await opened(hub.lines)];
  const told = [];
  bob.listen(({ what }) => what === "presence" && told.push(valuesOf(bob)));
  deepEqual(valuesOf(bob), []);
  ada.presence.set({ name: "Ada", color: "#b42318" });
  await hears(bob, [{ name: "Ada", color: "#b42318" }]);
  deepEqual(told, [[{ name: "Ada", color: "#b42318" }]]);
  ada.presence.set({ color: undefined, caret: [3, "ada"] });
  await hears(bob, [{ name: "Ada", caret: [3, "ada"] }]);
  const eve = await opened(hub.lines);
  await hears(eve, [{ name: "Ada", caret: [3, "ada"] }]);
  deepEqual(valuesOf(ada), []); // nobody hears oneself
  ada.goOffline();
  await hears(bob, []);
  ada.goOnline(); // it says again what it is
  await hears(bob, [{ name: "Ada", caret: [3, "ada"] }]);
  await ada.close();
  await Promise.all([hears(bob, []), hears(eve, [])]);
});

test("nothing of it is stored, logged or sent without a hub", async () => {
  const server = await startServer(["d"]);
  const hub = await startHub(server.address);
  const [ada, bob] = [await opened(hub.lines), await opened(server.address)];
  ada.presence.set({ name: "Ada" });
  bob.presence.set({ name: "Bob" });
  await Promise.all([ada.synced(60), bob.synced(60)]);
  deepEqual([ada.replica.count, bob.replica.count, ada.unsent, bob.unsent], [0, 0, [], []]);
  deepEqual([valuesOf(ada), valuesOf(bob), bob.state.word], [[], [], "online"]);
});

test("what is said is bounded: 4,096 bytes, JSON, and ten times a second", async () => {
  const hub = await startHub((await startServer(["d"])).address);
  const clock = new TestClock();
  const ada = await opened(hub.lines, { clock });
  const client = await connectedToHub(hub.lines, WebSocket, { seconds: 120 });
  endings.add(() => client.end());
  await client.open("d");
  const heard = [];
  await client.hear("d", (value) => heard.push(value));
  clock.pass(1000);
  throws(() => ada.presence.set({ name: "x".repeat(4096) }), RangeError);
  throws(() => ada.presence.set({ at: new Date() }), TypeError);
  deepEqual(ada.presence.own, {});
  for (let at = 0; at < 100; at++) ada.presence.set({ at });
  await until("the first one is heard", () => heard.length === 1);
  for (let at = 100; at < 200; at++) ada.presence.set({ at });
  clock.pass(100);
  await until("the last one is heard", () => heard.length === 2);
  deepEqual(heard, [{ at: 0 }, { at: 199 }]);
});

test("a hub that is started again hears it again", async () => {
  const server = await startServer(["d"]);
  const hub = await startHub(server.address);
  const [ada, bob] = [await opened(hub.lines), await opened(hub.lines)];
  ada.presence.set({ name: "Ada" });
  await hears(bob, [{ name: "Ada" }]);
  await end(hub);
  await until("they are gone", () => valuesOf(bob).length === 0);
  await startHub(server.address, { web: hub.web });
  await hears(bob, [{ name: "Ada" }]);
  ok(ada.presence.own.name === "Ada");
  equal(bob.presence.others.size, 1);
});

/** A field that shows a text, and the carets of others in it as NAME:FROM-TO. */
function bound(provider, place = [0, "text"]) {
  const field = new Field();
  const seen = { field, carets: [] };
  const show = ({ name, from, to }) => `${name}:${from}-${to}`;
  const carets = (found) => (seen.carets = found.map(show).sort());
  seen.end = bindText(provider, place, field, { carets });
  return seen;
}

test("carets stay at their characters while others type, and go with the focus", async () => {
  const hub = await startHub((await startServer(["d"])).address);
  const [ada, bob] = [await opened(hub.lines), await opened(hub.lines)];
  ada.presence.set({ name: "Ada" });
  bob.presence.set({ name: "Bob", color: "#067647" });
  ada.replica.splice([0, "text"], 0, 0, "Hello world");
  const [a, b] = [bound(ada), bound(bob)];
  const sees = (side, carets, text) => until(`${text} with ${carets}`, () =>
    side.field.value === text && JSON.stringify(side.carets) === JSON.stringify(carets));
  await until("both show it", () => b.field.value === "Hello world");
  a.field.select(5);
  b.field.select(6, 11);
  await sees(b, ["Ada:5-5"], "Hello world");
  await sees(a, ["Bob:6-11"], "Hello world");
  b.field.type(0, "Oh, "); // before both
  await sees(a, ["Bob:4-4"], "Oh, Hello world");
  await sees(b, ["Ada:9-9"], "Oh, Hello world");
  equal(a.field.selectionStart, 9);
  a.field.type(9, "😀"); // at its own caret: two units
  await sees(b, ["Ada:11-11"], "Oh, Hello😀 world");
  ada.replica.splice([0, "text"], 4, 6, ""); // what it is behind is deleted
  await until("bob has it", () => b.field.value === "Oh,  world");
  await sees(b, ["Ada:4-4"], "Oh,  world");
  b.field.select(0);
  await sees(a, ["Bob:0-0"], "Oh,  world");
  a.field.focus(false);
  await sees(b, [], "Oh,  world");
  a.field.focus(true);
  await sees(b, ["Ada:4-4"], "Oh,  world");
  const other = bound(bob, [0, "other"]); // a caret of another list isn't here
  deepEqual(other.carets, []);
  a.end();
  await sees(b, [], "Oh,  world");
  equal(ada.presence.own.name, "Ada");
});

test("what others say of carets may be anything, and is shown if it is one", async () => {
  const hub = await startHub((await startServer(["d"])).address);
  const ada = await opened(hub.lines);
  ada.replica.splice([0, "text"], 0, 0, "text");
  const a = bound(ada);
  const eve = await connectedToHub(hub.lines, WebSocket, { seconds: 120 });
  endings.add(() => eve.end());
  await eve.open("d");
  const caret = { place: [0, "text"], from: 0, to: 0 };
  const wrong = [1, "x", [], { caret: 1 }, { caret: null }, { caret: { ...caret, place: 1 } },
    { caret: { ...caret, from: [1] } }, { caret: { ...caret, to: -1 } },
    { caret: { ...caret, to: [99, "nobody"] } }];
  for (const value of wrong) {
    await eve.say("d", value);
    const text = JSON.stringify(value);
    await until(text, () => valuesOf(ada).some((it) => JSON.stringify(it) === text));
    deepEqual(a.carets, [], text);
  }
  await eve.say("d", { name: `  ${"n".repeat(40)}`, color: "url(x)", caret });
  await until("it is shown", () => a.carets.length === 1);
  deepEqual(a.carets, [`${"n".repeat(32)}:0-0`]);
});
