/* Who may connect, read and write: by `admit`. */

import { deepEqual, equal, match, rejects } from "node:assert/strict";
import { writeFileSync } from "node:fs";
import { join } from "node:path";
import { before, test } from "node:test";
import { Away } from "../../js/wire.mjs";
import {
  joinLines, joinWeb, kill, Raw, ROOM, startHub, startServer, suite, until, within,
} from "./support.mjs";

// By the token in the query or a header; over TCP everybody may read d alone.
const ADMIT = `
export async function admit({ way, address, url, headers }) {
  if (way === "lines") return address.endsWith("127.0.0.1") && { read: ["d"] };
  const token = new URL(url, "http://hub").searchParams.get("token") ?? headers.authorization;
  if (token === "throws") throw new Error("no database");
  await new Promise((resume) => setTimeout(resume, 10));
  return { all: { read: true, write: true }, one: { write: ["e"], name: 'eve"\\n' }, reader: { read: true } }[token] ?? false;
}
`;
const NOT_ALLOWED = '["no",103,"not-allowed"]';
const CHANGES = [
  ["assign", "d", [0, "k"], 1], ["insert", "d", [0, "l", 0], 1], ["delete", "d", [0, "k"]],
  ["add", "d", [0, "n"], 1], ["forget", "d", [1, "p"]],
  ["deliver", "d", ["op", [1, "p"], [], [[["m", 0]], "k"], ["assign", 1]]],
];
const READINGS = [
  ["values", "d", [0, "k"]], ["show", "d", [0]], ["front", "d"], ["ops", "d", [], 64], ["watch", "d"], ["watch", "d", "ops"],
  ["page", "d", [], 9], ["chains", "d", [], [["srv-1", 1]]],
  ["let", "d", "it", [0, "k"]], ["hear", "d"], ["say", "d", 1], ["held", "d"], ["account", "d"],
];

suite("rights", { concurrency: false }, () => {
  let server, hub;
  before(async () => {
    writeFileSync(join(ROOM, "admit.mjs"), ADMIT);
    server = await startServer(["d", "e"]);
    hub = await startHub(server.address, "--admit", "admit.mjs");
  });

  test("who isn't admitted isn't connected", async () => {
    for (const token of ["", "?token=nobody", "?token=throws"]) {
      await rejects(joinWeb(hub.page, {}, `lines${token}`), Away, token);
    }
    await until("it is noted", () => /admit failed: no database/.test(hub.child.notes));
    const refused = (await (await fetch(`${hub.page}metrics`)).text()).match(/connections_refused_total (\d+)/)[1];
    equal(refused, "3");
    // Over TCP the client learns why.
    writeFileSync(join(ROOM, "none.mjs"), "export const admit = () => false;");
    const closed = await startHub(server.address, "--admit", "none.mjs");
    await rejects(joinLines(closed.lines), { number: 103, name: "not-allowed" });
    await kill(closed.child);
  });

  test("who may read only can't change anything", async () => {
    const reader = await joinWeb(hub.page, {}, "lines?token=reader");
    const ask = (request) => reader.answer(JSON.stringify(request));
    match(await ask(["open", "d"]), /^\["opened",/);
    for (const change of CHANGES) equal(await ask(change), NOT_ALLOWED, change[0]);
    // However the word is written.
    equal(await reader.answer('["\\u0061ssign","d",[0,"k"],1]'), NOT_ALLOWED);
    equal(await reader.answer(' [ "assign" , "\\u0064" , [0,"k"],1]'), NOT_ALLOWED);
    for (const reading of READINGS) equal((await ask(reading)).startsWith('["no",'), false, reading[0]);
    equal(await ask(["front", "d"]), '["front",[]]');
    equal(await ask(["unknown", "d"]), NOT_ALLOWED);
    match(await ask(["open", "none"]), /no-such-document/);
    reader.end();
  });

  test("rights are by document", async () => {
    const eve = await joinWeb(hub.page, { headers: { authorization: "one" } });
    const ask = (request) => eve.answer(JSON.stringify(request));
    for (const name of ["d", "none"]) equal(await ask(["open", name]), NOT_ALLOWED); // whether it is there or not
    for (const reading of READINGS) equal(await ask(reading), NOT_ALLOWED, reading[0]);
    match(await ask(["open", "e"]), /^\["opened",/); // who may write may read
    match(await ask(["assign", "e", [0, "k"], 1]), /^\["applied",/);
    equal(await ask(["values", "e", [0, "k"]]), '["values",[1]]');
    equal(await ask(["version"]), '["version",2]');
    eve.end();
  });

  test("who may not read a document gets no operations of it", async () => {
    const [eve, ada] = [new Raw(hub.lines), await joinWeb(hub.page, {}, "lines?token=all")];
    equal(await eve.ask(["watch", "e", "ops"]), NOT_ALLOWED);
    match(await eve.ask(["open", "d"]), /^\["opened",/);
    equal(await eve.ask(["watch", "d", "ops"]), '["watching"]');
    match(await eve.next(), /^\["changed","d",/);
    for (const document of ["e", "d"]) {
      await ada.open(document);
      await ada.assign(document, [0, "k"], "secret");
    }
    match(await eve.next(), /^\["logged","d",1,/); // that of e was logged before
    match(await eve.ask(["version"]), /^\["version",/);
    deepEqual(eve.lines, []);
    [eve, ada].forEach((client) => client.end());
  });

  test("over TCP, and by which name one is heard", async () => {
    const tcp = new Raw(hub.lines);
    match(await tcp.ask(["open", "d"]), /^\["opened",/);
    equal(await tcp.ask(["open", "e"]), NOT_ALLOWED);
    equal(await tcp.ask(CHANGES[0]), NOT_ALLOWED);
    const all = await joinWeb(hub.page, {}, "lines?token=all");
    const eve = await joinWeb(hub.page, {}, "lines?token=one");
    await all.open("e");
    await eve.open("e");
    const heard = new Promise((resolve) => all.hear("e", (value, guest) => resolve([value, guest.replace(/\d+$/, "N")])));
    await all.version();
    await eve.say("e", "here");
    deepEqual(await within("it is heard", heard), ["here", "eve__-N"]);
    [tcp, all, eve].forEach((client) => client.end());
  });
});
