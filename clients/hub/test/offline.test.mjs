/* The page without a network, in headless Chromium: it opens again, has what was typed, and meets the
   others later. */

import { deepEqual, equal, ok } from "node:assert/strict";
import node from "node:test";
import { Browser, missing, until } from "../../js/test/chromium.mjs";
import { end, startHub, startServer } from "../../js/test/serving.mjs";
import { tooLong } from "../../js/test/support.mjs";
import { connected } from "../../js/session.mjs";

const ONLINE = `["ada", "bob"].every((side) =>
  document.getElementById(side)?.dataset.state === "online")`;
const COPIED = `caches.open("jcrdt").then((it) => it.keys()).then((all) =>
  all.some(({ url }) => url.endsWith("/jcrdt.wasm")) && navigator.serviceWorker.controller !== null)`;
const skip = missing() || false;
const test = (name, work, why = skip) => node(name, { timeout: 900_000, skip: why }, work);

const textOf = async (tab, side) => (await tab.textOf(`#${side} .text`))[0];
const nameOf = (tab) => tab.evaluate(`document.querySelector("#ada h2").title`);

test("the network is taken away: typed, reloaded, found; two tabs; then all meet", async () => {
  const server = await startServer(["page"]);
  const hub = await startHub(server.address);
  const browser = await Browser.open();
  try {
    const profile = await browser.profile();
    const tab = await browser.tab(hub.page, { profile });
    await tab.until(ONLINE);
    await tab.until(COPIED);
    await tab.type("#ada .text", "one ");
    await until("bob has it", async () => (await textOf(tab, "bob")) === "one ");
    await end(hub);
    await end(server);
    await tab.type("#ada .text", "offline");
    await tab.reload();
    await until("it is there again", async () => (await textOf(tab, "ada")) === "one offline");
    const second = await browser.tab(`${hub.page}web/`, { profile });
    await until("another tab opens", async () => (await second.textOf("#ada .text")).length === 1);
    await until("it has it too", async () => (await textOf(second, "ada"))?.endsWith("offline"));
    ok((await nameOf(tab)) !== (await nameOf(second)));
    await second.type("#ada .text", "!");
    await tab.type("#bob .text", "Number ", 0);
    const { folder, address } = server;
    const again = await startServer(["page"], { folder, address });
    await startHub(again.address, { web: hub.web });
    for (const it of [tab, second]) await it.until(ONLINE);
    for (const it of [tab, second]) {
      for (const side of ["ada", "bob"]) {
        await until(`${side} has all`, async () => (await textOf(it, side)) === "Number one offline!");
      }
    }
    const client = await connected(again.address);
    await client.open("page");
    equal((await client.plain("page", [0, "text"])).join(""), "Number one offline!");
    await client.quit();
    deepEqual([...tab.faults, ...second.faults], []);
  } finally {
    await browser.close();
  }
});

test("a hub that doesn't answer: the page opens from its copies", async () => {
  const server = await startServer(["page"]);
  const hub = await startHub(server.address);
  const browser = await Browser.open();
  try {
    const tab = await browser.tab(hub.page);
    await tab.until(ONLINE);
    await tab.until(COPIED);
    await tab.type("#ada .text", "one ");
    await until("bob has it", async () => (await textOf(tab, "bob")) === "one ");
    process.kill(hub.child.pid, "SIGSTOP");
    await tab.type("#ada .text", "offline");
    await tab.reload();
    await until("it is there again", async () => (await textOf(tab, "ada")) === "one offline");
    process.kill(hub.child.pid, "SIGCONT");
    await tab.until(ONLINE);
    await until("bob has it", async () => (await textOf(tab, "bob")) === "one offline");
    // Nothing is left of that: the hub's files are asked for again, and a new one is taken.
    await tab.evaluate(`caches.open("jcrdt").then((it) => it.put("page.css", new Response("old"))).then(() => 0)`);
    await until("a new one is taken", async () =>
      (await tab.evaluate(`fetch("page.css").then((it) => it.text())`)).length > 1000);
    deepEqual(tab.faults, []);
  } finally {
    await browser.close();
  }
}, skip || tooLong);
