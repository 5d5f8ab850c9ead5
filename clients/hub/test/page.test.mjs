/* The page in headless Chromium, as a person uses it: apart and together, typing at once, offline,
   in two tabs, with a full store, behind a proxy with TLS, by keyboard alone.
   Screenshots are written to the folder SHOTS, if that is set. */

import { deepEqual, equal, match, ok } from "node:assert/strict";
import { execFileSync } from "node:child_process";
import { copyFileSync, existsSync, mkdirSync, readFileSync, readdirSync, rmSync, writeFileSync } from "node:fs";
import http from "node:http";
import https from "node:https";
import net from "node:net";
import node from "node:test";
import { networkInterfaces } from "node:os";
import { Browser, missing, pause, until } from "../../js/test/chromium.mjs";
import { end, room, startHub, startServer } from "../../js/test/serving.mjs";
import { tooLong } from "../../js/test/support.mjs";
import { Provider } from "../../js/provider.mjs";
import { connected } from "../../js/session.mjs";

const SHOTS = process.env.SHOTS;
const ONLINE = `["ada", "bob"].every((side) =>
  document.getElementById(side)?.dataset.state === "online")`;
const STATES = (word) => `[...document.querySelectorAll(".state")].every((it) =>
  it.textContent.startsWith("offline since") && it.textContent.includes("${word}"))`;
const skip = missing() || false;
const long = skip || tooLong;
const test = (name, work, why = skip, seconds = 600) =>
  node(name, { timeout: seconds * 1000, skip: why }, async (context) => {
    try {
      await work(context);
    } finally {
      await (await shared)?.browser.closeTabs();
    }
  });

/** One server with a document for each test, a hub and a browser, for all tests that end none. */
let shared;
let count = 0;

async function sharedParts() {
  const documents = Array.from({ length: 16 }, (_, at) => `d${at}`);
  const server = await startServer(documents);
  return { server, hub: await startHub(server.address), browser: await Browser.open() };
}

node.after(async () => (await shared)?.browser.close());

/** The page with a document and a profile of its own, once both sides are online. */
async function page({ quota } = {}) {
  shared ??= sharedParts();
  const { server, hub, browser } = await shared;
  const document = `d${count++}`;
  const profile = await browser.profile();
  const url = `${hub.page}web/?doc=${document}`;
  const tab = await browser.tab(`${hub.page}health`, { profile });
  const { origin } = new URL(url);
  if (quota) await tab.send("Storage.overrideQuotaForOrigin", { origin, quotaSize: quota });
  await tab.go(url);
  await tab.until(ONLINE);
  return { server, hub, browser, tab, document, profile, url };
}

/** The same with a hub and a server that the test may end. */
async function ownPage(browser, profile) {
  const server = await startServer(["page"]);
  const hub = await startHub(server.address);
  const tab = await browser.tab(hub.page, { profile });
  await tab.until(ONLINE);
  return { server, hub, tab };
}

/** A session of the server. */
async function sessionOf({ server, document }) {
  const client = await connected(server.address);
  await client.open(document);
  return client;
}

const sides = ["ada", "bob"];
const both = async (tab, selector) =>
  Promise.all(sides.map((side) => tab.textOf(`#${side} ${selector}`)));
const isSame = (one, other) => JSON.stringify(one) === JSON.stringify(other);
const same = (tab, what, selector, expected, seconds) => until(what, async () =>
  (await both(tab, selector)).every((it) => isSame(it, expected)), seconds);
/** The same, in any order. */
const sameSet = (tab, what, selector, expected) => until(what, async () =>
  (await both(tab, selector)).every((it) => isSame(it.sort(), expected)));

/** Waits until a selector's texts are these, and no others are to be shown. */
const shows = (tab, selector, expected) => until(`${selector} has ${expected}`, async () =>
  isSame(await tab.textOf(selector), expected));

/** What the page shows of the server's front, once that is what both sides have. */
async function frontNames(tab) {
  let front;
  await until("all three have the same", async () => {
    front = await tab.textOf("#server-front .name");
    return front.length > 0 && (await both(tab, ".own-front .name")).every((it) => isSame(it, front));
  });
  return front;
}

/** Waits until an expression holds in the page, which has so many seconds for it. They are its own:
 *  a busy machine that holds the page up takes none of them. Begins at once. */
function within(tab, seconds, expression) {
  const spent = tab.evaluate(`new Promise((resolve) => {
    let [at, spent] = [performance.now(), 0];
    const clock = setInterval(() => {
      const now = performance.now();
      spent += Math.min(now - at, 200);
      at = now;
      if (!(${expression})) return;
      clearInterval(clock);
      resolve(spent / 1000);
    }, 100);
  })`);
  return spent.then((it) => ok(it <= seconds, `${it} s: ${expression}`));
}

/** How many operations a side has stored. */
const storedBy = (tab, document, side) => tab.evaluate(`new Promise((done, failed) => {
  const request = indexedDB.open("jcrdt ${document} ${side}");
  request.onerror = () => failed(request.error);
  request.onsuccess = () => {
    const rows = request.result.transaction("operations").objectStore("operations").count();
    rows.onsuccess = () => { request.result.close(); done(rows.result); };
  };
})`);

async function addItem(tab, side, item) {
  await tab.type(`#${side} .add-item input`, item);
  await tab.press("Enter");
}

async function setTitle(tab, side, title) {
  await tab.evaluate(`document.querySelector("#${side} .title").select()`);
  await tab.focus(`#${side} .title`);
  await tab.insert(title);
  await tab.press("Enter");
}

const shot = async (tab, name) => {
  if (!SHOTS) return;
  await pause(600); // what has just come is marked
  mkdirSync(SHOTS, { recursive: true });
  await tab.shot(`${SHOTS}/${name}.png`);
};

test("apart and together: both edit at once, a conflict is shown and settled", async () => {
  const here = await page();
  const { tab, document } = here;
  for (const item of ["eggs", "cheese"]) await addItem(tab, "ada", item);
  await tab.type("#ada .text", "Dear , how are you?");
  await same(tab, "bob has ada's text", ".text", ["Dear , how are you?"]);
  await same(tab, "bob has ada's items", ".item", ["eggs", "cheese"]);
  for (const side of sides) await tab.click(`#${side} .online`);
  await setTitle(tab, "ada", "Plan");
  await setTitle(tab, "bob", "Trip");
  await addItem(tab, "ada", "milk");
  await addItem(tab, "bob", "bread");
  for (const side of ["ada", "bob", "bob"]) await tab.click(`#${side} .up`);
  await tab.type("#ada .text", "Grace", 5);
  await tab.type("#bob .text", " Fine, I hope.");
  deepEqual(await both(tab, ".title"), [["Plan"], ["Trip"]]);
  for (const state of await tab.textOf(".state")) match(state, /^offline since \d\d:\d\d: it is/);
  for (const side of sides) await tab.click(`#${side} .online`);
  await same(tab, "the text has both", ".text", ["Dear Grace, how are you? Fine, I hope."]);
  await same(tab, "all votes count", ".votes", ["3"]);
  await sameSet(tab, "both items are there", ".item", ["bread", "cheese", "eggs", "milk"]);
  deepEqual(...(await both(tab, ".item"))); // in one order
  await sameSet(tab, "both titles are there", ".field .choice b", ["Plan", "Trip"]);
  await frontNames(tab);
  await shot(tab, "replicas");
  await tab.click("#bob .choice");
  await same(tab, "it is settled", ".choice b", []);
  const [title] = await tab.textOf("#ada .title");
  await same(tab, "both have it", ".title", [title]);
  const client = await sessionOf(here);
  deepEqual(await client.values(document, [0, "title"]), [title]);
  await client.quit();
  deepEqual(tab.faults, []);
});

test("focus, caret, selection and half-typed text stay when others type", async () => {
  const here = await page();
  const { tab, document } = here;
  for (const item of ["eggs", "milk"]) await addItem(tab, "ada", item);
  await same(tab, "bob has them", ".item", ["eggs", "milk"]);
  // An item, while the other side adds one.
  await tab.type("#ada .item", " (12");
  await addItem(tab, "bob", "bread"); // moves the focus: it is put back as it was
  await tab.type("#ada .item", " pcs)");
  equal(await tab.evaluate("document.activeElement.closest('section').id"), "ada");
  const client = await sessionOf(here);
  await client.insert(document, [0, "shopping", 0], "first");
  await until("ada has it", async () => (await tab.textOf("#ada .item")).length === 4);
  equal(await tab.focused(), "ada: item");
  await tab.insert("!");
  await tab.press("Enter");
  await same(tab, "it was stored", ".item", ["first", "eggs (12 pcs)!", "milk", "bread"]);
  // A title, half typed, while another session puts one.
  await tab.focus("#ada .title");
  await tab.insert("My long title being ty");
  await client.assign(document, [0, "title"], "Another's");
  await until("it is said", async () =>
    /Another has put “Another's” here/.test((await tab.textOf("#ada .field .note"))[0]));
  await tab.insert("ped");
  equal((await tab.textOf("#ada .title"))[0], "My long title being typed");
  equal(await tab.focused(), "ada: title");
  await tab.press("Escape");
  equal((await tab.textOf("#ada .title"))[0], "Another's");
  equal((await tab.textOf("#ada .field .note"))[0], "");
  // The caret and a selection of the text.
  await tab.type("#ada .text", "Hello world");
  await same(tab, "both have it", ".text", ["Hello world"]);
  await tab.evaluate(`document.querySelector("#ada .text").setSelectionRange(2, 8, "backward")`);
  for (const character of "😀yM") await client.insert(document, [0, "text", 0], character);
  await same(tab, "all have it", ".text", ["My😀Hello world"]);
  const range = await tab.evaluate(`(() => { const it = document.querySelector("#ada .text");
    return [it.selectionStart, it.selectionEnd, it.selectionDirection]; })()`);
  deepEqual(range, [6, 12, "backward"]);
  await tab.insert("LLO WO");
  await same(tab, "it was replaced", ".text", ["My😀HeLLO WOrld"]);
  await client.quit();
  deepEqual(tab.faults, []);
});

test("what is deleted by another while it is typed into stays, and can be added again", async () => {
  const here = await page();
  const { tab, document } = here;
  for (const item of ["eggs", "milk", "tea"]) await addItem(tab, "ada", item);
  await same(tab, "both have them", ".item", ["eggs", "milk", "tea"]);
  await tab.type("#ada .item", " (12)");
  const client = await sessionOf(here);
  await client.delete(document, [0, "shopping", 1]);
  await until("bob has two", async () => (await tab.textOf("#bob .item")).length === 2);
  equal(await tab.focused(), "ada: item");
  await until("it is said", async () =>
    /Another has deleted this item/.test((await tab.textOf("#ada .items .note")).join("")));
  await tab.press("Enter");
  await same(tab, "it was added again", ".item", ["milk", "tea", "eggs (12)"]);
  await client.quit();
  // By keyboard: the focus goes on to the next one.
  await tab.focus("#ada .remove");
  await tab.press("Enter");
  await same(tab, "it is gone", ".item", ["tea", "eggs (12)"]);
  equal(await tab.focused(), "delete tea");
  deepEqual(tab.faults, []);
}, long);

test("a refused edit is said in words beside its field, and what was typed stays", async () => {
  const { tab } = await page();
  await setTitle(tab, "ada", "é".repeat(3000));
  equal((await tab.textOf("#ada .title"))[0].length, 3000);
  match((await tab.textOf("#ada .field .note"))[0], /^Not stored\. A text has at most 4,096 bytes/);
  equal(await tab.evaluate(`document.querySelector("#ada .title").getAttribute("aria-invalid")`),
    "true");
  equal((await tab.textOf("#bob .title"))[0], "");
  await addItem(tab, "bob", "x".repeat(5000));
  match((await tab.textOf("#bob .add-item .note"))[0], /at most 4,096 bytes/);
  equal((await tab.textOf("#bob .add-item input"))[0].length, 5000);
  await shot(tab, "refused");
  await tab.focus("#ada .title");
  await tab.press("Escape");
  deepEqual(await both(tab, ".title"), [[""], [""]]);
  deepEqual(tab.faults, []);
});

test("an item that is a map, and values of several kinds, aren't replaced silently", async () => {
  const here = await page();
  const { tab, document } = here;
  const client = await sessionOf(here);
  await client.put(document, [0, "shopping"], [{ note: "a note in a map" }, 12, "text", null]);
  const markup = `<img src=x onerror="window.hurt=1">`;
  await client.assign(document, [0, "title"], markup);
  await same(tab, "they are shown", ".item", ["a map", "12", "text", "null"]);
  await same(tab, "markup is text", ".title", [markup]);
  equal(await tab.evaluate("window.hurt ?? 0"), 0);
  await tab.type("#ada .item", "typed");
  await tab.press("Enter");
  match((await tab.textOf("#ada .items .note"))[0], /There is a map, which can't be edited here/);
  await pause(150); // nothing comes of it
  const { note } = (await client.plain(document, [0, "shopping", 1]));
  equal(note, "a note in a map");
  // Nor is one that another puts there while something is typed.
  await tab.focus("#ada .title");
  await tab.insert("half a title");
  await client.put(document, [0, "title"], { inner: 1 });
  const titleNote = async () => (await tab.textOf("#ada .field .note"))[0];
  await until("it is said", async () => /put a map here, which can't be replaced/.test(await titleNote()));
  await tab.press("Enter");
  await until("it isn't stored", async () => /^Not stored\. Another has put a map/.test(await titleNote()));
  match((await tab.textOf("#ada .title"))[0], /half a title/);
  await tab.press("Escape");
  await until("it is shown", async () => (await tab.textOf("#ada .title"))[0] === "a map");
  deepEqual(await client.plain(document, [0, "title"]), { inner: 1 });
  // A scalar beside it: keeping that one deletes what is in the map, so it asks.
  const operation = (await client.operations(document).next()).value;
  ok(operation);
  await client.quit();
  deepEqual(tab.faults, []);
}, long);

test("a wrong ?doc= is said in words", async () => {
  shared ??= sharedParts();
  const { hub, browser } = await shared;
  const tab = await browser.tab(`${hub.page}web/?doc=Trip`);
  await until("it is said", async () =>
    /“Trip” can't be the name of a document/.test((await tab.textOf("#notice"))[0] ?? ""));
  await shot(tab, "wrong-name");
  await tab.go(`${hub.page}web/?doc=none`);
  await until("it is said", async () =>
    (await tab.textOf("#bob .notice")).join("").includes("the server has no document none"));
  await until("both are offline", async () => {
    const states = await tab.textOf(".state");
    return states.length === 2 && states.every((it) => it.startsWith("offline since"));
  });
  await shot(tab, "no-document");
  deepEqual(tab.faults, []);
});

test("what is typed offline is there after a reload, and meets the others later", async () => {
  shared ??= sharedParts();
  const { browser } = await shared;
  const { tab, server, hub } = await ownPage(browser, await browser.profile());
  await tab.type("#ada .text", "one ");
  await same(tab, "both have it", ".text", ["one "]);
  const names = await frontNames(tab);
  const isSaid = within(tab, 10, STATES("offline since"));
  await end(hub);
  await isSaid;
  await tab.type("#ada .text", "offline");
  await tab.type("#bob .text", "also ", 0);
  await startHub(server.address, { web: hub.web }); // the page comes from there too
  await tab.reload();
  await tab.until(ONLINE);
  await same(tab, "both have all", ".text", ["also one offline"]);
  equal(names.length, 1);
  equal((await frontNames(tab)).length, 2); // bob's, and none is new
  // And with no hub at all: the page was loaded before, and is offline.
  await tab.click("#ada .online");
  await tab.type("#ada .text", "!");
  await tab.reload();
  await tab.until(ONLINE);
  await same(tab, "both have it", ".text", ["also one offline!"]);
  deepEqual(tab.faults, []);
});

test("a page with edits that aren't stored asks not to be left, and is left once they are", async () => {
  const { tab } = await page();
  await addItem(tab, "ada", "stored");
  await same(tab, "both have it", ".item", ["stored"]);
  await tab.reload();
  await tab.until(ONLINE);
  // The store doesn't end before the page has asked: the transaction goes on.
  await tab.type("#ada .add-item input", "late");
  await tab.evaluate(`{ const { transaction } = IDBDatabase.prototype;
    let hasAsked = false;
    addEventListener("beforeunload", () => (hasAsked = true));
    IDBDatabase.prototype.transaction = function (...words) {
      const made = transaction.apply(this, words);
      const store = made.objectStore("about");
      const again = () => { if (!hasAsked) store.get("document").onsuccess = again; };
      if (words[1] === "readwrite") again();
      return made;
    }; }`);
  await tab.press("Enter");
  const { asked } = tab;
  await tab.reload();
  ok(tab.asked > asked, "it wasn't asked");
  await tab.until(ONLINE);
  await same(tab, "both have it", ".item", ["stored", "late"]);
  deepEqual(tab.faults, []);
}, long);

test("two tabs: each has its replica, and sees what the other stored; nothing of a closed one is lost", async () => {
  const { tab, browser, profile, url } = await page();
  const second = await browser.tab(url, { profile });
  await second.until(ONLINE);
  const nameOf = (it) => it.evaluate(`document.querySelector("#ada h2").title`);
  ok((await nameOf(tab)) !== (await nameOf(second)));
  for (const it of [tab, second]) await it.click("#ada .online");
  await setTitle(second, "ada", "offline in the second tab");
  await until("the first one has it", async () =>
    (await tab.textOf("#ada .title"))[0] === "offline in the second tab");
  equal((await tab.textOf("#bob .title"))[0], ""); // nobody has sent it
  await addItem(second, "ada", "from the second tab");
  await shows(tab, "#ada .item", ["from the second tab"]); // it is stored
  await second.close();
  await tab.reload();
  await tab.until(ONLINE);
  await same(tab, "it was sent", ".title", ["offline in the second tab"]);
  await same(tab, "all of it", ".item", ["from the second tab"]);
  deepEqual(tab.faults, []);
  // Names are used again: five visits are no ten replicas.
  for (let visit = 0; visit < 5; visit++) {
    await setTitle(tab, "ada", `visit ${visit}`);
    await same(tab, "both have it", ".title", [`visit ${visit}`]);
    await tab.reload();
    await tab.until(ONLINE);
  }
  ok((await frontNames(tab)).length <= 4);
}, long);

test("screenshots at 320, 768 and 1300 wide: nothing is cut off", async () => {
  const here = await page();
  const { tab, document } = here;
  const client = await sessionOf(here);
  const long = "Donaudampfschifffahrtsgesellschaftskapitaen".repeat(3);
  await client.put(document, [0, "shopping"], ["eggs", long]);
  await client.quit();
  await same(tab, "both have them", ".item", ["eggs", long]);
  for (const side of sides) await tab.click(`#${side} .online`);
  await setTitle(tab, "ada", long);
  await setTitle(tab, "bob", "Trip");
  await tab.type("#bob .item", " (12)");
  await tab.press("Enter");
  await tab.type("#ada .item", " and ham");
  await tab.press("Enter");
  await tab.type("#ada .text", `Dear ${long}`);
  for (const side of sides) await tab.click(`#${side} .online`);
  await until("conflicts", async () => (await both(tab, ".choice")).every((it) => it.length === 4))
    .catch(async (error) => { await shot(tab, "failed"); throw error; });
  await setTitle(tab, "ada", "é".repeat(3000)); // refused
  for (const width of [320, 768, 1300]) {
    await tab.size(width, 900);
    let seen;
    await until("nothing is cut off", async () => {
      seen = await tab.evaluate(`[innerWidth, document.documentElement.scrollWidth,
        [...document.querySelectorAll("main :is(button, input, textarea, output, .name, .choice, .note)")]
          .filter((it) => it.checkVisibility() && it.getBoundingClientRect().right > innerWidth + 1)
          .map((it) => it.className)]`);
      return seen[0] === width && seen[1] <= width && seen[2].length === 0;
    }, 30).catch(({ message }) => { throw new Error(`${message} at ${width}: ${JSON.stringify(seen)}`); });
    await shot(tab, `width-${width}`);
  }
  deepEqual(tab.faults, []);
}, long);

test("by keyboard alone", async () => {
  const { tab } = await page();
  const seen = [];
  const to = async (label) => {
    for (let count = 0; count < 40; count++) {
      if ((await tab.focused()) === label) return;
      await tab.press("Tab");
      const outline = await tab.evaluate(`(() => { const it = document.activeElement;
        const shown = it.matches(".online") ? it.nextElementSibling : it;
        return it === document.body ? "body" : getComputedStyle(shown).outlineStyle; })()`);
      if (outline !== "body") seen.push([await tab.focused(), outline]);
    }
    throw new Error(`no way by Tab to ${label}: ${JSON.stringify(seen.slice(-40))}`);
  };
  await to("ada: title");
  await tab.insert("By keyboard");
  await tab.press("Enter");
  await same(tab, "the title", ".title", ["By keyboard"]);
  await to("ada: new item");
  for (const item of ["eggs", "tea"]) {
    await tab.insert(item);
    await tab.press("Enter");
  }
  await same(tab, "the items", ".item", ["eggs", "tea"]);
  await to("ada: votes: one more");
  await tab.press(" ");
  await same(tab, "the votes", ".votes", ["1"]);
  await to("ada: text");
  for (const text of ["Hello", " world"]) await tab.insert(text);
  await tab.press("z", 2);
  await same(tab, "the text", ".text", ["Hello"]);
  await to("bob: undo");
  await to("bob: online");
  await tab.press(" ");
  await until("bob is offline", async () => (await tab.textOf("#bob .state"))[0].startsWith("off"));
  await to("New replicas");
  await to("ada: undo");
  await tab.press("Enter"); // the text's own step was the last but one
  await to("delete eggs");
  await tab.press("Enter");
  equal(await tab.focused(), "delete tea");
  deepEqual(seen.filter(([, outline]) => outline === "none"), []);
  deepEqual(tab.faults, []);
}, long);

test("what a screen reader hears: each part has a name of its own, errors are live", async () => {
  const { tab } = await page();
  for (const item of ["eggs", "tea"]) await addItem(tab, "ada", item);
  await same(tab, "both have them", ".item", ["eggs", "tea"]);
  await tab.send("Accessibility.enable");
  const all = ["region Ada", "region Bob", "region Server", "switch ada: online",
    "switch bob: online", "textbox ada: title", "textbox bob: text", "button delete eggs",
    "button bob: undo"];
  let named = [];
  await until("all are named", async () => {
    const { nodes } = await tab.send("Accessibility.getFullAXTree");
    named = nodes.filter(({ ignored }) => !ignored)
      .map(({ role, name }) => `${role?.value} ${name?.value ?? ""}`.trim());
    return all.every((due) => named.includes(due));
  }).catch(({ message }) => { throw new Error(`${message}: ${named}`); });
  const controls = named.filter((it) => /^(switch|textbox) /.test(it) && !it.endsWith(": item"));
  equal(new Set(controls).size, controls.length);
  equal(named.filter((it) => /^(switch|textbox|button)$/.test(it)).length, 0); // without a name
  ok((await tab.evaluate(`document.querySelectorAll("[role=alert], [role=status]").length`)) > 8);
}, long);

test("a hub that is frozen: it isn't called online, and all arrives later", async () => {
  shared ??= sharedParts();
  const { browser } = await shared;
  const { tab, hub } = await ownPage(browser, await browser.profile());
  const isSaid = within(tab, 10, STATES("doesn't reply"));
  process.kill(hub.child.pid, "SIGSTOP");
  await addItem(tab, "ada", "while it is frozen");
  await isSaid;
  await shot(tab, "frozen");
  deepEqual(await both(tab, ".item"), [["while it is frozen"], []]);
  process.kill(hub.child.pid, "SIGCONT");
  await same(tab, "bob has it", ".item", ["while it is frozen"]);
  await tab.until(ONLINE);
  deepEqual(tab.faults, []);
});

/** Pastes a text into ada's field, and answers the question that follows. */
async function paste(tab, text, answer) {
  await tab.evaluate(`{ const field = document.querySelector("#ada .text");
    field.focus();
    const end = field.value.length;
    field.setRangeText(${JSON.stringify(text)}, end, end, "end");
    field.dispatchEvent(new Event("input")); }`);
  await until("it asks", () => tab.evaluate(`document.querySelector("#question").open`));
  const [words] = await tab.textOf("#question p");
  await tab.evaluate(`[...document.querySelectorAll("#question button")]
    .find((it) => it.textContent === ${JSON.stringify(answer)}).click()`);
  return words;
}

// More than localStorage held, and a third of what a document takes: JCRDT_SLOW=1 pastes so many.
const LINES = process.env.JCRDT_SLOW ? 1800 : 150;
const SLOW_SECONDS = 1500; // for the browser at one processor of many

test(`${LINES * 20} characters pasted offline: all are there after a reload, and reach everybody`, async (context) => {
  const here = await page();
  const { tab, url, browser, document } = here;
  await tab.type("#ada .text", "short");
  const words = await paste(tab, "x".repeat(3000), "Don't insert");
  match(words, /^This text has 3,000 characters\. Each is one of the 100,000 changes/);
  await same(tab, "neither has more", ".text", ["short"]);
  await tab.click("#ada .online");
  const long = Array.from({ length: LINES }, (_, at) => `${at}: `.padEnd(19, "abcdefghi")).join("\n");
  const [pasted, due] = [`${long}\n`, `short${long}\n`];
  await paste(tab, pasted, "Insert");
  await until("it is stored", async () => (await storedBy(tab, document, "ada")) === due.length, 300);
  deepEqual(await tab.textOf("#ada .notice"), [""]);
  await tab.click("#ada .online"); // not online before the reload: it has to send all
  await tab.reload();
  await until("ada's text is there again", async () => (await tab.textOf("#ada .text"))[0] === due, 120);
  // Bob sees it grow, in the order in which it was typed, and then has all of it.
  let [seen, parts] = ["", 0];
  await until("bob has it", async () => {
    const [text = ""] = await tab.textOf("#bob .text");
    ok(due.startsWith(text) && text.startsWith(seen), `${text.length} behind ${seen.length}`);
    if (text !== seen) parts++;
    seen = text;
    await pause(150); // reading a long text takes the page's time
    return text === due;
  }, SLOW_SECONDS).catch((error) => { throw new Error(`${error.message}, but ${seen.length}`); });
  context.diagnostic(`${due.length} characters came in ${parts} parts or more`);
  await tab.until(ONLINE, SLOW_SECONDS);
  const client = await sessionOf(here);
  equal((await client.items(document, [0, "text"])).map(([, [it]]) => it).join(""), due);
  await client.quit();
  await until("both have stored all", async () =>
    (await Promise.all(sides.map((side) => storedBy(tab, document, side))))
      .every((count) => count === due.length), 300);
  // Another browser opens it: what isn't all there isn't called online.
  const fresh = await browser.tab(url, { profile: await browser.profile() });
  await until("it has all once it is online", async () => {
    const [state, text] = await fresh.evaluate(`[document.querySelector("#ada")?.dataset.state,
      document.querySelector("#ada .text")?.value]`);
    if (state !== "online") return false;
    await until("it is shown", async () => (await fresh.textOf("#ada .text"))[0] === due, 60);
    return text !== undefined;
  }, SLOW_SECONDS);
  await shot(fresh, "long-text");
  deepEqual([...tab.faults, ...fresh.faults], []);
}, long, 3 * SLOW_SECONDS);

test("a full store: what is there is kept, it is said, and edits go on once there is room", async () => {
  const { tab, browser, profile, document } = await page({ quota: 300_000 });
  await addItem(tab, "ada", "stored");
  await same(tab, "both have it", ".item", ["stored"]);
  await tab.click("#ada .online");
  const origin = await tab.evaluate("location.origin");
  await paste(tab, "z".repeat(2500), "Insert");
  const notice = () => tab.textOf("#ada .notice").then(([text]) => text);
  await until("it is said", async () => /^2500 changes aren't stored: the store is full/.test(await notice()));
  // Copies of the page's files don't take what room there is.
  await tab.until(`caches.open("jcrdt").then((it) => it.keys()).then(({ length }) => length === 0)`);
  await addItem(tab, "ada", "refused");
  match((await tab.textOf("#ada .add-item .note"))[0], /Nothing more can be edited until they are/);
  deepEqual(await tab.textOf("#ada .item"), ["stored"]);
  equal(await storedBy(tab, document, "ada"), 1); // what was there is kept
  equal((await tab.textOf("#ada .add-item input"))[0], "refused");
  await shot(tab, "full-store");
  // What can be saved: all of it, as a file.
  const folder = room();
  const place = { behavior: "allow", downloadPath: folder, browserContextId: profile };
  await browser.send("Browser.setDownloadBehavior", place);
  await tab.click("#ada .notice button");
  const saved = await until("it is saved", () => readdirSync(folder).find((it) => /\.jcrdt$/.test(it)));
  const countOf = (file) => readFileSync(file, "utf8").trimEnd().split("\n").length;
  await until("all is in it", () => countOf(`${folder}/${saved}`) === 1 + 1 + 2500);
  // Room again: all is stored by itself.
  await tab.send("Storage.overrideQuotaForOrigin", { origin });
  await until("it is stored", async () => (await notice()) === "");
  await tab.press("Enter");
  await shows(tab, "#ada .item", ["stored", "refused"]); // edits go on
  await until("all is stored", async () => (await storedBy(tab, document, "ada")) === 1 + 2500 + 1);
  await tab.reload();
  await tab.until(ONLINE, SLOW_SECONDS);
  // Items and text are shown each in its time.
  await same(tab, "all of it is there", ".item", ["stored", "refused"], SLOW_SECONDS);
  await same(tab, "the text, too", ".text", ["z".repeat(2500)]);
  deepEqual(tab.faults, []);
}, long, 2 * SLOW_SECONDS);

test("New replicas: what no server has is asked for first", async () => {
  const { tab } = await page();
  await setTitle(tab, "ada", "at the server");
  await same(tab, "both have it", ".title", ["at the server"]);
  await frontNames(tab);
  await tab.until(`document.querySelector("#travels .from-ada.to-server")`); // ada has the reply
  const name = await tab.evaluate(`document.querySelector("#ada h2").title`);
  await tab.click("#ada .online");
  await addItem(tab, "ada", "nowhere else");
  await shows(tab, "#ada .item", ["nowhere else"]);
  const forget = async (answer) => {
    await tab.click("#forget");
    await until("it asks", () => tab.evaluate(`document.querySelector("#question").open`));
    equal((await tab.textOf("#question p"))[0],
      "1 change of this browser may be at no server, and would be lost.");
    if (answer) await tab.evaluate(`[...document.querySelectorAll("#question button")]
      .find((it) => it.textContent === "${answer}").click()`);
    else await tab.press("Escape");
  };
  await forget("Keep them");
  await forget(undefined);
  await pause(150); // nothing is lost
  await shot(tab, "kept");
  deepEqual(await tab.textOf("#ada .item"), ["nowhere else"]);
  await forget("Lose them");
  await tab.until(`document.querySelector("#ada h2")?.title !== "${name}"`);
  await tab.until(ONLINE);
  await same(tab, "the server's is there", ".title", ["at the server"]);
  deepEqual(await both(tab, ".item"), [[], []]);
  // Nothing would be lost now: it doesn't ask.
  const next = await tab.evaluate(`document.querySelector("#ada h2").title`);
  await tab.click("#forget");
  await tab.until(`document.querySelector("#ada h2")?.title !== "${next}"`);
  deepEqual(tab.faults, []);
}, long);

test("a store with a row that can't be read: the others are used, and it can be saved", async () => {
  const { tab, document } = await page();
  for (const item of ["one", "two"]) await addItem(tab, "ada", item);
  await same(tab, "both have them", ".item", ["one", "two"]);
  equal(await storedBy(tab, document, "ada"), 2); // before they were sent
  await tab.evaluate(`new Promise((done) => {
    const request = indexedDB.open("jcrdt ${document} ada");
    request.onsuccess = () => {
      const transaction = request.result.transaction("operations", "readwrite");
      transaction.objectStore("operations").put("scrambled", ["zoe", 1]);
      transaction.oncomplete = done;
    };
  })`);
  await tab.reload();
  await tab.until(ONLINE);
  match((await tab.textOf("#ada .notice"))[0], /^1 of 3 stored lines couldn't be read or used/);
  await same(tab, "the others are there", ".item", ["one", "two"]);
  deepEqual(tab.faults, []);
}, long);

test("a browser that is killed: what was edited is there", async () => {
  const server = await startServer(["page"]);
  const hub = await startHub(server.address);
  const first = await Browser.open();
  const tab = await first.tab(hub.page);
  await tab.until(ONLINE);
  for (const item of ["one", "two"]) await addItem(tab, "ada", item);
  await same(tab, "both have them", ".item", ["one", "two"]);
  const { length } = await frontNames(tab);
  await tab.click("#ada .online");
  const count = await storedBy(tab, "page", "ada");
  await addItem(tab, "ada", "three");
  await until("it is stored", async () => (await storedBy(tab, "page", "ada")) === count + 1);
  first.kill();
  await first.ended;
  const second = await Browser.open({ folder: first.folder });
  try {
    const again = await second.tab(hub.page);
    await again.until(ONLINE);
    await same(again, "all are there", ".item", ["one", "two", "three"]);
    equal((await frontNames(again)).length, length); // under the old names
    deepEqual(await again.textOf(".notice"), ["", "", ""]);
  } finally {
    await second.close();
  }
}, long);

test("replicas of others that have one word for a name are told apart", async () => {
  const { server, tab, document } = await page();
  await setTitle(tab, "ada", "of this page");
  await frontNames(tab); // the server has it: the others replace it
  const others = await Promise.all(["ada", "ada", "replica", "replica"].map((word) =>
    Provider.open({ document, at: server.address, word })));
  try {
    await Promise.all(others.map((other) => other.synced(60)));
    for (const { replica } of others) replica.assign([0, "title"], "of another");
    await Promise.all(others.map((other) => other.synced(60)));
    const labels = () => tab.textOf("#server-front .name");
    await until("all are there", async () => (await labels()).length === 5);
    const shown = (await labels()).map((label) => label.replace(/ \d+$/, ""));
    equal(new Set(shown).size, 5, shown.join(", "));
    // The side of this page has its own name and colour, and nobody else has.
    deepEqual(shown.filter((label) => !/^(ada|replica)·[a-z2-7]{3,}$/.test(label)), ["ada"]);
    deepEqual(await tab.textOf("#server-front .name.ada"), ["ada 1"]);
    await until("in the fields, too", async () =>
      (await both(tab, ".field .choice .name")).every((it) => it.length === 4));
    const choices = await tab.textOf("#ada .field .choice .name");
    equal(new Set(choices).size, 4, choices.join(", "));
  } finally {
    await Promise.all(others.map((other) => other.close()));
  }
}, long);

test("the text pad: two browsers type into one text", async () => {
  shared ??= sharedParts();
  const { hub, browser } = await shared;
  const url = `${hub.page}web/pad.html?doc=d${count++}`;
  const [ada, bob] = await Promise.all([0, 1].map(async () =>
    browser.tab(url, { profile: await browser.profile() })));
  for (const tab of [ada, bob]) await tab.until(`document.querySelector("#state").textContent === "online "`);
  const textOf = async (tab) => (await tab.textOf("#text"))[0];
  const both = (text) => until(`both have ${text}`, async () =>
    (await textOf(ada)) === text && (await textOf(bob)) === text);
  await ada.type("#text", "Hello 😀");
  await both("Hello 😀");
  await bob.type("#text", "Dear ", 0);
  await ada.insert("!");
  await both("Dear Hello 😀!");
  await ada.press("z", 2);
  await both("Dear Hello 😀"); // it was stored before it was sent
  await ada.reload();
  await both("Dear Hello 😀");
  deepEqual([...ada.faults, ...bob.faults], []);
});

/** A tab with the pad, in which a script runs before those of the page. */
async function padTab(url, script) {
  shared ??= sharedParts();
  const { browser } = await shared;
  const tab = await browser.tab("about:blank", { profile: await browser.profile() });
  await tab.send("Page.addScriptToEvaluateOnNewDocument", { source: script });
  await tab.send("Page.navigate", { url });
  await tab.until(`document.querySelector("#text")`);
  return tab;
}

// A server has 16 documents, so the pads have one of their own.
let pads;
let padCount = 0;
async function padParts() {
  const documents = Array.from({ length: 16 }, (_, at) => `p${at}`);
  return startHub((await startServer(documents)).address);
}
async function padUrl() {
  await (shared ??= sharedParts());
  return `${(await (pads ??= padParts())).page}web/pad.html?doc=p${padCount++}`;
}
const isReadOnly = `document.querySelector("#text").readOnly`;
const PAD_ONLINE = `document.querySelector("#state").textContent === "online "`;

test("the text pad takes no keys before its store is open, and loses none", async () => {
  const held = `const { request } = LockManager.prototype;
    const opened = new Promise((resolve) => (window.openStore = resolve));
    LockManager.prototype.request = function (...items) {
      return opened.then(() => request.apply(this, items));
    };`;
  const tab = await padTab(await padUrl(), held);
  equal(await tab.evaluate(isReadOnly), true);
  await tab.type("#text", "typed early");
  deepEqual(await tab.textOf("#text"), [""]); // it isn't taken, so nothing is lost
  await tab.evaluate("openStore()");
  await tab.until(`${PAD_ONLINE} && !${isReadOnly}`);
  await tab.type("#text", "typed now");
  await tab.until(`document.querySelector("#text").value === "typed now"`);
  await tab.reload();
  await tab.until("window.openStore");
  await tab.evaluate("openStore()");
  await tab.until(`document.querySelector("#text").value === "typed now"`);
  deepEqual(tab.faults, []);
}, long);

/** Of each caret that a pad shows: its name, and the text before it, as where the browser draws it
 *  says. */
const CARETS = `[...document.querySelectorAll("#paper .caret")].map((mark) => {
  const layer = mark.parentElement;
  const text = layer.firstChild;
  const box = mark.getBoundingClientRect();
  const range = document.createRange();
  let at = 0;
  for (; at <= text.length; at++) {
    range.setStart(text, at);
    range.collapse(true);
    const { left } = range.getBoundingClientRect();
    if (Math.abs(left - box.left) < 1) break;
  }
  return mark.textContent + ": " + text.data.slice(0, at);
})`;

test("the text pad shows who is here, and their carets, which move with the text", async () => {
  const url = await padUrl();
  const { browser } = await (shared ??= sharedParts());
  const [ada, bob] = await Promise.all([0, 1].map(async () =>
    browser.tab(url, { profile: await browser.profile() })));
  for (const tab of [ada, bob]) await tab.until(PAD_ONLINE);
  await ada.type("#name", "Ada");
  await bob.until(`document.querySelector("#here").textContent === "Here: Ada"`);
  await ada.type("#text", "Hello world");
  await bob.until(`document.querySelector("#text").value === "Hello world"`);
  await ada.evaluate(`document.querySelector("#text").setSelectionRange(5, 5)`);
  const shows = (tab, carets) => tab.until(`JSON.stringify(${CARETS}) === ${JSON.stringify(JSON.stringify(carets))}`);
  await shows(bob, ["Ada: Hello"]);
  await bob.type("#text", "Oh, ", 0);
  await shows(bob, ["Ada: Oh, Hello"]);
  await ada.reload();
  await ada.until(PAD_ONLINE);
  await bob.until(`document.querySelector("#here").textContent === "Here: Ada"`); // it is recalled
  await ada.send("Page.navigate", { url: "about:blank" });
  await bob.until(`document.querySelector("#here").textContent === ""`);
  await shows(bob, []);
  deepEqual([...ada.faults, ...bob.faults], []);
}, long);

test("the text pad says that it loads, and how much has come", async () => {
  const url = await padUrl();
  const { browser } = await (shared ??= sharedParts());
  const held = `const { receive } = window; const said = (window.said = []);
    new MutationObserver(() => said.push(document.querySelector("#state")?.textContent))
      .observe(document, { childList: true, subtree: true, characterData: true });`;
  const writer = await browser.tab(url, { profile: await browser.profile() });
  await writer.until(PAD_ONLINE);
  await writer.type("#text", "x".repeat(1500));
  await writer.until(`document.querySelector("#text").value.length === 1500`);
  const reader = await padTab(url, held);
  await reader.until(`document.querySelector("#text").value.length === 1500`);
  const said = (await reader.evaluate("said")).filter((it, at, all) => it && it !== all[at - 1]);
  equal(said[0], "loading");
  ok(said.some((it) => /^loading: \d+ changes have come$/.test(it)), `${said}`);
  equal(said.at(-1), "online ");
}, long);

test("a browser without IndexedDB: the text pad goes on in memory, and says so", async () => {
  const url = await padUrl();
  const none = `Object.defineProperty(window, "indexedDB", { get() {} });`;
  const tab = await padTab(url, none);
  await tab.until(PAD_ONLINE);
  const [problem] = await tab.textOf("#problem");
  match(problem, /^Nothing can be stored here \(this browser has no IndexedDB here\)\. .*is lost when/);
  await tab.type("#text", "at the server");
  const { browser } = await shared;
  const other = await browser.tab(url, { profile: await browser.profile() });
  await other.until(`document.querySelector("#text").value === "at the server"`);
  deepEqual([await other.textOf("#problem"), tab.faults, other.faults], [[""], [], []]);
}, long);

test("a text pad that may only read takes no keys, and shows what others type", async () => {
  const { browser } = await (shared ??= sharedParts());
  const server = await startServer(["page"]);
  const file = `${room()}/admit.mjs`;
  writeFileSync(file, "export const admit = () => ({ read: true });");
  const readers = await startHub(server.address, { more: ["--admit", file] });
  const writers = await startHub(server.address);
  const [reader, writer] = await Promise.all([readers, writers].map((hub) =>
    browser.tab(`${hub.page}web/pad.html`)));
  for (const tab of [reader, writer]) await tab.until(PAD_ONLINE);
  await reader.until(isReadOnly);
  equal(await writer.evaluate(isReadOnly), false);
  await reader.type("#text", "not taken");
  await writer.type("#text", "Hello");
  await reader.until(`document.querySelector("#text").value === "Hello"`);
});

/** Assigns a value at the page's document, in a session of its own. */
async function assign(address, value) {
  const client = await connected(address, { seconds: 300 });
  await client.open("page");
  await client.assign("page", [0, "k"], value);
  await client.quit();
}

/** Copies what a server that has ended left. */
function copied(from, to) {
  for (const it of ["", "-wal", "-shm"]) {
    rmSync(`${to}/test.db${it}`, { force: true });
    if (existsSync(`${from}/test.db${it}`)) copyFileSync(`${from}/test.db${it}`, `${to}/test.db${it}`);
  }
}

test("a server whose older file is put back: the text pad says so, and makes its changes again", async () => {
  const { browser } = await (shared ??= sharedParts());
  const [folder, backup, more] = [room(), room(), ["--durable"]];
  let server = await startServer(["page"], { folder, more });
  const { address } = server;
  const startAgain = async () => (server = await startServer(["page"], { folder, address, more }));
  await assign(address, "first");
  await end(server);
  copied(folder, backup);
  await startAgain();
  await assign(address, "seen");
  const hub = await startHub(address);
  const tab = await browser.tab(`${hub.page}web/pad.html`);
  await tab.until(PAD_ONLINE);
  await tab.type("#text", "Hello");
  const shown = async () => {
    const client = await connected(address, { seconds: 300 });
    await client.open("page");
    const found = await client.plain("page", [0]);
    await client.quit();
    return { k: found.k, text: (found.text ?? []).join("") };
  };
  await until("it is at the server", async () => (await shown()).text === "Hello");
  await end(server);
  copied(backup, folder);
  await startAgain();
  await assign(address, "another");
  await tab.until(`document.querySelector("#problem").textContent.includes("other operations of srv-2")`);
  deepEqual(await shown(), { k: "another", text: "" });
  await tab.evaluate(`[...document.querySelectorAll("#problem button")]
    .find((it) => it.textContent === "Make them again").click()`);
  await tab.until(PAD_ONLINE);
  await until("its changes are there", async () => (await shown()).text === "Hello");
  deepEqual(await shown(), { k: "another", text: "Hello" });
}, long);

test("behind a proxy with TLS, below a path", async (context) => {
  const folder = room();
  execFileSync("openssl", ["req", "-x509", "-newkey", "ec", "-pkeyopt", "ec_paramgen_curve:P-256",
    "-nodes", "-days", "2", "-subj", "/CN=localhost", "-keyout", `${folder}/key.pem`,
    "-out", `${folder}/cert.pem`], { stdio: "ignore" });
  const [key, cert] = ["key", "cert"].map((it) => readFileSync(`${folder}/${it}.pem`));
  const proxy = https.createServer({ key, cert }).listen(0, "127.0.0.1");
  context.after(() => {
    proxy.close();
    proxy.closeAllConnections();
  });
  await new Promise((listens) => proxy.on("listening", listens));
  const origin = `https://localhost:${proxy.address().port}`;
  const server = await startServer(["page"]);
  const hub = await startHub(server.address, { more: ["--origin", origin] });
  const { hostname, port } = new URL(hub.page);
  const inner = (path) => path.replace(/^\/notes/, "");
  proxy.on("request", ({ url, method, headers }, response) => {
    http.get({ hostname, port, path: inner(url), method, headers }, (reply) => {
      response.writeHead(reply.statusCode, reply.headers);
      reply.pipe(response);
    });
  });
  proxy.on("upgrade", ({ url, rawHeaders }, socket, head) => {
    const up = net.connect(port, hostname, () => {
      const lines = rawHeaders.reduce((text, it, at) => text + it + (at % 2 ? "\r\n" : ": "), "");
      up.write(`GET ${inner(url)} HTTP/1.1\r\n${lines}\r\n`);
      up.write(head);
      socket.pipe(up).pipe(socket);
    });
    for (const it of [up, socket]) it.on("error", () => {});
  });
  shared ??= sharedParts();
  const { browser } = await shared;
  await browser.send("Security.setIgnoreCertificateErrors", { ignore: true }).catch(() => {});
  const tab = await browser.tab("about:blank", { profile: await browser.profile() });
  await tab.send("Security.setIgnoreCertificateErrors", { ignore: true });
  await tab.go(`${origin}/notes/web/`);
  await tab.until(ONLINE);
  await setTitle(tab, "ada", "by TLS");
  await same(tab, "both have it", ".title", ["by TLS"]);
  deepEqual(tab.faults, []);
});

test("by plain http from another machine, where there are no locks", async () => {
  const address = Object.values(networkInterfaces()).flat()
    .find(({ family, internal }) => family === "IPv4" && !internal)?.address;
  const server = await startServer(["page"]);
  const at = address ?? "127.0.0.1";
  const hub = await startHub(server.address, { web: `${at}:0`, more: [] });
  shared ??= sharedParts();
  const { browser } = await shared;
  const profile = await browser.profile();
  const tab = await browser.tab(hub.page, { profile });
  await tab.until(ONLINE);
  if (address) equal(await tab.evaluate("navigator.locks === undefined"), true);
  // The first one is held up again and again while the second begins: it answers late.
  await tab.evaluate(`window.holding = setInterval(() => {
    for (const end = Date.now() + 400; Date.now() < end; );
  }, 420)`);
  const second = await browser.tab(hub.page, { profile });
  await second.until(ONLINE);
  await tab.evaluate("clearInterval(window.holding)");
  const nameOf = (it) => it.evaluate(`document.querySelector("#ada h2").title`);
  ok((await nameOf(tab)) !== (await nameOf(second)));
  await second.close();
  for (let visit = 0; visit < 3; visit++) {
    await setTitle(tab, "ada", `visit ${visit}`);
    await same(tab, "both have it", ".title", [`visit ${visit}`]);
    await tab.reload();
    await tab.until(ONLINE);
  }
  await tab.click("#ada .online");
  await setTitle(tab, "ada", "an offline edit");
  await tab.reload();
  await tab.until(ONLINE);
  await same(tab, "it is there", ".title", ["an offline edit"]);
  ok((await frontNames(tab)).length <= 2);
  deepEqual(tab.faults, []);
}, long);
