/* Windows of /web/pad.html, each in a browser of its own or a further tab, for tests/page-programs and tests/example-stores. It reads
   commands, a line of JSON each, and answers each by a line.

     node tests/page-programs-pad.mjs CLONE

     ["open",WINDOW,FOLDER,URL]     the page is open, and can be typed into
     ["tab",WINDOW,OTHER,URL]       the page is open in a further tab of that window's browser, and goes by OTHER
     ["type",WINDOW,WORD,AT]        types WORD at one of the places between words: AT is 0 to 1; true once it is stored
     ["text",WINDOW]                the text
     ["state",WINDOW]               the state and the problems that the page shows, and what was thrown
     ["kill",WINDOW]                ends the browser by SIGKILL */

import { readdirSync, rmSync } from "node:fs";
import { join } from "node:path";
import { createInterface } from "node:readline";

const [clone] = process.argv.slice(2);
const { Browser, until } = await import(`${clone}/clients/js/test/chromium.mjs`);
const windows = new Map();

/** Chooses a place behind a word, and puts the caret there. */
const CARET = (at) => `(() => { const field = document.querySelector("#text");
  const places = [0, ...[...field.value.matchAll(/;/g)].map((it) => it.index + 1)];
  const place = places[Math.floor(${at} * places.length)];
  field.focus(); field.setSelectionRange(place, place); return !field.readOnly; })()`;

/** Whether the page may be left, as a browser asks it: so all that was typed is stored. */
const IS_STORED = `(() => { const leaving = new Event("beforeunload", { cancelable: true });
  dispatchEvent(leaving); return !leaving.defaultPrevented; })()`;

/** Opens the page in a tab of a browser. */
async function shown(name, browser, url) {
  const tab = await browser.tab("about:blank");
  windows.set(name, { browser, tab });
  await until("the hub gives the page", () => tab.go(url, 20).then(() => tab.evaluate(`!!document.querySelector("#text")`), () => false));
  await tab.until(`!document.querySelector("#text").readOnly`);
  return true;
}

const commands = {
  async open(name, folder, url) {
    // What a browser that was killed, or is a copy, leaves as a lock.
    for (const it of readdirSync(folder)) if (it.startsWith("Singleton")) rmSync(join(folder, it));
    const browser = await Browser.open({ folder });
    return shown(name, browser, url);
  },
  tab: (name, other, url) => shown(other, windows.get(name).browser, url),
  async type(name, word, at) {
    const { tab } = windows.get(name);
    if (!await tab.evaluate(CARET(at))) return false;
    await tab.insert(word);
    return until(`${word} is stored`, () => tab.evaluate(IS_STORED));
  },
  text: (name) => windows.get(name).tab.evaluate(`document.querySelector("#text").value`),
  async state(name) {
    const { tab } = windows.get(name);
    return [...await tab.textOf("#state"), ...await tab.textOf("#problem"), ...tab.faults];
  },
  async kill(name) {
    const { browser } = windows.get(name);
    browser.kill();
    await browser.ended;
    return true;
  },
};

for await (const line of createInterface({ input: process.stdin })) {
  const [word, ...rest] = JSON.parse(line);
  const value = await commands[word](...rest).then((is) => ({ is }), (error) => ({ error: String(error) }));
  console.log(JSON.stringify(value));
}
for (const { browser } of windows.values()) browser.kill();
process.exit();
