/* The module in each browser that Debian has, in a page and in a worker: it does there what it does in
   Node, goes on behind an exhausted stack, and says so where the page's policy forbids it. */

import { deepEqual, equal, match, ok } from "node:assert/strict";
import { existsSync, readFileSync } from "node:fs";
import http from "node:http";
import { test } from "node:test";
import { BROWSERS, lacks, opened } from "./browsers.mjs";
import { typed } from "./typed.mjs";

const SECONDS = 300; // until a browser has told all
const PACKAGE = new URL("..", import.meta.url);
const MODULE = [new URL("jcrdt.wasm", PACKAGE), new URL("../../release/jcrdt.wasm", PACKAGE)].find((it) => existsSync(it));
const TYPES = { html: "text/html", mjs: "text/javascript", wasm: "application/wasm" };
const POLICY = "default-src 'none'; connect-src 'self'; worker-src 'self'; script-src 'self'";

const TOLD = `
  export async function tell(place, work) {
    const said = await work().then((lines) => ({ lines }), ({ message }) => ({ message }));
    await fetch("/told", { method: "POST", body: JSON.stringify([place, said]) });
  }`;
const BEGIN = (/** @type {string} */ place) => `
  import { tell } from "/tell.mjs";
  import { typed } from "/js/test/typed.mjs";
  tell("${place}", () => typed("${place}"));`;
/** @type {Record<string, string>} */
const TEXTS = {
  "/index.html": '<!doctype html><title>jcrdt</title><script type="module" src="/page.mjs"></script>',
  "/page.mjs": `${BEGIN("page")}\n new Worker("/worker.mjs", { type: "module" });`,
  "/worker.mjs": BEGIN("worker"), "/tell.mjs": TOLD,
};

/** @param {string} path */
function fileAt(path) {
  if (TEXTS[path]) return TEXTS[path];
  const file = path === "/js/jcrdt.wasm" ? MODULE : new URL(path.replace("/js/", "./"), PACKAGE);
  return file && path.startsWith("/js/") && existsSync(file) ? readFileSync(file) : undefined;
}

/** Serves the package and the page under a policy. `all` resolves what page and worker have told.
 *  @param {string} policy */
async function serving(policy) {
  /** @type {(told: Map<string, any>) => void} */
  let done;
  /** @type {Promise<Map<string, any>>} */
  const all = new Promise((resolve) => (done = resolve));
  const told = new Map();
  const server = http.createServer(async ({ url = "", method }, response) => {
    if (method === "POST") return response.end();
    const bytes = fileAt(url);
    const type = TYPES[/** @type {keyof typeof TYPES} */ (/\w+$/.exec(url)?.[0] ?? "")];
    response.writeHead(bytes ? 200 : 404, { "Content-Type": type ?? "text/plain", "Content-Security-Policy": policy }).end(bytes);
  });
  server.on("request", async (request) => {
    if (request.method !== "POST") return;
    const pieces = [];
    for await (const piece of request) pieces.push(piece);
    const [place, said] = JSON.parse(Buffer.concat(pieces).toString());
    if (told.set(place, said).size === 2) done(told);
  });
  await new Promise((listens) => server.listen(0, "127.0.0.1", () => listens(undefined)));
  const { port } = /** @type {any} */ (server.address());
  return { url: `http://127.0.0.1:${port}/index.html`, all, told, close: () => server.close() };
}

/** What page and worker tell in a browser.
 *  @param {import("./browsers.mjs").Browser} browser
 *  @param {string} policy */
async function toldBy(browser, policy) {
  const { url, all, told, close } = await serving(policy);
  const end = await opened(browser, url);
  try {
    const late = new Promise((_, failed) => setTimeout(() =>
      failed(new Error(`${browser.name} has told only ${JSON.stringify([...told])}`)), SECONDS * 1000).unref());
    return await Promise.race([all, late]);
  } finally {
    await end();
    close();
  }
}

for (const browser of BROWSERS) {
  const options = { skip: lacks(browser), timeout: 2 * SECONDS * 1000 };

  test(`${browser.name}: the module in a page and in a worker does what it does in Node`, options, async () => {
    const told = await toldBy(browser, `${POLICY} 'wasm-unsafe-eval'`);
    for (const place of ["page", "worker"]) deepEqual(told.get(place), { lines: await typed(place) });
  });

  test(`${browser.name}: a policy that forbids it is named`, options, async () => {
    const told = await toldBy(browser, POLICY);
    for (const place of ["page", "worker"]) {
      match(told.get(place).message ?? "", /Content-Security-Policy lacks 'wasm-unsafe-eval'/);
    }
  });
}

test("what page and worker do is enough to see a difference", async () => {
  const lines = await typed("page");
  ok(lines.length > 20);
  equal(new Set(lines).size, lines.length);
});
