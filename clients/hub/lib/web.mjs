/* The way in over HTTP: the page, what monitors ask for, and lines over WebSocket. */

import { readdir, readFile } from "node:fs/promises";
import http from "node:http";
import { createRequire } from "node:module";
import { extname } from "node:path";
import { Guest } from "./guest.mjs";
import { FOLDER, MODULE, MOST } from "./client_package.mjs";
import { admitted, hasRoom, listening, MOST_CLIENTS, serve } from "./serve.mjs";

/** @typedef {import("./state.mjs").State} State */
/** @typedef {import("ws").WebSocket & { silence?: number }} Socket */

const HALF_SENT_MS = 10_000; // so long a request may take to be sent
const PING_SECONDS = 10; // who is silent for so long is asked for a sign of life
const MOST_MESSAGE = 2 ** 20; // bytes; longer ones end the connection without a reply
const SPARE = 100; // connections for monitors, beside those of clients

/** The folders whose files are served, by the name in the path. */
const FOLDERS = new Map([
  ["web", new URL("../web/", import.meta.url)],
  ["js", FOLDER],
]);
const TYPES = new Map(Object.entries({
  ".html": "text/html; charset=utf-8",
  ".css": "text/css; charset=utf-8",
  ".mjs": "text/javascript; charset=utf-8",
  ".wasm": "application/wasm",
  ".svg": "image/svg+xml",
  ".png": "image/png",
}));
const HEADERS = {
  "Content-Security-Policy":
    "default-src 'self'; script-src 'self' 'wasm-unsafe-eval'; frame-ancestors 'none'",
  "X-Content-Type-Options": "nosniff",
  "Cache-Control": "no-cache",
};

/** Serves the page and takes lines over WebSocket.
 *  @param {State} hub
 *  @param {string} address @param {string[]} origins */
export async function openWeb(hub, address, origins) {
  const { WebSocketServer } = webSockets();
  const limits = { headersTimeout: HALF_SENT_MS, requestTimeout: HALF_SENT_MS };
  const server = http.createServer({ ...limits, connectionsCheckingInterval: 1000 });
  server.maxConnections = 2 * MOST_CLIENTS + SPARE;
  server.on("request", (request, response) => {
    answer(hub, request, response).catch(() => response.destroy());
  });
  const sockets = new WebSocketServer({ noServer: true, maxPayload: MOST_MESSAGE });
  const at = await listening(hub, server, address);
  const { port } = /** @type {import("node:net").AddressInfo} */ (server.address());
  const own = new Set([`http://${at}`, `http://localhost:${port}`, ...origins]);
  server.on("upgrade", (request, socket, head) => {
    socket.on("error", () => {}); // its close follows
    upgrade(hub, own, request).then((rights) => {
      if (typeof rights === "string") return refuse(hub, socket, rights);
      sockets.handleUpgrade(request, socket, head, (ws) => welcome(hub, ws, rights));
    }, () => socket.destroy());
  });
  const patience = hub.patience / 1000;
  const pingAll = () => sockets.clients.forEach((ws) => pingOrDrop(ws, patience));
  server.on("close", hub.clock.every(1000, pingAll));
  return { server, at, end: () => sockets.clients.forEach((ws) => ws.terminate()) };
}

/** What a client may do, or the status that refuses it.
 *  @param {State} hub
 *  @param {Set<string>} own @param {http.IncomingMessage} request */
async function upgrade(hub, own, request) {
  const { url = "/", headers, socket } = request;
  const isLines = pathOf(url).endsWith("/lines");
  // Browsers name the page's origin. Programs that aren't browsers name none.
  const isOwn = headers.origin === undefined || own.has(headers.origin);
  if (!isLines || !isOwn) return "403 Forbidden";
  if (!hasRoom(hub, hub.guests.web)) return "503 Service Unavailable";
  const address = `${socket.remoteAddress}`;
  return (await admitted(hub, { way: "web", address, url, headers })) ?? "403 Forbidden";
}

/** @param {State} hub @param {import("node:stream").Duplex} socket @param {string} status */
function refuse(hub, socket, status) {
  hub.figures.dropped();
  const end = () => socket.destroy();
  socket.end(`HTTP/1.1 ${status}\r\nConnection: close\r\nContent-Length: 0\r\n\r\n`, end);
  hub.clock.after(1000, end);
}

/** @param {State} hub @param {Socket} ws @param {import("./rights.mjs").Rights} rights */
function welcome(hub, ws, rights) {
  const { createWebSocketStream } = webSockets();
  const options = { readableObjectMode: true, decodeStrings: false };
  const stream = createWebSocketStream(ws, options);
  const guest = new Guest(hub, stream, "", rights);
  hub.guests.web.add(guest);
  ws.on("error", () => {}); // its close follows
  ws.on("close", () => {
    hub.guests.web.delete(guest);
    guest.leave();
  });
  ws.on("pong", () => (ws.silence = 0));
  // A message is a line: a text. Bytes are none.
  serve(hub, guest, stream, {
    take: (data) => [typeof data === "string" ? data : "bytes"],
    rest: () => [],
  });
}

/** Pings who is silent, and drops who doesn't answer for as many seconds as the hub is patient. They
 *  are counted, not taken from a clock: none pass while this process stands still, or while the hub
 *  doesn't read, since the answer would wait as well. Is called each second.
 *  @param {Socket} ws @param {number} patience */
function pingOrDrop(ws, patience) {
  if (ws.isPaused) return;
  const pingAt = Math.min(PING_SECONDS, patience);
  ws.silence = (ws.silence ?? 0) + 1;
  if (ws.silence === pingAt) ws.ping();
  if (ws.silence > pingAt + patience) ws.terminate();
}

/** Answers a request: health, metrics, and the files of the page, below any path.
 *  @param {State} hub
 *  @param {http.IncomingMessage} request @param {http.ServerResponse} response */
async function answer(hub, request, response) {
  const path = pathOf(request.url ?? "/");
  if (request.method !== "GET" && request.method !== "HEAD") {
    return void response.writeHead(405, { Allow: "GET, HEAD" }).end();
  }
  if (path.endsWith("/health")) {
    const health = hub.figures.health(hub);
    const headers = { "Content-Type": "application/json", "Cache-Control": "no-store" };
    return void response.writeHead(health.connected ? 200 : 503, headers)
      .end(`${JSON.stringify(health)}\n`);
  }
  if (path.endsWith("/metrics")) {
    const text = await hub.figures.metrics(hub);
    return void response.writeHead(200, { "Content-Type": "text/plain; version=0.0.4" }).end(text);
  }
  if (path.endsWith("/documents") && hub.shelf) return answerDocuments(hub, request, response);
  if (path === "/" || path.endsWith("/web")) {
    return void response.writeHead(302, { Location: `web/${queryOf(request.url ?? "")}` }).end();
  }
  const file = await fileAt(path);
  if (!file) return void response.writeHead(404).end("not here\n");
  response.writeHead(200, { ...HEADERS, "Content-Type": file.type }).end(file.bytes);
}

/** Answers which documents there are, to who may list them.
 *  @param {State} hub
 *  @param {http.IncomingMessage} request @param {http.ServerResponse} response */
async function answerDocuments(hub, request, response) {
  const { url = "/", headers, socket } = request;
  const rights = await admitted(hub, { way: "web", address: `${socket.remoteAddress}`, url, headers });
  if (!rights?.mayList) return void response.writeHead(403).end("not allowed\n");
  const documents = (await hub.desk?.list() ?? []).filter(({ name }) => rights.mayRead(name));
  const limits = { operations: MOST.log, replicas: MOST.replicas };
  const text = JSON.stringify({ health: hub.figures.health(hub), limits, documents });
  const type = { "Content-Type": "application/json", "Cache-Control": "no-store" };
  response.writeHead(200, type).end(`${text}\n`);
}

/** A file of the page or of the package jcrdt, and nothing else.
 *  @param {string} path */
async function fileAt(path) {
  const [, folder, name] = /\/(web|js)\/([A-Za-z0-9_.-]*)$/.exec(path) ?? [];
  const place = FOLDERS.get(folder ?? "");
  const file = name === "" && folder === "web" ? "index.html" : name;
  const type = TYPES.get(extname(file ?? ""));
  if (!place || !file || !type) return undefined;
  if (folder === "js" && file === "jcrdt.wasm") {
    const bytes = await readFile(MODULE).catch(() => undefined);
    return bytes && { type, bytes };
  }
  const names = await readdir(place).catch(() => /** @type {string[]} */ ([]));
  return names.includes(file) ? { type, bytes: await readFile(new URL(file, place)) } : undefined;
}

/** @param {string} url */
const pathOf = (url) => url.replace(/[?#].*$/s, "");

/** The query with its mark, of letters, digits and the marks that a URL has: as `?doc=NAME`.
 *  @param {string} url */
const queryOf = (url) => /\?[\w.~%&=+-]*$/.exec(url)?.[0] ?? "";

/** The package ws: npm's where there is one, and else Debian's.
 *  @returns {typeof import("ws")} */
export function webSockets() {
  const require = createRequire(import.meta.url);
  for (const place of ["ws", "/usr/share/nodejs/ws"]) {
    try {
      return require(place);
    } catch (error) {
      if (/** @type {NodeJS.ErrnoException} */ (error).code !== "MODULE_NOT_FOUND") throw error;
    }
  }
  throw new Error("--web needs the package ws: apt-get install node-ws");
}
