/* The way in over TCP: lines, as the server takes them. */

import net from "node:net";
import { TextDecoder } from "node:util";
import { LineCutter } from "./cutter.mjs";
import { Guest } from "./guest.mjs";
import { MOST, refusalLine } from "./client_package.mjs";
import { admitted, hasRoom, listening, MOST_CLIENTS, serve } from "./serve.mjs";

/** @typedef {import("./state.mjs").State} State */

/** Takes lines over TCP.
 *  @param {State} hub @param {string} address */
export async function openLines(hub, address) {
  const keepAlive = { keepAlive: true, keepAliveInitialDelay: 10_000 };
  const server = net.createServer({ allowHalfOpen: true, noDelay: true, ...keepAlive });
  server.maxConnections = 2 * MOST_CLIENTS; // those that aren't admitted yet, too
  server.on("connection", (socket) => {
    socket.on("error", () => {}); // its close follows
    welcome(hub, socket).catch((error) => {
      hub.note(error.stack);
      socket.destroy();
    });
  });
  return { server, at: await listening(hub, server, address) };
}

/** @param {State} hub @param {net.Socket} socket */
async function welcome(hub, socket) {
  const address = `${socket.remoteAddress}`;
  const rights = await admitted(hub, { way: "lines", address, url: "", headers: {} });
  if (socket.destroyed) return;
  if (!rights) return refuse(hub, socket, "not-allowed");
  if (!hasRoom(hub, hub.guests.lines)) return refuse(hub, socket, "server-away");
  const guest = new Guest(hub, socket, "\n", rights);
  hub.guests.lines.add(guest);
  socket.on("close", () => {
    hub.guests.lines.delete(guest);
    guest.leave();
  });
  serve(hub, guest, socket, tcpLines(socket));
}

/** @param {State} hub @param {net.Socket} socket @param {"not-allowed" | "server-away"} cause */
function refuse(hub, socket, cause) {
  hub.figures.dropped();
  socket.resume().end(`${refusalLine(cause)}\n`);
  socket.destroySoon();
}

/** The lines of a client, as they come. A page of a browser can send HTTP to any port.
 *  @param {net.Socket} socket */
function tcpLines(socket) {
  /** @type {string[]} */
  const found = [];
  const decoder = new TextDecoder("utf-8", { fatal: true, ignoreBOM: true });
  const tooLong = "?".repeat(MOST.line + 1);
  const cutter = new LineCutter(MOST.line, (bytes) => {
    found.push(bytes === undefined ? tooLong : decoded(decoder, bytes));
  });
  const lines = function* () {
    for (const line of found.splice(0)) {
      if (/^[A-Z]+ .* HTTP\/\d/.test(line)) return void socket.destroy();
      yield line;
    }
    if (cutter.size > MOST.line) yield tooLong; // whatever follows
  };
  return {
    /** @param {Buffer} piece */
    take: (piece) => {
      cutter.take(piece);
      return lines();
    },
    /** At the end of what the client sends: the last line may have no newline. */
    rest: () => {
      if (cutter.size > 0) cutter.flush();
      return lines();
    },
  };
}

/** What isn't UTF-8 isn't JSON.
 *  @param {import("node:util").TextDecoder} decoder @param {Buffer} bytes */
function decoded(decoder, bytes) {
  try {
    return decoder.decode(bytes);
  } catch {
    return "?";
  }
}
