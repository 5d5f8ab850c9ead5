/* What both ways in have: who is admitted, and how a connection's lines are answered. */

import { addressParts, MOST, pauseBy } from "./client_package.mjs";
import { messageOf } from "./notes.mjs";
import { OPTIONS } from "./option_table.mjs";
import { Rights } from "./rights.mjs";

/** @typedef {import("./state.mjs").State} State */
/** @typedef {import("./guest.mjs").Guest} Guest */
/** @typedef {{ take: (piece: any) => Iterable<string>, rest: () => Iterable<string> }} Lines */

export const MOST_CLIENTS = OPTIONS.mostClients.bounds.most; // of each way in
const END_MS = 5_000; // so long a client may take to end its side of the connection
const MOST_BEGUN = 64; // deliveries of a client that wait for their replies together
const ADMIT_MS = 10_000; // so long `admit` may take

/** What a client may do; `undefined` if it isn't admitted.
 *  @param {State} hub
 *  @param {import("../index.js").AdmitRequest} request
 *  @returns {Promise<Rights | undefined>} */
export async function admitted({ admit, note, clock }, request) {
  if (!admit) return new Rights({ read: true, write: true });
  try {
    const admission = await Promise.race([admit(request), pauseBy(clock, ADMIT_MS)]);
    if (admission === undefined) note(`admit didn't answer within ${ADMIT_MS / 1000} s`);
    return admission ? new Rights(admission) : undefined;
  } catch (error) {
    note(`admit failed: ${messageOf(error)}`);
    return undefined;
  }
}

/** Answers what a client sends. Nothing more is read meanwhile, so its lines can't pile up. Where each
 *  change waits for the file, some deliveries wait together.
 *  @param {State} hub
 *  @param {Guest} guest
 *  @param {import("node:stream").Duplex} stream
 *  @param {Lines} lines */
export function serve(hub, guest, stream, lines) {
  let turn = Promise.resolve(); // resolves when what has come is answered
  let isEnding = false;
  /** @type {Promise<void>[]} deliveries that were begun; each resolves once it is answered */
  const begun = [];
  const fail = (/** @type {unknown} */ error) => {
    hub.note(/** @type {Error} */ (error).stack ?? messageOf(error));
    stream.destroy();
  };
  const end = () => {
    isEnding = true;
    stream.removeAllListeners("data").resume().end();
    hub.clock.after(END_MS, () => stream.destroy());
  };
  /** @param {Iterable<string>} some */
  const answer = async (some) => {
    if (isEnding) return;
    for (const line of some) {
      if (hub.shelf && isShortDelivery(line) && !stream.writableNeedDrain) {
        begun.push(guest.begin(line).catch(fail));
        if (begun.length === MOST_BEGUN) await begun.shift();
        continue;
      }
      await Promise.all(begun.splice(0));
      if (!(await guest.serve(line))) return end();
    }
  };
  /** @param {() => Promise<void>} work */
  const inTurn = (work) => {
    turn = turn.then(work).catch(fail);
  };
  stream.on("data", (piece) => {
    stream.pause();
    inTurn(async () => {
      await answer(lines.take(piece));
      stream.resume();
    });
  });
  stream.on("end", () => inTurn(async () => {
    await answer(lines.rest());
    await Promise.all(begun.splice(0));
    end();
  }));
}

/** @param {string} line */
const isShortDelivery = (line) =>
  line.startsWith('["deliver",') && Buffer.byteLength(line) <= MOST.line;

/** Drops who has never sent anything, or nothing for long. Is called each second.
 *  @param {State} hub */
export function dropIdle({ guests, patience, idle }) {
  for (const guest of [...guests.lines, ...guests.web]) {
    const limit = guest.lines === 0 ? patience : idle;
    if (++guest.silence > limit / 1000 && !guest.isListening) guest.drop();
  }
}

/** Whether one more client has room on a way in: the one that was idle for longest makes it.
 *  @param {State} hub
 *  @param {Set<Guest>} guests those of this way */
export function hasRoom({ patience, mostClients }, guests) {
  if (guests.size < mostClients) return true;
  const idle = [...guests].filter((it) => it.silence > patience / 1000 && !it.isListening);
  const first = idle.reduce(
    (a, b) => (a && a.silence >= b.silence ? a : b), /** @type {Guest | undefined} */ (undefined));
  if (!first) return false;
  guests.delete(first);
  first.drop();
  return true;
}

/** Where the server listens, HOST:PORT, once it does.
 *  @param {State} hub
 *  @param {import("node:net").Server} server @param {string} address
 *  @returns {Promise<string>} */
export function listening(hub, server, address) {
  return new Promise((open, failed) => {
    // Once it listens, an error is that of one connection, as too many open files.
    server.on("error", (error) => (server.listening ? hub.note(error.message) : failed(error)));
    server.listen(addressParts(address), () => {
      const at = /** @type {import("node:net").AddressInfo} */ (server.address());
      open(at.family === "IPv6" ? `[${at.address}]:${at.port}` : `${at.address}:${at.port}`);
    });
  });
}
