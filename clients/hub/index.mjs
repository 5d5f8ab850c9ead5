/* The hub as a part of another program. `hub.mjs` is the program. */

import { existsSync } from "node:fs";
import { fileURLToPath } from "node:url";
import { CLOCK, addressParts, isName } from "./lib/client_package.mjs";
import { openControl } from "./lib/control.mjs";
import { Desk } from "./lib/desk.mjs";
import { Figures } from "./lib/figures.mjs";
import { StoredFronts } from "./lib/file.mjs";
import { Fleet } from "./lib/fleet.mjs";
import { Folder } from "./lib/folder.mjs";
import { openLines } from "./lib/lines.mjs";
import { notes } from "./lib/notes.mjs";
import { OneServer } from "./lib/one_server.mjs";
import { numbersOf } from "./lib/options.mjs";
import { Pool } from "./lib/pool.mjs";
import { Presence } from "./lib/presence.mjs";
import { redisAddress } from "./lib/redis.mjs";
import { dropIdle } from "./lib/serve.mjs";
import { Shelf } from "./lib/shelf.mjs";
import { Storage } from "./lib/storage.mjs";
import { Unread } from "./lib/unread.mjs";
import { Watches } from "./lib/watches.mjs";
import { openWeb } from "./lib/web.mjs";

/** @typedef {import("./index.js").HubOptions} HubOptions */
/** @typedef {import("./lib/state.mjs").State} State */

const MEGABYTE = 2 ** 20;
const UNREAD_BYTES = 256 * MEGABYTE; // of all clients together
const SECOND = 1000;
const QUIT_MS = 200; // so that the server reads `quit`
/** The program in the repository. */
const RELEASED = fileURLToPath(new URL("../../release/jcrdt", import.meta.url));

/** Where the documents are: at one server, or at servers that the hub runs.
 *  @param {HubOptions} options */
async function placesOf(options) {
  const { sessions, replyLimit, linesPerSession, open, closeAfter, ...ofData } = numbersOf(options);
  const { documents, renewAt, keepGenerations, lease } = ofData;
  const { server, data, note = notes(), clock = CLOCK } = options;
  const ofSession = { sessions, replyBytes: replyLimit * MEGABYTE, linesPerSession, clock };
  if (data === undefined) {
    return new OneServer(new Pool({ ...ofSession, server: () => server, note, connected: note }));
  }
  const program = options.program ?? (existsSync(RELEASED) ? RELEASED : "jcrdt");
  const folder = await Folder.open(data);
  const fleet = fleetOf(options, folder, lease * SECOND);
  return new Shelf(folder, {
    ...(fleet && { fleet }), program, open, closeAfter: closeAfter * SECOND, documents, renewAt, keepGenerations,
    sessions: ofSession, note, ...(options.atStep && { atStep: options.atStep }),
  });
}

/** What hubs of several machines share, where this one is to be one of them.
 *  @param {HubOptions} options @param {Folder} folder @param {number} lease */
function fleetOf({ redis, hub: name, note = notes(), clock = CLOCK }, folder, lease) {
  if (redis === undefined || name === undefined) return undefined;
  return new Fleet({ address: redisAddress(redis), hub: name, lease, folder, clock, note });
}

/** What the parts of a hub share.
 *  @param {HubOptions} options
 *  @param {OneServer | Shelf} places
 *  @returns {State} */
function stateOf(options, places) {
  const { poll, patience, idle, mostClients } = numbersOf(options);
  const { durable = false, file, admit, note = notes(), clock = CLOCK } = options;
  const stored = file === undefined ? undefined : new StoredFronts(file, note, clock);
  const shelf = places instanceof Shelf ? places : undefined;
  /** @type {State} */
  const state = {
    places,
    watches: new Watches(places, poll, clock),
    presence: new Presence(clock, patience * SECOND),
    storage: new Storage(durable, clock, stored),
    figures: new Figures(),
    unread: new Unread(UNREAD_BYTES, note),
    documents: new Set(),
    guests: { lines: new Set(), web: new Set() },
    guestCount: 0,
    patience: patience * SECOND,
    idle: idle * SECOND,
    mostClients,
    clock,
    ...(admit && { admit }),
    note,
  };
  if (shelf) withShelf(state, shelf);
  return state;
}

/** @param {State} state @param {Shelf} shelf */
function withShelf(state, shelf) {
  state.shelf = shelf;
  state.desk = new Desk(shelf, () => state.figures.states(state));
  shelf.isWatched = state.watches.isWatched;
  shelf.came = (document) => void state.watches.look(document);
  shelf.renewed = (document, generation) => state.watches.renewed(document, generation);
  shelf.leaves = (document) => {
    for (const guest of [...state.guests.lines, ...state.guests.web]) {
      if (guest.hasOpen(document)) guest.drop();
    }
    state.watches.forget(document);
  };
}

/** Starts a hub.
 *  @type {typeof import("./index.js").hub} */
export async function hub(options) {
  check(options);
  const state = stateOf(options, await placesOf(options));
  try {
    return await opened(state, options);
  } catch (error) {
    await end(state);
    throw error;
  }
}

/** @param {HubOptions} options
 *  @throws {TypeError} for what is no address, and for options that don't fit together */
function check({ server, data, lines, web, file, durable, program, redis, hub: name }) {
  if ((server === undefined) === (data === undefined)) {
    throw new TypeError("either a server or data is given");
  }
  for (const address of [server, lines, web]) {
    if (address !== undefined) addressParts(address); // throws where it is none
  }
  if (!lines && !web) throw new TypeError("neither lines nor web is given");
  if (data !== undefined && (file !== undefined || durable)) {
    throw new TypeError("file and durable are for a hub with a server");
  }
  if (data === undefined && program !== undefined) throw new TypeError("program is for data");
  if (redis !== undefined) redisAddress(redis); // throws where it is none
  if (data === undefined && redis !== undefined) throw new TypeError("redis is for data");
  if ((redis === undefined) !== (name === undefined)) throw new TypeError("redis and hub go together");
  if (name !== undefined && !isName(name)) throw new TypeError("hub is 1 to 32 of a-z, 0-9 and -");
}

/** @param {State} state @param {HubOptions} options
 *  @returns {Promise<import("./index.js").Hub>} */
async function opened(state, { lines, web, origins = [] }) {
  const overTcp = lines === undefined ? undefined : await openLines(state, lines);
  const opening = web === undefined ? undefined : openWeb(state, web, origins);
  opening?.catch(() => overTcp?.server.close());
  const overHttp = await opening;
  const { shelf, desk, clock } = state;
  const endControl = shelf && desk && await openControl(desk, shelf.folder.control, state.note);
  const stopDropping = clock.every(SECOND, () => dropIdle(state));
  const stop = async () => {
    endControl?.();
    const ended = end(state);
    stopDropping();
    overTcp?.server.close();
    overHttp?.server.close();
    overHttp?.end();
    for (const guest of [...state.guests.lines, ...state.guests.web]) guest.drop();
    overHttp?.server.closeAllConnections();
    await new Promise((resume) => void CLOCK.after(QUIT_MS, () => resume(undefined), true));
    await ended;
  };
  return {
    ...(overTcp && { lines: overTcp.at }),
    ...(overHttp && { page: `http://${overHttp.at}/` }),
    ...(desk && { documents: desk }),
    health: () => state.figures.health(state),
    metrics: () => state.figures.metrics(state),
    stop,
  };
}

/** @param {State} state */
function end({ places, watches, presence, storage }) {
  presence.stop();
  watches.stop();
  storage.stop();
  return places.stop();
}

/** Runs a command of an operator on the folder of a hub that doesn't run.
 *  @param {{ data: string, program?: string }} options
 *  @param {(desk: Desk) => Promise<void>} work */
export async function atDesk(options, work) {
  const shelf = /** @type {Shelf} */ (await placesOf(options));
  try {
    await work(new Desk(shelf, async () => () => ({ clients: 0 })));
  } finally {
    await shelf.stop();
  }
}
