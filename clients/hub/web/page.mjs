/* The page: two replicas, what travels between them and the server, and what the server has. */

import { browserStore } from "../js/browser_store.mjs";
import { paced } from "../js/pace.mjs";
import { Provider } from "../js/provider.mjs";
import { parse } from "../js/wire.mjs";
import { Panel } from "./panel.mjs";
import { ask, describe, element, find, nameSide, save, showFront } from "./parts.mjs";
import { keepCopies } from "./copies.mjs";

const DOCUMENT = new URLSearchParams(location.search).get("doc") ?? "page";
const SIDES = ["ada", "bob"];
const MOST_SHOWN = 40; // operations that travelled

/** Where the hub takes lines, seen from this page: also behind TLS, and below a path. */
const LINES = new URL("../lines", location.href.replace(/^http/, "ws")).href;

// ---- What travels

/** @type {[from: string, to: string, operation: any][]} what isn't shown yet */
let travels = [];

/** Shows an operation that goes from one to the other, unless many more follow at once.
 *  @param {string} from
 *  @param {string} to
 *  @param {any} operation read, or a line */
function travelled(from, to, operation) {
  travels.push([from, to, operation]);
  showTravels();
  if (travels.length > 2 * MOST_SHOWN) travels = travels.slice(-MOST_SHOWN);
}

const showTravels = paced(() => {
  const items = travels.slice(-MOST_SHOWN).map(([from, to, operation]) => {
    const read = typeof operation === "string" ? parse(operation)[2] : operation;
    const way = element("span", "way", `${from} → ${to}`);
    return element("li", `from-${from} to-${to}`, [way, ...describe(read)]);
  });
  const list = find(document, "#travels");
  list.prepend(...items.reverse());
  travels = [];
  while (list.children.length > MOST_SHOWN) list.lastChild?.remove();
});

/** Shows the operations that a request or its reply carries.
 *  @param {string} side
 *  @param {string} line
 *  @param {string} reply */
function showExchange(side, line, reply) {
  const isNews = line.startsWith('["deliver",') && reply.startsWith('["applied",');
  if (isNews) travelled(side, "server", line);
  if (!reply.startsWith('["ops",')) return;
  const operations = parse(reply)[1];
  for (const operation of operations.slice(-MOST_SHOWN)) travelled("server", side, operation);
}

// ---- The two sides

/** The replica that this browser stored for a side, or a fresh one. It takes one of the 256 names
 *  that a document has at its first edit, and goes on under it in later visits.
 *  @param {string} side */
function providerOf(side) {
  const options = {
    document: DOCUMENT,
    at: LINES,
    word: side,
    isOnline: false,
    onReply: (/** @type {string} */ line, /** @type {string} */ reply) =>
      showExchange(side, line, reply),
    store: browserStore(`${DOCUMENT} ${side}`),
    orMemory: true,
  };
  return Provider.open(options);
}

/** Begins as two other replicas, after what would be lost was asked for.
 *  @param {Provider[]} providers */
async function forget(providers) {
  const counts = providers.map(({ unsent }) => unsent.length);
  const count = counts.reduce((sum, it) => sum + it, 0);
  if (count > 0) {
    const changes = count === 1 ? "1 change" : `${count} changes`;
    const words = `${changes} of this browser may be at no server, and would be lost.`;
    const answers = ["Keep them", "Save as a file", "Lose them"];
    const answer = await ask(words, answers);
    if (answer === "Save as a file") {
      SIDES.forEach((side, at) => save(`${DOCUMENT}-${side}.jcrdt`, providers[at].saved));
    }
    if (answer !== "Lose them") return;
  }
  await Promise.all(providers.map((provider) => provider.deleteStored()));
  location.reload();
}

/** @param {string} words */
function showNotice(words) {
  find(document, "#notice").textContent = words;
}

async function begin() {
  if (!/^[a-z0-9-]{1,32}$/.test(DOCUMENT)) {
    showNotice(`“${DOCUMENT}” can't be the name of a document: that is 1 to 32 of a-z, 0-9 and -.`
      + " Change ?doc= in the address of this page.");
    return;
  }
  /** @type {Provider[]} */
  const providers = [];
  for (const side of SIDES) {
    const provider = await providerOf(side);
    providers.push(provider);
    nameSide(side, provider.replica.name);
  }
  for (const [at, provider] of providers.entries()) {
    provider.goOnline(); // both have their names by now
    const side = SIDES[at];
    const root = find(document, `#${side}`);
    root.append(new Panel(side, provider).root);
    provider.listen(({ what }) => {
      if (what === "server") showFront(find(document, "#server-front"), provider.serverFront ?? []);
    });
  }
  find(document, "#forget").addEventListener("click", () => forget(providers));
  addEventListener("beforeunload", (leaving) => {
    if (!providers.every(({ isStored }) => isStored)) leaving.preventDefault();
  });
}

await begin().catch((error) => showNotice(`This page can't begin: ${error.message}`));
keepCopies().catch((error) => console.warn(error)); // after the replicas: these need the room more
