/* What a monitor asks for: whether there is a server, and the hub's figures for Prometheus. */

import { frontPairs, MOST, pauseBy } from "./client_package.mjs";

/** @typedef {import("./state.mjs").State} State */
/** @typedef {{ front: Map<string, number>, operations: number, replicas: number,
 *    unstored: number | undefined, isCounting: boolean }} Count */

const MOST_MS = 2_000; // so long an answer waits for what is counted

/** Counts requests and refusals, and the operations of documents. It costs no session. */
export class Figures {
  #lines = 0;
  #dropped = 0;
  /** By the number of a refusal.
   *  @type {Map<string, number>} */
  #refused = new Map();
  /** By document.
   *  @type {Map<string, Count>} */
  #counts = new Map();

  /** A client was answered.
   *  @param {string} reply */
  answered(reply) {
    this.#lines++;
    const number = /^\["no",(\d+),/.exec(reply)?.[1];
    if (number) this.#refused.set(number, (this.#refused.get(number) ?? 0) + 1);
  }

  /** A connection was refused: it wasn't admitted, or there were too many. */
  dropped() {
    this.#dropped++;
  }

  /** What is known of each document, for who runs the hub.
   *  @param {State} hub */
  async states(hub) {
    const sizes = new Map(hub.shelf?.sizes.map((it) => [it.name, it]));
    const lags = await this.#lags(hub);
    const guests = [...hub.guests.lines, ...hub.guests.web];
    /** @param {string} name */
    const stateOf = (name) => {
      const size = sizes.get(name);
      return {
        clients: guests.filter((it) => it.hasOpen(name)).length,
        ...(size && { operations: size.operations, replicas: size.replicas }),
        ...(lags.has(name) && { lag: /** @type {number} */ (lags.get(name)) }),
      };
    };
    return stateOf;
  }

  /** @param {State} hub */
  health({ places, guests }) {
    return {
      ...places.health,
      clients: { lines: guests.lines.size, web: guests.web.size },
    };
  }

  /** In the text format of Prometheus.
   *  @param {State} hub @returns {Promise<string>} */
  async metrics(hub) {
    const [lag] = await Promise.all([this.#lag(hub), this.#countAll(hub)]);
    const { connected, sessions, clients } = this.health(hub);
    const documents = hub.shelf?.sizes ?? [...this.#counts]
      .map(([name, count]) => ({ name, ...count }));
    const refused = [...this.#refused].sort(([a], [b]) => Number(a) - Number(b));
    /** @type {[name: string, type: string, help: string, samples: [string, number][]][]} */
    const figures = [
      ["connected", "gauge", "Whether a session of the server answers.", [["", connected ? 1 : 0]]],
      ["lag_seconds", "gauge", "How long the server took for a reply just now.", [["", lag]]],
      ...ofShelf(hub),
      ["sessions", "gauge", "Sessions of the server that the hub has.", [["", sessions.got]]],
      ["sessions_wanted", "gauge", "Sessions that it tries to have.", [["", sessions.wanted]]],
      ["clients", "gauge", "Clients that are connected.",
        [['{way="lines"}', clients.lines], ['{way="web"}', clients.web]]],
      ["lines_total", "counter", "Lines of clients that were answered.", [["", this.#lines]]],
      ["refused_total", "counter", "Replies that refuse, by the number of the refusal.",
        refused.map(([number, count]) => [`{number="${number}"}`, count])],
      ["connections_refused_total", "counter", "Connections that were refused.",
        [["", this.#dropped]]],
      ["document_operations", "gauge", "Operations of the document's log.",
        documents.map(({ name, operations }) => [`{document="${name}"}`, operations])],
      ["document_unstored_operations", "gauge", "Those that aren't in the server's file.",
        [...this.#counts].flatMap(([name, { unstored }]) =>
          (unstored === undefined ? [] : [[`{document="${name}"}`, unstored]]))],
      ["document_operations_limit", "gauge", "Where the document is full.", [["", MOST.log]]],
      ["document_replicas", "gauge", "Replicas that made operations of the log.",
        documents.map(({ name, replicas }) => [`{document="${name}"}`, replicas])],
      ["document_replicas_limit", "gauge", "Where the document takes no other one.",
        [["", MOST.replicas]]],
    ];
    return figures.filter(([, , , samples]) => samples.length > 0).map(text).join("");
  }

  /** In seconds; NaN where the server doesn't reply.
   *  @param {State} hub */
  async #lag({ places, clock }) {
    const began = performance.now();
    const links = places.pools.map((pool) => pool.watching);
    const replies = Promise.all(links.map((link) => link?.ask('["version"]')));
    const isReplied = (await Promise.race([replies, pauseBy(clock, MOST_MS)]))
      ?.every((it) => typeof it === "string");
    return isReplied ? (performance.now() - began) / 1000 : NaN;
  }

  /** How long the server of each document that runs took for a reply just now, in seconds.
   *  @param {State} hub */
  async #lags({ places, shelf, clock }) {
    /** @type {Map<string, number>} */
    const lags = new Map();
    const asked = (shelf?.openNames ?? []).map(async (name) => {
      const began = performance.now();
      const reply = await places.watching(name)?.ask('["version"]');
      if (typeof reply === "string") lags.set(name, (performance.now() - began) / 1000);
    });
    await Promise.race([Promise.all(asked), pauseBy(clock, MOST_MS)]);
    return lags;
  }

  /** What isn't counted in time is counted for the next answer. A hub that runs its servers knows it.
   *  @param {State} hub */
  async #countAll(hub) {
    const documents = hub.shelf ? [] : [...hub.documents];
    const counting = documents.map((document) => this.#count(hub, document));
    await Promise.race([Promise.all(counting), pauseBy(hub.clock, MOST_MS)]);
  }

  /** Counts the operations that came since they were counted last, and those that aren't stored.
   *  @param {State} hub
   *  @param {string} document */
  async #count(hub, document) {
    /** @type {Count} */
    const count = this.#counts.get(document) ??
      { front: new Map(), operations: 0, replicas: 0, unstored: undefined, isCounting: false };
    if (count.isCounting) return;
    count.isCounting = true;
    await this.#countNew(hub, document, count).finally(() => (count.isCounting = false));
  }

  /** @param {State} hub
   *  @param {string} document
   *  @param {Count} count */
  async #countNew(hub, document, count) {
    const size = await asked(hub, ["size", document]);
    if (size) {
      const [operations, copied, replicas] = size;
      const unstored = operations - copied;
      this.#counts.set(document, Object.assign(count, { operations, replicas, unstored }));
    } else await this.#countPages(hub, document, count);
  }

  /** By the operations themselves: servers before 1.2.0 don't tell how many there are.
   *  @param {State} hub
   *  @param {string} document
   *  @param {Count} count */
  async #countPages(hub, document, count) {
    const now = new Map((await asked(hub, ["front", document]))?.[0]);
    const isBack = [...count.front].some(([name, counter]) => counter > (now.get(name) ?? 0));
    if (isBack) Object.assign(count, { front: new Map(), operations: 0 }); // a kill took some
    for await (const some of pages(hub, document, count.front)) {
      count.operations += some;
      count.replicas = count.front.size;
      this.#counts.set(document, count);
    }
    const stored = hub.storage.front(document);
    let unstored = 0;
    if (stored) for await (const some of pages(hub, document, new Map(stored))) unstored += some;
    if (stored) count.unstored = unstored;
  }
}

/** The figures of a hub that runs its servers.
 *  @param {State} hub
 *  @returns {[name: string, type: string, help: string, samples: [string, number][]][]} */
function ofShelf({ shelf }) {
  if (!shelf) return [];
  const { all, open } = shelf.health.documents;
  const { count, last, longest } = shelf.renewals;
  return [
    ["documents", "gauge", "Documents that there are.", [["", all]]],
    ["documents_open", "gauge", "Those whose server runs.", [["", open]]],
    ["documents_failing", "gauge", "Those that can't be opened.", [["", shelf.failing]]],
    ["servers_started_total", "counter", "Servers that were started.", [["", shelf.started]]],
    ["renewals_total", "counter", "Renewals of documents.", [["", count]]],
    ["renewal_held_seconds", "gauge", "How long the last one held changes back at once.",
      [["", last / 1000]]],
    ["renewal_held_longest_seconds", "gauge", "The same of the one that did longest.",
      [["", longest / 1000]]],
  ];
}

/** What the server replies to a request about a document; `undefined` if it doesn't.
 *  @param {State} hub
 *  @param {[word: string, document: string, ...items: any[]]} request
 *  @returns {Promise<any[] | undefined>} */
async function asked({ places }, request) {
  const link = places.watching(request[1]);
  link?.open(request[1]);
  const reply = await link?.ask(JSON.stringify(request));
  const [word, ...rest] = typeof reply === "string" ? JSON.parse(reply) : [];
  return word === request[0] ? rest : undefined;
}

/** How many operations each page has that a front doesn't cover. They are added to the front.
 *  @param {State} hub
 *  @param {string} document
 *  @param {Map<string, number>} front */
async function* pages(hub, document, front) {
  for (let page; page === undefined || page.length === MOST.page; ) {
    page = (await asked(hub, ["ops", document, frontPairs(front), MOST.page]))?.[0];
    if (!page) return;
    for (const [, [counter, replica]] of page) front.set(replica, counter);
    yield /** @type {number} */ (page.length);
  }
}

/** A figure in the text format.
 *  @param {[string, string, string, [string, number][]]} figure */
function text([name, type, help, samples]) {
  const lines = samples.map(([labels, value]) => `jcrdt_hub_${name}${labels} ${value}\n`);
  return `# HELP jcrdt_hub_${name} ${help}\n# TYPE jcrdt_hub_${name} ${type}\n${lines.join("")}`;
}
