/* The documents of a hub, as it says them at /documents: again every two seconds. What this page was
   asked for with, as ?token=.., goes with each request. */

const EVERY_MS = 2000;
const MOST_ROWS = 500;
const NEARLY_FULL = 0.5; // of a limit: then the row is marked

/** @typedef {{ operations: number, replicas: number }} Limits */
/** @typedef {{ name: string, isOpen: boolean, clients: number, operations?: number,
 *    replicas?: number, lag?: number }} Row */

/** @param {string} id @returns {HTMLElement} */
const find = (id) => /** @type {HTMLElement} */ (document.getElementById(id));
const filter = /** @type {HTMLInputElement} */ (find("filter"));

/** @param {number | undefined} count @param {number} limit */
const share = (count, limit) =>
  (count === undefined ? "" : `${count.toLocaleString("en")} of ${limit.toLocaleString("en")}`);

/** @param {Row} row @param {Limits} limits */
function shown({ name, isOpen, clients, operations, replicas, lag }, limits) {
  const line = document.createElement("tr");
  const seconds = lag === undefined ? "" : `${(lag * 1000).toFixed(0)} ms`;
  const cells = [name, isOpen ? "runs" : "", String(clients), share(operations, limits.operations),
    share(replicas, limits.replicas), seconds];
  for (const text of cells) line.append(Object.assign(document.createElement("td"), { textContent: text }));
  const isNearlyFull = (operations ?? 0) > NEARLY_FULL * limits.operations
    || (replicas ?? 0) > NEARLY_FULL * limits.replicas;
  line.className = `${isOpen ? "" : "closed"} ${isNearlyFull ? "full" : ""}`;
  return line;
}

async function show() {
  const response = await fetch(`../documents${location.search}`).catch(() => undefined);
  if (!response?.ok) {
    find("state").textContent = response ? `${response.status} ${response.statusText}` : "no hub answers";
    return;
  }
  const { health, limits, documents } = await response.json();
  const { all, open } = health.documents;
  find("state").textContent = `${all} documents, ${open} servers run, `
    + `${health.clients.lines + health.clients.web} clients`;
  find("trouble").textContent = health.trouble ?? "";
  /** @type {Row[]} */
  const found = documents.filter((/** @type {Row} */ it) => it.name.includes(filter.value));
  found.sort((a, b) => Number(b.isOpen) - Number(a.isOpen) || b.clients - a.clients);
  find("documents").replaceChildren(...found.slice(0, MOST_ROWS).map((it) => shown(it, limits)));
  find("more").textContent = found.length > MOST_ROWS ? `and ${found.length - MOST_ROWS} more` : "";
}

filter.addEventListener("input", show);
for (;;) {
  await show();
  await new Promise((resume) => setTimeout(resume, EVERY_MS));
}
