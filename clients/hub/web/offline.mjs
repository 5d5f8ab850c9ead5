/* A service worker: the page's files come from the hub, and without network from their copies. */

const COPIES = "jcrdt";
const PATIENCE_MS = 5000; // a hub that is frozen, or a network that drops all, never answers
/** @type {any} */
const worker = self;
let patience = PATIENCE_MS; // none from the first late file on, until the hub answers again

worker.addEventListener("install", () => worker.skipWaiting());
worker.addEventListener("activate", (/** @type {any} */ event) =>
  event.waitUntil(worker.clients.claim()));
worker.addEventListener("fetch", (/** @type {any} */ event) => {
  const { method, url } = event.request;
  if (method === "GET" && /\/(web|js)\/[^/]*$/.test(new URL(url).pathname)) {
    event.respondWith(answer(event.request));
  }
});

/** The hub's file, or its copy where the hub is away or late. A file without a copy is waited for.
 *  @param {Request} request
 *  @returns {Promise<Response>} */
async function answer(request) {
  const copies = await caches.open(COPIES);
  const copy = () => copies.match(request, { ignoreSearch: true });
  const fetched = fetchFor(request, copies);
  const late = new Promise((resume) => {
    const timer = setTimeout(resume, patience);
    const stop = () => clearTimeout(timer);
    fetched.then(stop, stop);
  }).then(() => {
    patience = 0;
    return copy();
  });
  return (await Promise.race([fetched, late]).catch(copy)) ?? fetched;
}

/** The hub's file. Its copy is the new one from then on.
 *  @param {Request} request
 *  @param {Cache} copies */
async function fetchFor(request, copies) {
  const response = await fetch(request);
  patience = PATIENCE_MS;
  const name = request.url.replace(/[?#].*$/s, "");
  if (response.ok) await copies.put(name, response.clone()).catch(() => {}); // full: it stays old
  return response;
}
