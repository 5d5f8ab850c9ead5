/* Copies of a page's files, for the time without network. */

const COPIES = "jcrdt"; // as in offline.mjs
const ROOM = 50_000_000; // bytes that a browser has to leave for documents

/** Lets this page open without the network from now on, where the browser keeps copies of files:
 *  not over plain http from another machine, and not where it has little room. Some browsers don't
 *  say how much they have: copies that don't fit go again. */
export async function keepCopies() {
  const { serviceWorker, storage } = navigator;
  if (!serviceWorker || !storage) return;
  const { quota = 0, usage = 0 } = await storage.estimate();
  if (quota - usage < ROOM) return;
  const registration = await serviceWorker.register("offline.mjs");
  const loaded = performance.getEntriesByType("resource").map(({ name }) => name);
  const files = [location.href, ...loaded].map((name) => name.replace(/[?#].*$/s, ""));
  const own = new Set(files.filter((name) => /\/(web|js)\/[^/]*$/.test(name)));
  const copies = await caches.open(COPIES);
  const added = await Promise.allSettled([...own].map((name) => copies.add(name)));
  if (added.some((it) => it.status === "rejected" && it.reason?.name === "QuotaExceededError")) {
    await registration.unregister();
    for (const request of await copies.keys()) await copies.delete(request);
  }
}
