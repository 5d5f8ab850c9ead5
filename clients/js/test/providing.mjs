/* What tests of providers share: a test closes those that it opened. Isn't run by itself. */

import node from "node:test";
import { webSockets } from "./chromium.mjs";
import { Provider } from "../provider.mjs";

const WebSocket = webSockets()?.WebSocket;

const providers = new Set();

/** A test at whose end all providers of `opened` are closed. */
export const test = (name, work, options = {}) => node(name, { timeout: 900_000, ...options }, async (t) => {
  try {
    await work(t);
  } finally {
    await Promise.allSettled([...providers].map((provider) => provider.close()));
    providers.clear();
  }
});

/** Opens a provider, of the document d unless the options say so. */
export async function opened(at, options = {}) {
  const provider = await Provider.open({ document: "d", at, WebSocket, ...options });
  providers.add(provider);
  return provider;
}
