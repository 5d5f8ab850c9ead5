/* The options of a hub: what the command line calls each, where that isn't its name, what follows it there, its help, and a number's
   bounds. Without `value` it is a flag, and without `help` the command line hasn't got it.
   Made by tools/protocol from protocol.json. Don't edit it. */

/** By the names of `HubOptions`, in the order of the help. */
export const OPTIONS = /** @type {const} */ ({
  data: {
    value: "DIR",
    help: "in place of SERVER: run a server for each document that is used, with its\n" +
      "file below DIR, which is made where it isn't there",
  },
  program: {
    value: "FILE",
    help: "with --data: the program of these servers, in place of the repository's\n" +
      "release/jcrdt, else jcrdt of PATH",
  },
  open: {
    value: "N", bounds: { least: 1, most: 10_000, usual: 200 },
    help: "with --data: run at most N servers at once",
  },
  closeAfter: {
    word: "close-after", value: "S", bounds: { least: 1, most: 31_536_000, usual: 300 },
    help: "with --data: end a server that nobody has used for so long",
  },
  documents: {
    value: "N", bounds: { least: 1, most: 1_000_000, usual: 100_000 },
    help: "with --data: make no further document where there are N",
  },
  redis: {
    value: "REDIS",
    help: "with --data: share the documents with other hubs by the Redis at HOST:PORT,\n" +
      "or redis://[[USER]:PASSWORD@]HOST:PORT[/N], rediss:// for TLS. Others of\n" +
      "this machine see it, but not the variable JCRDT_REDIS in its place",
  },
  hub: {
    value: "NAME",
    help: "with --redis: what this hub is called there, 1 to 32 of a-z, 0-9 and -",
  },
  lease: {
    value: "S", bounds: { least: 1, most: 600, usual: 10 },
    help: "with --redis, the same for all hubs: take no changes where Redis hasn't\n" +
      "answered for so long; others wait for that before they renew",
  },
  lines: {
    value: "ADDRESS",
    help: "take lines over TCP, as the server does",
  },
  web: {
    value: "ADDRESS",
    help: "serve the page, /health and /metrics, and take lines over WebSocket at any\n" +
      "path that ends in /lines (needs the package ws: apt-get install node-ws)",
  },
  renewAt: {
    word: "renew-at", value: "N", bounds: { least: 100, most: 90_000, usual: 60_000 },
    help: "with --data: put what a document shows into its next generation from N\n" +
      "operations on, and from 200 replicas on",
  },
  keepGenerations: {
    word: "keep-generations", value: "N", bounds: { least: 0, most: 1_000_000, usual: 1_000_000 },
    help: "with --data: keep the last N generations before that of now for reading.\n" +
      "Which element became which stays known of all",
  },
  sessions: {
    value: "N", bounds: { least: 1, most: 254, usual: 5 },
    help: "carry the clients on N sessions; one more watches the documents. With --data\n" +
      "each document has 2, and one more",
  },
  poll: {
    value: "MS", bounds: { least: 10, most: 3_600_000, usual: 200 },
    help: "look so often for changes that others made at the server; with --data each\n" +
      "2000 ms",
  },
  patience: {
    value: "S", bounds: { least: 1, most: 86_400, usual: 30 },
    help: "drop a client that doesn't read, or sends nothing at first, for so long",
  },
  idle: {
    value: "S", bounds: { least: 1, most: 31_536_000, usual: 3_600 },
    help: "drop a client that sends nothing more, and watches and hears nothing",
  },
  replyLimit: {
    word: "reply-limit", value: "MB", bounds: { least: 5, most: 256, usual: 8 },
    help: "answer 102, reply-too-long, in place of a longer reply",
  },
  origins: {
    word: "origin", value: "URL", isMany: true,
    help: "let in WebSocket from pages of this origin too: behind a proxy, or where the\n" +
      "address of --web is none that a browser opens, as 0.0.0.0:7201",
  },
  admit: {
    value: "FILE.mjs",
    help: "ask the function admit of this module who may connect, read and write",
  },
  file: {
    value: "F",
    help: "a server before 1.2.0: answer \"stored\" by its file F, on this machine",
  },
  durable: {
    help: "a server before 1.2.0, started with --durable: what is acknowledged is stored",
  },
  linesPerSession: { bounds: { least: 100, most: 990_000, usual: 990_000 } },
  mostClients: { bounds: { least: 1, most: 2_000, usual: 2_000 } },
});
