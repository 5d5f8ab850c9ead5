/* The npm package `jcrdt`: sessions and replicas of shared JSON documents. README.md has a page. */

export * from "./wire.mjs";
export { Client, connected, connectedToHub } from "./session.mjs";
export { Replica, openReplica } from "./replica.mjs";
export { load } from "./jcrdt.mjs";
