export * from "./wire.mjs";
export { load } from "./jcrdt.mjs";
export { Client, connected, connectedToHub } from "./session.mjs";
export { Replica, openReplica } from "./replica.mjs";
