export function fileStore(path: string): Store;
export type Store = import("./stores.mjs").Store;
export type Session = import("./stores.mjs").Session;
