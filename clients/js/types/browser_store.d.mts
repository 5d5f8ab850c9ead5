export function browserStore(name: string): Store;
export type Store = import("./stores.mjs").Store;
export type Heard = import("./stores.mjs").Heard;
