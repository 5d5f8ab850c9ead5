// The types of the package. Those of each part are in types/, made of the comments by `npm run types`.
export * from "./types/index.mjs";
