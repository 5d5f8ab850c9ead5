/* What the package uses of Node, where @types/node isn't installed. */

declare module "node:fs";
declare module "node:net";
declare module "node:os";
declare module "node:path";
declare class Buffer extends Uint8Array {
  static alloc(size: number): Buffer;
  static byteLength(text: string): number;
  static concat(pieces: Uint8Array[]): Buffer;
  static from(value: any, encoding?: string): Buffer;
  lastIndexOf(value: any): number;
  subarray(from?: number, to?: number): Buffer;
  toString(encoding?: string): string;
}
declare const process: any;
