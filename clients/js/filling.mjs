/* Puts nested values by the requests of a session, while others change the same lists. An element
   is named (`let`) and checked before what is in it follows, so that nothing goes into another. */

import { Refused } from "./errors.mjs";
import { isArray, isMap, print } from "./json.mjs";
import { MOST } from "./limits.mjs";
import { REFUSALS } from "./protocol.mjs";
import { Counter, bare, isGiven, pieces } from "./values.mjs";

/** @typedef {import("./session.mjs").Client} Client */
/** @typedef {import("./operations.mjs").Cursor} Cursor */
/** @typedef {import("./operations.mjs").Id} Id */

const AT_ONCE = 256; // requests that wait for their replies together
const ELEMENTS = [8, 2]; // of a list that are named together, by the depth of lists; then 1
const TRIES = 1000; // to name an element in a list that changes all the time
const PROBES = 16; // indices that are asked for together

/** Whether a list turned out to be shorter.
 *  @param {unknown} error */
const isPastEnd = (error) =>
  error instanceof Refused && error.number === REFUSALS["index-past-end"];

/** How many elements a list has, without reading it: by asking for elements at some indices.
 *  @param {Client} client
 *  @param {string} document
 *  @param {Cursor} list
 *  @param {number} guess
 *  @returns {Promise<number>} */
export async function lengthOf(client, document, list, guess) {
  /** @param {number} index */
  const isThere = (index) => client.sum(document, [...list, index]).then(() => true, (error) => {
    if (isPastEnd(error)) return false;
    throw error;
  });
  let [low, high] = [0, MOST.log + 1]; // there is an element at `low`, and none at `high`
  for (let points = [guess, guess + 1].filter((it) => it > 0); high - low > 1; ) {
    const found = await Promise.all(points.map(isThere));
    const none = found.indexOf(false);
    if (none >= 0) high = Math.min(high, points[none]);
    const last = none < 0 ? points.length : none;
    if (last > 0) low = Math.max(low, points[last - 1]);
    if (low >= high) low = high - 1; // the list has changed meanwhile
    const step = Math.max(1, Math.ceil((high - low) / (PROBES + 1)));
    points = Array.from({ length: PROBES }, (_, at) => low + (at + 1) * step).filter((it) => it < high);
  }
  return low;
}

/** @param {any} value */
const isNested = (value) => value instanceof Counter || Array.isArray(value) || isMap(value);

/** What an insertion has of a value.
 *  @param {any} item */
const inserted = (item) => bare(item instanceof Counter ? item.value ?? null : item);

/** One nested value on its way. */
export class Filling {
  /** @type {Id[]} */
  ids = [];
  #client;
  #document;
  /** @type {Promise<void>[]} */
  #sent = [];
  /** @type {Error | undefined} */
  #failed;

  /** @param {Client} client
   *  @param {string} document */
  constructor(client, document) {
    this.#client = client;
    this.#document = document;
  }

  /** @param {Cursor} cursor
   *  @param {any} value */
  async put(cursor, value) {
    await this.#assign(await this.#fixed(cursor), value, 0);
    await this.#settle();
    return this.ids;
  }

  /** Inserts behind the first `length` elements, fewer if there are fewer by then.
   *  @param {Cursor} cursor
   *  @param {any} value
   *  @param {number} length
   *  @returns {Promise<{id: Id, index: number}>} */
  async append(cursor, value, length) {
    const list = await this.#fixed(cursor);
    for (;;) {
      try {
        const { id, isHeld } = await this.#insert(list, length, value, 0, 0);
        if (isHeld) await this.#fillElement(0, 0, value);
        await this.#settle();
        return { id, index: length + 1 };
      } catch (error) {
        if (!isPastEnd(error) || length === 0) throw error;
        length = await lengthOf(this.#client, this.#document, list, length - 1);
      }
    }
  }

  /** A cursor that others can't move: one with indices is named at once.
   *  @param {Cursor} cursor
   *  @returns {Promise<Cursor>} */
  async #fixed(cursor) {
    if (cursor.slice(1).every((step) => typeof step === "string")) return cursor;
    await this.#client.let(this.#document, "put:", cursor);
    return ["put:"];
  }

  /** Sends a change without waiting for its reply. Throws if an earlier one has failed.
   *  @param {string} word
   *  @param {Cursor} cursor
   *  @param {any} value */
  async #change(word, cursor, value) {
    if (this.#failed) throw this.#failed;
    const reply = this.#client.ask(word, this.#document, cursor, value);
    this.#sent.push(reply.then(([, , id]) => void this.ids.push(id), (error) => {
      this.#failed ??= error;
    }));
    if (this.#sent.length >= AT_ONCE) await this.#settle();
  }

  async #settle() {
    await Promise.all(this.#sent.splice(0));
    if (this.#failed) throw this.#failed;
  }

  /** @param {Cursor} cursor
   *  @param {any} value
   *  @param {number} depth Of lists.
   *  @returns {Promise<void>} */
  async #assign(cursor, value, depth) {
    if (value instanceof Counter) {
      if (value.value !== undefined) await this.#assign(cursor, value.value, depth);
      return this.#add(cursor, value.sum);
    }
    await this.#change("assign", cursor, bare(value));
    await this.#fill(cursor, value, depth);
  }

  /** @param {Cursor} cursor
   *  @param {number | bigint} sum */
  async #add(cursor, sum) {
    for (const number of pieces(sum)) await this.#change("add", cursor, number);
  }

  /** @param {Cursor} cursor
   *  @param {any} value
   *  @param {number} depth
   *  @returns {Promise<void>} */
  async #fill(cursor, value, depth) {
    if (isArray(value)) return this.#fillList(cursor, value.filter(isGiven), depth);
    if (!isMap(value)) return;
    for (const [key, inner] of Object.entries(value)) {
      if (isGiven(inner)) await this.#assign([...cursor, key], inner, depth);
    }
  }

  /** From the last to the first, each at the head. Some elements are named before the first of
   *  them is filled.
   *  @param {Cursor} list
   *  @param {any[]} items
   *  @param {number} depth */
  async #fillList(list, items, depth) {
    const left = [...items];
    const width = ELEMENTS[depth] ?? 1;
    while (left.length > 0) {
      const named = [];
      while (left.length > 0 && named.length < width) {
        const item = left.pop();
        if (!isNested(item)) {
          await this.#change("insert", [...list, 0], item);
          continue;
        }
        const held = this.#insert(list, 0, item, depth, named.length);
        held.catch(() => {}); // it is awaited below
        named.push({ item, held });
      }
      const held = await Promise.all(named.map((it) => it.held));
      for (const [at, { item }] of named.entries()) {
        if (held[at].isHeld) await this.#fillElement(depth, at, item);
      }
    }
  }

  /** @param {number} depth
   *  @param {number} at
   *  @param {any} item */
  async #fillElement(depth, at, item) {
    const name = nameOf(depth, at);
    await this.#fill([name], item instanceof Counter ? item.value : item, depth + 1);
    if (item instanceof Counter) await this.#add([name], item.sum);
  }

  /** Inserts behind an index. If there is something to fill in, the element is named; `isHeld` says
   *  whether it still is what was inserted.
   *  @param {Cursor} list
   *  @param {number} index
   *  @param {any} item
   *  @param {number} depth
   *  @param {number} at
   *  @returns {Promise<{id: Id, isHeld: boolean}>} */
  async #insert(list, index, item, depth, at) {
    if (this.#failed) throw this.#failed;
    const [client, document, name] = [this.#client, this.#document, nameOf(depth, at)];
    const inserting = client.ask("insert", document, [...list, index], inserted(item));
    const naming = isNested(item) && this.#name(name, [...list, index + 1]);
    if (naming) naming.catch(() => {}); // an insertion that fails says it
    const [, , id] = await inserting.catch((error) => {
      this.#failed ??= isPastEnd(error) ? undefined : error;
      throw error;
    });
    this.ids.push(id);
    if (!naming) return { id, isHeld: false };
    const isHeld = has(await naming, id) || (await this.#find(name, list, id));
    return { id, isHeld };
  }

  /** Binds a name, and resolves what was put at the place that it then means.
   *  @param {string} name
   *  @param {Cursor} cursor
   *  @returns {Promise<[Id, any][]>} */
  async #name(name, cursor) {
    const [isBound, puts] = await Promise.all([
      this.#client.let(this.#document, name, cursor).then(() => true, isRefused),
      this.#client.conflicts(this.#document, [name]).catch(isRefused),
    ]);
    return (isBound && puts) || [];
  }

  /** Binds a name to the element of this id, wherever it is by now. Resolves whether it is there,
   *  with the value that was inserted.
   *  @param {string} name
   *  @param {Cursor} list
   *  @param {Id} id */
  async #find(name, list, id) {
    let replaced = 0; // how often in turn it stayed at its index, and had another value
    for (let tries = 0; tries < TRIES && replaced < 3; tries++) {
      const before = await this.#client.items(this.#document, list);
      const index = before.findIndex(([it]) => isSame(it, id));
      if (index < 0) return false;
      const naming = this.#name(name, [...list, index + 1]);
      const after = this.#client.items(this.#document, list);
      if (has(await naming, id)) return true;
      replaced = isSame((await after)[index]?.[0], id) ? replaced + 1 : 0;
    }
    if (replaced === 3) return false;
    throw new Error(`the list ${print(list)} changes too fast to find an element in it`);
  }
}

/** @param {number} depth
 *  @param {number} at */
const nameOf = (depth, at) => `put:${depth}:${at}`;

/** @param {Id | undefined} a
 *  @param {Id} b */
const isSame = (a, b) => a !== undefined && a[0] === b[0] && a[1] === b[1];

/** @param {[Id, any][]} puts
 *  @param {Id} id */
const has = (puts, id) => puts.some(([it]) => isSame(it, id));

/** False for a refusal; any other error is thrown.
 *  @param {Error} error
 *  @returns {false} */
function isRefused(error) {
  if (error instanceof Refused) return false;
  throw error;
}
