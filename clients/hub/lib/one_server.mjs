/* The documents of one server, which was started by somebody else: all sessions are of one pool. */

/** @typedef {import("./pool.mjs").Pool} Pool */
/** @typedef {import("./state.mjs").Places} Places */

/** @implements {Places} */
export class OneServer {
  #pool;

  /** @param {Pool} pool */
  constructor(pool) {
    this.#pool = pool;
  }

  get pools() {
    return [this.#pool];
  }

  get version() {
    return this.#pool.version;
  }

  get health() {
    const { links, sessions, since, trouble } = this.#pool;
    return {
      connected: links.length > 0,
      since: since.toISOString(),
      sessions: { got: links.length, wanted: sessions.length },
      ...(trouble && { trouble }),
    };
  }

  /** @param {string} _ @param {(pool: Pool) => Promise<string>} work */
  use = (_, work) => work(this.#pool);

  watching = () => this.#pool.watching;

  async stop() {
    this.#pool.stop();
  }
}
