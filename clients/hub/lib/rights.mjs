/* What a client may do: by `admit`, a function of who runs the hub. */

/** @typedef {import("../index.js").Admission} Admission */

const NAME = /[^A-Za-z0-9_.@-]/g; // what a client's name doesn't have
const MOST_NAME = 32;

/** What a client may do, by document. */
export class Rights {
  #read;
  #write;
  #create;
  /** Whether it may ask which documents there are. */
  mayList;
  /** What others hear it as, without the number that follows. */
  name;
  /** Whether it may do everything. */
  isFull;

  /** @param {Admission} admission */
  constructor({ read = false, write = false, create = write, list, name = "guest" }) {
    this.#read = read;
    this.#write = write;
    this.#create = create;
    this.mayList = list ?? (read === true || write === true);
    this.isFull = write === true;
    this.name = String(name).replace(NAME, "_").slice(0, MOST_NAME) || "guest";
  }

  /** Who may write may read.
   *  @param {string} document */
  mayRead = (document) => includes(this.#read, document) || this.mayWrite(document);
  /** @param {string} document */
  mayWrite = (document) => includes(this.#write, document);
  /** Whether the document is made when it opens it.
   *  @param {string} document */
  mayCreate = (document) => includes(this.#create, document);
}

/** @param {import("../index.js").Documents} documents @param {string} document */
function includes(documents, document) {
  if (typeof documents === "function") return documents(document) === true;
  return Array.isArray(documents) ? documents.includes(document) : documents === true;
}
