/* Small parts of the page. */

/** @typedef {[number, string]} Id */

/** An element of the page with a class, and with text or other elements in it.
 *  @param {string} tag
 *  @param {string} className
 *  @param {string | (string | Node)[]} content
 *  @returns {HTMLElement} */
export function element(tag, className, content) {
  const made = document.createElement(tag);
  made.className = className;
  made.append(...[content].flat());
  return made;
}

/** The element of a selector, which is there.
 *  @param {ParentNode} root
 *  @param {string} selector
 *  @returns {HTMLElement} */
export function find(root, selector) {
  const found = root.querySelector(selector);
  if (!(found instanceof HTMLElement)) throw new Error(`the page has no ${selector}`);
  return found;
}

/** The field of a selector.
 *  @param {ParentNode} root
 *  @param {string} selector
 *  @returns {HTMLInputElement} */
export function findField(root, selector) {
  return /** @type {HTMLInputElement} */ (find(root, selector));
}

/** What the names of replicas are shown as: no two alike.
 *  @type {Map<string, string>} */
const labels = new Map();
/** The sides of this page, by the names of their replicas.
 *  @type {Map<string, string>} */
const sides = new Map();

/** A side of this page is this replica from now on: it is shown as `ada`, in the side's colour.
 *  @param {string} side
 *  @param {string} name */
export function nameSide(side, name) {
  for (const [old] of [...sides].filter(([, it]) => it === side)) {
    sides.delete(old);
    labels.delete(old);
  }
  sides.set(name, side);
  labels.set(name, side);
}

/** A replica's name as it is shown: that of another browser as `ada·x7k`, with as much of what makes
 *  it unique as tells it from those that were shown before.
 *  @param {string} name */
function shortName(name) {
  const known = labels.get(name);
  if (known) return known;
  const [, word = "", unique = ""] = /^(.+)-([a-z2-7]{10})$/.exec(name) ?? [];
  const taken = new Set(labels.values());
  const parts = Array.from(unique, (_, at) => `${word}·${unique.slice(0, at + 1)}`).slice(2);
  const label = [...parts, name].find((it) => !taken.has(it)) ?? `“${name}”`;
  labels.set(name, label);
  return label;
}

/** @param {string} name
 *  @param {string} text */
function nameOf(name, text) {
  const made = element("span", `name ${sides.get(name) ?? ""}`.trim(), text);
  made.title = name;
  return made;
}

/** An id as it is shown: `3 ada`.
 *  @param {Id} id */
export const idOf = ([counter, name]) => nameOf(name, `${counter} ${shortName(name)}`);

/** A value as it is shown.
 *  @param {unknown} value
 *  @returns {string} */
export function textOf(value) {
  if (Array.isArray(value)) return "a list";
  if (typeof value === "object" && value !== null) return "a map";
  return typeof value === "string" ? value : String(value);
}

/** An operation as it is shown: its id, and `insert "eggs" shopping[3 ada]`.
 *  @param {any} operation
 *  @returns {HTMLElement[]} */
export function describe([, id, , [path, key], [word, value]]) {
  const keys = [...path.map((/** @type {any} */ item) => item[1]), key].slice(1).map((it) => {
    if (Array.isArray(it)) return `[${it[0]} ${shortName(it[1])}]`;
    return it === 1 ? "[head]" : it;
  });
  const what = value === undefined ? "" : typeof value === "bigint" ? value : JSON.stringify(value);
  return [idOf(id), element("span", "what", `${word} ${what} ${keys.join("")}`)];
}

/** @param {HTMLElement} place
 *  @param {[string, number][]} front */
export function showFront(place, front) {
  const names = front.map(([name, counter]) => nameOf(name, `${shortName(name)} ${counter}`));
  place.replaceChildren(...names);
}

let asked = Promise.resolve(""); // the last question

/** Asks a question in a dialog, once those before it are answered. Resolves with the answer, or with
 *  the first one if it is closed.
 *  @param {string} words
 *  @param {string[]} answers
 *  @returns {Promise<string>} */
export const ask = (words, answers) => (asked = asked.then(() => askNow(words, answers)));

/** @param {string} words
 *  @param {string[]} answers
 *  @returns {Promise<string>} */
function askNow(words, answers) {
  const dialog = /** @type {HTMLDialogElement} */ (find(document, "#question"));
  find(dialog, "p").textContent = words;
  const buttons = answers.map((answer) => {
    const button = element("button", "", answer);
    button.addEventListener("click", () => dialog.close(answer));
    return button;
  });
  find(dialog, ".answers").replaceChildren(...buttons);
  dialog.returnValue = answers[0];
  dialog.showModal();
  return new Promise((resolve) => {
    dialog.addEventListener("close", () => resolve(dialog.returnValue), { once: true });
  });
}

/** Has the browser save a text as a file.
 *  @param {string} name
 *  @param {string} text */
export function save(name, text) {
  const url = URL.createObjectURL(new Blob([text], { type: "text/plain" }));
  const link = document.createElement("a");
  Object.assign(link, { href: url, download: name });
  link.click();
  setTimeout(() => URL.revokeObjectURL(url), 60_000);
}

/** What is said of refusals, by their names. */
const REFUSED = new Map([
  ["bad-value", "A text has at most 4,096 bytes, which is as many plain letters, and a number 64"
    + " bits."],
  ["index-past-end", "Another has deleted that place."],
  ["bad-cursor", "Another has deleted that place."],
  ["log-full", "The document is full: it takes 100,000 changes. Its content has to be put into a new"
    + " one."],
  ["too-many-replicas", "The document is full: it takes 256 replicas, and this would be one more."
    + " Its content has to be put into a new one."],
]);

/** Why an edit was refused, in words.
 *  @param {unknown} error */
export function wordsOf(error) {
  const { code = "", message = String(error) } = /** @type {any} */ (error);
  return REFUSED.get(code) ?? message;
}
