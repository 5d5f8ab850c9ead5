/* One replica on the page: its fields, its conflicts, its front and its log. */

import { paced } from "../js/pace.mjs";
import { bindText } from "../js/text_field.mjs";
import { parse } from "../js/wire.mjs";
import { ValueField } from "./value_field.mjs";
import {
  ask, describe, element, find, findField, nameSide, save, showFront, wordsOf,
} from "./parts.mjs";

/** @typedef {import("../js/provider.mjs").Provider} Provider */

const TITLE = [0, "title"];
const ITEMS = [0, "shopping"];
const VOTES = [0, "votes"];
const TEXT = [0, "text"];
const MOST_SHOWN = 60; // operations of a log

export class Panel {
  /** What is put into the page. */
  root = element("div", "panel", []);
  #side;
  #provider;
  #title;
  /** @type {Map<string, Item>} by the written id of the element */
  #items = new Map();
  /** @type {string[]} the last lines of the log */
  #log = [];
  #count = 0;
  #renderSoon = paced(() => this.#render());

  /** @param {string} side
   *  @param {Provider} provider */
  constructor(side, provider) {
    const template = /** @type {HTMLTemplateElement} */ (find(document, "#panel"));
    this.root.append(template.content.cloneNode(true));
    this.#side = side;
    this.#provider = provider;
    this.#name();
    this.#title = new ValueField(provider, find(this.root, ".field"), TITLE);
    this.#listen();
    this.#bindText();
    const [, ...lines] = provider.replica.lines();
    this.#addToLog(lines);
    provider.listen((event) => this.#hear(event));
    this.#render();
    this.#showState();
    this.#showProblems();
  }

  /** Names this side and its parts, as for a screen reader. */
  #name() {
    const { name } = this.#provider.replica;
    const heading = find(this.root, "h2");
    Object.assign(heading, { id: `${this.#side}-name`, textContent: this.#side, title: name });
    for (const part of this.root.querySelectorAll("[data-name]")) {
      part.setAttribute("aria-label", `${this.#side}: ${part.getAttribute("data-name")}`);
    }
    for (const [selector, label] of [[".online", "online"], [".undo", "undo"], [".redo", "redo"]]) {
      find(this.root, selector).setAttribute("aria-label", `${this.#side}: ${label}`);
    }
    find(this.root, ".add-item button").setAttribute("aria-label", `${this.#side}: add the item`);
  }

  #listen() {
    const { replica } = this.#provider;
    const on = (/** @type {string} */ selector, /** @type {string} */ event,
      /** @type {(happened: any) => void} */ act) =>
      find(this.root, selector).addEventListener(event, act);
    on(".online", "change", ({ target }) =>
      (target.checked ? this.#provider.goOnline() : this.#provider.goOffline()));
    on(".undo", "click", () => this.#try(".votes-note", () => replica.undo()));
    on(".redo", "click", () => this.#try(".votes-note", () => replica.redo()));
    on(".down", "click", () => this.#try(".votes-note", () => replica.add(VOTES, -1)));
    on(".up", "click", () => this.#try(".votes-note", () => replica.add(VOTES, 1)));
    on(".add-item", "submit", (happened) => {
      happened.preventDefault();
      this.#addItem(findField(this.root, ".add-item input"));
    });
  }

  #bindText() {
    const field = /** @type {HTMLTextAreaElement} */ (find(this.root, ".text"));
    bindText(this.#provider, TEXT, field, {
      refused: (error) => this.#note(".text-note", error),
      confirm: async (count) => {
        const words = `This text has ${count.toLocaleString("en")} characters. Each is one of the`
          + " 100,000 changes that the document takes for good.";
        return (await ask(words, ["Don't insert", "Insert"])) === "Insert";
      },
    });
  }

  /** @param {HTMLInputElement} field */
  #addItem(field) {
    const item = field.value.trim();
    if (item === "") return;
    const { replica } = this.#provider;
    const isDone = this.#try(".add-item .note", () =>
      replica.insert([...ITEMS, replica.items(ITEMS).length], item));
    if (isDone) field.value = "";
  }

  /** Makes an edit, and says beside its field why it was refused. Returns whether it wasn't.
   *  @param {string} note
   *  @param {() => void} act */
  #try(note, act) {
    try {
      act();
      this.#note(note, undefined);
      return true;
    } catch (error) {
      this.#note(note, error);
      return false;
    }
  }

  /** @param {string} selector
   *  @param {unknown} error */
  #note(selector, error) {
    find(this.root, selector).textContent = error === undefined ? "" : wordsOf(error);
  }

  // ---- State and problems

  /** @param {import("../js/provider.mjs").Event} event */
  #hear({ what, why, lines = [] }) {
    if (what === "state") this.#showState();
    if (what === "state" || what === "problem") this.#showProblems();
    if (what !== "changed") return;
    if (why === "remade") [this.#log, this.#count] = [[], 0];
    if (why === "remade") nameSide(this.#side, this.#provider.replica.name);
    const [, ...all] = why === "remade" ? this.#provider.replica.lines() : ["", ...lines];
    this.#addToLog(all);
    if (why === "remade") this.#name();
    this.#renderSoon();
  }

  #showState() {
    const { word, since, why } = this.#provider.state;
    const time = since.toLocaleTimeString("en-GB", { hour: "2-digit", minute: "2-digit" });
    find(this.root, ".state").textContent = word === "offline" ? `offline since ${time}: ${why}`
      : word;
    findField(this.root, ".online").checked = this.#provider.isSwitchedOn;
    this.root.parentElement?.setAttribute("data-state", word);
    this.root.dataset.state = word;
  }

  #showProblems() {
    const problems = [...this.#provider.problems.values()];
    const notices = problems.map(({ kind, words, lines }) => {
      const notice = element("p", kind, [words]);
      if (lines?.length) notice.append(this.#saveButton(kind, lines));
      if (kind === "refused") notice.append(...this.#refusedButtons());
      return notice;
    });
    find(this.root, ".notice").replaceChildren(...notices);
  }

  /** @param {string} kind
   *  @param {string[]} lines */
  #saveButton(kind, lines) {
    const button = element("button", "", "Save as a file");
    button.addEventListener("click", () => {
      const text = kind === "unread" ? lines.join("\n") : this.#provider.saved;
      save(`${this.#provider.replica.doc}-${this.#side}.jcrdt`, text);
    });
    return button;
  }

  /** What to do with changes that the server refuses, or where it has others of somebody. */
  #refusedButtons() {
    const provider = this.#provider;
    const [discard, again] = ["Take them back", "Make them again"].map((it) => element("button", "", it));
    const note = (/** @type {unknown} */ error) => this.#note(".votes-note", error);
    discard.addEventListener("click", () => provider.discardRefused().catch(note));
    again.addEventListener("click", () => provider.remakeRefused().catch(note));
    return provider.state.refused?.differs ? [discard, again] : [discard];
  }

  // ---- What is shown

  #render() {
    const { replica } = this.#provider;
    this.#title.render();
    this.#renderItems();
    this.#renderLog();
    find(this.root, ".votes").textContent = String(replica.sum(VOTES));
    showFront(find(this.root, ".own-front"), replica.front());
  }

  #renderItems() {
    const list = find(this.root, ".items");
    const present = new Set();
    let at = /** @type {Element | null} */ (list.firstElementChild);
    for (const [id] of this.#provider.replica.items(ITEMS)) {
      const key = JSON.stringify(id);
      present.add(key);
      const item = this.#items.get(key) ?? new Item(this.#provider, this.#side, [...ITEMS, id]);
      this.#items.set(key, item);
      // Elements never change their order: a new one goes in between, and no other moves.
      while (at && at !== item.root && this.#isPassed(at, item)) at = at.nextElementSibling;
      if (at === item.root) at = at.nextElementSibling;
      else if (!item.root.isConnected) list.insertBefore(item.root, at);
      item.render();
    }
    for (const [key, item] of this.#items) {
      if (present.has(key) || !item.leave()) continue;
      this.#items.delete(key);
    }
  }

  /** Whether an item of the page is one that was deleted, and comes before another.
   *  @param {Element} at
   *  @param {Item} item */
  #isPassed(at, item) {
    return item.root.isConnected && at.compareDocumentPosition(item.root)
      === Node.DOCUMENT_POSITION_FOLLOWING;
  }

  /** @param {string[]} lines */
  #addToLog(lines) {
    this.#count += lines.length;
    this.#log = [...this.#log, ...lines.slice(-MOST_SHOWN)].slice(-MOST_SHOWN);
  }

  #renderLog() {
    const items = this.#log.map((line) => element("li", "", describe(parse(line))));
    find(this.root, ".log").replaceChildren(...items.reverse());
    find(this.root, ".count").textContent = String(this.#count);
  }
}

/** An item of the shopping list. The cursor names its element by its id. */
class Item {
  root = element("li", "field", []);
  #provider;
  #cursor;
  #value;
  #field;
  #remove = element("button", "remove", "×");

  /** @param {Provider} provider
   *  @param {string} side
   *  @param {any[]} cursor */
  constructor(provider, side, cursor) {
    this.#provider = provider;
    this.#cursor = cursor;
    this.#field = document.createElement("input");
    this.#field.className = "item";
    this.#field.setAttribute("aria-label", `${side}: item`);
    this.#remove.title = "Delete";
    const note = element("p", "note", []);
    note.setAttribute("role", "alert");
    this.root.append(this.#field, this.#remove, note, element("div", "conflict", []));
    this.#value = new ValueField(provider, this.root, cursor);
    this.#remove.addEventListener("click", () => this.#delete());
    this.#field.addEventListener("blur", () => this.root.dataset.gone && this.leave());
  }

  #delete() {
    const next = this.root.nextElementSibling ?? this.root.previousElementSibling;
    const near = next?.querySelector(".remove")
      ?? this.root.closest(".card")?.querySelector(".add-item input");
    const isDone = this.#value.try(() => this.#provider.replica.delete(this.#cursor));
    if (isDone && near instanceof HTMLElement) near.focus();
  }

  render() {
    this.#value.render();
    this.#remove.setAttribute("aria-label", `delete ${this.#field.value}`);
  }

  /** Leaves the page, but for what is being typed into it. Returns whether it left.  */
  leave() {
    const isTypedIn = document.activeElement === this.#field;
    if (isTypedIn || this.#value.isHalfTyped) {
      this.root.dataset.gone = "true";
      this.#value.goneFrom(ITEMS);
      return false;
    }
    this.root.remove();
    return true;
  }
}
