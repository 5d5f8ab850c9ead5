/* A field for one scalar at a place, with the values in conflict there below it. */

import { ask, element, find, findField, idOf, textOf, wordsOf } from "./parts.mjs";

/** @typedef {import("../js/provider.mjs").Provider} Provider */

export class ValueField {
  #provider;
  #cursor;
  #field;
  #note;
  #conflict;
  #shown = ""; // the value that the field had when nothing was typed
  #isRefused = false;
  /** @type {any[] | undefined} the list, where the element was deleted by another */
  #list;
  #conflictKey = "";

  /** @param {Provider} provider
   *  @param {HTMLElement} root has an input, a .note and a .conflict
   *  @param {any[]} cursor */
  constructor(provider, root, cursor) {
    this.#provider = provider;
    this.#cursor = cursor;
    this.#field = findField(root, "input");
    this.#note = find(root, ".note");
    this.#conflict = find(root, ".conflict");
    this.#field.addEventListener("change", () => this.#take());
    this.#field.addEventListener("blur", () => this.render());
    this.#field.addEventListener("keydown", ({ key }) => key === "Escape" && this.#giveUp());
  }

  /** Whether the field has what was typed and isn't stored. */
  get isHalfTyped() {
    return this.#field.value !== this.#shown;
  }

  /** The values here that are no scalars, "a map" or "a list". */
  get #others() {
    const values = this.#provider.replica.conflicts(this.#cursor).map((/** @type {any} */ it) => it[1]);
    return values.filter((/** @type {any} */ it) => typeof it === "object" && it !== null);
  }

  #take() {
    if (this.#list) return this.#insertAgain(this.#list);
    const [other] = this.#others; // that came while this was typed
    if (other) this.#say(`Not stored. ${irreplaceable(other)}`);
    else if (this.try(() => this.#provider.replica.assign(this.#cursor, this.#field.value))) {
      this.#shown = this.#field.value;
      return;
    }
    this.#isRefused = true;
    this.#field.setAttribute("aria-invalid", "true");
  }

  /** @param {any[]} list */
  #insertAgain(list) {
    const { replica } = this.#provider;
    const text = this.#field.value;
    if (this.try(() => replica.insert([...list, replica.items(list).length], text))) {
      this.#shown = this.#field.value;
      this.#field.blur();
    }
  }

  /** Goes back to what is stored. */
  #giveUp() {
    this.#field.value = this.#shown;
    this.render();
  }

  /** Makes an edit, and says here why it was refused. Returns whether it wasn't.
   *  @param {() => void} act */
  try(act) {
    try {
      act();
      this.#isRefused = false;
      this.#field.removeAttribute("aria-invalid");
      this.#say("");
      return true;
    } catch (error) {
      this.#say(`Not stored. ${wordsOf(error)}`);
      return false;
    }
  }

  /** @param {string} words */
  #say(words) {
    if (this.#note.textContent !== words) this.#note.textContent = words;
  }

  /** The element was deleted by another, while something was typed here.
   *  @param {any[]} list */
  goneFrom(list) {
    this.#list = list;
    this.#say("Another has deleted this item. Enter adds it again as you have it here.");
  }

  render() {
    if (this.#list) return;
    const { replica } = this.#provider;
    const value = replica.values(this.#cursor).at(-1);
    const others = this.#others;
    const text = value !== undefined ? textOf(value) : others.length ? textOf(others[0]) : "";
    this.#field.readOnly = others.length > 0;
    if (this.isHalfTyped) this.#keep(text);
    else {
      if (this.#field.value !== text) this.#field.value = text;
      this.#shown = text;
      this.#say(others.length ? `There is ${textOf(others[0])}, which can't be edited here.` : "");
    }
    this.#renderConflict();
  }

  /** Keeps what was typed, and says beside it what another has put there.
   *  @param {string} text */
  #keep(text) {
    const isTypedIn = document.activeElement === this.#field;
    if (!isTypedIn && !this.#isRefused) {
      this.#field.value = this.#shown = text;
      return this.#say("");
    }
    if (text === this.#shown) return;
    const [other] = this.#others;
    this.#say(other ? irreplaceable(other)
      : `Another has put “${text}” here. Yours replaces it; Escape keeps it.`);
    const typed = this.#field.value;
    this.#shown = text;
    this.#field.value = typed;
  }

  /** Several values at the place: a button for each scalar, which keeps it. */
  #renderConflict() {
    const values = this.#provider.replica.conflicts(this.#cursor);
    const key = values.length < 2 ? "" : JSON.stringify(values, (_, it) =>
      (typeof it === "bigint" ? String(it) : it));
    if (key === this.#conflictKey) return;
    this.#conflictKey = key;
    const hadFocus = this.#conflict.contains(document.activeElement);
    const parts = values.map((/** @type {[any, any]} */ [id, value]) => this.#choice(id, value));
    const hint = element("span", "hint", "conflict: keep");
    this.#conflict.replaceChildren(...(values.length < 2 ? [] : [hint, ...parts]));
    if (hadFocus) this.#field.focus();
  }

  /** @param {any} id
   *  @param {any} value */
  #choice(id, value) {
    const parts = [element("b", "", textOf(value)), idOf(id)];
    if (typeof value === "object" && value !== null) return element("span", "choice", parts);
    const button = element("button", "choice", parts);
    button.addEventListener("click", () => this.#choose(value));
    return button;
  }

  /** @param {any} value */
  async #choose(value) {
    const [other] = this.#others;
    const words = `What is in ${other && textOf(other)} at this place is deleted by that.`;
    if (other && (await ask(words, ["Keep both", "Delete it"])) !== "Delete it") return;
    this.try(() => this.#provider.replica.assign(this.#cursor, value));
  }
}

/** What is said of a map or list where a text was typed.
 *  @param {any} other */
const irreplaceable = (other) =>
  `Another has put ${textOf(other)} here, which can't be replaced here. Escape shows it.`;
