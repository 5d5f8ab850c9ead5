/* A text field of a page that several people type into: a list of characters at a place.

     import { bindText } from "jcrdt/text_field";
     bindText(Provider.open(options), [0, "text"], document.querySelector("textarea"));

   Caret and selection stay at their characters while others type, and Ctrl+Z takes back one's own
   typing alone. Each character is an operation, of the 100,000 that a document takes. What others
   type is shown soon: a long text that comes in parts leaves the browser time for other things. */

import { Carets, saidCaret } from "./carets.mjs";
import { paced } from "./pace.mjs";

/** @typedef {import("./provider.mjs").Provider} Provider */
/** @typedef {HTMLTextAreaElement | HTMLInputElement} Field */
/** @typedef {[number, string]} Id */
/** @typedef {{ id: Id, text: string }} Character */
/** @typedef {{ id?: Id, text?: string }} Element Of the list; without an id where it has just come. */

const NOTHING = () => {};
/** What the field is listened to for. */
const EVENTS = ["compositionstart", "compositionend", "beforeinput", "input", "keydown", "focus",
  "blur"];
const MOST_SINGLY = 1000; // so many elements that came are asked for one by one

/**
 * @typedef {object} TextOptions
 * @property {(error: unknown) => void} [refused] is called when an edit was refused; the field
 *   shows the text as it is then. And with `undefined` when the next one wasn't.
 * @property {number} [long] how many characters at once are asked for: 2,000 unless it is said
 * @property {(count: number) => Promise<boolean>} [confirm] asks whether so many are to come in;
 *   they do where there is none
 * @property {(carets: import("./carets.mjs").Caret[]) => void} [carets] is called with the carets of
 *   others whenever they are elsewhere: `caretMarks` of caret_marks.mjs draws them. With it the
 *   field's own caret is said to the others, while the field has the focus
 */

/** Shows the text at a place in a field, and takes what is typed there. What this returns ends it.
 *
 *  The field is read-only where the provider's `canWrite` is false. Given the promise of a
 *  provider, it is read-only until that is open: nothing is typed that would be lost. (In the
 *  page's HTML it begins with `readonly`, for the time until this is called.) If it can't be
 *  opened, `refused` is called with the error, and the field stays read-only.
 *  @param {Provider | Promise<Provider>} provider
 *  @param {(0 | string | number | Id)[]} place a list, or where one is to be
 *  @param {Field} field
 *  @param {TextOptions} [options]
 *  @returns {() => void} */
export function bindText(provider, place, field, options = {}) {
  if (!("then" in provider)) {
    const bound = new BoundText(provider, place, field, options);
    return () => bound.end();
  }
  let isEnded = false;
  let end = () => {
    isEnded = true;
  };
  field.readOnly = true;
  provider.then((opened) => {
    if (isEnded) return;
    field.readOnly = false;
    const bound = new BoundText(opened, place, field, options);
    end = () => bound.end();
  }).catch((error) => {
    if (!options.refused) throw error;
    options.refused(error);
  });
  return () => end();
}

class BoundText {
  /** @type {Character[]} what the field shows */
  #shown = [];
  #isBusy = false; // a character is being composed, or a question is open
  #isOwn = false;
  #isOld = true; // whether the list may have other characters than those shown
  #isEnded = false;
  #isForReading; // whether the page wants it to be read-only
  /** @type {Element[] | undefined} The list, as far as it is known. */
  #elements;
  #provider;
  #place;
  #field;
  #options;
  #unlisten = () => {};
  #unwatch = NOTHING;
  #carets;
  #showSoon = paced(() => this.#isEnded || this.#show());

  /** @param {Provider} provider
   *  @param {(0 | string | number | Id)[]} place
   *  @param {Field} field
   *  @param {TextOptions} options */
  constructor(provider, place, field, options) {
    this.#provider = provider;
    this.#place = place;
    this.#field = field;
    this.#options = options;
    this.#isForReading = field.readOnly;
    this.#carets = new Carets(place);
    for (const name of EVENTS) field.addEventListener(name, this);
    if (options.carets) field.ownerDocument.addEventListener("selectionchange", this);
    // A cursor with an index leads elsewhere once its list moves: there the list is read each time.
    const isFixed = place.every((step, at) => at === 0 || typeof step === "string");
    if (isFixed) this.#unwatch = provider.replica.watch(place, (splices) => this.#follow(splices));
    this.#unlisten = provider.listen(({ what }) => {
      if (what === "state") this.#lock();
      if (what === "presence") this.#showCarets();
      if (what !== "changed" || this.#isOwn) return;
      this.#isOld = true;
      this.#showSoon();
    });
    this.#lock();
    this.#show();
  }

  /** Lets nobody type what the server would refuse. */
  #lock() {
    this.#field.readOnly = this.#isForReading || this.#provider.canWrite === false;
  }

  end() {
    this.#isEnded = true;
    this.#unlisten();
    this.#unwatch();
    for (const name of EVENTS) this.#field.removeEventListener(name, this);
    if (!this.#options.carets) return;
    this.#field.ownerDocument.removeEventListener("selectionchange", this);
    this.#provider.presence.set({ caret: undefined });
  }

  /** @param {any} event */
  handleEvent(event) {
    if (["selectionchange", "focus", "blur"].includes(event.type)) return this.#sayCaret();
    if (event.type === "keydown") return this.#takeKey(event);
    if (event.type === "beforeinput") return this.#takeUndo(event);
    if (event.type === "compositionstart") this.#isBusy = true;
    if (event.type === "compositionend") this.#isBusy = false;
    if (!this.#isBusy) this.#takeInput();
  }

  /** Says to the others where the caret is: nowhere, where the field hasn't got the focus. What is
   *  typed and isn't taken yet has no elements, so nothing is said then. */
  #sayCaret() {
    const { carets } = this.#options;
    if (!carets || this.#isEnded || this.#isBusy) return;
    const { ownerDocument, value, selectionStart, selectionEnd } = this.#field;
    const isHere = ownerDocument.activeElement === this.#field;
    if (isHere && value.length !== offsetOf(this.#shown, this.#shown.length)) return;
    const [from, to] = [selectionStart ?? 0, selectionEnd ?? 0];
    const caret = isHere ? saidCaret(this.#place, this.#shown, from, to) : undefined;
    this.#provider.presence.set({ caret });
  }

  /** @param {(offset: number) => number} [moved] from the text that was shown before */
  #showCarets(moved) {
    this.#options.carets?.(this.#carets.in(this.#provider.presence.others, this.#shown, moved));
  }

  /** @param {KeyboardEvent} event */
  #takeKey(event) {
    if (!(event.ctrlKey || event.metaKey) || event.altKey) return;
    const key = event.key.toLowerCase();
    const isRedo = key === "y" || (key === "z" && event.shiftKey);
    if (key !== "z" && !isRedo) return;
    event.preventDefault(); // the browser's own takes back what others typed
    this.#turn(isRedo);
  }

  /** @param {InputEvent} event */
  #takeUndo(event) {
    if (!["historyUndo", "historyRedo"].includes(event.inputType)) return;
    event.preventDefault();
    this.#turn(event.inputType === "historyRedo");
  }

  /** @param {boolean} isRedo */
  #turn(isRedo) {
    const { replica } = this.#provider;
    this.#try(() => (isRedo ? replica.redo() : replica.undo()));
  }

  /** @param {() => void} act */
  #try(act) {
    try {
      act();
      this.#options.refused?.(undefined);
    } catch (error) {
      this.#options.refused?.(error);
      this.#showAgain();
    }
  }

  /** Makes what was typed into the field as edits. They name characters by their ids, so they have
   *  their places whatever others have typed since. */
  async #takeInput() {
    const { index, remove, insert } = this.#difference();
    const { confirm, long = 2000 } = this.#options;
    if (insert.length > long && confirm) {
      this.#isBusy = true;
      const isWanted = await confirm(insert.length).catch(() => false);
      this.#isBusy = false;
      if (this.#isEnded) return;
      if (!isWanted) return this.#showAnew();
    }
    if (remove > 0 || insert.length > 0) this.#edit(index, remove, insert);
    this.#showSoon(); // what came while the field was busy
  }

  #showAnew() {
    this.#shown = [];
    this.#field.value = "";
    this.#showAgain();
  }

  #showAgain() {
    this.#isOld = true;
    this.#show();
  }

  /** @param {number} index
   *  @param {number} remove
   *  @param {string[]} insert */
  #edit(index, remove, insert) {
    const { replica } = this.#provider;
    const gone = new Set(this.#shown.slice(index, index + remove).map(({ id }) => id));
    /** @type {Character[]} */
    const added = [];
    this.#isOwn = true;
    try {
      replica.group(() => {
        const before = index === 0 ? 0 : this.#shown[index - 1].id;
        for (const text of insert) {
          const id = replica.insert([...this.#place, added.at(-1)?.id ?? before], text);
          added.push({ id, text });
        }
        for (const id of gone) replica.delete([...this.#place, id]);
      });
      const old = this.#options.carets && [...this.#shown];
      this.#shown.splice(index, remove, ...added);
      this.#options.refused?.(undefined);
      if (old) this.#showCarets(movedBy(old, this.#shown));
      this.#sayCaret();
    } catch (error) {
      this.#isOld = true;
      this.#options.refused?.(error);
    }
    this.#isOwn = false;
  }

  /** How the field differs from what was shown in it, in characters: whole ones of the list. */
  #difference() {
    const now = [...this.#field.value];
    const old = this.#shown;
    const most = Math.min(old.length, now.length);
    const caret = [...this.#field.value.slice(0, this.#field.selectionEnd ?? 0)].length;
    const isSameFromEnd = (/** @type {number} */ at) =>
      old[old.length - 1 - at].text === now[now.length - 1 - at];
    // What is behind the caret wasn't typed: so of equal characters the right one is found.
    let behind = 0;
    while (behind < Math.min(most, now.length - caret) && isSameFromEnd(behind)) behind++;
    let before = 0;
    while (before < most - behind && old[before].text === now[before]) before++;
    while (behind < most - before && isSameFromEnd(behind)) behind++;
    const isCut = (/** @type {number} */ at) => old[at - 1]?.id === old[at]?.id;
    while (before > 0 && before < old.length && isCut(before)) before--;
    while (behind > 0 && behind < old.length && isCut(old.length - behind)) behind--;
    const remove = old.length - behind - before;
    return { index: before, remove, insert: now.slice(before, now.length - behind) };
  }

  // ---- What others typed

  /** @param {import("./events.mjs").Splice[]} splices */
  #follow(splices) {
    for (const { index, remove, insert } of splices) {
      if (insert.length > MOST_SINGLY) this.#elements = undefined;
      this.#elements?.splice(index, remove, ...insert.map(() => ({})));
    }
  }

  #read() {
    const isKnown = this.#elements && this.#elements.filter(({ id }) => !id).length <= MOST_SINGLY;
    const elements = isKnown && this.#elements ? this.#elements.map((it, at) => this.#named(it, at)) : this.#all();
    if (this.#unwatch !== NOTHING) this.#elements = elements;
    /** @type {Character[]} */
    const characters = [];
    for (const { id, text } of elements) if (text) for (const it of text) characters.push({ id, text: it });
    return characters;
  }

  #all() {
    return this.#provider.replica.items(this.#place).map(([id, values]) => ({ id, text: textOf(values) }));
  }

  /** @param {Element} element
   *  @param {number} at How many are before it. */
  #named({ id, text }, at) {
    if (id) return { id, text };
    const { replica } = this.#provider;
    const place = replica.place([...this.#place, at + 1]);
    return { id: /** @type {Id} */ (place[place.length - 1]), text: textOf(replica.values(place)) };
  }

  /** Shows the text as it is, with caret and selection at the characters where they were. */
  #show() {
    if (this.#isBusy || !this.#isOld) return;
    this.#isOld = false;
    const [old, now] = [this.#shown, this.#read()];
    const field = this.#field;
    const text = now.map((character) => character.text).join("");
    this.#shown = now;
    if (field.value === text) return this.#showCarets();
    const { selectionStart, selectionEnd, selectionDirection, scrollTop } = field;
    const moved = movedBy(old, now);
    const places = [selectionStart, selectionEnd].map((offset) => moved(offset ?? 0));
    field.value = text;
    if (field.ownerDocument.activeElement === field || selectionStart !== selectionEnd) {
      field.setSelectionRange(places[0], places[1], selectionDirection ?? "none");
    }
    field.scrollTop = scrollTop;
    this.#showCarets(moved);
    this.#sayCaret();
  }
}

/** What an element shows: its last value, if that is a text. A field has no carriage returns.
 *  @param {unknown[]} values */
function textOf(values) {
  const value = values[values.length - 1];
  return typeof value === "string" ? value.replaceAll("\r", "") : undefined;
}

/** @param {Id} a
 *  @param {Id} b */
const isSame = (a, b) => a[0] === b[0] && a[1] === b[1];

/** Where a place of the old text is in the new one, in UTF-16 units: behind the same character, or
 *  behind the last one before it that is still there.
 *  @param {Character[]} old
 *  @param {Character[]} now
 *  @returns {(offset: number) => number} */
function movedBy(old, now) {
  const most = Math.min(old.length, now.length);
  let before = 0;
  while (before < most && isSame(old[before].id, now[before].id)) before++;
  let behind = 0;
  const isSameFromEnd = (/** @type {number} */ at) =>
    isSame(old[old.length - 1 - at].id, now[now.length - 1 - at].id);
  while (behind < most - before && isSameFromEnd(behind)) behind++;
  const changed = now.slice(before, now.length - behind);
  return (offset) => {
    let count = countTo(old, offset);
    if (count > old.length - behind) return offsetOf(now, count - old.length + now.length);
    for (; count > before; count--) {
      const at = changed.findIndex(({ id }) => isSame(id, old[count - 1].id));
      if (at >= 0) return offsetOf(now, before + at + 1);
    }
    return offsetOf(now, count);
  };
}

/** How many characters begin before an offset.
 *  @param {Character[]} characters
 *  @param {number} offset */
function countTo(characters, offset) {
  let [count, at] = [0, 0];
  while (count < characters.length && at < offset) at += characters[count++].text.length;
  return count;
}

/** @param {Character[]} characters
 *  @param {number} count */
const offsetOf = (characters, count) =>
  characters.slice(0, count).reduce((sum, { text }) => sum + text.length, 0);
