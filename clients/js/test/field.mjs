/* A text field without a browser, for tests of bindText. Isn't run by itself. */

globalThis.requestAnimationFrame ??= (then) => Number(setTimeout(then, 1));

export class Field extends EventTarget {
  value = "";
  readOnly = false;
  selectionStart = 0;
  selectionEnd = 0;
  selectionDirection = "none";
  scrollTop = 0;
  /** @type {any} */
  ownerDocument = Object.assign(new EventTarget(), { activeElement: this });

  /** @param {number} start
   *  @param {number} end */
  setSelectionRange(start, end) { [this.selectionStart, this.selectionEnd] = [start, end]; }

  /** @param {number} at
   *  @param {string} text */
  type(at, text) {
    this.value = this.value.slice(0, at) + text + this.value.slice(at);
    this.selectionStart = this.selectionEnd = at + text.length;
    this.dispatchEvent(new Event("input"));
  }

  /** Puts the caret somewhere, or selects, as a person does.
   *  @param {number} start
   *  @param {number} [end] */
  select(start, end = start) {
    this.setSelectionRange(start, end);
    this.ownerDocument.dispatchEvent(new Event("selectionchange"));
  }

  /** @param {boolean} hasFocus */
  focus(hasFocus) {
    this.ownerDocument.activeElement = hasFocus ? this : undefined;
    this.dispatchEvent(new Event(hasFocus ? "focus" : "blur"));
  }
}
