/* Draws the carets of others over a text field of a page: a line of each one's colour, with a name.

     bindText(provider, [0, "text"], field, { carets: caretMarks(field) });

   A layer lies over the field, of the same size and text, which is transparent: so the browser says
   where a character is. The field's parent is to be positioned, as by `position: relative`. */

/** @typedef {import("./carets.mjs").Caret} Caret */

/** What the layer has of the field's style, so that its lines break where the field's do. */
const ALIKE = /** @type {const} */ (["font", "letterSpacing", "wordSpacing", "lineHeight",
  "tabSize", "textIndent", "textTransform", "textAlign", "direction", "paddingTop", "paddingRight",
  "paddingBottom", "paddingLeft", "borderTopWidth", "borderRightWidth", "borderBottomWidth",
  "borderLeftWidth"]);
const LAYER = { position: "absolute", overflow: "hidden", pointerEvents: "none",
  color: "transparent", whiteSpace: "pre-wrap", overflowWrap: "break-word", boxSizing: "border-box",
  borderStyle: "solid", borderColor: "transparent" };
const MARK = { position: "absolute", width: "2px", pointerEvents: "none" };
const NAME = { position: "absolute", left: "0", bottom: "100%", padding: "0 4px", color: "#fff",
  font: "11px/1.4 system-ui, sans-serif", whiteSpace: "nowrap", borderRadius: "3px 3px 3px 0" };

/** A function that shows these carets in place of those before, as `bindText` calls it.
 *  @param {HTMLTextAreaElement | HTMLInputElement} field
 *  @returns {(carets: Caret[]) => void} */
export function caretMarks(field) {
  const { ownerDocument: page } = field;
  const layer = page.createElement("div");
  const text = layer.appendChild(page.createTextNode(""));
  Object.assign(layer.style, LAYER);
  layer.setAttribute("aria-hidden", "true");
  layer.className = "carets";
  /** @type {Caret[]} */
  let shown = [];
  const draw = () => {
    for (const mark of layer.querySelectorAll(".caret")) mark.remove();
    if (shown.length === 0) return layer.remove();
    if (!layer.isConnected) field.after(layer);
    fit(field, layer);
    if (text.data !== field.value) text.data = field.value;
    layer.scrollTop = field.scrollTop;
    layer.append(...shown.map((caret) => markOf(layer, text, caret)));
  };
  field.addEventListener("scroll", draw);
  if (typeof ResizeObserver === "function") new ResizeObserver(draw).observe(field);
  return (carets) => {
    shown = carets;
    draw();
  };
}

/** Lays the layer over the field.
 *  @param {HTMLElement} field
 *  @param {HTMLElement} layer */
function fit(field, layer) {
  const { style } = layer;
  const looks = getComputedStyle(field);
  for (const name of ALIKE) style[name] = looks[name];
  // A scroll bar takes room of the field's lines, and not of the layer's.
  const bar = field.offsetWidth - field.clientWidth - parseFloat(looks.borderLeftWidth)
    - parseFloat(looks.borderRightWidth);
  Object.assign(style, { left: `${field.offsetLeft}px`, top: `${field.offsetTop}px`,
    width: `${field.offsetWidth - Math.max(0, bar)}px`, height: `${field.offsetHeight}px` });
}

/** @param {HTMLElement} layer
 *  @param {Text} text
 *  @param {Caret} caret */
function markOf(layer, text, { from, to, name, color }) {
  const page = layer.ownerDocument;
  const [mark, label] = [page.createElement("span"), page.createElement("span")];
  mark.className = "caret";
  label.textContent = name;
  const place = placeOf(layer, text, to);
  Object.assign(mark.style, MARK, place, { backgroundColor: color });
  Object.assign(label.style, NAME, { backgroundColor: color });
  if (from !== to) mark.dataset["selected"] = String(to - from);
  mark.append(label);
  return mark;
}

/** Where an offset of the text is in the layer.
 *  @param {HTMLElement} layer
 *  @param {Text} text
 *  @param {number} offset */
function placeOf(layer, text, offset) {
  const range = layer.ownerDocument.createRange();
  range.setStart(text, Math.min(offset, text.data.length));
  range.collapse(true);
  const [at = range.getBoundingClientRect()] = range.getClientRects();
  const base = layer.getBoundingClientRect(); // what is in the layer is placed within its border
  const height = at.height || parseFloat(getComputedStyle(layer).lineHeight) || 16;
  return { left: `${at.left - base.left - layer.clientLeft + layer.scrollLeft}px`,
    top: `${at.top - base.top - layer.clientTop + layer.scrollTop}px`, height: `${height}px` };
}
