/* A text pad: typed into by several people, stored in this browser, exchanged over the hub. */

import { browserStore } from "../js/browser_store.mjs";
import { caretMarks } from "../js/caret_marks.mjs";
import { looksOf } from "../js/carets.mjs";
import { Provider } from "../js/provider.mjs";
import { bindText } from "../js/text_field.mjs";
import { keepCopies } from "./copies.mjs";
import { element, find, findField, save, wordsOf } from "./parts.mjs";

const documentName = new URLSearchParams(location.search).get("doc") ?? "page";
const text = findField(document, "#text");
const name = findField(document, "#name");
const NAME = "jcrdt pad name"; // of this browser, for all pads

/** Opens the pad, and says from then on how it is. */
async function opened() {
  const pad = await Provider.open({
    document: documentName,
    at: new URL("../lines", location.href.replace(/^http/, "ws")).href,
    store: browserStore(`${documentName} pad`),
    orMemory: true,
    word: "pad",
  });
  pad.listen(({ what }) => (what === "presence" ? showOthers(pad) : show(pad)));
  sayName(pad);
  addEventListener("beforeunload", (leaving) => {
    if (!pad.isStored) leaving.preventDefault();
  });
  show(pad);
  return pad;
}

/** @param {Provider} pad */
function show(pad) {
  find(document, "#state").textContent = stateOf(pad);
  const { word } = pad.state;
  const problems = [...pad.problems.values()].map(({ words }) => words).join(". ");
  find(document, "#problem").replaceChildren(problems, ...(word === "refused" ? ways(pad) : []));
}

/** How it is, in words. While the text is fetched, how far that is.
 *  @param {Provider} pad */
function stateOf({ state: { word, why }, progress }) {
  if (word === "connecting") {
    return progress ? `loading: ${progress.fetched} changes have come` : "loading";
  }
  return `${word} ${word === "refused" ? "" : why}`;
}

/** Says one's name to the others, now and when it is another.
 *  @param {Provider} pad */
function sayName(pad) {
  name.value = recalled();
  const say = () => pad.presence.set({ name: name.value.trim() || undefined, pad: true });
  name.addEventListener("input", () => {
    say();
    recall(name.value);
  });
  say();
}

/** The name that was given before, where the browser keeps it. */
function recalled() {
  try {
    return localStorage.getItem(NAME) ?? "";
  } catch {
    return "";
  }
}

/** @param {string} given */
function recall(given) {
  try {
    localStorage.setItem(NAME, given);
  } catch {
    // This browser keeps nothing for pages.
  }
}

/** Who else is here.
 *  @param {Provider} pad */
function showOthers(pad) {
  const shown = [...pad.presence.others].map(([guest, value]) => {
    const looks = looksOf(guest, value);
    const tag = element("span", "", looks.name);
    tag.style.backgroundColor = looks.color;
    return tag;
  });
  find(document, "#here").replaceChildren(...(shown.length > 0 ? ["Here: ", ...shown] : []));
}

/** What to do with changes that the server refuses, or where it has others of somebody.
 *  @param {Provider} pad */
function ways(pad) {
  const words = ["Save as a file", "Take them back", "Make them again"];
  const [keep, discard, again] = words.map((it) => element("button", "", it));
  keep.addEventListener("click", () => save(`${documentName}-pad.jcrdt`, pad.saved));
  discard.addEventListener("click", () => pad.discardRefused().catch(note));
  again.addEventListener("click", () => pad.remakeRefused().catch(note));
  return pad.state.refused?.differs ? [keep, discard, again] : [keep, discard];
}

/** @param {unknown} error */
function note(error) {
  find(document, "#note").textContent = error ? wordsOf(error) : "";
}

bindText(opened(), [0, "text"], text, {
  refused: note,
  carets: caretMarks(text),
  confirm: async (count) => confirm(`${count} characters, for good?`),
});
keepCopies().catch((error) => console.warn(error)); // after the replica: it needs the room more
