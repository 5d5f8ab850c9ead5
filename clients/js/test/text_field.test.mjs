/* A field of a page that stands in for a browser's: what is typed, and what others type. */

import { deepEqual, equal, match, ok, rejects } from "node:assert/strict";
import { test } from "node:test";
import { Replica } from "../index.mjs";
import { Provider, Unstored, memoryStore } from "../provider.mjs";
import { bindText } from "../text_field.mjs";
import { engines } from "./engines.mjs";
import { Field } from "./field.mjs";
import { cpuOf, slowness, tooLong, until } from "./support.mjs";

const MANY = 40_000;
const KEYS = 20;
const frame = () => new Promise((then) => requestAnimationFrame(() => setTimeout(then)));

for (const [title, engine] of engines) {
  /** @param {string} text */
  async function bound(text) {
    const pad = await Provider.open({ document: "d", engine });
    pad.replica.put([0, "text"], [...text]);
    const field = new Field();
    const end = bindText(pad, [0, "text"], /** @type {any} */ (field));
    return { pad, field, end };
  }

  test(`${title}: a field shows what is typed here and elsewhere`, async () => {
    const { pad, field, end } = await bound("Hello");
    equal(field.value, "Hello");
    field.type(5, "!");
    const other = new Replica("bob", "d");
    other.deliverAll([...pad.replica.operations()]);
    other.splice([0, "text"], 0, 1, "J");
    pad.replica.deliverAll([...other.operations(pad.replica.front())]);
    await until("it is shown", () => field.value === "Jello!");
    equal(field.selectionStart, 6);
    field.type(5, "😀");
    equal(pad.replica.text([0, "text"]), "Jello😀!");
    other.put([0, "text"], [..."anew"]);
    pad.replica.deliverAll([...other.operations(pad.replica.front())]);
    await until("both are shown", () => field.value === pad.replica.text([0, "text"]));
    ok(field.value.includes("anew") && field.value.includes("😀"), field.value);
    end();
    await pad.close();
  });

  test(`${title}: an edit that is refused isn't shown any longer`, async () => {
    const { pad, field, end } = await bound("a");
    field.type(1, "\ud800");
    await until("it is gone", () => field.value === "a");
    field.type(1, "b");
    equal(pad.replica.text([0, "text"]), "ab");
    end();
    await pad.close();
  });

  test(`${title}: a key in a field of ${MANY} characters`, { timeout: 900_000, skip: tooLong }, async (context) => {
    const { pad, field, end } = await bound("x".repeat(MANY));
    await until("all is shown", () => field.value.length === MANY);
    const took = await cpuOf(async () => {
      for (let at = 0; at < KEYS; at++) {
        field.type(at * 1000, "k");
        await frame(); // what is shown behind it counts, too
      }
    });
    context.diagnostic(`a key: ${(took / KEYS).toFixed(2)} ms`);
    ok(took < KEYS * 60 * slowness(), `a key: ${took / KEYS} ms`);
    const other = Replica.restore(pad.replica.lines().map((it, at) => (at ? it : '["replica","bob","d"]')));
    const theirs = await cpuOf(async () => {
      for (let at = 0; at < KEYS; at++) {
        other.splice([0, "text"], at * 1500, 1, "bb");
        pad.replica.deliverAll([...other.operations(pad.replica.front())]);
        await until("it is shown", () => field.value.split("bb").length === at + 2);
      }
    });
    context.diagnostic(`a key of another, and waiting for it: ${(theirs / KEYS).toFixed(2)} ms`);
    ok(theirs < KEYS * 150 * slowness(), `a key of another: ${theirs / KEYS} ms`);
    equal(pad.replica.text([0, "text"]), field.value);
    end();
    await pad.close();
  });
}

test("given the promise of a provider, a field is read-only until that is open", async () => {
  const field = new Field();
  /** @type {(pad: Provider) => void} */
  let open = () => {};
  const end = bindText(new Promise((resolve) => (open = resolve)), [0, "text"], /** @type {any} */ (field));
  equal(field.readOnly, true);
  const pad = await Provider.open({ document: "d" });
  pad.replica.put([0, "text"], [..."Hello"]);
  open(pad);
  await until("it is bound", () => field.value === "Hello");
  equal(field.readOnly, false);
  field.type(5, "!");
  equal(pad.replica.text([0, "text"]), "Hello!");
  end();
  field.type(6, "?");
  equal(pad.replica.text([0, "text"]), "Hello!");
  await pad.close();
});

test("a provider that can't be opened: the field stays read-only, and it is said", async () => {
  const field = new Field();
  /** @type {unknown[]} */
  const said = [];
  const cause = new Error("the store is another's");
  bindText(Promise.reject(cause), [0, "text"], /** @type {any} */ (field), { refused: (error) => said.push(error) });
  await until("it is said", () => said.length > 0);
  deepEqual(said, [cause]);
  equal(field.readOnly, true);
});

test("a store that can't be opened: in memory if that is wanted, and it is said", async () => {
  const store = { ...memoryStore(), open: () => { throw new Unstored("no room"); } };
  await rejects(Provider.open({ document: "d", store }), Unstored);
  const pad = await Provider.open({ document: "d", store, orMemory: true });
  match(pad.problems.get("memory")?.words ?? "", /^Nothing can be stored here \(no room\)\. /);
  pad.replica.assign([0, "title"], "Plan");
  equal(pad.isStored, true);
  await pad.close();
});
