/* The operations of a renewal, while a document goes on: engines that random edits have conflict, and one
   that gets what begins the next generation. It shows the same each time, and its elements are those that
   the map says. */

import { deepEqual, equal } from "node:assert/strict";
import { test } from "node:test";
import { load } from "../../js/jcrdt.mjs";
import { parse } from "../../js/wire.mjs";
import { dice } from "../../js/test/random.mjs";
import { Renewal, showSame } from "../lib/renewal.mjs";

const HISTORIES = Number(process.env.HISTORIES ?? 100);
const SEED = Number(process.env.SEED ?? Date.now() % 2 ** 31);
const KEYS = ["x", "y", ""];
const VALUES = [1, 2, "a", true, null, 2n ** 60n, {}, {}, []];

const open = await load();
const asked = (engine, ...request) => engine.ask(request).reply[1];

/** What an engine shows, with the ids of elements, as the hub reads it. */
function read(engine) {
  const shown = asked(engine, "show", [0]);
  const look = (branches, cursor) => {
    for (const [kind, inner] of branches) {
      if (kind === "map") for (const [key, it] of inner) look(it, [...cursor, key]);
      if (kind !== "list" || inner.length === 0) continue;
      const items = asked(engine, "items", cursor);
      for (const [at, it] of inner.entries()) look(Object.assign(it, { element: items[at][0] }), [...cursor, at + 1]);
    }
  };
  look(shown, [0]);
  return shown;
}

/** What is shown, in a form of this test's own: scalars that conflict have no order. */
function known(branches) {
  const texts = branches.filter(([kind]) => kind === "val").map(([, , it]) => `${typeof it} ${it}`).sort();
  const others = branches.filter(([kind]) => kind !== "val").map(([kind, inner]) => {
    if (kind === "map") return [kind, inner.map(([key, it]) => [key, known(it)])];
    return [kind, kind === "list" ? inner.map(known) : inner];
  });
  return [texts, others];
}

/** The elements of all lists, in the order of a walk. */
function elements(branches) {
  const inside = ([kind, inner]) => (kind === "map" ? inner.flatMap(([, it]) => elements(it))
    : kind === "list" ? [...inner.map((it) => it.element), ...inner.flatMap(elements)] : []);
  return branches.flatMap(inside);
}

/** A place, somewhere below the document. */
function cursor({ below, pick, chance }) {
  const steps = Array.from({ length: 1 + below(3) }, () => (chance(0.6) ? pick(KEYS) : below(4)));
  return [0, ...steps];
}

/** Three replicas that edit, and one that has all they made. */
class History {
  old = open("old");
  #dice;
  #replicas = ["a", "b", "c"].map((name) => ({ engine: open(name), lines: [] }));

  constructor(dice) {
    this.#dice = dice;
  }

  edit() {
    const { pick, chance, below } = this.#dice;
    const { engine, lines } = pick(this.#replicas);
    const at = cursor(this.#dice);
    const request = pick([() => ["assign", at, pick(VALUES)], () => ["assign", at, pick(VALUES)],
      () => ["insert", at, pick(VALUES)], () => ["insert", at, pick(VALUES)], () => ["delete", at],
      () => ["add", at, pick([1, 0, -3, 2n ** 62n])]])();
    const { line } = engine.ask(request);
    if (line) {
      lines.push(line);
      this.old.ask(["deliver", parse(line)]);
    }
    if (chance(0.15)) this.#exchange(pick(this.#replicas), pick(this.#replicas), below(30));
  }

  /** One gets what another one made, but for the last of it. */
  #exchange(one, other, left) {
    for (const it of other.lines.slice(0, other.lines.length - left)) {
      if (one.engine.ask(["deliver", parse(it)]).line) one.lines.push(it);
    }
  }

  end() {
    for (const { engine } of this.#replicas) engine.free();
    this.old.free();
  }
}

test("what is changed while it is renewed is made behind", (context) => {
  context.diagnostic(`seed ${SEED}`);
  const remade = { conflicts: 0, rounds: 0, lists: 0 };
  for (let number = 0; number < HISTORIES; number++) {
    const seed = SEED + number;
    const dices = dice(seed);
    const history = new History(dices);
    for (let edits = dices.below(60); edits > 0; edits--) history.edit();
    const next = open("next");
    const renewal = new Renewal("gen2-aaaaaaaaaa", read(history.old));
    for (let round = 0, operations = renewal.operations; round < 5; round++) {
      for (const it of operations) {
        const { reply } = next.ask(["deliver", it]);
        deepEqual(reply.slice(0, 3), ["applied", 1, 0], `${seed}: ${reply}`);
      }
      const [before, now] = [read(history.old), read(next)];
      deepEqual(known(now), known(before), `seed ${seed}, round ${round}`);
      equal(showSame(now, before), true);
      const pairs = renewal.lists.flat().map(String).sort();
      const expected = elements(before).map((it, at) => [it, elements(now)[at]]).map(String).sort();
      deepEqual(pairs, expected, `seed ${seed}, round ${round}`);
      deepEqual(renewal.front, asked(next, "front"));
      remade.lists += pairs.length;
      remade.conflicts += renewal.front.length - 1;
      for (let edits = dices.below(20); edits > 0; edits--) history.edit();
      operations = renewal.goOn(read(history.old));
      remade.rounds++;
    }
    next.free();
    history.end();
  }
  equal(remade.lists > HISTORIES && remade.conflicts > HISTORIES / 4, true, JSON.stringify(remade));
});

test("a change is made by few operations, and what isn't changed by none", () => {
  const old = open("old");
  old.ask(["assign", [0, "list"], []]);
  for (let at = 0; at < 1000; at++) old.ask(["insert", [0, "list", at], at]);
  const renewal = new Renewal("gen2-aaaaaaaaaa", read(old));
  equal(renewal.operations.length, 1003); // a deletion of nothing, the map, the list, and what is in it
  deepEqual(renewal.goOn(read(old)), []);
  old.ask(["insert", [0, "list", 500], "new"]);
  old.ask(["delete", [0, "list", 1]]);
  old.ask(["assign", [0, "list", 7], "other"]);
  old.ask(["assign", [0, "key"], 1]);
  equal(renewal.goOn(read(old)).length, 4);
  old.free();
});

test("documents that show something else are told apart", () => {
  const shown = (...requests) => {
    const engine = open("old");
    for (const it of requests) equal(engine.ask(it).reply[0], "applied");
    const found = read(engine);
    engine.free();
    return found;
  };
  const list = ["assign", [0, "l"], []];
  const all = [[], [["assign", [0, "k"], 1]], [["assign", [0, "k"], 2]], [["assign", [0, "k"], "1"]], [["assign", [0, "q"], 1]],
    [["assign", [0, "k"], {}]], [["assign", [0, "k"], []]], [["add", [0, "k"], 1]], [["add", [0, "k"], 2]], [list],
    [list, ["insert", [0, "l", 0], 1]], [list, ["insert", [0, "l", 0], 2]], [list, ["insert", [0, "l", 0], 1], ["insert", [0, "l", 0], 1]],
    [["assign", [0, "k"], 1], ["add", [0, "k"], 1]], [["assign", [0, "k"], 1], ["assign", [0, "q"], 1]]].map((it) => shown(...it));
  for (const [at, one] of all.entries()) {
    for (const [other, it] of all.entries()) equal(showSame(one, it), at === other, `${at} ${other}`);
  }
});
