/* A replica's way into a later generation: which one a log is of, and what of it is made again there. The
   expected operations are written by hand, by the rules of docs/RULES.md and FORMATS. */

import { deepEqual, equal, notEqual, rejects, throws } from "node:assert/strict";
import { test } from "node:test";
import { carried, composed, generationOf, isOfGeneration, laterGenerations } from "../generations.mjs";
import { nameOf } from "../names.mjs";
import { openReplica } from "../replica.mjs";

const MAKER = "gen2-aaaaaaaaaa-1";
const NEXT = "gen3-bbbbbbbbbb-1";
const TEXT = [["m", 0], ["l", "t"]];
/** An operation in the list `t`. */
const inList = (id, front, key, mutation) => ["op", id, front, [TEXT, key], mutation];

/** The list `t` with the elements x and y of `old`, of which y was deleted by others, and then what `ada`
 *  made and nobody has: c behind y, d behind c, an assignment to x, and a deletion of y. */
const LOG = [
  ["op", [1, "old"], [], [[["m", 0]], "t"], ["assign", []]],
  inList([2, "old"], [["old", 1]], 1, ["insert", "x"]),
  inList([3, "old"], [["old", 2]], [2, "old"], ["insert", "y"]),
  inList([4, "ada"], [["old", 3]], [3, "old"], ["insert", "c"]),
  inList([5, "ada"], [["ada", 4], ["old", 3]], [4, "ada"], ["insert", "d"]),
  inList([6, "ada"], [["ada", 5], ["old", 3]], [2, "old"], ["assign", "X"]),
  inList([7, "ada"], [["ada", 6], ["old", 3]], [3, "old"], ["delete"]),
  inList([8, "ada"], [["ada", 7], ["old", 3]], [3, "old"], ["assign", "gone"]),
];
/** To the second generation, which began with the list and x. */
const STEP = {
  end: new Map([["old", 4]]), start: [[MAKER, 3]], pairs: [[[2, "old"], [3, MAKER], 0]], others: [],
};

test("the generation of a log is that which began it", () => {
  equal(generationOf([["old", 4], ["ada", 8]]), "1");
  equal(generationOf([["ada", 8], [MAKER, 3], ["gen2-aaaaaaaaaa-2", 1]]), "2-aaaaaaaaaa");
  equal(generationOf([["gen2-short-1", 3], ["gen2-aaaaaaaaaa-1x", 3], ["gen2", 1]]), "1");
});

test("an operation is of the generation that it knows of, or began", () => {
  const of = (op) => ["1", "2-aaaaaaaaaa", "3-bbbbbbbbbb"].filter((it) => isOfGeneration(JSON.stringify(op), it));
  deepEqual(of(LOG[0]), ["1"]);
  deepEqual(of(["op", [1, MAKER], [], [[], 0], ["delete"]]), ["2-aaaaaaaaaa"]);
  deepEqual(of(["op", [2, "gen2-aaaaaaaaaa-2"], [[MAKER, 1]], [[], 0], ["delete"]]), ["2-aaaaaaaaaa"]);
  deepEqual(of(["op", [4, "ada"], [[NEXT, 3]], [[["m", 0]], "k"], ["assign", MAKER]]), ["3-bbbbbbbbbb"]);
  for (const it of ["", "[", "null", '["op"]', '["op",[1,2],[3]]']) equal(isOfGeneration(it, "1"), true, it);
});

test("what the hub lacked is made again: behind what is there, once, and what can't be is said", () => {
  const { operations, ids, lost } = carried(LOG, [STEP]);
  const name = operations[0][1][1];
  deepEqual(operations, [
    // y isn't there: it goes behind what y was inserted behind, which is x.
    inList([4, name], [[MAKER, 3]].concat([]), [3, MAKER], ["insert", "c"]),
    inList([5, name], [[name, 4], [MAKER, 3]].sort(), [4, name], ["insert", "d"]),
    inList([6, name], [[name, 5], [MAKER, 3]].sort(), [3, MAKER], ["assign", "X"]),
  ]);
  deepEqual(lost, [LOG[7]]); // what isn't there needn't be deleted
  deepEqual([...ids], [["2,old", [3, MAKER]], ["4,ada", [4, name]], ["5,ada", [5, name]]]);
});

test("copies of a log make the same of what they have in common", () => {
  const [one, other] = [carried(LOG.slice(0, 5), [STEP]), carried(LOG, [STEP])];
  deepEqual(other.operations.slice(0, 2), one.operations);
  const bob = LOG.map((op) => JSON.parse(JSON.stringify(op).replaceAll('"ada"', '"bob"')));
  notEqual(carried(bob, [STEP]).operations[0][1][1], one.operations[0][1][1]);
});

/** What the hub had of ada's in STEP, by an opening of the store from d on. */
const ownOf = (word, own = {}) => ({
  name: "ada", forked: Infinity, made: new Map(), sessionOf: (counter) => (counter < 5 ? "at-one" : word), ...own,
});

test("what copies of a store have edited apart is under two names, and what they have in common under one", () => {
  const [one, other] = ["at-one", "at-two"].map((word) => carried(LOG, [STEP], ownOf(word)).operations);
  // As the Python package makes it, too.
  const names = ["at-one", "at-two"].map((word) => nameOf("again", `["${MAKER}","ada","${word}"]`));
  deepEqual(one.map(([, [, name]]) => name), Array(3).fill(names[0]));
  deepEqual(other.map(([, [, name]]) => name), [names[0], names[1], names[1]]);
  deepEqual(other[0], one[0]);
  deepEqual(other[1], inList([5, names[1]], [[names[0], 4], [MAKER, 3]].sort(), [4, names[0]], ["insert", "d"]));
  // In the second one the first copy has delivered its own.
  const second = {
    end: new Map([[MAKER, 3], [names[0], 6]]), start: [[NEXT, 2]], pairs: [[[4, names[0]], [2, NEXT], 0]], others: [],
  };
  deepEqual(carried(LOG, [STEP, second], ownOf("at-two")).operations.map(([, , , , mutation]) => mutation), [["insert", "d"]]);
});

test("what another made under one's name in the generation before isn't taken for one's own", () => {
  // The hub has another's c and what is in it, and what is ada's d under another id; c was put into the next one.
  const made = [5, "again"];
  const end = new Map([["ada", 5], ["again", 5], ["old", 4]]);
  const pairs = [...STEP.pairs, [[4, "ada"], [4, MAKER]], [made, [5, MAKER]]];
  const others = [
    inList([4, "ada"], [["old", 3]], [2, "old"], ["insert", "another's"]), inList(made, [["old", 3]], 1, ["insert", "d"]),
    ["op", [5, "ada"], [["ada", 4], ["old", 3]], [[...TEXT, ["m", [4, "ada"]]], "k"], ["assign", "another's"]],
  ];
  const own = ownOf("at-one", { forked: 4, made: new Map([["5,ada", made]]) });
  const log = [...LOG.slice(0, 5),
    inList([6, "ada"], [["ada", 5], ["old", 3]], [4, "ada"], ["assign", "C"]),
    inList([7, "ada"], [["ada", 6], ["old", 3]], [5, "ada"], ["assign", "D"])];
  const { operations, ids, lost } = carried(log, [{ ...STEP, end, start: [[MAKER, 5]], pairs, others }], own);
  const [[, c]] = operations;
  deepEqual(operations.map(([, , , [, key], mutation]) => [key, mutation]),
    [[[3, MAKER], ["insert", "c"]], [c, ["assign", "C"]], [[5, MAKER], ["assign", "D"]]]);
  deepEqual([ids.get("4,ada"), ids.get("5,ada"), lost], [c, [5, MAKER], []]);
});

test("it goes over several generations, and what came there already isn't made again", () => {
  const { operations: [c, d] } = carried(LOG, [STEP]);
  const [, [, name]] = c;
  // In the second one a copy has delivered c, which is shown in the third; x was deleted there.
  const second = {
    end: new Map([[MAKER, 3], [name, 4]]), start: [[NEXT, 2]], pairs: [[c[1], [2, NEXT], 0]], others: [],
  };
  const { operations, ids, lost } = carried(LOG, [STEP, second]);
  const last = operations[0][1][1];
  deepEqual(operations, [inList([3, last], [[NEXT, 2]], [2, NEXT], ["insert", "d"])]);
  deepEqual(lost, [LOG[7], LOG[5]]); // as they were made: with their content
  deepEqual(ids.get("4,ada"), [2, NEXT]);
  deepEqual(ids.get("5,ada"), [3, last]);
  equal(ids.has("2,old"), false);
  equal(d[4][1], "d");
});

test("what others stored at a place, or under it, isn't cleared by who didn't know of it", () => {
  const other = inList([9, "bob"], [["old", 3]], [2, "old"], ["assign", "stored"]);
  const step = { ...STEP, end: new Map([["bob", 9], ["old", 4]]), others: [other] };
  const { operations, lost } = carried(LOG, [step]);
  deepEqual(operations.map(([, , , , [word]]) => word), ["insert", "insert"]);
  deepEqual(lost, [LOG[5], LOG[7]]);
  // Who knew of it clears it.
  const knowing = LOG.map((op) => (op[1][1] !== "ada" || op[1][0] < 6 ? op
    : ["op", op[1], [["ada", op[1][0] - 1], ["bob", 9], ["old", 3]], op[3], op[4]]));
  equal(carried([...knowing.slice(0, 5), other, ...knowing.slice(5)], [step]).lost.length, 1);
});

test("ids of several generations are put together", () => {
  const first = new Map([["1,a", [5, "b"]], ["2,a", [6, "b"]]]);
  const second = new Map([["5,b", [7, "c"]], ["9,b", [8, "c"]]]);
  deepEqual([...composed(first, second)], [["5,b", [7, "c"]], ["9,b", [8, "c"]], ["1,a", [7, "c"]]]);
});

test("a replica goes on with places, watches and undo", async () => {
  const ada = await openReplica("ada", "d", LOG.slice(0, 5).map((it) => JSON.stringify(it)));
  const place = ada.place([0, "t", 1]);
  const heard = [];
  ada.watch([0, "t"], (splices, why) => heard.push([why, ...splices]));
  ada.listen(({ why, gone }) => heard.push([why, gone.length]));
  ada.insert([0, "t", 4], "e"); // it isn't sent
  const log = [
    ["op", [1, MAKER], [], [[], 0], ["delete"]],
    ["op", [2, MAKER], [[MAKER, 1]], [[["m", 0]], "t"], ["assign", []]],
    inList([3, MAKER], [[MAKER, 2]], 1, ["insert", "x"]),
  ];
  heard.length = 0;
  deepEqual(ada.renew("ada-2", [STEP], log), { remade: 3, lost: [] });
  deepEqual(heard, [["remade", 6], ["remade", { index: 0, remove: 5, insert: ["x", "c", "d", "e"] }]]);
  equal(ada.name, "ada-2");
  deepEqual(ada.values(place), ["x"]); // by the id of before
  ada.assign(place, "X");
  equal(ada.text([0, "t"]), "Xcde");
  ada.undo();
  ada.undo();
  equal(ada.text([0, "t"]), "xcd"); // what was inserted before the step
  equal(ada.undo(), false);
  equal(ada.redo(), true);
  equal(ada.text([0, "t"]), "xcde");
  ada.free();
});

test("a document that is renewed whenever it is read, over connections that end: each step is read once", async () => {
  const names = ["1", "2-aaaaaaaaaa"];
  const asked = [];
  let isCut = false;
  const maker = (name) => `gen${name}-1`;
  const answers = {
    history: () => ["generations", names.map((it) => [it, 1, 1])],
    map: (_, name) => ["map", [["old", 4]], [[maker(names[names.indexOf(name) + 1]), 3]], []],
    open: () => ["opened", 1],
    page: (doc) => {
      if (doc !== "d") return ["ops", []];
      if (names.length < 12) names.push(`${names.length + 1}-aaaaaaaaaa`);
      if (names.length === 6 && !isCut) throw (isCut = true, new Error("cut"));
      return ["ops", [["op", [1, maker(names.at(-1))], [], [[], 0], ["delete"]]]];
    },
  };
  const answer = async (line) => {
    const [word, ...rest] = JSON.parse(line);
    if (word === "map" || word === "open") asked.push(line);
    return JSON.stringify(answers[word](...rest));
  };
  const own = { name: "ada", forked: Infinity, made: new Map(), sessionOf: () => "" };
  const replica = { doc: "d", front: () => [["ada", 7], ["old", 4]], operations: () => [LOG[5]], ownBefore: async () => own };
  await rejects(laterGenerations(answer, replica), /cut/);
  const { steps } = await laterGenerations(answer, replica);
  equal(steps.length, 11);
  deepEqual(steps.map(({ start }) => start[0][0]), names.slice(1).map(maker));
  const first = asked.filter((it) => it === '["open","d/1"]');
  const others = asked.filter((it) => it !== '["open","d/1"]');
  equal(first.length > 1, true); // what the replica itself knows of it may be more each time
  deepEqual(others, [...new Set(others)]);
  equal(others.length, 11 + 10);
});

test("a hub that takes a document for renewed and has the replica's own generation loses nothing", async () => {
  const log = [inList([3, MAKER], [], 1, ["insert", "x"])];
  const answers = { history: () => ["history", [["1", 4, 1, "t"], ["2-aaaaaaaaaa", 3, 1, "t"]]], page: () => ["page", log] };
  const answer = async (line) => JSON.stringify(answers[JSON.parse(line)[0]]());
  const replica = { doc: "d", front: () => [["ada", 7], [MAKER, 3]], operations: () => [LOG[5]], ownBefore: async () => ({}) };
  await rejects(laterGenerations(answer, replica), /takes d for renewed/);
  const ada = await openReplica("ada", "d");
  ada.assign([0, "k"], 1);
  throws(() => ada.renew("bob", [], []), RangeError);
  deepEqual(ada.values([0, "k"]), [1]);
});
