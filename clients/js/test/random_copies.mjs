/* Random runs of programs whose stores are copied, over a network that is as slow as the dice say. Isn't run by itself. */

import { deepEqual, equal } from "node:assert/strict";
import { mkdirSync } from "node:fs";
import { print } from "../json.mjs";
import { seedNames, World } from "./simulated.mjs";

const STEPS = Number(process.env.STEPS ?? 60);
const MOST_PROGRAMS = 5;

/** A run, and what is due in the end. */
class Round {
  texts = [];
  titles = [];
  votes = 0;

  constructor(folder, seed, options = {}) {
    seedNames(seed);
    const kind = ["server", "hub", "pushes"][seed % 3];
    const hasChains = Math.floor(seed / 6) % 2 === 0; // if the engine has them
    this.world = new World(folder, seed, { kind, isDurable: seed % 2 === 0, hasChains, ...options });
    this.dice = this.world.dice;
    this.seed = seed;
    this.number = 0;
  }

  get programs() { return this.world.programs; }

  /** @param {import("./simulated.mjs").Program} it */
  write(it) {
    const { replica } = it;
    const text = `${++this.number}`;
    replica.splice([0, "list"], replica.items([0, "list"]).length, 0, [text]);
    this.texts.push(text);
    this.world.say(it.name, "writes", text);
    this.vote(it, 1);
  }

  /** @param {import("./simulated.mjs").Program} it */
  vote(it, count) {
    for (let at = 0; at < count; at++) it.replica.add([0, "votes"], 1);
    this.votes += count;
    this.world.say(it.name, "votes", count);
  }

  async copy(it) {
    if (this.programs.length < MOST_PROGRAMS) return it.copied(`${this.programs.length}`);
    return undefined;
  }

  /** A card, of which a copy may have the beginning alone. */
  async card(it) {
    const { replica } = it;
    if (!replica.keys([0]).includes("cards")) replica.put([0, "cards"], []);
    replica.insert([0, "cards", 0], {});
    const card = replica.place([0, "cards", 1]);
    if (this.dice.chance(0.3)) await this.copy(it);
    const title = `${++this.number}`;
    this.titles.push(title);
    replica.assign([...card, "title"], title);
    this.world.say(it.name, "makes the card", title);
  }

  /** Until all have what the others have. */
  async settle() {
    const { world } = this;
    world.startAgain();
    world.stored = world.log; // nothing more is lost
    for (let turn = 0; turn < 3; turn++) await this.online(this.programs);
  }

  check(words) {
    const { world, seed } = this;
    const said = `seed ${seed}, ${words}`;
    const shown = print(world.replica.show([0]));
    for (const it of this.programs) {
      const { replica, name } = it;
      const about = `${said}: ${name}`;
      deepEqual(operations(replica), operations(world.replica), `${about} has other operations`);
      equal(print(replica.show([0])), shown, about);
      deepEqual(replica.items([0, "list"]).flatMap(([, texts]) => texts).sort(), [...this.texts].sort(), about);
      equal(Number(replica.sum([0, "votes"])), this.votes, `${about}: votes`);
      const cards = this.titles.length > 0 ? replica.plain([0, "cards"]) : [];
      deepEqual(cards.flatMap(({ title = [] }) => title).sort(), [...this.titles].sort(), `${about}: cards`);
    }
  }

  /** @param {import("./simulated.mjs").Program[]} some */
  async online(some) {
    for (const it of some) it.provider.goOnline();
    await this.world.until(Promise.all(some.map((it) => it.synced(4000))));
  }

  /** A program of which the server has the first edit. */
  async begun() {
    const first = await this.world.begun("0");
    first.replica.assign([0, "list"], []);
    this.write(first);
    await this.online([first]);
    first.provider.goOffline();
    return first;
  }
}

/** Stores are copied while their programs run or are closed, with kills of programs, of the server and of the hub. */
class Copies extends Round {
  async reopen(it, isKilled) {
    await (isKilled ? it.kill() : it.close());
    const copy = this.dice.chance(0.3) && (await this.copy(it));
    await it.open();
    if (!copy) return;
    for (const one of [it, copy]) if (this.dice.chance(0.7)) this.vote(one, 1 + this.dice.below(2));
    if (this.dice.chance(0.5)) for (const one of [it, copy]) {
      await one.close();
      await one.open();
    }
  }

  async step() {
    const { dice, world } = this;
    const it = dice.pick(this.programs);
    const turns = [
      () => this.write(it), () => this.write(it), () => this.write(it),
      () => this.vote(it, 1 + dice.below(3)), () => this.vote(it, 1),
      () => this.card(it),
      () => this.copy(it),
      () => it.provider.goOnline(), () => it.provider.goOnline(), () => it.provider.goOnline(),
      () => it.provider.goOffline(),
      () => this.reopen(it, false),
      () => this.reopen(it, true),
      () => world.kill(),
      () => world.startAgain(), () => world.startAgain(),
      () => world.killHub(),
      () => world.store(),
    ];
    await dice.pick(turns)();
    await world.run(dice.pick([0, 0, 1, 3, 10, 40]));
  }

  async run() {
    const { dice, world } = this;
    const first = await world.begun("0");
    first.replica.assign([0, "list"], []);
    if (dice.chance(0.7)) {
      this.write(first);
      first.provider.goOnline();
      await world.until(first.synced(4000));
      if (dice.chance(0.5)) first.provider.goOffline();
    }
    for (let step = 0; step < STEPS; step++) await this.step();
    await this.settle();
    this.check("once online");
    for (const it of this.programs) this.vote(it, 1);
    await this.settle();
    this.check("behind a further vote");
    const names = this.programs.map(({ replica: { name } }) => name);
    deepEqual(names.filter((name, at) => names.indexOf(name) !== at), [], `seed ${this.seed}: two have one name`);
  }
}

/** Stores of an older package are copied, and the programs are online for moments. */
class Moments extends Round {
  constructor(folder, seed) { super(folder, seed, { isDurable: true, isOld: true }); }

  async edit(it) { await (this.dice.chance(0.3) ? this.card(it) : this.write(it)); }

  async again(it) {
    await (this.dice.chance(0.5) ? it.close() : it.kill());
    await it.open();
  }

  async moment(it) {
    const { dice, world } = this;
    it.provider.goOnline();
    await world.run(dice.below(60));
    if (dice.chance(0.3)) await this.edit(it);
    if (dice.chance(0.5)) it.provider.goOffline();
    else await this.again(it);
  }

  async run() {
    const { dice } = this;
    const first = await this.begun();
    if (dice.chance(0.6)) await this.again(first);
    for (let count = 1 + dice.below(3); count > 0; count--) await this.edit(first);
    for (let count = 1 + dice.below(3); count > 0; count--) {
      const it = dice.pick(this.programs);
      const copy = await this.copy(it);
      for (const one of [it, copy]) if (one && dice.chance(0.5)) await this.edit(one);
    }
    for (let count = 2 + dice.below(3); count > 0; count--) {
      await this.moment(dice.pick(this.programs));
      if (dice.chance(0.5)) await this.online([dice.pick(this.programs)]);
    }
    await this.settle();
    this.check("once online");
  }
}

/** A server that has lost something is killed again and again while programs compare what they have with it. */
class Losses extends Round {
  constructor(folder, seed) { super(folder, seed, { isDurable: false }); }

  killed() {
    this.world.kill();
    this.world.startAgain();
  }

  async run() {
    const { dice, world } = this;
    const first = await this.begun();
    for (let count = 1 + dice.below(3); count > 0; count--) this.write(first);
    const all = [first, await this.copy(first), await world.begun("other")];
    for (const it of all.slice(1)) if (dice.chance(0.3)) this.write(it);
    await this.online(all);
    for (const it of all) it.provider.goOffline();
    this.killed();
    for (const it of all) it.provider.goOnline();
    for (let count = 0; count < 60; count++) {
      await world.run(dice.below(4));
      if (dice.chance(0.12)) this.killed();
    }
    await this.settle();
    this.check("once online");
  }
}

const operations = (replica) => [...replica.operations()].map(print).sort();

const RUNS = { copies: Copies, moments: Moments, losses: Losses };

/** Makes the run of a seed. Resolves what went wrong, if something did.
 *  @param {string} folder
 *  @param {number} seed
 *  @param {keyof typeof RUNS} [which]
 *  @returns {Promise<string | undefined>} */
export async function faultOf(folder, seed, which = "copies") {
  mkdirSync(`${folder}/${which}-${seed}`);
  const round = new RUNS[which](`${folder}/${which}-${seed}`, seed);
  try {
    await round.run();
    return undefined;
  } catch (error) {
    const trace = process.env.TRACE ? `${round.world.trace.join("\n")}\n` : "";
    return `${trace}seed ${seed}: ${/** @type {Error} */ (error).message}`;
  } finally {
    await Promise.allSettled(round.programs.map((it) => it.provider.close()));
  }
}
