// What stands on the page: the run and its past. Deeds ask the monitor, and then tell `onChange`.
import * as answers from "./answers.js";
import { Connection, Ended } from "./connection.js";
import { Refusal, enter, setUp } from "./entering.js";
import { registerName } from "./fields.js";
import { Listing } from "./listing.js";
import { FIT, Looking } from "./looking.js";
import * as places from "./places.js";
import * as runs from "./run.js";
import * as scripts from "./script.js";
import * as views from "./view.js";

const { LAST_STEP } = views;
// The first difference is looked for behind these by stretches: of so many steps at first, and longer ones while one
// takes less than so long.
const FIRST_STRETCH = 8_000;
const SHORT_MILLISECONDS = 40;

export class Workbench extends Looking {
  constructor(listeners) {
    super(listeners, (problem) => this.#failed(problem));
    Object.assign(this, { windows: "8", name: "", problems: [], onOpen: listeners.onOpen });
    Object.assign(this, { part: null, partUpTo: LAST_STEP, cause: null });
    // How many changes were made.
    this.changes = 0;
  }

  // ---- a source or a script

  /** Opens a text, or one that is promised. Gives what it is refused with, and leaves all as it was then. */
  open({ text, name, windows, step = 0 }) {
    return this.queue.deed(async () => this.#opened({ text: await text, name, windows, step }));
  }

  async #opened({ text, name, windows, step }) {
    let opened;
    try {
      opened = await enter(text, windows, (connection) => this.#ended(connection));
    } catch (problem) {
      if (problem instanceof Refusal) return problem.message;
      throw problem;
    }
    this.connection?.close();
    Object.assign(this, { connection: opened.connection, windows, name, past: opened.past, problems: opened.problems });
    Object.assign(this, { step, wanted: step, fixedShift: null, isFit: true, asked: { low: 0, high: FIT } });
    this.set = this.past.now();
    this.memory.address = 0;
    this.onOpen();
    await this.#begin(opened.before);
    return null;
  }

  /** Opens a source in the place of this one. The events of before, and what-ifs about events, stay. */
  openOver(text, windows) {
    return this.queue.deed(async () => {
      const { past } = this;
      const [name, step] = [this.name, this.step];
      const isScript = scripts.isScript(text);
      const refused = await this.#opened({ text, name, windows, step: isScript ? 0 : step });
      if (refused !== null || isScript) return refused;
      const events = [...past.events].map(([place, value]) => [place, value]);
      for (const it of past.whatIfs) {
        const values = new Map([...it.values].filter(([place]) => !places.isLine(place)));
        if (values.size > 0) this.past.add(values);
      }
      this.past.events = new Map(events);
      return this.#setUpAgain();
    });
  }

  /** The same source, events and what-ifs with another number of windows. */
  withWindows(windows) {
    return this.queue.deed(() => {
      this.windows = windows;
      return this.#setUpAgain();
    });
  }

  /** Gives all that stands here to another run. */
  async #setUpAgain() {
    this.connection?.close();
    this.connection = await Connection.open(this.windows, (it) => this.#ended(it));
    this.set = this.past.now();
    await this.#begin(await setUp(this.connection, this.past));
    return null;
  }

  /** Shows what was set up anew. */
  async #begin(before) {
    this.before = this.listing = before;
    const { low, high } = this.asked;
    this.runBefore = runs.told(low, high, await this.connection.ask(runs.questions(low, high, "before ")));
    await this.#changed([]);
  }

  /** The program has ended by itself: another one is given what stands here. */
  #ended(connection) {
    this.queue.deed(() => this.#again(connection));
  }

  async #again(ended) {
    if (ended !== this.connection || !ended?.isOpen) return;
    const recent = performance.now() - (this.begunAgain ?? -Infinity) < 3000;
    this.begunAgain = performance.now();
    if (recent) {
      this.connection.close();
      this.connection = null;
      this.onSay("The program ended twice. Reload the page to go on from what stands here.", true);
      return;
    }
    await this.#setUpAgain();
    this.onSay("The program had ended. Another one was given what stands here.");
  }

  /** Tells what went wrong. */
  #failed(problem) {
    if (problem instanceof Ended) this.#ended(this.connection);
    this.onSay(problem.isSlow ? `${problem.message}, and was ended.` : problem.message, true);
    this.changed();
  }

  // ---- what-ifs

  /**
   * Has these what-ifs be on and no others. Gives what a change is refused with, and then all stays as it was; null
   * where it was made.
   */
  switch(isOn) {
    return this.queue.deed(() => this.#switched(isOn));
  }

  async #switched(isOn) {
    const wanted = this.past.values(isOn);
    const between = places.commandsBetween(this.set, wanted, this.past);
    const refused = await this.#changed(between, wanted);
    if (refused === null) for (const it of this.past.whatIfs) Object.assign(it, { isOn: isOn(it), refused: null });
    this.changed();
    return refused;
  }

  /** Switches one on or off. Those that it excludes go off. */
  toggle(whatIf) {
    return this.queue.deed(async () => {
      const isOn = !whatIf.isOn;
      const rivals = isOn ? this.past.rivals(whatIf) : [];
      whatIf.refused = await this.#switched((it) => (it === whatIf ? isOn : it.isOn && !rivals.includes(it)));
      this.changed();
    });
  }

  /** Switches all off, or those on again that were on last. */
  toggleAll() {
    return this.queue.deed(() => {
      const on = this.past.on();
      if (on.length > 0) this.lastOn = on;
      return this.#switched((it) => on.length === 0 && (this.lastOn ?? []).includes(it));
    });
  }

  drop(whatIf) {
    return this.queue.deed(async () => {
      const refused = whatIf.isOn ? await this.#switched((it) => it !== whatIf && it.isOn) : null;
      if (refused === null) this.past.drop(whatIf);
      else whatIf.refused = refused;
      this.changed();
    });
  }

  /**
   * Gives values to places, as a what-if of their own, or in those that are on and have them. Gives what that is
   * refused with, and then all stays as it was.
   */
  give(values) {
    return this.queue.deed(async () => {
      const old = this.past.whatIfs.map((it) => ({ it, values: it.values, isOn: it.isOn }));
      const has = (it, place) => it.isOn && it.values.has(place);
      const owners = this.past.whatIfs.filter((it) => [...values.keys()].some((place) => has(it, place)));
      if (owners.length === 0) owners.push(this.past.add(new Map()));
      for (const [place, value] of values) {
        const owner = owners.find((it) => it.values.has(place)) ?? owners[0];
        owner.values = new Map(owner.values);
        if (places.isSame(value, this.past.valueBefore(place))) owner.values.delete(place);
        else owner.values.set(place, value);
      }
      const refused = await this.#switched((it) => it.isOn || owners.includes(it));
      if (refused !== null) {
        this.past.whatIfs = old.map(({ it, values: kept, isOn }) => Object.assign(it, { values: kept, isOn }));
      }
      this.past.whatIfs = this.past.whatIfs.filter((it) => it.values.size > 0);
      this.changed();
      return refused;
    });
  }

  /** What is now becomes before. */
  keep() {
    return this.queue.deed(async () => {
      await this.ask(["keep"]);
      this.past = this.past.kept();
      Object.assign(this, { set: new Map(), before: this.listing, runBefore: this.run, fixedShift: null });
      await this.#changed([]);
    });
  }

  /**
   * Gives these commands, and shows what comes of them. Where one is refused, what was done is taken back, and the
   * refusal is given; else null.
   */
  async #changed(between, wanted = this.set) {
    const isSame = wanted.size === 0;
    const { low, high } = this.asked;
    const shows = isSame ? [] : ["list", "names", `part 0 ${high}`, ...runs.questions(low, high)];
    const given = await this.ask([...between.map((it) => it.command), ...shows]);
    const refused = given.findIndex((it, at) => at < between.length && it.refused !== null);
    if (refused >= 0) {
      await this.#takeBack(between, given);
      return given[refused].refused;
    }
    this.set = wanted;
    this.changes += 1;
    if (isSame) Object.assign(this, { listing: this.before, run: this.runBefore, part: null, partUpTo: LAST_STEP });
    else this.#read(given.slice(between.length));
    await this.#settle();
    return null;
  }

  /** Takes in what was told behind a change. */
  #read([list, names, part, ...run]) {
    const { low, high } = this.asked;
    this.listing = new Listing(list.lines, names.lines);
    this.run = runs.told(low, high, run);
    this.#readPart(part, high);
  }

  #readPart({ lines }, upTo) {
    this.part = lines.length > 0 ? Number(lines[0].slice(5)) : null;
    this.partUpTo = this.part === null ? upTo : LAST_STEP;
  }

  /** Takes back what was accepted of commands. */
  async #takeBack(between, given) {
    const standing = new Map(this.set);
    for (const { places: changed, values } of between.filter((_, at) => given[at].refused === null)) {
      for (const it of changed) standing.set(it, values.has(it) ? values.get(it) : this.past.valueBefore(it));
    }
    await this.ask(places.commandsBetween(standing, this.set, this.past).map((it) => it.command));
  }

  /** Completes a change: the rest of a long strip, what fits, the cause, the view. */
  async #settle() {
    await this.complete();
    this.placeOfLine = this.isSame ? null : places.linesWith(this.set, this.past).map((it) => it.place);
    this.layRuns();
    if (this.isFit) this.fitted();
    this.#readCause(await this.look(this.step, this.#causeQuestions()));
    if (this.partUpTo < LAST_STEP) this.queue.spare(() => this.#partFurther());
  }

  /** Goes on looking for the first difference, so far at a time that nobody waits long for it. */
  async #partFurther(count = FIRST_STRETCH) {
    const from = this.partUpTo;
    const to = Math.min(LAST_STEP, from + count);
    const begun = performance.now();
    const [told] = await this.ask([`part ${from} ${to}`]);
    const isQuick = performance.now() - begun < SHORT_MILLISECONDS;
    this.#readPart(told, to);
    if (this.partUpTo < LAST_STEP) {
      this.queue.spare(() => this.#partFurther(isQuick ? 4 * count : Math.max(FIRST_STRETCH, count >> 1)));
      return;
    }
    this.#readCause(await this.ask(this.#causeQuestions()));
    this.changed();
  }

  /** What is asked of the first step that differs: what happened in front of it, and both machines there. */
  #causeQuestions() {
    if (this.part === null) return [];
    const n = Math.max(0, this.part - 1);
    const range = `${n} ${n + 1} 1`;
    return [`steps ${range}`, `before steps ${range}`, `regs ${this.part}`, `before regs ${this.part}`];
  }

  #readCause(given) {
    this.cause = null;
    if (given.length === 0) return;
    const [now, before] = given.slice(0, 2).map(({ lines }) => lines.map(answers.step).at(0));
    const [machine, machineBefore] = given.slice(2).map(({ lines }) => answers.machine(lines));
    const registers = views.registersThatDiffer(machineBefore, machine, registerName);
    this.cause = { n: Math.max(0, this.part - 1), now, before, registers };
  }
}
