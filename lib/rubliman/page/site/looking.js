// Where the user looks: the steps that the strip shows, the shown step, and which step of before stands beside it.
import { Alignment } from "./alignment.js";
import * as answers from "./answers.js";
import { NO_LISTING } from "./listing.js";
import { Past } from "./past.js";
import * as places from "./places.js";
import { Queue } from "./queue.js";
import * as runs from "./run.js";
import * as views from "./view.js";

const { LAST_STEP } = views;
// So many steps are asked for where the strip shows what is new.
export const FIT = 2000;
const FEWEST = 16;

export class Looking {
  /** `onChange` is told when something else is to be shown, `onSay` what the user is to know. */
  constructor({ onChange, onSay }, onProblem) {
    Object.assign(this, { onChange, onSay, queue: new Queue(onProblem, () => this.#showChange()) });
    Object.assign(this, { connection: null, past: new Past(), set: new Map(), placeOfLine: null });
    Object.assign(this, { listing: NO_LISTING, before: NO_LISTING, run: null, runBefore: null });
    Object.assign(this, { step: 0, wanted: 0, view: null, fixedShift: null, alignment: null });
    Object.assign(this, { shown: { low: 0, high: 100 }, isFit: true, asked: { low: 0, high: FIT } });
    this.memory = { address: 0, count: 64 };
    this.isChanged = false;
  }

  /** Whether now is before: no what-if is on. */
  get isSame() {
    return this.set.size === 0;
  }

  /** How far the step of before that is shown is from step `n` of now. */
  shiftAt(n) {
    return this.fixedShift ?? (this.isSame ? 0 : (this.alignment?.at(n) ?? 0));
  }

  /** Answers to questions that are never refused here. */
  async ask(commands) {
    if (!this.connection) throw new Error("The program has ended. Reload the page.");
    return this.connection.ask(commands);
  }

  /** Has what is other now be shown, once, when what is under way is done. */
  changed() {
    this.isChanged = true;
  }

  #showChange() {
    const { isChanged } = this;
    this.isChanged = false;
    if (isChanged) this.onChange();
  }

  // ---- two runs beside each other

  /** Asks for the rest of long runs of which an answer broke off. */
  async complete() {
    const isOne = this.run === this.runBefore;
    const questions = [isOne ? [] : runs.restQuestions(this.run), runs.restQuestions(this.runBefore, "before ")];
    const rest = (await this.ask(questions.flat())).map((it) => answers.steps(it.lines));
    if (questions[0].length > 0) this.run.add(rest.splice(0, questions[0].length).flat());
    if (rest.length > 0) this.runBefore.add(rest.flat());
  }

  layRuns() {
    const isLaid = !this.isSame && this.run.isWhole && this.runBefore.isWhole;
    this.alignment = isLaid ? new Alignment(this.runBefore, this.run, this.keyBefore, this.keyNow) : null;
  }

  /** What a step of before does, the same for what is the same in both runs. */
  keyBefore = (it) => `${this.before.lineAt(it.at) || it.pc} ${it.what} ${it.type}`;
  /** The same of a step of now: its line has the number that it has in before. */
  keyNow = (it) => `${this.placeOf(this.listing.lineAt(it.at)) || it.pc} ${it.what} ${it.type}`;

  /** The number in before of a line of now, or of the line behind which it was put in. */
  placeOf(line) {
    return this.placeOfLine ? (this.placeOfLine[line - 1] ?? 0) : line;
  }

  // ---- where to look

  /** Goes to a step. Of moves that wait the last one is made. */
  go(n) {
    this.wanted = Math.max(0, Math.min(LAST_STEP, Math.round(n)));
    this.onChange("wanted");
    this.queue.move(() => this.#move(this.wanted));
  }

  async #move(n) {
    const { low, high } = this.shown;
    if (n < low || n > high) await this.#reveal(n);
    await this.look(n);
  }

  /** Shows the same step again, as where other words of memory are wanted. */
  again() {
    this.queue.move(() => this.look(this.wanted));
  }

  /** Moves the strip to a step that it does not show. */
  async #reveal(n) {
    if (this.isFit && n <= FIT) {
      this.shown.high = Math.min(FIT, Math.ceil(n * 1.15));
      return;
    }
    const span = Math.max(FEWEST, this.shown.high - this.shown.low);
    const low = Math.max(0, Math.min(n - Math.floor(span / 2), LAST_STEP - span));
    await this.stretch(low, Math.min(LAST_STEP, low + span));
  }

  /** Shows a step. Gives the answers to `more` questions, which are asked with those of the step. */
  async look(n, more = []) {
    const shift = this.shiftAt(n);
    const memory = { ...this.memory };
    const asked = views.questions(n, shift, memory, this.isSame && shift === 0);
    const given = await this.ask([...asked.map((it) => it.command), ...more]);
    this.view = views.told(asked, given, n, shift, memory);
    if (this.wanted === this.step) this.wanted = n;
    this.step = n;
    this.changed();
    return given.slice(asked.length);
  }

  /** Shows other steps in the strip. */
  range(low, high) {
    return this.queue.deed(async () => {
      await this.stretch(Math.max(0, low), Math.min(LAST_STEP, Math.max(high, low + FEWEST)));
      this.changed();
    });
  }

  async stretch(low, high) {
    this.isFit = false;
    this.asked = { low, high };
    const before = runs.questions(low, high, "before ");
    const given = await this.ask(this.isSame ? before : [...before, ...runs.questions(low, high)]);
    this.runBefore = runs.told(low, high, given.slice(0, before.length));
    this.run = this.isSame ? this.runBefore : runs.told(low, high, given.slice(before.length));
    await this.complete();
    this.shown = { low, high };
    this.layRuns();
  }

  /** Shows the steps up to the last one that brings something new. */
  fit() {
    return this.queue.deed(async () => {
      await this.stretch(0, FIT);
      this.isFit = true;
      this.fitted();
      await this.look(Math.min(this.step, this.shown.high));
    });
  }

  fitted() {
    const news = [this.run, this.runBefore].map((it) => it.horizon());
    if (this.part !== null && this.part < FIT * 0.9) news.push(this.part);
    const high = Math.ceil(Math.max(...news, this.step < FIT ? this.step : 0) * 1.15) + 5;
    this.shown = { low: 0, high: Math.min(FIT, Math.max(FEWEST, high)) };
  }

  /** Lays another step of before beside the shown one; null has the page find it. */
  lay(shift) {
    this.fixedShift = shift;
    this.again();
  }

  /** Goes to the nearest step that meets a condition, and tells where there is none. */
  find(condition, isBack, name) {
    return this.queue.deed(async () => {
      const range = isBack ? `${this.wanted} 0` : `${Math.min(LAST_STEP, this.wanted + 1)} ${LAST_STEP}`;
      const [{ lines }] = await this.ask([`steps ${range} 1 ${condition}`]);
      if (lines.length > 0) this.go(Number(lines[0].split(" ")[0]));
      else this.onSay(`No ${name} ${isBack ? "in front of" : "behind"} this step.`, true);
    });
  }

  /** Has another view ask what it needs, with no effect on this one. */
  converse(does) {
    return this.queue.deed(() => does((questions) => this.ask(questions)));
  }
}
