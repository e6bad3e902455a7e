// A stretch of a run, as the strip shows it: each step where they are few, else samples and what happened.
import * as answers from "./answers.js";
import { isInterrupt } from "./fields.js";

// Up to so many steps are shown one by one.
export const MOST_STEPS = 4000;
// So many samples are taken of more, and so many lines that tell what happens. Where these are not enough, it is asked
// for by stretches, the first few of each.
const SAMPLES = 1500;
const MOST_LINES = 6000;
const STRETCHES = 600;
const MOST_OF_STRETCH = 4;
const HAPPENING = "trap in out event";
// The monitor keeps its machine each so many steps. Samples as far apart are asked for there one by one, which makes no
// steps between them.
const KEPT = 256;

/** The lanes of the strip, from the top. */
export const LANES = [
  { name: "trap", takes: (it) => it.type !== undefined && !isInterrupt(it.type) },
  { name: "interrupt", takes: (it) => it.type !== undefined && isInterrupt(it.type) },
  { name: "input", takes: (it) => it.in !== undefined },
  { name: "output", takes: (it) => it.out !== undefined },
  { name: "event", takes: (it) => it.event === true },
];

const happens = (it) => LANES.some((lane) => lane.takes(it));

/** How far samples of a long stretch are from each other. */
function sampling(low, high) {
  const every = Math.max(1, Math.ceil((high - low) / SAMPLES));
  return every < KEPT ? every : Math.ceil(every / KEPT) * KEPT;
}

export class Run {
  /** `cutAt` is the last step of which it is known what happened, where the answer to that broke off. */
  constructor(low, high, steps, output, cutAt = null) {
    Object.assign(this, { low, high, output, cutAt });
    this.isWhole = high - low <= MOST_STEPS;
    this.#set(steps);
  }

  /** Takes in the rest. */
  add(steps) {
    this.cutAt = null;
    this.#set([...this.steps, ...steps]);
  }

  #set(steps) {
    this.steps = this.isWhole ? steps : [...new Map(steps.map((it) => [it.n, it])).values()].sort((a, b) => a.n - b.n);
    const every = sampling(this.low, this.high);
    this.samples = this.isWhole ? this.steps : this.steps.filter((it) => it.n % every === 0);
    this.happenings = this.steps.filter(happens);
    this.byStep = null;
    this.stop = this.steps.find((it) => it.what === "error")?.n ?? null;
  }

  /** What happened at a step, if it is known. */
  at(n) {
    this.byStep ??= new Map(this.steps.map((it) => [it.n, it]));
    return this.byStep.get(n);
  }

  /** The step behind which nothing new comes: no line for the first time, nothing in or out, few traps of a kind. */
  horizon() {
    const seen = new Map();
    let last = this.low;
    for (const it of this.steps) {
      const kind = it.type === undefined ? it.pc : `trap ${it.type}`;
      const times = (seen.get(kind) ?? 0) + 1;
      seen.set(kind, times);
      const isTold = it.in !== undefined || it.out !== undefined || it.event || it.what === "error";
      if (times === 1 || (it.type !== undefined && times < 4) || isTold) last = it.n;
      if (it.what === "error") break;
    }
    return last;
  }
}

/** How many lines are asked for of a long stretch: of what happens, and samples where these are told with it. */
const mostLines = (low, high) => (sampling(low, high) < KEPT ? MOST_LINES + SAMPLES : MOST_LINES);

/** The questions that show a stretch of a run: what happens, samples that are asked for one by one, and the output. */
export function questions(low, high, prefix = "") {
  const steps = `${prefix}steps ${low} ${high}`;
  const output = `${prefix}out ${high}`;
  if (high - low <= MOST_STEPS) return [`${steps} ${high - low}`, output];
  const every = sampling(low, high);
  const happenings = `${steps} ${mostLines(low, high)} ${HAPPENING}`;
  if (every < KEPT) return [`${happenings} every ${every}`, output];
  const samples = [];
  for (let n = Math.ceil(low / every) * every; n < high; n += every) samples.push(`${prefix}steps ${n} ${n + 1} 1`);
  return [happenings, ...samples, output];
}

/** The run that their answers tell. */
export function told(low, high, given) {
  const [first, ...rest] = given.slice(0, -1).map(({ lines }) => answers.steps(lines));
  const isCut = high - low > MOST_STEPS && first.length >= mostLines(low, high);
  return new Run(low, high, [first, ...rest].flat(), answers.output(given.at(-1).lines), isCut ? first.at(-1).n : null);
}

/** The questions for what happens behind where the answer broke off, and for samples there that are not told yet. */
export function restQuestions({ low, high, cutAt }, prefix = "") {
  if (cutAt === null) return [];
  const begin = cutAt + 1;
  const every = sampling(low, high);
  const found = every < KEPT ? [`${prefix}steps ${begin} ${high} ${2 * SAMPLES} every ${every}`] : [];
  const width = Math.max(1, Math.ceil((high - low) / STRETCHES));
  for (let at = begin; at < high; at += width) {
    found.push(`${prefix}steps ${at} ${Math.min(high, at + width)} ${MOST_OF_STRETCH} ${HAPPENING}`);
  }
  return found;
}
