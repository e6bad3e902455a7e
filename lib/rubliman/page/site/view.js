// What is asked, and told, to show one step: now, the step in front of it, and before.
import * as answers from "./answers.js";
import { hex } from "./text.js";

export const LAST_STEP = 1_000_000;
// So many steps are looked at in front of the shown one and behind it.
const AROUND = 40;
export const MOST_DIFFERENCES = 200;

const within = (n) => Math.max(0, Math.min(LAST_STEP, n));

/** A question, with what is made of its answer. */
const question = (name, command, made) => ({ name, command, made });

/** What one run tells of a step. */
function asked(name, prefix, n, memory) {
  const low = within(n - AROUND);
  const high = within(n + AROUND);
  return [
    question(`${name}.machine`, `${prefix}regs ${n}`, answers.machine),
    question(`${name}.windows`, `${prefix}windows ${n}`, answers.windowRows),
    question(`${name}.memory`, `${prefix}mem ${n} ${hex(memory.address)} ${memory.count}`, answers.words),
    question(`${name}.steps`, `${prefix}steps ${low} ${high} ${high - low}`, answers.steps),
  ];
}

/**
 * The questions that show step `n` of now beside step `n + shift` of before; `memory` is the address and the number of
 * words that are shown. Where both runs are one, before is not asked.
 */
export function questions(n, shift, memory, isSame) {
  const m = within(n + shift);
  const last = within(n - 1);
  const found = asked("now", "", n, memory);
  found.push(question("last.machine", `regs ${last}`, answers.machine));
  found.push(question("last.windows", `windows ${last}`, answers.windowRows));
  found.push(question("output", `out ${n}`, answers.output));
  if (isSame) return found;
  found.push(...asked("before", "before ", m, memory));
  found.push(question("differences", `differ ${n} ${m} ${MOST_DIFFERENCES}`, answers.differences));
  return found;
}

/** The view that the answers to these questions tell. */
export function told(asked, given, n, shift, memory) {
  const found = { n, m: within(n + shift), address: memory.address, differences: [], output: [] };
  Object.assign(found, { now: {}, last: {}, before: {} });
  asked.forEach(({ name, made }, at) => {
    const [part, field] = name.split(".");
    const value = given[at].refused === null ? made(given[at].lines) : null;
    if (field) found[part][field] = value;
    else found[part] = value ?? found[part];
  });
  if (!found.before.machine) found.before = found.now;
  return found;
}

/** The registers of a window: globals, outs, locals and ins. */
export function windowRegisters({ machine, windows }, window) {
  const above = windows[(window + 1) % windows.length];
  return [...machine.registers.slice(0, 8), ...windows[window], ...above.slice(0, 8)];
}

/** What the processor's registers are called, and where they stand in a machine. */
const STATE = [
  ["PC", "pc"],
  ["nPC", "npc"],
  ["annul", "annul"],
  ["PSR", "psr"],
  ["WIM", "wim"],
  ["TBR", "tbr"],
  ["Y", "y"],
];
const UNITS = [
  ["MMU control", "control"],
  ["context table", "table"],
  ["context", "context"],
  ["fault status", "faultStatus"],
  ["fault address", "faultAddress"],
  ["timer", "timer"],
  ["reload", "reload"],
  ["pending", "pending"],
  ["waiting", "waiting"],
];

/** The registers in which two machines differ: those of the window, the state, and the units. */
export function registersThatDiffer(before, now, nameOf) {
  const found = [];
  const put = (name, old, value) => old !== value && found.push({ name, old, value });
  for (const [name, field] of STATE) put(name, before[field], now[field]);
  const isSameWindow = (before.psr & 31) === (now.psr & 31);
  now.registers.forEach((value, at) => (at < 8 || isSameWindow) && put(nameOf(at), before.registers[at], value));
  for (const [name, field] of UNITS) put(name, before[field], now[field]);
  return found;
}
