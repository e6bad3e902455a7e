// Places of the past that a what-if gives values to, and the commands that give them.
//
// A place is a text: `line 12` (12 is the line's number in `before`; line 0 is in front of the first one), `poke 5
// 00001914` (a word of RAM at a step), `input 10`, `irq 3 15`. Its value is, of a line, the texts that stand in its
// place; of a word its eight digits, `--` for a byte that is not poked; of an input its bytes; of a request "". Null is
// nothing.
import { hex } from "./text.js";

export const line = (number) => `line ${number}`;
export const poke = (step, address) => `poke ${step} ${hex(address)}`;
export const input = (step) => `input ${step}`;
export const irq = (step, level) => `irq ${step} ${level}`;

export const NOT_POKED = "--------";

/** A place, taken apart. */
export function parts(place) {
  const [kind, number, what] = place.split(" ");
  const at = Number(number);
  if (kind === "line") return { kind, line: at };
  if (kind === "poke") return { kind, step: at, address: parseInt(what, 16) };
  return kind === "irq" ? { kind, step: at, level: Number(what) } : { kind, step: at };
}

export const isLine = (place) => place.startsWith("line ");
const lineOf = (place) => Number(place.slice(5));

/** Whether two values are the same. */
export function isSame(one, other) {
  if (!Array.isArray(one) || !Array.isArray(other)) return one === other;
  return one.length === other.length && one.every((it, at) => it === other[at]);
}

/** The value of a place: what is set, or else what stands there in `before`. */
const valueIn = (values, past, place) => (values.has(place) ? values.get(place) : past.valueBefore(place));

/** How many lines stand in front of line `number` of before, with these values. */
function linesInFront(values, number) {
  let found = Math.max(0, number - 1);
  for (const [place, value] of values) {
    if (isLine(place) && lineOf(place) < number) found += value.length - (lineOf(place) > 0 ? 1 : 0);
  }
  return found;
}

/** The number that a line of before has with these values: the first of the lines in its place. */
export const numberNow = (values, number) => linesInFront(values, number) + 1;

/** The lines with these values, each with the place that it stands in. */
export function linesWith(values, past) {
  const found = [];
  for (let number = 0; number <= past.lines.length; number++) {
    for (const text of valueIn(values, past, line(number))) found.push({ place: number, text });
  }
  return found;
}

/** One edit that gives all lines their values, so that none is refused for what another one brings. */
function lineEdit(from, to, past, changed) {
  const numbers = changed.filter(isLine).map(lineOf);
  if (numbers.length === 0) return [];
  const low = Math.min(...numbers);
  const high = Math.max(...numbers);
  const texts = [];
  let gone = 0;
  for (let number = low; number <= high; number++) {
    gone += valueIn(from, past, line(number)).length;
    texts.push(...valueIn(to, past, line(number)));
  }
  const begin = linesInFront(from, low) + 1;
  const command = [`edit ${begin} ${begin + gone - 1} ${texts.length}`, ...texts].join("\n");
  return [{ places: changed.filter(isLine), values: to, command }];
}

/** The commands that poke a word's bytes. */
function pokes(step, address, value) {
  if (!value.includes("-")) return [`poke ${step} ${hex(address)} ${value}`];
  return value
    .match(/../g)
    .map((byte, at) => [byte, address + at])
    .filter(([byte]) => byte !== "--")
    .map(([byte, at]) => `pokeb ${step} ${hex(at)} ${byte}`);
}

/** The commands that give a place of the timeline its value. */
function eventCommands(place, old, value) {
  const it = parts(place);
  if (it.kind === "poke") {
    const loses = old !== null && (value === null || [...value].some((digit, at) => digit === "-" && old[at] !== "-"));
    const clears = loses ? [`unpoke ${it.step} ${hex(it.address)}`] : [];
    return value === null ? clears : [...clears, ...pokes(it.step, it.address, value)];
  }
  if (value === null) return [`un${place}`];
  return [it.kind === "irq" ? place : `${place} ${value}`];
}

/**
 * The commands that lead from the values that are set to those that are wanted, each with the places it is for. Both
 * are maps of places to values over `past`.
 */
export function commandsBetween(from, to, past) {
  const all = new Set([...from.keys(), ...to.keys()]);
  const changed = [...all].filter((it) => !isSame(valueIn(from, past, it), valueIn(to, past, it)));
  const events = changed.filter((it) => !isLine(it)).flatMap((it) => {
    const given = eventCommands(it, valueIn(from, past, it), valueIn(to, past, it));
    return given.map((command) => ({ places: [it], values: to, command }));
  });
  return [...lineEdit(from, to, past, changed), ...events];
}
