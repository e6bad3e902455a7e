// Reads scripts of the workbench as a past with what-ifs, and writes them.
//
// `before` is what stands at a script's last `keep`, or where it has none, in front of its first question; now is what
// stands at its end. What differs from before at a question behind it is a what-if, unless earlier ones make it
// together; those of which all stands at the end are on.
import { placed } from "./matching.js";
import { Past } from "./past.js";
import * as places from "./places.js";
import { statement } from "./text.js";

const QUESTIONS = new Set("list regs mem out steps windows where names events before part differ".split(" "));
const SETS = new Set("edit poke unpoke pokeb unpokeb input uninput irq unirq".split(" "));
const EDIT = /^edit[ \t]+([0-9]{1,10})[ \t]+([0-9]{1,10})[ \t]+([0-9]{1,10})$/;
// What a first line of a script may be.
const COMMANDS = [
  /^(?:list|keep|quit|names)$/,
  /^edit [ 0-9]+$/,
  /^(?:un)?(?:pokeb?|input|irq) [ 0-9A-Fa-f]+$/,
  /^(?:regs|out|mem|steps|windows|where|events|before|part|differ)(?: .*)?$/,
];

export const linesOf = (text) => text.split("\n").map((it) => (it.endsWith("\r") ? it.slice(0, -1) : it));

/** Whether a text is a script: its first line that is not blank is a command. Else it is a source. */
export function isScript(text) {
  const first = linesOf(text).find((it) => it.trim() !== "") ?? "";
  const words = first.replaceAll("\t", " ").replace(/^ +| +$/g, "");
  return COMMANDS.some((it) => it.test(words));
}

/** The lines of a source. */
export function sourceLines(text) {
  const found = linesOf(text);
  if (found.at(-1) === "") found.pop();
  return found;
}

/** The commands of a script up to `quit`: each with its line's number, its words, its kind, and an edit's lines. */
export function commands(text) {
  const lines = linesOf(text);
  const found = [];
  for (let at = 0; at < lines.length; ) {
    const number = at + 1;
    const words = lines[at].split(/[ \t]+/).filter(Boolean);
    const count = Number(asEdit(lines[at])?.[3] ?? 0);
    const behind = lines.slice(at + 1, at + 1 + count);
    if (words[0] === "quit" && words.length === 1) break;
    const text = [lines[at], ...behind].join("\n");
    const isWhole = behind.length === count;
    if (words.length > 0) found.push({ number, words, kind: kindOf(words[0]), behind, text, isWhole });
    at += 1 + count;
  }
  return found;
}

const asEdit = (line) => EDIT.exec(line.replace(/^[ \t]+|[ \t]+$/g, ""));

function kindOf(word) {
  if (QUESTIONS.has(word)) return "question";
  return word === "keep" ? "keep" : SETS.has(word) ? "sets" : "unknown";
}

/** What stands while a script is read: lines with the places that they had in before, and events. */
class Standing {
  constructor() {
    this.lines = [];
    this.events = new Map();
  }

  /** Takes a command that was accepted. */
  take({ words, behind }) {
    const [name, step, at, value] = words;
    if (name === "edit") this.#edit(Number(step), Number(at), behind);
    else if (name === "input") this.events.set(places.input(Number(step)), at.toUpperCase());
    else if (name === "uninput") this.events.delete(places.input(Number(step)));
    else if (name === "irq") this.events.set(places.irq(Number(step), Number(at)), "");
    else if (name === "unirq") this.events.delete(places.irq(Number(step), Number(at)));
    else this.#poke(name, Number(step), parseInt(at, 16), value);
  }

  #edit(first, last, texts) {
    const gone = this.lines.slice(first - 1, last);
    const behind = this.lines[first - 2]?.place ?? 0;
    const given = placed(gone, texts, behind);
    // Not by `splice` of single values: there may be 65,536.
    this.lines = [...this.lines.slice(0, first - 1), ...given, ...this.lines.slice(last)];
  }

  #poke(name, step, address, value) {
    const place = places.poke(step, address - (address % 4));
    const old = this.events.get(place) ?? places.NOT_POKED;
    const at = 2 * (address % 4);
    const digits = { poke: () => value.padStart(8, "0"), unpoke: () => places.NOT_POKED }[name]?.();
    const byte = name === "pokeb" ? value.padStart(2, "0") : "--";
    const made = (digits ?? old.slice(0, at) + byte + old.slice(at + 2)).toUpperCase();
    if (made === places.NOT_POKED) this.events.delete(place);
    else this.events.set(place, made);
  }

  /** The past of which this is before. */
  begin() {
    this.lines = this.lines.map(({ text }, at) => ({ text, place: at + 1 }));
    return new Past(this.lines.map((it) => it.text), new Map(this.events));
  }

  /** The values of the places that differ from those of `past`. */
  valuesOver(past) {
    const texts = new Map();
    for (const { place, text } of this.lines) texts.has(place) ? texts.get(place).push(text) : texts.set(place, [text]);
    const found = new Map();
    for (let number = 0; number <= past.lines.length; number++) {
      const value = texts.get(number) ?? [];
      if (!places.isSame(value, past.valueBefore(places.line(number)))) found.set(places.line(number), value);
    }
    for (const place of new Set([...this.events.keys(), ...past.events.keys()])) {
      const value = this.events.get(place) ?? null;
      if (value !== past.valueBefore(place)) found.set(place, value);
    }
    return found;
  }
}

const isWithin = (one, all) =>
  [...one].every(([place, value]) => all.has(place) && places.isSame(value, all.get(place)));

/** What lines do, without remarks, so that a remark alone is no what-if. */
const bareValue = (place, value) => (places.isLine(place) ? value.map(statement) : value);
const bare = (values) => new Map([...values].map(([place, value]) => [place, bareValue(place, value)]));

/** A reading of a script's commands that were accepted: the past, with its what-ifs. */
export function read(accepted) {
  const standing = new Standing();
  const lastKeep = accepted.findLastIndex((it) => it.kind === "keep");
  let past = null;
  accepted.forEach((command, at) => {
    if (command.kind === "sets") standing.take(command);
    else if (command.kind === "keep" ? at === lastKeep : past === null && lastKeep < 0) past = standing.begin();
    else if (past) addNew(past, standing.valuesOver(past));
  });
  past ??= standing.begin();
  switchOn(past, standing.valuesOver(past));
  return past;
}

/** Adds a what-if, unless it is there, or several that are there make it together. */
function addNew(past, values) {
  const parts = past.whatIfs.filter((it) => isWithin(bare(it.values), bare(values)));
  const covered = new Set(parts.flatMap((it) => [...it.values.keys()]));
  if (covered.size < values.size) past.add(values);
}

/** Has what stands at the end be on: by the what-ifs that it has, and a new one for the rest. */
function switchOn(past, values) {
  const rest = new Map(values);
  for (const it of past.whatIfs.filter((whatIf) => isWithin(whatIf.values, values))) {
    if (![...it.values.keys()].every((place) => rest.has(place))) continue;
    it.isOn = true;
    for (const place of it.values.keys()) rest.delete(place);
  }
  if (rest.size > 0) past.add(rest).isOn = true;
}

/**
 * A past as a script, in parts: before, its events and a question; each what-if that `isAlone` takes, a question and
 * what takes it back; and at the end those that are on, with a question of the shown step. A part has its lines, how
 * many commands they are, and its what-if.
 */
export function writeParts(past, step, isAlone = (it) => !it.refused) {
  const none = new Map();
  const said = (from, to) => places.commandsBetween(from, to, past).map((it) => it.command);
  const part = (lines, whatIf = null) => ({ lines, count: lines.length, whatIf });
  const whole = new Map([[places.line(0), past.lines], ...past.events]);
  const found = [part([...places.commandsBetween(none, whole, new Past()).map((it) => it.command), "regs 0"])];
  for (const it of past.whatIfs.filter(isAlone)) {
    found.push(part([...said(none, it.values), `regs ${step}`, ...said(it.values, none)], it));
  }
  const now = said(none, past.now());
  if (now.length > 0) found.push(part([...now, `regs ${step}`]));
  return found;
}

/** The same as one text. */
export const write = (past, step) => textOf(writeParts(past, step));

export const textOf = (parts) => `${parts.flatMap((it) => it.lines).join("\n")}\n`;
