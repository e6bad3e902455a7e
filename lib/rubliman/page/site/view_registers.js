// Registers, flags, and the windows as a ring.
import { byId, classes, element, fill, span } from "./dom.js";
import { FLAG_NAMES, psrFields, registerName, trapName, trapType } from "./fields.js";
import { hex } from "./text.js";
import { windowRegisters } from "./view.js";

/** The window that is shown, where it is not the current one. */
let chosen = null;

/** Shows another window, or the current one again. */
export function choose(bench, window) {
  const count = bench.view.now.windows.length;
  const current = psrFields(bench.view.now.machine.psr).CWP;
  const wanted = (window + count) % count;
  chosen = wanted === current ? null : wanted;
  show(bench);
}

export const chosenWindow = (bench) => chosen ?? psrFields(bench.view.now.machine.psr).CWP;

export function show(bench) {
  const { now, before, last } = bench.view;
  if (chosen !== null && chosen >= now.windows.length) chosen = null;
  const fields = psrFields(now.machine.psr);
  const window = chosen ?? fields.CWP;
  const windowBefore = chosen ?? psrFields(before.machine.psr).CWP;
  showState(now.machine);
  showRing(bench, fields.CWP, window);
  const rows = [windowRegisters(now, window), windowRegisters(before, windowBefore), windowRegisters(last, window)];
  const made = Array.from({ length: 8 }, (_, at) => row(bench, at, ...rows));
  fill(byId("window"), HEADS, element("tbody", {}, made));
  showSpecial(bench, now.machine, before.machine);
}

function showState(machine) {
  byId("state").textContent = machine.isError ? "error mode" : machine.annul ? "annulled slot" : "";
  byId("state").className = machine.isError ? "refused" : "quiet";
}

const GROUPS = ["globals", "outs", "locals", "ins"].map((it) => element("th", { scope: "col" }, it));
const HEADS = element("thead", {}, element("tr", {}, element("th", { "aria-label": "number" }), GROUPS));

function row(bench, at, now, before, last) {
  const numbers = [0, 8, 16, 24].map((base) => base + at);
  const cells = numbers.map((it) => cell(bench, it, now[it], before[it], last[it]));
  return element("tr", {}, element("th", { scope: "row" }, String(at)), cells);
}

function cell(bench, number, value, old, last) {
  const differs = value !== old;
  const isNew = bench.view.n > 0 && value !== last;
  const symbol = bench.listing.symbol(value);
  const title = [
    `${registerName(number)} = ${value} = ${value | 0}`,
    symbol,
    isNew && `was ${hex(last)} a step before`,
    differs && `${hex(old)} in before`,
  ];
  const attributes = {
    class: classes(value === 0 && !differs && "zero", differs && "differs", isNew && "fresh"),
    title: title.filter(Boolean).join("; "),
    "data-address": String(value - (value % 4)),
  };
  return element("td", attributes, hex(value), differs && [" ", span("was", hex(old))]);
}

function showRing(bench, current, window) {
  const { now, before } = bench.view;
  byId("ring").classList.toggle("many", now.windows.length > 16);
  fill(byId("ring"), now.windows.map((registers, at) => {
    const isMarked = (now.machine.wim >>> at) & 1;
    const differs = before.windows[at] && String(registers) !== String(before.windows[at]);
    return ringButton(at, at === current, isMarked, differs, at === window);
  }));
}

function ringButton(at, isCurrent, isMarked, differs, isPressed) {
  const told = [
    `window ${at}`,
    isCurrent && "current",
    isMarked && "marked in WIM",
    differs && "differs from before",
  ].filter(Boolean).join(", ");
  const attributes = {
    type: "button",
    class: classes("flag", isCurrent && "on", isMarked && "marked", differs && "differs"),
    "data-window": String(at),
    "aria-pressed": String(isPressed),
    "aria-label": told,
    title: told,
  };
  return element("button", attributes, String(at));
}

/** A register with its value, its old one, and a word on it. */
function register(name, value, old, note = "") {
  const differs = value !== old;
  const is = span(classes(differs && "now"), hex(value));
  const shown = span("value code", is, differs && [" ", span("was", hex(old))]);
  return element("div", { title: note || null }, span("key", name), " ", shown, " ", note && span("quiet note", note));
}

function flag(name, value, old) {
  const title = `${FLAG_NAMES[name]}: ${value}${value === old ? "" : `, ${old} in before`}`;
  return element("span", { class: classes("flag", value && "on", value !== old && "differs"), title }, name);
}

function number(name, value, old) {
  const differs = value !== old;
  const shown = span(classes("code strong", differs && "now"), String(value));
  return span("number", span("key", name), " ", shown, differs && [" ", span("code was", String(old))]);
}

function showSpecial(bench, machine, old) {
  const fields = psrFields(machine.psr);
  const before = psrFields(old.psr);
  const flags = (names) => names.map((it) => flag(it, fields[it], before[it]));
  const type = trapType(machine.tbr);
  const trap = type ? `trap type ${hex(type, 2)}, ${trapName(type)}` : "no trap taken yet";
  fill(
    byId("special"),
    register("PC", machine.pc, old.pc, bench.listing.symbol(machine.pc) ?? ""),
    register("nPC", machine.npc, old.npc, bench.listing.symbol(machine.npc) ?? ""),
    register("PSR", machine.psr, old.psr),
    element("div", { class: "flags" }, flags(["N", "Z", "V", "C"]), " ", flags(["S", "PS", "ET"])),
    element("div", {}, number("CWP", fields.CWP, before.CWP), number("PIL", fields.PIL, before.PIL)),
    register("TBR", machine.tbr, old.tbr),
    element("div", { class: "quiet note" }, trap),
    register("WIM", machine.wim, old.wim),
    register("Y", machine.y, old.y),
  );
}
