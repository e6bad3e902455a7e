// The memory management unit with a walk through its tables, and the devices.
import { byId, classes, element, fill, span } from "./dom.js";
import { ACCESS_RIGHTS, entryText, faultFields } from "./fields.js";
import { link } from "./telling.js";
import { hex } from "./text.js";

const LEVELS = Array.from({ length: 15 }, (_, at) => at + 1);

/** The address whose way through the tables is shown, as it was typed, and the way. */
const walk = { text: "", shown: null };

export const walkText = () => walk.text;

export function reset() {
  Object.assign(walk, { text: "", shown: null });
}

export function show(bench) {
  const now = bench.view.now.machine;
  const before = bench.view.before.machine;
  const box = byId("units");
  fill(box, unit(now, before), walkRow(), devices(now, before), pending(now, before));
  const names = ["control", "table", "context", "faultStatus", "faultAddress", "timer", "reload", "pending", "waiting"];
  const count = names.filter((it) => now[it] !== before[it]).length;
  byId("tab-units").querySelector(".badge").textContent = count > 0 ? String(count) : "";
}

const value = (name, now, before, digits = 8) => [
  name && [span("key", name), " "],
  span(classes("code", now !== before && "now"), hex(now, digits)),
  now !== before && [" ", span("code was", hex(before, digits))],
];

function flag(name, now, before) {
  const differs = now !== before;
  const title = differs ? "another in before" : null;
  return element("span", { class: classes("flag", now && "on", differs && "differs"), title }, name);
}

const bit = (value, at) => (value >>> at) & 1;
/** The address of the context table, which the register has in units of 16 bytes. */
const tableOf = (register) => (register - (register % 4)) * 16;

function unit(now, before) {
  const fault = faultFields(now.faultStatus);
  const [root, rootBefore] = [now, before].map((it) => tableOf(it.table));
  const [isOn, wasOn] = [now, before].map((it) => bit(it.control, 0));
  const [isNoFault, wasNoFault] = [now, before].map((it) => bit(it.control, 1));
  const table = [link({ address: root }, hex(root)), now.table !== before.table && span("code was", hex(rootBefore))];
  const status = value("status", now.faultStatus, before.faultStatus);
  return element("dl", {},
    row("Translation", flag(isOn ? "on" : "off", isOn, wasOn), flag("no fault", isNoFault, wasNoFault)),
    row("Context", value("", now.context, before.context, 2), " ", span("key", "table"), " ", table),
    row("Fault", fault.type ? faultText(fault) : span("quiet", "none")),
    row("", status, " ", value("address", now.faultAddress, before.faultAddress)));
}

function faultText({ name, access, level, isOverwritten }) {
  return [span("refused", name), ` on a ${access}, level ${level}${isOverwritten ? ", overwritten" : ""}`];
}

const row = (name, ...content) => [element("dt", {}, name), element("dd", {}, ...content)];

function walkRow() {
  const focused = document.activeElement;
  const input = element("input", {
    id: "walk-address",
    class: "code",
    size: "9",
    placeholder: "address",
    value: focused?.id === "walk-address" ? focused.value : walk.text,
    autocomplete: "off",
    title: "An address of the program, or a label (p)",
  });
  const label = element("label", {}, span("key", "Walk"), " ", input);
  const way = walk.shown ? path(walk.shown) : span("quiet", "where an address of the program leads");
  return element("div", { class: "walk" }, label, way);
}

/** The entries on the way, and where they lead, by the monitor's own word. */
function path({ entries, now, before }) {
  const differs = now !== before;
  const place = span(classes("strong", differs && "now"), placeText(now));
  return [
    element("table", {}, element("tbody", {}, entries.map(entryRow))),
    element("p", {}, span("key", "leads to"), " ", place, differs && [" ", span("was", placeText(before))]),
  ];
}

function entryRow({ name, address, entry }) {
  const [word, meaning] = entry === null ? ["not in RAM", ""] : [hex(entry), entryText(entry)];
  return element("tr", {},
    element("th", { scope: "row" }, name),
    element("td", {}, link({ address }, hex(address))),
    element("td", { class: "code" }, word),
    element("td", { class: "quiet" }, meaning));
}

function placeText(line) {
  if (!line) return "no page";
  const [address, level, rights] = line.split(" ");
  if (level === "-") return `${address}, translation off`;
  return `${address} (level ${level}, user / supervisor ${ACCESS_RIGHTS[Number(rights)]})`;
}

const SHIFTS = [24, 18, 12];
const MASKS = [255, 63, 63];

/** Asks for the way of an address at the shown step: the entries by `mem`, and where it leads by `where`. */
export async function findWalk(bench, text, address) {
  Object.assign(walk, { text, shown: null });
  if (address === null) return;
  await bench.converse(async (ask) => {
    const { n, m, now } = bench.view;
    const [here, there] = await ask([`where ${n} ${hex(address)}`, `before where ${m} ${hex(address)}`]);
    const entries = (now.machine.control & 1) === 1 ? await entriesTo(ask, n, now.machine, address) : [];
    walk.shown = { entries, now: here.lines[0] ?? null, before: there.lines[0] ?? null };
  });
}

/** The entries on the way, up to the one that is no pointer to a table. */
async function entriesTo(ask, n, { table, context }, address) {
  const found = [];
  let at = (table - (table % 4)) * 16 + 4 * context;
  for (let level = 0; level < 4; level++) {
    const entry = await entryAt(ask, n, at);
    found.push({ name: level === 0 ? "context" : `level ${level}`, address: at, entry });
    if (entry === null || (entry & 3) !== 1 || level === 3) break;
    at = (entry - 1) * 16 + 4 * ((address >>> SHIFTS[level]) & MASKS[level]);
  }
  return found;
}

async function entryAt(ask, n, address) {
  if (address > 0xffffffff) return null;
  const [{ lines }] = await ask([`mem ${n} ${hex(address)} 1`]);
  return lines.length > 0 ? parseInt(lines[0].slice(9), 16) : null;
}

function devices(now, before) {
  const differs = now.waiting !== before.waiting;
  const waiting = span(classes(differs && "now"), `${now.waiting} bytes wait`);
  return element("dl", {},
    row("Timer", value("count", now.timer, before.timer), " ", value("reload", now.reload, before.reload)),
    row("Console", waiting, differs && span("was", String(before.waiting))));
}

/** The pending levels; each is a button that requests it at the shown step. */
function pending(now, before) {
  const made = LEVELS.map((level) => levelButton(level, bit(now.pending, level), bit(before.pending, level)));
  const attributes = { class: "pending", role: "group", "aria-label": "Interrupt levels" };
  return element("div", attributes, span("key", "Pending"), made);
}

function levelButton(level, is, was) {
  const state = `${is ? "pending" : "not pending"}${is === was ? "" : ", other than in before"}`;
  const told = `Level ${level}, ${state}: request it at this step`;
  const attributes = {
    type: "button",
    class: classes("flag", is && "on", is !== was && "differs"),
    "data-level": String(level),
    title: told,
    "aria-label": told,
  };
  return element("button", attributes, String(level));
}
