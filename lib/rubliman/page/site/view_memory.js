// Words of memory at the shown step, with those of before.
import { byId, classes, element, fill, make, span } from "./dom.js";
import * as places from "./places.js";
import { link } from "./telling.js";
import { character, hex, several } from "./text.js";
import { MOST_DIFFERENCES } from "./view.js";
import { wordsThatDiffer } from "./view_verdict.js";

const ROW = 25;
const ACROSS = 4;
const RAM = 0x100000;
const MOST_ROWS = 32;

/** The marked word. */
let word = 0;

export const markedWord = () => word;

/** How many words there is room for. */
export function room() {
  const rows = Math.floor(byId("words").clientHeight / ROW);
  return ACROSS * Math.max(4, Math.min(MOST_ROWS, rows || 4));
}

/** Marks a word, and has it be in sight. */
export function mark(bench, address) {
  word = Math.max(0, Math.min(RAM - 4, address - (address % 4)));
  const count = room();
  const low = bench.memory.address;
  const isSeen = word >= low && word < low + 4 * count;
  if (!isSeen) bench.memory.address = Math.max(0, Math.min(RAM - 4 * count, firstFor(word, low, count)));
  bench.memory.count = count;
  if (isSeen && bench.view?.now.memory?.length === count) show(bench);
  else bench.again();
}

/** The first address to show so that a word is the first row; the last row where it is just behind what is shown. */
function firstFor(address, low, count) {
  const isJustBehind = address > low && address - low - 4 * count < 64;
  const above = isJustBehind ? count / ACROSS - 1 : 0;
  return address - (address % 16) - 16 * above;
}

export function reset() {
  word = 0;
}

export function show(bench) {
  const { view } = bench;
  const input = byId("address");
  if (document.activeElement !== input) input.value = hex(word, 5);
  const now = view.now.memory;
  const before = view.before.memory;
  const rows = [];
  for (let at = 0; at < now.length; at += ACROSS) {
    const [words, old] = [now, before].map((it) => it.slice(at, at + ACROSS));
    rows.push(row(bench, view.address + 4 * at, words, old));
  }
  fill(byId("words"), rows);
  byId("words").setAttribute("aria-activedescendant", `word-${word}`);
  showDifferences(bench);
}

function row(bench, address, now, before) {
  const cells = now.map((value, at) => cell(bench, address + 4 * at, value, before[at]));
  const text = now.flatMap((value) => [24, 16, 8, 0].map((bits) => character((value >>> bits) & 255))).join("");
  const head = element("span", { role: "rowheader", class: "address" }, hex(address, 5));
  const characters = element("span", { role: "gridcell", class: "characters" }, text);
  return element("div", { key: address, role: "row", class: "words" }, head, cells, characters);
}

function cell(bench, address, value, old) {
  const { view } = bench;
  const differs = value !== old;
  const made = view.now.steps.find((it) => it.n === view.n - 1)?.access;
  const isTouched = made && address >= made.physical - 3 && address <= made.physical;
  const poked = pokedAt(bench, address);
  const line = bench.listing.lineAt(address);
  const title = [
    bench.listing.symbol(address),
    line && `line ${line}`,
    `${value | 0}`,
    differs && `${hex(old)} in before`,
    poked && `poked at this step: ${poked}`,
  ];
  const isMarked = address === word;
  const isZero = value === 0 && !differs;
  const attributes = {
    role: "gridcell",
    id: `word-${address}`,
    class: classes("cell", isZero && "zero", differs && "differs", isTouched && "fresh", isMarked && "marked"),
    "data-word": String(address),
    title: title.filter(Boolean).join("; "),
    "aria-selected": String(isMarked),
  };
  const more = poked ? [" ", span("poked", `→ ${poked}`)] : differs && [" ", span("was", hex(old))];
  return element("span", attributes, hex(value), more);
}

/** What is poked into a word at the shown step, which `mem` shows at the next one. */
function pokedAt(bench, address) {
  const place = places.poke(bench.view.n, address);
  return bench.set.has(place) ? bench.set.get(place) : bench.past.valueBefore(place);
}

function showDifferences(bench) {
  const words = wordsThatDiffer(bench);
  const isMore = words.length >= MOST_DIFFERENCES;
  const count = isMore ? `${MOST_DIFFERENCES} words or more` : several(words.length, "word");
  const told = `${count} differ${words.length === 1 ? "s" : ""}`;
  const links = words.slice(0, 4).flatMap(({ address }) => [" ", link({ address }, hex(address, 5))]);
  fill(byId("memory-differs"), words.length > 0 && [span("quiet", told), ...links, words.length > 4 && " …"]);
  const badge = byId("tab-memory").querySelector(".badge");
  badge.textContent = words.length > 0 ? String(words.length) : "";
}

/** Opens an editor in the marked word; `onUse` is given the digits, and gives a refusal in words or null. */
export function edit(bench, onUse) {
  const at = byId(`word-${word}`);
  if (!at || at.querySelector("input")) return;
  const label = `Poke word ${hex(word, 5)} at step ${bench.wanted}`;
  const attributes = { class: "code", size: "8", maxlength: "8", "aria-label": label, autocomplete: "off" };
  const input = make(element("input", attributes));
  input.value = at.firstChild.textContent;
  at.replaceChildren(input);
  input.select();
  const done = () => show(bench);
  input.addEventListener("blur", done, { once: true });
  input.addEventListener("keydown", async (it) => {
    it.stopPropagation();
    if (it.key === "Escape") byId("words").focus();
    if (it.key !== "Enter") return;
    const digits = input.value.trim();
    if (!/^[0-9a-f]{1,8}$/i.test(digits)) return void input.setAttribute("aria-invalid", "true");
    byId("lines").focus({ preventScroll: true });
    await onUse(digits.toUpperCase().padStart(8, "0"));
  });
}
