// Begins the page, and has each part of it shown.
import * as actions from "./actions.js";
import { given } from "./connection.js";
import * as dialogs from "./dialogs.js";
import { byId, element, fill } from "./dom.js";
import { named } from "./examples.js";
import * as keys from "./keys.js";
import { remember, remembered } from "./saving.js";
import * as tabs from "./tabs.js";
import * as theme from "./theme.js";
import * as consoleView from "./view_console.js";
import * as memory from "./view_memory.js";
import * as registers from "./view_registers.js";
import * as source from "./view_source.js";
import * as steps from "./view_steps.js";
import * as time from "./view_time.js";
import * as units from "./view_units.js";
import * as verdict from "./view_verdict.js";
import * as whatIfs from "./view_whatifs.js";
import { Workbench } from "./workbench.js";

const VIEWS = [time, verdict, source, registers, steps, whatIfs, memory, units, consoleView];

const bench = new Workbench({ onChange: show, onOpen: opened, onSay: say });
let saidAt = 0;

function say(text, isProblem = false) {
  const status = byId("status");
  status.textContent = text;
  status.title = text;
  status.className = isProblem ? "refused" : "quiet";
  saidAt = performance.now();
}

/** Shows what stands on the page; where the user wants to go alone, while that is being asked. */
function show(what) {
  if (!bench.view || !bench.run) return;
  if (what === "wanted") {
    time.showWanted(bench);
    return;
  }
  for (const it of VIEWS) it.show(bench);
  byId("name").textContent = bench.name;
  if (performance.now() - saidAt > 3000) say("");
  later();
}

let waiting = null;

/** Keeps what stands here once nothing happens for a while, and shows the walk at the shown step. */
function later() {
  clearTimeout(waiting);
  waiting = setTimeout(() => remember(bench), 400);
  if (tabs.isChosen("units") && units.walkText() && walked !== `${bench.view.n} ${bench.changes}`) walk();
}

let walked = null;

/** Another text: marks and choices of the old one go. */
function opened() {
  source.reset();
  memory.reset();
  units.reset();
  bench.memory.count = memory.room();
  walked = null;
}

/** An address that the user typed: hexadecimal digits, or a label. */
function addressOf(text) {
  const label = bench.listing.labels.find(([, name]) => name === text.trim());
  if (label) return label[0];
  return /^(0x)?[0-9a-f]{1,8}$/i.test(text.trim()) ? parseInt(text.trim().replace(/^0x/i, ""), 16) : null;
}

async function walk(text = units.walkText()) {
  walked = `${bench.view.n} ${bench.changes}`;
  const address = addressOf(text);
  if (address === null && text.trim() !== "") say("An address has 1 to 8 hexadecimal digits, or is a label.", true);
  await units.findWalk(bench, text, address);
  units.show(bench);
}

/** What buttons and links say by their data. */
const CLICKS = {
  do: (it) => actions.perform(bench, it),
  step: (it) => bench.go(Number(it)),
  address: (it) => {
    tabs.choose("memory");
    memory.mark(bench, Number(it));
  },
  word: (it) => memory.mark(bench, Number(it)),
  window: (it) => registers.choose(bench, Number(it)),
  level: (it) => actions.giveRequest(bench, Number(it)),
  toggle: (it) => bench.toggle(bench.past.whatIfs.find(({ id }) => id === Number(it))),
  drop: (it) => bench.drop(bench.past.whatIfs.find(({ id }) => id === Number(it))),
  without: (it) => actions.without(bench, it),
  mark: (it) => {
    source.mark(bench, Math.max(1, bench.placeOfLine ? bench.placeOfLine.indexOf(Number(it)) + 1 : Number(it)));
    byId("lines").focus({ preventScroll: true });
  },
};
const SELECTOR = Object.keys(CLICKS).map((it) => `[data-${it}]`).join(", ");

function clicked(event) {
  const found = event.target.closest(SELECTOR);
  if (!found || !bench.view || (event.target.matches("input") && !found.matches("input"))) return;
  const [name] = Object.keys(CLICKS).filter((it) => it in found.dataset);
  CLICKS[name](found.dataset[name]);
}

/** A field whose text is used at Enter. */
function field(id, onUse, back) {
  const input = byId(id);
  input.addEventListener("keydown", (it) => {
    if (it.key !== "Enter" && it.key !== "Escape") return;
    it.preventDefault();
    if (it.key === "Enter") onUse(input.value);
    input.blur();
    byId(back).focus({ preventScroll: true });
  });
}

function goToWord(text) {
  const address = addressOf(text);
  if (address === null) say("An address has 1 to 8 hexadecimal digits, or is a label.", true);
  else memory.mark(bench, address);
}

function fields() {
  field("step", (it) => bench.go(Number(it.replace(/\D/g, "") || 0)), "lines");
  field("address", goToWord, "words");
  field("add-input", (it) => {
    byId("add-input").value = "";
    if (it) actions.giveInput(bench, it);
  }, "lines");
  byId("units").addEventListener("keydown", (it) => {
    if (it.target.id !== "walk-address" || (it.key !== "Enter" && it.key !== "Escape")) return;
    if (it.key === "Enter") walk(it.target.value);
    byId("lines").focus({ preventScroll: true });
  });
  const irq = byId("add-irq");
  const levels = Array.from({ length: 15 }, (_, at) => String(at + 1));
  fill(irq, element("option", { value: "" }, "–"), levels.map((it) => element("option", { value: it }, it)));
  irq.addEventListener("change", () => {
    if (irq.value) actions.giveRequest(bench, Number(irq.value));
    irq.value = "";
  });
  byId("add").addEventListener("submit", (it) => it.preventDefault());
}

/** Keys within the words of memory. */
function wordKeys(event) {
  if (event.target.matches("input")) return;
  if (event.key === "Escape") byId("lines").focus({ preventScroll: true });
  const page = 4 * memory.room();
  const ways = { ArrowLeft: -4, ArrowRight: 4, ArrowUp: -16, ArrowDown: 16, PageUp: -page, PageDown: page };
  const by = ways[event.key];
  if (by === undefined && event.key !== "Enter") return;
  event.preventDefault();
  if (by === undefined) actions.perform(bench, "poke");
  else memory.mark(bench, memory.markedWord() + by);
}

function listen() {
  document.addEventListener("click", clicked);
  byId("rows").addEventListener("dblclick", (it) => it.target.closest("[data-line]") && actions.perform(bench, "edit"));
  byId("words").addEventListener("keydown", wordKeys);
  byId("words").addEventListener("dblclick", () => actions.perform(bench, "poke"));
  new ResizeObserver(([it]) => steps.resize(bench, it.contentRect.height)).observe(byId("steps"));
  new ResizeObserver(resizedWords).observe(byId("words"));
}

function resizedWords() {
  if (bench.view && tabs.isChosen("memory")) memory.mark(bench, memory.markedWord());
}

/** What the page opens with: what it had in front of a reload, the file that was named, or the first example. */
async function first() {
  const kept = remembered();
  if (kept) return bench.open(kept);
  const file = await given();
  byId("window-count").value = file.windows;
  if (file.name === null) return dialogs.openExample(bench, named("boot"));
  const refused = await dialogs.openText(bench, file.text, file.name, file.windows);
  if (!refused) return null;
  // Its text is there to be corrected.
  await bench.open({ text: "", name: file.name, windows: file.windows });
  dialogs.source(bench);
  byId("source-text").value = file.text;
  byId("source-refused").textContent = byId("status").textContent;
  return refused;
}

theme.begin();
time.begin(bench);
source.begin(bench);
dialogs.begin(bench);
keys.begin(bench);
tabs.begin(() => bench.view && show());
listen();
fields();
try {
  await first();
  byId("window-count").value = bench.windows;
  byId("lines").focus();
} catch (problem) {
  say(problem.message, true);
}
/** For tests, and for those who look: what stands here, and when nothing is under way. */
window.rubliman = { bench, idle: () => bench.queue.idle(), marked: source.marked };
