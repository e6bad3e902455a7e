// The whole source, the examples, the help; a script that is saved.
import { byId, element, fill, make, span } from "./dom.js";
import { file } from "./connection.js";
import { EXAMPLES, pathOf } from "./examples.js";
import { GROUPS } from "./keys.js";
import { inWords, lineIn } from "./refusals.js";
import { checked } from "./saving.js";

/** The name of a file without its ending. */
const stem = (name) => name.replace(/\.[^.]*$/, "");

/** Opens a text, or one that is promised; tells what it is refused with, if it is. Gives the refusal. */
export async function openText(bench, text, name, windows) {
  const refused = await bench.open({ text, name, windows });
  if (refused) bench.onSay(`${name}: ${inWords(refused)}`, true);
  else if (refused === null && bench.problems.length > 0) bench.onSay(bench.problems.slice(0, 3).join(" "), true);
  return refused;
}

export function openExample(bench, example) {
  byId("window-count").value = example.windows;
  return openText(bench, file(pathOf(example)), example.title, example.windows);
}

export function examples(bench) {
  const dialog = byId("examples-dialog");
  const made = EXAMPLES.map((it) => {
    const choose = () => {
      dialog.close();
      openExample(bench, it);
    };
    const attributes = { type: "button", class: "example", "data-example": it.name, onclick: choose };
    return element("button", attributes, span("strong", it.title), span("", it.text));
  });
  fill(byId("examples-list"), made);
  dialog.showModal();
}

export function source(bench) {
  const area = byId("source-text");
  area.value = bench.listing.texts().join("\n");
  byId("source-refused").textContent = "";
  byId("source-dialog").showModal();
}

/** Takes the text of the dialog; a refusal is told there, with its line marked. */
async function useSource(bench) {
  const area = byId("source-text");
  const refused = await bench.openOver(area.value, byId("window-count").value);
  if (refused === null) return byId("source-dialog").close();
  byId("source-refused").textContent = inWords(refused);
  const line = lineIn(refused);
  if (line === null) return undefined;
  const begin = area.value.split("\n").slice(0, line - 1).join("\n").length + (line > 1 ? 1 : 0);
  const end = area.value.indexOf("\n", begin);
  area.focus();
  return area.setSelectionRange(begin, end < 0 ? area.value.length : end);
}

export function begin(bench) {
  byId("source-use").addEventListener("click", (it) => {
    it.preventDefault();
    useSource(bench);
  });
  byId("source-text").addEventListener("keydown", (it) => {
    if (it.key === "Enter" && (it.ctrlKey || it.metaKey)) useSource(bench);
  });
  byId("file").addEventListener("change", () => {
    const [chosen] = byId("file").files;
    byId("file").value = "";
    if (chosen) openText(bench, chosen.text(), chosen.name, byId("window-count").value);
  });
  byId("window-count").addEventListener("change", () => bench.withWindows(byId("window-count").value));
}

/** Saves a script, which the workbench runs as it stands. */
export async function save(bench) {
  const text = await checked(bench);
  if (text === null) return;
  const name = `${stem(bench.name || "what-if").toLowerCase().replace(/[^a-z0-9]+/g, "-")}-w${bench.windows}.txt`;
  const address = URL.createObjectURL(new Blob([text], { type: "text/plain" }));
  make(element("a", { href: address, download: name })).click();
  setTimeout(() => URL.revokeObjectURL(address), 10_000);
  bench.onSay(`Saved as ${name}: ./sparc8 --windows ${bench.windows} runs it.`);
}

const KEY_NAMES = {
  ArrowLeft: "←",
  ArrowRight: "→",
  ArrowUp: "↑",
  ArrowDown: "↓",
  PageUp: "PgUp",
  PageDown: "PgDn",
  Delete: "Del",
  "-": "−",
};
const keyName = (it) => it.split(/\+(?=.)/).map((one) => KEY_NAMES[one] ?? one).join(" ");

const ABOUT = [
  "Time runs from the left to the right. The strip shows what happens at which step, and below it which line of the " +
    "source runs; the slider, a click and the arrow keys go to a step.",
  "Change the past anywhere: a line (Enter, or a click on Edit), a word of memory at the shown step (m), input (i), " +
    "an interrupt (q). Each change is a what-if, which is switched on and off in the list.",
  "Orange is before, blue is now, grey is both. The verdict below the strip tells the first step that differs, both " +
    "lines there, registers and output old and new, and what differs at the shown step.",
  "Where one run has a trap or a line more, the page lays the step of before beside the shown one that does the same.",
];

export function help() {
  const about = ABOUT.map((it) => element("p", {}, it));
  const groups = GROUPS.map(([title, rows]) => element("section", {}, element("h3", {}, title), helpRows(rows)));
  fill(byId("help"), element("div", { class: "about" }, about), element("div", { class: "groups" }, groups));
  byId("keys-dialog").showModal();
}

const helpRows = (rows) =>
  element("dl", {}, rows.map(([keys, , text]) => [element("dt", {}, keysOf(keys)), element("dd", {}, text)]));

const keyOf = (it) => element("kbd", {}, keyName(it));
const keysOf = (keys) => (keys.length > 4 ? [keyOf(keys[0]), " – ", keyOf(keys.at(-1))] : keys.map(keyOf));
