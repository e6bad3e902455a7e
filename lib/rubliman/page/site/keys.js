// The keys, what each does, and the words that the help has for it.
import { perform } from "./actions.js";
import { isEditing } from "./view_source.js";

const DIGITS = Array.from({ length: 9 }, (_, at) => String(at + 1));

/** Groups of keys: as a browser names them, with `Shift+`, `Alt+` and `Ctrl+` in front, what they do, in words. */
export const GROUPS = [
  ["Where", [
    [["ArrowLeft", "ArrowRight"], ["back", "on"], "a step back, a step on"],
    [["Shift+ArrowLeft", "Shift+ArrowRight"], ["back-10", "on-10"], "ten steps"],
    [["Alt+ArrowLeft", "Alt+ArrowRight"], ["back-100", "on-100"], "a hundred steps"],
    [["Home", "End"], ["first", "last"], "to reset; to the last step in the strip"],
    [["t", "T"], ["trap-on", "trap-back"], "the next trap or interrupt; the one before"],
    [["n", "N"], ["happening-on", "happening-back"], "the next trap, input, output or event; the one before"],
    [["c", "C"], ["line-on", "line-back"], "the next time at the marked line; the last time"],
    [["w", "W"], ["word-on", "word-back"], "the next step that changes the marked word; the last one that did"],
    [["d"], ["difference"], "the first step that differs from before"],
    [["s"], ["step"], "to a step, by its number"],
  ]],
  ["What if", [
    [["ArrowUp", "ArrowDown"], ["up", "down"], "marks another line"],
    [["Shift+ArrowUp", "Shift+ArrowDown"], ["up-more", "down-more"], "marks one line more"],
    [["PageUp", "PageDown"], ["page-up", "page-down"], "marks a line 20 lines away"],
    [["Enter", "e"], ["edit", "edit"], "changes the marked lines"],
    [["o"], ["put-in"], "puts a line in behind the marked one"],
    [["Delete"], ["delete"], "takes the marked lines out"],
    [["i"], ["input"], "input at the shown step"],
    [["q"], ["irq"], "an interrupt at the shown step"],
    [["m"], ["poke"], "pokes the marked word at the shown step"],
    [DIGITS, DIGITS.map((it) => `toggle-${it}`), "switches that what-if"],
    [["x"], ["toggle-all"], "all what-ifs off, and on again"],
    [["k"], ["keep"], "keeps what is now as before"],
  ]],
  ["What is shown", [
    [["+", "-"], ["closer", "wider"], "fewer steps in the strip, or more"],
    [["f", "a"], ["fit", "all"], "up to the last new thing; all 1,000,000 steps"],
    [["l"], ["align"], "lays the step of before beside it that does the same"],
    [["[", "]", "0"], ["lay-back", "lay-on", "lay-same"], "lays the step in front, behind, or the same one beside it"],
    [["<", ">"], ["window-back", "window-on"], "another register window"],
    [["g", "p"], ["address", "walk"], "an address of memory; where an address of the program leads"],
    [["v"], ["tab"], "memory, the MMU and devices, the console"],
    [["y"], ["theme"], "light or dark"],
  ]],
  ["The page", [
    [["b", "r"], ["examples", "source"], "examples; the whole source"],
    [["Ctrl+o", "Ctrl+s"], ["open", "save"], "opens a source or a script; saves a script"],
    [["?"], ["keys"], "this help"],
  ]],
];

const ROWS = GROUPS.flatMap(([, rows]) => rows);
const BY_KEY = new Map(ROWS.flatMap(([keys, names]) => keys.map((it, at) => [it, names[at] ?? names[0]])));

/** A key as the groups name it. Shift counts where it is no part of the character. */
function nameOf(event) {
  const isNamed = event.key.length > 1;
  const shift = isNamed && event.shiftKey ? "Shift+" : "";
  return `${event.ctrlKey || event.metaKey ? "Ctrl+" : ""}${event.altKey ? "Alt+" : ""}${shift}${event.key}`;
}

const takesText = (it) => it.matches("input:not([type=range]):not([type=checkbox]), textarea, select");

/** Keys that an element takes itself. */
function isTaken(target, name) {
  if (target.matches("button, summary, [type=checkbox]") && (name === "Enter" || name === " ")) return true;
  if (target.matches("[role=tab]") && name.startsWith("Arrow")) return true;
  return target.closest("#words") !== null && (name.startsWith("Arrow") || name === "Enter" || name.startsWith("Page"));
}

export function begin(bench) {
  document.addEventListener("keydown", (it) => {
    const name = nameOf(it);
    const isText = (takesText(it.target) || isEditing()) && !name.startsWith("Ctrl+");
    if (isText || isTaken(it.target, name) || document.querySelector("dialog[open]")) return;
    const action = BY_KEY.get(name);
    if (!action || !bench.view) return;
    it.preventDefault();
    perform(bench, action);
  });
}
