// What a user does, by a key or a button.
import { byId } from "./dom.js";
import * as dialogs from "./dialogs.js";
import { editedLines } from "./past.js";
import * as places from "./places.js";
import { inWords } from "./refusals.js";
import { bytesTyped, hex } from "./text.js";
import { LAST_STEP } from "./view.js";
import * as memory from "./view_memory.js";
import * as registers from "./view_registers.js";
import * as source from "./view_source.js";
import * as tabs from "./tabs.js";
import * as theme from "./theme.js";

const HAPPENING = "trap in out event";

const seek = (isBack, condition, name) => (bench) => bench.find(condition, isBack, name);

/** The nearest time at the marked line. */
const seekLine = (isBack) => (bench) => {
  const address = bench.listing.address(source.marked().at);
  if (address === null) bench.onSay("The marked line places no instruction.", true);
  else bench.find(`pc ${hex(address)}`, isBack, `time at line ${source.marked().at}`);
};

/** The nearest step that changes the marked word. */
const seekWord = (isBack) => (bench) => {
  const word = memory.markedWord();
  bench.find(`change ${hex(word)} 4`, isBack, `change of word ${hex(word, 5)}`);
};

const seekDifference = (bench) => {
  if (bench.cause) bench.go(bench.cause.n);
  else bench.onSay("No step is known that differs from before.", true);
};

const moved = (by) => (bench) => bench.go(bench.wanted + by);

const zoomed = (factor) => (bench) => {
  const { low, high } = bench.shown;
  const span = Math.max(16, Math.min(LAST_STEP, Math.round((high - low) * factor)));
  const isSeen = bench.wanted >= low && bench.wanted <= high;
  const part = isSeen ? (bench.wanted - low) / (high - low) : 0.5;
  const begin = Math.max(0, Math.min(LAST_STEP - span, Math.round(bench.wanted - span * part)));
  return bench.range(begin, begin + span);
};

/** Changes lines to what the user types in their place. */
function editLines(bench, first, last) {
  source.edit(bench, first, last, async (texts) => {
    const refused = await bench.give(editedLines(bench.past, first, last, texts));
    return refused && inWords(refused);
  });
}

const editMarked = (bench) => {
  const { first, last } = source.marked();
  if (bench.listing.count > 0) editLines(bench, first, last);
  else editLines(bench, 1, 0);
};

const putIn = (bench) => {
  const { last } = source.marked();
  editLines(bench, Math.min(last, bench.listing.count) + 1, Math.min(last, bench.listing.count));
};

async function deleteMarked(bench) {
  const { first, last } = source.marked();
  tell(bench, await bench.give(editedLines(bench.past, first, last, [])));
}

/** Tells a refusal. */
export function tell(bench, refused) {
  if (refused) bench.onSay(inWords(refused), true);
}

const pokeMarked = (bench) => {
  tabs.choose("memory");
  memory.mark(bench, memory.markedWord());
  const [step, address] = [bench.wanted, memory.markedWord()];
  memory.edit(bench, async (digits) => tell(bench, await bench.give(new Map([[places.poke(step, address), digits]]))));
};

/** Has bytes come in at the shown step. */
export async function giveInput(bench, text) {
  const digits = bytesTyped(text).map((it) => hex(it, 2)).join("");
  tell(bench, await bench.give(new Map([[places.input(bench.wanted), digits || null]])));
}

/** Requests a level at the shown step, or takes that back. */
export async function giveRequest(bench, level) {
  const place = places.irq(bench.wanted, level);
  const now = bench.set.has(place) ? bench.set.get(place) : bench.past.valueBefore(place);
  tell(bench, await bench.give(new Map([[place, now === null ? "" : null]])));
}

/** Takes an event of before away. */
export const without = async (bench, place) => tell(bench, await bench.give(new Map([[place, null]])));

const focus = (id) => () => {
  byId(id).focus();
  byId(id).select?.();
};

const toggleNumber = (number) => (bench) => {
  const it = bench.past.whatIfs[number - 1];
  if (it) bench.toggle(it);
};

/** A page of marked lines. */
const PAGE = 20;
const markedBy = (by, isMore) => (bench) => source.mark(bench, source.marked().at + by, isMore);

export const ACTIONS = {
  back: moved(-1),
  on: moved(1),
  "back-10": moved(-10),
  "on-10": moved(10),
  "back-100": moved(-100),
  "on-100": moved(100),
  first: (bench) => bench.go(0),
  last: (bench) => bench.go(bench.shown.high),
  "trap-on": seek(false, "trap", "trap"),
  "trap-back": seek(true, "trap", "trap"),
  "happening-on": seek(false, HAPPENING, "trap, input, output or event"),
  "happening-back": seek(true, HAPPENING, "trap, input, output or event"),
  "line-on": seekLine(false),
  "line-back": seekLine(true),
  "word-on": seekWord(false),
  "word-back": seekWord(true),
  difference: seekDifference,
  up: markedBy(-1),
  down: markedBy(1),
  "up-more": markedBy(-1, true),
  "down-more": markedBy(1, true),
  "page-up": markedBy(-PAGE),
  "page-down": markedBy(PAGE),
  edit: editMarked,
  "put-in": putIn,
  delete: deleteMarked,
  input: focus("add-input"),
  irq: focus("add-irq"),
  poke: pokeMarked,
  step: focus("step"),
  address: (bench) => {
    tabs.choose("memory");
    focus("address")(bench);
  },
  walk: (bench) => {
    tabs.choose("units");
    focus("walk-address")(bench);
  },
  tab: () => tabs.next(),
  "window-back": (bench) => registers.choose(bench, registers.chosenWindow(bench) - 1),
  "window-on": (bench) => registers.choose(bench, registers.chosenWindow(bench) + 1),
  align: (bench) => bench.lay(null),
  "lay-back": (bench) => bench.lay(bench.shiftAt(bench.wanted) - 1),
  "lay-on": (bench) => bench.lay(bench.shiftAt(bench.wanted) + 1),
  "lay-same": (bench) => bench.lay(0),
  "toggle-all": (bench) => bench.toggleAll(),
  keep: (bench) => bench.keep(),
  closer: zoomed(0.5),
  wider: zoomed(2),
  fit: (bench) => bench.fit(),
  all: (bench) => bench.range(0, LAST_STEP),
  examples: dialogs.examples,
  open: () => byId("file").click(),
  source: dialogs.source,
  save: dialogs.save,
  theme: () => theme.other(),
  keys: dialogs.help,
  ...Object.fromEntries(Array.from({ length: 9 }, (_, at) => [`toggle-${at + 1}`, toggleNumber(at + 1)])),
};

/** Does what a name says. */
export const perform = (bench, name) => ACTIONS[name](bench);
