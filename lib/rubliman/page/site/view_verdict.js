// The verdict: the first step that differs from before, the output, and what differs at the shown step.
import { byId, fill, span } from "./dom.js";
import { registerName } from "./fields.js";
import { happenings, link, pair, stepLink, textOf } from "./telling.js";
import { counted, several, statement, typed } from "./text.js";
import { LAST_STEP, MOST_DIFFERENCES, registersThatDiffer } from "./view.js";

const AS_BEFORE =
  "Now is as before. Change a line, a word of memory, the input or an interrupt, and see here what that changes.";
const FEW = 6;
const MOST_OUTPUT = 60;

export function show(bench) {
  fill(byId("first"), ...first(bench));
  fill(byId("outputs"), ...outputs(bench));
  fill(byId("here"), ...here(bench));
  const box = byId("verdict");
  box.classList.toggle("parted", bench.part !== null);
  box.classList.toggle("same", !bench.isSame && bench.part === null && bench.partUpTo === LAST_STEP);
  for (const row of box.querySelectorAll(".row > div")) row.title = row.textContent;
}

function first(bench) {
  if (bench.isSame) {
    return [span("quiet", AS_BEFORE)];
  }
  if (bench.cause === null) return [noDifference(bench)];
  const { n, now, before, registers } = bench.cause;
  return [
    span("strong", "step ", stepLink(n)),
    ...bothLines(bench, before, now),
    ...sorted(bench, registers).slice(0, FEW).map(pair),
  ];
}

function noDifference(bench) {
  if (bench.partUpTo < LAST_STEP) return span("quiet", `None up to step ${counted(bench.partUpTo)}; looking further …`);
  const within = " in 1,000,000 steps, as far as the processor and the MMU show.";
  return span("", span("strong good", "None"), span("quiet", within));
}

/** The lines of before and of now at a step, once where both are the same. */
function bothLines(bench, before, now) {
  const old = told(bench.before, before);
  const value = told(bench.listing, now);
  const isOne = textOf(old) === textOf(value);
  if (isOne) return [span("", ...value)];
  return [span("", span("tag was", "before"), " ", ...old), span("", span("tag now", "now"), " ", ...value)];
}

function told(listing, it) {
  if (!it) return [span("quiet", "nothing")];
  const line = listing.lineAt(it.at);
  const place = [span("quiet", `line ${line} `), span("code", listing.statement(line))];
  const where = line ? place : [span("quiet", "no line of the source")];
  const what = happenings(it);
  return what.length > 0 ? [...where, " ", ...what] : where;
}

/** Registers that differ, those that point to the same place of the source last. */
function sorted(bench, registers) {
  const told = registers.map((it) => withSymbols(bench, it));
  return [...told.filter((it) => !it.isMoved), ...told.filter((it) => it.isMoved)];
}

function withSymbols(bench, it) {
  const [old, value] = [bench.before.symbol(it.old), bench.listing.symbol(it.value)];
  const isPointer = it.name === "PC" || it.name === "nPC" || /^%[oil][0-7]$/.test(it.name);
  if (!isPointer || old === null || value === null) return it;
  return old === value ? { ...it, isMoved: true, symbols: [old, `${value}, moved`] } : it;
}

function outputs(bench) {
  const [old, value] = [bench.runBefore.output, bench.run.output];
  const upTo = span("quiet", `up to step ${counted(bench.asked.high)}`);
  if (bench.isSame || typed(old) === typed(value)) {
    return value.length > 0 ? [quoted(value, ""), upTo] : [span("quiet", "nothing is put out"), upTo];
  }
  return [span("", quoted(old, "was"), span("quiet", " → "), quoted(value, "now")), upTo];
}

/** Bytes of the output, the end of them where they are many. */
function quoted(bytes, name) {
  if (bytes.length === 0) return span(name, "nothing");
  const text = typed(bytes.slice(-MOST_OUTPUT));
  return span(`${name} code`, `“${bytes.length > MOST_OUTPUT ? "…" : ""}${text}”`);
}

/** Words of RAM that differ, but for those of lines that do. */
export function wordsThatDiffer(bench) {
  return bench.view.differences.filter(({ address }) => {
    const line = bench.listing.lineAt(address);
    return line === 0 || statement(bench.listing.text(line)) === bench.before.statement(bench.before.lineAt(address));
  });
}

function here(bench) {
  const { view } = bench;
  byId("here-title").textContent = `Step ${counted(view.n)}`;
  if (bench.isSame && view.m === view.n) return [span("quiet", "as before")];
  const beside = view.m === view.n ? [] : [span("quiet", `beside step ${counted(view.m)} of before`)];
  const registers = sorted(bench, registersThatDiffer(view.before.machine, view.now.machine, registerName));
  const words = wordsThatDiffer(bench);
  if (registers.length === 0 && words.length === 0) return [span("quiet", "nothing differs"), ...beside];
  const more = registers.length - FEW;
  return [
    ...registers.slice(0, FEW).map(pair),
    more > 0 && span("quiet", `${several(more, "more register")}`),
    words.length > 0 && wordsLink(words),
    ...beside,
  ].filter(Boolean);
}

function wordsLink(words) {
  const isMore = words.length >= MOST_DIFFERENCES;
  const count = isMore ? `${counted(MOST_DIFFERENCES)} words or more` : several(words.length, "word");
  return link({ address: words[0].address }, `${count} of memory`);
}

