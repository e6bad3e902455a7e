// The strip, the slider and the bar over them.
import { byId, fill, span } from "./dom.js";
import { Strip } from "./strip.js";
import { access, happenings, textOf } from "./telling.js";
import { counted, hex, several } from "./text.js";
import { LANES } from "./run.js";

let strip = null;

export function begin(bench) {
  strip = new Strip(byId("strip"), (n) => bench.go(n), (n) => showHovered(bench, n));
  const slider = byId("slider");
  slider.addEventListener("input", () => bench.go(Number(slider.value)));
}

/** What a step did, in one line. */
export function told(bench, it) {
  if (!it) return [];
  const line = bench.listing.lineAt(it.at);
  const place = bench.listing.symbol(it.at);
  const code = bench.listing.statement(line) || (it.word === null ? "" : hex(it.word));
  const at = span("quiet", hex(it.pc, 5), place ? ` ${place}` : "");
  return [at, "  ", code, "  ", ...access(it), " ", ...happenings(it)];
}

function showHovered(bench, n) {
  if (n === null) showStep(bench);
  else fill(byId("happens"), span("quiet", `${counted(n)}  `), ...told(bench, bench.run?.at(n)));
}

const shownStep = (bench) => bench.view.now.steps.find((it) => it.n === bench.view.n);

function showStep(bench) {
  if (bench.view) fill(byId("happens"), ...told(bench, shownStep(bench)));
}

/** Where the user wants to go, at once. */
export function showWanted(bench) {
  showFields(bench);
  if (strip.model) strip.show({ ...strip.model, step: bench.wanted });
}

function showFields(bench) {
  const input = byId("step");
  if (document.activeElement !== input) input.value = String(bench.wanted);
  byId("slider").value = String(bench.wanted);
}

export function show(bench) {
  const { low, high } = bench.shown;
  const slider = byId("slider");
  [slider.min, slider.max] = [low, high];
  byId("range").textContent = `${counted(low)} – ${counted(high)}`;
  showStep(bench);
  showFields(bench);
  slider.setAttribute("aria-valuetext", `step ${counted(bench.view.n)}: ${textOf(told(bench, shownStep(bench)))}`);
  const canvas = byId("strip");
  canvas.setAttribute("aria-label", summary(bench));
  const before = bench.isSame ? null : bench.runBefore;
  strip.show({
    low,
    high,
    step: bench.wanted,
    first: bench.cause?.n ?? null,
    now: bench.run,
    before,
    lineNow: (it) => bench.placeOf(bench.listing.lineAt(it.at)),
    lineBefore: (it) => bench.before.lineAt(it.at),
    listing: bench.listing,
    lines: Math.max(1, bench.before.count),
  });
}

export const redraw = () => strip.draw();

/** The strip in words. */
function summary(bench) {
  const { low, high } = bench.shown;
  const within = bench.run.happenings.filter((it) => it.n >= low && it.n < high);
  const counts = LANES.map(({ name, takes }) => [name, within.filter(takes).length]).filter(([, count]) => count > 0);
  const told = counts.map(([name, count]) => several(count, name)).join(", ") || "nothing but instructions";
  return `The run, steps ${counted(low)} to ${counted(high)}: ${told}`;
}
