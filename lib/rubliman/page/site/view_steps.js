// The steps around the shown one, now beside before, aligned where one run has a trap or a line more.
import { rowsAround } from "./alignment.js";
import { byId, classes, element, fill, span } from "./dom.js";
import { access, happenings } from "./telling.js";
import { counted, hex } from "./text.js";

const ROW = 18;

/** How high the place for rows is, in pixels. */
let place = 0;

export function resize(bench, height) {
  place = height;
  if (bench.view) show(bench);
}

export function show(bench) {
  const { view } = bench;
  const shift = view.m - view.n;
  const how = bench.fixedShift === null ? "" : ", by hand";
  const distance = shift === 0 ? "same step" : `${shift > 0 ? "+" : "−"}${counted(Math.abs(shift))}`;
  byId("shift").textContent = bench.isSame && shift === 0 ? "–" : `${distance}${how}`;
  const rows = chosen(bench);
  const table = byId("steps").querySelector("table");
  fill(table, element("tbody", {}, rows.map((it) => row(bench, it))));
}

/** As many rows as there is room for, the shown step in the upper half. */
function chosen(bench) {
  const { now, before, n, m } = bench.view;
  const { front, behind } = rowsAround(before.steps, now.steps, m, n, bench.keyBefore, bench.keyNow);
  const room = Math.max(5, Math.floor(place / ROW));
  const above = Math.min(front.length, Math.floor(room * 0.4));
  return [...front.slice(front.length - above), ...behind].slice(0, room);
}

function row(bench, { now, before }) {
  const differs = isOther(bench, now, before);
  const isShown = now?.n === bench.view.n;
  const name = classes(isShown && "here", differs && "differs", !now && "gone", !before && !bench.isSame && "new");
  const step = now ?? { n: before.n - (bench.view.m - bench.view.n) };
  const cells = [
    element("td", { class: "number" }, now ? counted(now.n) : ""),
    element("td", { class: "now", colspan: differs ? null : "3" }, now ? told(now, bench.listing) : ""),
  ];
  if (differs) {
    cells.push(element("td", { class: "number was" }, before ? counted(before.n) : ""));
    cells.push(element("td", { class: "was" }, before ? told(before, bench.before) : ""));
  }
  const attributes = {
    key: `${now?.n} ${before?.n}`,
    class: name,
    "data-step": String(Math.max(0, step.n)),
    "aria-current": isShown ? "step" : null,
  };
  return element("tr", attributes, cells);
}

/** Whether a step of now is another one than that beside it: its line, its text, or what happened. */
function isOther(bench, now, before) {
  if (!now || !before) return !bench.isSame;
  if (bench.keyNow(now) !== bench.keyBefore(before)) return true;
  if (now.in !== before.in || now.out !== before.out) return true;
  return code(now, bench.listing) !== code(before, bench.before);
}

const code = (it, listing) => listing.statement(listing.lineAt(it.at)) || (it.word === null ? "" : hex(it.word));

function told(it, listing) {
  const where = listing.symbol(it.at) ?? hex(it.pc, 5);
  const fetched = it.fetched !== null && it.fetched !== it.pc ? ` at ${hex(it.fetched)}` : "";
  const title = `PC ${hex(it.pc)}${fetched}${it.word === null ? "" : `, word ${hex(it.word)}`}`;
  const text = code(it, listing);
  const label = /^\w+:/.exec(text);
  return [
    element("span", { class: "place", title }, where),
    span(classes(it.what === "annul" && "annulled"), label ? text.slice(label[0].length).trim() : text),
    " ",
    ...access(it),
    " ",
    ...happenings(it),
  ];
}
