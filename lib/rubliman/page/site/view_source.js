// The source: a list of which the rows in sight are made alone, for there may be 65,536 lines.
import { byId, classes, element, fill, make, span } from "./dom.js";
import { hex, several, statement, statementLength, untabbed } from "./text.js";

export const ROW = 19;
const SPARE = 6;
/** The height that a browser gives an element at most; beyond it, rows are placed by part of the way. */
const MOST_HEIGHT = 8_000_000;

const lines = () => byId("lines");

/** The marked lines, the one that keys move, and the line at the shown step. */
const marks = { first: 1, last: 1, here: 0, next: 0 };
let editor = null;

export function marked() {
  const [first, last] = [marks.first, marks.last].sort((one, other) => one - other);
  return { first, last, at: marks.last };
}

export function begin(bench) {
  lines().addEventListener("scroll", () => draw(bench));
  new ResizeObserver(() => draw(bench)).observe(lines());
  byId("rows").addEventListener("pointerdown", (it) => {
    const row = it.target.closest("[data-line]");
    if (!row || it.target.closest("textarea")) return;
    const line = Number(row.dataset.line);
    mark(bench, line, it.shiftKey);
  });
}

/** Marks a line, with those from the marked one on where `isMore`. */
export function mark(bench, line, isMore = false) {
  marks.last = Math.max(1, Math.min(bench.listing.count, line));
  if (!isMore) marks.first = marks.last;
  reveal(marks.last);
  draw(bench);
}

export const markAll = (bench) => {
  [marks.first, marks.last] = [1, bench.listing.count];
  draw(bench);
};

/** A new source: the marks are where they may be. */
export function reset() {
  Object.assign(marks, { first: 1, last: 1, here: 0, next: 0 });
  lines().scrollTop = 0;
}

const height = (count) => Math.min(MOST_HEIGHT, count * ROW);

/** The first row in sight, as a number with a fraction. */
function top(count) {
  const box = lines();
  const way = height(count) - box.clientHeight;
  if (count * ROW <= MOST_HEIGHT || way <= 0) return box.scrollTop / ROW;
  return (box.scrollTop / way) * (count - box.clientHeight / ROW);
}

/** Has a line be in sight, in the middle where it is far. */
function reveal(line, margin = 0) {
  const box = lines();
  const y = (line - 1) * ROW;
  const begin = top(lines().dataset.count) * ROW;
  const isAbove = y < begin + margin * ROW;
  const isBelow = y > begin + box.clientHeight - (margin + 1) * ROW;
  if (isAbove) box.scrollTop = Math.max(0, y - Math.min(margin, 2) * ROW - (margin ? box.clientHeight / 4 : 0));
  else if (isBelow) box.scrollTop = y - box.clientHeight + ROW + (margin ? box.clientHeight / 2 : 0);
}

export function show(bench) {
  const { listing, view } = bench;
  const step = view.now.steps.find((it) => it.n === view.n);
  const here = listing.lineAt(step?.at ?? view.now.machine.pc);
  const isNew = here !== marks.here;
  Object.assign(marks, { here, next: view.now.machine.isError ? 0 : listing.lineAt(view.now.machine.npc) });
  marks.first = Math.max(1, Math.min(listing.count, marks.first));
  marks.last = Math.max(1, Math.min(listing.count, marks.last));
  byId("source-count").textContent = several(listing.count, "line");
  if (lines().dataset.count !== String(listing.count)) {
    lines().dataset.count = listing.count;
    byId("rows").style.height = `${height(listing.count)}px`;
    byId("source").style.setProperty("--digits", `${Math.max(3, String(listing.count).length)}ch`);
  }
  if (here && isNew && !editor) reveal(here, 2);
  findRan(bench);
  draw(bench);
}

/** The lines that the shown run carries out. */
const ran = { run: null, listing: null, lines: new Set() };

function findRan({ run, listing }) {
  if (ran.run === run && ran.listing === listing) return;
  Object.assign(ran, { run, listing, lines: new Set(run.steps.map((it) => listing.lineAt(it.at))) });
}

function draw(bench) {
  const { listing } = bench;
  if (editor || !bench.view) return;
  // All is read before anything is written, or the browser would lay the page out twice.
  const begin = top(listing.count);
  const end = begin + lines().clientHeight / ROW;
  const first = Math.max(1, Math.floor(begin) - SPARE);
  const last = Math.min(listing.count, Math.ceil(end) + SPARE);
  const shift = lines().scrollTop - begin * ROW;
  const made = [];
  for (let line = first; line <= last; line++) made.push(row(bench, line));
  fill(byId("rows"), made);
  byId("rows").style.paddingTop = `${(first - 1) * ROW + shift}px`;
  const { at } = marked();
  // Where the marked line is out of sight, the list itself shows that it has the focus.
  if (at > begin && at <= end) lines().setAttribute("aria-activedescendant", `line-${at}`);
  else lines().removeAttribute("aria-activedescendant");
}

/** What stood in the place of a line before: nothing where it is the same, "" where there was none. */
function old(bench, line) {
  if (!bench.placeOfLine) return null;
  const place = bench.placeOf(line);
  if (line > 1 && bench.placeOf(line - 1) === place) return "";
  if (place === 0) return "";
  const text = bench.past.lines[place - 1];
  return statement(text) === statement(bench.listing.text(line)) ? null : text;
}

function row(bench, line) {
  const { listing } = bench;
  const { first, last } = marked();
  const before = old(bench, line);
  const isMarked = line >= first && line <= last;
  const isHere = line === marks.here;
  const isNext = line === marks.next && !isHere;
  const address = listing.address(line);
  const attributes = {
    key: line,
    class: classes(
      "line",
      isHere && "here",
      isNext && "next",
      isMarked && "marked",
      before !== null && "changed",
      ran.lines.has(line) && "ran",
    ),
    role: "option",
    id: `line-${line}`,
    "data-line": String(line),
    "aria-selected": String(isMarked),
    "aria-posinset": String(line),
    "aria-setsize": String(listing.count),
    "aria-label": label(bench, line, before),
  };
  return element(
    "div",
    attributes,
    span("pointer", isHere ? "▶" : isNext ? "▷" : ""),
    span("number", String(line)),
    span("address", address === null ? "" : hex(address, 5)),
    word(address === null ? [] : listing.groups(line)),
    element("span", { class: "text", title: listing.text(line).trim() }, ...text(listing.text(line), before)),
  );
}

/** The first word of a line's bytes, and all of them as its title. */
function word(groups) {
  const isMore = groups.length > 1;
  const title = isMore ? groups.slice(0, 64).join(" ") : null;
  return element("span", { class: "word", title }, isMore ? `${groups[0]}…` : (groups[0] ?? ""));
}

function text(whole, before) {
  const plain = untabbed(whole);
  const cut = plain.length - (whole.length - statementLength(whole));
  if (before === null) return [plain.slice(0, cut), span("remark", plain.slice(cut))];
  const now = span("now", plain.slice(0, cut).trimEnd() || " ");
  if (before === "") return [now, span("quiet added", "put in")];
  return [now, element("del", { class: "was" }, before.slice(0, statementLength(before)).trim() || "nothing")];
}

function label(bench, line, before) {
  const said = [`line ${line}`, bench.listing.text(line).trim() || "blank"];
  if (line === marks.here) said.push("the shown step is here");
  if (before) said.push(`before: ${before.trim()}`);
  else if (before === "") said.push("put in");
  return said.join(", ");
}

// ---- changing lines in place

/**
 * Opens an editor over lines `first` to `last`; where `last` is below `first` it is for lines that are put in there.
 * `onUse` is given the lines, and gives a refusal in words or null.
 */
export function edit(bench, first, last, onUse) {
  if (editor) return;
  if (last - first > 400) first = last - 400;
  reveal(Math.max(1, first));
  draw(bench);
  const texts = [];
  for (let line = first; line <= last; line++) texts.push(bench.listing.text(line));
  const old = last < first ? null : texts.join("\n");
  const area = make(areaFor(first, last));
  area.value = old ?? "        ";
  const note = make(element("p", { id: "editor-note", class: "quiet", role: "alert" }, hint(texts.length)));
  editor = make(element("div", { class: "editor" }));
  editor.append(area, note);
  editor.style.top = `${(first - 1) * ROW + lines().scrollTop - top(bench.listing.count) * ROW}px`;
  byId("rows").append(editor);
  const room = () => (area.rows = Math.min(18, Math.max(1, area.value.split("\n").length)));
  area.addEventListener("input", room);
  room();
  const fields = { area, note, onUse, isLong: texts.length > 1, old };
  area.addEventListener("keydown", (it) => editorKey(bench, it, fields));
  area.focus();
  area.setSelectionRange(area.value.length, area.value.length);
  editor.scrollIntoView({ block: "nearest" });
}

function areaFor(first, last) {
  const lines = first === last ? `Line ${first}` : `Lines ${first} to ${last}`;
  return element("textarea", {
    class: "code",
    spellcheck: "false",
    wrap: "off",
    "aria-label": last < first ? `New lines in front of line ${first}` : lines,
    "aria-describedby": "editor-note",
  });
}

function hint(count) {
  if (count > 1) return "Ctrl+Enter uses them, Esc leaves them";
  return "Enter uses it, Shift+Enter is a line more, Esc leaves it";
}

async function editorKey(bench, it, { area, note, onUse, isLong, old: texts }) {
  it.stopPropagation();
  if (it.key === "Escape") return close(bench);
  const isOne = !isLong && !area.value.includes("\n");
  const isUse = it.key === "Enter" && !it.shiftKey && (it.ctrlKey || it.metaKey || isOne);
  if (!isUse) return;
  it.preventDefault();
  if (area.value === texts || (texts === null && area.value.trim() === "")) return close(bench);
  area.readOnly = true;
  const refused = await onUse(area.value.split("\n"));
  area.readOnly = false;
  if (!refused) return close(bench);
  note.textContent = refused;
  note.className = "refused";
  area.setAttribute("aria-invalid", "true");
  area.focus();
}

/** Leaves the editor. */
export function close(bench) {
  editor?.remove();
  editor = null;
  lines().focus({ preventScroll: true });
  draw(bench);
}

export const isEditing = () => editor !== null;
