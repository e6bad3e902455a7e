// The list of what-ifs.
import { byId, classes, element, fill, span } from "./dom.js";
import * as places from "./places.js";
import { inWords } from "./refusals.js";
import { changed, link, stepLink, textOf } from "./telling.js";
import { bytesOf, hex, remark, statement, typed } from "./text.js";

const MOST_PARTS = 3;

export function show(bench) {
  byId("add-step").textContent = String(bench.wanted);
  const list = byId("list");
  const isMore = bench.past.whatIfs.length > list.querySelectorAll("[data-toggle]").length;
  const base = [...bench.past.events].filter(([place]) => !bench.past.on().some((it) => it.values.has(place)));
  const items = bench.past.whatIfs.map((it, at) => item(bench, it, at));
  fill(list, items.length > 0 ? items : EMPTY, base.slice(0, 50).map((it) => event(bench, it)));
  if (isMore && bench.past.whatIfs.at(-1).isOn) list.children[items.length - 1].scrollIntoView({ block: "nearest" });
  const all = document.querySelector("[data-do=toggle-all]");
  all.textContent = bench.isSame ? "On again" : "All off";
  all.disabled = bench.isSame && !(bench.lastOn ?? []).length;
  document.querySelector("[data-do=keep]").disabled = bench.isSame;
}

const EMPTY = element(
  "li",
  { class: "quiet" },
  "Nothing yet. Enter changes the marked line, a word of memory, an input or an interrupt is set at the shown step.",
);

function item(bench, it, at) {
  const parts = telling(bench, it).map(([place, value]) => told(bench, place, value));
  const lines = [...it.values].filter(([place]) => places.isLine(place));
  const why = lines.map(([, value]) => remark(value.at(0) ?? "")).find(Boolean);
  const body = parts.slice(0, MOST_PARTS).flatMap((one, number) => (number > 0 ? [span("quiet", "; "), ...one] : one));
  if (parts.length > MOST_PARTS) body.push(span("quiet", `; and ${parts.length - MOST_PARTS} more`));
  const title = parts.map(textOf).join("; ");
  return element(
    "li",
    { class: classes(it.isOn ? "on" : "off", it.refused && "bad") },
    element("input", {
      type: "checkbox",
      "data-toggle": String(it.id),
      checked: it.isOn,
      "aria-label": `What if ${title}`,
      title: at < 9 ? `On or off (${at + 1})` : "On or off",
    }),
    element("div", { class: "what", title: [title, why].filter(Boolean).join("\n") },
      why && element("div", { class: "why" }, why),
      element("div", { class: "told" }, body),
      it.refused && element("div", { class: "refused" }, inWords(it.refused))),
    away({ "data-drop": String(it.id), "aria-label": `Away with: what if ${title}`, title: "Away with it" }),
  );
}

const away = (attributes) => element("button", { type: "button", class: "away", ...attributes }, "×");

/** The places that say what a what-if does: lines of which the remark alone is another one do not, where others do. */
function telling(bench, it) {
  const isRemark = ([place, value]) =>
    places.isLine(place) && lineText(value) === lineText(bench.past.valueBefore(place));
  const found = [...it.values].filter((one) => !isRemark(one));
  return found.length > 0 ? found : [...it.values];
}

/** A place with its old and new value. */
function told(bench, place, value) {
  const it = places.parts(place);
  const old = bench.past.valueBefore(place);
  if (it.kind === "line") {
    const line = link({ mark: it.line }, it.line ? `line ${it.line}` : "at the top");
    return [line, " ", ...changed(lineText(old), lineText(value))];
  }
  const what = it.kind === "poke" ? link({ address: it.address }, nameOf(it)) : nameOf(it);
  const [was, is] = [old, value].map((one) => valueText(it.kind, one));
  return ["step ", stepLink(it.step), " ", what, " ", ...(old === null ? [span("now", is)] : changed(was, is))];
}

/** What an event's place is called. */
function nameOf({ kind, address, level }) {
  if (kind === "poke") return `word ${hex(address, 5)}`;
  return kind === "irq" ? `interrupt level ${level}` : "input";
}

const lineText = (value) => value.map((it) => statement(it) || it.trim()).filter(Boolean).join(" ⏎ ") || "nothing";

function valueText(kind, value) {
  if (value === null) return "none";
  if (kind === "input") return `“${typed(bytesOf(value))}”`;
  return kind === "irq" ? "requested" : value;
}

function eventText(it, value) {
  if (it.kind === "irq") return nameOf(it);
  return it.kind === "poke" ? `${nameOf(it)} = ${value}` : `${nameOf(it)} ${valueText(it.kind, value)}`;
}

/** An event of before, which may be taken away. */
function event(bench, [place, value]) {
  const it = places.parts(place);
  const what = eventText(it, value);
  return element(
    "li",
    { class: "base" },
    span("dot"),
    element("div", { class: "what quiet" }, "before: step ", stepLink(it.step), ` ${what}`),
    away({ "data-without": place, "aria-label": `What if not: step ${it.step} ${what}`, title: "What if not?" }),
  );
}
