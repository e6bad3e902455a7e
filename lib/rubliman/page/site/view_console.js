// What is put out at the console: up to the shown step, later, and other than before.
import { byId, element, fill, span } from "./dom.js";
import { counted, isPrinted, several } from "./text.js";

const MOST = 20_000;

const text = (bytes) => bytes.map((it) => (it === 10 || isPrinted(it) ? String.fromCharCode(it) : "·")).join("");

export function show(bench) {
  const now = bench.run.output;
  const before = bench.runBefore.output;
  const at = bench.view.output.length;
  const alike = sameLength(before, now);
  const later = (bytes, from) => {
    const cut = Math.max(0, Math.min(bytes.length, at - from));
    return [text(bytes.slice(0, cut)), cut < bytes.length && span("later", text(bytes.slice(cut)))];
  };
  const from = Math.max(0, alike - MOST);
  fill(
    byId("output"),
    from > 0 && span("quiet", "… "),
    ...later(now.slice(from, alike), from),
    before.length > alike && element("del", { class: "was" }, text(before.slice(alike, alike + MOST))),
    now.length > alike && element("ins", { class: "now" }, ...later(now.slice(alike, alike + MOST), alike)),
    now.length + before.length === 0 && span("quiet", `Nothing is put out up to step ${counted(bench.asked.high)}.`),
    now.length > 0 && element("p", { class: "quiet" }, `${counted(at)} of ${several(now.length, "byte")} at this step`),
  );
  const differs = now.length !== alike || before.length !== alike;
  byId("tab-console").querySelector(".badge").textContent = differs ? "≠" : "";
}

/** How many bytes two outputs begin with alike. */
function sameLength(one, other) {
  let at = 0;
  while (at < one.length && at < other.length && one[at] === other[at]) at++;
  return at;
}
