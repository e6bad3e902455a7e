// One of three panels: memory, the units, the console.
import { byId } from "./dom.js";

const NAMES = ["memory", "units", "console"];
let onChoose = () => {};

const chosen = () => NAMES.find((it) => !byId(it).hidden);

/** `does` is told which one is shown. */
export function begin(does) {
  onChoose = does;
  for (const it of NAMES) {
    const tab = byId(`tab-${it}`);
    tab.addEventListener("click", () => choose(it));
    tab.addEventListener("keydown", (event) => {
      const by = { ArrowRight: 1, ArrowLeft: -1 }[event.key];
      if (by === undefined) return;
      event.preventDefault();
      next(by);
      byId(`tab-${chosen()}`).focus();
    });
  }
}

export function choose(name) {
  for (const it of NAMES) {
    const isChosen = it === name;
    byId(it).hidden = !isChosen;
    byId(`tab-${it}`).setAttribute("aria-selected", String(isChosen));
    byId(`tab-${it}`).tabIndex = isChosen ? 0 : -1;
  }
  byId("memory-bar").hidden = name !== "memory";
  onChoose(name);
}

export const next = (by = 1) => choose(NAMES[(NAMES.indexOf(chosen()) + by + NAMES.length) % NAMES.length]);

export const isChosen = (name) => chosen() === name;
