// Light or dark: as the system has it, until the user chooses.
import { redraw } from "./view_time.js";

const KEY = "rubliman-theme";
const system = matchMedia("(prefers-color-scheme: dark)");

const stored = () => {
  try {
    return localStorage.getItem(KEY);
  } catch {
    return null;
  }
};

export function begin() {
  const set = () => (document.documentElement.dataset.theme = stored() ?? (system.matches ? "dark" : "light"));
  set();
  system.addEventListener("change", () => {
    set();
    redraw();
  });
}

export function other() {
  const wanted = document.documentElement.dataset.theme === "dark" ? "light" : "dark";
  document.documentElement.dataset.theme = wanted;
  try {
    localStorage.setItem(KEY, wanted);
  } catch {
    // A browser that keeps nothing shows it until the page ends.
  }
  redraw();
}
