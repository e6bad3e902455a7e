// Steps, values and registers as elements that tell them, in the same words and colours everywhere.
import { classes, element, plainText, span } from "./dom.js";
import { isInterrupt, trapName } from "./fields.js";
import { character, counted, hex } from "./text.js";

/** A button that looks like text, and goes to a step, an address or a line. */
export function link(data, ...children) {
  const named = Object.entries(data).map(([name, value]) => [`data-${name}`, String(value)]);
  return element("button", { type: "button", class: "link", ...Object.fromEntries(named) }, ...children);
}

export const stepLink = (n) => link({ step: n }, counted(n));

const byteText = (byte) => `${hex(byte, 2)} “${character(byte)}”`;

/** What happened in a step, but for its instruction. */
export function happenings(it) {
  if (!it) return [];
  const found = [];
  if (it.type !== undefined) found.push(...trap(it));
  else if (it.what === "annul") found.push(span("quiet", "annulled"));
  else if (it.what === "stop") found.push(span("quiet", "error mode"));
  if (it.in !== undefined) found.push(span("event", `in ${byteText(it.in)}`));
  if (it.out !== undefined) found.push(span("event", `out ${byteText(it.out)}`));
  if (it.timer) found.push(span("event", "timer"));
  if (it.event) found.push(span("event", "event"));
  return found.flatMap((one, at) => (at > 0 && typeof one !== "string" ? [" ", one] : [one]));
}

/** The trap or interrupt that a step takes, or that leads to error mode. */
function trap({ what, type }) {
  const number = hex(type, 2);
  if (what === "error") return [span("trap", "error mode"), ` trap ${number} ${trapName(type)}, with traps off`];
  if (isInterrupt(type)) return [span("trap", "interrupt"), ` level ${type - 0x10}`];
  return [span("trap", `trap ${number}`), ` ${trapName(type)}`];
}

const ARROWS = { load: "←", store: "→", swap: "↔" };

/** What a step loaded or stored: the address, and where that leads if it is another one. */
export function access(it) {
  if (!it?.access) return [];
  const { kind, virtual, physical } = it.access;
  const text = virtual === physical ? hex(virtual, 5) : `${hex(virtual, 5)} = ${hex(physical, 5)}`;
  return [span("quiet", ARROWS[kind], " "), link({ address: physical, label: `${kind} ${text}` }, text)];
}

/** The same as text, for names and titles. */
export const textOf = (parts) => parts.map(plainText).join("");

/** Old and new, beside each other. */
export const changed = (old, value) => [span("was", old), span("quiet", " → "), span("now", value)];

/** A register's name with its old and new value. */
export function pair({ name, old, value, isMoved, symbols }) {
  const values = symbols ?? [shortHex(name, old), shortHex(name, value)];
  return span(classes("pair", "code", isMoved && "moved"), name, " ", ...changed(...values));
}

const shortHex = (name, value) => (name === "annul" || name === "waiting" ? String(value) : hex(value));
