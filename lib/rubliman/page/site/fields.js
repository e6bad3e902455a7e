// Names and fields of the manual, for display alone: chapter 4 (registers), table 7-1 (traps), appendix H (the MMU).
import { hex } from "./text.js";

const TRAPS = new Map([
  [0x01, "instruction_access_exception"],
  [0x02, "illegal_instruction"],
  [0x03, "privileged_instruction"],
  [0x04, "fp_disabled"],
  [0x05, "window_overflow"],
  [0x06, "window_underflow"],
  [0x07, "mem_address_not_aligned"],
  [0x09, "data_access_exception"],
  [0x0a, "tag_overflow"],
  [0x24, "cp_disabled"],
  [0x2a, "division_by_zero"],
]);

export const isInterrupt = (type) => type > 0x10 && type < 0x20;

/** The name of a trap type. */
export function trapName(type) {
  if (isInterrupt(type)) return `interrupt level ${type - 0x10}`;
  if (type >= 0x80) return `trap instruction ${type - 0x80}`;
  return TRAPS.get(type) ?? "no trap of this machine";
}

/** The fields of a PSR. */
export const psrFields = (value) => ({
  N: (value >>> 23) & 1,
  Z: (value >>> 22) & 1,
  V: (value >>> 21) & 1,
  C: (value >>> 20) & 1,
  PIL: (value >>> 8) & 15,
  S: (value >>> 7) & 1,
  PS: (value >>> 6) & 1,
  ET: (value >>> 5) & 1,
  CWP: value & 31,
});

export const FLAG_NAMES = {
  N: "negative",
  Z: "zero",
  V: "overflow",
  C: "carry",
  S: "supervisor",
  PS: "previous supervisor",
  ET: "enable traps",
};

export const trapType = (tbr) => (tbr >>> 4) & 255;

const FAULTS = [
  "none",
  "invalid entry",
  "protection",
  "privilege",
  "translation",
  "access bus",
  "internal",
  "reserved",
];
const ACCESSES = [
  "user load",
  "supervisor load",
  "user fetch",
  "supervisor fetch",
  "user store",
  "supervisor store",
  "user store to code",
  "supervisor store to code",
];

/** The fields of a fault status. */
export const faultFields = (value) => ({
  type: (value >>> 2) & 7,
  name: FAULTS[(value >>> 2) & 7],
  access: ACCESSES[(value >>> 5) & 7],
  level: (value >>> 8) & 3,
  isOverwritten: (value & 1) === 1,
});

/** What an access field lets a user and the supervisor do: read, write, execute. */
export const ACCESS_RIGHTS = [
  "r-- / r--",
  "rw- / rw-",
  "r-x / r-x",
  "rwx / rwx",
  "--x / --x",
  "r-- / rw-",
  "--- / r-x",
  "--- / rwx",
];

const ENTRIES = ["invalid", "table", "page", "reserved"];

/** What an entry of a page table is: its kind, and where it leads. */
export const entryText = (entry) => {
  const kind = entry & 3;
  if (kind === 1) return `table at ${hex((entry - kind) * 16)}`;
  if (kind === 2) return `page at ${hex(Math.floor(entry / 256) * 4096)}, ${ACCESS_RIGHTS[(entry >>> 2) & 7]}`;
  return ENTRIES[kind];
};

const REGISTER_GROUPS = "goli";

/** The name of a register of the window, 0 to 31. */
export const registerName = (number) => `%${REGISTER_GROUPS[number >> 3]}${number & 7}`;
