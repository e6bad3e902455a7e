// The listing of a source, with its names.
import { hex, statement } from "./text.js";

export class Listing {
  /** Of the lines of `list` and of `names`. Lines are taken apart when they are shown: there may be 65,536. */
  constructor(lines, names) {
    this.lines = lines;
    this.count = lines.length;
    this.addresses = new Uint32Array(lines.length);
    this.sizes = new Uint32Array(lines.length);
    this.bars = new Uint32Array(lines.length);
    this.placed = [];
    lines.forEach((line, at) => this.#place(line, at));
    const labels = names.filter((it) => it.startsWith("label ", 9));
    this.labels = labels.map((it) => [parseInt(it.slice(0, 8), 16), it.slice(15)]);
  }

  #place(line, at) {
    const begin = line.indexOf(" ") + 1;
    const bar = line.indexOf("|", begin);
    this.bars[at] = bar;
    this.addresses[at] = parseInt(line.slice(begin, begin + 8), 16);
    const digits = line.slice(begin + 8, bar).replaceAll(" ", "").length;
    this.sizes[at] = digits / 2;
    if (digits > 0) this.placed.push(at);
  }

  text(number) {
    return this.lines[number - 1].slice(this.bars[number - 1] + 1);
  }

  texts() {
    return this.lines.map((_, at) => this.text(at + 1));
  }

  /** The bytes of a line, in groups of four. */
  groups(number) {
    const line = this.lines[number - 1];
    return line.slice(line.indexOf(" ") + 10, this.bars[number - 1] - 1).split(" ").filter(Boolean);
  }

  /** The address of a line that places something; none of another. */
  address(number) {
    return number >= 1 && number <= this.count && this.sizes[number - 1] > 0 ? this.addresses[number - 1] : null;
  }

  /** The line that places the byte at an address, or 0. Lines rise by their addresses. */
  lineAt(address) {
    let low = 0;
    let high = this.placed.length;
    while (low < high) {
      const middle = (low + high) >> 1;
      if (this.addresses[this.placed[middle]] <= address) low = middle + 1;
      else high = middle;
    }
    const at = this.placed[low - 1];
    return at !== undefined && address < this.addresses[at] + this.sizes[at] ? at + 1 : 0;
  }

  /** A line's label and statement; nothing for line 0. */
  statement(number) {
    return number >= 1 && number <= this.count ? statement(this.text(number)) : "";
  }

  /**
   * An address of the source as the label in front of it and a distance; null where it is no such address. A label does
   * not reach beyond a gap.
   */
  symbol(address) {
    const line = this.lineAt(address);
    if (line === 0) return null;
    const label = this.labels.findLast(([value]) => value <= address);
    if (!label || label[0] < this.stretches[line - 1]) return null;
    const distance = address - label[0];
    return distance === 0 ? label[1] : `${label[1]}+${hex(distance, 1)}`;
  }

  /** Where the bytes without a gap begin that each line belongs to. */
  get stretches() {
    if (this.begins) return this.begins;
    this.begins = new Uint32Array(this.count);
    let [begin, end] = [0, 0];
    for (const at of this.placed) {
      if (this.addresses[at] !== end) begin = this.addresses[at];
      end = this.addresses[at] + this.sizes[at];
      this.begins[at] = begin;
    }
    return this.begins;
  }
}

export const NO_LISTING = new Listing([], []);
