// The past as it is told: `before`, and the what-ifs that give other values to places of it.
import { placed } from "./matching.js";
import * as places from "./places.js";

export class Past {
  /** `lines` and `events` are those of before; events are a map of places to values. */
  constructor(lines = [], events = new Map()) {
    this.lines = lines;
    this.events = events;
    this.whatIfs = [];
    this.next = 1;
  }

  /** What stands at a place in before. */
  valueBefore(place) {
    if (!places.isLine(place)) return this.events.get(place) ?? null;
    const { line } = places.parts(place);
    return line > 0 && line <= this.lines.length ? [this.lines[line - 1]] : [];
  }

  /** A new what-if, which is off. `values` is a map of places to values. */
  add(values) {
    const made = { id: this.next++, values, isOn: false, refused: null };
    this.whatIfs.push(made);
    return made;
  }

  drop(whatIf) {
    this.whatIfs = this.whatIfs.filter((it) => it !== whatIf);
  }

  on() {
    return this.whatIfs.filter((it) => it.isOn);
  }

  /** The values of the what-ifs that `isOn` takes. */
  values(isOn = (it) => it.isOn) {
    return new Map(this.whatIfs.filter(isOn).flatMap((it) => [...it.values]));
  }

  /** The values of now. */
  now() {
    return this.values();
  }

  /** Those that are on and have a place in common with this one. */
  rivals(whatIf) {
    const isShared = (place) => whatIf.values.has(place);
    return this.whatIfs.filter((it) => it !== whatIf && it.isOn && [...it.values.keys()].some(isShared));
  }

  /** The past in which what is now is before. What-ifs that are off stay, with their lines' new numbers. */
  kept() {
    const now = this.now();
    const events = new Map(this.events);
    for (const [place, value] of now) {
      if (places.isLine(place)) continue;
      if (value === null) events.delete(place);
      else events.set(place, value);
    }
    const made = new Past(places.linesWith(now, this).map((it) => it.text), events);
    for (const it of this.whatIfs.filter((whatIf) => !whatIf.isOn)) {
      const values = new Map([...it.values].map(([place, value]) => [moved(place, now), value]));
      made.add(new Map([...values].filter(([place, value]) => !places.isSame(value, made.valueBefore(place)))));
    }
    made.whatIfs = made.whatIfs.filter((it) => it.values.size > 0);
    return made;
  }
}

/** A place by the numbers that lines have now. */
function moved(place, now) {
  const { kind, line } = places.parts(place);
  return kind === "line" && line > 0 ? places.line(places.numberNow(now, line)) : place;
}

/**
 * The values of places where lines `first` to `last` of now give way to `texts`; `last` is `first` - 1 where these are
 * put in behind line `last`.
 */
export function editedLines(past, first, last, texts) {
  const now = places.linesWith(past.now(), past);
  const gone = now.slice(first - 1, last);
  const behind = now[first - 2]?.place ?? 0;
  const given = placed(gone, texts, behind);
  const found = new Map([...gone, ...given].map((it) => [places.line(it.place), []]));
  const all = [...now.slice(0, first - 1), ...given, ...now.slice(last)];
  for (const it of all) found.get(places.line(it.place))?.push(it.text);
  return found;
}
