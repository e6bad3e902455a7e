// Which step of before a step of now stands beside, where one run has a trap or a line more.

// So many steps that are alike make two runs one again.
const ENOUGH = 6;
// So many steps more of one run are looked through for that.
const FURTHEST = 400;

/**
 * Lays two rows of keys beside each other: pairs of places in `before` and `now`, null where one has none. What differs
 * for a while is paired as far as it goes.
 */
export function pairs(before, now) {
  const found = [];
  let places = null;
  let i = 0;
  let j = 0;
  while (i < before.length && j < now.length) {
    if (before[i] === now[j]) {
      found.push([i++, j++]);
      continue;
    }
    places ??= placesOf(before, now);
    const [more, less] = resumption(places, i, j) ?? [1, 1];
    for (let k = 0; k < Math.min(more, less); k++) found.push([i++, j++]);
    for (let k = less; k < more; k++) found.push([i++, null]);
    for (let k = more; k < less; k++) found.push([null, j++]);
  }
  while (i < before.length) found.push([i++, null]);
  while (j < now.length) found.push([null, j++]);
  return found;
}

/** Each stretch of so many keys. */
const stretches = (keys) =>
  Array.from({ length: Math.max(0, keys.length - ENOUGH + 1) }, (_, at) => keys.slice(at, at + ENOUGH).join("\n"));

/** Where in `before` each stretch of `now` stands. */
function placesOf(before, now) {
  const places = new Map();
  stretches(before).forEach((it, at) => (places.has(it) ? places.get(it).push(at) : places.set(it, [at])));
  return stretches(now).map((it) => places.get(it) ?? []);
}

/** How many steps of before and of now pass until both do the same again; null where they do not. */
function resumption(places, i, j) {
  let best = null;
  for (let less = 0; less <= FURTHEST && j + less < places.length; less++) {
    if (best !== null && less >= best[0] + best[1]) break;
    const at = firstFrom(places[j + less], i);
    if (at === undefined || at - i > FURTHEST) continue;
    if (best === null || at - i + less < best[0] + best[1]) best = [at - i, less];
  }
  return best;
}

/** The first of rising numbers that is not below another. */
function firstFrom(numbers, least) {
  let low = 0;
  let high = numbers.length;
  while (low < high) {
    const middle = (low + high) >> 1;
    if (numbers[middle] < least) low = middle + 1;
    else high = middle;
  }
  return numbers[low];
}

/** How far the step of before is from that of now, for each step of a run. */
export class Alignment {
  /** `keyBefore` and `keyNow` make keys of steps: the same for what is the same. */
  constructor(before, now, keyBefore, keyNow) {
    this.low = now.low;
    this.shifts = new Int32Array(now.steps.length);
    let next = 0;
    for (const [i, j] of pairs(before.steps.map(keyBefore), now.steps.map(keyNow))) {
      if (j !== null) this.shifts[j] = (i ?? next) - j;
      if (i !== null) next = i + 1;
    }
  }

  at(n) {
    if (n < this.low || this.shifts.length === 0) return 0;
    return this.shifts[Math.min(n - this.low, this.shifts.length - 1)];
  }
}

/**
 * Rows of steps around a pair of them: each a step of now and one of before, undefined where a run has none. `before`
 * and `now` are steps without a gap, and the pair is the first at or behind `n` and `m`.
 */
export function rowsAround(before, now, m, n, keyBefore, keyNow) {
  const [earlier, later] = [split(before, m), split(now, n)];
  const behind = rows(earlier.behind, later.behind, keyBefore, keyNow);
  const front = rows(earlier.front.toReversed(), later.front.toReversed(), keyBefore, keyNow).toReversed();
  return { front, behind };
}

const split = (steps, n) => ({ front: steps.filter((it) => it.n < n), behind: steps.filter((it) => it.n >= n) });

const rows = (before, now, keyBefore, keyNow) =>
  pairs(before.map(keyBefore), now.map(keyNow)).map(([i, j]) => ({ before: before[i], now: now[j] }));
