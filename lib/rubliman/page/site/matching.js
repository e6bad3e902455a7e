// Which lines of a text stand in the places of those that it replaces.

// Longer texts are compared at both ends alone.
const MOST = 500;

/**
 * The places of `texts` that replace `gone` lines, each with its text and its place: lines that stay keep theirs,
 * others take those of what they replace, one by one, and more of them stand behind the line above. `behind` is the
 * place of the line in front.
 */
export function placed(gone, texts, behind) {
  const found = [];
  let place = behind;
  for (const [low, high, begin, end] of gaps(gone.map((it) => it.text), texts)) {
    for (let at = begin; at < end; at++) {
      const replaced = gone[low + at - begin];
      if (low + at - begin < high && replaced) place = replaced.place;
      found.push({ text: texts[at], place });
    }
    if (high < gone.length && end < texts.length) {
      place = gone[high].place;
      found.push({ text: texts[end], place });
    }
  }
  return found;
}

/** The stretches in front of, between and behind lines that are the same in both: low and high of each. */
function gaps(old, now) {
  const found = [];
  let [low, begin] = [0, 0];
  for (const [high, end] of [...same(old, now), [old.length, now.length]]) {
    found.push([low, high, begin, end]);
    [low, begin] = [high + 1, end + 1];
  }
  return found;
}

/** Pairs of lines that are the same, rising in both: at both ends, and most of those between. */
function same(old, now) {
  const most = Math.min(old.length, now.length);
  let front = 0;
  while (front < most && old[front] === now[front]) front++;
  let back = 0;
  while (back < most - front && old[old.length - 1 - back] === now[now.length - 1 - back]) back++;
  const between = longest(old.slice(front, old.length - back), now.slice(front, now.length - back));
  return [
    ...Array.from({ length: front }, (_, at) => [at, at]),
    ...between.map(([one, other]) => [front + one, front + other]),
    ...Array.from({ length: back }, (_, at) => [old.length - back + at, now.length - back + at]),
  ];
}

/** A longest row of lines that both have in the same order. */
function longest(old, now) {
  if (old.length > MOST || now.length > MOST) return [];
  const width = now.length + 1;
  const lengths = new Uint16Array((old.length + 1) * width);
  for (let i = old.length - 1; i >= 0; i--) {
    for (let j = now.length - 1; j >= 0; j--) {
      const at = i * width + j;
      lengths[at] = old[i] === now[j] ? lengths[at + width + 1] + 1 : Math.max(lengths[at + width], lengths[at + 1]);
    }
  }
  const found = [];
  for (let i = 0, j = 0; i < old.length && j < now.length; ) {
    if (old[i] === now[j]) found.push([i++, j++]);
    else if (lengths[(i + 1) * width + j] >= lengths[i * width + j + 1]) i++;
    else j++;
  }
  return found;
}
