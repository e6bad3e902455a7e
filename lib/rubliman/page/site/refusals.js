// What a refusal means, and what to do.

const MEANINGS = {
  1: "the program has no memory left for it",
  2: "there is no such line",
  3: "a source has 65,536 lines at most",
  4: "a line has 255 bytes at most: make it shorter",
  5: "a line holds printed ASCII characters and tabs alone: take the others out",
  6: "this is no line of the assembler: [label:] [instruction or directive] [! remark]",
  7: "it uses a name that no line defines: correct the name, or define it",
  8: "it defines a name that is defined already: take another name",
  9: "a value does not fit its field: take a smaller one, or `set`",
  10: "it is not aligned: put .align in front, or lead the branch to a multiple of 4",
  11: ".org may not go back: take an address behind the line above",
  12: "it ends beyond the memory of this machine",
  13: "steps are from 0 to 1,000,000",
  14: "no such word of memory: addresses are multiples of 4 below 00100000",
  15: "interrupt levels are 1 to 15",
  16: "nothing stands there",
  17: "65,536 events stand already, which is the most: take one away",
  18: "this is no command",
  19: "1,024 bytes come in at a step at most: let the rest come in later",
};

/** A refusal in words that say what to do; `told` is its number, its name, and perhaps the line. */
export function inWords(told) {
  const [, number, name, , line] = /^(\d+) (\w+)( line (\d+))?$/.exec(told) ?? [null, 0, told];
  const where = line ? `Line ${line}: ` : "";
  const meaning = MEANINGS[number];
  const text = meaning ? `${where}${meaning}.` : `${where}${name}.`;
  return text[0].toUpperCase() + text.slice(1);
}

/** The line of the source that a refusal names, or null. */
export const lineIn = (told) => Number(/ line (\d+)$/.exec(told)?.[1] ?? 0) || null;
