// What the monitor's answers hold.

const number = (word) => (word === "-" ? null : parseInt(word, 16));
const numbers = (line) => line.split(" ").slice(1).map(number);

/** The machine of `regs`. */
export function machine(lines) {
  const [head, ...rest] = lines.map((it) => it.split(" "));
  const found = { step: Number(head[1]), isError: head[2] === "error", registers: [] };
  for (const words of rest) {
    if (words[0] === "pc" || words[0] === "psr") {
      for (let at = 0; at < words.length; at += 2) found[words[at]] = number(words[at + 1]);
    } else if (words[0] === "mmu") {
      [found.control, found.table, found.context, found.faultStatus, found.faultAddress] = words.slice(1).map(number);
    } else if (words[0] === "dev") {
      [found.timer, found.reload, found.pending, found.waiting] = words.slice(1).map(number);
    } else {
      found.registers.push(...words.slice(1).map(number));
    }
  }
  return found;
}

/** The rows of `windows`: registers 8 to 23 of each. */
export const windowRows = (lines) => lines.map((it) => numbers(it).slice(1));

/** The words of `mem`. */
export const words = (lines) => lines.map((it) => parseInt(it.slice(9), 16));

/** The bytes of `out`. */
export function output(lines) {
  const found = [];
  for (const line of lines) {
    for (let at = 0; at < line.length; at += 2) found.push(parseInt(line.slice(at, at + 2), 16));
  }
  return found;
}

/** The words of `differ`. */
export const differences = (lines) =>
  lines.map((it) => {
    const [address, old, now] = it.split(" ").map(number);
    return { address, old, now };
  });

/**
 * A line of `steps`: the step, PC, where the word was fetched and the word, what happened, and what else came of it.
 * `at` is the address by which its source line is found.
 */
export function step(line) {
  const words = line.split(" ");
  const [pc, fetched, word] = words.slice(1, 4).map(number);
  const found = { n: Number(words[0]), pc, fetched, word, what: words[4], at: fetched ?? pc };
  let at = 5;
  if (found.what === "trap" || found.what === "error") found.type = number(words[at++]);
  while (at < words.length) {
    const name = words[at];
    if (name === "load" || name === "store" || name === "swap") {
      found.access = { kind: name, virtual: number(words[at + 1]), physical: number(words[at + 2]) };
      at += 3;
    } else if (name === "in" || name === "out") {
      found[name] = number(words[at + 1]);
      at += 2;
    } else {
      found[name] = true;
      at += 1;
    }
  }
  return found;
}

export const steps = (lines) => lines.map(step);
