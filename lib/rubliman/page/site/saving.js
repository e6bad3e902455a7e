// What stands on the page as a script, which runs without a refusal; and what a page keeps for a reload.
import { Connection } from "./connection.js";
import * as scripts from "./script.js";

const KEY = "rubliman-session";

/**
 * The script, after a run of the monitor has taken it. What-ifs that are refused by themselves are left out of their
 * own place; those that are on stand at its end all the same. Null where even that is refused.
 */
export async function checked(bench) {
  const refused = new Set(bench.past.whatIfs.filter((it) => it.refused));
  for (;;) {
    const parts = scripts.writeParts(bench.past, bench.step, (it) => !refused.has(it));
    const text = scripts.textOf(parts);
    const at = await firstRefused(text, bench.windows);
    if (at === null) return text;
    const whatIf = parts.flatMap((it) => Array(it.count).fill(it.whatIf))[at];
    if (!whatIf) {
      bench.onSay("It cannot be saved: the monitor refuses what stands here.", true);
      return null;
    }
    refused.add(whatIf);
  }
}

/** The number of the first command that is refused, from 0 on, or null. */
async function firstRefused(text, windows) {
  const commands = scripts.commands(text);
  const connection = await Connection.open(windows, () => {});
  try {
    const sets = commands.map((it, at) => [it, at]).filter(([it]) => it.kind === "sets");
    const given = await connection.ask(sets.map(([it]) => it.text));
    const at = given.findIndex((it) => it.refused);
    return at < 0 ? null : sets[at][1];
  } finally {
    connection.close();
  }
}

/** Keeps what stands here for a reload of this page. */
export function remember(bench) {
  try {
    const { name, windows, step } = bench;
    const text = scripts.write(bench.past, step);
    sessionStorage.setItem(KEY, JSON.stringify({ token: location.hash, text, name, windows, step }));
  } catch {
    // A session that is too long for the browser begins anew at a reload.
    sessionStorage.removeItem(KEY);
  }
}

/** What was kept in front of a reload, or null. */
export function remembered() {
  try {
    const found = JSON.parse(sessionStorage.getItem(KEY));
    return found?.token === location.hash ? found : null;
  } catch {
    return null;
  }
}
