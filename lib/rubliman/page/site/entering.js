// Gives a text, or a past, to a new run of the monitor.
import { Connection } from "./connection.js";
import { Listing } from "./listing.js";
import { Past } from "./past.js";
import * as places from "./places.js";
import { inWords } from "./refusals.js";
import * as scripts from "./script.js";

/** A source is refused: in the monitor's words. */
export class Refusal extends Error {}

const NONE = new Map();

/**
 * Opens a source or a script: a new run that has it, with `before` kept; the past; the listing of before; and what the
 * monitor refused of a script. Raises `Refusal` for a source that is refused.
 */
export async function enter(text, windows, onEnd) {
  const connection = await Connection.open(windows, onEnd);
  try {
    const read = scripts.isScript(text) ? enterScript : enterSource;
    const { past, problems } = await read(connection, text);
    const before = await settle(connection, past, past.now());
    return { connection, past, before, problems };
  } catch (problem) {
    connection.close();
    throw problem;
  }
}

async function enterSource(connection, text) {
  const lines = scripts.sourceLines(text);
  const [{ refused }] = await connection.ask([[`edit 1 0 ${lines.length}`, ...lines].join("\n")]);
  if (refused) throw new Refusal(refused);
  return { past: new Past(lines), problems: [] };
}

async function enterScript(connection, text) {
  const all = scripts.commands(text);
  const sent = all.filter((it) => it.kind === "sets" && it.isWhole);
  const given = await connection.ask(sent.map((it) => it.text));
  const refusals = new Map(sent.map((it, at) => [it, given[at].refused]));
  const isAccepted = (it) => it.kind === "question" || it.kind === "keep" || refusals.get(it) === null;
  const problems = all
    .filter((it) => !isAccepted(it))
    .map((it) => `Line ${it.number} of the script is left out. ${inWords(refusals.get(it) ?? "18 BadCommand")}`);
  return { past: scripts.read(all.filter(isAccepted)), problems };
}

/** Gives a past to a new run. Gives the listing of before. */
export async function setUp(connection, past) {
  const begin = new Past();
  const whole = new Map([[places.line(0), past.lines], ...past.events]);
  const commands = places.commandsBetween(NONE, whole, begin).map((it) => it.command);
  for (const { refused } of await connection.ask(commands)) if (refused) throw new Error(inWords(refused));
  return settle(connection, past, NONE);
}

/** Where a run has a past with `values` set: has before be kept, and sets what is on. Gives the listing of before. */
async function settle(connection, past, values) {
  const said = (from, to) => places.commandsBetween(from, to, past).map((it) => it.command);
  const commands = [...said(values, NONE), "keep", "list", "names", ...said(NONE, past.now())];
  const given = await connection.ask(commands);
  const at = commands.indexOf("keep");
  const refused = given.find((it) => it.refused);
  if (refused) throw new Error(inWords(refused.refused));
  return new Listing(given[at + 1].lines, given[at + 2].lines);
}
