// Asks the monitor, through the server of the page: commands out, answers back.

const token = () => location.hash.slice(1);

/** The program has ended. Its end may be what was asked's own fault. */
export class Ended extends Error {
  get isSlow() {
    return this.message.startsWith("it took");
  }
}

async function fetched(path, options = {}) {
  const answer = await fetch(path, { ...options, headers: { "X-Token": token() }, cache: "no-store" });
  if (answer.ok) return answer;
  const why = (await answer.text()).trim();
  throw answer.status === 410 ? new Ended(why) : new Error(why);
}

/** What the page is to open with: the number of windows, a file's name and its text. */
export const given = async () => (await fetched("/given")).json();

/** The text of one of the page's own files. */
export const file = async (path) => (await fetched(path)).text();

/** The answers in a text: for each its lines, and what it is refused with, or null. */
export function answersIn(text) {
  const found = [];
  let lines = [];
  for (const line of text.split("\n")) {
    if (line === "ok" || line.startsWith("refused ")) {
      found.push({ lines, refused: line === "ok" ? null : line.slice(8) });
      lines = [];
    } else {
      lines.push(line);
    }
  }
  return found;
}

export class Connection {
  /** A new run of the monitor. `onEnd` is called where it ends by itself. */
  static async open(windows, onEnd) {
    const name = await (await fetched(`/open?${windows}`, { method: "POST" })).text();
    return new Connection(name, onEnd);
  }

  constructor(name, onEnd) {
    this.name = name;
    this.isOpen = true;
    // The run ends where this socket does, and the socket where the page does.
    this.presence = new WebSocket(`ws://${location.host}/presence?${name}`);
    this.presence.addEventListener("close", () => {
      if (this.isOpen) onEnd(this);
    });
  }

  /** The answers of commands, in their order. */
  async ask(commands) {
    if (commands.length === 0) return [];
    const begun = performance.now();
    const body = `${commands.join("\n")}\n`;
    const text = await (await fetched(`/ask?${this.name}`, { method: "POST", body })).text();
    const found = answersIn(text);
    if (found.length !== commands.length) throw new Ended(`${found.length} answers to ${commands.length} commands`);
    this.last = { commands: commands.length, milliseconds: performance.now() - begun };
    return found;
  }

  close() {
    this.isOpen = false;
    const { presence } = this;
    // A browser warns of a socket that is closed while it opens.
    if (presence.readyState === WebSocket.CONNECTING) presence.addEventListener("open", () => presence.close());
    else presence.close();
  }
}
