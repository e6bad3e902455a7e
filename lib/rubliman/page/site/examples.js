// The examples of the guide, as a way in: scripts in `examples`, each with its what-ifs.

export const EXAMPLES = [
  {
    name: "boot",
    title: "A trap at boot",
    windows: "8",
    text:
      "A program turns traps on and calls the system; a handler adds 1 to its argument and returns. What if traps " +
      "had stayed off, or the trap table had been forgotten?",
  },
  {
    name: "page-tables",
    title: "Page tables",
    windows: "8",
    text:
      "Tables of three levels, translation turned on, and a handler that maps the page of a fault. What if it went " +
      "on behind the instruction, or an entry had stood there before?",
  },
  {
    name: "console",
    title: "The console",
    windows: "8",
    text:
      "A program waits for input and puts it out again. What if a byte more came, if they came earlier, or the " +
      "program did not wait?",
  },
  {
    name: "timer",
    title: "A timer interrupt",
    windows: "8",
    text:
      "A timer interrupts a loop each 20 steps. What if the handler left the level pending, or the level were masked?",
  },
  {
    name: "window-overflow",
    title: "Window overflow",
    windows: "4",
    text:
      "A SAVE into the marked window traps, and a handler saves that window to its stack. What if no window were " +
      "marked, or traps were off?",
  },
  {
    name: "user-mode",
    title: "User mode",
    windows: "8",
    text:
      "The way into user mode by RETT, a call of the system, and what is refused to a user. What if the user might " +
      "read the supervisor's page?",
  },
];

export const named = (name) => EXAMPLES.find((it) => it.name === name);

export const pathOf = (example) => `/examples/${example.name}.txt`;
