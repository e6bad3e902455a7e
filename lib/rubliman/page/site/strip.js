// Time from the left to the right: lanes of what happened, and under them which line each step is at, before and now.
import { LANES } from "./run.js";
import { counted } from "./text.js";

export const LEFT = 64;
const LANE = 11;
const AXIS = 15;
const NEAR = 5;
// What is drawn again where one of these is another one.
const PARTS = ["low", "high", "first", "now", "before", "listing", "lines"];
const COLORS = ["panel", "soft", "edge", "quiet", "ink", "now", "was", "bad"];

/** The least round distance of ticks, so that there are about eight. */
function tickDistance(span) {
  const least = Math.max(1, span / 8);
  const unit = 10 ** Math.floor(Math.log10(least));
  return Math.max(1, unit * [1, 2, 5, 10].find((it) => it * unit >= least));
}

const HAPPENINGS = ["type", "in", "out", "event"];
const isError = (it) => it.what === "error";

/** Whether the same happens in two steps. */
const isTwin = (one, other) =>
  HAPPENINGS.every((name) => one[name] === other[name]) && isError(one) === isError(other);

export class Strip {
  /** `onGo` is told the step that is pressed or dragged to, `onHover` the one under the pointer, or null. */
  constructor(canvas, onGo, onHover) {
    this.canvas = canvas;
    this.ground = document.createElement("canvas");
    [this.model, this.drawn] = [null, null];
    canvas.addEventListener("pointerdown", (it) => {
      canvas.setPointerCapture(it.pointerId);
      onGo(this.#nearest(it));
    });
    canvas.addEventListener("pointermove", (it) => (it.buttons ? onGo(this.#stepAt(it)) : onHover(this.#stepAt(it))));
    canvas.addEventListener("pointerleave", () => onHover(null));
    new ResizeObserver(() => this.draw()).observe(canvas);
  }

  /**
   * What is drawn: steps `low` to `high`, the shown `step`, the `first` step that differs or null, the runs `now` and
   * `before` (null where they are one), `lineNow` and `lineBefore` of a step by the `listing`, and how many `lines`
   * there are.
   */
  show(model) {
    this.model = model;
    if (!this.drawn || PARTS.some((it) => this.drawn[it] !== model[it])) this.#drawAll();
    this.drawn = model;
    this.pen = this.canvas.getContext("2d");
    this.pen.resetTransform();
    this.pen.clearRect(0, 0, this.canvas.width, this.canvas.height);
    this.pen.drawImage(this.ground, 0, 0);
    this.pen.scale(devicePixelRatio || 1, devicePixelRatio || 1);
    this.#drawStep();
  }

  #stepAt(event) {
    const { low, high } = this.model;
    const part = (event.clientX - this.canvas.getBoundingClientRect().left - LEFT) / (this.canvas.clientWidth - LEFT);
    return Math.max(low, Math.min(high, Math.floor(low + part * (high - low))));
  }

  /** The step at the pointer, or in a lane the nearest one at which something happens. */
  #nearest(event) {
    const at = this.#stepAt(event);
    const lane = LANES[Math.floor((event.clientY - this.canvas.getBoundingClientRect().top) / LANE)];
    if (!lane) return at;
    const { low, high, now, before } = this.model;
    const most = Math.max(1, (NEAR * (high - low)) / (this.canvas.clientWidth - LEFT));
    const distance = (it) => Math.abs(it.n - at);
    const all = [...now.happenings, ...(before?.happenings ?? [])];
    const found = all.filter((it) => lane.takes(it) && distance(it) <= most);
    return found.reduce((best, it) => (distance(it) < distance(best) ? it : best), found[0])?.n ?? at;
  }

  #x(n) {
    const { low, high } = this.model;
    return LEFT + ((n - low) / Math.max(1, high - low)) * (this.width - LEFT);
  }

  /** Draws all of it again, as for other colours or another size. */
  draw() {
    if (!this.model) return;
    this.drawn = null;
    this.show(this.model);
  }

  /** Draws what does not depend on the shown step, on a canvas of its own. */
  #drawAll() {
    const ratio = devicePixelRatio || 1;
    [this.width, this.height] = [this.canvas.clientWidth, this.canvas.clientHeight];
    for (const it of [this.ground, this.canvas]) {
      it.width = Math.max(1, Math.round(this.width * ratio));
      it.height = Math.max(1, Math.round(this.height * ratio));
    }
    this.pen = this.ground.getContext("2d");
    this.pen.setTransform(ratio, 0, 0, ratio, 0, 0);
    this.pen.font = "10.5px system-ui, 'DejaVu Sans', sans-serif";
    const style = getComputedStyle(document.documentElement);
    this.color = Object.fromEntries(COLORS.map((it) => [it, style.getPropertyValue(`--${it}`).trim()]));
    this.top = LANES.length * LANE + 4;
    this.bottom = this.height - AXIS;
    const { low, high } = this.model;
    this.wide = Math.max(1.5, Math.min(14, ((this.width - LEFT) / Math.max(1, high - low)) * 0.8));
    this.#drawGround();
    this.#drawLanes();
    this.#drawLines();
    this.#drawErrors();
    this.#drawFirst();
  }

  #rectangle(color, x, y, width, height) {
    this.pen.fillStyle = this.color[color];
    this.pen.fillRect(x, y, width, height);
  }

  #text(color, text, x, y) {
    this.pen.fillStyle = this.color[color];
    this.pen.fillText(text, x, y);
  }

  #drawGround() {
    const { low, high } = this.model;
    LANES.forEach(({ name }, at) => {
      this.#rectangle(at % 2 ? "panel" : "soft", LEFT, at * LANE, this.width - LEFT, LANE);
      this.#text("quiet", name, 2, at * LANE + 9);
    });
    this.#text("quiet", "line", 2, this.top + 10);
    const distance = tickDistance(high - low);
    for (let n = Math.ceil(low / distance) * distance; n <= high; n += distance) {
      const x = this.#x(n);
      this.#rectangle("edge", Math.round(x), this.top, 1, this.bottom - this.top);
      this.pen.textAlign = x > this.width - 30 ? "right" : "center";
      this.#text("quiet", counted(n), x, this.height - 3);
    }
    this.pen.textAlign = "left";
  }

  /** What happened: in both runs, before alone above, now alone below. */
  #drawLanes() {
    const { now, before } = this.model;
    LANES.forEach((lane, at) => {
      this.#drawLane(lane, at, now, before, "now", 6);
      if (before) this.#drawLane(lane, at, before, now, "was", 1);
    });
  }

  #drawLane(lane, at, mine, other, color, y) {
    const { low, high } = this.model;
    let last = null;
    for (const it of mine.happenings) {
      if (it.n < low || it.n >= high || !lane.takes(it)) continue;
      const twin = other ? other.at(it.n) : it;
      const isBoth = twin !== undefined && isTwin(it, twin);
      const mark = `${Math.round(this.#x(it.n))} ${isBoth}`;
      if (mark === last || (isBoth && color === "was")) continue;
      last = mark;
      const both = lane.name === "trap" ? "bad" : "ink";
      if (isBoth) this.#rectangle(both, this.#x(it.n), at * LANE + 2, this.wide, LANE - 4);
      else this.#rectangle(color, this.#x(it.n), at * LANE + y, this.wide, 4);
    }
  }

  /** Which line each step is at: in both runs, before alone, now alone. */
  #drawLines() {
    const { now, before, lines, lineNow, lineBefore } = this.model;
    const height = this.bottom - this.top - 8;
    const tall = Math.max(2, Math.min(5, height / lines));
    const y = (line) => this.top + 3 + ((line - 1) / Math.max(1, lines - 1)) * (height - tall);
    const draw = (run, lineOf, twin, twinLine, color) => {
      for (const it of run.samples) {
        if (it.n < this.model.low || it.n >= this.model.high) continue;
        const line = lineOf(it);
        if (line === 0) continue;
        const beside = twin?.at(it.n);
        const isBoth = twin === null || (beside !== undefined && twinLine(beside) === line);
        if (isBoth && color === "was") continue;
        this.#rectangle(isBoth ? "quiet" : color, this.#x(it.n), y(line), this.wide, tall);
      }
    };
    if (before) draw(before, lineBefore, now, lineNow, "was");
    draw(now, lineNow, before, lineBefore, "now");
  }

  #drawErrors() {
    const { now, before, low, high } = this.model;
    const draw = (n, color, y) => {
      if (n === null || n === undefined || n < low || n > high) return;
      const x = this.#x(n);
      this.#rectangle(color, x, this.top, 2, this.bottom - this.top);
      this.#text(color, "error mode", Math.min(x + 6, this.width - 62), y);
    };
    if (before && before.stop !== now.stop) draw(before.stop, "was", this.bottom - 16);
    draw(now.stop, "bad", this.bottom - 4);
  }

  #drawFirst() {
    const { first, low, high } = this.model;
    if (first === null || first < low || first > high) return;
    const x = Math.round(this.#x(first)) + 0.5;
    this.pen.strokeStyle = this.color.was;
    this.pen.setLineDash([3, 3]);
    this.pen.beginPath();
    this.pen.moveTo(x, 0);
    this.pen.lineTo(x, this.bottom);
    this.pen.stroke();
    this.pen.setLineDash([]);
    this.#text("was", "differs", Math.min(x + 4, this.width - 42), this.top + 10);
  }

  #drawStep() {
    const { step, low, high } = this.model;
    if (step < low || step > high) return;
    const x = this.#x(step);
    this.#rectangle("ink", x - 0.5, 0, 1.5, this.bottom);
    this.pen.beginPath();
    this.pen.moveTo(x - 4.5, this.bottom + 6);
    this.pen.lineTo(x + 5, this.bottom + 6);
    this.pen.lineTo(x + 0.25, this.bottom - 1);
    this.pen.fill();
  }
}
