// What is to be done, one after the other. Deeds keep their order; of moves that wait the last one is done.

export class Queue {
  #waiting = [];
  #spare = null;
  #isBusy = false;
  #idle = [];

  /** `onProblem` is told what goes wrong, `onDone` when one of them is done. */
  constructor(onProblem, onDone) {
    Object.assign(this, { onProblem, onDone });
  }

  /** Adds a deed. The promise is for what it gives; undefined where it failed. */
  deed(run) {
    return new Promise((resolve) => this.#add({ run, resolve }));
  }

  /** Adds a move, in the place of those that wait. */
  move(run) {
    this.#waiting = this.#waiting.filter((it) => !it.isMove);
    this.#add({ run, isMove: true });
  }

  /** What is done once nothing waits, unless a deed comes first. */
  spare(run) {
    if (this.#waiting.every((it) => it.isMove)) this.#spare = run;
    this.#go();
  }

  /** Resolves when all is done. */
  idle() {
    return new Promise((resolve) => {
      this.#idle.push(resolve);
      this.#go();
    });
  }

  #add(entry) {
    if (!entry.isMove) this.#spare = null;
    this.#waiting.push(entry);
    this.#go();
  }

  async #go() {
    if (this.#isBusy) return;
    this.#isBusy = true;
    for (let next = this.#next(); next; next = this.#next()) {
      const given = await this.#tried(next.run);
      await this.#tried(this.onDone);
      next.resolve?.(given);
    }
    this.#isBusy = false;
    this.#idle.splice(0).forEach((it) => it());
  }

  async #tried(does) {
    try {
      return await does();
    } catch (problem) {
      return this.onProblem(problem);
    }
  }

  #next() {
    const spare = this.#waiting.length === 0 ? this.#spare : null;
    if (spare) this.#spare = null;
    return this.#waiting.shift() ?? (spare && { run: spare });
  }
}
