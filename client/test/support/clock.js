/* A clock that a test moves. */

export class ManualClock {
  constructor() {
    this.time = 0;
    this.timers = [];
    this.now = () => this.time;
    this.setTimeout = (action, delay) => {
      const timer = { at: this.time + delay, action };
      this.timers.push(timer);
      return timer;
    };
    this.clearTimeout = (timer) => {
      this.timers = this.timers.filter((one) => one !== timer);
    };
  }

  /** Moves the clock, and runs the timers that are due, each at its time. */
  advance(milliseconds) {
    const end = this.time + milliseconds;
    for (let next = this.next(end); next; next = this.next(end)) {
      this.clearTimeout(next);
      this.time = Math.max(this.time, next.at); // (a timer is late if a test has moved the time alone)
      next.action();
    }
    this.time = end;
  }

  next(end) {
    const due = this.timers.filter(({ at }) => at <= end);
    return due.reduce((first, one) => (one.at < first.at ? one : first), due[0]);
  }
}

/** Waits until promises that are settled have called their listeners. */
export function flush() {
  return new Promise((resolve) => setImmediate(resolve));
}
