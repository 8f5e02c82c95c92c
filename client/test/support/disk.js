/* A storage in memory, as several processes see it. Each call waits until the test performs it. */

export class Disk {
  constructor() {
    this.texts = new Map();
    this.holders = new Map(); // processes, by lock
    this.calls = []; // { process, act, resolve, reject, isWrite }
    this.writes = 0;
    this.saved = () => {}; // is called after each write
    this.crash = { at: Infinity, isWritten: false }; // the write at which its process ends, before it or after it
    this.fails = () => false; // whether a write of these changes fails
  }

  /** Returns the methods of a process, and what ends it. */
  process() {
    const process = { isOver: false, ended: () => {} };
    const call = (act, isWrite = false) => new Promise((resolve, reject) => {
      if (!process.isOver) this.calls.push({ process, act, resolve, reject, isWrite });
    });
    const methods = {
      keys: (front) => call(() => this.sorted(front).map(([key]) => key)),
      read: (front) => call(() => this.sorted(front)),
      write: (changes) => call(() => this.write(changes), true),
      lock: (name) => call(() => this.lock(process, name)),
    };
    return { process, methods };
  }

  sorted(front) {
    const pairs = [...this.texts].filter(([key]) => key.startsWith(front));
    return pairs.sort(([one], [other]) => (one < other ? -1 : 1));
  }

  write(changes) {
    if (this.fails(changes)) throw new Error('the quota is exceeded');
    for (const [key, text] of changes) {
      if (text === null) this.texts.delete(key);
      else this.texts.set(key, text);
    }
    this.saved();
  }

  lock(process, name) {
    if (this.holders.has(name)) return null;
    this.holders.set(name, process);
    return () => this.holders.get(name) === process && this.holders.delete(name);
  }

  /** Performs the oldest call. */
  step() {
    const call = this.calls.shift();
    if (call === undefined) return;
    const { process, act, resolve, reject, isWrite } = call;
    this.writes += isWrite ? 1 : 0;
    const isLast = isWrite && this.writes === this.crash.at;
    if (isLast && !this.crash.isWritten) {
      this.end(process);
      return;
    }
    try {
      resolve(act());
    } catch (error) {
      reject(error);
    }
    if (isLast) this.end(process);
  }

  /** The process ends: its calls aren't performed any more, and its locks are free. */
  end(process) {
    process.isOver = true;
    this.calls = this.calls.filter((call) => call.process !== process);
    for (const [name, holder] of this.holders) if (holder === process) this.holders.delete(name);
    process.ended();
  }
}
