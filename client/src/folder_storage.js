/**
 * A storage in a folder, for programs of Node. One process at a time uses the folder.
 *
 * The file `journal` has a line for each write: a checksum, and the changes as JSON. A line is appended and synced
 * before the write is done. So only the last line may be torn, and the next start removes it. A journal that has grown,
 * or of which a write has failed, is replaced: the present texts are written to another file, which is synced and
 * renamed.
 *
 * The file `lock-N` of the largest N names the process that uses the folder. Once that has ended, the next one creates
 * `lock-N+1`, which one process can only.
 * @module
 */
// @ts-ignore
import crypto from 'node:crypto';
// @ts-ignore
import fs from 'node:fs';
// @ts-ignore
import path from 'node:path';
import { customStorage } from './storage.js';

const USED = 'another process uses the folder';
const HEAD = 'navirotsohy journal 1';
const SMALLEST = 1048576; // bytes of a journal that isn't replaced
const BEAT = 2000; // milliseconds between signs of life
const SILENCE = 10000; // milliseconds without one after which a process that can't be seen has ended

const { process } = /** @type {any} */ (globalThis);

/**
 * Keeps documents in a folder, which is made if it isn't there. `close` lets another storage use the folder before this
 * process ends.
 * @param {string} folder on a local disk
 * @returns {import('./connection.js').ClientStorage & {close: () => Promise<void>}}
 */
export function folderStorage(folder) {
  const journal = new Journal(folder);
  return Object.assign(customStorage(journal), { close: () => journal.close() });
}

// The journal ----------------------------------------------------------------------------------------------------

function lineOf(changes) {
  const text = JSON.stringify(changes);
  return `${checksum(text)} ${text}\n`;
}

function checksum(text) {
  return crypto.createHash('sha256').update(text).digest('hex').slice(0, 16);
}

// Returns the changes of a line, or null if it isn't whole.
function changesOf(line) {
  const text = line.slice(17);
  return line[16] === ' ' && checksum(text) === line.slice(0, 16) ? JSON.parse(text) : null;
}

function apply(texts, changes) {
  for (const [key, text] of changes) {
    if (text === null) texts.delete(key);
    else texts.set(key, text);
  }
}

// Reads a journal: its texts, and the bytes of its whole lines.
function parsed(content) {
  const lines = content.toString('utf8').split('\n');
  lines.pop(); // what follows the last line break
  if (lines.shift() !== HEAD) throw new Error(`the first line of the journal isn't "${HEAD}"`);
  const read = lines.map(changesOf);
  const whole = read.includes(null) ? read.indexOf(null) : read.length;
  if (read.slice(whole).some((changes) => changes)) throw new Error(`line ${whole + 2} of the journal is damaged`);
  const texts = new Map();
  for (const changes of read.slice(0, whole)) apply(texts, changes);
  const text = [HEAD, ...lines.slice(0, whole)].map((line) => `${line}\n`).join('');
  return { texts, size: new TextEncoder().encode(text).length };
}

class Journal {
  constructor(folder) {
    this.folder = folder;
    this.file = path.join(folder, 'journal');
    /** @type {Promise<void> | null} */
    this.opened = null;
    /** @type {any} */
    this.lockFile = null; // { next, leave }
    this.locked = new Set();
    this.texts = new Map();
    /** @type {any} */
    this.handle = null; // null if the journal is to be replaced
    this.size = 0;
    this.smallest = SMALLEST;
    this.last = Promise.resolve(); // the end of the last write
  }

  // A failed attempt is made again by the next call.
  open() {
    if (this.opened === null) {
      this.opened = this.start();
      this.opened.catch(() => (this.opened = null));
    }
    return this.opened;
  }

  async start() {
    await fs.promises.mkdir(this.folder, { recursive: true });
    if (this.lockFile === null) this.lockFile = await acquire(this.folder);
    if (!fs.existsSync(this.file)) return;
    const content = await fs.promises.readFile(this.file);
    const { texts, size } = parsed(content);
    this.texts = texts;
    this.size = size;
    // (a line that isn't whole is removed by the replacement)
    if (size === content.length) this.handle = await fs.promises.open(this.file, 'a');
  }

  async keys(front) {
    await this.open();
    return [...this.texts.keys()].filter((key) => key.startsWith(front)).sort();
  }

  /** @returns {Promise<Array<[string, string]>>} */
  async read(front) {
    const keys = await this.keys(front);
    return keys.map((key) => [key, this.texts.get(key)]);
  }

  write(changes) {
    const written = this.last.then(() => this.append(changes));
    this.last = written.catch(() => {});
    return written;
  }

  async append(changes) {
    await this.open();
    if (fs.existsSync(this.lockFile.next)) throw new Error(USED);
    const line = lineOf(changes);
    if (this.handle === null || this.size > this.smallest) {
      const texts = new Map(this.texts);
      apply(texts, changes);
      await this.replace(texts);
      this.texts = texts;
      return;
    }
    try {
      await this.handle.appendFile(line);
      await this.handle.datasync();
    } catch (error) {
      await this.drop();
      throw error;
    }
    this.size += new TextEncoder().encode(line).length;
    apply(this.texts, changes);
  }

  async replace(texts) {
    await this.drop();
    const lines = [...texts].map((pair) => lineOf([pair]));
    const content = `${HEAD}\n${lines.join('')}`;
    const handle = await fs.promises.open(`${this.file}.new`, 'w');
    try {
      await handle.writeFile(content);
      await handle.sync();
    } finally {
      await handle.close();
    }
    await fs.promises.rename(`${this.file}.new`, this.file);
    await syncFolder(this.folder);
    this.handle = await fs.promises.open(this.file, 'a');
    this.size = new TextEncoder().encode(content).length;
    this.smallest = Math.max(SMALLEST, 2 * this.size);
  }

  // The journal is replaced by the next write.
  async drop() {
    const { handle } = this;
    this.handle = null;
    if (handle !== null) await handle.close().catch(() => {});
  }

  async lock(name) {
    await this.open();
    if (this.locked.has(name)) return null;
    this.locked.add(name);
    return () => this.locked.delete(name);
  }

  async close() {
    await this.last;
    await this.drop();
    if (this.lockFile !== null) this.lockFile.leave();
    this.lockFile = null;
    this.opened = null;
  }
}

// (Windows can't open a folder, and needs no sync of it)
async function syncFolder(folder) {
  const handle = await fs.promises.open(folder, 'r').catch(() => null);
  if (handle === null) return;
  try {
    await handle.sync();
  } finally {
    await handle.close();
  }
}

// The lock -------------------------------------------------------------------------------------------------------

// Where this process and its number can be seen, and the process of a number. Null without /proc.
function placeOf() {
  try {
    return `${fs.readFileSync('/proc/sys/kernel/random/boot_id', 'utf8').trim()} ${fs.readlinkSync('/proc/self/ns/pid')}`;
  } catch {
    return null;
  }
}

function beginOf(pid) {
  try {
    return fs.readFileSync(`/proc/${pid}/stat`, 'utf8').replace(/^.*\) /s, '').split(' ')[19];
  } catch {
    return null;
  }
}

// Returns whether the process of a lock runs; null if only the time of its last sign of life tells.
function isRunning(text) {
  if (text === 'free') return false;
  if (text === '') return null;
  const [pid, begin, place] = JSON.parse(text);
  if (place !== placeOf()) return null;
  if (place !== null) return begin === beginOf(pid);
  try {
    process.kill(pid, 0);
  } catch (error) {
    if (error.code === 'ESRCH') return false;
  }
  return null;
}

function largestLock(folder) {
  const numbers = fs.readdirSync(folder).map((name) => Number((/^lock-(\d+)$/.exec(name) || [0, 0])[1]));
  return Math.max(0, ...numbers);
}

async function acquire(folder) {
  const fileOf = (number) => path.join(folder, `lock-${number}`);
  for (;;) {
    const largest = largestLock(folder);
    try {
      if (largest > 0 && await isUsed(fileOf(largest))) throw new Error(`${USED}: ${fileOf(largest)}`);
      const text = JSON.stringify([process.pid, beginOf(process.pid), placeOf()]);
      fs.writeFileSync(fileOf(largest + 1), text, { flag: 'wx' });
      if (largest > 0) fs.rmSync(fileOf(largest), { force: true });
      return hold(fileOf(largest + 1), fileOf(largest + 2));
    } catch (error) {
      // (another process was first)
      if (error.code !== 'EEXIST' && error.code !== 'ENOENT') throw error;
    }
  }
}

// Whether the process of a lock runs. One that can't be seen shows its life by the time of the file.
async function isUsed(file) {
  const age = () => Date.now() - fs.statSync(file).mtimeMs;
  const end = Date.now() + 2 * SILENCE;
  for (;;) {
    const running = isRunning(fs.readFileSync(file, 'utf8'));
    if (running !== null) return running;
    if (age() > SILENCE) return false;
    if (Date.now() > end) return true;
    await new Promise((resolve) => setTimeout(resolve, BEAT / 4));
  }
}

function hold(file, next) {
  const beat = () => fs.utimes(file, new Date(), new Date(), () => {});
  /** @type {any} */
  const timer = globalThis.setInterval(beat, BEAT);
  timer.unref();
  const free = () => {
    if (!fs.existsSync(next)) fs.writeFileSync(file, 'free');
  };
  process.on('exit', free);
  const leave = () => {
    globalThis.clearInterval(timer);
    process.removeListener('exit', free);
    free();
  };
  return { next, leave };
}
