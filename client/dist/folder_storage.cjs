/* Navirotsohy 0.1.0, MIT license. Built from client/src by client/tools/build.js: don't edit. */
var __create = Object.create;
var __defProp = Object.defineProperty;
var __getOwnPropDesc = Object.getOwnPropertyDescriptor;
var __getOwnPropNames = Object.getOwnPropertyNames;
var __getProtoOf = Object.getPrototypeOf;
var __hasOwnProp = Object.prototype.hasOwnProperty;
var __export = (target, all) => {
  for (var name in all)
    __defProp(target, name, { get: all[name], enumerable: true });
};
var __copyProps = (to, from, except, desc) => {
  if (from && typeof from === "object" || typeof from === "function") {
    for (let key of __getOwnPropNames(from))
      if (!__hasOwnProp.call(to, key) && key !== except)
        __defProp(to, key, { get: () => from[key], enumerable: !(desc = __getOwnPropDesc(from, key)) || desc.enumerable });
  }
  return to;
};
var __toESM = (mod, isNodeMode, target) => (target = mod != null ? __create(__getProtoOf(mod)) : {}, __copyProps(
  // If the importer is in node compatibility mode or this is not an ESM
  // file that has been converted to a CommonJS file using a Babel-
  // compatible transform (i.e. "__esModule" has not been set), then set
  // "default" to the CommonJS "module.exports" for node compatibility.
  isNodeMode || !mod || !mod.__esModule ? __defProp(target, "default", { value: mod, enumerable: true }) : target,
  mod
));
var __toCommonJS = (mod) => __copyProps(__defProp({}, "__esModule", { value: true }), mod);

// src/folder_storage.js
var folder_storage_exports = {};
__export(folder_storage_exports, {
  folderStorage: () => folderStorage
});
module.exports = __toCommonJS(folder_storage_exports);
var import_node_crypto = __toESM(require("node:crypto"), 1);
var import_node_fs = __toESM(require("node:fs"), 1);
var import_node_path = __toESM(require("node:path"), 1);

// src/keeper.js
var LATER = 1e3;
var MOST_LOGGED = 500;
var RESTORED = { saved: true, sent: false, answered: null };
function padded(number) {
  return String(number).padStart(16, "0");
}
function placesOf(keys) {
  const places = {};
  for (const key of keys) {
    const [, front, document, kind] = /^((\[.*\])\/[^/]*\/)(.)/.exec(key) || [];
    places[front] = places[front] || { front, document, pending: false };
    if (kind === "s" || kind === "w")
      places[front].pending = true;
  }
  return Object.values(places);
}
async function documentsOf(methods) {
  const documents = {};
  for (const { document, pending } of placesOf(await methods.keys(""))) {
    documents[document] = pending || documents[document] || false;
  }
  return Object.keys(documents).map((document) => {
    const [collection, id] = JSON.parse(document);
    return { collection, id, pending: documents[document] };
  });
}
function recordOf(front, pairs, release) {
  const kept = { log: [], sent: null, queue: [] };
  const record = { front, release, kept: null, logs: [], texts: /* @__PURE__ */ new Map(), entries: [], isWhole: false };
  for (const [key, text] of pairs) {
    const [kind] = key.slice(front.length).split("/");
    const value = JSON.parse(text);
    if (kind === "base")
      record.kept = Object.assign(kept, value);
    else if (kind === "log")
      kept.log.push(value);
    else if (kind === "sent")
      kept.sent = value;
    else
      kept.queue.push(value);
    if (kind === "log")
      record.logs.push(key);
    else if (kind !== "base")
      record.texts.set(key, text);
  }
  record.queued = kept.queue.length;
  record.waits = record.queued > 0;
  return record;
}
function changesOf({ machine }, record) {
  const { version, last, inFlight, queue } = machine;
  const { front } = record;
  const changes = [];
  if (version !== null && (record.isWhole || record.logs.length > MOST_LOGGED)) {
    const text = JSON.stringify({ version, last, data: machine.readable(machine.confirmed) });
    changes.push([`${front}base`, text], ...record.logs.map((key) => [key, null]));
    Object.assign(record, { isWhole: false, logs: [], entries: [] });
  }
  for (const entry of record.entries.splice(0)) {
    const key = `${front}log/${padded(entry.version)}`;
    changes.push([key, JSON.stringify(entry)]);
    record.logs.push(key);
  }
  const texts = /* @__PURE__ */ new Map();
  for (const queued of queue)
    texts.set(`${front}wait/${padded(queued.number)}`, JSON.stringify(queued));
  if (inFlight !== null)
    texts.set(`${front}sent`, JSON.stringify({ ...inFlight, ...RESTORED }));
  for (const key of record.texts.keys())
    if (!texts.has(key))
      changes.push([key, null]);
  for (const [key, text] of texts)
    if (record.texts.get(key) !== text)
      changes.push([key, text]);
  record.texts = texts;
  record.queued = queue.length;
  return changes;
}
function removalsOf({ front, logs, texts }) {
  return [`${front}base`, ...logs, ...texts.keys()].map((key) => [key, null]);
}
var Keeper = class {
  /**
   * @param {StorageMethods} methods
   * @param {any} connection
   * @param {{front: string, release: () => void} | null} held the only record, if its lock is held
   */
  constructor(methods, connection, held = null) {
    this.methods = methods;
    this.connection = connection;
    this.held = held;
    this.records = /* @__PURE__ */ new Map();
    this.dirty = /* @__PURE__ */ new Set();
    this.changes = /* @__PURE__ */ new Map();
    this.releases = [];
    this.isUrgent = false;
    this.writing = null;
    this.timer = null;
    this.apart = /* @__PURE__ */ new Set();
    this.hasFailed = false;
  }
  // Opening ------------------------------------------------------------------------------------------------------
  /** Reads a document of the storage. Until then it isn't loaded, and its connection isn't used. */
  async open(core) {
    const { connection, records } = this;
    try {
      const record = await this.take(core);
      if (core.machine.state === "closed") {
        record.release();
        return;
      }
      records.set(core, record);
      core.run({ type: "restored", kept: record.kept });
    } catch (error) {
      records.delete(core);
      connection.reportStorage(error);
      core.run({ type: "restored", kept: null });
      core.run({ type: "saved" });
    }
    if (connection.state === "connected" && core.machine.state === "offline")
      core.run({ type: "connected" });
  }
  // Takes the record with pending edits, or else the newest, or a new one.
  async take({ collection, id }) {
    if (this.held !== null)
      return this.read(this.held.front, this.held.release);
    const document = JSON.stringify([collection, id]);
    const places = placesOf(await this.methods.keys(document));
    const free = [];
    for (const { front } of places) {
      const release = await this.methods.lock(front);
      const record = release && await this.read(front, release);
      if (record?.kept)
        free.push(record);
      else
        release?.();
    }
    if (free.length === 0)
      return this.create(document, places);
    const rank = ({ kept, texts }) => texts.size > 0 ? Infinity : kept.version + kept.log.length;
    const best = free.reduce((one, other) => rank(other) > rank(one) ? other : one);
    for (const other of free)
      if (other !== best)
        this.letGo(other);
    return best;
  }
  async read(front, release) {
    return recordOf(front, await this.methods.read(front), release);
  }
  // A new record begins with the confirmed document of another client's.
  async create(document, places) {
    const front = `${document}/${Math.random()}/`;
    const record = recordOf(front, [], await this.methods.lock(front));
    if (places.length === 0)
      return record;
    const { kept } = await this.read(places[0].front, null);
    if (kept !== null)
      Object.assign(record, { kept: { ...kept, sent: null, queue: [] }, isWhole: true });
    return record;
  }
  // Removes a record that isn't taken. One with edits stays: they are sent once there is a connection.
  letGo(record) {
    if (record.texts.size > 0)
      record.release();
    else
      this.end(record, removalsOf(record));
  }
  // Writing ------------------------------------------------------------------------------------------------------
  /** Looks at a transition of a document, and writes what it has changed. */
  observe(core, { seen, replaced }) {
    const record = this.records.get(core);
    if (record === void 0)
      return;
    record.isWhole = record.isWhole || replaced;
    record.entries.push(...seen);
    this.dirty.add(core);
    if (core.machine.pending > 0 || record.texts.size > 0)
      this.schedule();
    else
      this.writeLater();
  }
  schedule() {
    this.isUrgent = true;
    this.writing = this.writing || this.writeAll();
  }
  writeLater() {
    const started = () => {
      this.timer = null;
      this.schedule();
    };
    this.timer = this.timer || this.connection.clock.setTimeout(started, LATER);
  }
  // (the edits of this tick are written together)
  async writeAll() {
    await null;
    while (this.isUrgent) {
      this.isUrgent = false;
      await this.write().then(() => this.hasFailed = false, (error) => this.recover(error));
    }
    this.writing = null;
  }
  async write() {
    for (const core of this.dirty)
      this.add(changesOf(core, this.records.get(core)));
    this.dirty.clear();
    const { changes, releases } = this;
    const sent = [...this.records.keys()].map((core) => ({ core, ...core.machine.inFlight }));
    Object.assign(this, { changes: /* @__PURE__ */ new Map(), releases: [] });
    try {
      if (changes.size > 0)
        await this.methods.write([...changes]);
    } catch (error) {
      for (const record of this.records.values())
        record.waits = record.waits || record.queued > 0;
      this.changes = new Map([...changes, ...this.changes]);
      this.releases.push(...releases);
      throw error;
    }
    for (const record of this.records.values())
      record.waits = record.queued > 0;
    for (const release of releases)
      release();
    for (const { core, text, saved } of sent)
      if (saved === false)
        core.run({ type: "saved", text });
  }
  add(changes) {
    for (const [key, text] of changes)
      this.changes.set(key, text);
  }
  // Releases a record after its last changes.
  end({ release }, changes) {
    this.add(changes);
    this.releases.push(release);
    this.schedule();
  }
  /** The document is closed. Its record stays, if it isn't to be forgotten. */
  leave(core, forgets) {
    const record = this.records.get(core);
    if (record === void 0)
      return;
    if (this.hasFailed) {
      record.isWhole = true;
      for (const key of record.texts.keys())
        record.texts.set(key, "");
    }
    const changes = changesOf(core, record);
    this.records.delete(core);
    this.dirty.delete(core);
    this.end(record, forgets ? [...changes, ...removalsOf(record)] : changes);
  }
  async close() {
    this.connection.clock.clearTimeout(this.timer);
    await Promise.all([...this.apart].map((client) => client.close()));
    while (this.writing !== null)
      await this.writing;
  }
  // Failures -----------------------------------------------------------------------------------------------------
  // Without a connection the write is tried again. With one, the client continues without a storage.
  async recover(error) {
    if (!this.hasFailed)
      this.connection.reportStorage(error);
    this.hasFailed = true;
    if (this.connection.state === "connected")
      await this.giveUp();
    if (this.records.size > 0) {
      this.writeLater();
    } else if (!this.isUrgent) {
      this.changes.clear();
      for (const release of this.releases.splice(0))
        release();
    }
  }
  // Removes the records, so that the documents can continue without them. The next start sends the edits that wait in
  // a record that stays, so they aren't sent here.
  async giveUp() {
    const all = [...this.records];
    const removals = [];
    let isRemoved = true;
    try {
      for (const [, { front }] of all)
        for (const key of await this.methods.keys(front))
          removals.push([key, null]);
      await this.methods.write(removals);
    } catch {
      isRemoved = false;
    }
    for (const [core, { front, waits, release }] of all) {
      if (!this.records.has(core) || !isRemoved && waits)
        continue;
      for (const key of this.changes.keys())
        if (key.startsWith(front))
          this.changes.delete(key);
      this.records.delete(core);
      this.dirty.delete(core);
      release();
      core.run({ type: "saved" });
    }
  }
  // Edits of closed tabs -----------------------------------------------------------------------------------------
  /** There is a connection, or a sign of life of it. */
  beat() {
    if (this.hasFailed)
      this.schedule();
    else if (this.held === null)
      this.look().catch((error) => this.connection.reportStorage(error));
  }
  // Sends the edits of records whose locks are free.
  async look() {
    for (const { front, document, pending } of placesOf(await this.methods.keys(""))) {
      const release = pending ? await this.methods.lock(front) : null;
      if (release !== null)
        this.takeOver(front, document, release);
    }
  }
  takeOver(front, document, release) {
    const { connection } = this;
    const [collection, id] = JSON.parse(document);
    if (connection.state !== "connected") {
      release();
    } else if (connection.documents.has(document)) {
      const keeperFor = (one) => new Keeper(this.methods, one, { front, release });
      const client = connection.sendApart({ _keeperFor: keeperFor }, collection, id, () => this.apart.delete(client));
      this.apart.add(client);
    } else {
      release();
      connection.resume(collection, id);
    }
  }
};

// src/storage.js
function customStorage(methods) {
  const keeperFor = (connection) => new Keeper(methods, connection);
  return (
    /** @type {any} */
    { documents: () => documentsOf(methods), _keeperFor: keeperFor }
  );
}

// src/folder_storage.js
var USED = "another process uses the folder";
var HEAD = "navirotsohy journal 1";
var SMALLEST = 1048576;
var BEAT = 2e3;
var SILENCE = 1e4;
var { process } = (
  /** @type {any} */
  globalThis
);
function folderStorage(folder) {
  const journal = new Journal(folder);
  return Object.assign(customStorage(journal), { close: () => journal.close() });
}
function lineOf(changes) {
  const text = JSON.stringify(changes);
  return `${checksum(text)} ${text}
`;
}
function checksum(text) {
  return import_node_crypto.default.createHash("sha256").update(text).digest("hex").slice(0, 16);
}
function changesOf2(line) {
  const text = line.slice(17);
  return line[16] === " " && checksum(text) === line.slice(0, 16) ? JSON.parse(text) : null;
}
function apply(texts, changes) {
  for (const [key, text] of changes) {
    if (text === null)
      texts.delete(key);
    else
      texts.set(key, text);
  }
}
function parsed(content) {
  const lines = content.toString("utf8").split("\n");
  lines.pop();
  if (lines.shift() !== HEAD)
    throw new Error(`the first line of the journal isn't "${HEAD}"`);
  const read = lines.map(changesOf2);
  const whole = read.includes(null) ? read.indexOf(null) : read.length;
  if (read.slice(whole).some((changes) => changes))
    throw new Error(`line ${whole + 2} of the journal is damaged`);
  const texts = /* @__PURE__ */ new Map();
  for (const changes of read.slice(0, whole))
    apply(texts, changes);
  const text = [HEAD, ...lines.slice(0, whole)].map((line) => `${line}
`).join("");
  return { texts, size: new TextEncoder().encode(text).length };
}
var Journal = class {
  constructor(folder) {
    this.folder = folder;
    this.file = import_node_path.default.join(folder, "journal");
    this.opened = null;
    this.lockFile = null;
    this.locked = /* @__PURE__ */ new Set();
    this.texts = /* @__PURE__ */ new Map();
    this.handle = null;
    this.size = 0;
    this.smallest = SMALLEST;
    this.last = Promise.resolve();
  }
  // A failed attempt is made again by the next call.
  open() {
    if (this.opened === null) {
      this.opened = this.start();
      this.opened.catch(() => this.opened = null);
    }
    return this.opened;
  }
  async start() {
    await import_node_fs.default.promises.mkdir(this.folder, { recursive: true });
    if (this.lockFile === null)
      this.lockFile = await acquire(this.folder);
    if (!import_node_fs.default.existsSync(this.file))
      return;
    const content = await import_node_fs.default.promises.readFile(this.file);
    const { texts, size } = parsed(content);
    this.texts = texts;
    this.size = size;
    if (size === content.length)
      this.handle = await import_node_fs.default.promises.open(this.file, "a");
  }
  async keys(front) {
    await this.open();
    return [...this.texts.keys()].filter((key) => key.startsWith(front)).sort();
  }
  /** @returns {Promise<Array<[string, string]>>} */
  async read(front) {
    const keys = await this.keys(front);
    return keys.map((key) => [key, this.texts.get(key)]);
  }
  write(changes) {
    const written = this.last.then(() => this.append(changes));
    this.last = written.catch(() => {
    });
    return written;
  }
  async append(changes) {
    await this.open();
    if (import_node_fs.default.existsSync(this.lockFile.next))
      throw new Error(USED);
    const line = lineOf(changes);
    if (this.handle === null || this.size > this.smallest) {
      const texts = new Map(this.texts);
      apply(texts, changes);
      await this.replace(texts);
      this.texts = texts;
      return;
    }
    try {
      await this.handle.appendFile(line);
      await this.handle.datasync();
    } catch (error) {
      await this.drop();
      throw error;
    }
    this.size += new TextEncoder().encode(line).length;
    apply(this.texts, changes);
  }
  async replace(texts) {
    await this.drop();
    const lines = [...texts].map((pair) => lineOf([pair]));
    const content = `${HEAD}
${lines.join("")}`;
    const handle = await import_node_fs.default.promises.open(`${this.file}.new`, "w");
    try {
      await handle.writeFile(content);
      await handle.sync();
    } finally {
      await handle.close();
    }
    await import_node_fs.default.promises.rename(`${this.file}.new`, this.file);
    await syncFolder(this.folder);
    this.handle = await import_node_fs.default.promises.open(this.file, "a");
    this.size = new TextEncoder().encode(content).length;
    this.smallest = Math.max(SMALLEST, 2 * this.size);
  }
  // The journal is replaced by the next write.
  async drop() {
    const { handle } = this;
    this.handle = null;
    if (handle !== null)
      await handle.close().catch(() => {
      });
  }
  async lock(name) {
    await this.open();
    if (this.locked.has(name))
      return null;
    this.locked.add(name);
    return () => this.locked.delete(name);
  }
  async close() {
    await this.last;
    await this.drop();
    if (this.lockFile !== null)
      this.lockFile.leave();
    this.lockFile = null;
    this.opened = null;
  }
};
async function syncFolder(folder) {
  const handle = await import_node_fs.default.promises.open(folder, "r").catch(() => null);
  if (handle === null)
    return;
  try {
    await handle.sync();
  } finally {
    await handle.close();
  }
}
function placeOf() {
  try {
    return `${import_node_fs.default.readFileSync("/proc/sys/kernel/random/boot_id", "utf8").trim()} ${import_node_fs.default.readlinkSync("/proc/self/ns/pid")}`;
  } catch {
    return null;
  }
}
function beginOf(pid) {
  try {
    return import_node_fs.default.readFileSync(`/proc/${pid}/stat`, "utf8").replace(/^.*\) /s, "").split(" ")[19];
  } catch {
    return null;
  }
}
function isRunning(text) {
  if (text === "free")
    return false;
  if (text === "")
    return null;
  const [pid, begin, place] = JSON.parse(text);
  if (place !== placeOf())
    return null;
  if (place !== null)
    return begin === beginOf(pid);
  try {
    process.kill(pid, 0);
  } catch (error) {
    if (error.code === "ESRCH")
      return false;
  }
  return null;
}
function largestLock(folder) {
  const numbers = import_node_fs.default.readdirSync(folder).map((name) => Number((/^lock-(\d+)$/.exec(name) || [0, 0])[1]));
  return Math.max(0, ...numbers);
}
async function acquire(folder) {
  const fileOf = (number) => import_node_path.default.join(folder, `lock-${number}`);
  for (; ; ) {
    const largest = largestLock(folder);
    try {
      if (largest > 0 && await isUsed(fileOf(largest)))
        throw new Error(`${USED}: ${fileOf(largest)}`);
      const text = JSON.stringify([process.pid, beginOf(process.pid), placeOf()]);
      import_node_fs.default.writeFileSync(fileOf(largest + 1), text, { flag: "wx" });
      if (largest > 0)
        import_node_fs.default.rmSync(fileOf(largest), { force: true });
      return hold(fileOf(largest + 1), fileOf(largest + 2));
    } catch (error) {
      if (error.code !== "EEXIST" && error.code !== "ENOENT")
        throw error;
    }
  }
}
async function isUsed(file) {
  const age = () => Date.now() - import_node_fs.default.statSync(file).mtimeMs;
  const end = Date.now() + 2 * SILENCE;
  for (; ; ) {
    const running = isRunning(import_node_fs.default.readFileSync(file, "utf8"));
    if (running !== null)
      return running;
    if (age() > SILENCE)
      return false;
    if (Date.now() > end)
      return true;
    await new Promise((resolve) => setTimeout(resolve, BEAT / 4));
  }
}
function hold(file, next) {
  const beat = () => import_node_fs.default.utimes(file, new Date(), new Date(), () => {
  });
  const timer = globalThis.setInterval(beat, BEAT);
  timer.unref();
  const free = () => {
    if (!import_node_fs.default.existsSync(next))
      import_node_fs.default.writeFileSync(file, "free");
  };
  process.on("exit", free);
  const leave = () => {
    globalThis.clearInterval(timer);
    process.removeListener("exit", free);
    free();
  };
  return { next, leave };
}
