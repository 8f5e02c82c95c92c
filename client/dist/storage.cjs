/* Navirotsohy 0.1.0, MIT license. Built from client/src by client/tools/build.js: don't edit. */
var __defProp = Object.defineProperty;
var __getOwnPropDesc = Object.getOwnPropertyDescriptor;
var __getOwnPropNames = Object.getOwnPropertyNames;
var __hasOwnProp = Object.prototype.hasOwnProperty;
var __export = (target, all) => {
  for (var name in all)
    __defProp(target, name, { get: all[name], enumerable: true });
};
var __copyProps = (to, from, except, desc) => {
  if (from && typeof from === "object" || typeof from === "function") {
    for (let key of __getOwnPropNames(from))
      if (!__hasOwnProp.call(to, key) && key !== except)
        __defProp(to, key, { get: () => from[key], enumerable: !(desc = __getOwnPropDesc(from, key)) || desc.enumerable });
  }
  return to;
};
var __toCommonJS = (mod) => __copyProps(__defProp({}, "__esModule", { value: true }), mod);

// src/storage.js
var storage_exports = {};
__export(storage_exports, {
  customStorage: () => customStorage,
  indexedDbStorage: () => indexedDbStorage
});
module.exports = __toCommonJS(storage_exports);

// src/keeper.js
var LATER = 1e3;
var MOST_LOGGED = 500;
var RESTORED = { saved: true, sent: false, answered: null };
function padded(number) {
  return String(number).padStart(16, "0");
}
function placesOf(keys) {
  const places = {};
  for (const key of keys) {
    const [, front, document, kind] = /^((\[.*\])\/[^/]*\/)(.)/.exec(key) || [];
    places[front] = places[front] || { front, document, pending: false };
    if (kind === "s" || kind === "w")
      places[front].pending = true;
  }
  return Object.values(places);
}
async function documentsOf(methods) {
  const documents = {};
  for (const { document, pending } of placesOf(await methods.keys(""))) {
    documents[document] = pending || documents[document] || false;
  }
  return Object.keys(documents).map((document) => {
    const [collection, id] = JSON.parse(document);
    return { collection, id, pending: documents[document] };
  });
}
function recordOf(front, pairs, release) {
  const kept = { log: [], sent: null, queue: [] };
  const record = { front, release, kept: null, logs: [], texts: /* @__PURE__ */ new Map(), entries: [], isWhole: false };
  for (const [key, text] of pairs) {
    const [kind] = key.slice(front.length).split("/");
    const value = JSON.parse(text);
    if (kind === "base")
      record.kept = Object.assign(kept, value);
    else if (kind === "log")
      kept.log.push(value);
    else if (kind === "sent")
      kept.sent = value;
    else
      kept.queue.push(value);
    if (kind === "log")
      record.logs.push(key);
    else if (kind !== "base")
      record.texts.set(key, text);
  }
  record.queued = kept.queue.length;
  record.waits = record.queued > 0;
  return record;
}
function changesOf({ machine }, record) {
  const { version, last, inFlight, queue } = machine;
  const { front } = record;
  const changes = [];
  if (version !== null && (record.isWhole || record.logs.length > MOST_LOGGED)) {
    const text = JSON.stringify({ version, last, data: machine.readable(machine.confirmed) });
    changes.push([`${front}base`, text], ...record.logs.map((key) => [key, null]));
    Object.assign(record, { isWhole: false, logs: [], entries: [] });
  }
  for (const entry of record.entries.splice(0)) {
    const key = `${front}log/${padded(entry.version)}`;
    changes.push([key, JSON.stringify(entry)]);
    record.logs.push(key);
  }
  const texts = /* @__PURE__ */ new Map();
  for (const queued of queue)
    texts.set(`${front}wait/${padded(queued.number)}`, JSON.stringify(queued));
  if (inFlight !== null)
    texts.set(`${front}sent`, JSON.stringify({ ...inFlight, ...RESTORED }));
  for (const key of record.texts.keys())
    if (!texts.has(key))
      changes.push([key, null]);
  for (const [key, text] of texts)
    if (record.texts.get(key) !== text)
      changes.push([key, text]);
  record.texts = texts;
  record.queued = queue.length;
  return changes;
}
function removalsOf({ front, logs, texts }) {
  return [`${front}base`, ...logs, ...texts.keys()].map((key) => [key, null]);
}
var Keeper = class {
  /**
   * @param {StorageMethods} methods
   * @param {any} connection
   * @param {{front: string, release: () => void} | null} held the only record, if its lock is held
   */
  constructor(methods, connection, held = null) {
    this.methods = methods;
    this.connection = connection;
    this.held = held;
    this.records = /* @__PURE__ */ new Map();
    this.dirty = /* @__PURE__ */ new Set();
    this.changes = /* @__PURE__ */ new Map();
    this.releases = [];
    this.isUrgent = false;
    this.writing = null;
    this.timer = null;
    this.apart = /* @__PURE__ */ new Set();
    this.hasFailed = false;
  }
  // Opening ------------------------------------------------------------------------------------------------------
  /** Reads a document of the storage. Until then it isn't loaded, and its connection isn't used. */
  async open(core) {
    const { connection, records } = this;
    try {
      const record = await this.take(core);
      if (core.machine.state === "closed") {
        record.release();
        return;
      }
      records.set(core, record);
      core.run({ type: "restored", kept: record.kept });
    } catch (error) {
      records.delete(core);
      connection.reportStorage(error);
      core.run({ type: "restored", kept: null });
      core.run({ type: "saved" });
    }
    if (connection.state === "connected" && core.machine.state === "offline")
      core.run({ type: "connected" });
  }
  // Takes the record with pending edits, or else the newest, or a new one.
  async take({ collection, id }) {
    if (this.held !== null)
      return this.read(this.held.front, this.held.release);
    const document = JSON.stringify([collection, id]);
    const places = placesOf(await this.methods.keys(document));
    const free = [];
    for (const { front } of places) {
      const release = await this.methods.lock(front);
      const record = release && await this.read(front, release);
      if (record?.kept)
        free.push(record);
      else
        release?.();
    }
    if (free.length === 0)
      return this.create(document, places);
    const rank = ({ kept, texts }) => texts.size > 0 ? Infinity : kept.version + kept.log.length;
    const best = free.reduce((one, other) => rank(other) > rank(one) ? other : one);
    for (const other of free)
      if (other !== best)
        this.letGo(other);
    return best;
  }
  async read(front, release) {
    return recordOf(front, await this.methods.read(front), release);
  }
  // A new record begins with the confirmed document of another client's.
  async create(document, places) {
    const front = `${document}/${Math.random()}/`;
    const record = recordOf(front, [], await this.methods.lock(front));
    if (places.length === 0)
      return record;
    const { kept } = await this.read(places[0].front, null);
    if (kept !== null)
      Object.assign(record, { kept: { ...kept, sent: null, queue: [] }, isWhole: true });
    return record;
  }
  // Removes a record that isn't taken. One with edits stays: they are sent once there is a connection.
  letGo(record) {
    if (record.texts.size > 0)
      record.release();
    else
      this.end(record, removalsOf(record));
  }
  // Writing ------------------------------------------------------------------------------------------------------
  /** Looks at a transition of a document, and writes what it has changed. */
  observe(core, { seen, replaced }) {
    const record = this.records.get(core);
    if (record === void 0)
      return;
    record.isWhole = record.isWhole || replaced;
    record.entries.push(...seen);
    this.dirty.add(core);
    if (core.machine.pending > 0 || record.texts.size > 0)
      this.schedule();
    else
      this.writeLater();
  }
  schedule() {
    this.isUrgent = true;
    this.writing = this.writing || this.writeAll();
  }
  writeLater() {
    const started = () => {
      this.timer = null;
      this.schedule();
    };
    this.timer = this.timer || this.connection.clock.setTimeout(started, LATER);
  }
  // (the edits of this tick are written together)
  async writeAll() {
    await null;
    while (this.isUrgent) {
      this.isUrgent = false;
      await this.write().then(() => this.hasFailed = false, (error) => this.recover(error));
    }
    this.writing = null;
  }
  async write() {
    for (const core of this.dirty)
      this.add(changesOf(core, this.records.get(core)));
    this.dirty.clear();
    const { changes, releases } = this;
    const sent = [...this.records.keys()].map((core) => ({ core, ...core.machine.inFlight }));
    Object.assign(this, { changes: /* @__PURE__ */ new Map(), releases: [] });
    try {
      if (changes.size > 0)
        await this.methods.write([...changes]);
    } catch (error) {
      for (const record of this.records.values())
        record.waits = record.waits || record.queued > 0;
      this.changes = new Map([...changes, ...this.changes]);
      this.releases.push(...releases);
      throw error;
    }
    for (const record of this.records.values())
      record.waits = record.queued > 0;
    for (const release of releases)
      release();
    for (const { core, text, saved } of sent)
      if (saved === false)
        core.run({ type: "saved", text });
  }
  add(changes) {
    for (const [key, text] of changes)
      this.changes.set(key, text);
  }
  // Releases a record after its last changes.
  end({ release }, changes) {
    this.add(changes);
    this.releases.push(release);
    this.schedule();
  }
  /** The document is closed. Its record stays, if it isn't to be forgotten. */
  leave(core, forgets) {
    const record = this.records.get(core);
    if (record === void 0)
      return;
    if (this.hasFailed) {
      record.isWhole = true;
      for (const key of record.texts.keys())
        record.texts.set(key, "");
    }
    const changes = changesOf(core, record);
    this.records.delete(core);
    this.dirty.delete(core);
    this.end(record, forgets ? [...changes, ...removalsOf(record)] : changes);
  }
  async close() {
    this.connection.clock.clearTimeout(this.timer);
    await Promise.all([...this.apart].map((client) => client.close()));
    while (this.writing !== null)
      await this.writing;
  }
  // Failures -----------------------------------------------------------------------------------------------------
  // Without a connection the write is tried again. With one, the client continues without a storage.
  async recover(error) {
    if (!this.hasFailed)
      this.connection.reportStorage(error);
    this.hasFailed = true;
    if (this.connection.state === "connected")
      await this.giveUp();
    if (this.records.size > 0) {
      this.writeLater();
    } else if (!this.isUrgent) {
      this.changes.clear();
      for (const release of this.releases.splice(0))
        release();
    }
  }
  // Removes the records, so that the documents can continue without them. The next start sends the edits that wait in
  // a record that stays, so they aren't sent here.
  async giveUp() {
    const all = [...this.records];
    const removals = [];
    let isRemoved = true;
    try {
      for (const [, { front }] of all)
        for (const key of await this.methods.keys(front))
          removals.push([key, null]);
      await this.methods.write(removals);
    } catch {
      isRemoved = false;
    }
    for (const [core, { front, waits, release }] of all) {
      if (!this.records.has(core) || !isRemoved && waits)
        continue;
      for (const key of this.changes.keys())
        if (key.startsWith(front))
          this.changes.delete(key);
      this.records.delete(core);
      this.dirty.delete(core);
      release();
      core.run({ type: "saved" });
    }
  }
  // Edits of closed tabs -----------------------------------------------------------------------------------------
  /** There is a connection, or a sign of life of it. */
  beat() {
    if (this.hasFailed)
      this.schedule();
    else if (this.held === null)
      this.look().catch((error) => this.connection.reportStorage(error));
  }
  // Sends the edits of records whose locks are free.
  async look() {
    for (const { front, document, pending } of placesOf(await this.methods.keys(""))) {
      const release = pending ? await this.methods.lock(front) : null;
      if (release !== null)
        this.takeOver(front, document, release);
    }
  }
  takeOver(front, document, release) {
    const { connection } = this;
    const [collection, id] = JSON.parse(document);
    if (connection.state !== "connected") {
      release();
    } else if (connection.documents.has(document)) {
      const keeperFor = (one) => new Keeper(this.methods, one, { front, release });
      const client = connection.sendApart({ _keeperFor: keeperFor }, collection, id, () => this.apart.delete(client));
      this.apart.add(client);
    } else {
      release();
      connection.resume(collection, id);
    }
  }
};

// src/storage.js
function customStorage(methods) {
  const keeperFor = (connection) => new Keeper(methods, connection);
  return (
    /** @type {any} */
    { documents: () => documentsOf(methods), _keeperFor: keeperFor }
  );
}
function indexedDbStorage(name) {
  return customStorage(new Database(name));
}
var STORE = "texts";
function settled(request, done = "onsuccess", failed = "onerror") {
  return new Promise((resolve, reject) => {
    request[done] = () => resolve(request.result);
    request[failed] = () => reject(request.error);
  });
}
function rangeOf(front) {
  return globalThis.IDBKeyRange.bound(front, `${front}￿`);
}
var Database = class {
  constructor(name) {
    this.name = name;
    this.opened = null;
  }
  open() {
    const request = globalThis.indexedDB.open(this.name, 1);
    request.onupgradeneeded = () => request.result.createObjectStore(STORE, { keyPath: "key" });
    return settled(request);
  }
  // (a database that the user removes is closed, and opened again by the next call)
  async transaction(mode, options) {
    try {
      this.opened = this.opened || this.open();
      return (await this.opened).transaction(STORE, mode, options);
    } catch (error) {
      this.opened = null;
      throw error;
    }
  }
  async keys(front) {
    const transaction = await this.transaction("readonly");
    return settled(transaction.objectStore(STORE).getAllKeys(rangeOf(front)));
  }
  async read(front) {
    const transaction = await this.transaction("readonly");
    const pairs = await settled(transaction.objectStore(STORE).getAll(rangeOf(front)));
    return pairs.map(({ key, text }) => [key, text]);
  }
  async write(changes) {
    const transaction = await this.transaction("readwrite", { durability: "strict" });
    const done = settled(transaction, "oncomplete", "onabort");
    const store = transaction.objectStore(STORE);
    try {
      for (const [key, text] of changes) {
        if (text === null)
          store.delete(key);
        else
          store.put({ key, text });
      }
      if (transaction.commit)
        transaction.commit();
    } catch (error) {
      transaction.abort();
      await done.catch(() => {
      });
      throw error;
    }
    await done;
  }
  lock(lock) {
    return new Promise((resolve, reject) => {
      const hold = (held) => held ? new Promise(resolve) : resolve(null);
      globalThis.navigator.locks.request(`${this.name} ${lock}`, { ifAvailable: true }, hold).catch(reject);
    });
  }
};
