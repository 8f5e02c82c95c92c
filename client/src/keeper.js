/**
 * What a client keeps in a storage: for each open document a record, whose lock the client holds.
 *
 * | Key, after the record's | Text |
 * |---|---|
 * | `base` | `{version, last, data}`: a confirmed document |
 * | `log/VERSION` | an operation that was stored since |
 * | `sent` | the content in flight with its source, its number and its message |
 * | `wait/NUMBER` | a content of the queue |
 *
 * One write has all changes since the last one, so that a record is always one state of the document. A message is sent
 * after the write that has it. The next client that opens the document takes a record whose lock is free.
 * @module
 */

/** @typedef {import('./storage.js').StorageMethods} StorageMethods */

const LATER = 1000; // milliseconds until operations of others are written, and until a failed write is tried again
const MOST_LOGGED = 500; // operations after which the base is written again

// The state of a content in flight after a start.
const RESTORED = { saved: true, sent: false, answered: null };

function padded(number) {
  return String(number).padStart(16, '0');
}

// Returns the records of a list of keys. Edits of one are pending if it has a `sent` or a `wait`.
function placesOf(keys) {
  const places = {};
  for (const key of keys) {
    const [, front, document, kind] = /^((\[.*\])\/[^/]*\/)(.)/.exec(key) || [];
    places[front] = places[front] || { front, document, pending: false };
    if (kind === 's' || kind === 'w') places[front].pending = true;
  }
  return Object.values(places);
}

/** Lists the documents of a storage. */
export async function documentsOf(methods) {
  const documents = {};
  for (const { document, pending } of placesOf(await methods.keys(''))) {
    documents[document] = pending || documents[document] || false;
  }
  return Object.keys(documents).map((document) => {
    const [collection, id] = JSON.parse(document);
    return { collection, id, pending: documents[document] };
  });
}

/**
 * Returns a record: `kept` as a machine takes it, null if there is none, and what is written of it. `entries` and
 * `isWhole` tell what isn't. `queued` is the number of contents that wait; `waits`, whether the storage may have some.
 * @returns {any}
 */
function recordOf(front, pairs, release) {
  /** @type {any} */
  const kept = { log: [], sent: null, queue: [] };
  /** @type {any} */
  const record = { front, release, kept: null, logs: [], texts: new Map(), entries: [], isWhole: false };
  for (const [key, text] of pairs) {
    const [kind] = key.slice(front.length).split('/');
    const value = JSON.parse(text);
    if (kind === 'base') record.kept = Object.assign(kept, value);
    else if (kind === 'log') kept.log.push(value);
    else if (kind === 'sent') kept.sent = value;
    else kept.queue.push(value);
    if (kind === 'log') record.logs.push(key);
    else if (kind !== 'base') record.texts.set(key, text);
  }
  record.queued = kept.queue.length;
  record.waits = record.queued > 0;
  return record;
}

// Returns the changes from what is written of the record to the machine's state.
function changesOf({ machine }, record) {
  const { version, last, inFlight, queue } = machine;
  const { front } = record;
  const changes = [];
  if (version !== null && (record.isWhole || record.logs.length > MOST_LOGGED)) {
    const text = JSON.stringify({ version, last, data: machine.readable(machine.confirmed) });
    changes.push([`${front}base`, text], ...record.logs.map((key) => [key, null]));
    Object.assign(record, { isWhole: false, logs: [], entries: [] });
  }
  for (const entry of record.entries.splice(0)) {
    const key = `${front}log/${padded(entry.version)}`;
    changes.push([key, JSON.stringify(entry)]);
    record.logs.push(key);
  }
  const texts = new Map();
  for (const queued of queue) texts.set(`${front}wait/${padded(queued.number)}`, JSON.stringify(queued));
  if (inFlight !== null) texts.set(`${front}sent`, JSON.stringify({ ...inFlight, ...RESTORED }));
  for (const key of record.texts.keys()) if (!texts.has(key)) changes.push([key, null]);
  for (const [key, text] of texts) if (record.texts.get(key) !== text) changes.push([key, text]);
  record.texts = texts;
  record.queued = queue.length;
  return changes;
}

function removalsOf({ front, logs, texts }) {
  return [`${front}base`, ...logs, ...texts.keys()].map((key) => [key, null]);
}

export class Keeper {
  /**
   * @param {StorageMethods} methods
   * @param {any} connection
   * @param {{front: string, release: () => void} | null} held the only record, if its lock is held
   */
  constructor(methods, connection, held = null) {
    this.methods = methods;
    this.connection = connection;
    this.held = held;
    /** @type {Map<any, any>} */
    this.records = new Map(); // by document
    this.dirty = new Set(); // documents that have changed since the last write
    this.changes = new Map(); // that aren't written, of closed documents and of failed writes
    this.releases = []; // of locks, after the next write
    this.isUrgent = false;
    this.writing = null; // a promise of the end of the writes
    this.timer = null; // of the next write
    this.apart = new Set(); // clients that send edits of closed tabs
    this.hasFailed = false;
  }

  // Opening ------------------------------------------------------------------------------------------------------

  /** Reads a document of the storage. Until then it isn't loaded, and its connection isn't used. */
  async open(core) {
    const { connection, records } = this;
    try {
      const record = await this.take(core);
      if (core.machine.state === 'closed') {
        record.release();
        return;
      }
      records.set(core, record);
      core.run({ type: 'restored', kept: record.kept });
    } catch (error) {
      records.delete(core);
      connection.reportStorage(error);
      core.run({ type: 'restored', kept: null });
      core.run({ type: 'saved' });
    }
    if (connection.state === 'connected' && core.machine.state === 'offline') core.run({ type: 'connected' });
  }

  // Takes the record with pending edits, or else the newest, or a new one.
  async take({ collection, id }) {
    if (this.held !== null) return this.read(this.held.front, this.held.release);
    const document = JSON.stringify([collection, id]);
    const places = placesOf(await this.methods.keys(document));
    const free = [];
    for (const { front } of places) {
      // (a record is read once its lock is held: its client may have been changing or removing it before)
      const release = await this.methods.lock(front);
      const record = release && await this.read(front, release);
      if (record?.kept) free.push(record);
      else release?.();
    }
    if (free.length === 0) return this.create(document, places);
    const rank = ({ kept, texts }) => (texts.size > 0 ? Infinity : kept.version + kept.log.length);
    const best = free.reduce((one, other) => (rank(other) > rank(one) ? other : one));
    for (const other of free) if (other !== best) this.letGo(other);
    return best;
  }

  async read(front, release) {
    return recordOf(front, await this.methods.read(front), release);
  }

  // A new record begins with the confirmed document of another client's.
  async create(document, places) {
    const front = `${document}/${Math.random()}/`;
    const record = recordOf(front, [], await this.methods.lock(front));
    if (places.length === 0) return record;
    const { kept } = await this.read(places[0].front, null);
    if (kept !== null) Object.assign(record, { kept: { ...kept, sent: null, queue: [] }, isWhole: true });
    return record;
  }

  // Removes a record that isn't taken. One with edits stays: they are sent once there is a connection.
  letGo(record) {
    if (record.texts.size > 0) record.release();
    else this.end(record, removalsOf(record));
  }

  // Writing ------------------------------------------------------------------------------------------------------

  /** Looks at a transition of a document, and writes what it has changed. */
  observe(core, { seen, replaced }) {
    const record = this.records.get(core);
    if (record === undefined) return;
    record.isWhole = record.isWhole || replaced;
    record.entries.push(...seen);
    this.dirty.add(core);
    if (core.machine.pending > 0 || record.texts.size > 0) this.schedule();
    else this.writeLater();
  }

  schedule() {
    this.isUrgent = true;
    this.writing = this.writing || this.writeAll();
  }

  writeLater() {
    const started = () => {
      this.timer = null;
      this.schedule();
    };
    this.timer = this.timer || this.connection.clock.setTimeout(started, LATER);
  }

  // (the edits of this tick are written together)
  async writeAll() {
    await null;
    while (this.isUrgent) {
      this.isUrgent = false;
      await this.write().then(() => (this.hasFailed = false), (error) => this.recover(error));
    }
    this.writing = null;
  }

  async write() {
    for (const core of this.dirty) this.add(changesOf(core, this.records.get(core)));
    this.dirty.clear();
    const { changes, releases } = this;
    const sent = [...this.records.keys()].map((core) => ({ core, ...core.machine.inFlight }));
    Object.assign(this, { changes: new Map(), releases: [] });
    try {
      if (changes.size > 0) await this.methods.write([...changes]);
    } catch (error) {
      for (const record of this.records.values()) record.waits = record.waits || record.queued > 0;
      this.changes = new Map([...changes, ...this.changes]);
      this.releases.push(...releases);
      throw error;
    }
    for (const record of this.records.values()) record.waits = record.queued > 0;
    for (const release of releases) release();
    for (const { core, text, saved } of sent) if (saved === false) core.run({ type: 'saved', text });
  }

  add(changes) {
    for (const [key, text] of changes) this.changes.set(key, text);
  }

  // Releases a record after its last changes.
  end({ release }, changes) {
    this.add(changes);
    this.releases.push(release);
    this.schedule();
  }

  /** The document is closed. Its record stays, if it isn't to be forgotten. */
  leave(core, forgets) {
    const record = this.records.get(core);
    if (record === undefined) return;
    if (this.hasFailed) {
      // (all is written, as the record may be removed at present)
      record.isWhole = true;
      for (const key of record.texts.keys()) record.texts.set(key, '');
    }
    const changes = changesOf(core, record);
    this.records.delete(core);
    this.dirty.delete(core);
    this.end(record, forgets ? [...changes, ...removalsOf(record)] : changes);
  }

  async close() {
    this.connection.clock.clearTimeout(this.timer);
    await Promise.all([...this.apart].map((client) => client.close()));
    while (this.writing !== null) await this.writing;
  }

  // Failures -----------------------------------------------------------------------------------------------------

  // Without a connection the write is tried again. With one, the client continues without a storage.
  async recover(error) {
    if (!this.hasFailed) this.connection.reportStorage(error);
    this.hasFailed = true;
    if (this.connection.state === 'connected') await this.giveUp();
    if (this.records.size > 0) {
      this.writeLater();
    } else if (!this.isUrgent) {
      this.changes.clear(); // (without their locks nothing of these records may be written)
      for (const release of this.releases.splice(0)) release();
    }
  }

  // Removes the records, so that the documents can continue without them. The next start sends the edits that wait in
  // a record that stays, so they aren't sent here.
  async giveUp() {
    const all = [...this.records];
    /** @type {any[]} */
    const removals = [];
    let isRemoved = true;
    try {
      for (const [, { front }] of all) for (const key of await this.methods.keys(front)) removals.push([key, null]);
      await this.methods.write(removals);
    } catch {
      isRemoved = false;
    }
    for (const [core, { front, waits, release }] of all) {
      if (!this.records.has(core) || !isRemoved && waits) continue;
      for (const key of this.changes.keys()) if (key.startsWith(front)) this.changes.delete(key);
      this.records.delete(core);
      this.dirty.delete(core);
      release();
      core.run({ type: 'saved' });
    }
  }

  // Edits of closed tabs -----------------------------------------------------------------------------------------

  /** There is a connection, or a sign of life of it. */
  beat() {
    if (this.hasFailed) this.schedule();
    else if (this.held === null) this.look().catch((error) => this.connection.reportStorage(error));
  }

  // Sends the edits of records whose locks are free.
  async look() {
    for (const { front, document, pending } of placesOf(await this.methods.keys(''))) {
      const release = pending ? await this.methods.lock(front) : null;
      if (release !== null) this.takeOver(front, document, release);
    }
  }

  takeOver(front, document, release) {
    const { connection } = this;
    const [collection, id] = JSON.parse(document);
    if (connection.state !== 'connected') {
      release();
    } else if (connection.documents.has(document)) {
      const keeperFor = (one) => new Keeper(this.methods, one, { front, release });
      const client = connection.sendApart({ _keeperFor: keeperFor }, collection, id, () => this.apart.delete(client));
      this.apart.add(client);
    } else {
      release();
      connection.resume(collection, id);
    }
  }
}
