/**
 * A document, as an application uses it.
 * @module
 */
import { addition, draftDifference, insertion, rangeRemoval, removal, replacement } from './edits.js';
import { Emitter, emitAll, report } from './emitter.js';
import { Refusal, refuse } from './errors.js';
import { TYPE } from './limits.js';
import { Machine } from './machine.js';
import { callObservers } from './observers.js';
import { valueAt } from './ot/apply.js';
import { readData, readOperation, readPath } from './ot/component.js';

/** Milliseconds after which a pending edit is reported as waiting. */
export const PATIENCE = 2000;

/** @typedef {import('./ot/component.js').Operation} Operation */
/** @typedef {import('./ot/component.js').Path} Path */
/**
 * @template T
 * @typedef {import('./ot/component.js').Frozen<T>} Frozen
 */
/** @typedef {import('./content.js').Content} Content */
/** @typedef {import('./machine.js').State} DocState */
/**
 * A stored operation.
 * @typedef {Content & {version: number, source: string, seq: number}} Entry
 */
/**
 * A document at a version; `data` is undefined if none existed.
 * @template [T=any]
 * @typedef {{version: number, data: T | undefined}} Snapshot
 */
/** @typedef {{version: number, source: string, seq: number}} Seen */
/**
 * The events of a document. `source` is, for an own edit, the argument of `submit`, `create` or `remove`, or else this
 * client's source; for others it is their writer's source.
 * @template [T=any]
 * @typedef {object} DocEvents
 * @property {{version: number}} load the whole document was received, at first and after a restart of the server
 * @property {{operation: Operation, source: any, local: boolean, before: Frozen<T>, data: Frozen<T>}} op an operation
 *   changed `data`
 * @property {{source: any, local: boolean, data: Frozen<T>}} create the document was created
 * @property {{source: any, local: boolean, data: Frozen<T>}} remove the document was deleted; `data` is the document
 *   before it
 * @property {{operation: Operation | null, source: any, local: boolean, before: Frozen<T> | undefined,
 *   data: Frozen<T> | undefined}} change `data` has changed: by an operation or, if that is null, as a whole
 * @property {Seen} version a stored operation of any client was received
 * @property {Seen} stored an own operation was received
 * @property {{error: Refusal, contents: Content[]}} refused own edits were dropped
 * @property {{version: number, data: Frozen<T> | undefined, contents: Content[]}} restarted the server was restarted
 *   and has lost the document: `data` is the document as it was stored, `contents` are the pending edits, which are
 *   dropped
 * @property {{version: number}} healed the document here differed from the server's and was replaced
 * @property {{waiting: boolean}} waiting an edit waits for more than two seconds, or no edit does
 * @property {Refusal} error the document can't be subscribed to or fetched
 */
/** @typedef {{source?: any}} SubmitOptions `source` is any value, which listeners receive */
/** @typedef {SubmitOptions & {path?: Path}} ChangeOptions `path` leads to the value that is changed */
/** @typedef {Promise<{version: number | null}>} Submitted the version, or null if there was nothing to store */

/**
 * A document that is fetched or subscribed to, and edited. `Client.document` returns it.
 * @template [T=any]
 * @extends {Emitter<DocEvents<T>>}
 */
export class Doc extends Emitter {
  /**
   * @param {any} transport
   * @param {string} collection
   * @param {string} id
   * @package
   */
  constructor(transport, collection, id) {
    super();
    const { source, nextNumber, clock, freeze, batch, keeper } = transport;
    const settings = { source, nextNumber, now: clock.now, freeze, batch, stores: keeper !== undefined };
    const machine = new Machine({ collection, id, ...settings });
    // (the state is in a closure, so that a proxy of the document works too)
    const core = { doc: this, transport, machine, collection, id, waiting: false, timer: null, leaving: null };
    const submitAtOnce = (operation, from) => takeEdit(core, () => ({ op: readOperation(operation, Infinity) }), from);
    Object.assign(core, { observers: new Set(), submitAtOnce, run: (input) => run(core, input) });
    Object.defineProperty(this, '_doc', { value: () => core });
  }

  /** A collection, or the name of a projection. */
  get collection() {
    return coreOf(this).collection;
  }

  /** @returns {string} */
  get id() {
    return coreOf(this).id;
  }

  /**
   * The state over this connection.
   * @returns {DocState}
   */
  get state() {
    return coreOf(this).machine.state;
  }

  /**
   * The version seen, null before the first answer.
   * @returns {number | null}
   */
  get version() {
    return coreOf(this).machine.version;
  }

  /**
   * The document with own edits: never change it. It is undefined if none exists.
   * @returns {Frozen<T> | undefined}
   */
  get data() {
    const { machine } = coreOf(this);
    return machine.readable(machine.data);
  }

  /**
   * A value of `data`, for documents with large objects: `data` copies each object that has changed since it was read.
   * @param {Path} path
   * @returns {any} undefined if there is none
   */
  valueAt(path) {
    const { machine } = coreOf(this);
    return machine.readable(valueAt(machine.data, path, path.length));
  }

  /**
   * The server's document at `version`, without pending edits.
   * @returns {Frozen<T> | undefined}
   */
  get confirmed() {
    const { machine } = coreOf(this);
    return machine.readable(machine.confirmed);
  }

  /**
   * The source of this client's edits.
   * @returns {string}
   */
  get source() {
    return coreOf(this).machine.source;
  }

  /**
   * The number of own edits that aren't known to be stored; edits in a row count as one.
   * @returns {number}
   */
  get pending() {
    return coreOf(this).machine.pending;
  }

  /**
   * Whether an edit waits for more than two seconds, with a connection or without.
   * @returns {boolean}
   */
  get waiting() {
    return coreOf(this).waiting;
  }

  /**
   * Whether a subscription is wanted.
   * @returns {boolean}
   */
  get wanted() {
    return coreOf(this).machine.wanted;
  }

  /**
   * Whether each edit is stored as an operation of its own, and sent as soon as possible. Otherwise `submit` joins an
   * edit with one that waits.
   * @type {boolean}
   */
  get preventCompose() {
    return coreOf(this).machine.preventCompose;
  }

  set preventCompose(prevent) {
    coreOf(this).machine.preventCompose = prevent;
  }

  // Reading ------------------------------------------------------------------------------------------------------

  /**
   * Brings the document up to date, without a subscription.
   * @returns {Promise<this>} is fulfilled when `data` is the document at the server's version of the fetch
   */
  fetch() {
    return ignorable(asked(this, { type: 'fetch' }).then(() => this));
  }

  /**
   * Subscribes to the document, over this connection and the next ones.
   * @returns {Promise<this>} is fulfilled when the document is loaded and the server sends its operations
   */
  subscribe() {
    return ignorable(subscribed(this));
  }

  /**
   * Unsubscribes from the document. Pending edits are still sent.
   * @returns {Promise<void>} is fulfilled when the server has answered, or at once without a connection
   */
  unsubscribe() {
    return asked(this, { type: 'unsubscribe' });
  }

  /**
   * Waits until nothing is pending, unsubscribes, and drops the document: the client then returns another object for
   * it. Edits and subscriptions after this call are refused with ERR_CLOSED, and never sent. If `Client.document` is
   * called for it before the end, the document stays and takes edits again.
   * @param {{discard?: boolean, forget?: boolean}} [options] `discard` drops pending edits instead of waiting for them,
   *   `forget` also removes the document from the storage
   * @returns {Promise<void>}
   */
  async destroy(options = {}) {
    const core = coreOf(this);
    const { machine } = core;
    core.leaving = core.leaving || {};
    const { leaving } = core;
    const isKept = () => machine.state === 'closed' || core.leaving !== leaving;
    if (machine.isRestoring) await until(core, () => !machine.isRestoring || isKept());
    if (options.discard && !isKept()) run(core, { type: 'discard', error: new Refusal('ERR_CLOSED') });
    await until(core, () => machine.pending === 0 || isKept());
    if (isKept()) return;
    await this.unsubscribe();
    // Answers that are received later must not reach the next object of this document.
    await until(core, () => machine.isQuiet || machine.state === 'offline' || isKept());
    if (isKept()) return;
    core.transport.forget(core, options.forget);
    close(core);
  }

  /**
   * The document at a version.
   * @param {number | null} [version] the present one by default
   * @returns {Promise<Snapshot<T>>}
   */
  snapshot(version = null) {
    return coreOf(this).transport.snapshot(this.collection, this.id, version);
  }

  /**
   * The document at a time of the server's clock.
   * @param {number | null} [moment] in milliseconds since 1970, as Date.now() returns; the present version without one
   * @returns {Promise<Snapshot<T>>}
   */
  snapshotAtTime(moment = null) {
    return coreOf(this).transport.snapshotAtTime(this.collection, this.id, moment);
  }

  /**
   * The stored operations from a version on.
   * @param {number} [from]
   * @returns {Promise<Entry[]>}
   */
  operations(from = 0) {
    return asked(this, { type: 'list', from });
  }

  // Writing ------------------------------------------------------------------------------------------------------

  /**
   * Creates the document.
   * @param {T} data
   * @param {SubmitOptions} [options]
   * @returns {Promise<{version: number}>} the version at which it is stored; refused with ERR_DOC_ALREADY_CREATED if
   * the document exists
   */
  create(data, options) {
    return /** @type {any} */ (submitted(this, () => ({ create: { type: TYPE, data: readData(data) } }), options));
  }

  /**
   * Creates the document if none exists. If another client was first, its document stays.
   * @param {T} data
   * @returns {Promise<void>} is fulfilled when the document exists
   */
  createIfAbsent(data) {
    return ignorable(createdIfAbsent(this, data));
  }

  /**
   * Edits the document. The edit changes `data` at once. It is sent once the one in flight is stored, together with the
   * other edits of this tick, which no `await` separates. It is completed by `data`: `ld` and `od` become the values
   * that are removed.
   * @param {Operation} operation on `data`
   * @param {SubmitOptions} [options]
   * @returns {Promise<{version: number | null}>} the version at which it is stored, null if there was nothing to store.
   * If it can't be applied here it is refused at once, and nothing is changed.
   */
  submit(operation, options) {
    return submitted(this, () => ({ op: readOperation(operation) }), options);
  }

  /**
   * Deletes the document. `removeAt` removes a value of it.
   * @param {SubmitOptions} [options] a path is refused
   * @returns {Promise<{version: number}>}
   */
  remove(options) {
    return /** @type {any} */ (submitted(this, () => deletion(options), options));
  }

  /**
   * Sets a key of an object, or replaces an item of a list. Of concurrent values the one that is stored later stays.
   * @param {Path} path of the value
   * @param {any} value
   * @param {SubmitOptions} [options]
   * @returns {Submitted}
   */
  set(path, value, options) {
    return submitEdit(this, path, (data) => replacement(data, path, value), options);
  }

  /**
   * Inserts an item into a list, or a text into a text.
   * @param {Path} path of the list or text
   * @param {number} at an index, or an offset in UTF-16 units
   * @param {any} value an item, or a text
   * @param {SubmitOptions} [options]
   * @returns {Submitted}
   */
  insert(path, at, value, options) {
    return submitEdit(this, path, (data) => insertion(data, path, at, value), options);
  }

  /**
   * Removes a key of an object, or an item of a list.
   * @param {Path} path of the value
   * @param {SubmitOptions} [options]
   * @returns {Submitted}
   */
  removeAt(path, options) {
    return submitEdit(this, path, () => removal(path), options);
  }

  /**
   * Removes items of a list, or a part of a text.
   * @param {Path} path of the list or text
   * @param {number} at an index, or an offset in UTF-16 units
   * @param {number} count of items, or of UTF-16 units
   * @param {SubmitOptions} [options]
   * @returns {Submitted}
   */
  removeRange(path, at, count, options) {
    return submitEdit(this, path, (data) => rangeRemoval(data, path, at, count), options);
  }

  /**
   * Adds to a number. Concurrent amounts are all added.
   * @param {Path} path of the number
   * @param {number} amount
   * @param {SubmitOptions} [options]
   * @returns {Submitted}
   */
  add(path, amount, options) {
    return submitEdit(this, path, () => addition(path, amount), options);
  }

  /**
   * Changes the document as the callback changes a copy of it: the smallest operation between them is submitted. It
   * costs time for each value of the document, or of the part that the option `path` names.
   * @template [Part=T]
   * @param {(draft: Part) => unknown} change changes a list or object in place, and returns any other value anew
   * @param {ChangeOptions} [options]
   * @returns {Submitted}
   */
  change(change, options) {
    const { path = [] } = options || {};
    return submitEdit(this, path, (data) => draftDifference(data, path, change), options);
  }

  /**
   * @param {() => void} [listener]
   * @returns {Promise<void>} is fulfilled when nothing is pending
   */
  whenNothingPending(listener) {
    const settled = until(coreOf(this), (machine) => machine.pending === 0 && !machine.isRestoring);
    if (listener) settled.then(listener).catch(report);
    return settled;
  }
}

function coreOf(doc) {
  return doc._doc();
}

// A promise that may be ignored: an event reports the same.
function ignorable(promise) {
  promise.catch(() => {});
  return promise;
}

/**
 * Runs a transition of the document, and then its effects.
 * @internal
 */
export function run(core, input) {
  const { machine } = core;
  perform(core, machine.transition(input));
  while (machine.canAdvance) perform(core, machine.transition({ type: 'advance' }));
}

function perform(core, transition) {
  const { transport, doc } = core;
  const { messages, settled, events, changes, retries, comparison, release } = transition;
  callObservers(core.observers, changes);
  for (const message of messages) transport.send(message);
  if (release) Promise.resolve().then(() => run(core, { type: 'release' })).catch(report);
  transport.keeper?.observe(core, transition);
  for (const retry of retries) transport.later(() => run(core, retry));
  if (comparison !== null) compare(core, comparison);
  for (const settle of settled) settle();
  observeWaiting(core, events);
  emitAll(doc, events);
}

function compare(core, version) {
  const receive = (answer) => run(core, { type: 'compared', ...answer });
  core.transport.compare(core.collection, core.id, version, receive);
}

// Looks whether an edit waits, and looks again once the oldest one is old enough.
function observeWaiting(core, events) {
  const { machine, transport } = core;
  const { clock } = transport;
  const since = machine.pendingSince;
  const waiting = since !== null && clock.now() - since >= PATIENCE;
  if (core.timer !== null) clock.clearTimeout(core.timer);
  core.timer = null;
  if (since !== null && !waiting) {
    const again = () => {
      core.timer = null;
      const due = [];
      observeWaiting(core, due);
      emitAll(core.doc, due);
    };
    core.timer = clock.setTimeout(again, since + PATIENCE - clock.now());
  }
  if (waiting === core.waiting) return;
  core.waiting = waiting;
  events.push(['waiting', { waiting }]);
}

/** Closes the document: whatever waits is refused. @internal */
export function close(core) {
  run(core, { type: 'closed', error: new Refusal('ERR_CLOSED') });
}

/** An application requests the document again: it is destroyed no more. @internal */
export function keep(core) {
  if (core.leaving === null) return;
  core.leaving = null;
  run(core, { type: 'kept' });
}

/** @internal */
export function coreFor(transport, collection, id) {
  return coreOf(new Doc(transport, collection, id));
}

// Runs a transition whose answer settles a promise.
function asked(doc, input) {
  return new Promise((resolve, reject) => run(coreOf(doc), { ...input, waiter: { resolve, reject } }));
}

function until(core, holds, begins = false) {
  return new Promise((resolve, reject) => run(core, { type: 'until', holds, begins, waiter: { resolve, reject } }));
}

// A document that is being destroyed takes no more edits and subscriptions.
function checkStaying({ leaving }) {
  if (leaving !== null) refuse('ERR_CLOSED');
}

// Takes an edit. One that can't be applied here is refused by an exception, before `data` changes.
function takeEdit(core, read, source) {
  const waiter = { resolve: null, reject: null };
  const stored = new Promise((resolve, reject) => Object.assign(waiter, { resolve, reject }));
  checkStaying(core);
  run(core, { type: 'submit', content: read(), source, waiter });
  return ignorable(stored);
}

function submitted(doc, read, options) {
  const { source = doc.source } = options || {};
  try {
    return takeEdit(coreOf(doc), read, source);
  } catch (error) {
    return Promise.reject(error);
  }
}

function deletion(options) {
  if (Array.isArray(options)) refuse('ERR_OT_OP_BADLY_FORMED', 'remove deletes the document, and removeAt a value');
  return { del: true };
}

// An operation that is made for the document. It may have more components than a message.
function submitEdit(doc, path, operationFor, options) {
  const { machine } = coreOf(doc);
  const read = () => {
    machine.checkLoaded();
    const { data } = machine;
    if (data === undefined) refuse('ERR_DOC_DOES_NOT_EXIST');
    readPath(path, 'the edit');
    const op = readOperation(operationFor(data), Infinity);
    if (machine.data !== data) refuse('ERR_OT_OP_NOT_APPLIED', 'the document was edited by the callback');
    return { op };
  };
  return submitted(doc, read, options);
}

async function subscribed(doc) {
  checkStaying(coreOf(doc));
  await asked(doc, { type: 'subscribe' });
  return doc;
}

async function createdIfAbsent(doc, data) {
  const core = coreOf(doc);
  const { machine } = core;
  checkStaying(core);
  machine.checkLoaded();
  const read = readData(data);
  if (machine.data === undefined) {
    try {
      await doc.create(read);
    } catch (error) {
      if (error.code !== 'ERR_DOC_ALREADY_CREATED') throw error;
    }
  }
  await until(core, () => machine.confirmed !== undefined || machine.isSettled, true);
  if (machine.confirmed === undefined) refuse('ERR_DOC_DOES_NOT_EXIST');
}
