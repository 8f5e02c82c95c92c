/**
 * The connection to the server, and the documents over it.
 * @module
 */
import { Emitter, emitAll } from './emitter.js';
import { Refusal, refusal } from './errors.js';
import { close as closeDoc, coreFor, keep, run } from './doc.js';
import { isName } from './limits.js';
import { dataOf } from './machine.js';
import { isObject } from './ot/component.js';

/** @typedef {string | (() => string | Promise<string>)} Address */
/** @typedef {'connecting' | 'connected' | 'disconnected' | 'failed' | 'closed'} ClientState */
/**
 * Why a connection ended: `full` (the server serves its limit of clients), `going away` (it shuts down, or the client
 * was silent), `refused` (the connection was never open), `forbidden` (the client isn't allowed, and doesn't try
 * again), `no address` (the promise of an address was rejected), `too long` (a message), `out of memory`, `protocol`,
 * `timeout` (no handshake in time), `silent` (no sign of life), `disconnected` (by `disconnect` or `close`), `failed`
 * (the server breaks the protocol), or `lost`.
 * @typedef {'full' | 'going away' | 'refused' | 'forbidden' | 'no address' | 'too long' | 'out of memory' |
 *   'protocol' | 'timeout' | 'silent' | 'disconnected' | 'failed' | 'lost'} CloseReason
 */
/** @typedef {{code: number, reason: CloseReason, text: string}} Closing the WebSocket's code, and the server's text */
/**
 * @typedef {object} ClientEvents
 * @property {ClientState} state
 * @property {Closing} close a connection, or an attempt, has ended
 * @property {Refusal} error an error that names no document: `state` says whether the client continues. The code
 *   ERR_STORAGE says that the storage has failed: the client continues without it
 * @property {Unsent} refused edits of an earlier start, or of a closed tab, were dropped. No document of the
 *   application has reported them
 */
/** @typedef {{collection: string, id: string, error: Refusal, contents: import('./content.js').Content[]}} Unsent */
/**
 * Where documents and pending edits are kept between starts.
 * @typedef {object} ClientStorage
 * @property {() => Promise<Array<{collection: string, id: string, pending: boolean}>>} documents the documents that it
 *   has, and whether edits of them are pending
 */
/**
 * @typedef {object} Clock
 * @property {() => number} now milliseconds
 * @property {(action: () => void, delay: number) => any} setTimeout
 * @property {(timer: any) => void} clearTimeout
 */
/**
 * @typedef {object} ClientOptions
 * @property {string} [source] names this client in all its edits. No two clients may share one, and none may be reused
 *   after a reload: a number that the server knows is a duplicate. Random by default, and with a storage.
 * @property {any} [WebSocket] the class, if there is no global one
 * @property {boolean} [connect] false: the client connects only when `connect` is called
 * @property {number} [connectTimeout] milliseconds until an attempt without a handshake is given up: 20000
 * @property {number} [heartbeat] milliseconds of silence after which a sign of life is requested: 20000
 * @property {number} [retryDelay] the longest delay before the first reconnect, in milliseconds: 1000. The delay is
 *   doubled each time, and shortened at random: the first by up to all of it, the others by up to a half. A connection
 *   that lasted for 5 seconds ends the growth
 * @property {number} [longestDelay] the longest delay: 30000
 * @property {number} [mostTries] after this many failures in a row the client ends, with the state 'failed'. A
 *   connection that is lost within 5 seconds is a failure too
 * @property {boolean} [freeze] freezes the data of documents, so that a write to them throws: by default if
 *   `process.env.NODE_ENV` is 'development'
 * @property {boolean} [batch] false: an edit is sent at once if none is in flight. By default the edits of one tick,
 *   which no `await` separates, are sent together
 * @property {ClientStorage} [storage] keeps documents and pending edits between starts. Without it they are lost
 * @property {Clock} [clock] the timers; those of the platform by default
 * @property {() => number} [random] from 0 to below 1, for the delays
 */

const FORBIDDEN = 1008; // the status "policy violation", which a proxy sends

const REASONS = {
  1001: 'going away',
  1002: 'protocol',
  1007: 'protocol',
  [FORBIDDEN]: 'forbidden',
  1009: 'too long',
  1011: 'out of memory',
  1013: 'full',
};

// The version of the protocol. A server with another one isn't spoken to.
const PROTOCOL = 1;

// Milliseconds after which a connection counts as none of the failed attempts.
const STABLE = 5000;

// A timer that is so many milliseconds late ran on a machine that slept, so its connection is tested: for so long.
const LATE = 5000;
const TEST = 5000;

const NOTHING = { code: 1006, reason: '' };

/** @type {Clock} @internal */
export const PLATFORM = {
  now: () => Date.now(),
  setTimeout: (action, delay) => setTimeout(action, delay),
  clearTimeout: (timer) => clearTimeout(timer),
};

/** @internal */
export function keyOf(collection, id) {
  return JSON.stringify([collection, id]);
}

// Twenty random letters and digits.
function randomSource() {
  const bytes = globalThis.crypto.getRandomValues(new Uint8Array(20));
  return Array.from(bytes, (byte) => (byte % 32).toString(32)).join('');
}

function refusalOf(message) {
  return new Refusal(message.error.code, message.error.message);
}

// Bundlers replace the whole expression, and a page has no `process`.
function isDevelopment() {
  try {
    // @ts-ignore
    return process.env.NODE_ENV === 'development'; // eslint-disable-line no-undef
  } catch {
    return false;
  }
}

/** Returns the options with a source and a class, or throws. @internal */
export function completeOptions(options) {
  const { WebSocket = globalThis['WebSocket'] } = options;
  const source = options.storage || options.source === undefined ? randomSource() : options.source;
  if (typeof WebSocket !== 'function') {
    throw new Error("there is no WebSocket here: hand one over, as new Client(address, { WebSocket: require('ws') })");
  }
  if (!isName(source)) throw new Error('a source is a text of 1 to 200 bytes');
  return { ...options, source, WebSocket };
}

/**
 * A connection to the server, opened at once and reopened if it is lost, and the documents over it.
 * @extends {Emitter<ClientEvents>}
 */
export class Client extends Emitter {
  /**
   * @param {Address} address as `ws://127.0.0.1:8080`; a function is called at each attempt, so that it may return a
   * new token, or a promise of an address. If that is rejected, the client tries again
   * @param {ClientOptions} [options]
   */
  constructor(address, options = {}) {
    super();
    const connection = new Connection(this, address, completeOptions(options));
    Object.defineProperty(this, '_client', { value: () => connection });
    if (options.connect !== false) this.connect();
  }

  /**
   * The server's address.
   * @returns {Address}
   */
  get address() {
    return connectionOf(this).address;
  }

  /** @returns {string} */
  get source() {
    return connectionOf(this).source;
  }

  /** @returns {ClientState} */
  get state() {
    return connectionOf(this).state;
  }

  /**
   * Why the client has failed.
   * @returns {Refusal | null}
   */
  get error() {
    return connectionOf(this).error;
  }

  /**
   * Why the last connection, or the last attempt, ended.
   * @returns {Closing | null}
   */
  get closing() {
    return connectionOf(this).closing;
  }

  /**
   * Whether an edit of any document waits for more than two seconds.
   * @returns {boolean}
   */
  get waiting() {
    return [...connectionOf(this).documents.values()].some(({ waiting }) => waiting);
  }

  /** Connects, and reconnects if the connection is lost. */
  connect() {
    connectionOf(this).connect();
  }

  /** Closes the connection. What is submitted from now on is sent after the next `connect`. */
  disconnect() {
    connectionOf(this).disconnect();
  }

  /**
   * Closes the connection and all documents for good. Pending edits fail with ERR_CLOSED: they are dropped or, with a
   * storage, kept for the next start.
   * @returns {Promise<void>} is fulfilled when the storage has them
   */
  async close() {
    await connectionOf(this).close();
  }

  /**
   * The document of this collection and id, the same object until it is destroyed.
   * @template [T=any]
   * @param {string} collection or the name of a projection, which has some fields only
   * @param {string} id
   * @returns {import('./doc.js').Doc<T>}
   */
  document(collection, id) {
    return connectionOf(this).document(collection, id);
  }

  /**
   * A document at a version.
   * @param {string} collection
   * @param {string} id
   * @param {number | null} [version] the present one by default
   * @returns {Promise<import('./doc.js').Snapshot>}
   */
  snapshot(collection, id, version = null) {
    return connectionOf(this).snapshot({ a: 'nf', c: collection, d: id, v: version });
  }

  /**
   * A document at a time of the server's clock.
   * @param {string} collection
   * @param {string} id
   * @param {number | null} [moment] in milliseconds since 1970; the present version without one
   * @returns {Promise<import('./doc.js').Snapshot>}
   */
  snapshotAtTime(collection, id, moment = null) {
    return connectionOf(this).snapshot({ a: 'nt', c: collection, d: id, ts: moment });
  }

  /** @returns {Promise<void>} is fulfilled when nothing is pending in any document */
  async whenNothingPending() {
    await Promise.all([...connectionOf(this).documents.values()].map(({ doc }) => doc.whenNothingPending()));
  }
}

/**
 * Opens a document of which edits are pending until they are stored or refused. The client reports refused ones, since
 * the application may not know the document.
 * @internal
 */
export function resume(client, reporter, collection, id, options = {}) {
  const doc = client.document(collection, id);
  doc.on('refused', ({ error, contents }) => reporter.emit('refused', { collection, id, error, contents }));
  return doc.destroy(options);
}

/** @internal */
export function connectionOf(client) {
  return client._client();
}

class Connection {
  constructor(client, address, options) {
    this.client = client;
    this.address = address;
    this.options = options;
    this.source = options.source;
    this.WebSocket = options.WebSocket;
    const { connectTimeout = 20000, heartbeat = 20000, retryDelay = 1000, longestDelay = 30000 } = options;
    const { mostTries = Infinity, clock = PLATFORM, random = Math.random } = options;
    const { freeze = isDevelopment(), batch = true } = options;
    this.connectTimeout = connectTimeout;
    this.heartbeat = heartbeat;
    this.retryDelay = retryDelay;
    this.longestDelay = Math.max(longestDelay, retryDelay);
    this.mostTries = mostTries;
    this.clock = clock;
    this.random = random;
    this.state = 'disconnected';
    this.error = null;
    this.closing = null;
    this.wanted = false;
    this.socket = null;
    this.isOpened = false; // the server has sent its opening message
    this.isAlive = false; // a message was received since the last request for a sign of life
    this.timer = null; // of the next attempt, of the present one, or of the next sign of life
    this.checkAt = 0; // the time of the next check for a sign of life
    this.becameOnline = () => this.wake();
    this.connectedAt = Infinity; // the time of the handshake
    this.tries = 0; // connections that failed or were lost soon after their handshake, in a row
    this.number = 0; // of the last own edit
    this.requested = 0; // of the last requested snapshot
    this.requests = new Map(); // requested snapshots, by number: { text, isOwn, receive }
    this.documents = new Map();
    this.becameIdle = () => {}; // called when there is no document and no requested snapshot any more
    this.keeper = options.storage?._keeperFor(this);
    this.transport = this.transportOf({ freeze, batch });
  }

  // Returns what documents need of the connection.
  transportOf({ freeze, batch }) {
    return {
      source: this.source,
      clock: this.clock,
      freeze,
      batch,
      keeper: this.keeper,
      nextNumber: () => (this.number += 1),
      send: (text) => this.send(text),
      later: (action) => this.later(action),
      compare: (c, d, v, receive) => this.request({ a: 'nf', c, d, v }, true, receive),
      snapshot: (c, d, v) => this.snapshot({ a: 'nf', c, d, v }),
      snapshotAtTime: (c, d, ts) => this.snapshot({ a: 'nt', c, d, ts }),
      forget: (core, forgets) => this.forget(core, forgets),
    };
  }

  observeIdle() {
    if (this.documents.size === 0 && this.requests.size === 0) this.becameIdle();
  }

  // Calls --------------------------------------------------------------------------------------------------------

  connect() {
    if (this.state === 'closed') throw new Refusal('ERR_CLOSED');
    this.want(true);
    this.tries = 0;
    this.error = null;
    for (const core of this.documents.values()) run(core, { type: 'trying' });
    if (this.socket !== null) return;
    try {
      this.open();
    } catch (error) {
      this.want(false);
      throw error;
    }
  }

  // Sends the edits of this tick, before the connection ends.
  release() {
    for (const core of [...this.documents.values()]) run(core, { type: 'release' });
  }

  disconnect() {
    this.release();
    this.want(false);
    this.setTimer(null);
    emitAll(this.client, this.end('disconnected', 'disconnected'));
  }

  close() {
    if (this.state !== 'closed') this.closeAll();
    return this.keeper?.close();
  }

  closeAll() {
    this.release();
    this.want(false);
    this.setTimer(null);
    const ended = this.end('disconnected', 'closed');
    this.state = 'closed';
    for (const core of this.documents.values()) {
      this.keeper?.leave(core, false);
      closeDoc(core);
    }
    this.documents.clear();
    this.rejectRequests(new Refusal('ERR_CLOSED'));
    emitAll(this.client, [...ended, ['state', 'closed']]);
  }

  document(collection, id) {
    if (this.state === 'closed') throw new Refusal('ERR_CLOSED');
    if (!isName(collection) || !isName(id)) throw new Error('a collection and an id are texts of 1 to 200 bytes');
    const key = keyOf(collection, id);
    if (!this.documents.has(key)) {
      const core = coreFor(this.transport, collection, id);
      this.documents.set(key, core);
      this.keeper?.open(core);
      if (this.state === 'connected') run(core, { type: 'connected' });
      if (this.error !== null) run(core, { type: 'failed', error: this.error });
    }
    const core = this.documents.get(key);
    keep(core);
    return core.doc;
  }

  forget(core, forgets) {
    this.documents.delete(keyOf(core.collection, core.id));
    this.keeper?.leave(core, forgets);
    this.observeIdle();
  }

  // The storage --------------------------------------------------------------------------------------------------

  // Sends the pending edits of a document that the application hasn't opened. A cluster does it at its start.
  resume(collection, id) {
    if (!this.options.isBucket) resume(this.client, this.client, collection, id);
  }

  // Sends pending edits of a document over a connection of their own, whose storage has these only. Calls `ended` when
  // they are sent, or when the connection is lost.
  sendApart(storage, collection, id, ended) {
    const client = new Client(this.address, { ...this.options, connect: true, storage });
    const end = () => client.close().then(ended);
    client.on('close', end);
    client.document(collection, id).on('error', end);
    resume(client, this.client, collection, id, { forget: true }).then(end);
    return client;
  }

  // The client continues without the storage.
  reportStorage(error) {
    this.client.emit('error', refusal('ERR_STORAGE', error.message));
  }

  snapshot(message) {
    if (this.state === 'closed') return Promise.reject(new Refusal('ERR_CLOSED'));
    if (this.error !== null) {
      this.observeIdle();
      return Promise.reject(this.error);
    }
    return new Promise((resolve, reject) => {
      this.request(message, false, ({ snapshot, error }) => (error ? reject(error) : resolve(snapshot)));
    });
  }

  // Snapshots ----------------------------------------------------------------------------------------------------

  // Requests a snapshot. One for a document itself is of use only over this connection.
  request(message, isOwn, receive) {
    this.requested += 1;
    const text = JSON.stringify({ ...message, id: this.requested });
    this.requests.set(this.requested, { text, isOwn, receive });
    this.send(text);
  }

  receiveSnapshot(message) {
    const request = this.requests.get(message.id);
    if (!request) return;
    if (message.error && message.error.code === 'ERR_OUT_OF_MEMORY') {
      this.later(() => this.send(request.text));
      return;
    }
    this.requests.delete(message.id);
    this.observeIdle();
    if (message.error) request.receive({ error: refusalOf(message) });
    else request.receive({ snapshot: { version: message.v, data: dataOf(message) } });
  }

  rejectRequests(error) {
    const requests = [...this.requests.values()];
    this.requests.clear();
    this.observeIdle();
    for (const { receive } of requests) receive({ error });
  }

  // Sending ------------------------------------------------------------------------------------------------------

  send(text) {
    if (this.state === 'connected') this.socket.send(text);
  }

  sendHandshake() {
    this.socket.send(JSON.stringify({ a: 'hs', id: this.source, protocol: PROTOCOL }));
  }

  // Runs an action after the delay, if the connection is still the same.
  later(action) {
    const { socket } = this;
    this.clock.setTimeout(() => socket === this.socket && socket !== null && action(), this.retryDelay);
  }

  setTimer(action, delay) {
    if (this.timer !== null) this.clock.clearTimeout(this.timer);
    const started = () => {
      this.timer = null;
      action();
    };
    this.timer = action === null ? null : this.clock.setTimeout(started, delay);
  }

  // The connection -----------------------------------------------------------------------------------------------

  // Whether there should be a connection. A browser reports that its network is there again.
  want(wanted) {
    const { addEventListener, removeEventListener } = globalThis;
    if (wanted !== this.wanted && addEventListener) {
      (wanted ? addEventListener : removeEventListener).call(globalThis, 'online', this.becameOnline);
    }
    this.wanted = wanted;
  }

  // Tries at once, or tests the connection.
  wake() {
    if (this.state === 'connected') this.requestSign(TEST);
    else if (this.socket === null) this.reopen();
  }

  open() {
    const address = typeof this.address === 'function' ? this.address() : this.address;
    this.isOpened = false;
    if (typeof address === 'string') this.openSocket(address);
    else this.openLater(address);
    this.setTimer(() => this.giveUp('timeout'), this.connectTimeout);
    this.setState('connecting');
  }

  openSocket(address) {
    const socket = new this.WebSocket(address);
    this.socket = socket;
    socket.onmessage = (event) => socket === this.socket && this.read(event.data);
    socket.onerror = () => {};
    socket.onclose = (event) => socket === this.socket && this.lost(closingOf(event || NOTHING, this.isOpened));
  }

  // Opens the socket once its address is known. Until then another object is in its place.
  async openLater(promise) {
    const awaited = { close: () => {} };
    this.socket = awaited;
    let address = null;
    try {
      address = await promise;
    } catch (error) {
      if (this.socket === awaited) this.lost({ ...NOTHING, reason: 'no address', text: String(error && error.message) });
      return;
    }
    if (this.socket === awaited) this.orFail(() => this.openSocket(address));
  }

  // Gives up the connection. The next attempt follows.
  giveUp(reason) {
    const { socket } = this;
    this.lost({ code: 1000, reason, text: '' });
    socket.close();
  }

  /**
   * Ends the connection without another attempt. Returns the events that report it.
   * @returns {Array<[string, any]>}
   */
  end(reason, state) {
    const { socket } = this;
    if (socket === null) return [];
    const events = this.drop({ code: 1000, reason, text: '' }, state);
    socket.close();
    return events;
  }

  lost(closing) {
    const events = this.drop(closing, 'disconnected');
    const isForbidden = closing.code === FORBIDDEN;
    if (this.wanted && (isForbidden || this.tries > this.mostTries)) {
      this.fail(new Refusal(isForbidden ? 'ERR_FORBIDDEN' : 'ERR_UNREACHABLE'), events);
      return;
    }
    if (this.wanted && this.socket === null) this.setTimer(() => this.reopen(), this.delay());
    emitAll(this.client, events);
  }

  /**
   * The connection, or the attempt, has ended. Returns the events that report it, for the end of the change.
   * @returns {Array<[string, any]>}
   */
  drop(closing, state) {
    const isStable = this.clock.now() - this.connectedAt >= STABLE;
    this.socket = null;
    this.connectedAt = Infinity;
    this.tries = isStable ? 1 : this.tries + 1;
    this.setTimer(null);
    this.state = state;
    this.closing = closing;
    for (const [number, { isOwn }] of this.requests) if (isOwn) this.requests.delete(number);
    for (const core of this.documents.values()) run(core, { type: 'disconnected' });
    return [['close', closing], ['state', 'disconnected']];
  }

  reopen() {
    this.orFail(() => this.open());
  }

  orFail(action) {
    try {
      action();
    } catch (error) {
      this.fail(new Refusal('ERR_UNREACHABLE', error.message));
    }
  }

  // All clients lose a server that ends at the same time, so the first delay may be any, down to none.
  delay() {
    const grown = Math.min(this.longestDelay, this.retryDelay * 2 ** Math.min(this.tries - 1, 30));
    return grown * (1 - (this.tries === 1 ? this.random() : this.random() / 2));
  }

  /**
   * Nothing is tried before the next `connect`, which a listener of a document may call meanwhile.
   * @param {Refusal} error
   * @param {Array<[string, any]> | null} [ended]
   */
  fail(error, ended = null) {
    this.want(false);
    this.error = error;
    const events = ended || this.end('failed', 'failed');
    if (this.socket === null) this.state = 'failed';
    this.rejectRequests(error);
    for (const core of this.documents.values()) run(core, { type: 'failed', error: this.error });
    emitAll(this.client, [...events, ['state', 'failed'], ['error', error]]);
  }

  setState(state) {
    this.state = state;
    this.client.emit('state', state);
  }

  // A server that hangs sends no sign of life: the connection is then given up. If the machine slept, the server had no
  // time for it.
  checkAlive() {
    const hasSlept = this.clock.now() - this.checkAt > LATE;
    this.keeper?.beat();
    if (this.isAlive || hasSlept) this.requestSign(hasSlept ? TEST : this.heartbeat);
    else this.giveUp('silent');
  }

  requestSign(delay) {
    this.isAlive = false;
    this.send('{"a":"hs"}');
    this.awaitSign(delay);
  }

  awaitSign(delay) {
    this.checkAt = this.clock.now() + delay;
    this.setTimer(() => this.checkAlive(), delay);
  }

  // Receiving ----------------------------------------------------------------------------------------------------

  read(text) {
    this.isAlive = true;
    let message = null;
    try {
      message = JSON.parse(text);
    } catch {
      // no such server sends this
    }
    if (isMessage(message)) this.receive(message);
    else this.fail(new Refusal('ERR_PROTOCOL'));
  }

  receive(message) {
    if (this.state === 'connecting') this.receiveOpening(message);
    else if (message.a === 'nf' || message.a === 'nt') this.receiveSnapshot(message);
    else if (message.a !== 'init' && message.a !== 'hs') this.receiveForDocument(message);
  }

  receiveOpening(message) {
    if (message.a === 'hs' && message.error && message.error.code === 'ERR_OUT_OF_MEMORY') {
      this.later(() => this.sendHandshake());
    } else if (message.error) {
      this.fail(refusalOf(message));
    } else if (message.a === 'init' && message.protocol === PROTOCOL) {
      this.isOpened = true;
      this.sendHandshake();
    } else if (message.a === 'hs') {
      this.connected();
    } else {
      this.fail(new Refusal('ERR_PROTOCOL'));
    }
  }

  connected() {
    this.connectedAt = this.clock.now();
    this.state = 'connected';
    this.awaitSign(this.heartbeat);
    for (const { text } of this.requests.values()) this.send(text);
    // (a listener may disconnect, or ask for further documents, meanwhile)
    const { socket } = this;
    for (const core of [...this.documents.values()]) {
      if (this.socket === socket && core.machine.state === 'offline') run(core, { type: 'connected' });
    }
    if (this.socket !== socket) return;
    this.keeper?.beat();
    this.client.emit('state', 'connected');
  }

  receiveForDocument(message) {
    const core = this.documents.get(keyOf(message.c, message.d));
    const error = message.error ? refusalOf(message) : null;
    if (core) run(core, { type: 'message', message, error });
    else if (error) this.client.emit('error', error);
  }
}

function closingOf({ code = NOTHING.code, reason = '' }, isOpened) {
  return { code, reason: REASONS[code] || (isOpened ? 'lost' : 'refused'), text: String(reason) };
}

// Checks the members on which the client relies.
function isMessage(message) {
  if (!isObject(message)) return false;
  const { a, error, v, op } = message;
  if (error !== undefined) return isObject(error);
  if (a !== 'op') return true;
  return Number.isSafeInteger(v) && v >= 0 && (op === undefined || Array.isArray(op));
}
