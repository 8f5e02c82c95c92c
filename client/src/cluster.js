/**
 * The connections to several servers, each of which has the documents of one bucket.
 * @module
 */
import { Client, PLATFORM, completeOptions, connectionOf, keyOf, resume } from './connection.js';
import { Emitter } from './emitter.js';
import { Refusal } from './errors.js';

/** @typedef {import('./connection.js').ClientState} ClientState */
/** @typedef {import('./connection.js').Closing} Closing */
/**
 * The connection of a bucket that is in use. `error` says why it has failed, `closing` why the last one ended.
 * @typedef {{bucket: number, state: ClientState, error: Refusal | null, closing: Closing | null}} BucketState
 */
/**
 * The events of the connections, with the number of their bucket.
 * @typedef {object} ClusterEvents
 * @property {{bucket: number, state: ClientState}} state
 * @property {Closing & {bucket: number}} close a connection, or an attempt, has ended
 * @property {{bucket: number, error: Refusal}} error an error that names no document
 * @property {import('./connection.js').Unsent} refused edits of an earlier start, or of a closed tab, were dropped
 */
/**
 * @typedef {import('./connection.js').ClientOptions & {idleDelay?: number}} ClusterOptions `idleDelay`: milliseconds
 *   until a connection without documents is closed: 10000
 */

const POLYNOMIAL = 0xedb88320;

// The state of a cluster is the first of these that a connection in use has.
/** @type {ClientState[]} */
const WORST_FIRST = ['failed', 'disconnected', 'connecting', 'connected'];

/**
 * The bucket of a document: the CRC-32 of its id's bytes in UTF-8, as in zlib, modulo the number of buckets. It doesn't
 * depend on the collection, since a projection shows the same document.
 * @param {string} id
 * @param {number} buckets
 * @returns {number}
 */
export function bucketOf(id, buckets) {
  let rest = -1;
  for (const byte of new TextEncoder().encode(id)) {
    rest ^= byte;
    for (let bit = 0; bit < 8; bit += 1) rest = (rest >>> 1) ^ (rest & 1 ? POLYNOMIAL : 0);
  }
  return (~rest >>> 0) % buckets;
}

/**
 * A client of several servers: each document is on the connection of its bucket. A connection is opened when a document
 * or a snapshot needs it, reopened if it is lost, and closed once no document needs it.
 * @extends {Emitter<ClusterEvents>}
 */
export class Cluster extends Emitter {
  /**
   * @param {string | ((bucket: number) => string | Promise<string>)} address of which bucket N has the address
   * `address/b/N`; a function returns the whole address of a bucket, or a promise of it, and is called at each attempt
   * @param {number} buckets how many there are: the same number in all clients
   * @param {ClusterOptions} [options]
   */
  constructor(address, buckets, options = {}) {
    super();
    if (!Number.isSafeInteger(buckets) || buckets < 1) throw new Error('the number of buckets is a whole number from 1 on');
    const { connect = true, idleDelay = 10000, clock = PLATFORM, ...others } = completeOptions(options);
    const core = {
      cluster: this,
      address,
      buckets,
      options: { ...others, clock, connect: false, isBucket: true },
      clock,
      idleDelay,
      wanted: connect,
      isClosed: false,
      closing: null,
      connections: new Map(), // by bucket; one that is closed stays, since it counts the edits of its source
    };
    Object.defineProperty(this, '_cluster', { value: () => core });
    if (options.storage) resumePending(core, options.storage);
  }

  /**
   * The base address.
   * @returns {string | ((bucket: number) => string | Promise<string>)}
   */
  get address() {
    return coreOf(this).address;
  }

  /** @returns {number} */
  get buckets() {
    return coreOf(this).buckets;
  }

  /**
   * The source of the edits in all buckets.
   * @returns {string}
   */
  get source() {
    return coreOf(this).options.source;
  }

  /**
   * The connections in use, by bucket.
   * @returns {BucketState[]}
   */
  get states() {
    return inUse(this).map(({ bucket, client: { state, error, closing } }) => ({ bucket, state, error, closing }));
  }

  /**
   * The first of 'failed', 'disconnected' and 'connecting' that a connection in use has, or else 'connected'.
   * @returns {ClientState}
   */
  get state() {
    const { isClosed, wanted } = coreOf(this);
    if (isClosed) return 'closed';
    const states = inUse(this).map(({ client }) => client.state);
    return WORST_FIRST.find((state) => states.includes(state)) || (wanted ? 'connected' : 'disconnected');
  }

  /**
   * Why a connection in use has failed.
   * @returns {Refusal | null}
   */
  get error() {
    const failed = inUse(this).find(({ client }) => client.error !== null);
    return failed ? failed.client.error : null;
  }

  /**
   * Why the last connection, or the last attempt, ended.
   * @returns {Closing & {bucket: number} | null}
   */
  get closing() {
    return coreOf(this).closing;
  }

  /**
   * Whether an edit of any document waits for more than two seconds.
   * @returns {boolean}
   */
  get waiting() {
    return clientsOf(this).some(({ waiting }) => waiting);
  }

  /**
   * The bucket of the documents with this id.
   * @param {string} id
   * @returns {number}
   */
  bucketOf(id) {
    return bucketOf(id, this.buckets);
  }

  /** Connects to the buckets in use, and from now on to those that are needed. */
  connect() {
    const core = coreOf(this);
    if (core.isClosed) throw new Refusal('ERR_CLOSED');
    core.wanted = true;
    for (const { client } of inUse(this)) client.connect();
  }

  /** Closes all connections. What is submitted from now on is sent after the next `connect`. */
  disconnect() {
    coreOf(this).wanted = false;
    for (const client of clientsOf(this)) client.disconnect();
  }

  /**
   * Closes all connections and all documents for good. Pending edits fail with ERR_CLOSED: they are dropped or, with a
   * storage, kept for the next start.
   * @returns {Promise<void>} is fulfilled when the storage has them
   */
  async close() {
    const core = coreOf(this);
    core.isClosed = true;
    for (const connection of core.connections.values()) setTimer(core, connection, null);
    await Promise.all(clientsOf(this).map((client) => client.close()));
  }

  /**
   * The document of this collection and id, the same object until it is destroyed.
   * @template [T=any]
   * @param {string} collection or the name of a projection, which has some fields only
   * @param {string} id
   * @returns {import('./doc.js').Doc<T>}
   */
  document(collection, id) {
    const core = coreOf(this);
    if (core.isClosed) throw new Refusal('ERR_CLOSED');
    const connection = connectionFor(core, id);
    const doc = connection.client.document(collection, id);
    use(core, connection);
    return doc;
  }

  /**
   * A document at a version.
   * @param {string} collection
   * @param {string} id
   * @param {number | null} [version] the present one by default
   * @returns {Promise<import('./doc.js').Snapshot>}
   */
  snapshot(collection, id, version = null) {
    return requested(this, id, (client) => client.snapshot(collection, id, version));
  }

  /**
   * A document at a time of the clock of its bucket's server.
   * @param {string} collection
   * @param {string} id
   * @param {number | null} [moment] in milliseconds since 1970; the present version without one
   * @returns {Promise<import('./doc.js').Snapshot>}
   */
  snapshotAtTime(collection, id, moment = null) {
    return requested(this, id, (client) => client.snapshotAtTime(collection, id, moment));
  }

  /** @returns {Promise<void>} is fulfilled when nothing is pending in any document */
  async whenNothingPending() {
    await Promise.all(clientsOf(this).map((client) => client.whenNothingPending()));
  }
}

function coreOf(cluster) {
  return cluster._cluster();
}

function clientsOf(cluster) {
  return [...coreOf(cluster).connections.values()].map(({ client }) => client);
}

function inUse(cluster) {
  const connections = [...coreOf(cluster).connections.values()].filter(({ isUsed }) => isUsed);
  return connections.sort((one, other) => one.bucket - other.bucket);
}

function addressOf({ address }, bucket) {
  return typeof address === 'function' ? () => address(bucket) : `${address.replace(/\/$/, '')}/b/${bucket}`;
}

function connectionFor(core, id) {
  const bucket = bucketOf(id, core.buckets);
  if (!core.connections.has(bucket)) core.connections.set(bucket, newConnection(core, bucket));
  return core.connections.get(bucket);
}

function newConnection(core, bucket) {
  const { cluster } = core;
  const client = new Client(addressOf(core, bucket), core.options);
  const connection = { bucket, client, isUsed: false, timer: null };
  client.on('state', (state) => cluster.emit('state', { bucket, state }));
  client.on('error', (error) => cluster.emit('error', { bucket, error }));
  client.on('refused', (detail) => cluster.emit('refused', detail));
  client.on('close', (closing) => {
    core.closing = { bucket, ...closing };
    cluster.emit('close', core.closing);
  });
  connectionOf(client).becameIdle = () => setTimer(core, connection, () => leave(connection));
  return connection;
}

// Sends the pending edits of documents that the application hasn't opened. A storage that fails is reported by the
// connections.
async function resumePending(core, storage) {
  for (const { collection, id, pending } of await storage.documents().catch(() => [])) {
    const { documents } = connectionOf(connectionFor(core, id).client);
    const isOpen = core.isClosed || documents.has(keyOf(collection, id));
    if (pending && !isOpen) resume(core.cluster, core.cluster, collection, id);
  }
}

// The connection is needed from now on.
function use(core, connection) {
  setTimer(core, connection, null);
  if (connection.isUsed) return;
  connection.isUsed = true;
  if (core.wanted) connection.client.connect();
}

// Closes the connection, which has been idle.
function leave(connection) {
  connection.isUsed = false;
  connection.client.disconnect();
}

function setTimer(core, connection, action) {
  const { clock, idleDelay, isClosed } = core;
  if (connection.timer !== null) clock.clearTimeout(connection.timer);
  connection.timer = action === null || isClosed ? null : clock.setTimeout(action, idleDelay);
}

function requested(cluster, id, request) {
  const core = coreOf(cluster);
  if (core.isClosed) return Promise.reject(new Refusal('ERR_CLOSED'));
  const connection = connectionFor(core, id);
  use(core, connection);
  return request(connection.client);
}
