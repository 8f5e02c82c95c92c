/*
 * A socket for ShareDB's own client, which sends some messages that the server doesn't have. It was tested with
 * messages as the package sends them (tests/examples/sharedb.js), and not with the package itself.
 *
 *     import { Connection } from 'sharedb/lib/client/index.js';
 *     import { ShareSocket } from './sharedb.js';
 *     const connection = new Connection(new ShareSocket(new WebSocket('ws://127.0.0.1:8080')));
 *
 * - `bf`, `bs` and `bu` become one message for each document, and their answers become one answer.
 * - `hs` names a random source, instead of the session's number, which another session has after a restart.
 * - `pp` becomes `hs`, whose answer becomes that of `pp`.
 *
 * The socket may be one that connects again by itself, as that of reconnecting-websocket.
 *
 * The profile's limits stay: json0 without `lm` and subtypes, whole numbers, no queries and no presence. After a
 * restart of the server, ShareDB's client doesn't detect that all documents are lost: reload the page.
 */

const DIGITS = 'abcdefghijklmnopqrstuvwxyz234567';
const SESSION = /^s\d+$/; // a source that the server gave to a session

/** Returns a source of 100 random bits. */
export function randomSource() {
  return Array.from(crypto.getRandomValues(new Uint8Array(20)), (byte) => DIGITS[byte % 32]).join('');
}

/** Wraps a WebSocket. It has what ShareDB's `Connection` uses: `readyState`, `send`, `close` and four listeners. */
export class ShareSocket {
  constructor(socket, source = randomSource()) {
    this.socket = socket;
    this.source = source;
    this.onopen = this.onmessage = this.onclose = this.onerror = null;
    this.requests = []; // of fetches and subscriptions that aren't answered, in order: null, or the bulk request
    this.hellos = []; // of `hs` that aren't answered: the message that it replaces
    socket.onopen = (event) => this.tell('onopen', event);
    socket.onclose = (event) => this.lose(event);
    socket.onerror = (event) => this.tell('onerror', event);
    socket.onmessage = ({ data }) => this.receive(JSON.parse(data));
  }

  get readyState() {
    return this.socket.readyState;
  }

  close(...reason) {
    this.socket.close(...reason);
  }

  tell(listener, event) {
    if (this[listener]) this[listener](event);
  }

  // A socket may connect again by itself. Nothing that was sent before is answered then.
  lose(event) {
    this.requests = [];
    this.hellos = [];
    this.tell('onclose', event);
  }

  pass(message) {
    this.tell('onmessage', { data: JSON.stringify(message) });
  }

  // Messages of the client ----------------------------------------------------------------------------------

  send(text) {
    const message = JSON.parse(text);
    if (message.a === 'hs') return this.greet('hs', { ...message, id: this.sourceFor(message.id) });
    if (message.a === 'pp') return this.greet('pp', { a: 'hs' });
    if (['bf', 'bs', 'bu'].includes(message.a)) return this.sendEach(message);
    if (['f', 's', 'u'].includes(message.a)) this.requests.push(null);
    this.socket.send(text);
  }

  // A client that reconnects names its earlier source, which it keeps.
  sourceFor(id) {
    if (typeof id === 'string' && id !== '' && !SESSION.test(id)) this.source = id;
    return this.source;
  }

  greet(replaced, message) {
    this.hellos.push(replaced);
    this.socket.send(JSON.stringify(message));
  }

  // `b` is a list of ids, or an object of versions by id.
  sendEach({ a, c, b }) {
    const ids = Array.isArray(b) ? b : Object.keys(b);
    const bulk = { a, c, b, ids, left: ids.length, data: {}, done: [] };
    if (ids.length === 0) this.pass({ a, c, b });
    ids.forEach((d) => {
      this.requests.push(bulk);
      this.socket.send(JSON.stringify({ a: a.slice(1), c, d, ...(Array.isArray(b) ? {} : { v: b[d] }) }));
    });
  }

  // Messages of the server ----------------------------------------------------------------------------------

  // The server answers in the order of requests, so an answer belongs to the first one that waits.
  receive(message) {
    if (message.a === 'hs') return this.pass(this.hellos.shift() === 'pp' ? { a: 'pp' } : message);
    const bulk = ['f', 's', 'u'].includes(message.a) ? this.requests.shift() : null;
    if (bulk) this.merge(bulk, message);
    else this.pass(message);
  }

  // With versions, operations were sent before the answer, so it has no data. Then an error is passed by itself.
  merge(bulk, message) {
    const { a, c, b, ids } = bulk;
    const id = ids[ids.length - bulk.left];
    bulk.left -= 1;
    if (message.error && !(Array.isArray(b) && a !== 'bu')) this.pass({ ...message, c, d: id });
    else bulk.done.push(id);
    bulk.data[id] = message.error ? { error: message.error } : message.data;
    if (bulk.left > 0 || bulk.done.length === 0) return;
    if (a === 'bu') this.pass({ a, c, b: bulk.done });
    else if (Array.isArray(b)) this.pass({ a, c, data: bulk.data });
    else this.pass({ a, c, b: Object.fromEntries(bulk.done.map((it) => [it, b[it]])) });
  }
}
