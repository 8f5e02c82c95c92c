/* A client whose server is the test: it sends the server's messages, and reads what the client sends. */

import assert from 'node:assert';
import { Client } from '../../src/index.js';
import { ManualClock } from './clock.js';

export const ADDRESS = { c: 'b', d: '1' };
export const SOON = 1000; // milliseconds before a reconnect

/** Returns a WebSocket class, and the sockets that were opened. */
export function scripted() {
  const opened = [];
  class ScriptedSocket {
    constructor(address) {
      this.address = address;
      this.sent = [];
      this.isClosed = false;
      opened.push(this);
      this.number = opened.length;
    }

    send(text) {
      this.sent.push(JSON.parse(text));
    }

    close(code = 1000, reason = '') {
      this.isClosed = true;
      if (this.onclose) this.onclose({ code, reason });
    }

    answer(...messages) {
      for (const message of messages) this.onmessage({ data: JSON.stringify(message) });
    }

    // Sends the opening message and the answer to `hs`.
    open(number = this.number) {
      this.answer({ a: 'init', id: `s${number}`, protocol: 1 }, { a: 'hs', id: 'me' });
    }

    // Returns what was sent since the last call, without `hs`.
    taken() {
      return this.sent.splice(0).filter(({ a }) => a !== 'hs');
    }
  }
  return { WebSocket: ScriptedSocket, opened, last: () => opened[opened.length - 1] };
}

export function stored(v, op, src = 'other', seq = v) {
  return { a: 'op', ...ADDRESS, op, seq, src, v };
}

export function storedCreate(v, data, src = 'other', seq = v) {
  return { a: 'op', ...ADDRESS, create: { type: 'json0', data }, seq, src, v };
}

export function storedDelete(v, src = 'other', seq = v) {
  return { a: 'op', ...ADDRESS, del: true, seq, src, v };
}

export function acknowledged(v, seq) {
  return { a: 'op', ...ADDRESS, seq, src: 'me', v };
}

export function refused(a, code, more = {}) {
  return { a, ...ADDRESS, error: { code, message: code }, ...more };
}

export function insert(at, text) {
  return [{ p: [at], si: text }];
}

/** Returns a client that is connected. It sends an edit at once, if the options don't say otherwise. */
export function started(options = {}) {
  const sockets = scripted();
  const clock = new ManualClock();
  const { WebSocket } = sockets;
  const settings = { source: 'me', WebSocket, clock, random: () => 0, heartbeat: 1e9, batch: false, ...options };
  const client = new Client('ws://test', settings);
  const doc = client.document(ADDRESS.c, ADDRESS.d);
  const events = [];
  for (const name of ['stored', 'refused', 'error', 'load', 'healed', 'restarted']) {
    doc.on(name, (detail) => events.push([name, detail]));
  }
  const socket = sockets.last();
  if (socket) socket.open();
  return { client, clock, doc, events, socket, sockets };
}

/** Returns a client that is subscribed to the document at version 3. */
export function loaded(data = 'abc', options) {
  const all = started(options);
  all.doc.subscribe();
  assert.deepStrictEqual(all.socket.taken(), [{ a: 's', ...ADDRESS, v: null }]);
  all.socket.answer({ a: 's', ...ADDRESS, data: { data, v: 3 } });
  all.events.length = 0;
  return all;
}

/** Returns a client that is subscribed to an absent document. */
export function absent(options) {
  const all = started(options);
  all.doc.subscribe();
  all.socket.answer({ a: 's', ...ADDRESS, data: { type: null, v: 0 } });
  all.socket.taken();
  all.events.length = 0;
  return all;
}

export function holds(doc, version, data) {
  assert.deepStrictEqual([doc.version, doc.data, doc.pending], [version, data, 0]);
  assert.deepStrictEqual(doc.confirmed, data);
}

/** Closes a connection and opens the next one. */
export function reconnected({ socket, sockets, clock }, number) {
  socket.close(1006);
  // (the delay has grown if the connection was lost soon after its handshake)
  for (let tries = 0; tries < 4 && sockets.last() === socket; tries += 1) clock.advance(SOON);
  const next = sockets.last();
  assert.notStrictEqual(next, socket);
  next.open(number);
  return next;
}

/** Answers the client's comparison: the document at its version. */
export function compared(socket, data = 'abc') {
  const [{ a, id, v }] = socket.taken();
  assert.strictEqual(a, 'nf');
  socket.answer({ a, id, v, ...(data === undefined ? { type: null } : { type: 'json0', data }) });
}

export function namesOf(events) {
  return events.map(([name]) => name);
}
