/*
 * Tests examples/sharedb.js: node tests/examples/sharedb.js ADDRESS
 *
 * The client here isn't ShareDB's, which comes from a registry. It is written for this test and sends the messages that
 * the package (lib/client/connection.js and doc.js) is known to send: `hs` with its id, `bs` with ids or with versions,
 * `bf`, `bu`, `pp`, and `op` with `src`, `seq` and `v`. It reads answers as the package does. Needs node-ws.
 */
import assert from 'node:assert/strict';
import { createRequire } from 'node:module';
import { ShareSocket } from '../../examples/sharedb.js';

const WebSocket = createRequire(import.meta.url)('/usr/share/nodejs/ws'); // where Debian installs it
const address = process.argv[2];

/** A socket that connects again by itself, as the package's documents recommend (reconnecting-websocket). */
class Reconnecting {
  constructor() {
    this.isWanted = true;
    this.open();
  }

  open() {
    this.socket = new WebSocket(address);
    this.socket.onopen = (event) => this.onopen(event);
    this.socket.onmessage = (event) => this.onmessage(event);
    this.socket.onerror = () => {};
    this.socket.onclose = (event) => {
      this.onclose(event);
      if (this.isWanted) this.open();
    };
  }

  get readyState() {
    return this.socket.readyState;
  }

  send(text) {
    this.socket.send(text);
  }

  close() {
    this.isWanted = false;
    this.socket.close();
  }

  lose() {
    this.socket.terminate();
  }
}

/** A connection that keeps the messages it receives. */
class Connection {
  constructor(socket = new WebSocket(address)) {
    this.socket = new ShareSocket(socket);
    this.id = null;
    this.seq = 1;
    this.received = [];
    this.waiting = [];
    this.socket.onmessage = ({ data }) => this.receive(JSON.parse(data));
    this.opened = new Promise((resolve) => (this.socket.onopen = resolve));
  }

  // `init` with a minor version lets the package send `hs`.
  receive(message) {
    if (message.a === 'init') return this.send({ a: 'hs', id: this.id, protocol: 1, protocolMinor: 1 });
    if (message.a === 'hs') this.id = message.id;
    this.received.push(message);
    this.waiting = this.waiting.filter((look) => !look());
  }

  send(message) {
    this.socket.send(JSON.stringify(message));
  }

  /** Returns the next message that fits, and removes it. */
  next(fits) {
    return new Promise((resolve) => {
      const look = () => {
        const at = this.received.findIndex(fits);
        if (at >= 0) resolve(this.received.splice(at, 1)[0]);
        return at >= 0;
      };
      if (!look()) this.waiting.push(look);
    });
  }

  op(d, v, content) {
    this.send({ a: 'op', c: 'books', d, v, seq: this.seq++, x: {}, ...content });
  }
}

const named = (a) => (message) => message.a === a;
const kinds = (messages) => messages.map(({ a, op, create, v }) => (op || create ? `op ${v}` : a));

async function main() {
  const ada = new Connection();
  await ada.next(named('hs'));
  assert.match(ada.id, /^[a-z2-7]{20}$/);

  for (const d of ['1', '2']) ada.op(d, null, { create: { type: 'http://sharejs.org/types/JSONv0', data: { d } } });
  assert.equal((await ada.next(named('op'))).src, ada.id);
  await ada.next(named('op'));

  // two documents and an absent one, without versions: one answer with data
  ada.send({ a: 'bs', c: 'books', b: ['1', '2', 'none'] });
  const data = { 1: { data: { d: '1' }, v: 1 }, 2: { data: { d: '2' }, v: 1 }, none: { type: null, v: 0 } };
  assert.deepEqual(await ada.next(named('bs')), { a: 'bs', c: 'books', data });

  // with versions: operations first, then one answer without data; a version that is too new gets its own error
  ada.send({ a: 'bs', c: 'books', b: { 1: 0, 2: 1, none: 9 } });
  const answer = await ada.next(named('bs'));
  assert.deepEqual(answer, { a: 'bs', c: 'books', b: { 1: 0, 2: 1 } });
  assert.deepEqual(kinds(ada.received), ['op 0', 's']);
  const { error, d } = await ada.next(named('s'));
  assert.deepEqual([error.code, d], ['ERR_OP_VERSION_NEWER_THAN_CURRENT_SNAPSHOT', 'none']);
  ada.received = [];

  // single and bulk fetches in a row, and pings between
  ada.send({ a: 'f', c: 'books', d: '1', v: null });
  ada.send({ a: 'pp' });
  ada.send({ a: 'bf', c: 'books', b: ['2', '1'] });
  ada.send({ a: 'hs', id: ada.id });
  ada.send({ a: 's', c: 'books', d: '2', v: 1 });
  await ada.next(named('s'));
  assert.deepEqual(kinds(ada.received), ['f', 'pp', 'bf', 'hs']);
  assert.deepEqual(Object.keys(ada.received[2].data), ['1', '2']);
  ada.received = [];

  // operations of another client arrive until `bu`
  const ben = new Connection();
  await ben.next(named('hs'));
  assert.notEqual(ben.id, ada.id);
  ben.op('1', 1, { op: [{ p: ['n'], oi: 1 }] });
  await ben.next(named('op'));
  assert.equal((await ada.next(named('op'))).src, ben.id);
  ada.send({ a: 'bu', c: 'books', b: ['1', '2'] });
  assert.deepEqual(await ada.next(named('bu')), { a: 'bu', c: 'books', b: ['1', '2'] });
  ben.op('1', 2, { op: [{ p: ['n'], na: 1 }] });
  await ben.next(named('op'));
  ada.send({ a: 'pp' });
  await ada.next(named('pp'));
  assert.deepEqual(ada.received, []);

  // a reconnect keeps the source, so an operation that is sent again is a duplicate
  const again = new Connection();
  again.id = ben.id;
  await again.next(named('hs'));
  assert.equal(again.id, ben.id);
  again.send({ a: 'op', c: 'books', d: '1', v: 2, seq: 2, src: ben.id, op: [{ p: ['n'], na: 1 }] });
  assert.deepEqual(await again.next(named('op')), { a: 'op', c: 'books', d: '1', seq: 2, src: ben.id, v: 2 });

  // a socket that connects again by itself: requests of the lost connection get no answer, those of the next one do
  const raw = new Reconnecting();
  const carol = new Connection(raw);
  await carol.next(named('hs'));
  for (const lost of [{ a: 'bs', c: 'books', b: ['1', '2'] }, { a: 'pp' }, { a: 'f', c: 'books', d: '1', v: null }]) {
    carol.send(lost);
    raw.lose();
    carol.received = [];
    assert.equal((await carol.next(named('hs'))).id, carol.id);
    carol.send({ a: 'pp' });
    carol.send({ a: 'bs', c: 'books', b: { 1: 3, 2: 1 } });
    await carol.next(named('bs'));
    assert.deepEqual(kinds(carol.received), ['pp']);
  }
  for (const { socket } of [ada, ben, again, carol]) socket.close();
  console.log('sharedb: all answers are as expected');
}

// Node would end with status 0 if a message never came.
const timer = setTimeout(() => {
  console.error('sharedb: a message never came');
  process.exit(1);
}, 20000);
await main();
clearTimeout(timer);
