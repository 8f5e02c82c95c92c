/* Edits of one tick, which no `await` separates, are sent as one submission. */

import assert from 'node:assert';
import { test } from 'node:test';
import { Client } from '../src/index.js';
import { MOST_COMPOSED } from '../src/limits.js';
import { ManualClock, flush } from './support/clock.js';
import { OPTIONS } from './support/options.js';
import { ADDRESS, absent, acknowledged, loaded, scripted } from './support/scripted.js';

const BATCH = { batch: true };

function add(doc, amount = 1) {
  return doc.submit([{ p: ['n'], na: amount }]);
}

function opsOf(socket) {
  return socket.taken().map(({ op }) => op);
}

test('edits of one tick are one submission, and change the data at once', OPTIONS, async () => {
  const { doc, socket } = loaded({ n: 1, t: 'a' }, BATCH);
  const stored = [add(doc), doc.submit([{ p: ['t', 1], si: 'b' }]), doc.insert(['t'], 2, 'c'), doc.set(['k'], 1)];
  assert.deepStrictEqual([doc.data, doc.pending, socket.taken()], [{ n: 2, t: 'abc', k: 1 }, 1, []]);
  await null;
  const [message] = socket.taken();
  const op = [{ p: ['n'], na: 1 }, { p: ['t', 1], si: 'bc' }, { p: ['k'], oi: 1 }];
  assert.deepStrictEqual(message, { a: 'op', ...ADDRESS, op, seq: 1, src: 'me', v: 3 });
  socket.answer(acknowledged(3, 1));
  assert.deepStrictEqual(await Promise.all(stored), Array(4).fill({ version: 3 }));
});

test('edits of different ticks are two submissions, the second after the first is stored', OPTIONS, async () => {
  const { doc, socket } = loaded({ n: 1 }, BATCH);
  add(doc);
  await flush();
  add(doc);
  add(doc);
  await flush();
  assert.deepStrictEqual(opsOf(socket), [[{ p: ['n'], na: 1 }]]);
  socket.answer(acknowledged(3, 1));
  assert.deepStrictEqual(opsOf(socket), [[{ p: ['n'], na: 2 }]]);
});

test('without the option and with preventCompose an edit is sent at once', OPTIONS, async () => {
  const single = loaded({ n: 1 }, { batch: false });
  add(single.doc);
  assert.deepStrictEqual(opsOf(single.socket), [[{ p: ['n'], na: 1 }]]);
  const { doc, socket } = loaded({ n: 1 }, BATCH);
  doc.preventCompose = true;
  add(doc);
  add(doc);
  assert.deepStrictEqual(opsOf(socket), [[{ p: ['n'], na: 1 }]]);
  socket.answer(acknowledged(3, 1));
  assert.deepStrictEqual(opsOf(socket), [[{ p: ['n'], na: 1 }]]);
});

test('it is the default', OPTIONS, async () => {
  const { WebSocket, last } = scripted();
  const client = new Client('ws://test', { WebSocket, clock: new ManualClock(), source: 'me' });
  const doc = client.document(ADDRESS.c, ADDRESS.d);
  doc.subscribe();
  last().open();
  last().answer({ a: 's', ...ADDRESS, data: { data: { n: 1 }, v: 3 } });
  last().taken();
  add(doc);
  assert.deepStrictEqual(last().taken(), []);
  await null;
  assert.strictEqual(last().taken().length, 1);
});

test('edits that undo each other are not sent', OPTIONS, async () => {
  const { doc, socket } = loaded({ t: 'a' }, BATCH);
  const stored = [doc.insert(['t'], 0, 'x'), doc.removeRange(['t'], 0, 1)];
  await flush();
  assert.deepStrictEqual([socket.taken(), doc.pending], [[], 0]);
  assert.deepStrictEqual(await Promise.all(stored), Array(2).fill({ version: null }));
});

test('a create is sent at once, and the edits of its tick afterwards together', OPTIONS, async () => {
  const { doc, socket } = absent(BATCH);
  doc.create({ n: 1 });
  add(doc);
  add(doc);
  assert.deepStrictEqual(socket.taken().map(({ create }) => create.data), [{ n: 1 }]);
  await flush();
  socket.answer(acknowledged(0, 1));
  assert.deepStrictEqual(opsOf(socket), [[{ p: ['n'], na: 2 }]]);
});

test('a document that is deleted in the tick of an edit', OPTIONS, async () => {
  const { doc, socket } = loaded({ n: 1 }, BATCH);
  add(doc);
  doc.remove();
  assert.deepStrictEqual(socket.taken(), []);
  await null;
  assert.deepStrictEqual(opsOf(socket), [[{ p: ['n'], na: 1 }]]);
  socket.answer(acknowledged(3, 1));
  assert.deepStrictEqual(socket.taken().map(({ del }) => del), [true]);
});

test('more edits than one submission has are several ones', OPTIONS, async () => {
  const { doc, socket } = loaded({}, BATCH);
  for (let at = 0; at <= MOST_COMPOSED; at += 1) doc.set([`k${at}`], at);
  await null;
  const sent = opsOf(socket);
  socket.answer(acknowledged(3, 1));
  sent.push(...opsOf(socket));
  assert.deepStrictEqual(sent.map(({ length }) => length), [MOST_COMPOSED, 1]);
});

test('an edit that is made in a tick which disconnects or closes is sent before', OPTIONS, async () => {
  for (const end of ['disconnect', 'close']) {
    const { client, doc, socket } = loaded({ n: 1 }, BATCH);
    add(doc).catch(() => {});
    add(doc).catch(() => {});
    client[end]();
    assert.deepStrictEqual(opsOf(socket), [[{ p: ['n'], na: 2 }]], end);
    assert.strictEqual(socket.isClosed, true);
    await flush();
    assert.deepStrictEqual(socket.taken(), []);
  }
});

test('an operation of another client that is received in between', OPTIONS, async () => {
  const { doc, socket } = loaded({ t: 'a' }, BATCH);
  doc.insert(['t'], 1, 'x');
  socket.answer({ a: 'op', ...ADDRESS, op: [{ p: ['t', 0], si: '--' }], seq: 3, src: 'other', v: 3 });
  assert.deepStrictEqual([doc.data, socket.taken()], [{ t: '--ax' }, []]);
  doc.insert(['t'], 4, 'y');
  await null;
  const [{ op, v }] = socket.taken();
  assert.deepStrictEqual([op, v], [[{ p: ['t', 3], si: 'xy' }], 4]);
});

test('two documents are sent in the order of their first edits', OPTIONS, async () => {
  const { client, doc, socket } = loaded({ n: 1 }, BATCH);
  const other = client.document('b', '2');
  other.subscribe();
  socket.answer({ a: 's', c: 'b', d: '2', data: { data: { n: 1 }, v: 8 } });
  socket.taken();
  add(other);
  add(doc);
  add(other);
  await null;
  assert.deepStrictEqual(socket.taken().map(({ d, op, seq }) => [d, op[0].na, seq]), [['2', 2, 1], ['1', 1, 2]]);
});

test('an edit that a listener of the change makes belongs to the same tick', OPTIONS, async () => {
  const { doc, socket } = loaded({ n: 1, m: 1 }, BATCH);
  doc.once('change', () => doc.add(['m'], 5));
  add(doc);
  await null;
  assert.deepStrictEqual(opsOf(socket), [[{ p: ['n'], na: 1 }, { p: ['m'], na: 5 }]]);
});
