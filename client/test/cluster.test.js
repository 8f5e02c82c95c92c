/* A cluster: the bucket of a document, connections that are opened when needed and closed when idle. */

import assert from 'node:assert';
import { test } from 'node:test';
import { Cluster, bucketOf } from '../src/index.js';
import { ManualClock, flush } from './support/clock.js';
import { OPTIONS } from './support/options.js';
import { scripted } from './support/scripted.js';

const IDLE = 10000;
// Ids of the buckets 0 to 3 of four, and a second id of bucket 3.
const IDS = ['d0', 'd4', 'd1', 'd5'];
const OTHER = 'd7';

function cluster(options = {}, buckets = 4, address = 'ws://test') {
  const sockets = scripted();
  const clock = new ManualClock();
  const { WebSocket } = sockets;
  const settings = { source: 'me', WebSocket, clock, random: () => 0, heartbeat: 1e9, batch: false, ...options };
  const made = new Cluster(address, buckets, settings);
  const events = [];
  for (const name of ['state', 'close', 'error']) made.on(name, (detail) => events.push([name, detail]));
  return { cluster: made, clock, events, sockets };
}

// Answers a subscription to a document that holds a text.
function load(socket, id) {
  assert.deepStrictEqual(socket.taken(), [{ a: 's', c: 'b', d: id, v: null }]);
  socket.answer({ a: 's', c: 'b', d: id, data: { data: 'abc', v: 3 } });
}

test('the bucket of a document is the CRC-32 of its id, modulo the number of buckets', OPTIONS, () => {
  const WHOLE = 2 ** 32;
  const CHECKS = [['123456789', 3421780262], ['a', 3904355907], ['', 0], ['é😀', 2139118086], ['x'.repeat(200), 2127260582]];
  for (const [id, sum] of CHECKS) {
    assert.deepStrictEqual([bucketOf(id, WHOLE), bucketOf(id, 16), bucketOf(id, 1)], [sum, sum % 16, 0]);
  }
  assert.deepStrictEqual(IDS.map((id) => bucketOf(id, 4)), [0, 1, 2, 3]);
});

test('a connection is opened when a document of its bucket is first needed', OPTIONS, () => {
  const { cluster: made, events, sockets } = cluster();
  assert.deepStrictEqual([made.state, made.states, sockets.opened.length], ['connected', [], 0]);
  const doc = made.document('b', IDS[2]);
  assert.strictEqual(made.document('b', IDS[2]), doc);
  made.document('projection', IDS[2]);
  assert.deepStrictEqual(sockets.opened.map(({ address }) => address), ['ws://test/b/2']);
  assert.deepStrictEqual(events, [['state', { bucket: 2, state: 'connecting' }]]);
  made.document('b', IDS[1]);
  assert.deepStrictEqual(sockets.opened.map(({ address }) => address), ['ws://test/b/2', 'ws://test/b/1']);
  assert.deepStrictEqual(made.states.map(({ bucket, state }) => [bucket, state]), [[1, 'connecting'], [2, 'connecting']]);
  sockets.opened[0].open();
  assert.deepStrictEqual([made.state, events[2]], ['connecting', ['state', { bucket: 2, state: 'connected' }]]);
  sockets.opened[1].open();
  assert.deepStrictEqual([made.state, made.source, made.buckets, made.address], ['connected', 'me', 4, 'ws://test']);
});

test('an address may end with a slash, or be a function of the bucket', OPTIONS, () => {
  const slash = cluster({}, 4, 'ws://test/');
  slash.cluster.document('b', IDS[1]);
  assert.strictEqual(slash.sockets.last().address, 'ws://test/b/1');
  let token = 0;
  const called = cluster({}, 4, (bucket) => `ws://test/b/${bucket}?token=${(token += 1)}`);
  called.cluster.document('b', IDS[1]);
  called.sockets.last().close(1006);
  called.clock.advance(1000);
  const addresses = called.sockets.opened.map(({ address }) => address);
  assert.deepStrictEqual(addresses, ['ws://test/b/1?token=1', 'ws://test/b/1?token=2']);
});

test('wrong arguments are refused', OPTIONS, () => {
  for (const buckets of [0, -1, 1.5, NaN, '4', undefined]) {
    assert.throws(() => new Cluster('ws://test', buckets, { WebSocket: class {} }), /number of buckets/);
  }
  assert.throws(() => new Cluster('ws://test', 4, { WebSocket: 1 }), /there is no WebSocket/);
  assert.throws(() => new Cluster('ws://test', 4, { WebSocket: class {}, source: '' }), /source/);
  const { cluster: made, sockets } = cluster({}, 1);
  assert.throws(() => made.document('b', ''), /200 bytes/);
  assert.deepStrictEqual([sockets.opened.length, made.states], [0, []]);
});

test('a connection is closed once it has been idle', OPTIONS, async () => {
  const { cluster: made, clock, events, sockets } = cluster();
  const doc = made.document('b', IDS[1]);
  sockets.last().open();
  events.length = 0;
  await doc.destroy();
  clock.advance(IDLE - 1);
  assert.deepStrictEqual([made.states.length, events], [1, []]);
  clock.advance(1);
  const closing = { bucket: 1, code: 1000, reason: 'disconnected', text: '' };
  assert.deepStrictEqual(events, [['close', closing], ['state', { bucket: 1, state: 'disconnected' }]]);
  assert.deepStrictEqual([made.states, made.state, made.closing, sockets.last().isClosed], [[], 'connected', closing, true]);
  clock.advance(1e6);
  assert.strictEqual(sockets.opened.length, 1);
});

test('a document that is opened within the delay keeps the connection', OPTIONS, async () => {
  const { cluster: made, clock, sockets } = cluster({ idleDelay: 50 });
  const docs = [made.document('b', IDS[3]), made.document('b', OTHER)];
  sockets.last().open();
  await docs[0].destroy();
  clock.advance(1000);
  assert.strictEqual(made.states.length, 1);
  await docs[1].destroy();
  clock.advance(49);
  const again = made.document('b', IDS[3]);
  clock.advance(1000);
  assert.deepStrictEqual([made.state, sockets.opened.length, sockets.last().isClosed], ['connected', 1, false]);
  await again.destroy();
  clock.advance(50);
  assert.strictEqual(sockets.last().isClosed, true);
});

test('the numbers of edits continue over the connections of a bucket', OPTIONS, async () => {
  const { cluster: made, clock, sockets } = cluster();
  for (const seq of [1, 2]) {
    const doc = made.document('b', IDS[0]);
    const loading = doc.subscribe();
    const socket = sockets.last();
    socket.open();
    load(socket, IDS[0]);
    await loading;
    const stored = doc.submit([{ p: [0], si: 'x' }]);
    const [{ src, seq: number }] = socket.taken();
    assert.deepStrictEqual([src, number], ['me', seq]);
    socket.answer({ a: 'op', c: 'b', d: IDS[0], seq, src, v: 3 });
    await stored;
    const destroyed = doc.destroy();
    await flush();
    assert.deepStrictEqual(socket.taken(), [{ a: 'u', c: 'b', d: IDS[0] }]);
    socket.answer({ a: 'u', c: 'b', d: IDS[0] });
    await destroyed;
    clock.advance(IDLE);
    assert.strictEqual(socket.isClosed, true);
  }
  assert.strictEqual(sockets.opened.length, 2);
});

test('a snapshot opens a connection, which is closed after its answer', OPTIONS, async () => {
  const { cluster: made, clock, sockets } = cluster();
  const snapshots = [made.snapshot('b', IDS[2], 3), made.snapshotAtTime('b', IDS[2], 9), made.snapshot('b', IDS[2])];
  const socket = sockets.last();
  assert.strictEqual(socket.address, 'ws://test/b/2');
  clock.advance(IDLE);
  socket.open();
  const sent = socket.taken();
  assert.deepStrictEqual(sent.map(({ a, d, v, ts }) => [a, d, v, ts]), [
    ['nf', IDS[2], 3, undefined], ['nt', IDS[2], undefined, 9], ['nf', IDS[2], null, undefined],
  ]);
  for (const { a, id } of sent) socket.answer({ a, id, v: id, type: 'json0', data: id });
  assert.deepStrictEqual(await Promise.all(snapshots), sent.map(({ id }) => ({ version: id, data: id })));
  clock.advance(IDLE - 1);
  assert.strictEqual(socket.isClosed, false);
  clock.advance(1);
  assert.deepStrictEqual([socket.isClosed, made.states], [true, []]);
});

test('a bucket whose connection is lost changes no other', OPTIONS, async () => {
  const { cluster: made, clock, events, sockets } = cluster();
  const docs = IDS.map((id) => made.document('b', id));
  const loading = docs.map((doc) => doc.subscribe());
  for (const [at, socket] of sockets.opened.entries()) {
    socket.open();
    load(socket, IDS[at]);
  }
  await Promise.all(loading);
  events.length = 0;
  sockets.opened[1].close(1001);
  assert.deepStrictEqual(events, [
    ['close', { bucket: 1, code: 1001, reason: 'going away', text: '' }],
    ['state', { bucket: 1, state: 'disconnected' }],
  ]);
  assert.deepStrictEqual(docs.map(({ state }) => state), ['live', 'offline', 'live', 'live']);
  assert.deepStrictEqual([made.state, made.error, made.closing.bucket], ['disconnected', null, 1]);
  assert.deepStrictEqual(made.states.map(({ state }) => state), ['connected', 'disconnected', 'connected', 'connected']);
  made.document('b', IDS[1]);
  assert.strictEqual(sockets.opened.length, 4);
  docs[1].submit([{ p: [0], si: 'x' }]);
  const idle = made.whenNothingPending().then(() => events.push('idle'));
  clock.advance(2000);
  assert.deepStrictEqual([made.waiting, docs[1].pending, sockets.opened.length], [true, 1, 5]);
  await flush();
  assert.strictEqual(events.includes('idle'), false);
  assert.strictEqual(sockets.last().address, 'ws://test/b/1');
  docs[1].destroy({ discard: true }).catch(() => {});
  await idle;
  assert.strictEqual(made.waiting, false);
});

test('a bucket that has failed: a snapshot fails at once, and after the idle delay the next one connects', OPTIONS, async () => {
  const { cluster: made, clock, sockets } = cluster();
  const first = made.snapshot('b', IDS[3]);
  sockets.last().answer({ a: 'init', id: 's1', protocol: 2 });
  await assert.rejects(first, { code: 'ERR_PROTOCOL' });
  clock.advance(IDLE - 1);
  await assert.rejects(made.snapshot('b', IDS[3]), { code: 'ERR_PROTOCOL' });
  clock.advance(IDLE - 1);
  assert.strictEqual(made.states.length, 1);
  clock.advance(1);
  assert.deepStrictEqual([made.states, sockets.opened.length], [[], 1]);
  const next = made.snapshot('b', IDS[3]);
  const socket = sockets.last();
  assert.strictEqual(sockets.opened.length, 2);
  socket.open();
  const [{ a, id }] = socket.taken();
  socket.answer({ a, id, v: 0, type: null });
  assert.deepStrictEqual(await next, { version: 0, data: undefined });
});

test('a bucket that fails is named, and is tried again by `connect`', OPTIONS, () => {
  const { cluster: made, events, sockets } = cluster();
  IDS.forEach((id) => made.document('b', id));
  sockets.opened[3].answer({ a: 'init', id: 's1', protocol: 2 });
  const { error } = events.find(([name]) => name === 'error')[1];
  assert.deepStrictEqual(events.slice(-1), [['error', { bucket: 3, error }]]);
  assert.deepStrictEqual([made.state, made.error, made.states[3].error], ['failed', error, error]);
  assert.strictEqual(error.code, 'ERR_PROTOCOL');
  made.connect();
  assert.deepStrictEqual([made.state, made.error, sockets.opened.length], ['connecting', null, 5]);
});

test('a cluster without `connect` connects when it is called, and so does one that is disconnected', OPTIONS, () => {
  const { cluster: made, sockets } = cluster({ connect: false });
  made.document('b', IDS[0]);
  assert.deepStrictEqual([made.state, sockets.opened.length], ['disconnected', 0]);
  made.connect();
  made.document('b', IDS[1]);
  assert.deepStrictEqual([made.state, sockets.opened.length], ['connecting', 2]);
  made.disconnect();
  made.document('b', IDS[2]);
  assert.deepStrictEqual([made.state, sockets.opened.length], ['disconnected', 2]);
  assert.deepStrictEqual(sockets.opened.map(({ isClosed }) => isClosed), [true, true]);
  made.connect();
  assert.strictEqual(sockets.opened.length, 5);
});

test('a closed cluster', OPTIONS, async () => {
  const { cluster: made, clock, events, sockets } = cluster();
  const doc = made.document('b', IDS[0]);
  const loading = doc.subscribe();
  const snapshot = made.snapshot('b', IDS[1]);
  made.close();
  made.close();
  await assert.rejects(loading, { code: 'ERR_CLOSED' });
  await assert.rejects(snapshot, { code: 'ERR_CLOSED' });
  await assert.rejects(made.snapshot('b', IDS[2]), { code: 'ERR_CLOSED' });
  await assert.rejects(made.snapshotAtTime('b', IDS[1]), { code: 'ERR_CLOSED' });
  for (const id of [IDS[0], OTHER]) assert.throws(() => made.document('b', id), { code: 'ERR_CLOSED' });
  assert.throws(() => made.connect(), { code: 'ERR_CLOSED' });
  const unused = cluster().cluster;
  unused.close();
  assert.throws(() => unused.connect(), { code: 'ERR_CLOSED' });
  assert.deepStrictEqual([made.state, doc.state], ['closed', 'closed']);
  assert.deepStrictEqual(events.filter(([, { state }]) => state === 'closed').map(([, { bucket }]) => bucket), [0, 1]);
  clock.advance(1e6);
  assert.deepStrictEqual([sockets.opened.length, clock.timers.length], [2, 0]);
  await made.whenNothingPending();
});
