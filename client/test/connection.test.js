/* The connection: states, reconnects, time limits, signs of life, and the reasons of a close. */

import assert from 'node:assert';
import { test } from 'node:test';
import { Client } from '../src/index.js';
import { ManualClock, flush } from './support/clock.js';
import { OPTIONS } from './support/options.js';
import { ADDRESS, SOON, acknowledged, compared, holds, insert, loaded, reconnected, scripted, started } from './support/scripted.js';

const HANDSHAKE = { a: 'hs', id: 'me', protocol: 1 };

function client(options = {}) {
  const sockets = scripted();
  const clock = new ManualClock();
  const made = new Client('ws://test', { source: 'me', WebSocket: sockets.WebSocket, clock, random: () => 0, ...options });
  const states = [];
  const closings = [];
  made.on('state', (state) => states.push(state));
  made.on('close', ({ code, reason }) => closings.push([code, reason]));
  return { client: made, clock, closings, sockets, states };
}

test('a client without `connect` connects when it is called', OPTIONS, () => {
  const { client: made, sockets, states } = client({ connect: false });
  assert.deepStrictEqual([made.state, sockets.opened.length], ['disconnected', 0]);
  made.connect();
  made.connect();
  assert.deepStrictEqual([states, sockets.opened.length, sockets.last().address], [['connecting'], 1, 'ws://test']);
  sockets.last().answer({ a: 'init', id: 's1', protocol: 1 });
  assert.deepStrictEqual(sockets.last().sent, [HANDSHAKE]);
  sockets.last().answer({ a: 'hs', id: 'me' });
  assert.deepStrictEqual(states, ['connecting', 'connected']);
  made.disconnect();
  made.disconnect();
  assert.deepStrictEqual(states, ['connecting', 'connected', 'disconnected']);
  assert.strictEqual(sockets.last().isClosed, true);
});

test('an address may be a function, which is called at each attempt', OPTIONS, () => {
  let token = 0;
  const sockets = scripted();
  const clock = new ManualClock();
  const address = () => `ws://test?token=${(token += 1)}`;
  const made = new Client(address, { WebSocket: sockets.WebSocket, clock, random: () => 0 });
  sockets.last().close(1006);
  clock.advance(1000);
  assert.deepStrictEqual(sockets.opened.map(({ address }) => address), ['ws://test?token=1', 'ws://test?token=2']);
  assert.strictEqual(typeof made.address, 'function');
  assert.match(made.source, /^[0-9a-v]{20}$/);
  made.close();
});

test('an address may be a promise: it is awaited at each attempt', OPTIONS, async () => {
  const { WebSocket, opened } = scripted();
  const clock = new ManualClock();
  const answers = [];
  const address = () => new Promise((resolve, reject) => answers.push({ resolve, reject }));
  const made = new Client(address, { WebSocket, clock, random: () => 0, source: 'me' });
  const closings = [];
  made.on('close', (closing) => closings.push(closing));
  assert.deepStrictEqual([made.state, opened.length], ['connecting', 0]);
  made.connect();
  answers[0].resolve('ws://test?token=1');
  await flush();
  assert.deepStrictEqual([answers.length, opened.map((socket) => socket.address)], [1, ['ws://test?token=1']]);
  opened[0].open();
  assert.strictEqual(made.state, 'connected');
  opened[0].close(1006);
  clock.advance(SOON);
  answers[1].reject(new Error('no token'));
  await flush();
  assert.deepStrictEqual([made.state, made.closing], ['disconnected', { code: 1006, reason: 'no address', text: 'no token' }]);
  clock.advance(2 * SOON);
  made.disconnect();
  answers[2].resolve('ws://late');
  await flush();
  assert.deepStrictEqual([made.state, opened.length, closings.length], ['disconnected', 1, 3]);
  made.connect();
  clock.advance(20000);
  assert.deepStrictEqual([made.state, made.closing.reason], ['disconnected', 'timeout']);
  answers[3].resolve('ws://later');
  await flush();
  assert.strictEqual(opened.length, 1);
  made.close();
});

test('an awaited address that can\'t be opened fails the client', OPTIONS, async () => {
  const clock = new ManualClock();
  const wrong = class {
    constructor(address) {
      throw new SyntaxError(`no ${address}`);
    }
  };
  const made = new Client(async () => 'address', { WebSocket: wrong, clock });
  await flush();
  assert.deepStrictEqual([made.state, made.error.code, made.error.message], ['failed', 'ERR_UNREACHABLE', 'no address']);
});

test('a client that isn\'t allowed (1008) doesn\'t try again', OPTIONS, async () => {
  for (const isOpen of [true, false]) {
    const { client: made, clock, sockets, states } = client();
    const snapshot = made.snapshot('b', '1');
    if (isOpen) sockets.last().open();
    sockets.last().close(1008, 'no such user');
    clock.advance(1000000);
    assert.deepStrictEqual([made.state, made.error.code, sockets.opened.length], ['failed', 'ERR_FORBIDDEN', 1]);
    assert.deepStrictEqual(made.closing, { code: 1008, reason: 'forbidden', text: 'no such user' });
    assert.deepStrictEqual(states.slice(-2), ['disconnected', 'failed']);
    await assert.rejects(snapshot, { code: 'ERR_FORBIDDEN' });
    made.connect();
    assert.strictEqual(sockets.opened.length, 2);
  }
});

test('the network is there again: a client tries at once, and tests its connection', OPTIONS, () => {
  const listeners = new Set();
  globalThis.addEventListener = (name, listener) => name === 'online' && listeners.add(listener);
  globalThis.removeEventListener = (name, listener) => listeners.delete(listener);
  const online = () => listeners.forEach((listener) => listener());
  try {
    const { client: made, clock, closings, sockets } = client({ heartbeat: 20000 });
    assert.strictEqual(listeners.size, 1);
    online();
    assert.strictEqual(sockets.opened.length, 1);
    sockets.last().close(1006);
    online();
    assert.deepStrictEqual([made.state, sockets.opened.length], ['connecting', 2]);
    clock.advance(1000);
    assert.strictEqual(sockets.opened.length, 2);
    const socket = sockets.last();
    socket.open();
    online();
    assert.deepStrictEqual(socket.sent.slice(-1), [{ a: 'hs' }]);
    clock.advance(4999);
    assert.strictEqual(made.state, 'connected');
    clock.advance(1);
    assert.deepStrictEqual([made.state, closings.slice(-1)], ['disconnected', [[1000, 'silent']]]);
    made.disconnect();
    assert.strictEqual(listeners.size, 0);
    made.connect();
    assert.strictEqual(listeners.size, 1);
    made.close();
    assert.strictEqual(listeners.size, 0);
    assert.throws(() => new Client(() => assert.fail('no address'), { WebSocket: class {}, clock }), /no address/);
    assert.strictEqual(listeners.size, 0);
  } finally {
    delete globalThis.addEventListener;
    delete globalThis.removeEventListener;
  }
});

test('after a sleep the connection is tested for five seconds', OPTIONS, () => {
  for (const isThere of [true, false]) {
    const { client: made, clock, closings, sockets } = client();
    const socket = sockets.last();
    socket.open();
    clock.advance(20000);
    assert.strictEqual(socket.sent.length, 2);
    clock.time += 3600000; // the machine sleeps, and the answer to the last request is lost
    clock.advance(1);
    assert.deepStrictEqual([made.state, socket.sent.length], ['connected', 3]);
    if (isThere) socket.answer({ a: 'hs', id: 'me' });
    clock.advance(5000);
    assert.deepStrictEqual([made.state, closings], isThere ? ['connected', []] : ['disconnected', [[1000, 'silent']]]);
    if (isThere) assert.strictEqual(socket.sent.length, 4);
  }
});

test('an address that can\'t be opened: the first call throws, a later attempt fails the client', OPTIONS, () => {
  const clock = new ManualClock();
  let isWrong = true;
  const { WebSocket, last } = scripted();
  const address = () => {
    if (isWrong) throw new SyntaxError('no address');
    return 'ws://test';
  };
  assert.throws(() => new Client(address, { WebSocket, clock }), /no address/);
  isWrong = false;
  const made = new Client(address, { WebSocket, clock, random: () => 0 });
  const errors = [];
  made.on('error', ({ code, message }) => errors.push([code, message]));
  isWrong = true;
  last().close(1006);
  clock.advance(1000);
  assert.deepStrictEqual([made.state, errors], ['failed', [['ERR_UNREACHABLE', 'no address']]]);
});

test('each delay is twice the one before, up to the longest, and after so many attempts the client fails', OPTIONS, async () => {
  const { client: made, clock, closings, sockets, states } = client({ retryDelay: 8, longestDelay: 32, mostTries: 4 });
  const loading = made.document('b', '1').subscribe();
  const snapshot = made.snapshot('b', '2');
  const delays = [];
  while (made.state !== 'failed') {
    const began = clock.now();
    const { length } = sockets.opened;
    sockets.last().close(1006);
    while (made.state === 'disconnected' && sockets.opened.length === length) clock.advance(1);
    delays.push(clock.now() - began);
  }
  assert.deepStrictEqual(delays, [8, 16, 32, 32, 0]);
  assert.strictEqual(made.error.code, 'ERR_UNREACHABLE');
  assert.deepStrictEqual(states.slice(-2), ['disconnected', 'failed']);
  assert.deepStrictEqual(closings, Array(5).fill([1006, 'refused']));
  await assert.rejects(loading, { code: 'ERR_UNREACHABLE' });
  await assert.rejects(snapshot, { code: 'ERR_UNREACHABLE' });
  clock.advance(1000000);
  assert.strictEqual(sockets.opened.length, 5);
  made.connect();
  assert.deepStrictEqual([made.state, made.error], ['connecting', null]);
  sockets.last().close(1006);
  clock.advance(8);
  assert.strictEqual(sockets.opened.length, 7);
});

test('a delay is shortened at random: the first one by up to all of it, the others by up to a half', OPTIONS, () => {
  const { client: made, clock, sockets } = client({ random: () => 0.75 });
  const next = (delay) => {
    const { length } = sockets.opened;
    clock.advance(delay - 1);
    assert.strictEqual(sockets.opened.length, length);
    clock.advance(1);
    assert.strictEqual(sockets.opened.length, length + 1);
  };
  sockets.last().close(1006);
  next(250);
  sockets.last().close(1006);
  next(1250);
  sockets.last().open();
  clock.advance(4999);
  sockets.last().close(1006);
  next(2500);
  sockets.last().open();
  clock.advance(5000);
  sockets.last().close(1006);
  next(250);
  assert.strictEqual(made.state, 'connecting');
  const far = client({ longestDelay: 5, retryDelay: 7, heartbeat: 1e9 });
  far.sockets.last().close(1006);
  far.clock.advance(7);
  assert.strictEqual(far.sockets.opened.length, 2);
  for (let tries = 0; tries < 40; tries += 1) {
    far.sockets.last().close(1006);
    far.clock.advance(7);
  }
  assert.strictEqual(far.sockets.opened.length, 42);
  const plain = client({ connectTimeout: 1e9 });
  for (let tries = 0; tries < 8; tries += 1) {
    plain.sockets.last().close(1006);
    plain.clock.advance(30000);
  }
  plain.sockets.last().close(1006);
  plain.clock.advance(29999);
  assert.strictEqual(plain.sockets.opened.length, 9);
  plain.clock.advance(1);
  assert.strictEqual(plain.sockets.opened.length, 10);
});

test('a server that ends each connection after the handshake is tried with growing delays', OPTIONS, () => {
  const { client: made, clock, sockets } = client();
  made.document('b', '1').subscribe().catch(() => {});
  const opened = [];
  for (let second = 0; second < 600; second += 1) {
    if (made.state === 'connecting') {
      opened.push(second);
      sockets.last().open();
      sockets.last().close(1011);
    }
    clock.advance(1000);
  }
  assert.deepStrictEqual(opened.slice(0, 7), [0, 1, 3, 7, 15, 31, 61]);
  assert.strictEqual(opened.length, 24);
  const few = client({ mostTries: 2 });
  for (let tries = 0; tries < 3; tries += 1) {
    few.sockets.last().open();
    few.sockets.last().close(1011);
    few.clock.advance(2000);
  }
  assert.deepStrictEqual([few.client.state, few.client.error.code], ['failed', 'ERR_UNREACHABLE']);
});

test('an attempt without a handshake is given up', OPTIONS, () => {
  const { client: made, clock, closings, sockets, states } = client({ connectTimeout: 500 });
  sockets.last().answer({ a: 'init', id: 's1', protocol: 1 });
  clock.advance(499);
  assert.strictEqual(made.state, 'connecting');
  clock.advance(1);
  assert.deepStrictEqual([made.state, closings, sockets.last().isClosed], ['disconnected', [[1000, 'timeout']], true]);
  clock.advance(1000);
  sockets.last().open();
  clock.advance(500);
  assert.deepStrictEqual([made.state, states], ['connected', ['disconnected', 'connecting', 'connected']]);
  const plain = client();
  plain.clock.advance(19999);
  assert.strictEqual(plain.client.state, 'connecting');
  plain.clock.advance(1);
  assert.strictEqual(plain.client.state, 'disconnected');
});

test('a sign of life is requested every 20 seconds, and a silent server is given up', OPTIONS, () => {
  const { client: made, clock, closings, sockets } = client();
  const socket = sockets.last();
  socket.open();
  socket.sent.length = 0;
  clock.advance(19999);
  assert.deepStrictEqual(socket.sent, []);
  clock.advance(1);
  assert.deepStrictEqual(socket.sent, [{ a: 'hs' }]);
  socket.answer({ a: 'hs', id: 'me' });
  clock.advance(20000);
  assert.deepStrictEqual(socket.sent.length, 2);
  socket.answer({ a: 'hs', error: { code: 'ERR_OUT_OF_MEMORY', message: '' } });
  clock.advance(20000);
  assert.deepStrictEqual([socket.sent.length, made.state], [3, 'connected']);
  clock.advance(20000);
  assert.deepStrictEqual([made.state, closings, socket.isClosed], ['disconnected', [[1000, 'silent']], true]);
  clock.advance(1000);
  assert.strictEqual(made.state, 'connecting');
});

test('the reason of a close is passed to listeners', OPTIONS, () => {
  const reasons = [
    [1001, 'going away'], [1002, 'protocol'], [1007, 'protocol'], [1009, 'too long'], [1011, 'out of memory'], [1013, 'full'],
    [1006, 'lost'], [1000, 'lost'],
  ];
  for (const [code, reason] of reasons) {
    const { client: made, closings, sockets } = client();
    sockets.last().open();
    sockets.last().close(code, 'text');
    assert.deepStrictEqual(closings, [[code, reason]]);
    assert.deepStrictEqual(made.closing, { code, reason, text: 'text' });
  }
  for (const [code, reason] of [[1013, 'full'], [1006, 'refused'], [1000, 'refused']]) {
    const { client: made, sockets } = client();
    sockets.last().onclose({ code });
    assert.deepStrictEqual(made.closing, { code, reason, text: '' });
  }
  const { client: made, closings, sockets } = client();
  sockets.last().onclose();
  assert.deepStrictEqual([made.state, closings], ['disconnected', [[1006, 'refused']]]);
  made.connect();
  sockets.last().open();
  made.disconnect();
  assert.deepStrictEqual(closings[1], [1000, 'disconnected']);
});

test('events of an earlier socket are ignored', OPTIONS, () => {
  const { client: made, sockets } = client();
  const old = sockets.last();
  old.open();
  made.disconnect();
  made.connect();
  const next = sockets.last();
  old.onmessage({ data: 'nonsense' });
  old.onclose({ code: 1006 });
  old.onerror();
  assert.strictEqual(made.state, 'connecting');
  next.open();
  assert.strictEqual(made.state, 'connected');
});

test('what is no server of documents is left alone', OPTIONS, () => {
  const error = { code: 'ERR_MESSAGE_BADLY_FORMED', message: '' };
  const answers = [
    [(socket) => socket.onmessage({ data: 'hello' }), 'ERR_PROTOCOL'],
    [(socket) => socket.onmessage({ data: '[1]' }), 'ERR_PROTOCOL'],
    [(socket) => socket.onmessage({ data: 'null' }), 'ERR_PROTOCOL'],
    [(socket) => socket.answer({ a: 'news' }), 'ERR_PROTOCOL'],
    [(socket) => socket.answer({ a: 'init', id: 's1', protocol: 2 }), 'ERR_PROTOCOL'],
    [(socket) => socket.answer({ a: 'init', id: 's1', protocol: 1 }, { a: 'hs', error }), error.code],
    [(socket) => socket.answer({ error }), error.code],
    [(socket) => socket.open() || socket.answer({ a: 'op', ...ADDRESS, v: 'x', op: [] }), 'ERR_PROTOCOL'],
    [(socket) => socket.open() || socket.answer({ a: 'op', ...ADDRESS, v: -1, op: [] }), 'ERR_PROTOCOL'],
    [(socket) => socket.open() || socket.answer({ a: 'op', ...ADDRESS, v: 1, op: 5 }), 'ERR_PROTOCOL'],
    [(socket) => socket.open() || socket.answer({ a: 'op', error: 1 }), 'ERR_PROTOCOL'],
  ];
  for (const [answer, code] of answers) {
    const { client: made, clock, closings, sockets } = client();
    const errors = [];
    made.on('error', (told) => errors.push(told.code));
    answer(sockets.last());
    clock.advance(1000000);
    assert.deepStrictEqual([made.state, errors, sockets.opened.length], ['failed', [code], 1]);
    assert.deepStrictEqual([made.error.code, closings, sockets.last().isClosed], [code, [[1000, 'failed']], true]);
  }
});

test('messages that name no document, or none of this client, change nothing', OPTIONS, () => {
  const { client: made, sockets } = client();
  const errors = [];
  made.on('error', ({ code, message }) => errors.push([code, message]));
  sockets.last().open();
  sockets.last().answer({}, { a: null }, { a: 'op', c: 'x', d: 'y', v: 0, src: 'o', seq: 1, del: true }, { a: 'init', id: 's9' });
  sockets.last().answer({ a: 'x', error: { code: 'ERR_MESSAGE_BADLY_FORMED', message: 'no' } });
  // the answer to a sign of life, which is requested again in any case
  sockets.last().answer({ a: 'hs', error: { code: 'ERR_OUT_OF_MEMORY', message: 'no' } });
  assert.deepStrictEqual([made.state, errors], ['connected', [['ERR_MESSAGE_BADLY_FORMED', 'no']]]);
});

test('a failed client: edits stay, and are sent after the next `connect`', OPTIONS, async () => {
  const all = loaded('abc', { mostTries: 0 });
  const { client: made, doc, socket, sockets } = all;
  const edit = doc.submit(insert(3, 'd'));
  const [listing, fetching] = [doc.operations(), doc.fetch()];
  const snapshot = doc.snapshot();
  socket.close(1006);
  for (const one of [listing, fetching, snapshot]) await assert.rejects(one, { code: 'ERR_UNREACHABLE' });
  assert.deepStrictEqual([made.state, doc.pending], ['failed', 1]);
  made.connect();
  const next = sockets.last();
  next.open();
  compared(next);
  next.answer({ a: 's', ...ADDRESS });
  assert.strictEqual(next.taken().length, 2);
  next.answer(acknowledged(3, 1));
  assert.deepStrictEqual(await edit, { version: 3 });
  holds(doc, 4, 'abcd');
});

test('a failed client: createIfAbsent fails, subscriptions stay wanted', OPTIONS, async () => {
  const { client: made, doc, socket } = started({ mostTries: 0 });
  doc.fetch();
  socket.answer({ a: 'f', ...ADDRESS, data: { type: null, v: 0 } });
  const second = doc.createIfAbsent('y');
  socket.answer({ a: 'op', ...ADDRESS, seq: 1, src: 'me', error: { code: 'ERR_DOC_ALREADY_CREATED', message: '' } });
  await flush();
  const subscribing = doc.subscribe();
  socket.close(1006);
  await assert.rejects(second, { code: 'ERR_UNREACHABLE' });
  await assert.rejects(subscribing, { code: 'ERR_UNREACHABLE' });
  assert.deepStrictEqual([made.state, doc.wanted], ['failed', true]);
});

test('a failed client: what needs an answer fails at once, until the next `connect`', OPTIONS, async () => {
  const { client: made, doc, socket, sockets } = loaded('abc', { mostTries: 0 });
  socket.close(1006);
  assert.strictEqual(made.state, 'failed');
  const later = made.document('b', '2');
  const calls = [made.snapshot('b', '1'), made.snapshotAtTime('b', '1', 5)];
  for (const one of [doc, later]) {
    calls.push(one.fetch(), one.operations(0), one.snapshot(), one.snapshotAtTime(5), one.subscribe());
  }
  for (const call of calls) await assert.rejects(call, { code: 'ERR_UNREACHABLE' });
  assert.deepStrictEqual([doc.wanted, later.wanted, later.state], [true, true, 'offline']);
  made.connect();
  const fetching = later.fetch();
  const next = sockets.last();
  next.open();
  compared(next);
  next.answer({ a: 's', ...ADDRESS });
  assert.deepStrictEqual(next.taken(), [{ a: 's', ...ADDRESS, v: 3 }]);
  next.answer({ a: 's', c: 'b', d: '2', data: { data: 'new', v: 1 } });
  assert.strictEqual((await fetching).data, 'new');
  assert.strictEqual(next.taken().length, 0);
});

test('a client that has failed by the protocol: the calls fail with that code', OPTIONS, async () => {
  const { client: made, doc, socket } = loaded();
  socket.onmessage({ data: 'nonsense' });
  for (const call of [doc.fetch(), doc.subscribe(), doc.operations(), made.snapshot('b', '1')]) {
    await assert.rejects(call, { code: 'ERR_PROTOCOL' });
  }
});

test('a failed client: createIfAbsent fails if the create of another call waits', OPTIONS, async () => {
  const { doc, socket } = started({ mostTries: 0 });
  doc.fetch();
  socket.answer({ a: 'f', ...ADDRESS, data: { type: null, v: 0 } });
  socket.close(1006);
  const edit = doc.create('x');
  await assert.rejects(doc.createIfAbsent('y'), { code: 'ERR_UNREACHABLE' });
  assert.strictEqual(doc.pending, 1);
  doc.destroy({ discard: true });
  await assert.rejects(edit, { code: 'ERR_CLOSED' });
});

test('close ends the client and its documents: what waits is refused', OPTIONS, async () => {
  const { client: made, clock, doc, events, socket, sockets } = loaded();
  const states = [];
  made.on('state', (state) => states.push(state));
  const waiting = [doc.submit(insert(3, 'd')), doc.submit(insert(4, 'e')), doc.fetch(), doc.operations(), doc.snapshot(), doc.whenNothingPending()];
  const quiet = doc.destroy();
  let changes = 0;
  doc.on('change', () => (changes += 1));
  made.document('c', '2').on('change', () => (changes += 100));
  made.close();
  made.close();
  for (const one of waiting.slice(0, 5)) await assert.rejects(one, { code: 'ERR_CLOSED' });
  await waiting[5];
  await quiet;
  assert.deepStrictEqual([states, doc.state, doc.data, doc.pending], [['disconnected', 'closed'], 'closed', 'abc', 0]);
  assert.deepStrictEqual(events.map(([name, { contents }]) => [name, contents.length]), [['refused', 2]]);
  assert.deepStrictEqual([changes, doc.wanted], [1, false]);
  const leaving = loaded();
  const left = leaving.doc.unsubscribe();
  leaving.client.close();
  await left;
  assert.throws(() => made.connect(), { code: 'ERR_CLOSED' });
  assert.throws(() => made.document('b', '1'), { code: 'ERR_CLOSED' });
  await assert.rejects(made.snapshot('b', '1'), { code: 'ERR_CLOSED' });
  await assert.rejects(doc.subscribe(), { code: 'ERR_CLOSED' });
  await assert.rejects(doc.createIfAbsent(1), { code: 'ERR_CLOSED' });
  await doc.destroy();
  await doc.unsubscribe();
  clock.advance(1000000);
  assert.deepStrictEqual([sockets.opened.length, socket.isClosed, clock.timers], [1, true, []]);
});

test('a listener that connects while the client is closed: the connection stays closed', OPTIONS, () => {
  for (const event of ['state', 'close']) {
    const { client: made, clock, sockets, states } = client();
    const codes = [];
    made.on(event, () => {
      try {
        made.connect();
      } catch ({ code }) {
        codes.push(code);
      }
    });
    sockets.last().open();
    made.close();
    clock.advance(1000000);
    assert.deepStrictEqual([made.state, states.slice(-1), sockets.opened.length], ['closed', ['closed'], 1]);
    assert.strictEqual(sockets.last().isClosed, true);
    assert.ok(codes.length > 0 && codes.every((code) => code === 'ERR_CLOSED'));
    assert.deepStrictEqual(clock.timers, []);
  }
});

test('a listener that connects while the client fails: it tries again', OPTIONS, () => {
  for (const event of ['state', 'close', 'error']) {
    const { client: made, sockets } = client();
    sockets.last().open();
    made.once(event, () => made.connect());
    sockets.last().onmessage({ data: 'nonsense' });
    assert.deepStrictEqual([made.state, made.error, sockets.opened.length], ['connecting', null, 2]);
    assert.deepStrictEqual(sockets.opened.map(({ isClosed }) => isClosed), [true, false]);
    sockets.last().open();
    assert.strictEqual(made.state, 'connected');
  }
});

test('an edit is waiting after two seconds, with a connection or without', OPTIONS, () => {
  for (const isConnected of [true, false]) {
    const { client: made, clock, doc, socket, sockets } = loaded();
    const told = [];
    doc.on('waiting', ({ waiting }) => told.push([waiting, clock.now(), doc.waiting, made.waiting]));
    if (!isConnected) made.disconnect();
    doc.submit(insert(3, 'd'));
    clock.advance(1000);
    doc.submit(insert(0, 'e'));
    clock.advance(999);
    assert.deepStrictEqual([doc.waiting, made.waiting], [false, false]);
    clock.advance(1);
    assert.deepStrictEqual(told, [[true, 2000, true, true]]);
    clock.advance(5000);
    if (!isConnected) {
      made.connect();
      sockets.last().open();
      compared(sockets.last());
      sockets.last().answer({ a: 's', ...ADDRESS });
      sockets.last().answer(acknowledged(3, 1));
    } else {
      socket.answer(acknowledged(3, 1), acknowledged(4, 2));
    }
    assert.deepStrictEqual(told.slice(1), [[false, 7000, false, false]]);
  }
});

test('a document that is requested reports no waiting edit', OPTIONS, () => {
  const { client: made } = client({ connect: false });
  const doc = made.document('b', '1');
  let told = 0;
  doc.on('waiting', () => (told += 1));
  doc.subscribe();
  made.connect();
  assert.strictEqual(told, 0);
});

test('an edit that is stored in time isn\'t waiting', OPTIONS, () => {
  const { clock, doc, socket } = loaded();
  let told = 0;
  doc.on('waiting', () => (told += 1));
  for (let at = 0; at < 4; at += 1) {
    doc.submit(insert(0, 'x'));
    clock.advance(1500);
    doc.submit(insert(0, 'y'));
    socket.answer(acknowledged(3 + 2 * at, 2 * at + 1));
    clock.advance(1500);
    socket.answer(acknowledged(4 + 2 * at, 2 * at + 2));
  }
  assert.deepStrictEqual([told, doc.pending], [0, 0]);
  clock.advance(10000);
  assert.strictEqual(told, 0);
});

test('a document that is requested while the client is connected', OPTIONS, () => {
  const all = started();
  const other = all.client.document('c', '2');
  assert.strictEqual(other.state, 'idle');
  other.subscribe();
  assert.deepStrictEqual(all.socket.taken(), [{ a: 's', c: 'c', d: '2', v: null }]);
  const next = reconnected(all);
  assert.deepStrictEqual(next.taken(), [{ a: 's', c: 'c', d: '2', v: null }]);
});

test('a listener of `state` that requests a document is served once', OPTIONS, () => {
  const { client: made, sockets } = client();
  made.on('state', (state) => state === 'connected' && made.document('c', '2').subscribe());
  sockets.last().open();
  assert.deepStrictEqual(sockets.last().taken(), [{ a: 's', c: 'c', d: '2', v: null }]);
});

test('a snapshot is requested once over each connection', OPTIONS, async () => {
  const { client: made, clock, sockets } = client();
  const snapshot = made.snapshot('b', '1');
  sockets.last().open();
  const [sent] = sockets.last().taken();
  assert.deepStrictEqual(sent, { a: 'nf', c: 'b', d: '1', v: null, id: 1 });
  sockets.last().close(1006);
  clock.advance(SOON);
  sockets.last().open();
  assert.deepStrictEqual(sockets.last().taken(), [sent]);
  sockets.last().answer({ a: 'nf', id: 1, v: 0, type: null });
  assert.deepStrictEqual(await snapshot, { version: 0, data: undefined });
});

test('disconnect ends the wait for the next attempt, and a failure all timers', OPTIONS, () => {
  const { client: made, clock, sockets } = client();
  sockets.last().close(1006);
  made.disconnect();
  clock.advance(1000000);
  assert.deepStrictEqual([made.state, sockets.opened.length, clock.timers], ['disconnected', 1, []]);
  made.connect();
  sockets.last().open();
  sockets.last().onmessage({ data: 'nonsense' });
  assert.deepStrictEqual([made.state, clock.timers], ['failed', []]);
});

test('an attempt after an open connection may be refused', OPTIONS, () => {
  const { clock, closings, sockets } = client();
  sockets.last().open();
  sockets.last().close(1006);
  clock.advance(1000);
  sockets.last().close(1006);
  assert.deepStrictEqual(closings, [[1006, 'lost'], [1006, 'refused']]);
});

test('a listener disconnects while the documents begin: the others stay offline', OPTIONS, () => {
  const all = loaded();
  const other = all.client.document(ADDRESS.c, '2');
  other.subscribe();
  all.socket.close(1006);
  all.clock.advance(SOON);
  // the connection is complete at the time at which the edit waits for too long
  all.clock.setTimeout(() => all.sockets.last().open(), 2000);
  all.doc.submit(insert(3, 'd'));
  all.doc.on('waiting', () => all.client.disconnect());
  all.clock.advance(2000);
  assert.deepStrictEqual([all.client.state, all.doc.state, other.state], ['disconnected', 'offline', 'offline']);
});
