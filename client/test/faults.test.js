/* Edits that were lost or misplaced once: each case is one reproduction, at the model's server. */

import assert from 'node:assert';
import { test } from 'node:test';
import { Client, apply } from '../src/index.js';
import { OPTIONS } from './support/options.js';
import { ManualClock, flush } from './support/clock.js';
import { Net } from './support/net.js';
import {
  ADDRESS, acknowledged, compared, holds, insert, loaded, namesOf, reconnected, refused, scripted, started, stored,
} from './support/scripted.js';

// Returns two subscribed clients of a document.
async function pair(data) {
  const net = new Net();
  const [ada, ben] = [net.client('ada'), net.client('ben')];
  ada.doc.subscribe();
  ben.doc.subscribe();
  net.deliver();
  ada.doc.create(data);
  net.deliver();
  await flush();
  return { net, ada, ben };
}

// Delivers what the second client has sent, so that it is stored first.
function storeFirst(net) {
  const link = net.links[1];
  while (link.up.length > 0) net.up(link);
}

test('subscribe, unsubscribe, subscribe before the first answer: the document is subscribed to', OPTIONS, async () => {
  const { net, ben } = await pair({ n: 0 });
  const { doc } = net.client('cid');
  const first = doc.subscribe();
  net.deliver();
  const all = [first, doc.unsubscribe(), doc.subscribe(), doc.unsubscribe(), doc.subscribe()];
  await net.settle();
  assert.strictEqual(await all[4], doc);
  const cold = net.client('dan').doc;
  await assert.rejects(Promise.all([cold.subscribe(), cold.unsubscribe()]), { code: 'ERR_CLOSED' });
  const second = cold.subscribe();
  await net.settle();
  await second;
  for (let made = 0; made < 3; made += 1) ben.doc.submit([{ p: ['n'], na: 1 }]);
  await net.settle();
  for (const one of [doc, cold]) {
    assert.deepStrictEqual([one.version, one.data, one.wanted], [ben.doc.version, { n: 3 }, true]);
  }
});

test('an edit by a listener of `refused` or `restarted` is refused while the document is loaded anew', OPTIONS, async () => {
  for (const event of ['refused', 'restarted', 'change']) {
    const net = new Net();
    const { client, doc } = net.client('ada');
    doc.subscribe();
    net.deliver();
    doc.create({ n: 1 });
    net.deliver();
    client.disconnect();
    doc.submit([{ p: ['n'], na: 5 }]);
    let edit = null;
    doc.once(event, () => {
      edit = doc.submit([{ p: ['n'], na: 1000 }]);
      edit.catch(() => {});
    });
    net.restart();
    const other = net.client('other').doc;
    other.subscribe();
    net.deliver();
    other.create({ n: -7 });
    net.deliver();
    client.connect();
    await net.settle();
    await assert.rejects(edit, { code: 'ERR_NOT_LOADED' });
    holds(doc, 1, { n: -7 });
    assert.deepStrictEqual(net.stored.data[1], { n: -7 });
  }
});

test('remove and create concurrently with an edit of another client: both are stored', OPTIONS, async () => {
  const { net, ada, ben } = await pair({ n: 0 });
  const told = [];
  ada.doc.on('refused', (detail) => told.push(detail));
  ben.doc.submit([{ p: ['n'], na: 1 }]);
  const edits = [ada.doc.remove(), ada.doc.create({ n: 100 }), ada.doc.submit([{ p: ['n'], na: 1 }])];
  storeFirst(net);
  await net.settle();
  assert.deepStrictEqual(await Promise.all(edits), [{ version: 2 }, { version: 3 }, { version: 4 }]);
  for (const { doc } of [ada, ben]) holds(doc, 5, { n: 101 });
  assert.deepStrictEqual(told, []);
});

test('a delete that others\' inserts split into 301 components is sent in parts', OPTIONS, async () => {
  const { net, ada, ben } = await pair({ t: 'x'.repeat(1000), u: '' });
  ada.client.disconnect();
  const own = [[{ p: ['t', 0], sd: 'x'.repeat(1000) }], [{ p: ['u', 0], si: 'y'.repeat(65000) }]];
  const edits = own.map((operation) => ada.doc.submit(operation));
  for (let at = 0; at < 300; at += 1) {
    ben.doc.submit([{ p: ['t', 4 * at + 1], si: '-' }]);
    net.deliver();
  }
  ada.client.connect();
  await net.settle();
  const [gone] = await Promise.all(edits);
  for (const { doc } of [ada, ben]) assert.deepStrictEqual(doc.data, { t: '-'.repeat(300), u: 'y'.repeat(65000) });
  const parts = net.stored.log.filter(({ src, content }) => src === 'ada' && content.op);
  assert.deepStrictEqual(parts.map(({ content }) => content.op.length), [256, 45, 1]);
  assert.strictEqual(gone.version, parts[1].v);
});

test('a part that is refused: the rest is dropped with it', OPTIONS, async () => {
  const { net, ada, ben } = await pair({ t: 'x'.repeat(600) });
  const told = [];
  ada.doc.on('refused', ({ contents }) => told.push(contents.length));
  ada.client.disconnect();
  const edit = ada.doc.submit([{ p: ['t', 0], sd: 'x'.repeat(600) }]);
  for (let at = 0; at < 300; at += 1) ben.doc.submit([{ p: ['t', 2 * at + 1], si: '-' }]);
  net.deliver();
  ada.client.connect();
  const link = net.links[net.links.length - 1];
  for (let step = 0; step < 4; step += 1) {
    while (link.up.length > 0) net.up(link);
    while (link.down.length > 0 && ada.doc.pending < 2) net.down(link);
  }
  assert.strictEqual(ada.doc.pending, 2);
  link.down.length = 0;
  link.onmessage({ data: JSON.stringify({ ...ADDRESS, a: 'op', src: 'ada', seq: 2, error: { code: 'ERR_LIMIT', message: '' } }) });
  await assert.rejects(edit, { code: 'ERR_LIMIT' });
  assert.deepStrictEqual([told, ada.doc.pending], [[2], 0]);
});

test('a removed value that grows beyond a message is sent as null', OPTIONS, async () => {
  const { net, ada, ben } = await pair({ t: 'x', k: { deep: '' }, l: [''] });
  ada.client.disconnect();
  const edits = [ada.doc.submit([{ p: ['k'], od: null, oi: 1 }]), ada.doc.submit([{ p: ['l', 0], ld: null }])];
  for (let made = 0; made < 3; made += 1) {
    ben.doc.submit([{ p: ['k', 'deep', 0], si: 'a'.repeat(500000) }]);
    net.deliver();
    ben.doc.submit([{ p: ['l', 0, 0], si: 'é'.repeat(250000) }]);
    net.deliver();
  }
  ada.client.connect();
  await net.settle();
  await Promise.all(edits);
  for (const { doc } of [ada, ben]) assert.deepStrictEqual(doc.data, { t: 'x', k: 1, l: [] });
  const { op } = net.stored.log[net.stored.log.length - 1].content;
  assert.deepStrictEqual(op, [{ p: ['k'], od: null, oi: 1 }, { p: ['l', 0], ld: null }]);
});

test('a member of two megabytes, or of 60 levels, is replaced', OPTIONS, async () => {
  const { net, ada, ben } = await pair({ t: '', k: {}, l: [] });
  for (let made = 0; made < 3; made += 1) {
    ben.doc.submit([{ p: ['t', 0], si: 'a'.repeat(700000) }]);
    net.deliver();
  }
  const path = ['k'];
  let inner = [{ p: ['l', 0], li: [] }];
  for (let made = 0; made < 2; made += 1) {
    let deep = {};
    for (let depth = 0; depth < 30; depth += 1) deep = { a: deep };
    inner = [{ p: [...path, 'a'], oi: deep }];
    path.push(...Array(30).fill('a'));
    ben.doc.submit(inner);
    net.deliver();
  }
  const edits = [[{ p: ['t'], oi: 'short' }], [{ p: ['k'], oi: 1 }], [{ p: ['l', 0], li: 1 }]].map((op) => ada.doc.submit(op));
  await net.settle();
  await Promise.all(edits);
  for (const { doc } of [ada, ben]) assert.deepStrictEqual(doc.data, { t: 'short', k: 1, l: [1] });
});

test('a text of more than a message that was deleted offline is sent in parts', OPTIONS, async () => {
  const { net, ada, ben } = await pair({ t: '' });
  ada.client.disconnect();
  const half = '😀'.repeat(130000);
  for (let made = 0; made < 2; made += 1) {
    ben.doc.submit([{ p: ['t', 0], si: half }]);
    net.deliver();
  }
  ada.client.connect();
  await net.settle();
  ada.client.disconnect();
  const edit = ada.doc.submit([{ p: ['t', 0], sd: half.slice(2) }]);
  for (let at = 0; at < 20; at += 1) {
    ben.doc.submit([{ p: ['t', 1000 * at + 2], si: '-'.repeat(100) }]);
    net.deliver();
  }
  ada.client.connect();
  await net.settle();
  await edit;
  assert.deepStrictEqual(ada.doc.data, ben.doc.data);
  assert.strictEqual(ada.doc.data.t.length, 260002 + 2000);
});

test('a delete that others\' inserts make too long for a message is sent in parts', OPTIONS, async () => {
  const { net, ada, ben } = await pair({ t: '' });
  for (let made = 0; made < 2; made += 1) {
    ben.doc.submit([{ p: ['t', 0], si: 'x'.repeat(523000) }]);
    net.deliver();
  }
  ada.client.disconnect();
  const edit = ada.doc.submit([{ p: ['t', 0], sd: 'x'.repeat(1046000) }]);
  for (let at = 0; at < 150; at += 1) ben.doc.submit([{ p: ['t', 5 * at + 1], si: '-' }]);
  net.deliver();
  ada.client.connect();
  await net.settle();
  await edit;
  for (const { doc } of [ada, ben]) assert.strictEqual(doc.data.t, '-'.repeat(150));
});

test('`refused` names the edits that aren\'t stored only', OPTIONS, async () => {
  const { net, ada, ben } = await pair({ n: 0, k: { deep: Number.MAX_SAFE_INTEGER - 1 } });
  const told = [];
  ada.doc.on('refused', ({ contents }) => told.push(...contents));
  const edits = [[{ p: ['n'], na: 1 }], [{ p: ['k', 'deep'], na: 1 }], [{ p: ['n'], na: 5 }]].map((op) => ada.doc.submit(op));
  ben.doc.submit([{ p: ['k', 'deep'], na: 1 }]);
  storeFirst(net);
  await net.settle();
  assert.deepStrictEqual(await edits[0], { version: 2 });
  for (const edit of edits.slice(1)) await assert.rejects(edit, { code: 'ERR_OT_OP_NOT_APPLIED' });
  assert.deepStrictEqual(told, [{ op: [{ p: ['k', 'deep'], na: 1 }, { p: ['n'], na: 5 }] }]);
  for (const { doc } of [ada, ben]) holds(doc, 3, { n: 1, k: { deep: Number.MAX_SAFE_INTEGER } });
});

test('a transform that is refused drops the edits from there on', OPTIONS, async () => {
  const { net, ada, ben } = await pair({ l: [], t: '' });
  const far = Number.MAX_SAFE_INTEGER;
  const { doc } = ada;
  const told = [];
  doc.on('refused', ({ error, contents }) => told.push([error.code, contents]));
  const edits = [doc.submit([{ p: ['t', 0], si: 'a' }]), doc.remove(), doc.create({ l: [] })];
  ben.doc.remove();
  ben.doc.create({ other: far });
  storeFirst(net);
  await net.settle();
  for (const edit of edits) await assert.rejects(edit, { name: 'Refusal' });
  assert.deepStrictEqual(told.map(([code, contents]) => [code, contents.length]), [['ERR_DOC_WAS_DELETED', 3]]);
  holds(doc, 3, { other: far });
});

test('an own `oi` of a key that is there: `op` names what happens to `data`', OPTIONS, async () => {
  const cases = [
    [{ t: 'old title' }, [{ p: ['t'], oi: 'new' }], [{ p: ['t', 3], si: ' (draft)' }], { t: 'new' }],
    [{ t: 'old title' }, [{ p: ['t', 9], si: ' (draft)' }], [{ p: ['t'], oi: 'a new title' }], { t: 'a new title' }],
    [{}, [{ p: ['k'], od: null }], [{ p: ['k'], oi: 1 }], { k: 1 }],
    [{ k: 5 }, [{ p: ['k'], od: 'not it' }, { p: ['k'], od: 1, oi: 2 }], [{ p: ['k'], na: 1 }], { k: 2 }],
    [{ l: [[1]] }, [{ p: ['l', 0], ld: 'not it', li: 2 }], [{ p: ['l', 0, 0], li: 0 }], { l: [2] }],
  ];
  for (const [data, own, other, end] of cases) {
    const { net, ada, ben } = await pair(data);
    let mirror = data;
    ada.doc.on('op', ({ operation }) => (mirror = apply(mirror, operation)));
    ada.doc.on('change', ({ operation }) => assert.notStrictEqual(operation, null));
    ada.doc.submit(own);
    ben.doc.submit(other);
    storeFirst(net);
    await net.settle();
    for (const { doc } of [ada, ben]) assert.deepStrictEqual(doc.data, end);
    assert.deepStrictEqual(mirror, end);
  }
});

test('`submit` completes `od` and `ld` by the document', OPTIONS, () => {
  const { doc, socket } = loaded({ k: { a: 1 }, l: [5, [6]] });
  doc.submit([
    { p: ['k', 'a'], oi: 2 },
    { p: ['k', 'a'], od: 'wrong' },
    { p: ['k', 'a'], od: 'none' },
    { p: ['k', 'b'], od: 'none', oi: 3 },
    { p: ['l', 1], ld: 'wrong', li: 7 },
    { p: ['l', 0], ld: 'wrong' },
    { p: ['l', 0], li: 8 },
  ]);
  assert.deepStrictEqual(socket.taken()[0].op, [
    { p: ['k', 'a'], od: 1, oi: 2 },
    { p: ['k', 'a'], od: 2 },
    { p: ['k', 'b'], oi: 3 },
    { p: ['l', 1], ld: [6], li: 7 },
    { p: ['l', 0], ld: 5 },
    { p: ['l', 0], li: 8 },
  ]);
});

test('an edit that changes nothing is not sent', OPTIONS, async () => {
  const { doc, socket } = loaded({});
  let changes = 0;
  doc.on('change', () => (changes += 1));
  assert.deepStrictEqual(await doc.submit([{ p: ['k'], od: 1 }]), { version: null });
  assert.deepStrictEqual([socket.taken(), changes, doc.pending], [[], 0, 0]);
});

test('another client\'s `oi` without `od`: `data` is right, and `change` names no operation', OPTIONS, () => {
  const { doc, socket } = loaded({ t: 'old', n: 0 });
  const told = [];
  doc.on('change', ({ operation, data }) => told.push([operation, data]));
  doc.submit([{ p: ['t', 3], si: '!' }]);
  socket.answer(stored(3, [{ p: ['t'], oi: 'new' }]));
  assert.deepStrictEqual(doc.data, { t: 'new!', n: 0 });
  assert.deepStrictEqual(told[1], [null, { t: 'new!', n: 0 }]);
  socket.answer(acknowledged(4, 1));
  holds(doc, 5, { t: 'new!', n: 0 });
  socket.answer(stored(5, [{ p: ['t'], oi: 'newer' }]), stored(6, [{ p: ['n'], na: 1 }]));
  holds(doc, 7, { t: 'newer', n: 1 });
  assert.deepStrictEqual(told.slice(2).map(([operation]) => operation && operation.length), [1, 1]);
});

test('an acknowledgement before an operation that refuses a queued edit', OPTIONS, async () => {
  const { doc, events, socket } = loaded({ n: 0, k: { deep: Number.MAX_SAFE_INTEGER - 1 } });
  const first = doc.submit([{ p: ['n'], na: 1 }]);
  const second = doc.submit([{ p: ['k', 'deep'], na: 1 }]);
  socket.answer(acknowledged(4, 1), stored(3, [{ p: ['k', 'deep'], na: 1 }]));
  assert.deepStrictEqual(await first, { version: 4 });
  await assert.rejects(second, { code: 'ERR_OT_OP_NOT_APPLIED' });
  socket.answer(stored(5, [{ p: ['n'], na: 10 }]));
  holds(doc, 6, { n: 11, k: { deep: Number.MAX_SAFE_INTEGER } });
  assert.deepStrictEqual(namesOf(events), ['refused', 'stored']);
});

test('an acknowledgement before an operation that refuses the acknowledged one: its content is requested', OPTIONS, async () => {
  const { doc, events, socket } = loaded({ n: Number.MAX_SAFE_INTEGER - 1 });
  const edits = [doc.submit([{ p: ['n'], na: 1 }]), doc.submit([{ p: ['k'], oi: 1 }])];
  socket.answer(acknowledged(4, 1), stored(3, [{ p: ['n'], na: 1 }]));
  assert.deepStrictEqual(await edits[0], { version: 4 });
  await assert.rejects(edits[1], { name: 'Refusal' });
  socket.answer(stored(3, [{ p: ['n'], na: 1 }]), stored(4, [{ p: ['o'], oi: 1 }], 'me', 1), { a: 's', ...ADDRESS });
  holds(doc, 5, { n: Number.MAX_SAFE_INTEGER, o: 1 });
  assert.deepStrictEqual(namesOf(events), ['refused']);
});

// The server decides the first submission after it has answered the next connection.
function reconnectedWhileDeciding(isSubscribed) {
  const all = isSubscribed ? loaded() : started();
  const { doc, socket } = all;
  if (!isSubscribed) {
    doc.fetch();
    socket.answer({ a: 'f', ...ADDRESS, data: { data: 'abc', v: 3 } });
  }
  const edit = doc.submit(insert(3, 'd'));
  const [sent] = socket.taken().slice(-1);
  const next = reconnected(all);
  compared(next);
  next.taken();
  next.answer({ a: isSubscribed ? 's' : 'f', ...ADDRESS });
  assert.deepStrictEqual(next.taken(), [sent]);
  return { ...all, edit, next };
}

test('a reconnect while the first submission is being decided: the duplicate\'s acknowledgement is early', OPTIONS, async () => {
  for (const isSubscribed of [true, false]) {
    const { doc, edit, events, next } = reconnectedWhileDeciding(isSubscribed);
    next.answer(acknowledged(5, 1));
    assert.deepStrictEqual([doc.version, doc.pending], [3, 1]);
    const a = isSubscribed ? 's' : 'f';
    assert.deepStrictEqual(next.taken(), [{ a, ...ADDRESS, v: 3 }]);
    next.answer(stored(3, insert(0, 'x')), stored(4, insert(0, 'y')), stored(5, insert(5, 'd'), 'me', 1), { a, ...ADDRESS });
    assert.deepStrictEqual(await edit, { version: 5 });
    holds(doc, 6, 'yxabcd');
    assert.ok(!namesOf(events).includes('healed'));
  }
});

test('a reconnect while the first submission is being decided: the stored operation counts as acknowledgement', OPTIONS, async () => {
  const { doc, edit, next } = reconnectedWhileDeciding(true);
  next.answer(stored(3, insert(0, 'x')), stored(4, insert(4, 'd'), 'me', 1));
  assert.deepStrictEqual(await edit, { version: 4 });
  holds(doc, 5, 'xabcd');
  next.answer(acknowledged(4, 1));
  holds(doc, 5, 'xabcd');
  doc.submit(insert(0, 'z'));
  assert.strictEqual(next.taken().length, 1);
});

test('the stored form of an own operation differs from the client\'s, and its document doesn\'t: it is stored', OPTIONS, () => {
  const { doc, events, socket } = loaded();
  doc.submit(insert(3, 'de'));
  doc.submit(insert(5, 'f'));
  socket.answer(stored(3, [...insert(3, 'e'), ...insert(3, 'd')], 'me', 1));
  assert.deepStrictEqual([doc.confirmed, doc.data, namesOf(events)], ['abcde', 'abcdef', ['stored']]);
});

test('a document, a client and an emitter work through a proxy', OPTIONS, async () => {
  // (as a framework with reactive objects makes them, which also wraps each object that it returns)
  const reactive = (target) => new Proxy(target, {
    get(object, key, receiver) {
      const value = Reflect.get(object, key, receiver);
      return value !== null && typeof value === 'object' && !(value instanceof Promise) ? reactive(value) : value;
    },
  });
  const sockets = scripted();
  const options = { source: 'me', WebSocket: sockets.WebSocket, clock: new ManualClock(), batch: false };
  const client = reactive(new Client('ws://test', options));
  const doc = reactive(client.document(ADDRESS.c, ADDRESS.d));
  const told = [];
  doc.on('op', ({ local }) => told.push(local));
  doc.once('load', () => told.push('load'));
  const subscribing = doc.subscribe();
  const socket = sockets.last();
  socket.open();
  socket.answer({ a: 's', ...ADDRESS, data: { data: { l: [1] }, v: 3 } });
  await subscribing;
  const edit = doc.submit([{ p: ['l', 1], li: 2 }]);
  assert.deepStrictEqual([doc.pending, doc.source, doc.wanted, doc.state, doc.waiting], [1, 'me', true, 'live', false]);
  socket.answer(acknowledged(3, 1), stored(4, [{ p: ['l', 0], ld: 1 }]));
  assert.deepStrictEqual(await edit, { version: 3 });
  assert.deepStrictEqual([doc.data.l.length, told, client.state], [1, ['load', true, false], 'connected']);
  client.close();
  assert.strictEqual(doc.state, 'closed');
});

test('a listener of `state` that disconnects at `connected`: the next connection works', OPTIONS, async () => {
  const sockets = scripted();
  const client = new Client('ws://test', { source: 'me', WebSocket: sockets.WebSocket, clock: new ManualClock() });
  const doc = client.document(ADDRESS.c, ADDRESS.d);
  doc.subscribe();
  const stop = client.on('state', (state) => state === 'connected' && client.disconnect());
  sockets.last().open();
  stop();
  assert.deepStrictEqual([client.state, doc.state], ['disconnected', 'offline']);
  client.connect();
  const next = sockets.last();
  next.open();
  assert.deepStrictEqual(next.taken(), [{ a: 's', ...ADDRESS, v: null }]);
  next.answer({ a: 's', ...ADDRESS, data: { data: 'abc', v: 3 } });
  holds(doc, 3, 'abc');
});

test('a fetch in a listener of `state` is sent once', OPTIONS, async () => {
  const sockets = scripted();
  const client = new Client('ws://test', { source: 'me', WebSocket: sockets.WebSocket, clock: new ManualClock() });
  const doc = client.document(ADDRESS.c, ADDRESS.d);
  let fetching = null;
  client.on('state', (state) => state === 'connected' && (fetching = doc.fetch()));
  const socket = sockets.last();
  socket.open();
  assert.deepStrictEqual(socket.taken(), [{ a: 'f', ...ADDRESS }]);
  const listing = doc.operations(2);
  socket.answer({ a: 'f', ...ADDRESS, data: { data: 'abc', v: 3 } }, stored(2, insert(0, 'c')), { a: 'f', ...ADDRESS });
  await fetching;
  assert.strictEqual((await listing).length, 1);
});

test('a refused paste changes nothing, and the next letter is stored', OPTIONS, async () => {
  const { doc, socket } = loaded();
  await assert.rejects(doc.submit(insert(3, 'x'.repeat(1200000))), { code: 'ERR_MESSAGE_BADLY_FORMED', message: /1200\d+ bytes/ });
  doc.submit(insert(3, 'd'));
  socket.answer(acknowledged(3, 1));
  holds(doc, 4, 'abcd');
});

test('3,000 edits that were made offline and 300 of others are merged in three seconds', OPTIONS, async () => {
  const { clock, client, doc, socket, sockets } = loaded({ l: [] });
  socket.taken();
  client.disconnect();
  for (let at = 0; at < 3000; at += 1) doc.submit([{ p: ['l', at], li: { id: at, title: `item ${at}` } }]);
  client.connect();
  const next = sockets.last();
  next.open();
  compared(next, { l: [] });
  const began = process.cpuUsage();
  for (let at = 0; at < 300; at += 1) next.answer(stored(3 + at, [{ p: ['l', 0], li: 'x' }]));
  next.answer({ a: 's', ...ADDRESS });
  const { user, system } = process.cpuUsage(began);
  assert.deepStrictEqual([doc.version, doc.data.l.length, doc.confirmed.l.length], [303, 3300, 300]);
  assert.ok(user + system < 3000000, `${(user + system) / 1000} ms of processor time`);
  clock.advance(1);
});

test('an edit that was refused by a server without a reason in the log doesn\'t stop the next ones', OPTIONS, async () => {
  const { doc, socket } = loaded();
  const first = doc.submit(insert(3, 'd'));
  socket.answer(refused('op', 'ERR_OT_OP_NOT_APPLIED', { src: 'me', seq: 1 }));
  await assert.rejects(first, { code: 'ERR_OT_OP_NOT_APPLIED' });
  const second = doc.submit(insert(3, 'e'));
  socket.answer({ a: 'f', ...ADDRESS, data: { data: 'abc', v: 3 } }, acknowledged(3, 2));
  assert.deepStrictEqual(await second, { version: 3 });
  holds(doc, 4, 'abce');
});
