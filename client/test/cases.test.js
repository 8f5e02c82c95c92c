/* The client against a scripted server: late, duplicate, reordered and refused messages, and each call. */

import assert from 'node:assert';
import { test } from 'node:test';
import { Client } from '../src/index.js';
import { bytesOf } from '../src/limits.js';
import { Machine } from '../src/machine.js';
import { flush } from './support/clock.js';
import { OPTIONS } from './support/options.js';
import {
  ADDRESS, SOON, absent, acknowledged, compared, holds, insert, loaded, namesOf, reconnected, refused, scripted,
  started, stored, storedCreate, storedDelete,
} from './support/scripted.js';

const NEWER = 'ERR_OP_VERSION_NEWER_THAN_CURRENT_SNAPSHOT';

test('an own edit is shown at once, and stored when it is acknowledged', OPTIONS, () => {
  const { doc, socket } = loaded();
  doc.submit(insert(3, 'd'));
  assert.strictEqual(doc.data, 'abcd');
  assert.strictEqual(doc.pending, 1);
  assert.deepStrictEqual(socket.taken(), [{ a: 'op', ...ADDRESS, v: 3, src: 'me', seq: 1, op: insert(3, 'd') }]);
  socket.answer(acknowledged(3, 1));
  holds(doc, 4, 'abcd');
});

test('missed operations are received before the acknowledgement, and again afterwards', OPTIONS, () => {
  const { doc, socket } = loaded();
  doc.submit(insert(0, 'me'));
  socket.answer(stored(3, insert(0, 'x')), acknowledged(4, 1), stored(3, insert(0, 'x')), stored(5, insert(0, 'y')));
  holds(doc, 6, 'ymexabc');
});

test('an acknowledgement is kept until the operations before it are received', OPTIONS, () => {
  const { doc, socket } = loaded();
  doc.submit(insert(3, 'd'));
  socket.taken();
  socket.answer(acknowledged(5, 1), stored(4, insert(0, 'y')));
  assert.deepStrictEqual([doc.version, doc.data, doc.pending], [3, 'abcd', 1]);
  assert.deepStrictEqual(socket.taken(), [{ a: 's', ...ADDRESS, v: 3 }]);
  socket.answer(stored(3, insert(0, 'x')));
  holds(doc, 6, 'yxabcd');
  socket.answer(stored(3, insert(0, 'x')), stored(4, insert(0, 'y')), stored(5, insert(5, 'd'), 'me', 1), { a: 's', ...ADDRESS });
  holds(doc, 6, 'yxabcd');
  assert.deepStrictEqual(socket.taken(), []);
});

test('one operation is in flight, the next ones are composed and sent afterwards', OPTIONS, () => {
  const { doc, socket } = loaded();
  for (const [at, letter] of [...'defg'].entries()) doc.submit(insert(3 + at, letter));
  assert.strictEqual(socket.taken().length, 1);
  assert.strictEqual(doc.pending, 2);
  socket.answer(stored(3, insert(0, 'x')), acknowledged(4, 1));
  assert.deepStrictEqual(socket.taken(), [{ a: 'op', ...ADDRESS, v: 5, src: 'me', seq: 2, op: insert(5, 'efg') }]);
  socket.answer(acknowledged(5, 2));
  holds(doc, 6, 'xabcdefg');
});

test('with preventCompose each operation is sent by itself', OPTIONS, () => {
  const { doc, socket } = loaded();
  assert.strictEqual(doc.preventCompose, false);
  doc.preventCompose = true;
  assert.strictEqual(doc.preventCompose, true);
  for (const [at, letter] of [...'def'].entries()) doc.submit(insert(3 + at, letter));
  assert.strictEqual(doc.pending, 3);
  socket.taken();
  socket.answer(stored(3, insert(0, 'x')), acknowledged(4, 1));
  assert.deepStrictEqual(socket.taken(), [{ a: 'op', ...ADDRESS, v: 5, src: 'me', seq: 2, op: insert(5, 'e') }]);
  doc.preventCompose = false;
  doc.submit(insert(7, 'g'));
  socket.answer(acknowledged(5, 2));
  assert.deepStrictEqual(socket.taken(), [{ a: 'op', ...ADDRESS, v: 6, src: 'me', seq: 3, op: insert(6, 'fg') }]);
  socket.answer(acknowledged(6, 3));
  holds(doc, 7, 'xabcdefg');
});

test('after a reconnect the same message is sent again, and stored once', OPTIONS, () => {
  const all = loaded();
  const { doc, events, socket } = all;
  doc.submit(insert(3, 'd'));
  const [sent] = socket.taken();
  const next = reconnected(all);
  compared(next);
  assert.deepStrictEqual(next.taken(), [{ a: 's', ...ADDRESS, v: 3 }]);
  next.answer(stored(3, insert(0, 'x')), { a: 's', ...ADDRESS });
  assert.deepStrictEqual(next.taken(), [sent]);
  next.answer(acknowledged(4, 1));
  holds(doc, 5, 'xabcd');
  assert.deepStrictEqual(events, [['stored', { version: 4, source: 'me', seq: 1 }]]);
});

test('an operation that was stored before the connection was lost is received as a stored one', OPTIONS, () => {
  const all = loaded();
  const { doc, events } = all;
  doc.submit(insert(3, 'd'));
  const next = reconnected(all);
  compared(next);
  next.taken();
  next.answer(stored(3, insert(3, 'd'), 'me', 1), { a: 's', ...ADDRESS });
  holds(doc, 4, 'abcd');
  assert.deepStrictEqual(next.taken(), []);
  assert.deepStrictEqual(namesOf(events), ['stored']);
});

test('an edit that is submitted while disconnected is sent afterwards', OPTIONS, () => {
  const { client, doc, socket, sockets } = loaded();
  client.disconnect();
  doc.submit(insert(3, 'd'));
  client.connect();
  const next = sockets.last();
  next.open();
  compared(next);
  assert.deepStrictEqual(next.taken(), [{ a: 's', ...ADDRESS, v: 3 }]);
  next.answer({ a: 's', ...ADDRESS });
  assert.deepStrictEqual(next.taken()[0].op, insert(3, 'd'));
  next.answer(acknowledged(3, 1));
  holds(doc, 4, 'abcd');
  assert.strictEqual(socket.taken().length, 0);
});

test('a refused operation is dropped with those made on it, and the document is fetched', OPTIONS, () => {
  const { doc, events, socket } = loaded();
  doc.submit(insert(3, 'd'));
  doc.submit(insert(4, 'e'));
  socket.taken();
  socket.answer(refused('op', 'ERR_OT_OP_NOT_APPLIED', { src: 'me', seq: 1 }));
  assert.deepStrictEqual(socket.taken(), [{ a: 'f', ...ADDRESS }]);
  assert.deepStrictEqual(events.map(([name, { contents }]) => [name, contents]), [
    ['refused', [{ op: insert(3, 'd') }, { op: insert(4, 'e') }]],
  ]);
  socket.answer({ a: 'f', ...ADDRESS, data: { data: 'xabc', v: 4 } }, stored(3, insert(0, 'x')));
  holds(doc, 4, 'xabc');
  assert.deepStrictEqual(socket.taken(), []);
  assert.strictEqual(events.length, 1);
});

test('a fetched document replaces one that differs, at its own version', OPTIONS, () => {
  const { doc, events, socket } = loaded('wrong');
  doc.submit(insert(0, '-'));
  socket.answer(refused('op', 'ERR_OT_OP_NOT_APPLIED', { src: 'me', seq: 1 }));
  doc.submit(insert(5, '!'));
  socket.answer({ a: 'f', ...ADDRESS, data: { data: 'right', v: 3 } });
  assert.deepStrictEqual([doc.confirmed, doc.data], ['right', 'right!']);
  assert.deepStrictEqual(namesOf(events), ['refused', 'healed']);
});

test('a fetched document is compared at its own version, before further operations that were received', OPTIONS, () => {
  const { doc, events, socket } = loaded('wrong');
  doc.submit(insert(0, '-'));
  socket.answer(refused('op', 'ERR_OT_OP_NOT_APPLIED', { src: 'me', seq: 1 }), { a: 'f', ...ADDRESS, data: { data: 'xright', v: 4 } });
  socket.answer(stored(4, insert(0, 'y')), stored(3, insert(0, 'x')));
  holds(doc, 5, 'yxright');
  assert.deepStrictEqual(events.map(([name, { version }]) => [name, version]), [['refused', undefined], ['healed', 4]]);
});

test('a fetched document is compared with no operations of the next connection', OPTIONS, () => {
  const all = loaded();
  all.doc.submit(insert(0, '-'));
  all.socket.answer(refused('op', 'ERR_LIMIT', { src: 'me', seq: 1 }));
  all.socket.answer({ a: 'f', ...ADDRESS, data: { data: 'xabc', v: 4 } });
  const next = reconnected(all);
  compared(next);
  next.answer(stored(3, insert(0, 'y')), { a: 's', ...ADDRESS });
  holds(all.doc, 4, 'yabc');
  assert.deepStrictEqual(namesOf(all.events), ['refused']);
});

test('without a subscription the operations up to a fetched document are requested', OPTIONS, () => {
  const { doc, events, socket } = started();
  doc.fetch();
  socket.answer({ a: 'f', ...ADDRESS, data: { data: 'abc', v: 3 } });
  doc.submit(insert(0, '-'));
  socket.taken();
  socket.answer(refused('op', 'ERR_LIMIT', { src: 'me', seq: 1 }), { a: 'f', ...ADDRESS, data: { data: 'xabc', v: 4 } });
  assert.deepStrictEqual(socket.taken(), [{ a: 'f', ...ADDRESS }, { a: 'f', ...ADDRESS, v: 3 }]);
  socket.answer(stored(3, insert(0, 'x')), { a: 'f', ...ADDRESS });
  holds(doc, 4, 'xabc');
  assert.deepStrictEqual(namesOf(events), ['load', 'refused']);
});

test('a document is loaded anew if a stored operation can\'t be applied', OPTIONS, () => {
  const { doc, events, socket } = loaded('wrong');
  socket.answer(stored(3, [{ p: [0], sd: 'right' }]));
  assert.deepStrictEqual(socket.taken(), [{ a: 's', ...ADDRESS, v: null }]);
  assert.strictEqual(doc.version, null);
  socket.answer({ a: 's', ...ADDRESS, data: { data: '', v: 4 } });
  holds(doc, 4, '');
  assert.deepStrictEqual(events, [['healed', { version: 3 }], ['load', { version: 4 }]]);
});

test('a promise waits for its answer while the document is loaded anew', OPTIONS, async () => {
  for (const isStored of [true, false]) {
    const { doc, events, socket } = loaded('wrong');
    const edits = [doc.submit(insert(0, '-')), doc.submit(insert(0, '+'))];
    socket.answer(stored(3, [{ p: [0], sd: 'right' }]));
    assert.deepStrictEqual([doc.pending, doc.data], [1, 'wrong']);
    socket.taken();
    socket.answer(isStored ? acknowledged(4, 1) : refused('op', 'ERR_LIMIT', { src: 'me', seq: 1 }));
    if (isStored) assert.deepStrictEqual(await edits[0], { version: 4 });
    else await assert.rejects(edits[0], { code: 'ERR_LIMIT' });
    await assert.rejects(edits[1], { name: 'Refusal' });
    assert.deepStrictEqual(socket.taken(), isStored ? [] : [{ a: 'f', ...ADDRESS }]);
    socket.answer({ a: 's', ...ADDRESS, data: { data: 'fine', v: 5 } });
    holds(doc, 5, 'fine');
    const told = events.filter(([name]) => name === 'refused').map(([, { contents }]) => contents.length);
    assert.deepStrictEqual(told, [isStored ? 1 : 2]);
  }
});

test('an acknowledgement of another version than the one that was received: the edit isn\'t stored', OPTIONS, async () => {
  const { doc, events, socket } = loaded();
  const edit = doc.submit(insert(3, 'd'));
  socket.taken();
  socket.answer(stored(3, insert(0, 'x')), acknowledged(3, 1));
  await assert.rejects(edit, { code: 'ERR_PROTOCOL' });
  assert.deepStrictEqual(namesOf(events), ['refused']);
  assert.deepStrictEqual(socket.taken(), [{ a: 'f', ...ADDRESS }]);
  socket.answer({ a: 'f', ...ADDRESS, data: { data: 'xabc', v: 4 } });
  holds(doc, 4, 'xabc');
});

test('another client has used the number of an edit: the edit and those made on it aren\'t stored', OPTIONS, async () => {
  const { doc, events, socket } = loaded();
  const edits = [doc.submit(insert(3, 'd')), doc.submit(insert(4, 'e'))];
  socket.taken();
  socket.answer(stored(3, insert(0, 'x'), 'me', 1), acknowledged(3, 1));
  for (const edit of edits) await assert.rejects(edit, { code: 'ERR_PROTOCOL' });
  assert.deepStrictEqual(namesOf(events), ['refused']);
  assert.deepStrictEqual([doc.version, doc.data, doc.pending], [4, 'xabc', 0]);
  socket.taken();
  socket.answer({ a: 'f', ...ADDRESS, data: { data: 'xabc', v: 4 } });
  doc.submit(insert(0, 'y'));
  assert.deepStrictEqual(socket.taken(), [{ a: 'op', ...ADDRESS, v: 4, src: 'me', seq: 2, op: insert(0, 'y') }]);
  socket.answer(acknowledged(4, 2));
  holds(doc, 5, 'yxabc');
});

test('an allocation failure: the same message is sent again', OPTIONS, () => {
  const { clock, doc, socket } = loaded();
  doc.submit(insert(3, 'd'));
  const [sent] = socket.taken();
  socket.answer(refused('op', 'ERR_OUT_OF_MEMORY', { src: 'me', seq: 1 }));
  clock.advance(SOON - 1);
  assert.deepStrictEqual(socket.taken(), []);
  clock.advance(1);
  assert.deepStrictEqual(socket.taken(), [sent]);
  socket.answer(acknowledged(3, 1));
  holds(doc, 4, 'abcd');
});

test('an allocation failure: an edit is sent again as it applies now', OPTIONS, () => {
  const { clock, doc, socket } = loaded();
  doc.submit(insert(3, 'd'));
  socket.taken();
  socket.answer(refused('op', 'ERR_OUT_OF_MEMORY', { src: 'me', seq: 1 }));
  socket.answer(stored(3, insert(0, 'xy'), 'you', 1));
  clock.advance(SOON);
  assert.deepStrictEqual(socket.taken(), [{ a: 'op', ...ADDRESS, v: 4, src: 'me', seq: 1, op: insert(5, 'd') }]);
  socket.answer(acknowledged(4, 1));
  holds(doc, 5, 'xyabcd');
});

test('an allocation failure: nothing is sent again over another connection', OPTIONS, () => {
  const all = loaded();
  const { client, clock, doc, socket, sockets } = all;
  doc.submit(insert(3, 'd'));
  socket.answer(refused('op', 'ERR_OUT_OF_MEMORY', { src: 'me', seq: 1 }));
  client.disconnect();
  client.connect();
  const next = sockets.last();
  next.open();
  next.taken();
  clock.advance(2 * SOON);
  assert.deepStrictEqual(next.taken(), []);
  assert.strictEqual(doc.pending, 1);
});

test('an allocation failure: fetches, subscriptions and their ends are requested again', OPTIONS, async () => {
  const { clock, doc, socket } = loaded();
  const listing = doc.operations(3);
  socket.taken();
  socket.answer(refused('f', 'ERR_OUT_OF_MEMORY'));
  clock.advance(SOON);
  assert.deepStrictEqual(socket.taken(), [{ a: 'f', ...ADDRESS, v: 3 }]);
  socket.answer({ a: 'f', ...ADDRESS });
  assert.deepStrictEqual(await listing, []);
  const leaving = doc.unsubscribe();
  socket.answer(refused('u', 'ERR_OUT_OF_MEMORY'));
  assert.deepStrictEqual(socket.taken(), [{ a: 'u', ...ADDRESS }]);
  clock.advance(SOON);
  assert.deepStrictEqual(socket.taken(), [{ a: 'u', ...ADDRESS }]);
  socket.answer({ a: 'u', ...ADDRESS });
  await leaving;
  const subscribing = doc.subscribe();
  assert.deepStrictEqual(socket.taken(), [{ a: 's', ...ADDRESS, v: 3 }]);
  socket.answer(refused('s', 'ERR_OUT_OF_MEMORY'));
  clock.advance(SOON);
  assert.deepStrictEqual(socket.taken(), [{ a: 's', ...ADDRESS, v: 3 }]);
  socket.answer(stored(3, insert(0, 'x')), { a: 's', ...ADDRESS });
  await subscribing;
  holds(doc, 4, 'xabc');
});

test('an allocation failure: a subscription that is no longer wanted is not requested again', OPTIONS, async () => {
  const { clock, doc, socket } = started();
  const first = doc.subscribe();
  socket.answer(refused('s', 'ERR_OUT_OF_MEMORY'));
  await doc.unsubscribe();
  await assert.rejects(first, { code: 'ERR_CLOSED' });
  const fetching = doc.fetch();
  socket.taken();
  clock.advance(SOON);
  assert.deepStrictEqual(socket.taken(), [{ a: 'f', ...ADDRESS }]);
  socket.answer({ a: 'f', ...ADDRESS, data: { data: 'abc', v: 3 } });
  await fetching;
  await doc.unsubscribe();
  assert.deepStrictEqual(socket.taken(), []);
});

test('an allocation failure: the end of a subscription that is wanted again is not requested again', OPTIONS, async () => {
  const { clock, doc, socket } = loaded();
  const leaving = doc.unsubscribe();
  socket.answer(refused('u', 'ERR_OUT_OF_MEMORY'));
  await doc.subscribe();
  socket.taken();
  clock.advance(SOON);
  await leaving;
  assert.deepStrictEqual(socket.taken(), []);
});

test('an allocation failure: a snapshot and the handshake are requested again', OPTIONS, async () => {
  const { client, clock, socket, sockets } = loaded();
  const snapshot = client.snapshot('b', '2');
  const [sent] = socket.taken();
  socket.answer(refused('nf', 'ERR_OUT_OF_MEMORY', { id: sent.id }));
  clock.advance(SOON);
  assert.deepStrictEqual(socket.taken(), [sent]);
  socket.answer({ a: 'nf', id: sent.id, type: null, v: 0 });
  assert.deepStrictEqual(await snapshot, { version: 0, data: undefined });
  client.disconnect();
  client.connect();
  const next = sockets.last();
  next.answer({ a: 'init', id: 's2', protocol: 1 }, { a: 'hs', error: { code: 'ERR_OUT_OF_MEMORY', message: '' } });
  assert.strictEqual(next.sent.splice(0).length, 1);
  clock.advance(SOON);
  assert.deepStrictEqual(next.sent, [{ a: 'hs', id: 'me', protocol: 1 }]);
  assert.strictEqual(client.state, 'connecting');
});

test('a limit: the operation is dropped', OPTIONS, () => {
  const { doc, events, socket } = loaded();
  doc.submit(insert(3, 'd'));
  socket.answer(refused('op', 'ERR_LIMIT', { src: 'me', seq: 1 }));
  assert.strictEqual(events[0][1].error.code, 'ERR_LIMIT');
  assert.strictEqual(doc.data, 'abc');
});

test('a limit: a subscription is refused, and the document is fetched for the edits that are pending', OPTIONS, async () => {
  const { client, doc, events, socket, sockets } = loaded();
  client.disconnect();
  const edit = doc.submit(insert(3, 'd'));
  client.connect();
  const next = sockets.last();
  const subscribing = doc.subscribe();
  next.open();
  compared(next);
  next.taken();
  next.answer(refused('s', 'ERR_LIMIT'));
  await assert.rejects(subscribing, { code: 'ERR_LIMIT' });
  assert.deepStrictEqual(namesOf(events), ['error']);
  assert.strictEqual(doc.wanted, false);
  compared(next);
  assert.deepStrictEqual(next.taken(), [{ a: 'f', ...ADDRESS, v: 3 }]);
  next.answer({ a: 'f', ...ADDRESS });
  next.answer(acknowledged(3, 1));
  assert.deepStrictEqual(await edit, { version: 3 });
  assert.deepStrictEqual(socket.taken(), []);
});

test('a limit: a further subscription is refused while the document is live', OPTIONS, async () => {
  const { doc, socket } = started();
  doc.fetch();
  socket.answer({ a: 'f', ...ADDRESS, data: { data: 'abc', v: 3 } });
  const subscribing = doc.subscribe();
  socket.taken();
  socket.answer(refused('s', 'ERR_LIMIT'));
  await assert.rejects(subscribing, { code: 'ERR_LIMIT' });
  assert.deepStrictEqual([doc.state, doc.wanted], ['live', false]);
  assert.deepStrictEqual(socket.taken(), []);
});

test('a document that the server refuses isn\'t requested again and again', OPTIONS, async () => {
  const { doc, events, socket } = started();
  const fetching = doc.fetch();
  socket.taken();
  socket.answer(refused('f', 'ERR_MESSAGE_BADLY_FORMED'));
  await assert.rejects(fetching, { code: 'ERR_MESSAGE_BADLY_FORMED' });
  assert.deepStrictEqual([doc.state, namesOf(events), socket.taken()], ['refused', ['error'], []]);
  const again = doc.fetch();
  assert.deepStrictEqual(socket.taken(), [{ a: 'f', ...ADDRESS }]);
  socket.answer({ a: 'f', ...ADDRESS, data: { data: 'abc', v: 3 } });
  assert.strictEqual(await again, doc);
});

test('a comparison that the server refuses ends the attempt', OPTIONS, async () => {
  const all = loaded();
  const { doc, events } = all;
  const next = reconnected(all);
  const subscribing = doc.subscribe();
  const [{ id }] = next.taken();
  next.answer(refused('nf', 'ERR_MESSAGE_BADLY_FORMED', { id }));
  await assert.rejects(subscribing, { code: 'ERR_MESSAGE_BADLY_FORMED' });
  assert.deepStrictEqual([doc.state, doc.data, namesOf(events)], ['refused', 'abc', ['error']]);
});

test('an answer without its data, or with data that weren\'t requested, is refused', OPTIONS, async () => {
  const { doc, events, socket } = started();
  const fetching = doc.fetch();
  socket.answer({ a: 'f', ...ADDRESS });
  await assert.rejects(fetching, { code: 'ERR_PROTOCOL' });
  assert.deepStrictEqual([doc.state, namesOf(events)], ['refused', ['error']]);
  const all = loaded();
  const listing = all.doc.operations(1);
  all.socket.answer({ a: 'f', ...ADDRESS, data: { data: 'x', v: 9 } });
  await assert.rejects(listing, { code: 'ERR_PROTOCOL' });
  assert.deepStrictEqual([all.doc.state, all.doc.data], ['live', 'abc']);
});

test('a restarted server with a shorter log: `restarted` is emitted, and the document loaded', OPTIONS, async () => {
  const all = loaded();
  const { doc, events, socket } = all;
  socket.answer(stored(3, insert(0, 'x')));
  const edit = doc.submit(insert(4, 'd'));
  const next = reconnected(all);
  assert.strictEqual(doc.state, 'verifying');
  assert.deepStrictEqual(next.taken(), [{ a: 's', ...ADDRESS, v: 3 }]);
  next.answer(refused('s', NEWER));
  assert.deepStrictEqual(next.taken(), [{ a: 's', ...ADDRESS, v: null }]);
  next.answer({ a: 's', ...ADDRESS, data: { type: null, v: 0 } });
  holds(doc, 0, undefined);
  await assert.rejects(edit, { code: 'ERR_SERVER_RESTARTED' });
  assert.deepStrictEqual(namesOf(events), ['refused', 'restarted', 'load']);
  assert.deepStrictEqual(events[1][1], { version: 4, data: 'xabc', contents: [{ op: insert(4, 'd') }] });
});

test('a restarted server with a longer log', OPTIONS, () => {
  for (const [source, seq] of [['stranger', 3], ['other', 7]]) {
    const all = loaded();
    const { doc, events, socket } = all;
    socket.answer(stored(3, insert(0, 'x')));
    doc.submit(insert(4, 'd'));
    const next = reconnected(all);
    next.taken();
    next.answer(stored(3, insert(0, 'q'), source, seq), stored(4, insert(0, 'r')), { a: 's', ...ADDRESS });
    assert.deepStrictEqual(next.taken(), [{ a: 's', ...ADDRESS, v: null }]);
    next.answer({ a: 's', ...ADDRESS, data: { data: 'rq', v: 5 } });
    holds(doc, 5, 'rq');
    assert.deepStrictEqual(namesOf(events), ['refused', 'restarted', 'load']);
  }
});

test('a restarted server, if no operation was seen: the documents are compared', OPTIONS, () => {
  for (const [data, other] of [['abc', 'another'], [{ a: 1 }, { a: 2 }], [[1, 2], [1]], [{ a: 1 }, { b: 1 }], [[], {}], [[0], [null]],
    [{}, undefined], [{ a: 1 }, { a: 1, b: 1 }], [null, {}], [{ a: [] }, { a: [[]] }]]) {
    const all = loaded(data);
    const { doc, events } = all;
    const next = reconnected(all);
    compared(next, other);
    assert.deepStrictEqual(next.taken(), [{ a: 's', ...ADDRESS, v: null }]);
    next.answer({ a: 's', ...ADDRESS, data: { data: 'another one', v: 9 } });
    holds(doc, 9, 'another one');
    assert.deepStrictEqual(namesOf(events), ['restarted', 'load']);
  }
});

test('a restarted server that is compared has a shorter log', OPTIONS, () => {
  const all = loaded();
  const next = reconnected(all);
  const [{ id }] = next.taken();
  next.answer(refused('nf', NEWER, { id }));
  assert.deepStrictEqual(next.taken(), [{ a: 's', ...ADDRESS, v: null }]);
  assert.deepStrictEqual(namesOf(all.events), ['restarted']);
});

test('a restarted server that has all operations again: nothing is lost', OPTIONS, async () => {
  for (const data of ['abc', { a: [1, { b: null }], c: 'x' }]) {
    const all = loaded(data);
    const { doc, events } = all;
    const next = reconnected(all, 1); // its sessions are counted from 1 again
    compared(next, JSON.parse(JSON.stringify(data)));
    assert.strictEqual(doc.state, 'catching up');
    assert.deepStrictEqual(next.taken(), [{ a: 's', ...ADDRESS, v: 3 }]);
    next.answer({ a: 's', ...ADDRESS });
    holds(doc, 3, data);
    assert.deepStrictEqual(events, []);
  }
});

test('a restarted server: an operation that was received before the connection was lost isn\'t used', OPTIONS, () => {
  const all = loaded();
  const { doc, socket } = all;
  socket.answer(stored(4, insert(0, 'y')));
  const next = reconnected(all);
  compared(next);
  next.answer(stored(3, insert(0, 'x')), { a: 's', ...ADDRESS });
  holds(doc, 4, 'xabc');
});

test('an edit of a version that the server doesn\'t have: the document starts anew', OPTIONS, async () => {
  const { doc, events, socket } = loaded();
  const edits = [doc.submit(insert(3, 'd')), doc.submit(insert(4, 'e'))];
  socket.taken();
  socket.answer(refused('op', NEWER, { src: 'me', seq: 1 }));
  for (const edit of edits) await assert.rejects(edit, { code: 'ERR_SERVER_RESTARTED' });
  assert.deepStrictEqual(events[1], ['restarted', { version: 3, data: 'abc', contents: [{ op: insert(3, 'd') }, { op: insert(4, 'e') }] }]);
  assert.deepStrictEqual(socket.taken(), [{ a: 's', ...ADDRESS, v: null }]);
  assert.strictEqual(doc.version, null);
  socket.answer({ a: 's', ...ADDRESS, data: { data: 'new', v: 2 } });
  holds(doc, 2, 'new');
  assert.deepStrictEqual(namesOf(events), ['refused', 'restarted', 'load']);
});

test('an edit that was dropped here is refused by its version: the document starts anew', OPTIONS, async () => {
  const { doc, events, socket } = loaded();
  const edit = doc.submit(insert(3, 'd'));
  socket.answer(storedDelete(3));
  socket.taken();
  socket.answer(refused('op', NEWER, { src: 'me', seq: 1 }));
  await assert.rejects(edit, { code: 'ERR_SERVER_RESTARTED' });
  assert.deepStrictEqual(namesOf(events), ['refused', 'restarted']);
  assert.deepStrictEqual(socket.taken(), [{ a: 's', ...ADDRESS, v: null }]);
});

test('an edit and a fetch of a version that the server doesn\'t have: the document starts anew once', OPTIONS, async () => {
  for (const isFetchFirst of [true, false]) {
    const { doc, events, socket } = loaded();
    const edit = doc.submit(insert(3, 'd'));
    const fetching = doc.fetch();
    socket.taken();
    const errors = [refused('f', NEWER), refused('op', NEWER, { src: 'me', seq: 1 })];
    socket.answer(...(isFetchFirst ? errors : errors.reverse()));
    await assert.rejects(edit, { code: 'ERR_SERVER_RESTARTED' });
    assert.deepStrictEqual([namesOf(events), doc.state], [['refused', 'restarted'], 'loading']);
    assert.deepStrictEqual(socket.taken(), [{ a: 's', ...ADDRESS, v: null }]);
    socket.answer({ a: 's', ...ADDRESS, data: { data: 'new', v: 2 } });
    for (const { a, v } of socket.taken()) socket.answer({ a, ...ADDRESS, v });
    assert.strictEqual(await fetching, doc);
    holds(doc, 2, 'new');
  }
});

test('another client creates the document first', OPTIONS, () => {
  const { doc, events, socket } = absent();
  doc.createIfAbsent('mine');
  socket.answer(refused('op', 'ERR_DOC_ALREADY_CREATED', { src: 'me', seq: 1 }));
  socket.answer({ a: 'f', ...ADDRESS, data: { data: 'theirs', v: 1 } }, storedCreate(0, 'theirs'));
  holds(doc, 1, 'theirs');
  assert.deepStrictEqual(events, []);
});

test('the document is deleted concurrently with an edit', OPTIONS, async () => {
  const { doc, events, socket } = loaded();
  const edits = [doc.submit(insert(3, 'd')), doc.submit(insert(3, 'e'))];
  const told = [];
  doc.on('remove', (detail) => told.push(detail));
  doc.on('change', ({ operation, local, source, before, data }) => told.push([operation, local, source, before, data]));
  socket.answer(storedDelete(3));
  assert.deepStrictEqual(told, [
    [null, false, null, 'abced', undefined],
    { source: 'other', local: false, data: 'abced' },
  ]);
  assert.deepStrictEqual([doc.data, doc.pending], [undefined, 1]);
  socket.answer(refused('op', 'ERR_DOC_WAS_DELETED', { src: 'me', seq: 1 }));
  for (const edit of edits) await assert.rejects(edit, { code: 'ERR_DOC_WAS_DELETED' });
  socket.answer({ a: 'f', ...ADDRESS, data: { type: null, v: 4 } });
  holds(doc, 4, undefined);
  assert.deepStrictEqual(events.map(([name, { contents }]) => [name, contents.length]), [['refused', 2]]);
});

test('the server stores an operation that the client expects to be refused: its content is requested', OPTIONS, async () => {
  const most = Number.MAX_SAFE_INTEGER;
  const { doc, events, socket } = loaded({ n: most - 1 });
  const edits = [doc.submit([{ p: ['n'], na: 1 }]), doc.submit([{ p: ['k'], oi: 1 }])];
  const changes = [];
  doc.on('change', ({ operation, data }) => changes.push([operation, data]));
  socket.answer(stored(3, [{ p: ['n'], na: 1 }]));
  assert.deepStrictEqual([doc.data, events, changes], [{ n: most }, [], [[null, { n: most }]]]);
  const whileAwaited = doc.submit([{ p: ['m'], oi: 2 }]);
  socket.taken();
  socket.answer(acknowledged(4, 1));
  assert.deepStrictEqual(await edits[0], { version: 4 });
  await assert.rejects(edits[1], { name: 'Refusal' });
  assert.deepStrictEqual(socket.taken().map(({ a, v }) => [a, v]), [['s', 4], ['op', 4]]);
  socket.answer(stored(4, [{ p: ['o'], oi: 1 }], 'me', 1), { a: 's', ...ADDRESS }, acknowledged(5, 2));
  assert.deepStrictEqual(await whileAwaited, { version: 5 });
  holds(doc, 6, { n: most, o: 1, m: 2 });
  assert.deepStrictEqual(namesOf(events), ['refused', 'stored']);
});

test('a missing operation is requested', OPTIONS, () => {
  const { doc, socket } = loaded();
  socket.answer(stored(4, insert(0, 'y')), stored(5, insert(0, 'z')));
  assert.deepStrictEqual(socket.taken(), [{ a: 's', ...ADDRESS, v: 3 }]);
  socket.answer(stored(3, insert(0, 'x')), stored(4, insert(0, 'y')), stored(5, insert(0, 'z')), { a: 's', ...ADDRESS });
  holds(doc, 6, 'zyxabc');
});

test('an operation is not requested while the one in flight is being decided', OPTIONS, () => {
  const { doc, socket } = loaded();
  doc.submit(insert(3, 'd'));
  socket.taken();
  socket.answer(stored(4, insert(0, 'y')));
  assert.deepStrictEqual(socket.taken(), []);
  socket.answer(acknowledged(3, 1));
  holds(doc, 5, 'yabcd');
});

test('a server that never sends a missing operation: the document is loaded anew', OPTIONS, () => {
  const { doc, events, socket } = loaded();
  socket.answer(stored(4, insert(0, 'y')), { a: 's', ...ADDRESS });
  assert.deepStrictEqual(socket.taken(), [{ a: 's', ...ADDRESS, v: 3 }, { a: 's', ...ADDRESS, v: null }]);
  socket.answer({ a: 's', ...ADDRESS, data: { data: 'new', v: 5 } });
  holds(doc, 5, 'new');
  assert.deepStrictEqual(namesOf(events), ['healed', 'load']);
});

test('an edit that the server would refuse by its form is refused before it is shown', OPTIONS, async () => {
  const { doc, socket } = loaded({ t: 'abc', n: 1, l: [1] });
  let deep = 0;
  let deepObject = 0;
  for (let depth = 0; depth < 51; depth += 1) {
    deep = [deep];
    deepObject = { a: deepObject };
  }
  class Special {}
  const bad = [
    [[{ p: ['n'], na: 1.5 }], /component 0, na: 1.5 is no whole number/],
    [[{ p: ['n'], na: 2 ** 53 }], /9007199254740992 is no whole number/],
    [[{ p: ['k'], oi: 0.5 }], /component 0, oi: 0.5/],
    [[{ p: ['n'], na: 1 }, { p: ['k'], oi: { price: [9.99] } }], /component 1, oi.price\[0\]: 9.99 is no whole number/],
    [[{ p: ['k'], oi: [NaN] }], /oi\[0\]: NaN/],
    [[{ p: ['k'], oi: { a: undefined } }], /oi.a is undefined, and no JSON/],
    [[{ p: ['k'], oi: () => 1 }], /and no JSON/],
    [[{ p: ['k'], oi: new Date(0) }], /of the class Date, and no plain object/],
    [[{ p: ['k'], oi: new Special() }], /of the class Special/],
    [[{ p: ['k'], oi: deep }], /more than 50 levels deep/],
    [[{ p: ['k'], oi: deepObject }], /more than 50 levels deep/],
    [[{ p: ['k'], oi: ['\ud83d'] }], /half a surrogate pair/],
    [[{ p: ['k'], oi: { '\ud83d': 1 } }], /a key has half a surrogate pair/],
    [[{ p: ['t', 0], si: '\ud83d' }], /is no text of whole characters/],
    [[{ p: ['t', 0], sd: 1 }], /1 is no text/],
    [[{ p: ['\ude00'], oi: 1 }], /is no step of a path/],
    [[{ p: [undefined, 'k'], oi: 1 }], /undefined is no step/],
    [[{ p: Array(51).fill('a'), oi: 1 }], /the path has 51 steps, at most 50/],
    [[{ oi: 1 }], /component 0 has no path/],
    [[{ p: 'k', oi: 1 }], /component 0 has no path/],
    [[{ p: [], oi: 1 }], /an empty path is no key/],
    [[{ p: ['l', 'k'], li: 1 }], /the last step "k" is no index/],
    [[{ p: ['l', 0], oi: 1 }], /the last step 0 is no key/],
    [[{ p: [-1], si: 'x' }], /-1 is no step/],
    [[{ p: [0.5], si: 'x' }], /0.5 is no step/],
    [[{ p: ['t', 0], si: 'x', lm: 1 }], /the member lm isn't supported/],
    [[{ p: ['t', 0], si: 'x', o: 1 }], /the member o isn't supported/],
    [[{ p: ['t', 0], si: 'x', t: 1 }], /the member t isn't supported/],
    [[{ p: ['t', 0], si: 'x', sd: 'y' }], /has no known members/],
    [[{ p: ['t'] }], /has no known members/],
    [Array(257).fill({ p: ['n'], na: 1 }), /257 components, at most 256/],
    [{ p: ['n'], na: 1 }, /is no list of components/],
    [[null], /component 0 is null, and no object/],
  ];
  for (const [operation, message] of bad) {
    await assert.rejects(doc.submit(operation), { code: 'ERR_OT_OP_BADLY_FORMED', message });
  }
  const long = [{ p: ['t', 0], si: 'a'.repeat(1048576) }];
  await assert.rejects(doc.submit(long), { code: 'ERR_MESSAGE_BADLY_FORMED', message: /bytes, and the server takes at most 1048576/ });
  await assert.rejects(doc.submit([{ p: ['t', 0], si: 'é'.repeat(524288) }]), { code: 'ERR_MESSAGE_BADLY_FORMED' });
  holds(doc, 3, { t: 'abc', n: 1, l: [1] });
  assert.deepStrictEqual(socket.taken(), []);
  doc.submit([{ p: ['t', 3], si: '\\ud83d😀', more: 1 }, { p: ['n'], na: -0 }, { p: ['t', 0], si: '' }, { p: ['t', 0], sd: '' }]);
  assert.deepStrictEqual(socket.taken()[0].op, [{ p: ['t', 3], si: '\\ud83d😀' }, { p: ['n'], na: 0 }]);
});

test('an edit at the limits is accepted', OPTIONS, () => {
  const { doc, socket } = loaded({ n: 0, t: '' });
  let deep = 0;
  for (let depth = 0; depth < 50; depth += 1) deep = { a: deep };
  doc.submit([{ p: ['k'], oi: deep }]);
  socket.answer(acknowledged(3, 1));
  doc.submit(Array(256).fill({ p: ['n'], na: 1 }));
  socket.answer(acknowledged(4, 2));
  doc.submit([{ p: Array(50).fill('a').fill('k', 0, 1), oi: [Object.create(null), Number.MAX_SAFE_INTEGER, -Number.MAX_SAFE_INTEGER] }]);
  socket.answer(acknowledged(5, 3));
  doc.submit([{ p: ['t', 0], si: 'a'.repeat(1048000) }]);
  assert.strictEqual(doc.pending, 1);
  assert.strictEqual(doc.data.n, 256);
});

test('an edit that can\'t be applied is refused at once and changes nothing', OPTIONS, async () => {
  const { doc, socket } = loaded();
  for (const [bad, message] of [
    [insert(4, 'x'), /the offset 4 exceeds the text's length 3, path \[4\]/],
    [[{ p: [1], sd: 'x' }], /the text at 1 isn't "x"/],
    [[{ p: [1], sd: 'bcd' }], /the text at 1 isn't/],
    [[{ p: [], na: 1 }], /there is no number/],
    [[{ p: ['k'], oi: 1 }], /there is no object/],
    [[{ p: ['k'], od: 1 }], /there is no object/],
    [[{ p: [0], li: 1 }], /there is no list/],
    [[{ p: ['k', 'l'], oi: 1 }], /there is no member "k"/],
    [[{ p: [0, 0], si: 'x' }], /there is no list/],
  ]) {
    await assert.rejects(doc.submit(bad), { name: 'Refusal', code: 'ERR_OT_OP_NOT_APPLIED', message });
  }
  await assert.rejects(doc.create('x'), { code: 'ERR_DOC_ALREADY_CREATED' });
  holds(doc, 3, 'abc');
  assert.strictEqual(socket.taken().length, 0);
  const all = absent();
  await assert.rejects(all.doc.submit(insert(0, 'x')), { code: 'ERR_DOC_DOES_NOT_EXIST' });
});

test('an edit copies no object of many keys', OPTIONS, () => {
  const keys = 100000;
  const { doc, socket } = loaded({ o: Object.fromEntries(Array.from({ length: keys }, (_, at) => [`k${at}`, { t: '' }])) });
  const began = process.cpuUsage();
  for (let at = 0; at < 100; at += 1) {
    doc.submit([{ p: ['o', 'k5', 't', at], si: 'x' }]);
    socket.answer(acknowledged(3 + 2 * at, at + 1), stored(4 + 2 * at, [{ p: ['o', 'k6', 't', at], si: 'y' }]));
    assert.strictEqual(doc.valueAt(['o', 'k5', 't']).length, at + 1);
  }
  const { user, system } = process.cpuUsage(began);
  assert.ok(user + system < 3e6, `${(user + system) / 1000} ms of processor time`);
  assert.deepStrictEqual([doc.data.o.k5, doc.data.o.k6], [{ t: 'x'.repeat(100) }, { t: 'y'.repeat(100) }]);
  assert.deepStrictEqual([Object.keys(doc.data.o).length, doc.data.o.k7], [keys, { t: '' }]);
});

test('after an acknowledgement the confirmed document is the one that is shown', OPTIONS, () => {
  const { doc, socket } = loaded({ o: { k: { t: 'a' } }, l: [{ t: 'b' }] });
  doc.submit([{ p: ['o', 'k', 't', 1], si: 'x' }, { p: ['l', 0, 't', 1], si: 'y' }]);
  const { data } = doc;
  assert.notStrictEqual(doc.confirmed, data);
  socket.answer(acknowledged(3, 1));
  assert.strictEqual(doc.confirmed, data);
  assert.strictEqual(doc.data, data);
  holds(doc, 4, { o: { k: { t: 'ax' } }, l: [{ t: 'by' }] });
});

test('each event has the documents of its version, also if they are read later', OPTIONS, () => {
  const { doc, socket } = loaded({ o: { a: { n: 1 }, b: 2 } });
  const told = [];
  for (const name of ['op', 'change']) doc.on(name, (detail) => told.push(detail));
  doc.submit([{ p: ['o', 'a', 'n'], na: 1 }]);
  doc.submit([{ p: ['o', 'b'], od: 2 }, { p: ['o', '__proto__'], oi: { c: 3 } }]);
  socket.answer(acknowledged(3, 1), stored(4, [{ p: ['o', 'a'], od: null }]));
  const versions = ['{"o":{"a":{"n":1},"b":2}}', '{"o":{"a":{"n":2},"b":2}}', '{"o":{"a":{"n":2},"__proto__":{"c":3}}}', '{"o":{"__proto__":{"c":3}}}'];
  const texts = told.map(({ before, data }) => [JSON.stringify(before), JSON.stringify(data)]);
  assert.deepStrictEqual(texts, [0, 0, 1, 1, 2, 2].map((at) => [versions[at], versions[at + 1]]));
  assert.deepStrictEqual([doc.valueAt(['o', 'a']), doc.valueAt(['o', 'x', 'y']), doc.valueAt(['o', '__proto__'])], [undefined, undefined, { c: 3 }]);
  assert.strictEqual(JSON.stringify(doc.confirmed), '{"o":{"b":2}}');
  assert.strictEqual(told[5].data, doc.data);
});

test('data are frozen by an option, and in development', OPTIONS, () => {
  const before = process.env.NODE_ENV;
  try {
    for (const [name, freeze, isFrozen] of [['development', undefined, true], ['production', undefined, false], ['production', true, true],
      ['development', false, false]]) {
      process.env.NODE_ENV = name;
      const { doc, socket } = loaded({ o: { k: { t: 'a' } }, l: [{ t: 'b' }], n: 1 }, { freeze });
      const all = [];
      doc.on('change', ({ before: earlier, data }) => all.push(earlier, data));
      const write = () => all.push(doc.data, doc.confirmed, doc.data.o, doc.data.o.k, doc.data.l, doc.data.l[0], doc.valueAt(['o']));
      write();
      doc.submit([{ p: ['o', 'k', 't', 0], si: 'x' }, { p: ['l', 0, 't', 0], si: 'y' }, { p: ['m'], oi: { list: [] } }]);
      all.push(doc.data.m, doc.data.m.list);
      write();
      socket.answer(acknowledged(3, 1), stored(4, [{ p: ['l', 0], li: [] }]));
      write();
      assert.ok(all.every((value) => Object.isFrozen(value) === isFrozen), `${name} ${freeze}`);
      holds(doc, 5, { o: { k: { t: 'xa' } }, l: [[], { t: 'yb' }], n: 1, m: { list: [] } });
    }
  } finally {
    if (before === undefined) delete process.env.NODE_ENV;
    else process.env.NODE_ENV = before;
  }
});

test('an object with many changed members', OPTIONS, () => {
  const { client, doc } = loaded({ o: { first: 0 } });
  client.disconnect();
  const expected = { first: 0 };
  for (let at = 0; at < 2500; at += 1) {
    const key = `k${(at * 7) % 1700}`;
    if (at % 3 === 2) doc.submit([{ p: ['o', key], od: null }]);
    else doc.submit([{ p: ['o', key], oi: at }]);
    if (at % 3 === 2) delete expected[key];
    else expected[key] = at;
  }
  assert.deepStrictEqual(doc.data, { o: expected });
  assert.deepStrictEqual(doc.confirmed, { o: { first: 0 } });
});

test('the promise of an edit is fulfilled with the version at which it is stored', OPTIONS, async () => {
  const { doc, socket } = loaded();
  const edits = [insert(3, 'd'), insert(4, 'e'), insert(5, 'f')].map((operation) => doc.submit(operation));
  socket.answer(stored(3, insert(0, 'x')), acknowledged(4, 1), acknowledged(5, 2));
  assert.deepStrictEqual(await Promise.all(edits), [{ version: 4 }, { version: 5 }, { version: 5 }]);
  const again = doc.submit(insert(0, 'y'));
  const upon = doc.submit(insert(0, 'z'));
  socket.answer(refused('op', 'ERR_LIMIT', { src: 'me', seq: 3 }));
  await assert.rejects(again, { code: 'ERR_LIMIT' });
  await assert.rejects(upon, { code: 'ERR_LIMIT' });
  assert.deepStrictEqual(await doc.submit([]), { version: null });
});

test('answers to operations of other numbers and sources are ignored', OPTIONS, () => {
  const { doc, events, socket } = loaded();
  doc.submit(insert(3, 'd'));
  socket.answer(acknowledged(3, 2), { ...acknowledged(3, 1), src: 'other' });
  socket.answer(refused('op', 'ERR_LIMIT', { src: 'me', seq: 7 }), refused('op', 'ERR_LIMIT', { src: 'other', seq: 1 }));
  socket.answer({ a: 'op', ...ADDRESS, v: 3 }, { a: 's', ...ADDRESS }, { a: 'f', ...ADDRESS }, { a: 'u', ...ADDRESS }, { a: 'new', ...ADDRESS });
  socket.answer(refused('f', 'ERR_LIMIT'), { a: 'nf', id: 77, v: 1, type: null });
  assert.deepStrictEqual([doc.version, doc.data, doc.pending, events], [3, 'abcd', 1, []]);
});

test('an edit and the one that undoes it needn\'t be stored, while another is in flight', OPTIONS, async () => {
  const { doc, socket } = loaded();
  doc.submit(insert(3, 'd'));
  const both = [doc.submit(insert(0, 'x')), doc.submit([{ p: [0], sd: 'x' }])];
  assert.deepStrictEqual(await Promise.all(both), [{ version: null }, { version: null }]);
  socket.answer(acknowledged(3, 1));
  holds(doc, 4, 'abcd');
  assert.strictEqual(socket.taken().length, 1);
});

test('the promises of create and remove', OPTIONS, async () => {
  const { doc, socket } = loaded();
  const gone = doc.remove();
  assert.strictEqual(doc.data, undefined);
  socket.answer(acknowledged(3, 1));
  const made = doc.create({ n: 1 });
  assert.deepStrictEqual(socket.taken().map(({ del, create }) => del || create.data), [true, { n: 1 }]);
  socket.answer(acknowledged(4, 2));
  assert.deepStrictEqual([await gone, await made], [{ version: 3 }, { version: 4 }]);
  holds(doc, 5, { n: 1 });
  doc.remove();
  const lost = doc.create([]);
  socket.answer(acknowledged(5, 3), refused('op', 'ERR_DOC_ALREADY_CREATED', { src: 'me', seq: 4 }));
  await assert.rejects(lost, { code: 'ERR_DOC_ALREADY_CREATED' });
});

test('a create that is second: createIfAbsent waits for the first one', OPTIONS, async () => {
  for (const isSubscribed of [true, false]) {
    const { doc, socket } = isSubscribed ? absent() : started();
    if (!isSubscribed) {
      doc.fetch();
      socket.answer({ a: 'f', ...ADDRESS, data: { type: null, v: 0 } });
    }
    socket.taken();
    const made = doc.createIfAbsent('mine').then(() => doc.data);
    await flush();
    socket.answer(refused('op', 'ERR_DOC_ALREADY_CREATED', { src: 'me', seq: 1 }));
    await flush();
    assert.deepStrictEqual(socket.taken().slice(1), [{ a: 'f', ...ADDRESS }]);
    socket.answer({ a: 'f', ...ADDRESS, data: { data: 'theirs', v: 1 } });
    await flush();
    assert.deepStrictEqual(socket.taken(), isSubscribed ? [] : [{ a: 'f', ...ADDRESS, v: 0 }]);
    socket.answer(storedCreate(0, 'theirs'));
    if (!isSubscribed) socket.answer({ a: 'f', ...ADDRESS });
    assert.strictEqual(await made, 'theirs');
  }
});

test('createIfAbsent is fulfilled at once if the document exists, and by the own create', OPTIONS, async () => {
  const { doc, socket } = loaded();
  await doc.createIfAbsent('x');
  assert.deepStrictEqual(socket.taken(), []);
  const all = absent();
  const both = [all.doc.createIfAbsent('x'), all.doc.createIfAbsent('y')];
  assert.strictEqual(all.socket.taken().length, 1);
  all.socket.answer(acknowledged(0, 1));
  await Promise.all(both);
  holds(all.doc, 1, 'x');
});

test('createIfAbsent fails if the create is refused, or if the first document is deleted', OPTIONS, async () => {
  const { doc, events, socket } = absent();
  const made = doc.createIfAbsent('mine');
  socket.answer(refused('op', 'ERR_LIMIT', { src: 'me', seq: 1 }));
  await assert.rejects(made, { code: 'ERR_LIMIT' });
  assert.deepStrictEqual(namesOf(events), ['refused']);
  const both = absent();
  both.doc.remove();
  both.doc.create({});
  both.socket.answer(refused('op', 'ERR_DOC_ALREADY_CREATED', { src: 'me', seq: 1 }));
  assert.deepStrictEqual(both.events.map(([name, { contents }]) => [name, contents.length]), [['refused', 2]]);
  const all = absent();
  const lost = all.doc.createIfAbsent('mine');
  all.socket.answer(refused('op', 'ERR_DOC_ALREADY_CREATED', { src: 'me', seq: 1 }));
  all.socket.answer({ a: 'f', ...ADDRESS, data: { type: null, v: 2 } }, storedCreate(0, 'theirs'), storedDelete(1));
  await assert.rejects(lost, { code: 'ERR_DOC_DOES_NOT_EXIST' });
  await assert.rejects(doc.createIfAbsent(0.5), { code: 'ERR_OT_OP_BADLY_FORMED', message: /the data: 0.5/ });
});

test('listeners receive operations with their source, and the document before and after them', OPTIONS, () => {
  const { doc, socket } = loaded();
  const told = [];
  for (const name of ['op', 'create', 'remove']) {
    doc.on(name, ({ source, local, before, data }) => told.push([name, source, local, before, data]));
  }
  const changes = [];
  doc.on('change', ({ operation, source, local, before, data }) => changes.push([operation && operation.length, source, local, before, data]));
  const editor = {};
  doc.submit(insert(3, 'd'), { source: editor });
  socket.answer(acknowledged(3, 1), stored(4, insert(0, 'x')), stored(5, []));
  doc.remove();
  socket.answer(acknowledged(6, 2), storedCreate(7, 1), storedDelete(8), storedDelete(9));
  assert.deepStrictEqual(told, [
    ['op', editor, true, 'abc', 'abcd'],
    ['op', 'other', false, 'abcd', 'xabcd'],
    ['remove', 'me', true, undefined, 'xabcd'],
    ['create', 'other', false, undefined, 1],
    ['remove', 'other', false, undefined, 1],
  ]);
  assert.deepStrictEqual(changes, [
    [1, editor, true, 'abc', 'abcd'],
    [1, 'other', false, 'abcd', 'xabcd'],
    [null, 'me', true, 'xabcd', undefined],
    [null, 'other', false, undefined, 1],
    [null, 'other', false, 1, undefined],
    [null, 'other', false, undefined, undefined],
  ]);
});

test('on, once, off and an abort signal', OPTIONS, () => {
  const { doc, socket } = loaded();
  const told = [];
  const always = () => told.push('always');
  const stop = doc.on('version', always);
  doc.once('version', () => told.push('once'));
  const never = () => told.push('never');
  doc.once('version', never);
  doc.off('version', never);
  const controller = new AbortController();
  doc.on('version', () => told.push('signal'), { signal: controller.signal });
  doc.on('version', never, { signal: AbortSignal.abort() });
  socket.answer(stored(3, insert(0, 'x')));
  controller.abort();
  socket.answer(stored(4, insert(0, 'y')));
  stop();
  socket.answer(stored(5, insert(0, 'z')));
  assert.deepStrictEqual(told, ['always', 'once', 'signal', 'always']);
  doc.on('version', never);
  doc.off('version');
  doc.off('nothing');
  socket.answer(stored(6, insert(0, 'z')));
  assert.strictEqual(told.length, 4);
});

test('`once` and the function that `on` returns remove their own listener only', OPTIONS, () => {
  const { doc, socket } = loaded();
  let calls = 0;
  const count = () => (calls += 1);
  doc.on('version', count);
  doc.once('version', count);
  socket.answer(stored(3, insert(0, 'x')), stored(4, insert(0, 'x')), stored(5, insert(0, 'x')));
  assert.strictEqual(calls, 4);
  const stop = doc.on('version', count);
  stop();
  stop();
  socket.answer(stored(6, insert(0, 'x')));
  assert.strictEqual(calls, 5);
});

test('a listener that an earlier one removes is not called', OPTIONS, () => {
  const { doc, socket } = loaded();
  const told = [];
  let stop = null;
  doc.on('version', () => stop());
  stop = doc.on('version', () => told.push('called'));
  socket.answer(stored(3, insert(0, 'x')));
  assert.deepStrictEqual(told, []);
});

test('an exception of a listener is reported, and changes nothing else', OPTIONS, async () => {
  const { doc, socket } = loaded();
  const reported = [];
  const before = console.error;
  console.error = (error) => reported.push(error.message);
  for (const name of ['op', 'change', 'version', 'stored']) {
    doc.on(name, () => {
      throw new Error(name);
    });
  }
  const edit = doc.submit(insert(3, 'd'));
  assert.strictEqual(socket.taken().length, 1);
  socket.answer(acknowledged(3, 1));
  console.error = before;
  globalThis.reportError = (error) => reported.push(`platform: ${error.message}`);
  doc.submit(insert(3, 'e'));
  delete globalThis.reportError;
  assert.deepStrictEqual(await edit, { version: 3 });
  assert.deepStrictEqual(reported, ['op', 'change', 'version', 'stored', 'platform: op', 'platform: change']);
  assert.strictEqual(doc.data, 'abced');
});

test('a listener edits: each listener receives the operations in their order', OPTIONS, async () => {
  const { doc, socket } = loaded();
  const told = [];
  let edit = null;
  doc.once('op', () => (edit = doc.submit(insert(0, 'o'))));
  doc.on('op', ({ operation, data }) => told.push([operation, data]));
  const names = [];
  for (const name of ['op', 'change']) doc.on(name, ({ operation: [{ si }] }) => names.push([name, si]));
  doc.submit(insert(3, 'd'));
  assert.deepStrictEqual(told, [[insert(3, 'd'), 'abcd'], [insert(0, 'o'), 'oabcd']]);
  assert.deepStrictEqual(names, [['op', 'd'], ['change', 'd'], ['op', 'o'], ['change', 'o']]);
  socket.answer(acknowledged(3, 1), acknowledged(4, 2));
  assert.deepStrictEqual(await edit, { version: 4 });
  holds(doc, 5, 'oabcd');
});

test('a document is fetched without a subscription, and edited', OPTIONS, async () => {
  const all = started();
  const { doc, socket } = all;
  const fetching = doc.fetch();
  assert.deepStrictEqual([doc.state, socket.taken()], ['loading', [{ a: 'f', ...ADDRESS }]]);
  socket.answer({ a: 'f', ...ADDRESS, data: { data: 'abc', v: 3 } });
  assert.strictEqual((await fetching).data, 'abc');
  const edit = doc.submit(insert(3, 'd'));
  assert.strictEqual(socket.taken().length, 1);
  socket.answer(stored(3, insert(0, 'x')), acknowledged(4, 1));
  assert.deepStrictEqual(await edit, { version: 4 });
  const again = doc.fetch();
  assert.deepStrictEqual(socket.taken(), [{ a: 'f', ...ADDRESS, v: 5 }]);
  socket.answer(stored(5, insert(0, 'y')), { a: 'f', ...ADDRESS });
  await again;
  holds(doc, 6, 'yxabcd');
  doc.submit(insert(0, 'z'));
  const [sent] = socket.taken();
  const next = reconnected(all);
  assert.deepStrictEqual(next.taken(), [{ a: 'f', ...ADDRESS, v: 5 }]);
  next.answer(stored(5, insert(0, 'y')), { a: 'f', ...ADDRESS });
  assert.deepStrictEqual(next.taken(), [sent]);
  next.answer(acknowledged(6, 2));
  holds(doc, 7, 'zyxabcd');
});

test('a document that is fetched and then subscribed to', OPTIONS, async () => {
  const { doc, socket } = started();
  doc.fetch();
  const subscribing = doc.subscribe();
  assert.deepStrictEqual(socket.taken(), [{ a: 'f', ...ADDRESS }]);
  socket.answer({ a: 'f', ...ADDRESS, data: { data: 'abc', v: 3 } });
  assert.deepStrictEqual(socket.taken(), [{ a: 's', ...ADDRESS, v: 3 }]);
  socket.answer(stored(3, insert(0, 'x')), { a: 's', ...ADDRESS });
  assert.strictEqual(await subscribing, doc);
  holds(doc, 4, 'xabc');
});

test('a fetch while the document is being verified is sent afterwards', OPTIONS, async () => {
  const all = loaded();
  const { doc } = all;
  const next = reconnected(all);
  const fetching = doc.fetch();
  compared(next);
  assert.deepStrictEqual(next.taken(), [{ a: 's', ...ADDRESS, v: 3 }]);
  next.answer(stored(3, insert(0, 'x')), { a: 's', ...ADDRESS });
  await fetching;
  holds(doc, 4, 'xabc');
  assert.deepStrictEqual(next.taken(), []);
});

test('a fetch is fulfilled over the next connection', OPTIONS, async () => {
  const all = loaded();
  const { doc, socket } = all;
  const fetching = doc.fetch();
  assert.deepStrictEqual(socket.taken(), [{ a: 'f', ...ADDRESS, v: 3 }]);
  const next = reconnected(all);
  compared(next);
  next.answer({ a: 's', ...ADDRESS });
  assert.strictEqual(await fetching, doc);
});

test('a fetch of a document that the restarted server has lost is fulfilled with its present document', OPTIONS, async () => {
  const all = started();
  const { doc, events, socket } = all;
  doc.fetch();
  socket.answer({ a: 'f', ...ADDRESS, data: { data: 'abc', v: 3 } });
  const next = reconnected(all);
  const fetching = doc.fetch();
  compared(next, 'another');
  assert.deepStrictEqual(next.taken(), [{ a: 'f', ...ADDRESS }]);
  next.answer({ a: 'f', ...ADDRESS, data: { data: 'new', v: 4 } });
  await fetching;
  holds(doc, 4, 'new');
  assert.deepStrictEqual(namesOf(events), ['load', 'restarted', 'load']);
});

test('unsubscribe and destroy', OPTIONS, async () => {
  const { client, doc, socket } = loaded();
  doc.submit(insert(3, 'd'));
  socket.taken();
  const leaving = doc.destroy();
  await flush();
  assert.deepStrictEqual(socket.taken(), []);
  socket.answer(acknowledged(3, 1));
  await flush();
  assert.deepStrictEqual(socket.taken(), [{ a: 'u', ...ADDRESS }]);
  socket.answer({ a: 'u', ...ADDRESS });
  await leaving;
  await doc.destroy();
  assert.strictEqual(doc.state, 'closed');
  assert.notStrictEqual(client.document(ADDRESS.c, ADDRESS.d), doc);
  for (const call of [() => doc.submit(insert(0, 'x')), () => doc.subscribe(), () => doc.fetch(), () => doc.operations()]) {
    await assert.rejects(call(), { code: 'ERR_CLOSED' });
  }
  socket.answer(stored(4, insert(0, 'x')));
  assert.strictEqual(doc.version, 4);
});

test('a document is dropped once all its requests are answered', OPTIONS, async () => {
  const { doc, socket } = loaded();
  doc.unsubscribe();
  doc.fetch();
  const leaving = doc.destroy();
  await flush();
  socket.answer({ a: 'u', ...ADDRESS });
  await flush();
  assert.strictEqual(doc.state, 'live');
  socket.answer({ a: 'f', ...ADDRESS });
  await leaving;
  assert.strictEqual(doc.state, 'closed');
});

test('destroy ends if the connection is lost while a list is outstanding', OPTIONS, async () => {
  const { doc, socket } = loaded();
  const refusedList = assert.rejects(doc.operations(), { code: 'ERR_CLOSED' });
  let isDone = false;
  doc.destroy().then(() => (isDone = true));
  await flush();
  assert.deepStrictEqual(socket.taken().map(({ a }) => a), ['f', 'u']);
  socket.answer({ a: 'u', ...ADDRESS });
  await flush();
  assert.strictEqual(isDone, false);
  socket.close(1006);
  await flush();
  assert.strictEqual(isDone, true);
  await refusedList;
});

test('a document that is requested while it is being destroyed stays', OPTIONS, async () => {
  const { client, doc, socket } = loaded();
  const leaving = doc.destroy();
  const again = client.document(ADDRESS.c, ADDRESS.d);
  const subscribing = again.subscribe();
  socket.taken();
  await leaving;
  await subscribing;
  assert.strictEqual(again, doc);
  again.submit(insert(0, 'x'));
  assert.strictEqual(socket.taken().length, 1);
  socket.answer(acknowledged(3, 1));
  holds(again, 4, 'xabc');
  const second = doc.destroy();
  await flush();
  assert.deepStrictEqual(socket.taken(), [{ a: 'u', ...ADDRESS }]);
  const subscribed = client.document(ADDRESS.c, ADDRESS.d).subscribe();
  socket.answer({ a: 'u', ...ADDRESS });
  socket.answer({ a: 's', ...ADDRESS });
  await second;
  await subscribed;
  assert.strictEqual(doc.state, 'live');
});

test('destroy refuses later edits at once, sends none of them, and waits for the earlier ones', OPTIONS, async () => {
  for (const isPending of [true, false]) {
    const { client, doc, events, socket } = loaded();
    const edit = isPending ? doc.submit(insert(3, 'd')) : Promise.resolve({ version: 3 });
    socket.taken();
    const leaving = doc.destroy();
    const refuseAll = async () => {
      const calls = [doc.submit(insert(0, 'x')), doc.create('x'), doc.remove(), doc.createIfAbsent('x'), doc.subscribe()];
      for (const one of calls) await assert.rejects(one, { code: 'ERR_CLOSED' });
    };
    await refuseAll();
    if (isPending) socket.answer(acknowledged(3, 1));
    await flush();
    await refuseAll(); // while the answer to `u` is outstanding
    assert.deepStrictEqual(socket.taken(), [{ a: 'u', ...ADDRESS }]);
    assert.deepStrictEqual([doc.data, doc.pending], [isPending ? 'abcd' : 'abc', 0]);
    assert.deepStrictEqual(await edit, { version: 3 });
    socket.answer({ a: 'u', ...ADDRESS });
    await leaving;
    await refuseAll();
    assert.deepStrictEqual(socket.taken(), []);
    assert.deepStrictEqual(namesOf(events), isPending ? ['stored'] : []);
    assert.notStrictEqual(client.document(ADDRESS.c, ADDRESS.d), doc);
  }
});

test('a document that is requested again while it is being destroyed takes edits again', OPTIONS, async () => {
  const { client, doc, socket } = loaded();
  const leaving = doc.destroy();
  await assert.rejects(doc.submit(insert(0, 'x')), { code: 'ERR_CLOSED' });
  assert.strictEqual(client.document(ADDRESS.c, ADDRESS.d), doc);
  const edit = doc.submit(insert(0, 'y'));
  socket.answer(acknowledged(3, 1));
  assert.deepStrictEqual(await edit, { version: 3 });
  socket.answer({ a: 'u', ...ADDRESS });
  await leaving;
  holds(doc, 4, 'yabc');
});

test('destroy while disconnected: at once without pending edits, or if they are discarded', OPTIONS, async () => {
  const { client, doc, events } = loaded();
  client.disconnect();
  const edit = doc.submit(insert(3, 'd'));
  let isDone = false;
  const waiting = doc.destroy().then(() => (isDone = true));
  await flush();
  assert.strictEqual(isDone, false);
  await doc.destroy({ discard: true });
  await waiting;
  await assert.rejects(edit, { code: 'ERR_CLOSED' });
  assert.deepStrictEqual(events.map(([name, { contents }]) => [name, contents.length]), [['refused', 1]]);
  assert.deepStrictEqual([doc.state, doc.data], ['closed', 'abc']);
});

test('unsubscribed, and subscribed again', OPTIONS, async () => {
  const { doc, socket } = loaded();
  const leaving = doc.unsubscribe();
  assert.deepStrictEqual(socket.taken(), [{ a: 'u', ...ADDRESS }]);
  socket.answer({ a: 'u', ...ADDRESS });
  await leaving;
  await doc.unsubscribe();
  assert.deepStrictEqual(socket.taken(), []);
  const subscribing = doc.subscribe();
  assert.deepStrictEqual(socket.taken(), [{ a: 's', ...ADDRESS, v: 3 }]);
  socket.answer(stored(3, insert(0, 'x')), { a: 's', ...ADDRESS });
  await subscribing;
  holds(doc, 4, 'xabc');
  const all = loaded();
  const second = all.doc.unsubscribe();
  all.socket.close(1006);
  await second;
});

test('subscribed to twice: one subscription', OPTIONS, async () => {
  const { doc, socket } = loaded();
  assert.strictEqual(await doc.subscribe(), doc);
  assert.deepStrictEqual(socket.taken(), []);
});

test('a snapshot at a version, also over the next connection', OPTIONS, async () => {
  const all = loaded();
  const { client, doc, socket } = all;
  const [one, none, newer] = [doc.snapshot(2), client.snapshot('b', '2'), doc.snapshot(9)];
  const asked = socket.taken();
  assert.deepStrictEqual(asked.map(({ a, c, d, v }) => [a, c, d, v]), [
    ['nf', 'b', '1', 2],
    ['nf', 'b', '2', null],
    ['nf', 'b', '1', 9],
  ]);
  socket.answer({ a: 'nf', data: 'ab', id: asked[0].id, type: 'json0', v: 2 });
  socket.answer(refused('nf', NEWER, { id: asked[2].id }));
  assert.deepStrictEqual(await one, { version: 2, data: 'ab' });
  await assert.rejects(newer, { code: NEWER });
  const next = reconnected(all);
  assert.deepStrictEqual(next.taken()[0], asked[1]);
  next.answer({ a: 'nf', id: asked[1].id, type: null, v: 0 });
  assert.deepStrictEqual(await none, { version: 0, data: undefined });
});

test('a snapshot at a time', OPTIONS, async () => {
  const { client, doc, socket } = loaded();
  const [then, present] = [doc.snapshotAtTime(1700000000000), client.snapshotAtTime('b', '2')];
  const asked = socket.taken();
  assert.deepStrictEqual(asked.map(({ a, c, d, ts }) => [a, c, d, ts]), [
    ['nt', 'b', '1', 1700000000000],
    ['nt', 'b', '2', null],
  ]);
  socket.answer({ a: 'nt', data: 'ab', id: asked[0].id, type: 'json0', v: 2 });
  socket.answer({ a: 'nt', id: asked[1].id, type: null, v: 0 });
  assert.deepStrictEqual(await then, { version: 2, data: 'ab' });
  assert.deepStrictEqual(await present, { version: 0, data: undefined });
});

test('the stored operations from a version on', OPTIONS, async () => {
  const { doc, socket } = loaded();
  const listing = doc.operations(1);
  assert.deepStrictEqual(socket.taken(), [{ a: 'f', ...ADDRESS, v: 1 }]);
  socket.answer(stored(3, insert(0, 'x')));
  socket.answer(...[1, 2, 3].map((v) => stored(v, insert(0, 'x'))), { a: 'f', ...ADDRESS });
  assert.deepStrictEqual(await listing, [1, 2, 3].map((version) => ({ version, source: 'other', seq: version, op: insert(0, 'x') })));
  holds(doc, 4, 'xabc');
  const none = doc.operations(4);
  socket.answer({ a: 'f', ...ADDRESS });
  assert.deepStrictEqual(await none, []);
  const later = doc.operations(5);
  socket.answer(stored(4, insert(0, 'y')), { a: 'f', ...ADDRESS });
  assert.deepStrictEqual(await later, []);
  const refusal = doc.operations(9);
  socket.answer(refused('f', NEWER));
  await assert.rejects(refusal, { code: NEWER });
  assert.strictEqual(doc.state, 'live');
});

test('operations of two lists aren\'t mixed up', OPTIONS, async () => {
  const { doc, socket } = loaded();
  const lists = [doc.operations(2), doc.operations(0)];
  socket.answer(stored(2, insert(0, 'c')), { a: 'f', ...ADDRESS });
  socket.answer(storedCreate(0, ''), storedDelete(1), stored(2, insert(0, 'c')), { a: 'f', ...ADDRESS });
  const [one, all] = await Promise.all(lists);
  assert.deepStrictEqual(one.map(({ version }) => version), [2]);
  assert.deepStrictEqual(all.map(({ version, create, del, op }) => [version, Boolean(create), del, Boolean(op)]), [
    [0, true, undefined, false],
    [1, false, true, false],
    [2, false, undefined, true],
  ]);
});

test('a list that is requested while disconnected is received over the next connection', OPTIONS, async () => {
  const { client, doc, sockets } = loaded();
  client.disconnect();
  const listing = doc.operations(2);
  client.connect();
  const next = sockets.last();
  next.open();
  assert.deepStrictEqual(next.taken()[0], { a: 'f', ...ADDRESS, v: 2 });
  next.answer(stored(2, insert(0, 'c')), { a: 'f', ...ADDRESS });
  assert.strictEqual((await listing).length, 1);
});

test('whenNothingPending', OPTIONS, async () => {
  const { client, doc, socket } = loaded();
  let told = false;
  await doc.whenNothingPending();
  doc.submit(insert(3, 'd'));
  doc.whenNothingPending(() => (told = true));
  const all = client.whenNothingPending();
  await flush();
  assert.strictEqual(told, false);
  socket.answer(acknowledged(3, 1));
  await all;
  await flush();
  assert.strictEqual(told, true);
  client.disconnect();
  doc.submit(insert(0, 'x'));
  const undone = doc.whenNothingPending();
  doc.submit([{ p: [0], sd: 'x' }]);
  await undone;
});

test('an edit before the document is loaded is refused', OPTIONS, async () => {
  const { doc } = started();
  await assert.rejects(doc.submit(insert(0, 'x')), { name: 'Refusal', code: 'ERR_NOT_LOADED' });
  await assert.rejects(doc.createIfAbsent('x'), { code: 'ERR_NOT_LOADED' });
  await assert.rejects(doc.remove(), { code: 'ERR_NOT_LOADED' });
});

test('names are checked', OPTIONS, () => {
  const { client, sockets } = started();
  for (const bad of ['', 'x'.repeat(201), 'é'.repeat(101), '\ud83d', 1, undefined]) {
    assert.throws(() => client.document(bad, '1'), /1 to 200 bytes/);
    assert.throws(() => client.document('b', bad), /1 to 200 bytes/);
  }
  assert.strictEqual(client.document('é'.repeat(100), 'x'.repeat(200)).id.length, 200);
  assert.throws(() => new Client('ws://test', { WebSocket: null }), /hand one over/);
  assert.throws(() => new Client('ws://test', { WebSocket: sockets.WebSocket, source: '' }), /1 to 200 bytes/);
});

test('two documents with the same id in two collections are two', OPTIONS, () => {
  const { client, doc, socket } = loaded();
  const other = client.document('other', ADDRESS.d);
  assert.notStrictEqual(other, doc);
  assert.strictEqual(client.document(ADDRESS.c, ADDRESS.d), doc);
  assert.deepStrictEqual([other.collection, other.id, other.source], ['other', '1', 'me']);
  socket.answer({ ...stored(3, insert(0, 'x')), c: 'other' }, { ...stored(3, insert(0, 'x')), d: '2' });
  assert.strictEqual(doc.version, 3);
});

test('a projection is a document of its own collection', OPTIONS, () => {
  const { client, socket } = scriptedProjection();
  const doc = client.document('title', '1');
  doc.subscribe();
  socket.answer({ a: 's', c: 'title', d: '1', data: { data: { name: 'Plan' }, v: 1 } });
  socket.answer({ a: 'op', c: 'title', d: '1', v: 1, src: 'me', seq: 9, op: [] });
  holds(doc, 2, { name: 'Plan' });
});

function scriptedProjection() {
  const sockets = scripted();
  const client = new Client('ws://test', { source: 'me', WebSocket: sockets.WebSocket, heartbeat: 1e9 });
  sockets.last().open();
  setImmediate(() => client.close());
  return { client, socket: sockets.last() };
}

test('a subscription is complete once all requests for it are answered', OPTIONS, async () => {
  const { doc, socket } = started();
  const first = doc.subscribe();
  doc.unsubscribe();
  const second = doc.subscribe();
  let isDone = false;
  second.then(() => (isDone = true));
  await assert.rejects(first, { code: 'ERR_CLOSED' });
  assert.deepStrictEqual(socket.taken(), [{ a: 's', ...ADDRESS, v: null }, { a: 'u', ...ADDRESS }]);
  socket.answer({ a: 's', ...ADDRESS, data: { data: 'abc', v: 3 } });
  assert.deepStrictEqual(socket.taken(), [{ a: 's', ...ADDRESS, v: 3 }]);
  await flush();
  assert.strictEqual(isDone, false);
  socket.answer({ a: 'u', ...ADDRESS });
  await flush();
  assert.strictEqual(isDone, false);
  socket.answer({ a: 's', ...ADDRESS });
  await second;
});

test('an absent document after a reconnect', OPTIONS, () => {
  const all = absent();
  const next = reconnected(all);
  assert.deepStrictEqual([all.doc.state, next.taken()], ['catching up', [{ a: 's', ...ADDRESS, v: 0 }]]);
  next.answer(storedCreate(0, 'x'), { a: 's', ...ADDRESS });
  holds(all.doc, 1, 'x');
});

test('a fetch is served after a verification that fails, and after a subscription that is refused', OPTIONS, async () => {
  const answers = [
    [stored(3, insert(0, 'q'), 'stranger'), { a: 's', ...ADDRESS }],
    [refused('s', NEWER)],
    [refused('s', 'ERR_LIMIT')],
  ];
  for (const [at, messages] of answers.entries()) {
    const { client, doc, socket, sockets } = loaded();
    socket.answer(stored(3, insert(0, 'x')));
    client.disconnect();
    const fetching = doc.fetch();
    client.connect();
    const next = sockets.last();
    next.open();
    next.taken();
    next.answer(...messages);
    const [{ a, v }] = next.taken();
    assert.deepStrictEqual([a, v], [['s', null], ['s', null], ['f', 3]][at]);
    if (v === 3) next.answer(stored(3, insert(0, 'x')), { a, ...ADDRESS });
    else next.answer({ a, ...ADDRESS, data: { data: 'new', v: 9 } });
    assert.strictEqual(await fetching, doc);
  }
});

test('a fetch is served after a subscription that is no longer wanted', OPTIONS, async () => {
  const { client, clock, doc, socket, sockets } = started({ connect: false });
  assert.strictEqual(socket, undefined);
  const fetching = doc.fetch();
  const subscribing = doc.subscribe();
  client.connect();
  const next = sockets.last();
  next.open();
  next.answer(refused('s', 'ERR_OUT_OF_MEMORY'));
  doc.unsubscribe();
  await assert.rejects(subscribing, { code: 'ERR_CLOSED' });
  next.taken();
  clock.advance(SOON);
  assert.deepStrictEqual(next.taken(), [{ a: 'f', ...ADDRESS }]);
  next.answer({ a: 'f', ...ADDRESS, data: { data: 'abc', v: 3 } });
  await fetching;
});

test('a comparison that is refused: what waits for the document is refused', OPTIONS, async () => {
  const { client, doc, socket, sockets } = started();
  doc.fetch();
  socket.answer({ a: 'f', ...ADDRESS, data: { type: null, v: 3 } });
  const made = doc.createIfAbsent('x');
  socket.answer(refused('op', 'ERR_DOC_ALREADY_CREATED', { seq: 1, src: 'me' }));
  await flush();
  client.disconnect();
  const fetching = doc.fetch();
  client.connect();
  const next = sockets.last();
  next.open();
  const [{ id }] = next.taken();
  next.answer(refused('nf', 'ERR_MESSAGE_BADLY_FORMED', { id }));
  for (const one of [made, fetching]) await assert.rejects(one, { code: 'ERR_MESSAGE_BADLY_FORMED' });
});

test('an operation that was stored after an allocation failure is not sent again', OPTIONS, () => {
  const { clock, doc, socket } = loaded();
  doc.submit(insert(3, 'd'));
  socket.answer(refused('op', 'ERR_OUT_OF_MEMORY', { src: 'me', seq: 1 }), acknowledged(3, 1));
  socket.taken();
  clock.advance(SOON);
  assert.deepStrictEqual(socket.taken(), []);
  doc.submit(insert(3, 'e'));
  socket.answer(refused('op', 'ERR_OUT_OF_MEMORY', { src: 'me', seq: 2 }), acknowledged(4, 2));
  doc.submit(insert(3, 'f'));
  assert.strictEqual(socket.taken().length, 2);
  clock.advance(SOON);
  assert.deepStrictEqual(socket.taken(), []);
});

test('a document is destroyed after requests that were sent again, compared or lost', OPTIONS, async () => {
  const again = loaded();
  const listing = again.doc.operations(1);
  again.socket.answer(refused('f', 'ERR_OUT_OF_MEMORY'));
  again.clock.advance(SOON);
  again.socket.answer({ a: 'f', ...ADDRESS });
  await listing;
  const all = loaded();
  const fetching = all.doc.fetch();
  all.socket.answer(refused('f', 'ERR_OUT_OF_MEMORY'));
  const next = reconnected(all);
  assert.strictEqual(next.taken().length, 1);
  const last = reconnected({ ...all, socket: next });
  assert.strictEqual(last.sent.filter(({ a }) => a === 'nf').length, 1);
  compared(last);
  last.answer({ a: 's', ...ADDRESS });
  await fetching;
  for (const { doc, socket } of [again, { ...all, socket: last }]) {
    const leaving = doc.destroy();
    await flush();
    socket.answer({ a: 'u', ...ADDRESS });
    await leaving;
    assert.strictEqual(doc.state, 'closed');
  }
  const lost = loaded();
  const once = reconnected(lost);
  assert.strictEqual(once.taken().length, 1);
  lost.doc.unsubscribe();
  reconnected({ ...lost, socket: once });
  await lost.doc.destroy();
  assert.strictEqual(lost.doc.state, 'closed');
});

test('an operation that the client expected to be refused is received as a stored one', OPTIONS, async () => {
  const most = Number.MAX_SAFE_INTEGER;
  const all = loaded({ n: most - 1 });
  const { doc, events, socket } = all;
  const edits = [doc.submit([{ p: ['n'], na: 1 }]), doc.submit([{ p: ['k'], oi: 1 }])];
  socket.answer(stored(3, [{ p: ['n'], na: 1 }]));
  const next = reconnected(all);
  next.taken();
  next.answer(stored(3, [{ p: ['n'], na: 1 }]), stored(4, [{ p: ['o'], oi: 1 }], 'me', 1), { a: 's', ...ADDRESS });
  assert.deepStrictEqual(await edits[0], { version: 4 });
  await assert.rejects(edits[1], { name: 'Refusal' });
  holds(doc, 5, { n: most, o: 1 });
  assert.deepStrictEqual(namesOf(events), ['stored', 'refused']);
});

test('a document that is loaded anew while edits wait: they are refused', OPTIONS, async () => {
  const { client, doc, events, sockets } = loaded('wrong');
  client.disconnect();
  const edit = doc.submit(insert(0, '-'));
  client.connect();
  const next = sockets.last();
  next.open();
  compared(next, 'wrong');
  next.answer(stored(3, [{ p: [0], sd: 'right' }]), { a: 's', ...ADDRESS });
  await assert.rejects(edit, { code: 'ERR_OT_OP_NOT_APPLIED' });
  assert.deepStrictEqual(namesOf(events), ['refused', 'healed']);
});

test('after a restart the documents are compared at the next reconnect', OPTIONS, () => {
  const all = loaded();
  all.socket.answer(stored(3, insert(0, 'x')));
  const next = reconnected(all);
  next.answer(refused('s', NEWER), { a: 's', ...ADDRESS, data: { data: 'new', v: 2 } });
  next.taken();
  const last = reconnected({ ...all, socket: next });
  assert.deepStrictEqual(last.taken().map(({ a, v }) => [a, v]), [['nf', 2]]);
});

test('waiting edits are composed up to 64 components and 65,536 characters', OPTIONS, () => {
  const { client, doc } = loaded({ l: [], t: '' });
  client.disconnect();
  for (let at = 0; at < 70; at += 1) doc.submit([{ p: ['l', at], li: at }]);
  assert.strictEqual(doc.pending, 2);
  const text = loaded({ t: '' });
  text.client.disconnect();
  for (let at = 0; at < 4; at += 1) text.doc.submit([{ p: ['t', 0], si: 'x'.repeat(30000) }]);
  assert.strictEqual(text.doc.pending, 2);
  for (let at = 0; at < 4; at += 1) text.doc.submit([{ p: ['t', 0], si: 'x'.repeat(1000) }]);
  assert.strictEqual(text.doc.pending, 2);
});

test('an edit that is discarded after its acknowledgement: its content is requested', OPTIONS, async () => {
  const { client, doc, socket } = loaded();
  const edit = doc.submit(insert(3, 'd'));
  socket.answer(acknowledged(4, 1));
  doc.destroy({ discard: true });
  assert.strictEqual(client.document(ADDRESS.c, ADDRESS.d), doc);
  await assert.rejects(edit, { code: 'ERR_CLOSED' });
  socket.taken();
  socket.answer(stored(3, insert(0, 'x')));
  assert.deepStrictEqual([doc.version, doc.data, socket.taken()], [4, 'xabc', [{ a: 's', ...ADDRESS, v: 4 }]]);
  socket.answer(stored(4, insert(4, 'd'), 'me', 1), { a: 's', ...ADDRESS }, { a: 's', ...ADDRESS });
  holds(doc, 5, 'xabcd');
});

test('the components of a message fill it up to its limit', OPTIONS, () => {
  const settings = { collection: 'é"', id: '1', source: 'me', nextNumber: () => 1, now: () => 0 };
  const machine = new Machine(settings);
  const component = { p: ['t', 0], si: '' };
  component.si = 'x'.repeat(machine.room - bytesOf(JSON.stringify(component)));
  const text = machine.textOf({ op: [component] }, Number.MAX_SAFE_INTEGER, Number.MAX_SAFE_INTEGER);
  assert.strictEqual(bytesOf(text), 1048576);
});

test('operations that are received before the document they apply to', OPTIONS, () => {
  const { doc, socket } = started();
  doc.subscribe();
  socket.taken();
  socket.answer(stored(3, insert(0, 'x')), stored(4, insert(0, 'y')), { a: 's', ...ADDRESS, data: { data: 'xabc', v: 4 } });
  holds(doc, 5, 'yxabc');
  socket.answer(stored(5, insert(0, 'z')));
  holds(doc, 6, 'zyxabc');
  assert.deepStrictEqual(socket.taken(), []);
});

test('`data` is the document after the operation while its events are emitted', OPTIONS, () => {
  const all = loaded();
  const { doc, socket } = all;
  const told = [];
  doc.on('op', ({ data }) => told.push([data, doc.data, doc.version]));
  socket.answer(stored(4, insert(0, 'y')), stored(5, insert(0, 'z')));
  socket.taken();
  socket.answer(stored(3, insert(0, 'x')));
  assert.deepStrictEqual(told, [['xabc', 'xabc', 4], ['yxabc', 'yxabc', 5], ['zyxabc', 'zyxabc', 6]]);
  const next = reconnected(all);
  next.answer(stored(5, insert(0, 'z')), stored(6, insert(0, '1')), stored(7, insert(0, '2')), { a: 's', ...ADDRESS });
  assert.deepStrictEqual(told.slice(3), [['1zyxabc', '1zyxabc', 7], ['21zyxabc', '21zyxabc', 8]]);
});

test('an edit is sent once all operations that were received are processed', OPTIONS, () => {
  const { client, doc, socket, sockets } = loaded();
  socket.answer(stored(3, insert(0, 'x')));
  client.disconnect();
  doc.submit(insert(4, '!'));
  client.connect();
  const next = sockets.last();
  next.open();
  next.taken();
  next.answer(stored(3, insert(0, 'x')), stored(4, insert(0, 'y')), stored(5, insert(0, 'z')), { a: 's', ...ADDRESS });
  assert.deepStrictEqual(next.taken(), [{ a: 'op', ...ADDRESS, v: 6, src: 'me', seq: 1, op: insert(6, '!') }]);
});

test('a report that throws doesn\'t stop later events', OPTIONS, () => {
  const { doc, socket } = loaded();
  let calls = 0;
  doc.on('version', () => {
    calls += 1;
    throw new Error('a listener');
  });
  globalThis.reportError = () => {
    throw new Error('a report');
  };
  assert.throws(() => socket.answer(stored(3, insert(0, 'x'))), /a report/);
  globalThis.reportError = () => {};
  socket.answer(stored(4, insert(0, 'y')));
  delete globalThis.reportError;
  assert.strictEqual(calls, 2);
  holds(doc, 5, 'yxabc');
});

test('a document that is being compared is destroyed after the answer', OPTIONS, async () => {
  const all = loaded();
  const next = reconnected(all);
  let isDone = false;
  const leaving = all.doc.destroy().then(() => (isDone = true));
  await flush();
  assert.strictEqual(isDone, false);
  compared(next);
  next.answer({ a: 'f', ...ADDRESS });
  await leaving;
  assert.strictEqual(all.doc.state, 'closed');
});

test('two clients delete the document: both deletes are stored', OPTIONS, async () => {
  const { doc, socket } = loaded();
  const gone = doc.remove();
  socket.answer(storedDelete(3));
  assert.deepStrictEqual([doc.version, doc.data, doc.pending], [4, undefined, 1]);
  socket.answer(acknowledged(4, 1));
  assert.deepStrictEqual(await gone, { version: 4 });
  holds(doc, 5, undefined);
});

test('a delete of an absent document that another client creates is refused', OPTIONS, async () => {
  const { doc, socket } = absent();
  const gone = doc.remove();
  socket.answer(storedCreate(0, 'theirs'));
  assert.deepStrictEqual([doc.version, doc.data], [1, 'theirs']);
  socket.answer(refused('op', 'ERR_DOC_ALREADY_CREATED', { src: 'me', seq: 1 }));
  await assert.rejects(gone, { code: 'ERR_DOC_ALREADY_CREATED' });
  holds(doc, 1, 'theirs');
});
