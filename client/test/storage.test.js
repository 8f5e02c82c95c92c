/* A client with a storage in memory: what it keeps, what the next client sends, and a storage that fails. */

import assert from 'node:assert';
import fs from 'node:fs';
import { test } from 'node:test';
import { Client, Cluster, bucketOf, customStorage } from '../src/index.js';
import { ManualClock, flush } from './support/clock.js';
import { Disk } from './support/disk.js';
import { Net } from './support/net.js';
import { OPTIONS } from './support/options.js';
import { ADDRESS, acknowledged, insert, refused, scripted, stored } from './support/scripted.js';

async function perform(disk) {
  for (let quiet = 0; quiet < 3; quiet += 1) {
    while (disk.calls.length > 0) {
      disk.step();
      await flush();
      quiet = 0;
    }
    await flush();
  }
}

// The model's server, a storage, and clients of it.
class World {
  constructor() {
    this.net = new Net();
    this.disk = new Disk();
    this.ben = this.net.client('ben').doc;
    this.ben.subscribe();
    this.net.deliver();
  }

  async create(data) {
    this.ben.create(data);
    await this.settle();
  }

  async settle() {
    for (let round = 0; round < 6; round += 1) {
      await perform(this.disk);
      this.net.deliver();
      await flush();
      this.net.clock.advance(1);
    }
  }

  // Returns a client of a process. `end` ends the process, and takes its connection.
  client(options = {}) {
    const { process, methods } = this.disk.process();
    const events = [];
    const links = [];
    const { net } = this;
    const WebSocket = class extends net.WebSocket {
      constructor() {
        super();
        links.push(this);
      }
    };
    const made = net.client(undefined, { WebSocket, storage: customStorage(methods), ...options });
    for (const name of ['error', 'refused']) made.client.on(name, (detail) => events.push([name, detail]));
    const names = ['restarted', 'refused', 'healed', 'error', 'load'];
    for (const name of names) made.doc.on(name, (detail) => events.push([name, detail]));
    const cut = () => links.forEach((link) => {
      Object.assign(link, { onclose: null, onmessage: null });
      net.cut(link);
    });
    const end = () => {
      cut();
      this.disk.end(process);
    };
    return { ...made, process, events, links, end };
  }

  get keys() {
    return [...this.disk.texts.keys()].map((key) => key.split('/').slice(2).join('/'));
  }

  get pendingKeys() {
    return this.keys.filter((key) => /^(sent|wait)/.test(key)).sort();
  }
}

async function started(data = { t: 'abc', n: 0 }) {
  const world = new World();
  await world.create(data);
  return world;
}

const namesOf = (events) => events.map(([name]) => name);

test('without a connection a document is shown from the storage, with its edits', OPTIONS, async () => {
  const world = await started();
  const first = world.client();
  first.doc.subscribe();
  await world.settle();
  first.client.disconnect();
  first.doc.add(['n'], 1);
  first.doc.insert(['t'], 3, 'd');
  await world.settle();
  first.end();
  const second = world.client({ connect: false });
  const { doc } = second;
  const changes = [];
  doc.on('change', ({ operation, data }) => changes.push([operation, data]));
  assert.deepStrictEqual([doc.version, doc.data, doc.state], [null, undefined, 'offline']);
  let isStored = false;
  const stored = second.client.whenNothingPending().then(() => (isStored = true));
  await assert.rejects(doc.add(['n'], 1), { code: 'ERR_NOT_LOADED' });
  await world.settle();
  assert.deepStrictEqual([doc.version, doc.data, doc.confirmed], [1, { t: 'abcd', n: 1 }, { t: 'abc', n: 0 }]);
  assert.deepStrictEqual(changes, [[null, { t: 'abcd', n: 1 }]]);
  assert.deepStrictEqual(namesOf(second.events), ['load']);
  doc.add(['n'], 10);
  await world.settle();
  second.client.connect();
  assert.strictEqual(isStored, false);
  await world.settle();
  await stored;
  assert.deepStrictEqual(world.net.stored.data[world.net.stored.log.length], { t: 'abcd', n: 11 });
  assert.deepStrictEqual([world.pendingKeys, doc.state], [[], 'live']);
});

test('what is in flight keeps its source and number, and is stored once', OPTIONS, async () => {
  const world = await started();
  const first = world.client();
  first.doc.subscribe();
  await world.settle();
  first.doc.add(['n'], 1);
  await perform(world.disk);
  const [link] = first.links;
  assert.strictEqual(link.up.length, 1);
  const sent = JSON.parse(link.up[0]);
  world.net.up(link); // (stored, and never acknowledged)
  first.doc.add(['n'], 10);
  await perform(world.disk);
  first.end();
  const second = world.client();
  assert.notStrictEqual(second.client.source, sent.src);
  second.doc.subscribe();
  await world.settle();
  const { log, data } = world.net.stored;
  const own = log.slice(1).map(({ src, seq }) => [src, seq]);
  assert.deepStrictEqual(own, [[sent.src, sent.seq], [second.client.source, 1]]);
  assert.deepStrictEqual([data[3], second.doc.data], [{ t: 'abc', n: 11 }, { t: 'abc', n: 11 }]);
  assert.deepStrictEqual(world.pendingKeys, []);
});

test('an edit is sent only once it is saved, as one write with all edits of its tick', OPTIONS, async () => {
  for (const batch of [true, false]) {
    const world = await started();
    const { doc, links } = world.client({ batch });
    doc.subscribe();
    await world.settle();
    world.disk.writes = 0;
    const edits = [doc.add(['n'], 1), doc.insert(['t'], 0, 'x')];
    await flush();
    assert.deepStrictEqual([links[0].up.length, doc.data.n, doc.pending], [0, 1, batch ? 1 : 2]);
    assert.strictEqual(world.disk.calls.length, 1);
    world.disk.step();
    await flush();
    assert.deepStrictEqual([links[0].up.length, world.disk.writes], [1, 1]);
    await world.settle();
    await Promise.all(edits);
  }
});

test('a connection that is lost before an edit is saved: it is sent over the next one', OPTIONS, async () => {
  const world = await started();
  const { doc, links } = world.client();
  doc.subscribe();
  await world.settle();
  doc.add(['n'], 1);
  await flush();
  world.net.cut(links[0]);
  await perform(world.disk);
  await world.settle();
  assert.deepStrictEqual([doc.data.n, doc.pending, world.net.stored.log.length], [1, 0, 2]);
});

test('an edit that is sent again with another base version is saved before', OPTIONS, async () => {
  const { WebSocket, last } = scripted();
  const disk = new Disk();
  const clock = new ManualClock();
  const { methods } = disk.process();
  const client = new Client('ws://test', { WebSocket, clock, storage: customStorage(methods), batch: false, heartbeat: 1e9 });
  const doc = client.document(ADDRESS.c, ADDRESS.d);
  doc.subscribe();
  await perform(disk);
  last().open();
  last().answer({ a: 's', ...ADDRESS, data: { data: 'abc', v: 3 } });
  doc.submit(insert(3, 'd'));
  await perform(disk);
  const [, first] = last().taken();
  last().answer(stored(3, insert(0, 'x')), refused('op', 'ERR_OUT_OF_MEMORY', { src: first.src, seq: first.seq }));
  clock.advance(1000);
  await flush();
  assert.deepStrictEqual(last().taken(), []);
  await perform(disk);
  const [again] = last().taken();
  assert.deepStrictEqual([again.v, again.seq, again.op], [4, first.seq, insert(4, 'd')]);
  const [text] = [...disk.texts].filter(([key]) => key.endsWith('/sent')).map(([, value]) => value);
  assert.deepStrictEqual(JSON.parse(JSON.parse(text).text), again);
  last().answer({ ...acknowledged(4, first.seq), src: first.src });
  assert.deepStrictEqual([doc.version, doc.data, doc.pending], [5, 'xabcd', 0]);
});

test('what was saved of a dropped edit lets no other edit be sent', OPTIONS, async () => {
  const world = await started();
  const { client, doc, links } = world.client({ batch: false });
  doc.subscribe();
  await world.settle();
  doc.add(['n'], 1);
  await flush();
  doc.destroy({ discard: true });
  assert.strictEqual(client.document('b', '1'), doc);
  doc.add(['n'], 10);
  world.disk.step();
  await flush();
  assert.strictEqual(links[0].up.filter((text) => text.startsWith('{"a":"op"')).length, 0);
  await world.settle();
  assert.deepStrictEqual([world.net.stored.data[2].n, doc.data.n, doc.pending], [10, 10, 0]);
});

test('the next client checks the last operation that was seen', OPTIONS, async () => {
  const world = await started();
  const first = world.client();
  first.doc.subscribe();
  await world.settle();
  world.ben.add(['n'], 1);
  await world.settle();
  world.net.clock.advance(1000);
  await world.settle();
  first.end();
  const second = world.client();
  second.doc.subscribe();
  await perform(world.disk);
  const [link] = second.links;
  for (let round = 0; round < 2; round += 1) {
    world.net.up(link);
    world.net.down(link);
  }
  assert.deepStrictEqual(link.up.map(JSON.parse).map(({ a, v }) => [a, v]), [['s', 1]]);
  await world.settle();
  assert.deepStrictEqual([second.doc.version, second.doc.data.n], [2, 1]);
});

test('of several records the next client takes one with edits, also if another one is newer', OPTIONS, async () => {
  const world = await started();
  const tabs = [world.client(), world.client()];
  for (const { doc } of tabs) doc.subscribe();
  await world.settle();
  for (const [edited, newer] of [tabs, tabs.slice().reverse()]) {
    edited.client.disconnect();
    edited.doc.insert(['t'], 0, 'x');
    world.ben.add(['n'], 1);
    await world.settle();
    world.net.clock.advance(1000);
    await world.settle();
    if (edited === tabs[0]) {
      edited.client.connect();
      await world.settle();
      world.net.clock.advance(1000);
      await world.settle();
    }
    assert.ok(newer.doc.version >= edited.doc.version);
  }
  for (const { end } of tabs) end();
  const next = world.client({ connect: false });
  await world.settle();
  assert.deepStrictEqual([next.doc.pending, next.doc.data.t], [1, 'xxabc']);
});

test('a second tab begins with the document of the first, and each sends its own edits', OPTIONS, async () => {
  const world = await started();
  const first = world.client();
  first.doc.subscribe();
  await world.settle();
  first.client.disconnect();
  first.doc.add(['n'], 1);
  await world.settle();
  const second = world.client({ connect: false });
  await world.settle();
  assert.deepStrictEqual([second.doc.version, second.doc.data, second.doc.pending], [1, { t: 'abc', n: 0 }, 0]);
  second.doc.add(['n'], 10);
  await world.settle();
  for (const { client } of [first, second]) client.connect();
  await world.settle();
  const { log, data } = world.net.stored;
  assert.deepStrictEqual([log.length, data[3].n], [3, 11]);
  const sources = [first, second].map(({ client }) => client.source);
  assert.deepStrictEqual(log.slice(1).map(({ src }) => src).sort(), sources.sort());
});

test('two tabs that ended with edits: the next one shows those of one, and sends both', OPTIONS, async () => {
  const world = await started();
  const tabs = [world.client(), world.client()];
  for (const { doc } of tabs) doc.subscribe();
  await world.settle();
  tabs.forEach(({ client, doc }, at) => {
    client.disconnect();
    doc.add(['n'], 10 ** at);
    doc.insert(['t'], 3, `${at}`);
  });
  await world.settle();
  for (const { end } of tabs) end();
  const next = world.client();
  next.doc.subscribe();
  await perform(world.disk);
  assert.ok([1, 10].includes(next.doc.data.n));
  await world.settle();
  await world.settle();
  assert.deepStrictEqual([next.doc.data.n, next.doc.data.t.length], [11, 5]);
  assert.deepStrictEqual(world.net.stored.log.length, next.doc.version);
  assert.deepStrictEqual([world.pendingKeys, world.disk.holders.size, world.net.links.length], [[], 1, 2]);
});

test('a tab that ends with edits while another one is open: that one sends them at its next sign of life', OPTIONS, async () => {
  const world = await started();
  const [stays, ends] = [world.client(), world.client()];
  for (const { doc } of [stays, ends]) doc.subscribe();
  await world.settle();
  ends.client.disconnect();
  ends.doc.add(['n'], 1);
  await world.settle();
  ends.end();
  await world.settle();
  assert.deepStrictEqual(stays.doc.data.n, 0);
  world.net.clock.advance(1e9);
  await world.settle();
  assert.deepStrictEqual([stays.doc.data.n, world.pendingKeys], [1, []]);
});

test('a connection for edits of a closed tab that is lost: the next one sends them', OPTIONS, async () => {
  const world = await started();
  const { clock } = world.net;
  const [stays, ends] = [world.client({ heartbeat: 20000 }), world.client()];
  for (const { doc } of [stays, ends]) doc.subscribe();
  await world.settle();
  ends.client.disconnect();
  ends.doc.add(['n'], 1);
  await world.settle();
  ends.end();
  const beat = async () => {
    clock.advance(20000);
    await perform(world.disk);
    world.net.up(stays.links[0]);
    world.net.down(stays.links[0]);
  };
  for (let lost = 0; lost < 3; lost += 1) {
    await beat();
    assert.strictEqual(world.net.links.length, 3);
    world.net.cut(world.net.links[2]);
    await perform(world.disk);
    assert.deepStrictEqual([world.net.links.length, world.disk.holders.size], [2, 1]);
  }
  await beat();
  assert.strictEqual(world.net.links.length, 3);
  const closed = stays.client.close();
  await perform(world.disk);
  await closed;
  assert.deepStrictEqual([world.net.links.length, world.disk.holders.size, world.pendingKeys.length], [1, 0, 1]);
  assert.deepStrictEqual(clock.timers.filter(({ at }) => at < clock.time + 1e8), []);
  const next = world.client();
  await world.settle();
  assert.deepStrictEqual([next.doc.data.n, world.pendingKeys], [1, []]);
});

test('edits of documents that nobody opens are sent, and what is refused of them is reported', OPTIONS, async () => {
  const world = await started();
  const first = world.client();
  const other = first.client.document('b', '2');
  other.fetch();
  await world.settle();
  other.create({ n: 0 });
  first.doc.subscribe();
  await world.settle();
  first.client.disconnect();
  other.add(['n'], 5);
  first.doc.add(['n'], 1);
  first.doc.set(['gone'], 1);
  world.ben.remove();
  await world.settle();
  first.end();
  const { process, methods } = world.disk.process();
  const storage = customStorage(methods);
  const listed = storage.documents();
  await perform(world.disk);
  assert.deepStrictEqual(await listed, [{ collection: 'b', id: '1', pending: true }, { collection: 'b', id: '2', pending: true }]);
  const { WebSocket, clock } = world.net;
  const client = new Client('ws://model', { WebSocket, clock, storage, heartbeat: 1e9 });
  const told = [];
  client.on('refused', ({ collection, id, error, contents }) => told.push([collection, id, error.code, contents[0].op.length]));
  await world.settle();
  await world.settle();
  assert.deepStrictEqual(world.net.server.document('b', '2').data[2], { n: 5 });
  assert.deepStrictEqual(told, [['b', '1', 'ERR_DOC_WAS_DELETED', 2]]);
  assert.deepStrictEqual([world.pendingKeys, process.isOver], [[], false]);
  assert.notStrictEqual(client.document('b', '2'), other);
});

test('a server that has lost the document: the edits are reported', OPTIONS, async () => {
  for (const isSeen of [true, false]) {
    const world = await started({ n: 0 });
    const first = world.client();
    first.doc.subscribe();
    await world.settle();
    if (isSeen) world.ben.add(['n'], 1);
    await world.settle();
    world.net.clock.advance(1000);
    await world.settle();
    first.client.disconnect();
    first.doc.add(['n'], 5);
    first.doc.set(['k'], 1);
    await world.settle();
    first.end();
    world.net.restart();
    await world.settle();
    const second = world.client();
    second.doc.subscribe();
    await world.settle();
    const [, refusal] = second.events.find(([name]) => name === 'refused');
    assert.strictEqual(refusal.error.code, 'ERR_SERVER_RESTARTED');
    const [, { data, contents }] = second.events.find(([name]) => name === 'restarted');
    assert.deepStrictEqual(data, { n: isSeen ? 1 : 0 });
    assert.deepStrictEqual(contents.flatMap(({ op }) => op), [{ p: ['n'], na: 5 }, { p: ['k'], oi: 1 }]);
    assert.deepStrictEqual([second.doc.version, second.doc.data, world.pendingKeys], [0, undefined, []]);
  }
});

test('an edit of an earlier start that the server refuses is reported with those made on it', OPTIONS, async () => {
  const world = await started({ n: Number.MAX_SAFE_INTEGER - 1, k: 0 });
  const first = world.client();
  first.doc.subscribe();
  await world.settle();
  first.doc.add(['n'], 1);
  first.doc.add(['k'], 1);
  world.ben.add(['n'], 1);
  await perform(world.disk);
  const [, ben] = [first.links[0], world.net.links.find((link) => link !== first.links[0])];
  world.net.up(ben);
  world.net.down(first.links[0]); // (now the client expects a refusal)
  await perform(world.disk);
  assert.strictEqual(first.doc.data.k, 0);
  first.end();
  const second = world.client();
  second.doc.subscribe();
  await world.settle();
  const [, { error, contents }] = second.events.find(([name]) => name === 'refused');
  assert.deepStrictEqual([error.code, contents.length], ['ERR_OT_OP_NOT_APPLIED', 2]);
  assert.deepStrictEqual([second.doc.data.k, world.pendingKeys], [0, []]);
});

test('`close` is fulfilled when the storage has the edits, and keeps the lock until then', OPTIONS, async () => {
  const world = await started();
  const first = world.client();
  first.doc.subscribe();
  await world.settle();
  const edit = first.doc.add(['n'], 1);
  let isClosed = false;
  const closed = first.client.close().then(() => (isClosed = true));
  await assert.rejects(edit, { code: 'ERR_CLOSED' });
  await flush();
  assert.deepStrictEqual([isClosed, world.disk.holders.size, world.pendingKeys], [false, 1, []]);
  await perform(world.disk);
  await closed;
  assert.deepStrictEqual([world.disk.holders.size, world.pendingKeys.length], [0, 1]);
  assert.ok(!namesOf(first.events).includes('refused'));
  const second = world.client();
  await world.settle();
  assert.deepStrictEqual([second.doc.data.n, world.net.stored.log.length], [1, 2]);
});

test('`destroy` keeps the document in the storage, or forgets it; `discard` drops its edits there too', OPTIONS, async () => {
  for (const [options, left, isPending] of [[{}, ['base'], false], [{ forget: true }, [], false], [{ discard: true }, ['base'], true]]) {
    const world = await started();
    const { client, doc, events } = world.client();
    doc.subscribe();
    await world.settle();
    world.ben.add(['n'], 1);
    await world.settle();
    if (isPending) client.disconnect();
    doc.add(['n'], 1);
    const destroyed = doc.destroy(options);
    await world.settle();
    await destroyed;
    assert.deepStrictEqual(world.keys.filter((key) => !key.startsWith('log')), left);
    assert.deepStrictEqual([world.keys.length > 0, world.disk.holders.size], [left.length > 0, 0]);
    assert.strictEqual(namesOf(events).includes('refused'), isPending);
    const again = client.document('b', '1');
    await world.settle();
    assert.deepStrictEqual(again.version, left.length > 0 ? (isPending ? 2 : 3) : null);
  }
});

test('`destroy({ discard: true })` before the storage is read drops what it has', OPTIONS, async () => {
  const world = await started();
  const first = world.client();
  first.doc.subscribe();
  await world.settle();
  first.client.disconnect();
  first.doc.add(['n'], 1);
  await world.settle();
  first.end();
  const second = world.client();
  const destroyed = second.doc.destroy({ discard: true });
  await world.settle();
  await destroyed;
  assert.deepStrictEqual([world.pendingKeys, world.net.stored.log.length], [[], 1]);
  assert.ok(namesOf(second.events).includes('refused'));
});

test('a long log is written as one document, from which the next client continues', OPTIONS, async () => {
  const world = await started({ t: '', l: [] });
  const first = world.client();
  first.doc.subscribe();
  await world.settle();
  let most = 0;
  for (let made = 0; made < 580; made += 1) {
    world.ben.insert(['l'], 0, made);
    world.net.deliver();
    if (made % 20 > 0) continue;
    world.net.clock.advance(1000);
    await perform(world.disk);
    most = Math.max(most, world.keys.filter((key) => key.startsWith('log')).length);
  }
  const logged = world.keys.filter((key) => key.startsWith('log')).length;
  assert.ok(most > 400 && logged < 100, `${most} and ${logged} operations`);
  first.end();
  const second = world.client({ connect: false });
  await world.settle();
  const { log, data } = world.net.stored;
  const { version } = second.doc;
  assert.ok(version > log.length - 20, `${version} of ${log.length}`);
  assert.deepStrictEqual(second.doc.data, data[version]);
});

test('parts of an edit and further edits keep their order over starts', OPTIONS, async () => {
  const world = await started({ t: 'x'.repeat(1000), u: '' });
  const first = world.client();
  first.doc.subscribe();
  await world.settle();
  first.client.disconnect();
  first.doc.preventCompose = true;
  first.doc.removeRange(['t'], 0, 1000);
  first.doc.insert(['u'], 0, 'a');
  first.doc.insert(['u'], 1, 'b');
  for (let at = 0; at < 300; at += 1) world.ben.insert(['t'], 4 * at + 1, '-');
  await world.settle();
  first.client.connect();
  const [, link] = first.links;
  for (let made = 0; made < 900 && !link.up.some((text) => text.startsWith('{"a":"op"')); made += 1) {
    world.net.up(link);
    world.net.down(link);
    await perform(world.disk);
  }
  assert.deepStrictEqual(world.pendingKeys, ['sent', ...['0', '1', '2'].map((number) => `wait/${number.padStart(16, '0')}`)]);
  first.end();
  const second = world.client({ connect: false });
  second.doc.preventCompose = true;
  await world.settle();
  second.doc.insert(['u'], 2, 'c');
  await world.settle();
  assert.deepStrictEqual(world.pendingKeys.length, 5);
  second.end();
  const third = world.client();
  await world.settle();
  await world.settle();
  const { log, data } = world.net.stored;
  assert.deepStrictEqual(data[log.length], { t: '-'.repeat(300), u: 'abc' });
  assert.strictEqual(third.doc.pending, 0);
});

test('a storage that fails while connected: it is reported once, its record is removed, and the client continues', OPTIONS, async () => {
  const world = await started();
  const { client, doc, events } = world.client();
  doc.subscribe();
  await world.settle();
  world.disk.fails = (changes) => changes.some(([, text]) => text !== null);
  const edits = [doc.add(['n'], 1), doc.add(['n'], 10)];
  await world.settle();
  await Promise.all(edits);
  doc.add(['n'], 100);
  const second = client.document('b', '2');
  second.fetch();
  await world.settle();
  second.create({});
  await world.settle();
  const errors = events.filter(([name]) => name === 'error').map(([, error]) => [error.code, error.message]);
  assert.deepStrictEqual(errors, [['ERR_STORAGE', 'the storage has failed: the quota is exceeded']]);
  assert.deepStrictEqual([doc.data.n, world.net.stored.log.length, second.version], [111, 4, 1]);
  assert.deepStrictEqual([world.keys, world.disk.holders.size], [[], 0]);
});

test('a storage that can\'t be changed at all: edits that wait in it are sent once they are removed', OPTIONS, async () => {
  const world = await started();
  const { doc, client, events } = world.client();
  doc.subscribe();
  await world.settle();
  client.disconnect();
  doc.add(['n'], 1);
  doc.preventCompose = true;
  doc.add(['n'], 10);
  await world.settle();
  assert.strictEqual(world.pendingKeys.length, 2);
  world.disk.fails = () => true;
  client.connect();
  await world.settle();
  world.net.clock.advance(20000);
  await world.settle();
  assert.deepStrictEqual([world.net.stored.log.length, doc.data.n, doc.waiting], [1, 11, true]);
  assert.deepStrictEqual(namesOf(events).filter((name) => name === 'error'), ['error']);
  world.disk.fails = (changes) => changes.some(([, text]) => text !== null);
  world.net.clock.advance(20000);
  await world.settle();
  await world.settle();
  assert.deepStrictEqual([world.net.stored.log.length, world.net.stored.data[3].n, world.keys], [3, 11, []]);
});

test('a storage that fails without a connection is tried again, and keeps what it has', OPTIONS, async () => {
  const world = await started();
  const first = world.client();
  first.doc.subscribe();
  await world.settle();
  first.client.disconnect();
  first.doc.add(['n'], 1);
  await world.settle();
  world.disk.fails = (changes) => changes.some(([, text]) => text !== null);
  first.doc.add(['n'], 10);
  await world.settle();
  assert.deepStrictEqual([namesOf(first.events).filter((name) => name === 'error'), world.pendingKeys.length], [['error'], 1]);
  world.disk.fails = () => false;
  world.net.clock.advance(6000);
  first.doc.add(['n'], 100);
  await world.settle();
  const other = first.client.document('b', '2');
  await world.settle();
  assert.deepStrictEqual([other.version, world.disk.holders.size], [null, 2]);
  first.end();
  const second = world.client();
  await world.settle();
  assert.deepStrictEqual([second.doc.data.n, world.net.stored.data[world.net.stored.log.length].n], [111, 111]);
});

test('a storage that fails without a connection is left once there is one', OPTIONS, async () => {
  const world = await started();
  const { client, doc } = world.client();
  doc.subscribe();
  await world.settle();
  client.disconnect();
  doc.add(['n'], 1);
  await world.settle();
  world.disk.fails = (changes) => changes.some(([, text]) => text !== null);
  doc.insert(['t'], 0, 'x');
  await world.settle();
  client.connect();
  await world.settle();
  await world.settle();
  assert.deepStrictEqual([world.net.stored.data[2], world.keys, doc.pending], [{ t: 'xabc', n: 1 }, [], 0]);
});

test('a client with a storage that fails can be closed', OPTIONS, async () => {
  const world = await started();
  const { client, doc, events } = world.client();
  doc.subscribe();
  await world.settle();
  client.disconnect();
  world.disk.fails = () => true;
  const edit = doc.add(['n'], 1);
  await world.settle();
  const closed = client.close();
  await assert.rejects(edit, { code: 'ERR_CLOSED' });
  await perform(world.disk);
  await closed;
  assert.deepStrictEqual([world.disk.holders.size, world.pendingKeys, events.filter(([name]) => name === 'error').length], [0, [], 1]);
});

test('while edits of one document can\'t be removed from a storage, those of another are sent, and not kept', OPTIONS, async () => {
  const world = await started();
  const { client, doc } = world.client();
  const other = client.document('b', '2');
  for (const one of [doc, other]) one.subscribe();
  await world.settle();
  other.create({ n: 0 });
  await world.settle();
  client.disconnect();
  doc.preventCompose = true;
  for (const amount of [1, 10]) doc.add(['n'], amount);
  await world.settle();
  world.disk.fails = () => true;
  client.connect();
  await world.settle();
  doc.add(['n'], 100);
  other.add(['n'], 1);
  await world.settle();
  await world.settle();
  assert.deepStrictEqual([world.net.stored.log.length, other.pending, doc.pending], [1, 0, 3]);
  assert.deepStrictEqual(world.net.server.document('b', '2').data[2], { n: 1 });
  client.disconnect();
  world.disk.fails = () => false;
  world.net.clock.advance(6000);
  await world.settle();
  assert.deepStrictEqual(world.pendingKeys.length, 3, 'of the first document only');
  client.connect();
  await world.settle();
  await world.settle();
  assert.deepStrictEqual([world.net.stored.data[4].n, world.pendingKeys], [111, []]);
  assert.strictEqual(world.net.server.document('b', '2').log.length, 2);
});

test('a storage that can\'t be read: the document is loaded from the server', OPTIONS, async () => {
  const world = await started();
  const rejected = () => Promise.reject(new Error('no database'));
  const storage = customStorage({ keys: rejected, read: rejected, write: rejected, lock: rejected });
  const { client, doc, events } = world.client({ storage });
  doc.subscribe();
  await world.settle();
  doc.add(['n'], 1);
  await world.settle();
  assert.deepStrictEqual([doc.data.n, world.net.stored.log.length], [1, 2]);
  assert.ok(events.every(([name, error]) => name === 'load' || error.code === 'ERR_STORAGE'));
  await client.close();
});

test('a record that can\'t be read stays, and is reported', OPTIONS, async () => {
  for (const [kind, text] of [['base', '{"version":'], ['log/0000000000000001', '{"version":1,"content":{"op":[{"p":["x"],"na":1}]}}']]) {
    const world = await started();
    const first = world.client();
    first.doc.subscribe();
    await world.settle();
    first.client.disconnect();
    first.doc.add(['n'], 1);
    await world.settle();
    first.end();
    const [front] = [...world.disk.texts.keys()][0].split('base');
    world.disk.texts.set(`${front}${kind}`, text);
    const second = world.client();
    second.doc.subscribe();
    await world.settle();
    assert.ok(second.events.some(([name, error]) => name === 'error' && error.code === 'ERR_STORAGE'));
    assert.deepStrictEqual([second.doc.data, world.disk.texts.get(`${front}${kind}`)], [{ t: 'abc', n: 0 }, text]);
    assert.strictEqual(world.pendingKeys.length, 1);
  }
});

test('with a storage each start has a random source', OPTIONS, () => {
  const storage = customStorage(new Disk().process().methods);
  const options = { WebSocket: class {}, connect: false, source: 'me' };
  assert.strictEqual(new Client('ws://x', options).source, 'me');
  const sources = [1, 2].map(() => new Client('ws://x', { ...options, storage }).source);
  assert.ok(!sources.includes('me') && sources[0] !== sources[1]);
});

test('a cluster keeps documents of each bucket, and sends the edits of those that nobody opens', OPTIONS, async () => {
  for (const isOpening of [true, false]) {
    const net = new Net();
    const disk = new Disk();
    const settle = async () => {
      for (let round = 0; round < 12; round += 1) {
        await perform(disk);
        net.deliver();
        await flush();
        net.clock.advance(1);
      }
    };
    const { clock, WebSocket } = net;
    const options = { clock, WebSocket, heartbeat: 1e9, retryDelay: 1 };
    const cluster = new Cluster('ws://model', 2, { ...options, storage: customStorage(disk.process().methods) });
    const ids = [0, 1].map((bucket) => ['1', '2', '3', '4', '5', '6'].find((id) => bucketOf(id, 2) === bucket));
    const docs = ids.map((id) => cluster.document('b', id));
    for (const doc of docs) doc.subscribe();
    await settle();
    for (const doc of docs) doc.create({ n: 0 });
    await settle();
    cluster.disconnect();
    for (const doc of docs) doc.add(['n'], 1);
    await settle();
    await Promise.all([cluster.close(), settle()]);
    const next = new Cluster('ws://model', 2, { ...options, storage: customStorage(disk.process().methods) });
    const opened = isOpening ? next.document('b', ids[0]) : null;
    await settle();
    assert.deepStrictEqual(ids.map((id) => net.server.document('b', id).data[2]), [{ n: 1 }, { n: 1 }]);
    assert.deepStrictEqual([...disk.texts.keys()].filter((key) => /sent|wait/.test(key)), []);
    if (isOpening) assert.strictEqual(next.document('b', ids[0]), opened);
    if (isOpening) assert.deepStrictEqual(opened.data, { n: 1 });
    clock.advance(20000);
    await settle();
    assert.deepStrictEqual(next.states.map(({ bucket }) => bucket), isOpening ? [0] : []);
  }
});

// Returns a block of docs/CLIENT.md.
function blockOf(name) {
  const text = fs.readFileSync(new URL('../../docs/CLIENT.md', import.meta.url), 'utf8');
  return new RegExp(`\`\`\`js ${name}\\n([^]*?)\`\`\``).exec(text)[1];
}

test('the program and the storage of the document', OPTIONS, async () => {
  const made = new Function('customStorage', `${blockOf('custom')}\nreturn { storage, texts, locks };`)(customStorage);
  const { WebSocket, clock } = new Net();
  const lines = [];
  class Offline extends Client {
    constructor(address, { storage }) {
      super(address, { storage, WebSocket, clock, connect: false });
    }
  }
  const program = blockOf('storage').replace(/^import.*\n/, '');
  const start = () => new Function('Client', 'indexedDbStorage', 'console', `${program}\nreturn { client, board };`)(
    Offline, (name) => assert.strictEqual(name, 'boards') || made.storage, { log: (...line) => lines.push(line) },
  );
  const first = start();
  await flush();
  assert.deepStrictEqual([lines, made.locks.size], [[], 1]);
  const [front] = made.locks;
  await first.client.close();
  assert.strictEqual(made.locks.size, 0);
  made.texts.set(`${front}base`, '{"version":1,"last":null,"data":{"n":1}}');
  made.texts.set(`${front}wait/0000000000000000`, '{"number":0,"content":{"op":[{"p":["n"],"na":2}]},"length":20}');
  const second = start();
  await flush();
  assert.deepStrictEqual([lines, second.board.version], [[[{ n: 3 }, 1]], 1]);
  assert.deepStrictEqual(await made.storage.documents(), [{ collection: 'board', id: 'demo', pending: true }]);
  second.board.add(['n'], 5);
  await second.client.close();
  assert.deepStrictEqual([made.locks.size, [...made.texts.keys()].length], [0, 2]);
});
