/* Storages in Chromium's IndexedDB: a closed tab, a crash, two tabs. Skipped if there is no chromium. */

import assert from 'node:assert';
import { test } from 'node:test';
import { hasChromium, inChromium } from './support/chromium.js';

const OPTIONS = { timeout: Number(process.env.TIMEOUT || 300000), skip: !hasChromium() && 'there is no chromium' };

// Each tab has a client whose server is the test: `up` has what the client has sent.
const PAGE = `<!doctype html><title>storage</title>
<script type="module">
  const { Client, indexedDbStorage } = await import('/client/src/index.js');
  window.up = [];
  window.isOnline = !location.hash.includes('offline');
  class Socket {
    constructor() {
      window.socket = this;
      if (window.isOnline) setTimeout(() => this.answer({ a: 'init', id: 's', protocol: 1 }, { a: 'hs' }));
    }
    send(text) { window.up.push(JSON.parse(text)); }
    close() {}
    answer(...messages) { for (const message of messages) this.onmessage({ data: JSON.stringify(message) }); }
  }
  window.errors = [];
  window.storage = indexedDbStorage('boards');
  window.client = new Client('ws://test', { WebSocket: Socket, storage: window.storage, heartbeat: 1e9 });
  client.on('error', ({ message }) => window.errors.push(message));
  window.doc = client.document('b', '1');
  doc.subscribe().catch(() => {});
  window.ops = () => window.up.filter(({ a }) => a === 'op');
  window.sent = (kind) => window.up.filter(({ a }) => a === kind).length;
  const pairs = async () => {
    const database = await new Promise((resolve) => {
      const request = indexedDB.open('boards');
      request.onsuccess = () => resolve(request.result);
    });
    const store = database.transaction('texts').objectStore('texts');
    const all = await new Promise((resolve) => {
      const request = store.getAll();
      request.onsuccess = () => resolve(request.result);
    });
    database.close();
    return all;
  };
  window.texts = async () => (await pairs()).map(({ key }) => key.split('/').slice(2).join('/'));
  // the sum of the amounts that pending edits add
  window.amount = async () => {
    const added = ({ text }) => [...text.matchAll(/"na":([0-9]+)/g)].map(([, amount]) => Number(amount));
    return (await pairs()).flatMap(added).reduce((sum, amount) => sum + amount, 0);
  };
  window.ready = true;
</script>`;

function play(steps) {
  return inChromium(PAGE, 'window.ready', steps);
}

async function load(tab, data = { n: 0, t: 'abc' }) {
  await tab.until(`sent('s') > 0`);
  await tab.evaluate(`socket.answer({ a: 's', c: 'b', d: '1', data: { data: ${JSON.stringify(data)}, v: 3 } })`);
  await tab.until('doc.state === "live"');
  await tab.evaluate('(async () => { while (!(await texts()).includes("base")) await new Promise((done) => setTimeout(done, 50)); })()');
}

test('an edit before its tab is closed is shown and sent by the next tab, with the same source and number', OPTIONS, () => play(async (tab) => {
  await load(tab);
  await tab.evaluate(`doc.add(['n'], 1); true`);
  await tab.until('ops().length === 1');
  const sent = await tab.evaluate('ops()[0]');
  const next = await tab.open('', 'window.ready');
  await next.until('doc.version === 3');
  assert.strictEqual(await next.evaluate('doc.pending'), 0);
  // (this edit is neither sent nor awaited before the tab ends)
  await tab.evaluate(`doc.add(['n'], 10); true`);
  await tab.close();
  await next.close();
  const last = await tab.open('#offline', 'window.ready');
  await last.until('doc.version === 3');
  assert.deepStrictEqual(await last.evaluate('[doc.data, doc.pending, doc.state, errors]'), [{ n: 11, t: 'abc' }, 2, 'offline', []]);
  await last.evaluate(`isOnline = true; client.disconnect(); client.connect()`);
  await last.until(`sent('nf') > 0`);
  await last.evaluate(`socket.answer({ a: 'nf', id: 1, v: 3, type: 'json0', data: { n: 0, t: 'abc' } })`);
  await last.until(`up.some(({ a, v }) => a === 's' && v === 3)`);
  await last.evaluate(`socket.answer({ a: 's', c: 'b', d: '1' })`);
  await last.until('ops().length > 0');
  assert.deepStrictEqual(await last.evaluate('ops()'), [sent]);
  await last.evaluate(`socket.answer({ a: 'op', c: 'b', d: '1', src: '${sent.src}', seq: 1, v: 3 })`);
  await last.until('ops().length > 1');
  const { src, seq, v, op } = await last.evaluate('ops()[1]');
  assert.deepStrictEqual([src === await last.evaluate('client.source'), src !== sent.src, seq, v], [true, true, 1, 4]);
  assert.deepStrictEqual(op, [{ p: ['n'], na: 10 }]);
  await last.evaluate(`socket.answer({ a: 'op', c: 'b', d: '1', src: '${src}', seq: 1, v: 4 })`);
  await last.until('doc.pending === 0');
  await last.evaluate('client.close()');
  assert.deepStrictEqual(await last.evaluate('texts().then((all) => all.filter((key) => /sent|wait/.test(key)))'), []);
}));

test('two tabs at once have a source each, and the edits of one aren\'t sent by the other', OPTIONS, () => play(async (tab) => {
  await load(tab);
  await tab.evaluate(`doc.add(['n'], 1); true`);
  await tab.until('ops().length === 1');
  const other = await tab.open('', 'window.ready');
  await other.until(`sent('nf') > 0`);
  assert.deepStrictEqual(await other.evaluate('[doc.data, doc.pending]'), [{ n: 0, t: 'abc' }, 0]);
  await other.evaluate(`socket.answer({ a: 'nf', id: 1, v: 3, type: 'json0', data: doc.data })`);
  await other.until(`sent('s') > 0`);
  await other.evaluate(`socket.answer({ a: 's', c: 'b', d: '1' })`);
  await other.evaluate(`doc.add(['n'], 100); true`);
  await other.until('ops().length === 1');
  const sources = [await tab.evaluate('ops()[0].src'), await other.evaluate('ops()[0].src')];
  assert.notStrictEqual(sources[0], sources[1]);
  assert.deepStrictEqual(await other.evaluate('ops()[0].op'), [{ p: ['n'], na: 100 }]);
  const locks = `navigator.locks.query().then(({ held }) => held.length)`;
  assert.strictEqual(await tab.evaluate(locks), 2);
  await other.close();
  await tab.until(`${locks}.then((count) => count === 1)`);
}));

test('a reload shows the edits that were written at once', OPTIONS, () => play(async (tab) => {
  await load(tab);
  for (let reload = 1; reload <= 5; reload += 1) {
    await tab.evaluate(`window.isOld = true; doc.add(['n'], 1); true`);
    await tab.until(`amount().then((sum) => sum === ${reload})`);
    await tab.call('Page.reload');
    await tab.until('!window.isOld && window.ready && doc.version === 3');
    assert.deepStrictEqual(await tab.evaluate('[doc.data.n, doc.pending > 0]'), [reload, true]);
  }
}));

test('a tab that crashes keeps its edits', OPTIONS, () => play(async (tab) => {
  await load(tab);
  await tab.evaluate(`doc.insert(['t'], 3, 'd'); true`);
  await tab.until('ops().length === 1');
  const next = await tab.open('about:blank', 'true');
  tab.call('Page.crash').catch(() => {});
  // (until the crash the first tab has its record's lock)
  for (let pending = 0, load = 0; pending === 0; load += 1) {
    await next.call('Page.navigate', { url: `${tab.address}?${load}#offline` });
    await next.until(`location.search === '?${load}' && window.ready && doc.version === 3`);
    pending = await next.evaluate('doc.pending');
  }
  assert.deepStrictEqual(await next.evaluate('doc.data'), { n: 0, t: 'abcd' });
}));

test('a database that is full is reported, no part of a write is made, and the client continues', OPTIONS, () => play(async (tab) => {
  await load(tab);
  await tab.evaluate(`
    const { put } = IDBObjectStore.prototype;
    const full = () => { throw new DOMException('full', 'QuotaExceededError'); };
    let rest = 1;
    IDBObjectStore.prototype.put = function limited(...pair) {
      rest -= 1;
      return rest < 0 ? full() : put.apply(this, pair);
    };
    window.written = storage._keeperFor({}).methods.write([['one', '1'], ['two', '2']]).catch(() => texts());
    true
  `);
  assert.deepStrictEqual(await tab.evaluate('written'), ['base']);
  await tab.evaluate(`doc.add(['n'], 1); true`);
  await tab.until('ops().length === 1');
  assert.deepStrictEqual(await tab.evaluate('[errors.length, errors[0].includes("full")]'), [1, true]);
  assert.deepStrictEqual(await tab.evaluate('texts()'), []);
}));

test('data that the user removes: it is reported, the client continues, and the next document is kept again', OPTIONS, () => play(async (tab) => {
  await load(tab);
  await tab.call('Storage.clearDataForOrigin', { origin: new URL(tab.address).origin, storageTypes: 'all' });
  await tab.evaluate(`doc.add(['n'], 1); true`);
  await tab.until('ops().length === 1');
  assert.strictEqual(await tab.evaluate('errors.length'), 1);
  await tab.evaluate(`client.document('b', '2').fetch(); true`);
  await tab.until(`up.some(({ a, d }) => a === 'f' && d === '2')`);
  await tab.evaluate(`socket.answer({ a: 'f', c: 'b', d: '2', data: { data: {}, v: 3 } })`);
  await tab.until(`texts().then((all) => all.includes('base'))`);
  assert.strictEqual(await tab.evaluate('errors.length'), 1);
}));
