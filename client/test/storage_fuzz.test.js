/*
 * Random clients with a storage at the model's server, of which one ends at each write in turn. The next clients of the
 * storage resume. At the end the server has each edit that was saved exactly once, all clients hold its document, and
 * no message was sent before it was saved.
 */

import assert from 'node:assert';
import { test } from 'node:test';
import { customStorage } from '../src/index.js';
import { flush } from './support/clock.js';
import { Disk } from './support/disk.js';
import { Net } from './support/net.js';
import { OPTIONS as SHORT } from './support/options.js';
import { choices, seedOf } from './support/random.js';

const OPTIONS = { timeout: 5 * SHORT.timeout };
const RUNS = Number(process.env.RUNS || 4);
const STEPS = 160;
const TABS = 2;

// A tab: a process with a client. The world has the others.
class Tab {
  constructor(world) {
    const { net, disk } = world;
    const { process, methods } = disk.process();
    const tab = this;
    const WebSocket = class extends net.WebSocket {
      constructor() {
        super();
        tab.links.push(this);
        if (process.isOver) net.cut(this);
      }

      send(text) {
        world.check(tab, JSON.parse(text));
        super.send(text);
      }
    };
    Object.assign(this, { net, disk, process, links: [], tokens: [] });
    const options = { WebSocket, storage: customStorage(methods), batch: world.batch, heartbeat: 30000 };
    Object.assign(this, net.client(undefined, options));
    process.ended = () => this.cut(world.chosen.random(2) === 0);
    this.doc.preventCompose = world.chosen.random(3) === 0;
    // (a client whose storage has failed drops its edits when it closes)
    const isFault = ({ code, error }) => !world.fails || code !== 'ERR_STORAGE' && !(error && error.code === 'ERR_CLOSED');
    for (const event of ['healed', 'restarted', 'error', 'refused']) {
      this.doc.on(event, (detail) => isFault(detail) && world.faults.push([event, detail]));
      this.client.on(event, (detail) => isFault(detail) && world.faults.push(['client', event, detail]));
    }
    if (world.chosen.random(8) > 0) this.doc.subscribe().catch(() => {});
    else this.doc.fetch().catch(() => {});
  }

  // The process ended: its client receives nothing any more.
  cut(isLate) {
    for (const link of this.links) {
      link.onclose = null;
      link.onmessage = null;
      this.net.cut(link, isLate);
    }
  }

  edit(token, { random }) {
    const { doc } = this;
    if (!doc.data || this.process.isOver || this.isClosing) return;
    this.tokens.push(token);
    const { l, t } = doc.data;
    const at = t.split('>').slice(0, random(l.length + 1)).reduce((sum, part) => sum + part.length + 1, 0);
    const op = [{ p: ['l', random(l.length + 1)], li: token }, { p: ['t', Math.min(at, t.length)], si: `<${token}>` }];
    doc.submit(op).catch(() => {});
  }

  close() {
    this.isClosing = true;
    this.client.close();
  }
}

const isRemoval = ([, text]) => text === null;
const FAILURES = [() => false, () => true, (changes) => !changes.every(isRemoval)];

class World {
  constructor(seed, { fails = false, ...crash }) {
    this.fails = fails;
    this.chosen = choices(seed);
    this.batch = seed % 2 === 0;
    this.net = new Net();
    this.disk = new Disk();
    Object.assign(this.disk.crash, crash);
    this.faults = [];
    this.saved = new Set(); // tokens that were in the storage
    this.senders = new Map(); // tabs by source and number
    this.disk.saved = () => {
      for (const [key, text] of this.disk.texts) {
        if (/\/(sent|wait)/.test(key)) for (const [, token] of text.matchAll(/<(\d+)>/g)) this.saved.add(token);
      }
    };
    this.made = 0;
  }

  // A submission was saved before, and no two tabs send the same one, if both run.
  check(tab, { a, src, seq }) {
    if (a !== 'op') return;
    const isSaved = [...this.disk.texts].some(([key, text]) => {
      const sent = key.endsWith('/sent') ? JSON.parse(text) : {};
      return sent.source === src && sent.seq === seq;
    });
    if (!isSaved && !this.fails) this.faults.push(['not saved', src, seq]);
    const key = `${src} ${seq}`;
    const before = this.senders.get(key);
    if (before && before !== tab && !before.process.isOver && !before.isClosing) this.faults.push(['two senders', key]);
    this.senders.set(key, tab);
  }

  async start() {
    const { net } = this;
    this.ben = net.client('ben').doc;
    this.ben.subscribe();
    net.deliver();
    this.ben.create({ l: [], t: '' });
    await net.settle();
    this.tabs = Array.from({ length: TABS }, () => new Tab(this));
    this.all = [...this.tabs];
    if (this.chosen.random(4) > 0) await this.settle(4);
  }

  renew(at) {
    this.tabs[at] = new Tab(this);
    this.all.push(this.tabs[at]);
  }

  token() {
    this.made += 1;
    return String(this.made);
  }

  step() {
    const { random, pick } = this.chosen;
    const { net, disk } = this;
    const at = random(TABS);
    const tab = this.tabs[at];
    const link = net.links.length > 0 ? pick(net.links) : null;
    const kind = random(40);
    if (this.fails && random(12) === 0) disk.fails = pick(FAILURES);
    if (kind < 7) tab.edit(this.token(), this.chosen);
    else if (kind === 7) this.ben.submit([{ p: ['l', random(this.ben.data.l.length + 1)], li: 'ben' }]).catch(() => {});
    else if (kind === 8 && (tab.isClosing || tab.process.isOver)) this.renew(at);
    else if (kind === 8 && random(6) === 0) tab.close();
    else if (kind === 9 && !tab.process.isOver && !tab.isClosing) tab.client[random(2) ? 'connect' : 'disconnect']();
    else if (kind === 10 && link && random(3) === 0) net.cut(link, random(2) === 0);
    else if (kind === 11) net.clock.advance(1 + random(600));
    else if (kind === 12) net.deliverLate();
    else if (kind < 24) disk.step();
    else if (link && random(2)) net.up(link);
    else if (link) net.down(link);
  }

  async settle(rounds = 40) {
    const { net, disk } = this;
    for (let round = 0; round < rounds; round += 1) {
      for (let calls = 0; disk.calls.length > 0 && calls < 50; calls += 1) {
        disk.step();
        if (disk.calls.length === 0) await flush();
      }
      net.deliverLate();
      net.deliver();
      await flush();
      net.clock.advance(1);
    }
  }

  // The tabs end, at first some by a crash. New ones send what is left.
  async finish() {
    const { random } = this.chosen;
    for (const tab of this.tabs) {
      if (random(2) && !tab.process.isOver) this.disk.end(tab.process);
      else if (!tab.process.isOver && !tab.isClosing) tab.client.connect();
    }
    await this.settle();
    this.disk.crash.at = Infinity;
    this.disk.fails = () => false;
    const last = new Tab(this);
    this.all.push(last);
    last.doc.subscribe().catch(() => {});
    await this.settle();
    for (let beat = 0; beat < 3; beat += 1) {
      this.net.clock.advance(30000);
      await this.settle(10);
    }
    return last;
  }

  checkEnd(last) {
    const { log, data } = this.net.stored;
    const { l, t } = data[log.length];
    const texts = [...t.matchAll(/<(\d+)>/g)].map(([, token]) => token);
    const items = l.filter((item) => item !== 'ben');
    assert.deepStrictEqual(this.faults, []);
    assert.deepStrictEqual([...items].sort(), [...texts].sort(), 'a part of an edit');
    assert.strictEqual(new Set(items).size, items.length, 'an edit is stored twice');
    if (!this.fails) assert.deepStrictEqual([...this.saved].filter((token) => !items.includes(token)), [], 'an edit is lost');
    const running = this.all.filter(({ process, isClosing }) => !process.isOver && !isClosing);
    for (const { doc, tokens } of running) {
      assert.deepStrictEqual(tokens.filter((token) => !items.includes(token)), [], 'an edit of a running client is lost');
      if (doc.wanted) assert.deepStrictEqual([doc.version, doc.data, doc.pending], [log.length, data[log.length], 0]);
    }
    assert.deepStrictEqual(last.doc.confirmed, data[log.length]);
    assert.deepStrictEqual(this.ben.data, data[log.length]);
    assert.deepStrictEqual([...this.disk.texts.keys()].filter((key) => /\/(sent|wait)/.test(key)), [], 'an edit stays');
  }
}

async function play(seed, crash) {
  const world = new World(seed, crash);
  await world.start();
  for (let made = 0; made < STEPS; made += 1) {
    world.step();
    if (world.chosen.random(4) > 0) await flush();
  }
  const { writes } = world.disk;
  world.checkEnd(await world.finish());
  return { writes, tokens: world.made, saved: world.saved.size };
}

async function played(seed, options) {
  try {
    return await play(seed, options);
  } catch (error) {
    error.message = `SEED=${seed} RUNS=1 ${JSON.stringify(options)}: ${error.message}`;
    throw error;
  }
}

test('a client ends at each write: each edit that was saved is stored once', OPTIONS, async () => {
  const seed = seedOf('storage');
  let plays = 0;
  for (let run = 0; run < RUNS; run += 1) {
    const { writes } = await played(seed + run, {});
    plays += 1 + 2 * writes;
    for (let at = 1; at <= writes; at += 1) {
      for (const isWritten of [false, true]) await played(seed + run, { at, isWritten });
    }
  }
  console.log(`storage: ${plays} histories`);
});

test('writes fail at random: no edit is stored twice, and none of a running client is lost', OPTIONS, async () => {
  const seed = seedOf('failing storage');
  for (let run = 0; run < RUNS * 20; run += 1) {
    const at = choices(seed + run).random(20);
    await played(seed + run, { at, isWritten: run % 2 === 0, fails: true });
  }
});
