/*
 * Random clients at the model's server: edits, undo and redo, lost connections, subscriptions and fetches, and in half
 * of the runs also deletes and creates. At the end each client holds the server's document, each promise has told the
 * truth, and an editor that applies `op` alone has the same document. Half of the runs send the edits of a tick
 * together.
 */

import assert from 'node:assert';
import fs from 'node:fs';
import { test } from 'node:test';
import { isDeepStrictEqual } from 'node:util';
import { UndoManager, apply, cross, invert } from '../src/index.js';
import { flush } from './support/clock.js';
import { randomEdit, startDocument } from './support/edits.js';
import { Net } from './support/net.js';
import { OPTIONS } from './support/options.js';
import { choices, seedOf } from './support/random.js';

const RUNS = Number(process.env.RUNS || 12);
const STEPS = 250;
const CLIENTS = 3;
const START = () => startDocument(Number.MAX_SAFE_INTEGER - 3);

// A client ------------------------------------------------------------------------------------------------------

class Participant {
  constructor(net, name, { hasLife, batch }) {
    Object.assign(this, net.client(name, { batch }));
    this.outcomes = [];
    this.faults = [];
    this.mirror = undefined;
    this.refused = [];
    const { doc } = this;
    this.manager = new UndoManager(doc, { groupBy: 0, limit: 9 });
    doc.on('op', ({ operation, before }) => {
      if (!isDeepStrictEqual(before, this.mirror)) this.faults.push(['before', before, this.mirror]);
      this.mirror = apply(this.mirror, operation);
    });
    doc.on('change', ({ operation, data }) => {
      if (operation === null) this.mirror = data;
      else if (!isDeepStrictEqual(this.mirror, data)) this.faults.push(['the mirror differs', operation]);
    });
    for (const event of ['healed', 'restarted', 'error']) doc.on(event, (detail) => this.faults.push([event, detail]));
    doc.on('refused', ({ error, contents }) => {
      this.refused.push(...contents);
      if (!hasLife && error.code !== 'ERR_OT_OP_NOT_APPLIED') this.faults.push(['refused', error.code]);
    });
    doc.subscribe().catch(() => {});
  }

  submit(action) {
    const outcome = { version: undefined, code: undefined };
    this.outcomes.push(outcome);
    action().then(({ version }) => (outcome.version = version), ({ code }) => (outcome.code = code));
  }

  live({ random }) {
    const { doc } = this;
    if (doc.version === null) return;
    if (doc.data === undefined) this.submit(() => doc.create(START()));
    else if (random(3) === 0) this.submit(() => doc.remove());
    if (random(2) && doc.data === undefined) this.submit(() => doc.create(START()));
  }

  checkEnd({ log, data }) {
    const { doc, client } = this;
    assert.deepStrictEqual([doc.version, doc.data, doc.pending, client.state], [log.length, data[log.length], 0, 'connected']);
    assert.deepStrictEqual(doc.confirmed, doc.data);
    assert.deepStrictEqual(this.faults, []);
    for (const { version, code } of this.outcomes) assert.ok(version !== undefined || code !== undefined, 'a promise never ends');
    const told = new Set(this.outcomes.map(({ version }) => version).filter(Number.isInteger));
    const own = log.filter(({ src }) => src === client.source).map(({ v }) => v);
    assert.deepStrictEqual([...told].sort((one, other) => one - other), own);
    const codes = new Set(this.outcomes.map(({ code }) => code).filter(Boolean));
    assert.deepStrictEqual([...codes].filter((code) => !/APPLIED|DELETED|CREATED|EXIST/.test(code)), []);
  }
}

function step(chosen, net, all, hasLife) {
  const { random, pick } = chosen;
  const one = pick(all);
  const link = net.links.length > 0 ? pick(net.links) : null;
  const kind = random(32);
  if (kind > 29) {
    one.submit(() => (kind === 30 ? one.manager.undo() : one.manager.redo()));
  } else if (kind < 9) {
    const { data } = one.doc;
    if (data) one.submit(() => one.doc.submit(randomEdit(chosen, data)));
  } else if (kind === 9) {
    if (random(2)) one.client.disconnect();
    else one.client.connect();
  } else if (kind === 10) {
    if (link && random(3) === 0) net.cut(link, random(2) === 0);
  } else if (kind === 11) {
    (random(2) ? one.doc.unsubscribe() : one.doc.subscribe()).catch(() => {});
  } else if (kind === 12) {
    one.doc.fetch().catch(() => {});
  } else if (kind === 13) {
    if (hasLife) one.live(chosen);
  } else if (kind === 14) {
    net.clock.advance(1 + random(2));
  } else if (kind === 15) {
    net.deliverLate();
  } else if (link) {
    if (random(2)) net.up(link);
    else net.down(link);
  }
}

async function play(seed) {
  const chosen = choices(seed);
  const hasLife = seed % 2 === 0;
  const batch = seed % 4 < 2;
  const net = new Net();
  const first = net.client('first').doc;
  first.fetch();
  net.deliver();
  first.create(START());
  net.deliver();
  const all = Array.from({ length: CLIENTS }, (_, at) => new Participant(net, `c${at}`, { hasLife, batch }));
  for (let made = 0; made < STEPS; made += 1) {
    step(chosen, net, all, hasLife);
    if (chosen.random(4) === 0) await flush();
  }
  for (const { client, doc } of all) {
    client.connect();
    doc.subscribe().catch(() => {});
  }
  for (let made = chosen.random(8); made > 0; made -= 1) net.deliverLate();
  net.late = [];
  await net.settle();
  for (const one of all) one.checkEnd(net.stored);
}

test('random clients hold the server\'s document', OPTIONS, async () => {
  const seed = seedOf('random clients');
  for (let run = 0; run < RUNS; run += 1) {
    try {
      await play(seed + run);
    } catch (error) {
      error.message = `SEED=${seed + run} RUNS=1: ${error.message}`;
      throw error;
    }
  }
});

// Returns a submitter of edits to the document, and what became of each.
function editorOf({ pick }, doc) {
  const outcomes = [];
  const submit = (isLate) => {
    if (doc.version === null || doc.data === undefined) return;
    const outcome = { isLate, version: undefined, code: undefined };
    outcomes.push(outcome);
    const edit = doc.submit([{ p: ['t', 0], si: pick(['a', 'b', 'c']) }, { p: ['n'], na: 1 }]);
    edit.then(({ version }) => (outcome.version = version), ({ code }) => (outcome.code = code));
  };
  doc.subscribe().catch(() => {});
  return { outcomes, submit };
}

// Delivers a message, cuts a connection or moves the clock.
function shake({ random, pick }, net) {
  const link = net.links.length > 0 ? pick(net.links) : null;
  const kind = random(7);
  if (kind === 0) net.clock.advance(1);
  else if (kind === 1) net.deliverLate();
  else if (kind === 2 && link && random(4) === 0) net.cut(link, random(2) === 0);
  else if (link && random(2)) net.up(link);
  else if (link) net.down(link);
}

async function deliverAll(net) {
  for (let round = 0; round < 4; round += 1) {
    net.deliverLate();
    await net.settle();
  }
}

// Edits until the document is destroyed, and while it is. Returns what became of each edit.
async function editAndDestroy(chosen, net, { doc }, other) {
  const { random } = chosen;
  const one = editorOf(chosen, doc);
  const start = 20 + random(40);
  let left = null;
  for (let made = 0; made < 60; made += 1) {
    if (made === start) left = doc.destroy();
    const kind = random(10);
    if (kind < 3) one.submit(left !== null);
    else if (kind === 3) other.doc.submit([{ p: ['t', 0], si: 'x' }]);
    else shake(chosen, net);
    if (random(3) === 0) await flush();
  }
  await deliverAll(net);
  await left;
  return one.outcomes;
}

test('edits around destroy: each is stored and fulfilled, or refused and not stored', OPTIONS, async () => {
  const seed = seedOf('destroy');
  for (let run = 0; run < RUNS * 4; run += 1) {
    const net = new Net();
    const [first, other] = [net.client('first', { batch: run % 2 === 0 }), net.client('other')];
    other.doc.subscribe().catch(() => {});
    net.deliver();
    other.doc.create({ t: '', n: 0 });
    await net.settle();
    const outcomes = await editAndDestroy(choices(seed + run), net, first, other);
    const { log, data } = net.stored;
    const details = `SEED=${seed + run} RUNS=1`;
    const own = log.filter(({ src }) => src === 'first').map(({ v }) => v);
    const told = new Set(outcomes.map(({ version }) => version).filter(Number.isInteger));
    assert.deepStrictEqual([...told].sort((one, another) => one - another), own, details);
    assert.ok(outcomes.every(({ isLate, code }) => (isLate ? code === 'ERR_CLOSED' : code === undefined)), details);
    assert.strictEqual(data[log.length].n, outcomes.filter(({ isLate }) => !isLate).length, details);
    assert.deepStrictEqual([first.doc.state, other.doc.data], ['closed', data[log.length]], details);
  }
});

test('all own edits are undone: what others did stays', OPTIONS, async () => {
  const seed = seedOf('undo');
  for (let run = 0; run < RUNS; run += 1) {
    const chosen = choices(seed + run);
    const net = new Net();
    const [ada, ben] = [net.client('ada').doc, net.client('ben').doc];
    for (const doc of [ada, ben]) doc.subscribe();
    net.deliver();
    ada.create({ t: 'one two', l: [], o: { mine: {}, yours: {} }, n: 0 });
    net.deliver();
    const { undo, undos } = undoOf(ada);
    for (let made = 0; made < 40; made += 1) {
      const [doc, member] = chosen.random(2) ? [ada, 'mine'] : [ben, 'yours'];
      const key = chosen.pick(['a', 'b']);
      const { t } = doc.data;
      const points = chosen.random(t.length + 1);
      // (each writes letters of its own, and takes away none of the other's)
      const text = { p: ['t', points], si: doc === ada ? 'x' : 'Y' };
      doc.submit(chosen.pick([[{ p: ['n'], na: doc === ada ? 1 : 1000 }], [{ p: ['o', member, key], oi: made }], [text]]));
      if (chosen.random(3) === 0) net.deliver();
    }
    net.deliver();
    const others = { ...ben.data };
    assert.ok(undos.length > 0);
    while (undos.length > 0) undo();
    assert.deepStrictEqual(await undo(), { version: null });
    await net.settle();
    assert.deepStrictEqual(ada.data, ben.data);
    assert.deepStrictEqual(ada.data.o, { mine: {}, yours: others.o.yours }, `SEED=${seed + run}`);
    assert.strictEqual(ada.data.n, others.n - (others.n % 1000));
    assert.strictEqual(ada.data.t, others.t.replace(/x/g, ''), `SEED=${seed + run}`);
  }
});

// Returns the document's undo function, as docs/CLIENT.md has it.
function undoOf(doc) {
  const text = fs.readFileSync(new URL('../../docs/CLIENT.md', import.meta.url), 'utf8');
  const [, code] = /```js undo\n([^`]*)```/.exec(text);
  return new Function('doc', 'invert', 'cross', `${code}\nreturn { undo, undos };`)(doc, invert, cross);
}
