/*
 * Clients that subscribe, unsubscribe, fetch, read versions and lose their connections, at random, while they edit a
 * document. At the end each is subscribed, receives one more edit without a fetch, and holds the server's document.
 * Each edit's promise was right.
 *
 *     node tests/clients/links.js ADDRESS [ROUNDS] [SEED]
 *
 * Needs node-ws.
 */

import assert from 'node:assert';
import { Client, apply } from '../../client/src/index.js';
import { choices } from './random.js';
import { WebSocket, within } from './websocket.js';

const [address, rounds = '300', seed = '1'] = process.argv.slice(2);
const { random, pick } = choices(seed);
const PATIENCE = 60000; // milliseconds for the whole run
const CLIENTS = 3;
const ID = `links-${seed}-${process.pid}`;
const faults = [];

function pause(milliseconds) {
  return new Promise((resolve) => setTimeout(resolve, milliseconds));
}

class Participant {
  constructor(number) {
    const participant = this;
    this.number = number;
    this.made = 0; // edits
    this.versions = []; // at which they are stored, by their promises
    const Tearable = class extends WebSocket {
      constructor(where) {
        super(where);
        participant.socket = this;
      }
    };
    const source = `${ID}-${number}`;
    this.client = new Client(address, { source, WebSocket: Tearable, retryDelay: 10, longestDelay: 40 });
    this.take();
  }

  take() {
    this.document = this.client.document('links', ID);
    for (const event of ['restarted', 'healed', 'refused', 'error']) {
      this.document.on(event, (detail) => faults.push(`client ${this.number}: ${event} ${JSON.stringify(detail)}`));
    }
  }

  edit() {
    const { document } = this;
    const text = document.data[this.number];
    const from = random(text.length + 1);
    const removed = random(12) < text.length ? text.slice(from, from + 1 + random(3)) : '';
    const change = removed ? { sd: removed } : { si: pick(['a', 'bc']) };
    this.made += 1;
    document.submit([{ p: [this.number, from], ...change }, { p: [CLIENTS], na: 1 }]).then(
      ({ version }) => this.versions.push(version),
      (error) => faults.push(`client ${this.number}: ${error.stack}`),
    );
  }

  async round() {
    const { document } = this;
    switch (random(12)) {
      case 0:
        return void document.unsubscribe();
      case 1:
      case 2:
        return void document.subscribe();
      case 3:
        return void (random(4) === 0 && this.socket.terminate());
      case 4:
        return void document.fetch();
      case 5:
        if (random(3) > 0) return undefined;
        await document.destroy();
        this.take();
        return void (await (random(2) ? this.document.fetch() : this.document.subscribe()));
      case 6:
        return this.look();
      default:
        return this.edit();
    }
  }

  // The document at a version is the replay of the operations before it.
  async look() {
    const version = random(this.document.version) + 1;
    const [{ data }, entries] = await Promise.all([this.document.snapshot(version), this.document.operations(0)]);
    const made = entries.slice(1, version).reduce((value, { op }) => apply(value, op), entries[0].create.data);
    assert.deepStrictEqual(made, data);
  }

  // Waits until a stored operation is received by the subscription.
  received(version) {
    return new Promise((resolve) => {
      const look = () => this.document.version > version && resolve();
      this.document.on('version', look);
      look();
    });
  }

  async play() {
    await this.document.fetch();
    for (let round = 0; round < Number(rounds); round += 1) {
      await this.round();
      if (random(3) === 0) await pause(random(6));
    }
    await this.document.whenNothingPending();
  }
}

async function main() {
  const first = new Client(address, { WebSocket });
  const fresh = first.document('links', ID);
  await fresh.fetch();
  await fresh.create([...Array(CLIENTS).fill(''), 0]);
  const participants = Array.from({ length: CLIENTS }, (_, number) => new Participant(number));
  await Promise.all(participants.map((one) => one.play()));
  const made = participants.reduce((sum, one) => sum + one.made, 0);
  await Promise.all(participants.map((one) => one.document.subscribe()));
  await fresh.fetch();
  assert.strictEqual(fresh.data[CLIENTS], made);
  const { version } = await fresh.submit([{ p: [CLIENTS], na: 1 }]);
  await Promise.all(participants.map((one) => one.received(version)));
  const entries = await fresh.operations(0);
  for (const one of participants) {
    assert.deepStrictEqual([one.document.version, one.document.data], [fresh.version, fresh.data]);
    assert.strictEqual(one.versions.length, one.made);
    const own = new Set(entries.filter(({ source }) => source === one.client.source).map(({ version }) => version));
    assert.ok(one.versions.every((version) => own.has(version)));
    assert.strictEqual(new Set(one.versions).size, own.size);
  }
  assert.deepStrictEqual(faults, []);
  console.log(`links: ${made} edits stored in ${fresh.version - 2} operations, all agree`);
}

function end(error) {
  if (error) console.log(`links: ${error.stack}`);
  for (const fault of faults.slice(0, 5)) console.log(`links: ${fault}`);
  process.exit(error ? 1 : 0);
}

within(PATIENCE, main()).then(() => end(null), end);
