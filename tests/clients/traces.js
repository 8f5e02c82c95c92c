/*
 * Writes what clients did, as commands to the reference client, and their states after each.
 *
 *     node tests/clients/traces.js FOLDER [LISTS] [SEED]
 *
 * A list of random steps, of which the seed determines the next one's too, moves three clients of client/src at the
 * model of the server: edits, messages that are delivered in any order of the connections, cut connections with late
 * messages, reconnects, subscriptions and fetches. `preventCompose` is true, since the reference client joins no edits.
 * No document is deleted, and all numbers are far from their limits.
 *
 * FOLDER/commands gets a line for each start, edit, sent edit and processed operation of a client: all of one client,
 * then those of the next one. FOLDER/states gets a line for each of these: the client's state as the program prints it,
 * with the seed and the client, or null if the command isn't the last one of its transition. `test_clients.py` compares
 * them with the program's answers. The status is 1 if a client's state changes without a command or reports a fault.
 */

import fs from 'node:fs';
import path from 'node:path';
import { connectionOf } from '../../client/src/connection.js';
import { plain } from '../../client/src/ot/overlay.js';
import { flush } from '../../client/test/support/clock.js';
import { randomEdit, startDocument } from '../../client/test/support/edits.js';
import { Net } from '../../client/test/support/net.js';
import { choices } from '../../client/test/support/random.js';

const [folder, lists = '10000', seed = '1'] = process.argv.slice(2);
const STEPS = 70;
const CLIENTS = 3;
const FAULTS = new Set(['healed', 'restarted', 'refused', 'error']);

/** A client, the commands that it has executed, and its states after them. */
class Traced {
  constructor(net, name) {
    Object.assign(this, net.client(name));
    this.net = net;
    this.name = name;
    this.commands = [];
    this.states = [];
    this.seq = 0; // of the last sent edit
    this.state = null;
    this.pending = 0;
    this.crossed = 0; // operations of others that were processed while edits were pending
    const { machine } = this.doc._doc();
    const transition = machine.transition.bind(machine);
    machine.transition = (input) => {
      const done = transition(input);
      this.record(done, machine);
      return done;
    };
    this.doc.preventCompose = true;
    this.doc.subscribe().catch(() => {});
  }

  // Records the commands of a transition. It processes an operation, or makes an edit, before it sends.
  record({ events, messages }, machine) {
    const before = this.commands.length;
    for (const [name, detail] of events) this.recordEvent(name, detail);
    for (const text of messages) this.recordMessage(JSON.parse(text));
    const state = machine.version === null ? null : JSON.stringify(this.stateOf(machine));
    if (this.commands.length > before) this.states[this.commands.length - 1] = state;
    else if (state !== this.state) throw new Error(`${this.name}: the state changes without a command: ${state}`);
    this.state = state;
    this.pending = machine.pending;
  }

  recordEvent(name, detail) {
    if (FAULTS.has(name)) throw new Error(`${this.name}: ${name} ${JSON.stringify(detail)}`);
    if (name === 'load') this.start();
    if (name === 'op' && detail.local) this.add({ a: 'edit', op: detail.operation });
    if (name === 'version') {
      const { content, src, seq, v } = this.net.stored.log[detail.version];
      this.add({ a: 'op', c: 'b', d: '1', ...content, seq, src, v });
      if (src !== this.name && this.pending > 0) this.crossed += 1;
    }
  }

  recordMessage({ a, seq }) {
    if (a !== 'op' || seq <= this.seq) return;
    this.seq = seq;
    this.add({ a: 'send' });
  }

  start() {
    const { machine } = this.doc._doc();
    const create = { type: 'json0', data: this.doc.confirmed };
    this.add({ a: 'start', src: this.name, v: machine.version, seq: this.seq + 1, create });
  }

  add(command) {
    this.commands.push(JSON.stringify(command));
    this.states.push(null);
  }

  // Returns the state as the program prints it.
  stateOf({ version, confirmed, data, inFlight, queue }) {
    const sent = inFlight && JSON.parse(inFlight.text);
    const pending = [...(inFlight ? [inFlight] : []), ...queue];
    return {
      data: plain(confirmed),
      pending: pending.map(({ content }) => content.op),
      seq: connectionOf(this.client).number + 1,
      sent: sent && { op: sent.op, seq: sent.seq, v: sent.v },
      shown: plain(data),
      v: version,
    };
  }

  step(chosen) {
    const { random } = chosen;
    const { doc, client } = this;
    const kind = random(14);
    if (kind < 9) {
      if (doc.version !== null) doc.submit(randomEdit(chosen, doc.data));
    } else if (kind === 9) {
      if (random(2)) client.disconnect();
      else client.connect();
    } else if (kind === 10) {
      (random(2) ? doc.unsubscribe() : doc.subscribe()).catch(() => {});
    } else if (kind === 11) {
      doc.fetch().catch(() => {});
    }
  }
}

function step(chosen, net, all) {
  const { random, pick } = chosen;
  const link = net.links.length > 0 ? pick(net.links) : null;
  const kind = random(30);
  if (kind < 14) {
    pick(all).step(chosen);
  } else if (kind === 14) {
    net.clock.advance(1 + random(2));
  } else if (kind === 15) {
    net.deliverLate();
  } else if (link && kind === 16) {
    if (random(3) === 0) net.cut(link, random(2) === 0);
  } else if (link) {
    if (random(2)) net.up(link);
    else net.down(link);
  }
}

// Plays a list of steps. Returns the clients.
async function play(listSeed) {
  const chosen = choices(listSeed);
  const net = new Net();
  const first = net.client('first').doc;
  first.fetch();
  net.deliver();
  first.create(startDocument(0));
  net.deliver();
  const all = Array.from({ length: CLIENTS }, (_, at) => new Traced(net, `c${at}`));
  if (chosen.random(4) > 0) net.deliver();
  for (let made = 0; made < STEPS; made += 1) {
    step(chosen, net, all);
    if (chosen.random(4) === 0) await flush();
  }
  for (const { client } of all) client.connect();
  await net.settle();
  return all;
}

function write(files, listSeed, { name, commands, states }) {
  fs.writeSync(files.commands, commands.map((line) => `${line}\n`).join(''));
  const lines = states.map((state) => (state === null ? 'null\n' : `{"seed":${listSeed},"client":"${name}","state":${state}}\n`));
  fs.writeSync(files.states, lines.join(''));
}

async function main() {
  const files = {};
  for (const name of ['commands', 'states']) files[name] = fs.openSync(path.join(folder, name), 'w');
  const counts = { start: 0, edit: 0, send: 0, op: 0, crossed: 0 };
  for (let list = 0; list < Number(lists); list += 1) {
    const listSeed = Number(seed) * 1000000 + list;
    const all = await play(listSeed).catch((error) => {
      throw new Error(`SEED ${listSeed}: ${error.stack}`);
    });
    for (const one of all) {
      write(files, listSeed, one);
      counts.crossed += one.crossed;
    }
    for (const line of all.flatMap(({ commands }) => commands)) counts[/^{"a":"(\w+)"/.exec(line)[1]] += 1;
  }
  console.log(`traces: ${lists} lists of steps, ${JSON.stringify(counts)}`);
}

await main();
