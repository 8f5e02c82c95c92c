/*
 * A soak: many clients edit some documents for a long time, and some of them lose their connections.
 *
 *     node bench/soak.js SERVER [OPERATIONS [CLIENTS [DOCUMENTS [SEED [PROGRAM]]]]]
 *
 * SERVER is the program, which is started, or the address of a running one (ws://..). CLIENTS (64) store OPERATIONS
 * (1,000,000); each edits one of DOCUMENTS (8) with the client of client/src, and makes its next edit after the last one
 * is acknowledged. About one operation in a thousand is sent on a socket that is torn down at once; its client reconnects
 * with the same source and sends again what wasn't acknowledged. PROGRAM is that of the reference client: then the last
 * client is one.
 *
 * At the end each client's document must be that of a fresh fetch, at the same version, and each document the replay of
 * its log. In the log each acknowledged operation must have the version of its acknowledgement, and no source and number
 * may occur twice. Prints operations per second and a verdict; the status is 1 on any difference.
 *
 * Needs node-ws.
 */
import { spawn } from 'node:child_process';
import { readFileSync } from 'node:fs';
import { isDeepStrictEqual } from 'node:util';
import { Client, apply } from '../client/src/index.js';
import { choices } from '../tests/clients/random.js';
import { WebSocket } from '../tests/clients/websocket.js';
import { ReferenceDocument } from './reference.js';

const [server, operations = '1000000', clients = '64', documents = '8', seed = '1', program = ''] = process.argv.slice(2);
const COLLECTION = 'soak';
const START = { text: '', list: [], numbers: { a: 0, b: 0 }, members: {} };
const TEXT = 120; // maximal length of a text
const LIST = 24; // maximal length of a list
const KILL = 1000; // one operation in this number loses its socket
const PATIENCE = 60000; // milliseconds without a stored operation
const PIECES = ['a', 'bc', 'def ', 'é', '漢', '😀'];
const FULL = Symbol('the server has no free place');

// Edits -----------------------------------------------------------------------------------------------------

const { random, pick } = choices(seed);

function textEdit(path, text) {
  const points = [...text];
  const from = pick([0, random(points.length + 1), points.length]);
  const at = [...path, points.slice(0, from).join('').length];
  if (random(TEXT) < points.length && from < points.length) {
    return { p: at, sd: points.slice(from, from + 1 + random(5)).join('') };
  }
  return { p: at, si: pick(PIECES) };
}

function listEdit(list) {
  if (random(LIST) >= list.length) return { p: ['list', random(list.length + 1)], li: pick([0, 7, 'x', '']) };
  const at = random(list.length);
  if (typeof list[at] === 'number' && random(2)) return { p: ['list', at], na: 1 };
  if (typeof list[at] === 'string' && random(2)) return textEdit(['list', at], list[at]);
  return { p: ['list', at], ld: list[at], ...(random(4) === 0 ? { li: random(100) } : {}) };
}

function memberEdit(members) {
  const key = pick(['k', 'l', 'm']);
  const old = Object.hasOwn(members, key) ? { od: members[key] } : {};
  if ('od' in old && random(2)) return { p: ['members', key], ...old };
  return { p: ['members', key], ...old, oi: random(1000) };
}

function randomComponent(data) {
  const kind = random(10);
  if (kind < 5) return textEdit(['text'], data.text);
  if (kind < 8) return listEdit(data.list);
  return kind === 8 ? { p: ['numbers', pick(['a', 'b'])], na: random(21) - 10 } : memberEdit(data.members);
}

// Returns one component, or sometimes several, each made on the result of the one before.
function randomOperation(data) {
  const operation = [];
  for (let more = random(8) === 0 ? 3 : 1; more > 0; more -= 1) {
    const component = randomComponent(data);
    data = apply(data, [component]);
    operation.push(component);
  }
  return operation;
}

// The run ---------------------------------------------------------------------------------------------------

const state = { wanted: Number(operations), stored: 0, killed: 0, refused: 0, faults: [] };

/** A client that edits one document and keeps what was acknowledged. */
class Participant {
  constructor(address, number, acknowledged) {
    this.number = number;
    this.acknowledged = acknowledged; // of the document: [client, number of the operation] by version
    this.source = `soak-${number}`;
    this.id = String(number % Number(documents));
    this.enter(address);
    this.document.on('stored', ({ version, seq }) => this.stored(version, seq));
    this.document.on('refused', ({ error }) => this.refused(error));
    this.document.on('healed', ({ version }) => state.faults.push(`client ${number} was healed at version ${version}`));
  }

  enter(address) {
    this.client = new Client(address, { source: this.source, WebSocket: this.tearable(), retryDelay: 20 });
    this.document = this.client.document(COLLECTION, this.id);
  }

  // Keeps the socket, to tear it down.
  tearable() {
    const participant = this;
    return class extends WebSocket {
      constructor(address) {
        super(address);
        participant.socket = this;
      }
    };
  }

  async play() {
    await this.begin();
    while (state.stored < state.wanted) {
      this.edit();
      if (random(20) === 0) this.edit();
      if (random(KILL) === 0) this.kill();
      await this.document.whenNothingPending();
    }
  }

  async begin() {
    await this.document.subscribe();
    await this.document.createIfAbsent(START);
  }

  leave() {
    this.client.disconnect();
  }

  edit() {
    this.document.submit(randomOperation(this.document.data));
  }

  kill() {
    state.killed += 1;
    this.socket.terminate();
  }

  stored(version, seq) {
    if (this.acknowledged[version]) state.faults.push(`${this.document.id}: version ${version} was acknowledged twice`);
    this.acknowledged[version] = [this.number, seq];
    state.stored += 1;
  }

  refused(error) {
    state.refused += 1;
    if (error.code !== 'ERR_OT_OP_NOT_APPLIED') state.faults.push(`client ${this.number}: ${error.code}`);
  }
}

/** A reference client. Another client creates its document. */
class ReferenceParticipant extends Participant {
  enter(address) {
    this.document = new ReferenceDocument(program, address, this.source, COLLECTION, this.id);
  }

  async begin() {
    await this.document.subscribe();
  }

  leave() {
    this.document.close();
  }

  edit() {
    this.document.edit(randomOperation);
  }

  kill() {
    state.killed += 1;
    this.document.socket.terminate();
  }
}

function pause(milliseconds) {
  return new Promise((resolve) => setTimeout(resolve, milliseconds));
}

// Waits for a condition while operations are stored.
async function until(what, holds) {
  let [seen, since] = [state.stored, Date.now()];
  while (!holds()) {
    if (state.stored !== seen) [seen, since] = [state.stored, Date.now()];
    if (Date.now() - since > PATIENCE) throw new Error(`${what}: nothing more comes`);
    await pause(5);
  }
}

async function play(participants) {
  let playing = participants.length;
  for (const one of participants) one.play().catch((error) => state.faults.push(error.stack)).finally(() => (playing -= 1));
  await until('edits', () => playing === 0);
  const followed = participants.map(({ document }) => document);
  const last = (id) => Math.max(...followed.filter((one) => one.id === id).map(({ version }) => version));
  await until('followers', () => followed.every(({ id, version }) => version === last(id)));
}

// The end ---------------------------------------------------------------------------------------------------

// Sends a request over a new connection. Returns the messages up to the end of the answer. Tries again while the server
// still serves the clients that have just disconnected.
async function ask(address, request) {
  const latest = Date.now() + PATIENCE;
  for (;;) {
    const answer = await askOnce(address, request);
    if (answer !== FULL) return answer;
    if (Date.now() > latest) throw new Error('the server has no free place');
    await pause(50);
  }
}

function askOnce(address, request) {
  return new Promise((resolve, reject) => {
    const messages = [];
    const socket = new WebSocket(address);
    socket.onerror = reject;
    socket.onclose = ({ code }) => (code === 1013 ? resolve(FULL) : reject(new Error(`closed with ${code} before the answer`)));
    socket.onopen = () => socket.send(JSON.stringify(request));
    socket.onmessage = ({ data }) => {
      const message = JSON.parse(data);
      if (message.a === 'init') return;
      messages.push(message);
      if (message.a !== request.a) return;
      socket.close();
      resolve(messages);
    };
  });
}

// Returns the differences between the log of a document and what was acknowledged.
function faultsOfLog(log, acknowledged) {
  const faults = [];
  const seen = new Set();
  log.forEach(({ v, src, seq }, place) => {
    if (v !== place) faults.push(`entry ${place} has version ${v}`);
    if (seen.has(`${src} ${seq}`)) faults.push(`${src} ${seq} is stored twice`);
    seen.add(`${src} ${seq}`);
  });
  acknowledged.forEach(([client, seq], version) => {
    const entry = log[version];
    if (entry && entry.src === `soak-${client}` && entry.seq === seq) return;
    faults.push(`soak-${client} ${seq} was acknowledged at ${version}, where ${JSON.stringify(entry)} stands`);
  });
  return faults;
}

function replay(log) {
  return log.reduce((data, entry) => (entry.create ? entry.create.data : apply(data, entry.op)), undefined);
}

function faultsOfFollower({ number, document }, { v, data }) {
  const faults = [];
  if (document.version !== v) faults.push(`client ${number} has version ${document.version}, the server ${v}`);
  if (!isDeepStrictEqual(document.data, data)) faults.push(`client ${number} has another document`);
  return faults;
}

async function faultsOfDocument(address, id, participants) {
  const [{ data: present }] = await ask(address, { a: 'f', c: COLLECTION, d: id });
  const log = (await ask(address, { a: 'f', c: COLLECTION, d: id, v: 0 })).slice(0, -1);
  const faults = faultsOfLog(log, participants[0].acknowledged);
  if (log.length !== present.v) faults.push(`${log.length} entries at version ${present.v}`);
  if (!isDeepStrictEqual(replay(log), present.data)) faults.push('the log makes another document than the server has');
  faults.push(...participants.flatMap((one) => faultsOfFollower(one, present)));
  return faults.map((fault) => `document ${id}: ${fault}`);
}

// The server ------------------------------------------------------------------------------------------------

function start() {
  if (server.startsWith('ws://')) return Promise.resolve({ address: server });
  const child = spawn(server, ['--listen', '127.0.0.1:0'], { stdio: ['ignore', 'pipe', 'inherit'] });
  return new Promise((resolve, reject) => {
    child.on('error', reject);
    child.on('exit', (status) => reject(new Error(`the server has ended with status ${status}`)));
    child.stdout.on('data', (line) => resolve({ child, address: `ws://${String(line).trim().split(' ')[1]}` }));
  });
}

// Returns the processor seconds and peak memory of the server, if it was started here (Linux).
function cost(child) {
  if (!child) return '';
  const fields = readFileSync(`/proc/${child.pid}/stat`, 'utf8').split(') ')[1].split(' ');
  const seconds = (Number(fields[11]) + Number(fields[12])) / 100;
  const peak = readFileSync(`/proc/${child.pid}/status`, 'utf8').match(/VmHWM:\s+(\d+)/)[1] / 1024;
  return `; the server took ${seconds.toFixed(0)} processor seconds and ${peak.toFixed(0)} MB`;
}

// ------------------------------------------------------------------------------------------------------------

// Runs the clients and checks the result. Returns the seconds of the operations.
async function soak(address) {
  const acknowledged = Array.from({ length: Number(documents) }, () => []);
  const participants = Array.from({ length: Number(clients) }, (_, number) => {
    const Kind = program && number === Number(clients) - 1 ? ReferenceParticipant : Participant;
    return new Kind(address, number, acknowledged[number % Number(documents)]);
  });
  const began = Date.now();
  const elapsed = () => (Date.now() - began) / 1000;
  const progress = setInterval(() => console.error(`${state.stored} after ${elapsed().toFixed(0)} s`), 10000);
  await play(participants).catch((error) => state.faults.push(error.message));
  const seconds = elapsed();
  clearInterval(progress);
  for (const one of participants) one.leave();
  for (const id of acknowledged.keys()) {
    const editors = participants.filter(({ document }) => document.id === String(id));
    state.faults.push(...(await faultsOfDocument(address, String(id), editors)));
  }
  return seconds;
}

async function main() {
  const { child, address } = await start();
  try {
    const seconds = await soak(address);
    const rate = Math.round(state.stored / seconds);
    console.log(`${clients} clients, ${documents} documents, ${state.killed} torn connections, ${state.refused} refusals`);
    console.log(`${state.stored} operations in ${seconds.toFixed(0)} s, ${rate} per second${cost(child)}`);
  } catch (error) {
    state.faults.push(error.stack);
  }
  for (const fault of state.faults.slice(0, 20)) console.log(fault);
  console.log(state.faults.length === 0 ? 'soak: all agree' : `soak: ${state.faults.length} faults`);
  if (child) child.removeAllListeners('exit').kill();
  process.exit(state.faults.length === 0 ? 0 : 1);
}

await main();
