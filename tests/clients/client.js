/*
 * One client in Node: edits a document concurrently with others, subscribes to it, and compares it at the end.
 *
 *     node tests/clients/client.js ADDRESS DOCUMENT [EDITS] [CLIENTS] [SEED]
 *
 * It is the client of client/src with random edits: some one by one, some in a row without waiting, some while it is
 * disconnected, some just before its connection is torn down. Once they are stored it sets a key `finished-..` in the
 * document; once CLIENTS of these keys are set, no client edits. Then it fetches the document over a new connection,
 * and the document at every fifth version that it has seen. If these differ from its copies, it prints a line that says
 * where, and the status is 1.
 *
 * Needs node-ws.
 */

import { createHash } from 'node:crypto';
import { Client, textChange } from '../../client/src/index.js';
import { choices } from './random.js';
import { WebSocket } from './websocket.js';

const COLLECTION = 'examples';
const NAME = 'node';
const PATIENCE = 120000; // milliseconds without progress
const MOST_FAULTS = 5; // that are printed
const EVERY = 5; // one version in this number is compared at the end
const CARDS = 20; // maximal number of cards
const ITEMS = 8; // maximal length of a list
const TEXT = 300; // maximal length of a text
const START = { text: '', columns: ['To do', 'Doing', 'Done'], cards: {} };
const PIECES = ['a', 'bc', '😀', 'word ', '\n', 'é', '漢字', '🎉🎉'];

// Random choices --------------------------------------------------------------------------------------------

let { random, pick } = choices(1);

// Edits -------------------------------------------------------------------------------------------------------

// Returns an offset, often at the start or the end, where others write concurrently.
function textEdit(path, text, most) {
  const points = [...text];
  const from = pick([0, random(points.length + 1), points.length]);
  const removed = random(most) < points.length ? 1 + random(6) : 0;
  const put = removed > 0 ? '' : pick(path.length === 1 ? PIECES : PIECES.slice(0, 3));
  const after = [...points.slice(0, from), put, ...points.slice(from + removed)].join('');
  return textChange(path, text, after);
}

function newCard() {
  return { column: random(3), rank: pick([...'cfilor']), title: 'card', done: false, votes: 0 };
}

// Edits a list that the page doesn't show. Its items have the form of cards.
function listEdit(data) {
  if (data.items === undefined) return [{ p: ['items'], oi: [] }];
  const { items } = data;
  if (items.length === 0 || (items.length < ITEMS && random(2))) {
    return [{ p: ['items', random(items.length + 1)], li: newCard() }];
  }
  const index = random(items.length);
  const removed = { p: ['items', index], ld: items[index] };
  switch (random(4)) {
    case 0:
      return [{ ...removed, li: newCard() }];
    case 1:
      return [removed, { p: ['items', random(items.length)], li: items[index] }];
    case 2:
      return [removed];
    default:
      return cardEdit(['items', index], items[index]);
  }
}

function addOrRemove({ cards }) {
  const ids = Object.keys(cards);
  if (ids.length > 0 && (ids.length >= CARDS || random(5) < 2)) {
    const id = pick(ids);
    return [{ p: ['cards', id], od: cards[id] }];
  }
  return [{ p: ['cards', `${NAME}-${random(1e9).toString(36)}`], oi: newCard() }];
}

// Moves a card: it gets another column and rank.
function moveEdit(path, card) {
  const { column, rank } = newCard();
  return [
    { p: [...path, 'column'], od: card.column, oi: column },
    { p: [...path, 'rank'], od: card.rank, oi: rank },
  ];
}

function keyEdit(path, place) {
  const key = `key-${random(4)}`;
  const at = [...path, key];
  const old = Object.hasOwn(place, key) ? { od: place[key] } : {};
  if ('od' in old && random(5) < 2) return [{ p: at, ...old }];
  return [{ p: at, ...old, oi: pick([random(100), 'text', null, [1, 2], { deep: true }]) }];
}

function cardEdit(path, card) {
  switch (random(5)) {
    case 0:
      return [{ p: [...path, 'votes'], na: random(9) - 3 }];
    case 1:
      return [{ p: [...path, 'done'], od: card.done, oi: !card.done }];
    case 2:
      return textEdit([...path, 'title'], card.title, 20);
    case 3:
      return keyEdit(path, card);
    default:
      return moveEdit(path, card);
  }
}

function randomEdit(data) {
  const kind = random(9);
  if (kind < 3) return textEdit(['text'], data.text, TEXT);
  if (kind === 3) return keyEdit([], data);
  if (kind === 4) return listEdit(data);
  const ids = Object.keys(data.cards);
  if (kind === 5 || ids.length === 0) return addOrRemove(data);
  const id = pick(ids);
  return cardEdit(['cards', id], data.cards[id]);
}

// The run -----------------------------------------------------------------------------------------------------

function pause(milliseconds) {
  return new Promise((resolve) => setTimeout(resolve, milliseconds));
}

// Waits for a condition, which is checked after each change.
function until(document, holds) {
  return new Promise((resolve, reject) => {
    const timer = setTimeout(() => reject(new Error('nothing more comes')), PATIENCE);
    const look = () => {
      if (!holds()) return;
      clearTimeout(timer);
      resolve();
    };
    document.on('change', look);
    document.on('version', look);
    look();
  });
}

// Keeps the client's socket, so that it can be torn down.
function tearable() {
  const kept = { socket: null };
  kept.WebSocket = class extends WebSocket {
    constructor(address) {
      super(address);
      kept.socket = this;
    }
  };
  return kept;
}

async function edit(document, client, kept, edits) {
  for (let made = 0; made < edits; made += 1) {
    document.submit(randomEdit(document.data));
    const fate = random(40);
    if (fate === 0) kept.socket.terminate();
    else if (fate === 1) client.disconnect();
    if (fate === 1) setTimeout(() => client.connect(), random(60));
    if (random(3) > 0) await (fate === 1 ? pause(random(30)) : document.whenNothingPending());
  }
  await document.whenNothingPending();
  document.submit([{ p: [`finished-${NAME}`], oi: true }]);
  await document.whenNothingPending();
}

function finished(data) {
  return Object.keys(data).filter((key) => key.startsWith('finished-')).length;
}

// The end -----------------------------------------------------------------------------------------------------

// Returns the document over a new connection, and the document at some versions, by version.
function fetchDocument(address, id, versions) {
  return new Promise((resolve, reject) => {
    const socket = new WebSocket(address);
    const before = new Map();
    const ask = (message) => socket.send(JSON.stringify({ c: COLLECTION, d: id, ...message }));
    socket.onerror = reject;
    socket.onopen = () => {
      for (const version of versions) ask({ a: 'nf', id: version, v: version });
      ask({ a: 'f' });
    };
    socket.onmessage = ({ data }) => {
      const message = JSON.parse(data);
      if (message.a === 'nf') before.set(message.v, message.data);
      if (message.a !== 'f') return;
      socket.close();
      resolve({ ...message.data, before });
    };
  });
}

function canonical(value) {
  if (Array.isArray(value)) return `[${value.map(canonical).join()}]`;
  if (value === null || typeof value !== 'object') return JSON.stringify(value);
  const members = Object.keys(value).sort().map((key) => `${JSON.stringify(key)}:${canonical(value[key])}`);
  return `{${members.join()}}`;
}

// Returns the first place at which two values differ, or null.
function difference(ours, theirs, path = 'document') {
  const spelled = `${path}: ${JSON.stringify(ours)} and ${JSON.stringify(theirs)}`;
  const [isObject, alike] = [ours !== null && typeof ours === 'object', Array.isArray(ours) === Array.isArray(theirs)];
  if (!isObject || theirs === null || typeof theirs !== 'object' || !alike) return ours === theirs ? null : spelled;
  if (canonical(Object.keys(ours).sort()) !== canonical(Object.keys(theirs).sort())) return spelled;
  for (const key of Object.keys(ours)) {
    const found = difference(ours[key], theirs[key], `${path}.${key}`);
    if (found) return found;
  }
  return null;
}

const faults = [];

async function main(address, id, edits = '300', clients = '1', seed = '1') {
  ({ random, pick } = choices(seed));
  const held = new Map(); // the document as JSON text, by version
  let refused = 0;
  const kept = tearable();
  const client = new Client(address, { WebSocket: kept.WebSocket, retryDelay: 20 });
  const document = client.document(COLLECTION, id);
  document.on('refused', () => (refused += 1));
  document.on('healed', ({ version }) => faults.push(`healed at version ${version}`));
  document.on('version', () => {
    if (document.version % EVERY === 0) held.set(document.version, JSON.stringify(document.confirmed));
  });
  await document.subscribe();
  await document.createIfAbsent(START);
  await edit(document, client, kept, Number(edits));
  await until(document, () => finished(document.data) >= Number(clients));
  client.disconnect();
  const fresh = await fetchDocument(address, id, held.keys());
  for (const [version, text] of held) {
    const found = difference(JSON.parse(text), fresh.before.get(version));
    if (found) faults.push(`held another document at version ${version}: ${found}`);
  }
  const differs = difference([document.version, document.data, document.confirmed], [fresh.v, fresh.data, fresh.data]);
  const digest = createHash('sha256').update(canonical(document.data)).digest('hex').slice(0, 16);
  console.log(`${NAME}: ${edits} edits, ${refused} refused, version ${document.version}, digest ${digest}`);
  if (differs) faults.push(`holds another document: ${differs}`);
}

main(...process.argv.slice(2))
  .catch((error) => faults.push(error.stack))
  .then(() => {
    for (const fault of faults.slice(0, MOST_FAULTS)) console.log(`${NAME}: ${fault}`);
    process.exit(faults.length > 0 ? 1 : 0);
  });
