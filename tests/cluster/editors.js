/*
 * Clients of client/src that edit the documents of a cluster.
 *
 *     node tests/cluster/editors.js URL BUCKETS CLIENTS DOCUMENTS STRIDE SEED PAUSE
 *
 * Document N is open in the client N / STRIDE modulo CLIENTS, and every hundredth in all. It writes `ready`, and the
 * clients edit until it reads a line, PAUSE seconds apart on average. It writes `settled` once nothing is pending, and
 * reads the versions of the documents. Once the clients have these, it writes what was acknowledged, the documents, and
 * what the clients lost.
 *
 * Needs node-ws.
 */

import readline from 'node:readline';
import { Cluster } from '../../client/src/index.js';
import { choices } from '../clients/random.js';
import { WebSocket, within } from '../clients/websocket.js';

const START = { t: '', n: 0 };
const SHARED = 100; // one document in this number is open in all clients
const LONGEST = 40; // characters of a text
const PATIENCE = 300000; // milliseconds for each part

const acknowledged = [];
const waits = []; // the document, and the milliseconds until an edit was stored
const lost = [];

function open(cluster, number) {
  const doc = cluster.document('b', `d${number}`);
  doc.on('stored', ({ version, source, seq }) => acknowledged.push([doc.id, source, seq, version, Date.now() / 1000]));
  for (const name of ['refused', 'restarted', 'healed', 'error']) {
    doc.on(name, ({ error }) => lost.push([doc.id, error ? error.code : name]));
  }
  return doc;
}

function operation({ t: text }, { random, pick }) {
  if (random(5) === 0) return [{ p: ['n'], na: 1 }];
  if (text.length <= 1 + random(LONGEST)) return [{ p: ['t', random(text.length + 1)], si: pick([...'abc']) }];
  const at = random(text.length);
  return [{ p: ['t', at], sd: text.slice(at, at + 2) }];
}

function edit(doc, chance) {
  if (doc.data === undefined) return; // it was lost
  const began = Date.now();
  doc.submit(operation(doc.data, chance)).then(
    () => waits.push([doc.id, Date.now() - began]),
    ({ code }) => lost.push([doc.id, code]),
  );
}

// Edits documents at random until `isEnding` holds.
async function edits(docs, chance, pause, isEnding) {
  while (!isEnding()) {
    await new Promise((resolve) => setTimeout(resolve, chance.random(2000 * pause)));
    edit(chance.pick(docs), chance);
  }
}

function isUpToDate(doc, versions) {
  return new Promise((resolve) => {
    const check = () => doc.version === versions[doc.id] && resolve();
    doc.on('version', check);
    check();
  });
}

async function main(url, [buckets, count, total, stride, seed, pause]) {
  const input = readline.createInterface({ input: process.stdin })[Symbol.asyncIterator]();
  const clusters = Array.from({ length: count }, () => new Cluster(url, buckets, { WebSocket }));
  const isOpen = (number, at) => number % SHARED === 0 || Math.floor(number / stride) % count === at;
  const numbers = [...Array(total).keys()];
  const opened = clusters.map((cluster, at) => {
    return numbers.filter((number) => isOpen(number, at)).map((number) => open(cluster, number));
  });
  const docs = opened.flat();
  await within(PATIENCE, Promise.all(docs.map((doc) => doc.subscribe())));
  await within(PATIENCE, Promise.all(docs.map((doc) => doc.createIfAbsent(START))));
  console.log('ready');
  let isEnding = false;
  const editing = opened.map((each, at) => edits(each, choices(1000 * seed + at), pause, () => isEnding));
  await input.next();
  isEnding = true;
  await Promise.all(editing);
  await within(PATIENCE, Promise.all(clusters.map((cluster) => cluster.whenNothingPending())));
  console.log('settled');
  const versions = JSON.parse((await input.next()).value);
  await within(PATIENCE, Promise.all(docs.map((doc) => isUpToDate(doc, versions))));
  const shown = docs.filter(({ pending }) => pending === 0).map(({ id, version, data }) => [id, version, data]);
  clusters.forEach((cluster) => cluster.close());
  const report = JSON.stringify({ acknowledged, documents: shown, opened: docs.length, lost, waits });
  process.stdout.write(`${report}\n`, () => process.exit());
}

const [url, ...words] = process.argv.slice(2);
await main(url, words.map(Number));
