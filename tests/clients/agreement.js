/*
 * Compares the client's transforms with the server's, over lines and without a socket.
 *
 *     node tests/clients/agreement.js SERVER [CASES] [SEED]
 *
 * Each case is a random document, one to three operations stored on it one after the other, and one with the first
 * version as its base version. The server's code or version, its stored operation and its final document must be those
 * that the client's functions return. The cases are made by the model of client/test, so that the tested code can't
 * shape them. The status is 1, with a line for each of the first differences, if they differ.
 */

import { spawnSync } from 'node:child_process';
import { isDeepStrictEqual } from 'node:util';
import { Refusal, apply, cross } from '../../client/src/index.js';
import { Failure, apply as applyByModel, kindOf } from '../../client/test/support/model.js';
import { choices } from './random.js';

const [server, cases = '2000', seed = '1'] = process.argv.slice(2);
const MOST_SHOWN = 5; // differences that are printed
const BASE = 1; // the base version of all operations of a case: that of the created document

const { random, pick } = choices(seed);

function several(most, make) {
  return Array.from({ length: random(most + 1) }, make);
}

const PIECES = ['a', 'b', 'xy', '😀', 'é', '"', '\n'];
const KEYS = ['k', 'm', 't'];

function randomText() {
  return several(4, () => pick(PIECES)).join('');
}

function randomData(depth) {
  const kind = random(depth > 0 ? 7 : 4);
  if (kind === 0) return random(9) - 4;
  if (kind === 1) return pick([null, true, false]);
  if (kind < 4) return randomText();
  if (kind < 6) return several(3, () => randomData(depth - 1));
  return Object.fromEntries(several(3, () => [pick(KEYS), randomData(depth - 1)]));
}

// Returns a random place in the document: a path, and the value there.
function randomPlace(data) {
  const path = [];
  let value = data;
  while (value !== null && typeof value === 'object' && random(4) > 0) {
    const keys = Object.keys(value);
    if (keys.length === 0) break;
    const key = pick(keys);
    path.push(Array.isArray(value) ? Number(key) : key);
    value = value[key];
  }
  return { path, value };
}

// Splits a text into its code points, so that no half of a surrogate pair is sent.
function textComponent(path, text) {
  const points = [...text];
  const from = random(points.length + 1);
  const to = from + random(points.length - from + 1);
  const at = [...path, points.slice(0, from).join('').length];
  return random(2) ? { p: at, si: randomText() } : { p: at, sd: points.slice(from, to).join('') };
}

function listComponent(path, list) {
  const gap = random(list.length + 1);
  if (list.length === 0 || random(2)) return { p: [...path, gap], li: randomData(1) };
  const at = random(list.length);
  return { p: [...path, at], ld: list[at], ...(random(2) ? { li: randomData(1) } : {}) };
}

function objectComponent(path, object) {
  const key = pick(KEYS);
  if (random(2)) return { p: [...path, key], oi: randomData(1) };
  const old = Object.hasOwn(object, key) ? object[key] : null;
  return { p: [...path, key], od: old, ...(random(2) ? { oi: randomData(1) } : {}) };
}

function randomComponent(data) {
  const { path, value } = randomPlace(data);
  if (typeof value === 'number') return { p: path, na: random(9) - 4 };
  if (typeof value === 'string') return textComponent(path, value);
  if (Array.isArray(value)) return listComponent(path, value);
  return value === null || typeof value !== 'object' ? { p: path, na: 1 } : objectComponent(path, value);
}

// Returns components, each made on the result of the one before, without those that can't be applied.
function randomOperation(data, most) {
  const operation = [];
  const wanted = 1 + random(most);
  for (let tries = 0; operation.length < wanted && tries < 20; tries += 1) {
    const component = randomComponent(data);
    if (component.si === '' || component.sd === '') continue;
    try {
      data = applyByModel(data, [component]);
      operation.push(component);
    } catch (error) {
      if (!(error instanceof Failure)) throw error;
    }
  }
  return { operation, data };
}

function randomCase(id) {
  const start = randomData(3);
  const stored = [];
  let present = start;
  for (let left = 1 + random(3); left > 0; left -= 1) {
    const made = randomOperation(present, 3);
    stored.push(made.operation);
    present = made.data;
  }
  const seen = random(8) > 0 ? start : randomData(3); // one in eight is made on another document
  return { id: String(id), start, stored, present, arriving: randomOperation(seen, 3).operation };
}

function linesOf({ id, start, stored, arriving }) {
  const address = { c: 'b', d: id };
  return [
    { a: 'op', ...address, src: 'w', seq: 1, create: { type: 'json0', data: start } },
    ...stored.map((op, place) => ({ a: 'op', ...address, v: BASE + place, src: 'y', seq: place + 1, op })),
    { a: 'op', ...address, v: BASE, src: 'z', seq: 1, op: arriving },
    { a: 'f', ...address, v: BASE + stored.length },
    { a: 'f', ...address },
  ].map((message) => JSON.stringify(message));
}

// Returns what the client computes for the arriving operation: its code, or its stored form and the document.
function expected({ stored, present, arriving }) {
  try {
    const form = stored.reduce((left, right) => cross(left, right).left, arriving);
    return { stored: form, data: apply(present, form) };
  } catch (error) {
    if (!(error instanceof Refusal)) throw error;
    return { code: error.code, data: present };
  }
}

// Returns the server's answers about one document.
function answered(messages, { stored }) {
  const refused = messages.find((message) => message.error);
  const kept = messages.findLast((message) => message.op && message.src === 'z' && message.v === BASE + stored.length);
  const { data } = messages[messages.length - 1].data;
  return refused ? { code: refused.error.code, data } : { stored: kept && kept.op, data };
}

function answersByDocument(output) {
  const byDocument = new Map();
  for (const line of output.trimEnd().split('\n').slice(1)) {
    const message = JSON.parse(line);
    if (!byDocument.has(message.d)) byDocument.set(message.d, []);
    byDocument.get(message.d).push(message);
  }
  return byDocument;
}

function main() {
  const made = Array.from({ length: Number(cases) }, (_, place) => randomCase(place));
  const input = made.flatMap(linesOf).join('\n') + '\n';
  const run = spawnSync(server, ['--lines'], { input, encoding: 'utf8', maxBuffer: 1 << 30 });
  if (run.status !== 0) throw new Error(`the server ended with status ${run.status}: ${run.stderr}`);
  const byDocument = answersByDocument(run.stdout);
  let differences = 0;
  let refusals = 0;
  const pairs = new Set();
  for (const one of made) {
    for (const component of one.arriving) {
      for (const other of one.stored.flat()) pairs.add(`${kindOf(component)} ${kindOf(other)}`);
    }
    const wanted = expected(one);
    const got = answered(byDocument.get(one.id), one);
    if (wanted.code) refusals += 1;
    if (isDeepStrictEqual(JSON.parse(JSON.stringify(wanted)), got)) continue;
    differences += 1;
    if (differences <= MOST_SHOWN) console.log(`case ${one.id}: ${JSON.stringify({ ...one, wanted, got })}`);
  }
  const shapes = `${pairs.size} of 81 pairs of shapes`;
  console.log(`agreement: ${made.length} cases, ${shapes}, ${refusals} refused, ${differences} differ`);
  process.exitCode = differences === 0 ? 0 : 1;
}

main();
