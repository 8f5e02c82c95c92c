/* The storage in a folder: torn and failed writes, ended processes, and one process at a time. */

import assert from 'node:assert';
import { spawn } from 'node:child_process';
import fs from 'node:fs';
import os from 'node:os';
import path from 'node:path';
import { test } from 'node:test';
import { fileURLToPath } from 'node:url';
import { folderStorage } from '../src/folder_storage.js';
import { OPTIONS } from './support/options.js';

const MODULE = fileURLToPath(new URL('../src/folder_storage.js', import.meta.url));
const SUPPORT = fileURLToPath(new URL('support/methods.js', import.meta.url));

// Calls the action with a folder that isn't there yet.
async function inFolder(action) {
  const parent = fs.mkdtempSync(path.join(os.tmpdir(), 'storage-'));
  try {
    await action(path.join(parent, 'a', 'b'));
  } finally {
    fs.rmSync(parent, { recursive: true, force: true });
  }
}

// Returns the methods of a storage, whose keeper is given a connection that does nothing.
function methodsOf(folder) {
  const storage = folderStorage(folder);
  return Object.assign(storage._keeperFor({}).methods, { storage });
}

async function readAll(folder) {
  const methods = methodsOf(folder);
  try {
    return Object.fromEntries(await methods.read(''));
  } finally {
    await methods.storage.close();
  }
}

const journalOf = (folder) => path.join(folder, 'journal');

test('texts are there after a close, in the order of their keys', OPTIONS, () => inFolder(async (folder) => {
  const methods = methodsOf(folder);
  await methods.write([['b', '1'], ['a', 'ä😀\n'], ['ab', '3']]);
  await methods.write([['b', null], ['c', '4']]);
  assert.deepStrictEqual(await methods.keys('a'), ['a', 'ab']);
  assert.deepStrictEqual(await methods.read(''), [['a', 'ä😀\n'], ['ab', '3'], ['c', '4']]);
  await methods.storage.close();
  assert.deepStrictEqual(await readAll(folder), { a: 'ä😀\n', ab: '3', c: '4' });
}));

test('a last line that is torn at any byte is left out, and the next writes are kept', OPTIONS, () => inFolder(async (folder) => {
  const methods = methodsOf(folder);
  await methods.write([['a', 'ä1']]);
  await methods.write([['a', 'ä2'], ['b', 'é']]);
  const before = fs.readFileSync(journalOf(folder)).length;
  await methods.write([['a', 'ä3😀'], ['b', null], ['c', '\n']]);
  await methods.storage.close();
  const whole = fs.readFileSync(journalOf(folder));
  for (let length = before; length < whole.length; length += 1) {
    for (const tail of ['', '\0'.repeat(20), 'x\n', '\n\n']) {
      fs.writeFileSync(journalOf(folder), Buffer.concat([whole.subarray(0, length), Buffer.from(tail)]));
      // (the line is whole but for its end)
      const isWhole = length === whole.length - 1 && tail.startsWith('\n');
      const expected = isWhole ? { a: 'ä3😀', c: '\n' } : { a: 'ä2', b: 'é' };
      assert.deepStrictEqual(await readAll(folder), expected, `${length} bytes and ${JSON.stringify(tail)}`);
      const next = methodsOf(folder);
      await next.write([['d', 'next']]);
      await next.write([['e', 'last']]);
      await next.storage.close();
      assert.deepStrictEqual(await readAll(folder), { ...expected, d: 'next', e: 'last' });
    }
  }
}));

test('a journal that is damaged before its end is refused, and stays as it is', OPTIONS, () => inFolder(async (folder) => {
  const methods = methodsOf(folder);
  for (const text of ['one', 'two', 'three']) await methods.write([['a', text]]);
  await methods.storage.close();
  const damaged = fs.readFileSync(journalOf(folder), 'utf8').replace('two', 'too');
  fs.writeFileSync(journalOf(folder), damaged);
  await assert.rejects(readAll(folder), /line 3 of the journal is damaged/);
  fs.writeFileSync(journalOf(folder), 'something else\n');
  await assert.rejects(readAll(folder), /first line/);
  assert.strictEqual(fs.readFileSync(journalOf(folder), 'utf8'), 'something else\n');
}));

test('a journal that has grown is replaced, and an unfinished replacement is ignored', OPTIONS, () => inFolder(async (folder) => {
  const methods = methodsOf(folder);
  const text = 'x'.repeat(100000);
  let largest = 0;
  for (let made = 0; made < 60; made += 1) {
    await methods.write([['a', `${made}${text}`], [`k${made}`, 'short']]);
    largest = Math.max(largest, fs.statSync(journalOf(folder)).size);
  }
  await methods.storage.close();
  assert.ok(largest > 1000000 && largest < 1400000, `${largest} bytes`);
  fs.writeFileSync(`${journalOf(folder)}.new`, 'navirotsohy journal 1\n0123');
  const read = await readAll(folder);
  assert.deepStrictEqual([Object.keys(read).length, read.a], [61, `59${text}`]);
}));

// Lets the next calls of a method of file handles fail, after a part of the text was written.
async function failing(name, count, action) {
  const handle = await fs.promises.open(MODULE, 'r');
  const handles = Object.getPrototypeOf(handle);
  await handle.close();
  const method = handles[name];
  let rest = count;
  handles[name] = async function fail(text, ...more) {
    if (rest === 0) return method.call(this, text, ...more);
    rest -= 1;
    if (typeof text === 'string') await method.call(this, text.slice(0, text.length / 2), ...more);
    throw new Error('no space left');
  };
  try {
    await action();
  } finally {
    handles[name] = method;
  }
}

test('a write that fails is reported, and changes nothing for the next ones', OPTIONS, async () => {
  for (const name of ['appendFile', 'datasync', 'sync', 'writeFile']) {
    await inFolder(async (folder) => {
      const methods = methodsOf(folder);
      await methods.write([['a', '1']]);
      await methods.write([['b', '1']]);
      if (name === 'sync' || name === 'writeFile') await failing('datasync', 1, () => assert.rejects(methods.write([['b', '2']])));
      await failing(name, 1, () => assert.rejects(methods.write([['b', '3']]), /no space left/));
      assert.deepStrictEqual(await methods.read(''), [['a', '1'], ['b', '1']]);
      await methods.write([['c', '1']]);
      await methods.storage.close();
      assert.deepStrictEqual(await readAll(folder), { a: '1', b: '1', c: '1' }, name);
    });
  }
});

test('writes at the same time are made one after the other; a lock has one holder', OPTIONS, () => inFolder(async (folder) => {
  const methods = methodsOf(folder);
  await Promise.all(Array.from({ length: 50 }, (_, at) => methods.write([['a', `${at}`], [`k${at}`, '']])));
  const release = await methods.lock('one');
  assert.strictEqual(await methods.lock('one'), null);
  release();
  assert.strictEqual(typeof await methods.lock('one'), 'function');
  await methods.storage.close();
  const read = await readAll(folder);
  assert.deepStrictEqual([read.a, Object.keys(read).length], ['49', 51]);
}));

// Starts a process that writes numbers, and prints each once it is written.
function startWriter(folder) {
  const child = spawn('node', [SUPPORT, folder], { stdio: ['ignore', 'pipe', 'inherit'] });
  const writer = { child, written: 0, text: '', ended: new Promise((resolve) => child.once('exit', resolve)) };
  child.stdout.setEncoding('utf8').on('data', (text) => {
    writer.text += text;
    writer.written = Number(writer.text.split('\n').slice(-2)[0]) || writer.written;
  });
  return writer;
}

async function until(holds) {
  while (!holds()) await new Promise((resolve) => setTimeout(resolve, 5));
}

test('a process that is killed has its writes kept, and lets the next one use the folder at once', OPTIONS, () => inFolder(async (folder) => {
  let before = 0;
  for (let kill = 0; kill < 5; kill += 1) {
    const writer = startWriter(folder);
    const { written } = writer;
    await until(() => writer.written > Math.max(written, before) + 3 * kill);
    await assert.rejects(readAll(folder), /another process uses the folder/);
    writer.child.kill('SIGKILL');
    await writer.ended;
    const read = await readAll(folder);
    assert.ok(Number(read.number) >= writer.written, `${read.number} and ${writer.written}`);
    assert.strictEqual(read.number, read.same);
    before = Number(read.number);
  }
  assert.strictEqual(fs.readdirSync(folder).filter((name) => name.startsWith('lock-')).length, 1);
}));

test('of several processes at a free folder one has it', OPTIONS, () => inFolder(async (folder) => {
  const free = await readAll(folder).then(() => true);
  const writers = Array.from({ length: 4 }, () => startWriter(folder));
  await until(() => writers.every(({ text }) => text !== ''));
  const having = writers.filter(({ text }) => !text.includes('refused'));
  for (const { child, ended } of writers) {
    child.kill('SIGKILL');
    await ended;
  }
  assert.deepStrictEqual([free, having.length], [true, 1]);
}));

test('a process that can\'t be seen has the folder while it shows signs of life', OPTIONS, () => inFolder(async (folder) => {
  await readAll(folder);
  const [name] = fs.readdirSync(folder).filter((file) => file.startsWith('lock-'));
  const file = path.join(folder, name);
  fs.writeFileSync(file, JSON.stringify([1, '1', 'another container']));
  const beat = setInterval(() => fs.utimesSync(file, new Date(), new Date()), 200);
  const before = Date.now();
  const reading = readAll(folder);
  setTimeout(() => clearInterval(beat), 1000);
  await reading;
  assert.ok(Date.now() - before > 9000);
}));

test('a process that has lost the folder writes nothing more', OPTIONS, () => inFolder(async (folder) => {
  const methods = methodsOf(folder);
  await methods.write([['a', '1']]);
  const [name] = fs.readdirSync(folder).filter((file) => file.startsWith('lock-'));
  const old = new Date(Date.now() - 60000);
  fs.writeFileSync(path.join(folder, name), JSON.stringify([1, '1', 'another container']));
  fs.utimesSync(path.join(folder, name), old, old);
  const next = methodsOf(folder);
  await next.write([['a', '2']]);
  await assert.rejects(methods.write([['a', '3']]), /another process uses the folder/);
  await methods.storage.close();
  await next.write([['b', '2']]);
  await next.storage.close();
  assert.deepStrictEqual(await readAll(folder), { a: '2', b: '2' });
}));
