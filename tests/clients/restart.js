/*
 * The server is killed and restarted at the same address: the clients report it and continue.
 *
 *     node tests/clients/restart.js SERVER
 *
 * One client edits without a pause and one only subscribes. A third one is disconnected until the new server's document
 * has a longer log than the old one had. Each must emit `restarted` once, with the stored document, and end with the
 * new server's document. No edit of the old document may be stored in the new one.
 *
 * At the end the server is killed again, and a new one gets the stored operations from a list of them, each with its
 * source, number and version. Then no client may emit `restarted`, and an edit made meanwhile is stored.
 *
 * Needs node-ws.
 */

import assert from 'node:assert';
import { spawn } from 'node:child_process';
import { Client } from '../../client/src/index.js';
import { WebSocket, within } from './websocket.js';

const [server] = process.argv.slice(2);
const PATIENCE = 60000; // milliseconds for the whole run
const EDITS = 40; // that are stored before the server is killed
let running = null; // the server

// Starts the server and returns its address.
function start(address) {
  const child = spawn(server, ['--listen', address], { stdio: ['ignore', 'pipe', 'inherit'] });
  running = child;
  return new Promise((resolve, reject) => {
    child.stdout.once('data', (line) => resolve(String(line).split(/\s/)[1]));
    child.once('exit', (status) => reject(new Error(`the server ended with status ${status}`)));
  });
}

async function started(address) {
  for (let tries = 0; ; tries += 1) {
    try {
      return await start(address);
    } catch (error) {
      if (tries > 50) throw error;
      await pause(100);
    }
  }
}

function killed() {
  const gone = new Promise((resolve) => running.once('exit', resolve));
  running.kill('SIGKILL');
  return gone;
}

function pause(milliseconds) {
  return new Promise((resolve) => setTimeout(resolve, milliseconds));
}

async function until(holds) {
  while (!holds()) await pause(5);
}

function joined(address, source) {
  const client = new Client(`ws://${address}`, { source, WebSocket, retryDelay: 20, longestDelay: 200 });
  const document = client.document('restart', '1');
  const told = [];
  document.on('restarted', (detail) => told.push(detail));
  return { client, document, told };
}

async function main() {
  const address = await started('127.0.0.1:0');
  const [writer, reader, away] = ['writer', 'reader', 'away'].map((source) => joined(address, source));
  await Promise.all([writer, reader, away].map(({ document }) => document.subscribe()));
  await writer.document.create({ list: [], at: 'old' });
  await until(() => away.document.data && reader.document.data);
  away.client.disconnect();

  const outcomes = { stored: 0, lost: 0 };
  const edit = async () => {
    while (writer.told.length === 0) {
      writer.document.submit([{ p: ['list', 0], li: 'old' }]).then(
        () => (outcomes.stored += 1),
        ({ code }) => (outcomes.lost += code === 'ERR_SERVER_RESTARTED' ? 1 : NaN),
      );
      await pause(1);
    }
  };
  const editing = edit();
  await until(() => outcomes.stored >= EDITS);
  await killed();
  await pause(50);
  await started(address);
  await editing;
  await until(() => writer.document.version === 0 && reader.told.length === 1);
  assert.ok(writer.told.length === 1 && outcomes.lost > 0, JSON.stringify(outcomes));
  assert.strictEqual(writer.told[0].data.at, 'old');
  assert.ok(writer.told[0].contents.length > 0);

  await writer.document.create({ list: [], at: 'fresh' });
  for (let made = 0; made < 5; made += 1) await writer.document.submit([{ p: ['list', 0], li: 'fresh' }]);
  await until(() => reader.document.version === 6);

  away.document.submit([{ p: ['list', 0], li: 'old' }]).catch(() => {});
  away.client.connect();
  await until(() => away.told.length === 1 && away.document.version === 6);
  assert.deepStrictEqual(away.told[0].data, { list: [], at: 'old' });
  const fresh = { list: Array(5).fill('fresh'), at: 'fresh' };
  for (const { document, told } of [writer, reader, away]) {
    assert.deepStrictEqual([document.version, document.data, document.pending, told.length], [6, fresh, 0, 1]);
  }
  assert.deepStrictEqual(await reader.document.snapshot(), { version: 6, data: fresh });
  await restored(address, [writer, reader, away]);
  console.log(`restart: ${outcomes.stored} edits stored, ${outcomes.lost} lost, and each client has reported it`);
}

// The server is killed and gets its operations again: no client is to report a loss.
async function restored(address, all) {
  const [writer] = all;
  const entries = await writer.document.operations(0);
  for (const { client } of all) client.disconnect();
  const edit = writer.document.submit([{ p: ['list', 0], li: 'later' }]);
  await killed();
  await started(address);
  const restoring = new WebSocket(`ws://${address}`);
  await new Promise((resolve, reject) => {
    let answers = 0;
    restoring.on('error', reject);
    restoring.on('open', () => {
      for (const { version, source, ...content } of entries) {
        restoring.send(JSON.stringify({ a: 'op', c: 'restart', d: '1', v: version, src: source, ...content }));
      }
    });
    restoring.on('message', (text) => {
      const message = JSON.parse(text);
      if (message.error) reject(new Error(message.error.code));
      answers += message.a === 'op' ? 1 : 0;
      if (answers === entries.length) resolve();
    });
  });
  restoring.terminate();
  for (const { client } of all) client.connect();
  const { version } = await edit;
  await until(() => all.every(({ document }) => document.version === version + 1));
  for (const { document, told } of all) {
    assert.deepStrictEqual([document.data.list.length, document.pending, told.length], [6, 0, 1]);
  }
}

function end(error) {
  if (error) console.log(`restart: ${error.stack}`);
  if (running) running.kill('SIGKILL');
  process.exit(error ? 1 : 0);
}

within(PATIENCE, main()).then(() => end(null), end);
