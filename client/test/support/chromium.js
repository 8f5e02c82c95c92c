/* A page in headless Chromium, driven over a pipe, with the files of the repository over HTTP. */

import { spawn, spawnSync } from 'node:child_process';
import fs from 'node:fs';
import http from 'node:http';
import os from 'node:os';
import path from 'node:path';
import { fileURLToPath } from 'node:url';

const ROOT = fileURLToPath(new URL('../../..', import.meta.url));
const PATIENCE = 120000; // milliseconds
const OPTIONS = ['--headless=new', '--no-sandbox', '--disable-gpu', '--disable-dev-shm-usage', '--remote-debugging-pipe'];

export function hasChromium() {
  return spawnSync('chromium', ['--version']).status === 0;
}

// Serves the page at `/` and scripts of the repository at their paths.
function serve(page) {
  const server = http.createServer(({ url }, response) => {
    const file = path.join(ROOT, url);
    const isScript = file.endsWith('.js') && fs.existsSync(file);
    response.setHeader('content-type', isScript ? 'text/javascript' : 'text/html; charset=utf-8');
    response.end(isScript ? fs.readFileSync(file) : page);
  });
  return new Promise((resolve) => server.listen(0, '127.0.0.1', () => resolve(server)));
}

/** The pipe to Chromium, which all tabs share. */
class Pipe {
  constructor(child) {
    this.child = child;
    this.number = 0;
    this.answers = new Map();
    let read = '';
    child.stdio[4].setEncoding('utf8').on('data', (text) => {
      const messages = (read + text).split('\0');
      read = messages.pop();
      for (const message of messages) this.receive(JSON.parse(message));
    });
  }

  receive({ id, result, error }) {
    if (!this.answers.has(id)) return;
    const { resolve, reject } = this.answers.get(id);
    this.answers.delete(id);
    if (error) reject(new Error(error.message));
    else resolve(result);
  }

  call(method, params, sessionId) {
    this.number += 1;
    const { number: id } = this;
    const answer = new Promise((resolve, reject) => this.answers.set(id, { resolve, reject }));
    this.child.stdio[3].write(`${JSON.stringify({ id, method, params, sessionId })}\0`);
    return answer;
  }
}

/** A tab: `call` sends a command of the DevTools protocol. */
class Tab {
  constructor(pipe, address) {
    this.pipe = pipe;
    this.address = address;
    this.session = undefined;
  }

  call(method, params = {}) {
    return this.pipe.call(method, params, this.session);
  }

  async attach() {
    const { targetInfos } = await this.call('Target.getTargets');
    const { targetId } = targetInfos.find(({ type }) => type === 'page');
    await this.attachTo(targetId);
  }

  async attachTo(targetId) {
    const { sessionId } = await this.call('Target.attachToTarget', { targetId, flatten: true });
    Object.assign(this, { session: sessionId, targetId });
  }

  /** Opens the page, or the named one, in another tab. */
  async open(rest, ready) {
    const tab = new Tab(this.pipe, this.address);
    const url = rest.startsWith('about:') ? rest : `${this.address}${rest}`;
    const { targetId } = await tab.call('Target.createTarget', { url });
    await tab.attachTo(targetId);
    await tab.until(`document.readyState === 'complete' && (${ready})`);
    return tab;
  }

  /** Closes the tab as a user does. */
  async close() {
    await this.pipe.call('Target.closeTarget', { targetId: this.targetId });
  }

  /** Evaluates an expression in the page, and waits for its promise. */
  async evaluate(expression) {
    const options = { expression, awaitPromise: true, returnByValue: true };
    const { result, exceptionDetails } = await this.call('Runtime.evaluate', options);
    if (exceptionDetails) throw new Error(exceptionDetails.exception.description);
    return result.value;
  }

  /** Waits until the condition, or its promise, holds. It is false while another page is being loaded. */
  async until(condition) {
    const isLoading = ({ message }) => /context|is not defined|navigated/.test(message);
    const orFalse = (error) => (isLoading(error) ? false : Promise.reject(error));
    const holds = () => this.evaluate(`(async () => Boolean(await (${condition})))()`).catch(orFalse);
    const end = Date.now() + PATIENCE;
    while (!await holds()) {
      if (Date.now() > end) throw new Error(`it doesn't hold: ${condition}`);
      await new Promise((resolve) => setTimeout(resolve, 20));
    }
  }

  /** Presses a key with modifiers: 2 is Ctrl, 4 the command key, 8 Shift. */
  async press(key, modifiers = 0, more = {}) {
    const letter = key.toUpperCase();
    const event = { key, code: `Key${letter}`, windowsVirtualKeyCode: letter.charCodeAt(0), modifiers };
    await this.call('Input.dispatchKeyEvent', { type: 'rawKeyDown', ...event, ...more });
    await this.call('Input.dispatchKeyEvent', { type: 'keyUp', ...event });
  }
}

// Removes the folder of a browser. Its processes, which were killed, may still write there for a moment.
async function removeFolder(folder) {
  for (let tries = 0; tries < 100; tries += 1) {
    try {
      return fs.rmSync(folder, { recursive: true, force: true });
    } catch {
      await new Promise((resolve) => setTimeout(resolve, 100));
    }
  }
  return console.error(`${folder} is left`);
}

/** Opens the page and plays with its tab. `ready` is a condition that holds once the page is loaded. */
export async function inChromium(page, ready, play) {
  const server = await serve(page);
  const folder = fs.mkdtempSync(path.join(os.tmpdir(), 'chromium-'));
  const stdio = ['ignore', 'ignore', 'ignore', 'pipe', 'pipe'];
  const child = spawn('chromium', [...OPTIONS, `--user-data-dir=${folder}`, 'about:blank'], { stdio, detached: true });
  const ended = new Promise((resolve) => child.once('close', resolve));
  const pipe = new Pipe(child);
  try {
    const tab = new Tab(pipe, `http://127.0.0.1:${server.address().port}/`);
    await tab.attach();
    await tab.call('Page.navigate', { url: tab.address });
    await tab.until(`document.readyState === 'complete' && (${ready})`);
    return await play(tab);
  } finally {
    if (child.exitCode === null && child.signalCode === null) process.kill(-child.pid, 'SIGKILL');
    await ended;
    server.close();
    server.closeAllConnections();
    await removeFolder(folder);
  }
}
