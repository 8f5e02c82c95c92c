/* The package: installed from a git address without a registry, by `import` and `require`, with its types and files. */

import assert from 'node:assert';
import { spawnSync } from 'node:child_process';
import fs from 'node:fs';
import os from 'node:os';
import path from 'node:path';
import { test } from 'node:test';
import { fileURLToPath } from 'node:url';
import vm from 'node:vm';
import zlib from 'node:zlib';

const TEST = path.dirname(fileURLToPath(import.meta.url));
const ROOT = path.dirname(path.dirname(TEST));
const SHIPPED = ['package.json', 'LICENSE', 'CHANGELOG.md', 'client/README.md', 'client/src', 'client/dist'];
const OPTIONS = { timeout: 120000 };
const LONGEST_SCRIPT = 22000; // bytes
const PROGRAM = `
  const names = (api) => Object.keys(api).filter((name) => name !== 'default').sort().join();
  const same = (one, other) => JSON.stringify(one.cross([{ p: [0], li: 1 }], [{ p: [0], li: 2 }])) ===
    JSON.stringify(other.cross([{ p: [0], li: 1 }], [{ p: [0], li: 2 }]));
  Promise.all([import('navirotsohy'), import('navirotsohy/ot')]).then(([api, ot]) => {
    const [required, requiredOt] = [require('navirotsohy'), require('navirotsohy/ot')];
    console.log(names(api) === names(required) && same(api, required));
    console.log(names(ot) === names(requiredOt) && same(ot, requiredOt));
    const client = new required.Client('ws://x', { WebSocket: class {}, connect: false });
    console.log(require('navirotsohy/package.json').version, typeof client.source);
    process.exit();
  });
`;

// Loads each export in both ways, and prints those that give no names or other ones.
const EXPORTS = `
  const { exports: listed, unpkg, jsdelivr, main, module: entry, types } = require('navirotsohy/package.json');
  const isMissing = (file) => !require('fs').existsSync('node_modules/navirotsohy/' + file);
  const files = [unpkg, jsdelivr, main, entry, types].filter(isMissing);
  const modules = Object.keys(listed).filter((path) => path !== './package.json');
  const paths = modules.map((path) => 'navirotsohy' + path.slice(1));
  const names = (api) => Object.keys(api).filter((name) => name !== 'default').sort().join();
  const isFine = async (path) => names(await import(path)) === names(require(path)) && names(require(path)) !== '';
  Promise.all(paths.map(isFine)).then((fine) => console.log(paths.filter((path, at) => !fine[at]).concat(files)));
`;

// Sets the global WebSocket to one of the model's server, which is in the same process.
const MODEL = `
  import { Server } from ${JSON.stringify(new URL('support/server.js', import.meta.url).href)};
  const server = new Server();
  globalThis.WebSocket = class {
    constructor() {
      this.session = server.open((message) => setTimeout(() => this.onmessage({ data: JSON.stringify(message) }), 1));
    }
    send(text) {
      setTimeout(() => server.receive(this.session, JSON.parse(text)), 1);
    }
    close() {}
  };
`;

// Runs the first program of each document as it stands.
function runFirstPrograms(project) {
  fs.writeFileSync(path.join(project, 'model.mjs'), MODEL);
  for (const name of ['client/README.md', 'docs/CLIENT.md']) {
    const [, program] = /```js\n(import [^`]*)```/.exec(fs.readFileSync(path.join(ROOT, name), 'utf8'));
    fs.writeFileSync(path.join(project, 'first.mjs'), program);
    const printed = run('node', ['--import', './model.mjs', 'first.mjs'], project);
    assert.strictEqual(printed, '{ votes: 1, title: \'\' }\n{ votes: 1, title: \'Plan\' }\n', name);
  }
}

function run(command, args, cwd) {
  const env = { ...process.env, npm_config_cache: path.join(cwd, 'cache'), npm_config_update_notifier: 'false' };
  const ran = spawnSync(command, args, { cwd, env, encoding: 'utf8', timeout: 60000 });
  if (ran.error && ran.error.code === 'ENOENT') return null;
  assert.strictEqual(ran.status, 0, `${command} ${args.join(' ')}: ${ran.stdout}${ran.stderr}`);
  return ran.stdout;
}

// Makes a git repository of what is shipped, and a project that depends on it.
function installed(folder) {
  const [repository, project] = [path.join(folder, 'repository'), path.join(folder, 'project')];
  for (const name of SHIPPED) fs.cpSync(path.join(ROOT, name), path.join(repository, name), { recursive: true });
  fs.mkdirSync(project);
  fs.writeFileSync(path.join(project, 'package.json'), '{"name": "project", "private": true}');
  const author = ['-c', 'user.name=a', '-c', 'user.email=a@example.com', '-c', 'init.defaultBranch=main'];
  if (run('git', [...author, 'init', '-q'], repository) === null) return null;
  run('git', ['add', '.'], repository);
  run('git', [...author, 'commit', '-q', '-m', 'a'], repository);
  const options = ['--offline', '--no-audit', '--no-fund', '--loglevel=error'];
  return run('npm', ['install', ...options, `git+file://${repository}`], project) === null ? null : project;
}

test('npm installs the package from a git address, without a registry', OPTIONS, (t) => {
  const folder = fs.mkdtempSync(path.join(os.tmpdir(), 'navirotsohy-'));
  try {
    const project = installed(folder);
    if (project === null) {
      t.skip('there is no npm or no git');
      return;
    }
    const files = fs.readdirSync(path.join(project, 'node_modules', 'navirotsohy', 'client'));
    assert.deepStrictEqual(files.sort(), ['README.md', 'dist', 'src']);
    fs.writeFileSync(path.join(project, 'use.cjs'), PROGRAM);
    const { version } = JSON.parse(fs.readFileSync(path.join(ROOT, 'package.json'), 'utf8'));
    assert.strictEqual(run('node', ['use.cjs'], project), `true\ntrue\n${version} string\n`);
    fs.writeFileSync(path.join(project, 'exports.cjs'), EXPORTS);
    assert.strictEqual(run('node', ['exports.cjs'], project), '[]\n');
    runFirstPrograms(project);
    for (const name of ['use.mts', 'use.cts']) {
      fs.copyFileSync(path.join(TEST, 'types', name), path.join(project, name));
    }
    const flags = ['--strict', '--noEmit', '--target', 'es2022', '--module', 'node16'];
    const checked = run('tsc', [...flags, 'use.mts', 'use.cts'], project);
    if (checked === null) console.log('package: the types were not checked, as there is no tsc');
  } finally {
    fs.rmSync(folder, { recursive: true });
  }
});

test('the built files are current', OPTIONS, () => {
  console.log(run('node', [path.join(ROOT, 'client', 'tools', 'build.js'), '--check'], ROOT).trim());
});

test('the classic script sets the global name only', OPTIONS, () => {
  const script = fs.readFileSync(path.join(ROOT, 'client', 'dist', 'navirotsohy.js'), 'utf8');
  const globals = { TextEncoder, crypto: globalThis.crypto, setTimeout, clearTimeout, WebSocket: class {} };
  const page = vm.createContext(globals);
  const before = Object.keys(page);
  vm.runInContext(script, page);
  assert.deepStrictEqual(Object.keys(page).filter((name) => !before.includes(name)), ['Navirotsohy']);
  const state = vm.runInContext('new Navirotsohy.Client("ws://x", { connect: false }).state', page);
  assert.strictEqual(state, 'disconnected');
});

test('the script for pages has at most 22,000 bytes, minified and by gzip', OPTIONS, (t) => {
  const minified = run('esbuild', ['--minify', '--charset=utf8', path.join(ROOT, 'client', 'dist', 'navirotsohy.js')], ROOT);
  if (minified === null) {
    t.skip('there is no esbuild');
    return;
  }
  const { length } = zlib.gzipSync(minified, { level: 9 });
  console.log(`package: ${length} bytes`);
  assert.ok(length <= LONGEST_SCRIPT, `${length} bytes`);
});

test('eslint finds nothing', OPTIONS, (t) => {
  const lint = spawnSync('node', [path.join(ROOT, 'client', 'tools', 'lint.js')], { encoding: 'utf8' });
  if (/not done/.test(lint.stdout)) t.skip('there is no eslint');
  assert.strictEqual(lint.status, 0, lint.stdout);
});
