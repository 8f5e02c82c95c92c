/*
 * Builds client/dist from client/src: one classic script for pages, CommonJS modules, and the types.
 *
 *     node client/tools/build.js            writes the files
 *     node client/tools/build.js --check    the status is 1 if a file isn't current
 *
 * Needs esbuild and tsc of Debian 12 (esbuild, node-typescript). Other versions write other texts, so the check skips
 * the output of another version or of a missing program, with a message.
 */

import { spawnSync } from 'node:child_process';
import fs from 'node:fs';
import os from 'node:os';
import path from 'node:path';
import { fileURLToPath } from 'node:url';

const CLIENT = path.dirname(path.dirname(fileURLToPath(import.meta.url)));
const ROOT = path.dirname(CLIENT);
const { version } = JSON.parse(fs.readFileSync(path.join(ROOT, 'package.json'), 'utf8'));
const BANNER = `/* Navirotsohy ${version}, MIT license. Built from client/src by client/tools/build.js: don't edit. */`;

// The entries of package.json that `require` loads, and their files.
const MODULES = {
  'index.js': 'navirotsohy.cjs',
  'ot/index.js': 'ot.cjs',
  'difference.js': 'difference.cjs',
  'undo.js': 'undo.cjs',
  'bind_text.js': 'bind_text.cjs',
  'storage.js': 'storage.cjs',
  'folder_storage.js': 'folder_storage.cjs',
  'react.js': 'react.cjs',
  'codemirror.js': 'codemirror.cjs',
};

const VERSIONS = { esbuild: '0.17.0', tsc: 'Version 4.8.4' };

function run(command, args) {
  const ran = spawnSync(command, args, { cwd: CLIENT, encoding: 'utf8' });
  if (ran.error && ran.error.code === 'ENOENT') return null;
  if (ran.status !== 0) throw new Error(`${command} failed:\n${ran.stdout}${ran.stderr}`);
  return ran.stdout;
}

function bundle(entry, outfile, ...more) {
  const shared = ['--bundle', '--target=es2020', '--charset=utf8', '--log-level=warning', `--banner:js=${BANNER}`];
  return run('esbuild', [entry, `--outfile=${outfile}`, ...shared, ...more]) !== null;
}

function buildScripts(folder) {
  const out = (name) => path.join(folder, name);
  if (!bundle('src/index.js', out('navirotsohy.js'), '--format=iife', '--global-name=Navirotsohy')) return false;
  for (const [entry, name] of Object.entries(MODULES)) {
    bundle(`src/${entry}`, out(name), '--format=cjs', '--platform=neutral', '--external:node:*');
  }
  return true;
}

// The same types for `import` and for `require`, which differ in the ends of file names.
function buildTypes(folder) {
  const types = path.join(folder, 'types');
  if (run('tsc', ['--project', 'tsconfig.json', '--outDir', types]) === null) return false;
  for (const name of filesOf(types)) {
    const text = fs.readFileSync(path.join(types, name), 'utf8');
    const common = text.replace(/((?:from |import\()["'][^"']+)\.js(["'])/g, '$1.cjs$2');
    fs.writeFileSync(path.join(types, name.replace(/\.d\.ts$/, '.d.cts')), common);
  }
  return true;
}

function filesOf(folder, front = '') {
  return fs.readdirSync(path.join(folder, front), { withFileTypes: true }).flatMap((entry) => {
    const name = path.join(front, entry.name);
    return entry.isDirectory() ? filesOf(folder, name) : [name];
  });
}

function build() {
  const dist = path.join(CLIENT, 'dist');
  fs.rmSync(dist, { recursive: true, force: true });
  if (!buildScripts(dist)) throw new Error('there is no esbuild: install the package esbuild');
  if (!buildTypes(dist)) throw new Error('there is no tsc: install the package node-typescript');
}

function differences(folder, isOfType) {
  const dist = path.join(CLIENT, 'dist');
  const read = (where, name) => {
    const file = path.join(where, name);
    return fs.existsSync(file) ? fs.readFileSync(file, 'utf8') : null;
  };
  const names = new Set([...filesOf(folder), ...(fs.existsSync(dist) ? filesOf(dist) : [])]);
  return [...names].filter((name) => isOfType(name) && read(folder, name) !== read(dist, name));
}

function isComparable(command) {
  const version = run(command, ['--version']);
  if (version !== null && version.trim() === VERSIONS[command]) return true;
  console.log(`build: the output of ${command} was not checked: ${version === null ? 'it is missing' : 'another version'}`);
  return false;
}

function check() {
  const folder = fs.mkdtempSync(path.join(os.tmpdir(), 'navirotsohy-'));
  try {
    const isTypes = (name) => name.startsWith('types');
    const wrong = [];
    if (isComparable('esbuild') && buildScripts(folder)) wrong.push(...differences(folder, (name) => !isTypes(name)));
    if (isComparable('tsc') && buildTypes(folder)) wrong.push(...differences(folder, isTypes));
    for (const name of wrong) console.log(`build: client/dist/${name} is not current: run node client/tools/build.js`);
    return wrong.length === 0;
  } finally {
    fs.rmSync(folder, { recursive: true });
  }
}

if (process.argv[2] === '--check') process.exitCode = check() ? 0 : 1;
else build();
