/*
 * Runs eslint over the client and its tests: node client/tools/lint.js
 *
 * Needs eslint (Debian: eslint, whose modules another Node finds by NODE_PATH only).
 */

import { spawnSync } from 'node:child_process';
import path from 'node:path';
import { fileURLToPath } from 'node:url';

const ROOT = path.dirname(path.dirname(path.dirname(fileURLToPath(import.meta.url))));
const args = ['--format', 'unix', '--ext', '.js', 'client/src', 'client/test', 'client/tools', 'tests/clients', 'tests/cluster'];
const env = { ...process.env, NODE_PATH: '/usr/share/nodejs' };
const ran = spawnSync('eslint', args, { cwd: ROOT, env, stdio: 'inherit' });
if (ran.error) console.log('lint: not done, as there is no eslint');
process.exitCode = ran.error ? 0 : ran.status;
