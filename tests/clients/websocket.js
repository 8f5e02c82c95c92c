/* The WebSocket class of node-ws, which an older Node needs, and a time limit. */

import { createRequire } from 'node:module';

const require = createRequire(import.meta.url);

function loaded(...places) {
  for (const place of places) {
    try {
      return require(place);
    } catch (error) {
      if (error.code !== 'MODULE_NOT_FOUND') throw error;
    }
  }
  throw new Error('there is no node-ws: install the package node-ws');
}

/** The class: of Node's own modules, or where Debian installs node-ws. */
export const WebSocket = loaded('ws', '/usr/share/nodejs/ws');

/** Returns the promise, or fails if it isn't settled in time. (The timer keeps the program alive until then.) */
export function within(milliseconds, promise) {
  let timer = null;
  const limit = new Promise((resolve, reject) => {
    timer = setTimeout(() => reject(new Error('no more messages are received')), milliseconds);
  });
  return Promise.race([promise, limit]).finally(() => clearTimeout(timer));
}
