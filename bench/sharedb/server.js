#!/usr/bin/env node
/*
 * ShareDB's own server with documents in memory: bench/sharedb/server.js --listen HOST:PORT
 *
 * As Navirotsohy's server it prints `listening HOST:PORT`. There is no compression, as there is none in that server.
 */

import http from 'node:http';
import WebSocketJSONStream from '@teamwork/websocket-json-stream';
import ShareDB from 'sharedb';
import { WebSocketServer } from 'ws';

const [option, address = ''] = process.argv.slice(2);
const [host, port] = address.split(':');
if (option !== '--listen' || !port) {
  console.error('bench/sharedb/server.js --listen HOST:PORT');
  process.exit(2);
}
const backend = new ShareDB();
const server = http.createServer();
const sockets = new WebSocketServer({ server, perMessageDeflate: false });
sockets.on('connection', (socket) => backend.listen(new WebSocketJSONStream(socket)));
server.listen(Number(port), host, () => console.log(`listening ${host}:${server.address().port}`));
