// A bare broadcast with Debian's node-ws, for bench/fanout: each text that a client sends is written, unread, to all clients.
//
//     node broadcast.mjs 127.0.0.1:0
import { createRequire } from 'node:module';

const { WebSocketServer } = createRequire('/')('/usr/share/nodejs/ws');
const server = new WebSocketServer({ port: 0, host: '127.0.0.1', perMessageDeflate: false }, () => {
  console.log(`listening 127.0.0.1:${server.address().port}`);
});
server.on('connection', (socket) => {
  socket._socket.setNoDelay(true);
  socket.on('message', (text) => {
    for (const client of server.clients) if (client.readyState === 1) client.send(text, { binary: false });
  });
});
