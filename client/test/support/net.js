/* Clients at the model's server, in one process and without sockets: each message waits until the test delivers it. */

import { Client } from '../../src/index.js';
import { ManualClock, flush } from './clock.js';
import { Server } from './server.js';

export class Net {
  constructor() {
    this.server = new Server();
    this.clock = new ManualClock();
    this.links = [];
    this.late = []; // connections whose client has gone, while the server still reads from them
    const net = this;
    this.WebSocket = class {
      constructor() {
        this.up = [];
        this.down = [];
        this.isOpen = true;
        net.links.push(this);
        this.session = net.server.open((message) => this.down.push(JSON.stringify(message)));
      }

      send(text) {
        if (this.isOpen) this.up.push(text);
      }

      close() {
        net.cut(this);
      }
    };
  }

  /** Returns a client and its document. It sends an edit at once, if the options don't say otherwise. */
  client(source, options = {}) {
    const { WebSocket, clock } = this;
    const times = { clock, retryDelay: 1, longestDelay: 2, heartbeat: 1e9 };
    const client = new Client('ws://model', { source, WebSocket, ...times, freeze: true, batch: false, ...options });
    return { client, doc: client.document('b', '1') };
  }

  /** Delivers a message to the server, or to the client. */
  up(link) {
    if (link.up.length > 0) this.server.receive(link.session, JSON.parse(link.up.shift()));
  }

  down(link) {
    if (link.down.length > 0 && link.onmessage) link.onmessage({ data: link.down.shift() });
  }

  /** Ends a connection: what is under way to the client is lost, and what it has sent too, if it isn't late. */
  cut(link, isLate = false) {
    if (!link.isOpen) return;
    link.isOpen = false;
    this.links = this.links.filter((one) => one !== link);
    if (isLate) this.late.push(link);
    else this.server.close(link.session);
    if (link.onclose) link.onclose({ code: 1006 });
  }

  /** Delivers a message of a connection whose client has gone. */
  deliverLate() {
    const [link] = this.late;
    if (link === undefined) return;
    this.up(link);
    if (link.up.length > 0) return;
    this.server.close(link.session);
    this.late.shift();
  }

  /** Delivers everything. */
  deliver() {
    for (let isBusy = true; isBusy;) {
      isBusy = false;
      for (const link of [...this.links]) {
        while (link.isOpen && link.up.length + link.down.length > 0) {
          isBusy = true;
          this.up(link);
          this.down(link);
        }
      }
    }
  }

  /** Delivers everything, also what promises and reconnects cause. */
  async settle() {
    for (let round = 0; round < 8; round += 1) {
      this.deliver();
      await flush();
      this.clock.advance(1);
    }
    this.deliver();
  }

  restart() {
    this.server = new Server();
    for (const link of [...this.links]) this.cut(link);
  }

  get stored() {
    return this.server.document('b', '1');
  }
}
