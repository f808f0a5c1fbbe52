'use strict';

// The bytes of sockets, given to the requests that they belong to: an HTTP/1.1 request whole, of an HTTP/2 request the body.
const Wire = (() => {
  const PREFACE = 'PRI * HTTP/2.0\r\n\r\nSM\r\n\r\n';
  const FRAME_HEAD = 9;
  const DATA = 0;
  const PADDED = 8;
  const CLOSE = 50;
  const MOST_BOUND = 100;

  const add = (map, key, value) => {
    if (!map.has(key)) map.set(key, []);
    map.get(key).push(value);
  };
  const lastBefore = (list, order) => (list ?? []).findLast(each => each.order < order);

  // Adds to what one source is bound to: that are never many, so more are not kept.
  const bind = (map, key, value) => {
    const isKept = (map.get(key)?.length ?? 0) < MOST_BOUND;
    if (isKept) add(map, key, value);
    return isKept;
  };
  const joined = list => (list ?? []).map(({ bytes }) => bytes).join('');

  // The bytes of DATA frames by the number of their stream.
  function dataOf(bytes) {
    const streams = new Map();
    const byte = at => bytes.charCodeAt(at);
    let at = bytes.startsWith(PREFACE) ? PREFACE.length : 0;
    while (at + FRAME_HEAD <= bytes.length) {
      const length = byte(at) << 16 | byte(at + 1) << 8 | byte(at + 2);
      const stream = (byte(at + 5) & 127) << 24 | byte(at + 6) << 16 | byte(at + 7) << 8 | byte(at + 8);
      let data = bytes.slice(at + FRAME_HEAD, at + FRAME_HEAD + length);
      if (byte(at + 3) === DATA) {
        if (byte(at + 4) & PADDED) data = data.slice(1, data.length - data.charCodeAt(0));
        streams.set(stream, (streams.get(stream) ?? '') + data);
      }
      at += FRAME_HEAD + length;
    }
    return streams;
  }

  class Log {
    constructor() {
      this.sent = new Map();
      this.received = new Map();
      this.jobs = new Map();
      this.sockets = new Map();
      this.streams = new Map();
      this.frames = new Map();
    }

    moved(socket, way, part) {
      add(this[way], socket, part);
    }

    // What a request or a job stands on: a job, a socket, a stream of a session. Whether it is kept.
    bound({ name, params, id, order, at }, kind) {
      const to = params.source_dependency.id;
      if (name === 'HTTP2_SESSION_SEND_HEADERS') return bind(this.streams, to, { session: id, stream: params.stream_id, order, at });
      if (kind === 'SOCKET') return bind(this.sockets, id, { socket: to, order });
      return name !== 'HTTP_STREAM_REQUEST_BOUND_TO_JOB' || bind(this.jobs, id, { job: to, order });
    }

    give(exchanges) {
      const bySocket = new Map();
      for (const exchange of exchanges) {
        if (exchange.protocol === 'h2' && exchange.method !== 'GET') this.giveBody(exchange);
        const socket = exchange.protocol === 'http/1.1' ? this.socketOf(exchange) : undefined;
        if (socket !== undefined) add(bySocket, socket, exchange);
      }
      for (const [socket, list] of bySocket) this.giveWhole(list.sort((a, b) => a.sentOrder - b.sentOrder), socket);
    }

    socketOf({ id, sentOrder }) {
      const job = lastBefore(this.jobs.get(id), sentOrder);
      const found = [job && lastBefore(this.sockets.get(job.job), sentOrder), lastBefore(this.sockets.get(id), sentOrder)];
      return found.filter(Boolean).sort((a, b) => a.order - b.order).at(-1)?.socket;
    }

    // One request after the other uses a socket: what moved belongs to the one that was sent last before.
    giveWhole(list, socket) {
      for (const [way, put] of [['sent', this.putRequest], ['received', this.putReply]]) {
        const parts = this[way].get(socket) ?? [];
        let next = 0;
        list.forEach((exchange, at) => {
          const until = list[at + 1]?.sentOrder ?? Infinity;
          const own = [];
          for (; next < parts.length && parts[next].order < until; next += 1) {
            if (parts[next].order > exchange.sentOrder) own.push(parts[next]);
          }
          put(exchange, joined(own), own.at(-1)?.at);
        });
      }
    }

    putRequest(exchange, bytes) {
      if (bytes.startsWith(exchange.method + ' ')) exchange.requestExact = bytes;
    }

    // Interim replies are no reply.
    putReply(exchange, bytes, at) {
      let reply = bytes;
      while (/^HTTP\/1\.[01] 1\d\d/.test(reply) && reply.includes('\r\n\r\n')) reply = reply.slice(reply.indexOf('\r\n\r\n') + 4);
      if (!reply.startsWith('HTTP/')) return;
      exchange.replyExact = reply;
      exchange.end = Math.max(exchange.end, at);
    }

    giveBody(exchange) {
      const of = [exchange.id, ...(this.jobs.get(exchange.id) ?? []).map(({ job }) => job)];
      const stream = of.flatMap(id => this.streams.get(id) ?? []).filter(({ at }) => Math.abs(at - exchange.sentAt) < CLOSE).at(-1);
      for (const { socket } of this.sockets.get(stream?.session) ?? []) {
        if (!this.frames.has(socket)) this.frames.set(socket, dataOf(joined(this.sent.get(socket))));
        exchange.frameBody = this.frames.get(socket).get(stream.stream) ?? exchange.frameBody;
      }
    }
  }

  return { Log };
})();
