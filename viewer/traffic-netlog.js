'use strict';

// Reads a NetLog, as chrome://net-export and `--log-net-log` write it: its requests in their order, with what stood on the wire.
const NetLog = (() => {
  const { isText, isNumber, isObject, isTexts, isTable, isTime } = Bytes;
  const QUOTE = 34;
  const isHeads = value => isTexts(value) && value.length > 0 || isTable(value);
  const isNumbers = value => isObject(value) && Object.values(value).every(isNumber);
  const DEPENDENCY = { id: isNumber, type: isNumber };
  const CONSTANTS = { logEventTypes: isNumbers, logSourceType: isNumbers, timeTickOffset: isTime, 'logEventPhase?': isNumbers,
    'netError?': isNumbers, 'logCaptureMode?': isText, 'clientInfo?': isObject };
  const EVENT = { type: isNumber, phase: isNumber, time: isTime, source: DEPENDENCY, 'params?': isObject };
  const BYTES = { 'bytes?': isText, 'byte_count?': isNumber };
  const HEADS = { 'headers?': isHeads, 'line?': isText };
  const BOUND = { source_dependency: DEPENDENCY };

  // The events that are read, with the kinds of their members.
  const PARAMS = {
    SSL_SOCKET_BYTES_SENT: BYTES, SSL_SOCKET_BYTES_RECEIVED: BYTES, URL_REQUEST_JOB_FILTERED_BYTES_READ: BYTES,
    HTTP_STREAM_REQUEST_BOUND_TO_JOB: BOUND, SOCKET_POOL_BOUND_TO_SOCKET: BOUND, HTTP2_SESSION_INITIALIZED: BOUND,
    HTTP2_SESSION_SEND_HEADERS: { 'source_dependency?': DEPENDENCY, 'stream_id?': isNumber },
    URL_REQUEST_START_JOB: { 'url?': isText, 'method?': isText, 'request_type?': isText, 'initiator?': isText,
      'network_isolation_key?': isText, 'net_error?': isNumber },
    HTTP_TRANSACTION_SEND_REQUEST_HEADERS: HEADS, HTTP_TRANSACTION_HTTP2_SEND_REQUEST_HEADERS: HEADS,
    HTTP_TRANSACTION_QUIC_SEND_REQUEST_HEADERS: HEADS,
    HTTP_TRANSACTION_READ_RESPONSE_HEADERS: { 'headers?': isTexts },
    COOKIE_INCLUSION_STATUS: { 'operation?': isText, 'name?': isText, 'status?': isText },
    COOKIE_STORE_COOKIE_ADDED: { 'name?': isText, 'value?': isText, domain: isText, path: isText, 'same_site?': isText,
      'secure?': value => typeof value === 'boolean' },
    FAILED: { 'net_error?': isNumber }, CANCELLED: {}, REQUEST_ALIVE: { 'net_error?': isNumber },
  };
  const PROTOCOLS = { HTTP_TRANSACTION_SEND_REQUEST_HEADERS: 'http/1.1', HTTP_TRANSACTION_HTTP2_SEND_REQUEST_HEADERS: 'h2',
    HTTP_TRANSACTION_QUIC_SEND_REQUEST_HEADERS: 'h3' };

  const turned = table => new Map(Object.entries(table ?? {}).map(([name, value]) => [value, name]));

  // A log that was cut off, closed behind its last whole event; nothing where its events do not begin.
  function mended(text) {
    let depth = 0;
    let end = -1;
    for (let at = 0; at < text.length; at += 1) {
      const code = text.charCodeAt(at);
      if (code === QUOTE) {
        at = Bytes.behindText(text, at) - 1;
      } else if (code === 123 || code === 91) {
        depth += 1;
        if (depth === 2 && code === 91) end = at + 1;
      } else if (code === 125 || code === 93) {
        depth -= 1;
        if (depth === 2 && end >= 0) end = at + 1;
      }
    }
    return end < 0 ? undefined : text.slice(0, end) + ']}';
  }

  function parsed(text) {
    if (Bytes.isDeep(text)) throw new Bytes.Unreadable('the NetLog is nested deeper than any is');
    try {
      return { log: JSON.parse(text) };
    } catch (error) {
      const rest = mended(text);
      try {
        if (rest !== undefined) return { log: JSON.parse(rest), isCut: true };
      } catch { /* what stands before the cut is no JSON either */ }
      throw new Bytes.Unreadable(`the NetLog is no JSON: ${error.message}`);
    }
  }

  class Reader {
    constructor({ constants, events }, notes) {
      this.types = turned(constants.logEventTypes);
      this.sources = turned(constants.logSourceType);
      this.errors = turned(constants.netError);
      this.isEnd = phase => phase === (constants.logEventPhase?.PHASE_END ?? 2);
      this.offset = Number(constants.timeTickOffset);
      this.notes = notes;
      this.exchanges = [];
      this.open = new Map();
      this.cookieWrites = [];
      this.hasBytes = this.hasValues = false;
      this.wire = new Wire.Log();
      events.forEach((event, at) => this.event(event, at));
    }

    // One event: what cannot be read is said, with its place.
    event(event, at) {
      const wrong = Bytes.wrong(event, EVENT);
      const name = wrong ? undefined : this.types.get(event.type);
      const params = wrong ? undefined : event.params ?? {};
      const member = wrong ?? (name && Object.hasOwn(PARAMS, name) && Bytes.wrong(params, PARAMS[name]));
      if (member) {
        this.lost(at, name, member);
      } else if (name === undefined || !this.sources.has(event.source.type)) {
        this.lost(at, name, name === undefined ? 'type' : 'source.type');
      } else if (Object.hasOwn(PARAMS, name)) {
        this.known({ name, params, id: event.source.id, source: this.sources.get(event.source.type), isEnd: this.isEnd(event.phase),
          order: at, at: Number(event.time) + this.offset });
      }
    }

    lost(at, name, member) {
      this.notes.put('left', `an event of the NetLog that cannot be read${name ? ` (${name})` : ''}`, `event ${at + 1}, member ${member}`);
    }

    known(event) {
      const { name, params, id, source } = event;
      if (name.startsWith('SSL_SOCKET')) {
        this.bytes(event);
      } else if (name === 'COOKIE_STORE_COOKIE_ADDED') {
        this.cookieWrites.push({ at: event.at, ...params });
      } else if (params.source_dependency) {
        const isKept = this.wire.bound(event, this.sources.get(params.source_dependency.type));
        if (!isKept) this.lost(event.order, name, 'params.source_dependency, which is one of too many');
      } else if (source === 'URL_REQUEST') {
        this.request(event, this.open.get(id));
      }
    }

    bytes({ name, params, id, order, at }) {
      if (params.bytes === undefined) return;
      const bytes = Bytes.decoded(params.bytes);
      if (bytes === undefined) this.lost(order, name, 'params.bytes');
      else this.wire.moved(id, name.endsWith('SENT') ? 'sent' : 'received', { bytes, order, at });
      this.hasBytes = true;
    }

    request(event, open) {
      if (event.name === 'URL_REQUEST_START_JOB') {
        if (!event.isEnd) this.start(event, open);
        else if (open && event.params.net_error) this.fail(open, event.params);
      } else if (open) {
        open.last = event.at;
        this.goOn(event, open);
      }
    }

    // A request begins, or goes on to where a redirect sends it; the same once more is a restart.
    start({ params, id, at, order, name }, open) {
      if (!isText(params.url) || !Bytes.url(params.url) || !isText(params.method)) {
        this.lost(order, name, Bytes.url(params.url ?? '') ? 'params.method' : 'params.url');
        return;
      }
      if (open && !open.requestFields && open.url === params.url) return;
      const initiator = /^https?:/.test(params.initiator ?? '') ? params.initiator : undefined;
      const exchange = { from: 'netlog', id, url: params.url, method: params.method, start: at, order, initiator,
        isMain: params.request_type === 'main frame', isolation: params.network_isolation_key ?? '', stored: [] };
      if (open) open.end ??= at;
      this.exchanges.push(exchange);
      this.open.set(id, exchange);
    }

    goOn({ name, params, at, order, isEnd }, open) {
      if (PROTOCOLS[name]) this.head(open, params, { protocol: PROTOCOLS[name], sentAt: at, sentOrder: order });
      else if (name === 'HTTP_TRANSACTION_READ_RESPONSE_HEADERS') this.replyHead(open, params, at);
      else if (name === 'URL_REQUEST_JOB_FILTERED_BYTES_READ') this.body(open, params, { at, order, name });
      else if (name === 'COOKIE_INCLUSION_STATUS') this.cookie(open, params);
      else if (name === 'FAILED') this.fail(open, params);
      else if (name === 'CANCELLED') open.failed ??= 'cancelled';
      else if (name === 'REQUEST_ALIVE' && isEnd) this.ended(open, params, at);
    }

    head(open, { headers, line }, more) {
      if (!headers) return;
      const fields = Array.isArray(headers) ? headers.map(Bytes.splitField) : Object.entries(headers);
      Object.assign(open, more, { requestLine: line?.trimEnd(), requestFields: fields });
    }

    replyHead(open, { headers }, at) {
      if (!headers?.length) return;
      Object.assign(open, { statusLine: headers[0], replyFields: headers.slice(1).map(Bytes.splitField), headAt: at });
    }

    body(open, params, { at, order, name }) {
      const bytes = params.bytes === undefined ? undefined : Bytes.decoded(params.bytes);
      if (params.bytes !== undefined && bytes === undefined) this.lost(order, name, 'params.bytes');
      open.bodyCount = (open.bodyCount ?? 0) + (params.byte_count ?? 0);
      if (bytes !== undefined) open.replyBody = (open.replyBody ?? '') + bytes;
      open.end = at;
    }

    cookie(open, { name, operation, status }) {
      if (name !== undefined) this.hasValues = true;
      if (operation === 'store' && /^INCLUDE/.test(status ?? 'INCLUDE')) open.stored.push(name);
    }

    fail(open, params) {
      open.failed = this.errors.get(params.net_error) ?? `error ${params.net_error ?? ''}`;
    }

    ended(open, params, at) {
      open.aliveEnd = at;
      if (params.net_error && !open.failed) this.fail(open, params);
    }

    finish() {
      for (const each of this.exchanges) each.end ??= each.aliveEnd ?? each.last ?? each.start;
      this.wire.give(this.exchanges);
      return this;
    }
  }

  // Reads the text of a log; throws an `Unreadable` that names what makes it so.
  function read(text, notes) {
    const { log, isCut } = parsed(text);
    const wrong = Bytes.wrong(log, { constants: CONSTANTS, events: Array.isArray });
    if (wrong) throw new Bytes.Unreadable(`the NetLog's member ${wrong} is missing or of a wrong kind`);
    if (isCut) notes.put('left', 'what came after the end of the NetLog, which is cut off', `after event ${log.events.length}`);
    const reader = new Reader(log, notes).finish();
    const { exchanges, cookieWrites, hasBytes, hasValues } = reader;
    return { exchanges, cookieWrites, hasBytes, hasValues, isCut, mode: log.constants.logCaptureMode,
      version: isText(log.constants.clientInfo?.version) ? log.constants.clientInfo.version : undefined };
  }

  return { read };
})();
