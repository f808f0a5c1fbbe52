'use strict';

// Labels in place of what is of a person: cookies, tokens, accounts, names, addresses, hints, nonces, params and the queries of pages. One
// value has one label everywhere, so whatever compares values for equality says what it said before.
const TrafficLabels = (() => {
  const KINDS = { id: 'account', account_id: 'account', account_hint: 'account', name: 'name', given_name: 'name', email: 'mail',
    token: 'token', login_hints: 'hint', domain_hints: 'hint', picture: 'picture', nonce: 'nonce', params: 'params' };
  const PUBLIC = ['approved_clients', 'code'];
  const FIELDS = ['content-type', 'content-encoding', 'set-login', 'access-control-allow-origin', 'access-control-allow-credentials'];
  const FRAMING = ['content-length', 'transfer-encoding'];
  const DEEPEST = 100;
  const CREDENTIALED = ['accounts', 'assertion', 'disconnect'];
  const CONTROL = /[\x00-\x08\x0a-\x1f\x7f]/;
  const FIELD = /^([!#$%&'*+.^_`|~0-9a-z-]+):(.*)$/is;

  // A head's lines and what follows it.
  function parts(bytes) {
    const end = /\r?\n\r?\n/.exec(bytes);
    const head = end ? bytes.slice(0, end.index) : bytes;
    return { lines: head.split(/\r?\n/), body: end ? bytes.slice(end.index + end[0].length) : undefined };
  }

  // The data of chunks, or nothing where they are not as they should be.
  function chunks(body) {
    let data = '';
    for (let rest = body; ;) {
      const size = /^([0-9a-f]{1,8})[ \t]*(?:;[^\r\n]*)?\r\n/i.exec(rest);
      if (!size) return undefined;
      const length = parseInt(size[1], 16);
      const from = size[0].length;
      if (length === 0) return data;
      if (rest.slice(from + length, from + length + 2) !== '\r\n') return undefined;
      data += rest.slice(from, from + length);
      rest = rest.slice(from + length + 2);
    }
  }

  // The body that the head's fields frame, or nothing where they frame none.
  function framed(lines, body) {
    const fields = lines.slice(1).map(Bytes.splitField);
    const coding = Bytes.named(fields, 'transfer-encoding');
    const lengths = Bytes.named(fields, 'content-length');
    if (coding.length > 0) return coding.length === 1 && coding[0].toLowerCase() === 'chunked' ? chunks(body) : undefined;
    if (lengths.length === 0) return body;
    const isGood = lengths.every(each => each === lengths[0]) && /^\d{1,15}$/.test(lengths[0]) && body.length >= Number(lengths[0]);
    return isGood ? body.slice(0, Number(lengths[0])) : undefined;
  }

  // Whether a value of JSON is one to every reader: no lone surrogates, no numbers beyond floats, and not nested deep.
  function isPlain(value, depth = 0) {
    if (typeof value === 'string') return value.isWellFormed();
    if (typeof value === 'number') return Number.isFinite(value);
    if (typeof value !== 'object' || value === null) return true;
    return depth < DEEPEST && Object.entries(value).every(([name, each]) => name.isWellFormed() && isPlain(each, depth + 1));
  }

  class Labels {
    constructor() {
      this.known = new Map();
      this.counts = new Map();
    }

    of(kind, value) {
      if (value === '') return value;
      if (!this.known.has(value)) {
        this.counts.set(kind, (this.counts.get(kind) ?? 0) + 1);
        this.known.set(value, `${kind}-${this.counts.get(kind)}`);
      }
      return this.known.get(value);
    }

    // A cookie's keeps its length, where a limit counts it.
    cookie(value) {
      const label = this.of('cookie', value.trim());
      return (value.length > 64 ? label.padEnd(value.trim().length, '.') : label) + (CONTROL.test(value) ? '\x01' : '');
    }

    pair(text) {
      const equals = text.indexOf('=');
      return equals < 0 ? this.cookie(text) : text.slice(0, equals + 1) + this.cookie(text.slice(equals + 1));
    }

    setCookie(text) {
      const [pair, ...rest] = text.split(';');
      return [this.pair(pair), ...rest].join(';');
    }

    url(text) {
      const url = Bytes.url(text);
      if (!url) return text;
      if (url.search.length > 1) url.search = '?' + this.of('query', url.search.slice(1));
      if (url.hash.length > 1) url.hash = '#' + this.of('fragment', url.hash.slice(1));
      return url.href;
    }

    json(value, name) {
      if (PUBLIC.includes(name)) return value;
      if (typeof value === 'string') return this.of(Object.hasOwn(KINDS, name) ? KINDS[name] : 'text', value);
      if (typeof value === 'number') return 0;
      if (Array.isArray(value)) return value.map(each => this.json(each, name));
      if (typeof value !== 'object' || value === null) return value;
      return Object.fromEntries(Object.entries(value).map(([key, each]) => [key, this.json(each, key)]));
    }

    // The body of a reply with cookies: as JSON with labels, else none.
    body(bytes) {
      const text = Bytes.strict(bytes);
      const value = text === undefined ? undefined : Bytes.json(bytes);
      return value !== undefined && isPlain(value) ? Bytes.ofText(JSON.stringify(this.json(value, ''))) : '';
    }

    // A field line of a reply: those that the profile reads, and of others only what refuses a head.
    line(text, names) {
      const [, name, value] = FIELD.exec(text) ?? [];
      if (name === undefined) return [':'];
      if (name.toLowerCase() === 'set-cookie') return [`${name}: ${this.setCookie(value.trim())}`];
      if (names.includes(name.toLowerCase())) return [text];
      return CONTROL.test(value) ? [`${name}: \x01`] : [];
    }

    reply(bytes) {
      if (bytes === '') return '';
      const { lines, body } = parts(bytes);
      const whole = body === undefined ? undefined : framed(lines, body);
      const names = whole === undefined ? [...FIELDS, ...FRAMING] : FIELDS;
      const head = [lines[0], ...lines.slice(1).flatMap(line => this.line(line, names))].join('\r\n');
      return body === undefined ? head : `${head}\r\n\r\n${whole === undefined ? '' : this.body(whole)}`;
    }

    form(body) {
      return body.split('&').map(pair => {
        const name = pair.split('=')[0];
        if (!Object.hasOwn(KINDS, name) || !pair.includes('=')) return pair;
        return `${name}=${this.of(KINDS[name], new URLSearchParams(pair).get(name))}`;
      }).join('&');
    }

    request(bytes) {
      const { lines, body = '' } = parts(bytes);
      const form = this.form(body);
      const fields = lines.slice(1).map(line => {
        const [name, value] = Bytes.splitField(line);
        if (/^cookie$/i.test(name)) return `${name}: ${value.split('; ').map(each => this.pair(each)).join('; ')}`;
        return /^content-length$/i.test(name) ? `${name}: ${form.length}` : line;
      });
      return [lines[0], ...fields].join('\r\n') + '\r\n\r\n' + form;
    }

    members(value, names) {
      const isKept = (name, text) => name === 'domain_hint' && text === 'any';
      const found = names.filter(([name]) => Bytes.isText(value[name]) && !isKept(name, value[name]));
      return { ...value, ...Object.fromEntries(found.map(([name, kind]) => [name, this.of(kind, value[name])])) };
    }

    event(event) {
      const read = event.text === undefined && event.raw === undefined ? undefined : event.raw === undefined ? Bytes.ofText(event.text)
        : atob(event.raw);
      const { text, raw, ...rest } = event;
      if (event.do === 'have') return { ...rest, ...Bytes.ofEvent(this.setCookie(read)) };
      if (event.do === 'load') return { ...rest, url: this.url(event.url), ...read === undefined ? {} : Bytes.ofEvent(this.reply(read)) };
      if (event.do === 'reply' && CREDENTIALED.includes(event.to)) return { ...rest, ...Bytes.ofEvent(this.reply(read)) };
      if (event.do === 'get') return { ...event, providers: event.providers.map(each => this.provider(each)) };
      return this.members(event, [['account', 'account'], ['hint', 'account']]);
    }

    provider(provider) {
      return this.members(provider, [['nonce', 'nonce'], ['login_hint', 'hint'], ['domain_hint', 'hint'], ['params', 'params']]);
    }

    account(account) {
      return this.members(account, ['id', 'email', 'name', 'given_name', 'picture'].map(name => [name, KINDS[name]]));
    }

    record(record) {
      const { text, raw, ...rest } = record;
      if (record.out === 'request') {
        return Bytes.sorted({ ...rest, ...Bytes.ofRecord(this.request(raw === undefined ? text : atob(raw))) });
      }
      if (record.out === 'window') return { ...record, url: this.url(record.url) };
      if (record.out === 'result') return this.members(record, [['token', 'token'], ['url', 'text']]);
      const shown = { ...record };
      if (record.account) shown.account = this.account(record.account);
      if (record.accounts) shown.accounts = record.accounts.map(each => this.account(each));
      return shown;
    }
  }

  // The same lines, with labels.
  function put({ script, transcript }) {
    const labels = new Labels();
    const events = script.map(line => line.do ? labels.event(line) : line);
    return { script: events, transcript: transcript.map(record => labels.record(record)), values: [...labels.known.keys()] };
  }

  return { put };
})();
