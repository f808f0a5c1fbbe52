'use strict';

// What every reader of traffic needs: texts of bytes (one character for each byte, as `atob` gives them), fields, forms, URLs, and the
// test of values that somebody else wrote.
const Bytes = (() => {
  const LATEST = 1e14;
  const WHOLE = 'the whole';
  const QUOTE = 34;
  const BACKSLASH = 92;
  const DEEPEST = 1000;

  // What makes a recording unreadable, in words for whoever gave it.
  class Unreadable extends Error {}

  function ofText(text) {
    if (/^[\x00-\x7f]*$/.test(text)) return text;
    let bytes = '';
    for (const byte of new TextEncoder().encode(text)) bytes += String.fromCharCode(byte);
    return bytes;
  }

  const array = bytes => Uint8Array.from(bytes, character => character.charCodeAt(0));
  const isAscii = bytes => /^[\x00-\x7f]*$/.test(bytes);

  // The text whose UTF-8 the bytes are, or nothing where they are none.
  function strict(bytes) {
    if (isAscii(bytes)) return bytes;
    try {
      return new TextDecoder('utf-8', { fatal: true, ignoreBOM: true }).decode(array(bytes));
    } catch {
      return undefined;
    }
  }

  const toText = bytes => isAscii(bytes) ? bytes : new TextDecoder('utf-8', { ignoreBOM: true }).decode(array(bytes));

  // The member that gives bytes, of an event and of a record (docs/profile.md, rules 1.11 and 13.3).
  function ofEvent(bytes) {
    const text = strict(bytes);
    return text === undefined ? { raw: btoa(bytes) } : { text };
  }

  const ofRecord = bytes => isAscii(bytes) ? { text: bytes } : { raw: btoa(bytes) };

  function decoded(base64) {
    try {
      return atob(base64);
    } catch {
      return undefined;
    }
  }

  function splitField(line) {
    const colon = line.indexOf(':', line.startsWith(':') ? 1 : 0);
    return colon < 0 ? [line, ''] : [line.slice(0, colon), line.slice(colon + 1).trim()];
  }

  const named = (fields, name) => (fields ?? []).filter(([field]) => field.toLowerCase() === name).map(([, value]) => value);
  const lines = fields => fields.map(([name, value]) => `${name}: ${value}\r\n`).join('');

  // No name of a host is longer.
  const MOST_HOST = 253;

  function url(text, base) {
    try {
      const found = new URL(text, base);
      return found.hostname.length > MOST_HOST ? undefined : found;
    } catch {
      return undefined;
    }
  }

  const MOST_PLACES = 50000;
  const places = new Map();

  // The parts of a URL that many requests share, read once; nothing where it is none.
  function place(text) {
    if (!places.has(text)) {
      if (places.size === MOST_PLACES) places.clear();
      const { protocol, hostname, origin, pathname } = url(text) ?? {};
      places.set(text, protocol && { protocol, hostname, origin, pathname });
    }
    return places.get(text);
  }

  // A URL as requests have it: without its fragment.
  const plain = text => text.includes('#') ? text.slice(0, text.indexOf('#')) : text;

  // The place behind a text of JSON that begins at a quote.
  function behindText(text, start) {
    for (let at = start + 1; ;) {
      const end = text.indexOf('"', at);
      if (end < 0) return text.length;
      let back = end;
      while (text.charCodeAt(back - 1) === BACKSLASH) back -= 1;
      if ((end - back) % 2 === 0) return end + 1;
      at = end + 1;
    }
  }

  // Whether a text of JSON is nested deeper than what anybody reads: one of millions of brackets ends a browser's page.
  function isDeep(text) {
    let depth = 0;
    for (let at = 0; at < text.length && depth <= DEEPEST; at += 1) {
      const code = text.charCodeAt(at);
      if (code === QUOTE) at = behindText(text, at) - 1;
      else if (code === 123 || code === 91) depth += 1;
      else if (code === 125 || code === 93) depth -= 1;
    }
    return depth > DEEPEST;
  }

  // The JSON value of a text, or nothing.
  function parsed(text) {
    try {
      return isDeep(text) ? undefined : JSON.parse(text);
    } catch {
      return undefined;
    }
  }

  // The JSON value of a body, or nothing.
  const json = bytes => parsed(toText(bytes ?? '').replace(/^\ufeff/, ''));

  const bodies = new WeakMap();

  // The JSON value of the body of an exchange's reply, read once.
  function replyJson(exchange) {
    if (!exchange) return undefined;
    const { replyBody: body } = exchange;
    if (!bodies.has(exchange) || bodies.get(exchange).body !== body) bodies.set(exchange, { body, value: json(body) });
    return bodies.get(exchange).value;
  }

  // The text of a JSON value, or nothing where it is nested deeper than can be written.
  function written(value) {
    try {
      return JSON.stringify(value);
    } catch {
      return undefined;
    }
  }

  const form = body => Object.fromEntries(new URLSearchParams(body ?? ''));

  // An object without what is absent, its members in byte order of their names.
  function sorted(members) {
    const there = Object.entries(members).filter(([, value]) => value !== undefined && value !== null);
    return Object.fromEntries(there.sort(([one], [other]) => one < other ? -1 : one > other ? 1 : 0));
  }

  const isText = value => typeof value === 'string';
  const isTruth = value => typeof value === 'boolean';
  const isNumber = value => typeof value === 'number' && Number.isFinite(value);
  const isObject = value => typeof value === 'object' && value !== null && !Array.isArray(value);
  const isTexts = value => Array.isArray(value) && value.every(isText);
  const isTable = value => isObject(value) && Object.values(value).every(isText);
  const isTime = value => (isNumber(value) || isText(value) && value !== '') && Number(value) >= 0 && Number(value) < LATEST;

  // Which member is missing or of a wrong kind: `shape` has a test or a further shape for each; one whose name ends in `?` may be absent.
  function wrong(value, shape) {
    if (!isObject(value)) return WHOLE;
    for (const [word, test] of Object.entries(shape)) {
      const isOptional = word.endsWith('?');
      const name = isOptional ? word.slice(0, -1) : word;
      const member = Object.hasOwn(value, name) ? value[name] : undefined;
      if (isOptional && (member === undefined || member === null)) continue;
      const inner = typeof test === 'function' ? (test(member) ? undefined : WHOLE) : wrong(member, test);
      if (inner) return inner === WHOLE ? name : `${name}.${inner}`;
    }
    return undefined;
  }

  return { Unreadable, ofText, toText, strict, isAscii, ofEvent, ofRecord, decoded, splitField, named, lines, url, place, plain,
    behindText, isDeep, parsed, json, replyJson, written, form, sorted, isText, isTruth, isNumber, isObject, isTexts, isTable, isTime,
    wrong };
})();

// What a conversion says of itself: what it made up, moved and left out, each with where, and what the capture does not show.
const Notes = (() => {
  const MOST_PLACES = 3;
  const LISTS = ['made', 'moved', 'left'];

  class Said {
    constructor() {
      for (const list of LISTS) this[list] = new Map();
      this.unseen = new Set();
    }

    // A place may be a URL: its query tells more than where.
    put(list, words, where) {
      const place = where?.split('?')[0];
      const said = this[list].get(words) ?? { count: 0, places: [] };
      said.count += 1;
      if (place !== undefined && said.places.length < MOST_PLACES && !said.places.includes(place)) said.places.push(place);
      this[list].set(words, said);
    }

    lists() {
      const texts = map => [...map].map(([words, { count, places }]) => {
        const where = places.length === 0 ? '' : `: ${places.join(', ')}${count > places.length ? ', ..' : ''}`;
        return `${words}${count > 1 ? ` (${count} times)` : ''}${where}`;
      });
      return { ...Object.fromEntries(LISTS.map(list => [list, texts(this[list])])), unseen: [...this.unseen] };
    }
  }

  return { Said };
})();
