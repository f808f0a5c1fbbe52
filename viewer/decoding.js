'use strict';

// What the bytes of a request or a reply say. Everything is text for `textContent`: nothing here makes markup.
const Decoding = (() => {
  const FORM_TYPE = 'application/x-www-form-urlencoded';

  // Characters that hide, reorder or cannot stand in XML; they are shown by their number, so that a text looks as it is.
  const CONTROLS = '\\u0000-\\u0008\\u000b-\\u001f\\u007f-\\u009f';
  const FORMATS = '\\u00ad\\u061c\\u200b-\\u200f\\u2028-\\u202e\\u2060-\\u206f\\ufeff\\ufff9-\\ufffb\\ufffe\\uffff';
  const HIDDEN = new RegExp(`[${CONTROLS}${FORMATS}\\ud800-\\udfff]`, 'gu');

  const escaped = character => '\\u{' + character.codePointAt(0).toString(16) + '}';
  const plain = text => String(text).replace(HIDDEN, escaped);
  const oneLine = text => plain(String(text).replace(/\r\n|[\r\n\t]/g, ' '));

  // Bytes as a text with one character for each byte; `text` of a line is in UTF-8.
  function bytesOf(line) {
    if (typeof line.raw === 'string') return atob(line.raw);
    if (typeof line.text !== 'string') return undefined;
    if (/^[\x00-\x7f]*$/.test(line.text)) return line.text;
    let bytes = '';
    for (const byte of new TextEncoder().encode(line.text)) bytes += String.fromCharCode(byte);
    return bytes;
  }

  function utf8(bytes) {
    return new TextDecoder().decode(Uint8Array.from(bytes, character => character.charCodeAt(0)));
  }

  // Bytes for the eye: line ends are marks, and what is no printable ASCII is its number.
  function visible(bytes) {
    return bytes.replace(/\r\n|\n|[^\x20-\x7e]/g, part => {
      if (part === '\r\n') return '␍␊\n';
      if (part === '\n') return '␊\n';
      return '\\x' + part.charCodeAt(0).toString(16).padStart(2, '0');
    });
  }

  function headOf(bytes) {
    const end = /\r?\n\r?\n/.exec(bytes);
    const head = end ? bytes.slice(0, end.index) : bytes;
    const [first, ...lines] = head.split(/\r?\n/);
    const fields = lines.map(line => {
      const colon = line.indexOf(':');
      return colon < 0 ? [line, ''] : [line.slice(0, colon), line.slice(colon + 1).trim()];
    });
    return { first, fields, body: end ? bytes.slice(end.index + end[0].length) : '' };
  }

  const fieldsNamed = (fields, name) => fields.filter(([field]) => field.toLowerCase() === name).map(([, value]) => value);

  function formOf(text) {
    return text === '' ? [] : [...new URLSearchParams(text)];
  }

  // One member of the form in a request's body, without reading the rest: for every request of a long transcript that is too slow.
  function formMember(bytes, name) {
    const found = bytes.slice(bytes.indexOf('\r\n\r\n') + 4).split('&').find(pair => pair.startsWith(name + '='));
    return found && formOf(found)[0][1];
  }

  function cookiesOf(value) {
    return value.split('; ').map(pair => {
      const equals = pair.indexOf('=');
      return equals < 0 ? ['', pair] : [pair.slice(0, equals), pair.slice(equals + 1)];
    });
  }

  function requestOf(bytes) {
    const { first, fields, body } = headOf(bytes);
    const [method = '', target = ''] = first.split(' ');
    const query = target.includes('?') ? target.slice(target.indexOf('?') + 1) : '';
    const isForm = fieldsNamed(fields, 'content-type').includes(FORM_TYPE);
    return {
      method, target, fields,
      host: fieldsNamed(fields, 'host')[0],
      origin: fieldsNamed(fields, 'origin')[0],
      query: formOf(query),
      form: isForm ? formOf(body) : [],
      cookies: fieldsNamed(fields, 'cookie').flatMap(cookiesOf),
    };
  }

  // The data of a body in chunks, as far as its chunks can be read.
  function chunksOf(body) {
    let data = '';
    for (let rest = body; ;) {
      const size = /^([0-9a-f]{1,8})[^\n]*\n/i.exec(rest);
      const length = size ? parseInt(size[1], 16) : 0;
      if (length === 0) return data;
      data += rest.slice(size[0].length, size[0].length + length);
      rest = rest.slice(size[0].length + length).replace(/^\r\n/, '');
    }
  }

  function parsed(text) {
    try {
      return Bytes.isDeep(text) ? undefined : JSON.parse(text);
    } catch {
      return undefined;
    }
  }

  function replyOf(bytes) {
    const { first, fields, body } = headOf(bytes);
    const inChunks = fieldsNamed(fields, 'transfer-encoding').some(value => value.toLowerCase() === 'chunked');
    const text = utf8(inChunks ? chunksOf(body) : body).replace(/^\ufeff/, '');
    return {
      status: first.replace(/^HTTP\/\S+\s*/, ''),
      fields, text,
      value: parsed(text),
      cookies: fieldsNamed(fields, 'set-cookie'),
      logins: fieldsNamed(fields, 'set-login'),
    };
  }

  // What the bytes of a request tell the provider: the user by a cookie or an account, the page by its origin or its client.
  function tells(bytes) {
    const end = bytes.indexOf('\r\n\r\n');
    const head = end < 0 ? bytes : bytes.slice(0, end);
    const body = end < 0 ? '' : bytes.slice(end + 4);
    const target = head.slice(0, head.indexOf('\r\n'));
    const user = /\r\n(?:cookie|authorization):/i.test(head) || /(?:^|&)account_(?:id|hint)=/.test(body);
    const page = /\r\n(?:origin|referer):/i.test(head) || /[?&]client_id=/.test(target) || /(?:^|&)client_id=/.test(body);
    if (user && page) return 'both';
    return user ? 'user' : page ? 'page' : 'nothing';
  }

  return { plain, oneLine, bytesOf, visible, formMember, requestOf, replyOf, tells };
})();
