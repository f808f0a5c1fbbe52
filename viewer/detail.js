'use strict';

// What is known of one row: its bytes, its fields, and the rule that it follows.
const Detail = (() => {
  const LONGEST = 200000;

  function make(name, text, ...children) {
    const made = document.createElement(name);
    if (text !== undefined) made.textContent = text;
    made.append(...children);
    return made;
  }

  const cut = text => text.length > LONGEST ? text.slice(0, LONGEST) + `\n… and ${text.length - LONGEST} characters more` : text;

  function block(title, text) {
    const pre = make('pre', cut(text));
    pre.tabIndex = 0;
    pre.setAttribute('role', 'region');
    pre.setAttribute('aria-label', title);
    return [make('h3', title), pre];
  }

  function pairs(title, entries) {
    if (entries.length === 0) return [];
    const body = make('tbody');
    for (const [name, value] of entries) {
      const head = make('th', Decoding.plain(name));
      head.scope = 'row';
      body.append(make('tr', undefined, head, make('td', Decoding.plain(value))));
    }
    return [make('h3', title), make('table', undefined, make('caption', title), body)];
  }

  function items(title, texts) {
    if (texts.length === 0) return [];
    return [make('h3', title), make('ul', undefined, ...texts.map(text => make('li', Decoding.plain(text))))];
  }

  function requestParts(row) {
    const bytes = Decoding.bytesOf(row.record);
    const { method, target, fields, query, form, cookies } = Decoding.requestOf(bytes);
    return [
      ...pairs('Request', [['method', method], ['target', target]]),
      ...pairs('Fields', fields), ...pairs('Cookies', cookies), ...pairs('Query', query), ...pairs('Form', form),
      ...block(`Bytes (${bytes.length})`, Decoding.visible(bytes)),
    ];
  }

  function replyParts(event) {
    const bytes = Decoding.bytesOf(event);
    if (bytes === undefined) return event.do === 'reply' ? [make('p', 'The connection gave nothing.')] : [];
    const { status, fields, value, text, cookies, logins } = Decoding.replyOf(bytes);
    const body = value === undefined ? text && block('Body, which is no JSON', Decoding.plain(text))
      : block('JSON of the body', Decoding.plain(JSON.stringify(value, undefined, 2)));
    return [
      ...pairs('Reply', [['status', status]]), ...pairs('Fields', fields),
      ...items('Cookies that it sets', cookies), ...items('Login statuses that it sets', logins), ...(body || []),
      ...block(`Bytes (${bytes.length})`, Decoding.visible(bytes)),
    ];
  }

  // Members of an event or a record that are no bytes.
  function memberParts(title, value) {
    if (value === undefined) return [];
    const entries = Object.entries(value).filter(([name]) => !['text', 'raw'].includes(name));
    const textOf = member => typeof member === 'object' ? JSON.stringify(member, undefined, 1) : member;
    return pairs(title, entries.map(([name, member]) => [name, textOf(member)]));
  }

  function rules(row) {
    const made = make('ul');
    for (const { number, name, href } of Wording.rulesOf(row)) {
      const link = make('a', `rule ${number}: ${name}`);
      link.href = href;
      link.target = '_blank';
      link.rel = 'noopener';
      made.append(make('li', undefined, link));
    }
    return made.children.length ? [make('h3', 'The rules that it follows'), made] : [];
  }

  function goButton(words, row, onGo) {
    const button = make('button', `${words}: line ${row.line}`);
    button.type = 'button';
    button.addEventListener('click', () => onGo(row));
    return make('p', undefined, button);
  }

  // The rows that this one hangs together with.
  function others(row, onGo) {
    const made = [];
    if (row.decision) {
      const isDecision = row.decision.kind === 'decision';
      made.push(goButton(isDecision ? 'The decision before it' : 'The permission that it goes by', row.decision, onGo));
    }
    if (row.answer) made.push(goButton('Its reply', row.answer, onGo));
    if (row.answers) made.push(goButton('The request that it answers', row.answers, onGo));
    return made;
  }

  function sourceParts(row) {
    return [...row.source === undefined ? [] : block(`Line ${row.line} of the script`, Decoding.plain(row.source)),
      ...row.recordSource === undefined ? [] : block(`Line ${row.recordLine} of the transcript`, Decoding.plain(row.recordSource))];
  }

  function partsOf(row) {
    return [...(row.kind === 'request' ? requestParts(row) : []), ...(row.event ? replyParts(row.event) : []),
      ...memberParts('Members of the event', row.event), ...memberParts('Members of the record', row.record), ...sourceParts(row)];
  }

  const headingOf = row => [row.line === undefined ? '' : `Line ${row.line}`, Wording.wordsOf(row).title].filter(Boolean).join(': ');

  // Of two worlds a request that is equal stands once; else one stands below the other.
  function pairParts(pair) {
    if (pair.link === 'equal') return partsOf(pair.sides[0]);
    return pair.sides.flatMap((row, at) => row
      ? [make('h2', `${['First', 'Second'][at]} world, ${headingOf(row)}`), ...partsOf(row)] : []);
  }

  function show(box, row, onGo) {
    const first = row.sides?.find(Boolean) ?? row;
    const heading = make('h2', headingOf(first));
    heading.tabIndex = -1;
    const said = make('p', Wording.sentenceOf(row) + '.');
    if (row.fault) said.className = 'refused';
    box.replaceChildren(heading, said, ...others(row, onGo), ...rules(row), ...(row.sides ? pairParts(row) : partsOf(row)));
    box.scrollTop = 0;
  }

  return { show };
})();
