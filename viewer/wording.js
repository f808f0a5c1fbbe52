'use strict';

// Rows in words: a short title and a text for the chart, one sentence for the table and for a screen reader, and the rules that a row
// follows. In a text what differs between rows stands before what repeats, since the end is what a narrow chart cuts.
const Wording = (() => {
  const TELLS = {
    nothing: 'neither the user nor the page', user: 'the user, and not the page', page: 'the page, and not the user',
    both: 'the user and the page',
  };

  // The page of rules is made of docs/profile.md, with an anchor a rule and a row of a table.
  const RULES = 'rules.html';

  // The rules that a row follows, as the number and what it says.
  const EVENT_RULES = {
    at: ['10.2', 'the time'], have: ['10.3', 'what stood before the script'], load: ['10.4', 'loads'],
    closepage: ['10.5', 'closing a page'], setstatus: ['10.6', 'setting the login status'], prevent: ['10.6', 'preventing silent access'],
    get: ['10.10', 'the table of a get call'], disconnect: ['10.16', 'the table of a disconnect call'],
    abort: ['10.8', 'events that name a call'], choose: ['10.10', 'rows C22 to C25'], continue: ['10.10', 'row C27'],
    cancel: ['10.10', 'row C31'], signin: ['10.10', 'row C28'], shutwindow: ['10.10', 'row C30'],
    idpclose: ['10.20', 'closing by the provider'],
  };
  const REPLY_RULES = {
    wellknown: ['7.2', 'well-known files'], config: ['7.3', 'configurations'], metadata: ['7.4', 'client metadata'],
    accounts: ['8.1', 'the reply of the accounts endpoint'], assertion: ['9.3', 'the reply of the assertion endpoint'],
    disconnect: ['9.5', 'the reply of the disconnect endpoint'],
  };
  const REQUEST_RULES = {
    wellknown: ['12.3', 'the kinds of request'], config: ['12.3', 'the kinds of request'], accounts: ['12.3', 'the kinds of request'],
    metadata: ['12.4', 'the target of a metadata request'], assertion: ['12.5', 'the form of an assertion request'],
    disconnect: ['12.3', 'the kinds of request'],
  };
  const RECORD_RULES = {
    window: ['10.10', 'rows C14 and C28'], dropped: ['10.21', 'a get call of several providers'],
    ignored: ['13.4', 'why an event is ignored'], bad: ['1.13', 'the causes of bad lines'],
    end: ['13.2', 'the records and their members'], summary: ['14.8', 'the form make'],
  };
  const DIALOG_RULES = { choose: ['11.2', 'the chooser'], prompt: ['11.3', 'the prompt'], mismatch: ['11.5', 'the mismatch dialog'] };

  // The rules of an audit's clauses, and of what a comparison names.
  const CLAUSE_RULES = { record: '18.4', call: '18.5', head: '18.6', origin: '18.7', cookie: '18.8', consent: '18.9', token: '18.10' };
  const DIFFERENCE_RULES = { record: '18.13', missing: '18.13', further: '18.13', head: '18.14', method: '18.14', target: '18.14',
    host: '18.15', accept: '18.15', 'sec-fetch-dest': '18.15', origin: '18.15', 'content-type': '18.15', 'content-length': '18.15',
    cookie: '18.15', token: '18.17', page: '18.17', auto: '18.17' };

  function faultRule({ out, clause, what }) {
    if (out === 'not-twins') return ['15.3', `the clause ${clause}`];
    return out === 'faulty' ? [CLAUSE_RULES[clause] ?? '18.3', `the clause ${clause}`]
      : [DIFFERENCE_RULES[what] ?? '18.16', `where a transcript differs: ${what}`];
  }

  // A rule that names a row of a table leads to that row.
  function linkOf([number, name]) {
    const row = /^rows? (\w+)/.exec(name);
    return { number, name, href: `${RULES}#${row ? `row-${row[1]}` : `rule-${number}`}` };
  }

  function resultRules({ see }) {
    if (see === 'token') return [['17.6', 'a token is given']];
    if (see === 'disconnected') return [['10.16', 'the table of a disconnect call']];
    return [['10.17', 'the steps of a failure'], ['10.18', 'what a page sees of a failure']];
  }

  function rulesOf(row) {
    if (row.sides) return pairRules(row);
    const rules = [];
    if (row.fault) rules.push(faultRule(row.fault));
    if (row.kind === 'request') rules.push(REQUEST_RULES[row.record.kind], ['12.6', 'which request names whom']);
    if (row.first && row.record.kind === 'assertion') rules.push(['17.2', 'the cause of a request for a token']);
    if (row.kind === 'dialog') rules.push(DIALOG_RULES[row.record.dialog]);
    if (row.kind === 'result') rules.push(...resultRules(row.record));
    if (row.event) rules.push(row.kind === 'reply' ? REPLY_RULES[row.event.to] : EVENT_RULES[row.event.do]);
    if (row.record?.out in RECORD_RULES) rules.push(RECORD_RULES[row.record.out]);
    return rules.map(linkOf);
  }

  // What two worlds have in common, where they are compared.
  function pairRules(pair) {
    const rules = pair.fault ? [faultRule(pair.fault)] : [];
    if (pair.link) rules.push(['15.8', 'sign-in requests']);
    if (pair.ends) rules.push(['15.6', 'quiet scripts'], ['15.7', 'the quiet length']);
    rules.push(pair.kept === undefined ? ['15.2', 'kept events'] : ['15.4', 'what is free']);
    return rules.map(linkOf);
  }

  function list(items, limit) {
    const more = items.length - limit;
    return [...items.slice(0, limit), ...(more > 0 ? [`and ${more} more`] : [])].join(', ');
  }

  const namesOf = accounts => accounts.map(account => String(account?.name ?? account?.id ?? 'an account'));

  // What a reply brings, in a few words.
  function replyText(row) {
    const bytes = Decoding.bytesOf(row.event);
    if (bytes === undefined) return 'the connection gave nothing';
    const { status, value } = Decoding.replyOf(bytes);
    const brings = replyBrings(row.event.to, value ?? {});
    return (status.startsWith('200') ? [brings, status] : [status, brings]).filter(Boolean).join(' · ');
  }

  function replyBrings(to, value) {
    if (typeof value !== 'object' || value === null) return '';
    if (to === 'wellknown') return Array.isArray(value.provider_urls) ? list(value.provider_urls.map(String), 2) : '';
    if (to === 'accounts') return Array.isArray(value.accounts) ? list(namesOf(value.accounts), 3) || 'no account' : '';
    if (to === 'assertion' && typeof value.token === 'string') return 'a token';
    if (to === 'assertion') return value.error ? `error ${value.error.code ?? ''}` : '';
    if (to === 'disconnect') return value.account_id === undefined ? '' : `account ${value.account_id}`;
    return list(Object.keys(value), 3);
  }

  function loadText({ url, ...bytes }) {
    const reply = Decoding.bytesOf(bytes);
    const parts = [url];
    if (reply !== undefined) {
      const { cookies, logins } = Decoding.replyOf(reply);
      if (cookies.length) parts.push(cookies.length === 1 ? '1 cookie' : `${cookies.length} cookies`);
      parts.push(...logins);
    }
    return parts.join(' · ');
  }

  function getText({ context, mediation, mode, activation, providers }) {
    const words = [context ?? 'signin', mediation, mode === 'active' ? (activation ? 'active' : 'active without activation') : undefined];
    const [first] = providers;
    if (providers.length === 1) return [`client ${first.client}`, words.filter(Boolean).join(' '), first.config].join(' · ');
    const asked = providers.map(({ client, config }) => `client ${client} at ${Reading.originOf(config)?.replace(/^https:\/\//, '')}`);
    return [list(asked, 10), words.filter(Boolean).join(' ')].join(' · ');
  }

  function haveText(event) {
    if (event.what === 'login') return `${event.origin} is ${event.status}`;
    if (event.what === 'kept') return `account ${event.account} has a permission for ${event.page} at ${event.provider}`;
    if (event.what === 'silent') return `${event.origin} has silent access prevented`;
    return `${event.url} has a cookie`;
  }

  function chosenText({ account, provider }, { name }) {
    const at = provider ? ` of provider ${provider}` : '';
    return (name === undefined ? `account ${account}` : `${name} (${account})`) + at;
  }

  const EVENT_WORDS = {
    load: event => [`page ${event.page} loads`, loadText(event)],
    closepage: event => [`page ${event.page} closes`, ''],
    get: event => ['get', getText(event)],
    disconnect: event => ['disconnect', `client ${event.client} · ${event.config}`],
    abort: () => ['abort', 'the page takes its call back'],
    idpclose: event => ['close', `page ${event.page}: the user has signed in`],
    prevent: event => ['prevent', `page ${event.page} prevents silent access`],
    setstatus: event => ['status', `page ${event.page} sets ${event.status}`],
    have: event => ['before', haveText(event)],
    at: (event, row) => ['time', [momentOf(event.time), sinceText(row)].filter(Boolean).join(' · ')],
    choose: (event, row) => ['choose', chosenText(event, row)],
    continue: () => ['continue', 'the user agrees'],
    cancel: () => ['cancel', 'the user dismisses the dialog'],
    signin: () => ['sign in', 'the user asks for the login window'],
    shutwindow: () => ['shut', 'the user shuts the login window'],
    reply: (event, row) => [event.to, replyText(row)],
  };

  const RECORD_WORDS = {
    request: record => [record.kind, targetOf(record)],
    window: record => ['login window', record.url],
    dropped: (record, row) => [`provider ${record.provider} drops out`, `${row.providerLane} · ${stepOf(record)}`],
    bad: record => [`line ${record.line} is bad`, [record.cause, record.member].filter(Boolean).join(' · ')],
    end: record => ['end', record.events === undefined ? '' : record.events === 1 ? '1 event' : `${record.events} events`],
    summary: record => ['summary', ['calls', 'events', 'requests', 'dialogs', 'ignored', 'tokens'].map(
      name => `${record[name]} ${name}`).join(', ')],
    ignored: record => [`event on line ${record.line}`, ''],
  };

  function secondsOf(seconds) {
    if (seconds < 120) return `${seconds} s`;
    return `${Math.floor(seconds / 60)} min` + (seconds % 60 ? ` ${seconds % 60} s` : '');
  }

  const sinceText = ({ since, step }) => since === undefined ? '' : `${secondsOf(step)} later, ${secondsOf(since)} after the beginning`;

  function momentOf(seconds) {
    const date = new Date(seconds * 1000);
    return Number.isNaN(date.getTime()) ? `${seconds} s` : date.toISOString().replace('T', ' ').replace('.000Z', ' UTC');
  }

  // Whom a request names stands before its target, which is the same for all requests of a kind at a provider.
  function targetOf(record) {
    const { method, target, form } = Decoding.requestOf(Decoding.bytesOf(record));
    const { account_id: account, account_hint: hint, client_id: client } = Object.fromEntries(form);
    const names = [account === undefined ? hint : account, client].map((name, at) => name && `${at === 0 ? 'account' : 'client'} ${name}`);
    return [...names, `${method} ${target}`].filter(Boolean).join(' · ');
  }

  const siteOf = ({ site }) => site === undefined ? '' : ` for ${site}`;

  function dialogWords(record) {
    if (record.dialog === 'choose') return ['chooser' + siteOf(record), list(namesOf(record.accounts ?? []), 4)];
    if (record.dialog === 'prompt') return ['prompt' + siteOf(record), namesOf([record.account])[0]];
    return ['mismatch' + siteOf(record), stepOf(record)];
  }

  const stepOf = ({ step, detail }) => detail === undefined ? String(step ?? '') : `${step} (${detail})`;

  function resultWords(record) {
    if (record.see === 'token') return ['token', record.auto ? 'without a choice' : ''];
    if (record.see === 'disconnected') return ['disconnected', ''];
    const code = record.code === undefined ? '' : ` code ${record.code || '(empty)'}`;
    return [record.see, stepOf(record) + code];
  }

  const kept = new WeakMap();

  // The title and the text of a row, each on one line.
  function wordsOf(row) {
    if (!kept.has(row)) kept.set(row, freshWords(row));
    return kept.get(row);
  }

  function freshWords(row) {
    const words = () => {
      if (row.kind === 'dialog') return dialogWords(row.record);
      if (row.kind === 'result') return resultWords(row.record);
      if (row.event) return EVENT_WORDS[row.event.do](row.event, row);
      return RECORD_WORDS[row.record.out](row.record, row);
    };
    const [title, text] = words();
    const why = row.ignored ? `ignored: ${row.ignored}` : row.unread ? 'not read' : '';
    return { title: Decoding.oneLine(title), text: Decoding.oneLine([why, text].filter(Boolean).join(' · ')) };
  }

  // What stands in a dialog's box below its title. Of several providers those that dropped out before are named too.
  function boxLines(row) {
    const { record } = row;
    const nameOf = place => row.providers?.[place]?.replace(/^https:\/\//, '') ?? `provider ${place}`;
    const away = (row.dropped ?? []).map(({ record: { provider, ...why } }) => `dropped out: ${nameOf(provider)} · ${stepOf(why)}`);
    return [...linesOf(record, nameOf), ...away];
  }

  function linesOf(record, nameOf) {
    const places = new Set((record.accounts ?? []).map(({ provider }) => provider));
    const account = ({ name, id, email, provider, connected }) =>
      [name ?? id, ...(places.size > 1 ? [nameOf(provider)] : []), email ?? '', ...(connected ? ['connected'] : [])].join(' · ');
    if (record.out === 'window') return [record.url];
    if (record.dialog === 'mismatch') return [stepOf(record)];
    if (record.dialog === 'choose') {
      const accounts = record.accounts ?? [];
      const shown = accounts.slice(0, 4).map(account);
      return accounts.length > 4 ? [...shown, `and ${accounts.length - 4} more`] : shown;
    }
    const links = ['privacy', 'terms'].filter(name => record[name] !== undefined);
    return [...(record.account ? [account(record.account)] : []), ...(record.disclosure ? ['with the disclosure'] : []),
      ...(links.length ? ['links: ' + links.join(', ')] : [])];
  }

  const CAUSES = {
    'not-json': 'the line is no JSON text', 'no-kind': 'the line names no kind of event or record', 'bad-url': 'a URL is refused',
    'call-twice': 'an earlier get has this number', 'have-late': 'a line of what stood before comes after another event',
    'time-back': 'the time is below the one before it', 'no-next': 'no line divides two scripts',
  };

  // What the page says for itself, of no line.
  const NOTICES = {
    'no-transcript': 'There is no transcript: what the browser sends and shows, and which calls are pending, is not drawn. '
      + './fedcm run FILE writes it.',
    'two-kept': 'Several files of this kind were given, and the last are shown',
  };

  // What is wrong with a line, with the word of rule 1.13 for it where it has one.
  function problemText({ source, line, cause, member, note }) {
    if (line === undefined) return [source, NOTICES[cause] ?? note].filter(Boolean).join(': ');
    const known = cause === 'member' ? `the member ${member} is missing or of a wrong kind` : CAUSES[cause];
    const why = [known, note].filter(Boolean).join(': ');
    return Decoding.oneLine(`${source}, line ${line}: ${why} (${cause})`);
  }

  const KINDS = { request: 'request', reply: 'reply', decision: 'decision of the user', page: 'page', dialog: 'dialog', window: 'window',
    result: 'result', dropped: 'provider', note: 'note' };

  const laneName = lane => lane === 'user' ? 'the user' : lane === 'browser' ? 'the browser' : Decoding.oneLine(lane);

  // What stood before the first request of a call that tells both: a decision of the user, or a permission, kept or by a token.
  function beforeText({ decision }) {
    if (!decision) return 'the decision before it is not in what was given';
    if (decision.kind !== 'decision') return `by the permission of line ${decision.line}`;
    return `after line ${decision.line} (${wordsOf(decision).title})`;
  }

  const firstText = row => row.first ? `first of its call to tell both, ${beforeText(row)}` : '';

  // What a row is to the requests after it.
  function decidesText(row) {
    if (!row.decides) return '';
    return row.kind === 'decision' ? 'the decision before a request that tells both' : 'the permission by which a request tells both';
  }

  // How a call goes on from its beginning, and which row answers which.
  function tiesText(row) {
    if (row.of?.began === row && row.event) return row.of.ended ? `pending up to line ${row.of.ended.line}` : 'pending to the end';
    if (row.answer) return `answered on line ${row.answer.line}`;
    if (row.kind === 'request' && row.at !== undefined) return 'not answered';
    if (row.closes) return `ends without a result: call ${row.closes.map(({ number }) => number).join(', ')}`;
    return row.answers ? `answers the request of line ${row.answers.line}` : '';
  }

  function faultText({ fault }) {
    if (!fault) return '';
    if (fault.out === 'not-twins') return `the scripts are no twins, by the clause ${fault.clause}, rule 15.3`;
    if (fault.out === 'faulty') return `breaks the clause ${fault.clause} of the audit, rule ${faultRule(fault)[0]}`;
    return `differs from the program's own: ${fault.what}, rule ${faultRule(fault)[0]}`;
  }

  // One sentence that says all that the picture shows of a row.
  function sentenceOf(row) {
    if (row.sides) return pairSentence(row);
    const { title, text } = wordsOf(row);
    const numbers = [row.line === undefined ? '' : `Line ${row.line}`, row.call === undefined ? '' : `call ${row.call}`];
    const place = numbers.filter(Boolean).join(', ');
    const way = row.from === row.to ? '' : `from ${laneName(row.from)} to ${laneName(row.to)}`;
    const tells = row.tells ? `tells ${TELLS[row.tells]}` : '';
    const parts = [faultText(row), `${KINDS[row.kind]}: ${title}`, text, way, tells, firstText(row), decidesText(row), tiesText(row)];
    return (place ? place + ', ' : '') + parts.filter(Boolean).join('; ');
  }

  const LINKS = { equal: 'the two requests are equal, byte for byte', differs: 'the two requests differ' };

  function pairSentence(pair) {
    const [one, two] = pair.sides.map(side => side ? sentenceOf(side) : 'nothing');
    const kept = pair.kept === undefined ? '' : `Kept event ${pair.kept}`;
    const parts = [faultText(pair), pair.ends ? `here both worlds are quiet no more` : '', `first world: ${one}`,
      `second world: ${two}`, LINKS[pair.link], pair.isSame ? 'the same in both' : ''];
    return [kept, parts.filter(Boolean).join('; ')].filter(Boolean).join(', ');
  }

  // What the program said of a transcript or of two scripts.
  function verdictText(verdict, fault) {
    const { out } = verdict;
    if (out === 'twins') {
      return `twin: the two scripts are twins; quiet up to kept event ${verdict.quiet}, sign-in requests compared: ${verdict.compared}`;
    }
    if (out === 'not-twins') return `twin: the two scripts are no twins, by the clause ${verdict.clause} at kept event ${verdict.event}`;
    if (out === 'audited') return `audit: every record keeps the rules, of ${verdict.records}`;
    if (out === 'alike') return `compare: the requests and tokens are the program's own; requests: ${verdict.requests}`;
    const where = fault ? `, line ${fault.recordLine ?? fault.line} of the ${fault.recordLine ? 'transcript' : 'script'}` : '';
    if (out === 'faulty') return `audit: line ${verdict.line}${where}, breaks the clause ${verdict.clause} (rule ${faultRule(verdict)[0]})`;
    return `compare: ${verdict.what} differs at line ${verdict.line}${where} (rule ${faultRule(verdict)[0]})`
      + (verdict.due === undefined ? '' : `; due is ${verdict.due}`);
  }

  return { wordsOf, boxLines, problemText, sentenceOf, rulesOf, beforeText, firstText, decidesText, faultText, tiesText,
    verdictText, stepOf, laneName, momentOf, KINDS, TELLS };
})();
