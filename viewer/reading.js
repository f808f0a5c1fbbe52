'use strict';

// Reads a session script and its transcript, line by line (docs/profile.md, sections 1 and 13). A line that cannot be read is named
// with its cause, and the others are kept: a picture of a damaged file is worth more than none.
const Reading = (() => {
  const LONG_LINE = 5000;
  const REQUEST_KINDS = ['wellknown', 'config', 'accounts', 'metadata', 'assertion', 'disconnect'];
  const LINES_AT_ONCE = 2000;
  const MOST_PROVIDERS = 10;
  const BASE64 = /^(?:[A-Za-z0-9+/]{4})*(?:[A-Za-z0-9+/]{2}==|[A-Za-z0-9+/]{3}=)?$/;

  const isAbsent = value => value === undefined || value === null;
  const isObject = value => typeof value === 'object' && value !== null && !Array.isArray(value);
  const isText = value => typeof value === 'string';
  const isTruth = value => typeof value === 'boolean';
  const isWhole = value => Number.isInteger(value) && value >= 0;
  const isNumber = value => isWhole(value) && value < 2 ** 32;
  const isProviders = value => Array.isArray(value) && value.length >= 1 && value.length <= MOST_PROVIDERS && value.every(isObject);
  const oneOf = words => value => words.includes(value);
  const maybe = test => value => isAbsent(value) || test(value);

  const PAGE = ['page', isNumber];
  const CALL = ['call', isNumber];
  const LINE = ['line', isWhole];
  const STATUS = ['status', oneOf(['logged-in', 'logged-out'])];

  // The members of each kind of event, in the order in which they are tested (rule 1.10).
  const EVENTS = {
    have: [['what', oneOf(['login', 'kept', 'silent', 'cookie'])]],
    at: [['time', isWhole]],
    load: [PAGE, ['url', isText]],
    closepage: [PAGE],
    get: [PAGE, CALL, ['mediation', maybe(oneOf(['silent', 'optional', 'required']))], ['mode', maybe(oneOf(['passive', 'active']))],
      ['activation', maybe(isTruth)], ['context', maybe(oneOf(['signin', 'signup', 'use', 'continue']))], ['providers', isProviders]],
    abort: [CALL], continue: [CALL], cancel: [CALL], signin: [CALL], shutwindow: [CALL],
    reply: [CALL, ['provider', maybe(isNumber)], ['to', oneOf(REQUEST_KINDS)]],
    choose: [CALL, ['provider', maybe(isNumber)], ['account', isText]],
    idpclose: [PAGE], prevent: [PAGE],
    setstatus: [PAGE, STATUS],
    disconnect: [PAGE, CALL, ['config', isText], ['client', isText], ['hint', isText]],
  };
  const HAVE = {
    login: [['origin', isText], STATUS],
    kept: [['page', isText], ['provider', isText], ['account', isText]],
    silent: [['origin', isText]],
    cookie: [['url', isText]],
  };
  const PROVIDER = [['config', isText], ['client', isText], ...['nonce', 'login_hint', 'domain_hint', 'params'].map(
    name => [name, maybe(isText)])];
  const RECORDS = {
    request: [CALL, ['kind', oneOf(REQUEST_KINDS)], LINE],
    dialog: [CALL, LINE, ['dialog', oneOf(['choose', 'prompt', 'mismatch'])]],
    dropped: [CALL, LINE, ['provider', isNumber], ['step', isText]],
    window: [CALL, LINE, ['url', isText]],
    result: [CALL, LINE, PAGE, ['see', isText]],
    ignored: [LINE, ['why', isText]],
    bad: [LINE, ['cause', isText]],
    end: [['events', maybe(isWhole)]],
    summary: [['calls', isWhole]],
    twins: [['quiet', isWhole], ['compared', isWhole]],
    'not-twins': [['clause', isText], ['event', isWhole]],
    audited: [['records', isWhole]],
    faulty: [LINE, ['clause', isText]],
    alike: [['requests', isWhole]],
    differs: [LINE, ['what', isText]],
  };
  // What the program says of two scripts, or of a transcript, is no record of that transcript.
  const VERDICTS = ['twins', 'not-twins', 'audited', 'faulty', 'alike', 'differs'];
  const DIALOGS = {
    choose: [['accounts', maybe(value => Array.isArray(value) && value.every(isObject))]],
    prompt: [['account', maybe(isObject)]],
    mismatch: [['step', maybe(isText)]],
  };

  const failing = (value, tests) => tests.find(([name, test]) => !test(value[name]))?.[0];

  // Which member fails of those that give bytes (rule 1.11).
  function failingBytes(value, required) {
    const hasText = !isAbsent(value.text);
    const hasRaw = !isAbsent(value.raw);
    if (hasText && (hasRaw || !isText(value.text))) return 'text';
    if (hasRaw && !(isText(value.raw) && BASE64.test(value.raw))) return 'raw';
    return required && !hasText && !hasRaw ? 'text' : undefined;
  }

  function failingMember(event) {
    const first = failing(event, EVENTS[event.do]);
    if (first) return first;
    if (event.do === 'have') {
      return failing(event, HAVE[event.what]) ?? (event.what === 'cookie' ? failingBytes(event, true) : undefined);
    }
    if (event.do === 'get') return event.providers.map(provider => failing(provider, PROVIDER)).find(isText);
    return ['load', 'reply'].includes(event.do) ? failingBytes(event, false) : undefined;
  }

  function failingRecord(record) {
    const first = failing(record, RECORDS[record.out]);
    if (first) return first;
    if (record.out === 'request') return failingBytes(record, true);
    return record.out === 'dialog' ? failing(record, DIALOGS[record.dialog]) : undefined;
  }

  function urlsOf(event) {
    if (event.do === 'get') return event.providers.map(({ config }) => config);
    if (event.do === 'have' && event.what === 'kept') return [event.page, event.provider];
    if (event.do === 'have') return [event.what === 'cookie' ? event.url : event.origin];
    return [event.url, event.config].filter(isText);
  }

  // The origin of a URL of the web (rule 2.2), or nothing.
  function originOf(text) {
    try {
      const url = new URL(text);
      return ['https:', 'http:'].includes(url.protocol) && !url.username && !url.password ? url.origin : undefined;
    } catch {
      return undefined;
    }
  }

  const isKnown = (table, word) => isText(word) && Object.hasOwn(table, word);

  // What is wrong with an event by the lines before it, which `past` keeps (rule 1.13).
  function wrongWithEvent(event, past) {
    if (!isObject(event) || !isKnown(EVENTS, event.do)) return { cause: 'no-kind' };
    const member = failingMember(event);
    if (member) return { cause: 'member', member };
    if (urlsOf(event).some(url => !originOf(url))) return { cause: 'bad-url' };
    if (event.do === 'get' && past.calls.has(event.call)) return { cause: 'call-twice' };
    if (event.do === 'have' && past.others) return { cause: 'have-late' };
    if (event.do === 'at' && event.time < past.time) return { cause: 'time-back' };
    return undefined;
  }

  function remember(event, past) {
    if (event.do === 'get') past.calls.add(event.call);
    if (event.do === 'at') past.time = event.time;
    if (event.do !== 'have') past.others = true;
  }

  function wrongWithHeader(header) {
    if (!isObject(header) || header.fedcm !== 1) return { cause: 'member', member: 'fedcm' };
    const member = failing(header, [['now', isWhole], ['rules', isText]]);
    return member && { cause: 'member', member };
  }

  function wrongWithRecord(record) {
    if (!isObject(record) || !isKnown(RECORDS, record.out)) return { cause: 'no-kind' };
    const member = failingRecord(record);
    return member && { cause: 'member', member };
  }

  function parse(source) {
    if (source.length > LONG_LINE && Bytes.isDeep(source)) {
      return { wrong: { cause: 'not-json', note: 'it is nested deeper than is read' } };
    }
    try {
      return { value: JSON.parse(source) };
    } catch (error) {
      return { wrong: { cause: 'not-json', note: error.message } };
    }
  }

  const isRecord = value => isObject(value) && isText(value.out) && isAbsent(value.do) && isAbsent(value.fedcm);
  const isVerdict = value => isRecord(value) && VERDICTS.includes(value.out);

  class Reader {
    constructor() {
      this.header = undefined;
      this.events = [];
      this.records = [];
      this.problems = [];
      this.hasScript = false;
      this.hasTranscript = false;
      this.before = 0;
      this.verdict = undefined;
      this.isOfOthers = false;
    }

    problem(source, line, wrong) {
      this.problems.push({ source, line, ...wrong });
    }

    startScript(line, parsed) {
      this.past = { calls: new Set(), others: false, time: 0 };
      const wrong = parsed.wrong ?? wrongWithHeader(parsed.value);
      if (wrong) this.problem('script', line, wrong);
      else this.past.time = parsed.value.now;
      this.header = wrong ? undefined : parsed.value;
    }

    scriptLine(line, source, parsed) {
      if (source.trim() === '') return;
      const wrong = parsed.wrong ?? wrongWithEvent(parsed.value, this.past);
      if (wrong) {
        this.problem('script', line, wrong);
      } else {
        remember(parsed.value, this.past);
        this.events.push({ line, event: parsed.value, source });
      }
    }

    recordLine(line, source, parsed) {
      if (source.trim() === '') return;
      const wrong = parsed.wrong ?? wrongWithRecord(parsed.value);
      if (wrong) this.problem('transcript', line, wrong);
      else if (isVerdict(parsed.value)) this.setVerdict(parsed.value);
      else this.keepRecord({ line: parsed.value.line, record: parsed.value, recordLine: line, recordSource: source });
    }

    setVerdict(verdict) {
      this.verdict = verdict;
      if (!verdict.out.endsWith('twins')) this.isOfOthers = true;
    }

    keepRecord(read) {
      this.hasTranscript = true;
      this.records.push(read);
    }

    // One text is a script, a transcript, or a script with its transcript behind it. It stops after some lines, to go on later.
    * text(text) {
      const lines = text.split('\n');
      if (lines.at(-1) === '') lines.pop();
      this.next = 'header';
      this.start = 0;
      if (lines.length === 0) [this.hasScript, lines[0]] = [true, ''];
      for (let index = 0; index < lines.length; index += 1) {
        this.line(lines[index], index);
        if (index % LINES_AT_ONCE === LINES_AT_ONCE - 1) yield;
      }
      if (this.next !== 'record') this.before = lines.length + 1;
    }

    // The records follow; `before` is how many lines stand before them in the input of `audit`, where a line divides them from the script.
    startTranscript(start, before, isVerdict) {
      Object.assign(this, { next: 'record', start, before });
      if (!isVerdict) this.hasTranscript = true;
    }

    line(source, index) {
      const parsed = parse(source);
      if (this.next !== 'record' && isRecord(parsed.value)) {
        this.startTranscript(index, index === 0 ? this.before : index + 1, isVerdict(parsed.value));
      }
      if (this.next === 'record') {
        this.recordLine(index - this.start + 1, source, parsed);
      } else if (this.next === 'header') {
        this.hasScript = true;
        this.startScript(index + 1, parsed);
        this.next = 'event';
      } else if (parsed.value?.next === 'transcript') {
        this.isOfOthers = true;
        this.startTranscript(index + 1, index + 1, false);
      } else {
        this.scriptLine(index + 1, source, parsed);
      }
    }
  }

  // Reads texts step by step; what is read stands in the answer.
  function* steps(texts) {
    const reader = new Reader();
    for (const text of texts) yield* reader.text(text);
    return reader;
  }

  // The first line of a text that is JSON.
  function firstValue(text) {
    for (let start = 0; start < text.length;) {
      const end = text.indexOf('\n', start);
      const parsed = parse(text.slice(start, end < 0 ? text.length : end));
      if (!parsed.wrong) return parsed.value;
      if (end < 0) break;
      start = end + 1;
    }
    return undefined;
  }

  // Whether a text is a script, with its transcript behind it or not, a transcript, or what the program says of one.
  function kindOf(text) {
    const first = firstValue(text);
    return isVerdict(first) ? 'verdict' : isRecord(first) ? 'transcript' : 'script';
  }

  return { steps, kindOf, originOf, REQUEST_KINDS };
})();
