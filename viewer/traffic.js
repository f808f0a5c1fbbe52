'use strict';

// Recordings of a browser's traffic to a session script and its transcript: what viewer/convert, viewer/record and the page call.
const Traffic = (() => {
  const DIVIDER = '{"next":"transcript"}\n';
  const FIRST_PART = 4096;
  const READERS = { netlog: NetLog, protocol: ProtocolLog, har: Har };
  const CLAUSES = ['record', 'call', 'head', 'origin', 'cookie', 'consent', 'token'];
  const NAMES = { netlog: 'a NetLog', protocol: 'a DevTools protocol log', har: 'a HAR', list: 'a suffix list' };

  // Which kind of recording a text is, if any.
  function kindOf(text) {
    const first = text.slice(0, FIRST_PART);
    if (/^\s*\{\s*"(?:constants|events)"\s*:/.test(first)) return 'netlog';
    if (/^\s*\{\s*"log"\s*:/.test(first)) return 'har';
    if (ProtocolLog.isLog(text)) return 'protocol';
    return TrafficRules.isList(text) ? 'list' : undefined;
  }

  // Reads recordings of the same minutes; throws an `Unreadable` that names what makes one so.
  function read(files) {
    const notes = new Notes.Said();
    const sources = {};
    for (const { name, text } of files) {
      const kind = kindOf(text);
      if (!kind) throw new Bytes.Unreadable(`${name} is no NetLog, no DevTools protocol log and no HAR`);
      if (sources[kind] !== undefined) throw new Bytes.Unreadable(`${name} is ${NAMES[kind]}, and so is a file before it`);
      sources[kind] = kind === 'list' ? text : READERS[kind].read(text, notes);
    }
    if (!sources.netlog && !sources.protocol && !sources.har) throw new Bytes.Unreadable('no recording is given');
    for (const [kind, source] of Object.entries(sources)) if (kind !== 'list') refuseMany(kind, source);
    refuse(sources);
    return { sources, notes };
  }

  // What would take a conversion hours is refused.
  const MOST = [['requests', 50000, () => true], ['loads of pages', 10000, ({ isMain }) => isMain],
    ['FedCM requests', 2000, TrafficPages.isFed]];

  function refuseMany(kind, { exchanges }) {
    for (const [words, most, test] of MOST) {
      const count = exchanges.filter(test).length;
      if (count <= most) continue;
      throw new Bytes.Unreadable(`${NAMES[kind]} with ${count} ${words} is given, and at most ${most} are converted: record fewer minutes`);
    }
  }

  // A NetLog without bytes has no replies: it serves only beside a source that has them.
  function refuse({ netlog, protocol, har }) {
    if (!netlog || netlog.hasBytes || protocol || har || netlog.exchanges.length === 0) return;
    throw new Bytes.Unreadable(`the NetLog has no bytes (its mode is ${netlog.mode ?? 'not told'}): record with "Include raw bytes", or `
      + 'give the DevTools log of the same minutes with it');
  }

  function noted(first) {
    const notes = new Notes.Said();
    for (const list of ['made', 'moved', 'left']) for (const [words, said] of first[list]) notes[list].set(words, structuredClone(said));
    return notes;
  }

  // For each clause of the audit, whether this capture lets it be judged.
  function clausesOf(work) {
    const { netlog, fed, calls } = work;
    const asks = calls.flatMap(TrafficChoices.assertionsOf);
    const isMade = calls.some(({ isChoiceMade }) => isChoiceMade);
    const hasToken = calls.some(({ result }) => result?.token !== undefined && result.token !== null);
    if (fed.length === 0) return Object.fromEntries(CLAUSES.map(clause => [clause, 'not judged: no FedCM request']));
    const isWhole = fed.every(({ requestExact }) => requestExact !== undefined);
    const hasCookies = netlog && (netlog.hasValues || netlog.mode !== undefined && netlog.mode !== 'Default');
    const heads = isWhole ? 'judged' : 'judged on heads put together from lists of fields';
    const choices = isMade || work.isMade ? 'judged on made-up choices' : 'judged';
    return {
      record: 'judged',
      call: work.isMade ? 'judged on made-up calls' : 'judged',
      head: netlog ? heads : 'not judged: the capture has neither request lines nor Host fields',
      origin: netlog ? 'judged' : 'judged on the fields that DevTools tells',
      cookie: hasCookies ? 'judged' : 'not judged: the capture has no Cookie fields',
      consent: asks.length === 0 ? 'not judged: no request for a token' : choices,
      token: hasToken ? 'judged' : 'not judged: no token that a page got is told',
    };
  }

  const textOf = lines => lines.map(line => JSON.stringify(line) + '\n').join('');

  /* One conversion. `order` is `seen` or `profile`; `values` keeps cookies, tokens and names, in place of which labels stand else.
     `isWhole` says whether each FedCM request of the capture stands in a call. */
  function convert({ sources, notes: first }, { order = 'seen', values = false } = {}) {
    const notes = noted(first);
    const work = new TrafficPages.Work(sources, { order, list: sources.list }, notes);
    TrafficRules.find(work);
    TrafficPages.place(work);
    TrafficCalls.find(work);
    TrafficChoices.place(work);
    const written = TrafficLines.write(work);
    const lines = values ? written : TrafficLabels.put(written);
    const script = textOf(lines.script);
    const transcript = textOf(lines.transcript);
    const requests = work.fed.length + (work.lacking ?? 0);
    const apart = work.leftOver.length + (work.lacking ?? 0);
    return { order, script, transcript, pair: script + DIVIDER + transcript, lists: notes.lists(), clauses: clausesOf(work), requests,
      apart, calls: work.calls.length, isWhole: requests > 0 && apart === 0, version: sources.netlog?.version };
  }

  const both = (recording, options = {}) => ['seen', 'profile'].map(order => convert(recording, { ...options, order }));

  // The texts of files as they stand: a byte order mark is kept, and named by what reads them.
  const UTF8 = new TextDecoder('utf-8', { ignoreBOM: true });
  const filesOf = list => Promise.all([...list].map(async file => ({ name: file.name, text: UTF8.decode(await file.arrayBuffer()) })));

  // Both orders of the recordings in a list of files, or what makes one unreadable.
  async function ofFiles(list, options) {
    try {
      return { results: both(read(await filesOf(list)), options).map(each => ({ ...each, report: report(each) })) };
    } catch (error) {
      if (error instanceof Bytes.Unreadable) return { unreadable: error.message };
      throw error;
    }
  }

  // What is said of a conversion, as lines of text.
  function report({ order, lists, clauses, requests, apart, calls }) {
    const part = (title, lines) => [title, ...lines.length > 0 ? lines.map(line => `- ${line}`) : ['- nothing']];
    return [`order: ${order}`, `${requests} FedCM requests, ${apart} of them in no call; ${calls} calls`,
      ...part('made up:', lists.made), ...part('moved:', lists.moved), ...part('left out:', lists.left),
      ...part('what this capture does not show:', lists.unseen),
      ...part('the clauses of the audit:', Object.entries(clauses).map(([clause, words]) => `${clause}: ${words}`))].join('\n') + '\n';
  }

  return { kindOf, read, convert, both, filesOf, ofFiles, report };
})();
