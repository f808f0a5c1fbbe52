'use strict';

// The rows of the picture: each event of the script and each record of the transcript in their order, with the two lanes that it
// joins, what a request tells, which decision stood before the first request of a call that tells both, from where to where a call is
// pending, and which reply answers a request. A row is the line that was read, of which more is known.
const Session = (() => {
  const USER = 'user';
  const BROWSER = 'browser';
  const DECISIONS = ['choose', 'continue', 'cancel', 'signin', 'shutwindow'];
  const AGREEMENTS = ['choose', 'continue'];
  const ASIDES = ['have', 'at'];
  const ROWS_AT_ONCE = 5000;
  const LAST_RECORDS = ['end', 'bad', 'summary'];

  // The lane of the provider at a place in the call's list.
  const laneAt = ({ number, providers }, place = 0) => providers[place] ?? `provider ${place === 0 ? '' : place + ' '}of call ${number}`;

  // Where the reply for a well-known file comes from, when no request was read: its host is known by suffix rules alone.
  const wellKnownLane = call => `well-known host of ${laneAt(call)}`;

  // The lanes by which the filters find a row: its provider's, or those of all that the call has.
  const lanesOf = (call, place) => place === undefined && call.providers.length > 1 ? call.providers.join(' ') : laneAt(call, place);

  const newCall = (number, page, pageLane, providers) =>
    ({ number, page, pageLane, providers, lanes: {}, asked: {}, requests: [], dropped: [] });

  class Builder {
    constructor(reading) {
      this.reading = reading;
      this.rows = [];
      this.problems = [...reading.problems];
      this.providers = new Set();
      this.hosts = new Map();
      this.pageOfCall = new Map();
      this.originOfCall = new Map();
      this.badLine = Infinity;
      this.pause = ROWS_AT_ONCE;
      this.current = undefined;
      this.moments = [];
      this.pages = new Map();
      this.calls = new Map();
      this.pending = new Map();
      this.permissions = new Map();
    }

    // In a transcript alone the origin of a call's page stands in its later requests, and the page's number in its result.
    lookAhead() {
      for (const { record } of this.reading.records) {
        if (record.out === 'bad') this.badLine = Math.min(this.badLine, record.line);
        if (this.reading.hasScript) continue;
        if (record.out === 'result') this.pageOfCall.set(record.call, record.page);
        const origin = record.out === 'request' && /\r\norigin: *([^\r]+)/i.exec(Decoding.bytesOf(record))?.[1];
        if (origin) this.originOfCall.set(record.call, origin);
      }
    }

    // Stops after some events, to go on later.
    * build() {
      this.lookAhead();
      const { events, records } = this.reading;
      let next = 0;
      for (const event of events) {
        while (next < records.length && records[next].line < event.line) this.record(records[next++]);
        this.event(event);
        if (this.rows.length >= this.pause) {
          this.pause = this.rows.length + ROWS_AT_ONCE;
          yield;
        }
      }
      while (next < records.length) this.record(records[next++]);
      this.checkEnd();
      if (this.reading.hasScript && !this.reading.hasTranscript) this.problems.push({ cause: 'no-transcript' });
      if (this.reading.verdict) this.judge(this.reading.verdict);
    }

    // Marks the row of which `audit` or `compare` says that it breaks a clause, or differs. Where a record is missing, it is the event's.
    judge(verdict) {
      if (verdict.out !== 'faulty' && verdict.out !== 'differs') return;
      const row = this.rows.findLast(each => this.isMeant(each, verdict));
      if (row) row.fault = verdict;
      this.fault = row;
    }

    isMeant(row, verdict) {
      const isByLine = verdict.out === 'faulty' || verdict.what === 'record';
      if (isByLine) return row.recordLine === verdict.line - this.reading.before;
      if (row.line !== verdict.line) return false;
      if (verdict.what === 'missing') return row.event !== undefined;
      const { record } = row;
      const kind = record?.out === 'result' && record.see === 'token' ? 'token' : record?.kind;
      return kind === verdict.kind && record.call === verdict.call && (record.provider ?? 0) === (verdict.provider ?? 0);
    }

    // A transcript that lacks its last record, or counts other events than the script has, is not that script's whole one. That of
    // another program need not be whole.
    checkEnd() {
      const { records, events, hasTranscript, hasScript, isOfOthers } = this.reading;
      if (!hasTranscript || isOfOthers) return;
      const last = records.at(-1)?.record;
      const line = records.at(-1)?.recordLine ?? 1;
      if (!last || !LAST_RECORDS.includes(last.out)) {
        this.problems.push({ source: 'transcript', line, cause: 'no-end', note: 'the transcript stops before its last record' });
      } else if (last.out === 'end' && hasScript && last.events !== events.length) {
        const note = `the transcript counts ${last.events} events, and the script has ${events.length}`;
        this.problems.unshift({ source: 'transcript', line, cause: 'other-script', note });
      }
    }

    row(read, kind, from, to) {
      read.kind = kind;
      read.from = from;
      read.to = to;
      read.at = this.rows.length;
      this.rows.push(read);
      return read;
    }

    // A row of a call has its page and its provider, by which the filters find it; the place is that of the provider, if it is one's.
    callRow(read, kind, call, from, to, place) {
      read.of = call;
      read.call = call.number;
      read.page = call.page;
      read.pageLane = call.pageLane;
      read.providerLane = lanesOf(call, place);
      if (!this.reading.hasScript) call.began ??= read;
      return this.row(read, kind, from, to);
    }

    pendingOf(page) {
      if (!this.pending.has(page)) this.pending.set(page, new Set());
      return this.pending.get(page);
    }

    finish(call, read) {
      if (!call.began) return;
      call.ended = read;
      this.pendingOf(call.page).delete(call);
    }

    callOf(number) {
      if (!this.calls.has(number)) {
        const page = this.pageOfCall.get(number);
        const pageLane = this.originOfCall.get(number) ?? (page === undefined ? `page of call ${number}` : `page ${page}`);
        this.calls.set(number, newCall(number, page, pageLane, []));
      }
      return this.calls.get(number);
    }

    event(read) {
      const { event } = read;
      read.unread = read.line > this.badLine;
      this.current = read;
      if (event.do === 'at') this.moment(read);
      if (ASIDES.includes(event.do)) this.row(read, 'note', BROWSER, BROWSER);
      else if (event.do === 'reply') this.reply(read);
      else if (DECISIONS.includes(event.do)) this.decision(read);
      else this.pageEvent(read);
      if (event.do === 'have' && event.what === 'kept') {
        this.keep(Reading.originOf(event.page), Reading.originOf(event.provider), event.account, read);
      }
    }

    // How long after the beginning a time is, and how long after the one before.
    moment(read) {
      const begins = this.reading.header?.now;
      const { time } = read.event;
      if (begins === undefined) return;
      Object.assign(read, { since: time - begins, step: time - (this.moments.at(-1)?.event.time ?? begins) });
      this.moments.push(read);
    }

    reply(read) {
      const call = this.callOf(read.event.call);
      const place = read.event.provider ?? 0;
      const asked = call.asked[place + read.event.to];
      if (asked && !asked.answer && !read.unread) [read.answers, asked.answer] = [asked, read];
      this.callRow(read, 'reply', call, call.lanes[place + read.event.to] ?? this.laneOfReply(read.event.to, call, place), BROWSER, place);
    }

    laneOfReply(to, call, place) {
      if (to !== 'wellknown' || !call.providers[place]) return laneAt(call, place);
      const lane = wellKnownLane({ ...call, providers: [call.providers[place]] });
      this.providers.add(lane);
      return lane;
    }

    decision(read) {
      const call = this.callOf(read.event.call);
      this.callRow(read, 'decision', call, USER, BROWSER);
      const { account, provider } = read.event;
      const isChosen = shown => shown.id === account && (shown.provider ?? 0) === (provider ?? 0);
      if (account !== undefined) read.name = call.accounts?.find(isChosen)?.name;
    }

    // What a page does: its lane is its origin's, as the page was loaded last.
    pageEvent(read) {
      const { event } = read;
      if (event.do === 'abort') return this.fromPage(read, this.callOf(event.call));
      if (event.do === 'load') this.pages.set(event.page, Reading.originOf(event.url));
      const lane = this.pages.get(event.page) ?? `page ${event.page}`;
      if (event.do === 'get' || event.do === 'disconnect') return this.begin(read, lane);
      read.page = event.page;
      read.pageLane = lane;
      if (event.do === 'load' || event.do === 'closepage') this.endCalls(read);
      return this.row(read, 'page', lane, BROWSER);
    }

    // A page that loads or closes ends its calls without a result.
    endCalls(read) {
      if (read.unread) return;
      const ended = [...this.pendingOf(read.event.page)];
      if (ended.length > 0) read.closes = ended;
      ended.forEach(call => this.finish(call, read));
    }

    // Whether an event was taken is what a transcript says: without one no call is known to be pending.
    begin(read, pageLane) {
      const { event } = read;
      const providers = (event.providers ?? [event]).map(({ config }) => Reading.originOf(config));
      providers.forEach(lane => this.providers.add(lane));
      const call = newCall(event.call, event.page, pageLane, providers);
      call.earlier = this.calls.get(event.call);
      call.isDisconnect = event.do === 'disconnect';
      this.calls.set(event.call, call);
      if (this.reading.hasTranscript && !read.unread) {
        call.began = read;
        this.pendingOf(call.page).add(call);
      }
      if (event.do === 'disconnect') call.permission = this.permissionBefore(call);
      return this.fromPage(read, call);
    }

    fromPage(read, call) {
      return this.callRow(read, 'page', call, call.pageLane, BROWSER);
    }

    record(read) {
      const { record, recordLine } = read;
      const cause = this.current?.line === read.line ? this.current : undefined;
      if (this.reading.hasScript && !cause && read.line !== undefined && record.out !== 'bad') {
        const note = `the script has no event on line ${read.line}`;
        this.problems.push({ source: 'transcript', line: recordLine, cause: 'no-event', note });
      }
      if (record.out === 'request') this.request(read, cause);
      else if (record.out === 'dialog' || record.out === 'window') this.shown(read);
      else if (record.out === 'dropped') this.dropped(read);
      else if (record.out === 'result') this.result(read, cause);
      else if (record.out === 'ignored' && cause) this.ignore(cause, read);
      else this.row(read, 'note', BROWSER, BROWSER).ignored = record.out === 'ignored' ? record.why : undefined;
    }

    // An ignored get or disconnect is not taken: its number goes on to name the call that it named before.
    ignore(row, { record, recordLine, recordSource }) {
      Object.assign(row, { ignored: record.why, record, recordLine, recordSource });
      if (row.answers) row.answers = row.answers.answer = undefined;
      for (const call of row.closes ?? []) {
        call.ended = undefined;
        this.pendingOf(call.page).add(call);
      }
      row.closes = undefined;
      if (row.event.do !== 'get' && row.event.do !== 'disconnect') return;
      row.of.began = undefined;
      this.pendingOf(row.of.page).delete(row.of);
      const { earlier } = this.calls.get(row.event.call);
      if (earlier) this.calls.set(row.event.call, earlier);
      else this.calls.delete(row.event.call);
    }

    laneOfHost(bytes) {
      const host = /\r\nhost: *([^\r]+)/i.exec(bytes)?.[1];
      if (!this.hosts.has(host)) this.hosts.set(host, Reading.originOf('https://' + host));
      return this.hosts.get(host);
    }

    request(read, cause) {
      const { record } = read;
      const call = this.callOf(record.call);
      const bytes = Decoding.bytesOf(record);
      const place = record.provider ?? 0;
      const lane = this.laneOfHost(bytes) ?? laneAt(call, place);
      call.lanes[place + record.kind] = lane;
      call.asked[place + record.kind] = read;
      call.requests.push(read);
      if (record.kind !== 'wellknown') call.providers[place] ??= lane;
      this.providers.add(lane);
      this.callRow(read, 'request', call, BROWSER, lane, place);
      read.tells = Decoding.tells(bytes);
      if (read.tells === 'both') this.tellsBoth(read, call, cause, bytes);
    }

    tellsBoth(row, call, cause, bytes) {
      call.account = Decoding.formMember(bytes, 'account_id');
      call.chosen = row.record.provider ?? 0;
      if (call.first) return;
      call.first = row;
      row.first = true;
      const byPermission = row.record.kind === 'disconnect' || Decoding.formMember(bytes, 'is_auto_selected') === 'true';
      row.decision = byPermission ? call.permission ?? this.permissionBefore(call) : this.agreement(cause);
      if (row.decision) row.decision.decides = true;
    }

    agreement(cause) {
      return cause && AGREEMENTS.includes(cause.event.do) ? cause : undefined;
    }

    // The row by which the permission came that the call goes by: a decision of an earlier call, or a line that says it was kept. A
    // disconnect call looks when it begins, a get call when it asks for its token.
    permissionBefore(call) {
      const kept = this.permissions.get(call.pageLane + ' ' + laneAt(call, call.chosen)) ?? [];
      return kept.findLast(({ account }) => call.account === undefined || account === call.account)?.row;
    }

    keep(page, provider, account, row) {
      const key = page + ' ' + provider;
      if (!this.permissions.has(key)) this.permissions.set(key, []);
      this.permissions.get(key).push({ account, row });
    }

    // A reply to a disconnect request takes the permission that it names, and else all of the page and the provider (rows E9 to E11).
    drop(call, cause) {
      const key = call.pageLane + ' ' + laneAt(call);
      const bytes = cause?.event.do === 'reply' ? Decoding.bytesOf(cause.event) : undefined;
      const named = bytes && Decoding.replyOf(bytes).value?.account_id;
      const kept = this.permissions.get(key) ?? [];
      const isNamed = kept.some(({ account }) => account === named);
      this.permissions.set(key, isNamed ? kept.filter(({ account }) => account !== named) : []);
    }

    shown(read) {
      const { record } = read;
      const call = this.callOf(record.call);
      if (record.dialog === 'choose') call.accounts = record.accounts;
      read.providers = call.providers;
      read.dropped = [...call.dropped];
      this.callRow(read, record.out, call, BROWSER, BROWSER, record.provider ?? record.account?.provider);
    }

    dropped(read) {
      const { record } = read;
      const call = this.callOf(record.call);
      call.dropped.push(read);
      this.callRow(read, 'dropped', call, BROWSER, BROWSER, record.provider);
    }

    result(read, cause) {
      const { record } = read;
      const call = this.callOf(record.call);
      call.page ??= record.page;
      this.callRow(read, 'result', call, BROWSER, call.pageLane);
      this.finish(call, read);
      if (record.see === 'token') this.keep(call.pageLane, laneAt(call, record.provider), call.account, call.first?.decision ?? read);
      if (record.see === 'disconnected') this.drop(call, cause);
      if (record.step?.startsWith('disconnect-')) this.drop(call, undefined);
    }
  }

  function counts(rows) {
    const counted = { request: 0, reply: 0, dialog: 0, window: 0, result: 0, dropped: 0, ignored: 0 };
    for (const row of rows) {
      if (row.kind in counted) counted[row.kind] += 1;
      if (row.ignored) counted.ignored += 1;
    }
    return counted;
  }

  // Builds the session of what was read step by step; it stands in the answer.
  function* steps(reading) {
    const builder = new Builder(reading);
    yield* builder.build();
    const { rows, problems, providers, fault, moments } = builder;
    const calls = new Set();
    for (const { call } of rows) {
      if (call !== undefined) calls.add(call);
    }
    const { verdict, header, hasScript, hasTranscript } = reading;
    return { rows, problems, providers, fault, verdict, header, moments, hasScript, hasTranscript, calls: calls.size,
      counts: counts(rows) };
  }

  return { steps, USER, BROWSER };
})();
