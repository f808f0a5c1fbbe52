'use strict';

// The lines of a conversion: events in their order, and each record at the line of what caused it.
const TrafficLines = (() => {
  const { slot, bodyOf } = TrafficCalls;
  const { lastOf, resumeOf, byTime, placeOf, assertionsOf } = TrafficChoices;
  const LOAD_BESIDE = 50;

  // ---- requests

  // The bytes of a request: as they were sent, or put together from the list of its fields.
  function bytesOf(work, x) {
    if (x.requestExact !== undefined) return x.requestExact;
    const url = new URL(x.url);
    const pseudo = name => x.requestFields.find(([field]) => field === name)?.[1];
    const fields = x.requestFields.filter(([name]) => !name.startsWith(':'));
    const host = Bytes.named(fields, 'host').length > 0 ? [] : [['Host', pseudo(':authority') ?? url.host]];
    const line = x.requestLine ?? `${x.method} ${pseudo(':path') ?? url.pathname + url.search} HTTP/1.1`;
    work.notes.put('made', x.protocol === 'h2' || x.protocol === 'h3' ? 'a request over HTTP/2 or 3 written as HTTP/1.1'
      : 'a request put together from its fields, since its bytes are not in the capture', x.url);
    return `${line}\r\n${Bytes.lines([...host, ...fields])}\r\n${x.method === 'POST' ? bodyOf(x) ?? '' : ''}`;
  }

  const latest = (...events) => events.filter(Boolean).sort(byTime).at(-1);

  // The last reply of a kind that the call had when a request went out.
  function replyBefore(call, x, kind) {
    return slot(call, x.place, kind).map(({ reply }) => reply).filter(reply => reply && (reply.at <= x.start + 5 || reply.isMoved)).at(-1);
  }

  const CAUSES = {
    wellknown: (work, call, x, again) => again ? resumeOf(work, call, x.start, call.at) ?? lastOf(call, x.start) : call.begin,
    config: (work, call, x, again) => CAUSES.wellknown(work, call, x, again),
    accounts: (work, call, x, again) => {
      const files = latest(replyBefore(call, x, 'wellknown'), replyBefore(call, x, 'config'));
      return again ? resumeOf(work, call, x.start, again.start) ?? files : files ?? call.begin;
    },
    metadata: (work, call, x) => replyBefore(call, x, 'accounts') ?? lastOf(call, x.start),
    disconnect: (work, call, x) => latest(replyBefore(call, x, 'wellknown'), replyBefore(call, x, 'config')) ?? call.begin,
    assertion: (work, call, x) => {
      if (x.form.is_auto_selected === 'true') {
        const lists = call.providers.map((_, place) => replyBefore(call, { ...x, place }, 'accounts'));
        return latest(...lists) ?? lastOf(call, x.start);
      }
      const act = call.acts.find(each => each.account === x.form.account_id && each.place === x.place && !each.isSent);
      if (!act) return lastOf(call, x.start);
      act.isSent = true;
      return act.events.at(-1);
    },
  };

  function requests(work) {
    for (const x of work.fed) {
      const { call, place, kind } = x;
      if (!call) continue;
      const list = slot(call, place, kind);
      const again = list[list.indexOf(x) - 1];
      work.records.push({ at: x.start, cause: () => CAUSES[kind](work, call, x, again), x,
        record: { out: 'request', call: call.number, kind, provider: place, ...Bytes.ofRecord(bytesOf(work, x)) } });
    }
  }

  // ---- dialogs and results

  const accountOf = (call, { loginState, accountId, email, name, givenName, pictureUrl, idpConfigUrl }) => Bytes.sorted({
    connected: loginState === 'SignIn', email: email ?? '', given_name: givenName || undefined, id: accountId, name: name ?? '',
    picture: pictureUrl || undefined, provider: placeOf(call, idpConfigUrl) });

  function dialogOf({ dialogType, accounts, call }) {
    const context = call.options?.context ?? 'signin';
    if (dialogType === 'ConfirmIdpLogin') return { dialog: 'mismatch', provider: 0, step: 'accounts-reply' };
    if (dialogType !== 'AccountChooser' || accounts.length === 0) return undefined;
    if (accounts.length > 1) return { dialog: 'choose', accounts: accounts.map(each => accountOf(call, each)), context };
    const account = accountOf(call, accounts[0]);
    return { dialog: 'prompt', account, disclosure: !account.connected, context, privacy: accounts[0].privacyPolicyUrl || undefined,
      terms: accounts[0].termsOfServiceUrl || undefined };
  }

  function dialogs(work) {
    for (const dialog of work.dialogs) {
      const { call, at } = dialog;
      const shown = call && dialogOf(dialog);
      if (call && !shown) work.notes.put('left', `a dialog that the profile does not have (${dialog.dialogType})`);
      if (!shown) continue;
      const host = Bytes.url(call.origin ?? '')?.hostname ?? '';
      const isReply = each => each.event.do === 'reply' && !each.isMoved && each.at <= at + 1;
      work.records.push({ at, cause: () => call.events.filter(isReply).sort((a, b) => a.at - b.at).at(-1) ?? call.begin,
        record: Bytes.sorted({ out: 'dialog', call: call.number, site: TrafficRules.partyOf(host, work.rules), ...shown }) });
    }
  }

  function token(work, call, { token: given, config, auto }) {
    const provider = placeOf(call, config);
    const asked = assertionsOf(call).filter(x => x.reply);
    const x = asked.find(each => each.place === provider && Bytes.replyJson(each)?.token === given) ?? asked.at(-1);
    work.records.push({ at: call.until, cause: () => x?.reply ?? lastOf(call, call.until),
      record: Bytes.sorted({ out: 'result', call: call.number, page: call.page, see: 'token',
        token: typeof given === 'string' ? given : Bytes.written(given) ?? '', provider, auto: auto === true }) });
  }

  function result(work, call) {
    const { result: told } = call;
    const record = { out: 'result', call: call.number, page: call.page };
    if (told.token !== undefined && told.token !== null) {
      token(work, call, told);
    } else if (told.value === 'undefined' && call.kind === 'disconnect') {
      work.records.push({ at: call.until, cause: () => slot(call, 0, 'disconnect').at(-1)?.reply ?? lastOf(call, call.until),
        record: Bytes.sorted({ ...record, see: 'disconnected' }) });
    } else if (told.error) {
      const code = [told.errorCode, told.code].find(Bytes.isText);
      work.records.push({ at: call.until, cause: () => lastOf(call, call.until),
        record: Bytes.sorted({ ...record, see: told.error, code, url: told.url }) });
    } else {
      work.notes.put('left', 'a result that the profile does not have', String(told.value));
    }
  }

  // ---- the order of lines

  function earlier(work, entry, at, words) {
    if (!entry || entry.at <= at) return;
    work.notes.put('moved', words);
    entry.at = at;
  }

  // Causes stand before their effects, where the clocks of two logs differ.
  function causesFirst(work) {
    for (const x of work.fed) {
      const isFirst = x.call && ['wellknown', 'config'].includes(x.kind) && slot(x.call, x.place, x.kind)[0] === x;
      if (isFirst) earlier(work, x.call.begin, x.start - 0.001, 'a call, before its first request');
    }
    for (const { page, begin } of work.calls) {
      const late = work.events.find(({ event, at, load }) => event.do === 'load' && event.page === page && at > begin.at && load
        && load.start < begin.at && load.end < begin.at + LOAD_BESIDE);
      if (late) earlier(work, late, begin.at - 0.001, 'a load, before the call that its page made');
    }
  }

  // Of the rest of the browsing nothing is told: pages with calls and the providers' own sites are kept.
  function leaveOut(work) {
    const site = url => TrafficRules.partyOf(Bytes.place(url).hostname, work.rules);
    const sites = new Set(work.calls.flatMap(({ providers, origin }) => [...providers.map(({ config }) => site(config)),
      ...origin ? [site(origin)] : []]));
    const used = new Set(work.calls.map(({ page }) => page));
    const isKept = ({ do: what, page, url }) => what === 'load' && (used.has(page) || sites.has(site(url)));
    const pages = new Set(work.events.filter(({ event }) => isKept(event)).map(({ event }) => event.page));
    const events = work.events.filter(({ event }) => event.page === undefined || pages.has(event.page));
    const have = work.have.filter(({ url }) => sites.has(site(url)));
    for (const { event } of work.events) {
      if (event.do === 'load' && !pages.has(event.page)) work.notes.put('left', 'pages that concern no call', new URL(event.url).origin);
    }
    if (have.length < work.have.length) work.notes.put('left', 'cookies from before, of sites that concern no call');
    Object.assign(work, { events, have });
  }

  // The events as lines; each gets its number, and the time goes on where a second passes.
  function script(work) {
    const ordered = [...work.events].sort(byTime);
    const started = ordered[0]?.at ?? work.protocol?.first ?? 0;
    let now = Math.max(0, Math.floor(started / 1000));
    const lines = [Bytes.sorted({ fedcm: 1, now, rules: work.rules }), ...work.have];
    for (const entry of ordered) {
      const second = Math.floor(entry.at / 1000);
      if (second > now) lines.push({ do: 'at', time: second });
      now = Math.max(now, second);
      lines.push(entry.event);
      entry.line = lines.length;
    }
    return { lines, ordered };
  }

  function transcript(work, ordered, events) {
    const lineOf = ({ cause, at }) => (cause() ?? ordered.findLast(entry => entry.at <= at) ?? ordered[0])?.line ?? 1;
    const placed = work.records.map(each => ({ ...each, line: lineOf(each) })).sort((a, b) => a.line - b.line || a.at - b.at);
    return [...placed.map(({ record, line }) => Bytes.sorted({ ...record, line })), { events, out: 'end' }];
  }

  function write(work) {
    requests(work);
    dialogs(work);
    for (const call of work.calls) if (call.result) result(work, call);
    causesFirst(work);
    leaveOut(work);
    const { lines, ordered } = script(work);
    return { script: lines, transcript: transcript(work, ordered, lines.length - 1) };
  }

  return { write };
})();
