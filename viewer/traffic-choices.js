'use strict';

// Replies, what the user did in dialogs, and login windows, as events; and the steps that the profile's order asks for.
const TrafficChoices = (() => {
  const { slot } = TrafficCalls;
  const FRAMING = ['content-encoding', 'transfer-encoding', 'content-length'];
  const BESIDE = 60;
  const DIALOG_BESIDE = 250;
  const byTime = (a, b) => a.at - b.at || a.order - b.order;
  const originOf = url => Bytes.place(url)?.origin;

  // ---- replies

  // The bytes of a reply: as they came, or put together where they are coded, not HTTP/1.1, or not in the capture.
  function bytesOf(work, x) {
    const isCoded = Bytes.named(x.replyFields, 'content-encoding').some(value => value.toLowerCase() !== 'identity');
    if (x.replyExact !== undefined && !isCoded) return x.replyExact;
    if (isCoded) work.notes.put('made', 'a reply decoded, without Content-Encoding, Transfer-Encoding and Content-Length', x.url);
    else if (x.protocol && x.protocol !== 'http/1.1') work.notes.put('made', 'a reply over HTTP/2 or 3 written as HTTP/1.1', x.url);
    else work.notes.put('made', 'a reply put together from its fields and its body', x.url);
    if (x.replyBody === undefined && x.bodyCount > 0) work.notes.put('left', 'the body of a reply, which is not in the capture', x.url);
    const fields = (x.replyFields ?? []).filter(([name]) => !name.startsWith(':') && !FRAMING.includes(name.toLowerCase()));
    return `${TrafficPages.statusLine(x.statusLine)}\r\n${Bytes.lines(fields)}\r\n${x.replyBody ?? ''}`;
  }

  function reply(work, x) {
    const isCancelled = /aborted|cancelled/i.test(x.failed ?? '');
    if (x.statusLine === undefined && (isCancelled || !x.failed)) {
      work.notes.put('left', 'the reply of a request that has none in the capture', x.url);
      return;
    }
    if (x.failed && x.statusLine !== undefined) {
      work.notes.put('left', `the rest of a reply that the browser did not read to its end (${x.failed})`, x.url);
    }
    const bytes = x.statusLine === undefined ? '' : bytesOf(work, x);
    const event = { do: 'reply', call: x.call.number, ...x.place ? { provider: x.place } : {}, to: x.kind, ...Bytes.ofEvent(bytes) };
    x.reply = work.push(Math.max(x.end, x.start), event, { call: x.call, x });
  }

  // ---- what the user did

  const requestsOf = (call, kind) => call.providers.flatMap((_, place) => slot(call, place, kind));
  const assertionsOf = call => requestsOf(call, 'assertion').sort((a, b) => a.start - b.start);

  // Where the profile asks for links only after a choice, the reply that came before goes behind it.
  function moveLinks(work, call, place, at) {
    for (const { reply: links } of slot(call, place, 'metadata')) {
      if (!links || links.at > at || links.isMoved) continue;
      Object.assign(links, { at, isMoved: true });
      work.events.push(...work.events.splice(work.events.indexOf(links), 1));
      work.events.forEach((each, order) => { each.order = order; });
      work.notes.put('moved', 'a metadata reply that came before the choice, behind it', links.x.url);
    }
  }

  // `choose` where there are several accounts, `continue` where the account is not connected.
  function decide(work, call, { at, place, account, isOneOfSeveral, isConnected }) {
    const act = { at, account, place, events: [] };
    const base = { call: call.number };
    if (isOneOfSeveral) {
      const event = { do: 'choose', ...base, ...place ? { provider: place } : {}, account };
      act.events.push(work.push(at, event, { call }));
    }
    if (isOneOfSeveral && !isConnected && work.isProfile) moveLinks(work, call, place, at);
    if (!isOneOfSeveral || !isConnected) act.events.push(work.push(at, { do: 'continue', ...base }, { call }));
    call.acts.push(act);
  }

  // The call that shows a dialog: of its tab and between its begin and its result, or by its providers where calls are made up.
  function callOf(work, dialog) {
    const fits = call => {
      if (call.kind !== 'get') return false;
      if (!call.isMade) return call.target === dialog.target && call.order < dialog.order && call.untilOrder > dialog.order;
      const isOfTab = !call.target || !dialog.target || call.target === dialog.target;
      return isOfTab && call.at <= dialog.at + 5 && call.until >= dialog.at && (!call.origin || dialog.accounts.length === 0
        || call.providers.some(({ config }) => dialog.accounts.some(({ idpConfigUrl }) => idpConfigUrl === config)));
    };
    return work.calls.findLast(fits);
  }

  const placeOf = (call, url) => Math.max(0, call.providers.findIndex(({ config }) => config === url));

  // What DevTools did in a dialog.
  function commanded(work, dialog, { does, at, accountIndex, dialogButton }) {
    const { call } = dialog;
    const account = dialog.accounts[accountIndex];
    if (does === 'selectAccount' && account) {
      decide(work, call, { at, place: placeOf(call, account.idpConfigUrl), account: account.accountId,
        isOneOfSeveral: dialog.accounts.length > 1, isConnected: account.loginState === 'SignIn' });
    } else if (does === 'dismissDialog' && dialog.dialogType !== 'Error') {
      work.push(at, { do: 'cancel', call: call.number }, { call });
    } else if (dialogButton === 'ConfirmIdpLoginContinue') {
      work.push(at, { do: 'signin', call: call.number }, { call });
    }
  }

  function dialogs(work) {
    work.dialogs = (work.protocol?.dialogs ?? []).map(each => ({ ...each }));
    for (const dialog of work.dialogs) {
      dialog.call = callOf(work, dialog);
      if (!dialog.call) {
        work.notes.put('left', 'a dialog that belongs to no call', dialog.dialogType);
        continue;
      }
      dialog.call.dialogs.push(dialog);
      const commands = work.protocol.commands.filter(({ dialogId }) => dialogId === dialog.dialogId);
      for (const command of commands) commanded(work, dialog, command);
      dialog.isUnanswered = commands.length === 0 && dialog.dialogType !== 'Error';
    }
    if (work.dialogs.length === 0) work.notes.unseen.add('dialogs');
  }

  // A choice for an assertion request that no seen one stands for: only while a dialog with its account stood, where dialogs are seen.
  function makeUpChoice(work, call, x) {
    const account = x.form.account_id;
    const dialog = call.dialogs.filter(({ at, closedAt, dialogType }) => at <= x.start + DIALOG_BESIDE && dialogType === 'AccountChooser'
      && (closedAt === undefined || closedAt >= x.start - DIALOG_BESIDE)).at(-1);
    const shown = dialog?.accounts.find(({ accountId }) => accountId === account);
    if (work.protocol?.isWatched && !shown) {
      work.notes.put('left', 'a choice, since no dialog with the account of the assertion request stood', x.url);
      return;
    }
    const listed = requestsOf(call, 'accounts').reduce((sum, x) => sum + (Bytes.replyJson(x)?.accounts?.length ?? 0), 0);
    work.notes.put('made', 'a choice, from the account of the assertion request: nobody saw the click', x.url);
    call.isChoiceMade = true;
    decide(work, call, { at: x.start - 0.01, place: x.place, account, isOneOfSeveral: (dialog ? dialog.accounts.length : listed) > 1,
      isConnected: shown ? shown.loginState === 'SignIn' : x.form.disclosure_text_shown !== 'true' });
  }

  function choicesOf(work, call) {
    for (const x of assertionsOf(call)) {
      if (x.form.is_auto_selected === 'true') continue;
      const act = call.acts.find(each => each.account === x.form.account_id && each.at <= x.start + BESIDE && !each.isUsed);
      if (act) act.isUsed = true;
      else makeUpChoice(work, call, x);
    }
    const { error } = call.result ?? {};
    if (!error || error === 'AbortError' || assertionsOf(call).length > 0) return;
    for (const { isUnanswered, dialogType, closedAt, closedOrder } of call.dialogs) {
      const isInTime = closedOrder < call.untilOrder || closedAt <= call.until + BESIDE;
      if (!isUnanswered || dialogType === 'AutoReauthn' || !closedAt || !isInTime) continue;
      work.notes.put('made', 'a cancel: a dialog closed, and the call failed', call.providers[0].config);
      work.push(Math.min(closedAt, call.until), { do: 'cancel', call: call.number }, { call });
    }
  }

  // ---- login windows

  const withoutQuery = url => url.split('?')[0];

  function loginUrls(call) {
    return call.providers.map(({ config }, place) => {
      const value = Bytes.replyJson(slot(call, place, 'config').at(-1));
      return Bytes.isText(value?.login_url) ? Bytes.url(value.login_url, config)?.href : undefined;
    });
  }

  function login(work, id, tab) {
    const urls = [tab.url ?? '', ...tab.urls.map(({ url }) => url)];
    const placeIn = call => loginUrls(call).findIndex(login => login && urls.some(url => withoutQuery(url) === withoutQuery(login)));
    const call = work.calls.findLast(each => each.kind === 'get' && !each.window && each.at <= tab.at && each.until >= tab.at - BESIDE
      && placeIn(each) >= 0);
    if (!call) return;
    const isAsked = call.dialogs.some(each => each.dialogType === 'ConfirmIdpLogin' && each.isUnanswered && each.at < tab.at);
    if (isAsked && !call.events.some(({ event }) => event.do === 'signin')) {
      work.push(tab.at - 0.02, { do: 'signin', call: call.number }, { call });
      work.notes.put('made', 'a signin: the login window opened after the mismatch dialog', call.providers[0].config);
    }
    call.window = id;
    const url = urls.find(each => each !== '' && each !== 'about:blank') ?? '';
    work.records.push({ at: tab.at, cause: () => lastOf(call, tab.at),
      record: { out: 'window', call: call.number, provider: placeIn(call), url } });
    const gone = work.protocol.gone.find(({ target }) => target === id);
    if (gone && gone.at <= call.until + BESIDE && !work.events.some(({ target, event }) => target === id && event.do === 'idpclose')) {
      work.push(gone.at - 0.01, { do: 'shutwindow', call: call.number }, { call });
    }
  }

  // ---- causes

  const lastOf = (call, at) => call.events.filter(each => each.at <= at + 1).sort(byTime).at(-1) ?? call.begin;

  // What made a call go on: a close, or a status of a page of one of its providers; or a load that says the user signed in.
  function resumeOf(work, call, at, after) {
    const isOfProvider = url => call.providers.some(({ config }) => originOf(config) === originOf(url));
    const inTime = each => each.at <= at + 5 && each.at >= after;
    const told = work.events.filter(each => each.resume && inTime(each) && isOfProvider(each.resume)).sort(byTime).at(-1);
    return told ?? work.events.filter(each => each.saysLogin && inTime(each) && isOfProvider(each.event.url)).sort(byTime).at(-1);
  }

  // ---- the profile's order

  function addClose(work, call) {
    const isAgain = x => x.call === call && ['wellknown', 'config', 'accounts'].includes(x.kind)
      && slot(call, x.place, x.kind).indexOf(x) > 0;
    const again = work.fed.filter(isAgain).sort((a, b) => a.start - b.start)[0];
    const first = slot(call, 0, 'accounts')[0];
    const resume = again && first && resumeOf(work, call, again.start, first.start);
    if (!resume || resume.event.do === 'idpclose') return;
    const { config } = call.providers[0];
    const isClosed = work.events.some(each => each.event.do === 'idpclose' && each.at >= first.start && each.at <= again.start + 5
      && originOf(each.resume) === originOf(config));
    if (isClosed) return;
    work.push(resume.at + 0.001, { do: 'idpclose', page: resume.event.page }, { resume: config });
    work.notes.put('made', 'an idpclose: the browser went on when the status turned to logged-in', config);
  }

  function addAbort(work, call) {
    const next = work.calls.some(each => each !== call && each.kind === 'get' && each.page === call.page && each.at > call.until);
    if (!next || !call.result?.error || call.result.error === 'AbortError' || assertionsOf(call).length > 0) return;
    const isTold = call.events.some(({ event }) => ['cancel', 'abort', 'shutwindow'].includes(event.do));
    const isGood = x => !x.reply || !x.failed && TrafficPages.statusOf(x) >= 200 && TrafficPages.statusOf(x) < 300;
    if (isTold || !work.fed.every(x => x.call !== call || isGood(x))) return;
    work.push(call.until, { do: 'abort', call: call.number }, { call });
    work.notes.put('made', 'an abort: a get failed for a reason that no line has, and the page called again', call.providers[0].config);
  }

  function place(work) {
    for (const x of work.fed) if (x.call) reply(work, x);
    dialogs(work);
    for (const call of work.calls) choicesOf(work, call);
    for (const [id, tab] of work.protocol?.targets ?? []) if (tab.type === 'page') login(work, id, tab);
    if (!work.isProfile) return;
    for (const call of work.calls) {
      if (call.kind !== 'get') continue;
      addClose(work, call);
      addAbort(work, call);
    }
  }

  return { place, lastOf, resumeOf, byTime, placeOf, requestsOf, assertionsOf };
})();
