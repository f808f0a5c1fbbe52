'use strict';

// Reads a DevTools protocol log as viewer/record writes it: lines {t, d, m} with the time in milliseconds since 1970, `<` from the browser
// or `>` to it, and the message.
const ProtocolLog = (() => {
  const { isText, isNumber, isTruth, isObject, isTable, isTime } = Bytes;
  const BINDING = '__fedcmTell';
  const DAY = 86400000;
  const DIALOG_DOES = /^FedCm\.(selectAccount|clickDialogButton|dismissDialog)$/;

  const isList = test => value => Array.isArray(value) && value.every(test);
  const REQUEST = { url: isText, method: isText, headers: isTable, 'postData?': isText, 'hasPostData?': isTruth };
  const RESPONSE = { status: isNumber, 'statusText?': isText, headers: isTable, 'protocol?': isText };
  const TARGET = { targetId: isText, 'type?': isText, 'url?': isText };
  const ACCOUNT = { accountId: isText, 'email?': isText, 'name?': isText, 'givenName?': isText, 'pictureUrl?': isText,
    'idpConfigUrl?': isText, 'loginState?': isText, 'termsOfServiceUrl?': isText, 'privacyPolicyUrl?': isText };
  const isAccount = value => Bytes.wrong(value, ACCOUNT) === undefined;
  const isBlocked = value => Bytes.wrong(value, { 'cookie?': { 'name?': isText } }) === undefined;

  // The events of the browser that are read, with the kinds of their members.
  const EVENTS = {
    'Target.attachedToTarget': { sessionId: isText, targetInfo: { targetId: isText } },
    'Target.targetCreated': { targetInfo: TARGET }, 'Target.targetInfoChanged': { targetInfo: TARGET },
    'Target.targetDestroyed': { targetId: isText },
    'FedCm.dialogShown': { dialogId: isText, dialogType: isText, accounts: isList(isAccount) },
    'FedCm.dialogClosed': { dialogId: isText },
    'Runtime.bindingCalled': { name: isText, payload: isText },
    'Network.requestWillBeSent': { requestId: isText, request: REQUEST, 'type?': isText, 'frameId?': isText, 'wallTime?': isTime,
      'redirectResponse?': RESPONSE },
    'Network.requestWillBeSentExtraInfo': { requestId: isText, headers: isTable },
    'Network.responseReceived': { requestId: isText, response: RESPONSE },
    'Network.responseReceivedExtraInfo': { requestId: isText, headers: isTable, 'headersText?': isText,
      'blockedCookies?': isList(isBlocked) },
    'Network.loadingFinished': { requestId: isText },
    'Network.loadingFailed': { requestId: isText, 'errorText?': isText },
  };
  // The commands that are read, with the kinds of their parameters and of what they were answered.
  const COMMANDS = {
    'FedCm.enable': [{}, {}], 'FedCm.selectAccount': [{ dialogId: isText, accountIndex: isNumber }, {}],
    'FedCm.clickDialogButton': [{ dialogId: isText, dialogButton: isText }, {}], 'FedCm.dismissDialog': [{ dialogId: isText }, {}],
    'Target.attachToTarget': [{ targetId: isText }, { sessionId: isText }],
    'Network.getResponseBody': [{ requestId: isText }, { body: isText, 'base64Encoded?': isTruth }],
    'Storage.getCookies': [{}, { cookies: isList(isObject) }],
  };
  const TOLD = { what: isText, 'at?': isTime, 'url?': isText, 'call?': isText, 'options?': isObject, 'activation?': isTruth,
    'status?': isText, 'error?': isText };

  // Fields of a table, where several values of one name stand in one text.
  const fieldsOf = table => Object.entries(table).flatMap(([name, value]) => value.split('\n').map(each => [name, each]));

  class Reader {
    constructor(notes) {
      Object.assign(this, { notes, exchanges: [], told: [], dialogs: [], commands: [], targets: new Map(), gone: [],
        startCookies: undefined, isWatched: false, first: undefined });
      this.sessions = new Map();
      this.asked = new Map();
      this.byId = new Map();
    }

    lost(order, name, member) {
      const words = 'a message of the DevTools log that cannot be read';
      this.notes.put('left', name ? `${words} (${name})` : words, `line ${order}, member ${member}`);
    }

    line(text, order) {
      if (text.trim() === '') return;
      const value = Bytes.parsed(text);
      if (value === undefined) {
        this.notes.put('left', 'a line of the DevTools log that is no JSON', `line ${order}`);
        return;
      }
      const wrong = Bytes.wrong(value, { t: isTime, d: isText });
      if (wrong) this.lost(order, '', wrong);
      else if (value.d !== '#') this.message(value, order);
      this.first ??= wrong ? undefined : Number(value.t);
    }

    message({ t, d, m }, order) {
      const wrong = Bytes.wrong(m, { 'id?': isNumber, 'method?': isText, 'params?': isObject, 'sessionId?': isText, 'result?': isObject });
      const at = Number(t);
      if (wrong) this.lost(order, '', `m.${wrong}`);
      else if (d === '>') this.command(m, at, order);
      else if (m.id !== undefined && m.id !== null) this.answer(m, order);
      else if (m.method === undefined) this.lost(order, '', 'm.method');
      else this.event(m, at, order);
    }

    command(m, at, order) {
      if (!isText(m.method) || !Object.hasOwn(COMMANDS, m.method)) return;
      const params = m.params ?? {};
      const wrong = Bytes.wrong(params, COMMANDS[m.method][0]);
      if (wrong) {
        this.lost(order, m.method, wrong);
        return;
      }
      if (m.method === 'FedCm.enable') this.isWatched = true;
      this.asked.set(m.id, { at, params, method: m.method, sessionId: m.sessionId });
      const does = DIALOG_DOES.exec(m.method)?.[1];
      if (does) this.commands.push({ at, id: m.id, does, ...params });
    }

    answer(m, order) {
      const asked = this.asked.get(m.id);
      if (!asked) return;
      if (m.error) {
        this.commands = this.commands.filter(({ id }) => id !== m.id);
        return;
      }
      const result = m.result ?? {};
      const wrong = Bytes.wrong(result, COMMANDS[asked.method][1]);
      if (wrong) this.lost(order, asked.method, wrong);
      else if (asked.method === 'Target.attachToTarget') this.sessions.set(result.sessionId, asked.params.targetId);
      else if (asked.method === 'Network.getResponseBody') this.replyBody(asked, result, order);
      else if (asked.method === 'Storage.getCookies') this.cookies(asked, result);
    }

    replyBody({ sessionId, params }, { body, base64Encoded }, order) {
      const bytes = base64Encoded ? Bytes.decoded(body) : Bytes.ofText(body);
      const exchange = this.byId.get(`${sessionId} ${params.requestId}`);
      if (bytes === undefined) this.lost(order, 'Network.getResponseBody', 'body');
      else if (exchange) exchange.replyBody = bytes;
    }

    // The cookies from before: those that were asked for before the first page.
    cookies({ at }, { cookies }) {
      if (this.startCookies === undefined && !this.exchanges.some(({ isMain }) => isMain)) this.startCookies = { at, cookies };
    }

    event({ method, params = {}, sessionId }, at, order) {
      if (!Object.hasOwn(EVENTS, method)) return;
      const wrong = Bytes.wrong(params, EVENTS[method]);
      const own = { at, order, target: this.sessions.get(sessionId), key: `${sessionId} ${params?.requestId}` };
      if (wrong) this.lost(order, method, wrong);
      else if (method.startsWith('Target.')) this.target(method, params, at);
      else if (method === 'FedCm.dialogShown') this.dialogs.push({ ...params, ...own });
      else if (method === 'FedCm.dialogClosed') this.closed(params, own);
      else if (method === 'Runtime.bindingCalled') this.page(params, own);
      else if (method === 'Network.requestWillBeSent') this.request(params, own);
      else this.more(method, params, own, this.byId.get(own.key));
    }

    target(method, { sessionId, targetInfo, targetId }, at) {
      if (method === 'Target.attachedToTarget') this.sessions.set(sessionId, targetInfo.targetId);
      else if (method === 'Target.targetCreated') this.targets.set(targetInfo.targetId, { ...targetInfo, at, urls: [] });
      else if (method === 'Target.targetDestroyed') this.gone.push({ at, target: targetId });
      else this.targets.get(targetInfo.targetId)?.urls.push({ at, url: targetInfo.url ?? '' });
    }

    closed({ dialogId }, { at, order, target }) {
      const dialog = this.dialogs.findLast(each => each.dialogId === dialogId && each.target === target);
      if (dialog) Object.assign(dialog, { closedAt: at, closedOrder: order });
    }

    // What the recorder's script in a page told; a page can tell through it whatever it likes.
    page({ name, payload }, own) {
      if (name !== BINDING) return;
      const told = Bytes.parsed(payload);
      const isPlaced = /^https?:/.test(Bytes.url(told?.url ?? '')?.origin ?? '') || told?.what === 'result';
      const wrong = Bytes.wrong(told, TOLD) ?? (isPlaced ? undefined : 'url');
      if (wrong) {
        this.lost(own.order, 'what a page told', wrong);
        return;
      }
      const at = Math.abs(Number(told.at ?? own.at) - own.at) < DAY ? Number(told.at ?? own.at) : own.at;
      this.told.push({ ...told, ...own, at });
    }

    request(p, { at, target, key }) {
      const old = this.byId.get(key);
      if (p.redirectResponse && old) {
        this.reply(old, p.redirectResponse, at);
        old.end = at;
      }
      const { url, method, headers, postData, hasPostData } = p.request;
      if (!Bytes.url(url)) {
        this.notes.put('left', 'a request of the DevTools log whose URL cannot be read', url);
        return;
      }
      const body = postData !== undefined && postData !== null ? Bytes.ofText(postData) : hasPostData ? undefined : '';
      const exchange = { from: 'protocol', id: key, url, method, start: p.wallTime ? p.wallTime * 1000 : at, target, requestType: p.type,
        isMain: p.type === 'Document' && p.frameId === target, requestFields: Object.entries(headers), requestBody: body, blocked: [] };
      this.byId.set(key, exchange);
      this.exchanges.push(exchange);
    }

    more(method, p, { at }, exchange) {
      if (!exchange) return;
      if (method === 'Network.requestWillBeSentExtraInfo') exchange.requestFields = Object.entries(p.headers);
      else if (method === 'Network.responseReceived') this.reply(exchange, p.response, at);
      else if (method === 'Network.responseReceivedExtraInfo') this.wholeHead(exchange, p);
      else exchange.end = at;
      if (method === 'Network.loadingFailed') exchange.failed = p.errorText ?? 'failed';
    }

    reply(exchange, { status, statusText, headers, protocol }, at) {
      Object.assign(exchange, { protocol, headAt: at, statusLine: `HTTP/1.1 ${status} ${statusText ?? ''}`.trimEnd(),
        replyFields: fieldsOf(headers) });
    }

    wholeHead(exchange, { headers, headersText, blockedCookies }) {
      exchange.wholeFields = fieldsOf(headers);
      exchange.headText = headersText ?? undefined;
      exchange.blocked = (blockedCookies ?? []).map(({ cookie }) => cookie?.name);
    }

    finish() {
      for (const exchange of this.exchanges) {
        const lines = (exchange.headText ?? '').split('\r\n').filter(line => line !== '');
        if (lines.length > 0) [exchange.statusLine, exchange.replyFields] = [lines[0], lines.slice(1).map(Bytes.splitField)];
        else if (exchange.replyFields && exchange.wholeFields) exchange.replyFields = exchange.wholeFields;
        exchange.end ??= exchange.headAt ?? exchange.start;
      }
      return this;
    }
  }

  function read(text, notes) {
    const reader = new Reader(notes);
    text.split('\n').forEach((line, at) => reader.line(line, at + 1));
    return reader.finish();
  }

  // Whether a text is such a log, by its first line.
  const isLog = text => {
    const first = Bytes.parsed(text.slice(0, text.indexOf('\n') + 1 || undefined));
    return isObject(first) && first.t !== undefined && isText(first.d);
  };

  return { read, isLog };
})();
