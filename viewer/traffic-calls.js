'use strict';

// The calls of a capture: as the recorder's script in the pages told them, else made up from requests; and which call, provider and kind
// each request belongs to.
const TrafficCalls = (() => {
  const { isText, isObject } = Bytes;
  const WELL_KNOWN = '/.well-known/web-identity';
  const CONTEXTS = ['signin', 'signup', 'use', 'continue'];
  const MEDIATIONS = ['silent', 'optional', 'required'];
  const MOST_PROVIDERS = 10;
  const BESIDE = 60;
  const PAIR = 1500;
  const ENDPOINTS = ['accounts_endpoint', 'client_metadata_endpoint', 'id_assertion_endpoint', 'disconnect_endpoint'];
  const KNOWN = ['configURL', 'clientId', 'nonce', 'loginHint', 'domainHint', 'params'];

  const textOf = value => ['string', 'number', 'boolean'].includes(typeof value) ? String(value) : undefined;
  const oneOf = (value, words) => words.includes(value) ? value : undefined;
  const isWeb = url => url !== undefined && /^https?:$/.test(url.protocol) && !url.username && !url.password;
  const isBelow = (host, domain) => host === domain || host.endsWith('.' + domain);

  const origins = new WeakMap();

  // The Origin field of a request, looked for once.
  function originOf(x) {
    if (!origins.has(x)) origins.set(x, Bytes.named(x.requestFields, 'origin')[0]);
    return origins.get(x);
  }

  // Whether an origin or URL is of a site, as a NetLog writes it.
  function isOfSite(site, text) {
    const one = Bytes.place(site);
    const other = Bytes.place(text);
    return Boolean(one && other) && one.protocol === other.protocol && isBelow(other.hostname, one.hostname);
  }

  function slot(call, place, kind) {
    const key = `${place} ${kind}`;
    if (!call.slots.has(key)) call.slots.set(key, []);
    return call.slots.get(key);
  }

  function providerOf(options, base) {
    const url = isObject(options) && isText(options.configURL) ? Bytes.url(options.configURL, base) : undefined;
    if (!isWeb(url)) return undefined;
    const { params } = options;
    return { config: url.href, client: textOf(options.clientId) ?? '', nonce: textOf(options.nonce),
      login_hint: textOf(options.loginHint) || undefined, domain_hint: textOf(options.domainHint) || undefined,
      params: params === undefined || params === null ? undefined : Bytes.written(params) };
  }

  const emptyCall = (work, more) => ({ number: work.calls.length + 1, until: Infinity, untilOrder: Infinity, slots: new Map(), dialogs: [],
    acts: [], events: [], ...more });

  // ---- as told

  function get(work, told, page) {
    const identity = isObject(told.options?.identity) ? told.options.identity : {};
    const list = Array.isArray(identity.providers) ? identity.providers : [];
    const providers = list.map(each => providerOf(each, told.url));
    if (list.length === 0 || list.length > MOST_PROVIDERS || providers.includes(undefined)) {
      work.notes.put('left', 'a get that the profile cannot read', `${told.url}, ${list.length} providers`);
      return undefined;
    }
    for (const name of new Set(list.flatMap(Object.keys).filter(each => !KNOWN.includes(each)))) {
      work.notes.put('left', 'a member of a provider that the profile does not have', name);
    }
    const { mediation } = told.options;
    if (mediation === 'conditional') work.notes.put('left', 'mediation `conditional`, which the profile does not have', told.url);
    const isActive = ['active', 'button'].includes(identity.mode);
    const options = { mediation: oneOf(mediation, MEDIATIONS), mode: isActive ? 'active' : undefined,
      activation: told.activation === true ? true : undefined, context: oneOf(identity.context, CONTEXTS) };
    const call = callOf(work, told, { kind: 'get', page, providers, options });
    const event = { do: 'get', page, call: call.number, ...Bytes.sorted(options), providers: providers.map(Bytes.sorted) };
    call.begin = work.push(call.at, event, { call });
    return call;
  }

  function disconnect(work, told, page) {
    const provider = providerOf(told.options, told.url);
    if (!provider) {
      work.notes.put('left', 'a disconnect that the profile cannot read', told.url);
      return undefined;
    }
    const { config, client } = provider;
    const hint = textOf(told.options.accountHint) ?? '';
    const call = callOf(work, told, { kind: 'disconnect', page, providers: [provider] });
    call.begin = work.push(call.at, { do: 'disconnect', page, call: call.number, config, client, hint }, { call });
    return call;
  }

  const callOf = (work, told, more) => emptyCall(work, { key: `${told.target} ${told.call}`, at: told.at, order: told.order,
    target: told.target, origin: new URL(told.url).origin, ...more });

  function toldCall(work, told, page) {
    if (page === undefined) {
      work.notes.put('left', 'a call of a page whose load is not in the capture', told.url);
      return;
    }
    const call = told.what === 'get' ? get(work, told, page) : disconnect(work, told, page);
    if (call) work.calls.push(call);
  }

  function toldMore(work, told, page) {
    const call = work.calls.findLast(each => each.key === `${told.target} ${told.call}`);
    const resume = { resume: told.url, target: told.target };
    if (told.what === 'result' && call) Object.assign(call, { until: told.at, untilOrder: told.order, result: told });
    else if (told.what === 'abort' && call && !(call.until < told.at)) work.push(told.at, { do: 'abort', call: call.number }, { call });
    if (page === undefined) return;
    if (told.what === 'idpclose') work.push(told.at, { do: 'idpclose', page }, resume);
    else if (told.what === 'prevent') work.push(told.at, { do: 'prevent', page });
    else if (told.what === 'setstatus' && /^logged-(?:in|out)$/.test(told.status ?? '')) {
      work.push(told.at, { do: 'setstatus', page, status: told.status }, resume);
    }
  }

  function asTold(work) {
    for (const told of work.protocol.told) {
      const page = work.pages.get(told.target);
      if (['get', 'disconnect'].includes(told.what)) toldCall(work, told, page);
      else toldMore(work, told, page);
    }
  }

  // ---- made up

  // A configuration request begins a call, with the well-known request beside it.
  function begun(work, x, paired) {
    const url = Bytes.place(x.url);
    if (x.method !== 'GET' || url.pathname === WELL_KNOWN || originOf(x)) return;
    const file = work.fed.find(w => Math.abs(w.start - x.start) < PAIR && !paired.has(w) && Bytes.place(w.url).pathname === WELL_KNOWN
      && isBelow(url.hostname, Bytes.place(w.url).hostname));
    const value = file && Bytes.replyJson(x);
    const looksLikeAccounts = isObject(value) && value.accounts !== undefined && value.accounts_endpoint === undefined
      && value.id_assertion_endpoint === undefined;
    if (!file || looksLikeAccounts) return;
    paired.add(file);
    const site = (x.isolation ?? '').split(' ')[0];
    work.calls.push(emptyCall(work, { at: Math.min(file.start, x.start), order: 0, kind: 'get', isMade: true, site, target: x.target,
      providers: [{ config: x.url, client: '' }] }));
  }

  // What later requests tell of a call, until the next call of the page's site begins.
  function tellMore(work, call, at) {
    const [provider] = call.providers;
    const isHttp = /^https?:/.test(call.site);
    const { origin } = Bytes.place(provider.config);
    const next = work.calls.find((each, place) => place > at && each.site === call.site && (!call.target || call.target === each.target)
      && each.providers[0].config === provider.config);
    const mine = work.fed.filter(x => x.start >= call.at - 1 && (!x.target || !call.target || x.target === call.target)
      && (!next || x.start < next.at - 1) && Bytes.place(x.url).origin === origin);
    const said = mine.map(x => originOf(x) ?? x.initiator).find(each => each && (!isHttp || isOfSite(call.site, each)));
    const post = mine.find(({ method }) => method === 'POST');
    const links = mine.find(x => x.method === 'GET' && originOf(x));
    const form = post ? formOf(post) : {};
    provider.client = form.client_id ?? (links && new URL(links.url).searchParams.get('client_id')) ?? '';
    if (!post && !links) work.notes.put('made', 'an empty client, where no request names one', provider.config);
    Object.assign(provider, { nonce: form.nonce, params: form.params });
    if (form.account_hint !== undefined) call.kind = 'disconnect';
    if (form.mode === 'active') call.options = { mode: 'active', activation: true };
    call.until = next ? next.at - 1 : Infinity;
    return { said, hint: form.account_hint };
  }

  // The load of the page that made a call: of its tab, of its origin, of its site, or of another origin than the provider's.
  function loadOf(work, loads, call, said) {
    if (call.target && work.pages.has(call.target)) {
      const own = loads.findLast(({ event, at }) => event.page === work.pages.get(call.target) && at <= call.at + 50);
      if (own) return own;
    }
    const fits = ({ event }) => {
      if (said) return Bytes.place(event.url).origin === said;
      if (/^https?:/.test(call.site)) return isOfSite(call.site, event.url);
      return Bytes.place(event.url).origin !== Bytes.place(call.providers[0].config).origin;
    };
    return loads.findLast(each => each.at <= call.at + 5 && fits(each));
  }

  function makeUp(work) {
    const paired = new Set();
    for (const x of work.fed) begun(work, x, paired);
    const loads = work.events.filter(({ event }) => event.do === 'load' && event.page < TrafficPages.CARRIER);
    work.calls.forEach((call, at) => {
      const { said, hint } = tellMore(work, call, at);
      const load = loadOf(work, loads, call, said);
      call.origin = said ?? (load && new URL(load.event.url).origin);
      const [provider] = call.providers;
      work.notes.put('made', 'a call, from its requests', provider.config);
      call.page = load ? load.event.page : work.pageNumber(`call ${call.number}`);
      if (!load) {
        work.notes.put('made', 'a page without a reply, for a call whose page is not in the capture', provider.config);
        work.push(call.at - 0.5, { do: 'load', page: call.page, url: (call.origin ?? 'https://unknown.invalid') + '/' });
      }
      const base = { page: call.page, call: call.number };
      const event = call.kind === 'get' ? { do: 'get', ...base, ...call.options, providers: [Bytes.sorted(provider)] }
        : { do: 'disconnect', ...base, config: provider.config, client: provider.client, hint };
      call.begin = work.push(call.at, event, { call });
    });
  }

  // ---- requests

  function bodyOf({ requestBody, requestExact, frameBody }) {
    if (requestBody !== undefined && requestBody !== null) return requestBody;
    return requestExact ? requestExact.slice(requestExact.indexOf('\r\n\r\n') + 4) : frameBody;
  }

  const forms = new WeakMap();

  // The members of a request's form, read once.
  function formOf(x) {
    if (!forms.has(x)) forms.set(x, Bytes.form(x.method === 'POST' ? bodyOf(x) : undefined));
    return forms.get(x);
  }

  const endpoints = new WeakMap();

  // The URLs of the endpoints that the reply for a configuration names, read once.
  function endpointsOf(exchange, config) {
    if (endpoints.get(exchange)?.config !== config) {
      const value = Bytes.replyJson(exchange);
      const named = ENDPOINTS.filter(name => isText(value?.[name]));
      const urls = named.map(name => [name, Bytes.plain(Bytes.url(value[name], config)?.href ?? '')]);
      endpoints.set(exchange, { config, urls: Object.fromEntries(urls) });
    }
    return endpoints.get(exchange).urls;
  }

  // Whether a request can be of a call, by its tab, its origin, and the site for which the browser sent it.
  function canBeOf(call, x, origin) {
    if (x.start < call.at - BESIDE || x.start > call.until + BESIDE) return false;
    if (x.target && call.target && x.target !== call.target) return false;
    if (!call.origin) return true;
    if (origin || x.initiator) return (origin ?? x.initiator) === call.origin;
    const [top] = (x.isolation ?? '').split(' ');
    return !(/^https?:/.test(top) && x.isolation.includes('fedcm uncredentialed')) || isOfSite(top, call.origin + '/');
  }

  // Which kind of request of a call to one of its providers it is, if any.
  function kindOf(call, place, x, { url, href, origin, form }) {
    const provider = call.providers[place];
    const config = slot(call, place, 'config').at(-1);
    const endpoint = name => config && endpointsOf(config, provider.config)[name];
    const isClient = client => call.isMade || client === provider.client;
    if (x.method === 'GET' && !origin) {
      if (url.pathname === WELL_KNOWN && isBelow(Bytes.place(provider.config).hostname, url.hostname)) return 'wellknown';
      if (href === Bytes.plain(provider.config)) return 'config';
      return href === endpoint('accounts_endpoint') ? 'accounts' : undefined;
    }
    if (x.method === 'GET') {
      const links = (endpoint('client_metadata_endpoint') ?? '').split('?')[0];
      return url.origin + url.pathname === links && isClient(url.searchParams.get('client_id')) ? 'metadata' : undefined;
    }
    const isOf = (name, member) => x.method === 'POST' && href === endpoint(name) && form[member] !== undefined;
    if (call.kind === 'disconnect') return isOf('disconnect_endpoint', 'account_hint') ? 'disconnect' : undefined;
    return isOf('id_assertion_endpoint', 'account_id') && isClient(form.client_id) ? 'assertion' : undefined;
  }

  function findCall(work, x) {
    const origin = originOf(x);
    const url = new URL(x.url);
    const read = { url, href: Bytes.plain(url.href), origin, form: x.form };
    const found = [];
    for (const call of work.calls) {
      if (!canBeOf(call, x, origin)) continue;
      call.providers.forEach((_, place) => {
        const kind = kindOf(call, place, x, read);
        const fits = kind && (call.kind === 'get' || ['wellknown', 'config', 'disconnect'].includes(kind));
        if (!fits) return;
        const outside = x.start < call.at - 5 ? call.at - x.start : Math.max(0, x.start - call.until);
        found.push({ call, place, kind, filled: slot(call, place, kind).length, outside });
      });
    }
    found.sort((a, b) => (a.outside > 0) - (b.outside > 0) || a.filled - b.filled || a.outside - b.outside || a.call.at - b.call.at);
    return found;
  }

  function attribute(work) {
    work.leftOver = [];
    for (const x of work.fed) {
      const body = x.method === 'POST' ? bodyOf(x) : undefined;
      if (x.method === 'POST' && !body) work.notes.put('left', 'the body of a POST, which is not in the capture', x.url);
      x.form = formOf(x);
      const [first, second] = findCall(work, x);
      if (!first) {
        work.leftOver.push(x);
        work.notes.put('left', 'a FedCM request that belongs to no call', `${x.method} ${x.url}`);
        continue;
      }
      if (second && second.call !== first.call && second.filled === first.filled && first.outside === 0 && second.outside === 0) {
        work.notes.put('made', 'the call of a request that two calls may have sent: the earlier', x.url);
      }
      Object.assign(x, { call: first.call, place: first.place, kind: first.kind });
      slot(first.call, first.place, first.kind).push(x);
    }
  }

  function find(work) {
    if (work.protocol?.told.length > 0) {
      asTold(work);
    } else {
      work.isMade = true;
      work.notes.unseen.add('calls, their options and results: no recorder was in the page');
      makeUp(work);
    }
    attribute(work);
  }

  return { find, slot, bodyOf, originOf };
})();
