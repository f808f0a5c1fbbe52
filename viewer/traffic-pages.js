'use strict';

// The first half of a conversion: the requests of the capture in one list, the pages that loaded, and the cookies that came otherwise.
const TrafficPages = (() => {
  const NEAR = 3000;
  const TAB_BEFORE = 500;
  const COOKIE_NEAR = 2000;
  const CARRIER = 4000000000;
  const SAME_SITE = { none: 'None', lax: 'Lax', strict: 'Strict' };

  const isFed = ({ requestFields, requestType }) => Bytes.named(requestFields, 'sec-fetch-dest').includes('webidentity')
    || /^fedcm$/i.test(requestType ?? '');
  const statusLine = text => text.replace(/^HTTP\/(?!1\.[01] )\S+ /, 'HTTP/1.1 ');
  const statusOf = ({ statusLine: line }) => Number(line?.split(' ')[1]);
  const nearest = (list, { start }) => list.filter(each => Math.abs(each.start - start) < NEAR)
    .sort((a, b) => Math.abs(a.start - start) - Math.abs(b.start - start))[0];

  // What one conversion works on. Events have a time and a place among those of one time; lines come last.
  class Work {
    constructor(sources, options, notes) {
      const { netlog, protocol, har } = sources;
      Object.assign(this, { netlog, protocol, har, options, notes, events: [], have: [], calls: [], records: [], pages: new Map() });
      this.isProfile = options.order === 'profile';
      const hasFed = each => each?.exchanges.some(isFed);
      const first = netlog ?? (hasFed(protocol) ? protocol : har) ?? protocol;
      const isSeen = each => /^https?:/.test(each.url) && (each.statusLine !== undefined || each.requestFields !== undefined);
      this.all = first.exchanges.filter(isSeen).map(each => ({ ...each })).sort((a, b) => a.start - b.start);
      this.fed = this.all.filter(isFed);
      this.fedSet = new Set(this.fed);
      this.second = netlog ? protocol ?? har : first === protocol ? har : undefined;
      this.matched = new Set();
      this.carrier = CARRIER;
    }

    push(at, event, more = {}) {
      const entry = { at, order: this.events.length, event, ...more };
      this.events.push(entry);
      more.call?.events.push(entry);
      return entry;
    }

    pageNumber(key) {
      if (!this.pages.has(key)) this.pages.set(key, this.pages.size + 1);
      return this.pages.get(key);
    }

    // A load that carries cookies, of a page that nothing else uses.
    carry(at, url, cookies) {
      const bytes = `HTTP/1.1 200 OK\r\n${cookies.map(each => `Set-Cookie: ${each}\r\n`).join('')}\r\n`;
      this.push(at, { do: 'load', page: this.carrier, url, ...Bytes.ofEvent(bytes) });
      this.push(at, { do: 'closepage', page: this.carrier });
      this.carrier += 1;
    }
  }

  // The same request as the second source saw it: its tab, and bodies that the first lacks.
  function match(work) {
    if (!work.second) return;
    const seen = work.second.exchanges.filter(isFed);
    for (const own of work.fed) {
      const free = seen.filter(each => each.url === own.url && each.method === own.method && !work.matched.has(each));
      const other = nearest(free, own);
      if (!other) {
        work.notes.put('left', 'the tab of a FedCM request that the second recording lacks', own.url);
        continue;
      }
      work.matched.add(other);
      own.target = other.target;
      if (own.requestExact === undefined && own.frameBody === undefined) own.requestBody ??= other.requestBody;
      own.replyBody ??= other.replyBody;
    }
    for (const other of seen) {
      if (!work.matched.has(other)) work.notes.put('left', 'a FedCM request that the NetLog lacks', `${other.method} ${other.url}`);
    }
    work.lacking = seen.length - work.matched.size;
  }

  // The tab of a load: by the document of the DevTools log, or by the address that a tab showed then.
  function tabOf(work, load, documents) {
    const same = documents.filter(each => !work.matched.has(each) && Bytes.plain(each.url) === Bytes.plain(load.url));
    const document = nearest(same, load);
    if (document) {
      work.matched.add(document);
      return document.target;
    }
    if (!work.protocol || load.from !== 'netlog') return undefined;
    const shown = [...work.protocol.targets].flatMap(([id, { at, url, urls }]) => [{ at, url: url ?? '' }, ...urls]
      .map(each => ({ id, ...each })));
    return shown.filter(({ at, url }) => Bytes.plain(url) === Bytes.plain(load.url) && at >= load.start - TAB_BEFORE
      && at <= load.end + NEAR).sort((a, b) => Math.abs(a.at - load.start) - Math.abs(b.at - load.start))[0]?.id;
  }

  function headOf({ statusLine: line, replyFields }) {
    return Bytes.ofEvent(`${statusLine(line)}\r\n${Bytes.lines((replyFields ?? []).filter(([name]) => !name.startsWith(':')))}\r\n`);
  }

  function load(work, own, documents) {
    const { notes } = work;
    own.target ??= tabOf(work, own, documents);
    if (own.target === undefined) {
      notes.put('made', own.pageref ? 'a page for a load of the HAR' : 'a page of its own for a load whose tab is not known', own.url);
    }
    own.page = work.pageNumber(own.target ?? own.pageref ?? `load ${own.id}`);
    if (own.statusLine === undefined) {
      notes.put('left', 'a load that got no reply', own.url);
    } else if ([204, 205].includes(statusOf(own))) {
      notes.put('left', 'a load with status 204 or 205, after which the page stays', own.url);
    } else {
      const saysLogin = Bytes.named(own.replyFields, 'set-login').length > 0;
      work.push(own.headAt ?? own.end, { do: 'load', page: own.page, url: own.url, ...headOf(own) }, { load: own, saysLogin });
    }
  }

  function loads(work) {
    const { protocol, notes } = work;
    const documents = protocol ? protocol.exchanges.filter(({ isMain }) => isMain) : [];
    for (const own of work.all) if (own.isMain && !work.fedSet.has(own)) load(work, own, documents);
    if (!protocol) {
      notes.unseen.add('which pages were closed');
      return;
    }
    for (const { at, target } of protocol.gone) {
      if (work.pages.has(target)) work.push(at, { do: 'closepage', page: work.pages.get(target) });
    }
    if (!work.netlog) return;
    for (const each of documents) {
      if (!work.matched.has(each)) notes.put('left', 'a document of the DevTools log that the NetLog lacks (of a cache?)', each.url);
    }
  }

  // Cookies of replies that are no page load: a load of a page of its own carries those that the browser stored.
  function otherCookies(work) {
    for (const own of work.all) {
      const isFedReply = work.fedSet.has(own);
      const set = own.isMain && !isFedReply ? [] : Bytes.named(own.replyFields, 'set-cookie');
      if (set.length === 0) continue;
      const isStored = text => {
        const name = text.split('=')[0].trim();
        return own.from === 'netlog' && work.netlog.hasValues ? own.stored.includes(name) : !(own.blocked ?? []).includes(name);
      };
      const kept = set.filter(isStored);
      if (isFedReply) {
        const words = 'Set-Cookie of a FedCM reply, which the profile does not store';
        work.notes.put('left', kept.length > 0 ? words + ', and the browser did' : words, own.url);
        continue;
      }
      const use = kept.filter(text => !/;\s*partitioned/i.test(text));
      if (use.length < set.length) work.notes.put('left', 'a cookie that was blocked or is partitioned', own.url);
      if (use.length === 0) continue;
      work.notes.put('made', 'a load of a page of its own, which carries the cookies of a reply that is no page load', own.url);
      work.carry(own.headAt ?? own.end, own.url, use);
    }
  }

  // The place of the first of sorted numbers that is greater.
  function firstAfter(numbers, bound) {
    let low = 0;
    for (let high = numbers.length; low < high;) {
      const middle = (low + high) >> 1;
      if (numbers[middle] > bound) high = middle;
      else low = middle + 1;
    }
    return low;
  }

  // Cookies that no reply set: those of scripts.
  function scriptCookies(work) {
    if (!work.netlog?.hasValues) return;
    const set = new Map();
    for (const own of work.all) {
      for (const text of Bytes.named(own.replyFields, 'set-cookie')) {
        const key = text.split(';')[0].split('=').map(part => part.trim()).join('=');
        if (!set.has(key)) set.set(key, []);
        set.get(key).push(own.headAt ?? own.end);
      }
    }
    for (const times of set.values()) times.sort((a, b) => a - b);
    const used = new Set(work.all.flatMap(({ url }) => TrafficRules.above(Bytes.place(url).hostname)));
    for (const cookie of work.netlog.cookieWrites) {
      const times = set.get(`${cookie.name}=${cookie.value}`) ?? [];
      const found = firstAfter(times, cookie.at - COOKIE_NEAR);
      if (times[found] < cookie.at + COOKIE_NEAR) times.splice(found, 1);
      else if (used.has(cookie.domain.replace(/^\./, ''))) scriptCookie(work, cookie);
    }
  }

  const attributes = ({ path, domain, secure }) => `; Path=${path}${domain.startsWith('.') ? `; Domain=${domain.slice(1)}` : ''}`
    + `${secure ? '; Secure' : ''}`;

  function scriptCookie(work, cookie) {
    const host = cookie.domain.replace(/^\./, '');
    const url = `https://${host}${cookie.path}`;
    if (!Bytes.url(url)) {
      work.notes.put('left', 'a cookie of a domain that is none', host);
      return;
    }
    work.notes.put('made', 'a load of a page of its own, which carries a cookie that a script set, without an expiry', url);
    work.carry(cookie.at, url, [`${cookie.name}=${cookie.value}${attributes(cookie)}; SameSite=${SAME_SITE[cookie.same_site] ?? 'Lax'}`]);
  }

  const START = { name: Bytes.isText, value: Bytes.isText, domain: Bytes.isText, path: Bytes.isText, 'expires?': Bytes.isNumber,
    'secure?': Bytes.isTruth, 'sameSite?': Bytes.isText };

  // The cookies that stood before the recording began.
  function startCookies(work) {
    const { notes, protocol } = work;
    notes.unseen.add('permissions, login statuses and flags from before the recording');
    if (!protocol?.startCookies) {
      notes.unseen.add('cookies from before the recording');
      return;
    }
    const { at, cookies } = protocol.startCookies;
    for (const cookie of cookies) {
      const url = `https://${String(cookie.domain).replace(/^\./, '')}/`;
      if (Bytes.wrong(cookie, START) || !Bytes.url(url) || cookie.partitionKey) {
        notes.put('left', 'a cookie from before that is partitioned or cannot be read', String(cookie.name));
        continue;
      }
      const age = cookie.expires > 0 ? `; Max-Age=${Math.max(0, Math.round(cookie.expires - at / 1000))}` : '';
      const text = `${cookie.name}=${cookie.value}${attributes(cookie)}; SameSite=${cookie.sameSite ?? 'Lax'}${age}`;
      work.have.push({ do: 'have', what: 'cookie', url, ...Bytes.ofEvent(Bytes.ofText(text)) });
    }
  }

  function place(work) {
    match(work);
    loads(work);
    otherCookies(work);
    scriptCookies(work);
    startCookies(work);
  }

  return { Work, place, isFed, statusLine, statusOf, CARRIER };
})();
