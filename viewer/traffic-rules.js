'use strict';

// The suffix rules of a script: those of a list that match a host of the capture, else those that follow from the sites that the browser
// named itself.
const TrafficRules = (() => {
  const isAddress = host => /^\[|^\d+(?:\.\d+){3}$/.test(host);

  let read = { rules: '', set: new Set() };

  function setOf(rules) {
    if (read.rules !== rules) read = { rules, set: new Set(rules.split('\n')) };
    return read.set;
  }

  // The registrable domain of a host by rules, or the host itself.
  function partyOf(host, rules) {
    if (isAddress(host)) return host;
    const labels = host.split('.');
    const set = setOf(rules);
    let size = 1;
    for (let at = 0; at < labels.length; at += 1) {
      const tail = labels.slice(at).join('.');
      if (set.has('!' + tail)) {
        size = labels.length - at - 1;
        break;
      }
      const isStar = at + 1 < labels.length && set.has('*.' + labels.slice(at + 1).join('.'));
      if (set.has(tail) || isStar) size = Math.max(size, labels.length - at);
    }
    return labels.length > size ? labels.slice(-size - 1).join('.') : host;
  }

  // Of a public suffix list the rules that match one of the hosts: for these they decide as the whole list does.
  function ofList(list, hosts) {
    const want = new Set();
    for (const host of hosts) {
      const labels = host.replace(/\.$/, '').split('.');
      labels.forEach((_, at) => {
        const tail = labels.slice(at).join('.');
        for (const rule of [tail, '!' + tail, '*.' + labels.slice(at + 1).join('.')]) want.add(rule);
      });
    }
    return list.split('\n').map(line => line.split(/\s/)[0]).filter(rule => rule && !rule.startsWith('//') && want.has(rule));
  }

  // The domains above a host, and itself.
  const above = host => host.split('.').map((_, at, labels) => labels.slice(at).join('.'));

  // The sites that a browser named beside its requests, of the page and of the frame: what stands before a site's first dot is one label
  // below a suffix.
  function ofSites(exchanges, hosts, notes) {
    const sites = new Set();
    for (const { isolation } of exchanges) {
      for (const word of (isolation ?? '').split(' ', 2)) if (/^https?:/.test(word)) sites.add(Bytes.place(word)?.hostname ?? '');
    }
    const suffixes = [...sites].filter(site => !isAddress(site)).map(site => site.slice(site.indexOf('.') + 1));
    const rules = [...new Set(suffixes.filter(suffix => suffix.includes('.')))].sort();
    for (const rule of rules) notes.put('made', 'a suffix rule, from a site that the browser named', rule);
    const isNamed = host => above(host).some(domain => sites.has(domain));
    if (hosts.some(host => host.split('.').length > 2 && !isAddress(host) && !isNamed(host))) {
      notes.unseen.add('suffix rules: where the browser named no site, the last two labels of a host count');
    }
    return rules;
  }

  function find(work) {
    const hosts = [...new Set(work.all.map(({ url }) => Bytes.place(url).hostname))];
    const { list } = work.options;
    const rules = list === undefined ? ofSites(work.all, hosts, work.notes) : ofList(list, hosts);
    work.rules = rules.join('\n');
  }

  const isList = text => /^\/\/ ===BEGIN ICANN DOMAINS===/m.test(text);

  return { find, partyOf, above, isList };
})();
