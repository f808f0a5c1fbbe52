'use strict';

// Two worlds side by side (docs/profile.md, section 15): the kept events of two scripts in pairs, with the records of each; the sign-in
// requests that are compared, and where both are quiet no more. What may differ is faint: what does, and all from there on.
const Worlds = (() => {
  const SIGN_IN = ['wellknown', 'config', 'accounts'];
  const LOUD = ['assertion', 'disconnect'];

  const isKept = ({ event }) => !(event.do === 'reply' && event.to === 'metadata') && !(event.do === 'have' && event.what === 'kept');
  const isSignIn = row => row?.kind === 'request' && SIGN_IN.includes(row.record.kind) && !row.of.isDisconnect;

  // The events of a world, each with the records that were written at it; a kept one has its number.
  function groupsOf(rows) {
    const groups = [];
    let number = 0;
    for (const row of rows) {
      if (row.event) groups.push({ event: row, records: [], kept: isKept(row) ? (number += 1) : undefined });
      else if (groups.length > 0) groups.at(-1).records.push(row);
      else groups.push({ records: [row] });
    }
    return groups;
  }

  const isLoud = ({ records }) => records.some(row => row.kind === 'request' && LOUD.includes(row.record.kind));

  // The texts of a value with its members in one order, and without the number of a line.
  function textOf(value) {
    const sorted = (_, member) => member && typeof member === 'object' && !Array.isArray(member)
      ? Object.fromEntries(Object.keys(member).sort().filter(name => name !== 'line').map(name => [name, member[name]])) : member;
    return JSON.stringify(value, sorted);
  }

  const isSame = ([one, two]) => Boolean(one && two) && textOf(one.event ?? one.record) === textOf(two.event ?? two.record)
    && one.ignored === two.ignored;

  class Builder {
    constructor(worlds) {
      this.groups = worlds.map(({ rows }) => groupsOf(rows));
      const firsts = this.groups.map(groups => groups.find(group => group.kept !== undefined && isLoud(group))?.kept ?? Infinity);
      this.end = worlds.every(({ hasTranscript }) => hasTranscript) ? Math.min(...firsts) : undefined;
      this.number = 0;
      this.compared = 0;
      this.pairs = [];
    }

    pair(sides, more = {}) {
      const same = isSame(sides);
      const isBeyond = this.end !== undefined && this.number >= this.end;
      const first = sides.find(Boolean);
      this.pairs.push({ sides, kind: 'pair', at: this.pairs.length, line: first.line, call: first.call, isSame: same,
        isFaint: isBeyond || (!same && !more.link), ...more });
    }

    build() {
      const [one, two] = this.groups.map(groups => [...groups]);
      while (one.length > 0 || two.length > 0) {
        const free = [one, two].map(groups => groups.splice(0, groups.findIndex(({ kept }) => kept !== undefined) >>> 0));
        this.side(free.map(groups => groups.flatMap(({ event, records }) => [event, ...records].filter(Boolean))));
        const kept = [one.shift(), two.shift()];
        if (kept.some(Boolean)) this.kept(kept);
      }
    }

    side([one, two]) {
      for (let at = 0; at < Math.max(one.length, two.length); at += 1) this.pair([one[at], two[at]]);
    }

    kept(groups) {
      this.number += 1;
      const ends = this.number === this.end ? this.endWords(groups) : undefined;
      this.pair(groups.map(group => group?.event), { kept: this.number, ends });
      this.records(groups.map(group => group?.records ?? []));
    }

    endWords(groups) {
      const asked = groups.map((group, at) => group && isLoud(group) ? ['first', 'second'][at] : '').filter(Boolean).join(' and ');
      const { title } = Wording.wordsOf(groups.find(group => group && isLoud(group)).event);
      return `Quiet up to kept event ${this.end - 1}. At ${this.end} (${title}) the ${asked} world names site and account: `
        + 'nothing is compared from here on.';
    }

    // Sign-in requests stand side by side in their order, and other records beside them as they come.
    records([one, two]) {
      for (let [left, right] = [0, 0]; left < one.length || right < two.length;) {
        const sides = [one[left], two[right]];
        const [isLeft, isRight] = sides.map(isSignIn);
        if (isLeft !== isRight && sides.every(Boolean)) sides[isLeft ? 0 : 1] = undefined;
        if (sides[0]) left += 1;
        if (sides[1]) right += 1;
        const isCompared = isLeft && isRight && sides.every(Boolean) && !(this.number >= this.end);
        const isEqual = isCompared && Decoding.bytesOf(sides[0].record) === Decoding.bytesOf(sides[1].record);
        if (isLeft && sides[0] && !(this.number >= this.end)) this.compared += 1;
        this.pair(sides, isCompared ? { link: isEqual ? 'equal' : 'differs' } : {});
      }
    }
  }

  const titleOf = (words, { rows }) => {
    const pages = new Set(rows.filter(({ event }) => event?.do === 'get').map(({ pageLane }) => pageLane));
    return `${words}: ${[...pages].slice(0, 3).join(', ')}${pages.size > 3 ? ` and ${pages.size - 3} more` : ''}`;
  };

  // What the program says of the two, where it is not what the transcripts show.
  function disagreement(verdict, { end, compared, number }) {
    if (verdict?.out !== 'twins' || end === undefined) return [];
    const quiet = end === Infinity ? number : end - 1;
    if (verdict.quiet === quiet && verdict.compared === compared) return [];
    return [{ cause: 'other-twins', note: `The record says that ${verdict.quiet} kept events are quiet and ${verdict.compared} requests `
      + `compared, and by the transcripts they are ${quiet} and ${compared}` }];
  }

  // A session whose rows are pairs.
  function of(worlds, verdict) {
    const builder = new Builder(worlds);
    builder.build();
    const apart = verdict?.out === 'not-twins' && builder.pairs.find(({ kept }) => kept === verdict.event);
    if (apart) Object.assign(apart, { fault: verdict, isFaint: false });
    const named = worlds.flatMap(({ problems }, at) => problems.map(problem => ({ ...problem,
      source: `${['first', 'second'][at]} world` + (problem.source ? ', ' + problem.source : '') })));
    return { rows: builder.pairs, worlds, verdict, titles: worlds.map((world, at) => titleOf(['First world', 'Second world'][at], world)),
      problems: [...named, ...disagreement(verdict, builder)], providers: new Set(worlds.flatMap(({ providers }) => [...providers])),
      links: builder.pairs.filter(({ link }) => link === 'equal').length, compared: builder.compared, calls: 1,
      quiet: builder.end === undefined ? undefined : Math.min(builder.end - 1, builder.number) };
  }

  return { of };
})();
