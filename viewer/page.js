'use strict';

// The page: takes texts, builds the session, filters its rows, and shows them as a chart or as a table.
(() => {
  const byId = id => document.getElementById(id);
  const NOTHING = { call: '', page: '', provider: '', kind: '' };
  const MOST_NAMED = 500;
  const MOST_PROBLEMS = 20;
  const LONG = 4000000;
  const FIRST_PART = 400000;
  const AT_ONCE = 30;

  const given = new Given.Texts();
  let session;
  let shown = [];
  let found = [];
  let view = 'chart';
  let turn = 0;

  const chart = new Chart.View(byId('chart'), { onChoose: choose, onKey: chartKey });
  const table = new Table.Pages(byId('table'), at => {
    chart.choose(at);
    toDetail();
  });

  const number = (count, word) => `${count.toLocaleString('en')} ${word}${count === 1 ? '' : word.endsWith('y') ? '' : 's'}`;
  const say = words => { byId('said').textContent = words; };

  function take(texts) {
    if (texts.length === 0) return;
    given.add(texts);
    byId('example').value = '';
    show();
  }

  async function takeFiles(files) {
    performance.mark('given');
    try {
      take(await Capture.texts(files));
    } catch (error) {
      say(`A file could not be read: ${error.message}`);
    }
  }

  const painted = () => new Promise(done => requestAnimationFrame(() => setTimeout(done)));
  const wholeOf = steps => {
    let step = steps.next();
    while (!step.done) step = steps.next();
    return step.value;
  };

  // Goes on while the page's other work waits for a moment only.
  async function slowly(steps, isOld) {
    let began = performance.now();
    let step = steps.next();
    while (!step.done) {
      if (performance.now() - began > AT_ONCE) {
        await new Promise(done => setTimeout(done));
        if (isOld()) return undefined;
        began = performance.now();
      }
      step = steps.next();
    }
    return step.value;
  }

  // Of long texts the first lines are drawn at once, and the rest is read in between.
  async function show() {
    const own = ++turn;
    const isOld = () => own !== turn;
    const worlds = given.worlds();
    forget();
    const isLong = worlds.length === 1 && worlds[0].reduce((length, text) => length + text.length, 0) > LONG;
    if (isLong) {
      preview(worlds[0]);
      await painted();
      performance.mark('drawn');
    }
    const sessions = [];
    for (const texts of worlds) {
      const reading = await slowly(Reading.steps(texts), isOld);
      const built = reading && await slowly(Session.steps(reading), isOld);
      if (!built || isOld()) return;
      sessions.push({ ...built, summary: summaryOf(built, reading) });
    }
    const [first, second] = sessions;
    if (second) presentWorlds(sessions);
    else present(first, first.summary);
    await painted();
    performance.mark(isLong ? 'whole' : 'drawn');
  }

  function presentWorlds(worlds) {
    const verdict = given.verdict && wholeOf(Reading.steps([given.verdict])).verdict;
    const both = Worlds.of(worlds, verdict);
    const equal = `${both.links} of ${number(both.compared, 'sign-in request')} equal`;
    const quiet = both.quiet === undefined ? '' : ` Quiet up to kept event ${both.quiet}, ${equal}.`;
    present(both, `Two worlds.${quiet} First: ${worlds[0].summary} Second: ${worlds[1].summary}`);
  }

  function forget() {
    Object.entries(NOTHING).forEach(([name, value]) => { byId('filter-' + name).value = value; });
    byId('search').value = '';
    session = undefined;
    found = [];
  }

  // The rows of the first lines, as far as both texts tell of them.
  function preview(texts) {
    const reading = wholeOf(Reading.steps(texts.map(text => text.slice(0, text.lastIndexOf('\n', FIRST_PART) + 1))));
    const built = wholeOf(Session.steps(reading));
    const ends = [reading.events, reading.records].filter(list => list.length > 0).map(list => list.at(-1).line ?? Infinity);
    built.rows = built.rows.filter(row => row.line < Math.min(...ends));
    built.problems = [];
    present(built, 'The first lines are drawn; the rest is being read.');
  }

  // Shows a session; where its first lines were shown before, the place in them stays.
  function present(built, words) {
    const place = session && chart.place();
    session = built;
    document.body.classList.add('has-session');
    byId('summary').textContent = words;
    choice();
    verdict();
    problems();
    suggestions();
    filter(place);
    if (!place) begin();
  }

  // Two scripts that were given one after the other can be drawn side by side, or the second alone.
  const CHOICES = {
    alone: ['The two scripts that were given one after the other are drawn as two worlds.', 'Draw the second alone'],
    beside: ['This script is drawn in place of the one before.', 'Draw both side by side, as two worlds'],
  };

  function choice() {
    const [said, words] = CHOICES[given.choice()] ?? ['', ''];
    byId('choice').hidden = words === '';
    byId('choice-said').textContent = said;
    byId('turn').textContent = words;
  }

  // What the program said of the transcript or of the two scripts.
  function verdict() {
    const { verdict: said, fault } = session;
    byId('verdict').hidden = said === undefined;
    byId('verdict').textContent = said ? Wording.verdictText(said, fault) : '';
    byId('verdict').classList.toggle('refused', ['faulty', 'differs', 'not-twins'].includes(said?.out));
  }

  // A row is chosen from the first: that which breaks a rule, or else the first that tells both, where it is in view.
  function begin() {
    const first = shown.findIndex(row => row.fault);
    const both = shown.findIndex(row => row.first || row.ends);
    if (first >= 0) chart.choose(first);
    else if (both >= 0 && chart.isInView(both)) chart.choose(both);
  }

  function summaryOf({ counts }, reading) {
    const { request, reply, dialog, window: windows, result, dropped, ignored } = counts;
    const has = [reading.hasScript ? number(reading.events.length, 'event') : 'no script',
      reading.hasTranscript ? number(reading.records.length, 'record') : 'no transcript'].join(', ');
    const replies = `${reply.toLocaleString('en')} ${reply === 1 ? 'reply' : 'replies'}`;
    const drawn = [number(request, 'request'), replies, number(dialog, 'dialog'), number(windows, 'window'), number(result, 'result'),
      ...(dropped > 0 ? [`${dropped.toLocaleString('en')} dropped out`] : []), `${ignored.toLocaleString('en')} ignored`].join(', ');
    const begins = reading.header ? ` It begins at ${Wording.momentOf(reading.header.now)}.` : '';
    return `${has}: ${drawn}.${begins}`;
  }

  function problems() {
    const all = [...(given.isOneOfSeveral ? [{ cause: 'two-kept' }] : []), ...session.problems];
    const texts = all.slice(0, MOST_PROBLEMS).map(Wording.problemText);
    if (all.length > MOST_PROBLEMS) texts.push(`and ${all.length - MOST_PROBLEMS} more`);
    byId('problems').hidden = all.length === 0;
    byId('problem-list').replaceChildren(...texts.map(text => {
      const item = document.createElement('li');
      item.textContent = text;
      return item;
    }));
  }

  function suggest(id, values) {
    byId(id).replaceChildren(...[...values].slice(0, MOST_NAMED).map(value => {
      const option = document.createElement('option');
      option.value = Decoding.oneLine(value);
      return option;
    }));
  }

  function suggestions() {
    const calls = new Set();
    const pages = new Set();
    for (const { call, pageLane } of session.worlds?.flatMap(({ rows }) => rows) ?? session.rows) {
      if (call !== undefined && calls.size < MOST_NAMED) calls.add(call);
      if (pageLane !== undefined && pages.size < MOST_NAMED) pages.add(pageLane);
    }
    suggest('calls', calls);
    suggest('pages', pages);
    suggest('providers', session.providers);
  }

  const KIND_TESTS = {
    '': () => true, ignored: row => Boolean(row.ignored), both: row => row.tells === 'both',
    ...Object.fromEntries(['request', 'reply', 'decision', 'page', 'dialog', 'window', 'result', 'dropped', 'note'].map(
      kind => [kind, row => row.kind === kind])),
  };

  const has = (value, part) => value !== undefined && value.toLowerCase().includes(part);

  // Whether a row passes the filters; an empty filter takes all.
  function tests() {
    const [call, page, provider] = ['call', 'page', 'provider'].map(name => byId('filter-' + name).value.trim().toLowerCase());
    const kind = byId('filter-kind').value;
    const calls = new Set((call.match(/\d+/g) ?? []).map(Number));
    const isPageNumber = /^(?:page )?\d+$/.test(page);
    const pageNumber = Number(page.replace('page ', ''));
    const ofKind = KIND_TESTS[kind] ?? (row => row.record?.kind === kind || row.event?.to === kind);
    const passes = row => ofKind(row) && (call === '' || calls.has(row.call))
      && (page === '' || (isPageNumber ? row.page === pageNumber : has(row.pageLane, page)))
      && (provider === '' || [row.providerLane, row.from, row.to].some(lane => has(lane, provider)));
    return row => row.sides ? row.sides.some(side => side && passes(side)) : passes(row);
  }

  function filter(place) {
    const chosen = chart.rows?.[chart.chosen];
    shown = session.rows.filter(tests());
    chart.show(shown, session);
    table.show(shown, chart.found);
    byId('none').hidden = shown.length > 0;
    search(false);
    if (place) chart.restore(place);
    else if (!chosen || !chart.chooseRow(chosen)) byId('detail').replaceChildren(byId('hint').content.cloneNode(true));
    const all = session.rows.length;
    say(shown.length === all ? `${number(all, 'row')} shown.` : `${number(shown.length, 'row')} of ${all.toLocaleString('en')} shown.`);
  }

  // The texts of a row as one looks for them: the lines as given, with escapes of JSON undone where there are such.
  function rowTexts(row) {
    if (row.sides) return row.sides.filter(Boolean).map(rowTexts).join('\n');
    const lines = [row.event, row.record].map((value, at) => {
      const source = (at === 0 ? row.source : row.recordSource) ?? '';
      const text = source.includes('\\u') ? JSON.stringify(value) : source;
      return value?.raw === undefined ? text : text + Decoding.bytesOf(value);
    });
    return lines.join('\n').toLowerCase();
  }

  function search(move = true) {
    const words = byId('search').value.toLowerCase();
    const escaped = JSON.stringify(words).slice(1, -1);
    const isFound = row => {
      const texts = rowTexts(row);
      return texts.includes(words) || texts.includes(escaped);
    };
    found = words === '' ? [] : shown.flatMap((row, at) => isFound(row) ? [at] : []);
    chart.mark(new Set(found.map(at => shown[at])));
    table.show(shown, chart.found);
    byId('matches').textContent = words === '' ? '' : found.length === 1 ? '1 row' : `${found.length.toLocaleString('en')} rows`;
    byId('next').disabled = byId('previous').disabled = found.length === 0;
    if (move && found.length > 0) goTo(1, true);
  }

  // To the next row that was found, from the chosen one on and round at the end.
  function goTo(way, stays = false) {
    if (found.length === 0) return;
    const from = chart.chosen;
    const beyond = way > 0 ? found.find(at => stays ? at >= from : at > from) : found.findLast(at => at < from);
    const to = beyond ?? (way > 0 ? found[0] : found.at(-1));
    chart.choose(to);
    byId('matches').textContent = `${found.indexOf(to) + 1} of ${found.length.toLocaleString('en')}`;
  }

  function choose(row) {
    Detail.show(byId('detail'), row, goToRow);
    if (view === 'table') table.reveal(chart.chosen);
    say(Wording.sentenceOf(row));
  }

  function goToRow(row) {
    if (!chart.chooseRow(row)) say('That row is not among those that the filters show.');
  }

  function chartKey(key) {
    const row = shown[chart.chosen];
    const other = row?.answer ?? row?.answers;
    const actions = {
      Enter: toDetail,
      '/': toSearch,
      n: () => goTo(1), N: () => goTo(-1),
      d: () => row?.decision && goToRow(row.decision),
      r: () => other && goToRow(other),
      c: () => row?.of && goToRow(shown.find(({ of }, at) => of === row.of && at > chart.chosen) ?? row),
    };
    if (!actions[key]) return false;
    actions[key]();
    return true;
  }

  function toSearch() {
    byId('filter-box').open = true;
    byId('search').focus();
  }

  function toDetail() {
    byId('detail').querySelector('h2')?.focus();
  }

  // From the details back to the row that they tell of.
  function backToRows() {
    if (view === 'chart') byId('chart').focus();
    else table.focus();
  }

  function setView(name) {
    view = name;
    for (const each of ['chart', 'table']) {
      byId(each).hidden = each !== name;
      byId('view-' + each).setAttribute('aria-pressed', each === name);
    }
    if (!session) return;
    if (name === 'table') table.reveal(chart.chosen);
    else chart.reopen();
  }

  function exportPicture() {
    if (!session) return;
    const most = Export.MOST_ROWS.toLocaleString('en');
    const cut = shown.length > Export.MOST_ROWS ? ` Only the first ${most} rows are in it: filters make them fewer.` : '';
    Export.save(Export.textOf(shown, session, byId('summary').textContent), 'session.svg');
    say('The picture is saved as session.svg.' + cut);
  }

  const headWords = () => [byId('verdict').textContent, byId('summary').textContent].filter(Boolean);

  function clear() {
    turn += 1;
    given.clear();
    session = undefined;
    document.body.classList.remove('has-session');
    byId('problems').hidden = true;
    byId('example').value = '';
    byId('files').value = '';
    say('Cleared.');
  }

  // The examples that stand in the page; the first is drawn when it opens.
  function showExample(name) {
    const example = Examples.find(each => each.name === name);
    if (!example) return;
    given.setExample(example.texts);
    byId('example').value = name;
    show();
  }

  function listExamples() {
    byId('example').append(...Examples.map(({ name, title }) => new Option(title, name)));
    byId('example').addEventListener('change', event => showExample(event.target.value));
    const named = decodeURIComponent(location.hash.slice(1));
    showExample(Examples.some(({ name }) => name === named) ? named : Examples[0].name);
  }

  function listenForTexts() {
    byId('files').addEventListener('change', event => takeFiles(event.target.files));
    document.addEventListener('dragover', event => {
      event.preventDefault();
      document.body.classList.add('over');
    });
    document.addEventListener('dragleave', event => { if (!event.relatedTarget) document.body.classList.remove('over'); });
    document.addEventListener('drop', event => {
      event.preventDefault();
      document.body.classList.remove('over');
      const { files } = event.dataTransfer;
      if (files.length > 0) takeFiles(files);
      else take([event.dataTransfer.getData('text/plain')].filter(Boolean));
    });
    document.addEventListener('paste', event => {
      if (event.target.closest('input, textarea')) return;
      take([event.clipboardData.getData('text/plain')].filter(Boolean));
    });
    byId('show-pasted').addEventListener('click', () => take([byId('pasted').value].filter(Boolean)));
    byId('clear').addEventListener('click', clear);
    byId('turn').addEventListener('click', () => {
      given.turn();
      show();
    });
  }

  function listenForViews() {
    let asked;
    const later = action => () => {
      clearTimeout(asked);
      asked = setTimeout(() => {
        action();
        performance.mark('settled');
      }, 150);
    };
    Object.keys(NOTHING).forEach(name => byId('filter-' + name).addEventListener('input', later(() => session && filter())));
    byId('search').addEventListener('input', later(() => session && search()));
    byId('search').addEventListener('keydown', event => { if (event.key === 'Enter') goTo(event.shiftKey ? -1 : 1); });
    byId('filters').addEventListener('submit', event => event.preventDefault());
    byId('next').addEventListener('click', () => goTo(1));
    byId('previous').addEventListener('click', () => goTo(-1));
    byId('view-chart').addEventListener('click', () => setView('chart'));
    byId('view-table').addEventListener('click', () => setView('table'));
    byId('export').addEventListener('click', exportPicture);
    byId('print').addEventListener('click', () => window.print());
    addEventListener('beforeprint', () => session && Paper.fill(byId('paper'), shown, session, headWords()));
    addEventListener('afterprint', () => byId('paper').replaceChildren());
    byId('detail').addEventListener('keydown', event => {
      if (event.key === 'Escape') backToRows();
    });
  }

  // The chart's style stands once, with its drawing; a style sheet made by the page is not a request.
  const sheet = new CSSStyleSheet();
  const { light, dark, forced } = Drawing.COLORS;
  sheet.replaceSync(`:root { ${light} } @media (prefers-color-scheme: dark) { :root { ${dark} } } @media print { :root { ${light} } }
    @media (forced-colors: active) { :root { ${forced} } } ${Drawing.STYLE}`);
  document.adoptedStyleSheets = [sheet];
  Capture.listen(take);
  listenForTexts();
  listenForViews();
  listExamples();
})();
