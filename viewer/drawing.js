'use strict';

// Draws rows as SVG, for the page, for paper and for the export alike; so the style stands here, and the exported picture carries it.
const Drawing = (() => {
  const NAMESPACE = 'http://www.w3.org/2000/svg';
  const LABEL = 12.5;
  const SMALL = 11;
  const WORDS = 14;
  const ARROW = 22;
  const { ROW, LINE } = Layout;

  const COLORS = {
    light: `--paper: #ffffff; --ink: #1b1f24; --faint: #57606a; --rule: #c4ccd4; --soft: #f3f5f7; --user: #0a5ba8; --page: #6d3a9c;
      --both: #b3261e; --on-both: #ffffff; --band: #fdeceb; --chosen: #dcebfb; --found: #fff3bf; --decide: #1a6b3c;
      --s0: #0a5ba8; --s1: #a84c12; --s2: #1a6b3c; --s3: #7b3fbf; --s4: #00707a; --s5: #a3195b;`,
    dark: `--paper: #14171c; --ink: #e8ebef; --faint: #a9b2bd; --rule: #464f5a; --soft: #1e232a; --user: #86bdf7; --page: #cda9f5;
      --both: #ff9d90; --on-both: #2b0b07; --band: #3a1d1b; --chosen: #1d3a5c; --found: #4a3f12; --decide: #7fd6a2;
      --s0: #86bdf7; --s1: #f0a878; --s2: #7fd6a2; --s3: #cda9f5; --s4: #5fd0d8; --s5: #ff9ccf;`,
    forced: `--paper: Canvas; --ink: CanvasText; --faint: CanvasText; --rule: GrayText; --soft: Canvas; --user: CanvasText;
      --page: CanvasText; --both: Highlight; --on-both: HighlightText; --band: Canvas; --chosen: Canvas; --found: Canvas;
      --decide: CanvasText;
      --s0: CanvasText; --s1: CanvasText; --s2: CanvasText; --s3: CanvasText; --s4: CanvasText; --s5: CanvasText;`,
  };

  const STRIPES = Array.from({ length: Layout.COLORS }, (_, at) => `.chart .s${at} { color: var(--s${at}); }`).join('\n    ');

  const STYLE = `
    .chart { ${COLORS.light} font: ${LABEL}px system-ui, "Segoe UI", "DejaVu Sans", sans-serif; }
    @media (prefers-color-scheme: dark) { .chart { ${COLORS.dark} } }
    @media print { .chart { ${COLORS.light} } }
    @media (forced-colors: active) { .chart { ${COLORS.forced} forced-color-adjust: none; } }
    .chart .paper { fill: var(--paper); }
    .chart text { fill: var(--ink); }
    .chart .label { paint-order: stroke; stroke: var(--paper); stroke-width: 5px; stroke-linejoin: round; }
    .chart .title { font-weight: 600; }
    .chart .faint { fill: var(--faint); font-size: ${SMALL}px; }
    .chart .life { stroke: var(--rule); stroke-width: 1; }
    .chart .head { fill: var(--soft); stroke: var(--rule); }
    .chart .arrow { stroke: var(--ink); fill: none; stroke-width: 1.5; }
    .chart .tip { fill: var(--ink); }
    .chart .reply .arrow { stroke-dasharray: 6 4; }
    .chart .decision .arrow { stroke: var(--decide); stroke-width: 3; }
    .chart .decision .tip { fill: var(--decide); }
    .chart .mark { fill: var(--paper); stroke: var(--faint); }
    .chart .mark-text { font-size: ${SMALL}px; text-anchor: middle; fill: var(--faint); }
    .chart .tells-user .mark { stroke: var(--user); stroke-width: 1.5; }
    .chart .tells-user .mark-text { fill: var(--user); }
    .chart .tells-page .mark { stroke: var(--page); stroke-width: 1.5; stroke-dasharray: 4 2; }
    .chart .tells-page .mark-text { fill: var(--page); }
    .chart .tells-both .mark, .chart .fault-mark { fill: var(--both); stroke: var(--both); }
    .chart .tells-both .mark-text, .chart .fault-text { fill: var(--on-both); font-weight: 700; }
    .chart .fault-text { font-size: ${SMALL}px; text-anchor: middle; }
    .chart .first .arrow { stroke: var(--both); stroke-width: 3; }
    .chart .first .tip { fill: var(--both); }
    .chart .band { fill: none; }
    .chart .first .band, .chart .decides .band, .chart .fault .band { fill: var(--band); }
    .chart .edge { fill: none; }
    .chart .first > .edge, .chart .decides > .edge, .chart .fault > .edge { fill: var(--both); }
    .chart .first .label, .chart .decides .label, .chart .fault .label { stroke: var(--band); }
    .chart .box { fill: var(--soft); stroke: var(--ink); stroke-width: 1.5; }
    .chart .flag { fill: var(--soft); stroke: var(--ink); stroke-width: 1.5; }
    .chart .token .flag { fill: var(--decide); stroke: var(--decide); }
    .chart .token .flag-text { fill: var(--paper); font-weight: 700; }
    .chart .dot { fill: var(--faint); }
    .chart .dropped .dot { fill: var(--both); }
    .chart .bad .title { fill: var(--both); }
    .chart .stripe { fill: none; stroke: currentColor; stroke-width: 2; }
    .chart .open { stroke-dasharray: 4 3; }
    .chart .stripe.own { stroke-width: 5; }
    .chart .knot { fill: currentColor; }
    .chart .knot.own { fill: var(--paper); stroke: currentColor; stroke-width: 2.5; }
    .chart .tie { fill: currentColor; fill-opacity: .35; stroke: currentColor; }
    .chart .tie.own { fill-opacity: 1; }
    .chart .moment { stroke: var(--ink); stroke-width: 1; stroke-dasharray: 1 3; }
    .chart .quiet { stroke: var(--both); stroke-width: 2.5; }
    .chart .link { stroke: var(--decide); stroke-width: 1.5; stroke-dasharray: 2 3; fill: none; }
    .chart .link-mark { fill: var(--decide); }
    .chart .differs .link { stroke: var(--both); }
    .chart .differs .link-mark { fill: var(--both); }
    .chart .link-text { fill: var(--paper); font-weight: 700; text-anchor: middle; }
    .chart .callout { fill: var(--paper); stroke: var(--ink); stroke-width: 1.5; }
    .chart .ignored text, .chart .unread text, .chart .dim text { fill: var(--faint); }
    .chart .ignored .arrow, .chart .unread .arrow { stroke: var(--faint); stroke-width: 1; stroke-dasharray: 2 3; }
    .chart .ignored .tip, .chart .unread .tip { fill: var(--faint); }
    .chart .dim .arrow, .chart .dim .box, .chart .dim .flag, .chart .dim .mark { stroke: var(--rule); stroke-width: 1; fill: none; }
    .chart .dim .tip, .chart .dim .dot { fill: var(--rule); }
    .chart .dim .title, .chart .dim .flag-text, .chart .dim .mark-text { font-weight: 400; fill: var(--faint); }
    .chart .dim .band { fill: none; }
    .chart .dim > .edge { fill: none; }
    .chart .dim .label { stroke: var(--paper); }
    .chart .found .band { fill: var(--found); }
    .chart .found .label { stroke: var(--found); }
    .chart .chosen .band { fill: var(--chosen); }
    .chart .chosen .label { stroke: var(--chosen); }
    @media (forced-colors: active) { .chart .chosen .band, .chart .found .band { stroke: Highlight; stroke-width: 2; } }
    ${STRIPES}`;

  function make(name, attributes = {}, ...children) {
    const made = document.createElementNS(NAMESPACE, name);
    for (const [attribute, value] of Object.entries(attributes)) made.setAttribute(attribute, value);
    made.append(...children);
    return made;
  }

  const text = (words, x, y, kind, more = {}) => make('text', { x, y, class: kind, ...more }, words);

  function arrow(from, to, y) {
    const way = Math.sign(to - from) || 1;
    return [
      make('path', { class: 'arrow', d: `M${from} ${y}H${to - 7 * way}` }),
      make('path', { class: 'tip', d: `M${to} ${y}l${-9 * way} -5v10z` }),
    ];
  }

  const boldWidth = words => Layout.widthOf(words, LABEL * 1.1);
  const FAULT_WORDS = { faulty: ({ clause }) => `breaks ${clause}`, differs: ({ what }) => `differs: ${what}`,
    'not-twins': ({ clause }) => `no twins: ${clause}` };
  const faultWords = fault => FAULT_WORDS[fault.out](fault);

  // The marks in front of a row's title: the clause that it breaks, and what a request tells.
  function marksOf(row) {
    const marks = [];
    if (row.fault) marks.push(['fault-mark', 'fault-text', faultWords(row.fault)]);
    if (row.tells) marks.push(['mark', 'mark-text', row.tells, 52]);
    return marks.map(([box, kind, words, width]) => ({ box, kind, words, width: width ?? Math.ceil(boldWidth(words)) + 16 }));
  }

  // The title and the text of a row near its arrow: from a start on, and further left where the row's right end is too near.
  function label(row, part, start) {
    const marks = marksOf(row);
    const { title, words } = labelWords(row, part);
    const before = marks.reduce((sum, { width }) => sum + width + 6, 0);
    const whole = before + boldWidth(title) + (words ? 8 + Layout.widthOf(words, LABEL) : 0);
    let at = Math.round(Math.max(part.gutter + 2, Math.min(start, part.width - 6 - whole)));
    const drawn = [];
    for (const { box, kind, words: mark, width } of marks) {
      drawn.push(make('rect', { class: box, x: at, y: WORDS - 11.5, width, height: 15, rx: 7.5 }), text(mark, at + width / 2, WORDS, kind));
      at += width + 6;
    }
    const room = part.width - 6 - at;
    const bold = Layout.fit(title, room, LABEL * 1.1);
    const left = room - boldWidth(bold) - 8;
    const rest = words && left > 30 ? Layout.fit(words, left + 1, LABEL) : '';
    const line = make('text', { class: 'label', x: at, y: WORDS }, make('tspan', { class: 'title' }, bold));
    if (rest) line.append(make('tspan', { dx: 8 }, rest));
    return { drawn: [...drawn, line], isCut: bold !== title || rest !== words };
  }

  function labelWords(row, part) {
    const { title, text: words } = Wording.wordsOf(row);
    const shared = [row.from, row.to].filter(lane => part.isShared(lane)).map(Layout.shortName);
    const all = [...(row.first ? [firstWords(row)] : []), ...shared.filter(name => !words.includes(name)), words];
    return { title, words: all.filter(Boolean).join(' · ') };
  }

  const firstWords = row => row.decision ? `${Wording.beforeText(row)}, first to tell both` : 'first to tell both';

  function arrowRow(row, part) {
    const from = part.x(row.from);
    const to = part.x(row.to);
    const { drawn, isCut } = label(row, part, Math.min(from, to) + 8);
    return { drawn: [...arrow(from, to, ARROW), ...drawn], isCut };
  }

  function noteRow(row, part) {
    const { drawn, isCut } = label(row, part, part.browser + 10);
    const dot = make('circle', { class: 'dot', cx: part.browser, cy: ARROW - 4, r: 4 });
    return { drawn: [dot, ...drawn], isCut };
  }

  // A time goes across all lanes, and is said at the left: down that side the times are the axis.
  function momentRow(row, part) {
    const { drawn, isCut } = label(row, part, part.gutter + 2);
    return { drawn: [make('path', { class: 'moment', d: `M0 ${ARROW}H${part.width}` }), ...drawn], isCut };
  }

  function boxRow(row, part) {
    const lines = Wording.boxLines(row).map(Decoding.oneLine);
    const { title } = Wording.wordsOf(row);
    const wanted = Math.max(280, ...lines.map(words => Layout.widthOf(words, LABEL) + 20));
    const width = Math.round(Math.min(part.width - part.gutter - 8, 460, wanted));
    const x = Math.round(Math.max(part.gutter + 2, Math.min(part.browser - width / 2, part.width - width - 4)));
    const height = ROW - 4 + LINE * lines.length;
    const cut = lines.map(words => Layout.fit(words, width - 18, LABEL));
    const drawn = [make('rect', { class: 'box', x, y: 3, width, height, rx: row.kind === 'dialog' ? 8 : 0 })];
    if (row.kind === 'window') drawn.push(make('path', { class: 'arrow', d: `M${x} 23h${width}` }));
    const bold = Layout.fit(title, width - 18, LABEL * 1.1);
    drawn.push(text(bold, x + 9, 18, 'title'), ...cut.map((words, at) => text(words, x + 9, 36 + LINE * at, 'line')));
    return { drawn, isCut: bold !== title || cut.some((words, at) => words !== lines[at]) };
  }

  function flagRow(row, part) {
    const pole = part.x(row.to);
    const { title, text: words } = Wording.wordsOf(row);
    const marks = row.fault ? [faultWords(row.fault)] : [];
    const named = [...marks, ...(part.isShared(row.to) ? [Layout.shortName(row.to)] : []), words].filter(Boolean).join(' · ');
    const width = Math.round(boldWidth(title)) + 22;
    const whole = named ? Layout.widthOf(named, LABEL) + 8 : 0;
    const isLeft = pole + width + whole > part.width - 6 && pole - part.gutter > part.width - pole - width;
    const x = Math.min(pole, part.width - width - 4);
    const room = isLeft ? x - part.gutter - 12 : part.width - x - width - 14;
    const more = room > 30 ? Layout.fit(named, room, LABEL) : '';
    const drawn = [make('path', { class: 'arrow pole', d: `M${pole} 3V${ARROW}` }), ...arrow(part.browser, pole, ARROW),
      make('path', { class: 'flag', d: `M${x} 2h${width}l-6 7.5l6 7.5h${-width}z` }), text(title, x + 8, WORDS, 'flag-text')];
    if (more) drawn.push(text(more, isLeft ? x - 8 : x + width + 8, WORDS, 'label', isLeft ? { 'text-anchor': 'end' } : {}));
    return { drawn, isCut: more !== named };
  }

  const DRAWN = { dialog: boxRow, window: boxRow, result: flagRow, dropped: noteRow, note: noteRow };

  function classesOf(row) {
    const classes = ['side', row.kind];
    if (row.tells) classes.push('tells-' + row.tells);
    for (const name of ['first', 'decides', 'fault', 'ignored', 'unread']) {
      if (row[name]) classes.push(name);
    }
    if (row.record?.see === 'token') classes.push('token');
    if (row.record?.out === 'bad') classes.push('bad');
    return classes.join(' ');
  }

  const callsOf = row => row.of ? [row.of] : row.closes ?? [];

  const knot = (part, { column }, y, kind, r) => make('circle',
    { class: `${kind} s${column % Layout.COLORS}`, cx: part.stripeX(column), cy: y + WORDS - 4, r });

  // The numbers of line and call, and a knot in the stripe of the call.
  function gutter(row, part) {
    const drawn = [];
    if (row.line !== undefined) drawn.push(text(String(row.line), 8, WORDS, 'faint'));
    if (row.call !== undefined) drawn.push(text(String(row.call), part.callAt, WORDS, 'faint'));
    const stripes = callsOf(row).map(call => part.stripes.of.get(call)).filter(Boolean);
    return [...drawn, ...stripes.map(stripe => knot(part, stripe, 0, 'knot', part.pitch > 5 ? 3.5 : 2.5))];
  }

  // What is drawn of a row, by a part of the picture.
  function sideOf(row, part, height) {
    const { drawn, isCut } = (row.event?.do === 'at' ? momentRow : DRAWN[row.kind] ?? arrowRow)(row, part);
    return { isCut, drawn: [make('rect', { class: 'band', x: 0, y: 0, width: part.width, height }),
      make('rect', { class: 'edge', x: 0, y: 0, width: 4, height }), ...gutter(row, part), ...drawn] };
  }

  // One row at its height; `top` is where the drawn part begins.
  function drawRow(picture, at, top) {
    const row = picture.rows[at];
    const y = picture.offsets[at];
    const height = picture.offsets[at + 1] - y;
    const place = { transform: `translate(0 ${y - top})` };
    if (row.sides) return pairRow(row, picture, height, place);
    const { drawn, isCut } = sideOf(row, picture, height);
    const group = make('g', { class: 'row ' + classesOf(row), ...place }, ...drawn);
    if (isCut) cut(group, row);
    return group;
  }

  // What is cut can be read whole: under the pointer, and where the row is chosen.
  function cut(group, row) {
    group.classList.add('cut');
    group.prepend(make('title', {}, Decoding.oneLine(Wording.sentenceOf(row))));
  }

  function pairRow(pair, picture, height, place) {
    const kinds = ['row', 'pair', pair.link, pair.ends && 'ends', pair.fault && 'fault'];
    const group = make('g', { class: kinds.filter(Boolean).join(' '), ...place },
      make('rect', { class: 'band', x: 0, y: 0, width: picture.width, height }));
    const lead = pair.ends ? ROW : 0;
    if (pair.ends) {
      group.append(make('path', { class: 'quiet', d: `M0 ${ROW - 6}H${picture.width}` }),
        text(Layout.fit(pair.ends, picture.width - 16, LABEL * 1.1), 8, WORDS, 'label title'));
    }
    pair.sides.forEach((row, at) => {
      if (!row) return;
      const { drawn, isCut } = sideOf(row, picture.parts[at], height - lead);
      const kind = classesOf(row) + (pair.isFaint ? ' dim' : '');
      group.append(make('g', { class: kind, transform: `translate(${at * picture.second} ${lead})` }, ...drawn));
      if (isCut) group.classList.add('cut');
    });
    if (pair.link) group.append(...link(pair, picture, lead));
    if (pair.fault) group.append(...faultBetween(pair, picture, lead));
    if (group.classList.contains('cut')) cut(group, pair);
    return group;
  }

  // The clause by which two scripts are no twins, between the worlds.
  function faultBetween(pair, { second }, lead) {
    const [{ box, kind, words, width }] = marksOf({ fault: pair.fault });
    return [make('rect', { class: box, x: second - 8 - width / 2, y: lead + WORDS - 11.5, width, height: 15, rx: 7.5 }),
      text(words, second - 8, lead + WORDS, kind)];
  }

  // What ties a request of one world to that of the other.
  function link({ sides: [one, two], link: kind }, { parts, second }, lead) {
    const [from, to] = [parts[0].x(one.to) + 4, second + parts[1].x(two.from) - 4];
    const y = lead + ARROW;
    return [make('path', { class: 'link', d: `M${from} ${y}H${to}` }),
      make('circle', { class: 'link-mark', cx: second - 8, cy: y - 4, r: 8 }),
      text(kind === 'equal' ? '=' : '≠', second - 8, y, 'link-text')];
  }

  const placed = (picture, at, drawn) => make('g', at === 0 ? {} : { transform: `translate(${picture.second} 0)` }, ...drawn);

  function drawLives(picture, height) {
    const lives = part => part.lanes.list.map((_, at) => make('path', { class: 'life', d: `M${part.laneX(at)} 0V${height}` }));
    return make('g', { class: 'lives' }, ...picture.parts.map((part, at) => placed(picture, at, lives(part))));
  }

  // The stripes between two rows, which stand before these; that of the chosen row's call is thicker, with rings in place of its knots.
  function drawStripes(picture, range, top, chosen) {
    const drawn = part => [...stripesOf(part, range, top, chosen?.of), ...ringsOf(part, range, top, chosen?.of)];
    return make('g', { class: 'stripes' }, ...picture.parts.map((part, at) => placed(picture, at, drawn(part))));
  }

  function ringsOf(part, [first, last], top, call) {
    const stripe = call && part.stripes.of.get(call);
    if (!stripe) return [];
    return part.rows.slice(first, last + 1).flatMap((row, at) => !row || !callsOf(row).includes(call) ? []
      : [knot(part, stripe, part.offsets[first + at] - top, 'knot own', part.pitch > 5 ? 4 : 3)]);
  }

  // Behind the rows, over the lanes of the chosen row's call, a bar from each of its requests to the reply.
  function drawBars(picture, range, top, chosen) {
    return make('g', { class: 'bars' }, ...(chosen?.of && picture.parts.length === 1 ? barsOf(picture, range, top, chosen) : []));
  }

  function stripesOf(part, [first, last], top, call) {
    const { offsets } = part;
    const own = call && part.stripes.of.get(call);
    const drawn = [];
    for (const [column, list] of part.stripes.columns.entries()) {
      for (let at = Math.max(0, before(list, first)); at < list.length && list[at].first <= last; at += 1) {
        const { first: from, last: to, isOpen, isShared } = list[at];
        if (to < first) continue;
        const [start, end] = [Math.max(from, first), Math.min(to, last)];
        const y = offsets[start] - top + (start === from ? WORDS - 4 : 0);
        const below = offsets[end + 1] - top - (end === to && !isOpen ? offsets[end + 1] - offsets[end] - WORDS + 4 : 0);
        const kind = ['stripe', `s${column % Layout.COLORS}`, (isOpen || isShared) && 'open', list[at] === own && 'own'];
        const x = part.stripeX(column);
        drawn.push(make('path', { class: kind.filter(Boolean).join(' '), d: `M${x} ${y}${quietGap(part, start, end, x, top)}V${below}` }));
      }
    }
    return drawn;
  }

  // Where a stripe leaves out the words of the quiet line.
  function quietGap({ quietLine, offsets }, start, end, x, top) {
    if (!(quietLine > start && quietLine <= end)) return '';
    const y = offsets[quietLine] - top;
    return `V${y}M${x} ${y + ROW}`;
  }

  // The last stripe of a column that begins before a row, or the first of all.
  function before(list, row) {
    let low = 0;
    let high = list.length;
    while (low < high) {
      const middle = (low + high) >> 1;
      if (list[middle].first < row) low = middle + 1;
      else high = middle;
    }
    return low - 1;
  }

  function barsOf(part, [first, last], top, chosen) {
    const { offsets } = part;
    const call = chosen.of;
    const color = `s${(part.stripes.of.get(call)?.column ?? 0) % Layout.COLORS}`;
    const drawn = [];
    for (const request of call.requests) {
      const from = part.placeOf(request);
      const end = request.answer ?? call.ended;
      const to = end && part.placeOf(end);
      if (from === undefined || to === undefined || to < first || from > last) continue;
      const [y, below] = [offsets[Math.max(from, first)] - top + (from < first ? 0 : ARROW), offsets[Math.min(to, last)] - top + ARROW];
      const isOwn = chosen === request || chosen === request.answer;
      const kind = ['tie', color, isOwn && 'own', !request.answer && 'open'].filter(Boolean).join(' ');
      drawn.push(make('rect', { class: kind, x: part.x(request.to) - 3, y, width: 6, height: Math.max(1, below - y) }));
    }
    return drawn;
  }

  // The whole text of a row that is cut, below it, or above where the view ends before.
  function drawCallout(picture, at, top, end) {
    const row = picture.rows[at];
    const width = Math.min(560, picture.width - 24);
    const lines = Layout.wrap(Decoding.oneLine(Wording.sentenceOf(row)), width - 20, LABEL);
    const height = LINE * lines.length + 12;
    const isAbove = picture.offsets[at + 1] + height > end && picture.offsets[at] > height;
    const y = (isAbove ? picture.offsets[at] - height : picture.offsets[at + 1]) - top;
    const x = Math.max(8, Math.min(picture.parts[0].gutter, picture.width - width - 8));
    return make('g', { class: 'whole', 'aria-hidden': 'true' }, make('rect', { class: 'callout', x, y, width, height, rx: 6 }),
      ...lines.map((words, line) => text(words, x + 10, y + 18 + LINE * line, 'line')));
  }

  function drawHeader(picture, titles = []) {
    const drawn = picture.parts.map((part, at) => {
      const lead = picture.header - part.header;
      const names = part.lanes.list.map((lane, seat) => (part.slanted ? slantedName : boxedName)(lane, seat, part));
      const group = make('g', { transform: `translate(${at * (picture.second ?? 0)} ${lead})` }, ...names,
        text('', 8, 14, 'clock title'), text('line', 8, part.header - 6, 'faint'), text('call', part.callAt, part.header - 6, 'faint'));
      if (titles[at]) group.append(text(Layout.fit(Decoding.oneLine(titles[at]), part.width - 12, LABEL * 1.1), 8, -6, 'title'));
      return group;
    });
    return make('g', { class: 'header' }, ...drawn);
  }

  const nameTitle = name => make('title', {}, Decoding.oneLine(name));

  function boxedName({ name, role }, at, part) {
    const x = part.laneX(at);
    const width = part.gap - 10;
    const lines = Layout.nameLines(name, width - 6, LABEL * 1.17).map(words => [words, 'title']);
    if (role && name && lines.length < 2) lines.unshift([role, 'faint']);
    const first = part.header / 2 + 5 - (lines.length - 1) * 7.5;
    return make('g', { class: 'lane' }, nameTitle(name),
      make('rect', { class: 'head', x: x - width / 2, y: 2, width, height: part.header - 5, rx: 6 }),
      ...lines.map(([words, kind], row) => text(words, x, first + row * 15, kind, { 'text-anchor': 'middle' })));
  }

  // The name above a lane that is narrow, aslant; as much of it as reaches neither the top nor the right end.
  function slantedName({ name }, at, part) {
    const x = part.laneX(at);
    const y = part.header - 8;
    const angle = Layout.SLANT * Math.PI / 180;
    const room = Math.min((y - 8) / Math.sin(angle), (part.width - x - 4) / Math.cos(angle));
    const words = Layout.fit(Layout.shortName(name), room, SMALL * 1.1);
    return make('g', { class: 'lane' }, nameTitle(name), make('path', { class: 'life', d: `M${x} ${y + 2}V${part.header}` }),
      text(words, x, y, 'title', { transform: `rotate(${-Layout.SLANT} ${x} ${y})`, 'font-size': SMALL }));
  }

  return { make, text, drawRow, drawLives, drawStripes, drawBars, drawCallout, drawHeader, STYLE, COLORS };
})();
