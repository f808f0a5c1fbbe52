'use strict';

// Recordings on the page: converts what is given, shows what was made up, moved and left out, draws either order, and saves the files.
const Capture = (() => {
  const byId = id => document.getElementById(id);
  const MOST_LINES = 100;
  const PARTS = { script: 'script.jsonl', transcript: 'transcript.jsonl', pair: 'pair.jsonl', report: 'report.txt' };
  const TITLES = [['made', 'Made up'], ['moved', 'Moved'], ['left', 'Left out'], ['unseen', 'What this recording does not show']];

  let files = [];
  let recording;
  let shown;
  let draw = () => {};

  const make = (name, text) => {
    const element = document.createElement(name);
    element.textContent = text;
    return element;
  };

  function listOf(title, lines) {
    const list = document.createElement('ul');
    list.append(...lines.slice(0, MOST_LINES).map(line => make('li', Decoding.oneLine(line))));
    if (lines.length > MOST_LINES) list.append(make('li', `and ${lines.length - MOST_LINES} more`));
    return [make('h3', title), lines.length > 0 ? list : make('p', 'Nothing.')];
  }

  // What is said of the conversion that is drawn.
  function tell() {
    const { requests, apart, calls, lists, clauses } = shown;
    const places = apart === 0 ? 'all of them in calls' : `${apart} of them in no call`;
    byId('capture-said').textContent = requests === 0 ? 'No FedCM request is in this recording: there is nothing to audit.'
      : `${requests} FedCM requests, ${places}; ${calls} calls. Drop further recordings of the same minutes, or save the pair for `
        + '`./fedcm audit`.';
    byId('capture').classList.toggle('apart', requests === 0 || apart > 0);
    const judged = Object.entries(clauses).map(([clause, words]) => `${clause}: ${words}`);
    byId('capture-lists').replaceChildren(...TITLES.flatMap(([list, title]) => listOf(title, lists[list])),
      ...listOf('The clauses of the audit', judged));
  }

  function convert() {
    shown = Traffic.convert(recording, { order: byId('capture-order').value, values: byId('capture-values').checked });
    performance.mark('converted');
    tell();
    return [shown.script, shown.transcript];
  }

  function forget() {
    files = [];
    recording = shown = undefined;
    byId('capture').hidden = true;
  }

  function refuse(error) {
    forget();
    byId('capture').hidden = false;
    byId('capture').classList.add('unreadable');
    byId('capture-said').textContent = `This recording cannot be read: ${error.message}.`;
  }

  // The texts to draw of files: recordings become a script and its transcript; recordings of further kinds go with those given before.
  async function texts(list) {
    const given = await Traffic.filesOf(list);
    const kinds = given.map(({ text }) => Traffic.kindOf(text));
    if (!kinds.some(Boolean)) {
      forget();
      return given.map(({ text }) => text);
    }
    const isFurther = files.every(({ text }) => !kinds.includes(Traffic.kindOf(text)));
    files = isFurther ? [...files, ...given] : given;
    try {
      recording = Traffic.read(files);
    } catch (error) {
      if (!(error instanceof Bytes.Unreadable)) throw error;
      refuse(error);
      return [];
    }
    byId('capture').hidden = false;
    byId('capture').classList.remove('unreadable');
    return convert();
  }

  function save(part) {
    const text = part === 'report' ? Traffic.report(shown) : shown[part];
    Export.save(text, `session.${shown.order}.${PARTS[part]}`);
  }

  // `drawing` takes the texts that are to be drawn.
  function listen(drawing) {
    draw = drawing;
    byId('clear').addEventListener('click', forget);
    for (const id of ['capture-order', 'capture-values']) byId(id).addEventListener('change', () => recording && draw(convert()));
    for (const part of Object.keys(PARTS)) byId(`save-${part}`).addEventListener('click', () => shown && save(part));
  }

  return { texts, listen };
})();
