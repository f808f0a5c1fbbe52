'use strict';

// The edit box: each edit runs the program over what stands in it, and hands script and transcript to the page as if they were dropped.
(() => {
  const byId = id => document.getElementById(id);
  const MOST_HELD = 64 << 20;
  const DIVIDERS = { script: '{"next":"script"}', transcript: '{"next":"transcript"}' };
  const ENDS = {
    0: 'done', 2: 'a line is bad', 5: 'there is not enough memory', 6: 'more than 67,108,864 bytes', 7: 'no twins',
    8: 'a record breaks a rule', 10: 'the transcript leaves the program\'s own',
  };
  const own = new WeakSet();
  let runner;

  const ready = (async () => {
    runner = await Runner.unpacked(globalThis.FEDCM_MODULE);
    byId('edited').disabled = false;
    say('');
  })();

  function say(words) { byId('edit-says').textContent = words; }

  // A form's text and status; after a trap, words of it, and the next call has a new instance.
  function told(form, text) {
    try {
      if (runner.held > MOST_HELD) runner.drop();
      const { status, bytes } = runner.call(form, text);
      return { status, text: new TextDecoder().decode(bytes) };
    } catch (error) {
      say(`The program trapped (${error.message}), so its instance was dropped; the next edit has a new one.`);
      return undefined;
    }
  }

  // The texts before and behind the first line that divides two, and what the second is.
  function divided(text) {
    for (const [kind, line] of Object.entries(DIVIDERS)) {
      const at = ('\n' + text).indexOf('\n' + line);
      if (at >= 0) {
        const rest = text.slice(at + line.length);
        if (/^\r?(\n|$)/.test(rest)) return { kind, first: text.slice(0, at), second: rest.replace(/^\r?\n?/, '') };
      }
    }
    return undefined;
  }

  function joined(first, kind, second) {
    return first + (first === '' || first.endsWith('\n') ? '' : '\n') + DIVIDERS[kind] + '\n' + second;
  }

  // Draws texts: the page takes them as files that are dropped.
  function draw(texts) {
    const data = new DataTransfer();
    texts.filter(text => text !== '').forEach((text, at) => data.items.add(new File([text], `${at}.jsonl`)));
    if (data.files.length === 0) return;
    const drop = new DragEvent('drop', { dataTransfer: data, bubbles: true, cancelable: true });
    own.add(drop);
    document.body.dispatchEvent(drop);
  }

  function runAlone(script) {
    const ran = told('run', script);
    if (ran === undefined) return;
    say(`run: ${ENDS[ran.status]}`);
    draw([script, ran.text]);
  }

  function compareTwins(text, first) {
    const twin = told('twin', text);
    const ran = twin && told('run', first);
    if (ran === undefined) return;
    say(`twin: ${twin.status === 0 ? 'twins' : ENDS[twin.status]} ${twin.text.trim()} The first script is drawn.`);
    draw([first, ran.text]);
  }

  function auditPair(text, first, second) {
    const audit = told('audit', text);
    const compared = audit && told('compare', text);
    if (compared === undefined) return;
    const kept = audit.status === 0 ? 'no rule is broken' : ENDS[audit.status];
    const alike = compared.status === 0 ? 'alike' : ENDS[compared.status];
    say(`audit: ${kept} ${audit.text.trim()} compare: ${alike} ${compared.text.trim()}`);
    draw([first, second]);
  }

  function edited() {
    performance.mark('edited');
    const text = byId('edited').value;
    const parts = divided(text);
    if (parts === undefined) runAlone(text);
    else if (parts.kind === 'script') compareTwins(text, parts.first);
    else auditPair(text, parts.first, parts.second);
  }

  async function edit(text) {
    byId('edited').value = text;
    byId('edit-box').open = true;
    await ready;
    edited();
  }

  // Whether a record of a transcript stands anywhere in a text.
  const hasRecord = text => text.split('\n').some(line => line.includes('"out"') && Reading.kindOf(line) !== 'script');

  // What texts that were given are: a script alone is run, two scripts are compared, a pair is audited; else the page has them as they are.
  function take(texts) {
    const scripts = texts.filter(text => !hasRecord(text));
    const transcripts = texts.filter(text => Reading.kindOf(text) === 'transcript');
    if (texts.length === 1 && scripts.length === 1) edit(texts[0]);
    else if (texts.length === 2 && scripts.length === 2) edit(joined(texts[0], 'script', texts[1]));
    else if (texts.length === 2 && scripts.length === 1 && transcripts.length === 1) edit(joined(scripts[0], 'transcript', transcripts[0]));
    else draw(texts);
  }

  async function takeFiles(event, files) {
    event.preventDefault();
    event.stopImmediatePropagation();
    document.body.classList.remove('over');
    take(await Promise.all([...files].map(file => file.text())));
  }

  function listen() {
    window.addEventListener('drop', event => {
      if (!own.has(event) && event.dataTransfer.files.length > 0) takeFiles(event, event.dataTransfer.files);
    }, true);
    window.addEventListener('change', event => {
      if (event.target.id === 'files') takeFiles(event, event.target.files);
    }, true);
    byId('edited').addEventListener('input', edited);
    byId('edit-example').addEventListener('change', event => {
      if (event.target.value !== '') edit(globalThis.FEDCM_EXAMPLES[event.target.value]);
    });
  }

  for (const name of Object.keys(globalThis.FEDCM_EXAMPLES)) {
    const option = document.createElement('option');
    option.textContent = name;
    byId('edit-example').append(option);
  }
  listen();
})();
