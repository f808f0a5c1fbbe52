'use strict';

// What texts were given: one script with its transcript, or two of each, and what the program says of them.
const Given = (() => {
  const DIVIDER = /^[ \t\r]*\{[ \t]*"next"[ \t]*:[ \t]*"script"[ \t]*\}[ \t\r]*$/m;
  const LOOKED_AT = 200000;

  // The two scripts of an input of `twin`, or the one text.
  function scriptsOf(text) {
    const found = DIVIDER.exec(text);
    return found ? [text.slice(0, found.index), text.slice(found.index + found[0].length + 1)] : [text];
  }

  // How many of the sites and origins in a transcript stand in a script.
  function fit(script, transcript) {
    const front = transcript.slice(0, LOOKED_AT);
    const found = new Set();
    for (const [, site, origin] of front.matchAll(/"site":"([^"\\]+)"|Origin: https?:\/\/([^"\\\s]+)/g)) found.add(site ?? origin);
    for (const [, client] of front.matchAll(/client_id=([\w-]+)/g)) found.add(`"${client}"`);
    return [...found].filter(part => script.includes(part)).length / Math.max(1, found.size);
  }

  // Which transcript goes with which script: in the order given, but where the other order fits better.
  function matched([one, two], transcripts) {
    const [first, second] = transcripts;
    if (one === undefined || two === undefined || first === undefined) return transcripts;
    const asGiven = fit(one, first) + (second === undefined ? 0 : fit(two, second));
    const turned = fit(two, first) + (second === undefined ? 0 : fit(one, second));
    return turned > asGiven ? [second, first] : transcripts;
  }

  // Whether a script has its transcript behind it, in one text.
  const hasRecords = text => /^[ \t]*\{.*"out"[ \t]*:/m.test(text);

  class Texts {
    constructor() {
      this.clear();
    }

    clear() {
      Object.assign(this, { scripts: [], transcripts: [], verdict: undefined, before: undefined });
      Object.assign(this, { isOneOfSeveral: false, isExample: false });
    }

    setExample(texts) {
      this.clear();
      this.add(texts);
      this.isExample = true;
    }

    // Whether each script that stands has its transcript.
    isWhole() {
      const has = this.transcripts.length + this.scripts.filter(hasRecords).length;
      return this.scripts.length > 0 && has >= this.scripts.length;
    }

    // Where a script and a transcript stand, a single new text begins a new session; what the program says is added to what stands.
    add(texts) {
      const kinds = texts.map(Reading.kindOf);
      const isOne = texts.length === 1;
      if (isOne && kinds[0] === 'script') this.addScript(texts[0]);
      else {
        if (!isOne || (kinds[0] !== 'verdict' && this.isWhole())) this.clear();
        texts.forEach((text, at) => this.put(text, kinds[at]));
      }
      for (const [list, most] of [[this.scripts, 2], [this.transcripts, Math.max(1, this.scripts.length)]]) {
        if (list.length > most) [this.isOneOfSeveral] = [true, list.splice(0, list.length - most)];
      }
    }

    // A script that comes alone goes beside one that stands without a transcript. Where a whole session stands it is drawn in its place,
    // and can be turned beside it.
    addScript(text) {
      const { scripts: [script], transcripts: [transcript], verdict } = this;
      const isFurther = this.scripts.length === 1 && !this.isExample && scriptsOf(text).length === 1;
      const isBeside = isFurther && !this.isWhole();
      if (this.scripts.length > 0) this.clear();
      this.put(text, 'script');
      if (isFurther) this.before = { script, transcript };
      if (isBeside) this.turn();
      if (isBeside) this.verdict = verdict;
    }

    put(text, kind) {
      if (kind === 'verdict') this.verdict = text;
      else if (kind === 'transcript') this.transcripts.push(text);
      else this.scripts.push(...scriptsOf(text));
    }

    // What can be chosen of two scripts that were given one after the other: to draw the second beside the first, or alone.
    choice() {
      if (!this.before) return undefined;
      return this.scripts.length === 2 ? 'alone' : 'beside';
    }

    // The second script beside the first, or alone again.
    turn() {
      this.verdict = undefined;
      if (this.choice() === 'beside') {
        const { script, transcript } = this.before;
        this.scripts.unshift(script);
        if (transcript !== undefined) this.transcripts.unshift(transcript);
      } else {
        const [first, second] = matched(this.scripts, this.transcripts);
        this.before = { script: this.scripts.shift(), transcript: first };
        this.transcripts = [second].filter(text => text !== undefined);
      }
    }

    // The texts of each world that is to be drawn.
    worlds() {
      const transcripts = matched(this.scripts, this.transcripts);
      if (this.scripts.length < 2) return [[this.scripts[0], transcripts[0], this.verdict].filter(text => text !== undefined)];
      return this.scripts.map((script, at) => [script, transcripts[at]].filter(text => text !== undefined));
    }
  }

  return { Texts };
})();
