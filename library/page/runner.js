'use strict';

// The program itself as a WebAssembly module, for a page and for Node: a form over bytes hands a status and a text out.
class Runner {
  static NO_MEMORY = 5;
  // With these nothing is handed out: no memory, and a party that is none.
  static EMPTY = [5, 1];

  constructor(module) { this.module = module; }

  // An instance has a memory of its own, which never shrinks.
  get of() { return this.kept ??= new WebAssembly.Instance(this.module, {}).exports; }

  // How many bytes the instance has.
  get held() { return this.kept ? this.kept.memory.buffer.byteLength : 0; }

  drop() { this.kept = undefined; }

  // The version of the profile.
  profile() { return this.of.fedcm_profile(); }

  // What a form (run, check, twin, audit, compare, save; slice of a party) writes for a text or for bytes, and the number of its status.
  // An instance that trapped is dropped, since nothing is known of what it holds, and the trap is thrown on.
  call(form, given, party) {
    try {
      return this.hand(this.of['fedcm_' + form], form === 'slice' ? [party, given] : [given]);
    } catch (error) {
      this.drop();
      throw error;
    }
  }

  view(place, size) { return new Uint8Array(this.of.memory.buffer, Number(place), size); }

  // Room for so many bytes while an action is done with its place; undefined where there is no memory.
  lend(size, action) {
    const place = this.of.fedcm_room(BigInt(size));
    if (place === 0n) return undefined;
    const done = action(place);
    this.of.fedcm_free(place);
    return done;
  }

  // Places and sizes of texts while an action is done with them.
  lendTexts(texts, action, words = []) {
    if (texts.length === 0) return action(words);
    const [text, ...rest] = texts;
    const bytes = typeof text === 'string' ? new TextEncoder().encode(text) : text;
    return this.lend(bytes.length + 1, place => {
      this.view(place, bytes.length).set(bytes);
      return this.lendTexts(rest, action, [...words, place, BigInt(bytes.length)]);
    });
  }

  // Where the first guess of the room is too small, the form runs again.
  hand(form, texts) {
    const handed = this.lendTexts(texts, words => this.lend(8, size => {
      const into = room => this.lend(room, to => {
        const status = form(...words, to, BigInt(room), size);
        if (Runner.EMPTY.includes(status)) return { status, length: 0, bytes: new Uint8Array(0) };
        const length = Number(new DataView(this.of.memory.buffer).getBigUint64(Number(size), true));
        return { status, length, bytes: length <= room ? this.view(to, length).slice() : undefined };
      });
      const first = into(2 * Number(words.at(-1)) + 65536);
      return first && first.bytes === undefined ? into(first.length) : first;
    }));
    return handed ?? { status: Runner.NO_MEMORY, bytes: new Uint8Array(0) };
  }

  // A run that is fed its script in pieces; undefined where there is no memory.
  open() {
    const place = this.of.fedcm_room(16n);
    if (place === 0n) return undefined;
    this.view(place, 16).fill(0);
    if (this.of.fedcm_open(place)) return new Fed(this, place);
    this.of.fedcm_free(place);
    return undefined;
  }

  // A runner of a module that was packed by gzip and base64.
  static async unpacked(text) {
    const packed = Uint8Array.from(atob(text), each => each.charCodeAt(0));
    const plain = new Response(new Blob([packed]).stream().pipeThrough(new DecompressionStream('gzip')));
    return new Runner(await WebAssembly.compile(await plain.arrayBuffer()));
  }
}

// A run in an instance's memory. `feed` and `finish` answer 255 while it goes on, else the number of its status.
class Fed {
  static GOES_ON = 255;

  constructor(runner, place) {
    this.runner = runner;
    this.place = place;
    this.taken = 0;
  }

  feed(bytes) {
    return this.runner.lend(bytes.length + 1, from => {
      this.runner.view(from, bytes.length).set(bytes);
      return this.runner.of.fedcm_feed(this.place, from, BigInt(bytes.length));
    }) ?? Runner.NO_MEMORY;
  }

  finish() { return this.runner.of.fedcm_finish(this.place); }

  // What was written since this was last asked; undefined where there is no memory.
  text() {
    const { of } = this.runner;
    const size = Number(this.runner.lend(1, to => of.fedcm_text(this.place, BigInt(this.taken), to, 0n)) ?? this.taken);
    return this.runner.lend(size - this.taken + 1, to => {
      of.fedcm_text(this.place, BigInt(this.taken), to, BigInt(size - this.taken));
      const got = this.runner.view(to, size - this.taken).slice();
      this.taken = size;
      return got;
    });
  }

  close() {
    this.runner.of.fedcm_close(this.place);
    this.runner.of.fedcm_free(this.place);
  }
}
if (typeof module !== 'undefined') module.exports = { Runner, Fed };
