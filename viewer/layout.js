'use strict';

// Where everything stands: a lane for each party, a stripe for each pending call, a height for each row. Only sizes by character counts
// are used, never those that a browser measures, so one session gives one picture on every machine.
const Layout = (() => {
  const NARROW = 720;
  const SMALL = 11;
  const ROW = 30;
  const LINE = 16;
  const BOXED = 84;
  const LEAST = { wide: 38, narrow: 26 };
  const HEAD = { boxed: 46, slanted: 106 };
  const SLANT = 38;
  const MOST_STRIPES = 24;
  const COLORS = 6;
  const FURTHER = { page: 'further pages', provider: 'further providers' };

  const widthOf = (text, size) => {
    let width = 0;
    for (const character of text) width += character.codePointAt(0) >= 0x1100 ? size : size * 0.56;
    return width;
  };

  // As much of a text as the width takes.
  function fit(text, width, size) {
    if (widthOf(text, size) <= width) return text;
    let taken = size;
    let cut = '';
    for (const character of text) {
      taken += widthOf(character, size);
      if (taken > width) break;
      cut += character;
    }
    return cut + '…';
  }

  // A text in lines that the width takes, cut between words where there are such.
  function wrap(text, width, size) {
    const lines = [''];
    for (const part of text.split(/(?<=[ /&?=:·-])/)) {
      let rest = part;
      if (lines.at(-1) !== '' && widthOf(lines.at(-1) + rest.trimEnd(), size) > width) lines.push('');
      while (widthOf(rest.trimEnd(), size) > width && rest.length > 1) {
        const most = Math.max(1, Math.floor(width / (size * 0.56)));
        lines[lines.length - 1] += rest.slice(0, most);
        lines.push('');
        rest = rest.slice(most);
      }
      lines[lines.length - 1] += rest;
    }
    return lines.map(line => line.trimEnd()).filter(line => line !== '');
  }

  const isFixed = lane => lane === Session.USER || lane === Session.BROWSER;

  // The lanes of rows: the user, the pages, the browser, the providers. Where there is no room for a lane each, a side has seats, which go
  // to those that are in view, and a last lane for the further ones.
  class Lanes {
    constructor(rows, providers, most) {
      this.sides = { page: new Set(), provider: new Set() };
      this.sideOf = lane => providers.has(lane) || /^provider (\d+ )?of /.test(lane) ? 'provider' : 'page';
      for (const row of rows) {
        for (const lane of row === undefined ? [] : [row.from, row.to]) {
          if (!isFixed(lane)) this.sides[this.sideOf(lane)].add(lane);
        }
      }
      this.seats = this.share(most - 2);
      this.isMoving = ['page', 'provider'].some(side => this.seats[side] < this.sides[side].size);
      this.place = new Map();
      this.further = {};
      this.seated = { page: [], provider: [] };
      this.list = [];
      this.build();
      if (!this.isMoving) this.seat([...this.sides.page, ...this.sides.provider]);
    }

    // How many lanes each side gets of those that there is room for.
    share(room) {
      const { page, provider } = this.sides;
      if (page.size + provider.size <= room) return { page: page.size, provider: provider.size };
      const least = Math.max(2, Math.floor(room / 2));
      const pages = Math.min(page.size, Math.max(least, room - provider.size));
      return { page: pages, provider: Math.min(provider.size, Math.max(2, room - pages)) };
    }

    build() {
      const add = (name, role) => this.list.push({ name, role }) - 1;
      const addSide = side => {
        const isFolded = this.seats[side] < this.sides[side].size;
        const first = this.list.length;
        for (let seat = 0; seat < this.seats[side] - (isFolded ? 1 : 0); seat += 1) add('', side);
        this.seated[side] = { first, names: Array(this.list.length - first).fill(undefined) };
        if (isFolded) this.further[side] = add(FURTHER[side], '');
      };
      this.place.set(Session.USER, add('user', ''));
      addSide('page');
      this.place.set(Session.BROWSER, add('browser', ''));
      addSide('provider');
    }

    has(lane) {
      return this.place.has(lane);
    }

    // Gives seats to lanes, those that are named first before others; whoever has one keeps it. Tells whether anything changed.
    seat(wanted) {
      let isChanged = false;
      for (const side of ['page', 'provider']) {
        const { first, names } = this.seated[side];
        const own = new Set();
        for (const lane of wanted) {
          if (own.size < names.length && !isFixed(lane) && this.sideOf(lane) === side) own.add(lane);
        }
        const free = [];
        names.forEach((name, at) => { if (!own.has(name)) free.push(at); });
        for (const lane of own) {
          if (this.place.has(lane)) continue;
          const at = free.shift();
          this.place.delete(names[at]);
          names[at] = lane;
          this.place.set(lane, first + at);
          this.list[first + at].name = lane;
          isChanged = true;
        }
      }
      return isChanged;
    }

    at(lane) {
      return this.place.get(lane) ?? this.further[this.sideOf(lane)];
    }
  }

  // The stripes of pending calls, from the row of a call's beginning to that of its end, as far as these rows show them. Each has a column
  // that is free for so long; from a number of columns on they share the last.
  function stripesOf(rows) {
    const places = [];
    const calls = new Set();
    rows.forEach((row, at) => {
      if (row === undefined) return;
      places.push(at);
      if (row.of?.began) calls.add(row.of);
    });
    const stripes = [...calls].map(call => {
      const first = places[after(rows, places, call.began.at - 1)];
      const last = call.ended ? places[after(rows, places, call.ended.at) - 1] : places.at(-1);
      return { call, first, last: Math.max(first, last), isOpen: !call.ended };
    });
    stripes.sort((one, other) => one.first - other.first);
    const columns = [];
    const of = new Map();
    for (const stripe of stripes) {
      let column = columns.findIndex(list => list.at(-1).last < stripe.first);
      if (column < 0) column = Math.min(columns.length, MOST_STRIPES - 1);
      columns[column] ??= [];
      of.set(stripe.call, put(columns[column], stripe));
      stripe.column = column;
    }
    return { places, columns, of };
  }

  // Puts a stripe below those of a column, or makes the last one longer where they share it.
  function put(column, stripe) {
    const last = column.at(-1);
    if (!last || last.last < stripe.first) {
      column.push(stripe);
      return stripe;
    }
    last.last = Math.max(last.last, stripe.last);
    last.isShared = true;
    return last;
  }

  // Of the places of rows the first whose row comes behind a number.
  function after(rows, places, number) {
    let low = 0;
    let high = places.length;
    while (low < high) {
      const middle = (low + high) >> 1;
      if (rows[places[middle]].at > number) high = middle;
      else low = middle + 1;
    }
    return low;
  }

  const lanesOf = call => call ? [call.pageLane, ...call.providers, ...Object.values(call.lanes)].filter(Boolean) : [];

  // Lanes, stripes and gutters of rows; where the rows stand is what `offsets` says, which another may give.
  class Columns {
    constructor(rows, providers, width) {
      this.rows = rows;
      this.narrow = width < NARROW;
      this.stripes = stripesOf(rows);
      this.setGutters(rows);
      const room = width - this.gutter;
      const least = this.narrow ? LEAST.narrow : LEAST.wide;
      this.lanes = new Lanes(rows, providers, Math.max(6, Math.floor((room - SLANT * 2) / least)));
      const count = this.lanes.list.length;
      this.slanted = room / count < BOXED;
      this.spare = this.slanted ? SLANT * 2 : 0;
      this.gap = Math.max(least, (room - this.spare) / count);
      this.width = Math.round(Math.max(width, this.gutter + this.gap * count + this.spare));
      this.header = this.slanted ? HEAD.slanted : HEAD.boxed;
      this.browser = this.x(Session.BROWSER);
    }

    // Numbers of lines at the left, then the stripes, then numbers of calls.
    setGutters(rows) {
      let [line, call] = [100, 1];
      for (const row of rows) {
        if (row?.line > line) line = row.line;
        if (row?.call > call) call = row.call;
      }
      const count = this.stripes.columns.length;
      this.pitch = this.narrow || count > 12 ? 5 : 9;
      this.stripesAt = 8 + Math.ceil(widthOf(String(line), SMALL)) + 10;
      this.callAt = this.stripesAt + this.pitch * count + 4;
      this.gutter = this.callAt + Math.max(Math.ceil(widthOf(String(call), SMALL)), 22) + 8;
    }

    stripeX(column) {
      return this.stripesAt + this.pitch * column;
    }

    x(lane) {
      return this.laneX(this.lanes.at(lane));
    }

    laneX(at) {
      return Math.round(this.gutter + this.gap * (at + 0.5));
    }

    isShared(lane) {
      return !isFixed(lane) && !this.lanes.has(lane);
    }

    // Where a row stands among these, if it does.
    placeOf(row) {
      const { places } = this.stripes;
      const place = places[after(this.rows, places, row.at - 1)];
      return this.rows[place] === row ? place : undefined;
    }

    // Whether a call and the rows from a first to a last have each of their lanes.
    isSeated(call, first, last) {
      if (!this.lanes.isMoving) return true;
      const lanes = lanesOf(call);
      for (const row of this.rows.slice(first, last + 1)) if (row) lanes.push(row.from, row.to);
      return lanes.every(lane => this.lanes.has(lane));
    }

    // Gives the lanes to a call and to the rows of ranges, those of the first range before others. Tells whether one changed.
    seat(call, ranges) {
      if (!this.lanes.isMoving) return false;
      const wanted = lanesOf(call);
      for (const [first, last] of ranges) {
        for (const row of this.rows.slice(first, last + 1)) if (row) wanted.push(row.from, row.to);
      }
      return this.lanes.seat(wanted);
    }
  }

  function heightOf(row) {
    if (row?.kind !== 'dialog' && row?.kind !== 'window') return ROW;
    return ROW + 4 + LINE * Wording.boxLines(row).length;
  }

  // Heights of rows one below the other.
  function offsetsOf(rows, height) {
    const offsets = new Float64Array(rows.length + 1);
    rows.forEach((row, at) => { offsets[at + 1] = offsets[at] + height(row); });
    return offsets;
  }

  // The row at a height, the first or the last where the height is beyond them.
  function rowAt(offsets, y) {
    let low = 0;
    let high = offsets.length - 2;
    while (low < high) {
      const middle = (low + high + 1) >> 1;
      if (offsets[middle] <= y) low = middle;
      else high = middle - 1;
    }
    return low;
  }

  class Picture extends Columns {
    constructor(rows, providers, width) {
      super(rows, providers, width);
      this.offsets = offsetsOf(rows, heightOf);
      this.height = this.offsets[rows.length];
      this.parts = [this];
    }
  }

  // Two worlds side by side: each row has a side of each, at one height.
  class Worlds {
    constructor(pairs, worlds, width) {
      this.rows = pairs;
      this.half = Math.floor(width / 2);
      this.parts = worlds.map(({ providers }, at) => new Columns(pairs.map(({ sides }) => sides[at]), providers, this.half - 8));
      this.second = this.parts[0].width + 16;
      this.width = this.second + this.parts[1].width;
      this.header = 22 + Math.max(...this.parts.map(({ header }) => header));
      this.offsets = offsetsOf(pairs, ({ sides, ends }) => Math.max(...sides.map(heightOf)) + (ends ? ROW : 0));
      this.height = this.offsets[pairs.length];
      // Stripes leave out the words of the quiet line.
      const quietLine = pairs.findIndex(({ ends }) => ends);
      for (const part of this.parts) Object.assign(part, { offsets: this.offsets, quietLine });
    }
  }

  const pictureOf = (rows, { worlds, providers }, width) => worlds ? new Worlds(rows, worlds, width) : new Picture(rows, providers, width);

  // A lane's name in lines that fit above it.
  function nameLines(name, width, size) {
    const text = shortName(name);
    const lines = [''];
    for (const part of text.split(/(?<=[.:/ -])/)) {
      if (lines.at(-1) !== '' && widthOf(lines.at(-1) + part, size) > width) lines.push('');
      lines[lines.length - 1] += part;
    }
    return lines.slice(0, 2).map(line => fit(line, width, size));
  }

  const shortName = name => Decoding.oneLine(name).replace(/https:\/\//, '');

  return { pictureOf, rowAt, fit, wrap, widthOf, nameLines, shortName, ROW, LINE, SLANT, COLORS };
})();
