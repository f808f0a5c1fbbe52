'use strict';

// The rows of the chart as a table of pages, for a screen reader and for whoever would rather read.
const Table = (() => {
  const ON_A_PAGE = 100;

  class Pages {
    constructor(box, onChoose) {
      this.body = box.querySelector('tbody');
      this.place = box.querySelector('.place');
      this.table = box.querySelector('table');
      this.buttons = Object.fromEntries([...box.querySelectorAll('button[data-go]')].map(button => [button.dataset.go, button]));
      this.onChoose = onChoose;
      for (const [go, button] of Object.entries(this.buttons)) button.addEventListener('click', () => this.go(go));
    }

    show(rows, found) {
      this.rows = rows;
      this.found = found;
      this.page = 0;
      this.draw();
    }

    pages() {
      return Math.max(1, Math.ceil(this.rows.length / ON_A_PAGE));
    }

    go(where) {
      const to = { first: 0, back: this.page - 1, on: this.page + 1, last: this.pages() - 1 }[where];
      this.page = Math.max(0, Math.min(to, this.pages() - 1));
      this.draw();
    }

    reveal(at) {
      this.page = Math.floor(Math.max(0, at) / ON_A_PAGE);
      this.draw(at);
      this.body.querySelector('.chosen')?.scrollIntoView({ block: 'nearest' });
    }

    focus() {
      (this.body.querySelector('.chosen button') ?? this.body.querySelector('button'))?.focus();
    }

    draw(chosen = -1) {
      const first = this.page * ON_A_PAGE;
      const shown = this.rows.slice(first, first + ON_A_PAGE);
      this.table.setAttribute('aria-rowcount', this.rows.length + 1);
      this.body.replaceChildren(...shown.map((row, at) => this.line(row, first + at, chosen)));
      this.place.textContent = this.rows.length === 0 ? 'No rows' : `Rows ${first + 1} to ${first + shown.length} of ${this.rows.length}`;
      const isFirst = this.page === 0;
      const isLast = this.page === this.pages() - 1;
      for (const [go, button] of Object.entries(this.buttons)) button.disabled = ['first', 'back'].includes(go) ? isFirst : isLast;
    }

    line(row, at, chosen) {
      const { title } = Wording.wordsOf(row.sides?.find(Boolean) ?? row);
      const line = document.createElement('tr');
      line.setAttribute('aria-rowindex', at + 2);
      line.classList.toggle('chosen', at === chosen);
      line.classList.toggle('found', this.found.has(row));
      line.classList.toggle('stands-out', Boolean(row.first || row.decides || row.fault || row.ends));
      line.classList.toggle('grey', Boolean(row.ignored || row.unread || row.isFaint));
      const number = document.createElement('button');
      number.textContent = row.line === undefined ? 'end' : row.line;
      number.setAttribute('aria-label', `Details of ${row.line === undefined ? 'the end' : 'line ' + row.line}: ${title}`);
      number.addEventListener('click', () => this.onChoose(at));
      const head = document.createElement('th');
      head.scope = 'row';
      head.append(number);
      line.append(head, ...(row.sides ? pairCells(row, title) : cells(row, title)).map(cell));
      return line;
    }
  }

  function cells(row, title) {
    const lanes = row.from === row.to ? ['', ''] : [Wording.laneName(row.from), Wording.laneName(row.to)];
    const { faultText, wordsOf, firstText, decidesText, tiesText } = Wording;
    const texts = [faultText(row), wordsOf(row).text, firstText(row), decidesText(row), tiesText(row)];
    return [row.call ?? '', Wording.KINDS[row.kind], title, ...lanes, row.tells ?? '', texts.filter(Boolean).join(' · ')];
  }

  // A pair of two worlds has its sentence.
  function pairCells(row, title) {
    const first = row.sides.find(Boolean);
    return [row.call ?? '', Wording.KINDS[first.kind], title, '', '', first.tells ?? '', Wording.sentenceOf(row)];
  }

  function cell(words) {
    const made = document.createElement('td');
    made.textContent = words;
    return made;
  }

  return { Pages };
})();
