'use strict';

// The chart in the page: a list of which only the rows in view are drawn. It scrolls by the browser's own means; what is drawn reaches
// beyond the view, and is drawn anew only where the view leaves it.
const Chart = (() => {
  const BEYOND = 600;
  const BASE = 20000;
  const MOST_HEIGHT = 12000000;
  const CALLOUT = 120;

  class View {
    constructor(box, { onChoose, onKey }) {
      this.box = box;
      this.onChoose = onChoose;
      this.onKey = onKey;
      this.header = box.querySelector('.lanes');
      this.sizer = box.querySelector('.sizer');
      this.svg = box.querySelector('.rows');
      this.chosen = -1;
      this.found = new Set();
      this.options = new Map();
      box.addEventListener('scroll', () => this.askDraw(), { passive: true });
      box.addEventListener('keydown', event => this.key(event));
      this.svg.addEventListener('click', event => this.click(event));
      new ResizeObserver(() => this.resize()).observe(box);
    }

    show(rows, session) {
      this.rows = rows;
      this.session = session;
      this.chosen = -1;
      this.box.removeAttribute('aria-activedescendant');
      this.box.scrollTop = 0;
      this.measure();
    }

    resize() {
      if (!this.rows || this.box.clientWidth === 0) return;
      if (this.box.clientWidth === this.measuredWidth) {
        this.askDraw();
        return;
      }
      const at = this.rows.length > 0 ? Layout.rowAt(this.picture.offsets, this.top()) : 0;
      this.measure();
      this.box.scrollTop = this.picture.offsets[at] / this.share();
      this.redraw();
    }

    measure() {
      this.measuredWidth = this.box.clientWidth;
      this.picture = Layout.pictureOf(this.rows, this.session, this.measuredWidth);
      this.sizer.style.height = Math.min(this.picture.height, MOST_HEIGHT) + 'px';
      this.sizer.style.width = this.picture.width + 'px';
      this.header.setAttribute('width', this.picture.width);
      this.header.setAttribute('height', this.picture.header);
      this.drawn = undefined;
      this.drawHeader();
      this.draw();
    }

    drawHeader() {
      this.header.replaceChildren(Drawing.drawHeader(this.picture, this.session.titles));
    }

    viewHeight() {
      return this.box.clientHeight - this.picture.header;
    }

    // A very high picture is more than a browser scrolls, so there the scrolled height stands for the whole by its share.
    share() {
      const scrolled = Math.min(this.picture.height, MOST_HEIGHT) - this.viewHeight();
      return scrolled > 0 ? (this.picture.height - this.viewHeight()) / scrolled : 1;
    }

    top() {
      return this.box.scrollTop * this.share();
    }

    askDraw() {
      this.asked ??= requestAnimationFrame(() => {
        this.asked = undefined;
        this.draw();
      });
    }

    // Draws the rows in view and some beyond, and keeps those that are drawn already.
    draw() {
      const top = this.top();
      const bottom = top + this.viewHeight();
      if (this.rows.length === 0) return this.clear(0);
      const isSeated = this.seat(top, bottom);
      this.tellTime(top);
      if (isSeated && this.reaches(top, bottom)) return undefined;
      const { offsets } = this.picture;
      const first = Layout.rowAt(offsets, Math.max(0, top - BEYOND));
      const last = Layout.rowAt(offsets, bottom + BEYOND);
      const base = Math.floor(offsets[first] / BASE) * BASE;
      if (!isSeated || !this.drawn || this.drawn.base !== base) this.clear(base);
      for (const [at, option] of this.options) {
        if (at < first || at > last) {
          option.remove();
          this.options.delete(at);
        }
      }
      this.add(first, last, base);
      this.svg.style.top = this.box.scrollTop + base - top + 'px';
      this.drawn = { base, first, last, top: offsets[first], bottom: offsets[last + 1] };
      return undefined;
    }

    // The time of the first row in view, where the script has times.
    tellTime(top) {
      const { moments, header } = this.session;
      const clock = this.header.querySelector('.clock');
      if (!clock || !moments?.length) return;
      const { at } = this.rows[Layout.rowAt(this.picture.offsets, top)];
      let low = 0;
      for (let high = moments.length; low < high;) {
        const middle = (low + high) >> 1;
        if (moments[middle].at <= at) low = middle + 1;
        else high = middle;
      }
      const words = Wording.momentOf(low > 0 ? moments[low - 1].event.time : header.now).slice(11);
      if (clock.textContent !== words) clock.textContent = words;
    }

    // Gives the lanes to the rows in view before those beyond, where one of them has none. Tells whether all lanes are what they were.
    seat(top, bottom) {
      const { offsets, parts } = this.picture;
      const [first, last, before, behind] = [top, bottom, top - BEYOND, bottom + BEYOND].map(y => Layout.rowAt(offsets, Math.max(0, y)));
      const call = this.rows[this.chosen]?.of;
      const changed = parts.filter(part => !part.isSeated(call, first, last)
        && part.seat(call, [[first, last], [last + 1, behind], [before, first - 1]]));
      if (changed.length > 0) this.drawHeader();
      return changed.length === 0;
    }

    // Whether what is drawn still reaches beyond the view.
    reaches(top, bottom) {
      if (!this.drawn || this.share() !== 1) return false;
      return (this.drawn.first === 0 || this.drawn.top <= top - BEYOND / 2)
        && (this.drawn.last === this.rows.length - 1 || this.drawn.bottom >= bottom + BEYOND / 2);
    }

    // What is drawn stands at heights from a base on, since far heights are not exact in SVG. Behind the rows stand the lanes and the bars
    // of the chosen call, so that words stay whole; before them the stripes, and the whole text of the chosen row.
    clear(base) {
      const height = Math.max(0, Math.min(this.picture.height - base, 2 * BASE));
      this.options = new Map();
      this.bars = Drawing.make('g');
      this.stripes = Drawing.make('g');
      this.svg.setAttribute('width', this.picture.width);
      this.svg.setAttribute('height', height + CALLOUT);
      this.svg.replaceChildren(Drawing.drawLives(this.picture, height), this.bars, this.stripes);
    }

    add(first, last, base) {
      const chosen = this.rows[this.chosen];
      const bars = Drawing.drawBars(this.picture, [first, last], base, chosen);
      const stripes = Drawing.drawStripes(this.picture, [first, last], base, chosen);
      if (this.chosen >= first && this.chosen <= last) this.addCallout(stripes, base);
      this.bars.replaceWith(bars);
      this.stripes.replaceWith(stripes);
      Object.assign(this, { bars, stripes });
      let next = stripes;
      for (let at = last; at >= first; at -= 1) {
        if (!this.options.has(at)) {
          const option = this.option(at, base);
          this.svg.insertBefore(option, next);
          this.options.set(at, option);
        }
        next = this.options.get(at);
      }
    }

    addCallout(front, base) {
      const option = this.options.get(this.chosen) ?? this.option(this.chosen, base);
      const end = this.top() + this.viewHeight();
      if (option.classList.contains('cut')) front.append(Drawing.drawCallout(this.picture, this.chosen, base, end));
    }

    // Whether a row is another call's than the chosen one, where there are several.
    isDim(row) {
      const call = this.rows[this.chosen]?.of;
      if (!call || this.session.calls < 2) return false;
      return row.of !== call && !row.closes?.includes(call) && call.first?.decision !== row;
    }

    option(at, base) {
      const drawn = Drawing.drawRow(this.picture, at, base);
      drawn.id = 'row-' + at;
      drawn.setAttribute('role', 'option');
      drawn.setAttribute('aria-posinset', at + 1);
      drawn.setAttribute('aria-setsize', this.rows.length);
      drawn.setAttribute('aria-selected', at === this.chosen);
      drawn.setAttribute('aria-label', Wording.sentenceOf(this.rows[at]));
      drawn.classList.toggle('chosen', at === this.chosen);
      drawn.classList.toggle('found', this.found.has(this.rows[at]));
      drawn.classList.toggle('dim', this.isDim(this.rows[at]));
      return drawn;
    }

    redraw() {
      this.drawn = undefined;
      if (this.rows) this.draw();
    }

    mark(found) {
      this.found = found;
      this.redraw();
    }

    click(event) {
      const row = event.target.closest('.row');
      if (row) this.choose(Number(row.id.slice(4)));
    }

    // Chooses the row at a place of the list, and brings it into view.
    choose(at) {
      if (!this.rows?.length) return;
      const chosen = Math.max(0, Math.min(at, this.rows.length - 1));
      this.bringIntoView(chosen);
      this.setChosen(chosen);
      this.onChoose(this.rows[this.chosen]);
    }

    bringIntoView(at) {
      const start = this.picture.offsets[at];
      const end = this.picture.offsets[at + 1];
      const top = this.top();
      if (start < top) this.box.scrollTop = start / this.share();
      else if (end > top + this.viewHeight()) this.box.scrollTop = (end - this.viewHeight()) / this.share() + 1;
    }

    isInView(at) {
      return this.picture.offsets[at] >= this.top() && this.picture.offsets[at + 1] <= this.top() + this.viewHeight();
    }

    // Shows the chart again after it was hidden, where a browser forgets how far it was scrolled.
    reopen() {
      this.measure();
      if (this.chosen >= 0) this.bringIntoView(this.chosen);
      this.redraw();
    }

    place() {
      return { top: this.top(), chosen: this.chosen };
    }

    restore({ top, chosen }) {
      this.box.scrollTop = top / this.share();
      this.setChosen(chosen);
    }

    setChosen(at) {
      this.chosen = at;
      if (at >= 0) this.box.setAttribute('aria-activedescendant', 'row-' + at);
      else this.box.removeAttribute('aria-activedescendant');
      this.redraw();
    }

    chooseRow(row) {
      const at = this.rows.indexOf(row);
      if (at >= 0) this.choose(at);
      return at >= 0;
    }

    key(event) {
      if (event.altKey || event.ctrlKey || event.metaKey) return;
      const page = Math.max(1, Math.floor(this.viewHeight() / (2 * Layout.ROW)));
      const steps = { ArrowDown: 1, ArrowUp: -1, PageDown: page, PageUp: -page };
      if (event.key in steps) this.choose(this.chosen < 0 ? 0 : this.chosen + steps[event.key]);
      else if (event.key === 'Home') this.choose(0);
      else if (event.key === 'End') this.choose(this.rows.length - 1);
      else if (!this.onKey(event.key)) return;
      event.preventDefault();
    }
  }

  return { View };
})();
