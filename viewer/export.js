'use strict';

// The rows that are shown, as an SVG of its own: with its style, for both modes, and without anything that a reader of XML refuses.
const Export = (() => {
  const WIDTH = 1180;
  const MOST_ROWS = 5000;
  const LEGEND = 40;
  const LEGEND_WORDS = [['nothing', 'neither'], ['user', 'the user'], ['page', 'the page'], ['both', 'the user and the page']];

  function legend(picture, y) {
    const group = Drawing.make('g', { transform: `translate(0 ${y})` }, Drawing.text('A request tells the provider:', 8, 22, 'faint'));
    LEGEND_WORDS.forEach(([tells, words], at) => {
      const x = 190 + at * 170;
      const mark = Drawing.make('rect', { class: 'mark', x, y: 10, width: 52, height: 16, rx: 8 });
      group.append(Drawing.make('g', { class: 'tells-' + tells }, mark, Drawing.text(tells, x + 26, 22, 'mark-text')),
        Drawing.text(words, x + 60, 22, 'faint'));
    });
    return group;
  }

  // The picture of rows of which all are shown, and none is chosen.
  function wholeOf(rows, session, width) {
    const picture = Layout.pictureOf(rows, session, width);
    for (const part of picture.parts) part.seat(undefined, [[0, rows.length - 1]]);
    return picture;
  }

  function svgOf(rows, session, words) {
    const shown = rows.slice(0, MOST_ROWS);
    const picture = wholeOf(shown, session, WIDTH);
    const height = picture.header + picture.height + LEGEND;
    const body = Drawing.make('g', { transform: `translate(0 ${picture.header})` }, Drawing.drawLives(picture, picture.height));
    shown.forEach((row, at) => body.append(Drawing.drawRow(picture, at, 0)));
    body.append(Drawing.drawStripes(picture, [0, shown.length - 1], 0));
    const sizes = { width: picture.width, height, viewBox: `0 0 ${picture.width} ${height}` };
    return Drawing.make('svg', { class: 'chart', role: 'img', ...sizes },
      Drawing.make('title', {}, 'A session of federated sign-in'), Drawing.make('desc', {}, words),
      Drawing.make('style', {}, Drawing.STYLE),
      Drawing.make('rect', { class: 'paper', width: picture.width, height }), body, Drawing.drawHeader(picture, session.titles),
      legend(picture, picture.header + picture.height));
  }

  // One element a line, so that two pictures can be compared.
  function textOf(rows, session, words) {
    const text = new XMLSerializer().serializeToString(svgOf(rows, session, words));
    return text.replace(/<g(?= class="row)|<g(?= class="header)|<g(?= transform="translate\(0 \d)/g, '\n$&') + '\n';
  }

  function save(text, name) {
    const link = document.createElement('a');
    link.href = URL.createObjectURL(new Blob([text], { type: 'image/svg+xml' }));
    link.download = name;
    link.click();
    setTimeout(() => URL.revokeObjectURL(link.href), 10000);
  }

  return { textOf, save, wholeOf, MOST_ROWS };
})();
