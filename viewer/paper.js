'use strict';

// The rows that are shown, on paper: the whole chart in pieces that fit on a page, each with the names of the lanes.
const Paper = (() => {
  const WIDTH = 940;
  const HEIGHT = 1220;

  // From where to where the rows go of which a page has room.
  function piecesOf({ rows, offsets, header }) {
    const pieces = [];
    for (let first = 0; first < rows.length;) {
      let last = first;
      while (last + 1 < rows.length && offsets[last + 2] - offsets[first] + header <= HEIGHT) last += 1;
      pieces.push([first, last]);
      first = last + 1;
    }
    return pieces;
  }

  function pieceOf(picture, [first, last], titles) {
    const top = picture.offsets[first];
    const height = picture.offsets[last + 1] - top;
    const body = Drawing.make('g', { transform: `translate(0 ${picture.header})` }, Drawing.drawLives(picture, height));
    for (let at = first; at <= last; at += 1) body.append(Drawing.drawRow(picture, at, top));
    body.append(Drawing.drawStripes(picture, [first, last], top));
    return Drawing.make('svg', { class: 'chart', viewBox: `0 0 ${picture.width} ${picture.header + height}` }, body,
      Drawing.drawHeader(picture, titles));
  }

  function fill(box, rows, session, words) {
    const shown = rows.slice(0, Export.MOST_ROWS);
    const picture = Export.wholeOf(shown, session, WIDTH);
    const texts = [...words, ...(shown.length < rows.length ? [`The first ${shown.length} rows of ${rows.length}.`] : [])];
    box.replaceChildren(...texts.map(text => {
      const line = document.createElement('p');
      line.textContent = text;
      return line;
    }), ...piecesOf(picture).map(piece => pieceOf(picture, piece, session.titles)));
  }

  return { fill };
})();
