// Shapes, drawn on a canvas or written as SVG: { path, stroke, width, dash }, { path, fill },
// { text, x, y, fill, halo, anchor, font }, and two kinds that a canvas draws much faster than paths:
// { boxes, fill } with four numbers for each box (left, top, width, height), and { segments, stroke, width } with four
// numbers for each line along an axis (x and y of both ends).

export const FONT = '12px system-ui, sans-serif';

function paintBoxes(pen, { boxes, fill }) {
  pen.fillStyle = fill;
  for (let i = 0; i < boxes.length; i += 4) pen.fillRect(boxes[i], boxes[i + 1], boxes[i + 2], boxes[i + 3]);
}

function paintSegments(pen, { segments, stroke, width }) {
  pen.fillStyle = stroke;
  for (let i = 0; i < segments.length; i += 4) {
    const left = Math.min(segments[i], segments[i + 2]), top = Math.min(segments[i + 1], segments[i + 3]);
    const long = Math.abs(segments[i + 2] - segments[i]), tall = Math.abs(segments[i + 3] - segments[i + 1]);
    pen.fillRect(left - width / 2, top - width / 2, long + width, tall + width);
  }
}

export function paint(pen, shapes) {
  for (const shape of shapes) {
    if (shape.boxes) paintBoxes(pen, shape);
    else if (shape.segments) paintSegments(pen, shape);
    else paintPath(pen, shape);
  }
}

function paintPath(pen, { path, stroke, width, dash, fill, text, x, y, halo, anchor, font }) {
  [pen.lineCap, pen.lineJoin, pen.textBaseline] = ['round', 'round', 'alphabetic'];
  [pen.fillStyle, pen.strokeStyle] = [fill ?? 'black', stroke ?? halo ?? 'black'];
  pen.lineWidth = width ?? (halo ? 3 : 1);
  [pen.textAlign, pen.font] = [anchor ?? 'start', font ?? FONT];
  pen.setLineDash(dash ?? []);
  if (halo) pen.strokeText(text, x, y);
  if (text !== undefined) pen.fillText(text, x, y);
  else if (stroke) pen.stroke(new Path2D(path));
  else pen.fill(new Path2D(path));
}

const escaped = text => text.replaceAll('&', '&amp;').replaceAll('<', '&lt;').replaceAll('>', '&gt;');

const ANCHORS = { right: 'end', center: 'middle' };

// A path of all pieces, each with four numbers.
function pathOf(numbers, one) {
  const parts = [], r = number => number.toFixed(1);
  for (let i = 0; i < numbers.length; i += 4) parts.push(one(...numbers.slice(i, i + 4).map(r)));
  return parts.join('');
}

const boxPath = (x, y, width, height) => `M${x} ${y}h${width}v${height}H${x}z`;
const segmentPath = (x, y, toX, toY) => `M${x} ${y}L${toX} ${toY}`;

/** @param {any} shape */
function written({ boxes, segments, ...shape }) {
  if (boxes) return writtenPath({ ...shape, path: pathOf(boxes, boxPath) });
  return writtenPath(segments ? { ...shape, path: pathOf(segments, segmentPath) } : shape);
}

/** @param {any} shape */
function writtenPath({ path, stroke, width, dash, fill, text, x, y, halo, anchor }) {
  if (text !== undefined) {
    const around = halo ? ` stroke="${halo}" stroke-width="3" paint-order="stroke"` : '';
    const place = `x="${x.toFixed(1)}" y="${y.toFixed(1)}"${around}`;
    return `<text ${place} fill="${fill}" text-anchor="${ANCHORS[anchor] ?? 'start'}">${escaped(text)}</text>`;
  }
  if (!stroke) return `<path fill="${fill}" d="${path}"/>`;
  const dashes = dash ? ` stroke-dasharray="${dash.join(' ')}"` : '';
  return `<path fill="none" stroke="${stroke}" stroke-width="${width}"${dashes} d="${path}"/>`;
}

export function svgOf(shapes, width, height, paper) {
  const size = `viewBox="0 0 ${width} ${height}" width="${width}" height="${height}"`;
  const style = `font: ${FONT}; background: ${paper}`;
  const head = `<svg xmlns="http://www.w3.org/2000/svg" ${size} stroke-linecap="round" style="${style}">`;
  return [head, ...shapes.map(written), '</svg>', ''].join('\n');
}

// Clears a canvas and gives it as many pixels as the screen has there, `sharp` per pixel of the page.
export function emptied(canvas, paper) {
  const sharp = devicePixelRatio || 1, pen = canvas.getContext('2d', { alpha: false });
  const width = Math.round(canvas.clientWidth * sharp), height = Math.round(canvas.clientHeight * sharp);
  if (canvas.width !== width || canvas.height !== height) [canvas.width, canvas.height] = [width, height];
  else pen.reset();
  pen.scale(sharp, sharp);
  pen.fillStyle = paper;
  pen.fillRect(0, 0, canvas.clientWidth, canvas.clientHeight);
  return { pen, sharp };
}
