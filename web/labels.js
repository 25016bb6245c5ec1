// Texts in the picture, as far as they fit: names next to points, and weights at the middles of edges.

import { weightAt } from './measures.js';
import { nameAt } from './names.js';
import { FONT } from './shapes.js';

const MOST_TRIED = 2000; // visible points; with more of them no names are drawn
const MOST_LETTERS = 28;
const TALL = 12; // pixels of a text's line
const CELL = 32; // pixels; boxes are found by the cells that they touch

const pen = document.createElement('canvas').getContext('2d');
export function widthOf(text) {
  pen.font = FONT;
  return pen.measureText(text).width;
}

// A set of boxes that don't overlap.
class Layout {
  constructor() {
    this.cells = new Map();
  }

  // The keys of the cells that a box touches.
  *cellsOf({ left, top, right, bottom }) {
    for (let across = Math.floor(left / CELL); across <= Math.floor(right / CELL); across++) {
      for (let down = Math.floor(top / CELL); down <= Math.floor(bottom / CELL); down++) yield `${across},${down}`;
    }
  }

  isFree(box) {
    for (const key of this.cellsOf(box)) {
      for (const other of this.cells.get(key) ?? []) {
        const isApart = box.left >= other.right || other.left >= box.right;
        if (!isApart && box.top < other.bottom && other.top < box.bottom) return false;
      }
    }
    return true;
  }

  take(box) {
    for (const key of this.cellsOf(box)) {
      if (!this.cells.has(key)) this.cells.set(key, []);
      this.cells.get(key).push(box);
    }
  }
}

const boxAt = (left, top, width, height = TALL) => ({ left, top, right: left + width, bottom: top + height });

// The visible vertices, or null if there are too many.
function inSight({ places }, { across, down, free }) {
  const found = [], { left, top, width, height } = free;
  for (let v = 0; v < places.length / 2; v++) {
    const x = across(places[2 * v]), y = down(places[2 * v + 1]);
    if (x < left || x > left + width || y < top || y > top + height) continue;
    if (found.length === MOST_TRIED) return null;
    found.push({ v, x, y });
  }
  return found;
}

// The boxes for a text of this width next to a point: right, left, above, below.
function boxesAround(x, y, width, gap) {
  return [
    boxAt(x + gap, y - TALL + 3, width), boxAt(x - gap - width, y - TALL + 3, width),
    boxAt(x - width / 2, y - gap - TALL, width), boxAt(x - width / 2, y + gap, width),
  ];
}

function nameShapes(shown, seen, { layout, free, gap }, { ink, paper }) {
  const shapes = [], isInside = box => box.left >= free.left && box.right <= free.left + free.width && box.top >= 0;
  for (const { v, x, y } of seen) {
    const text = nameAt(shown.names, v).slice(0, MOST_LETTERS);
    const box = text && boxesAround(x, y, widthOf(text), gap).find(one => isInside(one) && layout.isFree(one));
    if (!box) continue;
    layout.take(box);
    shapes.push({ text, x: box.left, y: box.bottom - 2, fill: ink, halo: paper });
  }
  return shapes;
}

function weightShapes(shown, { across, down }, layout, { soft, paper }) {
  const shapes = [], { places, forest, heights, turn } = shown;
  for (let i = heights.length - 1; i >= 0 && shapes.length < MOST_TRIED; i--) {
    const u = forest[4 * i + 2] - 1, v = forest[4 * i + 3] - 1;
    if (turn && Math.abs(places[2 * u] - places[2 * v]) > turn / 2) continue;
    const x = (across(places[2 * u]) + across(places[2 * v])) / 2;
    const y = (down(places[2 * u + 1]) + down(places[2 * v + 1])) / 2;
    const text = weightAt(shown, i), width = widthOf(text);
    const box = boxAt(x - width / 2 - 2, y - TALL / 2 - 1, width + 4, TALL + 2);
    if (!layout.isFree(box)) continue;
    layout.take(box);
    const wide = (width + 4).toFixed(1), begin = `M${box.left.toFixed(1)} ${box.top.toFixed(1)}`;
    const path = `${begin}h${wide}v${TALL + 2}h-${wide}z`;
    shapes.push({ fill: paper, path }, { text, x: x - width / 2, y: y + 4, fill: soft });
  }
  return shapes;
}

// The texts that fit into a picture without covering its points, which have this radius.
export function labelShapes(shown, through, plain, { radius, hasWeights }) {
  const isNamed = shown.names || shown.kind === 'graph';
  const seen = isNamed || hasWeights ? inSight(shown, through) : null;
  if (!seen) return [];
  const layout = new Layout(), side = 2 * radius;
  for (const { x, y } of seen) layout.take(boxAt(x - radius, y - radius, side, side));
  const weights = hasWeights ? weightShapes(shown, through, layout, plain) : [];
  const names = isNamed ? nameShapes(shown, seen, { layout, free: through.free, gap: radius + 3 }, plain) : [];
  return [...weights, ...names];
}
