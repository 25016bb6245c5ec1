// The picture: points and edges. Up to a few thousand points are drawn as shapes. A worker draws more of them pixel by
// pixel; until it is done, the last picture moves with the view.

import { coastShapes } from './coast.js';
import { inkOf, inks, wordOf } from './inks.js';
import { labelShapes } from './labels.js';
import { counted, scaleBar } from './measures.js';
import { linesOf, sceneAt } from './scene.js';
import { emptied, paint, svgOf } from './shapes.js';
import { state } from './state.js';
import { lens } from './view.js';

const MOST_SHAPES = 4000; // points that are drawn as shapes
const MOST_SVG = 100_000; // points

export const isDrawnAtOnce = ({ places }) => places.length <= 2 * MOST_SHAPES;

// The moment to draw: clusters, or a time of the rounds.
function momentNow() {
  const { clusters, round } = state;
  return round === null ? { kept: clusters?.kept, colours: clusters?.colours } : { round };
}

const radiusOf = n => n > 1000 ? 2 : n > 200 ? 3 : 4.5;

// Paths by their colour.
class Paths {
  constructor() {
    this.all = new Map();
  }

  put(ink, path) {
    if (!this.all.has(ink)) this.all.set(ink, []);
    this.all.get(ink).push(path);
  }

  shapes(more) {
    return Array.from(this.all, ([ink, paths]) => more(ink, paths.join('')));
  }
}

function linkShapes(shown, scene, { across, down }, { inkAt, plain }) {
  const cut = [], lines = new Paths();
  const line = ([x, y, toX, toY], part, whose, isCut) => {
    const [beginX, beginY] = [across(x), down(y)], [endX, endY] = [across(toX), down(toY)];
    const [partX, partY] = [beginX + (endX - beginX) * part, beginY + (endY - beginY) * part];
    const path = `M${beginX.toFixed(1)} ${beginY.toFixed(1)}L${partX.toFixed(1)} ${partY.toFixed(1)}`;
    if (!part) return;
    if (isCut) cut.push(path);
    else lines.put(inkAt(whose), path);
  };
  for (let i = 0; i < shown.heights.length; i++) linesOf(shown, scene, i, line);
  const shapes = lines.shapes((ink, path) => ({ stroke: ink, width: 1.7, path }));
  return cut.length ? [{ stroke: plain.cut, width: 1, path: cut.join('') }, ...shapes] : shapes;
}

function markShapes({ places }, { across, down }, radius, inkAt) {
  const marks = new Paths(), arc = `a${radius} ${radius} 0 1 0`;
  const round = `${arc} ${2 * radius} 0${arc} ${-2 * radius} 0`;
  for (let v = 0; v < places.length / 2; v++) {
    const left = across(places[2 * v]) - radius, top = down(places[2 * v + 1]);
    marks.put(inkAt(v), `M${left.toFixed(1)} ${top.toFixed(1)}${round}`);
  }
  return marks.shapes((ink, path) => ({ fill: ink, path }));
}

// The edges of the graph that aren't in its forest.
function otherShapes({ others, places, turn }, { across, down }, faint) {
  if (!state.hasOthers || !others?.length) return [];
  const paths = [];
  for (let i = 0; i < others.length; i += 2) {
    const [u, v] = [others[i], others[i + 1]];
    if (turn && Math.abs(places[2 * u] - places[2 * v]) > turn / 2) continue;
    const [x, y] = [across(places[2 * u]), down(places[2 * u + 1])];
    const [toX, toY] = [across(places[2 * v]), down(places[2 * v + 1])];
    paths.push(`M${x.toFixed(1)} ${y.toFixed(1)}L${toX.toFixed(1)} ${toY.toFixed(1)}`);
  }
  return [{ stroke: faint, width: 1, path: paths.join('') }];
}

function scaleShapes(shown, { zoom, free }, { soft }) {
  const bar = scaleBar(shown, zoom);
  if (!bar || bar.pixels > free.width / 2) return [];
  const x = free.left + 20, y = free.top + free.height - 8;
  const path = `M${x.toFixed(1)} ${(y - 5).toFixed(1)}v5h${bar.pixels.toFixed(1)}v-5`;
  return [{ stroke: soft, width: 1.5, path }, { text: bar.text, x, y: y - 9, fill: soft }];
}

// The scale bar and the texts, which are shapes in every picture.
function textShapes(shown, through, plain) {
  const radius = radiusOf(shown.places.length / 2), { hasWeights } = state;
  return [...scaleShapes(shown, through, plain), ...labelShapes(shown, through, plain, { radius, hasWeights })];
}

// The picture as shapes.
export function shapesOf(shown, moment, through) {
  if (!shown?.places.length) return [];
  const plain = inks(), scene = sceneAt(shown, moment), inkAt = v => inkOf(plain, scene.colourOf(v));
  return [
    ...coastShapes(shown, state.file, through, plain),
    ...otherShapes(shown, through, plain.faint),
    ...linkShapes(shown, scene, through, { inkAt, plain }),
    ...markShapes(shown, through, radiusOf(shown.places.length / 2), inkAt),
    ...textShapes(shown, through, plain),
  ];
}

export function pictureSvg(canvas) {
  const { shown } = state, { clientWidth: width, clientHeight: height } = canvas;
  if (shown?.places.length > 2 * MOST_SVG) {
    throw new Error(`An SVG of more than ${counted(MOST_SVG)} points would be too large. Save a PNG instead.`);
  }
  return svgOf(shapesOf(shown, momentNow(), lens()), width, height, inks().paper);
}

function wordsOf({ paper, cut, alone, hues }) {
  return { paper: wordOf(paper), cut: wordOf(cut), alone: wordOf(alone), hues: Uint32Array.from(hues, wordOf) };
}

// The job of drawing this moment, for pixels.js.
export function jobOf({ moment, through: { left, top, x, y, zoom }, sharp, width, height }) {
  return { moment, lens: { left, top, x, y, zoom }, sharp, width, height, words: wordsOf(inks()) };
}

export class Picture {
  constructor(canvas, painter, showError) {
    const last = document.createElement('canvas');
    this.canvas = canvas;
    this.painter = painter;
    this.showError = showError;
    this.last = last;
    this.lens = null;
    this.of = null;
    this.isDrawing = false;
    this.isOld = false;
    this.awaited = 0;
  }

  // Draws once before the next frame, however often this is called.
  soon() {
    this.isOld = true;
    this.await();
  }

  await() {
    this.canvas.ariaBusy = 'true';
    this.awaited ||= requestAnimationFrame(() => {
      this.awaited = 0;
      this.draw();
    });
  }

  draw() {
    const { shown } = state, plain = inks(), { pen, sharp } = emptied(this.canvas, plain.paper), through = lens();
    if (shown && !isDrawnAtOnce(shown)) this.drawPixels(pen, sharp, through, plain);
    else {
      [this.of, this.isOld] = [null, false];
      paint(pen, shapesOf(shown, momentNow(), through));
    }
    paint(pen, overlay(through, plain));
    this.canvas.ariaBusy = String(this.isDrawing);
  }

  drawPixels(pen, sharp, through, plain) {
    if (this.isOld && (!this.isDrawing || state.isPrinted)) this.begin(sharp, through);
    if (this.of !== state.shown) return;
    this.drawMoved(pen, sharp, through);
    paint(pen, textShapes(state.shown, through, plain));
  }

  // Has the pixels of the current view drawn. If a worker does it, its picture is shown once it is there.
  begin(sharp, through) {
    const { canvas: { width, height } } = this, { shown } = state;
    const words = this.painter.draw(shown, jobOf({ moment: momentNow(), through, sharp, width, height }));
    const take = found => this.take(found, { shown, through, width, height });
    this.isOld = false;
    if (!(words instanceof Promise)) take(words);
    else {
      this.isDrawing = true;
      words.then(found => {
        this.isDrawing = false;
        take(found);
        this.await();
      });
    }
  }

  take(words, { shown, through, width, height }) {
    if (words) {
      [this.last.width, this.last.height] = [width, height];
      const image = new ImageData(new Uint8ClampedArray(words.buffer), width, height);
      this.last.getContext('2d').putImageData(image, 0, 0);
      [this.lens, this.of] = [through, shown];
    } else this.showError(new Error('The picture can’t be drawn: the browser is out of memory.'));
  }

  // Draws the last picture, moved from its view to the current one.
  drawMoved(pen, sharp, { across, down, zoom }) {
    const { lens: then, last } = this, by = zoom / then.zoom, whole = value => Math.round(value * sharp) / sharp;
    const [left, top] = [whole(across(then.placeX(0))), whole(down(then.placeY(0)))];
    pen.imageSmoothingEnabled = by !== 1;
    pen.drawImage(last, left, top, last.width / sharp * by, last.height / sharp * by);
  }
}

const ringAt = (x, y, r) => `M${x - r} ${y}a${r} ${r} 0 1 0 ${2 * r} 0a${r} ${r} 0 1 0 ${-2 * r} 0`;

// The shapes on top: the cross of the pen, a ring around the chosen point, and the points of a branch.
function overlay({ across, down }, { mark, ink }) {
  const { shown, cross, picked, branch } = state, shapes = [];
  const ring = v => ringAt(across(shown.places[2 * v]), down(shown.places[2 * v + 1]), 8);
  if (branch && shown) shapes.push({ stroke: mark, width: 2, path: branchPath(shown, branch, across, down) });
  if (picked >= 0 && shown) shapes.push({ stroke: mark, width: 2.5, path: ring(picked) });
  const crossAt = ({ x, y }) => `M${x - 9} ${y}h18M${x} ${y - 9}v18`;
  if (cross) shapes.push({ stroke: ink, width: 1.5, path: crossAt(cross) });
  return shapes;
}

// Rings around the points of a branch, or around some of them if there are many.
function branchPath({ merges: { order }, places }, { begin, end }, across, down) {
  const step = Math.max(1, Math.ceil((end - begin) / 3000)), rings = [];
  for (let at = begin; at < end; at += step) {
    rings.push(ringAt(across(places[2 * order[at]]), down(places[2 * order[at] + 1]), 4));
  }
  return rings.join('');
}
