// A picture of many points, drawn pixel by pixel: lines and points with soft edges, or the density of very many points.

import { NONE } from './merges.js';
import { linesOf, sceneAt } from './scene.js';

const MOST_DISCS = 100_000; // points that are drawn as discs
const LEAST_LINE = 0.7; // pixels; points cover shorter lines

// The parts of a line, from 0 to 1, at which it comes between 0 and `most` along one axis, and at which it leaves.
const enters = (start, by, most) => {
  if (by === 0) return start >= 0 && start <= most ? 0 : 2;
  return Math.min(-start / by, (most - start) / by);
};
const leaves = (start, by, most) => by === 0 ? 1 : Math.max(-start / by, (most - start) / by);

const RED_BLUE = 0xff00ff, GREEN = 0xff00, OPAQUE = 0xff000000;

// A pixel covered by another colour to this many 256ths.
function mixed(under, over, part) {
  const rest = 256 - part;
  const redBlue = (Math.imul(over & RED_BLUE, part) + Math.imul(under & RED_BLUE, rest)) >>> 8 & RED_BLUE;
  const green = (Math.imul(over & GREEN, part) + Math.imul(under & GREEN, rest)) >>> 8 & GREEN;
  return (OPAQUE | redBlue | green) >>> 0;
}

class Pixels {
  constructor(width, height, paper) {
    this.width = width;
    this.height = height;
    this.words = new Uint32Array(width * height).fill(paper);
  }

  // Draws a line, pixel by pixel along the axis on which it is longer. Across, it covers pixels in part.
  line([x, y, toX, toY], wide, word) {
    const isFlat = Math.abs(toX - x) >= Math.abs(toY - y);
    const [length, across] = isFlat ? [this.width, this.height] : [this.height, this.width];
    const [begin, from, end, to] = isFlat ? [x, y, toX, toY] : [y, x, toY, toX];
    const by = end - begin, shift = to - from, slope = by ? shift / by : 0;
    const first = Math.max(0, enters(begin, by, length - 1), enters(from, shift, across - 1));
    const last = Math.min(1, leaves(begin, by, length - 1), leaves(from, shift, across - 1));
    if (!(first <= last)) return;
    const [low, high] = [begin + first * by, begin + last * by].sort((a, b) => a - b);
    const [step, stride] = isFlat ? [1, this.width] : [this.width, 1], column = { start: 0, stride, most: across };
    for (let at = Math.round(low); at <= Math.round(high); at++) {
      const middle = from + (at - begin) * slope;
      column.start = at * step;
      this.span(column, middle - wide / 2 + 0.5, middle + wide / 2 + 0.5, word);
    }
  }

  // Covers a column of pixels, which are `stride` words apart, from one fractional index to another.
  span({ start, stride, most }, low, high, word) {
    const { words } = this, end = Math.min(most - 1, Math.ceil(high) - 1);
    for (let at = Math.max(0, Math.floor(low)); at <= end; at++) {
      const part = Math.min(at + 1, high) - Math.max(at, low), index = start + at * stride;
      if (part > 0) words[index] = mixed(words[index], word, (256 * Math.min(1, part)) | 0);
    }
  }

  disc(x, y, radius, word) {
    const { words, width, height } = this, reach = radius + 0.5;
    const right = Math.min(width - 1, Math.floor(x + reach)), bottom = Math.min(height - 1, Math.floor(y + reach));
    for (let row = Math.max(0, Math.ceil(y - reach)); row <= bottom; row++) {
      for (let column = Math.max(0, Math.ceil(x - reach)); column <= right; column++) {
        const part = reach - Math.hypot(column - x, row - y), index = row * width + column;
        if (part > 0) words[index] = mixed(words[index], word, (256 * Math.min(1, part)) | 0);
      }
    }
  }

  // Draws the pixels that have points. A pixel with more of them is darker.
  density(counts, owners) {
    let most = 1;
    for (const count of counts) if (count > most) most = count;
    const partOf = count => 90 + 166 * Math.log(Math.max(1, count)) / Math.log(most + 1);
    const parts = Uint16Array.from({ length: most + 1 }, (_, count) => partOf(count));
    for (let at = 0; at < counts.length; at++) {
      if (counts[at]) this.words[at] = mixed(this.words[at], owners[at], parts[counts[at]]);
    }
  }
}

const radiusOf = n => n > 40_000 ? 1 : n > 12_000 ? 1.4 : 1.8;

// Functions from coordinates to pixels of a canvas. `sharp` is its number of pixels per pixel of the page.
function placing({ left, top, x, y, zoom }, sharp) {
  return { across: value => sharp * (left + (value - x) * zoom), down: value => sharp * (top - (value - y) * zoom) };
}

function drawLines(pixels, shown, scene, { across, down }, { wide, wordOf, cut }) {
  const line = ([x, y, toX, toY], part, whose, isCut) => {
    const [beginX, beginY, endX, endY] = [across(x), down(y), across(toX), down(toY)];
    if (Math.abs(endX - beginX) + Math.abs(endY - beginY) < LEAST_LINE) return;
    const [partX, partY] = [beginX + (endX - beginX) * part, beginY + (endY - beginY) * part];
    pixels.line([beginX, beginY, partX, partY], isCut ? wide * 0.7 : wide, isCut ? cut : wordOf(whose));
  };
  for (let i = shown.heights.length - 1; i >= 0; i--) linesOf(shown, scene, i, line);
}

function drawDensity(pixels, { places }, { across, down }, wordOf) {
  const { width, height } = pixels, counts = new Uint32Array(width * height);
  const owners = new Uint32Array(width * height);
  for (let v = 0; v < places.length / 2; v++) {
    const x = Math.round(across(places[2 * v])), y = Math.round(down(places[2 * v + 1]));
    if (!(x >= 0 && y >= 0 && x < width && y < height)) continue;
    counts[y * width + x]++;
    owners[y * width + x] = wordOf(v);
  }
  pixels.density(counts, owners);
}

/**
 * Draws a picture. The result is its pixels, one word each.
 * @param {{ places: Float64Array, forest: Uint32Array, heights: Float64Array, rounds: object, turn: number }} shown
 * @param {any} job - the moment, the view, and the colours as words
 */
export function drawn(shown, { moment, lens, sharp, width, height, words: { paper, cut, alone, hues } }) {
  const pixels = new Pixels(width, height, paper), scene = sceneAt(shown, moment), through = placing(lens, sharp);
  const n = shown.places.length / 2, wordOf = v => {
    const colour = scene.colourOf(v);
    return colour === NONE ? alone : hues[colour % hues.length];
  };
  drawLines(pixels, shown, scene, through, { wide: sharp * (n > MOST_DISCS ? 0.8 : 1.2), wordOf, cut });
  const { across, down } = through, radius = sharp * radiusOf(n), { places } = shown;
  if (n > MOST_DISCS) drawDensity(pixels, shown, through, wordOf);
  else for (let v = 0; v < n; v++) pixels.disc(across(places[2 * v]), down(places[2 * v + 1]), radius, wordOf(v));
  return pixels.words;
}
