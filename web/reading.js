// The pointer and the keys on the picture: they zoom, pan, choose points, step through the rounds, and add points.

import { counted } from './measures.js';
import { nameAt } from './names.js';
import { canPlay, isPlaying, play, stepRounds, stopPlaying } from './playing.js';
import { change, state } from './state.js';
import { lens, moved, viewNow } from './view.js';

const NEAR = 12; // pixels from the pointer to the point that it chooses
const CLICK = 4; // pixels that the pointer may move during a click
const STEP = 40; // pixels that a key pans

const isEmbedded = () => document.body.classList.contains('embed');

// The vertex nearest to a pixel, or -1.
function vertexAt(x, y) {
  const { shown } = state, { across, down } = lens();
  let least = NEAR * NEAR, found = -1;
  for (let v = 0; v < (shown?.places.length ?? 0) / 2; v++) {
    const dx = across(shown.places[2 * v]) - x, dy = down(shown.places[2 * v + 1]) - y, square = dx * dx + dy * dy;
    if (square < least) [least, found] = [square, v];
  }
  return found;
}

// The longest edge of the forest at a vertex, or -1.
function longestAt(v) {
  const { forest, heights } = state.shown;
  for (let i = heights.length - 1; i >= 0; i--) {
    if (forest[4 * i + 2] === v + 1 || forest[4 * i + 3] === v + 1) return i;
  }
  return -1;
}

// A description of a vertex: its name, its cluster and its longest edge.
export function vertexText(v, numbers, weightOf) {
  const { shown: { names }, clusters } = state, longest = longestAt(v), rows = [nameAt(names, v)];
  if (clusters) rows.push(`cluster ${counted(numbers()[v])}`);
  if (longest >= 0) rows.push(`longest edge ${weightOf(longest)}`);
  return rows.join(', ');
}

// The pointers that are down on the picture. One pans, two zoom.
class Gesture {
  constructor(picture, { set }) {
    this.picture = picture;
    this.set = set;
    this.down = new Map();
    this.far = 0;
    this.last = null;
  }

  begin(event) {
    this.picture.setPointerCapture(event.pointerId);
    this.down.set(event.pointerId, { x: event.offsetX, y: event.offsetY });
    if (this.down.size === 1) this.far = 0;
    this.last = this.spread();
  }

  // The middle of the pointers, and the distance between the first two.
  spread() {
    const all = [...this.down.values()], middle = of => all.reduce((sum, place) => sum + of(place), 0) / all.length;
    const apart = all.length > 1 ? Math.hypot(all[0].x - all[1].x, all[0].y - all[1].y) : 0;
    return { x: middle(place => place.x), y: middle(place => place.y), apart };
  }

  move(event) {
    if (!this.down.has(event.pointerId)) return;
    this.down.set(event.pointerId, { x: event.offsetX, y: event.offsetY });
    const { last } = this, now = this.spread();
    this.far += Math.hypot(now.x - last.x, now.y - last.y) + Math.abs(now.apart - last.apart);
    this.last = now;
    if (this.far <= CLICK || (state.tool === 'pen' && this.down.size === 1)) return;
    const by = last.apart ? now.apart / last.apart : 1;
    change({ view: moved(by, last.x, last.y, now.x - last.x, now.y - last.y), picked: -1 });
  }

  end(event) {
    if (!this.down.delete(event.pointerId)) return;
    if (this.down.size) this.last = this.spread();
    else if (this.far <= CLICK && event.type === 'pointerup') this.click(event);
  }

  click({ offsetX, offsetY }) {
    if (state.tool === 'pen') this.set(offsetX, offsetY);
    else change({ picked: vertexAt(offsetX, offsetY) });
  }
}

// The wheel zooms. In an embedded view it scrolls the page around it, unless Control is pressed.
function wheel(event) {
  if (isEmbedded() && !event.ctrlKey) return;
  event.preventDefault();
  const by = Math.exp(-event.deltaY * (event.deltaMode ? 0.05 : 0.0015));
  change({ view: moved(by, event.offsetX, event.offsetY) });
}

export function listenToPointer(picture, calls) {
  const gesture = new Gesture(picture, calls);
  picture.onpointerdown = event => gesture.begin(event);
  picture.onpointermove = event => {
    if (gesture.down.size) gesture.move(event);
    else if (event.pointerType === 'mouse' && state.tool === 'hand') {
      const picked = vertexAt(event.offsetX, event.offsetY);
      if (picked !== state.picked) change({ picked });
    }
  };
  picture.onpointerup = picture.onpointercancel = event => gesture.end(event);
  picture.onpointerleave = event => event.pointerType === 'mouse' && state.picked >= 0 && change({ picked: -1 });
  picture.addEventListener('wheel', wheel, { passive: false });
  picture.ondblclick = () => state.tool === 'hand' && change({ view: null });
}

const ARROWS = { ArrowLeft: [-1, 0], ArrowRight: [1, 0], ArrowUp: [0, -1], ArrowDown: [0, 1] };
const WALK = { n: 1, p: -1, PageDown: 1, PageUp: -1 };

// Chooses the next or the previous vertex, cluster by cluster. The view follows.
function walk(by) {
  const { shown, picked } = state;
  if (!shown?.places.length) return;
  const { n } = shown, order = shown.merges?.order;
  const at = picked < 0 ? (by > 0 ? -1 : 0) : order ? order.indexOf(picked) : picked;
  const place = (at + by + n) % n, next = order ? order[place] : place;
  const { across, down, left, top, free } = lens(), x = across(shown.places[2 * next]);
  const y = down(shown.places[2 * next + 1]);
  const isSeen = x > free.left && x < free.left + free.width && y > free.top && y < free.top + free.height;
  change({ picked: next, ...(isSeen ? {} : { view: moved(1, left, top, left - x, top - y) }) });
}

function moveCross(picture, event, dx, dy) {
  const by = event.shiftKey ? 1 : 10, { left, top } = lens();
  const { x, y } = state.cross ?? { x: Math.round(left), y: Math.round(top) };
  const within = (value, most) => Math.max(0, Math.min(most, value));
  change({ cross: { x: within(x + dx * by, picture.clientWidth), y: within(y + dy * by, picture.clientHeight) } });
}

// What a key does with both tools, the hand and the pen, if anything.
function commonKey(key) {
  const { left, top } = lens();
  return {
    '+': () => change({ view: moved(1.25, left, top) }),
    '=': () => change({ view: moved(1.25, left, top) }),
    '-': () => change({ view: moved(0.8, left, top) }),
    0: () => change({ view: null }),
    ' ': () => canPlay() && (isPlaying() && !state.isStepped ? stopPlaying() : play({ isAsked: true })),
    '.': () => stepRounds(1),
    ',': () => stepRounds(-1),
    Escape: () => change({ picked: -1 }),
  }[key];
}

// Arrows pan with the hand, and move the cross with the pen.
export function listenToKeys(picture, { set, undo: takeBack }) {
  picture.onkeydown = event => {
    const { left, top } = lens(), { key } = event, [dx, dy] = ARROWS[key] ?? [0, 0], isPen = state.tool === 'pen';
    const common = commonKey(key);
    if (event.ctrlKey || event.metaKey || event.altKey) return;
    if (isPen && (dx || dy)) moveCross(picture, event, dx, dy);
    else if (dx || dy) change({ view: moved(1, left, top, -dx * STEP, -dy * STEP) });
    else if (isPen && key === 'Enter') set(state.cross?.x ?? Math.round(left), state.cross?.y ?? Math.round(top));
    else if (isPen && key === 'Delete') takeBack();
    else if (key in WALK) walk(WALK[key]);
    else if (common) common();
    else return;
    event.preventDefault();
  };
  picture.onfocus = () => state.tool === 'pen' && moveCross(picture, {}, 0, 0);
  picture.onblur = () => state.cross && change({ cross: null });
}

// The coordinates of a pixel, to six digits, or to more if those miss it by a tenth of a pixel.
export function placeAt(x, y) {
  const { placeX, placeY, zoom } = lens(viewNow());
  const digits = value => Math.ceil(Math.log10(Math.abs(value) * zoom)) + 2;
  return [placeX(x), placeY(y)].map(value => Number(value.toPrecision(Math.max(6, Math.min(17, digits(value))))));
}
