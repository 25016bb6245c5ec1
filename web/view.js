// The visible part of the points. A view has the coordinates (x, y) in the middle of the free part of a picture, and
// `zoom`, the number of pixels per unit.

import { boundsOf } from './bounds.js';
import { state } from './state.js';

/** @typedef {import('./types.js').View} View */

const MOST_ZOOM = 1e6; // compared with the view of all points
const MOST = 1e300; // pixels per unit
const LEAST = 1e-320;
const EDGE = 28; // pixels around the points

const boxes = new WeakMap(); // by the arrays of coordinates

function boxOf(places) {
  if (!boxes.has(places)) boxes.set(places, { across: boundsOf(places, 2), up: boundsOf(places, 2, 1) });
  return boxes.get(places);
}

// The view that shows all points in this part of a picture. If they are all equal, a unit is a pixel.
export function wholeView(free = state.free) {
  const places = state.shown?.places;
  if (!places?.length) return { x: free.width / 2, y: free.height / 2, zoom: 1 };
  const { across, up } = boxOf(places), width = across.high - across.low, height = up.high - up.low;
  const zoom = Math.min((free.width - 2 * EDGE) / (width || LEAST), (free.height - 2 * EDGE) / (height || LEAST));
  const bounded = Math.max(LEAST, Math.min(MOST, zoom));
  return { x: across.low + width / 2, y: up.low + height / 2, zoom: width || height ? bounded : 1 };
}

export const viewNow = () => state.view ?? wholeView();

// Functions from coordinates to pixels and back, for a picture with this free part.
export function lens(view = viewNow(), free = state.free) {
  const left = free.left + free.width / 2, top = free.top + free.height / 2, { x, y, zoom } = view;
  return {
    left, top, x, y, zoom, free,
    across: value => left + (value - x) * zoom,
    down: value => top - (value - y) * zoom,
    placeX: pixel => x + (pixel - left) / zoom,
    placeY: pixel => y - (pixel - top) / zoom,
  };
}

// The view after a zoom by this factor, which leaves the point at this pixel in place, and a shift by pixels.
export function moved(by, pixelX, pixelY, shiftX = 0, shiftY = 0) {
  const { placeX, placeY, left, top, zoom } = lens(), most = wholeView().zoom;
  const next = Math.max(most / 20, Math.min(most * MOST_ZOOM, zoom * by));
  const x = placeX(pixelX) - (pixelX + shiftX - left) / next, y = placeY(pixelY) + (pixelY + shiftY - top) / next;
  // (the view stays if the new one overflows a double)
  return Number.isFinite(x) && Number.isFinite(y) ? { x, y, zoom: next } : viewNow();
}

// The view as numbers that don't depend on the size of the window: its middle, and its zoom compared with the view of
// all points.
export function viewToKeep() {
  const { view } = state;
  return view ? [view.x, view.y, view.zoom / wholeView().zoom].map(value => Number(value.toPrecision(12))) : null;
}

// The view with these numbers, or null if they aren't valid.
export function viewKept(numbers) {
  if (!Array.isArray(numbers) || numbers.length !== 3 || !numbers.every(Number.isFinite)) return null;
  const [x, y, times] = numbers;
  return times > 0 && times <= MOST_ZOOM ? { x, y, zoom: times * wholeView().zoom } : null;
}
