// The two spaces of points: the plane and the globe. A space measures the distance of two points, by their indices.
//
// A space has `width` coordinates per point, in one Float64Array, for bounding boxes. `square` grows with the distance
// of two points, and `length` computes the distance from it. `within` is the largest square of a gap between boxes that
// a nearer point can have.

import { boundsOf } from './bounds.js';

const KILOMETRES_OF_EARTH = 6371;
const RADIAN = Math.PI / 180;

// The error of a chord between two points of the globe that is computed from their rounded coordinates.
const BLUR = 1e-15;

// The values of points in this order, `width` per point.
function picked(values, order, width = 1) {
  const all = new Float64Array(order.length * width);
  for (let i = 0; i < order.length; i++) {
    for (let axis = 0; axis < width; axis++) all[i * width + axis] = values[order[i] * width + axis];
  }
  return all;
}

// Distances in the plane. Coordinates are scaled by a power of two, so that no square of a distance overflows a double.
export class Plane {
  constructor(coordinates, scale) {
    this.coordinates = coordinates;
    this.scale = scale;
    this.width = 2;
  }

  static of(points) {
    const across = boundsOf(points, 2), up = boundsOf(points, 2, 1);
    const most = Math.max(across.high - across.low, up.high - up.low);
    if (points.length && !Number.isFinite(Math.hypot(across.high - across.low, up.high - up.low))) return null;
    const scale = most > 0 ? 2 ** -Math.max(-1022, Math.min(1022, Math.floor(Math.log2(most)))) : 1;
    // a coordinate that all points share becomes 0, because it could overflow when it is scaled
    const by = [across, up].map(({ low, high }) => low < high ? scale : 0);
    return new Plane(points.map((value, i) => value * by[i % 2]), scale);
  }

  inOrder(order) {
    return new Plane(picked(this.coordinates, order, 2), this.scale);
  }

  square(one, other) {
    const { coordinates } = this;
    const dx = coordinates[2 * one] - coordinates[2 * other];
    const dy = coordinates[2 * one + 1] - coordinates[2 * other + 1];
    return dx * dx + dy * dy;
  }

  within(square) {
    return square;
  }

  length(square) {
    return Math.sqrt(square) / this.scale;
  }
}

// Degrees east, from -180 to below 180. No step rounds.
export const onceEast = east => east >= 180 ? east - 360 : east < -180 ? east + 360 : east;

// Degrees such that each point of the globe has only one pair. At the poles, it is 0 degrees east.
export const namedOnce = points =>
  points.map((value, i) => i % 2 ? value : Math.abs(points[i + 1]) === 90 ? 0 : onceEast(value));

// Distances in kilometres on great circles, by the haversine formula. Points are given in degrees east and north; their
// coordinates are those of the unit sphere.
export class Globe {
  constructor(coordinates, east, north) {
    this.coordinates = coordinates;
    this.width = 3;
    this.east = east;
    this.north = north;
    this.shrink = north.map(Math.cos);
  }

  static of(degrees) {
    const points = namedOnce(degrees), n = points.length / 2, coordinates = new Float64Array(3 * n);
    const east = new Float64Array(n), north = new Float64Array(n);
    for (let v = 0; v < n; v++) {
      [east[v], north[v]] = [points[2 * v] * RADIAN, points[2 * v + 1] * RADIAN];
      const shrink = Math.cos(north[v]);
      coordinates.set([shrink * Math.cos(east[v]), shrink * Math.sin(east[v]), Math.sin(north[v])], 3 * v);
    }
    return new Globe(coordinates, east, north);
  }

  inOrder(order) {
    return new Globe(picked(this.coordinates, order, 3), picked(this.east, order), picked(this.north, order));
  }

  // The square of the chord in the unit sphere.
  square(one, other) {
    const up = Math.sin((this.north[one] - this.north[other]) / 2);
    const across = Math.sin((this.east[one] - this.east[other]) / 2);
    return 4 * (up * up + this.shrink[one] * this.shrink[other] * across * across);
  }

  within(square) {
    // (for 0 nothing is nearer, and a search would visit all equal points)
    return square && (Math.sqrt(square) + BLUR) ** 2;
  }

  length(square) {
    return 2 * KILOMETRES_OF_EARTH * Math.asin(Math.min(1, Math.sqrt(square) / 2));
  }
}

// A map of points on the globe: their coordinates, the width of 360 degrees, and the degree at which the map is cut
// open, in the middle of its widest gap. In the middle of the map, a degree north is as long as a degree east.
export function drawnGlobe(points) {
  const n = points.length / 2, east = new Float64Array(n).map((_, v) => (points[2 * v] % 360 + 360) % 360);
  const sorted = east.slice().sort(), around = n ? sorted[0] + 360 - sorted[n - 1] : 0;
  let cut = n ? (sorted[n - 1] + sorted[0]) / 2 - 180 : 0, most = around;
  for (let i = 1; i < n; i++) {
    const gap = sorted[i] - sorted[i - 1];
    if (gap > most) [cut, most] = [sorted[i - 1] + gap / 2, gap];
  }
  const { low, high } = boundsOf(points, 2, 1), narrow = Math.cos((low + high) / 2 * RADIAN) || 1;
  const across = v => (east[v] < cut ? east[v] + 360 : east[v]) * narrow;
  return { places: points.map((value, i) => i % 2 ? value : across(i / 2)), turn: 360 * narrow, cut };
}
