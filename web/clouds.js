// Random points in nine clouds.

const SEED = 625769211;
const CLOUDS = 9;

// A generator of numbers from 0 to 1, by Marsaglia's xorshift with 32 bits. The same seed gives the same numbers.
function unitsOf(seed) {
  let word = seed;
  return () => {
    word ^= word << 13;
    word ^= word >>> 17;
    word ^= word << 5;
    return (word >>> 0) / 2 ** 32;
  };
}

// Each cloud is the one of eight candidates that is farthest from the clouds before it.
function drawnClouds(unit) {
  const clouds = [], place = () => ({ x: 1000 * unit(), y: 640 * unit(), size: 40 + 60 * unit() });
  const between = (one, other) => Math.hypot(one.x - other.x, one.y - other.y) - one.size - other.size;
  const gap = cloud => Math.min(1e9, ...clouds.map(other => between(cloud, other)));
  while (clouds.length < CLOUDS) {
    clouds.push(Array.from({ length: 8 }, place).reduce((best, cloud) => gap(cloud) > gap(best) ? cloud : best));
  }
  return clouds;
}

// n points. They differ from turn to turn, but are the same at each visit.
export function drawnPoints(n, turn) {
  const unit = unitsOf(SEED + 7919 * turn), clouds = drawnClouds(unit), points = new Float64Array(2 * n);
  const hundredth = value => Math.round(100 * value) / 100;
  for (let i = 0; i < n; i++) {
    const { x, y, size } = clouds[i % clouds.length], angle = 2 * Math.PI * unit();
    const far = 0.6 * size * Math.sqrt(-Math.log(unit() + 1e-9));
    points[2 * i] = hundredth(x + far * Math.cos(angle));
    points[2 * i + 1] = hundredth(y + far * Math.sin(angle));
  }
  return points;
}
