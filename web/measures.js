// Numbers as English readers write them.

const EARTH_DEGREE = 6371 * Math.PI / 180; // kilometres

const formats = new Map(); // by their options; making a format takes longer than using it

export function formatted(number, options = {}) {
  const key = JSON.stringify(options);
  if (!formats.has(key)) formats.set(key, new Intl.NumberFormat('en', options));
  return formats.get(key).format(number).replace('-', '−');
}

export const counted = number => formatted(number);

// A weight: a whole number exactly, any other to seven digits, or to the unit if that has more digits.
function measured(number) {
  if (typeof number === 'bigint' || Number.isSafeInteger(number) || !Number.isFinite(number)) return counted(number);
  const size = Math.abs(number), notation = size >= 1e15 || size < 1e-6 ? 'scientific' : 'standard';
  const digits = size >= 1e7 && size < 1e15 ? { maximumFractionDigits: 0 } : { maximumSignificantDigits: 7 };
  return formatted(number, { ...digits, notation });
}

const unitOf = ({ kind }) => kind === 'globe' ? ' km' : '';

// The weight of an edge of the forest. Whole numbers are exact.
export function weightText(shown, i) {
  const { forest, heights, isExact } = shown;
  const exact = () => new BigInt64Array(forest.buffer, forest.byteOffset + 16 * i, 1)[0];
  return `${measured(isExact ? exact() : heights[i])}${unitOf(shown)}`;
}

export const totalText = shown => `${measured(shown.total)}${unitOf(shown)}`;

// The same weight in a few letters, for the picture.
export function weightAt(shown, i) {
  const { heights } = shown, size = Math.abs(heights[i]);
  const notation = size >= 1e7 || (size && size < 1e-4) ? 'scientific' : 'standard';
  return formatted(heights[i], { maximumSignificantDigits: 3, notation });
}

// A scale bar: a round length that takes 60 to 160 pixels, and its text. Null if the coordinates have no unit.
export function scaleBar({ kind, places }, zoom) {
  if (places.length < 4 || (kind !== 'plane' && kind !== 'globe')) return null;
  const unit = kind === 'globe' ? EARTH_DEGREE : 1, most = 160 / zoom * unit;
  const power = 10 ** Math.floor(Math.log10(most));
  const length = [5, 2, 1].map(times => times * power).find(value => value <= most), pixels = length / unit * zoom;
  if (!(length > 0) || !Number.isFinite(pixels)) return null;
  const notation = length >= 1e6 || length < 1e-3 ? 'scientific' : 'standard';
  const text = formatted(length, { maximumSignificantDigits: 1, notation });
  return { pixels, text: `${text}${unitOf({ kind })}` };
}
