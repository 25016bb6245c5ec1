// What the columns of a table mean, by its header or by a choice in the dialog.
//
// A choice is { kind, roles, hasHeader }. The kind is `plane`, `globe` or `links`. Roles are indices of columns, from
// 0: across, up and optionally name, or from, to and optionally weight.

/** @typedef {import('./types.js').Choice} Choice */

// The names of columns that need no question, in lower case.
const WORDS = {
  plane: { across: ['x', 'easting'], up: ['y', 'northing'] },
  globe: { across: ['longitude', 'lon', 'long', 'lng'], up: ['latitude', 'lat'] },
  links: { from: ['source', 'from'], to: ['target', 'to'], weight: ['weight', 'length', 'distance'] },
};
// The words of a column's name that lead to a guess, which the dialog then shows.
const HINTS = {
  globe: {
    across: [...WORDS.globe.across, 'länge', 'laenge', 'längengrad', 'longitud', 'longitudine'],
    up: [...WORDS.globe.up, 'breite', 'breitengrad', 'latitud', 'latitudine'],
  },
  plane: { across: [...WORDS.plane.across, 'rechtswert', 'e'], up: [...WORDS.plane.up, 'hochwert', 'n'] },
  links: {
    from: [...WORDS.links.from, 'src', 'node1', 'fromnodeid', 'start', 'origin', 'tail', 'u'],
    to: [...WORDS.links.to, 'dst', 'dest', 'node2', 'tonodeid', 'end', 'destination', 'head', 'v'],
    weight: [...WORDS.links.weight, 'value', 'cost', 'km', 'dist', 'w'],
  },
};
const NAMES = ['name', 'label', 'town', 'city', 'title', 'place', 'station', 'id'];

const NUMBER = /^[-+]?(\d+\.?\d*|\.\d+)(e[-+]?\d+)?$/i;
const WITH_COMMA = /^[-+]?\d+,\d+$/;
const MISSING = ['', 'na', 'n/a', 'nan', 'null', 'none', 'nil', '-', '?'];

const MOST_IN_NUMBER = 1000; // characters, more than any double needs

// The number in a field, or NaN. If commas don't separate fields, a comma may be the decimal mark.
export function numberOf(field, commas) {
  if (field.length > MOST_IN_NUMBER) return NaN;
  if (NUMBER.test(field)) return Number(field);
  return commas && WITH_COMMA.test(field) ? Number(field.replace(',', '.')) : NaN;
}

export const isMissing = field => field.length < 5 && MISSING.includes(field.toLowerCase());

// Whether a double would round the whole number in a field.
export const isRounded = (field, number) =>
  !Number.isSafeInteger(number) && /^[-+]?\d+$/.test(field) && BigInt(field) !== BigInt(number);

export const hasComma = field => WITH_COMMA.test(field);

// The names sorted, so that the order of rows doesn't matter: numbers first, by value, then texts by their code units.
export function rankOfNames(names) {
  const numbers = names.map(name => numberOf(name, false));
  const byText = (one, other) => names[one] < names[other] ? -1 : Number(names[one] > names[other]);
  return Uint32Array.from(names.keys()).sort((one, other) => {
    const [first, second] = [numbers[one], numbers[other]];
    if (Number.isNaN(first) !== Number.isNaN(second)) return Number.isNaN(first) ? 1 : -1;
    return first < second ? -1 : first > second ? 1 : byText(one, other);
  });
}

const found = (header, words) => [...header.keys()].filter(column => words.includes(header[column].toLowerCase()));

// The columns whose name contains one of these words, such as `lat_deg` or `Latitude (deg)`.
const hinted = (header, words) => [...header.keys()].filter(column =>
  header[column].toLowerCase().split(/[^\p{Letter}\p{Number}]+/u).some(word => words.includes(word)));

// The column of names: a column of texts that is called so, or the first column of texts, or a column of numbers that
// is called so.
function nameColumn(header, texts, taken) {
  const isFree = column => !taken.includes(column);
  const named = NAMES.flatMap(word => found(header, [word])).filter(isFree);
  return named.find(column => texts.includes(column)) ?? texts.find(isFree) ?? named[0] ?? -1;
}

// The choice of this kind that a header allows, or null. It is plain if no role fits two columns.
function byWords(header, texts, kind, words, columnsOf) {
  const all = Object.entries(words[kind]).map(([role, names]) => [role, columnsOf(header, names)]);
  if (all.some(([role, columns]) => role !== 'weight' && !columns.length)) return null;
  const roles = Object.fromEntries(all.map(([role, columns]) => [role, columns[0] ?? -1]));
  if (kind !== 'links') roles.name = nameColumn(header, texts, [roles.across, roles.up]);
  return { choice: { kind, roles, hasHeader: true }, isPlain: all.every(([, columns]) => columns.length < 2) };
}

const KINDS = ['globe', 'plane', 'links'];

// What chosenBy returns for a header, or null. If the header fits two kinds, or a role fits two columns, it is a guess.
function byHeader(header, texts) {
  const all = KINDS.map(kind => byWords(header, texts, kind, WORDS, found)).filter(Boolean);
  if (!all.length) return null;
  const [{ choice, isPlain }] = all;
  return all.length === 1 && isPlain ? { choice } : { guess: choice };
}

// Notes on a header: that it may be a row of data, because its names are unknown, or that a column of heights is
// ignored.
export function headerNotes(header, { kind, roles }) {
  const start = header.slice(0, 4).map(field => `‘${field.slice(0, 40)}’`).join(', '), z = found(header, ['z'])[0];
  const isKnown = byWords(header, [], kind, WORDS, found) || byWords(header, [], kind, HINTS, hinted);
  if (!isKnown) {
    return [`The first row is read as column names: ${start}. If it is data, add a row of names above it.`];
  }
  const hasHeight = kind === 'plane' && z !== undefined && !Object.values(roles).includes(z);
  return hasHeight ? [`The column ${header[z]} is ignored, because the points are in a plane.`] : [];
}

// A note if the coordinates of points in a plane look like degrees: in range, with four decimals, and not all near 0.
export function degreesNotes(data, { kind, roles: { across, up } }, commas) {
  if (kind !== 'plane' || !data.some(row => /[.,]\d{4}/.test(row[across]))) return [];
  const all = data.map(row => [across, up].map(column => Math.abs(numberOf(row[column], commas))));
  const areDegrees = all.every(([x, y]) => x <= 180 && y <= 90) && all.flat().some(value => value > 10);
  return areDegrees ? ['If these are degrees, name the columns lon and lat.'] : [];
}

// A choice of edges without a weight, with the first remaining column of numbers as the weight; or null.
function withWeight(choice, numbers) {
  const { roles } = choice, weight = numbers.find(column => column !== roles.from && column !== roles.to);
  if (choice.kind !== 'links' || roles.weight >= 0 || weight === undefined) return null;
  return { ...choice, roles: { ...roles, weight } };
}

// The guess if no column has a known name.
function guessOf(header, texts, numbers, hasHeader) {
  const all = hasHeader ? KINDS.map(kind => byWords(header, texts, kind, HINTS, hinted)).filter(Boolean) : [];
  if (all.length) return withWeight(all[0].choice, numbers) ?? all[0].choice;
  const [across, up] = numbers;
  if (numbers.length > 1) return { kind: 'plane', roles: { across, up, name: texts[0] ?? -1 }, hasHeader };
  const roles = { from: 0, to: Math.min(1, header.length - 1), weight: numbers.find(column => column > 1) ?? -1 };
  return { kind: 'links', roles, hasHeader };
}

// The columns to use, by the first rows of a table: { choice }, or { guess } if somebody has to be asked.
export function chosenBy(rows, commas) {
  const isNumber = field => !Number.isNaN(numberOf(field, commas)), [header] = rows;
  const hasHeader = !header.some(isNumber);
  const data = hasHeader ? rows.slice(1) : rows, columns = [...header.keys()];
  const numbers = columns.filter(column => data.some(row => isNumber(row[column])));
  const texts = columns.filter(column => !numbers.includes(column) && data.some(row => !isMissing(row[column])));
  const known = hasHeader ? byHeader(header, texts) : null;
  const weighed = known?.choice && withWeight(known.choice, numbers);
  if (known) return weighed ? { guess: weighed } : known;
  const guess = guessOf(header, texts, numbers, hasHeader);
  const isPlain = !hasHeader && header.length === 2 && numbers.length === 2;
  return isPlain ? { choice: guess } : { guess };
}
