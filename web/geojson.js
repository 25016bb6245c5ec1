// Reads the points of a GeoJSON text: degrees east and north, and a name from the properties.

import { InputError } from './boruvka.js';
import { Points } from './tables.js';

const MOST_BYTES = 400_000_000; // browsers hold no text of more than about 500 million letters
const NAMES = ['name', 'Name', 'NAME', 'title', 'label', 'id'];

function featuresOf(given) {
  if (Array.isArray(given)) return given;
  if (given?.type === 'FeatureCollection' && Array.isArray(given.features)) return given.features;
  return [given];
}

// The coordinates of a point or of several. `number` is the feature's, from 1.
function placesOf(feature, number) {
  const geometry = feature?.type === 'Feature' ? feature.geometry : feature;
  if (geometry?.type === 'Point') return [geometry.coordinates];
  if (geometry?.type === 'MultiPoint' && Array.isArray(geometry.coordinates)) return geometry.coordinates;
  throw new InputError('NoGeoPoint', 0, `feature ${number}: ${String(geometry?.type ?? 'nothing').slice(0, 40)}`);
}

// The name of a feature: a property with a known key, or else the first property that is a text.
function nameOf(feature, number) {
  const all = feature?.properties ?? {};
  const isWritten = key => typeof all[key] === 'string' || typeof all[key] === 'number';
  const known = NAMES.slice(0, -1).find(isWritten) ?? Object.keys(all).find(key => typeof all[key] === 'string');
  return String(all[known ?? 'id'] ?? feature?.id ?? number);
}

function parsed(bytes) {
  try {
    return JSON.parse(new TextDecoder('utf-8', { fatal: true }).decode(bytes));
  } catch (error) {
    if (error instanceof TypeError) throw new InputError('NoUtf8');
    throw new InputError('BadJson', 0, error.message.slice(0, 120));
  }
}

export async function readGeoJson(source) {
  const bytes = await source.whole(MOST_BYTES), points = new Points('globe', true);
  featuresOf(parsed(bytes)).forEach((feature, i) => {
    for (const place of placesOf(feature, i + 1)) {
      const [east, north] = Array.isArray(place) ? place : [];
      if (!Number.isFinite(east) || !Number.isFinite(north)) {
        throw new InputError('NoGeoPoint', 0, `feature ${i + 1}: no two numbers`);
      }
      points.add(east, north, nameOf(feature, i + 1), 0);
    }
  });
  return { ...points.all([]), format: 'geojson' };
}

// The properties of each point, in the order of the points.
export async function propertiesOf(source) {
  const features = featuresOf(parsed(await source.whole(MOST_BYTES)));
  return features.flatMap((feature, i) => placesOf(feature, i + 1).map(() => Object(feature?.properties ?? {})));
}
