// Two ways to share points: an address that contains a table, and a page that contains a file. Both keep the number of
// clusters and the view.
//
// The address ends in `#d=` and the table's text, compressed by deflate and written as base64url. Optional parameters
// follow: `&k=` clusters, `&s=` the smallest size, `&v=` the view, and `&h=` the scale of heights. A page has JSON in
// its element `data`: { name, base64 } of a file, and optionally `columns`, `places` (again { name, base64 }),
// `clusters`, `smallest`, `view` and `scale`.

import { PageError } from './causes.js';
import { state } from './state.js';
import { viewToKeep } from './view.js';

const MOST_BYTES = 2_000_000; // decompressed
const MOST_LETTERS = 400_000;
export const MOST_CARRIED = 5_000; // points
const MOST_INSIDE = 200_000_000; // bytes of a file in a page
export const LINKED = 'link.csv'; // the name of the table that an address contains
const SCALES = ['root', 'even', 'log'];

const own = document.documentElement.outerHTML; // before a script changes it
const isPacked = Boolean(document.getElementById('packed-worker'));
// (written in one piece, these would end the script that contains them)
const OPEN = `<${'script'} type="application/json" id="data">`, CLOSE = `</${'script'}>`;

async function through(bytes, stream) {
  const reader = new Blob([bytes]).stream().pipeThrough(stream).getReader(), parts = [];
  let length = 0;
  for (let read = await reader.read(); !read.done; read = await reader.read()) {
    parts.push(read.value);
    length += read.value.length;
    if (length > MOST_BYTES) {
      reader.cancel().catch(() => {});
      throw new PageError({ kind: 'LongAddress' });
    }
  }
  return new Uint8Array(await new Blob(parts).arrayBuffer());
}

// An address of a page on this machine's disk is of no use to anybody else.
export const canLink = () => location.protocol !== 'file:';
export const canSavePage = () => isPacked;

const base64url = letters => letters.replaceAll('+', '-').replaceAll('/', '_').replaceAll('=', '');

// The clusters and the view, as parameters of an address.
function parametersNow() {
  const { clusters, smallest, scale } = state, view = viewToKeep();
  const words = [clusters && `k=${clusters.count}`, smallest && `s=${smallest}`, view && `v=${view}`, `h=${scale}`];
  return words.filter(Boolean).join('&');
}

// The address of the page with this text. Fails if the page would reject the address.
export async function addressOf(text) {
  const whole = new TextEncoder().encode(text), bytes = await through(whole, new CompressionStream('deflate-raw'));
  const letters = btoa(Array.from(bytes, byte => String.fromCharCode(byte)).join(''));
  if (whole.length > MOST_BYTES || letters.length > MOST_LETTERS) throw new PageError({ kind: 'LongAddress' });
  return `${location.href.split('#')[0]}#d=${base64url(letters)}&${parametersNow()}`;
}

const countOf = value => Number.isInteger(value) && value > 0 ? value : null;

// The clusters and the view to begin with. Values that aren't valid are ignored.
function settingsOf({ clusters, smallest, view, scale }) {
  const known = SCALES.includes(scale) ? scale : null;
  return { count: countOf(clusters), smallest: countOf(smallest), view: view ?? null, scale: known };
}

const bytesOf = base64 => Uint8Array.from(atob(base64), letter => letter.charCodeAt(0));

// The files and the settings in the address, or null.
export async function carried(hash = location.hash) {
  if (!hash.startsWith('#d=')) return null;
  const [letters, ...more] = hash.slice(3).split('&'), words = new URLSearchParams(more.join('&'));
  if (letters.length > MOST_LETTERS) throw new PageError({ kind: 'LongAddress' });
  const settings = {
    clusters: Number(words.get('k')), smallest: Number(words.get('s')), scale: words.get('h'),
    view: words.get('v')?.split(',').map(Number),
  };
  try {
    const bytes = bytesOf(letters.replaceAll('-', '+').replaceAll('_', '/'));
    const text = await through(bytes, new DecompressionStream('deflate-raw'));
    return { files: [new File([text], LINKED)], choices: [], ...settingsOf(settings) };
  } catch (error) {
    throw error instanceof PageError ? error : new PageError({ kind: 'BadAddress' });
  }
}

function fileOf({ name, base64 }) {
  return new File([bytesOf(base64)], String(name));
}

// The files and the settings inside the page, or null.
export function inside() {
  const text = document.getElementById('data')?.textContent.trim();
  if (!text) return null;
  try {
    const data = JSON.parse(text), { places, columns } = data;
    const files = [fileOf(data), ...(places ? [fileOf(places)] : [])];
    return { files, choices: [columns ?? undefined], ...settingsOf(data) };
  } catch {
    throw new PageError({ kind: 'BadInside' });
  }
}

function base64Of(bytes) {
  return new Promise(done => {
    const reader = new FileReader();
    reader.onload = () => done(/** @type {string} */ (reader.result).split(',')[1]);
    reader.readAsDataURL(new Blob([bytes]));
  });
}

// A file's name and its compressed bytes, as a page contains them.
async function compressedFile(file) {
  const isGzip = /\.gz$/i.test(file.name), stream = new Blob([file.content ?? file]).stream();
  const compressed = stream.pipeThrough(isGzip ? new TransformStream() : new CompressionStream('gzip'));
  const bytes = await new Response(compressed).blob();
  return { name: isGzip ? file.name : `${file.name}.gz`, base64: await base64Of(bytes) };
}

// This page with a file inside, the coordinates if the file is a graph, and the settings.
export async function pageWith(file, columns) {
  if ((file.size ?? file.content.length) > MOST_INSIDE) throw new PageError({ kind: 'LongPage' });
  const { clusters, smallest, scale, placesFile } = state;
  const places = placesFile ? { places: await compressedFile(placesFile) } : {};
  const settings = { columns, clusters: clusters?.count, smallest, view: viewToKeep(), scale };
  const data = JSON.stringify({ ...await compressedFile(file), ...places, ...settings }).replaceAll('<', '\\u003c');
  const begin = own.indexOf(OPEN) + OPEN.length, end = own.indexOf(CLOSE, begin);
  return new Blob(['<!doctype html>\n', own.slice(0, begin), data, own.slice(end), '\n'], { type: 'text/html' });
}
