// Saves files, and copies texts.

import { MOST_CARRIED, addressOf, canLink, canSavePage, pageWith } from './address.js';
import { numbersOf } from './clusters.js';
import { dendrogramSvg } from './dendrogram.js';
import { filmOf, whyNoFilm } from './film.js';
import { pictureSvg } from './picture.js';
import { canPlay, stopPlaying } from './playing.js';
import { pythonText } from './python.js';
import { busy } from './solver.js';
import { state } from './state.js';

const $ = id => /** @type {any} */ (document.getElementById(id));

export function save(name, content) {
  const link = document.createElement('a');
  link.href = URL.createObjectURL(content);
  link.download = name;
  link.click();
  setTimeout(() => URL.revokeObjectURL(link.href), 60_000);
}

const svg = text => new Blob([text], { type: 'image/svg+xml' });

// A canvas as PNG, after it has been drawn.
async function png(canvas) {
  while (canvas.ariaBusy === 'true') await new Promise(requestAnimationFrame);
  return new Promise(done => canvas.toBlob(done, 'image/png'));
}

const isPoints = () => state.shown?.kind === 'plane' || state.shown?.kind === 'globe';

// A file that the worker writes.
const made = name => async ({ solver }) => {
  const { shown: { rounds: _rounds, places: _places, others: _others, ...shown }, clusters, file } = state;
  const numbers = name.startsWith('clusters.') ? numbersOf(state.shown, clusters) : null;
  return solver.ask({ task: 'save', name, shown, file, numbers });
};

// The page with the opened file inside, or with the current points.
async function madePage({ solver }) {
  const { file, shown } = state, choice = shown.choice;
  if (file) return pageWith(file, choice);
  const table = await made('carried.csv')({ solver });
  return table && pageWith(new File([table], 'points.csv'));
}

async function madeFilm({ painter }) {
  stopPlaying();
  [$('busy').hidden, $('stop').hidden] = [false, true];
  busy(1);
  try {
    return await filmOf(painter, part => { $('progress').value = part; });
  } finally {
    busy(-1);
    [$('busy').hidden, $('stop').hidden] = [true, false];
  }
}

// For each file: whether it can be saved now, and what makes it.
const FILES = {
  'picture.png': { make: () => png($('picture')) },
  'picture.svg': { make: () => svg(pictureSvg($('picture'))) },
  'dendrogram.png': { can: () => state.clusters, make: () => png($('dendrogram')) },
  'dendrogram.svg': { can: () => state.clusters, make: () => svg(dendrogramSvg($('dendrogram'))) },
  'rounds.webm': { can: () => canPlay() && state.canFilm, make: madeFilm },
  'clusters.csv': { can: () => state.clusters, make: made('clusters.csv') },
  'clusters.geojson': { can: () => state.clusters && state.shown.kind === 'globe', make: made('clusters.geojson') },
  'forest.csv': { make: made('forest.csv') },
  'forest.geojson': { can: () => state.shown.kind === 'globe', make: made('forest.geojson') },
  'forest.gr': { make: made('forest.gr') },
  'links.gr': { can: isPoints, make: made('links.gr') },
  'linkage.csv': { can: () => state.clusters, make: made('linkage.csv') },
  'boruvka.html': { can: () => canSavePage() && (state.file || isPoints()), make: madePage },
};

const idOf = name => `save-${name.replace('.', '-')}`;

// (a second task would stop the first one)
function expectIdle({ solver }) {
  if (solver.asked) throw new Error('Wait until the forest has been computed.');
}

// Makes the buttons save and copy. `showError` gets each error, and null at the start of each attempt.
export function listenToSaving(workers, showError) {
  const tried = act => async () => {
    showError(null);
    try {
      await act();
    } catch (error) {
      $('saving').close(); // it would cover the error
      showError(error);
    }
  };
  for (const [name, { make }] of Object.entries(FILES)) {
    $(idOf(name)).onclick = tried(async () => {
      expectIdle(workers);
      if (name === 'rounds.webm') $('saving').close();
      const content = await /** @type {any} */ (make)(workers);
      if (content) save(name, content);
    });
  }
  $('copylink').onclick = tried(async () => {
    expectIdle(workers);
    const table = await made('carried.csv')(workers);
    if (table) await copy(await addressOf(await table.text()));
  });
  $('copypython').onclick = tried(async () => copy(await pythonText()));
  $('linkline').hidden = !canLink();
  $('pageline').hidden = !canSavePage();
}

// Shows whether this browser can make a film. Until then the button is disabled.
export async function showFilms() {
  $('nofilm').textContent = await whyNoFilm();
  state.canFilm = !$('nofilm').textContent;
  showSaving();
}

export function showSaving() {
  const { shown } = state;
  for (const [name, { can }] of Object.entries(FILES)) $(idOf(name)).disabled = !shown || (can ? !can() : false);
  $('copylink').disabled = !isPoints() || shown.n > MOST_CARRIED;
  $('copypython').disabled = !shown;
}

// Copies a text, and shows it too, in case the browser doesn't allow copying.
async function copy(text) {
  $('copied').value = text;
  $('copied').hidden = false;
  $('copied').select();
  await navigator.clipboard?.writeText(text).catch(() => {});
}
