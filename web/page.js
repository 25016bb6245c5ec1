// The page: it connects the controls to the state, and shows the state. Long computations run in worker.js.
//
// - opening points: opening, choosing, address, clouds, example
// - reading files, in the worker: sources, rows, columns, tables, geojson, geoxml, graphs
// - the tree, in the worker: bounds, spaces, tree, weights, boruvka, kruskal, merges, rounds, layout
// - the picture: state, clusters, view, inks, scene, picture, labels, coast, dendrogram; pixels, painter if it is large
// - moves and controls: playing, film, webm, fading, reading, controls
// - texts: figures, measures, causes, card
// - saving files: saving, python; in the worker: out

import { showSums } from './card.js';
import { listenToBar, listenToDendrogram, listenToOpening, listenToPrinting } from './controls.js';
import { listenToSheet, listenToWindow, settle } from './controls.js';
import { afterFrame } from './fading.js';
import { showTexts } from './figures.js';
import { onInks } from './inks.js';
import { Opening, showError } from './opening.js';
import { Painter } from './painter.js';
import { Picture } from './picture.js';
import { play } from './playing.js';
import { listenToKeys, listenToPointer, placeAt } from './reading.js';
import { listenToSaving, showFilms } from './saving.js';
import { Solver, busy } from './solver.js';
import { onChange } from './state.js';

const $ = id => /** @type {any} */ (document.getElementById(id));

// Two functions that show the state: now, or once before the next frame, however often the state changes.
function showing(painter) {
  const picture = new Picture($('picture'), painter, showError);
  let awaited = 0;
  const showSoon = () => {
    if (!awaited) {
      awaited = requestAnimationFrame(() => {
        awaited = 0;
        showTexts();
      });
    }
    picture.soon(); // after the texts, which determine where the picture begins
  };
  const showNow = () => {
    showTexts();
    picture.draw();
  };
  return { showSoon, showNow };
}

function listen(opening, { solver, painter, showNow }) {
  const pen = { set: (x, y) => opening.addPoint(placeAt(x, y)), undo: () => opening.undo() };
  listenToPointer($('picture'), pen);
  listenToKeys($('picture'), pen);
  listenToOpening(opening);
  listenToBar();
  listenToSheet();
  listenToDendrogram();
  listenToWindow(opening, showError);
  listenToPrinting(showNow);
  listenToSaving({ solver, painter }, showError);
}

async function begin() {
  if (new URLSearchParams(location.search).has('embed')) document.body.classList.add('embed');
  const solver = await Solver.begin(), painter = new Painter(solver.starts), opening = new Opening(solver);
  const { showSoon, showNow } = showing(painter);
  onChange(showSoon);
  onInks(showSoon);
  listen(opening, { solver, painter, showNow });
  settle();
  $('unproved').hidden = Boolean(solver.module);
  await opening.openFirst().catch(showError);
  play();
  await afterFrame();
  // (the first picture needn't wait for these)
  painter.prepare();
  await Promise.all([showFilms(), showSums(solver.bytes)]);
}

begin().catch(showError).finally(() => busy(-1));
