// The texts around the picture: figures, the states of the controls, the point under the pointer, and a description of
// the dendrogram.

import { clustersText, greatest, numbersOf } from './clusters.js';
import { drawBars, drawDendrogram } from './dendrogram.js';
import { inks } from './inks.js';
import { counted, totalText, weightText } from './measures.js';
import { isLinked } from './opening.js';
import { canPlay, isPlaying, piecesAt, roundsText } from './playing.js';
import { vertexText } from './reading.js';
import { showSaving } from './saving.js';
import { fewNow, state } from './state.js';
import { lens } from './view.js';

const $ = id => /** @type {any} */ (document.getElementById(id));
const SLIDER = 99; // range of the slider
const RESTS = 3; // pause between two drawings of the tree, compared with the time of a drawing
const LEAST_WAIT = 12; // milliseconds

const clustersCounted = count => `${count} cluster${count === 1 ? '' : 's'}`;
const put = (id, text) => { if ($(id).textContent !== text) $(id).textContent = text; };

// The number of each vertex's cluster, computed once for each set of clusters.
const numbers = new WeakMap();
function numbersNow() {
  const { shown, clusters } = state;
  if (!numbers.has(clusters)) numbers.set(clusters, numbersOf(shown, clusters));
  return numbers.get(clusters);
}

function caption() {
  const { shown, clusters, round } = state;
  if (!shown) return 'No points yet. Open a file, paste a table, or add points with the pen.';
  if (isPlaying()) return roundsText(shown, round);
  if (!clusters) return 'This graph is too large to be clustered here. You can save its forest.';
  return clustersText(shown, clusters, fewNow());
}

// Shows a figure and its label, or hides both if the text is empty.
function showFigure(id, text) {
  put(id, text);
  for (const part of [$(id), $(id).previousElementSibling]) part.hidden = !text;
}

function showFigures() {
  const { shown, clusters } = state, k = shown?.heights.length ?? 0;
  const isPoints = !shown || shown.kind === 'plane' || shown.kind === 'globe', weight = i => weightText(shown, i);
  put('pointsword', isPoints ? 'Points' : 'Vertices');
  showFigure('points', counted(shown?.n ?? 0));
  showFigure('size', shown ? counted(k) : '');
  showFigure('total', shown ? totalText(shown) : '');
  showFigure('heaviest', k ? weight(k - 1) : '');
  showFigure('kept', clusters?.kept ? weight(clusters.kept - 1) : '');
  showFigure('milliseconds', shown ? counted(Math.round(10 * shown.milliseconds) / 10) : '');
  showFigure('by', shown ? (shown.isProved ? 'proved code' : 'JavaScript, not proved') : '');
  put('notes', shown?.notes.join(' ') ?? '');
}

function showControls() {
  const { shown, clusters, tool, past, future } = state, trees = shown?.merges?.roots.length ?? 1;
  const count = clusters?.count ?? 1;
  const bounds = { cut: Math.min(shown?.n ?? 1, trees + SLIDER), clusters: shown?.n ?? 1 };
  for (const [id, most] of Object.entries(bounds)) {
    [$(id).min, $(id).max, $(id).disabled] = [trees, Math.max(trees, most), !clusters];
    if (document.activeElement !== $(id) || id === 'cut') $(id).value = count;
  }
  if (document.activeElement !== $('smallest')) $('smallest').value = fewNow();
  [$('smallest').max, $('smallest').disabled] = [Math.max(1, shown?.n ?? 1), !clusters];
  $('cut').ariaValueText = clustersCounted(count);
  $('play').textContent = isPlaying() ? 'Stop' : 'Play';
  $('play').disabled = $('replay').disabled = !canPlay();
  $('pen').ariaPressed = tool === 'pen';
  [$('undo').disabled, $('redo').disabled] = [!past.length, !future.length];
  $('picture').className = tool;
  [$('scale').value, $('weights').checked, $('others').checked] = [state.scale, state.hasWeights, state.hasOthers];
  $('othersline').hidden = !shown?.others?.length;
}

// Shows the number of pieces while the rounds are played.
function showCounter() {
  const { shown, round } = state, pieces = round === null ? 0 : piecesAt(shown, round);
  $('counter').hidden = round === null;
  put('pieces', pieces ? counted(pieces) : '');
  put('piecesword', pieces === 1 ? 'piece' : 'pieces');
}

function showPicked() {
  const { picked, shown } = state, { across, down } = lens();
  $('tip').hidden = picked < 0;
  if (picked < 0) return;
  put('tip', vertexText(picked, numbersNow, i => weightText(shown, i)));
  const x = across(shown.places[2 * picked]), y = down(shown.places[2 * picked + 1]);
  $('tip').style.left = `${Math.max(4, Math.min(x + 12, innerWidth - $('tip').offsetWidth - 4))}px`;
  $('tip').style.top = `${Math.max(4, y - 40)}px`;
}

function dendrogramText() {
  const { shown, clusters } = state, last = (shown?.heights.length ?? 0) - 1;
  const heaviest = clusters ? greatest(shown).slice(0, 3).map((_, i) => weightText(shown, last - i)) : [];
  if (!heaviest.length) return 'Dendrogram: no merges yet';
  return `Dendrogram. The heaviest merges are at ${heaviest.join(', ')}.`;
}

function describeDendrogram() {
  const { shown, clusters } = state, canvas = $('dendrogram'), { count, kept } = clusters ?? { count: 1, kept: 0 };
  canvas.ariaLabel = dendrogramText();
  canvas.ariaDisabled = String(!clusters);
  const values = clusters ? [shown.merges.roots.length, shown.n, count] : [1, 1, 1];
  [canvas.ariaValueMin, canvas.ariaValueMax, canvas.ariaValueNow] = values.map(String);
  canvas.ariaValueText = `${clustersCounted(count)}${kept ? `, merged up to ${weightText(shown, kept - 1)}` : ''}`;
}

function drawTree() {
  const begun = performance.now();
  if ($('dendrogram').clientWidth) drawDendrogram($('dendrogram'));
  if ($('bars').clientWidth) drawBars($('bars'));
  state.tree = { isAwaited: false, free: performance.now() + RESTS * (performance.now() - begun) };
}

// Draws the tree now, or later if that is slow and it was just drawn, so that the picture comes first.
function drawTreeSoon() {
  const { isAwaited, free } = state.tree, wait = free - performance.now();
  if (wait < LEAST_WAIT) drawTree();
  else if (!isAwaited) {
    state.tree.isAwaited = true;
    setTimeout(drawTree, wait);
  }
}

// Removes the points from the address if the page now shows others, so that nobody shares the wrong ones.
function dropLink(before) {
  const isOther = before && before !== state.shown && !isLinked();
  if (isOther && location.hash) history.replaceState(null, '', location.href.split('#')[0]);
}

// The sizes of the canvases, in pixels of the page and of the screen.
export function sizesNow() {
  const sizesOf = id => [$(id).clientWidth, $(id).clientHeight];
  return [devicePixelRatio, ...['picture', 'dendrogram', 'bars'].flatMap(sizesOf)].join(' ');
}

// Shows the whole state. Texts that haven't changed are left alone.
export function showTexts() {
  const { shown, clusters, scale, round, smallest, drawn } = state;
  const { scheme } = inks(), rounds = round === null ? null : Math.floor(round);
  put('say', caption());
  showControls();
  showCounter();
  showPicked();
  if (drawn.shown !== shown || drawn.clusters !== clusters) {
    showFigures();
    describeDendrogram();
    dropLink(drawn.shown);
  }
  showSaving();
  // (measured here, because the figures may have changed the height of the dendrogram)
  const now = { shown, clusters, scale, smallest, rounds, scheme, sizes: sizesNow() };
  if (Object.keys(now).some(key => now[key] !== drawn[key])) drawTreeSoon();
  state.drawn = now;
}
