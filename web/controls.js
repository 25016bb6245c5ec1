// What the controls do: the bar, the dialogs, the sheet of a phone, the dendrogram and the window.

import { branchAt, countAt, countAtBar, countAfter } from './dendrogram.js';
import { sizesNow } from './figures.js';
import { isPlaying, play, stopPlaying } from './playing.js';
import { change, colourFrom, cutTo, state } from './state.js';

const $ = id => /** @type {any} */ (document.getElementById(id));
const LEAST_PULL = 30; // pixels
// the number of different heights by which a key moves the cut
const STEPS = {
  ArrowLeft: -1, ArrowDown: -1, PageDown: -10, Home: -Infinity, ArrowRight: 1, ArrowUp: 1, PageUp: 10, End: Infinity,
};

export function listenToOpening(opening) {
  const closed = act => () => {
    $('opening').close();
    return act();
  };
  $('open').onclick = () => $('opening').showModal();
  $('random').onclick = closed(() => opening.drawAtRandom($('count').value));
  $('clear').onclick = closed(() => opening.clear());
  $('take').onclick = closed(() => opening.openText($('pasted').value));
  $('files').onchange = closed(() => {
    const files = [...$('files').files];
    $('files').value = ''; // so that the same file can be chosen again
    return opening.openChosen(files);
  });
  $('stop').onclick = () => opening.stop();
  $('undo').onclick = () => opening.undo();
  $('redo').onclick = () => opening.redo();
}

// A field for a whole number. Afterwards it shows the number in use, since the text may have been no such number.
function listenToNumber(id, take, now) {
  $(id).onchange = () => {
    take($(id).valueAsNumber);
    $(id).value = now();
  };
}

export function listenToBar() {
  $('play').onclick = () => isPlaying() ? stopPlaying() : play({ isAsked: true });
  $('replay').onclick = () => play({ isAsked: true });
  $('cut').oninput = () => cutTo($('cut').valueAsNumber);
  listenToNumber('clusters', cutTo, () => state.clusters?.count ?? 1);
  listenToNumber('smallest', value => colourFrom(value >= 1 ? Math.round(value) : null), () => state.smallest ?? '');
  $('pen').onclick = () => change({ tool: state.tool === 'pen' ? 'hand' : 'pen', cross: null });
  $('save').onclick = () => {
    $('copied').hidden = true; // it may be about other points or clusters
    $('saving').showModal();
  };
  $('about').onclick = () => $('card').showModal();
  $('scale').onchange = () => change({ scale: $('scale').value });
  $('weights').onchange = () => change({ hasWeights: $('weights').checked });
  $('others').onchange = () => change({ hasOthers: $('others').checked });
  for (const button of document.querySelectorAll('dialog .close')) {
    /** @type {any} */ (button).onclick = () => /** @type {any} */ (button.closest('dialog')).close();
  }
}

function pull(isUp) {
  document.body.classList.toggle('pulled', isUp);
  $('tree').ariaExpanded = String(isUp);
  settle();
}

// On a phone the tree is a sheet, which a button or a finger pulls up and down.
export function listenToSheet() {
  let begun = null;
  $('tree').onclick = () => pull(!document.body.classList.contains('pulled'));
  for (const part of [$('bar'), $('side')]) {
    part.addEventListener('pointerdown', ({ pointerType, target, clientY }) => {
      const isPull = pointerType === 'touch' && !target.matches('input, select, canvas') && !part.scrollTop;
      begun = isPull ? clientY : null;
    });
    part.addEventListener('pointercancel', () => { begun = null; });
    part.addEventListener('pointerup', ({ clientY }) => {
      if (begun !== null && Math.abs(clientY - begun) >= LEAST_PULL) pull(clientY < begun);
      begun = null;
    });
  }
}

// A drag or a key moves the cut. If no button is pressed, the branch under the pointer is highlighted.
export function listenToDendrogram() {
  const canvas = $('dendrogram'), canCut = () => state.clusters && state.shown.heights.length;
  const cut = event => canCut() && cutTo(countAt(state.shown, event.offsetX, canvas));
  canvas.onpointerdown = event => {
    canvas.setPointerCapture(event.pointerId);
    cut(event);
  };
  canvas.onpointermove = event => {
    if (event.buttons) cut(event);
    else if (canCut()) change({ branch: branchAt(state.shown, event.offsetX, event.offsetY, canvas) });
  };
  canvas.onpointerleave = () => change({ branch: null });
  canvas.onkeydown = event => {
    const { key, altKey, ctrlKey, metaKey } = event;
    if (!(key in STEPS) || altKey || ctrlKey || metaKey) return;
    event.preventDefault();
    if (canCut()) cutTo(countAfter(state.shown, state.clusters, STEPS[key]));
  };
  $('bars').onpointerdown = event => canCut() && cutTo(countAtBar(state.shown, event.offsetX, $('bars').clientWidth));
}

// The usual keys for undo and redo.
function turnBackKey(event, opening) {
  const { key, ctrlKey, metaKey, shiftKey, target } = event, letter = key.toLowerCase();
  if (!(ctrlKey || metaKey) || !['y', 'z'].includes(letter) || target.matches('input, textarea')) return;
  event.preventDefault();
  if (letter === 'y' || shiftKey) opening.redo();
  else opening.undo();
}

export function listenToWindow(opening, showError) {
  const observer = new ResizeObserver(settle);
  for (const id of ['head', 'side', 'bar']) observer.observe($(id));
  addEventListener('resize', settle);
  addEventListener('keydown', event => turnBackKey(event, opening));
  addEventListener('paste', event => {
    const { target, clipboardData } = /** @type {any} */ (event);
    if (!target.matches('input, textarea')) opening.openAll(clipboardData);
  });
  addEventListener('hashchange', () => opening.openCarried().catch(showError));
  document.ondragover = event => {
    event.preventDefault();
    document.body.classList.add('over');
  };
  document.ondragleave = () => document.body.classList.remove('over');
  document.ondrop = event => {
    event.preventDefault();
    document.body.classList.remove('over');
    opening.openAll(event.dataTransfer);
  };
}

// A printed page is light. The browser draws no frame between the event and the print, so `showNow` draws at once.
export function listenToPrinting(showNow) {
  const turn = isPrinted => {
    change({ isPrinted });
    showNow();
  };
  addEventListener('beforeprint', () => turn(true));
  addEventListener('afterprint', () => turn(false));
  matchMedia('print').addEventListener('change', ({ matches }) => turn(matches));
}

// Measures the part of the picture that nothing covers. If that or the size of a canvas changed, everything is drawn
// again.
export function settle() {
  const { classList } = document.body, isEmbedded = classList.contains('embed');
  const box = id => $(id).getBoundingClientRect(), gap = 8;
  const isSheet = getComputedStyle($('tree')).display !== 'none', isPulled = classList.contains('pulled');
  const right = isSheet || isEmbedded ? innerWidth : box('side').left;
  const top = isEmbedded ? gap : box('head').bottom + gap;
  const low = isSheet && isPulled ? Math.min(box('side').top, box('bar').top) : box('bar').top;
  const bottom = isEmbedded ? innerHeight - gap : low - gap;
  const free = { left: 0, top, width: Math.max(40, right), height: Math.max(40, bottom - top) };
  const isSame = sizesNow() === state.drawn.sizes && Object.keys(free).every(key => free[key] === state.free[key]);
  if (!isSame) change({ free });
}
