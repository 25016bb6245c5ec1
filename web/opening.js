// Opens points: from files, texts, the address or the page itself, at random, or by the pen.

import { LINKED, carried, inside } from './address.js';
import { askColumns, askMissing } from './choosing.js';
import { PageError } from './causes.js';
import { drawnPoints } from './clouds.js';
import { exampleFile } from './example.js';
import { afterFrame, fade } from './fading.js';
import { isDrawnAtOnce } from './picture.js';
import { play, stopPlaying } from './playing.js';
import { busy } from './solver.js';
import { change, redo, show, showFirst, state, undo } from './state.js';
import { viewKept, viewNow } from './view.js';

const $ = id => /** @type {any} */ (document.getElementById(id));
const MOST_DRAWN = 1_000_000;
const PASTED = 'pasted.csv';

// Shows an error, or hides it if it is null.
export function showError(error) {
  const { kind = '', line = 0, what = '' } = error ?? {};
  Object.assign($('error').dataset, { kind, line, what });
  $('error').textContent = error ? error.message : '';
}

// Shows an error with the name of its file.
function showErrorOf(name, error) {
  const { kind, line, what } = error;
  showError(Object.assign(new Error(`${name}: ${error.message}`), { kind, line, what }));
}

// A file's bytes, for a worker. In WebKit, a page that was opened from a file may read files, but its worker may not.
const bytesOf = async file => ({ name: file.name, content: new Uint8Array(await file.arrayBuffer()) });

export class Opening {
  constructor(solver) {
    this.solver = solver;
  }

  // Ends what was going on. Returns a function that tells whether nothing else has begun since.
  begin() {
    const own = ++state.turn;
    this.solver.stop();
    stopPlaying();
    showError(null);
    return () => own === state.turn;
  }

  stop() {
    this.begin();
  }

  // Shows new points. The old picture fades away if both pictures can be drawn at once.
  async show(shown, more, isFirst = false) {
    const own = state.turn, put = isFirst ? showFirst : show, before = more.view === null && state.shown;
    const showNow = () => own === state.turn && put(shown, more);
    const fades = before && shown && [before, shown].every(isDrawnAtOnce);
    busy(1);
    try {
      await (fades ? fade(showNow) : showNow());
    } finally {
      busy(-1);
    }
  }

  async showPoints(points, more) {
    this.begin();
    try {
      const shown = points.length ? await this.solver.ask({ task: 'points', points }) : null;
      if (shown || !points.length) await this.show(shown, more);
      return Boolean(shown);
    } catch (error) {
      showError(error);
      return false;
    }
  }

  async drawAtRandom(count) {
    const n = Math.max(1, Math.min(MOST_DRAWN, Math.round(count) || 1));
    if (await this.showPoints(drawnPoints(n, state.draws++), { view: null })) play();
  }

  clear() {
    return this.showPoints(new Float64Array(), { view: null });
  }

  // The pen adds one point after the other, however fast they are set.
  addPoint(place) {
    state.adding = state.adding.then(() => this.addPlace(place));
  }

  async addPlace(place) {
    const { shown, clusters } = state;
    if (shown && (shown.kind !== 'plane' || shown.names)) {
      showError(new Error('These points come from a file. Clear them to add points with the pen.'));
      return;
    }
    const points = Float64Array.from([...(shown?.points ?? []), ...place]);
    await this.showPoints(points, { view: { ...viewNow() }, count: clusters?.count ?? 1, smallest: state.smallest });
  }

  // Undoes or redoes a step, once the points of the pen are there.
  turnBack(how) {
    state.adding = state.adding.then(() => {
      if (!state[how === undo ? 'past' : 'future'].length) return;
      this.begin();
      how();
    });
  }

  undo() {
    this.turnBack(undo);
  }

  redo() {
    this.turnBack(redo);
  }

  // Asks the worker for a file's points. If the worker may not read files, it gets the bytes.
  async ask(file, choice) {
    try {
      return { file, result: await this.solver.ask({ task: 'open', file, choice }) };
    } catch (error) {
      if (error.kind !== 'Unreadable' || file.content || location.protocol !== 'file:') throw error;
      const read = await bytesOf(file).catch(() => { throw error; });
      return { file: read, result: await this.solver.ask({ task: 'open', file: read, choice }) };
    }
  }

  // The points of a file, after the dialogs about its columns and about rows without a value.
  async resultOf(chosen, choice, isNow) {
    let { file, result } = await this.ask(chosen, choice);
    while (result?.ask) {
      const { ask } = result;
      busy(-1);
      const made = await (ask.missing ? askMissing(ask) : askColumns(ask));
      busy(1);
      if (!isNow()) return { file, result: null };
      if (!made) throw new Error(ask.missing ? 'No rows were left out.' : 'No columns were chosen.');
      ({ file, result } = await this.ask(file, made));
    }
    return { file, result };
  }

  async openFile(chosen, { isNow, isAlone, isFirst, choice, ...more }) {
    const { file, result } = await this.resultOf(chosen, choice, isNow);
    if (!result) return;
    if (result.kind === 'places') await this.putPlaces(result.points, file, isAlone);
    else await this.show(result, { file, cross: null, view: null, ...more }, isFirst);
  }

  async putPlaces(points, file, isAlone) {
    const { shown } = state;
    if (shown?.kind !== 'graph' && shown?.kind !== 'links') {
      if (!isAlone) throw new PageError({ kind: 'SeveralFiles', what: '2' });
      const joined = await this.solver.ask({ task: 'points', points });
      if (joined) await this.show(joined, { view: null });
      return;
    }
    if (points.length / 2 !== shown.n) throw new PageError({ kind: 'PlacesDiffer' });
    const { count } = state.clusters ?? {}, { smallest } = state;
    show({ ...shown, places: points }, { file: state.file, placesFile: file, count, smallest, view: null });
  }

  // Opens files, a graph before its coordinates. A file that is rejected changes nothing.
  async open(files, { isFirst = false, choices = [], ...more } = /** @type {any} */ ({})) {
    const isNow = this.begin(), isPlaces = file => /\.co(\.gz)?$/i.test(file.name);
    const places = files.filter(isPlaces).length;
    if (Math.max(places, files.length - places) > 1) {
      showError(new PageError({ kind: 'SeveralFiles', what: String(files.length) }));
      return false;
    }
    busy(1);
    for (const dialog of document.querySelectorAll('dialog[open]')) /** @type {any} */ (dialog).close();
    const isAlone = files.length === 1;
    let isDone = true;
    for (const file of [...files].sort((a, b) => Number(isPlaces(a)) - Number(isPlaces(b)))) {
      try {
        const choice = choices[files.indexOf(file)];
        if (isNow()) await this.openFile(file, { isNow, isAlone, isFirst, choice, ...more });
      } catch (error) {
        showErrorOf(file.name, error);
        isDone = false;
        break;
      }
    }
    busy(-1);
    return isDone && isNow();
  }

  // Opens files and plays the rounds.
  async openChosen(files) {
    if (await this.open(files)) play();
  }

  openText(text) {
    return this.openChosen([new File([text], PASTED)]);
  }

  // Opens dropped or pasted files or text. Spreadsheets copy cells both as text and as a picture.
  openAll(data) {
    const files = [...data.files], text = data.getData('text/plain');
    const areFiles = files.length && !(text && files.every(file => file.type.startsWith('image/')));
    return areFiles ? this.openChosen(files) : this.openText(text);
  }

  // Opens the points in the address or in the page, with their settings. Returns whether there are any.
  async openCarried(isFirst = false) {
    const found = await carried() ?? inside();
    if (!found) return false;
    const { files, choices, count, smallest, view, scale } = found;
    if (await this.open(files, { isFirst, choices, count, smallest })) {
      await afterFrame(); // the new texts determine the free part of the picture, on which the view depends
      change({ view: viewKept(view), ...(scale ? { scale } : {}) });
    }
    return true;
  }

  // Opens the points that the page begins with.
  async openFirst() {
    if (!await this.openCarried(true)) await this.open([exampleFile()], { isFirst: true });
  }
}

// Whether the points come from the address.
export const isLinked = () => state.file?.name === LINKED;
