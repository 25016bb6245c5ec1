// The state of the page. Everything on the page is computed from it.
//
// `shown` is a result of worker.js, or null. It is never changed, only replaced. Only this file computes `clusters`,
// again whenever `shown`, `smallest` or the number of clusters changes. `past` has the earlier results, for undo.

import { clustersAt, firstCount } from './clusters.js';
import { coloursOf, fewOf } from './merges.js';

/** @typedef {import('./types.js').Snapshot} Snapshot */

const MOST_KEPT = 3_000_000; // vertices in all results that undo can restore

/** @type {import('./types.js').State} */
export const state = {
  shown: null,
  file: null, // the source of `shown`
  placesFile: null, // the source of its coordinates, for a graph
  clusters: null,
  smallest: null, // the fewest points of a cluster with a colour, or null for a hundredth of all points
  round: null, // the time while Borůvka's rounds are played: the round and its fraction; null shows the clusters
  isStepped: false, // keys step through the rounds
  playing: 0, // how often the rounds were played or stopped
  view: null, // the visible part of the points, or null for all of them
  picked: -1, // the chosen vertex, or -1
  branch: null, // the branch under the pointer, as indices in `merges.order` from `begin` to `end`
  tool: 'hand', // or 'pen'
  cross: null, // the pixel at which a key adds a point
  scale: 'root', // of heights
  hasWeights: false, // weights are drawn at the edges
  hasOthers: true, // edges that aren't in the forest are drawn
  past: [],
  future: [],
  free: { left: 0, top: 0, width: 1, height: 1 }, // the part of the picture that nothing covers, in pixels
  turn: 0, // how often something was opened, generated or cleared
  draws: 0, // how often points were generated at random
  adding: Promise.resolve(), // fulfilled when all points of the pen are there
  drawn: {}, // the state that the texts and the dendrogram show
  tree: { isAwaited: false, free: 0 }, // whether the dendrogram will be drawn, and from when on it may be
  isPrinted: false,
  canFilm: false, // whether the browser can encode films, once that is known
};

const listeners = [];
export const onChange = call => listeners.push(call);

export function change(more) {
  Object.assign(state, more);
  for (const call of listeners) call();
}

// The fewest points of a cluster with a colour.
export const fewNow = () => state.smallest ?? fewOf(state.shown?.n ?? 0);

// Shows a result with this number of clusters, or with the number at the clearest jump of heights.
function put(shown, { count = null, smallest = null, ...more }) {
  const few = smallest ?? fewOf(shown?.n ?? 0), { n, merges } = shown ?? {};
  const clusters = merges ? clustersAt(shown, count ?? firstCount(shown, few), coloursOf(n, merges, few)) : null;
  const anew = { round: null, isStepped: false, picked: -1, branch: null };
  change({ shown, clusters, smallest, ...anew, ...more });
}

/** @returns {Snapshot} */
function snapshot() {
  const { shown, file, placesFile, clusters, smallest, view } = state;
  return { shown, file, placesFile, count: clusters?.count ?? null, smallest, view };
}

// The last of these snapshots that are small enough together. Each counts as one vertex at least, so that their number
// is bounded too.
function bounded(snapshots) {
  let left = MOST_KEPT, first = snapshots.length;
  while (first > 0 && (left -= 1 + (snapshots[first - 1].shown?.n ?? 0)) >= 0) first--;
  return snapshots.slice(first);
}

// Shows a result. Undo restores the one before it.
export function show(shown, more = {}) {
  const past = bounded([...state.past, snapshot()]);
  put(shown, { file: null, placesFile: null, ...more, past, future: [] });
}

// Shows the first result, which can't be undone.
export const showFirst = (shown, more = {}) => put(shown, more);

function swap(from, to) {
  const found = state[from].at(-1);
  if (!found) return;
  const kept = bounded([...state[to], snapshot()]);
  put(found.shown, { ...found, [from]: state[from].slice(0, -1), [to]: kept });
}

export const undo = () => swap('past', 'future');
export const redo = () => swap('future', 'past');

export function cutTo(count) {
  const { shown, clusters } = state;
  if (!clusters) return;
  const cut = clustersAt(shown, count, clusters.colour);
  change({ clusters: cut, round: null, isStepped: false, branch: null });
}

// Makes clusters of fewer points than this grey.
export function colourFrom(smallest) {
  const { shown, clusters } = state;
  if (!clusters) return;
  const colour = coloursOf(shown.n, shown.merges, smallest ?? fewOf(shown.n));
  change({ smallest, clusters: clustersAt(shown, clusters.count, colour) });
}
