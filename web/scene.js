// What a picture shows at a moment: the colour of each vertex, and the part of each edge that is drawn from either
// endpoint. The moment is { kept, colours } of clusters, or { round }, a time of the rounds.

import { NONE } from './merges.js';
import { HIGH, LOW } from './rounds.js';

const eased = part => part < 0.5 ? 4 * part ** 3 : 1 - (2 - 2 * part) ** 3 / 2;

// A moment of the rounds: pieces reach for their nearest neighbours, and an edge is whole from the next round on.
function sceneOfRound(rounds, time) {
  const now = Math.min(Math.floor(time), rounds.labels.length - 1), part = eased(time - now);
  const labels = rounds.labels[now];
  const reach = (i, end) => {
    if (rounds.round[i] !== now) return rounds.round[i] < now ? 1 : 0;
    if (!(rounds.endpoints[i] & end)) return 0;
    return rounds.endpoints[i] === (LOW | HIGH) ? part / 2 : part;
  };
  return { colourOf: v => labels[v], lowPart: i => reach(i, LOW), highPart: i => reach(i, HIGH), isCut: () => false };
}

// Clusters. Edges that are cut stay visible, in a soft colour.
function sceneOfClusters({ kept = Infinity, colours = null }) {
  return { colourOf: v => colours ? colours[v] : NONE, lowPart: () => 1, highPart: () => 0, isCut: i => i >= kept };
}

export function sceneAt({ rounds }, moment) {
  return moment.round === undefined ? sceneOfClusters(moment) : sceneOfRound(rounds, moment.round);
}

// The shift of the far endpoint of an edge that crosses the border of a map of the globe, or 0.
const shiftOf = ({ turn }, x, toX) => turn && Math.abs(toX - x) > turn / 2 ? Math.sign(x - toX) * turn : 0;

// Calls `line(ends, part, whose, isCut)` for each line of an edge. `ends` has x and y of its start and of its end. Only
// this part of it is drawn, from the start, in the colour of the vertex `whose`.
export function linesOf(shown, scene, i, line) {
  const { places, forest } = shown, u = forest[4 * i + 2] - 1, v = forest[4 * i + 3] - 1;
  const x = places[2 * u], y = places[2 * u + 1], toX = places[2 * v], toY = places[2 * v + 1];
  const low = scene.lowPart(i), high = scene.highPart(i), isCut = scene.isCut(i), shift = shiftOf(shown, x, toX);
  if (shift) {
    line([x, y, toX + shift, toY], Math.min(low, 0.5), u, isCut);
    line([toX, toY, x - shift, y], low === 1 ? 0.5 : Math.min(high, 0.5), low === 1 ? u : v, isCut);
  } else {
    if (low) line([x, y, toX, toY], low, u, isCut);
    if (high && low < 1) line([toX, toY, x, y], high, v, isCut);
  }
}
