// Plays Borůvka's rounds in six seconds, or steps through them by keys.

import { fade, isStill } from './fading.js';
import { counted } from './measures.js';
import { change, state } from './state.js';

export const SECONDS = 6; // for all rounds
export const HOLD = 1.5; // seconds for the whole tree

export const canPlay = () => Boolean(state.shown?.rounds && state.shown.heights.length);
export const isPlaying = () => state.round !== null;
export const lastRound = ({ rounds }) => rounds.labels.length - 1;

export function stopPlaying() {
  const playing = state.playing + 1;
  change(state.round === null ? { playing } : { playing, round: null, isStepped: false });
}

// Plays all rounds once, and then shows the whole tree and the clusters. If the user prefers less motion, only an
// explicit request plays them.
export function play({ isAsked = false } = {}) {
  state.playing++;
  const { shown, playing } = state, begun = performance.now();
  if (!canPlay() || (isStill.matches && !isAsked)) return Promise.resolve();
  const last = lastRound(shown);
  return new Promise(done => {
    const step = now => {
      const seconds = Math.max(0, now - begun) / 1000;
      if (playing !== state.playing || state.shown !== shown) return done();
      if (seconds >= SECONDS + HOLD) return done(fade(() => change({ round: null })));
      change({ round: Math.min(last, seconds / SECONDS * last), isStepped: false });
      return requestAnimationFrame(step);
    };
    step(begun);
  });
}

// Goes one round forward or back, and stays there. The clusters come after the last round.
export function stepRounds(by) {
  if (!canPlay()) return;
  const last = lastRound(state.shown), { round } = state;
  const now = round === null ? (by > 0 ? 0 : last) : Math.floor(round) + by;
  state.playing++;
  change(now < 0 || now > last ? { round: null, isStepped: false } : { round: now, isStepped: true });
}

// The number of pieces at this time of the rounds.
export const piecesAt = ({ rounds }, round) => rounds.counts[Math.min(Math.floor(round), rounds.counts.length - 1)];

// The caption at this time of the rounds.
export function roundsText({ rounds }, round) {
  const now = Math.min(Math.floor(round), rounds.counts.length - 1), isLast = now === rounds.counts.length - 1;
  const counts = rounds.counts.slice(0, now + 1).map(counted);
  const next = isLast ? 'No edge is left that joins two pieces.' : 'Each piece reaches for its nearest neighbour.';
  return `${counts.join(', ')} ${rounds.counts[now] === 1 ? 'piece' : 'pieces'}. ${next}`;
}
