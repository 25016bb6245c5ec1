// Pictures of many points, drawn pixel by pixel, one after the other, by a worker of their own. Pictures that take only
// a few milliseconds are drawn at once instead.

import { drawn } from './pixels.js';
import { state } from './state.js';

const MOST_AT_ONCE = 20_000; // points

export class Painter {
  constructor(starts) {
    this.starts = starts;
    this.worker = null;
    this.seen = null;
    this.asked = null;
    this.last = Promise.resolve();
  }

  // Starts the worker before a picture needs it.
  prepare() {
    if (!this.worker) this.start();
  }

  // The words of a picture, or a promise of them. They are null if the worker failed.
  draw(shown, job) {
    if (shown.places.length <= 2 * MOST_AT_ONCE || state.isPrinted) return drawn(shown, job);
    const words = this.last.then(() => this.askFor(shown, job));
    this.last = words;
    return words;
  }

  askFor(shown, job) {
    this.prepare();
    if (this.seen !== shown) {
      const { places, forest, heights, rounds, turn } = shown;
      this.worker.postMessage({ task: 'see', shown: { places, forest, heights, rounds, turn } });
      this.seen = shown;
    }
    return new Promise(resolve => {
      this.asked = resolve;
      this.worker.postMessage({ task: 'draw', job });
    });
  }

  start() {
    this.worker = this.starts();
    this.worker.onmessage = ({ data: { result } }) => this.settle(result?.words ?? null);
    this.worker.onerror = () => {
      this.worker.terminate();
      this.worker = this.seen = null;
      this.settle(null);
    };
  }

  settle(words) {
    this.asked?.(words);
    this.asked = null;
  }
}
