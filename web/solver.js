// The page's side of worker.js: it sends tasks and shows their progress.

import { PageError } from './causes.js';

const $ = id => /** @type {any} */ (document.getElementById(id));
const SOON = 300; // milliseconds until the bar is shown

// The page is busy from its start until everything that has begun has ended.
let underway = 1;
export function busy(by) {
  underway += by;
  document.body.ariaBusy = String(underway > 0);
}

// The bytes of a part of a packed page, which are compressed by deflate, or null.
async function packed(id) {
  const text = $(id)?.textContent;
  if (!text) return null;
  const bytes = Uint8Array.from(atob(text), letter => letter.charCodeAt(0));
  const stream = new Blob([bytes]).stream().pipeThrough(new DecompressionStream('deflate-raw'));
  return new Uint8Array(await new Response(stream).arrayBuffer());
}

// A function that starts a worker. A page from a file may not start one from a module.
async function workerStart() {
  const script = await packed('packed-worker');
  if (!script) return () => new Worker('worker.js', { type: 'module' });
  const address = URL.createObjectURL(new Blob([script], { type: 'text/javascript' }));
  return () => new Worker(address);
}

async function moduleBytes() {
  const inside = await packed('packed-module');
  if (inside) return inside;
  const result = await fetch('boruvka.wasm');
  if (!result.ok) throw new Error('The file boruvka.wasm is missing. It belongs next to this page.');
  return new Uint8Array(await result.arrayBuffer());
}

// The compiled module, or null if the browser can't run it, because it lacks Memory64.
async function compiled(bytes) {
  return WebAssembly.validate(bytes) ? WebAssembly.compile(bytes) : null;
}

// A worker for one task at a time. `module` is null if the browser can't run it.
export class Solver {
  constructor(bytes, module, starts) {
    this.bytes = bytes;
    this.module = module;
    this.starts = starts;
    this.asked = null;
    this.start();
  }

  static async begin() {
    const bytes = await moduleBytes();
    return new Solver(bytes, await compiled(bytes), await workerStart());
  }

  start() {
    this.worker = this.starts();
    this.worker.postMessage({ module: this.module });
    this.worker.onmessage = ({ data }) => this.receive(data);
    this.worker.onerror = event => {
      const text = event.message || 'The page’s worker ended. The browser may be out of memory.';
      this.settle('reject', new Error(text));
      this.worker.terminate();
      this.start();
    };
  }

  // The result of a task, or null if another task or `stop` comes first.
  ask(task) {
    if (this.asked) this.stop();
    busy(1);
    return new Promise((resolve, reject) => {
      this.asked = { resolve, reject, bar: setTimeout(() => { $('busy').hidden = false; }, SOON) };
      $('progress').removeAttribute('value');
      this.worker.postMessage(task);
    });
  }

  receive({ progress, error, result }) {
    if (error) this.settle('reject', new PageError(error));
    else if (progress === undefined) this.settle('resolve', result);
    else if (progress === null) $('progress').removeAttribute('value');
    else $('progress').value = progress;
  }

  settle(how, value) {
    const { asked } = this;
    if (!asked) return;
    this.asked = null;
    clearTimeout(asked.bar);
    $('busy').hidden = true;
    asked[how](value);
    busy(-1);
  }

  stop() {
    if (!this.asked) return;
    this.worker.terminate();
    this.start();
    this.settle('resolve', null);
  }
}
