// Minimum spanning forests and the merges of their clusters, computed by boruvka.wasm, whose calls are proved. The
// module needs WebAssembly with 64-bit memory (Memory64).
//
// The module calls an edge a link. Links are a Uint32Array with four words per link: the weight, its lower 32 bits
// first, and the two endpoints, which are numbered from 1. A BigInt64Array over the same buffer has the weights at its
// even indices. `module` is the compiled module. Each call makes an instance, whose memory is freed with it.

const PAGE = 65536; // bytes
const MOST_WORK = 2 ** 33; // bytes of working memory
const NO_MEMORY = -1n;

// An input that is rejected, or memory that is missing: the kind of error, the line of the text (from 1, or 0 if there
// is none), and optionally the text that is wrong.
export class InputError extends Error {
  constructor(kind, line = 0, what = '') {
    super(line ? `line ${line}: ${kind}` : kind);
    this.kind = kind;
    this.line = line;
    this.what = what;
  }
}

const aligned = bytes => Math.ceil(bytes / 16) * 16;

// An instance for one call. In its memory follow each other: what the module itself needs, two words with the address
// and the size of the working memory, `size` bytes of arguments from `at` on, and `work` bytes of working memory.
class Call {
  constructor(module, size, work) {
    this.exports = /** @type {any} */ (new WebAssembly.Instance(module).exports);
    this.words = aligned(Number(this.exports.__heap_base.value));
    this.at = this.words + 16;
    this.start = this.at + aligned(size);
    this.provide(aligned(work));
  }

  get buffer() {
    return this.exports.memory.buffer;
  }

  // Provides this many bytes of working memory. Views of the buffer that were made before are then empty.
  provide(work) {
    const pages = Math.ceil((this.start + work - this.buffer.byteLength) / PAGE);
    if (pages > 0) this.grow(pages);
    new BigUint64Array(this.buffer, this.words, 2).set([BigInt(this.start), BigInt(work)]);
    this.work = work;
  }

  grow(pages) {
    const { memory } = this.exports;
    try {
      try {
        memory.grow(BigInt(pages));
      } catch (error) {
        // older browsers expect a number
        if (!(error instanceof TypeError)) throw error;
        memory.grow(pages);
      }
    } catch (error) {
      if (error instanceof RangeError) throw new InputError('no memory');
      throw error;
    }
  }

  // The result of a call. As long as it runs out of memory, it is repeated with twice as much: it leaves its arguments
  // unchanged.
  run(call) {
    for (;;) {
      const result = call(this.exports, BigInt(this.words));
      if (result !== NO_MEMORY || this.work > MOST_WORK) return result;
      this.provide(2 * this.work);
    }
  }
}

function errorOfCode(module, code, line = 0) {
  const size = 32, call = new Call(module, size, 0);
  const length = call.exports.boruvka_fault_text_within(code, BigInt(call.at), BigInt(size));
  return new InputError(new TextDecoder().decode(new Uint8Array(call.buffer, call.at, Number(length))), line);
}

// The minimum spanning forest of links between the vertices 1 to n: the lightest link first, and each with its lower
// endpoint first.
export function forestOfLinks(module, n, links) {
  const count = links.length / 4, call = new Call(module, links.byteLength, PAGE + 26 * count + 10 * n);
  new Uint32Array(call.buffer, call.at, links.length).set(links);
  const result = call.run(({ boruvka_forest_within: forest }, memory) =>
    forest(memory, n, BigInt(call.at), BigInt(count)));
  if (result < 0n) throw errorOfCode(module, result);
  return new Uint32Array(call.buffer, call.at, 4 * Number(result)).slice();
}

// The merges of the clusters of n points, by links without a cycle, the lightest first, as forestOfLinks returns them.
// Each merge is three words, a row of a linkage matrix without its height: two clusters, the lower number first, and
// their number of points together. The clusters 0 to n - 1 are the points, and n + i is what the link at index i joins.
// The first n - c rows leave c clusters. A forest of several trees has fewer than n - 1 rows.
export function mergesOfLinks(module, n, links) {
  const count = links.length / 4, rows = aligned(links.byteLength);
  const call = new Call(module, rows + 12 * count, PAGE + 32 * count + 4 * n);
  const [from, to] = [0, rows].map(offset => BigInt(call.at + offset));
  new Uint32Array(call.buffer, call.at, links.length).set(links);
  const result = call.run(({ boruvka_merges_within: merges }, memory) =>
    merges(memory, n, from, BigInt(count), to, BigInt(count)));
  if (result < 0n) throw errorOfCode(module, result);
  return new Uint32Array(call.buffer, call.at + rows, 3 * count).slice();
}

// The text of the forest of a .gr text, both as bytes. The result has at most one byte more, an LF at the end.
export function forestOfText(module, text) {
  const size = text.length + 1, cause = aligned(text.length), into = cause + 16;
  const call = new Call(module, into + size, PAGE + 4 * text.length);
  const [from, to, why] = [0, into, cause].map(offset => BigInt(call.at + offset));
  new Uint8Array(call.buffer, call.at, text.length).set(text);
  const result = call.run(({ boruvka_forest_text_within: forest }, memory) =>
    forest(memory, from, BigInt(text.length), to, BigInt(size), why));
  if (result < 0n) throw errorOfCode(module, result, Number(new BigUint64Array(call.buffer, call.at + cause, 2)[1]));
  return new Uint8Array(call.buffer, call.at + into, Number(result)).slice();
}
