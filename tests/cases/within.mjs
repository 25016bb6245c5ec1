// Calls the built module boruvka.wasm, each time in memory after the module's own.
//
//     node --experimental-wasm-memory64 within.mjs MODULE COMMAND
//
// text ROOM  reads a .gr text from standard input, and prints what fits ROOM bytes of its forest's text, and to standard error
//            `result kind line` and the text of the kind
// list       reads `n m` and then m times `low high weight`, and prints their forest's text
// merges     reads the same, with links that contain no cycle and don't descend, and prints a line `first second size` for each,
//            or the error's code
// places     reads the same as `list`, and prints for each link of the forest the index of its first arc, or the error's code
// labels     reads the same, with links that contain no cycle, and prints each vertex's label, or the error's code
// bad        reads the same, and prints the index of the first bad link, that of the first bad head, and the release
// codes      prints each number from -22 to 3, and its text as an error's code
//
// One instance makes all calls. The memory is doubled while it is too small, and a wrong byte after it ends the script.
import { readFileSync, writeSync } from "node:fs";

const NO_MEMORY = -1n;
const SIGN = 0xa5;
const PAGE = 65536;
const module = new WebAssembly.Module(readFileSync(process.argv[2]));
if (WebAssembly.Module.imports(module).length) throw new Error("the module imports something");
const { exports } = new WebAssembly.Instance(module);
const base = (Number(exports.__heap_base.value) + 15) & ~15;

function reach(end) {
  const more = Math.ceil((end - exports.memory.buffer.byteLength) / PAGE);
  if (more <= 0) return;
  try {
    exports.memory.grow(BigInt(more));
  } catch (error) {
    if (!(error instanceof TypeError)) throw error;
    exports.memory.grow(more);
  }
}

// `call(memory)` with a struct boruvka_memory at `base`, whose bytes begin at `from`.
function within(from, call) {
  for (let size = 100; ; size = 2 * size + 7) {
    reach(from + size + 64);
    const view = new DataView(exports.memory.buffer);
    view.setBigUint64(base, BigInt(from), true);
    view.setBigUint64(base + 8, BigInt(size), true);
    new Uint8Array(exports.memory.buffer, from + size, 64).fill(SIGN);
    const answer = call(BigInt(base));
    if (!new Uint8Array(exports.memory.buffer, from + size, 64).every((it) => it === SIGN)) throw new Error("a byte after the memory was written");
    if (answer !== NO_MEMORY || size > 2 ** 33) return answer;
  }
}

const unit = (n) => Math.ceil(n / 16) * 16;

function text(source, room) {
  const given = base + 32, into = given + unit(source.length), from = into + unit(room + 64);
  reach(from);
  new Uint8Array(exports.memory.buffer, given, source.length).set(source);
  new Uint8Array(exports.memory.buffer, into, room + 64).fill(SIGN);
  const answer = within(from, (memory) => exports.boruvka_forest_text_within(memory, BigInt(given), BigInt(source.length), BigInt(into), BigInt(room), BigInt(base + 16)));
  const length = answer < 0n ? 0 : Math.min(Number(answer), room);
  if (!new Uint8Array(exports.memory.buffer, into + length, room + 64 - length).every((it) => it === SIGN)) throw new Error("a byte after the text was written");
  writeSync(1, new Uint8Array(exports.memory.buffer, into, length));
  const view = new DataView(exports.memory.buffer);
  const kind = view.getBigInt64(base + 16, true), line = view.getBigUint64(base + 24, true);
  const told = Number(exports.boruvka_fault_text_within(kind, BigInt(into), 64n));
  const why = new TextDecoder().decode(new Uint8Array(exports.memory.buffer, into, told));
  writeSync(2, `${answer} ${kind} ${line} ${why}\n`);
}

// The numbers of a list, with its links at `links`.
const links = base + 32;
function listed(source) {
  const words = new TextDecoder().decode(source).split(/\s+/);
  const n = Number(words[0]), m = Number(words[1]);
  reach(links + 16 * m);
  const view = new DataView(exports.memory.buffer);
  for (let i = 0; i < m; i++) {
    view.setBigInt64(links + 16 * i, BigInt(words[3 * i + 4]), true);
    view.setUint32(links + 16 * i + 8, Number(words[3 * i + 2]), true);
    view.setUint32(links + 16 * i + 12, Number(words[3 * i + 3]), true);
  }
  return { n, m };
}

function list(source) {
  const { n, m } = listed(source);
  const count = within(links + 16 * m, (memory) => exports.boruvka_forest_within(memory, n, BigInt(links), BigInt(m)));
  if (count < 0n) throw new Error(`refused: ${count}`);
  const view = new DataView(exports.memory.buffer);
  let text = `p sp ${n} ${count}\n`;
  for (let i = 0; i < Number(count); i++) {
    text += `a ${view.getUint32(links + 16 * i + 8, true)} ${view.getUint32(links + 16 * i + 12, true)} ${view.getBigInt64(links + 16 * i, true)}\n`;
  }
  writeSync(1, text);
}

function merges(source) {
  const { n, m } = listed(source), into = links + 16 * m, behind = into + 12 * m;
  reach(behind + 64);
  new Uint8Array(exports.memory.buffer, into, 12 * m + 64).fill(SIGN);
  const answer = within(unit(behind + 64), (memory) => exports.boruvka_merges_within(memory, n, BigInt(links), BigInt(m), BigInt(into), BigInt(m)));
  const from = answer < 0n ? into : behind;
  if (!new Uint8Array(exports.memory.buffer, from, behind + 64 - from).every((it) => it === SIGN)) throw new Error("a byte that is no merge was written");
  const rows = new Uint32Array(exports.memory.buffer, into, 3 * m);
  let text = answer < 0n ? `${answer}\n` : "";
  for (let i = 0; i < Number(answer); i++) text += `${rows.subarray(3 * i, 3 * i + 3).join(" ")}\n`;
  writeSync(1, text);
}

// The numbers of 32 bits that a call writes: at most `room` of them, after `end`, and no other byte.
function numbers(end, room, call) {
  const into = unit(end), behind = into + 4 * room;
  reach(behind + 64);
  new Uint8Array(exports.memory.buffer, into, 4 * room + 64).fill(SIGN);
  const answer = within(unit(behind + 64), (memory) => call(memory, BigInt(into), BigInt(room)));
  const from = answer < 0n ? into : into + 4 * Number(answer);
  if (!new Uint8Array(exports.memory.buffer, from, behind + 64 - from).every((it) => it === SIGN)) throw new Error("a byte after the numbers was written");
  const found = answer < 0n ? [answer] : [...new Uint32Array(exports.memory.buffer, into, Number(answer))];
  writeSync(1, found.map((it) => `${it}\n`).join(""));
}

// The links as three columns after them. Without links, the columns are at address 0.
function columns({ m }) {
  const w = unit(links + 16 * m), u = unit(w + 8 * m), v = unit(u + 4 * m), end = v + 4 * m;
  reach(end + 64);
  const view = new DataView(exports.memory.buffer);
  for (let i = 0; i < m; i++) {
    view.setBigInt64(w + 8 * i, view.getBigInt64(links + 16 * i, true), true);
    view.setUint32(u + 4 * i, view.getUint32(links + 16 * i + 8, true), true);
    view.setUint32(v + 4 * i, view.getUint32(links + 16 * i + 12, true), true);
  }
  const [m64, ...starts] = [m, u, v, w].map((it) => BigInt(m && it));
  return { end, passed: starts.flatMap((it) => [it, m64]), heads: [starts[1], m64] };
}

function places(source) {
  const { n, m } = listed(source), { end, passed } = columns({ m });
  numbers(end, Math.min(m, Math.max(n - 1, 0)), (memory, into, room) => exports.boruvka_places_within(memory, n, 1, ...passed, into, room));
}

function labels(source) {
  const { n, m } = listed(source);
  numbers(links + 16 * m, n, (memory, into, room) => exports.boruvka_labels_within(memory, BigInt(links), BigInt(m), into, room));
}

function bad(source) {
  const { n, m } = listed(source), { heads } = columns({ m });
  const found = [exports.boruvka_bad_link_within(n, BigInt(links), BigInt(m)), exports.boruvka_bad_end_within(n, 1, ...heads)];
  writeSync(1, `${found.join(" ")} ${exports.boruvka_release_within()}\n`);
}

function codes() {
  reach(base + 32);
  for (let code = -22n; code <= 3n; code++) {
    const told = Number(exports.boruvka_fault_text_within(code, BigInt(base), 32n));
    writeSync(1, `${code} ${new TextDecoder().decode(new Uint8Array(exports.memory.buffer, base, told))}\n`);
  }
}

const source = readFileSync(0);
if (process.argv[3] === "text") text(source, Number(process.argv[4]));
else if (process.argv[3] === "merges") merges(source);
else if (process.argv[3] === "places") places(source);
else if (process.argv[3] === "labels") labels(source);
else if (process.argv[3] === "bad") bad(source);
else if (process.argv[3] === "codes") codes();
else list(source);
