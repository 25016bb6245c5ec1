// Names of points or vertices as one array of bytes, which the worker can send to the page without a copy.

const MOST_IN_NAME = 200; // characters

export class Packer {
  constructor() {
    this.bytes = new Uint8Array(1024);
    this.ends = [0];
    this.encoder = new TextEncoder();
    this.cuts = 0;
  }

  add(name) {
    const end = this.ends.at(-1), text = name.slice(0, MOST_IN_NAME);
    if (text !== name) this.cuts++;
    if (this.bytes.length - end < 3 * text.length) {
      const more = new Uint8Array(2 * this.bytes.length + 3 * text.length);
      more.set(this.bytes);
      this.bytes = more;
    }
    this.ends.push(end + this.encoder.encodeInto(text, this.bytes.subarray(end)).written);
  }

  notes() {
    return this.cuts ? [`Names longer than ${MOST_IN_NAME} characters were shortened: ${this.cuts}.`] : [];
  }

  packed() {
    return { bytes: this.bytes.slice(0, this.ends.at(-1)), ends: Uint32Array.from(this.ends) };
  }
}

// The name at this index, or its number if there are no names.
export function nameAt(names, v) {
  return names ? new TextDecoder().decode(names.bytes.subarray(names.ends[v], names.ends[v + 1])) : String(v + 1);
}

// A function for unique names: a name that occurs several times gets the point's number after it.
export function namesApart(names, n) {
  const all = new Set(), shared = new Set();
  for (let v = 0; names && v < n; v++) {
    const name = nameAt(names, v);
    (all.has(name) ? shared : all).add(name);
  }
  return v => {
    let name = nameAt(names, v);
    if (shared.has(name)) for (name += `.${v + 1}`; all.has(name);) name += '.';
    return name;
  };
}
