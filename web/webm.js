// Writes a WebM file (a kind of Matroska) with one video track: frames of VP8 and their times, in clusters that begin
// with key frames.

const SECOND = 1000; // the unit of times in the file is a millisecond
const UNKNOWN = Uint8Array.of(0x01, 0xff, 0xff, 0xff, 0xff, 0xff, 0xff, 0xff);

function joined(parts) {
  const all = new Uint8Array(parts.reduce((sum, part) => sum + part.length, 0));
  let at = 0;
  for (const part of parts) {
    all.set(part, at);
    at += part.length;
  }
  return all;
}

// A whole number in as few bytes as possible, the highest byte first.
function bytesOf(number) {
  const bytes = [];
  for (let left = number; left > 0 || !bytes.length; left = Math.floor(left / 256)) bytes.unshift(left % 256);
  return Uint8Array.from(bytes);
}

const float = number => {
  const bytes = new DataView(new ArrayBuffer(8));
  bytes.setFloat64(0, number);
  return new Uint8Array(bytes.buffer);
};
const text = letters => new TextEncoder().encode(letters);

// The length of an element, in eight bytes.
function lengthOf(content) {
  const bytes = new DataView(new ArrayBuffer(8));
  bytes.setUint32(0, 0x01000000 + Math.floor(content.length / 2 ** 32));
  bytes.setUint32(4, content.length % 2 ** 32);
  return new Uint8Array(bytes.buffer);
}

// An element: its identity, its length and its content.
const element = (id, ...parts) => {
  const content = joined(parts);
  return joined([bytesOf(id), lengthOf(content), content]);
};

const HEAD = element(0x1a45dfa3, // EBML
  element(0x4286, bytesOf(1)), element(0x42f7, bytesOf(1)), element(0x42f2, bytesOf(4)), element(0x42f3, bytesOf(8)),
  element(0x4282, text('webm')), element(0x4287, bytesOf(2)), element(0x4285, bytesOf(2)));

function infoOf(seconds) {
  return element(0x1549a966, element(0x2ad7b1, bytesOf(1_000_000)), element(0x4489, float(seconds * SECOND)),
    element(0x4d80, text('boruvka')), element(0x5741, text('boruvka')));
}

const trackOf = (width, height) => element(0x1654ae6b, element(0xae,
  element(0xd7, bytesOf(1)), element(0x73c5, bytesOf(1)), element(0x83, bytesOf(1)), element(0x86, text('V_VP8')),
  element(0xe0, element(0xb0, bytesOf(width)), element(0xba, bytesOf(height)))));

// A frame of a cluster that begins at this time.
function blockOf({ bytes, time, isKey }, begun) {
  const head = new DataView(new ArrayBuffer(4));
  head.setUint8(0, 0x81);
  head.setInt16(1, Math.round(time * SECOND) - begun);
  head.setUint8(3, isKey ? 0x80 : 0);
  return element(0xa3, new Uint8Array(head.buffer), bytes);
}

/**
 * @param {{ bytes: Uint8Array, time: number, isKey: boolean }[]} frames - by their times in seconds, a key frame first
 * @param {{ width: number, height: number, seconds: number }} film
 */
export function webmOf(frames, { width, height, seconds }) {
  const clusters = [];
  for (const frame of frames) {
    if (frame.isKey) clusters.push([]);
    clusters.at(-1).push(frame);
  }
  const parts = clusters.map(cluster => {
    const begun = Math.round(cluster[0].time * SECOND);
    return element(0x1f43b675, element(0xe7, bytesOf(begun)), ...cluster.map(frame => blockOf(frame, begun)));
  });
  const head = [HEAD, bytesOf(0x18538067), UNKNOWN, infoOf(seconds), trackOf(width, height)];
  return new Blob([...head, ...parts], { type: 'video/webm' });
}
