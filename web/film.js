// The rounds as a film. Each frame is drawn for its own time, so that the film is complete on a slow machine too.

import { inks } from './inks.js';
import { isDrawnAtOnce, jobOf, shapesOf } from './picture.js';
import { HOLD, SECONDS, lastRound, piecesAt, roundsText } from './playing.js';
import { counted } from './measures.js';
import { paint } from './shapes.js';
import { state } from './state.js';
import { lens, wholeView } from './view.js';
import { webmOf } from './webm.js';

const WIDTH = 960, HEIGHT = 540;
const RATE = 24; // frames in a second
const MOST_WAITING = 8; // frames in the queue of the encoder
const CONFIGURATION = {
  codec: 'vp8', width: WIDTH, height: HEIGHT, bitrate: 3_000_000, framerate: RATE, latencyMode: 'realtime',
  contentHint: 'motion',
};
const TOP = 92; // pixels above the picture
const FREE = { left: 0, top: TOP, width: WIDTH, height: HEIGHT - TOP };

// The reason why this browser can't make a film, or an empty text. (WebKit without codecs crashes if it is asked for an
// encoder.)
export async function whyNoFilm() {
  const canShow = document.createElement('video').canPlayType('video/webm; codecs="vp8"');
  if (!window.VideoEncoder || !canShow) return 'This browser can’t make a film.';
  const { supported } = await window.VideoEncoder.isConfigSupported(CONFIGURATION).catch(() => ({ supported: false }));
  return supported ? '' : 'This browser can’t encode VP8.';
}

// Draws the picture at a time of the rounds, with a title and the number of pieces.
async function drawFrame(canvas, painter, round) {
  const pen = canvas.getContext('2d', { alpha: false }), plain = inks(), { shown } = state;
  const through = lens(wholeView(FREE), FREE);
  pen.fillStyle = plain.paper;
  pen.fillRect(0, 0, WIDTH, HEIGHT);
  if (isDrawnAtOnce(shown)) paint(pen, shapesOf(shown, { round }, through));
  else {
    const job = jobOf({ moment: { round }, through, sharp: 1, width: WIDTH, height: HEIGHT });
    const words = await painter.draw(shown, job);
    if (!words) throw new Error('The film can’t be drawn: the browser is out of memory.');
    pen.putImageData(new ImageData(new Uint8ClampedArray(words.buffer), WIDTH, HEIGHT), 0, 0);
  }
  paint(pen, titleShapes(shown, round, plain));
}

function titleShapes(shown, round, { ink, soft }) {
  const pieces = piecesAt(shown, round), serif = 'ui-serif, Georgia, serif', sans = '14px system-ui, sans-serif';
  const right = WIDTH - 24;
  return [
    { text: document.title, x: 24, y: 38, fill: ink, font: `500 23px ${serif}` },
    { text: roundsText(shown, round), x: 24, y: 62, fill: soft, font: sans },
    { text: counted(pieces), x: right, y: 56, fill: ink, anchor: 'right', font: `500 54px ${serif}` },
    { text: pieces === 1 ? 'piece' : 'pieces', x: right, y: 76, fill: soft, anchor: 'right', font: sans },
  ];
}

// An encoder that adds its frames to this list.
function encoderFor(frames, fail) {
  const encoder = new window.VideoEncoder({
    output(chunk) {
      const bytes = new Uint8Array(chunk.byteLength);
      chunk.copyTo(bytes);
      frames.push({ bytes, time: chunk.timestamp / 1e6, isKey: chunk.type === 'key' });
    },
    error: fail,
  });
  encoder.configure(CONFIGURATION);
  return encoder;
}

// The film as WebM. `report` is called with the part that is done, from 0 to 1.
export async function filmOf(painter, report) {
  const canvas = Object.assign(document.createElement('canvas'), { width: WIDTH, height: HEIGHT }), frames = [];
  const { shown } = state, last = lastRound(shown), count = Math.round((SECONDS + HOLD) * RATE);
  let failure = null;
  const encoder = encoderFor(frames, error => { failure = error; });
  for (let i = 0; i < count; i++) {
    if (state.shown !== shown) return null;
    const isStill = i > SECONDS * RATE && i < count - 1 && i % RATE; // as the frame before it
    if (isStill) continue;
    await drawFrame(canvas, painter, Math.min(last, i / RATE / SECONDS * last));
    const frame = new window.VideoFrame(canvas, { timestamp: Math.round(1e6 * i / RATE) });
    encoder.encode(frame, { keyFrame: i % RATE === 0 });
    frame.close();
    report(i / count);
    while (encoder.encodeQueueSize > MOST_WAITING && !failure) await new Promise(done => setTimeout(done, 5));
    if (i % 4 === 0) await new Promise(done => setTimeout(done));
    if (failure) throw failure;
  }
  await encoder.flush();
  encoder.close();
  return webmOf(frames, { width: WIDTH, height: HEIGHT, seconds: count / RATE });
}
