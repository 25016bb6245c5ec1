// The colours of clusters: twelve hues in OKLCH, each turned from the last by the golden angle, and the same hues at
// other lightnesses. The first hue and the lightnesses are chosen so that colour-blind people can also tell the first
// eight apart, which tests/browsing/reach.py checks. All other colours are defined in page.css.

import { NONE } from './merges.js';
import { state } from './state.js';

const GOLDEN = 137.508; // degrees
const HUES = 12;
const FIRST = { light: 247, dark: 271 };
const LIGHTNESS = { light: [0.387, 0.571, 0.4, 0.608], dark: [0.859, 0.647, 0.777, 0.593] };
const CHROMA = 0.16;
const PLAIN = ['paper', 'ink', 'soft', 'line', 'alone', 'cut', 'faint', 'land', 'mark'];

const isDark = matchMedia('(prefers-color-scheme: dark)');
export const onInks = call => isDark.addEventListener('change', call);

const curve = light => light <= 0.0031308 ? 12.92 * light : 1.055 * light ** (1 / 2.4) - 0.055;
const byte = light => Math.round(255 * Math.max(0, Math.min(1, curve(light))));

// Red, green and blue of a colour in OKLCH (Ottosson 2020), 0 to 255.
function rgbOf(lightness, chroma, hue) {
  const turn = hue * Math.PI / 180, a = chroma * Math.cos(turn), b = chroma * Math.sin(turn);
  const l = (lightness + 0.3963377774 * a + 0.2158037573 * b) ** 3;
  const m = (lightness - 0.1055613458 * a - 0.0638541728 * b) ** 3;
  const s = (lightness - 0.0894841775 * a - 1.291485548 * b) ** 3;
  return [
    4.0767416621 * l - 3.3077115913 * m + 0.2309699292 * s,
    -1.2684380046 * l + 2.6097574011 * m - 0.3413193965 * s,
    -0.0041960863 * l - 0.7034186147 * m + 1.707614701 * s,
  ].map(byte);
}

const hexOf = rgb => `#${rgb.map(value => value.toString(16).padStart(2, '0')).join('')}`;

// The colours of clusters by their numbers, on light or dark paper.
export function huesOn(paper) {
  const steps = LIGHTNESS[paper], lightness = i => steps[(i + Math.floor(i / HUES)) % steps.length];
  const hue = i => FIRST[paper] + GOLDEN * (i % HUES);
  return Array.from({ length: 2 * HUES }, (_, i) => hexOf(rgbOf(lightness(i), CHROMA, hue(i))));
}

function inksOn(paper) {
  const style = getComputedStyle(document.documentElement);
  const plain = PLAIN.map(name => [name, style.getPropertyValue(`--${paper}-${name}`).trim()]);
  return { ...Object.fromEntries(plain), hues: huesOn(paper), scheme: paper };
}

const all = { light: inksOn('light'), dark: inksOn('dark') };

// All colours in use: the `hues` of clusters, and those of page.css. Printed pages use the light ones.
export const inks = () => all[isDark.matches && !state.isPrinted ? 'dark' : 'light'];

// The colour of a cluster, or the grey of noise.
export const inkOf = ({ hues, alone }, colour) => colour === NONE ? alone : hues[colour % hues.length];

// A colour as a word of pixel data, in which red comes first in memory.
export const wordOf = ink => 0xff000000 + parseInt(ink.slice(5) + ink.slice(3, 5) + ink.slice(1, 3), 16);
