// Python that computes the same forest and clusters as the page, with this project's package.

import { state } from './state.js';

const MOST_INSIDE = 200_000; // letters of a table that the program contains
const NO_FILES = ['pasted.csv', 'link.csv']; // tables that the user doesn't have as a file
const ENCODINGS = { 'windows-1252': 'cp1252', 'utf-16le': 'utf-16', 'utf-16be': 'utf-16' };
const MISSING = '{"", "na", "n/a", "nan", "null", "none", "nil", "-", "?"}';

const quoted = text => JSON.stringify(text);
const number = ({ commas }, column) => `float(row[${column}]${commas ? '.replace(",", ".")' : ''})`;

const openedInPython = (name, how) => `${/\.gz$/i.test(name) ? 'gzip.' : ''}open(${quoted(name)}, ${how})`;

// The table: the file, or the text itself if it isn't a file and is short, or clusters.csv as the page saves it.
async function textOf(file, choice) {
  const name = file && !NO_FILES.includes(file.name) ? file.name : '';
  if (name) return openedInPython(name, `"rt", encoding="${ENCODINGS[choice.encoding] ?? 'utf-8-sig'}"`);
  const text = file ? await new Blob([file.content ?? file]).text() : '';
  if (text && text.length <= MOST_INSIDE) return `io.StringIO(${quoted(text)})`;
  return openedInPython('clusters.csv', '"rt", encoding="utf-8"');
}

/** @param {any} choice */
async function rowsInPython(choice, file) {
  const part = quoted(choice.separator), lines = `[line for line in ${await textOf(file, choice)} if keeps(line)]`;
  const table = `*csv.reader(${lines}, delimiter=${part}, skipinitialspace=True)`;
  const split = choice.separator === ' ' ? `line.split() for line in ${lines}` : table;
  const isHeaded = choice.hasHeader && choice.skips !== 'header';
  const roles = Object.entries(choice.roles).filter(([role, column]) => role !== 'name' && column >= 0);
  const needed = quoted(roles.map(([, column]) => column));
  const left = `rows = [row for row in rows if not any(row[i].strip().lower() in ${MISSING} for i in ${needed})]`;
  return [
    'import csv, gzip, io', 'import numpy as np',
    `keeps = lambda line: not line.lower().startswith("sep=")${choice.skips ? ' and not line.startswith("#")' : ''}`,
    `rows = [row for row in [${split}] if any(row)][${isHeaded ? 1 : 0}:]`, ...(choice.leavesOut ? [left] : []),
  ];
}

const linksInPython = (/** @type {any} */ { roles, ...choice }) => [
  'from boruvka import minimum_spanning_forest',
  'names, u, v, w = {}, [], [], []',
  'for row in rows:',
  `    u.append(names.setdefault(row[${roles.from}].strip(), len(names)))`,
  `    v.append(names.setdefault(row[${roles.to}].strip(), len(names)))`,
  `    w.append(${roles.weight >= 0 ? number(choice, roles.weight) : '1.0'})`,
  'forest = minimum_spanning_forest(len(names), u, v, w)',
  'print(np.asarray(w)[forest.index].sum())',
];

const GLOBE = [
  'east, north = np.radians(points).T',
  'points = np.stack([np.cos(north) * np.cos(east), np.cos(north) * np.sin(east), np.sin(north)], axis=1)',
];

/** @param {any} choice */
function pointsInPython({ roles, ...choice }, kind, count) {
  return [
    'from boruvka.linkage import labels, spanning_tree',
    `points = np.array([[${number(choice, roles.across)}, ${number(choice, roles.up)}] for row in rows])`,
    ...(kind === 'globe' ? GLOBE : []),
    'tree = spanning_tree(points)',
    kind === 'globe' ? 'print((2 * 6371 * np.arcsin(tree.w / 2)).sum())' : 'print(tree.w.sum())',
    `cluster = labels(len(points), tree, clusters=${count})`,
  ];
}

function graphInPython(file) {
  const text = openedInPython(file?.name ?? 'forest.gr', '"rb"');
  const run = `subprocess.run(["boruvka", "--plain"], input=${text}.read(), stdout=subprocess.PIPE, check=True)`;
  return `import gzip, subprocess\nprint(${run}.stdout.decode(), end="")\n`;
}

// Points that don't come from a table are read from clusters.csv.
const ofClusters = kind => [
  'import csv, gzip, io', 'import numpy as np',
  'rows = list(csv.DictReader(open("clusters.csv", encoding="utf-8")))',
  `x, y = ${kind === 'globe' ? '"longitude", "latitude"' : '"x", "y"'}`,
];

export async function pythonText() {
  const { shown: { kind, choice }, file, clusters } = state;
  if (kind === 'graph') return graphInPython(file);
  if (!choice) {
    const read = { roles: { across: 'x', up: 'y' }, commas: false };
    return [...ofClusters(kind), ...pointsInPython(read, kind, clusters.count), ''].join('\n');
  }
  const lines = kind === 'links' ? linksInPython(choice) : pointsInPython(choice, kind, clusters.count);
  return [...await rowsInPython(choice, file), ...lines, ''].join('\n');
}
