// Two dialogs: what the columns of a table mean, and whether rows without a value are left out.

import { counted } from './measures.js';

/** @typedef {import('./types.js').Choice} Choice */

const $ = id => /** @type {any} */ (document.getElementById(id));

const ROLES = {
  plane: { across: 'Across (x)', up: 'Up (y)', name: 'Name' },
  globe: { across: 'Longitude', up: 'Latitude', name: 'Name' },
  links: { from: 'From', to: 'To', weight: 'Weight' },
};
const OPTIONAL = ['name', 'weight'];

function element(kind, text = '', more = {}) {
  const made = Object.assign(document.createElement(kind), more);
  made.textContent = text;
  return made;
}

function showSample(rows) {
  $('sample').replaceChildren(...rows.map(row => {
    const line = element('tr');
    line.append(...row.slice(0, 12).map(field => element('td', field.slice(0, 30))));
    return line;
  }));
}

function showRoles({ kind, roles }, header) {
  $('roles').replaceChildren(...Object.entries(ROLES[kind]).map(([role, title], i) => {
    const label = element('label', title), select = /** @type {any} */ (element('select', '', { id: `role-${role}` }));
    const names = header.map((field, column) => element('option', field.slice(0, 30), { value: String(column) }));
    select.append(...(OPTIONAL.includes(role) ? [element('option', 'none', { value: '-1' })] : []), ...names);
    select.value = String(roles[role] ?? (OPTIONAL.includes(role) ? -1 : Math.min(i, header.length - 1)));
    label.append(select);
    return label;
  }));
}

// Opens a dialog. The promise is for the choice that `chosen` returns, or for null if the dialog was cancelled.
function opened(dialog, chosen) {
  $(dialog).returnValue = '';
  $(dialog).showModal();
  return new Promise(done => {
    $(dialog).onclose = () => done($(dialog).returnValue === 'take' ? chosen() : null);
  });
}

// Asks which columns to use. The choice has the form of columns.js, or is null if the dialog was cancelled.
export function askColumns({ rows, guess }) {
  const names = () => $('header').checked ? rows[0] : rows[0].map((field, i) => `${i + 1}: ${field}`);
  const chosen = () => {
    const kind = $('kind').value, chosenFor = role => [role, Number($(`role-${role}`).value)];
    const roles = Object.fromEntries(Object.keys(ROLES[kind]).map(chosenFor));
    return { kind, roles, hasHeader: $('header').checked };
  };
  showSample(rows);
  $('kind').value = guess.kind;
  $('header').checked = guess.hasHeader;
  showRoles(guess, names());
  $('kind').onchange = () => showRoles({ kind: $('kind').value, roles: {} }, names());
  $('header').onchange = () => showRoles(chosen(), names());
  return opened('columns', chosen);
}

// Asks whether to leave out rows without a value. Returns the choice that does so, or null.
export function askMissing({ missing: { count, rows, line, field }, choice }) {
  const found = field ? `‘${field}’` : 'nothing';
  const [many, all] = [count, rows].map(counted), isOne = count === 1;
  const begin = `${many} of ${all} rows ${isOne ? 'has' : 'have'} no value. ${isOne ? 'It' : 'The first'}`;
  $('missingtext').textContent = `${begin} is in line ${line}, which has ${found} there.`;
  $('leaveout').textContent = isOne ? 'Leave the row out' : `Leave ${many} rows out`;
  return opened('missing', () => ({ ...choice, leavesOut: true }));
}
