'use strict';
// The map and the tables of a result.

const $ = id => document.getElementById(id);

function element(name, words = '', kind = '') {
  const made = document.createElement(name);
  made.textContent = words;
  if (kind) made.className = kind;
  return made;
}

/** Lets a user keep some bytes or text as a file. */
function save(parts, name) {
  const link = element('a');
  link.href = URL.createObjectURL(new Blob(parts));
  link.download = name;
  link.click();
  setTimeout(() => URL.revokeObjectURL(link.href), 60000);
}

// What map.js draws; the map is made once, when there is something to draw.
let data = null, chart = null;

/** Shows a map, as near as a refusal's shapes or place ask for. */
function showMap(drawing) {
  const isNew = data?.map !== drawing;
  data = { map: drawing };
  if (!chart) {
    chart = new Chart(document.querySelector('canvas.map'));
    listen(chart);
    listenToSearch(chart);
  } else {
    chart.measure();
    if (isNew) chart.load();
    else chart.show();
  }
  if (isNew && drawing.near) chart.fit(drawing.near, 0.5);
  const colours = [...drawing.classes, [say('border of a parcel'), MAP.colours.parcel], ...(drawing.near ? [[say('mark'), MAP.colours.fault]] : [])];
  $('legend').replaceChildren(...colours.map(([name, fill]) => {
    const entry = element('span'), colour = element('i');
    colour.style.background = fill;
    entry.append(colour, name);
    return entry;
  }));
}

const csvField = field => (/[",\r\n]/.test(field) ? `"${field.replaceAll('"', '""')}"` : field);
/** A text that a spreadsheet would take for a formula has an apostrophe before it, as in the tables of the tools. */
const csvText = field => csvField(/^'*[=+\-@\t\r]/.test(field) ? `'${field}` : field);

/** Lets an element be chosen by a click, and by Enter or a blank where the keyboard has reached it. */
function reach(chosen, act) {
  chosen.tabIndex = 0;
  chosen.addEventListener('click', act);
  chosen.addEventListener('keydown', event => {
    if (event.target !== chosen || !['Enter', ' '].includes(event.key)) return;
    event.preventDefault();
    act();
  });
}

/** A table of texts that a click on a heading sorts, of which the first rows are shown. A column whose key begins with # has numbers. */
class SortedTable {
  constructor(place, columns, rows, pick) {
    Object.assign(this, { place, columns, pick, rows: rows.map((cells, number) => ({ cells, number })), sorted: -1, isDown: false });
    this.show();
  }

  show() {
    const table = element('table', '', 'sorted'), head = table.createTHead().insertRow(), body = table.createTBody();
    this.columns.forEach((key, column) => {
      const name = element('th', say(key.replace('#', '')), key.startsWith('#') ? 'number' : '');
      reach(name, () => this.sort(column));
      head.append(name);
    });
    for (const { cells, number } of this.rows.slice(0, MOST_SHOWN)) {
      const row = body.insertRow();
      cells.forEach((cell, column) => row.append(element('td', cell, this.columns[column].startsWith('#') ? 'number' : '')));
      if (this.pick) reach(row, () => this.pick(number));
      row.className = this.pick ? 'row' : '';
    }
    const more = this.rows.length - MOST_SHOWN;
    this.place.replaceChildren(table, ...(more > 0 ? [element('p', say('more rows', { count: more }))] : []));
  }

  sort(column) {
    this.isDown = this.sorted === column && !this.isDown;
    this.sorted = column;
    const sign = this.isDown ? -1 : 1, isNumber = this.columns[column].startsWith('#');
    const order = isNumber ? (a, b) => (parseFloat(a) || 0) - (parseFloat(b) || 0) : (a, b) => (a < b ? -1 : a > b ? 1 : 0);
    this.rows.sort((a, b) => sign * order(a.cells[column], b.cells[column]));
    this.show();
  }

  csv() {
    const forms = this.columns.map(key => (key.startsWith('#') ? csvField : csvText));
    const lines = [this.columns.map(key => key.replace('#', '')), ...this.rows.map(row => row.cells)];
    return lines.map(cells => cells.map((cell, column) => forms[column](cell)).join(',') + '\r\n').join('');
  }
}

const MOST_SHOWN = 1000;
