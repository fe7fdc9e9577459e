'use strict';
// A line `refused ..` taken apart by the places of its words, and put in words, for the worker and for tests. An identifier may be any word, `row`
// and `at` too. What is said is a list of sentences: a key of words.csv, and the values that stand in it.

/** The refusal that a line of `area`, `check` or `cut` has, or null where it is no such line. */
function refusalOf(line) {
  const [first, code, ...rest] = line.split(/\s+/).filter(word => word);
  if (first !== 'refused' || !code) return null;
  const refusal = { code, names: [] };
  if (rest[0] === 'cert' && rest[1] === 'line') return { ...refusal, certLine: Number(rest[2]) };
  if ((rest[0] in COLUMNS || rest[0] === 'area') && rest[1] === 'row') {
    const text = code === '38' ? { textCode: rest[4], offset: Number(rest[6]) } : {};
    return { ...refusal, table: rest[0], row: Number(rest[2]), ...text };
  }
  const count = { parcel: 1, piece: 1, parcels: 2, pieces: 2, pair: 2 }[rest[0]];
  if (!count) return rest.length ? null : refusal;
  const at = rest.slice(1 + count);
  const place = at[0] === 'at' ? { place: at.slice(1, 4).map(BigInt) } : {};
  return { ...refusal, kind: rest[0], names: rest.slice(1, 1 + count), ...place };
}

/** A fraction with so many decimals, rounded to the nearest. */
function decimalOf(value, over, decimals) {
  const factor = 10n ** BigInt(decimals), size = value < 0n ? -value : value;
  const digits = String((2n * size * factor + over) / (2n * over)).padStart(decimals + 1, '0');
  return `${value < 0n && /[1-9]/.test(digits) ? '-' : ''}${digits.slice(0, -decimals)}.${digits.slice(-decimals)}`;
}

/** A place X/D, Y/D in millimetres, in metres: exact where four decimals hold it. */
function placeSentence([x, y, d]) {
  const over = 1000n * d, isExact = (x * 10n) % d === 0n && (y * 10n) % d === 0n;
  const [atX, atY] = [x, y].map(value => decimalOf(value, over, isExact ? 4 : 6));
  return { key: 'place', values: { metres: { key: isExact ? 'exactly' : 'about', values: { x: atX, y: atY } }, x: decimalOf(x, over, 6), y: decimalOf(y, over, 6) } };
}

const quoted = text => `'${text}'`;
const shown = (bytes, most = 60) => {
  const text = textOf(bytes);
  return text.length <= most ? text : `${text.slice(0, most - 3)}...`;
};

function metresOf(millimetres) {
  return decimalOf(BigInt(millimetres), 1000n, 3);
}

function extentSentence(members) {
  const xs = members.flatMap(rings => rings.flatMap(ring => ring.filter((_, i) => i % 2 === 0)));
  const ys = members.flatMap(rings => rings.flatMap(ring => ring.filter((_, i) => i % 2 === 1)));
  const least = values => metresOf(values.reduce((a, b) => Math.min(a, b))), most = values => metresOf(values.reduce((a, b) => Math.max(a, b)));
  return { key: 'extent', values: { left: least(xs), right: most(xs), low: least(ys), high: most(ys) } };
}

/** What is said of a refusal, with the shapes that it names. `files` has the bytes of the tables and of the certificate, `names` how they are called. */
class Explained {
  constructor(refusal, files, names) {
    Object.assign(this, { refusal, files, names, sentences: [], focus: [], tables: {} });
    for (const code of [refusal.code, refusal.textCode].filter(code => code)) this.say('code', { code });
    if (refusal.table && files[refusal.table]) this.sayRow();
    else if (refusal.certLine) this.sayLine();
    else this.sayShapes();
    if (refusal.place) this.sentences.push(placeSentence(refusal.place));
  }

  say(key, values) {
    this.sentences.push({ key, values });
  }

  table(name) {
    this.tables[name] ??= new Table(this.files[name]);
    return this.tables[name];
  }

  sayRow() {
    const name = this.refusal.table, table = this.table(name), path = this.names[name];
    if (this.refusal.row === 0) {
      this.say('wanted header', { names: COLUMNS[name].filter(column => column !== 'eligible').join(',') });
      this.say('found header', { path, names: table.header.join(',').slice(0, 200) });
      return;
    }
    const row = table.row(this.refusal.row);
    if (!row) {
      this.say('no row', { path, row: this.refusal.row, count: table.count() });
      return;
    }
    this.say('row', { path, row: row.number, line: row.line });
    const fields = COLUMNS[name].filter(column => column !== 'wkt' && table.names.includes(column));
    if (fields.length) this.say('plain', { text: fields.map(column => `${column} ${quoted(shown(table.field(row, column)))}`).join(', ') });
    if (this.refusal.textCode) this.sayText(table.field(row, 'wkt'));
    if (this.refusal.code === '33') this.sayLetters(table, row);
    const members = polygonOf(table.field(row, 'wkt'));
    if (!members) return;
    this.sentences.push(extentSentence(members));
    this.focus.push({ kind: name, name: shown(table.field(row, KEYS[name])), members });
  }

  /** The first field that should be an identifier and is none. */
  sayLetters(table, row) {
    for (const name of COLUMNS[this.refusal.table].filter(column => !['wkt', 'percent', 'eligible'].includes(column))) {
      const text = textOf(table.field(row, name)), wrong = text.search(/[^A-Za-z0-9._:/-]/);
      if (!text) this.say('empty', { name });
      else if (text.length > 40) this.say('long', { name, count: text.length, value: quoted(text.length > 60 ? `${text.slice(0, 57)}...` : text) });
      else if (wrong >= 0) this.say('letter', { name, value: quoted(text), number: wrong + 1, letter: quoted([...text.slice(wrong)][0]) });
      else continue;
      return;
    }
  }

  sayText(text) {
    const { offset } = this.refusal;
    const word = /^[ \t\r\n]*([(),]|[^ \t\r\n(),]+)/.exec(textOf(text.subarray(offset, offset + 200)));
    const before = textOf(text.subarray(Math.max(0, offset - 40), offset));
    const number = text.subarray(0, offset).reduce((count, byte) => count + (byte === BYTE.comma ? 1 : 0), 1);
    this.say('offset', { offset, word: word ? quoted(word[1].slice(0, 60)) : { key: 'end of text', values: {} }, number, before: quoted((offset > 40 ? '..' : '') + before) });
  }

  sayLine() {
    const lines = textOf(this.files.cert).split('\n');
    const isWhole = lines[lines.length - 1] === '', count = lines.length - (isWhole ? 1 : 0);
    this.say('lines', { path: this.names.cert, count, without: isWhole ? '' : { key: 'without', values: {} } });
    if (this.refusal.certLine <= count) this.say('line', { number: this.refusal.certLine, text: quoted(lines[this.refusal.certLine - 1].slice(0, 60)) });
  }

  sayShapes() {
    const { kind, names } = this.refusal;
    const [column, name] = { parcel: ['parcel', 'parcels'], parcels: ['parcel', 'parcels'], piece: ['piece', 'covers'], pieces: ['piece', 'covers'] }[kind] ?? [];
    for (const text of column ? names : []) this.sayShape(column, name, text);
    if (['43', '44', '66'].includes(this.refusal.code) && this.focus.length) this.sayPieces(names[0]);
  }

  sayPieces(parcel) {
    const covers = this.table('covers');
    for (const row of covers.rows()) {
      const members = textOf(covers.field(row, 'parcel')) === parcel && polygonOf(covers.field(row, 'wkt'));
      if (!members) continue;
      const piece = shown(covers.field(row, 'piece'));
      this.say('piece', { piece, row: row.number, line: covers.lineAt(row.start), extent: extentSentence(members) });
      this.focus.push({ kind: 'piece', name: piece, members });
    }
  }

  sayShape(column, name, text) {
    const table = this.table(name), row = table.find(column, text);
    if (!row) {
      this.say('no shape', { column, name: text, table: name });
      return;
    }
    const members = polygonOf(table.field(row, 'wkt'));
    const others = COLUMNS[name].filter(other => other !== 'wkt' && other !== column).map(other => `, ${other} ${shown(table.field(row, other))}`).join('');
    this.say('shape', { column, name: text, row: row.number, table: name, line: row.line, others, extent: members ? extentSentence(members) : { key: 'no polygon', values: {} } });
    if (members) this.focus.push({ kind: column, name: text, members });
  }
}
