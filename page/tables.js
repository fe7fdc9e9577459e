'use strict';
// Reads tables for the map and the sums, and to explain a refusal; for the worker and for tests. Nothing here is part of a yes.

const NAMES = ['parcels', 'covers', 'classes'];
const COLUMNS = { area: ['wkt'], parcels: ['parcel', 'wkt'], covers: ['piece', 'parcel', 'class', 'wkt'], classes: ['class', 'percent', 'eligible'] };
const KEYS = { parcels: 'parcel', covers: 'piece', classes: 'class' };
const BYTE = { quote: 34, comma: 44, feed: 10, cr: 13, open: 40, close: 41, blank: 32, minus: 45, plus: 43, dot: 46, zero: 48, nine: 57 };

const textOf = bytes => new TextDecoder().decode(bytes);
const isEnd = byte => byte === BYTE.comma || byte === BYTE.feed || byte === BYTE.cr || byte === undefined;

function joined(parts) {
  const bytes = new Uint8Array(parts.reduce((sum, part) => sum + part.length, 0));
  let at = 0;
  for (const part of parts) {
    bytes.set(part, at);
    at += part.length;
  }
  return bytes;
}

/** The field that begins at a place, and the place behind it. */
function fieldAt(bytes, at) {
  let end = at;
  if (bytes[at] !== BYTE.quote) {
    while (!isEnd(bytes[end])) end++;
    return [bytes.subarray(at, end), end];
  }
  const parts = [];
  let from = at + 1, to = bytes.indexOf(BYTE.quote, from);
  while (to >= 0 && bytes[to + 1] === BYTE.quote) {
    parts.push(bytes.subarray(from, to + 1));
    from = to + 2;
    to = bytes.indexOf(BYTE.quote, from);
  }
  end = to < 0 ? bytes.length : to;
  parts.push(bytes.subarray(from, end));
  while (!isEnd(bytes[end])) end++;
  return [parts.length === 1 ? parts[0] : joined(parts), end];
}

/** The records of a table, each with the place where it begins: the header, then the rows. Empty lines are none. */
function* recordsOf(bytes) {
  let at = bytes[0] === 0xef && bytes[1] === 0xbb && bytes[2] === 0xbf ? 3 : 0;
  while (at < bytes.length) {
    const start = at, fields = [];
    let field;
    do {
      [field, at] = fieldAt(bytes, fields.length ? at + 1 : at);
      fields.push(field);
    } while (bytes[at] === BYTE.comma);
    while (bytes[at] === BYTE.feed || bytes[at] === BYTE.cr) at++;
    if (fields.length > 1 || fields[0].length) yield { fields, start };
  }
}

/** A table: its header, and its rows by the names of their columns. */
class Table {
  constructor(bytes) {
    this.bytes = bytes;
    const first = recordsOf(bytes).next();
    this.header = first.done ? [] : first.value.fields.map(textOf);
    this.names = this.header.map(name => name.toLowerCase());
  }

  *rows() {
    let number = -1;
    for (const { fields, start } of recordsOf(this.bytes)) if (++number) yield { number, fields, start };
  }

  field(row, name) {
    return row.fields[this.names.indexOf(name)] ?? new Uint8Array();
  }

  /** The row of a number, and the line on which it begins. */
  row(number) {
    for (const row of this.rows()) if (row.number === number) return { ...row, line: this.lineAt(row.start) };
    return null;
  }

  lineAt(place) {
    let line = 1;
    for (let at = this.bytes.indexOf(BYTE.feed); at >= 0 && at < place; at = this.bytes.indexOf(BYTE.feed, at + 1)) line++;
    return line;
  }

  count() {
    let count = 0;
    for (const row of this.rows()) count = row.number;
    return count;
  }

  find(name, text) {
    for (const row of this.rows()) if (textOf(this.field(row, name)) === text) return { ...row, line: this.lineAt(row.start) };
    return null;
  }
}

/** What each row has in the first column that is no polygon. */
function namesOf(table) {
  const column = table.names.findIndex(name => name !== 'wkt');
  return [...table.rows()].map(({ fields }) => textOf(fields[column] ?? new Uint8Array()));
}

/** Reads the text of a polygon into members, each a list of rings, each a list of coordinates in whole millimetres: x, y, x, y .. */
class PolygonReader {
  constructor(bytes) {
    this.bytes = bytes;
    this.at = 0;
  }

  skip() {
    let byte = this.bytes[this.at];
    while (byte === BYTE.blank || byte === 9 || byte === BYTE.feed || byte === BYTE.cr) byte = this.bytes[++this.at];
    return byte;
  }

  take(byte) {
    if (this.skip() !== byte) return false;
    this.at++;
    return true;
  }

  /** A number in whole millimetres, or NaN. */
  number() {
    const { bytes } = this, first = this.skip(), isSigned = first === BYTE.minus || first === BYTE.plus;
    let at = this.at + (isSigned ? 1 : 0), value = 0, decimals = -1, digits = 0;
    for (; ; at++) {
      const byte = bytes[at];
      if (byte === BYTE.dot && decimals < 0) decimals = 0;
      else if (byte >= BYTE.zero && byte <= BYTE.nine) {
        digits++;
        if (decimals >= 3 && byte !== BYTE.zero) return NaN;
        if (decimals < 3) value = 10 * value + byte - BYTE.zero;
        if (decimals >= 0) decimals++;
      } else break;
    }
    this.at = at;
    if (!digits) return NaN;
    value *= 10 ** (3 - Math.min(3, Math.max(0, decimals)));
    return first === BYTE.minus ? -value : value;
  }

  /** What `part` reads, between brackets and separated by commas; null where it is none. */
  list(part) {
    if (!this.take(BYTE.open)) return null;
    const parts = [];
    do {
      const read = part();
      if (read === null) return null;
      parts.push(read);
    } while (this.take(BYTE.comma));
    return this.take(BYTE.close) ? parts : null;
  }

  ring() {
    const ring = [];
    const points = this.list(() => {
      const x = this.number(), y = this.number();
      ring.push(x, y);
      return Number.isNaN(x) || Number.isNaN(y) ? null : true;
    });
    return points && ring;
  }

  member() {
    return this.list(() => this.ring());
  }

  read() {
    const word = /^\s*(multi)?polygon(?=[\s(])/i.exec(textOf(this.bytes.subarray(0, 40)));
    if (!word) return null;
    this.at = word[0].length;
    const member = word[1] ? null : this.member();
    const members = word[1] ? this.list(() => this.member()) : member && [member];
    return this.skip() === undefined ? members : null;
  }
}

const polygonOf = bytes => new PolygonReader(bytes).read();

function doubledOfRing(ring) {
  let sum = 0n;
  for (let i = 0; i + 3 < ring.length; i += 2) {
    // From the first point on, so that most products are exact without long numbers.
    const ax = ring[i] - ring[0], ay = ring[i + 1] - ring[1], bx = ring[i + 2] - ring[0], by = ring[i + 3] - ring[1];
    const first = ax * by, second = bx * ay;
    sum += Math.max(Math.abs(first), Math.abs(second)) < 2 ** 52 ? BigInt(first - second) : BigInt(ax) * BigInt(by) - BigInt(bx) * BigInt(ay);
  }
  return sum < 0n ? -sum : sum;
}

/** The doubled area of a polygon, in square millimetres: shells less holes. */
const doubledOf = members => members.reduce((sum, rings) => rings.reduce((part, ring, number) => (number ? part - doubledOfRing(ring) : part + doubledOfRing(ring)), sum), 0n);

/** A doubled area, or one times a percentage, in square metres with every digit. */
function squareMetres(doubled, decimals) {
  const digits = String(5n * (doubled < 0n ? -doubled : doubled)).padStart(decimals + 1, '0');
  return `${doubled < 0n ? '-' : ''}${digits.slice(0, -decimals)}.${digits.slice(-decimals)}`;
}
const areaOf = doubled => squareMetres(doubled, 7);
const eligibleOf = weighted => squareMetres(weighted, 9);

/** What can be read of a release's tables: parcels, pieces and percentages. */
function landOf(files) {
  const [parcels, covers, classes] = NAMES.map(name => new Table(files[name]));
  const land = { parcels: [], pieces: [], percents: new Map() };
  for (const row of parcels.rows()) {
    const members = polygonOf(parcels.field(row, 'wkt'));
    if (members) land.parcels.push({ name: textOf(parcels.field(row, 'parcel')), members });
  }
  for (const row of covers.rows()) {
    const members = polygonOf(covers.field(row, 'wkt'));
    if (members) land.pieces.push({ name: textOf(covers.field(row, 'piece')), parcel: textOf(covers.field(row, 'parcel')), landClass: textOf(covers.field(row, 'class')), members });
  }
  const isPercent = classes.names.includes('percent');
  for (const row of classes.rows()) {
    const text = textOf(classes.field(row, isPercent ? 'percent' : 'eligible'));
    land.percents.set(textOf(classes.field(row, 'class')), /^\d+$/.test(text) ? BigInt(text) * (isPercent ? 1n : 100n) : null);
  }
  return land;
}

/** Pieces, area and eligible area of each class, and of all. */
function sumsOf(land) {
  const sums = new Map([...land.percents.keys()].map(name => [name, { count: 0, doubled: 0n }]));
  for (const piece of land.pieces) {
    if (!sums.has(piece.landClass)) sums.set(piece.landClass, { count: 0, doubled: 0n });
    const sum = sums.get(piece.landClass);
    sum.count++;
    sum.doubled += doubledOf(piece.members);
  }
  const weight = name => land.percents.get(name) ?? 0n;
  const rows = [...sums].sort(([a], [b]) => (a < b ? -1 : 1)).map(([name, { count, doubled }]) =>
    [name, land.percents.get(name) == null ? '' : String(land.percents.get(name)), String(count), areaOf(doubled), eligibleOf(doubled * weight(name))]);
  let area = 0n, eligible = 0n;
  for (const [name, { doubled }] of sums) {
    area += doubled;
    eligible += doubled * weight(name);
  }
  return { rows, area: areaOf(area), eligible: eligibleOf(eligible) };
}
