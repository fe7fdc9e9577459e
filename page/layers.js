'use strict';
// What `map.js` draws, for the worker: parcels, pieces and the shapes of a refusal in one frame of whole numbers, north above.

/** A list of whole numbers that grows. */
class Numbers {
  constructor() {
    this.values = new Int32Array(1024);
    this.length = 0;
  }

  push(value) {
    if (this.length === this.values.length) {
      const longer = new Int32Array(2 * this.length);
      longer.set(this.values);
      this.values = longer;
    }
    this.values[this.length++] = value;
  }

  all() {
    return this.values.subarray(0, this.length).slice();
  }
}

/** Least x and y and greatest x and y of the shells of some shapes and of some places. */
function boxOf(shapes, places) {
  let left = Infinity, low = Infinity, right = -Infinity, top = -Infinity;
  const widen = (x, y) => {
    if (x < left) left = x;
    if (x > right) right = x;
    if (y < low) low = y;
    if (y > top) top = y;
  };
  for (const members of shapes) for (const [shell] of members) for (let i = 0; i < shell.length; i += 2) widen(shell[i], shell[i + 1]);
  for (const [x, y] of places) widen(x, y);
  return left === Infinity ? [0, 0, 1, 1] : [left, low, right, top];
}

class Frame {
  constructor([left, low, right, top]) {
    Object.assign(this, { left, top: Math.ceil(top) });
    this.left = Math.floor(left);
    this.unit = Math.floor(Math.max(right - left, top - low) / MAP.far) + 1;
  }

  at(x, y) {
    return [Math.floor((x - this.left) / this.unit), Math.floor((this.top - y) / this.unit)];
  }

  /** A box as place, width and height. */
  box([left, low, right, top]) {
    const [x, y] = this.at(left, top);
    return [x, y, Math.max(1, (right - left) / this.unit), Math.max(1, (top - low) / this.unit)];
  }

  /** Shapes as `unpacked` of map.js makes them. */
  layer(shapes, others = {}) {
    const xs = new Numbers(), ys = new Numbers(), boxes = new Numbers(), pointAt = new Numbers(), firstRing = new Numbers();
    for (const { members } of shapes) {
      firstRing.push(pointAt.length);
      for (const ring of members.flat()) {
        pointAt.push(xs.length);
        for (let i = 0; i + 2 < ring.length; i += 2) {
          const [x, y] = this.at(ring[i], ring[i + 1]);
          xs.push(x);
          ys.push(y);
        }
      }
      const [left, low, right, top] = boxOf([members], []);
      for (const value of [...this.at(left, top), ...this.at(right, low)]) boxes.push(value);
    }
    firstRing.push(pointAt.length);
    pointAt.push(xs.length);
    const names = shapes.map(shape => shape.name);
    return { names, kinds: [], count: shapes.length, xs: xs.all(), ys: ys.all(), boxes: boxes.all(), pointAt: pointAt.all(), firstRing: firstRing.all(), ...others };
  }
}

/** A colour for each class; of more than a dozen the circle of hues is parted. */
function fillsOf(names) {
  return names.map((name, number) => [name, names.length <= MAP.fills.length ? MAP.fills[number] : `hsl(${Math.round(360 * number / names.length)} 65% ${[82, 66, 74][number % 3]}%)`]);
}

/** The map of a release, with the shapes and the place of a refusal. */
function drawingOf(land, focus, place, words) {
  const places = place ? [place] : [], box = boxOf([...land.parcels, ...land.pieces].map(shape => shape.members), places);
  const frame = new Frame(box), classes = fillsOf([...new Set(land.pieces.map(piece => piece.landClass))].sort());
  const numbers = new Map(classes.map(([name], number) => [name, number]));
  const whole = frame.box(box), near = focus.length ? boxOf(focus.map(shape => shape.members), places) : places.length ? boxOf([], places) : null;
  return {
    parcels: frame.layer(land.parcels),
    pieces: frame.layer(land.pieces, { classes: land.pieces.map(piece => numbers.get(piece.landClass)) }),
    old: frame.layer(focus, { kinds: focus.map((_, number) => [number, 'fault']), words: focus.map(shape => shape.kind) }),
    tiles: frame.layer([]),
    findings: frame.layer([]),
    classes, colours: MAP.colours, unit: frame.unit, whole, first: whole, near: near && frame.box(near),
    marks: places.map(([x, y]) => [...frame.at(x, y), words]), cells: { side: 1, counts: [] },
  };
}
