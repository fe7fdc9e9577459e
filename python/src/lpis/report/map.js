'use strict';
// The map of a page, of what `data.map` has: drawn on a canvas, moved by dragging and enlarged by the wheel. A shape is found by its name.

const FEW = 256; // shapes between two looks at the clock
const SEEN = 14; // pixels: a smaller finding has a mark around it
const TINY = 1.3, SMALL = 3; // pixels: a smaller shape is a dot; a smaller parcel has no border

// Shapes: whole numbers, five bits a letter, each point as its step from the one before; or unpacked already.

function unpacked(layer) {
  if (layer.xs) return layer;
  const values = new Uint8Array(128), { text, count } = layer;
  Array.from(data.letters).forEach((letter, value) => { values[letter.charCodeAt(0)] = value; });
  const xs = new Int32Array(layer.points), ys = new Int32Array(layer.points), boxes = new Int32Array(4 * count);
  const pointAt = new Uint32Array(layer.rings + 1), firstRing = new Uint32Array(count + 1);
  let at = 0, ring = 0, point = 0, x = 0, y = 0;
  const next = () => {
    let sum = 0, factor = 1, part;
    do { part = values[text.charCodeAt(at++)]; sum += (part & 31) * factor; factor *= 32; } while (part & 32);
    return sum % 2 ? -(sum + 1) / 2 : sum / 2;
  };
  for (let i = 0; i < count; i++) {
    firstRing[i] = ring;
    let left = Infinity, top = Infinity, right = -Infinity, low = -Infinity;
    for (let rings = next(); rings > 0; rings--) {
      pointAt[ring++] = point;
      for (let points = next(); points > 0; points--) {
        x += next(); y += next();
        xs[point] = x; ys[point++] = y;
        if (x < left) left = x;
        if (x > right) right = x;
        if (y < top) top = y;
        if (y > low) low = y;
      }
    }
    boxes.set([left, top, right, low], 4 * i);
  }
  firstRing[count] = ring; pointAt[ring] = point;
  return { ...layer, text: '', xs, ys, boxes, pointAt, firstRing };
}

function isInside(layer, i, x, y) {
  const { xs, ys, boxes, pointAt, firstRing } = layer;
  if (x < boxes[4 * i] || y < boxes[4 * i + 1] || x > boxes[4 * i + 2] || y > boxes[4 * i + 3]) return false;
  let isOdd = false;
  for (let ring = firstRing[i]; ring < firstRing[i + 1]; ring++) {
    for (let a = pointAt[ring], end = pointAt[ring + 1], b = end - 1; a < end; b = a++) {
      if ((ys[a] > y) !== (ys[b] > y) && x < xs[a] + (y - ys[a]) / (ys[b] - ys[a]) * (xs[b] - xs[a])) isOdd = !isOdd;
    }
  }
  return isOdd;
}

class Chart {
  constructor(canvas) {
    this.canvas = canvas;
    this.context = canvas.getContext('2d');
    this.label = document.getElementById('name');
    this.spare = document.createElement('canvas');
    this.work = 0;
    this.measure();
    this.load();
  }

  /** Takes what `data` has now. */
  load() {
    for (const name of ['parcels', 'pieces', 'old', 'tiles', 'findings']) this[name] = unpacked(data.map[name]);
    this.ground = null; // what is drawn, and of which view
    this.chosen = null;
    this.visited = -1; // the finding that was shown last
    this.wanted = null; // the findings and marks that are shown, where not all are
    this.fit(data.map.first);
  }

  measure() {
    this.ratio = window.devicePixelRatio || 1;
    this.width = this.canvas.clientWidth; this.height = this.canvas.clientHeight;
    this.canvas.width = Math.round(this.width * this.ratio); this.canvas.height = Math.round(this.height * this.ratio);
  }

  fit([x, y, width, height], part = 0.94) {
    const scale = this.bounded(part * Math.min(this.width / Math.max(width, 1), this.height / Math.max(height, 1)));
    this.view = { scale, x: x + width / 2 - this.width / scale / 2, y: y + height / 2 - this.height / scale / 2 };
    this.show();
  }

  /** At most 20 pixels a millimetre, and at least a quarter of the whole. */
  bounded(scale) {
    const [, , width, height] = data.map.whole;
    return Math.max(Math.min(this.width / Math.max(width, 1), this.height / Math.max(height, 1)) / 4, Math.min(20 * data.map.unit, scale));
  }

  zoom(factor, x = this.width / 2, y = this.height / 2) {
    const { view } = this, scale = this.bounded(view.scale * factor);
    this.view = { scale, x: view.x + x / view.scale - x / scale, y: view.y + y / view.scale - y / scale };
    this.show();
  }

  move(x, y) {
    this.view = { ...this.view, x: this.view.x - x / this.view.scale, y: this.view.y - y / this.view.scale };
    this.show();
  }

  /** Shows what was drawn last where it is now, and draws anew, in slices, so that a drag is followed at once. */
  show() {
    if (!this.canvas.width || !this.canvas.height) return; // it is hidden
    const mine = ++this.work, view = { ...this.view }, target = this.spare, steps = this.drawing(target, view);
    const slice = most => {
      if (mine !== this.work) return;
      const end = performance.now() + most;
      let isDone = false;
      while (!(isDone = steps.next().done) && performance.now() < end);
      if (isDone || !this.ground) {
        if (isDone && this.ground) this.spare = this.ground.canvas === target ? document.createElement('canvas') : this.ground.canvas;
        this.ground = { canvas: target, view };
      }
      this.paint();
      if (!isDone) setTimeout(slice, 0, 50);
    };
    slice(16);
  }

  paint() {
    const { context, ground, view, ratio } = this;
    context.setTransform(ratio, 0, 0, ratio, 0, 0);
    context.fillStyle = 'white';
    context.fillRect(0, 0, this.width, this.height);
    const grown = view.scale / ground.view.scale;
    context.drawImage(ground.canvas, (ground.view.x - view.x) * view.scale, (ground.view.y - view.y) * view.scale, this.width * grown, this.height * grown);
    if (this.chosen) {
      context.beginPath();
      this.trace(context, view, ...this.chosen);
      this.stroke(context, data.map.colours.chosen, 4);
    }
    context.fillStyle = data.map.colours.fault;
    data.map.marks.forEach(([x, y], i) => {
      if (!this.isWanted('marks', i)) return;
      context.beginPath();
      context.arc((x - view.x) * view.scale, (y - view.y) * view.scale, 5.5, 0, 7);
      context.fill();
    });
    this.canvas.dataset.view = [view.x, view.y, this.width / view.scale, this.height / view.scale].join(' ');
  }

  stroke(context, colour, width, dashes = []) {
    context.strokeStyle = colour; context.lineWidth = width; context.setLineDash(dashes);
    context.stroke();
  }

  isSeen({ boxes }, i, view) {
    return boxes[4 * i] < view.x + this.width / view.scale && boxes[4 * i + 2] > view.x && boxes[4 * i + 1] < view.y + this.height / view.scale && boxes[4 * i + 3] > view.y;
  }

  /** Pixels of a shape's longer side. */
  size({ boxes }, i, view) {
    return view.scale * Math.max(boxes[4 * i + 2] - boxes[4 * i], boxes[4 * i + 3] - boxes[4 * i + 1]);
  }

  /** Adds a shape's rings to the path; points that fall together on the screen are one. */
  trace(context, view, layer, i) {
    const { xs, ys, pointAt, firstRing } = layer;
    for (let ring = firstRing[i]; ring < firstRing[i + 1]; ring++) {
      let beforeX = Infinity, beforeY = Infinity;
      for (let point = pointAt[ring]; point < pointAt[ring + 1]; point++) {
        const x = (xs[point] - view.x) * view.scale, y = (ys[point] - view.y) * view.scale;
        if (Math.abs(x - beforeX) < 0.5 && Math.abs(y - beforeY) < 0.5) continue;
        if (beforeX === Infinity) context.moveTo(x, y); else context.lineTo(x, y);
        beforeX = x; beforeY = y;
      }
      context.closePath();
    }
  }

  dot(context, view, { boxes }, i, least) {
    const width = Math.max(least, view.scale * (boxes[4 * i + 2] - boxes[4 * i])), height = Math.max(least, view.scale * (boxes[4 * i + 3] - boxes[4 * i + 1]));
    context.fillRect((boxes[4 * i] - view.x) * view.scale, (boxes[4 * i + 1] - view.y) * view.scale, width, height);
  }

  * drawing(target, view) {
    const context = target.getContext('2d'), { colours, classes } = data.map, { pieces, parcels } = this;
    target.width = this.canvas.width; target.height = this.canvas.height;
    context.setTransform(this.ratio, 0, 0, this.ratio, 0, 0);
    context.lineJoin = 'round';
    this.drawCells(context, view);
    const drawn = { pieces: 0, parcels: 0 };
    for (let i = 0; i < pieces.count; i++) {
      if (!this.isSeen(pieces, i, view)) continue;
      context.fillStyle = classes[pieces.classes[i]][1];
      if (this.size(pieces, i, view) < TINY) {
        this.dot(context, view, pieces, i, 1);
      } else {
        context.beginPath();
        this.trace(context, view, pieces, i);
        context.fill('evenodd');
      }
      if (++drawn.pieces % FEW === 0) yield;
    }
    const [, , east, north] = data.map.first, usual = view.scale * Math.sqrt(east * north / Math.max(parcels.count, 1)); // pixels of a parcel's side
    const width = Math.max(0.15, Math.min(1, usual / 20));
    context.beginPath();
    for (let i = 0; i < parcels.count; i++) {
      if (!this.isSeen(parcels, i, view)) continue;
      if (this.size(parcels, i, view) >= SMALL) {
        this.trace(context, view, parcels, i);
      } else if (!pieces.count) {
        context.fillStyle = colours.parcel;
        this.dot(context, view, parcels, i, 1);
      }
      if (++drawn.parcels % FEW === 0) {
        this.stroke(context, colours.parcel, width);
        context.beginPath();
        yield;
      }
    }
    this.stroke(context, colours.parcel, width);
    this.drawKinds(context, view, parcels, []);
    this.drawKinds(context, view, this.old, [6, 4]);
    this.drawTiles(context, view);
    this.drawFindings(context, view);
    this.canvas.dataset.drawn = `parcels ${drawn.parcels} pieces ${drawn.pieces}`;
  }

  /** What changed since an older release, each at least as a dot. */
  drawKinds(context, view, layer, dashes) {
    layer.kinds.forEach(([i, kind]) => {
      if (!this.isSeen(layer, i, view)) return;
      const colour = data.map.colours[kind];
      context.fillStyle = colour;
      if (this.size(layer, i, view) < 2 * SMALL) {
        this.dot(context, view, layer, i, 4);
      } else {
        context.beginPath();
        this.trace(context, view, layer, i);
        this.stroke(context, colour, 3, dashes);
      }
    });
    context.setLineDash([]);
  }

  /** The findings, those that stop above the others; each can be seen, however small it is. */
  drawFindings(context, view) {
    const { findings } = this;
    for (let i = findings.count - 1; i >= 0; i--) {
      if (!this.isWanted('findings', i) || !this.isSeen(findings, i, view)) continue;
      const colour = this.fillFinding(context, view, i);
      if (this.size(findings, i, view) >= SEEN) continue;
      const [x, y] = this.middle(findings, i, view);
      context.beginPath();
      context.arc(x, y, 6.5, 0, 7);
      this.stroke(context, 'white', 5);
      this.stroke(context, colour, 2.5);
    }
  }

  fillFinding(context, view, i) {
    const colour = data.map.colours[this.findings.kinds[i][1]];
    context.beginPath();
    this.trace(context, view, this.findings, i);
    context.globalAlpha = 0.35; context.fillStyle = colour; context.fill('evenodd'); context.globalAlpha = 1;
    this.stroke(context, colour, 2);
    return colour;
  }

  /** Shows these findings and marks alone. */
  narrow(keys) {
    this.wanted = new Set(keys.filter(key => key).map(key => key.join()));
    this.show();
  }

  isWanted(name, i) {
    return !this.wanted || this.wanted.has(`${name},${i}`);
  }

  /** Draws a finding and what is beside it on a canvas of its own. */
  picture(canvas, i) {
    const { boxes } = this.findings, [left, top, right, low] = boxes.slice(4 * i, 4 * i + 4), { width, height } = canvas;
    const room = Math.max(right - left, low - top, 2000 / data.map.unit), scale = 0.5 * Math.min(width, height) / room; // two metres at least
    const view = { scale, x: (left + right) / 2 - width / scale / 2, y: (top + low) / 2 - height / scale / 2 };
    const context = canvas.getContext('2d'), { parcels } = this;
    const isNear = n => parcels.boxes[4 * n] < view.x + width / scale && parcels.boxes[4 * n + 2] > view.x && parcels.boxes[4 * n + 1] < view.y + height / scale && parcels.boxes[4 * n + 3] > view.y;
    context.beginPath();
    for (let n = 0; n < parcels.count; n++) if (isNear(n)) this.trace(context, view, parcels, n);
    this.stroke(context, data.map.colours.parcel, 1);
    this.fillFinding(context, view, i);
  }

  /** The pixel in the middle of a shape's box. */
  middle({ boxes }, i, view) {
    return [((boxes[4 * i] + boxes[4 * i + 2]) / 2 - view.x) * view.scale, ((boxes[4 * i + 1] + boxes[4 * i + 3]) / 2 - view.y) * view.scale];
  }

  /** Whether a place is in a finding, or in the mark around it. */
  isOnFinding(i, x, y, pixelX, pixelY) {
    const [middleX, middleY] = this.middle(this.findings, i, this.view);
    return isInside(this.findings, i, x, y) || this.size(this.findings, i, this.view) < SEEN && Math.hypot(middleX - pixelX, middleY - pixelY) < 9;
  }

  /** Shows the next finding, or by -1 the one before. */
  visit(step) {
    const { count } = this.findings, isOne = Array.from({ length: count }, (_, i) => i).some(i => this.isWanted('findings', i));
    if (!isOne) return;
    do this.visited = (this.visited + step + count) % count; while (!this.isWanted('findings', this.visited));
    this.go('findings', this.visited);
    const [x, y] = this.middle(this.findings, this.visited, this.view);
    this.name(x, y);
  }

  drawCells(context, view) {
    const { side, counts } = data.map.cells, most = Math.max(1, ...counts.map(cell => cell[2]));
    counts.forEach(([x, y, count]) => {
      context.fillStyle = data.map.colours.cells[Math.min(9, Math.floor(10 * count / most))];
      context.fillRect((x * side - view.x) * view.scale, (y * side - view.y) * view.scale, side * view.scale + 0.5, side * view.scale + 0.5);
    });
  }

  drawTiles(context, view) {
    const { tiles } = this;
    context.font = '13px sans-serif'; context.textAlign = 'center';
    for (let i = 0; i < tiles.count; i++) {
      if (!this.isSeen(tiles, i, view)) continue;
      context.beginPath();
      this.trace(context, view, tiles, i);
      this.stroke(context, data.map.colours.region, 1.5);
      const width = view.scale * (tiles.boxes[4 * i + 2] - tiles.boxes[4 * i]);
      context.fillStyle = data.map.colours.region;
      if (context.measureText(tiles.names[i]).width < width) {
        context.fillText(tiles.names[i], ((tiles.boxes[4 * i] + tiles.boxes[4 * i + 2]) / 2 - view.x) * view.scale, ((tiles.boxes[4 * i + 1] + tiles.boxes[4 * i + 3]) / 2 - view.y) * view.scale);
      }
    }
  }

  /** What lies under a pixel, in words, and the first shape of it. */
  under(pixelX, pixelY) {
    const { view } = this, x = view.x + pixelX / view.scale, y = view.y + pixelY / view.scale, words = [], shapes = [];
    data.map.marks.forEach(([markX, markY, text]) => {
      if (words.length < 4 && Math.hypot(markX - x, markY - y) * view.scale < 8) words.push(text);
    });
    for (let i = 0, found = 0; i < this.findings.count && found < 4; i++) {
      if (!this.isWanted('findings', i) || !this.isOnFinding(i, x, y, pixelX, pixelY)) continue;
      found++;
      words.push(`${this.findings.kinds[i][1]}: ${this.findings.names[i]}, ${this.findings.words[i]}`);
      shapes.push([this.findings, i]);
    }
    for (const [name, layer] of [['parcel', this.parcels], ['piece', this.pieces], ['', this.old], ['region', this.tiles]]) {
      for (let i = 0, found = 0; i < layer.count && found < 4; i++) {
        if (!isInside(layer, i, x, y)) continue;
        found++;
        words.push(`${name} ${layer.names[i]} ${layer.words ? layer.words[i] : ''}${layer === this.pieces ? data.map.classes[layer.classes[i]][0] : ''}`.trim());
        shapes.push([layer, i]);
      }
    }
    return { words, shape: shapes[0] || null };
  }

  name(pixelX, pixelY) {
    const { words, shape } = this.under(pixelX, pixelY), { label } = this;
    label.hidden = !words.length;
    label.textContent = words.join('\n');
    label.style.left = `${Math.max(0, Math.min(pixelX + 14, this.width - label.offsetWidth - 4))}px`;
    label.style.top = `${this.canvas.offsetTop + Math.max(0, Math.min(pixelY + 16, this.height - label.offsetHeight - 4))}px`;
    return shape;
  }

  /** Shows a shape of a layer, or a mark, and brings the map into view. */
  go(name, i) {
    if (name === 'marks') {
      const [x, y] = data.map.marks[i], half = 5000 / data.map.unit;
      this.chosen = null;
      this.fit([x - half, y - half, 2 * half, 2 * half]);
    } else {
      const layer = this[name], [left, top, right, low] = layer.boxes.subarray(4 * i, 4 * i + 4);
      const wide = name === 'findings' ? 1000 / data.map.unit : 0, width = Math.max(right - left, wide), height = Math.max(low - top, wide); // at least a metre
      this.chosen = [layer, i];
      if (name === 'findings') this.visited = i;
      this.fit([(left + right - width) / 2, (top + low - height) / 2, width, height], 0.6);
    }
    this.label.hidden = true;
    document.querySelector('.frame').scrollIntoView({ block: 'nearest' });
  }
}

// The pointer: one drags, two pinch, none names what lies under it.

function listen(map) {
  const { canvas } = map, touches = new Map();
  const place = event => { const box = canvas.getBoundingClientRect(); return [event.clientX - box.left - canvas.clientLeft, event.clientY - box.top - canvas.clientTop]; };
  let travelled = 0;
  const middle = () => { const all = [...touches.values()]; return [all.reduce((sum, at) => sum + at[0], 0) / all.length, all.reduce((sum, at) => sum + at[1], 0) / all.length]; };
  const apart = () => { const [a, b] = [...touches.values()]; return b ? Math.hypot(a[0] - b[0], a[1] - b[1]) : 0; };
  canvas.addEventListener('pointerdown', event => { touches.set(event.pointerId, place(event)); travelled = 0; map.label.hidden = true; });
  window.addEventListener('pointermove', event => {
    if (!touches.has(event.pointerId)) {
      if (event.target === canvas) map.name(...place(event)); else map.label.hidden = true;
      return;
    }
    const from = middle(), wide = apart();
    touches.set(event.pointerId, place(event));
    const to = middle();
    travelled += Math.abs(to[0] - from[0]) + Math.abs(to[1] - from[1]);
    map.move(to[0] - from[0], to[1] - from[1]);
    if (wide > 0) map.zoom(apart() / wide, ...to);
  });
  for (const kind of ['pointerup', 'pointercancel']) {
    window.addEventListener(kind, event => {
      if (!touches.delete(event.pointerId) || travelled > 4 || kind === 'pointercancel') return;
      map.chosen = map.name(...place(event));
      map.paint();
    });
  }
  canvas.addEventListener('wheel', event => { event.preventDefault(); map.zoom(event.deltaY < 0 ? 1.25 : 0.8, ...place(event)); }, { passive: false });
  document.querySelectorAll('[data-zoom]').forEach(button => button.addEventListener('click', () => map.zoom(Number(button.dataset.zoom))));
  document.querySelectorAll('[data-show]').forEach(button => button.addEventListener('click', () => map.fit(data.map[button.dataset.show])));
  window.addEventListener('resize', () => { map.measure(); map.show(); });
  canvas.addEventListener('keydown', event => {
    const step = 60, done = {
      ArrowLeft: () => map.move(step, 0), ArrowRight: () => map.move(-step, 0), ArrowUp: () => map.move(0, step), ArrowDown: () => map.move(0, -step),
      '+': () => map.zoom(1.5), '=': () => map.zoom(1.5), '-': () => map.zoom(1 / 1.5), 0: () => map.fit(data.map.first), n: () => map.visit(1), p: () => map.visit(-1),
    }[event.key];
    if (!done || event.ctrlKey || event.metaKey || event.altKey) return;
    event.preventDefault();
    map.label.hidden = true;
    done();
  });
}

// Search: what is called so, then what begins so, then what has it inside, in any case.

function searched(map, wanted) {
  const found = [[], [], []], text = wanted.trim().toLowerCase();
  for (const name of ['parcels', 'old', 'tiles', 'pieces']) {
    for (let i = 0; text && i < map[name].count && found[0].length < 8; i++) {
      const at = map[name].names[i].toLowerCase().indexOf(text);
      if (at >= 0) found[at > 0 ? 2 : map[name].names[i].length === text.length ? 0 : 1].push([name, i]);
    }
  }
  return found.flat();
}

function listenToSearch(map) {
  const input = document.getElementById('search'), list = document.getElementById('found');
  const show = () => {
    const found = searched(map, input.value);
    list.replaceChildren(...found.slice(0, 8).map(([name, i]) => {
      const button = document.createElement('button');
      button.textContent = map[name].names[i];
      button.addEventListener('click', () => map.go(name, i));
      return button;
    }));
    if (input.value.trim() && found.length !== list.childElementCount || !found.length && input.value.trim()) {
      const count = document.createElement('span');
      count.textContent = found.length ? `${found.length} found` : 'none found';
      list.append(count);
    }
    return found;
  };
  input.addEventListener('input', show);
  input.addEventListener('keydown', event => {
    if (event.key !== 'Enter') return;
    const found = show();
    if (found.length) map.go(...found[0]);
  });
}
