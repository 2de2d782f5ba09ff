// Numbers of a picture that can be read: where a picture is shown small, its numbers are larger, as far as there is room for each.

import { piecesOf, nearestOn } from './shapes.js';

/** The font sizes in pixels of the screen that numbers of half edges, and others, are to have; a number below the last is hidden until one zooms in. */
const WANTED = 12, WANTED_OTHERS = 14, LEAST = 8;

/** How many times as large a number may be. */
const FACTORS = [1, 1.15, 1.3, 1.5, 1.75, 2, 2.3, 2.65, 3, 3.5];

/** The width of a letter, half the height of a digit and how far below its middle it ends, for letters one high; the gap around a number. */
const WIDE = 0.68, HALF_HIGH = 0.37, BELOW = 0.36, GAP = 1;

/** How many times as large the circles of vertices may be, since half edges end beside them, and how much of one a number may fill. */
const LARGEST_CIRCLE = 1.6, FILLED = 0.95;

/** A number may slide along its half edge, by multiples of its size up to this part of the edge's length each way, where it finds more room. */
const SLIDES = [0, 1, -1, 2, -2, 3, -3, 4, -4], FARTHEST = 0.3;
const STILL = [0, 0];

/** The side of a cell, by which it is found what is near. */
const CELL = 60;

/** What a picture's numbers keep clear of, by cells. */
class Cells {
  #cells = new Map();

  add(item, [left, top, right, bottom]) {
    for (const key of keysOf(left, top, right, bottom)) {
      if (!this.#cells.has(key)) this.#cells.set(key, []);
      this.#cells.get(key).push(item);
    }
  }

  some(box, test) {
    return keysOf(...box).some(key => this.#cells.get(key)?.some(test));
  }
}

function keysOf(left, top, right, bottom) {
  const keys = [];
  for (let x = Math.floor(left / CELL); x <= Math.floor(right / CELL); x++) {
    for (let y = Math.floor(top / CELL); y <= Math.floor(bottom / CELL); y++) keys.push(`${x} ${y}`);
  }
  return keys;
}

/** A number, which keeps its direction from a place: of a half edge from its line, of the others from their own middle. */
class Label {
  #slides = new Map(); // by factors, where it isn't still

  constructor(shape, size, from) {
    const { label } = shape;
    this.shape = shape;
    this.size = size;
    this.middle = [Number(label.getAttribute('x')), Number(label.getAttribute('y')) - BELOW * size];
    this.from = from ?? this.middle;
    this.room = 0; // which of the factors there is room for
    this.factor = 1;
    this.isLegible = true;
  }

  /** The ways that it may slide, the least first. */
  get slides() {
    const { line } = this.shape;
    if (line?.length !== 2) return [STILL];
    const way = line[1].map((end, axis) => end - line[0][axis]), length = Math.hypot(...way);
    return SLIDES.map(times => times * this.size).filter(far => Math.abs(far) <= FARTHEST * length).map(far => way.map(part => part / length * far));
  }

  /** Lets it be so large, where it slid so far. */
  grow(room, slide) {
    this.room = room;
    this.#slides.set(FACTORS[room], slide);
  }

  middleAt(factor, slide = this.#slides.get(factor) ?? STILL) {
    return this.from.map((start, axis) => start + (this.middle[axis] - start) * factor + slide[axis]);
  }

  boxAt(factor, slide) {
    const [x, y] = this.middleAt(factor, slide);
    const wide = WIDE / 2 * this.size * this.shape.label.textContent.length * factor + GAP, high = HALF_HIGH * this.size * factor + GAP;
    return [x - wide, y - high, x + wide, y + high];
  }

  /** How far it is from its middle to a corner. */
  get reach() {
    return Math.hypot(WIDE / 2 * this.size * this.shape.label.textContent.length, HALF_HIGH * this.size);
  }

  get box() {
    return this.boxAt(FACTORS[this.room]);
  }

  /** Shows it so many times as large, if it can be read at this scale; returns whether it can. What stays isn't set again. */
  show(factor, scale) {
    const { label } = this.shape, isLegible = this.size * factor * scale >= LEAST;
    if (isLegible && factor !== this.factor) {
      const [x, y] = this.middleAt(factor);
      label.setAttribute('x', x.toFixed(1));
      label.setAttribute('y', (y + BELOW * this.size * factor).toFixed(1));
      label.style.fontSize = `${(this.size * factor).toFixed(2)}px`;
      this.factor = factor;
    }
    if (isLegible !== this.isLegible) label.style.visibility = isLegible ? '' : 'hidden';
    this.isLegible = isLegible;
    return isLegible;
  }
}

/** The number of the first factor that is at least this, or of the last one. */
function stepTo(least) {
  const found = FACTORS.findIndex(factor => factor >= least);
  return found < 0 ? FACTORS.length - 1 : found;
}

/** The font sizes of numbers; those of one class have one size, but where a number says its own. */
function sizesIn() {
  const found = {};
  return ({ label }) => parseFloat(label.style.fontSize || (found[label.classList[0]] ??= getComputedStyle(label).fontSize));
}

const meet = (a, b) => a[0] < b[2] && b[0] < a[2] && a[1] < b[3] && b[1] < a[3];

/** Whether a piece of a line passes through a box. */
function crosses([[ax, ay], [bx, by]], [left, top, right, bottom]) {
  let from = 0, to = 1;
  for (const [start, way, least, most] of [[ax, bx - ax, left, right], [ay, by - ay, top, bottom]]) {
    if (way === 0 && (start < least || start > most)) return false;
    const ends = [(least - start) / way, (most - start) / way];
    if (way !== 0) [from, to] = [Math.max(from, Math.min(...ends)), Math.min(to, Math.max(...ends))];
  }
  return from <= to;
}

/** Pieces of a line that are no longer than a cell. */
const shortPiecesOf = line => piecesOf(line).flatMap(([from, to]) => {
  const count = Math.ceil(Math.hypot(to[0] - from[0], to[1] - from[1]) / CELL) || 1;
  const at = part => from.map((start, axis) => start + (to[axis] - start) * part / count);
  return Array.from({ length: count }, (_, part) => [at(part), at(part + 1)]);
});

const boxOf = ([[ax, ay], [bx, by]]) => [Math.min(ax, bx), Math.min(ay, by), Math.max(ax, bx), Math.max(ay, by)];

/** The numbers of the shapes of a picture that is so large: left, top, right and bottom. */
export class Labels {
  #shapes; #page; #radius; #reach; #ofHalves; #ofFaces; #ofVertices;
  #lines; #numbers; #circles; // what is in the way, once numbers grow
  #grownTo = 0;

  constructor(shapes, page) {
    const sizeOf = sizesIn();
    this.#shapes = shapes;
    this.#page = page;
    this.#radius = Number(shapes.vertex[0]?.path.getAttribute('r'));
    this.#ofHalves = shapes.half.map(shape => new Label(shape, sizeOf(shape), baseOf(shape)));
    this.#ofFaces = shapes.face.map(shape => new Label(shape, sizeOf(shape)));
    this.#ofVertices = shapes.vertex.map(shape => new Label(shape, sizeOf(shape)));
    this.#reach = this.#ofVertices.reduce((most, label) => Math.max(most, label.reach), 1);
  }

  /** Fits the numbers to a scale, in pixels for each unit of the picture, and returns whether all can be read. */
  show(scale) {
    const usual = this.#ofHalves[0]?.size ?? WANTED, step = stepTo(WANTED / usual / scale);
    if (usual * scale * FACTORS.at(-1) >= LEAST) this.#growTo(step);
    const enough = ({ size }) => Math.min(step, stepTo(WANTED_OTHERS / size / scale));
    const factorOf = (label, most) => FACTORS[Math.min(most, label.room)];
    const ofVertex = this.#growCircles(this.#ofVertices.length ? FACTORS[enough(this.#ofVertices[0])] : 1);
    const isLegible = [
      ...this.#ofHalves.map(label => label.show(factorOf(label, step), scale)),
      ...this.#ofFaces.map(label => label.show(factorOf(label, enough(label)), scale)),
      ...this.#ofVertices.map(label => label.show(ofVertex, scale)),
    ];
    return !isLegible.includes(false);
  }

  /** Makes the circles of vertices so large that their numbers fit; returns how many times as large these may be. */
  #growCircles(wanted) {
    const factor = Math.min(wanted, FILLED * LARGEST_CIRCLE * this.#radius / this.#reach);
    const radius = Math.max(this.#radius, factor * this.#reach / FILLED).toFixed(1);
    for (const { path } of this.#shapes.vertex) path.setAttribute('r', radius);
    return factor;
  }

  /** Lets the numbers of faces and half edges grow, all by one step before any by the next. */
  #growTo(step) {
    const growing = [...this.#ofFaces, ...this.#ofHalves];
    if (!this.#lines) this.#prepare(growing);
    while (this.#grownTo < step) {
      this.#grownTo++;
      for (const label of growing) {
        if (label.room !== this.#grownTo - 1) continue;
        const slide = label.slides.find(slide => this.#fits(label, FACTORS[this.#grownTo], slide));
        if (slide) label.grow(this.#grownTo, slide);
      }
    }
  }

  #prepare(growing) {
    [this.#lines, this.#numbers, this.#circles] = [new Cells(), new Cells(), new Cells()];
    for (const shape of this.#shapes.half) for (const piece of shortPiecesOf(shape.line)) this.#lines.add({ shape, piece }, boxOf(piece));
    for (const label of growing) for (const slide of label.slides) this.#numbers.add(label, label.boxAt(FACTORS.at(-1), slide));
    const large = this.#radius * LARGEST_CIRCLE;
    for (const { place: [x, y] } of this.#shapes.vertex) {
      const box = [x - large, y - large, x + large, y + large];
      this.#circles.add(box, box);
    }
  }

  /** Whether there is room for a number that is so many times as large and slid so far. */
  #fits(label, factor, slide) {
    const box = label.boxAt(factor, slide), [left, top, right, bottom] = this.#page;
    return box[0] >= left && box[1] >= top && box[2] <= right && box[3] <= bottom
      && !this.#circles.some(box, circle => meet(box, circle))
      && !this.#numbers.some(box, other => other !== label && meet(box, other.box))
      && !this.#lines.some(box, ({ shape, piece }) => shape !== label.shape && crosses(piece, box));
  }
}

/** The place on a half edge from which its number moves away. */
function baseOf({ label, line }) {
  const place = ['x', 'y'].map(name => Number(label.getAttribute(name)));
  const found = piecesOf(line).map(piece => nearestOn(piece, place));
  const away = found.map(([x, y]) => Math.hypot(x - place[0], y - place[1]));
  return found[away.indexOf(Math.min(...away))];
}
