// Constrained triangulations that are kept: random calls of all kinds beside a list of points and a set of edges, with an exact test of the
// arrays after each; what is refused, and by which name; memory that ends, and is used again once it was given back.

import { structureFault } from './arrays.mjs';
import { inCircle } from './delaunay.mjs';

let seed = 23;
const random = count => Math.floor((seed = (seed * 48271) % 2147483647) / 2147483647 * count);

const turn = (a, b, c) => (b[0] - a[0]) * (c[1] - a[1]) - (b[1] - a[1]) * (c[0] - a[0]);
const isBetween = (a, b, c) => turn(a, b, c) === 0 && (c[0] - a[0]) * (c[0] - b[0]) + (c[1] - a[1]) * (c[1] - b[1]) < 0;

/** Whether two segments meet in a point that is an end of neither, and lie on different lines. */
const doCross = ([a, b], [c, d]) => turn(a, b, c) * turn(a, b, d) < 0 && turn(c, d, a) * turn(c, d, b) < 0;

/** The places of two points as text, in one order. */
const named = (a, b) => [String(a), String(b)].sort().join(' ');

/** Points beside a triangulation, null where they were removed, and its constraints as pairs of places. */
class Model {
  constructor(ConstrainedDelaunay, coords, edges) {
    this.points = Array.from({ length: coords.length / 2 }, (_, at) => [coords[2 * at], coords[2 * at + 1]]);
    this.edges = new Map();
    const taken = edges.filter(([a, b]) => this.add(a, b));
    this.made = new ConstrainedDelaunay(coords, random(2) ? taken : Uint32Array.from(taken.flat()));
  }

  numbers() {
    return Object.keys(this.points).map(Number).filter(at => this.points[at]);
  }

  /** Each place once. */
  places() {
    return [...new Map(this.numbers().map(at => [String(this.points[at]), this.points[at]])).values()];
  }

  put(a, b) {
    if (String(a) !== String(b)) this.edges.set(named(a, b), [a, b]);
  }

  crosses(a, b) {
    return [...this.edges.values()].some(edge => doCross([this.points[a], this.points[b]], edge));
  }

  /** Adds the parts of a segment, from each place on it to the next, unless it crosses an edge. */
  add(a, b) {
    if (this.crosses(a, b)) return false;
    const [from, to] = [this.points[a], this.points[b]], away = ([x, y]) => (x - from[0]) ** 2 + (y - from[1]) ** 2;
    const chain = [from, ...this.places().filter(place => isBetween(from, to, place)).sort((p, q) => away(p) - away(q)), to];
    for (let at = 1; at < chain.length; at++) this.put(chain[at - 1], chain[at]);
    return true;
  }

  /** Splits the edge that a place is on. */
  split(place) {
    for (const [name, [a, b]] of [...this.edges]) {
      if (!isBetween(a, b, place)) continue;
      this.edges.delete(name);
      this.put(a, place);
      this.put(place, b);
    }
  }

  /** Takes a point away, and the edges at its place if no other point is there. */
  take(number) {
    const place = String(this.points[number]);
    this.points[number] = null;
    if (this.places().some(other => String(other) === place)) return;
    for (const [name, ends] of [...this.edges]) if (ends.some(end => String(end) === place)) this.edges.delete(name);
  }

  /** What is wrong with the constraints and the arrays. */
  fault() {
    const { constraints } = this.made, ends = Array.from(constraints, number => this.points[number]);
    if (!(constraints instanceof Uint32Array)) return 'the constraints have another type';
    if (ends.some(end => !end)) return 'a constraint ends at no point';
    const lesser = Array.from(constraints).find(number => this.numbers().find(at => String(this.points[at]) === String(this.points[number])) !== number);
    if (lesser !== undefined) return `a constraint ends at ${lesser}, and an equal point comes before it`;
    const found = Array.from({ length: ends.length / 2 }, (_, at) => named(ends[2 * at], ends[2 * at + 1]));
    if (String(found.sort()) !== String([...this.edges.keys()].sort())) return `the constraints are ${found}, not ${[...this.edges.keys()]}`;
    return triangulationFault(this.made, this.points, new Set(found));
  }
}

/**
 * What is wrong with a triangulation of points whose constraints are these: triangles cover the hull, each point is a corner, each constraint
 * a side, and every other side is locally Delaunay.
 */
function triangulationFault(made, points, constraints) {
  const numbers = Object.keys(points).map(Number).filter(at => points[at]), place = new Map(numbers.map((number, at) => [number, at]));
  const renamed = list => list.map(number => place.get(number) ?? 2 ** 32 - 1);
  const { triangles, halfedges, hull } = made;
  const found = structureFault(numbers.map(number => points[number]), { triangles: renamed(triangles), halfedges, hull: renamed(hull) });
  if (found || !triangles.length) return found;
  const corner = side => points[triangles[side]], after = side => side % 3 === 2 ? side - 2 : side + 1;
  const sides = Array.from(triangles, (_, side) => named(corner(side), corner(after(side))));
  const lost = [...constraints].find(name => !sides.includes(name));
  if (lost) return `the constraint ${lost} is no side`;
  const corners = new Set(Array.from(triangles, number => String(points[number])));
  const left = numbers.find(number => !corners.has(String(points[number])));
  if (left !== undefined) return `${left} is no corner`;
  for (const [side, across] of halfedges.entries()) {
    if (across < 0 || constraints.has(sides[side])) continue;
    const first = side - side % 3, opposite = corner(after(after(across)));
    if (inCircle([first, first + 1, first + 2].map(corner), opposite) > 0) return `${opposite} lies inside the circle across ${sides[side]}`;
  }
  return '';
}

/** One call, and what it told that is wrong. */
function turnOnce(model, width) {
  const { made } = model, numbers = model.numbers(), one = () => numbers[random(numbers.length)];
  const point = [random(width) - (width >> 1), random(width) - (width >> 1)], kind = numbers.length < 4 ? 0 : random(9);
  if (kind < 2) {
    model.points.push(point);
    model.split(point);
    return made.insert(...point) === model.points.length - 1 ? '' : `the point ${model.points.length - 1} is told as another`;
  }
  if (kind === 2) {
    const number = one();
    made.remove(number);
    model.take(number);
    return '';
  }
  if (kind === 3) {
    const number = one(), place = random(3) ? point : model.points[number].map(random(2) ? Number : BigInt);
    made.move(number, ...place);
    if (String(place) === String(model.points[number])) return ''; // it stays, with its constraints
    model.take(number);
    model.points[number] = place;
    model.split(place);
    return '';
  }
  if (kind === 4 && model.edges.size) {
    const [a, b] = [...model.edges.values()][random(model.edges.size)].map(end => numbers.findLast(at => String(model.points[at]) === String(end)));
    model.edges.delete(named(model.points[a], model.points[b]));
    return made.isConstraint(b, a) && made.removeConstraint(a, b) && !made.isConstraint(a, b) ? '' : `${a} ${b} is no constraint`;
  }
  const [a, b] = [one(), one()], has = model.edges.has(named(model.points[a], model.points[b]));
  if (made.isConstraint(a, b) !== has) return `whether ${a} ${b} is a constraint is told wrong`;
  if (kind === 5) return has || !made.removeConstraint(a, b) ? '' : `${a} ${b} was a constraint`;
  const wanted = !model.crosses(a, b);
  if (made.canAddConstraint(a, b) !== wanted) return `whether ${a} ${b} crosses a constraint is told wrong`;
  model.add(a, b);
  return made.addConstraint(a, b) === wanted ? '' : `${a} ${b} is ${wanted ? 'not ' : ''}added`;
}

const SQUARE = [0, 0, 9, 0, 9, 9, 0, 9, 4, 5];

/** What has to be refused: a call, the error's kind, and what its message begins with. */
const refused = (ConstrainedDelaunay, made) => [
  [() => made.addConstraint(0, 9), RangeError, /^b is 9/], [() => made.addConstraint(-1, 0), RangeError, /^a is -1/], [() => made.addConstraint(0), RangeError, /^b is undefined/],
  [() => made.addConstraint('0', 1), RangeError, /^a is 0:/], [() => made.addConstraint(0, 0.5), RangeError, /^b is 0\.5/], [() => made.canAddConstraint(0, NaN), RangeError, /^b is NaN/],
  [() => made.removeConstraint(7, 0), RangeError, /^a is 7/], [() => made.isConstraint(0, 5), RangeError, /^b is 5/], [() => made.insert(0, 0.5), RangeError, /^y is 0\.5/],
  [() => new ConstrainedDelaunay(SQUARE, [0]), RangeError, /^edges: /], [() => new ConstrainedDelaunay(SQUARE, 7), TypeError, /^edges /],
  [() => new ConstrainedDelaunay(SQUARE, [0, 5]), RangeError, /^edges\[1\] is 5/], [() => new ConstrainedDelaunay(SQUARE, [[0, 1], [1, -2]]), RangeError, /^edges\[1\]\[1\] is -2/],
  [() => new ConstrainedDelaunay(SQUARE, [[0, 1, 2]]), RangeError, /^edges\[0\]/], [() => new ConstrainedDelaunay(SQUARE, [[0, 1], 2]), RangeError, /^edges\[1\]/],
  [() => new ConstrainedDelaunay(SQUARE, [[0, 2], [1, 3]]), RangeError, /^edges\[1\]\[0\]: the edge from 1 to 3 crosses/],
  [() => new ConstrainedDelaunay(SQUARE, [0, 2, 1, 3]), RangeError, /^edges\[2\]: the edge from 1 to 3 crosses/],
  [() => new ConstrainedDelaunay([0, NaN], []), RangeError, /^coords\[1\] is NaN/], [() => new ConstrainedDelaunay(), TypeError, /^coords/],
];

function refusalFaults(ConstrainedDelaunay, faults) {
  const model = new Model(ConstrainedDelaunay, SQUARE, [[0, 2], [1, 4]]), { made } = model, before = String(made.triangles);
  let count = 0;
  const expect = (call, type, told) => {
    count++;
    try {
      faults.push(`${call} is done: ${call()}`);
    } catch (error) {
      if (!(error instanceof type && told.test(error.message))) faults.push(`${call}: ${error}`);
    }
  };
  for (const [call, type, told] of refused(ConstrainedDelaunay, made)) expect(call, type, told);
  if (made.addConstraint(1, 3)) faults.push('a constraint that crosses another is added');
  if (String(made.triangles) !== before || model.fault()) faults.push('a call that is refused changes the triangles');
  made.free();
  for (const call of [() => made.addConstraint(0, 1), () => made.removeConstraint(0, 2), () => made.isConstraint(0, 2), () => made.canAddConstraint(0, 1), () => made.constraints, () => made.triangles]) {
    expect(call, TypeError, /freed/);
  }
  return count;
}

/** A point that is moved to where it is keeps its constraints, and no list is found anew. Returns how many are moved so. */
function stayingFaults(ConstrainedDelaunay, faults) {
  const made = new ConstrainedDelaunay(SQUARE, [[0, 2], [0, 4]]), { triangles, constraints } = made, moves = [[0, 0, 0], [0, -0, 0n], [2, 9, 9], [4, 4n, 5n]];
  for (const [point, x, y] of moves) {
    made.move(point, x, y);
    if (made.constraints !== constraints || made.triangles !== triangles) faults.push(`${point} is moved to where it is, ${x} ${y}, and the constraints are ${made.constraints}`);
  }
  if (constraints.length !== 4) faults.push(`of two constraints there are ${constraints}`);
  made.move(4, 4, 6);
  if (made.constraints.length !== 2) faults.push(`a point is moved, and the constraints are ${made.constraints}`);
  return moves.length;
}

/** A ring of many edges around many points, made and freed again and again, needs no more memory than once. */
function memoryFaults(ConstrainedDelaunay, faults) {
  const ring = Array.from({ length: 1000 }, (_, at) => [Math.round(2 ** 20 * Math.cos(at * Math.PI / 500)), Math.round(2 ** 20 * Math.sin(at * Math.PI / 500))]).flat();
  const coords = Int32Array.from([...ring, ...Array.from({ length: 20000 }, () => random(2 ** 20) - 2 ** 19)]);
  const edges = Uint32Array.from({ length: 2000 }, (_, at) => (at + 1 >> 1) % 1000);
  for (let times = 0; times < 30; times++) {
    const made = new ConstrainedDelaunay(coords, edges);
    if (made.constraints.length < 2000) faults.push(`${made.constraints.length / 2} constraints of 1000 edges`);
    for (let point = 1000; point < 1050; point++) made.addConstraint(point, point + 1);
    for (let point = 0; point < 50; point++) if (!made.removeConstraint(point, point + 1)) faults.push(`the edge from ${point} on is no constraint`);
    made.free();
  }
  return 30;
}

/** Where the engine refuses memory a call throws, and what is kept is right as soon as there is some again. */
function refusedMemoryFaults(ConstrainedDelaunay, faults) {
  const { grow } = WebAssembly.Memory.prototype;
  let refusals = 0;
  const isDone = call => {
    try {
      call();
      return true;
    } catch (error) {
      if (!(error instanceof RangeError && /memory/.test(error.message))) faults.push(`of no memory: ${error}`);
      refusals++;
      return false;
    }
  };
  for (let times = 0; times < 5; times++) {
    const coords = [0, 0, 2000, 0, 0, 2000, 2000, 2000, ...Array.from({ length: 200 }, () => random(2000))];
    const made = new ConstrainedDelaunay(coords, [0, 1, 2, 3]), others = [];
    WebAssembly.Memory.prototype.grow = () => {
      throw new RangeError('refused');
    };
    for (let size = 2 ** 18; size > 1; size >>= 1) {
      while (isDone(() => others.push(new ConstrainedDelaunay(Int32Array.from({ length: size }, () => random(2 ** 20)))))) ;
    }
    for (let count = 0; count < 300 && isDone(() => made.addConstraint(random(104), random(104))); count++) ;
    for (let count = 0; count < 300 && isDone(() => made.insert(random(2000), random(2000))); count++) ;
    isDone(() => made.constraints);
    isDone(() => made.removeConstraint(0, 1));
    isDone(() => made.remove(4 + times));
    WebAssembly.Memory.prototype.grow = grow;
    for (const other of others) other.free();
    const { coords: now, constraints } = made, corners = new Set(made.triangles);
    const points = Array.from({ length: now.length / 2 }, (_, at) => corners.has(at) ? [now[2 * at], now[2 * at + 1]] : null);
    const kept = Array.from({ length: constraints.length / 2 }, (_, at) => named(points[constraints[2 * at]], points[constraints[2 * at + 1]]));
    const found = triangulationFault(made, points, new Set(kept));
    if (found) faults.push(`after refused memory: ${found}`);
    if (points.filter(Boolean).length < 90) faults.push('points are lost for want of memory');
    made.free();
  }
  return refusals;
}

/** Adds to the faults, and returns how many triangulations and calls were looked at. */
export function constrainingFaults(ConstrainedDelaunay, faults) {
  let checked = 0;
  for (let set = 0; set < 200; set++) {
    const width = [4, 9, 60, 1000][set % 4], count = random(12), coords = Array.from({ length: 2 * count }, () => random(width) - (width >> 1));
    const edges = count ? Array.from({ length: random(6) }, () => [random(count), random(count)]) : [];
    const model = new Model(ConstrainedDelaunay, coords, edges);
    let found = model.fault();
    for (let turns = 0; turns < 40 && !found; turns++) {
      found = turnOnce(model, width) || model.fault();
      checked++;
    }
    if (found) faults.push(`constrained set ${set}: ${found}`);
    if (set % 2) model.made.free();
  }
  return { 'calls of constrained triangulations': checked, 'refusals of these': refusalFaults(ConstrainedDelaunay, faults),
    'points moved to where they are': stayingFaults(ConstrainedDelaunay, faults),
    'constrained triangulations freed': memoryFaults(ConstrainedDelaunay, faults), 'calls of these without memory': refusedMemoryFaults(ConstrainedDelaunay, faults) };
}
