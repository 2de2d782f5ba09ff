// Triangulations that are kept: random calls of all kinds, with the exact test of arrays.mjs after some of them; what is refused, and by which
// name; memory that grows, and is used again once it was given back.

import { fault } from './arrays.mjs';

let seed = 11;
const random = count => Math.floor((seed = (seed * 48271) % 2147483647) / 2147483647 * count);

/** A list of points beside a triangulation, with what is wrong with their arrays. Points that were removed are null. */
class Mirror {
  constructor(Delaunay, coords) {
    this.made = new Delaunay(coords);
    this.points = Array.from({ length: coords.length / 2 }, (_, at) => [coords[2 * at], coords[2 * at + 1]]);
  }

  numbers() {
    return Object.keys(this.points).map(Number).filter(at => this.points[at]);
  }

  /** The arrays have the numbers of points that may be removed, so they are numbered anew for the test. */
  fault() {
    const numbers = this.numbers(), place = new Map(numbers.map((number, at) => [number, at]));
    const { triangles, halfedges, hull } = this.made;
    const renamed = list => list.map(number => place.get(number) ?? 2 ** 32 - 1);
    return fault(numbers.map(number => this.points[number]), { triangles: renamed(triangles), halfedges, hull: renamed(hull) });
  }

  nearestFault() {
    const [x, y] = [random(60) - 30, random(60) - 30], found = this.made.nearest(x, y);
    const away = number => (this.points[number][0] - x) ** 2 + (this.points[number][1] - y) ** 2;
    const least = Math.min(...this.numbers().map(away));
    if (found === -1) return this.numbers().length ? `nothing is nearest to ${x} ${y}` : '';
    return this.points[found] && away(found) === least ? '' : `${found} isn't nearest to ${x} ${y}`;
  }
}

/** One call, and what it told that is wrong. */
function turn(mirror, width) {
  const numbers = mirror.numbers(), point = [random(width) - (width >> 1), random(width) - (width >> 1)];
  const kind = numbers.length < 3 ? 0 : random(4), number = numbers[random(numbers.length)];
  if (kind < 2) {
    const found = mirror.made.insert(...point);
    mirror.points.push(point);
    return found === mirror.points.length - 1 ? '' : `the point ${mirror.points.length - 1} is told as ${found}`;
  }
  if (kind === 2) {
    mirror.made.remove(number);
    mirror.points[number] = null;
  } else {
    mirror.made.move(number, ...point);
    mirror.points[number] = point;
  }
  return '';
}

/** What has to be refused: a call, the error's kind, and a word of the message that names the argument. */
const refused = (Delaunay, made) => [
  [() => made.insert(NaN, 0), RangeError, /^x is NaN/], [() => made.insert(0, 0.5), RangeError, /^y is 0\.5/], [() => made.insert(2 ** 53 + 2, 0), RangeError, /^x is 9007/],
  [() => made.insert(1), RangeError, /^y is undefined/], [() => made.insert('1', 1), RangeError, /^x is 1,/], [() => made.move(0, Infinity, 0), RangeError, /^x is Infinity/],
  [() => made.move(99, 0, 0), RangeError, /^point is 99/], [() => made.remove(-1), RangeError, /^point is -1/], [() => made.remove(1.5), RangeError, /^point is 1\.5/],
  [() => made.remove(), RangeError, /^point is undefined/], [() => made.remove('0'), RangeError, /^point is 0/], [() => made.nearest(0, -Infinity), RangeError, /^y is -Infinity/],
  [() => new Delaunay([0, 0, NaN, 1]), RangeError, /^coords\[2\] is NaN/], [() => new Delaunay([1, 2, 3]), RangeError, /^coords/], [() => new Delaunay(7), TypeError, /^coords/],
];

function refusalFaults(Delaunay, faults) {
  const mirror = new Mirror(Delaunay, [0, 0, 9, 0, 0, 9, 9, 9, 4, 4]), { made } = mirror, before = String(made.triangles);
  let count = 0;
  const expect = (call, type, told) => {
    count++;
    try {
      faults.push(`${call} is done: ${call()}`);
    } catch (error) {
      if (!(error instanceof type && told.test(error.message))) faults.push(`${call}: ${error}`);
    }
  };
  for (const [call, type, told] of refused(Delaunay, made)) expect(call, type, told);
  if (String(made.triangles) !== before || mirror.fault()) faults.push('a call that is refused changes the triangles');
  made.remove(4);
  expect(() => made.remove(4), RangeError, /^point is 4/);
  made.free();
  made.free();
  for (const call of [() => made.insert(0, 0), () => made.remove(0), () => made.move(0, 1, 1), () => made.nearest(0, 0), () => made.triangles, () => made.hull]) {
    expect(call, TypeError, /freed/);
  }
  return count;
}

/** Many triangulations, each freed, need no more memory than few; and a large one grows it. */
function memoryFaults(Delaunay, faults) {
  const coords = Int32Array.from({ length: 40000 }, () => random(2 ** 20));
  for (let times = 0; times < 60; times++) {
    const made = new Delaunay(coords);
    if (made.triangles.length < 3 * 39000) faults.push(`${made.triangles.length / 3} triangles of ${coords.length / 2} points`);
    for (let point = 0; point < 50; point++) made.move(point, random(2 ** 20), random(2 ** 20));
    made.free();
  }
  return 60;
}

/** Where the engine refuses memory a call throws, and what is kept is right as soon as there is some again. */
function refusedMemoryFaults(Delaunay, faults) {
  const { grow } = WebAssembly.Memory.prototype;
  let refusals = 0;
  const isDone = call => {
    try {
      call();
      return true;
    } catch (error) {
      if (!(error instanceof RangeError && /memory/.test(error.message))) faults.push(`of no memory: ${error}`);
      refusals++;
      return false;
    }
  };
  for (let times = 0; times < 5; times++) {
    const { made } = new Mirror(Delaunay, [0, 0, 9, 0, 0, 9]), others = [];
    WebAssembly.Memory.prototype.grow = () => {
      throw new RangeError('refused');
    };
    for (let size = 2 ** 18; size > 1; size >>= 1) {
      while (isDone(() => others.push(new Delaunay(Int32Array.from({ length: size }, () => random(2 ** 20)))))) ;
    }
    for (let count = 0; count < 300 && isDone(() => made.insert(random(2000), random(2000))); count++) ;
    isDone(() => made.triangles);
    isDone(() => made.remove(times % 3));
    WebAssembly.Memory.prototype.grow = grow;
    for (const other of others) other.free();
    const kept = [...Array(made.coords.length / 2).keys()].filter(point => isKept(made, point));
    const mirror = Object.assign(Object.create(Mirror.prototype), { made, points: [] });
    for (const point of kept) mirror.points[point] = [made.coords[2 * point], made.coords[2 * point + 1]];
    if (mirror.fault()) faults.push(`after refused memory: ${mirror.fault()}`);
    made.free();
  }
  return refusals;
}

/** Whether a point wasn't removed: it can be moved to where it is. */
function isKept(made, point) {
  try {
    made.move(point, made.coords[2 * point], made.coords[2 * point + 1]);
    return true;
  } catch {
    return false;
  }
}

/** Adds to the faults, and returns how many triangulations and calls were looked at. */
export function keepingFaults(Delaunay, faults) {
  let checked = 0;
  for (let set = 0; set < 200; set++) {
    const width = [4, 9, 60, 1000][set % 4], coords = Array.from({ length: 2 * random(12) }, () => random(width) - (width >> 1));
    const mirror = new Mirror(Delaunay, coords);
    for (let turns = 0; turns < 30; turns++) {
      const found = turn(mirror, width) || (turns % 5 === 0 ? mirror.fault() || mirror.nearestFault() : '');
      if (found) {
        faults.push(`set ${set}, call ${turns}: ${found}`);
        break;
      }
      checked++;
    }
    if (set % 2) mirror.made.free();
  }
  return { 'calls of triangulations that are kept': checked, 'refusals of theirs': refusalFaults(Delaunay, faults), 'triangulations freed': memoryFaults(Delaunay, faults),
    'calls without memory': refusedMemoryFaults(Delaunay, faults) };
}
