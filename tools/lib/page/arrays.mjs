// Triangulations as arrays: their triangles, the sides across and the hull, by definitions that share nothing with page/mesh.js.

import { areaFault, delaunayFault } from './delaunay.mjs';

const KINDS = { Array, Float64Array, Float32Array, Int32Array, Int16Array };
const WRONG = [[NaN, 0], [0.5, 0], [0, Infinity], [2 ** 53 + 2, 0], [0, -(2 ** 53) - 2], [1, , 2, 3], [1, '2'], [1, null], [2n ** 53n + 1n, 0n], [1, 2, 3]];

let seed = 7;
const random = count => Math.floor((seed = (seed * 48271) % 2147483647) / 2147483647 * count);
const scattered = (count, width) => Array.from({ length: 2 * count }, () => random(width) - (width >> 1));

/** Lists of coordinates: few points, on a line, equal, on a grid, around one point, and scattered. */
const LISTS = [
  [], [3, 4], [3, 4, 3, 4], [0, 0, 1, 1], [0, 0, 2, 2, 1, 1, 5, 5], [0, 0, 1, 0, 0, 1], [0, 0, 4, 0, 4, 4, 0, 4, 4, 4, 2, 2],
  Array.from({ length: 25 }, (_, at) => [at % 5, Math.floor(at / 5)]).flat(),
  [0, 0, ...[5, 0, 4, 3, 3, 4, 0, 5, -3, 4, -4, 3, -5, 0, -4, -3, -3, -4, 0, -5, 3, -4, 4, -3]],
  ...Array.from({ length: 20 }, (_, at) => scattered(3 + 4 * at, at % 2 ? 12 : 1000)),
];

const pairs = coords => Array.from({ length: coords.length / 2 }, (_, at) => [coords[2 * at], coords[2 * at + 1]]);
const turn = (a, b, c) => (b[0] - a[0]) * (c[1] - a[1]) - (b[1] - a[1]) * (c[0] - a[0]);

/** The sides of triangles as text, from corner to corner. */
const sidesOf = triangles => Array.from(triangles, (corner, side) => `${corner} ${triangles[side % 3 === 2 ? side - 2 : side + 1]}`);

/** What is wrong with the sides across: there is one exactly where another triangle has the side the other way round. */
function acrossFault(triangles, halfedges) {
  const sides = sidesOf(triangles), at = new Map(sides.map((side, place) => [side, place]));
  if (at.size !== sides.length) return 'two triangles have one side';
  const wanted = sides.map(side => at.get(side.split(' ').reverse().join(' ')) ?? -1);
  return String(wanted) === String(Array.from(halfedges)) ? '' : `the sides across are ${halfedges}, not ${wanted}`;
}

/** What is wrong with a hull: no point is on the right of a side, each that is on a side stands in it, and it goes round once. */
function hullFault(points, hull) {
  if (new Set(hull).size !== hull.length) return 'it comes to a point twice';
  let sum = 0;
  for (const [at, number] of hull.entries()) {
    const from = points[number], to = points[hull[(at + 1) % hull.length]];
    if (points.some(point => turn(from, to, point) < 0)) return `a point is on the right of ${from} ${to}`;
    const within = ([x, y]) => (x - from[0]) * (x - to[0]) + (y - from[1]) * (y - to[1]) < 0;
    if (points.some(point => turn(from, to, point) === 0 && within(point))) return `a point between ${from} and ${to} is left out`;
    sum += turn(points[hull[0]], from, to);
  }
  return sum > 0 ? '' : 'it goes the other way round';
}

const cornersOf = (points, triangles) => Array.from({ length: triangles.length / 3 }, (_, at) => [0, 1, 2].map(corner => points[triangles[3 * at + corner]]));

/** What is wrong with the arrays of a Delaunay triangulation of these points. */
export function fault(points, arrays) {
  return structureFault(points, arrays) || delaunayFault(points, cornersOf(points, arrays.triangles));
}

/** What is wrong with the arrays of a triangulation of these points, Delaunay or not. */
export function structureFault(points, { triangles, halfedges, hull }) {
  if (!(triangles instanceof Uint32Array && halfedges instanceof Int32Array && hull instanceof Uint32Array)) return 'an array has another type';
  if (Array.from(triangles).some(number => !points[number])) return 'a corner is no point';
  const corners = cornersOf(points, triangles);
  if (corners.some(([a, b, c]) => turn(a, b, c) <= 0)) return 'a triangle goes clockwise';
  const first = Array.from(triangles).find(number => points.findIndex(point => String(point) === String(points[number])) !== number);
  if (first !== undefined) return `${first} stands for an equal point that comes before it`;
  if (!triangles.length && hull.length) return 'a hull without triangles';
  const sum = corners.reduce((all, [a, b, c]) => all + turn(a, b, c), 0);
  return areaFault(points, sum) || acrossFault(triangles, halfedges) || (triangles.length ? hullFault(points, Array.from(hull)) : '');
}

/** Adds to the faults, and returns how many triangulations were looked at. */
export function arrayFaults(Delaunay, faults) {
  let count = 0;
  for (const list of LISTS) {
    for (const [name, Kind] of Object.entries({ ...KINDS, BigInt64Array })) {
      const coords = Kind === BigInt64Array ? Kind.from(list, BigInt) : Kind.from(list), before = String(coords);
      const made = new Delaunay(coords), found = fault(pairs(list), made);
      if (found) faults.push(`${name} of ${list}: ${found}`);
      if (list.length) coords.fill(coords[0]); // a caller may write to what was given
      if (String(made.coords) !== before || made.coords.constructor !== Kind) faults.push(`${name} of ${list}: its coordinates are ${made.coords}`);
      count++;
    }
  }
  for (const [given, type] of [...WRONG.map(list => [list, RangeError]), ['0 0', TypeError], [new DataView(new ArrayBuffer(16)), TypeError], [undefined, TypeError]]) {
    try {
      faults.push(`${given} is triangulated: ${new Delaunay(given).triangles}`);
    } catch (error) {
      if (!(error instanceof type)) faults.push(`${given}: ${error}`);
      count++;
    }
  }
  return count;
}
