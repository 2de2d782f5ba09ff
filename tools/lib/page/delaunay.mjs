// Whether triangles are a Delaunay triangulation of points with small whole coordinates, by trying all pairs: exact, and slow.

const [X, Y] = [0, 1];

/** Twice the area of a triangle, positive if it goes round one way. */
const area = (a, b, c) => (b[X] - a[X]) * (c[Y] - a[Y]) - (b[Y] - a[Y]) * (c[X] - a[X]);

/** Positive if a point lies inside the circle through the corners of a triangle whose area is positive. */
export function inCircle(corners, point) {
  const [[ax, ay], [bx, by], [cx, cy]] = corners.map(([x, y]) => [x - point[X], y - point[Y]]);
  const square = (x, y) => x * x + y * y;
  return square(ax, ay) * (bx * cy - by * cx) - square(bx, by) * (ax * cy - ay * cx) + square(cx, cy) * (ax * by - ay * bx);
}

/** Twice the area of the convex hull, by a chain below and one above. */
function hullArea(points) {
  const sorted = [...points].sort((a, b) => a[X] - b[X] || a[Y] - b[Y]);
  const chain = ordered => ordered.reduce((kept, point) => {
    while (kept.length > 1 && area(kept.at(-2), kept.at(-1), point) <= 0) kept.pop();
    return [...kept, point];
  }, []);
  const hull = [...chain(sorted), ...chain(sorted.reverse())];
  return hull.reduce((sum, point, at) => sum + area(hull[0], point, hull[(at + 1) % hull.length]), 0);
}

/** What is wrong with triangles, each of three points, that are to be the Delaunay triangulation of points; empty if nothing is. */
export function delaunayFault(points, triangles) {
  let sum = 0;
  for (const corners of triangles) {
    if (corners.some(corner => !points.some(point => String(point) === String(corner)))) return `a corner of ${corners.join(' ')} is no point`;
    const round = area(...corners) < 0 ? [...corners].reverse() : corners;
    sum += area(...round);
    const inside = points.find(point => area(...round) === 0 || inCircle(round, point) > 0);
    if (inside) return `${inside} lies inside the circle of ${corners.join(' ')}`;
  }
  return areaFault(points, sum);
}

/** What is wrong with the sum of twice the areas of triangles that are to cover the hull of points. */
export function areaFault(points, sum) {
  return sum === hullArea(points) ? '' : `the areas are ${sum}, and the hull's is ${hullArea(points)}`;
}
