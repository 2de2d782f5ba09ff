// The elements of a picture with their numbers: half edges, vertices and faces, and what lies at a place.

/** How many points stand for an arc. */
const POINTS_OF_ARC = 12;

/** Reads a picture, and gives each element its number as data-half, data-vertex or data-face. */
export function shapesOf(svg) {
  const halves = [...svg.querySelectorAll('.half')].map(path => {
    const label = path.nextElementSibling;
    return { path, label, number: Number(label.textContent), line: lineOf(path) };
  });
  const vertices = [...svg.querySelectorAll('.vertex')].map(circle => {
    const label = circle.nextElementSibling;
    return { path: circle, label, number: Number(label.textContent), place: ['cx', 'cy'].map(name => Number(circle.getAttribute(name))) };
  });
  // Areas of faces and their labels come in the same order; F0, the outer face, has a label alone, in the corner.
  const labels = [...svg.querySelectorAll('.face')];
  const areas = ['path[class^="c"]', '.hatch'].map(kind => [...svg.querySelectorAll(kind)]);
  const faces = labels.map(label => {
    const number = Number(label.textContent.slice(1));
    const path = number ? areas[label.classList.contains('over') ? 1 : 0].shift() : svg.querySelector('.page');
    return { path, label, number };
  });
  const all = { half: halves, vertex: vertices, face: faces };
  for (const [kind, shapes] of Object.entries(all)) for (const { path, number } of shapes) path.dataset[kind] = number;
  return all;
}

/** The points of a line of a picture; several for an arc. */
function lineOf(path) {
  const given = path.getAttribute('d');
  if (/^M[^A-Z]*L[^A-Z]*$/.test(given)) return given.slice(1).split('L').map(pair => pair.split(' ').map(Number));
  const length = path.getTotalLength();
  return Array.from({ length: POINTS_OF_ARC + 1 }, (_, at) => path.getPointAtLength(length * at / POINTS_OF_ARC)).map(({ x, y }) => [x, y]);
}

/** The pieces of a line, each with two ends. */
export const piecesOf = line => line.slice(1).map((to, at) => [line[at], to]);

/** The place on a piece of a line that is nearest to a place. */
export function nearestOn([[ax, ay], [bx, by]], [x, y]) {
  const [dx, dy] = [bx - ax, by - ay];
  const share = Math.min(1, Math.max(0, ((x - ax) * dx + (y - ay) * dy) / (dx * dx + dy * dy || 1)));
  return [ax + share * dx, ay + share * dy];
}

const far = ([ax, ay], [bx, by]) => Math.hypot(ax - bx, ay - by);

/** The shape that is nearest to a place, if one is nearer than that. */
function nearest(shapes, limit, farFrom) {
  const [, found] = shapes.reduce((best, shape) => {
    const away = farFrom(shape);
    return away < best[0] ? [away, shape] : best;
  }, [limit, null]);
  return found;
}

/** Whether a place is on a number that is shown. A digit is some 0.72 of the font size high, on the line of the text. */
function isOnNumber({ label }, [x, y]) {
  const { x: left, width } = label.getBBox(), bottom = Number(label.getAttribute('y')), high = 0.72 * parseFloat(getComputedStyle(label).fontSize);
  return label.style.visibility !== 'hidden' && x >= left && x <= left + width && y <= bottom && y >= bottom - high;
}

/** What is at a place, with its kind: what has its number there, a vertex or a half edge so near to it, or else the face, if it has no hole there. */
export function shapeAt(shapes, place, near) {
  for (const [kind, all] of Object.entries(shapes)) {
    const named = all.find(shape => isOnNumber(shape, place));
    if (named) return [kind, named.number];
  }
  const vertex = nearest(shapes.vertex, Math.max(near, 12), ({ place: center }) => far(center, place));
  if (vertex) return ['vertex', vertex.number];
  const half = nearest(shapes.half, near, ({ line }) => Math.min(...piecesOf(line).map(piece => far(nearestOn(piece, place), place))));
  if (half) return ['half', half.number];
  const face = shapes.face.find(({ path, number }) => number && !path.matches('.hatch') && path.isPointInFill(new DOMPoint(...place)));
  return ['face', face?.number ?? 0];
}
