// The tab of points: they are set and moved, and their Delaunay triangulation is drawn.

import { Delaunay } from './mesh.js';
import { at, undoBy } from './elements.js';

const WIDTH = 1000, HEIGHT = 700, MARGIN = 10;
const STEPS = { ArrowLeft: [-1, 0], ArrowRight: [1, 0], ArrowUp: [0, -1], ArrowDown: [0, 1] };

/** As many points that were moved or added are moved or added in the triangulation that is kept; with more it is made anew. */
const FEW = 20;

/** How near to a point it is taken, in pixels, by a mouse and by a finger. */
const NEAR = { mouse: 16, touch: 26 };

/** On a narrow window that is higher than wide, the plane is turned by a quarter, so that it fills it. */
const upright = matchMedia('(max-width: 50rem) and (orientation: portrait)');

const plane = at('plane');
let points = [], chosen = null, isWaiting = false, changed = () => {};
let made, held = []; // the triangulation, and the points that it has
let settled = [], past = []; // as the points were at the last change, and before each

export const allPoints = () => points;

/** Has `change` called after each change. */
export function startPoints(change) {
  changed = change;
}

/** Begins with these points; without them shows those that there are. */
export function setPoints(others) {
  if (others) [points, chosen, past] = [others.map(clamped), null, []];
  settled = points.slice();
  turn();
  settle();
}

/** Takes other points in place of those that there are, until that is undone. */
function replace(others) {
  [points, chosen] = [others.map(clamped), null];
  settle();
}

function undo() {
  if (!past.length) return;
  [points, chosen] = [past.pop(), null];
  settled = points.slice();
  settle();
}

/** Turns the plane as the window wants it. */
function turn() {
  const [width, height] = upright.matches ? [HEIGHT, WIDTH] : [WIDTH, HEIGHT];
  plane.setAttribute('viewBox', [-MARGIN, -MARGIN, width + 2 * MARGIN, height + 2 * MARGIN].join(' '));
  at('drawn').setAttribute('transform', upright.matches ? `translate(${HEIGHT}) rotate(90)` : '');
}

const clamped = ([x, y]) => [[x, WIDTH], [y, HEIGHT]].map(([place, most]) => Math.min(most, Math.max(0, Math.round(place))));
const random = () => [Math.random() * WIDTH, Math.random() * HEIGHT];

/** Shows what there is, keeps what was before, and tells it. */
function settle() {
  if (String(points) !== String(settled)) past.push(settled);
  settled = points.slice();
  at('undo-points').disabled = !past.length;
  draw();
  changed();
}

/** The triangles of the points that there are now. */
function trianglesNow() {
  const other = [...points.keys()].filter(number => points[number] !== held[number]);
  if (made && points.length >= held.length && other.length <= FEW) {
    for (const number of other) {
      if (number < held.length) made.move(number, ...points[number]);
      else made.insert(...points[number]);
    }
  } else {
    made?.free();
    made = new Delaunay(points.flat());
  }
  held = points.slice();
  const { triangles } = made;
  return Array.from({ length: triangles.length / 3 }, (_, at) => [...triangles.subarray(3 * at, 3 * at + 3)]);
}

/** Draws the triangulation. */
function draw() {
  isWaiting = false;
  const start = performance.now();
  const triangles = trianglesNow();
  const time = performance.now() - start;
  const way = corners => `M${corners.map(number => points[number].join(' ')).join('L')}z`;
  at('triangles').setAttribute('d', triangles.map(way).join(''));
  at('circles').innerHTML = at('with-circles').checked ? triangles.map(circle).join('') : '';
  const radius = points.length > 300 ? 2.5 : Math.max(6, 3.5 / scale());
  at('points').innerHTML = points.map(([x, y], number) =>
    `<circle cx="${x}" cy="${y}" r="${radius}"${number === chosen ? ' class="taken"' : ''}/>`).join('');
  at('size').textContent = `${points.length} points, ${triangles.length} triangles in ${time.toFixed(1)} ms`;
  at('remove').disabled = chosen === null;
  at('none').disabled = !points.length;
}

/** The circle through the corners of a triangle. */
function circle(corners) {
  const [[ax, ay], [bx, by], [cx, cy]] = corners.map(number => points[number]);
  const [px, py, qx, qy] = [bx - ax, by - ay, cx - ax, cy - ay];
  const twice = 2 * (px * qy - py * qx), p = px * px + py * py, q = qx * qx + qy * qy;
  const [x, y] = [(qy * p - py * q) / twice, (px * q - qx * p) / twice];
  return `<circle cx="${(ax + x).toFixed(1)}" cy="${(ay + y).toFixed(1)}" r="${Math.hypot(x, y).toFixed(1)}"/>`;
}

/** Draws before the next frame, once however often it is called. */
function drawSoon() {
  if (!isWaiting) requestAnimationFrame(draw);
  isWaiting = true;
}

/** Adds a point and chooses it. */
function add(point) {
  points.push(clamped(point));
  chosen = points.length - 1;
}

function remove() {
  if (chosen === null) return;
  points.splice(chosen, 1);
  chosen = points.length ? Math.min(chosen, points.length - 1) : null;
  settle();
}

/** Where an event is in the plane, and the number of the nearest point if one is near. */
function placeOf(event) {
  const { x, y } = new DOMPoint(event.x, event.y).matrixTransform(at('drawn').getScreenCTM().inverse());
  const far = points.map(([left, top]) => Math.hypot(left - x, top - y));
  const nearest = far.indexOf(Math.min(...far));
  return { place: [x, y], near: far[nearest] * scale() < (NEAR[event.pointerType] ?? NEAR.mouse) ? nearest : null };
}

/** How many pixels a unit of the plane has; 1 while it isn't shown. */
function scale() {
  const { a, b } = at('drawn').getScreenCTM() ?? { a: 1, b: 0 };
  return Math.hypot(a, b);
}

plane.onpointerdown = event => {
  const { place, near } = placeOf(event);
  plane.setPointerCapture(event.pointerId);
  if (near === null) add(place);
  else chosen = near;
  drawSoon();
};
plane.onpointermove = event => {
  if (!plane.hasPointerCapture(event.pointerId) || chosen === null) return;
  points[chosen] = clamped(placeOf(event).place);
  drawSoon();
};
plane.onpointerup = settle;
plane.ondblclick = remove;
plane.onkeydown = event => {
  if (event.ctrlKey || event.metaKey || event.altKey) return;
  const count = points.length;
  if (event.key in STEPS && chosen !== null) {
    const [right, down] = STEPS[event.key], step = event.shiftKey ? 50 : 5;
    const [along, across] = upright.matches ? [down, -right] : [right, down];
    points[chosen] = clamped([points[chosen][0] + step * along, points[chosen][1] + step * across]);
  } else if (event.key === 'n' && count) chosen = ((chosen ?? -1) + 1) % count;
  else if (event.key === 'p' && count) chosen = ((chosen ?? 0) + count - 1) % count;
  else if (event.key === 'Enter') add(random());
  else if (event.key === 'Delete' || event.key === 'Backspace') remove();
  else return;
  event.preventDefault();
  settle();
};
at('add').onclick = () => {
  add(random());
  settle();
};
at('remove').onclick = remove;
at('more').onclick = () => replace([...points, ...Array.from({ length: 100 }, random)]);
at('none').onclick = () => replace([]);
at('undo-points').onclick = undo;
undoBy(at('points-tab'), undo);
at('with-circles').onchange = draw;
upright.onchange = () => {
  if (!at('points-tab').hidden) setPoints();
};
