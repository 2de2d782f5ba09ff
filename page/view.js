// A picture that is moved and made larger by mouse, fingers or keys, and whose half edges, vertices and faces can be chosen.

import { Labels } from './labels.js';
import { shapesOf, shapeAt } from './shapes.js';

const MOVES = { ArrowLeft: [40, 0], ArrowRight: [-40, 0], ArrowUp: [0, 40], ArrowDown: [0, -40] };
const ZOOMS = { '+': 0.8, '=': 0.8, '-': 1.25 };

/** Pictures are shown at most so many times as large as they are, until they are zoomed. */
const LARGEST = 1.8;

/** How near to a half edge it is chosen, in pixels, by a mouse and by a finger. */
const NEAR = { mouse: 7, touch: 14 };

/**
 * Shows pictures in an element. It tells `choose` the kind and the number of what is clicked, and `legible` whether all numbers can be read at
 * the scale that is shown.
 */
export function viewIn(host, choose, legible) {
  let svg, labels, scale; // scale: pixels for each unit of the picture, as the labels have it
  let shapes = { half: [], vertex: [], face: [] };
  let whole, seen; // left, top, width and height of what is shown if the picture fits, and of what is shown

  const show = box => {
    seen = box;
    svg.setAttribute('viewBox', box.map(number => number.toFixed(2)).join(' '));
    const before = scale;
    scale = Math.min(host.clientWidth / box[2], host.clientHeight / box[3]);
    if (scale !== before) legible(labels.show(scale));
  };

  /** The place in the picture of a point of the screen. */
  const placeOf = (x, y) => new DOMPoint(x, y).matrixTransform(svg.getScreenCTM().inverse());

  /** Makes what is seen larger by a factor, and keeps the place under a point of the screen. */
  const zoom = (factor, x, y) => {
    if (!svg) return;
    const at = placeOf(x, y);
    const [left, top, width, height] = seen;
    show([at.x + (left - at.x) * factor, at.y + (top - at.y) * factor, width * factor, height * factor]);
  };

  const zoomInMiddle = factor => {
    const { x, y, width, height } = host.getBoundingClientRect();
    zoom(factor, x + width / 2, y + height / 2);
  };

  /** Moves the picture by pixels. */
  const move = (right, down) => {
    if (!svg) return;
    const { a: scale } = svg.getScreenCTM();
    show([seen[0] - right / scale, seen[1] - down / scale, seen[2], seen[3]]);
  };

  const fit = () => svg && show(whole);

  /** Finds how much is shown of a picture that fits, which may be more than the picture. */
  const measure = () => {
    const [left, top, width, height] = svg.dataset.box.split(' ').map(Number);
    const more = Math.max(0, Math.min(host.clientWidth / width, host.clientHeight / height) / LARGEST - 1) / 2;
    whole = [left - more * width, top - more * height, width * (1 + 2 * more), height * (1 + 2 * more)];
  };

  /** Shows a picture; the part that was seen stays if the picture is as large as the one before. */
  const draw = text => {
    const before = svg?.dataset.box, isFit = seen === whole;
    host.innerHTML = text;
    svg = host.firstElementChild;
    svg.dataset.box = svg.getAttribute('viewBox');
    svg.removeAttribute('width');
    svg.removeAttribute('height');
    const [left, top, width, height] = svg.dataset.box.split(' ').map(Number);
    host.style.setProperty('--shape', width / height);
    shapes = shapesOf(svg);
    labels = new Labels(shapes, [left, top, left + width, top + height]);
    for (const { path } of shapes.half) addHit(svg, path);
    scale = null;
    measure();
    show(before === svg.dataset.box && !isFit ? seen : whole);
  };

  new ResizeObserver(() => {
    if (!svg || !host.clientWidth) return;
    const isFit = seen === whole;
    measure();
    show(isFit ? whole : seen);
  }).observe(host);

  /** Whether the picture has this half edge, vertex or face. */
  const has = (kind, number) => shapes[kind].some(shape => shape.number === number);

  /** Marks shapes by classes, each given as its kind, its number and the class, and no others. */
  const mark = marks => {
    for (const marked of host.querySelectorAll('.marked')) marked.setAttribute('class', marked.dataset.plain);
    for (const [kind, number, name] of marks) {
      const path = shapes[kind].find(shape => shape.number === number)?.path;
      if (!path) continue;
      if (!path.matches('.marked')) path.dataset.plain = path.getAttribute('class');
      path.classList.add('marked', name);
    }
  };

  const pointers = new Map();
  let moved;
  host.onpointerdown = event => {
    host.setPointerCapture(event.pointerId);
    if (!pointers.size) moved = 0;
    pointers.set(event.pointerId, event);
  };
  host.onpointermove = event => {
    const before = pointers.get(event.pointerId);
    if (!before) return;
    const far = (one, other) => Math.hypot(one.x - other.x, one.y - other.y);
    const other = [...pointers.values()].find(pointer => pointer.pointerId !== event.pointerId);
    if (other) zoom(far(before, other) / Math.max(1, far(event, other)), other.x, other.y);
    else move(event.x - before.x, event.y - before.y);
    moved += far(before, event);
    pointers.set(event.pointerId, event);
  };
  host.onpointerup = event => {
    pointers.delete(event.pointerId);
    if (moved >= 6 || !svg) return;
    const { x, y } = placeOf(event.x, event.y), near = NEAR[event.pointerType] ?? NEAR.mouse;
    choose(...shapeAt(shapes, [x, y], near / svg.getScreenCTM().a));
  };
  host.onpointercancel = event => pointers.delete(event.pointerId);
  host.onwheel = event => {
    event.preventDefault();
    zoom(Math.exp(event.deltaY / 400), event.x, event.y);
  };
  host.onkeydown = event => {
    if (event.ctrlKey || event.metaKey || event.altKey) return;
    if (event.key in MOVES) move(...MOVES[event.key]);
    else if (event.key in ZOOMS) zoomInMiddle(ZOOMS[event.key]);
    else if (event.key === '0') fit();
    else return;
    event.preventDefault();
  };
  return { draw, has, mark, fit, zoom: zoomInMiddle };
}

/** Lays a wide stroke that isn't seen over a half edge, which shows that it can be clicked. */
function addHit(svg, half) {
  const hit = half.cloneNode();
  hit.removeAttribute('marker-end');
  hit.setAttribute('class', 'hit');
  svg.append(hit);
}
