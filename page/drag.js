// One of 10,000 points is dragged. The triangulation is kept, so a step moves one vertex, and reads the triangles again.

import { Delaunay } from './mesh.js';

const COUNT = 10000, SIZE = 1024;
const plane = document.getElementById('plane'), told = document.getElementById('told'), pen = plane.getContext('2d');
const coords = Int32Array.from({ length: 2 * COUNT }, () => Math.floor(Math.random() * SIZE));
const made = new Delaunay(coords);
let dragged = -1, isWaiting = false;

/** Where an event is in the plane. */
function placeOf({ clientX, clientY }) {
  const { left, top, width, height } = plane.getBoundingClientRect();
  const whole = (place, length) => Math.min(SIZE - 1, Math.max(0, Math.floor(place / length * SIZE)));
  return [whole(clientX - left, width), whole(clientY - top, height)];
}

function draw() {
  isWaiting = false;
  const { triangles, coords: now } = made;
  pen.clearRect(0, 0, SIZE, SIZE);
  pen.beginPath();
  for (let side = 0; side < triangles.length; side += 3) {
    const [a, b, c] = triangles.subarray(side, side + 3);
    pen.moveTo(now[2 * a], now[2 * a + 1]);
    for (const corner of [b, c, a]) pen.lineTo(now[2 * corner], now[2 * corner + 1]);
  }
  pen.lineWidth = 0.5;
  pen.stroke();
}

plane.onpointerdown = event => {
  dragged = made.nearest(...placeOf(event));
  plane.setPointerCapture(event.pointerId);
};
plane.onpointermove = event => {
  if (dragged < 0) return;
  const start = performance.now(), place = placeOf(event);
  made.move(dragged, ...place);
  told.value = `Point ${dragged} is at ${place.join(' ')}: ${made.triangles.length / 3} triangles, ${(performance.now() - start).toFixed(1)} ms`;
  if (!isWaiting) requestAnimationFrame(draw);
  isWaiting = true;
};
plane.onpointerup = () => {
  dragged = -1;
};
plane.made = made; // for who looks at the arrays
draw();
