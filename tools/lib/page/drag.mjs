// Drags points of page/drag.html in headless Chromium: `node drag.mjs FOLDER`. After each drag the page's arrays are tested: the sides across,
// that triangles turn left, that no edge is to be flipped, and that they cover the hull, all in whole numbers below 2^53.

import { resolve } from 'node:path';
import { pathToFileURL } from 'node:url';
import { startChromium } from './chromium.mjs';

const address = pathToFileURL(resolve(process.argv[2], 'drag.html')).href;
const browser = await startChromium();
const faults = [];
let drags = 0;

const [X, Y] = [0, 1];
const turn = (a, b, c) => (b[X] - a[X]) * (c[Y] - a[Y]) - (b[Y] - a[Y]) * (c[X] - a[X]);

/** Positive if d is inside the circle of a, b, c, which turn left. */
function inCircle(d, ...corners) {
  const [[ax, ay], [bx, by], [cx, cy]] = corners.map(([x, y]) => [x - d[X], y - d[Y]]);
  return (ax * ax + ay * ay) * (bx * cy - by * cx) - (bx * bx + by * by) * (ax * cy - ay * cx) + (cx * cx + cy * cy) * (ax * by - ay * bx);
}

/** What is wrong with arrays of a triangulation. */
function fault({ coords, triangles, halfedges, hull }) {
  const point = number => [coords[2 * number], coords[2 * number + 1]], corner = side => point(triangles[side]);
  let area = 0;
  const seen = new Set(triangles);
  for (let side = 0; side < triangles.length; side++) {
    const first = side - side % 3, next = first + (side + 1) % 3, last = first + (side + 2) % 3, other = halfedges[side];
    const twice = turn(corner(side), corner(next), corner(last));
    if (twice <= 0) return `a triangle turns right at ${side}`;
    if (side === first) area += twice;
    if (other < 0) continue;
    const across = other - other % 3 + (other + 2) % 3;
    if (halfedges[other] !== side || triangles[other] !== triangles[next]) return `${side} isn't joined`;
    if (inCircle(corner(across), corner(side), corner(next), corner(last)) > 0) return `the side ${side} is to be flipped`;
  }
  const round = [...hull].reduce((sum, number, at) => sum + turn(point(hull[0]), point(number), point(hull[(at + 1) % hull.length])), 0);
  if (round !== area) return `the triangles have ${area}, and the hull ${round}`;
  const lost = [...Array(coords.length / 2).keys()].filter(number => !seen.has(number));
  const stood = new Map([...seen].map(number => [String(point(number)), number]));
  return lost.every(number => stood.get(String(point(number))) < number) ? '' : 'a point is no corner';
}

/** The arrays of the page. */
const arrays = () => browser.evaluate(`(({ coords, triangles, halfedges, hull }) => ({ coords: [...coords], triangles: [...triangles],
  halfedges: [...halfedges], hull: [...hull] }))(document.getElementById('plane').made)`);
/** Where a place of the plane is on the screen. */
const screen = ([x, y]) => browser.evaluate(`(({ left, top, width, height }) => [left + (${x} + 0.5) / 1024 * width, top + (${y} + 0.5) / 1024 * height])(
  document.getElementById('plane').getBoundingClientRect())`);

try {
  await browser.ask('Emulation.setDeviceMetricsOverride', { width: 1200, height: 1400, deviceScaleFactor: 1, mobile: false });
  await browser.open(address);
  const before = await arrays();
  const first = fault(before);
  if (first || before.coords.length !== 20000) faults.push(`at first: ${first}`);
  for (const places of [[[512, 512], [520, 500], [700, 300]], [[10, 10], [1000, 1000]], [[900, 100], [902, 102], [900, 104], [0, 0]]]) {
    const corners = [];
    for (const place of places) corners.push(await screen(place));
    await browser.drag(...corners);
    const now = await arrays(), found = fault(now), told = await browser.evaluate('document.getElementById("told").value');
    const changed = now.coords.filter((it, at) => it !== before.coords[at]).length;
    if (found) faults.push(`after a drag to ${places.at(-1)}: ${found}`);
    if (!changed) faults.push(`a drag to ${places.at(-1)} moves nothing`);
    if (!told.includes(` is at ${places.at(-1).join(' ')}: `)) faults.push(`a drag to ${places.at(-1)} tells '${told}'`);
    before.coords = now.coords;
    drags++;
  }
  faults.push(...await browser.faults());
} catch (error) {
  faults.push(error.stack);
} finally {
  await browser.end();
}
console.log([...faults, `page of 10,000 points in ${browser.name}: ${drags} drags, ${faults.length} faults`].join('\n'));
process.exitCode = faults.length ? 1 : 0;
