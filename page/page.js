// The two tabs, and the page's address, which holds what is shown: `#triangle+0+1+2;append+3`, or `#points=10,20;300,40`.

import { replies } from './mesh.js';
import { at } from './elements.js';
import { startLines, openTalk, talk } from './lines.js';
import { startPoints, setPoints, allPoints } from './points.js';

const FIRST_LINES = ['triangle 0 1 2', 'append 3', 'insert 3 1'];
const FIRST_POINTS = [[90, 120], [420, 40], [910, 170], [640, 330], [270, 380], [130, 640], [560, 610], [870, 560]];
const POINTS = 'points=';

/** Lines as they stand in the address: other signs than these two are written as in any address. */
const encode = lines => encodeURIComponent(lines.join('\n')).replaceAll('%20', '+').replaceAll('%0A', ';');
function decode(hash) {
  try {
    return decodeURIComponent(hash.replaceAll('+', ' ').replaceAll(';', '\n')).split('\n').filter(line => line);
  } catch {
    return []; // no address of this page
  }
}

/** Points as they stand in the address. */
const pointsOf = hash => hash.split(';').map(pair => pair.split(',').map(Number)).filter(([x, y]) => Number.isFinite(x + y));

const keep = hash => history.replaceState(null, '', `#${hash}`);
const keepLines = () => keep(encode(talk()));
const keepPoints = () => keep(POINTS + allPoints().join(';'));

/** Which tabs were open: true is that of points. */
const opened = new Set();

function open(isPoints) {
  opened.add(isPoints);
  at('lines-tab').hidden = isPoints;
  at('points-tab').hidden = !isPoints;
  at('to-lines').setAttribute('aria-pressed', !isPoints);
  at('to-points').setAttribute('aria-pressed', isPoints);
  at(isPoints ? 'plane' : 'box').focus({ preventScroll: true });
}

/** Turns to a tab, which begins with something the first time. */
function turnTo(isPoints) {
  const isNew = !opened.has(isPoints);
  open(isPoints);
  if (isPoints) setPoints(isNew ? FIRST_POINTS : undefined);
  else openTalk(isNew ? FIRST_LINES : undefined);
}

/** Shows what the address has. */
function follow() {
  const hash = location.hash.slice(1), isPoints = hash.startsWith(POINTS);
  open(isPoints);
  if (isPoints) setPoints(pointsOf(hash.slice(POINTS.length)));
  else openTalk(hash ? decode(hash) : FIRST_LINES);
}

function start() {
  startLines(keepLines);
  startPoints(keepPoints);
  at('to-lines').onclick = () => turnTo(false);
  at('to-points').onclick = () => turnTo(true);
  onhashchange = follow;
  follow();
}

at('to-proved').onclick = event => {
  event.preventDefault(); // the address holds what is shown
  at('proved').showModal();
};

try {
  replies('');
  start();
} catch (error) {
  if (!(error instanceof WebAssembly.CompileError)) throw error;
  at('lacking').hidden = false;
  open(false);
  at('lines-tab').hidden = true;
}
