// Uses the page of a folder as somebody would who has mouse and keys: `node drive.mjs FOLDER chromium` or `firefox`.

import { existsSync, mkdtempSync, readFileSync, rmSync } from 'node:fs';
import { tmpdir } from 'node:os';
import { join, resolve } from 'node:path';
import { setTimeout } from 'node:timers/promises';
import { pathToFileURL } from 'node:url';
import { startChromium } from './chromium.mjs';
import { delaunayFault } from './delaunay.mjs';
import { startFirefox } from './firefox.mjs';

const ROOT = resolve(new URL('../../..', import.meta.url).pathname);
const [folder, kind] = process.argv.slice(2);
const address = `${pathToFileURL(resolve(folder, 'mesh.html'))}`;
const downloads = mkdtempSync(join(tmpdir(), 'saved-'));
const browser = await { chromium: startChromium, firefox: startFirefox }[kind](downloads);
const { evaluate, press } = browser;
const faults = [];
let checks = 0;

/** Asks until the answer is the one that is wanted, for half a minute; then all ends. */
async function expect(what, find, wanted) {
  checks++;
  for (let tries = 0; ; tries++) {
    const found = await find();
    if (found === wanted) return;
    if (tries === 300) throw new Error(`${what}: '${found}' in place of '${wanted}'`);
    await setTimeout(100);
  }
}
const expectText = (what, selector, wanted) => expect(what, () => evaluate(`document.querySelector('${selector}').innerText.replace(/\\s+/g, ' ').trim()`), wanted);
const expectValue = (what, expression, wanted) => expect(what, () => evaluate(expression), wanted);
/** Also waits until the mesh is drawn. */
const expectTalk = async (what, ...rows) => {
  await expectText(what, '#talk', rows.join(' '));
  await expectValue(`${what}: drawn`, 'document.getElementById("picture").ariaBusy', 'false');
};
const expectFile = (what, name, wanted) => expect(what, () => existsSync(`${downloads}/${name}`) && readFileSync(`${downloads}/${name}`, 'utf8'), wanted);

const middleOf = selector => evaluate(`(element => {
  element.scrollIntoView({ block: 'nearest' });
  const { x, y, width, height } = element.getBoundingClientRect();
  return [x + width / 2, y + height / 2];
})(document.querySelector('${selector}'))`);
const click = async selector => browser.drag(await middleOf(selector));
const say = async line => {
  await browser.type(line);
  await press('Enter');
};
const halfPlace = half => evaluate(`(path => {
  const { x, y } = path.getPointAtLength(path.getTotalLength() / 2).matrixTransform(path.getScreenCTM());
  return [x, y];
})(document.querySelector('.hit[data-half="${half}"]'))`);
const vertexPlace = vertex => middleOf(`#picture [data-vertex="${vertex}"]`);
/** Below the number of a face. */
const facePlace = face => evaluate(`(({ left, right, bottom }) => [(left + right) / 2, bottom + 9])([...document.querySelectorAll('#picture .face')]
  .find(label => label.textContent === 'F${face}').getBoundingClientRect())`);
const pointPlace = number => middleOf(`#points circle:nth-child(${number + 1})`);

const mesh = readFileSync(`${ROOT}/docs/pictures/mesh.lines`, 'utf8');
/** The address of a mesh with ten vertices. */
const TEN = `#${`${mesh}append 9`.replaceAll(' ', '+').replaceAll('\n', ';')}`;
const BEGUN = ['triangle 0 1 2', 'ok', 'append 3', 'vertex 3', 'insert 3 1', 'vertex 3'];

async function talk() {
  await expectTalk('the first lines', ...BEGUN);
  await say('flip 3');
  await say('words');
  await expectTalk('typed lines', ...BEGUN, 'flip 3', 'ok', 'words', 'F0 0 2 4', 'F1 6 8 11', 'F2 1 5 7', 'F3 3 10 9');
  await click('#undo');
  await expectTalk('undone by a click', ...BEGUN, 'flip 3', 'ok');
  await click('#box');
  for (const key of ['Tab', 'Tab', 'Enter']) await press(key);
  await expectTalk('undone by keys', ...BEGUN);
  await click('#box');
  await say('insert 3 1');
  await expectTalk('a refusal', ...BEGUN, 'insert 3 1', 'refused 8 VertexInUse');
  await browser.type('isolate');
  await expectValue('the help of a word', 'document.getElementById("hint").innerText.includes("BadRing")', true);
  for (let left = 'isolate'.length; left > 0; left--) await press('Backspace');
}

/** Clicks what is in the picture, as the page says that one can. */
async function around() {
  const expectChosen = async (what, kind, number, told, ...steps) => {
    await expectText(`what a click on ${what} tells`, '#told', told);
    await expectText(`where one can go from ${what}`, '#steps', steps.join(' '));
    await expectValue(what, 'document.getElementById("kind").value + " " + document.getElementById("number").value', `${kind} ${number}`);
    await expectValue(`that ${what} is marked`, `document.querySelector('#picture [data-${kind}="${number}"]').matches('.marked.chosen')`, true);
  };
  await browser.open(`${address}#triangle+0+1+2;append+3;insert+3+1;flip+3`);
  await expectTalk('the lines of an address', ...BEGUN, 'flip 3', 'ok');
  await expectText('what is said of clicks', '#how', 'Click a half edge, vertex or face to see what is around it.');
  await browser.drag(await halfPlace(11));
  await expectChosen('a half edge', 'half', 11, '', 'next 6', 'prev 8', 'twin 10', 'face F1', 'origin 3');
  await expectValue('that no hint is needed any more', 'document.getElementById("how").hidden', true);
  await click('#steps .twin');
  await expectChosen('its twin', 'half', 10, '', 'next 9', 'prev 3', 'twin 11', 'face F3', 'origin 1');
  await browser.drag(await vertexPlace(1));
  await expectChosen('a vertex', 'vertex', 1, 'datum 1, out', '1', '6', '10', '2');
  await click('#steps button:last-child');
  await expectChosen('a half edge out of it', 'half', 2, '', 'next 4', 'prev 0', 'twin 3', 'face F0', 'origin 1');
  await browser.drag(await facePlace(2));
  await expectChosen('a face', 'face', 2, 'around it', '1', '5', '7');
  await browser.drag(await facePlace(0));
  await expectChosen('the outer face', 'face', 0, 'the outer face, around it', '0', '2', '4');
  await evaluate('document.getElementById("number").focus(), document.getElementById("number").select()');
  await browser.type('3');
  await expectChosen('a number that is typed', 'face', 3, 'around it', '3', '10', '9');
}

/** A removal that is refused for its half edges, and what is offered in its place. */
async function offers() {
  await browser.open(address);
  await expectTalk('the first lines again', ...BEGUN);
  for (const [line, offer, reply] of [
    ['isolate 3', 'isolate 3 1 3 5', 'opened edges 3 4 5 faces 2 3 1 new'],
    ['isolate 0 2', 'strip 8 11 2', 'opened edges 2 3 0 faces 2 1 new'],
    ['remesh 1 / / 1 3', 'remesh 1 3 9 6 / 5 / 1 3', 'opened edges 5 faces 1 3 new 6'],
  ]) {
    await say(line);
    await expectTalk(`${line} with an offer`, ...BEGUN, line, 'refused 15 BadRing', offer);
    await click('#offer');
    await expectTalk(`the offer of ${line}`, ...BEGUN, line, 'refused 15 BadRing', offer, reply);
    for (let lines = 2; lines > 0; lines--) await click('#undo');
    await expectTalk('the offer undone', ...BEGUN);
    await click('#box');
  }
}

/** Clear, and what takes it back. */
async function clearing() {
  await click('#clear');
  await expectTalk('no lines', '');
  await click('#box');
  await browser.pressWithControl('z');
  await expectTalk('Clear undone by Ctrl+Z', ...BEGUN);
  await click('#clear');
  await click('#to-points');
  await expectDelaunay('the first points', 8);
  await click('#none');
  await expectValue('no points', 'document.querySelectorAll("#points circle").length', 0);
  await expectValue('that nothing is there to clear or to remove', 'document.getElementById("none").disabled && document.getElementById("remove").disabled', true);
  await browser.pressWithControl('z');
  await expectDelaunay('Clear of points undone by Ctrl+Z', 8);
  await click('#none');
  await click('#to-lines');
  await expectTalk('no lines still', '');
  await click('#to-points');
  await expectValue('no points still', 'document.querySelectorAll("#points circle").length', 0);
  await click('#undo-points');
  await expectDelaunay('Clear of points undone', 8);
  await click('#to-lines');
  await click('#undo');
  await expectTalk('Clear undone', ...BEGUN);
}

/** What the page says of itself. */
async function claims() {
  const isOpen = 'document.getElementById("proved").open';
  await expectValue('what is said to be tested', '/Pictures and the code of this page are tested, not proved/.test(document.getElementById("about").innerText)', true);
  await click('#to-proved');
  await expectValue('what is proved', isOpen, true);
  await expectValue('what is said of pictures', '/What is tested.*Pictures/s.test(document.getElementById("proved").innerText)', true);
  await click('#proved button');
  await expectValue('that it is closed', isOpen, false);
}

/** Font sizes of the numbers that are seen, in pixels of the screen, and how many numbers there are. */
const NUMBERS = `(svg => {
  const labels = [...svg.querySelectorAll('text')], scale = svg.getScreenCTM().a;
  const sizes = labels.filter(label => label.style.visibility !== 'hidden').map(label => parseFloat(getComputedStyle(label).fontSize) * scale);
  return { count: labels.length, seen: sizes.length, least: Math.min(...sizes), largest: Math.max(...sizes) };
})(document.querySelector('#picture svg'))`;
/** Numbers that cover one another, or are cut off. A capital is some 0.72 of the font size high, on the line of the text. */
const COVERED = `(svg => {
  const boxes = [...svg.querySelectorAll('text')].filter(label => label.style.visibility !== 'hidden').map(label => {
    const { x, width } = label.getBBox(), bottom = Number(label.getAttribute('y')), high = 0.72 * parseFloat(getComputedStyle(label).fontSize);
    return { name: label.textContent, box: [x + 1, bottom - high, x + width - 1, bottom] };
  });
  const [left, top, width, height] = svg.dataset.box.split(' ').map(Number);
  const isOut = ([x, y, right, bottom]) => x < left - 1 || y < top - 1 || right > left + width + 1 || bottom > top + height + 1;
  const meet = (a, b) => a[0] < b[2] && b[0] < a[2] && a[1] < b[3] && b[1] < a[3];
  const pairs = boxes.flatMap(({ name, box }, at) => boxes.slice(0, at).filter(other => meet(box, other.box)).map(other => other.name + ' and ' + name));
  return [...boxes.filter(({ box }) => isOut(box)).map(({ name }) => name + ' is cut off'), ...pairs].join(', ');
})(document.querySelector('#picture svg'))`;

/** Numbers of a mesh with ten vertices, which grow with the window, and of a large one, which come as one zooms in. */
async function numbers() {
  await browser.open(`${address}${TEN}`);
  await expectText('ten vertices', '#counts', 'vertices 10 edges 19 faces 12');
  await expectValue('ten vertices drawn', 'document.getElementById("picture").ariaBusy', 'false');
  await expectValue('numbers that are at least 12 pixels high', `(({ count, seen, least }) => seen === count && least >= 11.5)(${NUMBERS})`, true);
  await expectValue('numbers that cover one another', COVERED, '');
  await expectValue('the hint to zoom', 'document.getElementById("more-numbers").hidden', true);
  const thirty = ['triangle 0 1 2', ...Array.from({ length: 27 }, (_, at) => [`append ${at}`, `insert ${at + 3} ${1 + (at * 7919) % (2 * at + 1)}`]).flat()];
  await click('#clear');
  await click('#box');
  await browser.paste(thirty.map(line => `${line}\n`).join(''));
  await expectValue('thirty vertices', 'document.querySelectorAll("#picture .vertex").length', 30);
  await expectValue('that some numbers are hidden', `(({ count, seen, least }) => seen < count && least >= 8)(${NUMBERS})`, true);
  await expectValue('numbers of thirty that cover one another', COVERED, '');
  await expectValue('the hint to zoom', 'document.getElementById("more-numbers").hidden', false);
  for (let times = 12; times > 0; times--) await click('#larger');
  await expectValue('that all numbers are there', `(({ count, seen }) => seen === count)(${NUMBERS})`, true);
  await expectValue('no hint to zoom', 'document.getElementById("more-numbers").hidden', true);
  await click('#fit');
  await expectValue('that some numbers are hidden again', `(({ count, seen, least }) => seen < count && least >= 8)(${NUMBERS})`, true);
}

async function moving() {
  await click('#fit');
  const box = 'document.querySelector("#picture svg").getAttribute("viewBox")';
  const before = await evaluate(box);
  const [x, y] = await middleOf('#picture');
  await browser.drag([x, y], [x + 30, y + 20], [x + 60, y + 40]);
  await expectValue('a picture that was dragged', `${box} !== ${JSON.stringify(before)}`, true);
  await press('0');
  await expectValue('a picture that fits again', box, before);
  await press('+');
  await expectValue('a picture made larger', `${box} !== ${JSON.stringify(before)}`, true);
}

async function files() {
  await click('#clear');
  await expectText('no lines', '#talk', '');
  await click('#box');
  await browser.paste(mesh);
  await click('#save-svg');
  await click('#save-lines');
  await expectFile('the picture saved', 'mesh.svg', readFileSync(`${ROOT}/docs/pictures/mesh.svg`, 'utf8'));
  await expectFile('the lines saved', 'mesh.lines', mesh);
  rmSync(`${downloads}/mesh.lines`);
  await click('#box');
  await say('insert 0 1');
  await say('nonsense');
  await click('#save-lines');
  await expectFile('refused lines saved as comments', 'mesh.lines', `${mesh}# insert 0 1: refused 8 VertexInUse\n# nonsense: bad line\n`);
  for (let lines = 2; lines > 0; lines--) await click('#undo');
  await click('#anchors');
  await expectValue('anchors', 'document.querySelectorAll("#picture .anchor").length > 0', true);
}

async function manyLines() {
  const begun = await evaluate('document.getElementById("talk").children.length');
  const lines = ['triangle 0 1 2', ...Array.from({ length: 999 }, (_, at) => [`append ${at}`, `insert ${at + 3} 1`]).flat(), 'counts'];
  await click('#box');
  await browser.paste(lines.map(line => `${line}\n`).join(''));
  await expectValue('2,000 lines pasted', 'document.getElementById("talk").children.length', begun + lines.length);
  await expectText('the last reply to 2,000 lines', '#talk li:last-child samp', 'vertices 1002 edges 3000 faces 2000');
  await expectValue('that large meshes wait to be drawn', 'document.getElementById("draw").hidden', false);
  await click('#undo');
  await expectValue('2,000 lines undone', 'document.getElementById("talk").children.length', begun);
}

async function addresses() {
  const hash = '#triangle+0+1+2;append+3;insert+3+1;isolate+3+1+3+5';
  await browser.open(address + hash);
  const rows = [...BEGUN, 'isolate 3 1 3 5', 'opened edges 3 4 5 faces 2 3 1 new'];
  await expectTalk('the lines of an address', ...rows);
  await expectValue('what a removal has given up', 'document.querySelectorAll("#picture .half.gone").length', 6);
  await click('#box');
  await say('origin 6 # given up');
  await expectTalk('a line with a comment', ...rows, 'origin 6', 'refused 6 GivenUp');
  await expectValue('the address', 'location.hash', `${hash};origin+6`);
  await evaluate(`(select => {
    select.value = [...select.options].find(option => option.text === 'a removal in two stages').value;
    select.onchange();
  })(document.getElementById('example'))`);
  await expectText('the last reply of an example', '#talk li:last-child samp', 'F0 0 2 4 F1 1 5 3');
  await click('#undo');
  await expectTalk('an example undone', ...rows, 'origin 6', 'refused 6 GivenUp');
}

/** Looks whether what is drawn is a Delaunay triangulation of the points of the address. */
async function expectDelaunay(what, count) {
  const points = () => evaluate('location.hash').then(hash => hash.slice('#points='.length).split(';').map(pair => pair.split(',').map(Number)));
  await expect(`${what}: points`, async () => (await points()).length, count);
  const drawn = async () => (await evaluate('document.getElementById("triangles").getAttribute("d")')).split('z').slice(0, -1)
    .map(way => way.slice(1).split('L').map(pair => pair.split(' ').map(Number)));
  await expect(what, async () => delaunayFault(await points(), await drawn()), '');
}

async function points() {
  await browser.open(`${address}#points=90,120;420,40;910,170;640,330;270,380;130,640;560,610;870,560`);
  await expectDelaunay('points of an address', 8);
  await click('#with-circles');
  await expectValue('circles', 'document.querySelectorAll("#circles circle").length', 8);
  await expectValue('circles above the triangles', `Boolean(document.getElementById('triangles')
    .compareDocumentPosition(document.getElementById('circles')) & Node.DOCUMENT_POSITION_FOLLOWING)`, true);
  const from = await pointPlace(3), aims = [1, 5, 7].map(number => pointPlace(number));
  for (const aim of await Promise.all(aims)) {
    const to = [aim[0] + 25, aim[1] + 10], way = Array.from({ length: 20 }, (_, at) => from.map((start, axis) => start + (to[axis] - start) * at / 20));
    const before = await evaluate('location.hash');
    await browser.drag(await pointPlace(3), ...way, to);
    await expectValue('a point dragged', `location.hash !== '${before}'`, true);
    await expectDelaunay('a point dragged', 8);
  }
  const [x, y] = await middleOf('#plane');
  await browser.drag([x - 37, y + 90]);
  await expectDelaunay('a point added by a click', 9);
  await browser.doubleClick(await pointPlace(2));
  await expectDelaunay('a point removed by a double click', 8);
  for (const key of ['n', 'ArrowLeft', 'ArrowUp', 'Enter', 'Enter', 'Delete', 'p', 'ArrowRight']) await press(key);
  await expectDelaunay('points changed by keys', 9);
  await click('#more');
  await expectDelaunay('a hundred more', 109);
  await browser.drag(await pointPlace(50), ...Array.from({ length: 200 }, (_, at) => [x + at - 100, y + at / 2 - 50]));
  await expectDelaunay('one of many dragged far', 109);
  for (const [what, count] of [['the drag', 109], ['the hundred', 9], ['an arrow', 9], ['a point deleted', 10]]) {
    await click('#undo-points');
    await expectDelaunay(`${what} undone`, count);
  }
}

/** A phone, and an engine without 64-bit memories: Chromium can play both. */
async function elsewhere() {
  await browser.setPhone();
  for (const hash of ['', '#points=10,20;300,40;90,500', TEN]) {
    await browser.open(address + hash);
    await expectValue('a page as wide as a phone', 'document.documentElement.scrollWidth', 390);
  }
  await expectText('ten vertices', '#counts', 'vertices 10 edges 19 faces 12');
  await expectValue('ten vertices drawn', 'document.getElementById("picture").ariaBusy', 'false');
  await expectValue('numbers that can be read on a phone', `(({ count, seen, least }) => seen === count && least >= 10)(${NUMBERS})`, true);
  await expectValue('numbers that cover one another on a phone', COVERED, '');
  await expectValue('the line to type in', '(({ top, bottom }) => top > 0 && bottom <= innerHeight)(document.getElementById("box").getBoundingClientRect())', true);
  await expectValue('a picture that fills its box', `((host, { width, height }) => width > 0.97 * host.clientWidth && height > 0.97 * host.clientHeight)(
    document.getElementById('picture'), document.querySelector('#picture .page').getBoundingClientRect())`, true);
  await expectText('what is said of taps', '#how', 'Tap a half edge, vertex or face to see what is around it.');
  await browser.tap(await vertexPlace(8));
  await expectText('what a tap on a vertex tells', '#steps', '31 33 35');
  await browser.tap(await evaluate(`(({ x, y, width, height }) => [x + width / 2, y + height / 2])([...document.querySelectorAll('#picture .face')]
    .find(label => label.textContent === 'F11').getBoundingClientRect())`));
  await expectText('what a tap on the number of a narrow face tells', '#steps', '7 36 9');
  await phonePoints();
  await browser.runFirst('WebAssembly.Module = class { constructor() { throw new WebAssembly.CompileError("no 64-bit memory"); } }');
  await browser.open(address);
  await expectValue('the message without 64-bit memory', 'document.getElementById("lacking").hidden', false);
  await browser.tap(await middleOf('#to-proved'));
  await expectValue('what is proved, without 64-bit memory', 'document.getElementById("proved").open', true);
}

/** Points on a phone, where the plane is turned. */
async function phonePoints() {
  await browser.open(`${address}#points=10,20;990,40;90,680`);
  await expectDelaunay('points on a phone', 3);
  await expectValue('a hint without keys', '/Tap/.test(document.getElementById("keys").innerText) && !/Keys|[Cc]lick/.test(document.getElementById("keys").innerText)', true);
  await expectValue('a plane that is higher than wide', '(({ width, height }) => height > 1.3 * width && width > 350)(document.getElementById("plane").getBoundingClientRect())', true);
  const [x, y] = await middleOf('#plane'), place = [x + 40, y - 80];
  await browser.tap(place);
  await expectDelaunay('a point added by a tap', 4);
  const [left, top] = await pointPlace(3);
  await expectValue('the place of a point that was tapped', String(Math.hypot(left - place[0], top - place[1]) < 1.5), true);
  await evaluate('document.getElementById("plane").focus()');
  for (let times = 4; times > 0; times--) await press('ArrowRight');
  await expect('a point moved to the right by keys', async () => (([nowLeft, nowTop]) => nowLeft > left + 5 && Math.abs(nowTop - top) < 1)(await pointPlace(3)), true);
}

try {
  await browser.open(address);
  for (const part of [talk, offers, clearing, claims, around, numbers, moving, files, manyLines, addresses, points]) await part();
  if (kind === 'chromium') await elsewhere();
  faults.push(...await browser.faults());
} catch (error) {
  faults.push(error.stack);
} finally {
  await browser.end();
  rmSync(downloads, { recursive: true });
}
console.log([...faults, `page in ${browser.name}: ${checks} checks, ${faults.length} faults`].join('\n'));
process.exitCode = faults.length ? 1 : 0;
