// The tab of lines: what was said, its replies, and the picture of the mesh.

import { Mesh } from './mesh.js';
import { viewIn } from './view.js';
import { at, save, undoBy } from './elements.js';
import { startAround, choose, chooseAgain } from './around.js';
import { offerFor } from './offers.js';
import { WORDS, REFUSALS, EXAMPLES } from './data.js';

/** Larger meshes are drawn only when that is asked for. */
const MOST_DRAWN = 300;

const BAD_RING = 'refused 15 BadRing';

/** A reply is one line, but for that of `words`, which begins with the row of the outer face. */
const REPLY = /^F0.*\n(?:F[1-9].*\n)*|^.*\n/gm;

const view = viewIn(at('picture'), choose, isLegible => at('more-numbers').hidden = isLegible);
let said = [], past = [], shown = [], svg = '', recalled = 0, waiting, changed = () => {};

/** The mesh that is kept, the lines that it was told, and its replies. */
let mesh, told = [], replied = [];

const text = lines => lines.map(line => `${line}\n`).join('');

/** A mesh's replies to lines, one for each. */
const answers = (of, lines) => lines.length ? of.run(text(lines)).match(REPLY).map(reply => reply.trimEnd()) : [];

/** Tells the mesh what was said and it wasn't told yet. Where lines were taken back a new one begins. */
function tell() {
  const isBegun = mesh && told.length <= said.length && told.every((line, number) => line === said[number]);
  const begun = isBegun ? mesh : new Mesh(), before = isBegun ? replied : [];
  if (!isBegun) mesh?.free();
  mesh = undefined; // until all was told
  replied = before.concat(answers(begun, said.slice(before.length)));
  [mesh, told] = [begun, said];
}

/** The replies to queries of the mesh. */
const ask = (...queries) => answers(mesh, queries);

/** The reply that the mesh would have to a line. */
function tried(line) {
  const other = new Mesh(text(said)), [reply] = answers(other, [line]);
  other.free();
  return reply;
}

const isRefused = reply => /^(refused|bad line)/.test(reply);

/** Lines of a text, without comments, blank lines and spaces around them. */
const linesOf = given => given.split('\n').map(line => line.replace(/#.*/, '').trim()).filter(line => line);

export const talk = () => said;

/** Begins with these lines; without them shows what was said. */
export function openTalk(lines) {
  if (lines) [past, said] = [[], lines];
  show();
}

/** Takes other lines in place of those said, until that is undone. */
function setLines(lines) {
  past.push(said);
  said = lines;
  show();
}

/** Has `change` called after each change. */
export function startLines(change) {
  changed = change;
  startAround(ask, view);
  listWords();
  at('example').append(...EXAMPLES.map(({ name }, number) => new Option(name, number)));
}

function say(given) {
  const lines = linesOf(given);
  if (lines.length) setLines([...said, ...lines]);
}

function undo() {
  said = past.pop() ?? said.slice(0, -1);
  show();
}

/** Shows the replies that are new, and the mesh. */
function show(isDrawn = false) {
  tell();
  const [counts] = ask('counts');
  const same = said.findIndex((line, number) => line !== shown[number]);
  const kept = same < 0 ? said.length : same;
  while (at('talk').children.length > kept) at('talk').lastChild.remove();
  at('talk').append(...said.slice(kept).map((line, number) => entry(line, replied[kept + number])));
  offer(replied.at(-1));
  at('talk').scrollTop = at('talk').scrollHeight;
  shown = said;
  recalled = said.length;
  at('counts').textContent = counts;
  at('undo').disabled = !said.length && !past.length;
  at('clear').disabled = at('save-lines').disabled = !said.length;
  at('draw').hidden = isDrawn || Number(counts.split(' ')[1]) <= MOST_DRAWN;
  at('picture').hidden = !at('draw').hidden;
  if (at('draw').hidden) drawSoon();
  hint();
  changed();
}

function entry(line, reply) {
  const item = document.createElement('li'), request = document.createElement('code'), answer = document.createElement('samp');
  request.textContent = line;
  request.title = rowsOf(line).map(({ does }) => does).join();
  answer.textContent = reply;
  answer.className = isRefused(reply) ? 'no' : '';
  item.append(request, answer);
  return item;
}

/** Adds a button to the last reply, if that refuses the half edges of a removal: it says the line with the right ones. */
function offer(reply) {
  at('offer')?.remove();
  const line = reply === BAD_RING ? offerFor(said.at(-1), ask, tried) : null;
  if (!line) return;
  const button = document.createElement('button');
  button.id = 'offer';
  button.textContent = line;
  button.onclick = () => say(line);
  at('talk').lastChild.append(button);
}

/** Draws once the replies are seen, since that may take longer; once for several lines that come in a row. */
function drawSoon() {
  at('picture').ariaBusy = 'true';
  clearTimeout(waiting);
  waiting = setTimeout(draw, 30);
}

function draw() {
  clearTimeout(waiting);
  svg = mesh.picture({ anchors: at('anchors').checked });
  view.draw(svg);
  chooseAgain();
  at('picture').ariaBusy = 'false';
}

/** What is told of a line's word. */
const rowsOf = line => WORDS.filter(row => row.line.split(' ')[0] === line.split(' ')[0]);

/** Tells what the word does of the line that is written, or else of the last one said. */
function hint() {
  const written = linesOf(at('box').value).at(-1);
  at('hint').textContent = rowsOf(written ?? said.at(-1) ?? '').map(({ line, does, reply, refused }) => {
    const names = !written || refused === 'none' ? '' : ` Refused as ${refused.split(' ').map(number => REFUSALS[number]).join(', ')}.`;
    return `${line}: ${does}. Reply: ${reply}.${names}`;
  }).join('') || (written ? 'No such word: “Words” lists all.' : 'Type a line. “Words” lists what can be said.');
}

/** The lines said; those that were refused are comments, so that any reader of lines takes the rest. */
function saved() {
  return text(said.map((line, number) => isRefused(replied[number]) ? `# ${line}: ${replied[number]}` : line));
}

function listWords() {
  at('words').append(...WORDS.map(({ line, does }) => {
    const item = document.createElement('li'), word = document.createElement('button');
    word.textContent = line;
    word.onclick = () => {
      at('box').value = line.split(' ')[0] + (line.includes(' ') ? ' ' : '');
      at('box').focus();
      hint();
    };
    item.append(word, ` ${does}`);
    return item;
  }));
}

/** Says the lines of a text that are ended, as Enter ends one, and leaves the rest in the box. */
function take(given) {
  const end = given.lastIndexOf('\n') + 1;
  at('box').value = given.slice(end);
  say(given.slice(0, end));
  hint();
}

at('box').oninput = () => take(at('box').value);
// Thousands of lines would take long to come into the box.
at('box').onpaste = event => {
  const pasted = event.clipboardData.getData('text'), { value, selectionStart, selectionEnd } = at('box');
  if (!pasted.includes('\n')) return;
  event.preventDefault();
  take(value.slice(0, selectionStart) + pasted + value.slice(selectionEnd));
};
at('box').onkeydown = event => {
  const way = { ArrowUp: -1, ArrowDown: 1 }[event.key];
  if (!way || event.target.value.includes('\n')) return;
  event.preventDefault();
  recalled = Math.min(said.length, Math.max(0, recalled + way));
  at('box').value = said[recalled] ?? '';
  hint();
};
at('say').onsubmit = event => {
  event.preventDefault();
  say(at('box').value);
  at('box').value = '';
  at('box').focus();
  hint();
};
at('undo').onclick = undo;
undoBy(at('lines-tab'), undo);
at('clear').onclick = () => setLines([]);
at('example').onchange = () => {
  if (at('example').value) setLines(EXAMPLES[at('example').value].lines);
  at('example').value = '';
};
at('draw').onclick = () => show(true);
at('anchors').onchange = draw;
at('larger').onclick = () => view.zoom(0.8);
at('smaller').onclick = () => view.zoom(1.25);
at('fit').onclick = view.fit;
at('save-svg').onclick = () => {
  draw();
  save('mesh.svg', 'image/svg+xml', svg);
};
at('save-lines').onclick = () => save('mesh.lines', 'text/plain', saved());
