// Meshes that lines edit and that are kept: their replies and pictures are those of `replies` and `picture`, however the lines come; also where
// a reply is longer than the buffer, memory grows, or the engine refuses it.

import { offerFor } from '../../../page/offers.js';

let seed = 7;
const random = count => Math.floor((seed = (seed * 48271) % 2147483647) / 2147483647 * count);

/** How many numbers stand behind a word. */
const WORDS = {
  append: 1, triangle: 3, setup: 2, extend: 2, line: 2, close: 1, outside: 2, insert: 2, half: 2, split: 2, flip: 1, swap: 2, put: 2, remove: 1, degenerate: 1, clear: 0,
  counts: 0, words: 0, hull: 0, out: 1, origin: 1, between: 2, get: 1, check: 0, isolate: 3, cleanup: 3, nonsense: 0,
};
const OFTEN = ['append', 'insert', 'outside', 'split', 'flip', 'half', 'close'];

/** Random lines for this mesh: some are refused, and some open removals, as `offerFor` finds them. */
function randomLines(mesh, count) {
  const ask = (...queries) => queries.map(query => mesh.run(`${query}\n`).trimEnd()), lines = [];
  const say = line => {
    lines.push(line);
    return mesh.run(`${line}\n`);
  };
  say(`triangle ${random(9)} 1 2`);
  while (lines.length < count) {
    const [vertices] = ask('counts')[0].match(/\d+/g).map(Number), all = Object.keys(WORDS);
    const word = random(3) ? OFTEN[random(OFTEN.length)] : all[random(all.length)];
    if (word === 'clear' && random(9)) continue;
    if (word === 'insert' || word === 'outside' || word === 'split') say(`append ${random(100) - 50}`);
    const last = word === 'insert' ? `${vertices} ${1 + random(2 * vertices)}` : word === 'outside' || word === 'split' || word === 'half' ? `${random(6 * vertices)} ${vertices}` : null;
    say([word, ...last ? [last] : Array.from({ length: WORDS[word] }, () => random(4 * vertices + 2))].join(' '));
    const vertex = random(vertices);
    if (random(5) || !ask(`out ${vertex}`)[0].startsWith('out ')) continue;
    const removal = offerFor(`isolate ${vertex}`, ask, () => 'opened');
    if (!/NaN|undefined/.test(removal)) close(removal, say(removal), say);
  }
  return lines;
}

/** Ends a removal that was opened, or leaves it open. */
function close(removal, reply, say) {
  const [, edges, faces] = /^opened edges(.*) faces(.*) new/.exec(reply) ?? [];
  if (!edges || random(4) === 0) return;
  say(`append ${random(9)}`);
  say(`cleanup${edges} /${faces}`);
  if (removal.startsWith('isolate ')) say(`remove ${removal.split(' ')[1]}`);
}

const text = lines => lines.map(line => `${line}\n`).join('');

/** The same lines in pieces of all lengths have the same replies and pictures; the last one needs no line feed. */
function randomFaults({ Mesh, replies, picture }, faults) {
  let count = 0, opened = 0, dashed = 0;
  for (let set = 0; set < 60; set++) {
    const source = new Mesh(), lines = randomLines(source, 20 + random(60)), mesh = new Mesh();
    source.free();
    for (let begin = 0, end, found = ''; begin < lines.length; begin = end) {
      end = begin + 1 + random(9);
      found += mesh.run(text(lines.slice(begin, end)).slice(0, end === lines.length && random(2) ? -1 : undefined));
      const so_far = text(lines.slice(0, end)), anchors = random(2) === 1;
      if (found !== replies(so_far)) faults.push(`set ${set}: of ${end} lines the replies differ: ${JSON.stringify(so_far)}`);
      if (random(4) === 0 || end >= lines.length) {
        const drawn = mesh.picture({ anchors });
        if (drawn !== picture(so_far, { anchors })) faults.push(`set ${set}: after ${end} lines the picture differs: ${JSON.stringify(so_far)}`);
        dashed += /dash/.test(drawn);
      }
      opened += /^opened/m.test(found);
    }
    count += lines.length;
    if (set % 2) mesh.free();
  }
  if (!opened || !dashed) faults.push(`of random lines ${opened} opened a removal, and ${dashed} were drawn`);
  return count;
}

/** Lines that make two vertices with so many edges each: each vertex goes into face 1, whose first side stays. */
const fan = count => ['triangle 0 1 2', ...Array.from({ length: count }, (_, at) => `append ${at}\ninsert ${at + 3} 1`)];

/** Replies and pictures that are longer than the buffer, of an edit too; and lines that are as long as can be, and longer. */
function longFaults({ Mesh, replies, picture }, faults) {
  const lines = fan(600), mesh = new Mesh(text(lines)), ask = (...queries) => queries.map(query => mesh.run(`${query}\n`).trimEnd());
  const removals = [0, 1, 2].map(vertex => offerFor(`isolate ${vertex}`, ask, () => 'opened')).filter(line => line.length < 4096);
  let count = 0;
  for (const line of ['words', ...removals, 'words', `legalize 9 ${'1 '.repeat(2000)}1`, `legalize 9 ${'1 '.repeat(2100)}1`, 'x'.repeat(4096), 'x'.repeat(9000), 'append é', '']) {
    const found = mesh.run(`${line}\n`);
    lines.push(line);
    if (found !== replies(text(lines)).slice(-found.length) || !found.endsWith('\n')) faults.push(`of a long line: ${line.slice(0, 40)}: ${found.slice(0, 40)}`);
    count += found.length > 4096 ? 1 : 0;
  }
  if (mesh.run('counts\n') !== replies(text([...lines, 'counts'])).split('\n').slice(-2).join('\n')) faults.push('after long lines the mesh differs');
  if (mesh.picture() !== picture(text(lines))) faults.push('after long lines the picture differs');
  if (count < 3) faults.push(`only ${count} replies are long`);
  mesh.free();
  return count;
}

/** Lines that need more memory than is lent at first; and many meshes, each freed, which need no more than one. */
function growthFaults({ Mesh, replies }, faults) {
  const many = 150000, lines = 'append 7\n'.repeat(many), mesh = new Mesh();
  if (mesh.run(lines) !== replies(lines)) faults.push(`the replies to ${many} lines differ`);
  if (mesh.run('counts\n') !== `vertices ${many} edges 0 faces 1\n`) faults.push(`after ${many} lines: ${mesh.run('counts\n')}`);
  mesh.free();
  const { grow } = WebAssembly.Memory.prototype;
  WebAssembly.Memory.prototype.grow = () => {
    throw new RangeError('refused');
  };
  for (let times = 0; times < 20; times++) {
    const made = new Mesh(text(fan(2000)));
    if (!made.run('counts').startsWith('vertices 2003 ')) faults.push(`a mesh has ${made.run('counts')}`);
    made.free();
  }
  WebAssembly.Memory.prototype.grow = grow;
  return many;
}

/** Where the engine refuses memory a line throws; it is carried out at most once, and the mesh goes on as soon as there is some again. */
function refusedMemoryFaults({ Mesh, Delaunay, replies }, faults) {
  const { grow } = WebAssembly.Memory.prototype;
  let refusals = 0;
  for (const lines of [count => [`append ${count}`], count => [`append ${count}`, `insert ${count} 1`]]) {
    const mesh = new Mesh('triangle 0 1 2\n'), others = [], said = [];
    WebAssembly.Memory.prototype.grow = () => {
      throw new RangeError('refused');
    };
    const isDone = call => {
      try {
        call();
        return true;
      } catch (error) {
        if (!(error instanceof RangeError && /memory/.test(error.message))) faults.push(`of no memory: ${error}`);
        refusals++;
        return false;
      }
    };
    const say = line => {
      said.push(line);
      return isDone(() => mesh.run(`${line}\n`));
    };
    for (let size = 2 ** 18; size > 1; size >>= 1) {
      while (isDone(() => others.push(new Delaunay(Int32Array.from({ length: size }, () => random(2 ** 20)))))) ;
    }
    for (let count = 3; lines(count).every(say); count++) ;
    WebAssembly.Memory.prototype.grow = grow;
    for (const other of others) other.free();
    const begun = [[...said], said.slice(0, -1)].map(these => replies(`triangle 0 1 2\n${text([...these, 'counts', 'words'])}`));
    const found = mesh.run('counts\nwords\n');
    if (!begun.some(it => it.endsWith(found))) faults.push(`after refused memory the mesh is neither as before the line nor as after it: ${found.slice(0, 60)}`);
    if (!/^vertex/.test(mesh.run('append 5\n'))) faults.push('after refused memory no line is carried out');
    mesh.free();
  }
  return refusals;
}

function freedFaults({ Mesh }, faults) {
  const mesh = new Mesh('triangle 0 1 2'), calls = [() => mesh.run('counts\n'), () => mesh.picture(), () => mesh.run('')];
  mesh.free();
  mesh.free();
  for (const call of calls) {
    try {
      faults.push(`of a freed mesh ${call} is done: ${call()}`);
    } catch (error) {
      if (!(error instanceof TypeError && /freed/.test(error.message))) faults.push(`of a freed mesh: ${error}`);
    }
  }
  return calls.length;
}

/** Meshes and triangulations share one heap. */
function sharedFaults({ Mesh, Delaunay, replies }, faults) {
  const mesh = new Mesh(), made = new Delaunay([0, 0, 9, 0, 0, 9]), lines = fan(300);
  const found = lines.map((line, at) => {
    made.insert(at * at % 97, at);
    return mesh.run(`${line}\n`);
  });
  if (found.join('') !== replies(text(lines))) faults.push('beside a triangulation a mesh replies otherwise');
  if (made.nearest(0, -5) !== 0) faults.push('beside a mesh a triangulation finds another point');
  mesh.free();
  made.free();
  return lines.length;
}

/** Adds to the faults, and returns how much was tried. */
export function meshFaults(module, faults) {
  return {
    'lines of meshes that are kept': randomFaults(module, faults), 'long replies of theirs': longFaults(module, faults), 'lines that need memory': growthFaults(module, faults),
    'lines beside a triangulation': sharedFaults(module, faults), 'calls of freed meshes': freedFaults(module, faults), 'lines without memory': refusedMemoryFaults(module, faults),
  };
}
