// Compares what the module of a folder answers with what the repository stores: `node compare.mjs FOLDER`.

import { readFileSync, readdirSync } from 'node:fs';
import { resolve } from 'node:path';
import { pathToFileURL } from 'node:url';
import { arrayFaults } from './arrays.mjs';
import { bufferFaults } from './buffers.mjs';
import { constrainingFaults } from './constraining.mjs';
import { keepingFaults } from './keeping.mjs';
import { meshFaults } from './meshes.mjs';

const ROOT = resolve(new URL('../../..', import.meta.url).pathname);
const folder = resolve(process.argv[2]);
const address = pathToFileURL(`${folder}/mesh.js`);
const { replies, picture, triangulate, Mesh, Delaunay, ConstrainedDelaunay } = await import(address);

const faults = [], counts = { talks: 0, lines: 0, 'talks with a limit left out': 0, pictures: 0, triangulations: 0, 'large answers': 0, refusals: 0 };
const read = file => readFileSync(`${ROOT}/${file}`, 'utf8');

/** Notes where two texts differ. */
function same(what, found, wanted) {
  if (found === wanted) return;
  const at = [...wanted].findIndex((letter, place) => letter !== found[place]);
  faults.push(`${what}: differs from byte ${at} on: '${found.slice(at, at + 40)}' in place of '${wanted.slice(at, at + 40)}'`);
}

/** The talks of dcel_talks. The module's limit can't be set, so those with a limit are left out. */
function compareTalks() {
  for (const file of readdirSync(`${ROOT}/crates/dcel_talks/data`).filter(name => name.endsWith('.talk'))) {
    for (const talk of read(`crates/dcel_talks/data/${file}`).split(/^# /m).slice(1)) {
      const [name, ...rows] = talk.split('\n').filter(row => row && row !== 'faults');
      if (rows.some(row => row.startsWith('limit '))) {
        counts['talks with a limit left out']++;
        continue;
      }
      const isLine = row => row.startsWith('> ');
      const lines = rows.filter(isLine).map(row => `${row.slice(2)}\n`);
      const wanted = rows.filter(row => !isLine(row)).map(row => `${row}\n`).join(''), mesh = new Mesh();
      same(`${file}: ${name}`, replies(lines.join('')), wanted);
      same(`${file}: ${name}, of a mesh that is kept`, lines.map(line => mesh.run(line)).join(''), wanted);
      mesh.free();
      counts.talks++;
      counts.lines += lines.length;
    }
  }
}

/** The pictures that are stored beside their lines. */
function comparePictures() {
  for (const file of readdirSync(`${ROOT}/docs/pictures`).filter(name => name.endsWith('.lines'))) {
    const wanted = read(`docs/pictures/${file.replace('.lines', '.svg')}`);
    same(file, picture(read(`docs/pictures/${file}`), { anchors: wanted.includes('class="anchor') }), wanted);
    counts.pictures++;
  }
}

/** The points that the program `delaunay` is run on, which writes each triangle from the least number on. */
function compareTriangles() {
  const points = read('crates/delaunay/stdin').split('\n').filter(row => /^-?\d/.test(row)).map(row => row.split(' ').map(Number));
  const fromLeast = corners => {
    const least = corners.indexOf(Math.min(...corners));
    return [...corners.slice(least), ...corners.slice(0, least)].join(' ');
  };
  const sorted = rows => rows.sort().map(row => `${row}\n`).join('');
  same('the points of delaunay', sorted(triangulate(points).map(fromLeast)), sorted(read('crates/delaunay/stdout').trimEnd().split('\n')));
  counts.triangulations++;
}

/** What thousands of points and of lines are answered: a call finds memory for as many. The points stand on a parabola. */
function compareLarge() {
  const numbers = Array.from({ length: 5000 }, (_, number) => number);
  same('the triangles of 5,000 points', String(triangulate(numbers.map(x => [x, x * x])).length), '4998');
  same('the replies to 5,000 lines', replies('append 0\n'.repeat(5000)), numbers.map(vertex => `vertex ${vertex}\n`).join(''));
  counts['large answers'] += 2;
}

/** What `triangulate` has to refuse, and what it has to take. */
function compareRanges() {
  const most = 2 ** 53;
  same('the largest triangle', String(triangulate([[-most, -most], [most, -most], [0, most]])[0].sort()), '0,1,2');
  for (const points of [[[0.5, 0]], [[most + 2, 0]], [[0, -most - 2]], [[2 ** 64, 0]], [[Infinity, 0]], [[NaN, 0]], [[1]], [[1, 2, 3]], [['1', 2]]]) {
    try {
      faults.push(`${JSON.stringify(points)} is triangulated: ${JSON.stringify(triangulate(points))}`);
    } catch (error) {
      if (!(error instanceof RangeError)) throw error;
      counts.refusals++;
    }
  }
}

/** What an engine without 64-bit memories is told, by a module that finds none. */
async function compareLacking() {
  const lacking = await import(`${address}?lacking`), { validate } = WebAssembly;
  WebAssembly.validate = () => false;
  for (const call of [() => lacking.replies(''), () => lacking.picture(''), () => lacking.triangulate([]), () => new lacking.Mesh(), () => new lacking.Delaunay([]), () => new lacking.ConstrainedDelaunay([])]) {
    try {
      faults.push(`${call} needs no 64-bit memory: ${call()}`);
    } catch (error) {
      if (!(error instanceof WebAssembly.CompileError && error.message.includes('64-bit addresses'))) faults.push(`${call}: ${error}`);
      counts.refusals++;
    }
  }
  WebAssembly.validate = validate;
}

await compareLacking();
same('dcel_run', replies(read('crates/dcel_run/stdin')), read('crates/dcel_run/stdout'));
same('picture', picture(read('crates/dcel_draw/stdin'), { anchors: true }), read('crates/dcel_draw/stdout'));
compareTalks();
comparePictures();
compareTriangles();
compareLarge();
compareRanges();
const arrays = arrayFaults(Delaunay, faults);
const calls = bufferFaults(readFileSync(`${folder}/mesh.wasm`), faults);
const kept = { ...keepingFaults(Delaunay, faults), ...constrainingFaults(ConstrainedDelaunay, faults), ...meshFaults({ Mesh, Delaunay, replies, picture }, faults) };
const all = { ...counts, 'triangulations as arrays': arrays, ...kept, 'calls with a short buffer or little memory': calls };
for (const [name, count] of Object.entries(all)) if (!count) faults.push(`there were no ${name} to try`);
const told = Object.entries(all).map(([name, count]) => `${count} ${name}`);
console.log([...faults, `module in Node ${process.version}: ${told.join(', ')}, ${faults.length} faults`].join('\n'));
process.exitCode = faults.length ? 1 : 0;
