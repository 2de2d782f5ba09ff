// What calls of the module take of a processor, the least of five in milliseconds: `node times.mjs FOLDER`, beside whose mesh.js stands a
// package.json that calls it a module.

import { readFileSync, statSync } from 'node:fs';
import { resolve } from 'node:path';
import { pathToFileURL } from 'node:url';

const folder = resolve(process.argv[2]);
const { replies, picture, triangulate, Delaunay } = await import(pathToFileURL(`${folder}/mesh.js`));

const inserted = count => `triangle 0 1 2\n${Array.from({ length: count }, (_, at) => `append ${at}\ninsert ${at + 3} ${1 + (at * 7919) % (2 * at + 1)}\n`).join('')}`;
let seed = 1;
const random = () => (seed = (seed * 48271) % 2147483647) % 1000000;
const points = Array.from({ length: 10000 }, () => [random(), random()]);
const kept = new Delaunay(points.flat());

const rows = {
  'a call': () => replies(''),
  'replies to 20,000 lines': (lines => () => replies(lines))(inserted(9999) + 'counts\n'),
  'a picture of 100 vertices': (lines => () => picture(lines))(inserted(97)),
  'a picture of 1,000 vertices': (lines => () => picture(lines))(inserted(997)),
  'triangles of 10,000 points': () => triangulate(points),
  'the same, kept': () => new Delaunay(points.flat()).free(),
  '1,000 moves of one of them': () => Array.from({ length: 1000 }, () => kept.move(5000, random(), random())),
  'a move, and the triangles': () => kept.move(5000, random(), random()) ?? kept.triangles,
};
for (const file of ['mesh.wasm', 'mesh.js', 'mesh.html']) console.log(`${file}: ${statSync(`${folder}/${file}`).size} bytes`);
for (const [name, run] of Object.entries(rows)) {
  const times = Array.from({ length: 5 }, () => {
    const start = process.cpuUsage();
    run();
    const { user, system } = process.cpuUsage(start);
    return (user + system) / 1000;
  });
  console.log(`${name}: ${Math.min(...times).toFixed(1)} ms`);
}
