import { picture, replies, triangulate } from './mesh.js';

const lines = 'triangle 7 8 9\nappend 10\ninsert 3 1\n';
const words = replies(`${lines}words\n`);
const svg = picture(lines, { anchors: true });
const triangles = triangulate([[0, 0], [4, 0], [0, 3], [5, 5], [2, 2]]);

console.log(words);
console.log(`${svg.match(/class="half"/g).length} half edges`);
console.log(JSON.stringify(triangles));
