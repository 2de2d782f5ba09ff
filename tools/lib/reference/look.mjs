// Opens pages in headless Chromium: `node look.mjs FOLDER [PAGE ..]`, all of a folder if none is named. Tells errors of a page or its
// console, links and anchors that lead nowhere, what comes from another host, what is wider than the window at 390 and at 1,280 pixels,
// whether search finds `flip_cw` and goes there, whether it finds things by words, and what paper has below clauses. Ends with status 1 if it told anything.

import { readdirSync } from 'node:fs';
import { resolve } from 'node:path';
import { pathToFileURL } from 'node:url';
import { startChromium } from '../page/chromium.mjs';

const WIDTHS = [390, 1280];
// Words that somebody types, with a name that has to be among the first that are found.
const SEARCHES = [['remove vertex', 'remove_vertex'], ['delaunay', 'Triangulation'], ['convex hull', 'is_part_of_convex_hull'], ['convex hull', 'hull'], ['flip edge', 'flip_cw'], ['nearest', 'nearest_vertex'],
  ['constrained', 'ConstrainedTriangulation'], ['voronoi', 'VoronoiFace'], ['IfOk', 'IfOk'], ['dcel insert', 'dcel_insert_into_triangle']];
const FIRST = 6;
const [folder, ...named] = process.argv.slice(2);
const root = `${pathToFileURL(resolve(folder))}/`;
const pages = named.length ? named : readdirSync(folder, { recursive: true }).filter(it => it.endsWith('.html')).sort();
const lanes = await Promise.all(Array.from({ length: Math.min(3, pages.length) }, () => startChromium()));
const seen = new Map(), faults = [];

// What a page has: the names of its places, where its links lead, and what it takes in.
const PARTS = `({
  places: [...document.querySelectorAll('[id]')].map(it => it.id),
  links: [...document.links].map(it => it.href),
  taken: [...document.querySelectorAll('[src], link[href]')].map(it => it.src || it.href),
  broken: [...document.images].filter(it => !it.complete || !it.naturalWidth).map(it => it.src),
})`;

async function look(browser, page) {
  const before = (await browser.faults()).length;
  await browser.open(root + encodeURI(page));
  const parts = await browser.evaluate(PARTS);
  seen.set(root + encodeURI(page), parts);
  for (const width of WIDTHS) {
    await browser.ask('Emulation.setDeviceMetricsOverride', { width, height: 800, deviceScaleFactor: 1, mobile: false });
    const wide = await browser.evaluate('document.documentElement.scrollWidth');
    if (wide > width) faults.push(`${page}: ${wide} pixels wide in a window of ${width}`);
  }
  for (const it of parts.broken) faults.push(`${page}: ${it} isn't shown`);
  for (const it of parts.taken) if (!it.startsWith(root)) faults.push(`${page}: takes in ${it}`);
  for (const it of (await browser.faults()).slice(before)) faults.push(`${page}: ${it}`);
}

function lead() {
  for (const [page, { links }] of named.length ? [] : seen) {
    for (const link of links) {
      const [address, place] = link.split('#');
      const found = seen.get(address);
      if (!found) faults.push(`${page.slice(root.length)}: ${link} is no page`);
      else if (place && !found.places.includes(decodeURIComponent(place))) faults.push(`${page.slice(root.length)}: ${link} is no place`);
    }
  }
}

async function type(browser, words) {
  await browser.open(`${root}index.html`);
  await browser.evaluate('document.querySelector("input").focus()');
  await browser.type(words);
}

async function find(browser, words, name) {
  await type(browser, words);
  for (let tries = 0; tries < 50; tries++) {
    const found = await browser.evaluate('[...document.querySelectorAll("form li a")].map(it => it.firstChild.data.split("::").pop())');
    if (found.slice(0, FIRST).includes(name)) return;
    await new Promise(done => setTimeout(done, 100));
  }
  faults.push(`search for ${words} doesn't find ${name}`);
}

/** On paper each clause has below it what its words mean. */
async function paper(browser) {
  await browser.ask('Emulation.setEmulatedMedia', { media: 'print' });
  const [clauses, said] = await browser.evaluate(`['.clauses pre', '.said li'].map(it => [...document.querySelectorAll(it)].map(it => it.getBoundingClientRect().bottom))`);
  if (!clauses.length || !clauses.every((at, index) => said.some(it => it > at && !(it > clauses[index + 1])))) faults.push('on paper a clause has nothing below it');
  await browser.ask('Emulation.setEmulatedMedia', { media: '' });
}

async function search(browser) {
  await type(browser, 'flip_cw');
  for (let tries = 0; tries < 100; tries++) {
    if (tries % 10 === 0) await browser.press('Enter');
    if (await browser.evaluate('document.readyState === "complete" && location.pathname.endsWith("/flip_cw.html")')) return paper(browser);
    await new Promise(done => setTimeout(done, 100));
  }
  faults.push('search for flip_cw goes nowhere');
}

const left = [...pages];
await Promise.all(lanes.map(async browser => {
  for (let page; (page = left.shift()); ) await look(browser, page);
}));
lead();
await search(lanes[0]);
for (const [words, name] of SEARCHES) await find(lanes[0], words, name);
await Promise.all(lanes.map(it => it.end()));
for (const it of faults) console.log(it);
console.log(`${lanes[0].name}: ${pages.length} pages looked at, ${faults.length} faults`);
process.exit(faults.length ? 1 : 0);
