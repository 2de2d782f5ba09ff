// Steps through the page of a talk in headless Chromium: `node talk.mjs PAGE`. By arrow keys to the last line and back, and by a click: the
// picture of the line that is marked is shown, and no other, and the line is in sight. Nothing may be wider than the window at 390 and at 1,280
// pixels, nor go wrong on the console, and numbers have to be legible; after a tap all of the picture is shown. Without scripts all pictures
// have to be there, one below the other.

import { resolve } from 'node:path';
import { pathToFileURL } from 'node:url';
import { startChromium } from './chromium.mjs';

const page = pathToFileURL(resolve(process.argv[2])).href;
const faults = [];
const SEEN = `(() => {
  const steps = [...document.querySelectorAll('section')];
  const numbered = test => steps.flatMap((it, index) => test(it) ? [index + 1] : []);
  return {
    now: numbered(it => it.classList.contains('now')),
    shown: numbered(it => it.querySelector('img').getBoundingClientRect().height > 0),
    broken: numbered(it => !it.querySelector('img').naturalWidth),
    count: steps.length,
    width: document.documentElement.scrollWidth,
    // How high the numbers of half edges are, which are ten high in a picture's own measure.
    digits: Math.min(...steps.map(it => it.querySelector('img')).map(it => [it.getBoundingClientRect().width, decodeURIComponent(it.src)])
      .filter(([width]) => width > 0).map(([width, svg]) => 10 * width / svg.match(/viewBox="\\S+ \\S+ (\\S+)/)[1])),
    isLineInSight: steps.some(it => {
      const { left, top, bottom } = it.querySelector('kbd').getBoundingClientRect();
      return it.classList.contains('now') && [top + 1, bottom - 1].every(y => it.contains(document.elementFromPoint(left + 9, y)));
    }),
  };
})()`;

const browser = await startChromium();
for (const width of [390, 1280]) {
  await browser.ask('Emulation.setScriptExecutionDisabled', { value: true });
  await browser.ask('Emulation.setDeviceMetricsOverride', { width, height: 800, deviceScaleFactor: 1, mobile: false });
  await browser.open(page);
  const { count, shown, broken, digits } = await browser.evaluate(SEEN);
  if (count === 0 || shown.length !== count || broken.length) faults.push(`${width}: without scripts ${shown} of ${count} are shown, and not ${broken}`);

  await browser.ask('Emulation.setScriptExecutionDisabled', { value: false });
  await browser.open(page);
  const expect = async (step, how) => {
    const seen = await browser.evaluate(SEEN);
    if (`${seen.now}` !== `${step}` || `${seen.shown}` !== `${step}`) faults.push(`${width}: ${how} ${seen.now} is marked and ${seen.shown} shown, not ${step}`);
    if (seen.width > width) faults.push(`${width}: ${seen.width} pixels wide`);
    if (!seen.isLineInSight) faults.push(`${width}: ${how} the line ${step} isn't in sight`);
  };
  await expect(1, 'at first');
  for (let step = 2; step <= count + 1; step++) {
    await browser.press('ArrowRight');
    await expect(Math.min(step, count), 'after an arrow to the right');
  }
  for (let step = count - 1; step >= 0; step--) {
    await browser.press('ArrowLeft');
    await expect(Math.max(step, 1), 'after an arrow to the left');
  }
  await browser.evaluate('document.querySelectorAll("section > div")[2].click()');
  await expect(3, 'after a click');
  const found = [digits, (await browser.evaluate(SEEN)).digits];
  if (!(Math.min(...found) >= (width < 1000 ? 7 : 6))) faults.push(`${width}: numbers are ${found} pixels high`);
  await browser.evaluate('document.querySelector(".now figure").click()');
  const { width: wide, height } = await browser.evaluate('(({ width, height }) => ({ width, height }))(document.querySelector(".now img").getBoundingClientRect())');
  if (wide > width || height > 800) faults.push(`${width}: after a tap the picture is ${wide} by ${height}`);
}
faults.push(...await browser.faults());
await browser.end();
for (const fault of faults) console.log(fault);
console.log(`the page of a talk, in ${browser.name}: ${faults.length} faults`);
process.exitCode = faults.length ? 1 : 0;
