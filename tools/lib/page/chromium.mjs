// Drives headless Chromium by its DevTools protocol, over a pipe.

import { spawn } from 'node:child_process';
import { once } from 'node:events';
import { existsSync, mkdtempSync, rmSync } from 'node:fs';
import { tmpdir } from 'node:os';
import { join } from 'node:path';

const KEYS = { Enter: ['\r', 13], Delete: ['', 46], Backspace: ['', 8], ArrowLeft: ['', 37], ArrowUp: ['', 38], ArrowRight: ['', 39], Tab: ['', 9] };

/** Starts it with one empty page, which saves files into a folder. */
export async function startChromium(downloads) {
  const profile = mkdtempSync(join(tmpdir(), 'page-'));
  const words = ['--headless', '--no-sandbox', '--disable-gpu', '--no-first-run', '--window-size=1280,900', `--user-data-dir=${profile}`, '--remote-debugging-pipe'];
  const child = spawn('chromium', words, { stdio: ['ignore', 'ignore', 'ignore', 'pipe', 'pipe'] });
  const [, , , requests, replies] = child.stdio;
  const waiting = new Map(), faults = [];
  const loads = new Set();
  let loaded = () => {}, number = 0, session, rest = '';

  const told = {
    'Page.lifecycleEvent': ({ name, loaderId }) => {
      if (name !== 'load') return;
      loads.add(loaderId);
      loaded();
    },
    'Runtime.exceptionThrown': ({ exceptionDetails: { text, exception } }) => faults.push(`${text} ${exception?.description}`),
    'Runtime.consoleAPICalled': ({ type, args }) => faults.push(`${type}: ${args.map(it => it.value).join(' ')}`),
    'Log.entryAdded': ({ entry }) => faults.push(`${entry.level}: ${entry.text}`),
  };
  replies.setEncoding('utf8').on('data', text => {
    const messages = (rest + text).split('\0');
    rest = messages.pop();
    for (const { id, method, params, result, error } of messages.map(message => JSON.parse(message))) {
      if (method) told[method]?.(params);
      else if (error) waiting.get(id).reject(new Error(error.message));
      else waiting.get(id).resolve(result);
    }
  });
  const ask = (method, params = {}) => new Promise((resolve, reject) => {
    waiting.set(++number, { resolve, reject });
    requests.write(`${JSON.stringify({ id: number, method, params, sessionId: session })}\0`);
  });

  const { targetId } = await ask('Target.createTarget', { url: 'about:blank' });
  ({ sessionId: session } = await ask('Target.attachToTarget', { targetId, flatten: true }));
  for (const domain of ['Page', 'Runtime', 'Log']) await ask(`${domain}.enable`);
  await ask('Page.setLifecycleEventsEnabled', { enabled: true });
  if (downloads) await ask('Page.setDownloadBehavior', { behavior: 'allow', downloadPath: downloads });
  const { product } = await ask('Browser.getVersion');

  const evaluate = async expression => {
    const { result, exceptionDetails } = await ask('Runtime.evaluate', { expression, returnByValue: true, awaitPromise: true });
    if (exceptionDetails) throw new Error(`${expression}: ${exceptionDetails.exception?.description}`);
    return result.value;
  };
  /** Goes to an address, and waits for the load that this began, not for an earlier one that is told late. */
  const load = async url => {
    const { loaderId, errorText } = await ask('Page.navigate', { url });
    if (errorText) throw new Error(`${url}: ${errorText}`);
    while (!loads.has(loaderId)) await new Promise(resolve => { loaded = resolve; });
  };
  const mouse = (type, [x, y], more) => ask('Input.dispatchMouseEvent', { type, x, y, button: 'left', ...more });
  const pressKey = async (key, more) => {
    const [text, windowsVirtualKeyCode] = KEYS[key] ?? [key, key.toUpperCase().charCodeAt(0)];
    await ask('Input.dispatchKeyEvent', { type: 'keyDown', key, text, windowsVirtualKeyCode, ...more });
    await ask('Input.dispatchKeyEvent', { type: 'keyUp', key, windowsVirtualKeyCode, ...more });
  };
  return {
    name: product.replace(/.*\//, 'Chromium '),
    ask, evaluate,
    /** What went wrong in the page, and what its console told. */
    faults: async () => faults,
    /** An empty page comes between, so that an address that differs in its fragment alone is loaded too. */
    async open(url) {
      await load('about:blank');
      await load(url);
    },
    type: text => ask('Input.insertText', { text }),
    press: key => pressKey(key),
    pressWithControl: key => pressKey(key, { text: '', modifiers: 2 }),
    /** Copies a text out of a field that is made for it, and pastes it where the focus was. */
    async paste(text) {
      await evaluate(`(() => {
        window.focused = document.activeElement;
        window.copied = document.body.appendChild(document.createElement('textarea'));
        copied.value = ${JSON.stringify(text)};
        copied.select();
      })()`);
      await pressKey('c', { text: '', modifiers: 2, commands: ['copy'] });
      await evaluate('copied.remove(), focused.focus()');
      await pressKey('v', { text: '', modifiers: 2, commands: ['paste'] });
    },
    /** Presses at the first place, moves over the others, and lets go at the last. */
    async drag(...places) {
      await mouse('mouseMoved', places[0], { button: 'none' });
      await mouse('mousePressed', places[0], { clickCount: 1 });
      for (const place of places.slice(1)) await mouse('mouseMoved', place, { buttons: 1 });
      await mouse('mouseReleased', places.at(-1), { clickCount: 1 });
    },
    async doubleClick(place) {
      for (const clickCount of [1, 2]) for (const type of ['mousePressed', 'mouseReleased']) await mouse(type, place, { clickCount });
    },
    async tap([x, y]) {
      await ask('Input.dispatchTouchEvent', { type: 'touchStart', touchPoints: [{ x, y }] });
      await ask('Input.dispatchTouchEvent', { type: 'touchEnd', touchPoints: [] });
    },
    /** Has it play a phone, with a narrow window and without mouse. */
    async setPhone() {
      await ask('Emulation.setDeviceMetricsOverride', { width: 390, height: 844, deviceScaleFactor: 2, mobile: true });
      await ask('Emulation.setTouchEmulationEnabled', { enabled: true });
    },
    /** Has a script run in each page that is opened later, before the page's own. */
    runFirst: source => ask('Page.addScriptToEvaluateOnNewDocument', { source }),
    async end() {
      child.kill();
      await once(child, 'exit');
      // Its helpers may still write there for a while.
      for (let tries = 0; tries < 50 && existsSync(profile); tries++) {
        try {
          rmSync(profile, { recursive: true, force: true });
        } catch {
          await new Promise(done => setTimeout(done, 100));
        }
      }
    },
  };
}
