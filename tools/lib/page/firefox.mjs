// Drives headless Firefox by Marionette, its own protocol over a socket.

import { spawn } from 'node:child_process';
import { once } from 'node:events';
import { existsSync, mkdtempSync, readFileSync, rmSync, writeFileSync } from 'node:fs';
import { connect } from 'node:net';
import { tmpdir } from 'node:os';
import { join } from 'node:path';
import { setTimeout } from 'node:timers/promises';

const KEYS = { Enter: '\ue007', Delete: '\ue017', Backspace: '\ue003', Tab: '\ue004', ArrowLeft: '\ue012', ArrowUp: '\ue013', ArrowRight: '\ue014' };
const CONTROL = '\ue009';
const DOWN = { type: 'pointerDown', button: 0 }, UP = { type: 'pointerUp', button: 0 };

/** Starts it with one empty page, which saves files into a folder. */
export async function startFirefox(downloads) {
  const profile = mkdtempSync(join(tmpdir(), 'page-'));
  const settings = { 'marionette.port': 0, 'browser.download.folderList': 2, 'browser.download.dir': downloads, 'datareporting.policy.dataSubmissionEnabled': false };
  writeFileSync(`${profile}/user.js`, Object.entries(settings).map(([name, value]) => `user_pref('${name}', ${JSON.stringify(value)});\n`).join(''));
  const words = ['--headless', '--no-remote', '--width', '1280', '--height', '900', '--marionette', '--remote-allow-system-access', '--profile', profile];
  const child = spawn('firefox-esr', words, { stdio: 'ignore', env: { ...process.env, HOME: profile } });
  const active = `${profile}/MarionetteActivePort`;
  for (let tries = 0; !existsSync(active) || !readFileSync(active, 'utf8'); tries++) {
    if (tries > 600 || child.exitCode !== null) throw new Error('Firefox does not start');
    await setTimeout(100);
  }
  const socket = connect(Number(readFileSync(active, 'utf8')), '127.0.0.1');
  const waiting = new Map();
  let number = 0, rest = Buffer.alloc(0);
  socket.on('data', data => {
    rest = Buffer.concat([rest, data]);
    for (let colon; (colon = rest.indexOf(':')) > 0;) {
      const end = colon + 1 + Number(rest.subarray(0, colon));
      if (rest.length < end) break;
      const message = JSON.parse(rest.subarray(colon + 1, end));
      rest = rest.subarray(end);
      if (!Array.isArray(message)) continue; // the greeting
      const [, id, error, result] = message;
      if (error) waiting.get(id).reject(new Error(error.message));
      else waiting.get(id).resolve(result);
    }
  });
  const ask = (name, parameters = {}) => new Promise((resolve, reject) => {
    waiting.set(++number, { resolve, reject });
    const text = JSON.stringify([0, number, name, parameters]);
    socket.write(`${Buffer.byteLength(text)}:${text}`);
  });
  const { capabilities } = await ask('WebDriver:NewSession');

  const run = async script => (await ask('WebDriver:ExecuteScript', { script, args: [] })).value;
  /** Runs a script with the browser's own rights. */
  const runAsBrowser = async script => {
    await ask('Marionette:SetContext', { value: 'chrome' });
    const value = await run(script);
    await ask('Marionette:SetContext', { value: 'content' });
    return value;
  };
  const type = (...keys) => ask('WebDriver:PerformActions', {
    actions: [{ type: 'key', id: 'keys', actions: [...keys.map(value => ({ type: 'keyDown', value })), ...[...keys].reverse().map(value => ({ type: 'keyUp', value }))] }],
  });
  const move = ([x, y]) => ({ type: 'pointerMove', x: Math.round(x), y: Math.round(y), duration: 0 });
  const point = (...actions) => ask('WebDriver:PerformActions', {
    actions: [{ type: 'pointer', id: 'mouse', parameters: { pointerType: 'mouse' }, actions }],
  });
  return {
    name: `Firefox ${capabilities.browserVersion}`,
    ask,
    evaluate: expression => run(`return (${expression});`),
    async open(url) {
      await ask('WebDriver:Navigate', { url: 'about:blank' });
      await ask('WebDriver:Navigate', { url });
    },
    async type(text) {
      for (const letter of text) await type(letter);
    },
    press: key => type(KEYS[key] ?? key),
    pressWithControl: key => type(CONTROL, key),
    async paste(text) {
      await runAsBrowser(`Cc['@mozilla.org/widget/clipboardhelper;1'].getService(Ci.nsIClipboardHelper).copyString(${JSON.stringify(text)});`);
      await type(CONTROL, 'v');
    },
    drag: (...places) => point(move(places[0]), DOWN, ...places.slice(1).map(move), UP),
    doubleClick: place => point(move(place), DOWN, UP, DOWN, UP),
    /** What went wrong in the page, and what its console tells. */
    faults: () => runAsBrowser(`return Services.console.getMessageArray()
      .filter(it => it instanceof Ci.nsIScriptError && it.sourceName.startsWith('file:')).map(it => it.message);`),
    async end() {
      socket.destroy();
      child.kill();
      await once(child, 'exit');
      rmSync(profile, { recursive: true, force: true, maxRetries: 5 });
    },
  };
}
