'use strict';
const assert = require('node:assert/strict');
const { spawn } = require('node:child_process');
const fs = require('node:fs');
const os = require('node:os');
const path = require('node:path');
const { test } = require('node:test');
const { SYSTEM_SUFFIX_FILE } = require('pulleymaroon');
const { PACKAGE, serve } = require('./support');

const PAGE = fs.readFileSync(path.join(PACKAGE, 'README.md'), 'utf8');
const PROGRAMS = [...PAGE.matchAll(/^```js\n(.*?)^```$/gms)].map(([, program]) => program);

// A package undici with the dispatcher of the fetch of Node.
const UNDICI = `await fetch('data:,');
export function Agent() {
  return globalThis[Symbol.for('undici.globalDispatcher.1')];
}
`;

/** Creates a folder in which programs find this package and undici. */
function createFolder(context) {
  const folder = fs.mkdtempSync(path.join(os.tmpdir(), 'readme-'));
  context.after(() => fs.rmSync(folder, { recursive: true }));
  fs.mkdirSync(path.join(folder, 'node_modules', 'undici'), { recursive: true });
  fs.symlinkSync(PACKAGE, path.join(folder, 'node_modules', 'pulleymaroon'));
  fs.writeFileSync(path.join(folder, 'node_modules', 'undici', 'package.json'), '{ "exports": "./index.mjs" }');
  fs.writeFileSync(path.join(folder, 'node_modules', 'undici', 'index.mjs'), UNDICI);
  return folder;
}

/** Returns whether this machine has what a program needs. */
async function canRun(program) {
  await fetch('data:,');
  const composes = typeof globalThis[Symbol.for('undici.globalDispatcher.1')]?.compose === 'function';
  return (!program.includes("'undici'") || composes) && (!program.includes('SUFFIX') || fs.existsSync(SYSTEM_SUFFIX_FILE));
}

/** Returns what a program prints, with a proxy that is every host itself. */
async function printed(program, folder, proxy) {
  const file = path.join(folder, 'program.mjs');
  fs.writeFileSync(file, program);
  const child = spawn(process.execPath, ['--require', path.join(__dirname, 'proxies.js'), file], {
    cwd: folder, env: { ...process.env, http_proxy: proxy }, stdio: ['ignore', 'pipe', 'pipe'],
  });
  const text = { stdout: '', stderr: '' };
  for (const name of ['stdout', 'stderr']) child[name].setEncoding('utf8').on('data', (chunk) => { text[name] += chunk; });
  const status = await new Promise((resolve) => child.on('close', resolve));
  assert.equal(status, 0, text.stderr);
  return text.stdout;
}

test('the programs of the page print what it says', async (context) => {
  const folder = createFolder(context);
  const proxy = await serve(context, (request, response) => {
    const isLogin = request.url.endsWith('/login');
    response.writeHead(isLogin ? 302 : 200, isLogin ? { Location: '/', 'Set-Cookie': 'session=1; Path=/' } : {});
    response.end(request.headers.cookie ?? '');
  });
  assert.ok(PROGRAMS.length > 5);
  for (const program of PROGRAMS.filter((each) => !each.includes('process.argv'))) {
    if (!await canRun(program)) {
      context.diagnostic(`skipped: ${program.split('\n', 1)}`);
      continue;
    }
    const expected = [...program.matchAll(/^ *console\.log\(.*\); \/\/ (.*)$/gm)].map(([, text]) => text);
    assert.deepEqual((await printed(program, folder, proxy)).split('\n').slice(0, -1), expected, program);
  }
});

test('the page quotes the program', () => {
  assert.ok(PROGRAMS.includes(fs.readFileSync(path.join(PACKAGE, 'examples', 'fetch.mjs'), 'utf8')));
});
