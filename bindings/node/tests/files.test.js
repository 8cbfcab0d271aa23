'use strict';
const assert = require('node:assert/strict');
const fs = require('node:fs');
const os = require('node:os');
const path = require('node:path');
const { test } = require('node:test');
const { CookieStore, replaceFile } = require('pulleymaroon');
const { NOW, compare, outcome } = require('./support');

const AT = { now: NOW };

function store() {
  const filled = new CookieStore();
  filled.parse('https://a.example/', 'session=1; HttpOnly', AT);
  filled.parse('https://a.example/', 'kept=ü; Max-Age=60; Secure; SameSite=Lax', AT);
  filled.parse('https://a.example/', 'over=3; Max-Age=5', AT);
  return filled;
}

test('saved cookies are loaded', () => {
  const cookies = store().cookies();
  compare(['json', 'ron', 'netscape'].flatMap((format) => [
    [format, 'all', 'all', ['session', 'kept', 'over']],
    [format, 'unexpired', 'all', ['session', 'kept']],
    [format, 'persistent', 'all', ['kept']],
    [format, 'all', 'unexpired', ['session', 'kept']],
    [format, 'all', 'persistent', ['kept']],
  ]), (format, saved, loaded) => {
    const list = store().save({ format, which: saved, now: NOW + 5 });
    return CookieStore.load(list, { format, which: loaded, now: NOW + 5 }).cookies().map(({ name }) => name);
  });
  const bytes = Buffer.from(store().save({ which: 'all', ...AT }));
  assert.deepEqual(CookieStore.load(bytes, { which: 'all', ...AT }).cookies(), cookies);
});

test('session cookies are saved and loaded, unless asked for', () => {
  assert.deepEqual(CookieStore.load(store().save(AT), AT).cookies().map(({ name }) => name), ['session', 'kept', 'over']);
  const all = store().save({ which: 'all', ...AT });
  assert.deepEqual(CookieStore.load(all, AT).cookies().map(({ name }) => name), ['session', 'kept', 'over']);
});

test('a loaded store has the options that are passed', () => {
  const loaded = CookieStore.load('[]', { strict: true, domainLimit: 5, suffixList: 'com\n' });
  assert.deepEqual([loaded.strict, loaded.domainLimit], [true, 5]);
  assert.equal(loaded.parse('https://a.com/', 'a=1; Domain=com'), 'PUBLIC_SUFFIX');
});

test('what is not a list is an error', () => {
  compare([
    ['', {}, 'BAD_JSON'],
    ['{}', {}, 'BAD_SHAPE'],
    ['[', { format: 'ron' }, 'BAD_RON'],
    ['a=1\n', { format: 'netscape' }, 'BAD_LINE'],
    [new Uint8Array([0xff]), {}, 'NOT_UTF8'],
    ['[]', { format: 'xml' }, 'BAD_OPTION'],
    ['[]', { format: 'toString' }, 'BAD_OPTION'],
    ['[]', { which: 0 }, 'BAD_OPTION'],
    ['[]', { now: NaN }, 'BAD_TIME'],
    [1, {}, 'ERR_INVALID_ARG_TYPE'],
  ], (list, options) => CookieStore.load(list, options));
  assert.throws(() => CookieStore.load('# comment\na=1\n', { format: 'netscape' }), { code: 'BAD_LINE', line: 2 });
});

test('lenient files leave out lines and cookies', () => {
  const line = 'a.example\tFALSE\t/\tFALSE\t0\ta\t1\n';
  const { store: loaded, malformed } = CookieStore.loadLenient(`x\n${line}y\n`, AT);
  assert.deepEqual(malformed, [1, 3]);
  assert.equal(loaded.header('http://a.example/', AT), 'a=1');
  loaded.parse('http://a.example/', 'b=\x01', AT);
  const { list, leftOut } = loaded.saveLenient({ which: 'unexpired', ...AT });
  assert.deepEqual([list, leftOut], [`# Netscape HTTP Cookie File\n${line}`, 1]);
  assert.equal(outcome(() => loaded.save({ format: 'netscape', which: 'unexpired', ...AT })), 'UNREPRESENTABLE');
});

test('a list that is longer than expected is saved whole', () => {
  const big = new CookieStore();
  for (let at = 0; at < 20; at++) big.parse('http://a.example/', `n${at}=${'"'.repeat(4000)}; Path=/`, AT);
  const list = big.save({ which: 'all', ...AT });
  assert.equal(JSON.parse(list).length, 20);
  assert.deepEqual(CookieStore.load(list, AT).cookies().map(({ value }) => value.length), Array(20).fill(4000));
});

test('replaceFile replaces a file at once', (context) => {
  const folder = fs.mkdtempSync(path.join(os.tmpdir(), 'cookies-'));
  context.after(() => fs.rmSync(folder, { recursive: true }));
  const file = path.join(folder, 'list');
  const link = path.join(folder, 'link');
  fs.writeFileSync(file, 'old', { mode: 0o644 });
  fs.symlinkSync(file, link);
  const before = fs.statSync(file).ino;
  replaceFile(link, 'new');
  const after = fs.statSync(file);
  assert.deepEqual([fs.readFileSync(file, 'utf8'), after.mode & 0o777, fs.lstatSync(link).isSymbolicLink()], ['new', 0o600, true]);
  assert.notEqual(after.ino, before);
  replaceFile('/dev/null', 'gone');
  compare([[path.join(folder, 'missing', 'file'), 'ENOENT'], [folder, 'EISDIR'], [1, 'ERR_INVALID_ARG_TYPE']],
    (name) => replaceFile(name, 'x'));
  assert.deepEqual(fs.readdirSync(folder).sort(), ['link', 'list'], 'no other file is left');
});
