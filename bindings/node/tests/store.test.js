'use strict';
const assert = require('node:assert/strict');
const { readFileSync } = require('node:fs');
const path = require('node:path');
const { test } = require('node:test');
const { inspect } = require('node:util');
const { CookieStore, CookieStoreError, isRejection, statusText } = require('pulleymaroon');
const { Store } = require('../lib/addon');
const { NOW, PACKAGE, compare, outcome } = require('./support');

const URL_A = 'http://a.example/x/y';

/** Returns a store with cookies of URL_A. */
function storeOf(...values) {
  const store = new CookieStore();
  for (const value of values) store.parse(URL_A, value, { now: NOW });
  return store;
}

test('parse returns what happens to a cookie', () => {
  const store = new CookieStore({ suffixList: 'com\nco.uk\n' });
  compare([
    [URL_A, 'a=1', 'INSERTED'],
    [URL_A, 'a=2', 'UPDATED'],
    [URL_A, 'a=; Max-Age=0', 'EXPIRED_EXISTING'],
    [URL_A, 'b=; Max-Age=0', 'EXPIRED'],
    [URL_A, 'a', 'PARSE'],
    [URL_A, 'a=1; Domain=b.example', 'DOMAIN_MISMATCH'],
    ['http://www.shop.co.uk/', 'a=1; Domain=co.uk', 'PUBLIC_SUFFIX'],
    ['ftp://a.example/', 'a=1; HttpOnly', 'NON_HTTP_SCHEME'],
    ['data:x', 'a=1', 'NON_RELATIVE_SCHEME'],
    [Buffer.from(URL_A), Buffer.from('bytes=1'), 'INSERTED'],
    [new URL(URL_A), 'object=1', 'INSERTED'],
    [new URL('http://bücher.example/'), 'a=1', 'INSERTED'],
    ['http://bücher.example/', 'a=1', 'BAD_URL'],
    ['http://a\\@b/', 'a=1', 'BAD_URL'],
    ['', 'a=1', 'BAD_URL'],
    [URL_A, new Uint8Array([0x61, 0x3d, 0xff]), 'NOT_UTF8'],
  ], (url, value) => store.parse(url, value, { now: NOW }));
});

test('receive returns what happens to each cookie of a response', () => {
  const values = ['a=1', 'b', 'a=2; Path=/x', Buffer.from('c=\xff', 'latin1'), Buffer.from('d=3'), 'e=4; Domain=b.example', 'a=; Max-Age=0'];
  const codes = ['INSERTED', 'PARSE', 'UPDATED', 'NOT_UTF8', 'INSERTED', 'DOMAIN_MISMATCH', 'EXPIRED_EXISTING'];
  const store = new CookieStore();
  assert.deepEqual(store.receive(URL_A, values, { now: NOW }), codes);
  assert.equal(store.header(URL_A, { now: NOW }), 'd=3');
  const single = new CookieStore();
  for (const value of values) outcome(() => single.parse(URL_A, value, { now: NOW }));
  assert.deepEqual(store.cookies(), single.cookies());
  const many = Array.from({ length: 100 }, (_, at) => `n${at}=${'v'.repeat(at * 40)}`);
  assert.deepEqual(store.receive(new URL('https://b.example/'), new Set(many), { now: NOW }), many.map(() => 'INSERTED'));
  assert.equal(store.header('https://b.example/', { now: NOW }), many.join('; '));
});

test('receive takes an array of header values', () => {
  const store = new CookieStore();
  compare([
    [URL_A, [], '[]'],
    [URL_A, undefined, '[]'],
    [URL_A, null, '[]'],
    [new URL(URL_A), new Set(['a=1']), '["INSERTED"]'],
    ['http://a\\@b/', ['a=1'], 'BAD_URL'],
    [URL_A, 'a=1', 'ERR_INVALID_ARG_TYPE'],
    [URL_A, Buffer.from('a=1'), 'ERR_INVALID_ARG_TYPE'],
    [URL_A, {}, 'ERR_INVALID_ARG_TYPE'],
    [URL_A, 1, 'ERR_INVALID_ARG_TYPE'],
    [URL_A, ['b=1', 1], 'ERR_INVALID_ARG_TYPE'],
  ], (url, values) => JSON.stringify(store.receive(url, values, { now: NOW })));
  assert.equal(outcome(() => store.receive(URL_A, ['b=1'], { now: NaN })), 'BAD_TIME');
  assert.equal(store.size, 1);
  store.close();
  assert.equal(outcome(() => store.receive(URL_A, ['a=1'])), 'NO_STORE');
});

test('receive calls parse of a subclass', () => {
  class OneCookie extends CookieStore {
    parse(url, value, options) {
      return this.size === 0 ? super.parse(url, value, options) : 'SECURE_LIMIT';
    }
  }
  const store = new OneCookie();
  assert.deepEqual(store.receive(URL_A, [Buffer.from([0xff]), 'b=2', 'c=3']), ['NOT_UTF8', 'INSERTED', 'SECURE_LIMIT']);
  assert.equal(outcome(() => new OneCookie().receive('', ['a=1'])), 'BAD_URL');
});

test('insert returns what happens to a cookie', () => {
  const parts = { name: 'a', value: '1', domain: 'a.example' };
  const rows = [
    [{}, 'INSERTED', 'INSERTED'],
    [{ value: '2', hostOnly: true, sameSite: 'Strict' }, 'UPDATED', 'UPDATED'],
    [{ expires: NOW }, 'EXPIRED_EXISTING', 'EXPIRED_EXISTING'],
    [{ expires: new Date(NOW * 1000) }, 'EXPIRED', 'EXPIRED'],
    [{ name: 'm', sameSite: 'None' }, 'INSERTED', 'INSECURE_SAME_SITE_NONE'],
    [{ name: '__Host-p', secure: true }, 'INSERTED', 'PREFIX'],
    [{ name: '__Host-h', secure: true, hostOnly: true }, 'INSERTED', 'INSERTED'],
    [{ name: '__Host-d', secure: true, hostOnly: true, hasPath: false }, 'INSERTED', 'PREFIX'],
    [{ name: 't\x01' }, 'INSERTED', 'CONTROL_CHARACTER'],
    ...[
      [{ name: '' }, 'PARSE'],
      [{ name: 'a;b' }, 'PARSE'],
      [{ value: '1;2' }, 'PARSE'],
      [{ path: 'd' }, 'PARSE'],
      [{ domain: '' }, 'DOMAIN_MISMATCH'],
      [{ domain: '.a.example' }, 'DOMAIN_MISMATCH'],
      [{ domain: 'A.example' }, 'DOMAIN_MISMATCH'],
      [{ name: new Uint8Array([0xff]) }, 'NOT_UTF8'],
      [{ path: new Uint8Array([0xff]) }, 'NOT_UTF8'],
      [{ expires: 253402300800 }, 'BAD_TIME'],
      [{ expires: NaN }, 'BAD_TIME'],
      [{ sameSite: 'strict' }, 'BAD_OPTION'],
      [{ sameSite: '' }, 'BAD_OPTION'],
      [{ name: 1 }, 'ERR_INVALID_ARG_TYPE'],
      [{ domain: null }, 'ERR_INVALID_ARG_TYPE'],
      [{ secure: 1 }, 'ERR_INVALID_ARG_TYPE'],
      [{ expires: '1' }, 'ERR_INVALID_ARG_TYPE'],
    ].map(([changes, code]) => [changes, code, code]),
  ];
  for (const strict of [false, true]) {
    const store = new CookieStore({ strict });
    compare(rows.map(([changes, plain, other]) => [changes, strict ? other : plain]),
      (changes) => store.insert({ ...parts, ...changes }, { now: NOW }));
  }
});

test('inserted cookies come back and are sent', () => {
  const store = new CookieStore({ suffixList: 'example\n', onlyListed: true });
  const parts = [
    { name: 'a', value: '1', domain: 'a.example' },
    { name: 'ü', value: 'a=1', domain: 'a.example', path: '/x', hostOnly: true, httpOnly: true, sameSite: 'Lax',
      expires: new Date((NOW + 60) * 1000) },
    { name: 's', value: '', domain: 'example', secure: true, expires: null, sameSite: null, hasPath: false },
  ];
  for (const cookie of parts) assert.equal(store.insert(cookie, { now: NOW }), 'INSERTED', `of ${cookie.name}`);
  const shared = { path: '/', hostOnly: false, hasPath: true, secure: false, httpOnly: false, sameSite: null, expires: null };
  const expected = parts.map((cookie) => ({ ...shared, ...cookie }));
  expected[2].hostOnly = true; // it is of a public suffix
  assert.deepEqual(store.cookies(), expected);
  compare([
    ['http://a.example/x', NOW, 'ü=a=1; a=1'],
    ['http://a.example/x', NOW + 60, 'a=1'],
    ['http://b.a.example/x', NOW, 'a=1'],
    ['https://example/', NOW, 's='],
    ['http://example/', NOW, null],
  ], (url, now) => store.header(url, { now }));
  const copy = new CookieStore();
  for (const cookie of store) copy.insert(cookie, { now: NOW });
  assert.deepEqual(copy.cookies(), expected);
});

test('a strict store rejects what browsers reject', () => {
  const store = new CookieStore({ strict: true, domainLimit: 1 });
  compare([
    [URL_A, 'a=\x01', 'CONTROL_CHARACTER'],
    [URL_A, `a=${'1'.repeat(4096)}`, 'TOO_LONG'],
    [URL_A, 'a=1; Secure', 'INSECURE_URL'],
    [URL_A, 'a=1; SameSite=None', 'INSECURE_SAME_SITE_NONE'],
    [URL_A, '__Host-a=1', 'PREFIX'],
    ['https://a.example/', '__Http-a=1; Secure', 'PREFIX'],
    ['https://a.example/', 'a=1; Domain=a.example\u00a0', 'DOMAIN_MISMATCH'],
    ['https://a.example/', 'a=1; Secure', 'INSERTED'],
    [URL_A, 'a=1', 'SECURE_STORED'],
    ['https://a.example/', 'b=1', 'SECURE_LIMIT'],
  ], (url, value) => store.parse(url, value, { now: NOW }));
});

test('header returns the cookies of a request', () => {
  const store = storeOf('root=1; Path=/', 'deep=2; Path=/x', 'secure=3; Path=/; Secure', 'brief=4; Path=/; Max-Age=5');
  store.parse(URL_A, 'lax=5; Path=/; SameSite=Lax', { now: NOW });
  store.parse(URL_A, 'strict=6; Path=/; SameSite=Strict', { now: NOW });
  compare([
    [URL_A, NOW, {}, 'deep=2; root=1; brief=4; lax=5; strict=6'],
    ['http://a.example/', NOW + 5, {}, 'root=1; lax=5; strict=6'],
    ['https://a.example/', NOW + 5, {}, 'root=1; secure=3; lax=5; strict=6'],
    ['http://a.example/', NOW + 5, { sameSite: false }, null],
    ['http://a.example/', NOW + 5, { sameSite: false, topLevel: true }, 'root=1; lax=5'],
    ['http://a.example/', NOW + 5, { sameSite: false, laxByDefault: false }, 'root=1'],
    ['http://b.example/', NOW, {}, null],
    [new URL('http://a.example/'), new Date((NOW + 5) * 1000), {}, 'root=1; lax=5; strict=6'],
  ], (url, now, options) => store.header(url, { now, ...options }));
});

const URL_CO = 'https://a.co.example/d/page';
const SAME_SITE = 'https://www.a.co.example/';
const CROSS_SITE = 'https://b.co.example/';

test('a page decides whether a request is cross-site', () => {
  const values = [
    'none=1; SameSite=None; Path=/d', 'unset=2; Path=/d', 'lax=3; SameSite=Lax; Path=/', 'strict=4; SameSite=Strict; Path=/',
  ];
  const all = 'none=1; unset=2; lax=3; strict=4';
  compare([
    [true, { page: SAME_SITE }, all],
    [true, { page: SAME_SITE, topLevel: true, laxByDefault: false }, all],
    [true, { page: SAME_SITE, sameSite: false }, 'none=1'],
    [true, { page: new URL('https://a.co.example:8443/') }, all],
    [true, { page: 'http://a.co.example/' }, 'none=1'],
    [true, { page: CROSS_SITE }, 'none=1'],
    [true, { page: Buffer.from(CROSS_SITE), laxByDefault: false }, 'none=1; unset=2'],
    [true, { page: CROSS_SITE, topLevel: true }, 'none=1; unset=2; lax=3'],
    [true, { page: 'data:text/html,' }, 'none=1'],
    [false, { page: 'https://a.co.example/' }, all],
    [false, { page: SAME_SITE }, 'none=1'],
    [true, { page: '' }, 'BAD_URL'],
    [true, { page: null }, 'ERR_INVALID_ARG_TYPE'],
  ], (isListed, options) => {
    const store = new CookieStore(isListed ? { suffixList: 'co.example\n' } : {});
    for (const value of values) store.parse(URL_CO, value, { now: NOW });
    return store.header(URL_CO, { now: NOW, ...options });
  });
  const long = `a=${'1'.repeat(5000)}`;
  assert.equal(storeOf(long).header(URL_A, { now: NOW, page: URL_A }), long);
});

test('a page decides whether a response is cross-site', () => {
  compare([
    ['a=1; SameSite=Strict', { page: SAME_SITE }, 'INSERTED'],
    ['a=1', { page: SAME_SITE }, 'INSERTED'],
    ['__Host-a=1', { page: SAME_SITE }, 'PREFIX'],
    ['a=1; SameSite=Lax', { page: CROSS_SITE }, 'CROSS_SITE_RESPONSE'],
    ['a=1', { page: CROSS_SITE }, 'CROSS_SITE_RESPONSE'],
    ['a=1; SameSite=None; Secure', { page: new URL(CROSS_SITE) }, 'INSERTED'],
    ['a=1; SameSite=None', { page: CROSS_SITE }, 'INSECURE_SAME_SITE_NONE'],
    ['a=1; SameSite=Strict', { page: CROSS_SITE, topLevel: true }, 'INSERTED'],
    ['a=1', { page: CROSS_SITE, laxByDefault: false }, 'INSERTED'],
    ['a=1\x01', { page: CROSS_SITE }, 'CONTROL_CHARACTER'],
    ['a=1', { page: '' }, 'BAD_URL'],
    ['a=1', { page: null }, 'ERR_INVALID_ARG_TYPE'],
    [null, { page: CROSS_SITE }, 'ERR_INVALID_ARG_TYPE'],
  ], (value, options) => new CookieStore({ suffixList: 'co.example\n' }).parse(URL_CO, value, { now: NOW, ...options }));
  assert.ok(isRejection('CROSS_SITE_RESPONSE'));
});

test('times are Dates and seconds, rounded down', () => {
  const store = storeOf('a=1; Max-Age=5');
  compare([
    [NOW + 4.999, 'a=1'],
    [NOW + 5, null],
    [new Date(NOW * 1000 + 4999), 'a=1'],
    [new Date(NOW * 1000 + 5000), null],
    [-0.5, 'a=1'],
    [-377705116800, 'a=1'],
    [-377705116800.5, 'BAD_TIME'],
    [253402300799.5, null],
    [253402300800, 'BAD_TIME'],
    [NOW * 1000, 'BAD_TIME'],
    [Infinity, 'BAD_TIME'],
    [NaN, 'BAD_TIME'],
    [new Date(NaN), 'BAD_TIME'],
    ['1', 'ERR_INVALID_ARG_TYPE'],
    [null, 'ERR_INVALID_ARG_TYPE'],
    [1n, 'ERR_INVALID_ARG_TYPE'],
  ], (now) => store.header('http://a.example/x/', { now }));
});

test('strings of any length and content come back', () => {
  const rows = [995, 996, 997, 999, 1000, 1001, 4000, 4096, 5000, 100000].flatMap((length) => [
    ['x'.repeat(length)], ['é'.repeat(length)], ['日'.repeat(length)], [`x${'😀'.repeat(length)}`],
  ]);
  for (const [value] of rows) {
    const store = storeOf(`a=${value}; Path=/`);
    assert.equal(store.header(URL_A), `a=${value}`, `header of ${value.length} times ${value.slice(-2)}`);
    assert.equal(store.cookies()[0].value, value, `cookies of ${value.length} times ${value.slice(-2)}`);
  }
  assert.equal(storeOf('a=\ud800').header(URL_A), 'a=\ufffd', 'of a lone surrogate');
});

test('cookies have all fields', () => {
  const store = storeOf('a=1', 'b=ü; Domain=.A.example; Path=/p; Secure; HttpOnly; SameSite=strict; Max-Age=60');
  const shared = { hasPath: false, hostOnly: true, secure: false, httpOnly: false, sameSite: null, expires: null };
  const first = { ...shared, domain: 'a.example', path: '/x', name: 'a', value: '1' };
  const second = {
    domain: 'a.example', path: '/p', name: 'b', value: 'ü', expires: new Date((NOW + 60) * 1000),
    hostOnly: false, hasPath: true, secure: true, httpOnly: true, sameSite: 'Strict',
  };
  assert.deepEqual(store.cookies(), [first, second]);
  assert.deepEqual([...store], [first, second]);
  assert.deepEqual(store.cookiesFor('https://www.a.example/p', { now: NOW }), [second]);
  assert.equal(store.size, 2);
});

test('many cookies come back in their order', () => {
  const names = Array.from({ length: 5000 }, (_, at) => `n${at}`);
  const store = storeOf(...names.map((name) => `${name}=1`));
  assert.deepEqual(store.cookies().map(({ name }) => name), names);
  assert.deepEqual(store.cookiesFor(URL_A).map(({ name }) => name), names);
  assert.equal(store.header(URL_A), names.map((name) => `${name}=1`).join('; '));
});

test('removals return what they remove', () => {
  const store = storeOf('a=1; Path=/', 'b=1; Path=/; Max-Age=5', 'c=1; Path=/');
  store.parse('http://b.example/', 'd=1');
  compare([
    ['remove', ['a.example', '/', 'a'], true],
    ['remove', ['a.example', '/', 'a'], false],
    ['removeExpired', [{ now: NOW + 5 }], 1],
    ['removeDomain', ['b.example'], 1],
    ['removeDomain', ['b.example'], 0],
    ['clear', [], undefined],
  ], (name, args) => store[name](...args));
  assert.equal(store.size, 0);
});

test('a limit evicts the cookies that were created first', () => {
  const store = new CookieStore({ domainLimit: 2 });
  for (const name of ['a', 'b', 'c']) store.parse(URL_A, `${name}=1`);
  assert.equal(store.header(URL_A), 'b=1; c=1');
  compare([
    [0, 'BAD_LIMIT'],
    [-1, 'BAD_LIMIT'],
    [0.5, 'ERR_INVALID_ARG_TYPE'],
    [2 ** 53, 'ERR_INVALID_ARG_TYPE'],
    ['1', 'ERR_INVALID_ARG_TYPE'],
    [3, 3],
    [2 ** 53 - 1, 2 ** 53 - 1],
  ], (limit) => store.setDomainLimit(limit) ?? store.domainLimit);
  assert.equal(new CookieStore().domainLimit, null);
});

test('a top-level domain without a rule is a public suffix, unless only listed ones are', () => {
  compare([[{}, 'PUBLIC_SUFFIX'], [{ onlyListed: true }, 'INSERTED']], (options) => {
    const store = new CookieStore({ suffixList: 'com\n', ...options });
    return store.parse('http://www.example/', 'a=1; Domain=example');
  });
});

test('what is not a suffix list is an error', () => {
  compare([['', ['NO_RULES']], ['com\n<html>', ['BAD_RULE', 2]], [new Uint8Array([0xff]), ['NOT_UTF8']]], (list) => {
    try {
      return new CookieStore().setSuffixList(list);
    } catch (error) {
      return [error.code, ...(error.line ? [error.line] : [])];
    }
  });
});

test('a copy is independent', () => {
  const store = new CookieStore({ strict: true, domainLimit: 7, suffixList: 'com\n' });
  store.parse('https://a.com/', 'a=1');
  const copy = store.clone();
  store.clear();
  assert.deepEqual([copy.size, copy.strict, copy.domainLimit, store.size], [1, true, 7, 0]);
  assert.equal(copy.parse('https://a.com/', 'b=1; Domain=com'), 'PUBLIC_SUFFIX');
});

test('merge inserts the cookies of another store', () => {
  const store = new CookieStore({ suffixList: 'com\n' });
  const other = storeOf('a=1');
  other.parse('http://a.com/', 'b=1');
  assert.equal(store.merge(other), 0);
  assert.equal(store.merge(store), 0);
  assert.deepEqual([store.size, other.size], [2, 2]);
  const others = [null, undefined, {}, new Map(), 'store'].map((value) => [value, 'ERR_INVALID_ARG_TYPE']);
  compare(others, (value) => store.merge(value));
});

test('a closed store', () => {
  const store = storeOf('a=1');
  store.close();
  store.close();
  assert.equal(store.size, 0);
  compare([
    ['header', [URL_A]], ['parse', [URL_A, 'a=1']], ['cookies', []], ['cookiesFor', [URL_A]], ['clone', []], ['clear', []],
    ['remove', ['a', '/', 'a']], ['removeDomain', ['a']], ['removeExpired', []], ['save', []], ['saveLenient', []],
    ['merge', [new CookieStore()]], ['setStrict', [true]], ['setDomainLimit', [1]], ['setSuffixList', ['com']],
  ].map((row) => [...row, 'NO_STORE']), (name, args) => store[name](...args));
  if (Symbol.dispose) assert.equal(store[Symbol.dispose], store.close);
});

test('no argument crashes', () => {
  const values = [
    undefined, null, true, 1, NaN, 1n, Symbol('s'), {}, [], () => {}, new Map(), new Uint16Array(2), new ArrayBuffer(2),
    Object.create(null), new Proxy({}, {}), Object('string'), new Date(),
  ];
  for (const name of ['parse', 'header', 'cookiesFor', 'remove', 'removeDomain', 'merge', 'setSuffixList']) {
    for (const value of values) {
      const result = outcome(() => storeOf('a=1')[name](value, value, value));
      assert.ok(['ERR_INVALID_ARG_TYPE', 'TypeError'].includes(result), `${name}(${inspect(value)}) returned ${inspect(result)}`);
    }
  }
});

test('the addon takes no other object for a store', () => {
  const store = new Store();
  const others = [undefined, null, 1, {}, Store, Object.create(Store.prototype), new Proxy(store, {}), new CookieStore()];
  for (const name of Object.getOwnPropertyNames(Store.prototype).filter((each) => each !== 'constructor')) {
    for (const other of others) {
      assert.throws(() => Store.prototype[name].call(other), TypeError, `${name} of ${inspect(other)}`);
    }
  }
  for (const name of ['merge', 'copyTo']) {
    for (const other of others) assert.throws(() => store[name](other, NOW), TypeError, `${name} with ${inspect(other)}`);
  }
  assert.throws(() => Store(), TypeError);
});

test('errors have a code', () => {
  const error = new CookieStoreError('BAD_URL');
  assert.deepEqual([error.name, error.code, error.message], ['CookieStoreError', 'BAD_URL', 'not a valid URL']);
  assert.ok(error instanceof Error);
  assert.throws(() => new CookieStore().header(''), CookieStoreError);
});

test('the codes are those of the header', () => {
  const header = readFileSync(path.join(PACKAGE, '..', 'c', 'cookie_store.h'), 'utf8');
  const [, statuses] = /enum cookie_store_status \{(.*?)\n\}/s.exec(header);
  const rows = [...statuses.matchAll(/COOKIE_STORE_(\w+) = (\d+)/g)].map(([, code, number]) => [code, Number(number)]);
  assert.ok(rows.length > 30);
  for (const [code, number] of rows) {
    assert.equal(new CookieStoreError(number).code, code, `of ${number}`);
    assert.notEqual(statusText(code), 'unknown status', `the text of ${code}`);
    assert.equal(isRejection(code), (number >= 10 && number < 20) || (number >= 40 && number < 100), `whether ${code} is a rejection`);
  }
  const unknown = [['UNKNOWN_50', true], ['UNKNOWN_99', true], ['UNKNOWN_100', false], ['UNKNOWN_38', false]];
  compare([...unknown, ['NO_SUCH', false], [undefined, false]], isRejection);
  assert.equal(new CookieStoreError(50).code, 'UNKNOWN_50');
});

test('import and require have the same names', async () => {
  const imported = await import('pulleymaroon');
  assert.deepEqual(Object.keys(imported).filter((name) => name !== 'default').sort(), Object.keys(require('pulleymaroon')).sort());
  assert.equal(imported.CookieStore, CookieStore);
});

test('index.d.ts declares each name', () => {
  const declarations = readFileSync(path.join(PACKAGE, 'index.d.ts'), 'utf8');
  for (const name of Object.keys(require('pulleymaroon'))) {
    assert.match(declarations, new RegExp(`^export (?:class|function|const) ${name}\\b`, 'm'), name);
  }
});
