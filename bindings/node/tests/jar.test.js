'use strict';
const assert = require('node:assert/strict');
const { test } = require('node:test');
const { Cookie, CookieJar, CookieStore } = require('pulleymaroon');
const { NOW, compare, optional, outcome } = require('./support');

const tough = optional('tough-cookie');
const AT = new Date(NOW * 1000);
const later = (seconds) => new Date((NOW + seconds) * 1000);

// What both jars do: calls, and what the last one returns.
const SCRIPTS = [
  [[['set', 'a=1', 'http://a.example/x/y'], ['get', 'http://a.example/x/z']], 'a=1'],
  [[['set', 'a=1', 'http://a.example/x/y'], ['get', 'http://a.example/']], ''],
  [[['set', 'a=1; Path=/', 'http://a.example/x/y'], ['get', 'http://b.a.example/']], ''],
  [[['set', 'a=1; Domain=a.example', 'http://b.a.example/'], ['get', 'http://a.example/']], 'a=1'],
  [[['set', 'a=1; Domain=b.example', 'http://a.example/']], 'rejected'],
  [[['set', 'a=1; Domain=com', 'http://www.com/']], 'rejected'],
  [[['set', 'a', 'http://a.example/']], 'rejected'],
  [[['set', '=a', 'http://a.example/']], 'rejected'],
  [[['set', 'a\x01=1', 'http://a.example/']], 'rejected'],
  [[['set', 'a=1; Secure', 'https://a.example/'], ['get', 'http://a.example/']], ''],
  [[['set', 'a=1; Secure', 'https://a.example/'], ['get', 'https://a.example/']], 'a=1'],
  [[['set', 'a=1; Secure', 'https://a.example/'], ['get', 'wss://a.example/']], 'a=1'],
  [[['set', 'a=1; Secure', 'https://a.example/'], ['get', 'http://a.example/', { secure: true }]], 'a=1'],
  [[['set', 'a=1; Secure', 'https://a.example/'], ['get', 'https://a.example/', { secure: false }]], ''],
  [[['set', 'a=1; HttpOnly', 'http://a.example/'], ['get', 'http://a.example/', { http: false }]], ''],
  [[['set', 'a=1; HttpOnly', 'http://a.example/'], ['get', 'ws://a.example/']], 'a=1'],
  [[['set', 'a=1; HttpOnly', 'http://a.example/', { http: false }]], 'rejected'],
  [[['set', 'a=1; HttpOnly', 'http://a.example/'], ['set', 'a=2', 'http://a.example/', { http: false }]], 'rejected'],
  [[['set', 'a=1; Max-Age=5', 'http://a.example/'], ['get', 'http://a.example/', { now: later(4) }]], 'a=1'],
  [[['set', 'a=1; Max-Age=5', 'http://a.example/'], ['get', 'http://a.example/', { now: later(5) }]], ''],
  [[['set', 'a=1; Max-Age=5', 'http://a.example/'], ['get', 'http://a.example/', { now: later(5), expire: false }]], 'a=1'],
  [[['set', 'a=1; Max-Age=0', 'http://a.example/'], ['get', 'http://a.example/']], ''],
  [[['set', 'a=1', 'http://a.example/'], ['set', 'a=; Max-Age=0', 'http://a.example/'], ['get', 'http://a.example/']], ''],
  [[['set', 'a=1; Expires=Fri, 01 Jan 2100 00:00:00 GMT', 'http://a.example/'], ['get', 'http://a.example/']], 'a=1'],
  [[['set', 'a=1; Path=/', 'http://a.example/'], ['set', 'b=2; Path=/x', 'http://a.example/'],
    ['set', 'c=3; Path=/', 'http://a.example/'], ['get', 'http://a.example/x']], 'b=2; a=1; c=3'],
  [[['set', 'a=1; SameSite=Strict', 'http://a.example/'], ['get', 'http://a.example/', { sameSiteContext: 'strict' }]], 'a=1'],
  [[['set', 'a=1; SameSite=Strict', 'http://a.example/'], ['get', 'http://a.example/', { sameSiteContext: 'lax' }]], ''],
  [[['set', 'a=1; SameSite=Lax', 'http://a.example/'], ['get', 'http://a.example/', { sameSiteContext: 'lax' }]], 'a=1'],
  [[['set', 'a=1; SameSite=Lax', 'http://a.example/'], ['get', 'http://a.example/', { sameSiteContext: 'none' }]], ''],
  [[['set', 'a=1', 'http://a.example/'], ['get', 'http://a.example/', { sameSiteContext: 'NONE' }]], 'a=1'],
  [[['set', 'a=1; SameSite=Lax', 'http://a.example/', { sameSiteContext: 'none' }]], 'rejected'],
  [[['get', 'http://a.example/', { sameSiteContext: 'other' }]], 'rejected'],
  [[['set', '__Secure-a=1', 'https://a.example/'], ['get', 'https://a.example/']], ''],
  [[['set', '__Secure-a=1; Secure', 'https://a.example/'], ['get', 'https://a.example/']], '__Secure-a=1'],
  [[['set', '__Host-a=1; Secure; Path=/; Domain=a.example', 'https://a.example/'], ['get', 'https://a.example/']], ''],
  [[['set', '__Host-a=1; Secure; Path=/', 'https://a.example/'], ['get', 'https://a.example/']], '__Host-a=1'],
  [[['set', 'a=1; Domain=b.example', 'http://a.example/', { ignoreError: true }], ['get', 'http://a.example/']], ''],
  [[['set', 'a=1', 'http://bücher.example/'], ['get', 'http://xn--bcher-kva.example/']], 'a=1'],
  [[['set', 'a=1', 'http://bücher.example/'], ['set', 'b=2', 'http://bücher.example/'], ['get', 'http://bücher.example/']], 'a=1; b=2'],
];

/** Runs a script with a jar, at one time. */
function run(jar, calls) {
  let last;
  try {
    for (const [call, ...args] of calls) {
      const options = { now: AT, ...(typeof args.at(-1) === 'object' ? args.pop() : {}) };
      last = call === 'set' ? jar.setCookieSync(...args, options) : jar.getCookieStringSync(...args, options);
    }
  } catch {
    return 'rejected';
  }
  return last;
}

test('a jar does what tough-cookie documents', () => {
  compare(SCRIPTS, (calls) => run(new CookieJar(), calls));
});

test('tough-cookie does the same', { skip: !tough && 'there is no tough-cookie' }, () => {
  compare(SCRIPTS, (calls) => run(new tough.CookieJar(), calls));
});

// What differs, by the table of the page 'Moving from tough-cookie', where a call shows it: tough-cookie's result, and ours.
const DIFFERENCES = [
  [[['set', 'a=1; Secure', 'https://localhost/'], ['get', 'http://localhost/']], '', 'a=1'],
  [[['set', 'a=1', 'http://a.example/'], ['get', 'http://b\\@a.example/']], '', 'rejected'],
  [[['set', 'a=1; Path=/%C3%A9', 'http://a.example/'], ['get', 'http://a.example/%C3%A9']], '', 'a=1'],
  [[['set', 'a=1', 'http://a.example/'], ['get', 'http://a.example/', { allPaths: true }]], 'a=1', 'rejected'],
  [[['set', 'a=1\nb', 'http://a.example/'], ['get', 'http://a.example/']], 'a=1', 'rejected'],
  [[['set', 'a=1; Domain=com', 'http://com/'], ['get', 'http://com/']], 'rejected', 'a=1'],
  [[['set', 'a=1', 'http://a.example./'], ['get', 'http://a.example./']], '', 'a=1'],
];

test('the differences are those that the page lists', () => {
  compare(DIFFERENCES.map(([calls, , ours]) => [calls, ours]), (calls) => run(new CookieJar(), calls));
});

test('tough-cookie differs so', { skip: !tough && 'there is no tough-cookie' }, () => {
  compare(DIFFERENCES.map(([calls, theirs]) => [calls, theirs]), (calls) => run(new tough.CookieJar(), calls));
});

test('a rejected cookie is an error with a code', () => {
  compare([
    ['a=1; Domain=b.example', 'http://a.example/', {}, 'DOMAIN_MISMATCH'],
    ['a=1; Domain=com', 'http://www.com/', {}, 'PUBLIC_SUFFIX'],
    ['a', 'http://a.example/', {}, 'PARSE'],
    ['a=1; SameSite=Lax', 'http://a.example/', { sameSiteContext: 'none' }, 'CROSS_SITE_RESPONSE'],
    ['a=1', 'http://a.example/', { sameSiteContext: 'other' }, 'BAD_OPTION'],
    ['a=1', 'http://a.example/', { loose: true }, 'BAD_OPTION'],
    ['a=1', 'nowhere', {}, 'BAD_URL'],
    ['a=1', 'nowhere', { ignoreError: true }, undefined],
    ['a', 'http://a.example/', { ignoreError: true }, undefined],
    [{}, 'http://a.example/', {}, 'ERR_INVALID_ARG_TYPE'],
    ['a=1', undefined, {}, 'ERR_INVALID_ARG_TYPE'],
    ['a=1', 'http://a.example/', { now: 'never' }, 'BAD_TIME'],
  ], (value, url, options) => new CookieJar().setCookieSync(value, url, options));
  const strict = new CookieJar(null, { prefixSecurity: 'strict' });
  compare([
    ['__Host-a=1', 'PREFIX'],
    ['\x85__Host-a=1', 'PREFIX'],
    ['\u2003__Secure-a=1', 'PREFIX'],
    ['a__Host-=1', 'a__Host-=1; Path=/'],
  ], (value) => String(strict.setCookieSync(value, 'https://a.example/')));
  const open = new CookieJar(null, { prefixSecurity: 'unsafe-disabled', rejectPublicSuffixes: false });
  assert.equal(open.setCookieSync('__Host-a=1; Domain=com', 'https://www.com/').domain, 'com');
  const unknown = [[{ looseMode: true }, 'BAD_OPTION'], [{ prefixSecurity: 'other' }, 'BAD_OPTION']];
  compare(unknown, (options) => new CookieJar(null, options));
});

test('calls return promises and take callbacks', async () => {
  const jar = new CookieJar();
  const calls = [];
  await jar.setCookie('a=1', 'http://a.example/');
  jar.setCookie('b=2', 'http://a.example/', { now: AT }, (error, cookie) => calls.push([error, cookie.key]));
  jar.setCookie('c', 'http://a.example/', (error, cookie) => calls.push([error.code, cookie]));
  jar.getCookies('http://a.example/', (error, cookies) => calls.push([error, cookies.map(({ key }) => key)]));
  jar.getCookieString('http://a.example/', {}, (error, text) => calls.push([error, text]));
  jar.getSetCookieStrings('http://a.example/', (error, texts) => calls.push([error, texts]));
  jar.removeAllCookies((error) => calls.push([error]));
  const listed = [[null, ['a', 'b']], [null, 'a=1; b=2'], [null, ['a=1; Path=/', 'b=2; Path=/']]];
  assert.deepEqual(calls, [[null, 'b'], ['PARSE', undefined], ...listed, [null]]);
  await assert.rejects(jar.setCookie('c', 'http://a.example/'), { code: 'PARSE' });
  assert.equal(await jar.getCookieString('http://a.example/'), '');
  assert.throws(() => jar.getCookies('http://a.example/', () => {
    throw new Error('of the callback');
  }), { message: 'of the callback' });
});

test('a cookie that is set comes back with its domain and path', () => {
  const jar = new CookieJar();
  const given = Cookie.parse('b=2; Domain=a.example; Path=/p; Max-Age=60; Secure; HttpOnly; SameSite=Lax; Priority=High');
  const set = (cookie) => {
    const result = jar.setCookieSync(cookie, 'https://www.a.example/x/y', { now: AT });
    return [result.key, result.domain, result.path, result.hostOnly, result.pathIsDefault, Number(result.creation)];
  };
  assert.deepEqual(set('a=1'), ['a', 'www.a.example', '/x', true, true, Number(AT)]);
  assert.deepEqual(set(given), ['b', 'a.example', '/p', false, null, Number(AT)]);
  const [cookie] = jar.getCookiesSync('https://a.example/p', { now: AT });
  const { key, value, domain, path, secure, httpOnly, sameSite, hostOnly, expires } = cookie;
  assert.deepEqual([key, value, domain, path, secure, httpOnly, sameSite, hostOnly, Number(expires)],
    ['b', '2', 'a.example', '/p', true, true, 'lax', false, Number(later(60))]);
});

test('a Cookie object whose parts run into each other is rejected', () => {
  compare([
    [{ key: 'a', value: '1; Domain=com' }, 'PARSE'],
    [{ key: 'a=b', value: '1' }, 'PARSE'],
    [{ key: '', value: '1' }, 'PARSE'],
    [{ key: 'a', value: '1\n' }, 'PARSE'],
    [{ key: 'a', value: '1', path: '/;x' }, 'PARSE'],
    [{ key: 'a', value: '1', sameSite: 'lax; Domain=com' }, 'PARSE'],
    [{ key: 'a', value: '1', maxAge: undefined, domain: undefined, path: undefined }, 'a=1'],
    [{ key: 'a', value: '1', domain: 'b.example', hostOnly: true }, 'DOMAIN_MISMATCH'],
    [{ key: 'a', value: '1', domain: 'a.example', hostOnly: true }, 'a=1'],
  ], (properties) => new CookieJar().setCookieSync(new Cookie(properties), 'http://a.example/').cookieString());
});

test('a jar is read from the JSON of tough-cookie', () => {
  const serialized = {
    version: 'tough-cookie@4.0.0',
    storeType: 'MemoryCookieStore',
    rejectPublicSuffixes: true,
    cookies: [
      { key: 'a', value: '1', hostOnly: true },
      { key: 'b', value: '2', path: '/x', hostOnly: false, secure: true, maxAge: 60 },
      { key: 'c', value: '3', hostOnly: true, expires: later(60).toISOString(), sameSite: 'strict' },
      { key: 'd', value: '4', hostOnly: true, maxAge: 'Infinity' },
    ].map((cookie) => ({ domain: 'a.example', path: '/', creation: AT.toISOString(), ...cookie })),
  };
  for (const json of [serialized, JSON.stringify(serialized)]) {
    const jar = CookieJar.deserializeSync(json);
    compare([
      ['http://a.example/', { now: later(59) }, 'a=1; c=3; d=4'],
      ['http://a.example/', { now: later(60) }, 'a=1; d=4'],
      ['https://www.a.example/x', { now: later(59) }, 'b=2'],
      ['https://www.a.example/x', { now: later(60) }, ''],
      ['http://a.example/', { now: later(59), sameSiteContext: 'lax' }, 'a=1; d=4'],
    ], (url, options) => jar.getCookieStringSync(url, options));
    assert.equal(outcome(() => jar.setCookieSync('a=1; Domain=com', 'http://www.com/')), 'PUBLIC_SUFFIX');
  }
  compare([
    ['{', 'SyntaxError'],
    ['{}', 'BAD_SHAPE'],
    [{ cookies: 'a' }, 'BAD_SHAPE'],
    [{ cookies: [{ key: 'a' }] }, 'PARSE'],
    [{ cookies: [{ key: 'a', value: ';', domain: 'a', path: '/' }] }, 'PARSE'],
    [{ cookies: [{ key: 'a', value: '1', domain: 'a', path: '/', expires: 'never' }] }, 'BAD_EXPIRY'],
  ], (json) => CookieJar.deserializeSync(json));
});

test('JSON goes both ways', { skip: !tough && 'there is no tough-cookie' }, async () => {
  const now = new Date(); // at which a jar is added to a store
  const sent = [
    ['http://a.example/', 'a=1; d=4'],
    ['https://a.example/x/', 'b=2; a=1; d=4'],
    ['https://www.a.example/x/', 'b=2'],
    ['http://b.example/x/y', 'c=3'],
    ['http://[::1]/', 'e=5'],
  ];
  const fill = (jar) => {
    jar.setCookieSync('a=1', 'http://a.example/', { now });
    jar.setCookieSync('b=2; Domain=a.example; Secure; Max-Age=60', 'https://a.example/x/y', { now });
    jar.setCookieSync('c=3; Path=/x; HttpOnly; Expires=Fri, 01 Jan 2100 00:00:00 GMT', 'http://b.example/', { now });
    jar.setCookieSync('d=4; Path=/; SameSite=Lax', 'https://a.example/', { now });
    jar.setCookieSync('e=5', 'http://[::1]/', { now });
    return jar;
  };
  const theirs = fill(new tough.CookieJar());
  const ours = fill(new CookieJar());
  const jars = {
    theirs,
    ours,
    'from theirs': CookieJar.fromJSON(JSON.stringify(theirs)),
    'from ours': tough.CookieJar.fromJSON(JSON.stringify(ours)),
    'from ours, to ours': await CookieJar.deserialize(await ours.serialize()),
    'a clone': await ours.clone(),
    'added to a store': CookieJar.deserializeSync(theirs.toJSON(), new CookieStore()),
  };
  for (const [name, jar] of Object.entries(jars)) {
    for (const [url, expected] of sent) assert.equal(jar.getCookieStringSync(url, { now }), expected, `${name}: ${url}`);
  }
});

// What Cookie and tough-cookie's Cookie return.
const COOKIES = [
  ['a=1; Max-Age=60', (cookie) => cookie.expiryTime(AT), NOW * 1000 + 60000],
  ['a=1; Max-Age=0', (cookie) => cookie.expiryTime(AT), -Infinity],
  ['a=1; Max-Age=60', (cookie) => cookie.TTL(), 60000],
  ['a=1; Max-Age=-1', (cookie) => cookie.TTL(), 0],
  ['a=1', (cookie) => cookie.TTL(), Infinity],
  ['a=1', (cookie) => cookie.isPersistent(), false],
  ['a=1', (cookie) => cookie.expiryTime(), Infinity],
  ['a=1; Expires=Thu, 01 Jan 1970 00:01:00 GMT', (cookie) => cookie.expiryTime(), 60000],
  ['a=1; Expires=Thu, 01 Jan 1970 00:01:00 GMT', (cookie) => cookie.isPersistent(), true],
  ['a=1; Expires=Thu, 01 Jan 1970 00:01:00 GMT', (cookie) => cookie.expiryDate().getTime(), 60000],
  ['a=1; Expires=Thu, 01 Jan 1970 00:01:00 GMT', (cookie) => cookie.TTL(50000), 10000],
  ['a=1; Expires=never', (cookie) => cookie.expires, 'Infinity'],
  ['a=1; Expires=1 Jan 70 0:1:0', String, 'a=1; Expires=Thu, 01 Jan 1970 00:01:00 GMT'],
  [' a = 1 ; PATH = /x ; domain=.A.example; secure; HTTPONLY; SameSite=LAX; Priority=High', String,
    'a=1; Domain=a.example; Path=/x; Secure; HttpOnly; SameSite=Lax; Priority=High'],
  ['a=1=2; Path=x; Max-Age=x; Domain=', String, 'a=1=2'],
  ['a=1;; b', (cookie) => cookie.extensions, ['b']],
  ['a=1;', String, 'a=1'],
  ['a="1"', (cookie) => cookie.cookieString(), 'a="1"'],
  ['a=', (cookie) => cookie.cookieString(), 'a='],
  ['a=1; Domain=B\u00fccher.example', (cookie) => cookie.cdomain(), 'xn--bcher-kva.example'],
  ['a=1', (cookie) => cookie.cdomain(), null],
  ['a=1; Path=/; Max-Age=5', (cookie) => cookie.validate(), true],
  ['a=1 2', (cookie) => cookie.validate(), false],
  ['a=1; Max-Age=0', (cookie) => cookie.validate(), false],
  ['a=1; Max-Age=5; Secure', (cookie) => {
    const { creation, ...json } = cookie.toJSON();
    return json;
  }, { key: 'a', value: '1', maxAge: 5, secure: true }],
  ['a=1; Expires=Thu, 01 Jan 1970 00:01:00 GMT', (cookie) => cookie.clone().expires.getTime(), 60000],
  ['a=1', (cookie) => {
    cookie.setMaxAge(-Infinity);
    return cookie.toJSON().maxAge;
  }, '-Infinity'],
  ['a=1', (cookie) => {
    cookie.setExpires('Thu, 01 Jan 1970 00:01:00 GMT; Path=/');
    return cookie.expires.getTime();
  }, 60000],
];

test('a Cookie has the properties and methods of tough-cookie', () => {
  compare(COOKIES, (text, call) => call(Cookie.parse(text)));
  compare([['a'], [''], ['=1'], ['a\0=1'], [' =1'], ['a; b=1']].map((row) => [...row, undefined]), (text) => Cookie.parse(text));
  compare([
    ['Thu, 01 Jan 1970 00:00:00 GMT', 0],
    ['never', Infinity],
    ['Infinity', Infinity],
    [null, Infinity],
    [new Date(5000), 5000],
  ], (expires) => new Cookie({ key: 'a', expires }).expiryTime());
  compare([['{'], [''], [null], [undefined], ['1']].map((row) => [...row, null]), (json) => Cookie.fromJSON(json));
});

test('so has the Cookie of tough-cookie', { skip: !tough && 'there is no tough-cookie' }, () => {
  compare(COOKIES, (text, call) => call(tough.Cookie.parse(text)));
});

test('the examples of tough-cookie run', async () => {
  // Response headers are parsed, changed and set; the jar makes the header of the next request.
  const response = { headers: { 'set-cookie': ['id=1; Path=/', 'lang=de; Path=/'] } };
  const cookies = response.headers['set-cookie'].map(Cookie.parse);
  cookies[0].value = 'other';
  const jar = new CookieJar();
  for (const cookie of cookies) await jar.setCookie(cookie, 'http://current.example.com/path');
  const next = await jar.getCookies('http://current.example.com/otherpath');
  assert.equal(next.map((cookie) => cookie.cookieString()).join('; '), 'id=other; lang=de');
  assert.equal(cookies[0].toString(), 'id=other; Path=/');
  assert.equal(cookies[0].validate() === true, true);
  // Pairs of a Cookie header.
  const header = 'ID=abc123; tough=cookie'.split(';').map(Cookie.parse).map((cookie) => cookie.cookieString()).join(';');
  assert.equal(header, 'ID=abc123;tough=cookie');
  // A jar survives JSON.
  const copy = CookieJar.fromJSON(JSON.stringify(jar));
  assert.equal(copy.getCookieStringSync('http://current.example.com/'), 'id=other; lang=de');
  assert.deepEqual(Object.keys(jar.toJSON()).slice(0, 3), ['version', 'storeType', 'rejectPublicSuffixes']);
});
