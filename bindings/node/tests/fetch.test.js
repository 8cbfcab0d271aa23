'use strict';
const assert = require('node:assert/strict');
const { createHash } = require('node:crypto');
const { test } = require('node:test');
const { CookieJar, CookieStore, withCookies } = require('pulleymaroon');
const { resultOf, serve } = require('./support');

/** Returns a fetch with the responses of a table, by their URLs, and the requests that it gets. */
function answering(responses) {
  const requests = [];
  const answer = async (target, init) => {
    const request = new Request(target, init);
    const { url, method, headers: sent } = request;
    requests.push({ url, method, headers: Object.fromEntries(sent), body: await request.text() });
    assert.equal(request.redirect, 'manual');
    const { status = 200, location, cookies = [] } = responses[url] ?? {};
    const headers = cookies.map((cookie) => ['set-cookie', cookie]);
    return new Response(null, { status, headers: location === undefined ? headers : [...headers, ['location', location]] });
  };
  return { answer, requests };
}

/** Returns the requests that one call makes, each as its method, URL and cookies. */
async function fetched(responses, input, init, store = new CookieStore()) {
  const { answer, requests } = answering(responses);
  const result = await resultOf(withCookies(answer, store)(input, init));
  const lines = requests.map(({ url, method, headers }) => [method, url, headers.cookie].filter(Boolean).join(' '));
  return typeof result === 'string' ? [...lines, result] : lines;
}

const A = 'http://a.example/';
const B = 'http://b.example/';

test('requests have the cookies of the store', async () => {
  const store = new CookieStore();
  const { answer, requests } = answering({ [A]: { cookies: ['a=1', 'b=2; Domain=b.example', 'c=3; Path=/'] } });
  const get = withCookies(answer, store);
  for (const input of [A, new URL(A), new Request(A), A, B]) await get(input);
  assert.deepEqual(requests.map(({ headers }) => headers.cookie), [undefined, 'a=1; c=3', 'a=1; c=3', 'a=1; c=3', undefined]);
  assert.equal(store.size, 2);
});

test('redirects are followed with the cookies of each URL', async () => {
  const redirect = (status, location, ...cookies) => ({ status, location, cookies });
  const rows = [
    ['to a path', { [A]: redirect(302, '/x', 'a=1') }, {}, [`GET ${A}`, `GET ${A}x a=1`]],
    ['to another host', { [A]: redirect(302, B, 'a=1') }, {}, [`GET ${A}`, `GET ${B}`]],
    ['and back', { [A]: redirect(301, B, 'a=1; Path=/'), [B]: redirect(301, `${A}x`) }, {},
      [`GET ${A}`, `GET ${B}`, `GET ${A}x a=1`]],
    ['POST, 302', { [A]: redirect(302, '/x') }, { method: 'POST', body: 'b' }, [`POST ${A}`, `GET ${A}x`]],
    ['POST, 303', { [A]: redirect(303, '/x') }, { method: 'POST', body: 'b' }, [`POST ${A}`, `GET ${A}x`]],
    ['POST, 307', { [A]: redirect(307, '/x') }, { method: 'POST', body: 'b' }, [`POST ${A}`, `POST ${A}x`]],
    ['PUT, 301', { [A]: redirect(301, '/x') }, { method: 'PUT', body: 'b' }, [`PUT ${A}`, `PUT ${A}x`]],
    ['post, 302', { [A]: redirect(302, '/x') }, { method: 'post', body: 'b' }, [`POST ${A}`, `GET ${A}x`]],
    ['PUT, 303', { [A]: redirect(303, '/x') }, { method: 'PUT', body: 'b' }, [`PUT ${A}`, `GET ${A}x`]],
    ['HEAD, 303', { [A]: redirect(303, '/x') }, { method: 'HEAD' }, [`HEAD ${A}`, `HEAD ${A}x`]],
    ['without a location', { [A]: redirect(302, undefined) }, {}, [`GET ${A}`]],
    ['300', { [A]: redirect(300, '/x') }, {}, [`GET ${A}`]],
    ['to no HTTP', { [A]: redirect(302, 'file:///etc/passwd') }, {}, [`GET ${A}`, 'TypeError']],
    ['to no URL', { [A]: redirect(302, 'http://[') }, {}, [`GET ${A}`, 'ERR_INVALID_URL']],
    ['manual', { [A]: redirect(302, '/x', 'a=1') }, { redirect: 'manual' }, [`GET ${A}`]],
    ['error', { [A]: redirect(302, '/x', 'a=1') }, { redirect: 'error' }, [`GET ${A}`, 'TypeError']],
    ['error, without a location', { [A]: redirect(302, undefined) }, { redirect: 'error' }, [`GET ${A}`, 'TypeError']],
    ['null as options', { [A]: redirect(302, '/x') }, null, [`GET ${A}`, `GET ${A}x`]],
    ['another mode', {}, { redirect: 'maybe' }, ['TypeError']],
    ['in UTF-8', { [A]: redirect(302, '/\u00c3\u00bc') }, {}, [`GET ${A}`, `GET ${A}%C3%BC`]],
    ['omit', { [A]: redirect(302, '/x', 'a=1') }, { credentials: 'omit' }, [`GET ${A}`, `GET ${A}x`]],
    ['include', { [A]: redirect(302, '/x', 'a=1') }, { credentials: 'include' }, [`GET ${A}`, `GET ${A}x a=1`]],
    ['of a loop', { [A]: redirect(302, A) }, {}, [...Array(21).fill(`GET ${A}`), 'TypeError']],
  ];
  for (const [name, responses, init, expected] of rows) assert.deepEqual(await fetched(responses, A, init), expected, name);
});

test('the cookies of a redirect that is not followed are stored', async () => {
  for (const [redirect, expected] of [['manual', 302], ['error', 'TypeError']]) {
    const store = new CookieStore();
    const { answer } = answering({ [A]: { status: 302, location: '/x', cookies: ['a=1'] } });
    const result = await resultOf(withCookies(answer, store)(A, { redirect }));
    assert.equal(result.status ?? result, expected, redirect);
    assert.equal(store.header(A), 'a=1', redirect);
  }
});

test('a redirect keeps and removes headers', async () => {
  const headers = { authorization: 'x', cookie: 'own=1', 'content-type': 'text/plain', 'x-other': 'y' };
  const rows = [
    ['same origin', 307, '/x', ['authorization', 'content-type', 'cookie', 'x-other'], 'b'],
    ['other origin', 307, B, ['content-type', 'x-other'], 'b'],
    ['as GET', 303, '/x', ['authorization', 'cookie', 'x-other'], ''],
  ];
  for (const [name, status, location, expected, body] of rows) {
    const { answer, requests } = answering({ [A]: { status, location } });
    await withCookies(answer, new CookieStore())(A, { method: 'POST', body: 'b', headers });
    assert.deepEqual(Object.keys(requests[1].headers).sort(), expected, name);
    assert.equal(requests[1].body, body, name);
  }
});

test('a Cookie header of the request is sent first', async () => {
  const store = new CookieStore();
  store.parse(A, 'a=1');
  assert.deepEqual(await fetched({}, A, { headers: { Cookie: 'own=2' } }, store), [`GET ${A} own=2; a=1`]);
});

test('what is dropped is reported', async () => {
  const entry = { path: ['/', true], domain: { HostOnly: 'a.example' }, expires: 'SessionEnd' };
  const list = [{ raw_cookie: 'bad=1\r\nX: 1', ...entry }, { raw_cookie: 'good=ü', ...entry }];
  const store = CookieStore.load(JSON.stringify(list));
  const dropped = [];
  const { answer, requests } = answering({ [`${A}x`]: { cookies: ['c=3; Domain=b.example', 'd=\u00ff', 'e=\u00c3\u00bc'] } });
  const get = withCookies(answer, store, { onDropped: ({ host, name, code }) => dropped.push([host, name, code]) });
  await get(`${A}x`);
  assert.equal(requests[0].headers.cookie, 'good=\u00c3\u00bc', 'each character is a byte');
  const expected = [['bad', 'CONTROL_CHARACTER'], ['c', 'DOMAIN_MISMATCH'], ['d', 'NOT_UTF8']];
  assert.deepEqual(dropped, expected.map((row) => ['a.example', ...row]));
  assert.equal(store.cookiesFor(A).at(-1).value, 'ü');
});

test('arguments of wrong types', async () => {
  for (const args of [['fetch', new CookieStore()], [fetch, {}], [fetch, null], [fetch, undefined]]) {
    assert.throws(() => withCookies(...args), { code: 'ERR_INVALID_ARG_TYPE' }, String(args));
  }
  assert.equal(typeof withCookies(fetch, new CookieJar()), 'function');
  const rows = [['nowhere', 'ERR_INVALID_URL'], [undefined, 'ERR_INVALID_URL'], ['http://a:b@c/', 'TypeError']];
  for (const [input, expected] of rows) {
    assert.equal(await resultOf(withCookies(fetch, new CookieStore())(input)), expected, String(input));
  }
  assert.equal(await (await withCookies(fetch, new CookieStore())('data:,x')).text(), 'x');
  const closed = new CookieStore();
  closed.close();
  assert.equal(await resultOf(withCookies(fetch, closed)(A)), 'NO_STORE');
});

test('the fetch of Node sends and repeats bodies', async (context) => {
  const origin = await serve(context, (request, response) => {
    let body = '';
    request.on('data', (chunk) => {
      body += chunk;
    });
    request.on('end', () => {
      const isFirst = request.url === '/first';
      const headers = { 'Set-Cookie': ['a=1; Path=/', 'b=\xfc', 'c=2'], Location: '/second' };
      response.writeHead(isFirst ? 307 : 200, isFirst ? headers : {});
      response.end(`${request.method} ${request.headers.cookie ?? ''} ${request.headers['content-type'] ?? ''} ${body}`);
    });
  });
  const post = { method: 'POST', headers: { 'content-type': 'x/y' } };
  const stream = () => new ReadableStream({
    start(controller) {
      controller.enqueue(new TextEncoder().encode('body'));
      controller.close();
    },
  });
  const [first, second] = [`${origin}/first`, `${origin}/second`];
  const streaming = () => ({ ...post, body: stream(), duplex: 'half' });
  const again = 'POST a=1; c=2 x/y body';
  const rows = [
    ['a string', first, { ...post, body: 'body' }, again],
    ['bytes', first, { ...post, body: new TextEncoder().encode('body') }, again],
    ['a Request', new Request(first, { ...post, body: 'body' }), undefined, again],
    ['a Request with a stream', new Request(first, streaming()), undefined, again],
    ['a Request and another body', new Request(first, { ...post, body: 'no' }), { body: 'body' }, again],
    ['a stream, once', second, streaming(), 'POST  x/y body'],
    ['a stream, again', first, streaming(), 'TypeError'],
  ];
  for (const [name, input, init, expected] of rows) {
    const response = await resultOf(withCookies(fetch, new CookieStore())(input, init));
    assert.equal(typeof response === 'string' ? response : await response.text(), expected, name);
    if (typeof response !== 'string') assert.equal(response.redirected, !name.includes('once'), name);
  }
});

test('integrity is checked for each response', async (context) => {
  const origin = await serve(context, (request, response) => {
    response.writeHead(request.url === '/first' ? 302 : 200, { Location: '/second' });
    response.end(request.url === '/first' ? 'moved' : 'body');
  });
  const integrity = `sha256-${createHash('sha256').update('body').digest('base64')}`;
  const get = withCookies(fetch, new CookieStore());
  assert.equal(await (await get(`${origin}/second`, { integrity })).text(), 'body');
  assert.equal(await resultOf(get(`${origin}/first`, { integrity })), 'TypeError');
});

test('headers of node-fetch and of an old Node', async () => {
  const store = new CookieStore();
  const responding = (headers) => async () => ({ status: 200, headers: { get: () => null, ...headers } });
  await withCookies(responding({ raw: () => ({ 'set-cookie': ['a=1', 'b=2'] }) }), store)(A);
  await withCookies(responding({ raw: () => ({}) }), store)(A);
  assert.equal(store.header(A), 'a=1; b=2');
  assert.equal(await resultOf(withCookies(responding({}), store)(A)), 'TypeError');
});

test('a request that is aborted rejects', async (context) => {
  const origin = await serve(context, () => {});
  const controller = new AbortController();
  const pending = withCookies(fetch, new CookieStore())(origin, { signal: controller.signal });
  controller.abort();
  await assert.rejects(pending, { name: 'AbortError' });
});
