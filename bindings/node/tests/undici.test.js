'use strict';
const assert = require('node:assert/strict');
const { test } = require('node:test');
const { CookieStore, cookieInterceptor } = require('pulleymaroon');
const { optional, outcome, serve } = require('./support');

/** Returns the dispatcher of the fetch of Node. The package undici, if it is loaded first, would put one of its own there. */
async function ownDispatcher() {
  await fetch('data:,');
  return globalThis[Symbol.for('undici.globalDispatcher.1')];
}

/** Starts a server that returns the Cookie header, and sets cookies. */
function serveCookies(context) {
  return serve(context, (request, response) => {
    response.writeHead(200, { 'Set-Cookie': ['a=1', 'b=2; Domain=b.example', 'c=\xc3\xbc'] });
    response.end(request.headers.cookie ?? '', 'latin1');
  });
}

/** Returns an interceptor, its store, and what it drops. */
function intercepting(options) {
  const store = new CookieStore();
  const dropped = [];
  const interceptor = cookieInterceptor(store, { ...options, onDropped: ({ name, code }) => dropped.push([name, code]) });
  return { store, dropped, interceptor };
}

test('the interceptor of a dispatcher with compose', async (context) => {
  const own = await ownDispatcher();
  if (typeof own?.compose !== 'function') return context.skip('the undici of Node has no compose');
  const origin = await serveCookies(context);
  const { store, dropped, interceptor } = intercepting();
  const dispatcher = own.compose(interceptor);
  const bodies = [];
  for (const headers of [{}, {}, { cookie: 'own=3' }]) {
    const response = await fetch(origin, { dispatcher, headers });
    bodies.push(Buffer.from(await response.arrayBuffer()).toString());
  }
  assert.deepEqual(bodies, ['', 'a=1; c=ü', 'own=3; a=1; c=ü']);
  assert.deepEqual(dropped, Array(3).fill(['b', 'DOMAIN_MISMATCH']));
  assert.equal(store.size, 2);
  return undefined;
});

test('the interceptor of the package undici', async (context) => {
  const undici = optional('undici');
  if (!undici) return context.skip('there is no undici');
  const origin = await serveCookies(context);
  const { interceptor } = intercepting();
  const agent = new undici.Agent({ interceptors: { Agent: [interceptor], Client: [] } });
  const dispatcher = agent.compose ? new undici.Agent().compose(interceptor) : agent;
  const rows = [
    [undefined, ''],
    [undefined, 'a=1; c=ü'],
    [['x-y', 'z', 'Cookie', 'own=3'], 'own=3; a=1; c=ü'],
    [{ 'x-y': 'z', Cookie: 'own=3' }, 'own=3; a=1; c=ü'],
  ];
  for (const [headers, expected] of rows) {
    const { body } = await undici.request(origin, { dispatcher, headers });
    assert.equal(await body.text(), expected, JSON.stringify(headers));
  }
  await dispatcher.close();
  return undefined;
});

/** Returns the headers that an interceptor passes on, as an array. */
function passed(interceptor, options) {
  let headers;
  interceptor((given) => {
    headers = given.headers;
    return true;
  })(options, {});
  return headers;
}

test('headers of any form get the cookies', () => {
  const { store, interceptor } = intercepting();
  store.parse('http://a.example/', 'a=1');
  const rows = [
    [undefined, ['cookie', 'a=1']],
    [null, ['cookie', 'a=1']],
    [{ x: '1', y: ['2', '3'] }, ['x', '1', 'y', '2', 'y', '3', 'cookie', 'a=1']],
    [['x', '1'], ['x', '1', 'cookie', 'a=1']],
    [[['x', '1'], ['COOKIE', 'o=2']], ['x', '1', 'cookie', 'o=2; a=1']],
    [new Map([['x', '1']]), ['x', '1', 'cookie', 'a=1']],
    [new Headers({ x: '1', cookie: 'o=2' }), ['x', '1', 'cookie', 'o=2; a=1']],
  ];
  for (const [headers, expected] of rows) {
    assert.deepEqual(passed(interceptor, { origin: 'http://a.example', path: '/', headers }), expected, JSON.stringify(headers));
  }
  assert.equal(passed(interceptor, { origin: 'http://a.example', path: 'http://a.example/' }), undefined, 'for a proxy');
  assert.deepEqual(passed(interceptor, { origin: new URL('http://b.example/x'), path: '/' }), [], 'of another host');
});

test('a request without an origin', () => {
  const none = intercepting();
  assert.equal(outcome(() => passed(none.interceptor, { path: '/' })), 'ERR_INVALID_ARG_TYPE');
  const { store, interceptor } = intercepting({ origin: 'http://a.example' });
  store.parse('http://a.example/', 'a=1');
  assert.deepEqual(passed(interceptor, { path: '/' }), ['cookie', 'a=1']);
});

test('handlers of undici 7 receive as those before', () => {
  const rows = [
    ['onResponseStart', [null, 200, { 'set-cookie': ['a=1', 'b=ü'], x: '1' }, 'OK']],
    ['onRequestUpgrade', [null, 101, { 'set-cookie': 'a=1' }, null]],
    ['onHeaders', [200, [Buffer.from('Set-Cookie'), Buffer.from('a=1')], null, 'OK']],
    ['onUpgrade', [101, ['set-cookie', 'a=1'], null]],
  ];
  for (const [method, args] of rows) {
    const { store, interceptor } = intercepting();
    const handler = Object.freeze({ got: [], [method](...received) { this.got.push(received); return true; } });
    interceptor((options, given) => given[method](...args))({ origin: 'http://a.example', path: '/' }, handler);
    assert.match(store.header('http://a.example/'), /^a=1/, method);
    assert.deepEqual(handler.got, [args], method);
  }
});
