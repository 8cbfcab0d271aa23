'use strict';
const { typeError } = require('./errors');
const { Messages, fromBinary } = require('./messages');
const { hrefOf, storeOf } = require('./store');

// By the Fetch standard.
const MOST_REDIRECTS = 20;
const REDIRECTS = [301, 302, 303, 307, 308];
const MODES = ['follow', 'manual', 'error'];
const BODY_HEADERS = ['content-encoding', 'content-language', 'content-location', 'content-type', 'content-length'];
const ORIGIN_HEADERS = ['authorization', 'proxy-authorization', 'cookie', 'host'];
// Of a Request, for the requests that follow it.
const REQUEST_FIELDS = ['cache', 'credentials', 'integrity', 'keepalive', 'mode', 'referrer', 'referrerPolicy', 'signal'];

function isRequest(input) {
  return typeof input === 'object' && typeof input?.url === 'string' && typeof input.clone === 'function';
}

function isHttp(url) {
  return url.protocol === 'http:' || url.protocol === 'https:';
}

function isStream(body) {
  return typeof body === 'object' && body !== null && (typeof body.getReader === 'function' || Symbol.asyncIterator in body);
}

/** Returns the first request of a call. */
function firstHop(input, init) {
  const request = isRequest(input) ? input : {};
  const setting = (name, usual) => init[name] ?? request[name] ?? usual;
  const url = new URL(request.url ?? hrefOf(input));
  const redirect = setting('redirect', 'follow');
  if (!MODES.includes(redirect)) throw new TypeError(`redirect must be one of ${MODES.join(', ')}`);
  const hasBody = request.body && !init.body && redirect === 'follow';
  return {
    target: isRequest(input) ? input : url.href,
    url,
    redirect,
    hasCookies: setting('credentials') !== 'omit' && isHttp(url),
    method: String(setting('method', 'GET')),
    headers: new Headers(setting('headers')),
    init,
    fields: Object.fromEntries(REQUEST_FIELDS.filter((name) => name in request).map((name) => [name, request[name]])),
    spare: hasBody ? input.clone() : undefined, // the body of a Request can be read once
  };
}

/** Returns the body of a request that is sent again. */
async function bodyOf({ init, spare }) {
  if (spare) return spare.arrayBuffer();
  if (isStream(init.body)) throw new TypeError('a redirect cannot repeat a body that is a stream');
  return init.body;
}

/** Returns where a redirect leads. */
function locationOf(hop, location) {
  const url = new URL(String(fromBinary(location)), hop.url);
  if (!isHttp(url)) throw new TypeError('a redirect to a URL that is not HTTP');
  url.hash ||= hop.url.hash;
  return url;
}

/** Returns the request that follows a redirect. */
async function nextHop(hop, status, location) {
  const url = locationOf(hop, location);
  const headers = new Headers(hop.headers);
  if (url.origin !== hop.url.origin) ORIGIN_HEADERS.forEach((name) => headers.delete(name));
  const method = hop.method.toUpperCase();
  const becomesGet = method === 'POST' ? status < 304 : status === 303 && method !== 'GET' && method !== 'HEAD';
  if (becomesGet) BODY_HEADERS.forEach((name) => headers.delete(name));
  const sent = becomesGet ? { method: 'GET', body: undefined } : { method: hop.method, body: await bodyOf(hop) };
  const init = { ...hop.fields, ...hop.init, ...sent };
  return { ...hop, target: url.href, url, method: sent.method, headers, init, spare: undefined };
}

/** Sends a request with its cookies, and inserts those of the response. */
async function send(fetch, messages, hop) {
  const headers = new Headers(hop.headers);
  const cookie = hop.hasCookies ? messages.header(hop.url.href, headers.get('cookie')) : '';
  if (cookie) headers.set('cookie', cookie);
  const response = await fetch(hop.target, { ...hop.init, headers, redirect: 'manual' });
  if (hop.hasCookies) messages.receive(hop.url.href, setCookies(response.headers).map(fromBinary));
  return response;
}

/** Returns the values of the Set-Cookie headers, also of the package node-fetch. */
function setCookies(headers) {
  if (headers.getSetCookie) return headers.getSetCookie();
  if (headers.raw) return headers.raw()['set-cookie'] ?? [];
  throw new TypeError('fetch has no headers.getSetCookie(): Node 18.14.1 or later is needed');
}

/** Returns a fetch with the cookies of a store. index.d.ts documents it. */
function withCookies(fetch, store, { onDropped } = {}) {
  if (typeof fetch !== 'function') throw typeError('fetch must be a function');
  const messages = new Messages(storeOf(store), onDropped);
  return async function fetchWithCookies(input, init) {
    let hop = firstHop(input, init ?? {});
    for (let count = 0; ; count++) {
      const response = await send(fetch, messages, hop);
      const location = response.headers.get('location');
      if (count > 0) Object.defineProperty(response, 'redirected', { value: true });
      if (!REDIRECTS.includes(response.status) || hop.redirect === 'manual') return response;
      if (location === null && hop.redirect === 'follow') return response;
      await response.body?.cancel?.(); // a body of node-fetch is no Web stream
      if (hop.redirect === 'error') throw new TypeError('a redirect');
      if (count === MOST_REDIRECTS) throw new TypeError('too many redirects');
      hop = await nextHop(hop, response.status, location);
    }
  };
}

module.exports = { withCookies };
