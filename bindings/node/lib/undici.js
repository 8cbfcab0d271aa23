'use strict';
const { typeError } = require('./errors');
const { Messages } = require('./messages');
const { storeOf } = require('./store');

// Which argument of a handler's method has the headers of a response: the last two are of undici 7.
const HEADERS_AT = { onHeaders: 1, onUpgrade: 1, onResponseStart: 2, onRequestUpgrade: 2 };

/** Returns an array of the names and values of headers: an array of both, pairs, or an object. */
function listed(headers) {
  if (Array.isArray(headers) && !Array.isArray(headers[0])) return headers;
  const pairs = headers?.[Symbol.iterator] ? [...headers] : Object.entries(headers ?? {});
  return pairs.flatMap(([name, value]) => (Array.isArray(value) ? value.flatMap((each) => [name, each]) : [name, value]));
}

/** Returns the values of the headers with a name. */
function valuesOf(headers, name) {
  return headers.filter((_, at) => at % 2 === 1 && String(headers[at - 1]).toLowerCase() === name);
}

/** Returns headers with a Cookie header in place of the one that they have. */
function withCookie(headers, cookie) {
  const isOther = (_, at) => String(headers[at - (at % 2)]).toLowerCase() !== 'cookie';
  return cookie ? [...headers.filter(isOther), 'cookie', cookie] : headers;
}

/** Returns a handler that passes the headers of each response to a function first. */
function listening(handler, receive) {
  // A handler of its own class may have private members, and one that is frozen may not be the target of a Proxy.
  return new Proxy(Object.create(handler), {
    get(_, name) {
      const method = handler[name];
      if (typeof method !== 'function') return method;
      return (...args) => {
        if (Object.hasOwn(HEADERS_AT, name)) receive(listed(args[HEADERS_AT[name]]));
        return method.apply(handler, args);
      };
    },
  });
}

/** Returns an interceptor with the cookies of a store. index.d.ts documents it. */
function cookieInterceptor(store, { origin, onDropped } = {}) {
  const messages = new Messages(storeOf(store), onDropped);
  return (dispatch) => function dispatchWithCookies(options, handler) {
    const place = options.origin ?? origin;
    if (!place) throw typeError('a request needs an origin: pass { origin } for a Client');
    if (!String(options.path).startsWith('/')) return dispatch(options, handler); // it goes to a proxy
    const url = new URL(place).origin + options.path;
    const headers = listed(options.headers);
    const cookie = messages.header(url, valuesOf(headers, 'cookie').map(String).join('; '));
    const receive = (received) => messages.receive(url, valuesOf(received, 'set-cookie'));
    return dispatch({ ...options, headers: withCookie(headers, cookie) }, listening(handler, receive));
  };
}

module.exports = { cookieInterceptor };
