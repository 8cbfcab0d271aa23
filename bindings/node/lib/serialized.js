'use strict';
const { Cookie, isSeparable } = require('./cookie');
const { CookieStoreError } = require('./errors');
const { CookieStore } = require('./store');
const { version } = require('../package.json');

// The expiries that a list can represent.
const EARLIEST = Date.parse('0000-01-01T00:00:00Z');
const LATEST = Date.parse('9999-12-31T23:59:59Z');

/** Returns the JSON of tough-cookie for the cookies of a store. */
function serialize(store, settings) {
  const now = new Date();
  const cookies = store.cookies().map((stored) => {
    const json = Cookie.ofStored(stored, now).toJSON();
    return { ...json, domain: json.domain.replace(/^\[|\]$/g, '') }; // tough-cookie has IPv6 addresses without brackets
  });
  return { version: `pulleymaroon@${version}`, storeType: 'CookieStore', ...settings, cookies };
}

/** Returns a store with the cookies of that JSON, which are not checked. */
function deserialize(cookies) {
  if (!Array.isArray(cookies)) throw new CookieStoreError('BAD_SHAPE');
  const entries = cookies.map((json) => Cookie.fromJSON(json)).filter((cookie) => cookie !== null).map(entryOf);
  return CookieStore.load(JSON.stringify(entries), { which: 'all' });
}

/** Returns a cookie as an entry of the store's own list. */
function entryOf(cookie) {
  const { key, value, domain, path, secure, httpOnly, sameSite, hostOnly, pathIsDefault } = cookie;
  const isWhole = [key, value, domain, path].every((part) => typeof part === 'string');
  if (!isWhole || !isSeparable(cookie)) throw new CookieStoreError('PARSE');
  const host = domain.includes(':') && !domain.startsWith('[') ? `[${domain}]` : domain;
  const attributes = [secure && 'Secure', httpOnly && 'HttpOnly', sameSite && `SameSite=${sameSite}`];
  return {
    raw_cookie: [`${key}=${value}`, ...attributes.filter(Boolean)].join('; '),
    path: [path, !pathIsDefault],
    domain: { [hostOnly ? 'HostOnly' : 'Suffix']: host },
    expires: expiryOf(cookie),
  };
}

function expiryOf(cookie) {
  const time = cookie.expiryTime();
  if (Number.isNaN(time)) throw new CookieStoreError('BAD_EXPIRY');
  if (!cookie.isPersistent()) return 'SessionEnd';
  return { AtUtc: new Date(Math.min(Math.max(time, EARLIEST), LATEST)).toISOString() };
}

module.exports = { deserialize, serialize };
