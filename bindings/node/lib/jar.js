'use strict';
const fs = require('node:fs');
const { Cookie, FIRST, isSeparable, parseCookie } = require('./cookie');
const { CookieStoreError, isRejection, typeError } = require('./errors');
const { deserialize, serialize } = require('./serialized');
const { CookieStore, SYSTEM_SUFFIX_FILE, hrefOf, preventCloning } = require('./store');

const PREFIX_SECURITY = ['silent', 'strict', 'unsafe-disabled'];
const HIDDEN = { strict: [], lax: ['Strict'], none: ['Strict', 'Lax'] }; // what a request of that context is not sent

let systemList;

/** Returns the public suffix list of the system, or one with top-level domains alone. */
function publicSuffixes() {
  systemList ??= fs.existsSync(SYSTEM_SUFFIX_FILE) ? fs.readFileSync(SYSTEM_SUFFIX_FILE) : '*';
  return systemList;
}

async function promised(args, call) {
  return call(...args);
}

/** Returns what a call returns: to the callback that is the last argument, or by a promise. */
function asynchronous(args, call) {
  if (typeof args.at(-1) !== 'function') return promised(args, call);
  const callback = args.pop();
  let result;
  try {
    result = call(...args);
  } catch (error) {
    callback(error);
    return undefined;
  }
  callback(null, result);
  return undefined;
}

let lastAscii = ''; // a response sets several cookies from one URL

/** Returns a URL as it is if it is ASCII, else as browsers read it, with its host in ASCII, or as it is if they do not. */
function asciiOf(address) {
  if (address === lastAscii) return address;
  if (!/[^\0-\x7f]/.test(address)) {
    lastAscii = address;
    return address;
  }
  try {
    return new URL(address).href;
  } catch {
    return address;
  }
}

/** Returns the URL by which the store takes a request. If `secure` is set, it replaces what the scheme is; `http` is false for
 * a script, which may not set HttpOnly cookies. */
function addressOf(url, secure, http) {
  const href = hrefOf(url);
  if (typeof href !== 'string') return href;
  const address = asciiOf(href);
  if (http && secure === undefined && address.startsWith('http')) return address;
  const scheme = /^(?:http|ws)(s?):/i.exec(address);
  if (scheme === null) return address;
  const end = (secure ?? scheme[1] !== '') ? 's:' : ':';
  return `${http ? 'http' : 'ws'}${end}${address.slice(scheme[0].length)}`;
}

let last = { address: '', host: '', path: '/' };

/** Returns the host of a URL and the default path of its cookies, RFC 6265 5.1.4. What is not a URL has no host. */
function placeOf(address) {
  if (address === last.address) return last;
  try {
    const { hostname, pathname } = new URL(address);
    last = { address, host: hostname, path: pathname.slice(0, pathname.lastIndexOf('/')) || '/' };
  } catch {
    last = { address, host: '', path: '/' };
  }
  return last;
}

/** Returns a context of SameSite cookies in lower case, or undefined. */
function contextOf(sameSiteContext) {
  if (sameSiteContext === undefined || sameSiteContext === null) return undefined;
  const context = String(sameSiteContext).toLowerCase();
  if (!Object.hasOwn(HIDDEN, context)) throw new CookieStoreError('BAD_OPTION');
  return context;
}

/** Returns whether a cookie lacks what the prefix of its name demands, which counts in this case alone, as in tough-cookie. */
function breaksPrefix({ key, secure, domain, hostOnly, path }) {
  if (key.startsWith('__Secure-')) return !secure;
  return key.startsWith('__Host-') && !(secure && (hostOnly || !domain) && path === '/');
}

function isCookie(value) {
  return typeof value === 'object' && typeof value?.cookieString === 'function';
}

/** A cookie jar with the calls of tough-cookie, over a CookieStore. index.d.ts documents it. */
class CookieJar {
  #store;
  #lacksList; // whether the public suffix list is yet to be set: that takes longer than all else, and few jars need it

  constructor(store, options) {
    const settings = typeof options === 'boolean' ? { rejectPublicSuffixes: options } : options ?? {};
    const { rejectPublicSuffixes = true, looseMode = false, prefixSecurity = 'silent' } = settings;
    if (looseMode || !PREFIX_SECURITY.includes(prefixSecurity)) throw new CookieStoreError('BAD_OPTION');
    if (store && !(store instanceof CookieStore)) throw typeError('store must be a CookieStore');
    preventCloning(this);
    this.rejectPublicSuffixes = Boolean(rejectPublicSuffixes);
    this.prefixSecurity = prefixSecurity;
    this.#store = store || new CookieStore();
    this.#lacksList = !store && this.rejectPublicSuffixes;
  }

  get store() {
    if (this.#lacksList) this.#store.setSuffixList(publicSuffixes());
    this.#lacksList = false;
    return this.#store;
  }

  static deserializeSync(serialized, store) {
    const json = typeof serialized === 'string' ? JSON.parse(serialized) : serialized;
    const loaded = deserialize(json?.cookies);
    const { rejectPublicSuffixes, prefixSecurity } = json;
    if (store) store.merge(loaded);
    const jar = new CookieJar(store || loaded, { rejectPublicSuffixes, prefixSecurity });
    jar.#lacksList = !store && jar.rejectPublicSuffixes;
    return jar;
  }

  static fromJSON(serialized, store) {
    return CookieJar.deserializeSync(serialized, store);
  }

  static deserialize(...args) {
    return asynchronous(args, (serialized, store) => CookieJar.deserializeSync(serialized, store));
  }

  setCookieSync(cookie, url, options) {
    const { now, secure, http = true, ignoreError = false, sameSiteContext, loose = false } = options ?? {};
    const context = contextOf(sameSiteContext);
    if (loose) throw new CookieStoreError('BAD_OPTION');
    if (typeof cookie !== 'string' && !isCookie(cookie)) throw typeError('cookie must be a string or a Cookie');
    const time = new Date(now ?? Date.now());
    const received = typeof cookie === 'string' ? parseCookie(cookie, time) : cookie;
    const address = addressOf(url, secure, http);
    const code = this.#insert(received, cookie, address, context, time);
    if (code === undefined) return accepted(received, address, time);
    if (ignoreError || (code === 'PREFIX' && this.prefixSecurity === 'silent')) return undefined;
    throw new CookieStoreError(code);
  }

  /** Inserts a cookie, which is `given` as it is or as its header value. Returns why it is not stored, or undefined. */
  #insert(cookie, given, address, context, now) {
    const isText = cookie !== given;
    const objection = this.#objection(cookie, isText, address, context);
    if (objection !== undefined) return objection;
    const value = isText ? given : String(cookie);
    const store = /domain/i.test(value) ? this.store : this.#store; // a host-only cookie needs no list
    try {
      const code = store.parse(address, value, { now });
      // tough-cookie stores a cookie that has expired, and returns it for no request.
      return isRejection(code) && code !== 'EXPIRED' ? code : undefined;
    } catch (error) {
      if (error.code !== 'BAD_URL') throw error;
      return error.code;
    }
  }

  /** Returns why a cookie is rejected before the store gets it, or undefined. */
  #objection(cookie, isText, address, context) {
    if (cookie === undefined || !(isText || isSeparable(cookie))) return 'PARSE';
    if (context === 'none' && /^(?:strict|lax)$/.test(cookie.sameSite)) return 'CROSS_SITE_RESPONSE';
    if (this.prefixSecurity !== 'unsafe-disabled' && breaksPrefix(cookie)) return 'PREFIX';
    // The header value of a host-only cookie has no domain, so that the store would take it from any host.
    if (!isText && cookie.hostOnly && cookie.domain && cookie.domain !== placeOf(address).host) return 'DOMAIN_MISMATCH';
    return undefined;
  }

  setCookie(...args) {
    return asynchronous(args, (cookie, url, options) => this.setCookieSync(cookie, url, options));
  }

  getCookiesSync(url, options) {
    const { now, secure, http = true, expire = true, allPaths = false, sameSiteContext } = options ?? {};
    if (allPaths) throw new CookieStoreError('BAD_OPTION');
    const time = new Date(now ?? Date.now());
    const hidden = HIDDEN[contextOf(sameSiteContext) ?? 'strict'];
    return this.#store.cookiesFor(addressOf(url, secure, true), { now: expire ? time : FIRST })
      .filter((stored) => (http || !stored.httpOnly) && !hidden.includes(stored.sameSite))
      .map((stored) => Cookie.ofStored(stored, time));
  }

  getCookies(...args) {
    return asynchronous(args, (url, options) => this.getCookiesSync(url, options));
  }

  getCookieStringSync(url, options) {
    const { now, secure, http = true, expire = true, allPaths = false, sameSiteContext } = options ?? {};
    if (!http || !expire || allPaths) return this.getCookiesSync(url, options).map((cookie) => cookie.cookieString()).join('; ');
    const context = contextOf(sameSiteContext) ?? 'strict';
    const site = { sameSite: context === 'strict', topLevel: context === 'lax', laxByDefault: false };
    return this.#store.header(addressOf(url, secure, true), { now: new Date(now ?? Date.now()), ...site }) ?? '';
  }

  getCookieString(...args) {
    return asynchronous(args, (url, options) => this.getCookieStringSync(url, options));
  }

  getSetCookieStringsSync(url, options) {
    return this.getCookiesSync(url, options).map(String);
  }

  getSetCookieStrings(...args) {
    return asynchronous(args, (url, options) => this.getSetCookieStringsSync(url, options));
  }

  removeAllCookiesSync() {
    this.#store.clear();
  }

  removeAllCookies(...args) {
    return asynchronous(args, () => this.removeAllCookiesSync());
  }

  serializeSync() {
    const { rejectPublicSuffixes, prefixSecurity } = this;
    return serialize(this.#store, { rejectPublicSuffixes, prefixSecurity });
  }

  serialize(...args) {
    return asynchronous(args, () => this.serializeSync());
  }

  toJSON() {
    return this.serializeSync();
  }

  cloneSync(store) {
    if (store) store.merge(this.#store);
    const jar = new CookieJar(store || this.#store.clone(), this);
    jar.#lacksList = !store && this.#lacksList;
    return jar;
  }

  clone(...args) {
    return asynchronous(args, (store) => this.cloneSync(store));
  }
}

/** Returns a cookie with what the jar knows of it. */
function accepted(cookie, address, time) {
  const { host, path } = placeOf(address);
  cookie.hostOnly = cookie.domain ? cookie.hostOnly ?? false : true;
  cookie.domain ||= host;
  if (!cookie.path) Object.assign(cookie, { path, pathIsDefault: true });
  cookie.creation = time;
  cookie.lastAccessed = time;
  return cookie;
}

module.exports = { CookieJar };
