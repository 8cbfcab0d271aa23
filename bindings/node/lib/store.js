'use strict';
const { inspect, types } = require('node:util');
const addon = require('./addon');
const { CookieStoreError, codeOf, typeError } = require('./errors');

/** The list of Debian's package publicsuffix. */
const SYSTEM_SUFFIX_FILE = '/usr/share/publicsuffix/public_suffix_list.dat';

// The numbers of cookie_store.h.
const FORMATS = { json: 0, ron: 1, netscape: 2 };
const NETSCAPE_LENIENT = 3;
const WHICH = { all: 0, unexpired: 1, persistent: 2 };
const TOP_LEVEL = 1;
const NONE_BY_DEFAULT = 2;
const SAME_SITES = [null, 'Strict', 'Lax', 'None'];

const FIELDS = 6; // of a cookie, as the addon returns them

// Of a header value, which receive() returns. Other codes are of the whole call.
const OF_VALUE = ['NOT_UTF8', 'NO_MEMORY'];

/** Returns a time in seconds: the current one for undefined. What is not a time is left to the addon. */
function secondsOf(now) {
  if (now === undefined) return Date.now() / 1000;
  return now instanceof Date || types.isDate(now) ? now.getTime() / 1000 : now; // a Date of another realm is none to instanceof
}

/** Returns the string of a URL object, or the argument as it is. */
function hrefOf(url) {
  return typeof url === 'object' && typeof url?.href === 'string' ? url.href : url;
}

/** Returns the number of an option's value. */
function optionOf(numbers, value) {
  if (!Object.hasOwn(numbers, value)) throw new CookieStoreError('BAD_OPTION');
  return numbers[value];
}

/** Returns the cookies of an array with the fields of all. */
function cookiesOf(fields) {
  const cookies = new Array(fields.length / FIELDS);
  for (let at = 0, i = 0; i < cookies.length; at += FIELDS, i++) {
    const expires = fields[at + 4];
    const flags = fields[at + 5];
    cookies[i] = {
      domain: fields[at],
      path: fields[at + 1],
      name: fields[at + 2],
      value: fields[at + 3],
      expires: expires === null ? null : new Date(expires * 1000),
      hostOnly: (flags & 1) !== 0,
      hasPath: (flags & 2) !== 0,
      secure: (flags & 4) !== 0,
      httpOnly: (flags & 8) !== 0,
      sameSite: SAME_SITES[flags >> 4],
    };
  }
  return cookies;
}

/** Returns the header values of a response in an array. */
function valuesOf(values) {
  const isOne = typeof values === 'string' || values instanceof Uint8Array;
  if (isOne || typeof values[Symbol.iterator] !== 'function') throw typeError('values must be an array of header values');
  return [...values];
}

/** Calls parse() for a header value. Returns its result, or the code of its error. */
function codeFrom(parse) {
  try {
    return parse();
  } catch (error) {
    if (!OF_VALUE.includes(error.code)) throw error;
    return error.code;
  }
}

/** Returns a flag as a number. */
function bitOf(name, flag) {
  if (typeof flag !== 'boolean') throw typeError(`${name} must be a boolean`);
  return Number(flag);
}

/** Returns the number of a SameSite attribute. */
function sameSiteOf(sameSite) {
  const number = SAME_SITES.indexOf(sameSite);
  if (number < 0) throw new CookieStoreError('BAD_OPTION');
  return number;
}

const notCloneable = () => 'a store belongs to the thread that created it';

/** Has postMessage throw a DataCloneError for an object, in place of sending an empty one: structuredClone copies no function. */
function preventCloning(object) {
  Object.defineProperty(object, 'notCloneable', { value: notCloneable, enumerable: true });
}

/** A cookie store. index.d.ts documents its methods. */
class CookieStore {
  #store = new addon.Store();

  constructor(options) {
    preventCloning(this);
    this.#configure(options);
  }

  #configure({ suffixList, onlyListed = false, domainLimit, strict = false } = {}) {
    if (suffixList !== undefined) this.#store.setSuffixList(suffixList, onlyListed);
    if (domainLimit !== undefined) this.setDomainLimit(domainLimit);
    this.#store.setStrict(strict);
  }

  static load(list, { format = 'json', which = 'unexpired', now, ...options } = {}) {
    const store = new this();
    store.#store.load(list, optionOf(FORMATS, format), optionOf(WHICH, which), secondsOf(now));
    store.#configure(options);
    return store;
  }

  static loadLenient(list, { which = 'unexpired', now, ...options } = {}) {
    const store = new this();
    const malformed = store.#store.load(list, NETSCAPE_LENIENT, optionOf(WHICH, which), secondsOf(now));
    store.#configure(options);
    return { store, malformed };
  }

  close() {
    this.#store.close();
  }

  clone() {
    const copy = new this.constructor();
    this.#store.copyTo(copy.#store);
    return copy;
  }

  get size() {
    return this.#store.count();
  }

  get strict() {
    return this.#store.isStrict();
  }

  get domainLimit() {
    return this.#store.domainLimit() || null;
  }

  setStrict(strict) {
    this.#store.setStrict(strict);
  }

  setDomainLimit(limit) {
    if (!Number.isSafeInteger(limit)) throw typeError('limit must be an integer');
    this.#store.setDomainLimit(limit);
  }

  setSuffixList(list, { onlyListed = false } = {}) {
    this.#store.setSuffixList(list, onlyListed);
  }

  parse(url, value, options) {
    const page = options?.page;
    if (page === undefined) return codeOf(this.#store.parse(hrefOf(url), value, secondsOf(options?.now)));
    return codeOf(this.#store.parseFor(hrefOf(url), hrefOf(page), value, secondsOf(options.now), flagsOf(options)));
  }

  receive(url, values, options) {
    const all = valuesOf(values ?? []);
    const isSubclass = this.parse !== CookieStore.prototype.parse; // it decides about each value
    if (isSubclass) return all.map((value) => codeFrom(() => this.parse(url, value, options)));
    return this.#store.parseEach(hrefOf(url), all, secondsOf(options?.now)).map(codeOf);
  }

  insert({ name, value, domain, path = '/', hostOnly = false, hasPath = true, secure = false, httpOnly = false,
    sameSite = null, expires = null }, options) {
    const flags = bitOf('hostOnly', hostOnly) | (bitOf('hasPath', hasPath) << 1) | (bitOf('secure', secure) << 2)
      | (bitOf('httpOnly', httpOnly) << 3) | (sameSiteOf(sameSite) << 4);
    return codeOf(this.#store.insert(domain, path, name, value, secondsOf(expires), flags, secondsOf(options?.now)));
  }

  header(url, options) {
    const { now, page, sameSite = true } = options ?? {};
    if (!sameSite) return this.#store.header(hrefOf(url), secondsOf(now), flagsOf(options)) || null;
    if (page === undefined) return this.#store.header(hrefOf(url), secondsOf(now)) || null;
    return this.#store.headerFor(hrefOf(url), hrefOf(page), secondsOf(now), flagsOf(options)) || null;
  }

  cookies() {
    return cookiesOf(this.#store.cookies());
  }

  cookiesFor(url, options) {
    return cookiesOf(this.#store.cookiesFor(hrefOf(url), secondsOf(options?.now)));
  }

  [Symbol.iterator]() {
    return this.cookies()[Symbol.iterator]();
  }

  remove(domain, path, name) {
    return this.#store.remove(domain, path, name);
  }

  removeDomain(domain) {
    return this.#store.removeDomain(domain);
  }

  removeExpired(options) {
    return this.#store.removeExpired(secondsOf(options?.now));
  }

  clear() {
    this.#store.clear();
  }

  root(url) {
    return this.#store.root(hrefOf(url));
  }

  rootOfDomain(domain) {
    return this.#store.rootOfDomain(domain);
  }

  merge(other, options) {
    if (!(typeof other === 'object' && other !== null && #store in other)) throw typeError('other must be a CookieStore');
    return this.#store.merge(other.#store, secondsOf(options?.now));
  }

  save({ format = 'json', which = 'unexpired', now } = {}) {
    return this.#store.save(optionOf(FORMATS, format), optionOf(WHICH, which), secondsOf(now))[0];
  }

  saveLenient({ which = 'unexpired', now } = {}) {
    const [list, leftOut] = this.#store.save(NETSCAPE_LENIENT, optionOf(WHICH, which), secondsOf(now));
    return { list, leftOut };
  }

  [inspect.custom](depth, options) {
    const { size, strict, domainLimit } = this;
    return `${this.constructor.name} ${inspect({ size, strict, domainLimit }, options)}`;
  }
}

/** Returns the flags of a cross-site request. */
function flagsOf({ topLevel = false, laxByDefault = true }) {
  return (topLevel ? TOP_LEVEL : 0) | (laxByDefault ? 0 : NONE_BY_DEFAULT);
}

if (Symbol.dispose) CookieStore.prototype[Symbol.dispose] = CookieStore.prototype.close;

/** Returns the number of the shard of a root. index.d.ts documents it. */
function shard(root, shards) {
  if (!Number.isInteger(shards)) throw typeError('shards must be an integer');
  if (shards < 1 || shards > 0xffffffff) throw new CookieStoreError('BAD_LIMIT');
  return addon.shard(root, shards);
}

/** Returns a store, or that of a jar. */
function storeOf(value) {
  const store = value instanceof CookieStore ? value : value?.store;
  if (!(store instanceof CookieStore)) throw typeError('store must be a CookieStore');
  return store;
}

module.exports = { CookieStore, SYSTEM_SUFFIX_FILE, hrefOf, preventCloning, shard, storeOf };
