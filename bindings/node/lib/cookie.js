'use strict';
const { domainToASCII } = require('node:url');
const { types } = require('node:util');
const { Store } = require('./addon');

const FIRST = -377705116800; // the first second that the library knows
const LAST_DATE = 2147483647000; // of tough-cookie
const CONTROL = /[\0-\x08\x0a-\x1f\x7f]/; // what no header value may have, RFC 9110 5.5
const DATES = new Set(['expires', 'creation', 'lastAccessed']);

const dates = new Store();

/** Returns the Date of a cookie-date, RFC 6265 5.1.1, or null. The library reads it, as that of a cookie. */
function parseDate(text) {
  const date = String(text);
  const expires = dates.expiryOf(`a=; Expires=${date.slice(0, endOfPart(date, 0))}`, FIRST);
  return expires === null ? null : new Date(expires * 1000);
}

/** Returns the index of the next semicolon, or the length. */
function endOfPart(text, begin) {
  const end = text.indexOf(';', begin);
  return end < 0 ? text.length : end;
}

function isSet(value) {
  return value !== null && value !== undefined;
}

/** Returns milliseconds since 1970 of an expiry: a Date, a cookie-date, or Infinity. */
function timeOf(expires) {
  if (types.isDate(expires)) return expires.getTime();
  const isText = isSet(expires) && Number(expires) !== Infinity;
  return isText ? parseDate(expires)?.getTime() ?? Infinity : Infinity;
}

/** Returns the part of a string from `begin` to `end` without white space around it, as the library reads names: U+0085 counts
 * too. */
function trimmed(text, begin = 0, end = text.length) {
  let first = begin;
  let last = end;
  while (first < last && isSpace(text.charCodeAt(first))) first++;
  while (first < last && isSpace(text.charCodeAt(last - 1))) last--;
  return text.slice(first, last);
}

function isSpace(code) {
  if (code > 0x20 && code < 0x7f) return false;
  return code === 0x20 || code === 0x85 || String.fromCharCode(code).trim() === '';
}

/** A cookie with the properties and methods of tough-cookie's. */
class Cookie {
  key = '';
  value = '';
  expires = 'Infinity';
  maxAge = null;
  domain = null;
  path = null;
  secure = false;
  httpOnly = false;
  extensions = null;
  hostOnly = null;
  pathIsDefault = null;
  creation = null;
  lastAccessed = null;
  sameSite = undefined;

  /** `creation` is that of a cookie whose properties have none, by default the current time. */
  constructor(properties, creation) {
    if (properties) Object.assign(this, properties);
    this.creation ??= creation ?? new Date();
  }

  /** Returns the cookie of a Set-Cookie header value, or undefined. */
  static parse(text) {
    return parseCookie(String(text));
  }

  /** Returns a cookie as a jar returns it. */
  static ofStored(stored, now) {
    return new Cookie({
      key: stored.name,
      value: stored.value,
      expires: stored.expires ?? 'Infinity',
      domain: stored.domain,
      path: stored.path,
      secure: stored.secure,
      httpOnly: stored.httpOnly,
      hostOnly: stored.hostOnly,
      pathIsDefault: !stored.hasPath,
      creation: now,
      lastAccessed: now,
      sameSite: stored.sameSite?.toLowerCase(),
    });
  }

  /** Returns the cookie of what toJSON() returns, or of its string; null if it is neither. */
  static fromJSON(json) {
    let properties = json;
    try {
      if (typeof json === 'string') properties = JSON.parse(json);
    } catch {
      return null;
    }
    if (typeof properties !== 'object' || properties === null) return null;
    const cookie = new Cookie();
    for (const [name, value] of Object.entries(properties)) {
      const isTime = DATES.has(name) && value !== null && value !== 'Infinity';
      if (Object.hasOwn(cookie, name)) cookie[name] = isTime ? new Date(value) : value;
    }
    return cookie;
  }

  /** Returns the properties that are set, with their dates as strings. */
  toJSON() {
    const json = {};
    for (const [name, value] of Object.entries(this)) {
      if (!Object.hasOwn(UNSET, name) || value === UNSET[name]) continue;
      if (types.isDate(value)) json[name] = value.toISOString();
      else json[name] = value === Infinity || value === -Infinity ? String(value) : value;
    }
    return json;
  }

  clone() {
    return Cookie.fromJSON(this.toJSON());
  }

  /** Returns the pair of a Cookie header. */
  cookieString() {
    return this.key === '' ? String(this.value ?? '') : `${this.key}=${this.value ?? ''}`;
  }

  /** Returns the value of a Set-Cookie header. */
  toString() {
    const time = timeOf(this.expires);
    const age = Number(this.maxAge ?? Infinity);
    return [
      this.cookieString(),
      time !== Infinity && `Expires=${new Date(time).toUTCString()}`,
      age !== Infinity && `Max-Age=${Math.max(age, 0)}`,
      this.domain && !this.hostOnly && `Domain=${this.domain}`,
      this.path && `Path=${this.path}`,
      this.secure && 'Secure',
      this.httpOnly && 'HttpOnly',
      this.sameSite && `SameSite=${this.sameSite[0].toUpperCase()}${this.sameSite.slice(1)}`,
      ...(this.extensions ?? []),
    ].filter(Boolean).join('; ');
  }

  /** Returns whether each part can stand in a Set-Cookie header. */
  validate() {
    const value = /^[\x21\x23-\x2b\x2d-\x3a\x3c-\x5b\x5d-\x7e]+$/;
    return value.test(this.value) && !(isSet(this.maxAge) && this.maxAge <= 0) &&
      (!isSet(this.path) || /^[\x20-\x3a\x3c-\x7e]+$/.test(this.path)) && !this.cdomain()?.endsWith('.');
  }

  setExpires(expires) {
    this.expires = types.isDate(expires) ? expires : parseDate(expires) ?? 'Infinity';
  }

  setMaxAge(age) {
    this.maxAge = Math.abs(age) === Infinity ? String(age) : age; // JSON has no Infinity
  }

  isPersistent() {
    return isSet(this.maxAge) || timeOf(this.expires) !== Infinity;
  }

  /** Returns milliseconds since 1970, or Infinity. Max-Age counts from `now`, a Date or milliseconds, or from the creation. */
  expiryTime(now = this.creation ?? new Date()) {
    if (!isSet(this.maxAge)) return timeOf(this.expires);
    return this.maxAge <= 0 ? -Infinity : Number(now) + Number(this.maxAge) * 1000;
  }

  expiryDate(now) {
    return new Date(Math.min(Math.max(this.expiryTime(now), 0), LAST_DATE));
  }

  /** Returns the milliseconds from `now` to the expiry, or Infinity. */
  TTL(now = Date.now()) {
    if (isSet(this.maxAge)) return Math.max(Number(this.maxAge) * 1000, 0);
    return timeOf(this.expires) - Number(now);
  }

  canonicalizedDomain() {
    return isSet(this.domain) ? domainToASCII(this.domain.trim().replace(/^\./, '')) : null;
  }

  cdomain() {
    return this.canonicalizedDomain();
  }
}

const UNSET = new Cookie();

/** Returns the cookie of a Set-Cookie header value, or undefined. */
function parseCookie(header, creation) {
  let end = endOfPart(header, 0);
  const pair = header.slice(0, end);
  const equals = pair.indexOf('=');
  const key = trimmed(pair, 0, Math.max(equals, 0));
  if (key === '' || CONTROL.test(pair)) return undefined;
  const cookie = new Cookie(undefined, creation);
  cookie.key = key;
  cookie.value = trimmed(pair, equals + 1);
  while (end < header.length) {
    const begin = end + 1;
    end = endOfPart(header, begin);
    setAttribute(cookie, trimmed(header, begin, end));
  }
  return cookie;
}

function setAttribute(cookie, attribute) {
  const equals = attribute.indexOf('=');
  const name = trimmed(attribute, 0, equals < 0 ? attribute.length : equals).toLowerCase();
  const value = equals < 0 ? '' : trimmed(attribute, equals + 1);
  switch (name) {
    case '': return;
    case 'expires': cookie.expires = parseDate(value) ?? cookie.expires; return;
    case 'max-age': if (/^-?[0-9]+$/.test(value)) cookie.maxAge = Number(value); return;
    case 'domain': cookie.domain = value.replace(/^\./, '').toLowerCase() || cookie.domain; return;
    case 'path': cookie.path = value.startsWith('/') ? value : null; return;
    case 'secure': cookie.secure = true; return;
    case 'httponly': cookie.httpOnly = true; return;
    case 'samesite': cookie.sameSite = /^(strict|lax|none)$/i.test(value) ? value.toLowerCase() : undefined; return;
    default: (cookie.extensions ??= []).push(attribute);
  }
}

/** Returns whether the parts of a cookie do not run into each other in a header value. */
function isSeparable({ key, value, domain, path, sameSite, extensions }) {
  const text = [key, value, domain, path, sameSite, ...(extensions ?? [])].join('');
  return key !== '' && !key.includes('=') && key === trimmed(key) && !CONTROL.test(text) && !text.includes(';');
}

module.exports = { CONTROL, Cookie, FIRST, isSeparable, parseCookie };
