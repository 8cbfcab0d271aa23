'use strict';
const addon = require('./addon');

/** The names of the statuses by their numbers, as in cookie_store.h. */
const CODES = {
  0: 'OK',
  1: 'INSERTED',
  2: 'UPDATED',
  3: 'EXPIRED_EXISTING',
  10: 'NON_HTTP_SCHEME',
  11: 'NON_RELATIVE_SCHEME',
  12: 'DOMAIN_MISMATCH',
  13: 'EXPIRED',
  14: 'PARSE',
  15: 'PUBLIC_SUFFIX',
  16: 'UNSPECIFIED_DOMAIN',
  20: 'NO_MEMORY',
  21: 'BAD_URL',
  22: 'NOT_UTF8',
  23: 'BAD_TIME',
  24: 'NO_STORE',
  25: 'HAS_STORE',
  26: 'NO_ROOM',
  27: 'NOT_FOUND',
  28: 'BAD_LIMIT',
  29: 'BAD_OPTION',
  30: 'BAD_RULE',
  31: 'BAD_JSON',
  32: 'BAD_SHAPE',
  33: 'BAD_RON',
  34: 'BAD_EXPIRY',
  35: 'BAD_LINE',
  36: 'UNREPRESENTABLE',
  37: 'NO_RULES',
  38: 'NO_LIST',
  40: 'CONTROL_CHARACTER',
  41: 'TOO_LONG',
  42: 'INSECURE_URL',
  43: 'INSECURE_SAME_SITE_NONE',
  44: 'PREFIX',
  45: 'SECURE_STORED',
  46: 'SECURE_LIMIT',
  47: 'CROSS_SITE_RESPONSE',
};
const UNKNOWN = 'UNKNOWN_';
const NUMBERS = new Map(Object.entries(CODES).map(([number, code]) => [code, Number(number)]));

/** Returns the name of a status. One that only a newer library has is named by its number. */
function codeOf(status) {
  return CODES[status] ?? UNKNOWN + status;
}

/** Returns the number of a name, or -1. */
function statusOf(code) {
  const unknown = typeof code === 'string' && code.startsWith(UNKNOWN);
  return NUMBERS.get(code) ?? (unknown ? Number(code.slice(UNKNOWN.length)) : -1);
}

/** Returns whether a code is a reason why a cookie is rejected. */
function isRejection(code) {
  const status = statusOf(code);
  return (status >= 10 && status < 20) || (status >= 40 && status < 100);
}

/** What a code means here. The other texts are those of cookie_store.h. */
const TEXTS = {
  NO_STORE: 'the store is closed',
};

/** Returns what a code means, in a few words. */
function statusText(code) {
  return Object.hasOwn(TEXTS, code) ? TEXTS[code] : addon.statusText(statusOf(code));
}

/** The error of a call: `code` is the reason, and `line` the number of a malformed line, from 1. */
class CookieStoreError extends Error {
  constructor(code, line) {
    const name = typeof code === 'number' ? codeOf(code) : code;
    super(line ? `${statusText(name)} (line ${line})` : statusText(name));
    this.code = name;
    if (line) this.line = line;
  }
}
Object.defineProperty(CookieStoreError.prototype, 'name', { value: 'CookieStoreError', configurable: true, writable: true });

addon.setErrorClass(CookieStoreError);

/** Returns a TypeError, as those of Node have a code. */
function typeError(message) {
  return Object.assign(new TypeError(message), { code: 'ERR_INVALID_ARG_TYPE' });
}

module.exports = { CookieStoreError, codeOf, isRejection, statusText, typeError };
