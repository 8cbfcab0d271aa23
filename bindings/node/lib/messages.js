'use strict';
const { CONTROL } = require('./cookie');
const { CookieStoreError, isRejection } = require('./errors');

const NOT_ASCII = /[^\0-\x7f]/;
const WIDE = /[^\0-\xff]/;
// Of a URL or a header value that a client takes and the store does not.
const NOT_VALID = ['BAD_URL', 'NOT_UTF8'];

/** Returns a string of which each character is a byte, as Node reads and writes headers. */
function toBinary(text) {
  return NOT_ASCII.test(text) ? Buffer.from(text).toString('latin1') : text;
}

/** Returns the bytes of such a string, or the string if it is the same in UTF-8. */
function fromBinary(binary) {
  return NOT_ASCII.test(binary) && !WIDE.test(binary) ? Buffer.from(binary, 'latin1') : binary;
}

/** Calls a method of a store. Returns its result, or the code of what is not valid. */
function attempt(call) {
  try {
    return { result: call() };
  } catch (error) {
    if (!NOT_VALID.includes(error.code)) throw error;
    return { code: error.code };
  }
}

/** Returns the name of the cookie of a header value, or '' if it has none: then the string may be a value. */
function nameOf(value) {
  const [pair] = String(value).split(';', 1);
  return pair.includes('=') ? pair.slice(0, pair.indexOf('=')).trim() : '';
}

/** The cookies of the requests and responses of a client. */
class Messages {
  #store;
  #onDropped;

  constructor(store, onDropped) {
    this.#store = store;
    this.#onDropped = onDropped;
  }

  /** Returns the Cookie header of a request, after the one that it has. A cookie with a control character, as a loaded list may
   * have, is left out. Each character is a byte. */
  header(url, own) {
    const { result, code } = attempt(() => this.#store.header(url));
    if (code !== undefined) this.#drop(url, '', code);
    const pairs = CONTROL.test(result) ? this.#sendable(url, result) : result;
    return [own, toBinary(pairs ?? '')].filter(Boolean).join('; ');
  }

  #sendable(url, header) {
    const pairs = header.split('; '); // no name and no value has a semicolon
    for (const pair of pairs) if (CONTROL.test(pair)) this.#drop(url, nameOf(pair), 'CONTROL_CHARACTER');
    return pairs.filter((pair) => !CONTROL.test(pair)).join('; ');
  }

  /** Inserts the cookies of Set-Cookie headers, which are strings or bytes in an array. */
  receive(url, values) {
    if (values.length === 0) return;
    const codes = attempt(() => this.#store.receive(url, values)).result ?? this.#reasons(url, values);
    if (codes.includes('NO_MEMORY')) throw new CookieStoreError('NO_MEMORY');
    codes.forEach((code, at) => {
      if (NOT_VALID.includes(code) || isRejection(code)) this.#drop(url, nameOf(values[at]), code);
    });
  }

  /** Returns why none is inserted: the URL is not valid, or the header value is not UTF-8. */
  #reasons(url, values) {
    return values.map((value) => attempt(() => this.#store.parse(url, value)).code);
  }

  #drop(url, name, code) {
    this.#onDropped?.({ host: new URL(url).host, name, code });
  }
}

module.exports = { Messages, fromBinary };
