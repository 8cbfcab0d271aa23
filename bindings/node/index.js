'use strict';
// `import` finds these names too: Node reads them from this statement.
const { Cookie } = require('./lib/cookie');
const { CookieStoreError, isRejection, statusText } = require('./lib/errors');
const { withCookies } = require('./lib/fetch');
const { replaceFile } = require('./lib/files');
const { CookieJar } = require('./lib/jar');
const { CookieStore, SYSTEM_SUFFIX_FILE, shard } = require('./lib/store');
const { cookieInterceptor } = require('./lib/undici');

module.exports = {
  Cookie,
  CookieJar,
  CookieStore,
  CookieStoreError,
  SYSTEM_SUFFIX_FILE,
  cookieInterceptor,
  isRejection,
  replaceFile,
  shard,
  statusText,
  withCookies,
};
