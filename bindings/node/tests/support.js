'use strict';
const assert = require('node:assert/strict');
const http = require('node:http');
const path = require('node:path');
const { inspect } = require('node:util');

const PACKAGE = path.join(__dirname, '..');
const NOW = 1767225600; // 2026-01-01T00:00:00Z

/** Returns the result of a call, or the code of the error that it throws. */
function outcome(call) {
  try {
    return call();
  } catch (error) {
    return error.code ?? error.name;
  }
}

/** Returns the same of a promise. */
async function resultOf(promise) {
  return promise.then((value) => value, (error) => error.code ?? error.name);
}

/** Compares what `call` returns for each row, which ends with what is expected. */
function compare(rows, call) {
  for (const row of rows) {
    const args = row.slice(0, -1);
    assert.deepEqual(outcome(() => call(...args)), row.at(-1), `of ${inspect(args, { breakLength: Infinity })}`);
  }
}

/** Starts a server on 127.0.0.1, and closes it after the test. Returns its origin. */
async function serve(context, answer) {
  const server = http.createServer(answer);
  await new Promise((resolve) => server.listen(0, '127.0.0.1', resolve));
  context.after(() => {
    server.closeAllConnections?.();
    server.close();
  });
  return `http://127.0.0.1:${server.address().port}`;
}

/** Returns a module, or undefined if this machine has none. NODE_PATH=/usr/share/nodejs has those of Debian. */
function optional(name) {
  try {
    return require(name);
  } catch (error) {
    if (error.code !== 'MODULE_NOT_FOUND') throw error;
    return undefined;
  }
}

module.exports = { NOW, PACKAGE, compare, optional, outcome, resultOf, serve };
