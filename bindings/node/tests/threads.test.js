'use strict';
const assert = require('node:assert/strict');
const { once } = require('node:events');
const { test } = require('node:test');
const { Worker, MessageChannel } = require('node:worker_threads');
const { CookieJar, CookieStore } = require('pulleymaroon');
const { PACKAGE, outcome } = require('./support');

// Sets cookies, and posts how many there are.
const PROGRAM = `
  const { parentPort, workerData } = require('node:worker_threads');
  const { CookieStore } = require(workerData);
  const store = new CookieStore();
  for (let at = 0; at < 2000; at++) store.parse('http://a.example/', 'n' + at + '=1');
  try {
    store.header('');
  } catch (error) {
    parentPort.postMessage([store.size, error.code, error.constructor.name]);
  }
`;

test('each thread has stores of its own', async () => {
  const workers = Array.from({ length: 4 }, () => new Worker(PROGRAM, { eval: true, workerData: PACKAGE }));
  const ends = workers.map((worker) => Promise.all([once(worker, 'message'), once(worker, 'exit')]));
  const here = new CookieStore();
  for (let at = 0; at < 2000; at++) here.parse('http://b.example/', `n${at}=1`);
  for (const [[posted], [status]] of await Promise.all(ends)) {
    assert.deepEqual([posted, status], [[2000, 'BAD_URL', 'CookieStoreError'], 0]);
  }
  assert.equal(here.size, 2000);
});

test('a store cannot be sent to another thread', (context) => {
  const { port1, port2 } = new MessageChannel();
  context.after(() => port1.close());
  const store = new CookieStore();
  for (const [name, value] of [['a store', store], ['a list', [store]], ['a jar', new CookieJar(store)]]) {
    assert.throws(() => port2.postMessage(value), { name: 'DataCloneError' }, name);
    assert.throws(() => structuredClone(value), { name: 'DataCloneError' }, name);
  }
  assert.equal(outcome(() => Object.create(CookieStore.prototype).header('http://a/')), 'TypeError');
});
