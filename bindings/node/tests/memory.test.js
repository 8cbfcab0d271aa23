'use strict';
const assert = require('node:assert/strict');
const { test } = require('node:test');
const { setImmediate } = require('node:timers/promises');
const v8 = require('node:v8');
const vm = require('node:vm');
const { CookieJar, CookieStore } = require('pulleymaroon');
const { outcome } = require('./support');

const MEGABYTE = 2 ** 20;
const URL_A = 'http://a.example/';

v8.setFlagsFromString('--expose-gc');
const collect = vm.runInNewContext('gc');

/** Frees what is garbage. Node frees stores when the program waits. */
async function freeGarbage() {
  collect();
  await setImmediate();
}

/** Returns by how many megabytes the process grows while a call is made a number of times, after a tenth of them. */
async function growth(times, call) {
  const repeat = async (count) => {
    for (let at = 0; at < count; at++) {
      call(at);
      if (at % 5000 === 0) await freeGarbage();
    }
    await freeGarbage();
  };
  await repeat(times / 10);
  const before = process.memoryUsage.rss();
  await repeat(times);
  return (process.memoryUsage.rss() - before) / MEGABYTE;
}

test('a million calls leave no memory behind', async () => {
  const long = 'x'.repeat(1000);
  const [few, many] = [new CookieStore(), new CookieStore()];
  for (const name of ['a', 'b', 'c']) few.parse(URL_A, `${name}=1`);
  for (let at = 0; at < 30; at++) many.parse(URL_A, `n${at}=${long}`);
  const [listed, jar] = [new CookieStore({ suffixList: 'example\n' }), new CookieJar()];
  const list = few.save({ which: 'all' });
  // A leak of what a call allocates would be more than the 20 MB by which a process may grow without one.
  const rows = [
    ['parse', 250000, (at) => few.parse(URL_A, `a=${at}`)],
    ['receive', 100000, (at) => few.receive(URL_A, [`a=${at}`, 'b', `c=${at}`])],
    ['receive of many', 3000, () => many.receive(URL_A, new Array(30).fill(long))],
    ['receive, an error', 100000, () => outcome(() => few.receive(URL_A, ['a=1', 1]))],
    ['header', 250000, () => few.header(URL_A)],
    ['an error', 100000, () => outcome(() => few.header('x'))],
    ['a TypeError', 100000, () => outcome(() => few.parse(URL_A))],
    ['cookiesFor', 100000, () => few.cookiesFor(URL_A)],
    ['insert and remove', 50000, (at) => few.insert({ name: 'd', value: `${at}`, domain: 'a.example' }) && few.remove('a.example', '/', 'd')],
    ['removeDomain and removeExpired', 50000, () => few.removeDomain('b.example') + few.removeExpired()],
    ['merge', 50000, () => listed.merge(few)],
    ['root', 50000, () => listed.root(URL_A)],
    ['a header of a page', 50000, () => listed.header(URL_A, { page: 'http://b.example/' })],
    ['a jar', 50000, (at) => jar.setCookieSync(`a=${at}`, URL_A) && jar.getCookieStringSync(URL_A)],
    ['parse of a long string', 100000, () => few.parse(URL_A, long)],
    ['a long header', 10000, () => many.header(URL_A)],
    ['many cookies', 3000, () => many.cookies()],
    ['save and load', 20000, () => CookieStore.load(list).save({ which: 'all' })],
    ['lenient save and load', 20000, () => CookieStore.loadLenient('a\tb').store.saveLenient({ which: 'all' })],
    ['clone and close', 20000, () => few.clone().close()],
    ['stores that are not closed', 50000, () => new CookieStore().parse(URL_A, `a=${long}`)],
  ];
  for (const [name, times, call] of rows) {
    const megabytes = await growth(times, call);
    assert.ok(megabytes < 20, `${name}: the process grew by ${megabytes.toFixed(1)} MB`);
  }
});
