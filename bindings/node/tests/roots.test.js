'use strict';
const assert = require('node:assert/strict');
const { test } = require('node:test');
const { CookieStore, shard } = require('pulleymaroon');
const { NOW, compare } = require('./support');

const LIST = 'com\njp\n*.kobe.jp\nuk\nco.uk\n';

// Hosts with their roots under that list.
const ROOTS = [
  ['www.example.com', 'example.com'],
  ['com', 'com'],
  ['a.b.example.co.uk', 'example.co.uk'],
  ['a.b.kobe.jp', 'kobe.jp'],
  ['b.a.localhost', 'a.localhost'],
  ['127.0.0.1', '127.0.0.1'],
  ['[::1]', '[::1]'],
  [`${'l.'.repeat(500)}a.com`, 'a.com'],
];

// Set-Cookie header values, some of which no host may set.
const VALUES = ['a=1', 'b=2; Domain=example.com', 'c=3; Domain=kobe.jp', 'd=4; Domain=com', 'a=5; Max-Age=0', 'e=6'];

const strictStore = () => new CookieStore({ suffixList: LIST, strict: true, domainLimit: 2 });

test('hosts have roots', () => {
  const store = strictStore();
  for (const [host, root] of ROOTS) {
    assert.equal(store.root(`https://${host}:8080/x?y`), root);
    assert.equal(store.root(new URL(`https://${host}/`)), root);
    assert.equal(store.rootOfDomain(host), root);
  }
  assert.equal(store.root('data:x'), '');
  assert.equal(store.rootOfDomain('l'.repeat(600)), 'l'.repeat(600));
});

test('a root needs a list and a URL', () => {
  const store = strictStore();
  compare([
    [new CookieStore(), 'http://a/', 'NO_LIST'],
    [store, 'no url', 'BAD_URL'],
    [store, new Uint8Array([0xff]), 'NOT_UTF8'],
  ], (each, url) => each.root(url));
  compare([
    [new CookieStore(), 'a', 'NO_LIST'],
    [store, new Uint8Array([0xff]), 'NOT_UTF8'],
  ], (each, domain) => each.rootOfDomain(domain));
  assert.throws(() => store.root(1), TypeError);
});

// The hashes are those that the authors of FNV publish.
test('a shard is of FNV-1a', () => {
  for (const [root, hash] of [['', 0xcbf29ce484222325n], ['a', 0xaf63dc4c8601ec8cn], ['foobar', 0x85944171f73967e8n]]) {
    for (const shards of [1, 2, 16, 2 ** 31, 2 ** 32 - 1]) assert.equal(BigInt(shard(root, shards)), hash % BigInt(shards));
  }
  for (const shards of [0, -1, 2 ** 32]) assert.throws(() => shard('a', shards), { code: 'BAD_LIMIT' });
  assert.throws(() => shard(new Uint8Array([0xff]), 2), { code: 'NOT_UTF8' });
  assert.throws(() => shard('a', 1.5), TypeError);
  assert.throws(() => shard('a', '2'), TypeError);
});

test('stores that are split by site do what one store does', () => {
  const one = strictStore();
  const stores = Array.from({ length: 4 }, strictStore);
  const storeOf = (url) => stores[shard(one.root(url), stores.length)];
  const urls = ROOTS.map(([host]) => `http://${host}/`);
  for (const url of urls) {
    for (const value of VALUES) assert.equal(storeOf(url).parse(url, value, { now: NOW }), one.parse(url, value, { now: NOW }));
  }
  for (const url of urls) assert.equal(storeOf(url).header(url, { now: NOW }), one.header(url, { now: NOW }));
  assert.equal(stores.reduce((sum, store) => sum + store.size, 0), one.size);
  for (const { domain, path, name } of one) {
    assert.ok(stores[shard(one.rootOfDomain(domain), stores.length)].remove(domain, path, name));
  }
  assert.ok(stores.every((store) => store.size === 0));
});
