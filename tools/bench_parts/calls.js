'use strict';
/* Times calls from Node, beside tough-cookie if there is one. tools/bench bindings runs it with the folder of the package, the
 * seconds that a run takes, and numbers of cookies. Prints a line of JSON for each number: seconds of processor time a call, the
 * least of three runs, by jar and call. */
const [folder, seconds, ...numbers] = process.argv.slice(2);
const { CookieJar, CookieStore } = require(folder);

const EACH = 20; // cookies of a host
const HOSTS = 50; // of which headers are read
const NOW = new Date('2026-01-01T00:00:00Z');

function peer() {
  try {
    return require('tough-cookie').CookieJar;
  } catch {
    return undefined;
  }
}

/** Returns the seconds that a call takes, on each of the inputs in turn. */
function measure(call, inputs) {
  let least = Infinity;
  for (let run = 0; run < 3; run++) {
    const begun = process.cpuUsage();
    let calls = 0;
    let spent = 0;
    while (spent < seconds) {
      for (const input of inputs) call(input);
      calls += inputs.length;
      const { user, system } = process.cpuUsage(begun);
      spent = (user + system) / 1e6;
    }
    least = Math.min(least, spent / calls);
  }
  return least;
}

/** Stops if a header does not have as many cookies as expected. */
function expectCookies(header, count) {
  if (header.split('; ').length !== count || header === '') throw new Error(`not ${count} cookies: ${header}`);
}

/** Returns the times of a jar, by its functions `set`, `receive` and `get`. */
function timesOf({ create, set, receive, get }, number) {
  const hosts = Array.from({ length: number }, (_, at) => Math.floor(at / EACH));
  const cookies = hosts.map((host, at) => [`http://h${host}.example.com/a/b`, `c${at % EACH}=value${at}; Path=/; Max-Age=86400`]);
  const domains = cookies.slice(0, 1000).map(([url, value], at) => [url, `${value}; Domain=h${hosts[at]}.example.com`]);
  const paths = hosts.map((_, at) => [`http://one.example/p${at}/a`, `c=value${at}; Path=/p${at}; Max-Age=86400`]);
  const starts = cookies.flatMap((_, at) => (at % EACH === 0 ? [at] : []));
  const responses = starts.map((start) => [cookies[start][0], cookies.slice(start, start + EACH).map(([, value]) => value)]);
  const urls = Array.from({ length: HOSTS }, (_, at) => `http://h${at}.example.com/a/b`);
  const [many, withDomains, one] = [create(), create(), create()];
  const times = {
    set: measure(([url, value]) => set(many, url, value), cookies),
    set_response: measure(([url, values]) => receive(many, url, values), responses),
    set_domain: measure(([url, value]) => set(withDomains, url, value), domains),
    get_many: measure((url) => get(many, url), urls),
  };
  for (const [url, value] of paths) set(one, url, value);
  times.get_path = measure((url) => get(one, url), paths.slice(0, 10).map(([url]) => url));
  expectCookies(get(many, urls[1]), EACH);
  expectCookies(get(one, paths[1][0]), 1);
  return times;
}

function ofJar(Jar) {
  return {
    create: () => new Jar(),
    set: (jar, url, value) => jar.setCookieSync(value, url, { now: NOW }),
    receive: (jar, url, values) => values.forEach((value) => jar.setCookieSync(value, url, { now: NOW })),
    get: (jar, url) => jar.getCookieStringSync(url, { now: NOW }),
  };
}

const Peer = peer();
const jars = {
  CookieStore: {
    create: () => new CookieStore(),
    set: (store, url, value) => store.parse(url, value, { now: NOW }),
    receive: (store, url, values) => store.receive(url, values, { now: NOW }),
    get: (store, url) => store.header(url, { now: NOW }),
  },
  CookieJar: ofJar(CookieJar),
  ...(Peer && { 'tough-cookie': ofJar(Peer) }),
};
for (const number of numbers.map(Number)) {
  console.log(JSON.stringify(Object.fromEntries(Object.entries(jars).map(([name, jar]) => [name, timesOf(jar, number)]))));
}
