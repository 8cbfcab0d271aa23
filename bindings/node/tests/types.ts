// Uses each type of index.d.ts. tsc compiles it, and it is not run.
import {
  Cookie, CookieJar, CookieStore, CookieStoreError, SYSTEM_SUFFIX_FILE, cookieInterceptor, isRejection, replaceFile, shard,
  statusText, withCookies,
} from 'pulleymaroon';

const store = new CookieStore({ suffixList: new Uint8Array(), onlyListed: true, domainLimit: 1, strict: true });
const status: string = store.parse({ href: 'http://a.example/' }, 'a=1', { now: new Date() });
const received: string[] = store.receive('http://a.example/', ['a=1', new Uint8Array()], { now: 0 }).concat(store.receive('', undefined));
const isNew: boolean = store.insert({ name: 'a', value: '1', domain: 'a.example', expires: new Date(), sameSite: 'Lax' }) === 'INSERTED';
const header: string | null = store.header('http://a.example/', { now: 0, sameSite: false, topLevel: true, laxByDefault: false });
const response: string = store.parse('http://a.example/', 'a=1', { page: 'http://b.example/', topLevel: true, laxByDefault: false });
const request: string | null = store.header('http://a.example/', { page: new URL('http://b.example/') });
for (const { domain, expires, sameSite } of store) {
  const row: [string, number | undefined, 'Strict' | 'Lax' | 'None' | null] = [domain, expires?.getTime(), sameSite];
  void row;
}
const counts: number[] = [store.size, store.removeExpired(), store.removeDomain('a'), store.merge(store.clone())];
const shardOfUrl: number = shard(store.root(new URL('http://a.example/')), 4) + shard(store.rootOfDomain('a.example'), 4);
const isRemoved: boolean = store.remove('a', '/', 'a');
const { list, leftOut } = store.saveLenient({ which: 'all' });
const { store: loaded, malformed } = CookieStore.loadLenient(list);
const copy: CookieStore = CookieStore.load(loaded.save({ format: 'ron' }), { format: 'ron', which: 'all', strict: true });
copy[Symbol.dispose]();
replaceFile('file', list + leftOut + malformed.length + SYSTEM_SUFFIX_FILE);
if (isRejection(status)) throw new CookieStoreError('PARSE');

const lengthOf = async (url: string): Promise<number> => url.length;
const get = withCookies(lengthOf, store, { onDropped: ({ host, name, code }) => host + name + code });
const length: Promise<number> = get('http://a.example/');
cookieInterceptor(new CookieJar(store), { origin: { href: 'http://a.example/' } });

async function useJar(jar: CookieJar): Promise<void> {
  const cookie: Cookie | undefined = await jar.setCookie('a=1', 'http://a.example/', { ignoreError: true, http: false });
  jar.setCookie(cookie ?? 'a=1', 'http://a.example/', (error, result) => result?.key ?? error);
  jar.getCookies('http://a.example/', { expire: false, sameSiteContext: 'lax' }, (error, cookies) => cookies?.map(String) ?? error);
  const text: string = await jar.getCookieString('http://a.example/', { now: Date.now() });
  const texts: string[] = jar.getSetCookieStringsSync('http://a.example/');
  const other: CookieJar = await CookieJar.deserialize(await jar.serialize());
  other.removeAllCookies(() => [text, texts]);
}

// @ts-expect-error: no such format
store.save({ format: 'xml' });
// @ts-expect-error: a cookie has a domain
store.insert({ name: 'a', value: '1' });
// @ts-expect-error: a value is a string or bytes
store.parse('http://a.example/', 1);
// @ts-expect-error: header values are an array
store.receive('http://a.example/', 1);
// @ts-expect-error: a Store of tough-cookie is not one
new CookieJar({ findCookie() {} });
// @ts-expect-error: it takes what the fetch takes
get(1);

void [header, received, isNew, counts, shardOfUrl, isRemoved, length, useJar, statusText('PARSE')];
