// Gets each URL and prints the body. The unexpired cookies are kept in FILE, a list in JSON.
//
//     node fetch.mjs FILE URL..
import { readFileSync } from 'node:fs';
import { CookieStore, replaceFile, withCookies } from 'pulleymaroon';

/** Returns a store with the cookies of a file, if there is one. */
function load(file) {
  try {
    return CookieStore.load(readFileSync(file));
  } catch (error) {
    if (error.code !== 'ENOENT') throw error;
    return new CookieStore();
  }
}

/** Prints the body of each response after redirects. */
async function printBodies(store, urls) {
  const get = withCookies(fetch, store);
  for (const url of urls) {
    const response = await get(url, { signal: AbortSignal.timeout(30000) });
    if (!response.ok) throw new Error(`${url}: status ${response.status}`);
    console.log(await response.text());
  }
}

async function main([file, ...urls]) {
  if (urls.length === 0) throw new Error('usage: fetch.mjs FILE URL..');
  const store = load(file);
  try {
    await printBodies(store, urls);
  } finally {
    replaceFile(file, store.save()); // session cookies, such as logins, too
  }
}

try {
  await main(process.argv.slice(2));
} catch (error) {
  console.error(`fetch.mjs: ${error.cause?.message ?? error.message}`);
  process.exitCode = 1;
}
