export {}; // without it each type below would be exported

declare global {
  interface SymbolConstructor {
    readonly dispose: unique symbol; // as of TypeScript 5.2
  }
}

/** A time: a Date, or seconds since 1970. */
export type Time = Date | number;

/** A string, or its bytes in UTF-8. In a string a lone surrogate counts as U+FFFD. */
export type Text = string | Uint8Array;

/** A URL object. */
export interface Href {
  readonly href: string;
}

/** A URL as the client connects to it: an object such as a URL, or a string in which the host is in ASCII. */
export type Address = Text | Href;

/** What parse() returns of a cookie that is stored: it is new, it replaced one, or it has expired and expired the stored one. */
export type Accepted = 'INSERTED' | 'UPDATED' | 'EXPIRED_EXISTING';

/** Why parse() rejects a cookie. The second line is of a strict store, and the third of parse() with a page. */
export type Rejection =
  | 'NON_HTTP_SCHEME' | 'NON_RELATIVE_SCHEME' | 'DOMAIN_MISMATCH' | 'EXPIRED' | 'PARSE' | 'PUBLIC_SUFFIX'
  | 'CONTROL_CHARACTER' | 'TOO_LONG' | 'INSECURE_URL' | 'INSECURE_SAME_SITE_NONE' | 'PREFIX' | 'SECURE_STORED' | 'SECURE_LIMIT'
  | 'CROSS_SITE_RESPONSE';

/** What receive() returns of a header value. */
export type Received = Accepted | Rejection | 'NOT_UTF8' | 'NO_MEMORY';

/** Why a call fails. */
export type Failure =
  | 'NO_MEMORY' | 'BAD_URL' | 'NOT_UTF8' | 'BAD_TIME' | 'NO_STORE' | 'BAD_LIMIT' | 'BAD_OPTION' | 'BAD_RULE' | 'NO_RULES' | 'NO_LIST'
  | 'BAD_JSON' | 'BAD_SHAPE' | 'BAD_RON' | 'BAD_EXPIRY' | 'BAD_LINE' | 'UNREPRESENTABLE';

/**
 * A name of cookie_store.h without its prefix. A newer library may have others, such as 'UNKNOWN_50'.
 */
export type Code = Accepted | Rejection | Failure | (string & {});

/** The error of a call that fails. The store is unchanged, except by merge(). */
export class CookieStoreError extends Error {
  constructor(code: Code, line?: number);
  readonly code: Code;
  /** The number of the malformed line, from 1, of BAD_RULE and BAD_LINE. */
  readonly line?: number;
}

/** Returns whether a code of parse() is a reason why the cookie is rejected. */
export function isRejection(code: Code): boolean;

/** Returns what a code means, in a few words. */
export function statusText(code: Code): string;

/** The public suffix list of Debian's package publicsuffix. */
export const SYSTEM_SUFFIX_FILE: string;

/** A cookie of a store. */
export interface StoredCookie {
  domain: string;
  path: string;
  name: string;
  value: string;
  /** null for a session cookie. */
  expires: Date | null;
  /** true for a host-only cookie, false if it is also sent to the hosts below its domain. */
  hostOnly: boolean;
  /** Whether the path comes from a Path attribute. */
  hasPath: boolean;
  secure: boolean;
  httpOnly: boolean;
  /** null without a SameSite attribute. */
  sameSite: 'Strict' | 'Lax' | 'None' | null;
}

/** The parts of a cookie to insert. What is left out is as in a session cookie of all hosts below the domain, for all paths. */
export interface CookieParts {
  name: Text;
  value: Text;
  /** In lower case and in Punycode, without a leading dot. */
  domain: Text;
  path?: Text;
  /** null for a session cookie. */
  expires?: Time | null;
  hostOnly?: boolean;
  /** By default true. */
  hasPath?: boolean;
  secure?: boolean;
  httpOnly?: boolean;
  sameSite?: 'Strict' | 'Lax' | 'None' | null;
}

export interface SuffixOptions {
  /** Whether only the domains that a rule matches are public suffixes, and not also each top-level domain without a rule. */
  onlyListed?: boolean;
}

export interface StoreOptions extends SuffixOptions {
  /** See setSuffixList(). */
  suffixList?: Text;
  /** See setDomainLimit(). */
  domainLimit?: number;
  /** See setStrict(). */
  strict?: boolean;
}

export interface TimeOptions {
  /** The time of the call, by default the current one. */
  now?: Time;
}

export interface PageOptions extends TimeOptions {
  /**
   * The URL of the page that made the request, which is cross-site unless page and URL have the same scheme, and under the
   * suffix list of the store the same registrable domain, or the same host if that has none or there is no list.
   */
  page?: Address;
  /**
   * Whether a cross-site request is a top-level navigation, for header() with a safe method: then cookies of SameSite=Lax are
   * sent, and the response may set any cookie.
   */
  topLevel?: boolean;
  /** Whether a cookie without SameSite counts as SameSite=Lax, which is the default, or as None. */
  laxByDefault?: boolean;
}

export interface HeaderOptions extends PageOptions {
  /**
   * false for a cross-site request, whatever `page` is: one of a page of another site, or in a frame of one, or that was
   * redirected by one. It is sent without cookies of SameSite=Strict, and unless `topLevel` of SameSite=Lax.
   */
  sameSite?: boolean;
}

/** A list in JSON or RON, or a cookies.txt file as of curl and wget. */
export type Format = 'json' | 'ron' | 'netscape';

/** All cookies; those that have not expired, session cookies included; the persistent ones of these. */
export type Which = 'all' | 'unexpired' | 'persistent';

export interface LenientOptions extends TimeOptions {
  /** Which cookies are saved or loaded, by default 'unexpired': most logins are session cookies. */
  which?: Which;
}

export interface SaveOptions extends LenientOptions {
  /** By default 'json'. */
  format?: Format;
}

/**
 * A cookie store. It belongs to the thread that created it: postMessage() of a store throws a DataCloneError. Its hash tables
 * use a random key.
 *
 * A method throws a TypeError for an argument of a wrong type, and a CookieStoreError if the call fails: NOT_UTF8 for bytes
 * that are not UTF-8, BAD_TIME for a time that is not in the years -9999 to 9999, NO_STORE after close(), or NO_MEMORY. Each
 * method lists its other codes, in the order in which they are checked.
 */
export class CookieStore implements Iterable<StoredCookie> {
  /** Creates a store without cookies. The codes are those of setSuffixList() and setDomainLimit(). */
  constructor(options?: StoreOptions);

  /**
   * Returns a store with saved cookies, which are not checked against the suffix list or the limit. In JSON and RON a cookie
   * with SameSite=None and without Secure comes back Secure.
   *
   * Codes: BAD_OPTION, then BAD_JSON, BAD_SHAPE, BAD_RON, BAD_EXPIRY and PARSE of a list, and BAD_LINE with the line of a file.
   */
  static load(list: Text, options?: SaveOptions & StoreOptions): CookieStore;

  /** Returns a store with the cookies of a cookies.txt file, and the numbers of its malformed lines, from 1. Code: BAD_OPTION. */
  static loadLenient(list: Text, options?: LenientOptions & StoreOptions): { store: CookieStore; malformed: number[] };

  /**
   * Frees the store. From then on `size` is 0, and other calls throw NO_STORE. A store that is garbage is freed while the program
   * waits.
   */
  close(): void;

  /** Is close(), for `using`, if Node has Symbol.dispose. */
  [Symbol.dispose](): void;

  /** Returns a copy, with the same cookies in the same order, suffix list, limit and strictness. */
  clone(): CookieStore;

  /** The number of cookies, expired ones included. */
  readonly size: number;

  /** Whether the store is strict, see setStrict(). */
  readonly strict: boolean;

  /** How many cookies a domain may have, or null without a limit. */
  readonly domainLimit: number | null;

  /**
   * Sets whether parse() follows the rules that browsers add to RFC 6265: it rejects more cookies, ignores attributes longer
   * than 1,024 bytes, and lets a cookie expire at most 400 days after it was received. Stored cookies stay.
   */
  setStrict(strict: boolean): void;

  /**
   * Limits each domain to `limit` cookies. Before a cookie is inserted, others of its domain are evicted: the expired ones
   * first, then in creation order; a strict store evicts Secure ones last.
   *
   * Code: BAD_LIMIT for a limit below 1.
   */
  setDomainLimit(limit: number): void;

  /**
   * Sets the public suffix list: domains such as co.uk, for all of which no server may set a cookie. `list` is the content of
   * a file in the format of publicsuffix.org. Stored cookies stay.
   *
   * Codes: BAD_RULE with the line, and NO_RULES.
   */
  setSuffixList(list: Text, options?: SuffixOptions): void;

  /**
   * Parses the value of a Set-Cookie header that was received from `url` and inserts the cookie, RFC 6265 5.3. Returns how,
   * or why it is rejected: see isRejection(). With a `page` it follows the rules of setStrict() in any store, and a cookie of a
   * cross-site response that is not SameSite=None is CROSS_SITE_RESPONSE. Code: BAD_URL.
   */
  parse(url: Address, value: Text, options?: PageOptions): Accepted | Rejection;

  /**
   * Inserts the cookies of the Set-Cookie headers of a response from `url`, in order and in one call. Returns for each header value
   * what parse() returns, or NOT_UTF8 or NO_MEMORY, which parse() throws. `values` may be undefined, as `headers['set-cookie']` of
   * node:http is without such a header. In a subclass with a method parse() it calls that. Code: BAD_URL.
   */
  receive(url: Address, values: Iterable<Text> | null | undefined, options?: TimeOptions): Received[];

  /**
   * Inserts a cookie by its parts, as if its own domain had sent it. Returns what parse() returns: PARSE if no server can set the
   * cookie, as with a `;` in its name or a path that does not begin with `/`, and DOMAIN_MISMATCH if the domain is not the host of
   * a URL. A cookie of another store may be passed. Code: BAD_OPTION for another sameSite.
   */
  insert(cookie: CookieParts, options?: TimeOptions): Accepted | Rejection;

  /**
   * Returns the value of the Cookie header of a request, RFC 6265 5.4, or null if none is to be sent. Longer paths come first,
   * then cookies in creation order. A cookie of a loaded list may have control characters: check for them before you write the
   * header to a connection. With a `page`, a same-site request has the cookies that a strict store sends. Code: BAD_URL.
   */
  header(url: Address, options?: HeaderOptions): string | null;

  /** Returns all cookies, expired ones included, in the order of the store. */
  cookies(): StoredCookie[];

  /** Returns the cookies of a request, in the order of header(). Code: BAD_URL. */
  cookiesFor(url: Address, options?: TimeOptions): StoredCookie[];

  /** Iterates over what cookies() returns. */
  [Symbol.iterator](): IterableIterator<StoredCookie>;

  /** Removes the cookie with this domain, without a leading dot, path and name. Returns whether there was one. */
  remove(domain: Text, path: Text, name: Text): boolean;

  /** Removes the cookies of this domain, without a leading dot, and returns their number. */
  removeDomain(domain: Text): number;

  /** Removes the cookies that have expired, which are never sent but stay stored, and returns their number. */
  removeExpired(options?: TimeOptions): number;

  /** Removes all cookies. */
  clear(): void;

  /**
   * Returns the root of the host of `url`: its outermost site under the suffix list, or '' if the URL has no host. In a strict
   * store a cookie that a host sets is sent only to hosts of the same root, so that each root, or each shard() of roots, may have
   * a store of its own. Codes: NO_LIST if the store has no suffix list, and BAD_URL.
   */
  root(url: Address): string;

  /** Returns the root of the domain of a cookie, as cookies() returns it. Code: NO_LIST. */
  rootOfDomain(domain: Text): string;

  /**
   * Inserts the cookies of another store, each as if its own domain had sent it, and returns how many are left out: those that
   * parse() would reject, and those whose domain is not the host of a URL. A domain cookie of a public suffix becomes
   * host-only. After NO_MEMORY some cookies may be inserted.
   */
  merge(other: CookieStore, options?: TimeOptions): number;

  /**
   * Returns the cookies in a format, in the order of the store.
   *
   * Codes: BAD_OPTION, then BAD_EXPIRY of a list that cannot represent an expiry, and UNREPRESENTABLE of a cookies.txt file
   * that cannot represent a cookie.
   */
  save(options?: SaveOptions): string;

  /** Returns a cookies.txt file, and the number of cookies that it leaves out because it cannot represent them. */
  saveLenient(options?: LenientOptions): { list: string; leftOut: number };
}

/**
 * Returns the number of the shard of a root, from 0 to `shards` - 1: the 64-bit FNV-1a hash of its bytes modulo `shards`. This never
 * changes. Throws a CookieStoreError: BAD_LIMIT if `shards` is below 1 or has more than 32 bits, and NOT_UTF8.
 */
export function shard(root: Text, shards: number): number;

/**
 * Replaces a file by one with this text, which its owner alone can read: it is whole also after a crash. If the call throws,
 * the file is as it was.
 */
export function replaceFile(name: string, text: string): void;

/** A cookie that a client does not store or does not send. */
export interface Dropped {
  /** The host of the URL, with its port. */
  host: string;
  /** The name of the cookie, or '' if the URL is BAD_URL or a header value has no name. */
  name: string;
  /** A reason of parse(), BAD_URL or NOT_UTF8; of a cookie that is not sent CONTROL_CHARACTER. EXPIRED is harmless. */
  code: Code;
}

export interface ClientOptions {
  onDropped?: (dropped: Dropped) => void;
}

type Fetch = (input: any, init?: any) => Promise<any>;

/**
 * Returns a fetch that sends the cookies of a store, or of the store of a jar, and inserts those of the responses, also those
 * of redirects, which it follows itself. With `credentials: 'omit'` a request neither sends nor sets cookies.
 */
export function withCookies<F extends Fetch>(fetch: F, store: CookieStore | CookieJar, options?: ClientOptions): F;

export interface InterceptorOptions extends ClientOptions {
  /** The origin of requests that have none, such as those of a Client. */
  origin?: string | Href;
}

/** Returns an interceptor of undici, for `dispatcher.compose(cookieInterceptor(store))`. */
export function cookieInterceptor(
  store: CookieStore | CookieJar, options?: InterceptorOptions,
): (dispatch: (options: any, handler: any) => boolean) => (options: any, handler: any) => boolean;

/** A cookie with the properties and methods of tough-cookie's. */
export class Cookie {
  key: string;
  value: string;
  expires: Date | 'Infinity';
  maxAge: number | 'Infinity' | '-Infinity' | null;
  domain: string | null;
  path: string | null;
  secure: boolean;
  httpOnly: boolean;
  extensions: string[] | null;
  hostOnly: boolean | null;
  pathIsDefault: boolean | null;
  creation: Date | null;
  lastAccessed: Date | null;
  sameSite: string | undefined;

  constructor(properties?: Partial<CookieProperties>);
  /** Returns the cookie of a Set-Cookie header value, or undefined if it is not one. */
  static parse(value: string): Cookie | undefined;
  /** Returns the cookie of what toJSON() returns, or of that as a string; null if it is neither. */
  static fromJSON(json: string | object | null | undefined): Cookie | null;
  toJSON(): Record<string, unknown>;
  clone(): Cookie | null;
  /** Returns the value of a Set-Cookie header. */
  toString(): string;
  /** Returns the pair of a Cookie header. */
  cookieString(): string;
  setExpires(expires: Date | string): void;
  setMaxAge(seconds: number): void;
  isPersistent(): boolean;
  /** Returns milliseconds since 1970, or Infinity. */
  expiryTime(now?: Date | number): number;
  expiryDate(now?: Date | number): Date;
  /** Returns the milliseconds until it expires, or Infinity. */
  TTL(now?: Date | number): number;
  canonicalizedDomain(): string | null;
  cdomain(): string | null;
  /** Returns whether the parts can stand in a header. */
  validate(): boolean;
}

type CookieProperties = Pick<Cookie,
  | 'key' | 'value' | 'expires' | 'maxAge' | 'domain' | 'path' | 'secure' | 'httpOnly' | 'extensions' | 'hostOnly'
  | 'pathIsDefault' | 'creation' | 'lastAccessed' | 'sameSite'>;

export interface JarOptions {
  /** Whether cookies of public suffixes are rejected, by default true. */
  rejectPublicSuffixes?: boolean;
  /** Whether a cookie that lacks what its prefix `__Secure-` or `__Host-` demands is ignored, is an error, or is stored. */
  prefixSecurity?: 'silent' | 'strict' | 'unsafe-disabled';
}

export interface RequestOptions {
  /** false for a script, which cannot see or set HttpOnly cookies. */
  http?: boolean;
  /** Whether the request is secure, by default by the scheme of the URL. */
  secure?: boolean;
  /** A Date, or milliseconds since 1970. */
  now?: Date | number;
  /** 'strict' for a request of the same site, 'lax' for a navigation from another one, 'none' for another request from there. */
  sameSiteContext?: 'strict' | 'lax' | 'none';
}

export interface SetCookieOptions extends RequestOptions {
  /** Whether the result is undefined, and no error, if the cookie is rejected or the URL is not valid. */
  ignoreError?: boolean;
}

export interface GetCookiesOptions extends RequestOptions {
  /** false for expired cookies too. */
  expire?: boolean;
}

/** What serialize() returns, in the form of tough-cookie. */
export interface SerializedJar {
  version: string;
  storeType: string | null;
  rejectPublicSuffixes: boolean;
  cookies: Record<string, unknown>[];
  [setting: string]: unknown;
}

type Callback<T> = (error: Error | null, result?: T) => void;

/**
 * A cookie jar with the calls of tough-cookie, over a CookieStore. A call whose last argument is a function calls it back before
 * it returns; otherwise it returns a promise. Errors are those of CookieStore, and codes of a rejected cookie.
 */
export class CookieJar {
  /** The options may be a boolean, for `rejectPublicSuffixes`. The suffix list of a store that is passed stays as it is. */
  constructor(store?: CookieStore | null, options?: JarOptions | boolean);

  readonly store: CookieStore;
  readonly rejectPublicSuffixes: boolean;
  readonly prefixSecurity: string;

  /** Inserts a cookie, and returns it with its domain and path; undefined if it is ignored. */
  setCookieSync(cookie: string | Cookie, url: Address, options?: SetCookieOptions): Cookie | undefined;
  setCookie(cookie: string | Cookie, url: Address, options?: SetCookieOptions): Promise<Cookie | undefined>;
  setCookie(cookie: string | Cookie, url: Address, callback: Callback<Cookie>): void;
  setCookie(cookie: string | Cookie, url: Address, options: SetCookieOptions, callback: Callback<Cookie>): void;

  /** Returns the cookies of a request, in the order of its header. */
  getCookiesSync(url: Address, options?: GetCookiesOptions): Cookie[];
  getCookies(url: Address, options?: GetCookiesOptions): Promise<Cookie[]>;
  getCookies(url: Address, callback: Callback<Cookie[]>): void;
  getCookies(url: Address, options: GetCookiesOptions, callback: Callback<Cookie[]>): void;

  /** Returns the value of the Cookie header of a request, or ''. */
  getCookieStringSync(url: Address, options?: GetCookiesOptions): string;
  getCookieString(url: Address, options?: GetCookiesOptions): Promise<string>;
  getCookieString(url: Address, callback: Callback<string>): void;
  getCookieString(url: Address, options: GetCookiesOptions, callback: Callback<string>): void;

  /** Returns the cookies of a request as values of Set-Cookie headers. */
  getSetCookieStringsSync(url: Address, options?: GetCookiesOptions): string[];
  getSetCookieStrings(url: Address, options?: GetCookiesOptions): Promise<string[]>;
  getSetCookieStrings(url: Address, callback: Callback<string[]>): void;
  getSetCookieStrings(url: Address, options: GetCookiesOptions, callback: Callback<string[]>): void;

  removeAllCookiesSync(): void;
  removeAllCookies(): Promise<void>;
  removeAllCookies(callback: Callback<void>): void;

  /** Returns the JSON of tough-cookie. */
  serializeSync(): SerializedJar;
  serialize(): Promise<SerializedJar>;
  serialize(callback: Callback<SerializedJar>): void;
  toJSON(): SerializedJar;

  /** Returns a jar with the cookies of that JSON, which are not checked unless a store is passed: see CookieStore.merge(). */
  static deserializeSync(serialized: string | object, store?: CookieStore): CookieJar;
  static deserialize(serialized: string | object, store?: CookieStore): Promise<CookieJar>;
  static deserialize(serialized: string | object, callback: Callback<CookieJar>): void;
  static deserialize(serialized: string | object, store: CookieStore, callback: Callback<CookieJar>): void;
  static fromJSON(serialized: string | object, store?: CookieStore): CookieJar;

  /** Returns a jar over a copy of the store, or over another store to which the cookies are added. */
  cloneSync(store?: CookieStore): CookieJar;
  clone(store?: CookieStore): Promise<CookieJar>;
  clone(callback: Callback<CookieJar>): void;
  clone(store: CookieStore, callback: Callback<CookieJar>): void;
}
