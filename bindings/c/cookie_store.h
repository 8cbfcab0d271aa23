/* cookie_store.h - an HTTP cookie store after RFC 6265.
 *
 * For 64-bit machines. Link with -lcookie_store (pkg-config cookie_store). No pointer may be NULL,
 * not even if its length is 0: for an empty string pass "".
 *
 *     cookie_store store = COOKIE_STORE_INIT;
 *     char key[16], header[4096];
 *     size_t needed, left_out;
 *     enum cookie_store_status status;
 *     if (getentropy(key, sizeof key)) abort();
 *     if (cookie_store_new(&store, key, sizeof key) != COOKIE_STORE_OK) abort();
 *
 *     // A response from `url` had the header `Set-Cookie: value`.
 *     status = cookie_store_parse(&store, url, strlen(url), value, strlen(value), time(NULL));
 *     if (status >= 10) printf("not stored: %s\n", cookie_store_status_text(status));
 *
 *     // The Cookie header of a request for `url`.
 *     status = cookie_store_header(&store, url, strlen(url), time(NULL), header, sizeof header,
 *                                  &needed);
 *     if (status == COOKIE_STORE_OK && needed > 0) printf("Cookie: %.*s\n", (int)needed, header);
 *
 *     // Save the cookies, session cookies included: first ask for the length, then write.
 *     status = cookie_store_save(&store, COOKIE_STORE_JSON, COOKIE_STORE_UNEXPIRED, time(NULL),
 *                                header, 0, &needed, &left_out);
 *     if (status == COOKIE_STORE_NO_ROOM) {
 *         char *list = malloc(needed);
 *         if (!list) abort();
 *         status = cookie_store_save(&store, COOKIE_STORE_JSON, COOKIE_STORE_UNEXPIRED,
 *                                    time(NULL), list, needed, &needed, &left_out);
 *         if (status == COOKIE_STORE_OK) fwrite(list, 1, needed, file);
 *         free(list);
 *     }
 *     cookie_store_free(&store);
 *
 * Handles
 *
 *   A `cookie_store` is a handle: two words that the caller allocates, and that either hold a store
 *   or are empty. A handle starts empty, as COOKIE_STORE_INIT or as all zero bytes.
 *   cookie_store_new, cookie_store_clone and cookie_store_load create a store in an empty handle.
 *   cookie_store_free frees the store and leaves the handle empty, so that it can be used again. A
 *   handle may be moved with memcpy if the old one is not used again; otherwise it must not be
 *   copied: cookie_store_clone copies a store. Its members are private.
 *
 * Ownership
 *
 *   The library keeps no pointer into the caller's memory: what a call takes is copied, and what it
 *   returns is written to buffers of the caller. Only the store itself is to be freed, with
 *   cookie_store_free. Memory is allocated with malloc, realloc and free, which must belong to one
 *   allocator.
 *
 * Strings and pointers
 *
 *   A string is a pointer and a length in bytes. It needs no terminating zero, and none is written.
 *   It may hold any bytes: a string that is not UTF-8, not a URL or not a list is reported by a
 *   status of its own.
 *
 *   A pointer must not be NULL, not even if its length is 0, and must be aligned for its type. All
 *   bytes up to the length, which must not exceed PTRDIFF_MAX, must be readable, or writable if the
 *   call writes to them. Memory that a call writes to must not overlap any other argument; this
 *   includes the handle and `*needed`. A bool must be 0 or 1.
 *
 *   Build `url` from the scheme, host, port and path by which the client connects, and do not pass
 *   the string that the client was given. The store reads a URL as browsers do, by the WHATWG
 *   standard. If the client reads another host from the same string, it sends the cookies of one
 *   host to the other: `http://A\@B/` is host A to the standard, and host B to other parsers.
 *
 *   A URL that parsers read differently is BAD_URL:
 *   - one with a control character or a space;
 *   - with the scheme http, https, ws, wss or ftp: one without `//` and a nonempty authority behind
 *     the scheme; with a backslash in the authority; with a `%` or a character that is not ASCII in
 *     the host: a domain name is passed in Punycode; or with a host that ends in a number and a dot,
 *     such as `127.1.`, or in a number without being decimal numbers alone, such as `0x7f.1`;
 *   - with the scheme file: one with a backslash, or with such a host.
 *
 * Buffers
 *
 *   A call that returns a string writes it to the start of `out`, at most `out_len` bytes, and sets
 *   `*needed` to its length. If the buffer is too short, the call returns NO_ROOM, writes nothing
 *   to the buffer and sets `*needed` to the length that it must have. On any other error `*needed`
 *   is 0. To ask for the length alone, pass a length of 0 and any pointer that is not NULL.
 *
 * Times
 *
 *   `now` is a time in seconds since 1970-01-01T00:00:00 UTC, without leap seconds, as time(2)
 *   returns it. It must be in the years -9999 to 9999, from -377705116800 to 253402300799. A cookie
 *   has expired if its expiry time is `now` or earlier.
 *
 * Errors
 *
 *   A status below 10 is success, from 10 to 19 and from 40 to 99 the cookie is rejected, and from
 *   20 to 39 and from 100 on the call failed. Statuses are named in these comments without their
 *   prefix COOKIE_STORE_. A call that fails leaves the store unchanged, except cookie_store_merge, and
 *   writes nothing to a buffer, but for the number of a line with BAD_LINE. Each function lists its
 *   errors in the order in which they are checked: the first that applies is returned.
 *
 *   Every call that may allocate memory can return NO_MEMORY. If a function says `May return
 *   NO_MEMORY instead of X`, then errors before X are reported even if no memory is left, and X and
 *   all that follow it, success included, may be replaced by NO_MEMORY. A function without such a
 *   sentence never returns NO_MEMORY.
 *
 * Threads
 *
 *   A store may be used by one thread at a time, also by calls that only read it, such as
 *   cookie_store_header and cookie_store_count. Moving it to another thread needs synchronization,
 *   such as a lock or a join. Different stores may be used at the same time. No function may be
 *   called from a signal handler, or in the forked child of a program that has threads.
 *
 *   In the tests with large input the stack of a call is at most 144 KB for loading a list in JSON
 *   or RON, however deeply nested, and 40 KB for other calls.
 *
 * ABI
 *
 *   The soname libcookie_store.so.0 and the symbol version COOKIE_STORE_0 promise: functions and
 *   numbers of enums are only added; no function, number of an enum or struct member changes, and
 *   the two structs keep their size. Treat a status that you do not know by its range, see Errors.
 *   COOKIE_STORE_INIT is zero bytes. An enum must be 32 bits wide. */
#ifndef COOKIE_STORE_H
#define COOKIE_STORE_H

#include <stdbool.h>
#include <stddef.h>
#include <stdint.h>

/* The version of this header. */
#define COOKIE_STORE_VERSION_MAJOR 0
#define COOKIE_STORE_VERSION_MINOR 1
#define COOKIE_STORE_VERSION_PATCH 0

#ifdef __cplusplus
extern "C" {
#endif

/* Status of a call. Values below 10 are success. */
enum cookie_store_status {
    /* Success. */
    COOKIE_STORE_OK = 0,
    /* The cookie was inserted: none with its domain, path and name was stored. */
    COOKIE_STORE_INSERTED = 1,
    /* The cookie replaced the stored one, expired or not, with the same domain, path and name. */
    COOKIE_STORE_UPDATED = 2,
    /* The cookie has expired, and so the stored one with the same domain, path and name was expired
     * too: its expiry time is now 0. It is not removed. */
    COOKIE_STORE_EXPIRED_EXISTING = 3,

    /* 10 to 16: the cookie is rejected. */

    /* The scheme of the URL does not begin with "http", and the cookie, or the unexpired one that
     * it would replace or expire, is HttpOnly. */
    COOKIE_STORE_NON_HTTP_SCHEME = 10,
    /* The cookie has no Domain attribute, or an empty one, and the URL has no host. */
    COOKIE_STORE_NON_RELATIVE_SCHEME = 11,
    /* The host of the URL does not domain-match the Domain attribute, RFC 6265 5.1.3, or the URL
     * has no host. Of a cookie by its parts: the domain is not the host of a URL, in lower case and
     * in Punycode, or has a dot before it. */
    COOKIE_STORE_DOMAIN_MISMATCH = 12,
    /* The cookie has expired, and no unexpired one with its domain, path and name is stored. */
    COOKIE_STORE_EXPIRED = 13,
    /* The header value is not a cookie (it has no `=` before the first `;`, or an empty name), or
     * its Domain attribute is not a domain name. Of a list to load: the raw_cookie of an entry is
     * not a cookie. Of a cookie by its parts: the name is empty or has a `=`, the name or the value
     * has a `;` or white space at an end, or the path does not begin with `/`. */
    COOKIE_STORE_PARSE = 14,
    /* The domain of the cookie is a public suffix on the list of the store, and is not the host of
     * the URL. */
    COOKIE_STORE_PUBLIC_SUFFIX = 15,
    /* Never returned. It stands for an error of the Rust crate cookie_store. */
    COOKIE_STORE_UNSPECIFIED_DOMAIN = 16,

    /* 20 to 38: the call failed. */

    /* Out of memory. */
    COOKIE_STORE_NO_MEMORY = 20,
    /* The URL is not valid, or parsers read different hosts from it, see Strings and pointers. */
    COOKIE_STORE_BAD_URL = 21,
    /* A string is not UTF-8. */
    COOKIE_STORE_NOT_UTF8 = 22,
    /* The time is not in the years -9999 to 9999. */
    COOKIE_STORE_BAD_TIME = 23,
    /* The handle is empty. */
    COOKIE_STORE_NO_STORE = 24,
    /* The handle holds a store already. */
    COOKIE_STORE_HAS_STORE = 25,
    /* A buffer is too short. The length needed is reported. */
    COOKIE_STORE_NO_ROOM = 26,
    /* No cookie with this domain, path and name is stored. */
    COOKIE_STORE_NOT_FOUND = 27,
    /* The limit, or the number of shards, is 0. */
    COOKIE_STORE_BAD_LIMIT = 28,
    /* The number of a format, of which cookies are saved or loaded, or of a SameSite attribute is
     * not in its enum; or a flag is unknown; or the lengths of header values do not add up, or are
     * not as many as the statuses. */
    COOKIE_STORE_BAD_OPTION = 29,

    /* A line of the public suffix list is not a rule. Its number is reported. */
    COOKIE_STORE_BAD_RULE = 30,
    /* A list to load is not JSON (BAD_JSON), is JSON but not a list of cookies (BAD_SHAPE), or is
     * not a list of cookies in RON (BAD_RON). */
    COOKIE_STORE_BAD_JSON = 31,
    COOKIE_STORE_BAD_SHAPE = 32,
    COOKIE_STORE_BAD_RON = 33,
    /* Of a list to load: an expiry is not a valid date and time. Of cookies to save: one expires
     * before the year 0, which a list cannot represent. */
    COOKIE_STORE_BAD_EXPIRY = 34,
    /* A line of a cookies.txt file to load is malformed: it is neither a cookie nor skipped. Its
     * number is reported. */
    COOKIE_STORE_BAD_LINE = 35,
    /* Of cookies to save as cookies.txt: the format cannot represent one. */
    COOKIE_STORE_UNREPRESENTABLE = 36,
    /* No line of the public suffix list is a rule. */
    COOKIE_STORE_NO_RULES = 37,
    /* The store has no public suffix list. */
    COOKIE_STORE_NO_LIST = 38,

    /* 40 to 47: the cookie is rejected under the rules of browsers, see cookie_store_set_strict. */

    /* The header value has a control character other than HTAB, or a cookie by its parts has one in
     * its name or value. */
    COOKIE_STORE_CONTROL_CHARACTER = 40,
    /* The name and the value together are longer than 4,096 bytes. */
    COOKIE_STORE_TOO_LONG = 41,
    /* The cookie is Secure, and the URL is not secure: its scheme is not https, and its host is not
     * this machine (localhost, 127.0.0.0/8, [::1]). */
    COOKIE_STORE_INSECURE_URL = 42,
    /* The cookie has SameSite=None and is not Secure. */
    COOKIE_STORE_INSECURE_SAME_SITE_NONE = 43,
    /* The name begins with __Secure-, ignoring case, and the cookie is not Secure; or it begins
     * with __Host-, ignoring case, and the cookie is not Secure, is not host-only, or has no Path
     * attribute `/`; or it begins with __Http- or __Host-Http-, ignoring case, and the cookie is not
     * Secure or not HttpOnly. */
    COOKIE_STORE_PREFIX = 44,
    /* Neither the cookie nor the URL is secure, and an unexpired Secure cookie with the same name is
     * stored: one of the two domains domain-matches the other, and the path of the new cookie
     * path-matches that of the stored one. */
    COOKIE_STORE_SECURE_STORED = 45,
    /* The cookie is not Secure, and its domain has as many unexpired Secure cookies as
     * cookie_store_set_domain_limit allows, or more. */
    COOKIE_STORE_SECURE_LIMIT = 46,
    /* The response is to a cross-site request that is not a top-level navigation, and the cookie is
     * not SameSite=None. */
    COOKIE_STORE_CROSS_SITE_RESPONSE = 47
};

/* Returns what a status means, for messages: a few words, or "unknown status". */
static inline const char *cookie_store_status_text(enum cookie_store_status status) {
    switch (status) {
    case COOKIE_STORE_OK: return "success";
    case COOKIE_STORE_INSERTED: return "inserted";
    case COOKIE_STORE_UPDATED: return "replaced the stored cookie";
    case COOKIE_STORE_EXPIRED_EXISTING: return "expired the stored cookie";
    case COOKIE_STORE_NON_HTTP_SCHEME: return "HttpOnly, and the URL is not HTTP";
    case COOKIE_STORE_NON_RELATIVE_SCHEME: return "no Domain attribute, and no host in the URL";
    case COOKIE_STORE_DOMAIN_MISMATCH: return "the host does not match the cookie's domain";
    case COOKIE_STORE_EXPIRED: return "the cookie has expired";
    case COOKIE_STORE_PARSE: return "not a cookie";
    case COOKIE_STORE_PUBLIC_SUFFIX: return "the domain is a public suffix";
    case COOKIE_STORE_UNSPECIFIED_DOMAIN: return "unspecified domain";
    case COOKIE_STORE_NO_MEMORY: return "out of memory";
    case COOKIE_STORE_BAD_URL: return "not a valid URL";
    case COOKIE_STORE_NOT_UTF8: return "not UTF-8";
    case COOKIE_STORE_BAD_TIME: return "the time is out of range";
    case COOKIE_STORE_NO_STORE: return "the handle is empty";
    case COOKIE_STORE_HAS_STORE: return "the handle holds a store already";
    case COOKIE_STORE_NO_ROOM: return "the buffer is too short";
    case COOKIE_STORE_NOT_FOUND: return "no such cookie";
    case COOKIE_STORE_BAD_LIMIT: return "not a valid limit or number of shards";
    case COOKIE_STORE_BAD_OPTION: return "an unknown option";
    case COOKIE_STORE_BAD_RULE: return "a line of the list is not a rule";
    case COOKIE_STORE_BAD_JSON: return "not JSON";
    case COOKIE_STORE_BAD_SHAPE: return "JSON, but not a list of cookies";
    case COOKIE_STORE_BAD_RON: return "not a list of cookies in RON";
    case COOKIE_STORE_BAD_EXPIRY: return "an expiry is not valid or not representable";
    case COOKIE_STORE_BAD_LINE: return "a line of the file is not a cookie";
    case COOKIE_STORE_UNREPRESENTABLE: return "the format cannot represent a cookie";
    case COOKIE_STORE_NO_RULES: return "the public suffix list has no rules";
    case COOKIE_STORE_NO_LIST: return "the store has no public suffix list";
    case COOKIE_STORE_CONTROL_CHARACTER: return "a control character in the header value";
    case COOKIE_STORE_TOO_LONG: return "name and value are longer than 4,096 bytes";
    case COOKIE_STORE_INSECURE_URL: return "Secure, and the URL is not secure";
    case COOKIE_STORE_INSECURE_SAME_SITE_NONE: return "SameSite=None, and not Secure";
    case COOKIE_STORE_PREFIX: return "lacks what the prefix of its name demands";
    case COOKIE_STORE_SECURE_STORED: return "a Secure cookie with its name is stored";
    case COOKIE_STORE_SECURE_LIMIT: return "the domain has its limit of Secure cookies";
    case COOKIE_STORE_CROSS_SITE_RESPONSE: return "not SameSite=None, of a cross-site response";
    }
    return "unknown status";
}

/* The handle of a store, or an empty handle. Its members are private. */
typedef struct cookie_store {
    bool live;
    bool strict;
    void *at;
} cookie_store;

#define COOKIE_STORE_INIT { false, false, NULL }

/* Creates a store without cookies, without a public suffix list and without a limit, in an empty
 * handle.
 *
 * `key` is the hash key of the store's hash tables. Only its first 16 bytes count, and a shorter
 * key is filled up with zeros. The key changes no result. A random key keeps servers that do not
 * know it from choosing names that make the store slow; a program that trusts its servers may pass an
 * empty key ("", 0).
 *
 * Errors: HAS_STORE.
 * May return NO_MEMORY instead of OK. */
enum cookie_store_status cookie_store_new(cookie_store *store, const char *key, size_t key_len);

/* Creates a copy of the store in an empty handle, `copy`.
 *
 * The copy has the same cookies in the same order and creation order, the public suffix list, the
 * limit and the hash key, and is strict if the store is. After that the two are independent. The two
 * handles must differ.
 *
 * Errors, in the order in which they are checked: NO_STORE, if `store` is empty; HAS_STORE, if `copy`
 * is not.
 * May return NO_MEMORY instead of OK; then `copy` stays empty. */
enum cookie_store_status cookie_store_clone(cookie_store *store, cookie_store *copy);

/* Frees the store and leaves the handle empty. Does nothing if the handle is empty. */
void cookie_store_free(cookie_store *store);

/* Sets the public suffix list of the store, in the format of publicsuffix.org, in place of the list
 * that it has.
 *
 * From now on a cookie whose Domain attribute is a public suffix on the list is rejected, unless it
 * comes from that very host; then it is stored as a host-only cookie. Cookies that are stored
 * already stay.
 *
 * A top-level domain that no rule matches is a public suffix too, as in browsers: the rule `*` is
 * added to the list, unless `only_listed` is true. Then a domain that no rule matches is not a
 * public suffix. The list of publicsuffix.org has nine top-level domains like np, with a rule *.np
 * and no rule np.
 *
 * `list` is the content of the file, not its name. A line whose rule has one of the bytes
 * / < { " : @ = is malformed: a path, an HTML page or JSON is not a list.
 *
 * `*bad_line` is set to the number of the first malformed line, counted from 1, on BAD_RULE, and to
 * 0 otherwise.
 *
 * Errors, in the order in which they are checked: NO_STORE, NOT_UTF8, BAD_RULE, NO_RULES.
 * May return NO_MEMORY instead of BAD_RULE, NO_RULES or OK. */
enum cookie_store_status cookie_store_set_suffix_list(cookie_store *store, const char *list, size_t list_len, bool only_listed,
                                                   size_t *bad_line);

/* Limits each domain to `limit` cookies, RFC 6265 6.1.
 *
 * From now on, before a cookie is inserted, cookies of its domain are evicted until it fits: first
 * the expired ones, then the others, both in creation order. Until then the stored cookies stay.
 * Replacing a cookie evicts none, and does not change its place in creation order. In a strict store
 * Secure cookies that have not expired are evicted last.
 *
 * Errors, in the order in which they are checked: NO_STORE, BAD_LIMIT. */
enum cookie_store_status cookie_store_set_domain_limit(cookie_store *store, size_t limit);

/* Returns the limit that cookie_store_set_domain_limit set.
 *
 * Returns 0 if there is none, or if the handle is empty. */
size_t cookie_store_domain_limit(cookie_store *store);

/* Sets whether the store is strict. A store that was just created or loaded is not, and a copy is if
 * its original is.
 *
 * Into a strict store, cookie_store_parse, cookie_store_insert and cookie_store_merge insert by rules
 * that the revision of RFC 6265, draft-ietf-httpbis-rfc6265bis, adds and browsers follow: the statuses
 * 40 to 46 list what is rejected, attributes whose value is longer than 1,024 bytes are ignored, and a
 * cookie expires at most 400 days after it was received. With a public suffix list, a cookie is also rejected with
 * PUBLIC_SUFFIX if its domain is above the site of the host of the URL, such as amazonaws.com for
 * bucket.s3.amazonaws.com. docs/STRICT.md also lists the rules that are left out.
 *
 * Stored cookies stay. For a cookie that is not Secure, received from a URL that is not secure,
 * cookie_store_parse takes time in proportion to the number of Secure cookies of its name. The first
 * such call also reads all stored cookies, and so does one after about as many new Secure cookies.
 *
 * Errors: NO_STORE. */
enum cookie_store_status cookie_store_set_strict(cookie_store *store, bool strict);

/* Returns whether the store is strict.
 *
 * Returns false if the handle is empty. */
bool cookie_store_is_strict(cookie_store *store);

/* Changes the hash key of the store to `key`, as in cookie_store_new. The cookies are copied once.
 *
 * Errors: NO_STORE.
 * May return NO_MEMORY instead of OK. */
enum cookie_store_status cookie_store_set_hash_key(cookie_store *store, const char *key, size_t key_len);

/* Parses a Set-Cookie header value received from `url` and inserts the cookie, RFC 6265 5.3.
 *
 * `value` is the value of one Set-Cookie header, and `now` the time at which it was received. On
 * success the status is INSERTED, UPDATED or EXPIRED_EXISTING.
 *
 * Errors, in the order in which they are checked: NO_STORE, NOT_UTF8, BAD_TIME, BAD_URL, PARSE
 * (not a cookie), NON_HTTP_SCHEME (the cookie is HttpOnly), NON_RELATIVE_SCHEME, PARSE (the Domain
 * attribute is not a domain name), DOMAIN_MISMATCH, PUBLIC_SUFFIX, NON_HTTP_SCHEME (the stored
 * cookie is HttpOnly), EXPIRED.
 * May return NO_MEMORY instead of BAD_URL, any error after it, or success.
 *
 * If the store is strict, the errors after BAD_URL are: CONTROL_CHARACTER, PARSE (not a cookie),
 * TOO_LONG, DOMAIN_MISMATCH (the Domain attribute has white space, or is not ASCII), those above from
 * NON_HTTP_SCHEME (the cookie is HttpOnly) on, INSECURE_URL, INSECURE_SAME_SITE_NONE, PREFIX,
 * SECURE_STORED, SECURE_LIMIT. PUBLIC_SUFFIX then also stands for a domain above the site of the
 * host. */
enum cookie_store_status cookie_store_parse(cookie_store *store, const char *url, size_t url_len, const char *value,
                                          size_t value_len, int64_t now);

/* Parses all Set-Cookie header values of a response received from `url`, and inserts the cookies. For
 * each value, in order, it does what cookie_store_parse does, but it parses the URL once.
 *
 * `values` has the header values one after the other, and nothing between them. `lens` has their
 * lengths, and `lens_len` is how many there are. `statuses` is set to what cookie_store_parse returns
 * for each, and `statuses_len` is the same number. A value that is rejected, that is not UTF-8 or
 * for which memory runs out changes nothing, and those after it are inserted.
 *
 * Returns OK, whatever the statuses are, or an error of the whole call. Then the store is unchanged
 * and `statuses` is not written.
 *
 * Errors, in the order in which they are checked: NO_STORE, BAD_OPTION (the lengths do not add up to
 * `values_len`, or `statuses_len` is not `lens_len`), NOT_UTF8 (the URL), BAD_TIME, BAD_URL.
 * May return NO_MEMORY instead of BAD_URL or OK. */
enum cookie_store_status cookie_store_parse_each(cookie_store *store, const char *url, size_t url_len, const char *values,
                                               size_t values_len, const size_t *lens, size_t lens_len, int64_t now,
                                               enum cookie_store_status *statuses, size_t statuses_len);

/* Flags of a cross-site request, to be combined with `|`. */
enum cookie_store_cross_site {
    /* No flag: the request is not a top-level navigation, such as one for an image, or its method is
     * not safe. */
    COOKIE_STORE_CROSS_SITE = 0,
    /* A top-level navigation with a safe method, such as a link that is followed. */
    COOKIE_STORE_TOP_LEVEL = 1,
    /* A cookie without a SameSite attribute is treated as SameSite=None, and not as SameSite=Lax. */
    COOKIE_STORE_NONE_BY_DEFAULT = 2
};

/* Parses a Set-Cookie header value of the response to a request that a page made for `url`, and
 * inserts the cookie under the rules of browsers, whether the store is strict or not.
 *
 * `page` is the URL of the page. If it is not same-site with `url`, as in cookie_store_header_for,
 * `request` has the flags of the request, and a cookie is rejected unless it is SameSite=None. With
 * COOKIE_STORE_TOP_LEVEL, here for a top-level navigation with any method, no cookie is rejected for
 * its SameSite attribute, and with COOKIE_STORE_NONE_BY_DEFAULT none that has no such attribute.
 *
 * On success the status is INSERTED, UPDATED or EXPIRED_EXISTING.
 *
 * Errors, in the order in which they are checked: NO_STORE, BAD_OPTION, NOT_UTF8, BAD_TIME, BAD_URL,
 * CONTROL_CHARACTER, PARSE (not a cookie), TOO_LONG, DOMAIN_MISMATCH (the Domain attribute has white
 * space, or is not ASCII), CROSS_SITE_RESPONSE, NON_HTTP_SCHEME, NON_RELATIVE_SCHEME, PARSE (the Domain
 * attribute is not a domain name), DOMAIN_MISMATCH, PUBLIC_SUFFIX, NON_HTTP_SCHEME (the stored cookie is
 * HttpOnly), EXPIRED, INSECURE_URL, INSECURE_SAME_SITE_NONE, PREFIX, SECURE_STORED, SECURE_LIMIT.
 * May return NO_MEMORY instead of BAD_URL, any error after it, or success. */
enum cookie_store_status cookie_store_parse_for(cookie_store *store, const char *url, size_t url_len, const char *page,
                                              size_t page_len, const char *value, size_t value_len, int64_t now,
                                              uint32_t request);

/* Writes the value of the Cookie header of a request for `url` at `now`, RFC 6265 5.4.
 *
 * The value is a string such as `a=1; b=2`, and `*needed` is its length. If that is 0, there are no
 * cookies for the URL, and no Cookie header is to be sent.
 *
 * Cookies with longer paths come first; cookies with paths of equal length are in creation order. A
 * cookie that replaces another one, even an expired one that was not removed, keeps its place in
 * creation order. Loaded cookies count as created in the order of the list.
 *
 * Secure cookies are sent if the scheme is https, and with any scheme to this machine (localhost,
 * 127.0.0.0/8, [::1]); from a strict store also with the scheme http to names below localhost, such as
 * a.localhost, and to localhost with a dot at the end. HttpOnly cookies are sent if the scheme begins
 * with "http".
 *
 * Names and values are written as they were received. Those that did not come as a line of an HTTP
 * header, for example in a loaded list or by their parts, may hold control characters: check before
 * you write them to a connection.
 *
 * Errors, in the order in which they are checked: NO_STORE, NOT_UTF8, BAD_TIME, BAD_URL, NO_ROOM.
 * May return NO_MEMORY instead of BAD_URL, NO_ROOM or OK. */
enum cookie_store_status cookie_store_header(cookie_store *store, const char *url, size_t url_len, int64_t now, char *out,
                                          size_t out_len, size_t *needed);

/* Writes the value of the Cookie header of a cross-site request for `url` at `now`,
 * draft-ietf-httpbis-rfc6265bis 5.8.3: one from a page of another site, or from a page that is in a
 * frame of one. For a same-site request, or one that comes from no page, call cookie_store_header.
 *
 * The value is that of cookie_store_header without the cookies that the request must not have: those
 * with SameSite=Strict, and those with SameSite=Lax unless `request` has COOKIE_STORE_TOP_LEVEL. A
 * cookie without a SameSite attribute is treated as SameSite=Lax, as in the draft, unless `request` has
 * COOKIE_STORE_NONE_BY_DEFAULT.
 *
 * Works on any store, strict or not.
 *
 * Errors, in the order in which they are checked: NO_STORE, BAD_OPTION, NOT_UTF8, BAD_TIME, BAD_URL,
 * NO_ROOM.
 * May return NO_MEMORY instead of BAD_URL, NO_ROOM or OK. */
enum cookie_store_status cookie_store_header_cross_site(cookie_store *store, const char *url, size_t url_len, int64_t now,
                                                        uint32_t request, char *out, size_t out_len, size_t *needed);

/* Writes the value of the Cookie header of a request for `url` that a page made at `now`.
 *
 * `page` is the URL of the page. If page and URL are same-site, the value is that of
 * cookie_store_header with a strict store, and else that of cookie_store_header_cross_site with the
 * flags `request`. They are same-site if they have the same scheme and the same registrable domain
 * under the store's public suffix list, or the same host if that has none; without a list, if they have
 * the same scheme and host. A page in a frame of a page of another site, and a request that a page of
 * another site redirected, are cross-site: call cookie_store_header_cross_site.
 *
 * Works on any store, strict or not.
 *
 * Errors, in the order in which they are checked: NO_STORE, BAD_OPTION, NOT_UTF8, BAD_TIME, BAD_URL,
 * NO_ROOM.
 * May return NO_MEMORY instead of BAD_URL, NO_ROOM or OK. */
enum cookie_store_status cookie_store_header_for(cookie_store *store, const char *url, size_t url_len, const char *page,
                                               size_t page_len, int64_t now, uint32_t request, char *out, size_t out_len,
                                               size_t *needed);

/* Removes the cookie with this domain, path and name, expired or not.
 *
 * The three are compared byte for byte with those that cookie_store_rows writes.
 *
 * Errors, in the order in which they are checked: NO_STORE, NOT_UTF8, NOT_FOUND. */
enum cookie_store_status cookie_store_remove(cookie_store *store, const char *domain, size_t domain_len, const char *path,
                                             size_t path_len, const char *name, size_t name_len);

/* Removes the cookies of this domain, host-only cookies and domain cookies, expired or not. The others
 * keep their order.
 *
 * The domain is compared byte for byte with those that cookie_store_rows writes. `*removed` is set to
 * the number of cookies removed, and to 0 on an error.
 *
 * Errors, in the order in which they are checked: NO_STORE, NOT_UTF8. */
enum cookie_store_status cookie_store_remove_domain(cookie_store *store, const char *domain, size_t domain_len, size_t *removed);

/* Removes all cookies. Public suffix list, limit and hash key stay, and a strict store stays strict.
 *
 * Errors: NO_STORE. */
enum cookie_store_status cookie_store_clear(cookie_store *store);

/* Removes the cookies that have expired at `now` and frees their memory. The others keep their
 * order.
 *
 * For `now` and later times cookie_store_header returns the same cookies as before: it never returns
 * an expired one. `*removed` is set to the number of cookies removed, and to 0 on an error.
 *
 * Errors, in the order in which they are checked: NO_STORE, BAD_TIME. */
enum cookie_store_status cookie_store_remove_expired(cookie_store *store, int64_t now, size_t *removed);

/* Returns the number of stored cookies. Expired ones count until they are removed.
 *
 * Returns 0 if the handle is empty. */
size_t cookie_store_count(cookie_store *store);

/* The SameSite attribute of a cookie, draft-ietf-httpbis-rfc6265bis 5.6.7. */
enum cookie_store_same_site {
    /* No SameSite attribute, or one with another value than those below. */
    COOKIE_STORE_SAME_SITE_ABSENT = 0,
    COOKIE_STORE_SAME_SITE_STRICT = 1,
    COOKIE_STORE_SAME_SITE_LAX = 2,
    COOKIE_STORE_SAME_SITE_NONE = 3
};

/* A stored cookie. Its domain, path, name and value are in a separate buffer, one after the other
 * in this order. */
typedef struct cookie_store_row {
    size_t domain_len;
    size_t path_len;
    size_t name_len;
    size_t value_len;
    /* The expiry time, rounded down to a whole second: a loaded list may have fractions. 0 for a
     * session cookie, and for a cookie that another one expired (EXPIRED_EXISTING). */
    int64_t expires;
    /* The cookie has an expiry time. Otherwise it is a session cookie. */
    bool persistent;
    /* A host-only cookie, sent to that host alone. Otherwise it is also sent to the hosts below its
     * domain. */
    bool host_only;
    /* The path comes from a Path attribute. */
    bool has_path;
    bool secure;
    bool http_only;
    enum cookie_store_same_site same_site;
} cookie_store_row;

/* Writes all cookies, expired ones included, in the order of the store.
 *
 * Each cookie is written to one item of `rows`, and the strings of all of them one after the other
 * to `strings`. `*rows_needed` is set to the number of cookies and `*strings_needed` to the length
 * of all strings. If one of the two buffers is too short, neither is written to. On any other error
 * both numbers are 0.
 *
 * Errors, in the order in which they are checked: NO_STORE, NO_ROOM.
 * May return NO_MEMORY instead of NO_ROOM or OK, but only if the strings together have 2^64 bytes
 * or more. */
enum cookie_store_status cookie_store_rows(cookie_store *store, cookie_store_row *rows, size_t rows_len, char *strings,
                                           size_t strings_len, size_t *rows_needed, size_t *strings_needed);

/* Writes the cookies of a request for `url` at `now`, RFC 6265 5.4: those of the header that
 * cookie_store_header writes, in the same order.
 *
 * They are written as cookie_store_rows writes all cookies, and `*rows_needed` is 0 if there are no
 * cookies for the URL.
 *
 * Errors, in the order in which they are checked: NO_STORE, NOT_UTF8, BAD_TIME, BAD_URL, NO_ROOM.
 * May return NO_MEMORY instead of BAD_URL, NO_ROOM or OK. */
enum cookie_store_status cookie_store_cookies_for(cookie_store *store, const char *url, size_t url_len, int64_t now,
                                                  cookie_store_row *rows, size_t rows_len, char *strings, size_t strings_len,
                                                  size_t *rows_needed, size_t *strings_needed);

/* Inserts a cookie by its parts, as if it was received at `now` from https://DOMAIN/, with its own
 * domain.
 *
 * The strings and `row` are what cookie_store_rows writes of a cookie; the four lengths in `row` are not
 * read. For a session cookie `persistent` is false, and `expires` is not read. A domain cookie whose
 * domain is a public suffix on the list of the store becomes a host-only cookie. On success the status
 * is INSERTED, UPDATED or EXPIRED_EXISTING.
 *
 * Errors, in the order in which they are checked: NO_STORE, BAD_OPTION (`same_site`), NOT_UTF8, BAD_TIME
 * (`expires` or `now`), PARSE (not a cookie that a server can set), DOMAIN_MISMATCH, EXPIRED.
 * May return NO_MEMORY instead of PARSE, any error after it, or success.
 *
 * If the store is strict, the errors after DOMAIN_MISMATCH are: CONTROL_CHARACTER, TOO_LONG,
 * PUBLIC_SUFFIX (the domain of a domain cookie is a top-level domain that no rule matches, and the list
 * was set with `only_listed`), EXPIRED, INSECURE_SAME_SITE_NONE, PREFIX, SECURE_LIMIT. */
enum cookie_store_status cookie_store_insert(cookie_store *store, const char *domain, size_t domain_len, const char *path,
                                             size_t path_len, const char *name, size_t name_len, const char *value,
                                             size_t value_len, const cookie_store_row *row, int64_t now);

/* The formats of saved cookies, all in UTF-8. */
enum cookie_store_format {
    /* A list in JSON. */
    COOKIE_STORE_JSON = 0,
    /* A list in RON. */
    COOKIE_STORE_RON = 1,
    /* A cookies.txt file, the format of Netscape that curl, wget and Python's MozillaCookieJar read. */
    COOKIE_STORE_NETSCAPE = 2,
    /* The same, but what is saved leaves out cookies that the file cannot represent, and what is
     * loaded leaves out malformed lines. */
    COOKIE_STORE_NETSCAPE_LENIENT = 3
};

/* Which cookies are saved or loaded. */
enum cookie_store_which {
    /* All cookies. */
    COOKIE_STORE_ALL = 0,
    /* Those that have not expired, session cookies included. A login is usually one. */
    COOKIE_STORE_UNEXPIRED = 1,
    /* Those that have not expired, without session cookies. */
    COOKIE_STORE_PERSISTENT = 2
};

/* Writes cookies in a format, in the order of the store. The last byte is a line feed.
 *
 * Which cookies have expired is decided at `now`, which is checked for COOKIE_STORE_ALL too.
 * `*left_out` is set to the number of cookies that COOKIE_STORE_NETSCAPE_LENIENT leaves out, also on
 * NO_ROOM, and to 0 in all other cases.
 *
 * In JSON and RON, a cookie that was received with SameSite=None and without Secure is Secure in the
 * store that is loaded from the list: its entry has a Set-Cookie header value, which has Secure with
 * SameSite=None. If a cookie expires before the year 0, the error is BAD_EXPIRY.
 *
 * A cookies.txt file begins with the line `# Netscape HTTP Cookie File`. Each cookie has a line of
 * seven fields, separated by HTAB: its domain, with a leading dot for a domain cookie; TRUE for a
 * domain cookie, else FALSE; its path; TRUE if it is Secure, else FALSE; its expiry in whole seconds,
 * or 0 for a session cookie; its name; its value. The line of an HttpOnly cookie begins with
 * `#HttpOnly_`. SameSite is not written. An expiry of 0 (EXPIRED_EXISTING) is written as 1.
 * MozillaCookieJar reads session cookies, whose expiry is written as 0, as expired.
 *
 * If the line of a cookie would not read back, the error is UNREPRESENTABLE:
 * - the cookie has a control character, or expires before 1970;
 * - its domain is empty, begins with a dot, a space, `#` or `$`, or reads as another one, as
 *   `localhost.local` does;
 * - its path is empty, TRUE or FALSE, or has a quotation mark at an end;
 * - it is a cookie of a loaded list, and its name or value is not one that a header value can have.
 *
 * Errors, in the order in which they are checked: NO_STORE, BAD_OPTION, BAD_TIME, BAD_EXPIRY,
 * UNREPRESENTABLE, NO_ROOM.
 * May return NO_MEMORY instead of NO_ROOM or OK. */
enum cookie_store_status cookie_store_save(cookie_store *store, enum cookie_store_format format, enum cookie_store_which which, int64_t now,
                                           char *out, size_t out_len, size_t *needed, size_t *left_out);

/* Creates a store, in an empty handle, with cookies in a format, as cookie_store_save writes it.
 *
 * Which cookies have expired is decided at `now`, which is checked for COOKIE_STORE_ALL too. A cookie
 * replaces an earlier one with the same domain, path and name. `key` is the hash key, as in
 * cookie_store_new. The store has no public suffix list and no limit, is not strict, and the domains
 * of the cookies are not checked. On an error the handle is unchanged.
 *
 * A cookies.txt file is read as curl, wget and Python write it; docs/USING.md has a table. Lines end
 * in LF or CRLF. Blank lines are skipped, and so are those that begin with `$`, or with `#` but not
 * with `#HttpOnly_`. TRUE and FALSE ignore case. The domain may have a dot before it or a port behind
 * it, and may be an IPv6 address without brackets. The path may be missing, which is `/`, and so may
 * an empty value. The expiry may be empty for a session cookie, or -1 for a cookie that never expires;
 * a fraction of it is ignored. A line that begins with `Set-Cookie:` is a header, which must have
 * Domain and no Max-Age. Any other line is malformed. Each cookie of a file has `has_path`.
 *
 * `*malformed` is set to the number of malformed lines that COOKIE_STORE_NETSCAPE_LENIENT leaves out,
 * to 1 on BAD_LINE, for the first malformed line, and to 0 in all other cases. The numbers of these
 * lines, counted from 1, are written to the start of `lines`, in order, at most `lines_len` of them.
 * To load without the numbers, pass a `lines_len` of 0 and any pointer that is not NULL.
 *
 * Errors, in the order in which they are checked: HAS_STORE, BAD_OPTION, BAD_TIME, NOT_UTF8, then for
 * JSON BAD_JSON, BAD_SHAPE, BAD_EXPIRY, PARSE, for RON BAD_RON, BAD_EXPIRY, PARSE, and for
 * COOKIE_STORE_NETSCAPE BAD_LINE.
 * May return NO_MEMORY instead of BAD_JSON, BAD_RON, BAD_LINE, any error after them, or OK. */
enum cookie_store_status cookie_store_load(cookie_store *store, const char *key, size_t key_len, enum cookie_store_format format,
                                           enum cookie_store_which which, const char *list, size_t list_len, int64_t now, size_t *lines,
                                           size_t lines_len, size_t *malformed);

/* Inserts the cookies of `from`, in its order, as if each was received at `now` from
 * https://DOMAIN/, with its own domain. `from` is unchanged. To add the cookies of a list to a
 * store, load the list into a handle of its own, and merge that.
 *
 * A cookie is left out if the store rejects it, as cookie_store_parse does, or if its domain is not
 * the host of a URL. `*left_out` is set to the number of these, and to 0 on an error. A domain
 * cookie whose domain is a public suffix on the list of `store` becomes a host-only cookie. An
 * expired cookie expires the stored one with the same domain, path and name, if there is one. The
 * two handles must differ.
 *
 * Errors, in the order in which they are checked: NO_STORE, if a handle is empty; BAD_TIME.
 * May return NO_MEMORY instead of OK. Then the cookies before one are inserted, and the others are
 * not. */
enum cookie_store_status cookie_store_merge(cookie_store *store, cookie_store *from, int64_t now, size_t *left_out);

/* Writes the root of the host of `url` under the store's public suffix list: its outermost site.
 *
 * The root is the shortest of the host and the domains above it that is not a public suffix; if there
 * is none, or the host is an IP address, it is the host. Mostly that is the registrable domain, such as
 * example.co.uk for www.example.co.uk. But sites nest: *.kobe.jp is on the list of publicsuffix.org, so
 * that a.b.kobe.jp is a site, which lies within the site kobe.jp, and its root is kobe.jp.
 *
 * In a strict store with a list, a cookie that a host sets is sent only to hosts of the same root. So
 * several stores can stand for one, each with a lock of its own, if all are strict and have the same
 * list and limit, and each root has one of them: call cookie_store_parse and all other functions that
 * take a URL on the store of the URL's root, those that take a domain on the store of
 * cookie_store_root_of_domain, and cookie_store_clear on every store. cookie_store_shard assigns roots
 * to stores. In a store that is not strict, or has no list, cookies may be sent beyond a root.
 *
 * Works on any store with a list, strict or not. The cookies are not read: one store without cookies
 * will do for all.
 *
 * `*needed` is also 0 if the URL has no host. Such a URL is sent no cookies, and any store will do.
 *
 * Errors, in the order in which they are checked: NO_STORE, NO_LIST, NOT_UTF8, BAD_URL, NO_ROOM.
 * May return NO_MEMORY instead of BAD_URL, NO_ROOM or OK. */
enum cookie_store_status cookie_store_root(cookie_store *store, const char *url, size_t url_len, char *out, size_t out_len,
                                         size_t *needed);

/* Writes the root of the domain of a cookie, as cookie_store_rows writes it: the root of all hosts that
 * are sent the cookie.
 *
 * Errors, in the order in which they are checked: NO_STORE, NO_LIST, NOT_UTF8, NO_ROOM. */
enum cookie_store_status cookie_store_root_of_domain(cookie_store *store, const char *domain, size_t domain_len, char *out,
                                                   size_t out_len, size_t *needed);

/* Sets `*shard` to the number of the shard of a root, from 0 to `shards` - 1.
 *
 * The number is the 64-bit FNV-1a hash of the bytes of the root, modulo `shards`. This never changes, so
 * that the shards may be saved. The hash has no key: a server can choose roots that fall into one shard.
 * `*shard` is set to 0 on an error.
 *
 * Errors, in the order in which they are checked: NOT_UTF8, BAD_LIMIT (`shards` is 0). */
enum cookie_store_status cookie_store_shard(const char *root, size_t root_len, uint32_t shards, uint32_t *shard);

#ifdef __cplusplus
}
#endif

#endif
