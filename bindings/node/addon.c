/* The class Store of lib/store.js: argument conversion and the calls of cookie_store.h, by Node-API.
 *
 * Each environment, such as that of a worker thread, has its own class and its own stores, and no object of one reaches
 * another: so one thread uses a store. Nothing here is global but constants. A call of the library that fails throws
 * a CookieStoreError, and an argument of a wrong type a TypeError; then a function here returns NULL or false. */
#define NAPI_VERSION 8
#include <cookie_store.h>
#include <node_api.h>
#include <stdlib.h>
#include <string.h>
#include <sys/random.h>

#include "values.h"

/* What JavaScript owns: a handle, and how many bytes V8 counts for it. */
struct store {
    cookie_store handle;
    size_t list_bytes;
    int64_t counted;
};

static const napi_type_tag store_tag = {0x50756c6c65796d61, 0x726f6f6e53746f72};

/* Returns the store of an object, or throws if it has none. */
static struct store *unwrap(napi_env env, napi_value object) {
    bool is_store = false;
    void *store = NULL;
    if (napi_check_object_type_tag(env, object, &store_tag, &is_store) != napi_ok || !is_store ||
        napi_unwrap(env, object, &store) != napi_ok)
        wrong_type(env, "other", "a store");
    return store;
}

/* Returns the store that a method is called on, and its arguments: those that are missing are undefined. V8 calls no method of
 * a class of Node-API on another object than one of that class. */
static struct store *receiver(napi_env env, napi_callback_info info, napi_value *args, size_t count) {
    napi_value self;
    void *store = NULL;
    if (napi_get_cb_info(env, info, &count, args, &self, NULL) != napi_ok || napi_unwrap(env, self, &store) != napi_ok)
        wrong_type(env, "this", "a store");
    return store;
}

/* Has V8 count about as many bytes as the store has, so that it collects stores that nobody refers to in time. */
static void count_memory(napi_env env, struct store *store) {
    int64_t all, bytes = 1000 + (int64_t)(4 * store->list_bytes + 400 * cookie_store_count(&store->handle));
    if (bytes == store->counted) return;
    napi_adjust_external_memory(env, bytes - store->counted, &all);
    store->counted = bytes;
}

static void free_store(napi_env env, void *data, void *hint) {
    struct store *store = data;
    int64_t all;
    (void)hint;
    napi_adjust_external_memory(env, -store->counted, &all);
    cookie_store_free(&store->handle);
    free(store);
}

/* Puts another store into the place of the one that a handle holds. */
static void replace(napi_env env, struct store *self, const cookie_store *other, size_t list_bytes) {
    cookie_store_free(&self->handle);
    self->handle = *other;
    self->list_bytes = list_bytes;
    count_memory(env, self);
}

/* Sets a random hash key, or throws. */
static bool random_key(napi_env env, char key[16]) {
    if (getentropy(key, 16) == 0) return true;
    napi_throw_error(env, NULL, "the system has no random bytes");
    return false;
}

/* new Store(): a store without cookies, with a random hash key. */
static napi_value construct(napi_env env, napi_callback_info info) {
    napi_value self, target = NULL;
    char key[16];
    if (napi_get_new_target(env, info, &target) != napi_ok || target == NULL ||
        napi_get_cb_info(env, info, NULL, NULL, &self, NULL) != napi_ok) {
        wrong_type(env, "Store", "called with new");
        return NULL;
    }
    if (!random_key(env, key)) return NULL;
    struct store *store = calloc(1, sizeof *store);
    if (store != NULL && cookie_store_new(&store->handle, key, sizeof key) == COOKIE_STORE_OK &&
        napi_type_tag_object(env, self, &store_tag) == napi_ok && napi_wrap(env, self, store, free_store, NULL, NULL) == napi_ok) {
        count_memory(env, store);
        return self;
    }
    if (store != NULL) cookie_store_free(&store->handle);
    free(store);
    return fail(env, COOKIE_STORE_NO_MEMORY, 0);
}

/* close() */
static napi_value close_store(napi_env env, napi_callback_info info) {
    const cookie_store empty = COOKIE_STORE_INIT;
    struct store *self = receiver(env, info, NULL, 0);
    if (self == NULL) return NULL;
    replace(env, self, &empty, 0);
    return finish(env, COOKIE_STORE_OK);
}

/* copyTo(other): puts a copy into another Store. */
static napi_value copy_to(napi_env env, napi_callback_info info) {
    napi_value args[1];
    cookie_store copy = COOKIE_STORE_INIT;
    struct store *self = receiver(env, info, args, COUNT(args)), *other = self == NULL ? NULL : unwrap(env, args[0]);
    if (other == NULL) return NULL;
    enum cookie_store_status status = cookie_store_clone(&self->handle, &copy);
    if (status == COOKIE_STORE_OK) replace(env, other, &copy, self->list_bytes);
    return finish(env, status);
}

/* setSuffixList(list, onlyListed) */
static napi_value set_suffix_list(napi_env env, napi_callback_info info) {
    napi_value args[2];
    struct text list;
    bool only_listed;
    size_t line;
    struct store *self = receiver(env, info, args, COUNT(args));
    if (self == NULL || !read_bool(env, args[1], "onlyListed", &only_listed) ||
        !read_texts(env, args, (const char *[]){"list"}, &list, 1))
        return NULL;
    enum cookie_store_status status =
        cookie_store_set_suffix_list(&self->handle, list.bytes, list.length, only_listed, &line);
    free_texts(&list, 1);
    if (status != COOKIE_STORE_OK) return fail(env, status, line);
    self->list_bytes = list.length;
    count_memory(env, self);
    return finish(env, status);
}

/* setDomainLimit(limit): a limit below 1 is BAD_LIMIT. */
static napi_value set_domain_limit(napi_env env, napi_callback_info info) {
    napi_value args[1];
    int64_t limit;
    struct store *self = receiver(env, info, args, COUNT(args));
    if (self == NULL || !(napi_get_value_int64(env, args[0], &limit) == napi_ok || wrong_type(env, "limit", "a number")))
        return NULL;
    return finish(env, cookie_store_set_domain_limit(&self->handle, limit < 1 ? 0 : (size_t)limit));
}

/* domainLimit(): the limit, or 0. */
static napi_value domain_limit(napi_env env, napi_callback_info info) {
    struct store *self = receiver(env, info, NULL, 0);
    return self == NULL ? NULL : number(env, (double)cookie_store_domain_limit(&self->handle));
}

/* setStrict(strict) */
static napi_value set_strict(napi_env env, napi_callback_info info) {
    napi_value args[1];
    bool strict;
    struct store *self = receiver(env, info, args, COUNT(args));
    if (self == NULL || !read_bool(env, args[0], "strict", &strict)) return NULL;
    return finish(env, cookie_store_set_strict(&self->handle, strict));
}

/* isStrict() */
static napi_value is_strict(napi_env env, napi_callback_info info) {
    napi_value result;
    struct store *self = receiver(env, info, NULL, 0);
    return self != NULL && napi_get_boolean(env, cookie_store_is_strict(&self->handle), &result) == napi_ok ? result : NULL;
}

/* count() */
static napi_value count(napi_env env, napi_callback_info info) {
    struct store *self = receiver(env, info, NULL, 0);
    return self == NULL ? NULL : number(env, (double)cookie_store_count(&self->handle));
}

/* Returns the number of the status of an insertion, also if the cookie is rejected, or throws. */
static napi_value inserted(napi_env env, struct store *self, enum cookie_store_status status) {
    if (status >= 20 && status < 40) return fail(env, status, 0);
    count_memory(env, self);
    return number(env, status);
}

/* parse(url, value, now): the number of the status. */
static napi_value parse(napi_env env, napi_callback_info info) {
    napi_value args[3];
    struct text texts[2];
    int64_t now;
    struct store *self = receiver(env, info, args, COUNT(args));
    if (self == NULL || !read_time(env, args[2], "now", &now) || !read_texts(env, args, (const char *[]){"url", "value"}, texts, 2))
        return NULL;
    enum cookie_store_status status = cookie_store_parse(&self->handle, texts[0].bytes, texts[0].length, texts[1].bytes,
                                                         texts[1].length, now);
    free_texts(texts, 2);
    return inserted(env, self, status);
}

/* Inserts the cookies of a response, and returns the numbers of their statuses. */
static napi_value parse_response(napi_env env, struct store *self, const struct text *url, struct response *response, int64_t now) {
    enum cookie_store_status status =
        cookie_store_parse_each(&self->handle, url->bytes, url->length, response->bytes, response->length, response->lens,
                                response->count, now, response->statuses, response->count);
    if (status != COOKIE_STORE_OK) return fail(env, status, 0);
    count_memory(env, self);
    return statuses_of(env, response);
}

/* parseEach(url, values, now): the numbers of the statuses of an array of header values. */
static napi_value parse_each(napi_env env, napi_callback_info info) {
    napi_value args[3], result = NULL;
    struct text url;
    struct response response;
    int64_t now;
    struct store *self = receiver(env, info, args, COUNT(args));
    if (self == NULL || !read_time(env, args[2], "now", &now) || !read_texts(env, args, (const char *[]){"url"}, &url, 1))
        return NULL;
    if (read_response(env, args[1], &response)) result = parse_response(env, self, &url, &response, now);
    free_response(&response);
    free_texts(&url, 1);
    return result;
}

/* parseFor(url, page, value, now, flags): the same of the response to a request that a page made. */
static napi_value parse_for(napi_env env, napi_callback_info info) {
    napi_value args[5];
    struct text texts[3];
    int64_t now;
    uint32_t flags;
    struct store *self = receiver(env, info, args, COUNT(args));
    if (self == NULL || !read_time(env, args[3], "now", &now) || !read_number(env, args[4], "flags", &flags) ||
        !read_texts(env, args, (const char *[]){"url", "page", "value"}, texts, 3))
        return NULL;
    enum cookie_store_status status =
        cookie_store_parse_for(&self->handle, texts[0].bytes, texts[0].length, texts[1].bytes, texts[1].length, texts[2].bytes,
                               texts[2].length, now, flags);
    free_texts(texts, 3);
    return inserted(env, self, status);
}

/* Inserts the cookie of the strings domain, path, name and value. */
static enum cookie_store_status insert_row(struct store *self, const struct text texts[4], const cookie_store_row *row, int64_t now) {
    return cookie_store_insert(&self->handle, texts[0].bytes, texts[0].length, texts[1].bytes, texts[1].length, texts[2].bytes,
                               texts[2].length, texts[3].bytes, texts[3].length, row, now);
}

/* insert(domain, path, name, value, expires, flags, now): the number of the status. The expiry and the flags are as in the
 * fields of a cookie. */
static napi_value insert(napi_env env, napi_callback_info info) {
    napi_value args[7];
    struct text texts[4];
    cookie_store_row row;
    int64_t now;
    struct store *self = receiver(env, info, args, COUNT(args));
    if (self == NULL || !read_row(env, args[4], args[5], &row) || !read_time(env, args[6], "now", &now) ||
        !read_texts(env, args, (const char *[]){"domain", "path", "name", "value"}, texts, 4))
        return NULL;
    enum cookie_store_status status = insert_row(self, texts, &row, now);
    free_texts(texts, 4);
    return inserted(env, self, status);
}

/* A request: that of a page if there is one, and else a cross-site one if there are flags. */
struct request {
    const struct text *url, *page;
    int64_t now;
    const uint32_t *flags;
};

/* Writes the Cookie header of a request. */
static enum cookie_store_status write_header(struct store *self, const struct request *request, char *out, size_t room,
                                             size_t *needed) {
    const struct text *url = request->url, *page = request->page;
    if (page != NULL)
        return cookie_store_header_for(&self->handle, url->bytes, url->length, page->bytes, page->length, request->now,
                                       *request->flags, out, room, needed);
    if (request->flags == NULL)
        return cookie_store_header(&self->handle, url->bytes, url->length, request->now, out, room, needed);
    return cookie_store_header_cross_site(&self->handle, url->bytes, url->length, request->now, *request->flags, out, room,
                                          needed);
}

/* Returns that header. */
static napi_value header_of(napi_env env, struct store *self, const struct request *request) {
    char stack[4096], *out = stack;
    size_t needed;
    enum cookie_store_status status = write_header(self, request, stack, sizeof stack, &needed);
    if (status == COOKIE_STORE_NO_ROOM) {
        out = malloc(needed);
        status = out == NULL ? COOKIE_STORE_NO_MEMORY : write_header(self, request, out, needed, &needed);
    }
    napi_value result = status == COOKIE_STORE_OK ? string(env, out, needed) : fail(env, status, 0);
    if (out != stack) free(out);
    return result;
}

/* header(url, now, flags): the Cookie header, or an empty string. The flags are those of a cross-site request, or undefined. */
static napi_value header(napi_env env, napi_callback_info info) {
    napi_value args[3], result;
    napi_valuetype type = napi_undefined;
    struct text url;
    int64_t now;
    uint32_t flags;
    struct store *self = receiver(env, info, args, COUNT(args));
    if (self == NULL || !read_time(env, args[1], "now", &now)) return NULL;
    napi_typeof(env, args[2], &type);
    if (type != napi_undefined && !read_number(env, args[2], "flags", &flags)) return NULL;
    if (!read_texts(env, args, (const char *[]){"url"}, &url, 1)) return NULL;
    const struct request request = {&url, NULL, now, type == napi_undefined ? NULL : &flags};
    result = header_of(env, self, &request);
    free_texts(&url, 1);
    return result;
}

/* headerFor(url, page, now, flags): the Cookie header of a request that a page made, or an empty string. */
static napi_value header_for(napi_env env, napi_callback_info info) {
    napi_value args[4], result;
    struct text texts[2];
    int64_t now;
    uint32_t flags;
    struct store *self = receiver(env, info, args, COUNT(args));
    if (self == NULL || !read_time(env, args[2], "now", &now) || !read_number(env, args[3], "flags", &flags) ||
        !read_texts(env, args, (const char *[]){"url", "page"}, texts, 2))
        return NULL;
    const struct request request = {&texts[0], &texts[1], now, &flags};
    result = header_of(env, self, &request);
    free_texts(texts, 2);
    return result;
}

/* A call that writes the root of a string. */
typedef enum cookie_store_status root_call(cookie_store *, const char *, size_t, char *, size_t, size_t *);

/* Returns the root of the string of this name, the only argument. */
static napi_value root_by(napi_env env, napi_callback_info info, const char *name, root_call *call) {
    char stack[512], *out = stack;
    napi_value args[1], result;
    struct text text;
    size_t needed;
    struct store *self = receiver(env, info, args, COUNT(args));
    if (self == NULL || !read_texts(env, args, &name, &text, 1)) return NULL;
    enum cookie_store_status status = call(&self->handle, text.bytes, text.length, stack, sizeof stack, &needed);
    if (status == COOKIE_STORE_NO_ROOM) {
        out = malloc(needed);
        status = out == NULL ? COOKIE_STORE_NO_MEMORY : call(&self->handle, text.bytes, text.length, out, needed, &needed);
    }
    result = status == COOKIE_STORE_OK ? string(env, out, needed) : fail(env, status, 0);
    if (out != stack) free(out);
    free_texts(&text, 1);
    return result;
}

/* root(url): the root of its host, or an empty string. */
static napi_value root(napi_env env, napi_callback_info info) { return root_by(env, info, "url", cookie_store_root); }

/* rootOfDomain(domain) */
static napi_value root_of_domain(napi_env env, napi_callback_info info) {
    return root_by(env, info, "domain", cookie_store_root_of_domain);
}

/* Lists all cookies, or those for a URL if there is one. */
static enum cookie_store_status write_rows(struct store *self, const struct text *url, int64_t now, struct listing *list,
                                           size_t room, size_t strings_room) {
    if (url == NULL)
        return cookie_store_rows(&self->handle, list->rows, room, list->strings, strings_room, &list->count, &list->length);
    return cookie_store_cookies_for(&self->handle, url->bytes, url->length, now, list->rows, room, list->strings, strings_room,
                                    &list->count, &list->length);
}

/* The same, in buffers that are long enough, to be freed by free_listing. */
static enum cookie_store_status list_rows(struct store *self, const struct text *url, int64_t now, struct listing *list) {
    list->rows = list->few;
    list->strings = list->stack;
    enum cookie_store_status status = write_rows(self, url, now, list, COUNT(list->few), sizeof list->stack);
    if (status != COOKIE_STORE_NO_ROOM) return status;
    list->rows = malloc((list->count + 1) * sizeof *list->rows);
    list->strings = malloc(list->length + 1);
    if (list->rows == NULL || list->strings == NULL) return COOKIE_STORE_NO_MEMORY;
    return write_rows(self, url, now, list, list->count, list->length);
}

static napi_value cookies_of(napi_env env, struct store *self, const struct text *url, int64_t now) {
    struct listing list;
    enum cookie_store_status status = list_rows(self, url, now, &list);
    napi_value result = status == COOKIE_STORE_OK ? array_of(env, &list) : fail(env, status, 0);
    free_listing(&list);
    return result;
}

/* cookies(): the fields of all cookies. */
static napi_value cookies(napi_env env, napi_callback_info info) {
    struct store *self = receiver(env, info, NULL, 0);
    return self == NULL ? NULL : cookies_of(env, self, NULL, 0);
}

/* Returns the expiry of the first cookie, or null. */
static napi_value first_expiry(napi_env env, struct store *self) {
    struct listing list;
    napi_value result = NULL;
    enum cookie_store_status status = list_rows(self, NULL, 0, &list);
    if (status != COOKIE_STORE_OK) fail(env, status, 0);
    else if (list.count > 0 && list.rows->persistent) result = number(env, (double)list.rows->expires);
    else napi_get_null(env, &result);
    free_listing(&list);
    return result;
}

/* expiryOf(value, now): inserts a cookie into a store that has no other, and returns its expiry, or null. */
static napi_value expiry_of(napi_env env, napi_callback_info info) {
    static const char url[] = "http://a/";
    napi_value args[2];
    struct text value;
    int64_t now;
    struct store *self = receiver(env, info, args, COUNT(args));
    if (self == NULL || !read_time(env, args[1], "now", &now) || !read_texts(env, args, (const char *[]){"value"}, &value, 1))
        return NULL;
    enum cookie_store_status status =
        cookie_store_parse(&self->handle, url, sizeof url - 1, value.bytes, value.length, now);
    free_texts(&value, 1);
    return status >= 20 && status < 40 ? fail(env, status, 0) : first_expiry(env, self);
}

/* cookiesFor(url, now): those of a request. */
static napi_value cookies_for(napi_env env, napi_callback_info info) {
    napi_value args[2], result;
    struct text url;
    int64_t now;
    struct store *self = receiver(env, info, args, COUNT(args));
    if (self == NULL || !read_time(env, args[1], "now", &now) || !read_texts(env, args, (const char *[]){"url"}, &url, 1))
        return NULL;
    result = cookies_of(env, self, &url, now);
    free_texts(&url, 1);
    return result;
}

/* remove(domain, path, name): whether there was such a cookie. */
static napi_value remove_cookie(napi_env env, napi_callback_info info) {
    napi_value args[3], result;
    struct text key[3];
    struct store *self = receiver(env, info, args, COUNT(args));
    if (self == NULL || !read_texts(env, args, (const char *[]){"domain", "path", "name"}, key, 3)) return NULL;
    enum cookie_store_status status = cookie_store_remove(&self->handle, key[0].bytes, key[0].length, key[1].bytes,
                                                          key[1].length, key[2].bytes, key[2].length);
    free_texts(key, 3);
    if (status != COOKIE_STORE_OK && status != COOKIE_STORE_NOT_FOUND) return fail(env, status, 0);
    count_memory(env, self);
    return napi_get_boolean(env, status == COOKIE_STORE_OK, &result) == napi_ok ? result : NULL;
}

/* Returns how many cookies a call removed or left out, or throws. */
static napi_value counted(napi_env env, struct store *self, enum cookie_store_status status, size_t cookies) {
    count_memory(env, self);
    return status == COOKIE_STORE_OK ? number(env, (double)cookies) : fail(env, status, 0);
}

/* removeDomain(domain): how many cookies it had. */
static napi_value remove_domain(napi_env env, napi_callback_info info) {
    napi_value args[1];
    struct text domain;
    size_t removed;
    struct store *self = receiver(env, info, args, COUNT(args));
    if (self == NULL || !read_texts(env, args, (const char *[]){"domain"}, &domain, 1)) return NULL;
    enum cookie_store_status status = cookie_store_remove_domain(&self->handle, domain.bytes, domain.length, &removed);
    free_texts(&domain, 1);
    return counted(env, self, status, removed);
}

/* removeExpired(now): how many have expired. */
static napi_value remove_expired(napi_env env, napi_callback_info info) {
    napi_value args[1];
    int64_t now;
    size_t removed;
    struct store *self = receiver(env, info, args, COUNT(args));
    if (self == NULL || !read_time(env, args[0], "now", &now)) return NULL;
    enum cookie_store_status status = cookie_store_remove_expired(&self->handle, now, &removed);
    return counted(env, self, status, removed);
}

/* clear() */
static napi_value clear(napi_env env, napi_callback_info info) {
    struct store *self = receiver(env, info, NULL, 0);
    if (self == NULL) return NULL;
    enum cookie_store_status status = cookie_store_clear(&self->handle);
    count_memory(env, self);
    return finish(env, status);
}

/* merge(other, now): how many cookies are left out. */
static napi_value merge(napi_env env, napi_callback_info info) {
    napi_value args[2];
    int64_t now;
    size_t left_out;
    struct store *self = receiver(env, info, args, COUNT(args)), *other = self == NULL ? NULL : unwrap(env, args[0]);
    if (other == NULL || !read_time(env, args[1], "now", &now)) return NULL;
    if (other == self) return number(env, 0); // the library takes two handles
    enum cookie_store_status status = cookie_store_merge(&self->handle, &other->handle, now, &left_out);
    return counted(env, self, status, left_out);
}

/* save(format, which, now): the saved cookies, and how many are left out. */
static napi_value save(napi_env env, napi_callback_info info) {
    napi_value args[3], result;
    uint32_t format, which;
    int64_t now;
    struct store *self = receiver(env, info, args, COUNT(args));
    if (self == NULL || !read_number(env, args[0], "format", &format) || !read_number(env, args[1], "which", &which) ||
        !read_time(env, args[2], "now", &now))
        return NULL;
    // Most cookies take less; if not, the cookies are written twice.
    size_t needed = 4096 + 512 * cookie_store_count(&self->handle), left_out = 0, room;
    enum cookie_store_status status;
    char *out = NULL;
    do {
        free(out);
        room = needed;
        out = malloc(room);
        status = out == NULL ? COOKIE_STORE_NO_MEMORY
                             : cookie_store_save(&self->handle, format, which, now, out, room, &needed, &left_out);
    } while (status == COOKIE_STORE_NO_ROOM);
    result = status == COOKIE_STORE_OK ? pair(env, string(env, out, needed), number(env, (double)left_out))
                                       : fail(env, status, 0);
    free(out);
    return result;
}

/* How many lines the lenient format may leave out, at least 1. */
static size_t most_lines(const struct text *list, uint32_t format) {
    size_t count = 1;
    if (format != COOKIE_STORE_NETSCAPE_LENIENT) return count;
    for (size_t at = 0; at < list->length; at++) count += list->bytes[at] == '\n';
    return count;
}

/* Puts a store with saved cookies into the place of the one that self holds, and returns the malformed lines. */
static napi_value load_into(napi_env env, struct store *self, const struct text *list, uint32_t format, uint32_t which,
                            int64_t now) {
    cookie_store loaded = COOKIE_STORE_INIT;
    napi_value result = NULL;
    char key[16];
    if (!random_key(env, key)) return NULL;
    size_t malformed = 0, room = most_lines(list, format), *lines = malloc(room * sizeof *lines);
    enum cookie_store_status status = COOKIE_STORE_NO_MEMORY;
    if (lines != NULL)
        status = cookie_store_load(&loaded, key, sizeof key, format, which, list->bytes, list->length, now, lines, room,
                                   &malformed);
    if (status == COOKIE_STORE_OK) {
        replace(env, self, &loaded, 0);
        result = lines_of(env, lines, malformed);
    } else {
        fail(env, status, malformed > 0 ? lines[0] : 0);
    }
    free(lines);
    return result;
}

/* load(list, format, which, now): the numbers of the lines that are left out. */
static napi_value load(napi_env env, napi_callback_info info) {
    napi_value args[4], result;
    struct text list;
    uint32_t format, which;
    int64_t now;
    struct store *self = receiver(env, info, args, COUNT(args));
    if (self == NULL || !read_number(env, args[1], "format", &format) || !read_number(env, args[2], "which", &which) ||
        !read_time(env, args[3], "now", &now) || !read_texts(env, args, (const char *[]){"list"}, &list, 1))
        return NULL;
    result = load_into(env, self, &list, format, which, now);
    free_texts(&list, 1);
    return result;
}

/* statusText(status) */
static napi_value status_text(napi_env env, napi_callback_info info) {
    size_t count = 1;
    napi_value args[1];
    uint32_t status;
    if (napi_get_cb_info(env, info, &count, args, NULL, NULL) != napi_ok || !read_number(env, args[0], "status", &status))
        return NULL;
    const char *text = cookie_store_status_text((enum cookie_store_status)status);
    return string(env, text, strlen(text));
}

/* shard(root, shards): the number of the shard of a root. */
static napi_value shard(napi_env env, napi_callback_info info) {
    size_t count = 2;
    napi_value args[2], result;
    struct text text;
    uint32_t shards, number;
    if (napi_get_cb_info(env, info, &count, args, NULL, NULL) != napi_ok || !read_number(env, args[1], "shards", &shards) ||
        !read_texts(env, args, (const char *[]){"root"}, &text, 1))
        return NULL;
    enum cookie_store_status status = cookie_store_shard(text.bytes, text.length, shards, &number);
    free_texts(&text, 1);
    if (status != COOKIE_STORE_OK) return fail(env, status, 0);
    return napi_create_uint32(env, number, &result) == napi_ok ? result : NULL;
}

static void free_reference(napi_env env, void *data, void *hint) {
    (void)hint;
    napi_delete_reference(env, data);
}

/* setErrorClass(constructor): the class of errors, which is called with a status and a line. */
static napi_value set_error_class(napi_env env, napi_callback_info info) {
    size_t count = 1;
    napi_value args[1];
    napi_valuetype type = napi_undefined;
    napi_ref reference, before = NULL;
    if (napi_get_cb_info(env, info, &count, args, NULL, NULL) != napi_ok || napi_typeof(env, args[0], &type) != napi_ok ||
        type != napi_function) {
        wrong_type(env, "constructor", "a function");
        return NULL;
    }
    napi_get_instance_data(env, (void **)&before);
    if (napi_create_reference(env, args[0], 1, &reference) != napi_ok ||
        napi_set_instance_data(env, reference, free_reference, NULL) != napi_ok)
        return fail(env, COOKIE_STORE_NO_MEMORY, 0);
    if (before != NULL) napi_delete_reference(env, before);
    return finish(env, COOKIE_STORE_OK);
}

#define METHOD(name, function) {name, NULL, function, NULL, NULL, NULL, napi_default_method, NULL}

NAPI_MODULE_INIT() {
    const napi_property_descriptor methods[] = {
        METHOD("close", close_store), METHOD("copyTo", copy_to), METHOD("setSuffixList", set_suffix_list),
        METHOD("setDomainLimit", set_domain_limit), METHOD("domainLimit", domain_limit), METHOD("setStrict", set_strict),
        METHOD("isStrict", is_strict), METHOD("count", count), METHOD("parse", parse), METHOD("parseEach", parse_each),
        METHOD("parseFor", parse_for), METHOD("insert", insert), METHOD("header", header), METHOD("headerFor", header_for),
        METHOD("cookies", cookies), METHOD("expiryOf", expiry_of), METHOD("cookiesFor", cookies_for),
        METHOD("remove", remove_cookie), METHOD("removeDomain", remove_domain), METHOD("removeExpired", remove_expired),
        METHOD("clear", clear), METHOD("merge", merge), METHOD("save", save), METHOD("load", load), METHOD("root", root),
        METHOD("rootOfDomain", root_of_domain),
    };
    napi_value store;
    if (napi_define_class(env, "Store", NAPI_AUTO_LENGTH, construct, NULL, COUNT(methods), methods, &store) != napi_ok)
        return NULL;
    const napi_property_descriptor names[] = {
        {"Store", NULL, NULL, NULL, NULL, store, napi_default, NULL},
        METHOD("statusText", status_text),
        METHOD("shard", shard),
        METHOD("setErrorClass", set_error_class),
    };
    return napi_define_properties(env, exports, COUNT(names), names) == napi_ok ? exports : NULL;
}
