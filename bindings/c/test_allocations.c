/* Makes each allocation fail in turn, in each call that allocates: the call must return NO_MEMORY
   and leave the store unchanged, or succeed without that memory. Calls that never allocate must not
   meet a failed allocation; nor must those that fail with an error that the header places before
   NO_MEMORY. tools/fail_allocation.c, preloaded in front of malloc (LD_PRELOAD), makes the
   allocations fail and then creates the file FAIL_MARK. Failures of the test are reported on
   standard error. The last line is 'test_allocations: N passed, M failed'. */
#define _POSIX_C_SOURCE 200809L
#include <cookie_store.h>
#include <stdio.h>
#include <stdlib.h>
#include <string.h>
#include <unistd.h>

/* Allocations of these sizes start and end the count of tools/fail_allocation.c. */
enum { START = 48271, END = 48281, MOST = 10000 };

/* Enough for a saved list of all cookies. */
enum { ROOM = 16384 };

/* How many formats there are. */
enum { FORMATS = COOKIE_STORE_NETSCAPE_LENIENT + 1 };

#define NOW INT64_C(1767225600) /* 2026-01-01T00:00:00 */
#define TEXT(text) (text), strlen(text)

static const char *const PAGE = "http://shop.a.example/d/page";
static const char *const TEXTS[] = {"a=1; Domain=a.example", "b=2; Path=/; Max-Age=60", "c=3; Expires=Thu, 01 Jan 2099 00:00:00 GMT",
                                    "s=4; Path=/; Secure"};

/* The store of `fill` as saved in each format, by its number. */
static char saved[FORMATS][ROOM];
static size_t saved_len[FORMATS];

/* The most cookies of a path in a list; one more makes it a table. */
enum { MOST_LISTED = 32 };

static enum cookie_store_status parse_listed(cookie_store *store, int number) {
    char text[32];
    snprintf(text, sizeof text, "n%d=1; Path=/list", number);
    return cookie_store_parse(store, TEXT(PAGE), TEXT(text), NOW);
}

static enum cookie_store_status fill(cookie_store *store) {
    enum cookie_store_status status = cookie_store_new(store, "", 0);
    for (size_t at = 0; status <= COOKIE_STORE_INSERTED && at < sizeof TEXTS / sizeof *TEXTS; at++)
        status = cookie_store_parse(store, TEXT(PAGE), TEXT(TEXTS[at]), NOW);
    for (int number = 0; status == COOKIE_STORE_INSERTED && number < MOST_LISTED; number++)
        status = parse_listed(store, number);
    return status;
}

/* Allocates that size; volatile, so that the compiler does not remove it. */
static void grow(size_t size) {
    void *volatile grown = malloc(size);
    free(grown);
}

/* Whether the store has the cookies that it started with, or still does not exist. */
static bool is_as_it_was(cookie_store *store, bool is_begun) {
    char out[ROOM];
    size_t needed = 0, left_out;
    enum cookie_store_status status =
        cookie_store_save(store, COOKIE_STORE_JSON, COOKIE_STORE_ALL, NOW, out, sizeof out, &needed, &left_out);
    if (!is_begun) return status == COOKIE_STORE_NO_STORE;
    return status == COOKIE_STORE_OK && needed == saved_len[COOKIE_STORE_JSON] && memcmp(out, saved[COOKIE_STORE_JSON], needed) == 0;
}

static enum cookie_store_status begin(cookie_store *store) { return cookie_store_new(store, "", 0); }

static enum cookie_store_status parse_new(cookie_store *store) {
    return cookie_store_parse(store, TEXT("http://b.example/x/y"), TEXT("d=4; Domain=b.example; Path=/x"), NOW);
}

static enum cookie_store_status parse_next(cookie_store *store) { return parse_listed(store, MOST_LISTED); }

static enum cookie_store_status parse_again(cookie_store *store) { return cookie_store_parse(store, TEXT(PAGE), TEXT(TEXTS[0]), NOW); }

static enum cookie_store_status parse_strict(cookie_store *store) {
    enum cookie_store_status status = cookie_store_set_strict(store, true);
    return status == COOKIE_STORE_OK ? parse_new(store) : status;
}

/* The index of Secure cookies is made, or all cookies are read. */
static enum cookie_store_status parse_over_secure(cookie_store *store) {
    enum cookie_store_status status = cookie_store_set_strict(store, true);
    return status == COOKIE_STORE_OK ? cookie_store_parse(store, TEXT(PAGE), TEXT("s=5; Path=/"), NOW) : status;
}

/* Whether the status is this one, or memory ran out. */
static bool is_or_ran_out(enum cookie_store_status status, enum cookie_store_status wanted) {
    return status == wanted || status == COOKIE_STORE_NO_MEMORY;
}

/* Two cookies with one name, and what is not a cookie between them: memory runs out for one of them at most, and each
   that is inserted is one more. */
static enum cookie_store_status response_at(cookie_store *store, size_t last, int64_t now) {
    const size_t lens[] = {11, 7, last}, before = cookie_store_count(store);
    enum cookie_store_status statuses[3];
    enum cookie_store_status status =
        cookie_store_parse_each(store, TEXT(PAGE), TEXT("r=1; Path=/no pairr=2; Path=/"), lens, 3, now, statuses, 3);
    if (status != COOKIE_STORE_OK) return status;
    bool is_first_in = statuses[0] != COOKIE_STORE_NO_MEMORY;
    bool is_well = is_or_ran_out(statuses[0], COOKIE_STORE_INSERTED) && is_or_ran_out(statuses[1], COOKIE_STORE_PARSE) &&
                   is_or_ran_out(statuses[2], is_first_in ? COOKIE_STORE_UPDATED : COOKIE_STORE_INSERTED) &&
                   (is_first_in || statuses[2] != COOKIE_STORE_NO_MEMORY) && cookie_store_count(store) == before + 1;
    return is_well ? COOKIE_STORE_OK : COOKIE_STORE_PARSE;
}

static enum cookie_store_status parse_each(cookie_store *store) { return response_at(store, 11, NOW); }
static enum cookie_store_status parse_each_bad_length(cookie_store *store) { return response_at(store, 12, INT64_MAX); }
static enum cookie_store_status parse_each_bad_time(cookie_store *store) { return response_at(store, 11, INT64_MAX); }

static enum cookie_store_status insert_at(cookie_store *store, const char *path, int64_t now) {
    cookie_store_row row = {.expires = NOW + 60, .persistent = true, .host_only = true, .has_path = true};
    return cookie_store_insert(store, TEXT("b.example"), TEXT(path), TEXT("p"), TEXT("1"), &row, now);
}

static enum cookie_store_status insert(cookie_store *store) { return insert_at(store, "/", NOW); }
static enum cookie_store_status insert_bad_path(cookie_store *store) { return insert_at(store, "x", NOW); }
static enum cookie_store_status insert_not_utf8(cookie_store *store) { return insert_at(store, "\xff", INT64_MAX); }
static enum cookie_store_status insert_bad_time(cookie_store *store) { return insert_at(store, "x", INT64_MAX); }

static enum cookie_store_status insert_bad_option(cookie_store *store) {
    cookie_store_row row = {.same_site = (enum cookie_store_same_site)4};
    return cookie_store_insert(store, TEXT("\xff"), "", 0, "", 0, "", 0, &row, NOW);
}

static enum cookie_store_status insert_again(cookie_store *store) {
    cookie_store_row row = {.has_path = true};
    return cookie_store_insert(store, TEXT("a.example"), TEXT("/d"), TEXT("a"), TEXT("2"), &row, NOW);
}

static enum cookie_store_status insert_strict(cookie_store *store) {
    enum cookie_store_status status = cookie_store_set_strict(store, true);
    return status == COOKIE_STORE_OK ? insert(store) : status;
}

static enum cookie_store_status header(cookie_store *store) {
    char out[256];
    size_t needed;
    return cookie_store_header(store, TEXT(PAGE), NOW, out, sizeof out, &needed);
}

static enum cookie_store_status cross_site(cookie_store *store, uint32_t request, int64_t now) {
    char out[256];
    size_t needed;
    return cookie_store_header_cross_site(store, TEXT(PAGE), now, request, out, sizeof out, &needed);
}

static enum cookie_store_status header_cross_site(cookie_store *store) { return cross_site(store, COOKIE_STORE_TOP_LEVEL, NOW); }
static enum cookie_store_status header_bad_flag(cookie_store *store) { return cross_site(store, 4, NOW); }
static enum cookie_store_status header_bad_time(cookie_store *store) { return cross_site(store, COOKIE_STORE_TOP_LEVEL, INT64_MAX); }

static enum cookie_store_status page_header(cookie_store *store, uint32_t request, int64_t now) {
    char out[256];
    size_t needed;
    return cookie_store_header_for(store, TEXT(PAGE), TEXT("http://b.example/"), now, request, out, sizeof out, &needed);
}

static enum cookie_store_status header_for(cookie_store *store) { return page_header(store, COOKIE_STORE_TOP_LEVEL, NOW); }
static enum cookie_store_status header_for_bad_flag(cookie_store *store) { return page_header(store, 4, NOW); }
static enum cookie_store_status header_for_bad_time(cookie_store *store) { return page_header(store, COOKIE_STORE_TOP_LEVEL, INT64_MAX); }

static enum cookie_store_status page_response(cookie_store *store, uint32_t request, int64_t now) {
    return cookie_store_parse_for(store, TEXT("http://b.example/x/y"), TEXT(PAGE), TEXT("d=4; Path=/x"), now, request);
}

static enum cookie_store_status parse_for(cookie_store *store) { return page_response(store, COOKIE_STORE_TOP_LEVEL, NOW); }
static enum cookie_store_status parse_for_cross_site(cookie_store *store) { return page_response(store, COOKIE_STORE_CROSS_SITE, NOW); }
static enum cookie_store_status parse_for_bad_flag(cookie_store *store) { return page_response(store, 4, NOW); }
static enum cookie_store_status parse_for_bad_time(cookie_store *store) { return page_response(store, COOKIE_STORE_TOP_LEVEL, INT64_MAX); }

static enum cookie_store_status root(cookie_store *store) {
    char out[256];
    size_t needed, bad_line;
    enum cookie_store_status status = cookie_store_set_suffix_list(store, TEXT("example\n"), false, &bad_line);
    return status == COOKIE_STORE_OK ? cookie_store_root(store, TEXT(PAGE), out, sizeof out, &needed) : status;
}

static enum cookie_store_status root_without_list(cookie_store *store) {
    char out[256];
    size_t needed;
    return cookie_store_root(store, TEXT(PAGE), out, sizeof out, &needed);
}

static enum cookie_store_status root_of_domain(cookie_store *store) {
    char out[256];
    size_t needed;
    return cookie_store_root_of_domain(store, TEXT("a.example"), out, sizeof out, &needed);
}

static enum cookie_store_status cookies_at(cookie_store *store, int64_t now) {
    char out[256];
    cookie_store_row rows[4];
    size_t rows_needed, strings_needed;
    enum cookie_store_status status =
        cookie_store_cookies_for(store, TEXT(PAGE), now, rows, 4, out, sizeof out, &rows_needed, &strings_needed);
    return rows_needed == (status == COOKIE_STORE_OK ? 3 : 0) ? status : COOKIE_STORE_PARSE;
}

static enum cookie_store_status cookies_for(cookie_store *store) { return cookies_at(store, NOW); }
static enum cookie_store_status cookies_for_bad_time(cookie_store *store) { return cookies_at(store, INT64_MAX); }

/* The copy has the cookies of the store, or there is none. */
static enum cookie_store_status clone_store(cookie_store *store) {
    cookie_store copy = COOKIE_STORE_INIT;
    enum cookie_store_status status = cookie_store_clone(store, &copy);
    grow(END);
    bool is_well = is_as_it_was(&copy, status == COOKIE_STORE_OK);
    cookie_store_free(&copy);
    return is_well ? status : COOKIE_STORE_PARSE;
}

/* Begins a store, for which no allocation fails, and copies another one into it. */
static enum cookie_store_status clone_into(cookie_store *store) {
    cookie_store copy = COOKIE_STORE_INIT;
    grow(END);
    if (begin(&copy) != COOKIE_STORE_OK) return COOKIE_STORE_PARSE;
    grow(START);
    enum cookie_store_status status = cookie_store_clone(store, &copy);
    cookie_store_free(&copy);
    return status;
}

static enum cookie_store_status set_suffix_list(cookie_store *store) {
    size_t line;
    return cookie_store_set_suffix_list(store, TEXT("com\n*.ck\n!www.ck\nb\xc3\xbc" "cher.example\n"), false, &line);
}

static enum cookie_store_status set_hash_key(cookie_store *store) { return cookie_store_set_hash_key(store, TEXT("0123456789abcdef")); }

/* Saves all cookies. The number of those that are left out is set to 0 on an error. */
static enum cookie_store_status save(cookie_store *store, int format, int64_t now, size_t wanted_left_out) {
    char out[ROOM];
    size_t needed, left_out = 77;
    enum cookie_store_status status =
        cookie_store_save(store, (enum cookie_store_format)format, COOKIE_STORE_ALL, now, out, sizeof out, &needed, &left_out);
    return left_out == (status == COOKIE_STORE_OK ? wanted_left_out : 0) ? status : COOKIE_STORE_PARSE;
}

static enum cookie_store_status save_json(cookie_store *store) { return save(store, COOKIE_STORE_JSON, NOW, 0); }
static enum cookie_store_status save_ron(cookie_store *store) { return save(store, COOKIE_STORE_RON, NOW, 0); }
static enum cookie_store_status save_netscape(cookie_store *store) { return save(store, COOKIE_STORE_NETSCAPE, NOW, 0); }
static enum cookie_store_status save_bad_format(cookie_store *store) { return save(store, FORMATS, NOW, 0); }
static enum cookie_store_status save_bad_time(cookie_store *store) { return save(store, COOKIE_STORE_JSON, INT64_MAX, 0); }

/* Saves one cookie more, for which no allocation fails, and removes it. */
static enum cookie_store_status save_with(cookie_store *store, const char *value, int64_t now, int format, size_t wanted_left_out) {
    grow(END);
    if (cookie_store_parse(store, TEXT(PAGE), TEXT(value), now) != COOKIE_STORE_INSERTED) return COOKIE_STORE_PARSE;
    grow(START);
    enum cookie_store_status status = save(store, format, NOW, wanted_left_out);
    cookie_store_remove(store, TEXT("shop.a.example"), TEXT("/d"), TEXT("t"));
    return status;
}

/* A cookie that expired before the year 0, and one with a TAB. */
static const char EXPIRED[] = "t=1; Max-Age=1", TAB[] = "t=x\ty";
static const int64_t LONG_AGO = INT64_C(-377705116800);

static enum cookie_store_status save_lenient(cookie_store *store) { return save_with(store, TAB, NOW, COOKIE_STORE_NETSCAPE_LENIENT, 1); }
static enum cookie_store_status save_bad_json(cookie_store *store) { return save_with(store, EXPIRED, LONG_AGO, COOKIE_STORE_JSON, 0); }
static enum cookie_store_status save_bad_ron(cookie_store *store) { return save_with(store, EXPIRED, LONG_AGO, COOKIE_STORE_RON, 0); }
static enum cookie_store_status save_bad_netscape(cookie_store *store) { return save_with(store, TAB, NOW, COOKIE_STORE_NETSCAPE, 0); }

/* Loads all cookies. The lines are written if they are reported, and otherwise `malformed` is 0. */
static enum cookie_store_status load(cookie_store *store, int format, const char *list, size_t length, int64_t now, size_t wanted) {
    size_t lines[] = {77, 77, 77}, malformed;
    enum cookie_store_status status = cookie_store_load(store, "", 0, (enum cookie_store_format)format, COOKIE_STORE_ALL, list, length,
                                                        now, lines, 2, &malformed);
    size_t number = status == COOKIE_STORE_OK || status == COOKIE_STORE_BAD_LINE ? wanted : 0;
    bool is_written = lines[0] == (number > 0 ? 2 : 77) && lines[1] == (number > 1 ? 4 : 77) && lines[2] == 77;
    return is_written && malformed == number ? status : COOKIE_STORE_PARSE;
}

static enum cookie_store_status load_saved(cookie_store *store, int format) {
    return load(store, format, saved[format], saved_len[format], NOW, 0);
}

static enum cookie_store_status load_json(cookie_store *store) { return load_saved(store, COOKIE_STORE_JSON); }
static enum cookie_store_status load_ron(cookie_store *store) { return load_saved(store, COOKIE_STORE_RON); }
static enum cookie_store_status load_netscape(cookie_store *store) { return load_saved(store, COOKIE_STORE_NETSCAPE); }

/* Lines 2, 4 and 5 are malformed. */
static const char MALFORMED[] = ".b.example\tTRUE\t/\tFALSE\t0\ta\t1\na\nb.example\tFALSE\t/\tFALSE\t0\tc\t3\nb\nd\n";

static enum cookie_store_status load_lenient(cookie_store *store) {
    return load(store, COOKIE_STORE_NETSCAPE_LENIENT, TEXT(MALFORMED), NOW, 3);
}

static enum cookie_store_status load_malformed(cookie_store *store) { return load(store, COOKIE_STORE_NETSCAPE, TEXT(MALFORMED), NOW, 1); }
static enum cookie_store_status load_bad_format(cookie_store *store) { return load(store, FORMATS, TEXT(MALFORMED), NOW, 0); }
static enum cookie_store_status load_bad_time(cookie_store *store) { return load(store, COOKIE_STORE_JSON, TEXT("[]"), INT64_MAX, 0); }
static enum cookie_store_status load_not_utf8(cookie_store *store) { return load(store, COOKIE_STORE_JSON, "\xff", 1, NOW, 0); }

/* Merges two cookies, of which the first may be inserted without the second, and removes them again. */
static enum cookie_store_status merge_at(cookie_store *store, cookie_store *from, int64_t now) {
    size_t left_out = 77, before = cookie_store_count(store);
    enum cookie_store_status status = cookie_store_merge(store, from, now, &left_out);
    size_t inserted = cookie_store_count(store) - before, least = status == COOKIE_STORE_OK ? 2 : 0, most = status == COOKIE_STORE_NO_MEMORY ? 1 : least;
    bool is_well = left_out == 0 && inserted >= least && inserted <= most;
    for (int number = 0; number < 2; number++) cookie_store_remove(store, TEXT("m.example"), TEXT("/"), number ? "y" : "x", 1);
    return is_well ? status : COOKIE_STORE_PARSE;
}

/* No allocation fails for the store that is merged. */
static enum cookie_store_status merge_into(cookie_store *store, int64_t now) {
    cookie_store from = COOKIE_STORE_INIT;
    grow(END);
    bool is_begun = cookie_store_new(&from, "", 0) == COOKIE_STORE_OK
        && cookie_store_parse(&from, TEXT("http://m.example/"), TEXT("x=1"), NOW) == COOKIE_STORE_INSERTED
        && cookie_store_parse(&from, TEXT("http://m.example/"), TEXT("y=2"), NOW) == COOKIE_STORE_INSERTED;
    grow(START);
    enum cookie_store_status status = is_begun ? merge_at(store, &from, now) : COOKIE_STORE_PARSE;
    cookie_store_free(&from);
    return status;
}

static enum cookie_store_status merge(cookie_store *store) { return merge_into(store, NOW); }
static enum cookie_store_status merge_bad_time(cookie_store *store) { return merge_into(store, INT64_MAX); }

static enum cookie_store_status merge_strict(cookie_store *store) {
    cookie_store_set_strict(store, true);
    enum cookie_store_status status = merge_into(store, NOW);
    cookie_store_set_strict(store, false);
    return status;
}

static enum cookie_store_status remove_cookie(cookie_store *store) {
    return cookie_store_remove(store, TEXT("a.example"), TEXT("/d"), TEXT("a"));
}

static enum cookie_store_status remove_domain(cookie_store *store) {
    size_t removed;
    return cookie_store_remove_domain(store, TEXT("a.example"), &removed);
}

static enum cookie_store_status remove_expired(cookie_store *store) {
    size_t removed;
    return cookie_store_remove_expired(store, NOW + 60, &removed);
}

static const struct {
    const char *name;
    bool is_begun;
    enum cookie_store_status (*call)(cookie_store *);
    enum cookie_store_status wanted;
    bool never_allocates;
} CALLS[] = {
    {"new", false, begin, COOKIE_STORE_OK, false},
    {"parse", true, parse_new, COOKIE_STORE_INSERTED, false},
    {"parse, to a full list", true, parse_next, COOKIE_STORE_INSERTED, false},
    {"parse again", true, parse_again, COOKIE_STORE_UPDATED, false},
    {"parse, strict", true, parse_strict, COOKIE_STORE_INSERTED, false},
    {"parse, strict, over a Secure cookie", true, parse_over_secure, COOKIE_STORE_SECURE_STORED, false},
    {"parse_each", true, parse_each, COOKIE_STORE_OK, false},
    {"parse_each of none", false, parse_each, COOKIE_STORE_NO_STORE, true},
    {"parse_each, a length too long", true, parse_each_bad_length, COOKIE_STORE_BAD_OPTION, true},
    {"parse_each, a time out of range", true, parse_each_bad_time, COOKIE_STORE_BAD_TIME, true},
    {"parse_for", true, parse_for, COOKIE_STORE_INSERTED, false},
    {"parse_for, cross-site", true, parse_for_cross_site, COOKIE_STORE_CROSS_SITE_RESPONSE, false},
    {"parse_for of none", false, parse_for, COOKIE_STORE_NO_STORE, true},
    {"parse_for, flag 4", true, parse_for_bad_flag, COOKIE_STORE_BAD_OPTION, true},
    {"parse_for, a time out of range", true, parse_for_bad_time, COOKIE_STORE_BAD_TIME, true},
    {"insert", true, insert, COOKIE_STORE_INSERTED, false},
    {"insert again", true, insert_again, COOKIE_STORE_UPDATED, false},
    {"insert, strict", true, insert_strict, COOKIE_STORE_INSERTED, false},
    {"insert, a path without `/`", true, insert_bad_path, COOKIE_STORE_PARSE, false},
    {"insert into none", false, insert_bad_option, COOKIE_STORE_NO_STORE, true},
    {"insert, SameSite 4", true, insert_bad_option, COOKIE_STORE_BAD_OPTION, true},
    {"insert, not UTF-8", true, insert_not_utf8, COOKIE_STORE_NOT_UTF8, true},
    {"insert at a time out of range", true, insert_bad_time, COOKIE_STORE_BAD_TIME, true},
    {"clone", true, clone_store, COOKIE_STORE_OK, false},
    {"clone of none", false, clone_store, COOKIE_STORE_NO_STORE, true},
    {"clone into a store", true, clone_into, COOKIE_STORE_HAS_STORE, true},
    {"header", true, header, COOKIE_STORE_OK, false},
    {"cookies_for", true, cookies_for, COOKIE_STORE_OK, false},
    {"cookies_for of none", false, cookies_for, COOKIE_STORE_NO_STORE, true},
    {"cookies_for, a time out of range", true, cookies_for_bad_time, COOKIE_STORE_BAD_TIME, true},
    {"header_cross_site", true, header_cross_site, COOKIE_STORE_OK, false},
    {"header_cross_site of none", false, header_cross_site, COOKIE_STORE_NO_STORE, true},
    {"header_cross_site, flag 4", true, header_bad_flag, COOKIE_STORE_BAD_OPTION, true},
    {"header_cross_site, a time out of range", true, header_bad_time, COOKIE_STORE_BAD_TIME, true},
    {"header_for", true, header_for, COOKIE_STORE_OK, false},
    {"header_for of none", false, header_for, COOKIE_STORE_NO_STORE, true},
    {"header_for, flag 4", true, header_for_bad_flag, COOKIE_STORE_BAD_OPTION, true},
    {"header_for, a time out of range", true, header_for_bad_time, COOKIE_STORE_BAD_TIME, true},
    {"root", true, root, COOKIE_STORE_OK, false},
    {"root of none", false, root_without_list, COOKIE_STORE_NO_STORE, true},
    {"root, no list", true, root_without_list, COOKIE_STORE_NO_LIST, true},
    {"root_of_domain, no list", true, root_of_domain, COOKIE_STORE_NO_LIST, true},
    {"set_suffix_list", true, set_suffix_list, COOKIE_STORE_OK, false},
    {"set_hash_key", true, set_hash_key, COOKIE_STORE_OK, false},
    {"save JSON", true, save_json, COOKIE_STORE_OK, false},
    {"save RON", true, save_ron, COOKIE_STORE_OK, false},
    {"save cookies.txt", true, save_netscape, COOKIE_STORE_OK, false},
    {"save cookies.txt, lenient", true, save_lenient, COOKIE_STORE_OK, false},
    {"save none", false, save_json, COOKIE_STORE_NO_STORE, true},
    {"save, format 4", true, save_bad_format, COOKIE_STORE_BAD_OPTION, true},
    {"save at a time out of range", true, save_bad_time, COOKIE_STORE_BAD_TIME, true},
    {"save JSON, before the year 0", true, save_bad_json, COOKIE_STORE_BAD_EXPIRY, true},
    {"save RON, before the year 0", true, save_bad_ron, COOKIE_STORE_BAD_EXPIRY, true},
    {"save cookies.txt, a TAB", true, save_bad_netscape, COOKIE_STORE_UNREPRESENTABLE, true},
    {"load JSON", false, load_json, COOKIE_STORE_OK, false},
    {"load RON", false, load_ron, COOKIE_STORE_OK, false},
    {"load cookies.txt", false, load_netscape, COOKIE_STORE_OK, false},
    {"load cookies.txt, lenient", false, load_lenient, COOKIE_STORE_OK, false},
    {"load cookies.txt, malformed", false, load_malformed, COOKIE_STORE_BAD_LINE, false},
    {"load into a store", true, load_json, COOKIE_STORE_HAS_STORE, true},
    {"load, format 4", false, load_bad_format, COOKIE_STORE_BAD_OPTION, true},
    {"load at a time out of range", false, load_bad_time, COOKIE_STORE_BAD_TIME, true},
    {"load not UTF-8", false, load_not_utf8, COOKIE_STORE_NOT_UTF8, true},
    {"merge", true, merge, COOKIE_STORE_OK, false},
    {"merge, strict", true, merge_strict, COOKIE_STORE_OK, false},
    {"merge into none", false, merge, COOKIE_STORE_NO_STORE, true},
    {"merge at a time out of range", true, merge_bad_time, COOKIE_STORE_BAD_TIME, true},
    {"remove", true, remove_cookie, COOKIE_STORE_OK, true},
    {"remove_domain", true, remove_domain, COOKIE_STORE_OK, true},
    {"remove_expired", true, remove_expired, COOKIE_STORE_OK, true},
    {"clear", true, cookie_store_clear, COOKIE_STORE_OK, true},
};

/* Runs the call again and again, with the next allocation failing each time, until none fails.
   Returns how many failed, or -1 if the call then behaved wrongly. */
static int failures_in(size_t at, const char *mark) {
    for (int number = 1; number < MOST; number++) {
        char digits[16];
        cookie_store store = COOKIE_STORE_INIT;
        if (CALLS[at].is_begun && fill(&store) != COOKIE_STORE_INSERTED) return -1;
        snprintf(digits, sizeof digits, "%d", number);
        if (setenv("FAIL_ALLOCATION", digits, 1)) return -1;
        grow(START);
        enum cookie_store_status status = CALLS[at].call(&store);
        grow(END);
        bool did_fail = unlink(mark) == 0;
        bool is_expected = status == CALLS[at].wanted || (did_fail && status == COOKIE_STORE_NO_MEMORY);
        bool is_well = is_expected && (status < 10 || is_as_it_was(&store, CALLS[at].is_begun));
        cookie_store_free(&store);
        if (!is_well) fprintf(stderr, "%s, allocation %d: FAILED: returned %d\n", CALLS[at].name, number, (int)status);
        if (!is_well) return -1;
        if (!did_fail) return number - 1;
    }
    return -1;
}

int main(void) {
    const char *mark = getenv("FAIL_MARK");
    cookie_store store = COOKIE_STORE_INIT;
    int passed = 0, failed = 0;
    bool is_ready = mark && fill(&store) == COOKIE_STORE_INSERTED;
    for (int format = 0; format < FORMATS; format++) {
        size_t left_out;
        is_ready = is_ready && cookie_store_save(&store, (enum cookie_store_format)format, COOKIE_STORE_ALL, NOW, saved[format], ROOM,
                                                 &saved_len[format], &left_out) == COOKIE_STORE_OK;
    }
    cookie_store_free(&store);
    for (size_t at = 0; at < sizeof CALLS / sizeof *CALLS; at++) {
        int failures = is_ready ? failures_in(at, mark) : -1;
        bool is_well = failures >= 0 && (failures == 0) == CALLS[at].never_allocates;
        if (failures >= 0 && !is_well) fprintf(stderr, "%s: FAILED: %d allocations\n", CALLS[at].name, failures);
        is_well ? passed++ : failed++;
    }
    printf("test_allocations: %d passed, %d failed\n", passed, failed);
    return failed > 0;
}
