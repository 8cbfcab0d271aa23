/* Calls each function of cookie_store.h with good and bad arguments, but for cookie_store_insert
   (test_insert.c), cookie_store_parse_each (test_response.c), those of lists (test_lists.c), of strict
   stores and of cross-site requests (test_strict.c): what happens to a cookie, the statuses that calls
   return, each buffer one byte too short, and the layout of the structs. Failures are reported on
   standard error. The last line is 'test_cookie_store: N passed, M failed'. */
#include "test.h"
#include <stddef.h>

/* Parsed one after the other in one store, at one time. */
static const struct {
    const char *url, *text;
    enum cookie_store_status wanted;
} PARSED[] = {
    {"http://a.example/d/page", "a=1", COOKIE_STORE_INSERTED},
    {"http://a.example/d/page", "a=2", COOKIE_STORE_UPDATED},
    {"http://a.example/d/page", "a=3; Max-Age=0", COOKIE_STORE_EXPIRED_EXISTING},
    {"http://a.example/d/page", "new=1; Max-Age=0", COOKIE_STORE_EXPIRED},
    {"http://a.example/d/page", "h=1; HttpOnly", COOKIE_STORE_INSERTED},
    {"ftp://a.example/d/page", "h=2", COOKIE_STORE_NON_HTTP_SCHEME},
    {"ftp://a.example/d/page", "i=1; HttpOnly", COOKIE_STORE_NON_HTTP_SCHEME},
    {"data:x", "a=1", COOKIE_STORE_NON_RELATIVE_SCHEME},
    {"data:x", "a=1; Path=/", COOKIE_STORE_NON_RELATIVE_SCHEME},
    {"data:x", "a=1; Domain=a.example", COOKIE_STORE_DOMAIN_MISMATCH},
    {"http://a.example/", "a=1; Domain=b.example", COOKIE_STORE_DOMAIN_MISMATCH},
    {"http://a.example/", "a=1; Domain=x.a.example", COOKIE_STORE_DOMAIN_MISMATCH},
    {"http://a.example/", "no pair", COOKIE_STORE_PARSE},
    {"http://a.example/", "=1", COOKIE_STORE_PARSE},
    {"http://a.example/", "", COOKIE_STORE_PARSE},
    {"http://a.example/", "a=1; Domain=example", COOKIE_STORE_PUBLIC_SUFFIX},
    {"http://example/", "a=1; Domain=example", COOKIE_STORE_INSERTED},
    {"no url", "a=1", COOKIE_STORE_BAD_URL},
    {"", "a=1", COOKIE_STORE_BAD_URL},
    {"http://a.example\\@b.example/", "a=1", COOKIE_STORE_BAD_URL},
    {"http:a.example", "a=1", COOKIE_STORE_BAD_URL},
    {"http://127.1./", "a=1", COOKIE_STORE_BAD_URL},
    {"http://a%2eexample/", "a=1", COOKIE_STORE_BAD_URL},
    {" http://a.example/", "a=1", COOKIE_STORE_BAD_URL},
    {"http://user:pass@[::1]:80/x", "a=1", COOKIE_STORE_INSERTED},
};

static void test_parse(void) {
    cookie_store store = COOKIE_STORE_INIT;
    size_t line = UNSET;
    equal("new", cookie_store_new(&store, "", 0), COOKIE_STORE_OK);
    equal("suffix list", cookie_store_set_suffix_list(&store, TEXT("// a comment\nexample\n"), true, &line), COOKIE_STORE_OK);
    equal("no bad line", (long)line, 0);
    for (size_t at = 0; at < sizeof PARSED / sizeof *PARSED; at++) {
        char name[128];
        snprintf(name, sizeof name, "parse %s %s", PARSED[at].url, PARSED[at].text);
        equal(name, parse(&store, PARSED[at].url, PARSED[at].text, NOW), PARSED[at].wanted);
    }
    gives("what was parsed", &store, PAGE, NOW, "h=1");
    gives("a public suffix alone", &store, "http://example/", NOW, "a=1");
    gives("nothing below it", &store, "http://b.example/", NOW, "");
    cookie_store_free(&store);
}

/* What is not a public suffix list. */
static const struct {
    const char *list;
    enum cookie_store_status wanted;
    long line;
} LISTS[] = {
    {"example\na..b\n", COOKIE_STORE_BAD_RULE, 2},
    {"suffixes.dat: not found", COOKIE_STORE_BAD_RULE, 1},
    {"./suffixes.dat", COOKIE_STORE_BAD_RULE, 1},
    {"\n<!DOCTYPE html>\n", COOKIE_STORE_BAD_RULE, 2},
    {"{\"error\": 404}", COOKIE_STORE_BAD_RULE, 1},
    {"a@b\na..b", COOKIE_STORE_BAD_RULE, 1},
    {"a..b\na=b", COOKIE_STORE_BAD_RULE, 1},
    {"", COOKIE_STORE_NO_RULES, 0},
    {"// a comment\n\n \n", COOKIE_STORE_NO_RULES, 0},
};

static void test_suffixes(void) {
    cookie_store store = COOKIE_STORE_INIT;
    size_t line = UNSET;
    cookie_store_new(&store, "", 0);
    for (size_t at = 0; at < sizeof LISTS / sizeof *LISTS; at++) {
        line = UNSET;
        equal(LISTS[at].list, cookie_store_set_suffix_list(&store, TEXT(LISTS[at].list), true, &line), LISTS[at].wanted);
        equal("its line", (long)line, LISTS[at].line);
    }
    equal("the list is as it was", parse(&store, PAGE, "a=1; Domain=example", NOW), COOKIE_STORE_INSERTED);
    equal("suffix list not UTF-8", cookie_store_set_suffix_list(&store, NOT_UTF8, false, &line), COOKIE_STORE_NOT_UTF8);
    equal("no line of it", (long)line, 0);
    equal("only listed", cookie_store_set_suffix_list(&store, TEXT("com"), true, &line), COOKIE_STORE_OK);
    equal("not listed", parse(&store, PAGE, "a=1; Domain=example", NOW), COOKIE_STORE_UPDATED);
    equal("with the rule *", cookie_store_set_suffix_list(&store, TEXT("com"), false, &line), COOKIE_STORE_OK);
    equal("a top-level domain", parse(&store, PAGE, "a=1; Domain=example", NOW), COOKIE_STORE_PUBLIC_SUFFIX);
    cookie_store_free(&store);
}

/* The header depends on the time; a time must be in the years -9999 to 9999. */
static void test_header(void) {
    static const struct {
        int64_t now;
        enum cookie_store_status wanted;
    } TIMES[] = {{INT64_MIN, COOKIE_STORE_BAD_TIME}, {FIRST - 1, COOKIE_STORE_BAD_TIME}, {FIRST, COOKIE_STORE_OK},
                 {LAST, COOKIE_STORE_OK},            {LAST + 1, COOKIE_STORE_BAD_TIME},  {INT64_MAX, COOKIE_STORE_BAD_TIME}};
    cookie_store store = COOKIE_STORE_INIT;
    char out[8];
    size_t needed = UNSET;
    cookie_store_new(&store, "", 0);
    parse(&store, PAGE, "b=2; Path=/", NOW);
    parse(&store, PAGE, "a=1; Max-Age=60", NOW);
    parse(&store, PAGE, "s=3; Secure", NOW);
    /* A string needs no terminating zero. */
    equal("a text within another", cookie_store_parse(&store, PAGE, strlen(PAGE), "c=4_", 3, NOW), COOKIE_STORE_INSERTED);
    gives("longer paths first", &store, PAGE, NOW, "a=1; c=4; b=2");
    gives("Secure", &store, "https://a.example/d/page", NOW, "a=1; s=3; c=4; b=2");
    gives("at the end of a", &store, PAGE, NOW + 60, "c=4; b=2");
    gives("another path", &store, "http://a.example/", NOW, "b=2");
    gives("a path that only begins so", &store, "http://a.example/dx", NOW, "b=2");
    gives("another host", &store, "http://b.example/d/page", NOW, "");
    for (size_t at = 0; at < sizeof TIMES / sizeof *TIMES; at++) {
        needed = UNSET;
        equal("a time", cookie_store_header(&store, TEXT("http://b.example/"), TIMES[at].now, out, sizeof out, &needed), TIMES[at].wanted);
        equal("nothing is needed", (long)needed, 0);
    }
    needed = UNSET;
    equal("a text with a zero", cookie_store_parse(&store, TEXT("http://z.example/"), "z=1\0" "2", 5, NOW), COOKIE_STORE_INSERTED);
    equal("header with a zero", cookie_store_header(&store, TEXT("http://z.example/"), NOW, out, sizeof out, &needed), COOKIE_STORE_OK);
    equal("what came is given", needed == 5 && memcmp(out, "z=1\0" "2", 5) == 0, true);
    equal("parse at a time out of range", parse(&store, PAGE, "a=1", LAST + 1), COOKIE_STORE_BAD_TIME);
    needed = UNSET;
    equal("header not UTF-8", cookie_store_header(&store, NOT_UTF8, NOW, out, sizeof out, &needed), COOKIE_STORE_NOT_UTF8);
    equal("nothing is needed of no UTF-8", (long)needed, 0);
    equal("header of no URL", cookie_store_header(&store, TEXT("no url"), NOW, out, sizeof out, &needed), COOKIE_STORE_BAD_URL);
    equal("parse at a URL not UTF-8", cookie_store_parse(&store, NOT_UTF8, TEXT("a=1"), NOW), COOKIE_STORE_NOT_UTF8);
    equal("parse a text not UTF-8", cookie_store_parse(&store, TEXT(PAGE), NOT_UTF8, NOW), COOKIE_STORE_NOT_UTF8);
    cookie_store_free(&store);
}

static void test_remove(void) {
    cookie_store store = COOKIE_STORE_INIT;
    cookie_store_new(&store, "", 0);
    parse(&store, PAGE, "a=1", NOW);
    equal("remove domain not UTF-8", cookie_store_remove(&store, NOT_UTF8, TEXT("/d"), TEXT("a")), COOKIE_STORE_NOT_UTF8);
    equal("remove path not UTF-8", cookie_store_remove(&store, TEXT("a.example"), NOT_UTF8, TEXT("a")), COOKIE_STORE_NOT_UTF8);
    equal("remove name not UTF-8", cookie_store_remove(&store, TEXT("a.example"), TEXT("/d"), NOT_UTF8), COOKIE_STORE_NOT_UTF8);
    equal("remove another", cookie_store_remove(&store, TEXT("a.example"), TEXT("/"), TEXT("a")), COOKIE_STORE_NOT_FOUND);
    equal("remove nothing", cookie_store_remove(&store, "", 0, "", 0, "", 0), COOKIE_STORE_NOT_FOUND);
    equal("it stands", (long)cookie_store_count(&store), 1);
    equal("remove", cookie_store_remove(&store, TEXT("a.example"), TEXT("/d"), TEXT("a")), COOKIE_STORE_OK);
    equal("it is gone", (long)cookie_store_count(&store), 0);
    parse(&store, PAGE, "a=1", NOW);
    equal("clear", cookie_store_clear(&store), COOKIE_STORE_OK);
    equal("all are gone", (long)cookie_store_count(&store), 0);
    cookie_store_free(&store);
}

/* Each cookie before it expires, at its expiry and after. */
static void test_remove_expired(void) {
    static const struct {
        int64_t now;
        enum cookie_store_status wanted;
        size_t removed, left;
    } CALLS[] = {{FIRST - 1, COOKIE_STORE_BAD_TIME, 0, 5}, {LAST + 1, COOKIE_STORE_BAD_TIME, 0, 5}, {NOW - 1, COOKIE_STORE_OK, 1, 4},
                 {NOW + 59, COOKIE_STORE_OK, 0, 4},          {NOW + 60, COOKIE_STORE_OK, 2, 2},         {NOW + 60, COOKIE_STORE_OK, 0, 2},
                 {LAST, COOKIE_STORE_OK, 1, 1}};
    cookie_store store = COOKIE_STORE_INIT;
    cookie_store_new(&store, "", 0);
    parse(&store, PAGE, "a=1; Max-Age=60", NOW);
    parse(&store, PAGE, "s=2", NOW);
    parse(&store, PAGE, "b=3; Path=/; Max-Age=60", NOW);
    parse(&store, "http://b.example/", "c=4; Max-Age=61", NOW);
    parse(&store, PAGE, "d=5", NOW);
    parse(&store, PAGE, "d=6; Max-Age=0", NOW);
    for (size_t at = 0; at < sizeof CALLS / sizeof *CALLS; at++) {
        size_t removed = UNSET;
        equal("remove_expired", cookie_store_remove_expired(&store, CALLS[at].now, &removed), CALLS[at].wanted);
        equal("so many are removed", (long)removed, (long)CALLS[at].removed);
        equal("so many are left", (long)cookie_store_count(&store), (long)CALLS[at].left);
    }
    gives("what has not expired", &store, PAGE, NOW, "s=2");
    cookie_store_free(&store);
}

/* Cookies of one domain: the others stay, also those of a domain above or below. */
static void test_remove_domain(void) {
    static const struct {
        const char *domain;
        enum cookie_store_status wanted;
        size_t removed, remaining;
    } CALLS[] = {{"\xff", COOKIE_STORE_NOT_UTF8, 0, 5}, {"b.example", COOKIE_STORE_OK, 0, 5}, {"A.example", COOKIE_STORE_OK, 0, 5},
                 {"a.example", COOKIE_STORE_OK, 3, 2},  {"a.example", COOKIE_STORE_OK, 0, 2}};
    cookie_store store = COOKIE_STORE_INIT;
    cookie_store_new(&store, "", 0);
    parse(&store, "http://a.example/", "a=1", NOW);
    parse(&store, "http://w.a.example/", "w=2", NOW);
    parse(&store, "http://a.example/d/", "d=3; Max-Age=60", NOW);
    parse(&store, "http://w.a.example/", "s=4; Domain=a.example", NOW);
    parse(&store, "http://example/", "e=5", NOW);
    for (size_t at = 0; at < sizeof CALLS / sizeof *CALLS; at++) {
        size_t removed = UNSET;
        equal("remove_domain", cookie_store_remove_domain(&store, TEXT(CALLS[at].domain), &removed), CALLS[at].wanted);
        equal("so many are removed", (long)removed, (long)CALLS[at].removed);
        equal("so many remain", (long)cookie_store_count(&store), (long)CALLS[at].remaining);
    }
    gives("of a domain below", &store, "http://w.a.example/", NOW, "w=2");
    cookie_store_free(&store);
}

/* The domain limit, and the hash key, which changes no result. */
static void test_limit_and_key(void) {
    cookie_store store = COOKIE_STORE_INIT;
    cookie_store_new(&store, "", 0);
    equal("limit of 0", cookie_store_set_domain_limit(&store, 0), COOKIE_STORE_BAD_LIMIT);
    equal("no limit", (long)cookie_store_domain_limit(&store), 0);
    equal("the greatest limit", cookie_store_set_domain_limit(&store, SIZE_MAX), COOKIE_STORE_OK);
    equal("it is the limit", cookie_store_domain_limit(&store) == SIZE_MAX, true);
    equal("limit", cookie_store_set_domain_limit(&store, 1), COOKIE_STORE_OK);
    equal("limit of 0 again", cookie_store_set_domain_limit(&store, 0), COOKIE_STORE_BAD_LIMIT);
    equal("the limit stays", (long)cookie_store_domain_limit(&store), 1);
    parse(&store, PAGE, "a=1", NOW);
    equal("parse at the limit", parse(&store, PAGE, "b=2", NOW), COOKIE_STORE_INSERTED);
    equal("one stands", (long)cookie_store_count(&store), 1);
    equal("the first one has left", cookie_store_remove(&store, TEXT("a.example"), TEXT("/d"), TEXT("a")), COOKIE_STORE_NOT_FOUND);
    for (size_t length = 0; length <= 17; length += 17) {
        equal("key", cookie_store_set_hash_key(&store, "0123456789abcdefg", length), COOKIE_STORE_OK);
        equal("it stands under the key", (long)cookie_store_count(&store), 1);
        equal("it is found under the key", parse(&store, PAGE, "b=3", NOW), COOKIE_STORE_UPDATED);
        equal("the limit under the key", (long)cookie_store_domain_limit(&store), 1);
    }
    cookie_store_clear(&store);
    equal("the limit after clear", (long)cookie_store_domain_limit(&store), 1);
    cookie_store_free(&store);
}

/* Two cookies, the second with each flag and time that the first has not. */
static void test_rows(void) {
    cookie_store store = COOKIE_STORE_INIT;
    cookie_store_row rows[2];
    char strings[64];
    const char *whole = "a.example/da1example/k\xc3\xbc" "22";
    size_t rows_needed = UNSET, strings_needed = UNSET;
    cookie_store_new(&store, "", 0);
    equal("no rows", cookie_store_rows(&store, rows, 0, strings, 0, &rows_needed, &strings_needed), COOKIE_STORE_OK);
    equal("no rows needed", (long)(rows_needed + strings_needed), 0);
    parse(&store, PAGE, "a=1", NOW);
    parse(&store, "http://b.example/", "k\xc3\xbc=22; Domain=example; Path=/; Max-Age=60; Secure; HttpOnly", NOW);
    for (int is_short = 2; is_short >= 0; is_short--) {
        rows_needed = strings_needed = UNSET;
        memset(strings, '-', sizeof strings);
        enum cookie_store_status status = cookie_store_rows(&store, rows, is_short == 2 ? 1 : 2, strings, strlen(whole) - (is_short == 1),
                                                            &rows_needed, &strings_needed);
        equal("rows with room, or not", status, is_short ? COOKIE_STORE_NO_ROOM : COOKIE_STORE_OK);
        equal("rows needed", (long)rows_needed, 2);
        equal("strings needed", (long)strings_needed, (long)strlen(whole));
        equal("nothing is written after the strings", strings[is_short ? 0 : strings_needed], '-');
    }
    same_text("strings", strings, strings_needed, whole);
    const cookie_store_row *first = &rows[0], *second = &rows[1];
    equal("lengths of a row", first->domain_len == 9 && first->path_len == 2 && first->name_len == 1 && first->value_len == 1, true);
    equal("lengths of another", second->domain_len == 7 && second->path_len == 1 && second->name_len == 3 && second->value_len == 2, true);
    equal("of a session", first->persistent, false);
    equal("no expiry", (long)first->expires, 0);
    equal("for its host", first->host_only, true);
    equal("without more", first->has_path || first->secure || first->http_only, false);
    equal("persistent", second->persistent, true);
    equal("its expiry", (long)(second->expires - NOW), 60);
    equal("for more hosts", second->host_only, false);
    equal("with more", second->has_path && second->secure && second->http_only, true);
    cookie_store_free(&store);
}

/* The cookies of a request, in the order of the Cookie header, with buffers that are too short or just long enough. */
static void test_cookies_for(void) {
    static const struct {
        const char *url;
        int64_t now;
        enum cookie_store_status wanted;
        long rows_needed;
        const char *strings;
    } REQUESTS[] = {{"http://a.example/d/page", NOW, COOKIE_STORE_OK, 2, "a.example/da1a.example/b2"},
                    {"http://a.example/d/page", NOW + 60, COOKIE_STORE_OK, 1, "a.example/b2"},
                    {"https://a.example/", NOW, COOKIE_STORE_OK, 2, "a.example/b2a.example/s3"},
                    {"http://b.example/", NOW, COOKIE_STORE_OK, 0, ""},
                    {"http://a.example/", FIRST - 1, COOKIE_STORE_BAD_TIME, 0, ""},
                    {"no url", LAST + 1, COOKIE_STORE_BAD_TIME, 0, ""},
                    {"no url", NOW, COOKIE_STORE_BAD_URL, 0, ""}};
    cookie_store store = COOKIE_STORE_INIT;
    cookie_store_row rows[2];
    char strings[64];
    size_t rows_needed = UNSET, strings_needed = UNSET;
    cookie_store_new(&store, "", 0);
    parse(&store, PAGE, "b=2; Path=/; HttpOnly", NOW);
    parse(&store, PAGE, "a=1; Max-Age=60", NOW);
    parse(&store, "https://a.example/", "s=3; Secure", NOW);
    for (size_t at = 0; at < sizeof REQUESTS / sizeof *REQUESTS; at++) {
        rows_needed = strings_needed = UNSET;
        memset(strings, '-', sizeof strings);
        equal(REQUESTS[at].url,
              cookie_store_cookies_for(&store, TEXT(REQUESTS[at].url), REQUESTS[at].now, rows, 2, strings, sizeof strings, &rows_needed,
                                       &strings_needed),
              REQUESTS[at].wanted);
        equal("rows of a request", (long)rows_needed, REQUESTS[at].rows_needed);
        same_text("strings of a request", strings, strings_needed, REQUESTS[at].strings);
        equal("nothing is written after its strings", strings[strings_needed], '-');
    }
    rows_needed = strings_needed = UNSET;
    equal("a request not UTF-8", cookie_store_cookies_for(&store, NOT_UTF8, LAST + 1, rows, 2, strings, 64, &rows_needed, &strings_needed),
          COOKIE_STORE_NOT_UTF8);
    equal("nothing is needed for it", (long)(rows_needed + strings_needed), 0);
    for (int is_short = 2; is_short >= 0; is_short--) {
        size_t length = strlen(REQUESTS[0].strings);
        memset(strings, '-', sizeof strings);
        enum cookie_store_status status = cookie_store_cookies_for(&store, TEXT(PAGE), NOW, rows, is_short == 2 ? 1 : 2, strings,
                                                                   length - (is_short == 1), &rows_needed, &strings_needed);
        equal("a request with room, or not", status, is_short ? COOKIE_STORE_NO_ROOM : COOKIE_STORE_OK);
        equal("rows needed for it", (long)rows_needed, 2);
        equal("strings needed for it", (long)strings_needed, (long)length);
        equal("nothing is written without room", strings[is_short ? 0 : length], '-');
    }
    equal("the first row", rows[0].persistent && rows[0].expires == NOW + 60 && !rows[0].has_path && !rows[0].http_only, true);
    equal("the second row", !rows[1].persistent && rows[1].expires == 0 && rows[1].has_path && rows[1].http_only, true);
    cookie_store_free(&store);
}

/* A copy has what its original has, and changes alone. */
static void test_clone(void) {
    cookie_store store = COOKIE_STORE_INIT, copy = COOKIE_STORE_INIT;
    cookie_store_row row;
    char strings[32];
    size_t line = UNSET, rows_needed = UNSET, strings_needed = UNSET;
    cookie_store_new(&store, "", 0);
    cookie_store_set_suffix_list(&store, TEXT("example"), true, &line);
    parse(&store, "http://b.example/", "n=1; SameSite=None; Max-Age=60", NOW);
    cookie_store_set_domain_limit(&store, 2);
    for (int is_strict = 1; is_strict >= 0; is_strict--) {
        cookie_store_set_strict(&store, is_strict);
        equal("clone", cookie_store_clone(&store, &copy), COOKIE_STORE_OK);
        equal("a copy is strict if its original is", cookie_store_is_strict(&copy), is_strict);
        equal("the original is as it was", cookie_store_is_strict(&store), is_strict);
        equal("the limit of a copy", (long)cookie_store_domain_limit(&copy), 2);
        equal("one cookie", (long)cookie_store_count(&copy), 1);
        equal("rows of a copy", cookie_store_rows(&copy, &row, 1, strings, sizeof strings, &rows_needed, &strings_needed), COOKIE_STORE_OK);
        same_text("its strings", strings, strings_needed, "b.example/n1");
        equal("SameSite=None without Secure", row.same_site == COOKIE_STORE_SAME_SITE_NONE && !row.secure, true);
        equal("its expiry", (long)(row.expires - NOW), 60);
        equal("the suffix list of a copy", parse(&copy, PAGE, "a=1; Domain=example", NOW), COOKIE_STORE_PUBLIC_SUFFIX);
        equal("clone into a copy", cookie_store_clone(&store, &copy), COOKIE_STORE_HAS_STORE);
        cookie_store_set_strict(&copy, !is_strict);
        cookie_store_set_domain_limit(&copy, 5);
        cookie_store_clear(&copy);
        equal("the original has its limit", (long)cookie_store_domain_limit(&store), 2);
        equal("the original has its cookie", (long)cookie_store_count(&store), 1);
        cookie_store_free(&copy);
    }
    equal("clone once more", cookie_store_clone(&store, &copy), COOKIE_STORE_OK);
    cookie_store_free(&store);
    gives("a copy without its original", &copy, "http://b.example/", NOW, "n=1");
    equal("clone of none where there is one", cookie_store_clone(&store, &copy), COOKIE_STORE_NO_STORE);
    equal("it is still there", (long)cookie_store_count(&copy), 1);
    cookie_store_free(&copy);
}

/* What a store holds after a merge, and how many cookies were left out. */
static void merges(const char *name, cookie_store *store, cookie_store *from, size_t wanted_left_out, const char *wanted) {
    size_t left_out = UNSET;
    equal(name, cookie_store_merge(store, from, NOW, &left_out), COOKIE_STORE_OK);
    equal("cookies left out", (long)left_out, (long)wanted_left_out);
    gives("what is sent after a merge", store, PAGE, NOW, wanted);
}

/* The cookies of a list come into a store by its rules, beside those that it has. */
static void test_merge(void) {
    static const char LIST[] = "a.example\tFALSE\t/\tFALSE\t0\ta\t2\n.a.example\tTRUE\t/\tTRUE\t0\t__Host-b\t3\n"
                               ".example\tTRUE\t/\tFALSE\t0\tc\t4\na b\tFALSE\t/\tFALSE\t0\td\t5\na.example\tFALSE\t/\tFALSE\t0\te\t6\n";
    cookie_store store = COOKIE_STORE_INIT, from = COOKIE_STORE_INIT;
    size_t line = UNSET, malformed = UNSET, left_out = UNSET;
    equal("merge none into none", cookie_store_merge(&store, &from, NOW, &left_out), COOKIE_STORE_NO_STORE);
    equal("nothing is left out", (long)left_out, 0);
    cookie_store_new(&store, "", 0);
    equal("merge none", cookie_store_merge(&store, &from, NOW, &left_out), COOKIE_STORE_NO_STORE);
    cookie_store_load(&from, "", 0, COOKIE_STORE_NETSCAPE, COOKIE_STORE_ALL, TEXT(LIST), NOW, &line, 1, &malformed);
    parse(&store, PAGE, "z=1; Path=/", NOW);
    parse(&store, PAGE, "a=1; Path=/; HttpOnly", NOW);
    equal("merge at a time out of range", cookie_store_merge(&store, &from, INT64_MAX, &left_out), COOKIE_STORE_BAD_TIME);
    merges("a domain that is not a host", &store, &from, 1, "z=1; a=2; e=6; c=4");
    cookie_store_clear(&store);
    cookie_store_set_suffix_list(&store, TEXT("example"), true, &line);
    merges("a public suffix becomes host-only", &store, &from, 1, "a=2; e=6");
    gives("for its own host", &store, "http://example/", NOW, "c=4");
    cookie_store_clear(&store);
    cookie_store_set_strict(&store, true);
    cookie_store_set_domain_limit(&store, 1);
    merges("a prefix that demands a host-only cookie", &store, &from, 2, "e=6");
    equal("what was merged is unchanged", (long)cookie_store_count(&from), 5);
    equal("and is not strict", cookie_store_is_strict(&from), false);
    cookie_store_free(&from);
    cookie_store_free(&store);
}

/* The creation order, which is not that of the store. */
static void test_clone_order(void) {
    cookie_store store = COOKIE_STORE_INIT, copy = COOKIE_STORE_INIT;
    cookie_store_new(&store, "", 0);
    parse(&store, PAGE, "a=1; Path=/x", NOW);
    parse(&store, PAGE, "b=2; Path=/y", NOW);
    parse(&store, PAGE, "c=3; Path=/x", NOW);
    cookie_store_set_domain_limit(&store, 2);
    equal("clone for its order", cookie_store_clone(&store, &copy), COOKIE_STORE_OK);
    parse(&store, PAGE, "d=4; Path=/z", NOW);
    parse(&copy, PAGE, "d=4; Path=/z", NOW);
    for (int is_copy = 0; is_copy < 2; is_copy++) {
        cookie_store *one = is_copy ? &copy : &store;
        gives("a and b were created first", one, "http://a.example/x", NOW, "c=3");
        gives("b is evicted", one, "http://a.example/y", NOW, "");
        gives("d is created last", one, "http://a.example/z", NOW, "d=4");
        cookie_store_free(one);
    }
}

/* Each value of the SameSite attribute, ignoring case, none, and another, which counts as none. */
static void test_same_site(void) {
    static const struct {
        const char *value;
        enum cookie_store_same_site wanted;
    } VALUES[] = {{"a=1; SameSite=Strict", COOKIE_STORE_SAME_SITE_STRICT}, {"a=1; SameSite=Lax", COOKIE_STORE_SAME_SITE_LAX},
                  {"a=1; samesite=NONE", COOKIE_STORE_SAME_SITE_NONE},     {"a=1", COOKIE_STORE_SAME_SITE_ABSENT},
                  {"a=1; SameSite=other", COOKIE_STORE_SAME_SITE_ABSENT}};
    cookie_store store = COOKIE_STORE_INIT;
    cookie_store_row row;
    char strings[16];
    size_t rows_needed = UNSET, strings_needed = UNSET;
    cookie_store_new(&store, "", 0);
    for (size_t at = 0; at < sizeof VALUES / sizeof *VALUES; at++) {
        parse(&store, PAGE, VALUES[at].value, NOW);
        equal("a row", cookie_store_rows(&store, &row, 1, strings, sizeof strings, &rows_needed, &strings_needed), COOKIE_STORE_OK);
        equal(VALUES[at].value, row.same_site, VALUES[at].wanted);
    }
    cookie_store_free(&store);
}

/* Buffers that are one byte too short for a header, and just long enough. */
static void test_room(void) {
    cookie_store store = COOKIE_STORE_INIT;
    char out[8] = "-------";
    size_t needed = UNSET;
    cookie_store_new(&store, "", 0);
    parse(&store, PAGE, "a=1", NOW);
    equal("header one byte too short", cookie_store_header(&store, TEXT(PAGE), NOW, out, 2, &needed), COOKIE_STORE_NO_ROOM);
    equal("what a header needs", (long)needed, 3);
    same_text("nothing is written of a header", out, 7, "-------");
    equal("header in the very room", cookie_store_header(&store, TEXT(PAGE), NOW, out, 3, &needed), COOKIE_STORE_OK);
    same_text("nothing is written after a header", out, 7, "a=1----");
    equal("new where there is one", cookie_store_new(&store, "", 0), COOKIE_STORE_HAS_STORE);
    cookie_store_free(&store);
}

/* Calls with an empty handle, also after its store was freed. */
static void test_no_store(void) {
    cookie_store store = COOKIE_STORE_INIT, copy = COOKIE_STORE_INIT;
    cookie_store_row row;
    char out[8];
    size_t needed = UNSET, other = UNSET;
    for (int round = 0; round < 2; round++) {
        equal("suffix list of none", cookie_store_set_suffix_list(&store, TEXT("com"), false, &needed), COOKIE_STORE_NO_STORE);
        equal("parse in none", parse(&store, PAGE, "a=1", NOW), COOKIE_STORE_NO_STORE);
        equal("header of none", cookie_store_header(&store, TEXT(PAGE), NOW, out, sizeof out, &needed), COOKIE_STORE_NO_STORE);
        equal("strict of none", cookie_store_set_strict(&store, true), COOKIE_STORE_NO_STORE);
        equal("whether none is strict", cookie_store_is_strict(&store), false);
        equal("limit of none", cookie_store_set_domain_limit(&store, 0), COOKIE_STORE_NO_STORE);
        equal("the limit that none has", (long)cookie_store_domain_limit(&store), 0);
        equal("key of none", cookie_store_set_hash_key(&store, "", 0), COOKIE_STORE_NO_STORE);
        equal("remove of none", cookie_store_remove(&store, "", 0, "", 0, "", 0), COOKIE_STORE_NO_STORE);
        equal("remove_domain of none", cookie_store_remove_domain(&store, TEXT("\xff"), &needed), COOKIE_STORE_NO_STORE);
        equal("none of none", (long)needed, 0);
        equal("clear none", cookie_store_clear(&store), COOKIE_STORE_NO_STORE);
        equal("remove_expired of none", cookie_store_remove_expired(&store, LAST + 1, &needed), COOKIE_STORE_NO_STORE);
        equal("none removed of none", (long)needed, 0);
        equal("count of none", (long)cookie_store_count(&store), 0);
        equal("rows of none", cookie_store_rows(&store, &row, 1, out, sizeof out, &needed, &other), COOKIE_STORE_NO_STORE);
        equal("nothing is needed of none", (long)(needed + other), 0);
        needed = other = UNSET;
        equal("cookies for a URL of none",
              cookie_store_cookies_for(&store, NOT_UTF8, LAST + 1, &row, 1, out, sizeof out, &needed, &other), COOKIE_STORE_NO_STORE);
        equal("nothing is needed for it", (long)(needed + other), 0);
        equal("clone of none", cookie_store_clone(&store, &copy), COOKIE_STORE_NO_STORE);
        equal("no copy of none", (long)cookie_store_count(&copy), 0);
        cookie_store_new(&store, "", 0);
        cookie_store_set_domain_limit(&store, 5);
        cookie_store_set_strict(&store, true);
        parse(&store, PAGE, "a=1", NOW);
        cookie_store_free(&store);
        cookie_store_free(&store);
    }
}

/* The ranges of the statuses that the header documents: each has a text, and no other number. */
static void test_status_texts(void) {
    static const int RANGES[][2] = {{0, 3}, {10, 16}, {20, 38}, {40, 47}};
    for (int status = 0; status < 100; status++) {
        const char *text = cookie_store_status_text((enum cookie_store_status)status);
        bool is_status = false;
        for (size_t at = 0; at < sizeof RANGES / sizeof *RANGES; at++)
            is_status = is_status || (RANGES[at][0] <= status && status <= RANGES[at][1]);
        equal("a status has a text", strcmp(text, "unknown status") != 0, is_status);
    }
}

/* The layout of the structs that programs share with the library, on 64-bit machines. */
static void test_layout(void) {
    equal("size of a store", (long)sizeof(cookie_store), 16);
    equal("strict", (long)offsetof(cookie_store, strict), 1);
    equal("at", (long)offsetof(cookie_store, at), 8);
    equal("size of a row", (long)sizeof(cookie_store_row), 56);
    equal("value_len", (long)offsetof(cookie_store_row, value_len), 24);
    equal("expires", (long)offsetof(cookie_store_row, expires), 32);
    equal("persistent", (long)offsetof(cookie_store_row, persistent), 40);
    equal("host_only", (long)offsetof(cookie_store_row, host_only), 41);
    equal("has_path", (long)offsetof(cookie_store_row, has_path), 42);
    equal("secure", (long)offsetof(cookie_store_row, secure), 43);
    equal("http_only", (long)offsetof(cookie_store_row, http_only), 44);
    equal("same_site", (long)offsetof(cookie_store_row, same_site), 48);
    equal("size of a status", (long)sizeof(enum cookie_store_status), 4);
    equal("size of a SameSite attribute", (long)sizeof(enum cookie_store_same_site), 4);
    equal("size of a format", (long)sizeof(enum cookie_store_format), 4);
    equal("size of which cookies", (long)sizeof(enum cookie_store_which), 4);
}

#if defined(__GLIBC__) && (__GLIBC__ > 2 || __GLIBC_MINOR__ >= 33)
#include <malloc.h>

static size_t used(void) { return mallinfo2().uordblks; }
#else
static size_t used(void) { return 0; }
#endif

/* Stores leak no memory. Measured only after malloc has built up its free lists. */
static void test_memory(void) {
    char list[1024];
    size_t needed = 0, other = 0, before = 0, line;
    for (int round = 0; round < 1000; round++) {
        cookie_store store = COOKIE_STORE_INIT, copy = COOKIE_STORE_INIT;
        cookie_store_row rows[2];
        enum cookie_store_format format = (enum cookie_store_format)(round % 4);
        if (round == 500) before = used();
        cookie_store_new(&store, "", 0);
        cookie_store_set_suffix_list(&store, TEXT("com\nco.uk"), true, &needed);
        cookie_store_set_suffix_list(&store, TEXT("com"), false, &needed);
        cookie_store_set_hash_key(&store, "0123456789abcdef", 16);
        parse(&store, PAGE, "a=1; Max-Age=60", NOW);
        parse(&store, PAGE, "b=2; Domain=b.example", NOW);
        cookie_store_set_domain_limit(&store, 5);
        cookie_store_set_strict(&store, true);
        parse(&store, PAGE, "c=3; SameSite=Lax", NOW);
        cookie_store_header_cross_site(&store, TEXT(PAGE), NOW, COOKIE_STORE_TOP_LEVEL, list, sizeof list, &needed);
        cookie_store_header(&store, TEXT(PAGE), NOW, list, sizeof list, &needed);
        cookie_store_cookies_for(&store, TEXT(PAGE), NOW, rows, 2, list, sizeof list, &needed, &other);
        cookie_store_clone(&store, &copy);
        cookie_store_clone(&store, &copy);
        cookie_store_free(&copy);
        cookie_store_save(&store, format, COOKIE_STORE_ALL, NOW, list, sizeof list, &needed, &other);
        cookie_store_remove_expired(&store, NOW + 60, &other);
        cookie_store_remove(&store, TEXT("a.example"), TEXT("/d"), TEXT("a"));
        cookie_store_clear(&store);
        cookie_store_load(&store, "", 0, format, COOKIE_STORE_ALL, list, needed, NOW, &line, 1, &other);
        cookie_store_free(&store);
        cookie_store_load(&store, "", 0, format, COOKIE_STORE_ALL, list, needed, NOW, &line, 1, &other);
        cookie_store_free(&store);
        cookie_store_load(&store, "", 0, format, COOKIE_STORE_ALL, list, needed - 3, NOW, &line, 1, &other);
        cookie_store_free(&store);
    }
    /* malloc's own use varies a little; 32 bytes, its smallest block, in each round are 16,000. */
    equal("memory is left behind", (long)used() - (long)before >= 16000, 0);
}

int main(void) {
    test_layout();
    test_status_texts();
    test_memory();
    test_parse();
    test_suffixes();
    test_header();
    test_remove();
    test_remove_expired();
    test_remove_domain();
    test_limit_and_key();
    test_rows();
    test_cookies_for();
    test_clone();
    test_clone_order();
    test_merge();
    test_same_site();
    test_room();
    test_no_store();
    return report("test_cookie_store");
}
