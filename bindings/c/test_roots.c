/* Roots of hosts, shards of roots, and a store that is split by them, which does what one store does. Failures are reported on
   standard error. The last line is 'test_roots: N passed, M failed'. */
#include "test.h"

enum { SHARDS = 3 };

/* Rules as they are on the list of publicsuffix.org: sites nest below kobe.jp, and below amazonaws.com. */
static const char LIST[] = "com\njp\n*.kobe.jp\n!city.kobe.jp\nuk\nco.uk\ns3.amazonaws.com\n";

/* A host, and its root under the list; a cookie with the host as its domain has the same root. */
static const char *const ROOTS[][2] = {
    {"www.example.com", "example.com"},
    {"example.com", "example.com"},
    {"com", "com"},
    {"a.b.example.co.uk", "example.co.uk"},
    {"co.uk", "co.uk"},
    {"kobe.jp", "kobe.jp"},
    {"b.kobe.jp", "kobe.jp"},
    {"a.b.kobe.jp", "kobe.jp"},
    {"www.city.kobe.jp", "kobe.jp"},
    {"bucket.s3.amazonaws.com", "amazonaws.com"},
    {"localhost", "localhost"},
    {"a.localhost", "a.localhost"},
    {"b.a.localhost", "a.localhost"},
    {"www.example.com.", "example.com."},
    {"127.0.0.1", "127.0.0.1"},
    {"[::1]", "[::1]"},
};

static void begin(cookie_store *store) {
    size_t bad_line;
    cookie_store_new(store, "", 0);
    cookie_store_set_strict(store, true);
    equal("the list", cookie_store_set_suffix_list(store, TEXT(LIST), false, &bad_line), COOKIE_STORE_OK);
}

/* The URL has this root. */
static void has_root(cookie_store *store, const char *url, const char *wanted) {
    char out[64];
    size_t needed = UNSET;
    memset(out, '-', sizeof out);
    equal(url, cookie_store_root(store, TEXT(url), out, sizeof out, &needed), COOKIE_STORE_OK);
    same_text(url, out, needed, wanted);
    equal("no zero is written", out[strlen(wanted)], '-');
}

static void domain_has_root(cookie_store *store, const char *domain, const char *wanted) {
    char out[64];
    size_t needed = UNSET;
    memset(out, '-', sizeof out);
    equal(domain, cookie_store_root_of_domain(store, TEXT(domain), out, sizeof out, &needed), COOKIE_STORE_OK);
    same_text(domain, out, needed, wanted);
    equal("no zero is written", out[strlen(wanted)], '-');
}

static void test_roots(void) {
    cookie_store store = COOKIE_STORE_INIT;
    begin(&store);
    for (size_t at = 0; at < sizeof ROOTS / sizeof *ROOTS; at++) {
        char url[64];
        snprintf(url, sizeof url, "https://%s:8080/d/page?a", ROOTS[at][0]);
        has_root(&store, url, ROOTS[at][1]);
        domain_has_root(&store, ROOTS[at][0], ROOTS[at][1]);
    }
    cookie_store_free(&store);
}

/* A URL without a host and the empty domain have the empty root, and the shard of that is one too. */
static void test_no_host(void) {
    cookie_store store = COOKIE_STORE_INIT;
    uint32_t shard = UNSET;
    begin(&store);
    has_root(&store, "data:text/plain,a", "");
    domain_has_root(&store, "", "");
    equal("its shard", cookie_store_shard("", 0, 1, &shard), COOKIE_STORE_OK);
    equal("of one", (long)shard, 0);
    cookie_store_free(&store);
}

/* The first error counts. */
static void test_errors(void) {
    static const struct {
        const char *name, *url;
        size_t url_len;
        bool has_list;
        enum cookie_store_status wanted;
    } CALLS[] = {{"no list", NOT_UTF8, false, COOKIE_STORE_NO_LIST},
                 {"not UTF-8", NOT_UTF8, true, COOKIE_STORE_NOT_UTF8},
                 {"no URL", "no url", 6, true, COOKIE_STORE_BAD_URL},
                 {"an ambiguous URL", "http://a\\@b/", 12, true, COOKIE_STORE_BAD_URL},
                 {"no room", "http://b.a.com/", 15, true, COOKIE_STORE_NO_ROOM}};
    for (size_t at = 0; at < sizeof CALLS / sizeof *CALLS; at++) {
        cookie_store store = COOKIE_STORE_INIT;
        size_t needed = UNSET;
        char out[4] = "---";
        bool lacks_room = CALLS[at].wanted == COOKIE_STORE_NO_ROOM;
        equal("no store", cookie_store_root(&store, CALLS[at].url, CALLS[at].url_len, out, sizeof out, &needed), COOKIE_STORE_NO_STORE);
        equal("what is needed of it", (long)needed, 0);
        if (CALLS[at].has_list)
            begin(&store);
        else
            cookie_store_new(&store, "", 0);
        needed = UNSET;
        equal(CALLS[at].name, cookie_store_root(&store, CALLS[at].url, CALLS[at].url_len, out, sizeof out, &needed), CALLS[at].wanted);
        equal("what is needed", (long)needed, lacks_room ? 5 : 0);
        same_text("nothing is written", out, 3, "---");
        cookie_store_free(&store);
    }
}

static void test_domain_errors(void) {
    cookie_store store = COOKIE_STORE_INIT;
    size_t needed = UNSET;
    char out[4] = "---";
    equal("no store", cookie_store_root_of_domain(&store, NOT_UTF8, out, sizeof out, &needed), COOKIE_STORE_NO_STORE);
    cookie_store_new(&store, "", 0);
    equal("no list", cookie_store_root_of_domain(&store, NOT_UTF8, out, sizeof out, &needed), COOKIE_STORE_NO_LIST);
    cookie_store_free(&store);
    begin(&store);
    equal("not UTF-8", cookie_store_root_of_domain(&store, NOT_UTF8, out, sizeof out, &needed), COOKIE_STORE_NOT_UTF8);
    equal("what is needed of it", (long)needed, 0);
    equal("no room", cookie_store_root_of_domain(&store, TEXT("b.a.com"), out, sizeof out, &needed), COOKIE_STORE_NO_ROOM);
    equal("what is needed", (long)needed, 5);
    same_text("nothing is written", out, 3, "---");
    cookie_store_free(&store);
}

/* The hashes are those that the authors of FNV publish: cbf29ce484222325, af63dc4c8601ec8c, 85944171f73967e8. */
static void test_shards(void) {
    static const struct {
        const char *root;
        uint32_t shards, wanted;
    } SHARDS_OF[] = {{"", 1, 0},
                     {"", UINT32_MAX, 0x5014c00a},
                     {"", 16, 5},
                     {"a", UINT32_C(1) << 31, 0x0601ec8c},
                     {"a", 16, 12},
                     {"foobar", UINT32_C(1) << 31, 0x773967e8},
                     {"foobar", 16, 8}};
    uint32_t shard = UNSET;
    for (size_t at = 0; at < sizeof SHARDS_OF / sizeof *SHARDS_OF; at++) {
        equal(SHARDS_OF[at].root, cookie_store_shard(TEXT(SHARDS_OF[at].root), SHARDS_OF[at].shards, &shard), COOKIE_STORE_OK);
        equal(SHARDS_OF[at].root, (long)shard, (long)SHARDS_OF[at].wanted);
    }
    equal("not UTF-8", cookie_store_shard(NOT_UTF8, 0, &shard), COOKIE_STORE_NOT_UTF8);
    equal("the shard of it", (long)shard, 0);
    shard = UNSET;
    equal("no shards", cookie_store_shard("a", 1, 0, &shard), COOKIE_STORE_BAD_LIMIT);
    equal("the shard of none", (long)shard, 0);
}

/* The store of a URL among `shards`. The roots are found by the first one. */
static cookie_store *store_of(cookie_store *stores, uint32_t shards, const char *url) {
    char root[64];
    size_t length = 0;
    uint32_t shard = 0;
    equal("a root", cookie_store_root(&stores[0], TEXT(url), root, sizeof root, &length), COOKIE_STORE_OK);
    equal("a shard", cookie_store_shard(root, length, shards, &shard), COOKIE_STORE_OK);
    return &stores[shard];
}

/* The header of a URL, which a split store and one store have. */
static void same_header(cookie_store *stores, cookie_store *one, const char *url) {
    char out[256], wanted[256];
    size_t length = 0, wanted_length = 0;
    equal(url, cookie_store_header(one, TEXT(url), NOW, wanted, sizeof wanted - 1, &wanted_length), COOKIE_STORE_OK);
    equal(url, cookie_store_header(store_of(stores, SHARDS, url), TEXT(url), NOW, out, sizeof out, &length), COOKIE_STORE_OK);
    wanted[wanted_length] = '\0';
    same_text(url, out, length, wanted);
}

/* Header values that a URL sets, for the host, for its root, and for all that its list does not let it. */
static void test_split(void) {
    static const char *const SET[] = {"a=1", "b=2; Domain=example.com", "c=3; Domain=kobe.jp; Path=/d", "d=4; Domain=com",
                                      "e=5; Domain=amazonaws.com", "f=6; Domain=example.co.uk", "a=7; Max-Age=0", "g=8; Path=/"};
    cookie_store one = COOKIE_STORE_INIT, stores[SHARDS] = {COOKIE_STORE_INIT, COOKIE_STORE_INIT, COOKIE_STORE_INIT};
    size_t count = 0;
    begin(&one);
    cookie_store_set_domain_limit(&one, 3);
    for (int shard = 0; shard < SHARDS; shard++) {
        begin(&stores[shard]);
        cookie_store_set_domain_limit(&stores[shard], 3);
    }
    for (size_t at = 0; at < sizeof ROOTS / sizeof *ROOTS; at++) {
        char url[64];
        snprintf(url, sizeof url, "http://%s/d/page", ROOTS[at][0]);
        for (size_t value = 0; value < sizeof SET / sizeof *SET; value++)
            equal(SET[value], parse(store_of(stores, SHARDS, url), url, SET[value], NOW), parse(&one, url, SET[value], NOW));
    }
    for (size_t at = 0; at < sizeof ROOTS / sizeof *ROOTS; at++) {
        char url[64];
        snprintf(url, sizeof url, "http://%s/d/page", ROOTS[at][0]);
        same_header(stores, &one, url);
    }
    for (int shard = 0; shard < SHARDS; shard++) {
        equal("no shard has all cookies", cookie_store_count(&stores[shard]) < cookie_store_count(&one), true);
        count += cookie_store_count(&stores[shard]);
        cookie_store_free(&stores[shard]);
    }
    equal("as many cookies", (long)count, (long)cookie_store_count(&one));
    cookie_store_free(&one);
}

int main(void) {
    test_roots();
    test_no_host();
    test_errors();
    test_domain_errors();
    test_shards();
    test_split();
    return report("test_roots");
}
