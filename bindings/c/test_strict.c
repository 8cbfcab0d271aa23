/* The rules of browsers, the header of cross-site requests, and requests and responses of a page: the
   statuses that calls return, whether a store is strict, flags, and the order of errors. Failures are
   reported on standard error. The last line is 'test_strict: N passed, M failed'. */
#include "test.h"

/* A Set-Cookie header value, the URL that it is received from, and the status. */
struct parse_case {
    const char *url, *text;
    enum cookie_store_status wanted;
};

/* Parsed one after the other in one strict store, at one time. */
static const struct parse_case STRICT_PARSED[] = {
    {"http://a.example/d/page", "a=1", COOKIE_STORE_INSERTED},
    {"http://a.example/d/page", "a=2", COOKIE_STORE_UPDATED},
    {"http://a.example/d/page", "a=3; Max-Age=0", COOKIE_STORE_EXPIRED_EXISTING},
    {"http://a.example/d/page", "c=1\x01", COOKIE_STORE_CONTROL_CHARACTER},
    {"http://a.example/d/page", "no pair\x01", COOKIE_STORE_CONTROL_CHARACTER},
    {"http://a.example/d/page", "no pair", COOKIE_STORE_PARSE},
    {"http://a.example/d/page", "a=1; Domain=b.example", COOKIE_STORE_DOMAIN_MISMATCH},
    {"http://a.example/d/page", "s=1; Secure", COOKIE_STORE_INSECURE_URL},
    {"http://localhost/", "s=1; Secure", COOKIE_STORE_INSERTED},
    {"https://a.example/d/page", "n=1; SameSite=None", COOKIE_STORE_INSECURE_SAME_SITE_NONE},
    {"https://a.example/d/page", "__Secure-p=1", COOKIE_STORE_PREFIX},
    {"https://a.example/d/page", "__Host-p=1; Secure", COOKIE_STORE_PREFIX},
    {"https://a.example/d/page", "__Host-p=1; Secure; Path=/", COOKIE_STORE_INSERTED},
    {"https://a.example/d/page", "s=1; Secure", COOKIE_STORE_INSERTED},
    {"http://a.example/d/page", "s=2", COOKIE_STORE_SECURE_STORED},
    {"http://a.example/d/page", "s=2; Path=/", COOKIE_STORE_INSERTED},
    {"no url", "a=1\x01", COOKIE_STORE_BAD_URL},
};

/* The same in a strict store with at most two cookies a domain, and with the suffix s3.a.example. */
static const struct parse_case STRICT_LIMITED[] = {
    {"https://a.example/", "s=1; Secure", COOKIE_STORE_INSERTED},
    {"http://a.example/", "p=1", COOKIE_STORE_INSERTED},
    {"http://a.example/", "q=1", COOKIE_STORE_INSERTED},
    {"http://a.example/", "s=2", COOKIE_STORE_SECURE_STORED},
    {"https://a.example/", "t=1; Secure", COOKIE_STORE_INSERTED},
    {"http://a.example/", "r=1", COOKIE_STORE_SECURE_LIMIT},
    {"https://b.s3.a.example/", "d=1; Domain=a.example", COOKIE_STORE_PUBLIC_SUFFIX},
    {"https://b.s3.a.example/", "d=1; Domain=b.s3.a.example", COOKIE_STORE_INSERTED},
};

/* How browsers read a header value: the same in a strict store. */
static const struct parse_case STRICT_READ[] = {
    {"https://a.example/d/page", "\t=1", COOKIE_STORE_PARSE},
    {"https://a.example/d/page", "d=1; Domain=. a.example", COOKIE_STORE_DOMAIN_MISMATCH},
    {"https://a.example/d/page", "d=1; Domain=a.example\xc2\xa0", COOKIE_STORE_DOMAIN_MISMATCH},
    {"https://a.example/d/page", "d=1; Domain=\xef\xbd\x81.example", COOKIE_STORE_DOMAIN_MISMATCH},
    {"https://a.example/d/page", "d=1; Domain=b.example; Domain=a.example", COOKIE_STORE_INSERTED},
    {"https://a.example/d/page", "d=1; Domain=a.example; Domain=b.example", COOKIE_STORE_DOMAIN_MISMATCH},
    {"https://a.example/d/page", "__Http-h=1; Secure", COOKIE_STORE_PREFIX},
    {"https://a.example/d/page", "__hTTP-h=1; HttpOnly", COOKIE_STORE_PREFIX},
    {"https://a.example/d/page", "__Http-h=1; Secure; HttpOnly", COOKIE_STORE_INSERTED},
    {"https://a.example/d/page", "__Host-Http-h=1; Secure; Path=/", COOKIE_STORE_PREFIX},
    {"https://a.example/d/page", "__Host-Http-h=1; Secure; HttpOnly", COOKIE_STORE_PREFIX},
    {"https://a.example/d/page", "__Host-Http-h=1; Secure; HttpOnly; Path=/", COOKIE_STORE_INSERTED},
    {"http://a.localhost/", "s=1; Secure", COOKIE_STORE_INSERTED},
    {"http://localhost./", "s=1; Secure", COOKIE_STORE_INSERTED},
    {"http://alocalhost/", "s=1; Secure", COOKIE_STORE_INSECURE_URL},
};

/* The Cookie header of a URL after a header value was received from it, and so whether cookie_store_cookies_for has a cookie: in a
 * strict store, and in another one. */
static const struct {
    const char *url, *text, *strict, *plain;
} READ[] = {
    {"http://a.example/", " \t a\t = \t1 \t", "a=1", "a=1"},
    {"http://a.example/", "a=1\xc2\xa0", "a=1\xc2\xa0", "a=1"},
    {"http://a.example/", "\xe3\x80\x80" "a=1", "\xe3\x80\x80" "a=1", "a=1"},
    {"http://a.example/", "a=1; Max-Age=60; Max-Age=-", "a=1", ""},
    {"http://a.example/x", "a=1; Path=/x\xc2\xa0", "", "a=1"},
    {"http://a.localhost/", "a=1; Secure", "a=1", ""},
    {"http://localhost./", "a=1; Secure", "a=1", ""},
    {"http://localhost/", "a=1; Secure", "a=1", "a=1"},
};

static void parse_all(cookie_store *store, const struct parse_case *cases, size_t count) {
    for (size_t at = 0; at < count; at++) {
        char name[128];
        snprintf(name, sizeof name, "strict: parse %s %s", cases[at].url, cases[at].text);
        equal(name, parse(store, cases[at].url, cases[at].text, NOW), cases[at].wanted);
    }
}

/* Secure cookies are evicted last, and no cookie is for more than the site of its host. */
static void test_strict_limit(void) {
    static const char list[] = "s3.a.example\n";
    cookie_store store = COOKIE_STORE_INIT;
    size_t bad_line;
    cookie_store_new(&store, "", 0);
    cookie_store_set_strict(&store, true);
    cookie_store_set_domain_limit(&store, 2);
    cookie_store_set_suffix_list(&store, TEXT(list), false, &bad_line);
    parse_all(&store, STRICT_LIMITED, sizeof STRICT_LIMITED / sizeof *STRICT_LIMITED);
    cookie_store_free(&store);
}

/* How a header value is read, and whether a URL is secure. */
static void test_strict_reading(void) {
    cookie_store store = COOKIE_STORE_INIT;
    cookie_store_row row;
    char strings[64];
    size_t count, length;
    cookie_store_new(&store, "", 0);
    cookie_store_set_strict(&store, true);
    parse_all(&store, STRICT_READ, sizeof STRICT_READ / sizeof *STRICT_READ);
    for (size_t at = 0; at < sizeof READ / sizeof *READ; at++) {
        for (int is_strict = 0; is_strict < 2; is_strict++) {
            char name[128];
            snprintf(name, sizeof name, "%s: header of %s %s", is_strict ? "strict" : "not strict", READ[at].url, READ[at].text);
            cookie_store_clear(&store);
            cookie_store_set_strict(&store, is_strict);
            parse(&store, READ[at].url, READ[at].text, NOW);
            const char *wanted = is_strict ? READ[at].strict : READ[at].plain;
            gives(name, &store, READ[at].url, NOW, wanted);
            cookie_store_cookies_for(&store, TEXT(READ[at].url), NOW, &row, 1, strings, sizeof strings, &count, &length);
            equal(name, count, *wanted != 0);
        }
    }
    cookie_store_free(&store);
}

/* The rules of browsers, also as they are set and reset. */
static void test_strict(void) {
    cookie_store store = COOKIE_STORE_INIT;
    size_t line, malformed;
    char longest[4100];
    memset(longest, 'v', sizeof longest);
    longest[1] = '=';
    cookie_store_new(&store, "", 0);
    equal("a new store", cookie_store_is_strict(&store), false);
    equal("set_strict", cookie_store_set_strict(&store, true), COOKIE_STORE_OK);
    equal("a strict store", cookie_store_is_strict(&store), true);
    parse_all(&store, STRICT_PARSED, sizeof STRICT_PARSED / sizeof *STRICT_PARSED);
    equal("4096 bytes", cookie_store_parse(&store, TEXT(PAGE), longest, 4097, NOW), COOKIE_STORE_INSERTED);
    equal("4097 bytes", cookie_store_parse(&store, TEXT(PAGE), longest, 4098, NOW), COOKIE_STORE_TOO_LONG);
    equal("clear", cookie_store_clear(&store), COOKIE_STORE_OK);
    equal("strict after clear", cookie_store_is_strict(&store), true);
    equal("a long life", parse(&store, PAGE, "y=1; Max-Age=99999999", NOW), COOKIE_STORE_INSERTED);
    gives("before 400 days", &store, PAGE, NOW + 34559999, "y=1");
    gives("after 400 days", &store, PAGE, NOW + 34560000, "");
    equal("set_strict, false", cookie_store_set_strict(&store, false), COOKIE_STORE_OK);
    equal("not strict", cookie_store_is_strict(&store), false);
    equal("as RFC 6265", parse(&store, PAGE, "s=1; Secure", NOW), COOKIE_STORE_INSERTED);
    for (int round = 0; round < 2; round++) {
        cookie_store_set_strict(&store, true);
        cookie_store_free(&store);
        equal("an empty handle is not strict", cookie_store_is_strict(&store), false);
        if (round == 0)
            cookie_store_new(&store, "", 0);
        else
            cookie_store_load(&store, "", 0, COOKIE_STORE_JSON, COOKIE_STORE_ALL, TEXT("[]"), NOW, &line, 1, &malformed);
        equal("a new store is not strict", cookie_store_is_strict(&store), false);
        equal("nor are its rules", parse(&store, PAGE, "s=1; Secure", NOW), COOKIE_STORE_INSERTED);
    }
    cookie_store_free(&store);
}

/* The header of requests from another site. */
static void test_cross_site(void) {
    static const struct {
        uint32_t request;
        const char *wanted;
    } REQUESTS[] = {{COOKIE_STORE_CROSS_SITE, "n=4"},
                    {COOKIE_STORE_NONE_BY_DEFAULT, "n=4; u=3"},
                    {COOKIE_STORE_TOP_LEVEL, "n=4; u=3; l=2"},
                    {COOKIE_STORE_TOP_LEVEL | COOKIE_STORE_NONE_BY_DEFAULT, "n=4; u=3; l=2"}};
    static const char *const TEXTS[] = {"n=4; SameSite=None; Path=/d", "u=3; Path=/d", "l=2; SameSite=Lax; Path=/", "s=1; SameSite=Strict; Path=/"};
    cookie_store store = COOKIE_STORE_INIT;
    char out[64];
    size_t needed = UNSET;
    cookie_store_new(&store, "", 0);
    for (size_t at = 0; at < sizeof TEXTS / sizeof *TEXTS; at++) parse(&store, PAGE, TEXTS[at], NOW);
    for (size_t at = 0; at < sizeof REQUESTS / sizeof *REQUESTS; at++) {
        equal("header_cross_site", cookie_store_header_cross_site(&store, TEXT(PAGE), NOW, REQUESTS[at].request, out, sizeof out, &needed),
              COOKIE_STORE_OK);
        same_text("cross-site", out, needed, REQUESTS[at].wanted);
    }
    gives("same-site", &store, PAGE, NOW, "n=4; u=3; l=2; s=1");
    equal("no room", cookie_store_header_cross_site(&store, TEXT(PAGE), NOW, COOKIE_STORE_CROSS_SITE, out, 2, &needed), COOKIE_STORE_NO_ROOM);
    equal("its length", (long)needed, 3);
    cookie_store_free(&store);
}

/* A request with an unknown flag, and the errors before and after that one. */
static void test_cross_site_errors(void) {
    static const struct {
        const char *name, *url;
        size_t url_len;
        int64_t now;
        uint32_t request;
        enum cookie_store_status wanted;
    } CALLS[] = {{"flag 4", NOT_UTF8, LAST + 1, 4, COOKIE_STORE_BAD_OPTION},
                 {"flag 4 and known ones", NOT_UTF8, LAST + 1, 7, COOKIE_STORE_BAD_OPTION},
                 {"flag 256", NOT_UTF8, LAST + 1, 256, COOKIE_STORE_BAD_OPTION},
                 {"flag 2^31", NOT_UTF8, LAST + 1, UINT32_C(1) << 31, COOKIE_STORE_BAD_OPTION},
                 {"all flags", NOT_UTF8, LAST + 1, UINT32_MAX, COOKIE_STORE_BAD_OPTION},
                 {"not UTF-8", NOT_UTF8, LAST + 1, 3, COOKIE_STORE_NOT_UTF8},
                 {"a time out of range", "no url", 6, LAST + 1, 3, COOKIE_STORE_BAD_TIME},
                 {"no URL", "no url", 6, NOW, 3, COOKIE_STORE_BAD_URL}};
    cookie_store store = COOKIE_STORE_INIT;
    char out[8];
    for (size_t at = 0; at < sizeof CALLS / sizeof *CALLS; at++) {
        for (int is_begun = 0; is_begun < 2; is_begun++) {
            size_t needed = UNSET;
            if (is_begun) cookie_store_new(&store, "", 0);
            enum cookie_store_status status = cookie_store_header_cross_site(&store, CALLS[at].url, CALLS[at].url_len, CALLS[at].now,
                                                                             CALLS[at].request, out, sizeof out, &needed);
            equal(CALLS[at].name, status, is_begun ? CALLS[at].wanted : COOKIE_STORE_NO_STORE);
            equal("nothing is needed of it", (long)needed, 0);
        }
        cookie_store_free(&store);
    }
}

/* A store with the public suffix `co.example`, or without a list. */
static void begin(cookie_store *store, bool has_list) {
    static const char list[] = "co.example\n";
    size_t bad_line;
    cookie_store_new(store, "", 0);
    if (has_list) cookie_store_set_suffix_list(store, TEXT(list), false, &bad_line);
}

static const char *const URL = "https://a.co.example/d/page";

/* The header of requests that a page made. */
static void test_page_header(void) {
    static const struct {
        const char *page, *url;
        bool has_list;
        uint32_t request;
        const char *wanted;
    } REQUESTS[] = {
        {"https://www.a.co.example/", "https://a.co.example/d/page", true, COOKIE_STORE_CROSS_SITE, "n=4; u=3; l=2; s=1"},
        {"https://a.co.example:8443/x", "https://a.co.example/d/page", true, COOKIE_STORE_TOP_LEVEL, "n=4; u=3; l=2; s=1"},
        {"https://b.co.example/", "https://a.co.example/d/page", true, COOKIE_STORE_CROSS_SITE, "n=4"},
        {"https://b.co.example/", "https://a.co.example/d/page", true, COOKIE_STORE_NONE_BY_DEFAULT, "n=4; u=3"},
        {"https://b.co.example/", "https://a.co.example/d/page", true, COOKIE_STORE_TOP_LEVEL, "n=4; u=3; l=2"},
        {"https://b.co.example/", "https://a.co.example/d/page", true, COOKIE_STORE_TOP_LEVEL | COOKIE_STORE_NONE_BY_DEFAULT, "n=4; u=3; l=2"},
        {"http://www.a.co.example/", "https://a.co.example/d/page", true, COOKIE_STORE_CROSS_SITE, "n=4"},
        {"data:text/html,", "https://a.co.example/d/page", true, COOKIE_STORE_CROSS_SITE, "n=4"},
        {"https://a.co.example/", "https://a.co.example/d/page", false, COOKIE_STORE_CROSS_SITE, "n=4; u=3; l=2; s=1"},
        {"https://www.a.co.example/", "https://a.co.example/d/page", false, COOKIE_STORE_CROSS_SITE, "n=4"},
        {"http://a.localhost:8080/", "http://a.localhost/", true, COOKIE_STORE_CROSS_SITE, "s=1"},
        {"http://b.localhost/", "http://a.localhost/", true, COOKIE_STORE_TOP_LEVEL, ""},
    };
    static const char *const TEXTS[] = {"n=4; SameSite=None; Path=/d", "u=3; Path=/d", "l=2; SameSite=Lax; Path=/", "s=1; SameSite=Strict; Path=/"};
    for (size_t at = 0; at < sizeof REQUESTS / sizeof *REQUESTS; at++) {
        cookie_store store = COOKIE_STORE_INIT;
        char name[128], out[64];
        size_t needed = UNSET;
        begin(&store, REQUESTS[at].has_list);
        for (size_t text = 0; text < sizeof TEXTS / sizeof *TEXTS; text++) parse(&store, URL, TEXTS[text], NOW);
        parse(&store, "http://a.localhost/", "s=1; Secure; SameSite=Strict", NOW);
        snprintf(name, sizeof name, "header_for %s of %s, flags %d", REQUESTS[at].url, REQUESTS[at].page, (int)REQUESTS[at].request);
        equal(name,
              cookie_store_header_for(&store, TEXT(REQUESTS[at].url), TEXT(REQUESTS[at].page), NOW, REQUESTS[at].request, out,
                                      sizeof out, &needed),
              COOKIE_STORE_OK);
        same_text(name, out, needed, REQUESTS[at].wanted);
        cookie_store_free(&store);
    }
}

/* The cookies of responses to requests that a page made, each for a store that is not strict. */
static void test_page_response(void) {
    static const char SITE[] = "https://www.a.co.example/", OTHER[] = "https://b.co.example/";
    static const struct {
        const char *page, *url, *text;
        uint32_t request;
        enum cookie_store_status wanted;
    } RESPONSES[] = {
        {SITE, "https://a.co.example/", "a=1; SameSite=Strict", COOKIE_STORE_CROSS_SITE, COOKIE_STORE_INSERTED},
        {SITE, "https://a.co.example/", "a=1", COOKIE_STORE_CROSS_SITE, COOKIE_STORE_INSERTED},
        {SITE, "https://a.co.example/", "__Host-a=1", COOKIE_STORE_CROSS_SITE, COOKIE_STORE_PREFIX},
        {OTHER, "https://a.co.example/", "a=1; SameSite=Strict", COOKIE_STORE_CROSS_SITE, COOKIE_STORE_CROSS_SITE_RESPONSE},
        {OTHER, "https://a.co.example/", "a=1; SameSite=Lax", COOKIE_STORE_CROSS_SITE, COOKIE_STORE_CROSS_SITE_RESPONSE},
        {OTHER, "https://a.co.example/", "a=1", COOKIE_STORE_CROSS_SITE, COOKIE_STORE_CROSS_SITE_RESPONSE},
        {OTHER, "https://a.co.example/", "a=1; SameSite=None; Secure", COOKIE_STORE_CROSS_SITE, COOKIE_STORE_INSERTED},
        {OTHER, "https://a.co.example/", "a=1; SameSite=None", COOKIE_STORE_CROSS_SITE, COOKIE_STORE_INSECURE_SAME_SITE_NONE},
        {OTHER, "https://a.co.example/", "a=1; SameSite=None; Secure; SameSite=x", COOKIE_STORE_CROSS_SITE, COOKIE_STORE_CROSS_SITE_RESPONSE},
        {OTHER, "https://a.co.example/", "a=1", COOKIE_STORE_NONE_BY_DEFAULT, COOKIE_STORE_INSERTED},
        {OTHER, "https://a.co.example/", "a=1; SameSite=Lax", COOKIE_STORE_NONE_BY_DEFAULT, COOKIE_STORE_CROSS_SITE_RESPONSE},
        {OTHER, "https://a.co.example/", "a=1; SameSite=Strict", COOKIE_STORE_TOP_LEVEL, COOKIE_STORE_INSERTED},
        {OTHER, "https://a.co.example/", "a=1; SameSite=Lax", COOKIE_STORE_TOP_LEVEL, COOKIE_STORE_INSERTED},
        {OTHER, "https://a.co.example/", "a=1", COOKIE_STORE_TOP_LEVEL, COOKIE_STORE_INSERTED},
        {OTHER, "https://a.co.example/", "a=1\x01", COOKIE_STORE_CROSS_SITE, COOKIE_STORE_CONTROL_CHARACTER},
        {OTHER, "https://a.co.example/", "no pair", COOKIE_STORE_CROSS_SITE, COOKIE_STORE_PARSE},
        {OTHER, "https://a.co.example/", "a=1; Domain=. a.co.example", COOKIE_STORE_CROSS_SITE, COOKIE_STORE_DOMAIN_MISMATCH},
        {OTHER, "https://a.co.example/", "a=1; Domain=b.co.example", COOKIE_STORE_CROSS_SITE, COOKIE_STORE_CROSS_SITE_RESPONSE},
        {OTHER, "https://a.co.example/", "a=1; Domain=co.example", COOKIE_STORE_CROSS_SITE, COOKIE_STORE_CROSS_SITE_RESPONSE},
        {OTHER, "https://a.co.example/", "__Host-a=1", COOKIE_STORE_CROSS_SITE, COOKIE_STORE_CROSS_SITE_RESPONSE},
        {OTHER, "ftp://a.co.example/", "a=1; HttpOnly", COOKIE_STORE_CROSS_SITE, COOKIE_STORE_CROSS_SITE_RESPONSE},
        {OTHER, "ftp://a.co.example/", "a=1; HttpOnly", COOKIE_STORE_TOP_LEVEL, COOKIE_STORE_NON_HTTP_SCHEME},
    };
    for (size_t at = 0; at < sizeof RESPONSES / sizeof *RESPONSES; at++) {
        cookie_store store = COOKIE_STORE_INIT;
        char name[160];
        begin(&store, true);
        snprintf(name, sizeof name, "parse_for %s, page %s, flags %d: %s", RESPONSES[at].url, RESPONSES[at].page,
                 (int)RESPONSES[at].request, RESPONSES[at].text);
        equal(name,
              cookie_store_parse_for(&store, TEXT(RESPONSES[at].url), TEXT(RESPONSES[at].page), TEXT(RESPONSES[at].text), NOW,
                                     RESPONSES[at].request),
              RESPONSES[at].wanted);
        equal("what is stored", (long)cookie_store_count(&store), RESPONSES[at].wanted < 10);
        cookie_store_free(&store);
    }
}

/* The two calls with more than one invalid argument: the first error counts. */
static void test_page_errors(void) {
    static const struct {
        const char *name, *url;
        size_t url_len;
        const char *page;
        size_t page_len;
        int64_t now;
        uint32_t request;
        enum cookie_store_status wanted;
    } CALLS[] = {{"flag 4", NOT_UTF8, NOT_UTF8, LAST + 1, 4, COOKIE_STORE_BAD_OPTION},
                 {"all flags", NOT_UTF8, NOT_UTF8, LAST + 1, UINT32_MAX, COOKIE_STORE_BAD_OPTION},
                 {"a page that is not UTF-8", "no url", 6, NOT_UTF8, LAST + 1, 3, COOKIE_STORE_NOT_UTF8},
                 {"a URL that is not UTF-8", NOT_UTF8, "no url", 6, LAST + 1, 3, COOKIE_STORE_NOT_UTF8},
                 {"a time out of range", "no url", 6, "no url", 6, LAST + 1, 3, COOKIE_STORE_BAD_TIME},
                 {"no page", "http://a/", 9, "no url", 6, NOW, 3, COOKIE_STORE_BAD_URL},
                 {"no URL", "no url", 6, "http://a/", 9, NOW, 3, COOKIE_STORE_BAD_URL},
                 {"an ambiguous page", "http://a/", 9, "http://a\\@b/", 12, NOW, 3, COOKIE_STORE_BAD_URL},
                 {"no room, or a control character", "http://a/", 9, "http://a/", 9, NOW, 3, COOKIE_STORE_NO_ROOM}};
    cookie_store store = COOKIE_STORE_INIT;
    char out[2];
    for (size_t at = 0; at < sizeof CALLS / sizeof *CALLS; at++) {
        for (int is_begun = 0; is_begun < 2; is_begun++) {
            size_t needed = UNSET;
            enum cookie_store_status wanted = is_begun ? CALLS[at].wanted : COOKIE_STORE_NO_STORE;
            bool lacks_room = wanted == COOKIE_STORE_NO_ROOM;
            if (is_begun) cookie_store_new(&store, "", 0);
            if (is_begun) parse(&store, "http://a/", "a=1", NOW);
            enum cookie_store_status status = cookie_store_header_for(&store, CALLS[at].url, CALLS[at].url_len, CALLS[at].page, CALLS[at].page_len,
                                                                      CALLS[at].now, CALLS[at].request, out, sizeof out, &needed);
            equal(CALLS[at].name, status, wanted);
            equal("what is needed of it", (long)needed, lacks_room ? 3 : 0);
            status = cookie_store_parse_for(&store, CALLS[at].url, CALLS[at].url_len, CALLS[at].page, CALLS[at].page_len, TEXT("b=2\x01"),
                                            CALLS[at].now, CALLS[at].request);
            equal(CALLS[at].name, status, lacks_room ? COOKIE_STORE_CONTROL_CHARACTER : wanted);
        }
        cookie_store_free(&store);
    }
    cookie_store_new(&store, "", 0);
    equal("a value that is not UTF-8", cookie_store_parse_for(&store, TEXT("no url"), TEXT("no url"), NOT_UTF8, LAST + 1, 3), COOKIE_STORE_NOT_UTF8);
    cookie_store_free(&store);
}

int main(void) {
    test_strict();
    test_strict_limit();
    test_strict_reading();
    test_cross_site();
    test_cross_site_errors();
    test_page_header();
    test_page_response();
    test_page_errors();
    return report("test_strict");
}
