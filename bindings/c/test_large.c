/* Calls each function of cookie_store.h once with large input and compares what it returns and writes: a value of 4 KB, a URL
   of 3 KB, a header of 100 KB, the longest values of a strict store, 60 cookies for a request or of a response, 6,000 cookies, lists of 400 KB
   and more, a file of 2 MB with 5,000 lines, lists nested a million deep. The calls may use STACK bytes of the stack, and NESTED
   for the last of these. Failures are reported on standard error. The last line is 'test_large: N passed, M failed'. */
#define _XOPEN_SOURCE 600 /* pthread_attr_setstack */
#include "test.h"
#include <pthread.h>
#include <stdarg.h>

enum {
    VALUE = 4096, PAIR = 4096, ATTRIBUTE = 1024, URL = 3072, HEADER = 100 << 10, REQUEST = 60, HOSTS = 100,
    STORED = HOSTS * REQUEST, RULES = 30000, LINES = 5000, LINE_VALUE = 400, EACH_MALFORMED = 10, KEY = 1 << 20, ROOM = 4 << 20,
    DEEP = 1 << 20, STACK = 40 << 10, NESTED = 144 << 10, PAINTED = 1 << 20, PAINT = 0xa5
};

static char out[ROOM], wanted[ROOM], input[ROOM];
static size_t wanted_len, input_len;
static cookie_store_row rows[STORED];
static size_t saved_len, left_out, lines[LINES], malformed; /* what a save or a load reported */

/* Compares two long strings, and prints neither. */
static void same_long(const char *name, size_t length) {
    equal(name, (long)length, (long)wanted_len);
    equal(name, length == wanted_len && memcmp(out, wanted, length) == 0, true);
}

/* Appends a formatted string to one that has this length. */
static void append(char *text, size_t *length, const char *format, ...) {
    va_list arguments;
    va_start(arguments, format);
    *length += (size_t)vsnprintf(text + *length, ROOM - *length, format, arguments);
    va_end(arguments);
}

/* Appends a byte `count` times. */
static void fill(char *text, size_t *length, char byte, size_t count) {
    memset(text + *length, byte, count);
    *length += count;
}

static void begin(cookie_store *store) {
    memset(input, 'k', KEY);
    equal("new, with a key of 1 MB", cookie_store_new(store, input, KEY), COOKIE_STORE_OK);
    wanted_len = input_len = 0;
}

/* Sets a cookie whose header value is the input. */
static void set_input(const char *name, cookie_store *store, const char *url, size_t url_len, enum cookie_store_status status) {
    equal(name, cookie_store_parse(store, url, url_len, input, input_len, NOW), status);
}

/* Host h has the cookies n0 to n59; the ones with odd numbers expire after a second. */
static void fill_store(cookie_store *store) {
    for (int host = 0; host < HOSTS; host++) {
        for (int number = 0; number < REQUEST; number++) {
            char url[64], text[64];
            snprintf(url, sizeof url, "http://h%d.example/", host);
            snprintf(text, sizeof text, "n%d=%d-%d%s", number, host, number, number % 2 ? "; Max-Age=1" : "");
            equal("parse one of 6,000", parse(store, url, text, NOW), COOKIE_STORE_INSERTED);
        }
    }
}

/* Whether the header of each host has the cookies whose numbers are multiples of a step. */
static void has_hosts(const char *name, cookie_store *store, int step, int64_t now) {
    for (int host = 0; host < HOSTS; host++) {
        char url[64];
        size_t needed = UNSET;
        snprintf(url, sizeof url, "http://h%d.example/", host);
        wanted_len = 0;
        for (int number = 0; number < REQUEST; number += step)
            append(wanted, &wanted_len, "%sn%d=%d-%d", number ? "; " : "", number, host, number);
        equal(name, cookie_store_header(store, TEXT(url), now, out, sizeof out, &needed), COOKIE_STORE_OK);
        same_long(name, needed);
    }
}

/* A value of 4 KB and a header value of 100 KB, received from a URL of 3 KB. */
static void test_long_strings(void) {
    cookie_store store = COOKIE_STORE_INIT;
    static char url[URL];
    size_t url_len = 0, needed = UNSET;
    memset(url, 'p', sizeof url);
    url_len = (size_t)snprintf(url, sizeof url, "http://a.example/");
    url[url_len] = 'p';
    memcpy(url + URL - 5, "/page", 5);
    begin(&store);
    append(input, &input_len, "a=");
    fill(input, &input_len, 'v', VALUE);
    set_input("parse 4 KB", &store, url, URL, COOKIE_STORE_INSERTED);
    input_len = 0;
    append(input, &input_len, "b=");
    fill(input, &input_len, 'w', HEADER);
    append(input, &input_len, "; HttpOnly");
    set_input("parse 100 KB", &store, url, URL, COOKIE_STORE_INSERTED);
    append(wanted, &wanted_len, "a=");
    fill(wanted, &wanted_len, 'v', VALUE);
    append(wanted, &wanted_len, "; b=");
    fill(wanted, &wanted_len, 'w', HEADER);
    equal("header of 100 KB", cookie_store_header(&store, url, URL, NOW, out, sizeof out, &needed), COOKIE_STORE_OK);
    same_long("a header of 100 KB", needed);
    cookie_store_free(&store);
    equal("free", (long)cookie_store_count(&store), 0);
}

/* In a strict store a name and a value of at most 4,096 bytes are accepted, and an attribute of more than 1,024 is ignored. */
static void test_strict(void) {
    static const struct {
        const char *name, *pair;
        size_t length;
        enum cookie_store_status status;
    } VALUES[] = {{"100 KB", "a=", HEADER, COOKIE_STORE_TOO_LONG},
                  {"4,097 bytes", "a=", PAIR, COOKIE_STORE_TOO_LONG},
                  {"4,096 bytes", "a=", PAIR - 1, COOKIE_STORE_INSERTED},
                  {"a path of 1,024 bytes", "b=2; Path=/", ATTRIBUTE - 1, COOKIE_STORE_INSERTED},
                  {"a path of 1,025 bytes", "c=3; Path=/", ATTRIBUTE, COOKIE_STORE_INSERTED},
                  {"another host of 1,025 bytes", "d=4; Domain=b", ATTRIBUTE, COOKIE_STORE_INSERTED}};
    cookie_store store = COOKIE_STORE_INIT;
    size_t needed = UNSET;
    begin(&store);
    equal("set_strict", cookie_store_set_strict(&store, true), COOKIE_STORE_OK);
    equal("is_strict", cookie_store_is_strict(&store), true);
    for (size_t at = 0; at < sizeof VALUES / sizeof *VALUES; at++) {
        input_len = 0;
        append(input, &input_len, "%s", VALUES[at].pair);
        fill(input, &input_len, 'v', VALUES[at].length);
        set_input(VALUES[at].name, &store, TEXT(PAGE), VALUES[at].status);
    }
    append(wanted, &wanted_len, "a=");
    fill(wanted, &wanted_len, 'v', PAIR - 1);
    append(wanted, &wanted_len, "; c=3; d=4");
    equal("header, strict", cookie_store_header(&store, TEXT(PAGE), NOW, out, sizeof out, &needed), COOKIE_STORE_OK);
    same_long("without b", needed);
    cookie_store_free(&store);
}

/* 60 cookies for a request, every third of which a cross-site request must not have. */
static void test_request(void) {
    cookie_store store = COOKIE_STORE_INIT;
    size_t needed = UNSET;
    begin(&store);
    for (int number = 0; number < REQUEST; number++) {
        input_len = 0;
        append(input, &input_len, "n%d=", number);
        fill(input, &input_len, 'v', VALUE / 2);
        append(input, &input_len, number % 3 ? "; SameSite=None; Secure" : "; SameSite=Strict");
        set_input("parse one of 60", &store, TEXT("https://a.example/"), COOKIE_STORE_INSERTED);
        if (number % 3 == 0) continue;
        append(wanted, &wanted_len, "%sn%d=", wanted_len ? "; " : "", number);
        fill(wanted, &wanted_len, 'v', VALUE / 2);
    }
    equal("header_cross_site",
          cookie_store_header_cross_site(&store, TEXT("https://a.example/"), NOW, COOKIE_STORE_TOP_LEVEL, out, sizeof out, &needed),
          COOKIE_STORE_OK);
    same_long("40 of 60 cookies", needed);
    needed = UNSET;
    equal("header_for",
          cookie_store_header_for(&store, TEXT("https://a.example/"), TEXT("https://b.example/"), NOW, COOKIE_STORE_TOP_LEVEL, out,
                                  sizeof out, &needed),
          COOKIE_STORE_OK);
    same_long("the same 40", needed);
    equal("parse_for",
          cookie_store_parse_for(&store, TEXT("https://a.example/"), TEXT("https://b.example/"), input, input_len, NOW,
                                 COOKIE_STORE_CROSS_SITE),
          COOKIE_STORE_UPDATED);
    cookie_store_free(&store);
}

/* The 60 cookies of a response, of 2 KB each. */
static void test_response(void) {
    static enum cookie_store_status statuses[REQUEST];
    static size_t lens[REQUEST];
    cookie_store store = COOKIE_STORE_INIT;
    size_t needed = UNSET;
    begin(&store);
    for (int number = 0; number < REQUEST; number++) {
        size_t before = input_len;
        append(input, &input_len, "n%d=", number);
        fill(input, &input_len, 'v', VALUE / 2);
        lens[number] = input_len - before;
        append(wanted, &wanted_len, "%s%.*s", wanted_len ? "; " : "", (int)lens[number], input + before);
    }
    equal("parse_each", cookie_store_parse_each(&store, TEXT(PAGE), input, input_len, lens, REQUEST, NOW, statuses, REQUEST),
          COOKIE_STORE_OK);
    for (int number = 0; number < REQUEST; number++) equal("a status of 60", statuses[number], COOKIE_STORE_INSERTED);
    equal("header of a response", cookie_store_header(&store, TEXT(PAGE), NOW, out, sizeof out, &needed), COOKIE_STORE_OK);
    same_long("60 cookies", needed);
    cookie_store_free(&store);
}

/* The rows of 6,000 cookies and their strings. */
static void test_rows(cookie_store *store) {
    size_t rows_needed = UNSET, strings_needed = UNSET, at = 0;
    equal("rows", cookie_store_rows(store, rows, STORED, out, sizeof out, &rows_needed, &strings_needed), COOKIE_STORE_OK);
    equal("6,000 rows", (long)rows_needed, STORED);
    for (int row = 0; row < STORED; row++) {
        int host = row / REQUEST, number = row % REQUEST;
        wanted_len = 0;
        append(wanted, &wanted_len, "h%d.example/n%d%d-%d", host, number, host, number);
        same_text("the strings of a row", out + at, wanted_len, wanted);
        at += wanted_len;
        equal("their lengths", (long)(rows[row].domain_len + rows[row].path_len + rows[row].name_len + rows[row].value_len), (long)wanted_len);
        equal("the expiry", rows[row].expires, number % 2 ? NOW + 1 : 0);
        equal("host-only", rows[row].host_only, true);
    }
    equal("the length of all strings", (long)strings_needed, (long)at);
}

/* A copy of 6,000 cookies, and the rows of 60 of them, which are those of a request. */
static void test_copy(cookie_store *store) {
    cookie_store copy = COOKIE_STORE_INIT;
    size_t rows_needed = UNSET, strings_needed = UNSET;
    equal("clone", cookie_store_clone(store, &copy), COOKIE_STORE_OK);
    equal("6,000 are copied", (long)cookie_store_count(&copy), STORED);
    has_hosts("a copy", &copy, 1, NOW);
    wanted_len = 0;
    for (int number = 0; number < REQUEST; number++) append(wanted, &wanted_len, "h7.example/n%d7-%d", number, number);
    equal("cookies_for",
          cookie_store_cookies_for(&copy, TEXT("http://h7.example/"), NOW, rows, REQUEST, out, sizeof out, &rows_needed, &strings_needed),
          COOKIE_STORE_OK);
    equal("60 rows", (long)rows_needed, REQUEST);
    same_long("the strings of 60 rows", strings_needed);
    for (int number = 0; number < REQUEST; number++) equal("the expiry", rows[number].expires, number % 2 ? NOW + 1 : 0);
    cookie_store_free(&copy);
}

/* A merge of 6,000 cookies. */
static void test_merge(cookie_store *store) {
    cookie_store merged = COOKIE_STORE_INIT;
    size_t left_out = UNSET;
    begin(&merged);
    equal("merge", cookie_store_merge(&merged, store, NOW, &left_out), COOKIE_STORE_OK);
    equal("none is left out", (long)left_out, 0);
    equal("6,000 are merged", (long)cookie_store_count(&merged), STORED);
    has_hosts("a merge", &merged, 1, NOW);
    cookie_store_free(&merged);
}

/* 6,000 rows, each inserted by its parts. */
static void test_insert(cookie_store *store) {
    cookie_store inserted = COOKIE_STORE_INIT;
    size_t rows_needed = UNSET, strings_needed = UNSET;
    const char *domain = out;
    begin(&inserted);
    equal("rows", cookie_store_rows(store, rows, STORED, out, sizeof out, &rows_needed, &strings_needed), COOKIE_STORE_OK);
    for (size_t at = 0; at < STORED; at++) {
        const cookie_store_row *row = &rows[at];
        const char *path = domain + row->domain_len, *name = path + row->path_len, *value = name + row->name_len;
        equal("insert", cookie_store_insert(&inserted, domain, row->domain_len, path, row->path_len, name, row->name_len, value,
                                            row->value_len, row, NOW), COOKIE_STORE_INSERTED);
        domain = value + row->value_len;
    }
    has_hosts("inserted by their parts", &inserted, 1, NOW);
    cookie_store_free(&inserted);
}

/* The root of a host of many labels. */
static void test_root(void) {
    cookie_store store = COOKIE_STORE_INIT;
    size_t needed = UNSET, bad_line;
    uint32_t shard = UNSET;
    begin(&store);
    equal("a list", cookie_store_set_suffix_list(&store, TEXT("example\n"), false, &bad_line), COOKIE_STORE_OK);
    input_len = 0;
    append(input, &input_len, "http://");
    for (int label = 0; label < VALUE; label++) append(input, &input_len, "l.");
    append(input, &input_len, "a.example");
    wanted_len = 0;
    append(wanted, &wanted_len, "a.example");
    equal("root", cookie_store_root(&store, input, input_len, out, sizeof out, &needed), COOKIE_STORE_OK);
    same_long("of a URL", needed);
    needed = UNSET;
    equal("root_of_domain", cookie_store_root_of_domain(&store, input + 7, input_len - 7, out, sizeof out, &needed), COOKIE_STORE_OK);
    same_long("of a domain", needed);
    equal("shard", cookie_store_shard(input, input_len, 7, &shard), COOKIE_STORE_OK);
    equal("one of seven", shard < 7, true);
    cookie_store_free(&store);
}

/* 6,000 cookies: each is found, before and after others are removed. */
static void test_stored(void) {
    cookie_store store = COOKIE_STORE_INIT;
    size_t removed = UNSET;
    begin(&store);
    fill_store(&store);
    equal("count", (long)cookie_store_count(&store), STORED);
    has_hosts("6,000 cookies", &store, 1, NOW);
    test_rows(&store);
    test_copy(&store);
    test_merge(&store);
    test_insert(&store);
    memset(input, 'q', KEY);
    equal("set_hash_key", cookie_store_set_hash_key(&store, input, KEY), COOKIE_STORE_OK);
    has_hosts("under another key", &store, 1, NOW);
    equal("remove_expired", cookie_store_remove_expired(&store, NOW + 1, &removed), COOKIE_STORE_OK);
    equal("3,000 are removed", (long)removed, STORED / 2);
    has_hosts("3,000 cookies", &store, 2, NOW);
    removed = UNSET;
    memset(input, 'q', KEY);
    equal("remove_domain", cookie_store_remove_domain(&store, input, KEY, &removed), COOKIE_STORE_OK);
    equal("none is removed", (long)removed, 0);
    for (int host = 0; host < HOSTS; host++) {
        char domain[64];
        snprintf(domain, sizeof domain, "h%d.example", host);
        equal("remove", cookie_store_remove(&store, TEXT(domain), TEXT("/"), TEXT("n58")), COOKIE_STORE_OK);
        equal("remove again", cookie_store_remove(&store, TEXT(domain), TEXT("/"), TEXT("n58")), COOKIE_STORE_NOT_FOUND);
    }
    equal("100 are removed", (long)cookie_store_count(&store), STORED / 2 - HOSTS);
    equal("clear", cookie_store_clear(&store), COOKIE_STORE_OK);
    equal("none is left", (long)cookie_store_count(&store), 0);
    cookie_store_free(&store);
}

/* Of 6,000 cookies of a domain 60 are kept, the last ones. */
static void test_limit(void) {
    cookie_store store = COOKIE_STORE_INIT;
    size_t needed = UNSET;
    begin(&store);
    equal("set_domain_limit", cookie_store_set_domain_limit(&store, REQUEST), COOKIE_STORE_OK);
    equal("domain_limit", (long)cookie_store_domain_limit(&store), REQUEST);
    for (int number = 0; number < STORED; number++) {
        char text[32];
        snprintf(text, sizeof text, "n%d=1", number);
        equal("parse over the limit", parse(&store, PAGE, text, NOW), COOKIE_STORE_INSERTED);
        if (number >= STORED - REQUEST) append(wanted, &wanted_len, "%s%s", wanted_len ? "; " : "", text);
    }
    equal("header of the last", cookie_store_header(&store, TEXT(PAGE), NOW, out, sizeof out, &needed), COOKIE_STORE_OK);
    same_long("the last 60", needed);
    cookie_store_free(&store);
}

/* A public suffix list of 30,000 rules, about 430 KB, and the same list with a malformed line at its end. */
static void test_suffixes(void) {
    cookie_store store = COOKIE_STORE_INIT;
    size_t line = UNSET;
    begin(&store);
    for (int number = 0; number < RULES; number++) append(input, &input_len, "s%d.example\n", number);
    equal("set_suffix_list", cookie_store_set_suffix_list(&store, input, input_len, true, &line), COOKIE_STORE_OK);
    equal("no malformed line", (long)line, 0);
    for (int number = 0; number <= RULES; number += RULES / HOSTS) {
        char url[64], text[64];
        snprintf(url, sizeof url, "http://a.s%d.example/", number);
        snprintf(text, sizeof text, "a=1; Domain=s%d.example", number);
        equal("a rule", parse(&store, url, text, NOW), number < RULES ? COOKIE_STORE_PUBLIC_SUFFIX : COOKIE_STORE_INSERTED);
    }
    append(input, &input_len, "a/b\n");
    equal("a malformed rule", cookie_store_set_suffix_list(&store, input, input_len, true, &line), COOKIE_STORE_BAD_RULE);
    equal("its line", (long)line, RULES + 1);
    cookie_store_free(&store);
}

/* The entry of a cookie in each format, as it is saved. One with an odd number expires after a second. */
static void add_json(int host, int number) {
    append(input, &input_len,
           "  {\n    \"domain\": {\n      \"HostOnly\": \"h%d.example\"\n    },\n    \"expires\": %s,\n    \"path\": [\n"
           "      \"/\",\n      false\n    ],\n    \"raw_cookie\": \"n%d=%d-%d\"\n  }",
           host, number % 2 ? "{\n      \"AtUtc\": \"2026-01-01T00:00:01Z\"\n    }" : "\"SessionEnd\"", number, host, number);
}

static void add_ron(int host, int number) {
    append(input, &input_len,
           "    (\n        raw_cookie: \"n%d=%d-%d\",\n        path: (\"/\", false),\n        domain: HostOnly(\"h%d.example\"),\n"
           "        expires: %s,\n    )",
           number, host, number, host, number % 2 ? "AtUtc(\"2026-01-01T00:00:01Z\")" : "SessionEnd");
}

/* The two formats of a list. */
static const struct {
    const char *name;
    enum cookie_store_format format;
    void (*add)(int host, int number);
    const char *end;
} LISTS[] = {
    {"JSON", COOKIE_STORE_JSON, add_json, "\n]\n"},
    {"RON", COOKIE_STORE_RON, add_ron, ",\n]\n"},
};

static enum cookie_store_status load_input(cookie_store *store, enum cookie_store_format format, enum cookie_store_which which) {
    malformed = UNSET;
    return cookie_store_load(store, "", 0, format, which, input, input_len, NOW + 1, lines, LINES, &malformed);
}

static enum cookie_store_status save_all(cookie_store *store, enum cookie_store_format format) {
    saved_len = left_out = UNSET;
    return cookie_store_save(store, format, COOKIE_STORE_ALL, NOW + 1, out, sizeof out, &saved_len, &left_out);
}

/* A list of 6,000 cookies is loaded, found and saved as it was; then those of it that have not expired are. */
static void test_lists(void) {
    for (size_t at = 0; at < sizeof LISTS / sizeof *LISTS; at++) {
        cookie_store store = COOKIE_STORE_INIT;
        input_len = 0;
        for (int row = 0; row < STORED; row++) {
            append(input, &input_len, row ? ",\n" : "[\n");
            LISTS[at].add(row / REQUEST, row % REQUEST);
        }
        append(input, &input_len, "%s", LISTS[at].end);
        equal("a list of 800 KB", input_len >= 800 << 10, true);
        equal(LISTS[at].name, load_input(&store, LISTS[at].format, COOKIE_STORE_ALL), COOKIE_STORE_OK);
        has_hosts("a loaded list", &store, 1, NOW);
        equal(LISTS[at].name, save_all(&store, LISTS[at].format), COOKIE_STORE_OK);
        memcpy(wanted, input, wanted_len = input_len);
        same_long("a saved list", saved_len);
        cookie_store_free(&store);
        equal(LISTS[at].name, load_input(&store, LISTS[at].format, COOKIE_STORE_UNEXPIRED), COOKIE_STORE_OK);
        equal("3,000 cookies", (long)cookie_store_count(&store), STORED / 2);
        has_hosts("those that have not expired", &store, 2, NOW);
        cookie_store_free(&store);
    }
}

/* Appends the line of a session cookie to the file that is wanted, and to the input with an LF or a CRLF. */
static void add_line(int number) {
    size_t from = wanted_len;
    append(wanted, &wanted_len, "h%d.example\tFALSE\t/\tFALSE\t0\tn%d\t", number / (LINES / HOSTS), number);
    fill(wanted, &wanted_len, 'v', LINE_VALUE);
    memcpy(input + input_len, wanted + from, wanted_len - from);
    input_len += wanted_len - from;
    append(input, &input_len, number % 2 ? "\r\n" : "\n");
    append(wanted, &wanted_len, "\n");
}

/* A cookies.txt file of 2 MB with 5,000 lines is loaded and saved. */
static void test_netscape(void) {
    cookie_store store = COOKIE_STORE_INIT;
    wanted_len = input_len = 0;
    append(wanted, &wanted_len, "# Netscape HTTP Cookie File\n");
    for (int number = 0; number < LINES; number++) add_line(number);
    equal("a file of 2 MB", input_len >= 2 << 20, true);
    equal("load a file", load_input(&store, COOKIE_STORE_NETSCAPE, COOKIE_STORE_ALL), COOKIE_STORE_OK);
    equal("no malformed line", (long)malformed, 0);
    equal("5,000 cookies", (long)cookie_store_count(&store), LINES);
    equal("save a file", save_all(&store, COOKIE_STORE_NETSCAPE), COOKIE_STORE_OK);
    same_long("a saved file", saved_len);
    cookie_store_free(&store);
}

/* The same with 500 malformed lines, and then with 500 cookies that the format cannot represent. */
static void test_malformed(void) {
    cookie_store store = COOKIE_STORE_INIT;
    size_t count = LINES / EACH_MALFORMED;
    wanted_len = input_len = 0;
    append(wanted, &wanted_len, "# Netscape HTTP Cookie File\n");
    for (int number = 0; number < LINES; number++) {
        if (number % EACH_MALFORMED == 0)
            append(input, &input_len, "h.example\tFALSE\t/\tFALSE\t0\tn%d=\tv\n", number);
        else
            add_line(number);
    }
    equal("load the well-formed lines", load_input(&store, COOKIE_STORE_NETSCAPE_LENIENT, COOKIE_STORE_UNEXPIRED), COOKIE_STORE_OK);
    equal("500 malformed lines", (long)malformed, (long)count);
    for (size_t at = 0; at < LINES; at++) equal("their numbers", (long)lines[at], at < count ? (long)(at * EACH_MALFORMED + 1) : 0);
    for (int number = 0; number < LINES; number += EACH_MALFORMED) {
        char text[32];
        snprintf(text, sizeof text, "t%d=x\ty", number);
        equal("parse a TAB", parse(&store, PAGE, text, NOW), COOKIE_STORE_INSERTED);
    }
    equal("save what is representable", save_all(&store, COOKIE_STORE_NETSCAPE_LENIENT), COOKIE_STORE_OK);
    equal("500 are left out", (long)left_out, (long)count);
    same_long("the other 4,500", saved_len);
    cookie_store_free(&store);
}

/* What opens a list or a value again and again is not a list of cookies. */
static void *test_nested(void *unused) {
    static const struct {
        const char *name, *before, *each;
        enum cookie_store_format format;
        enum cookie_store_status status;
    } cases[] = {
        {"nested lists in JSON", "", "[", COOKIE_STORE_JSON, COOKIE_STORE_BAD_JSON},
        {"nested objects in JSON", "[", "{\"a\":", COOKIE_STORE_JSON, COOKIE_STORE_BAD_JSON},
        {"nested lists in RON", "", "[", COOKIE_STORE_RON, COOKIE_STORE_BAD_RON},
        {"nested structs in RON", "[", "(a:", COOKIE_STORE_RON, COOKIE_STORE_BAD_RON},
    };
    for (size_t at = 0; at < sizeof cases / sizeof *cases; at++) {
        cookie_store store = COOKIE_STORE_INIT;
        input_len = 0;
        append(input, &input_len, "%s", cases[at].before);
        while (input_len < DEEP) append(input, &input_len, "%s", cases[at].each);
        equal(cases[at].name, load_input(&store, cases[at].format, COOKIE_STORE_ALL), cases[at].status);
        cookie_store_free(&store);
    }
    return unused;
}

static void *run_tests(void *unused) {
    test_long_strings();
    test_strict();
    test_request();
    test_response();
    test_stored();
    test_limit();
    test_suffixes();
    test_root();
    test_lists();
    test_netscape();
    test_malformed();
    return unused;
}

/* The tests use at most `most` bytes of a stack: what is above the paint that is left. */
static void uses_stack(const char *name, void *(*tests)(void *), size_t most) {
    static _Alignas(4096) unsigned char stack[PAINTED];
    size_t painted = 0;
    pthread_attr_t attributes;
    pthread_t thread;
    memset(stack, PAINT, sizeof stack);
    equal("a stack", pthread_attr_init(&attributes) || pthread_attr_setstack(&attributes, stack, sizeof stack), 0);
    equal("a thread", pthread_create(&thread, &attributes, tests, NULL) || pthread_join(thread, NULL), 0);
    while (painted < sizeof stack && stack[painted] == PAINT) painted++;
    printf("%s: %zu bytes of stack\n", name, sizeof stack - painted);
    equal(name, sizeof stack - painted <= most, true);
}

int main(void) {
    uses_stack("calls with large input", run_tests, STACK);
    uses_stack("nested lists", test_nested, NESTED);
    return report("test_large");
}
