/* Calls cookie_store_parse_each with the header values of responses: the statuses that it writes, which
   are those of cookie_store_parse, what is then sent, and its errors. Failures are reported on standard
   error. The last line is 'test_response: N passed, M failed'. */
#include "test.h"

/* A response from PAGE has these header values, in this order. */
static const struct {
    const char *value;
    enum cookie_store_status plain, strict;
} VALUES[] = {
    {"a=1", COOKIE_STORE_INSERTED, COOKIE_STORE_INSERTED},
    {"a=2", COOKIE_STORE_UPDATED, COOKIE_STORE_UPDATED},
    {"", COOKIE_STORE_PARSE, COOKIE_STORE_PARSE},
    {"no pair", COOKIE_STORE_PARSE, COOKIE_STORE_PARSE},
    {"u=\xff", COOKIE_STORE_NOT_UTF8, COOKIE_STORE_NOT_UTF8},
    {"b=1; Domain=b.example", COOKIE_STORE_DOMAIN_MISMATCH, COOKIE_STORE_DOMAIN_MISMATCH},
    {"c=1\x01", COOKIE_STORE_INSERTED, COOKIE_STORE_CONTROL_CHARACTER},
    {"d=1; Path=/", COOKIE_STORE_INSERTED, COOKIE_STORE_INSERTED},
    {"a=3; Max-Age=0", COOKIE_STORE_EXPIRED_EXISTING, COOKIE_STORE_EXPIRED_EXISTING},
    {"e=1; Max-Age=0", COOKIE_STORE_EXPIRED, COOKIE_STORE_EXPIRED},
    {"s=1; Secure", COOKIE_STORE_INSERTED, COOKIE_STORE_INSECURE_URL},
    {"d=2; Path=/", COOKIE_STORE_UPDATED, COOKIE_STORE_UPDATED},
};

enum { COUNT = sizeof VALUES / sizeof *VALUES, ROOM = 256 };

static void begin(cookie_store *store, bool is_strict) {
    equal("new", cookie_store_new(store, "", 0), COOKIE_STORE_OK);
    equal("set_strict", cookie_store_set_strict(store, is_strict), COOKIE_STORE_OK);
}

/* Parses all values in one call. */
static enum cookie_store_status parse_each(cookie_store *store, enum cookie_store_status *statuses) {
    char values[ROOM];
    size_t length = 0, lens[COUNT];
    for (size_t at = 0; at < COUNT; at++) {
        lens[at] = strlen(VALUES[at].value);
        memcpy(values + length, VALUES[at].value, lens[at]);
        length += lens[at];
    }
    return cookie_store_parse_each(store, TEXT(PAGE), values, length, lens, COUNT, NOW, statuses, COUNT);
}

/* Two stores have the same cookies, in the same order. */
static void same_cookies(cookie_store *store, cookie_store *other) {
    char saved[4096], others[4096];
    size_t length = UNSET, other_length = UNSET, left_out;
    equal("save", cookie_store_save(store, COOKIE_STORE_JSON, COOKIE_STORE_ALL, NOW, saved, sizeof saved - 1, &length, &left_out),
          COOKIE_STORE_OK);
    equal("save the other", cookie_store_save(other, COOKIE_STORE_JSON, COOKIE_STORE_ALL, NOW, others, sizeof others, &other_length, &left_out),
          COOKIE_STORE_OK);
    saved[length] = '\0';
    same_text("the cookies", others, other_length, saved);
}

/* One call for all values does what a call for each does. */
static void test_values(void) {
    for (int is_strict = 0; is_strict < 2; is_strict++) {
        cookie_store store = COOKIE_STORE_INIT, single = COOKIE_STORE_INIT;
        enum cookie_store_status statuses[COUNT];
        begin(&store, is_strict);
        begin(&single, is_strict);
        equal("parse_each", parse_each(&store, statuses), COOKIE_STORE_OK);
        for (size_t at = 0; at < COUNT; at++) {
            enum cookie_store_status wanted = is_strict ? VALUES[at].strict : VALUES[at].plain;
            equal(VALUES[at].value, statuses[at], wanted);
            equal(VALUES[at].value, parse(&single, PAGE, VALUES[at].value, NOW), wanted);
        }
        gives("what is sent", &store, PAGE, NOW, is_strict ? "d=2" : "c=1\x01; d=2");
        same_cookies(&store, &single);
        cookie_store_free(&store);
        cookie_store_free(&single);
    }
}

/* No values, and one of which the string has more. */
static void test_few_values(void) {
    cookie_store store = COOKIE_STORE_INIT;
    size_t length = 3;
    enum cookie_store_status status = COOKIE_STORE_OK;
    begin(&store, false);
    equal("no values", cookie_store_parse_each(&store, TEXT(PAGE), "", 0, &length, 0, NOW, &status, 0), COOKIE_STORE_OK);
    equal("no cookies", (long)cookie_store_count(&store), 0);
    equal("no values of no URL", cookie_store_parse_each(&store, TEXT("no url"), "", 0, &length, 0, NOW, &status, 0), COOKIE_STORE_BAD_URL);
    equal("one value", cookie_store_parse_each(&store, TEXT(PAGE), "a=1_", 3, &length, 1, NOW, &status, 1), COOKIE_STORE_OK);
    equal("its status", status, COOKIE_STORE_INSERTED);
    gives("its cookie", &store, PAGE, NOW, "a=1");
    cookie_store_free(&store);
}

/* Calls with two values, a=1 and b=2; the length of the second, and how many statuses there are. */
static const struct {
    const char *name, *url;
    int64_t now;
    size_t values_len, second_len, statuses_len;
    enum cookie_store_status wanted;
} CALLS[] = {
    {"one byte too many", "\xff", LAST + 1, 7, 3, 2, COOKIE_STORE_BAD_OPTION},
    {"one byte too few", "\xff", LAST + 1, 5, 3, 2, COOKIE_STORE_BAD_OPTION},
    {"no bytes", "\xff", LAST + 1, 0, 3, 2, COOKIE_STORE_BAD_OPTION},
    {"lengths of more than 64 bits", "\xff", LAST + 1, 2, SIZE_MAX, 2, COOKIE_STORE_BAD_OPTION},
    {"one status too few", "\xff", LAST + 1, 6, 3, 1, COOKIE_STORE_BAD_OPTION},
    {"one status too many", "\xff", LAST + 1, 6, 3, 3, COOKIE_STORE_BAD_OPTION},
    {"a URL that is not UTF-8", "\xff", LAST + 1, 6, 3, 2, COOKIE_STORE_NOT_UTF8},
    {"a time out of range", "no url", LAST + 1, 6, 3, 2, COOKIE_STORE_BAD_TIME},
    {"no URL", "no url", NOW, 6, 3, 2, COOKIE_STORE_BAD_URL},
    {"a URL that is read differently", "http://a.example\\@b.example/", NOW, 6, 3, 2, COOKIE_STORE_BAD_URL},
    {"two values", "http://a.example/d/page", NOW, 6, 3, 2, COOKIE_STORE_OK},
};

/* An error of the call changes neither the store nor the statuses. */
static void test_errors(void) {
    for (size_t at = 0; at < sizeof CALLS / sizeof *CALLS; at++) {
        for (int is_begun = 0; is_begun < 2; is_begun++) {
            cookie_store store = COOKIE_STORE_INIT;
            const size_t lens[] = {3, CALLS[at].second_len};
            enum cookie_store_status statuses[3], wanted = is_begun ? CALLS[at].wanted : COOKIE_STORE_NO_STORE;
            for (int status = 0; status < 3; status++) statuses[status] = COOKIE_STORE_HAS_STORE;
            if (is_begun) begin(&store, false);
            equal(CALLS[at].name,
                  cookie_store_parse_each(&store, TEXT(CALLS[at].url), "a=1b=2_", CALLS[at].values_len, lens, 2, CALLS[at].now,
                                          statuses, CALLS[at].statuses_len),
                  wanted);
            for (int status = 0; status < 3; status++) {
                bool is_written = wanted == COOKIE_STORE_OK && status < 2;
                equal("a status", statuses[status], is_written ? COOKIE_STORE_INSERTED : COOKIE_STORE_HAS_STORE);
            }
            equal("cookies", (long)cookie_store_count(&store), wanted == COOKIE_STORE_OK ? 2 : 0);
            cookie_store_free(&store);
        }
    }
}

int main(void) {
    test_values();
    test_few_values();
    test_errors();
    return report("test_response");
}
