/* What the tests of the C library share: counted assertions, and calls with strings of C. */
#ifndef COOKIE_STORE_TEST_H
#define COOKIE_STORE_TEST_H

#include <cookie_store.h>
#include <stdio.h>
#include <string.h>

static int passed, failed;

static inline void equal(const char *name, long got, long wanted) {
    if (got == wanted) {
        passed++;
        return;
    }
    failed++;
    fprintf(stderr, "%s: FAILED: wanted %ld, got %ld\n", name, wanted, got);
}

static inline void same_text(const char *name, const char *got, size_t length, const char *wanted) {
    if (length == strlen(wanted) && memcmp(got, wanted, length) == 0) {
        passed++;
        return;
    }
    failed++;
    fprintf(stderr, "%s: FAILED: wanted %s, got %.*s\n", name, wanted, (int)length, got);
}

/* A string as a pointer and a length. */
#define TEXT(text) (text), strlen(text)
#define NOT_UTF8 "a=\xff", 3
#define NOW INT64_C(1767225600) /* 2026-01-01T00:00:00 */
#define FIRST INT64_C(-377705116800)
#define LAST INT64_C(253402300799)
#define UNSET 77

static const char *const PAGE = "http://a.example/d/page";

static inline enum cookie_store_status parse(cookie_store *store, const char *url, const char *text, int64_t now) {
    return cookie_store_parse(store, TEXT(url), TEXT(text), now);
}

static inline void gives(const char *name, cookie_store *store, const char *url, int64_t now, const char *wanted) {
    char out[256];
    size_t needed = UNSET;
    memset(out, '-', sizeof out);
    equal(name, cookie_store_header(store, TEXT(url), now, out, sizeof out, &needed), COOKIE_STORE_OK);
    same_text(name, out, needed, wanted);
    equal("no zero is written", out[needed], '-');
}

/* Prints the counts, and returns the exit status. */
static inline int report(const char *name) {
    printf("%s: %d passed, %d failed\n", name, passed, failed);
    return failed > 0;
}

#endif
