/* Calls cookie_store_insert with the parts of a cookie: the statuses that it returns, strict or not, what
   is then sent, and rows that are read and inserted again. Failures are reported on standard error. The
   last line is 'test_insert: N passed, M failed'. */
#include "test.h"

/* Inserted by their parts one after the other in one store, at one time, with a public suffix list that has `example`. */
static const struct {
    const char *domain, *path, *name, *value;
    cookie_store_row row;
    enum cookie_store_status plain, strict;
} PARTS[] = {
    {"a.example", "/", "a", "1", {.host_only = true, .has_path = true}, COOKIE_STORE_INSERTED, COOKIE_STORE_INSERTED},
    {"a.example", "/", "a", "2", {.expires = NOW + 60, .persistent = true, .same_site = COOKIE_STORE_SAME_SITE_LAX},
     COOKIE_STORE_UPDATED, COOKIE_STORE_UPDATED},
    {"a.example", "/", "a", "3", {.expires = NOW, .persistent = true}, COOKIE_STORE_EXPIRED_EXISTING, COOKIE_STORE_EXPIRED_EXISTING},
    {"a.example", "/", "b", "1", {.expires = NOW, .persistent = true}, COOKIE_STORE_EXPIRED, COOKIE_STORE_EXPIRED},
    {"a.example", "/", "c", "1", {.expires = FIRST, .persistent = false}, COOKIE_STORE_INSERTED, COOKIE_STORE_INSERTED},
    {"a.example", "/d;e", "k\xc3\xbc", "", {.http_only = true, .same_site = COOKIE_STORE_SAME_SITE_STRICT},
     COOKIE_STORE_INSERTED, COOKIE_STORE_INSERTED},
    {"[::1]", "/", "i", "a=1", {.host_only = true, .secure = true, .same_site = COOKIE_STORE_SAME_SITE_NONE},
     COOKIE_STORE_INSERTED, COOKIE_STORE_INSERTED},
    {"example", "/", "p", "1", {.has_path = true}, COOKIE_STORE_INSERTED, COOKIE_STORE_INSERTED},
    {"a.example", "/", "__Host-h", "1", {.secure = true, .has_path = true}, COOKIE_STORE_INSERTED, COOKIE_STORE_PREFIX},
    {"a.example", "/", "n", "1", {.same_site = COOKIE_STORE_SAME_SITE_NONE},
     COOKIE_STORE_INSERTED, COOKIE_STORE_INSECURE_SAME_SITE_NONE},
    {"a.example", "/", "t\x01", "1", {.host_only = true}, COOKIE_STORE_INSERTED, COOKIE_STORE_CONTROL_CHARACTER},
    {"a.example", "/", "", "1", {.host_only = true}, COOKIE_STORE_PARSE, COOKIE_STORE_PARSE},
    {"a.example", "/", "a=b", "1", {.host_only = true}, COOKIE_STORE_PARSE, COOKIE_STORE_PARSE},
    {"a.example", "/", "a;b", "1", {.host_only = true}, COOKIE_STORE_PARSE, COOKIE_STORE_PARSE},
    {"a.example", "/", " a", "1", {.host_only = true}, COOKIE_STORE_PARSE, COOKIE_STORE_PARSE},
    {"a.example", "/", "a", "1;2", {.host_only = true}, COOKIE_STORE_PARSE, COOKIE_STORE_PARSE},
    {"a.example", "/", "a", "1\r\n", {.host_only = true}, COOKIE_STORE_PARSE, COOKIE_STORE_PARSE},
    {"a.example", "d", "a", "1", {.host_only = true}, COOKIE_STORE_PARSE, COOKIE_STORE_PARSE},
    {"a.example", "", "a", "1", {.host_only = true}, COOKIE_STORE_PARSE, COOKIE_STORE_PARSE},
    {"", "/", "a", "1", {.host_only = true}, COOKIE_STORE_DOMAIN_MISMATCH, COOKIE_STORE_DOMAIN_MISMATCH},
    {".a.example", "/", "a", "1", {.host_only = false}, COOKIE_STORE_DOMAIN_MISMATCH, COOKIE_STORE_DOMAIN_MISMATCH},
    {"A.example", "/", "a", "1", {.host_only = true}, COOKIE_STORE_DOMAIN_MISMATCH, COOKIE_STORE_DOMAIN_MISMATCH},
    {"a.example/d", "/", "a", "1", {.host_only = true}, COOKIE_STORE_DOMAIN_MISMATCH, COOKIE_STORE_DOMAIN_MISMATCH},
    {"a b", "/", "a", "1", {.host_only = true}, COOKIE_STORE_DOMAIN_MISMATCH, COOKIE_STORE_DOMAIN_MISMATCH},
    {"\xff", "x", "", "", {.host_only = true}, COOKIE_STORE_NOT_UTF8, COOKIE_STORE_NOT_UTF8},
    {"a.example", "/\xff", "a", "1", {.host_only = true}, COOKIE_STORE_NOT_UTF8, COOKIE_STORE_NOT_UTF8},
    {"a.example", "/", "a\xff", "1", {.host_only = true}, COOKIE_STORE_NOT_UTF8, COOKIE_STORE_NOT_UTF8},
    {"a.example", "/", "a", "\xff", {.expires = LAST + 1, .persistent = true}, COOKIE_STORE_NOT_UTF8, COOKIE_STORE_NOT_UTF8},
    {"a.example", "x", "a", "1", {.expires = LAST + 1, .persistent = true}, COOKIE_STORE_BAD_TIME, COOKIE_STORE_BAD_TIME},
    {"\xff", "/", "a", "1", {.same_site = (enum cookie_store_same_site)4}, COOKIE_STORE_BAD_OPTION, COOKIE_STORE_BAD_OPTION},
};

enum { ROWS = sizeof PARTS / sizeof *PARTS };

static enum cookie_store_status insert(cookie_store *store, size_t at, int64_t now) {
    return cookie_store_insert(store, TEXT(PARTS[at].domain), TEXT(PARTS[at].path), TEXT(PARTS[at].name), TEXT(PARTS[at].value),
                               &PARTS[at].row, now);
}

/* Each row of a store that is not strict is inserted into another one, which then has the same rows. */
static void test_rows_come_back(cookie_store *store) {
    enum { MOST = 10 };
    cookie_store other = COOKIE_STORE_INIT;
    cookie_store_row rows[MOST], others[MOST];
    char strings[256], other_strings[256];
    size_t count = 0, length = 0, other_count = 0, other_length = 0;
    cookie_store_new(&other, "", 0);
    equal("rows", cookie_store_rows(store, rows, MOST, strings, sizeof strings, &count, &length), COOKIE_STORE_OK);
    const char *next = strings;
    for (size_t at = 0; at < count; at++) {
        const cookie_store_row *row = &rows[at];
        const char *domain = next, *path = domain + row->domain_len, *name = path + row->path_len, *value = name + row->name_len;
        equal("a row in", cookie_store_insert(&other, domain, row->domain_len, path, row->path_len, name, row->name_len, value,
                                              row->value_len, row, FIRST), COOKIE_STORE_INSERTED);
        next = value + row->value_len;
    }
    equal("rows come back", cookie_store_rows(&other, others, MOST, other_strings, sizeof other_strings, &other_count, &other_length),
          COOKIE_STORE_OK);
    equal("as many rows", (long)other_count, (long)count);
    strings[length] = '\0';
    same_text("their strings", other_strings, other_length, strings);
    for (size_t at = 0; at < count && at < other_count; at++) {
        const cookie_store_row *row = &rows[at], *came = &others[at];
        equal("their expiry", came->persistent == row->persistent && came->expires == row->expires, true);
        equal("their flags", came->host_only == row->host_only && came->has_path == row->has_path && came->secure == row->secure
              && came->http_only == row->http_only && came->same_site == row->same_site, true);
    }
    cookie_store_free(&other);
}

static void test_insert(void) {
    for (int is_strict = 0; is_strict < 2; is_strict++) {
        cookie_store store = COOKIE_STORE_INIT;
        size_t line = UNSET;
        equal("insert into none", insert(&store, ROWS - 1, LAST + 1), COOKIE_STORE_NO_STORE);
        cookie_store_new(&store, "", 0);
        cookie_store_set_suffix_list(&store, TEXT("example"), true, &line);
        cookie_store_set_strict(&store, is_strict);
        for (size_t at = 0; at < ROWS; at++) {
            char name[128];
            snprintf(name, sizeof name, "%sinsert %s %s %s=%s", is_strict ? "strict " : "", PARTS[at].domain, PARTS[at].path,
                     PARTS[at].name, PARTS[at].value);
            size_t count = cookie_store_count(&store);
            enum cookie_store_status wanted = is_strict ? PARTS[at].strict : PARTS[at].plain;
            equal(name, insert(&store, at, NOW), wanted);
            equal("cookies more", (long)(cookie_store_count(&store) - count), wanted == COOKIE_STORE_INSERTED);
        }
        equal("insert at a time out of range", insert(&store, 0, LAST + 1), COOKIE_STORE_BAD_TIME);
        gives("a path", &store, "http://b.a.example/d;e", NOW, is_strict ? "k\xc3\xbc=; c=1" : "k\xc3\xbc=; c=1; n=1");
        gives("a public suffix", &store, "http://example/", NOW, "p=1");
        gives("nothing below it", &store, "http://b.example/", NOW, "");
        gives("an address", &store, "https://[::1]/", NOW, "i=a=1");
        if (!is_strict) test_rows_come_back(&store);
        cookie_store_free(&store);
    }
}

int main(void) {
    test_insert();
    return report("test_insert");
}
