/* Saves and loads stores in each format: which cookies, what is written and loaded, buffers that are one byte too short,
   malformed lists and lines, and the order of errors. Failures are reported on standard error. The last line is 'test_lists: N
   passed, M failed'. */
#include "test.h"

enum { ROOM = 1024, MOST_LINES = 4 };

/* A string of the tables below as a pointer and a length. */
#define LIST(text) (text), sizeof(text) - 1

/* What the last call wrote. */
static char out[ROOM];
static size_t needed, left_out, lines[MOST_LINES], malformed;

static enum cookie_store_status save(cookie_store *store, uint32_t format, uint32_t which, int64_t now, size_t room) {
    needed = left_out = UNSET;
    memset(out, '-', sizeof out);
    return cookie_store_save(store, (enum cookie_store_format)format, (enum cookie_store_which)which, now, out, room, &needed, &left_out);
}

static enum cookie_store_status load(cookie_store *store, uint32_t format, uint32_t which, const char *list, size_t length, int64_t now,
                                     size_t room) {
    malformed = UNSET;
    for (size_t at = 0; at < MOST_LINES; at++) lines[at] = UNSET;
    return cookie_store_load(store, TEXT("0123456789abcdef"), (enum cookie_store_format)format, (enum cookie_store_which)which, list,
                             length, now, lines, room, &malformed);
}

#define NO_COOKIES "# Netscape HTTP Cookie File\n"
#define SESSION NO_COOKIES "a.example\tFALSE\t/d\tFALSE\t0\tb\t2\n"

/* The formats, and the session cookie b=2 of PAGE in each. */
static const struct form {
    const char *name;
    enum cookie_store_format format;
    const char *saved;
} FORMS[] = {
    {"JSON", COOKIE_STORE_JSON,
     "[\n  {\n    \"domain\": {\n      \"HostOnly\": \"a.example\"\n    },\n    \"expires\": \"SessionEnd\",\n    \"path\": [\n"
     "      \"/d\",\n      false\n    ],\n    \"raw_cookie\": \"b=2\"\n  }\n]\n"},
    {"RON", COOKIE_STORE_RON,
     "[\n    (\n        raw_cookie: \"b=2\",\n        path: (\"/d\", false),\n        domain: HostOnly(\"a.example\"),\n"
     "        expires: SessionEnd,\n    ),\n]\n"},
    {"cookies.txt", COOKIE_STORE_NETSCAPE, SESSION},
    {"lenient cookies.txt", COOKIE_STORE_NETSCAPE_LENIENT, SESSION},
};

/* A buffer that is longer than what is saved, one that has its length, one that is a byte shorter, and none. */
static void test_room(const struct form *form) {
    size_t whole = strlen(form->saved), rooms[] = {ROOM, whole, whole - 1, 0};
    cookie_store store = COOKIE_STORE_INIT;
    cookie_store_new(&store, "", 0);
    parse(&store, PAGE, "b=2", NOW);
    for (size_t at = 0; at < sizeof rooms / sizeof *rooms; at++) {
        bool fits = rooms[at] >= whole;
        equal(form->name, save(&store, form->format, COOKIE_STORE_ALL, NOW, rooms[at]), fits ? COOKIE_STORE_OK : COOKIE_STORE_NO_ROOM);
        equal("what is needed", (long)needed, (long)whole);
        equal("none is left out", (long)left_out, 0);
        if (fits) same_text(form->name, out, whole, form->saved);
        equal("nothing is written after it", out[fits ? whole : 0], '-');
    }
    cookie_store_free(&store);
}

/* Which of three cookies are saved, or loaded, at a time: a expires after 60 seconds, c after 120, and b with the session. */
static const struct {
    const char *name;
    enum cookie_store_which which;
    int64_t now;
    const char *wanted;
} SELECTIONS[] = {
    {"all", COOKIE_STORE_ALL, NOW, "a=1; b=2; c=3"},
    {"all, expired ones included", COOKIE_STORE_ALL, NOW + 120, "a=1; b=2; c=3"},
    {"unexpired", COOKIE_STORE_UNEXPIRED, NOW + 59, "a=1; b=2; c=3"},
    {"unexpired, a has expired", COOKIE_STORE_UNEXPIRED, NOW + 60, "b=2; c=3"},
    {"unexpired, a and c have expired", COOKIE_STORE_UNEXPIRED, NOW + 120, "b=2"},
    {"persistent", COOKIE_STORE_PERSISTENT, NOW + 59, "a=1; c=3"},
    {"persistent, a has expired", COOKIE_STORE_PERSISTENT, NOW + 60, "c=3"},
    {"persistent, a and c have expired", COOKIE_STORE_PERSISTENT, NOW + 120, ""},
};

/* Loads what was saved, and compares the cookies. */
static void loads(const struct form *form, size_t at, enum cookie_store_which which, int64_t now) {
    cookie_store store = COOKIE_STORE_INIT;
    equal(form->name, load(&store, form->format, which, out, needed, now, MOST_LINES), COOKIE_STORE_OK);
    equal("no malformed line", (long)malformed, 0);
    gives(SELECTIONS[at].name, &store, PAGE, NOW, SELECTIONS[at].wanted);
    cookie_store_free(&store);
}

static void test_which(const struct form *form) {
    cookie_store store = COOKIE_STORE_INIT;
    cookie_store_new(&store, "", 0);
    parse(&store, PAGE, "a=1; Max-Age=60", NOW);
    parse(&store, PAGE, "b=2", NOW);
    parse(&store, PAGE, "c=3; Max-Age=120", NOW);
    for (size_t at = 0; at < sizeof SELECTIONS / sizeof *SELECTIONS; at++) {
        equal(SELECTIONS[at].name, save(&store, form->format, SELECTIONS[at].which, SELECTIONS[at].now, ROOM), COOKIE_STORE_OK);
        loads(form, at, COOKIE_STORE_ALL, NOW);
        equal(form->name, save(&store, form->format, COOKIE_STORE_ALL, NOW, ROOM), COOKIE_STORE_OK);
        loads(form, at, SELECTIONS[at].which, SELECTIONS[at].now);
    }
    cookie_store_free(&store);
}

/* Saving to no buffer: of two errors the first one that is checked is returned. */
static const struct {
    const char *name;
    uint32_t format, which;
    int64_t now;
    enum cookie_store_status wanted;
} SAVE_ERRORS[] = {
    {"save, format 4", 4, COOKIE_STORE_ALL, LAST + 1, COOKIE_STORE_BAD_OPTION},
    {"save, format 256", 256, COOKIE_STORE_ALL, LAST + 1, COOKIE_STORE_BAD_OPTION},
    {"save, format 2^31", UINT32_C(1) << 31, COOKIE_STORE_ALL, LAST + 1, COOKIE_STORE_BAD_OPTION},
    {"save, format -1", UINT32_MAX, COOKIE_STORE_ALL, LAST + 1, COOKIE_STORE_BAD_OPTION},
    {"save, which 3", COOKIE_STORE_JSON, 3, LAST + 1, COOKIE_STORE_BAD_OPTION},
    {"save, which 256", COOKIE_STORE_RON, 256, LAST + 1, COOKIE_STORE_BAD_OPTION},
    {"save, which 2^31", COOKIE_STORE_NETSCAPE, UINT32_C(1) << 31, LAST + 1, COOKIE_STORE_BAD_OPTION},
    {"save, which -1", COOKIE_STORE_NETSCAPE_LENIENT, UINT32_MAX, LAST + 1, COOKIE_STORE_BAD_OPTION},
    {"save all as JSON, time", COOKIE_STORE_JSON, COOKIE_STORE_ALL, LAST + 1, COOKIE_STORE_BAD_TIME},
    {"save all as RON, time", COOKIE_STORE_RON, COOKIE_STORE_ALL, FIRST - 1, COOKIE_STORE_BAD_TIME},
    {"save persistent, time", COOKIE_STORE_NETSCAPE, COOKIE_STORE_PERSISTENT, LAST + 1, COOKIE_STORE_BAD_TIME},
    {"save unexpired, time", COOKIE_STORE_NETSCAPE_LENIENT, COOKIE_STORE_UNEXPIRED, LAST + 1, COOKIE_STORE_BAD_TIME},
    {"save as JSON, before the year 0", COOKIE_STORE_JSON, COOKIE_STORE_ALL, NOW, COOKIE_STORE_BAD_EXPIRY},
    {"save as RON, before the year 0", COOKIE_STORE_RON, COOKIE_STORE_PERSISTENT, FIRST, COOKIE_STORE_BAD_EXPIRY},
    {"save as cookies.txt, before 1970", COOKIE_STORE_NETSCAPE, COOKIE_STORE_UNEXPIRED, FIRST, COOKIE_STORE_UNREPRESENTABLE},
};

/* Each with an empty handle, and with a store whose cookie expires before the year 0. */
static void test_save_errors(void) {
    for (size_t at = 0; at < sizeof SAVE_ERRORS / sizeof *SAVE_ERRORS; at++) {
        cookie_store store = COOKIE_STORE_INIT;
        for (int is_begun = 0; is_begun < 2; is_begun++) {
            if (is_begun) cookie_store_new(&store, "", 0);
            if (is_begun) parse(&store, PAGE, "a=1; Max-Age=1", FIRST);
            equal(SAVE_ERRORS[at].name, save(&store, SAVE_ERRORS[at].format, SAVE_ERRORS[at].which, SAVE_ERRORS[at].now, 0),
                  is_begun ? SAVE_ERRORS[at].wanted : COOKIE_STORE_NO_STORE);
            equal("nothing is needed of it", (long)needed, 0);
            equal("nothing is left out of it", (long)left_out, 0);
        }
        cookie_store_free(&store);
    }
}

/* A list in JSON or RON of the cookie a=1 with one of its parts. */
#define JSON_WITH(raw, expires) \
    LIST("[{\"raw_cookie\":\"" raw "\",\"path\":[\"/\",false],\"domain\":{\"HostOnly\":\"a.example\"},\"expires\":" expires "}]")
#define RON_WITH(raw, expires) LIST("[(raw_cookie: \"" raw "\", path: (\"/\", false), domain: HostOnly(\"a.example\"), expires: " expires ")]")

/* Lists that are not loaded: of two errors the first one that is checked is returned. */
static const struct {
    const char *name;
    uint32_t format, which;
    const char *list;
    size_t length;
    int64_t now;
    enum cookie_store_status wanted;
} LOAD_ERRORS[] = {
    {"load, format 4", 4, COOKIE_STORE_ALL, NOT_UTF8, LAST + 1, COOKIE_STORE_BAD_OPTION},
    {"load, format 256", 256, COOKIE_STORE_ALL, NOT_UTF8, LAST + 1, COOKIE_STORE_BAD_OPTION},
    {"load, format 2^31", UINT32_C(1) << 31, COOKIE_STORE_ALL, NOT_UTF8, LAST + 1, COOKIE_STORE_BAD_OPTION},
    {"load, format -1", UINT32_MAX, COOKIE_STORE_ALL, NOT_UTF8, LAST + 1, COOKIE_STORE_BAD_OPTION},
    {"load, which 3", COOKIE_STORE_JSON, 3, NOT_UTF8, LAST + 1, COOKIE_STORE_BAD_OPTION},
    {"load, which 256", COOKIE_STORE_RON, 256, NOT_UTF8, LAST + 1, COOKIE_STORE_BAD_OPTION},
    {"load, which 2^31", COOKIE_STORE_NETSCAPE, UINT32_C(1) << 31, NOT_UTF8, LAST + 1, COOKIE_STORE_BAD_OPTION},
    {"load, which -1", COOKIE_STORE_NETSCAPE_LENIENT, UINT32_MAX, NOT_UTF8, LAST + 1, COOKIE_STORE_BAD_OPTION},
    {"load all of JSON, time", COOKIE_STORE_JSON, COOKIE_STORE_ALL, NOT_UTF8, LAST + 1, COOKIE_STORE_BAD_TIME},
    {"load unexpired of RON, time", COOKIE_STORE_RON, COOKIE_STORE_UNEXPIRED, NOT_UTF8, FIRST - 1, COOKIE_STORE_BAD_TIME},
    {"load persistent, time", COOKIE_STORE_NETSCAPE, COOKIE_STORE_PERSISTENT, NOT_UTF8, LAST + 1, COOKIE_STORE_BAD_TIME},
    {"load all that is well-formed, time", COOKIE_STORE_NETSCAPE_LENIENT, COOKIE_STORE_ALL, NOT_UTF8, LAST + 1, COOKIE_STORE_BAD_TIME},
    {"JSON not UTF-8", COOKIE_STORE_JSON, COOKIE_STORE_ALL, NOT_UTF8, NOW, COOKIE_STORE_NOT_UTF8},
    {"RON not UTF-8", COOKIE_STORE_RON, COOKIE_STORE_ALL, NOT_UTF8, NOW, COOKIE_STORE_NOT_UTF8},
    {"a malformed line, and not UTF-8", COOKIE_STORE_NETSCAPE, COOKIE_STORE_ALL, LIST("a\n\xff"), NOW, COOKIE_STORE_NOT_UTF8},
    {"well-formed lines, not UTF-8", COOKIE_STORE_NETSCAPE_LENIENT, COOKIE_STORE_ALL, LIST("a\n\xff"), NOW, COOKIE_STORE_NOT_UTF8},
    {"no JSON", COOKIE_STORE_JSON, COOKIE_STORE_ALL, LIST("["), NOW, COOKIE_STORE_BAD_JSON},
    {"an empty string of JSON", COOKIE_STORE_JSON, COOKIE_STORE_UNEXPIRED, LIST(""), NOW, COOKIE_STORE_BAD_JSON},
    {"JSON that is no list", COOKIE_STORE_JSON, COOKIE_STORE_ALL, LIST("{}"), NOW, COOKIE_STORE_BAD_SHAPE},
    {"JSON, an expiry", COOKIE_STORE_JSON, COOKIE_STORE_ALL, JSON_WITH("a=1", "{\"AtUtc\":\"soon\"}"), NOW, COOKIE_STORE_BAD_EXPIRY},
    {"JSON, a cookie", COOKIE_STORE_JSON, COOKIE_STORE_ALL, JSON_WITH("a", "\"SessionEnd\""), NOW, COOKIE_STORE_PARSE},
    {"no RON", COOKIE_STORE_RON, COOKIE_STORE_ALL, LIST("["), NOW, COOKIE_STORE_BAD_RON},
    {"an empty string of RON", COOKIE_STORE_RON, COOKIE_STORE_PERSISTENT, LIST(""), NOW, COOKIE_STORE_BAD_RON},
    {"RON that is no list", COOKIE_STORE_RON, COOKIE_STORE_ALL, LIST("{}"), NOW, COOKIE_STORE_BAD_RON},
    {"RON, an expiry", COOKIE_STORE_RON, COOKIE_STORE_ALL, RON_WITH("a=1", "AtUtc(\"soon\")"), NOW, COOKIE_STORE_BAD_EXPIRY},
    {"RON, a cookie", COOKIE_STORE_RON, COOKIE_STORE_ALL, RON_WITH("a", "SessionEnd"), NOW, COOKIE_STORE_PARSE},
};

/* Each into an empty handle, and into one with a store. */
static void test_load_errors(void) {
    for (size_t at = 0; at < sizeof LOAD_ERRORS / sizeof *LOAD_ERRORS; at++) {
        cookie_store store = COOKIE_STORE_INIT;
        for (int is_begun = 0; is_begun < 2; is_begun++) {
            if (is_begun) cookie_store_new(&store, "", 0);
            if (is_begun) parse(&store, PAGE, "s=1", NOW);
            enum cookie_store_status status = load(&store, LOAD_ERRORS[at].format, LOAD_ERRORS[at].which, LOAD_ERRORS[at].list,
                                                   LOAD_ERRORS[at].length, LOAD_ERRORS[at].now, MOST_LINES);
            equal(LOAD_ERRORS[at].name, status, is_begun ? COOKIE_STORE_HAS_STORE : LOAD_ERRORS[at].wanted);
            equal("no malformed line", (long)malformed, 0);
            equal("no number", (long)lines[0], UNSET);
            equal("the handle is as it was", (long)cookie_store_count(&store), is_begun);
        }
        cookie_store_free(&store);
    }
}

/* Each kind of cookie in a cookies.txt file: e was expired by another one. */
static void test_netscape(void) {
    static const char file[] = NO_COOKIES "a.example\tFALSE\t/d\tFALSE\t1767225660\ta\t1\n"
                                          "a.example\tFALSE\t/d\tTRUE\t0\tc\t\n"
                                          "a.example\tFALSE\t/d\tFALSE\t1\te\t5\n"
                                          "#HttpOnly_.a.example\tTRUE\t/\tFALSE\t0\tb\t2\n";
    cookie_store store = COOKIE_STORE_INIT;
    cookie_store_new(&store, "", 0);
    parse(&store, PAGE, "a=1; Max-Age=60", NOW);
    parse(&store, PAGE, "c=; Secure", NOW);
    parse(&store, PAGE, "e=5", NOW);
    parse(&store, PAGE, "e=6; Max-Age=0", NOW);
    parse(&store, PAGE, "b=2; Domain=a.example; Path=/; HttpOnly; SameSite=Lax", NOW);
    equal("save", save(&store, COOKIE_STORE_NETSCAPE, COOKIE_STORE_ALL, NOW, ROOM), COOKIE_STORE_OK);
    same_text("the file", out, needed, file);
    cookie_store_free(&store);
}

/* Saves of three cookies, of which a cookies.txt can represent b alone: t, which expires after 60 seconds, and u have a TAB. */
static const struct {
    const char *name;
    enum cookie_store_format format;
    enum cookie_store_which which;
    int64_t now;
    size_t room;
    enum cookie_store_status status;
    size_t left_out;
    const char *wanted;
} REPRESENTED[] = {
    {"all", COOKIE_STORE_NETSCAPE, COOKIE_STORE_ALL, NOW, ROOM, COOKIE_STORE_UNREPRESENTABLE, 0, ""},
    {"persistent", COOKIE_STORE_NETSCAPE, COOKIE_STORE_PERSISTENT, NOW, ROOM, COOKIE_STORE_UNREPRESENTABLE, 0, ""},
    {"no persistent one", COOKIE_STORE_NETSCAPE, COOKIE_STORE_PERSISTENT, NOW + 60, ROOM, COOKIE_STORE_OK, 0, NO_COOKIES},
    {"lenient, all", COOKIE_STORE_NETSCAPE_LENIENT, COOKIE_STORE_ALL, NOW + 60, ROOM, COOKIE_STORE_OK, 2, SESSION},
    {"lenient, the length of all", COOKIE_STORE_NETSCAPE_LENIENT, COOKIE_STORE_ALL, NOW, sizeof SESSION - 1, COOKIE_STORE_OK, 2, SESSION},
    {"lenient, a byte less", COOKIE_STORE_NETSCAPE_LENIENT, COOKIE_STORE_ALL, NOW, sizeof SESSION - 2, COOKIE_STORE_NO_ROOM, 2, SESSION},
    {"lenient, no room", COOKIE_STORE_NETSCAPE_LENIENT, COOKIE_STORE_ALL, NOW, 0, COOKIE_STORE_NO_ROOM, 2, SESSION},
    {"lenient, unexpired", COOKIE_STORE_NETSCAPE_LENIENT, COOKIE_STORE_UNEXPIRED, NOW + 60, ROOM, COOKIE_STORE_OK, 1, SESSION},
    {"lenient, persistent", COOKIE_STORE_NETSCAPE_LENIENT, COOKIE_STORE_PERSISTENT, NOW, ROOM, COOKIE_STORE_OK, 1, NO_COOKIES},
    {"lenient, no persistent one", COOKIE_STORE_NETSCAPE_LENIENT, COOKIE_STORE_PERSISTENT, NOW + 60, ROOM, COOKIE_STORE_OK, 0, NO_COOKIES},
    {"JSON", COOKIE_STORE_JSON, COOKIE_STORE_ALL, NOW, ROOM, COOKIE_STORE_OK, 0, NULL},
    {"JSON, no room", COOKIE_STORE_JSON, COOKIE_STORE_ALL, NOW, 0, COOKIE_STORE_NO_ROOM, 0, NULL},
    {"RON", COOKIE_STORE_RON, COOKIE_STORE_ALL, NOW, ROOM, COOKIE_STORE_OK, 0, NULL},
    {"RON, no room", COOKIE_STORE_RON, COOKIE_STORE_ALL, NOW, 0, COOKIE_STORE_NO_ROOM, 0, NULL},
};

static void test_represented(void) {
    cookie_store store = COOKIE_STORE_INIT;
    cookie_store_new(&store, "", 0);
    parse(&store, PAGE, "t=x\ty; Max-Age=60", NOW);
    parse(&store, PAGE, "b=2", NOW);
    parse(&store, PAGE, "u=x\ty", NOW);
    for (size_t at = 0; at < sizeof REPRESENTED / sizeof *REPRESENTED; at++) {
        const char *name = REPRESENTED[at].name, *wanted = REPRESENTED[at].wanted;
        enum cookie_store_status status =
            save(&store, REPRESENTED[at].format, REPRESENTED[at].which, REPRESENTED[at].now, REPRESENTED[at].room);
        equal(name, status, REPRESENTED[at].status);
        equal("how many are left out", (long)left_out, (long)REPRESENTED[at].left_out);
        if (wanted) equal(name, (long)needed, (long)strlen(wanted));
        if (wanted && status == COOKIE_STORE_OK) same_text(name, out, needed, wanted);
        equal("nothing is written after it", out[status == COOKIE_STORE_OK ? needed : 0], '-');
    }
    cookie_store_free(&store);
}

/* Lines 2, 4 and 6 of this file are malformed. */
static const char THREE_MALFORMED[] = "# 1\na.example\tFALSE\t/\na.example\tFALSE\t/d\tFALSE\t1767225660\ta\t1\nb=2\n"
                                      "a.example\tFALSE\t/d\tFALSE\t0\tc\t3\na.example\tno\t/d\tFALSE\t0\td\t4\n";

/* Files with malformed lines: the status, how many are reported and their numbers, and the cookies. */
static const struct {
    const char *name, *file;
    enum cookie_store_format format;
    enum cookie_store_which which;
    enum cookie_store_status status;
    size_t malformed, lines[MOST_LINES];
    const char *wanted;
} MALFORMED[] = {
    {"lenient, all", THREE_MALFORMED, COOKIE_STORE_NETSCAPE_LENIENT, COOKIE_STORE_ALL, COOKIE_STORE_OK, 3, {2, 4, 6}, "a=1; c=3"},
    {"lenient, unexpired", THREE_MALFORMED, COOKIE_STORE_NETSCAPE_LENIENT, COOKIE_STORE_UNEXPIRED, COOKIE_STORE_OK, 3, {2, 4, 6}, "c=3"},
    {"lenient, persistent", THREE_MALFORMED, COOKIE_STORE_NETSCAPE_LENIENT, COOKIE_STORE_PERSISTENT, COOKIE_STORE_OK, 3, {2, 4, 6}, ""},
    {"lenient, more lines than numbers", "a\nb\nc\nd\ne\n", COOKIE_STORE_NETSCAPE_LENIENT, COOKIE_STORE_ALL, COOKIE_STORE_OK, 5, {1, 2, 3, 4}, ""},
    {"lenient, none malformed", SESSION, COOKIE_STORE_NETSCAPE_LENIENT, COOKIE_STORE_ALL, COOKIE_STORE_OK, 0, {0}, "b=2"},
    {"lenient, an empty file", "", COOKIE_STORE_NETSCAPE_LENIENT, COOKIE_STORE_ALL, COOKIE_STORE_OK, 0, {0}, ""},
    {"the first malformed line", THREE_MALFORMED, COOKIE_STORE_NETSCAPE, COOKIE_STORE_ALL, COOKIE_STORE_BAD_LINE, 1, {2}, NULL},
    {"a malformed line at the end", SESSION "x", COOKIE_STORE_NETSCAPE, COOKIE_STORE_ALL, COOKIE_STORE_BAD_LINE, 1, {3}, NULL},
    {"none malformed", SESSION, COOKIE_STORE_NETSCAPE, COOKIE_STORE_ALL, COOKIE_STORE_OK, 0, {0}, "b=2"},
    {"an empty file", "", COOKIE_STORE_NETSCAPE, COOKIE_STORE_ALL, COOKIE_STORE_OK, 0, {0}, ""},
    {"JSON", "[]", COOKIE_STORE_JSON, COOKIE_STORE_ALL, COOKIE_STORE_OK, 0, {0}, ""},
    {"a line that is not JSON", "[\n,\n]", COOKIE_STORE_JSON, COOKIE_STORE_ALL, COOKIE_STORE_BAD_JSON, 0, {0}, NULL},
    {"RON", "[]", COOKIE_STORE_RON, COOKIE_STORE_ALL, COOKIE_STORE_OK, 0, {0}, ""},
    {"a line that is not RON", "[\n,\n]", COOKIE_STORE_RON, COOKIE_STORE_ALL, COOKIE_STORE_BAD_RON, 0, {0}, NULL},
};

/* Each with room for no number, for one, and so on. */
static void test_malformed(void) {
    for (size_t step = 0; step < sizeof MALFORMED / sizeof *MALFORMED * (MOST_LINES + 1); step++) {
        size_t at = step / (MOST_LINES + 1), room = step % (MOST_LINES + 1);
        cookie_store store = COOKIE_STORE_INIT;
        equal(MALFORMED[at].name, load(&store, MALFORMED[at].format, MALFORMED[at].which, TEXT(MALFORMED[at].file), NOW + 60, room),
              MALFORMED[at].status);
        equal("how many are malformed", (long)malformed, (long)MALFORMED[at].malformed);
        for (size_t line = 0; line < MOST_LINES; line++)
            equal("a number", (long)lines[line], line < room && line < malformed ? (long)MALFORMED[at].lines[line] : UNSET);
        if (MALFORMED[at].wanted)
            gives(MALFORMED[at].name, &store, PAGE, NOW, MALFORMED[at].wanted);
        else
            equal("no store", save(&store, COOKIE_STORE_JSON, COOKIE_STORE_ALL, NOW, 0), COOKIE_STORE_NO_STORE);
        cookie_store_free(&store);
    }
}

/* Files as other programs write them, or a malformed one: how many cookies they have, and which of them a URL gets in the last
   second but one that a time can name. */
static const struct {
    const char *name, *file;
    enum cookie_store_status status;
    size_t count;
    const char *url, *wanted;
} NETSCAPE_LOADS[] = {
    {"lines that end in CRLF", "# 1\r\n\r\na.example\tFALSE\t/\tFALSE\t0\ta\t1\r\n", COOKIE_STORE_OK, 1, "http://a.example/", "a=1"},
    {"TRUE in lower case", "a.example\ttrue\t/\tTrue\t0\ta\t1\n", COOKIE_STORE_OK, 1, "https://b.a.example/", "a=1"},
    {"another word for TRUE", "a.example\tyes\t/\tFALSE\t0\ta\t1\n", COOKIE_STORE_BAD_LINE, 0, "", ""},
    {"no path and no value", "a.example\tFALSE\tFALSE\t0\ta\n", COOKIE_STORE_OK, 1, "http://a.example/", "a="},
    {"an empty expiry", "a.example\tFALSE\t/\tFALSE\t\ta\t1\n", COOKIE_STORE_OK, 1, "http://a.example/", "a=1"},
    {"an expiry of -1", "a.example\tFALSE\t/\tFALSE\t-1\ta\t1\n", COOKIE_STORE_OK, 1, "http://a.example/", "a=1"},
    {"an expiry with a fraction", "a.example\tFALSE\t/\tFALSE\t253402300799.5\ta\t1\n", COOKIE_STORE_OK, 1, "http://a.example/", "a=1"},
    {"an expiry that has passed", "a.example\tFALSE\t/\tFALSE\t253402300798\ta\t1\n", COOKIE_STORE_OK, 1, "http://a.example/", ""},
    {"white space around a line", " \ta.example\tFALSE\t/\tFALSE\t0\ta\t1\t \n", COOKIE_STORE_OK, 1, "http://a.example/", "a=1"},
    {"an IPv6 address", "::1\tFALSE\t/\tFALSE\t0\ta\t1\n", COOKIE_STORE_OK, 1, "http://[::1]/", "a=1"},
    {"one in brackets", "[::1]\tFALSE\t/\tFALSE\t0\ta\t1\n", COOKIE_STORE_OK, 1, "http://[::1]/", "a=1"},
    {"one with .local behind it", "[::1].local\tFALSE\t/\tFALSE\t0\ta\t1\n", COOKIE_STORE_OK, 1, "http://[::1]/", "a=1"},
    {"a port", "a.example:8080\tFALSE\t/\tFALSE\t0\ta\t1\n", COOKIE_STORE_OK, 1, "http://a.example/", "a=1"},
    {"localhost.local", "localhost.local\tFALSE\t/\tFALSE\t0\ta\t1\n", COOKIE_STORE_OK, 1, "http://localhost/", "a=1"},
    {"another host with .local", "vm.local\tFALSE\t/\tFALSE\t0\ta\t1\n", COOKIE_STORE_OK, 1, "http://vm/", ""},
    {"$ at the start", "$a.example\tFALSE\t/\tFALSE\t0\ta\t1\n$\n", COOKIE_STORE_OK, 0, "http://a.example/", ""},
    {"quotation marks around a path", "a.example\tFALSE\t\"/d\"\tFALSE\t0\ta\t1\n", COOKIE_STORE_OK, 1, "http://a.example/d/e", "a=1"},
    {"an empty path", "a.example\tFALSE\t\tFALSE\t0\ta\t1\n", COOKIE_STORE_OK, 1, "http://a.example/", "a=1"},
    {"a relative path", "a.example\tFALSE\td\tFALSE\t0\ta\t1\n", COOKIE_STORE_OK, 1, "http://a.example/d", ""},
    {"a header", "Set-Cookie: a=1; Domain=a.example\n", COOKIE_STORE_OK, 1, "http://b.a.example/", "a=1"},
    {"a header with a path", "set-cookie: a=1; Domain=.a.example; Path=/d\n", COOKIE_STORE_OK, 1, "http://b.a.example/", ""},
    {"a header without Domain", "Set-Cookie: a=1\n", COOKIE_STORE_BAD_LINE, 0, "", ""},
    {"a header with Max-Age", "Set-Cookie: a=1; Domain=a.example; Max-Age=60\n", COOKIE_STORE_BAD_LINE, 0, "", ""},
    {"a later cookie replaces", "a.example\tFALSE\t/\tFALSE\t0\ta\t1\na.example\tFALSE\t/\tFALSE\t0\ta\t2\n", COOKIE_STORE_OK, 1,
     "http://a.example/", "a=2"},
};

static void test_netscape_loads(void) {
    for (size_t at = 0; at < sizeof NETSCAPE_LOADS / sizeof *NETSCAPE_LOADS; at++) {
        cookie_store store = COOKIE_STORE_INIT;
        const char *name = NETSCAPE_LOADS[at].name;
        equal(name, load(&store, COOKIE_STORE_NETSCAPE, COOKIE_STORE_ALL, TEXT(NETSCAPE_LOADS[at].file), NOW, 1), NETSCAPE_LOADS[at].status);
        equal(name, (long)cookie_store_count(&store), (long)NETSCAPE_LOADS[at].count);
        equal(name, (long)lines[0], NETSCAPE_LOADS[at].status == COOKIE_STORE_OK ? UNSET : 1);
        if (NETSCAPE_LOADS[at].status == COOKIE_STORE_OK) gives(name, &store, NETSCAPE_LOADS[at].url, LAST - 1, NETSCAPE_LOADS[at].wanted);
        cookie_store_free(&store);
    }
}

int main(void) {
    for (size_t at = 0; at < sizeof FORMS / sizeof *FORMS; at++) {
        test_room(&FORMS[at]);
        test_which(&FORMS[at]);
    }
    test_save_errors();
    test_load_errors();
    test_netscape();
    test_represented();
    test_malformed();
    test_netscape_loads();
    return report("test_lists");
}
