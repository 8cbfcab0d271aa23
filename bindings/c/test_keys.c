/* Tests that stores use the hash key that they are passed. Reads lines of a URL and a Set-Cookie
   value: cookies whose names, paths or domains collide under a key of zeros (tools/collisions.c).
   Measures each way to create a store of them with a key: with the key of zeros, where the time
   grows with the square of their number, and with keys of which one byte differs. The argument
   names what collides, for messages on standard error and for the last line, 'test_keys, NAME: N
   passed, M failed'. */
#include <cookie_store.h>
#include <stdio.h>
#include <stdlib.h>
#include <string.h>
#include <time.h>

enum { MOST = 4000, BYTES = 16, ROUNDS = 5, NOW = 1700000000, FORMATS = COOKIE_STORE_NETSCAPE_LENIENT + 1 };

/* The factor by which the key of zeros must take longer. A key that is not used gives 1, one that is
   at least 2. */
static const double FACTOR = 1.6;

static const char other[] = "0123456789abcdef";
static char urls[MOST][40], values[MOST][40];
static int count;

/* The cookies as saved in each format, by its number. */
static struct {
    char *list;
    size_t len;
} saved[FORMATS];

static void parse(cookie_store *store, int number) {
    for (int at = 0; at < number; at++) cookie_store_parse(store, urls[at], strlen(urls[at]), values[at], strlen(values[at]), NOW);
}

/* Adds a cookie with another path, so that the store has a table of paths above those of names. */
static void begin(cookie_store *store, const char *key) {
    static const char value[] = "a=1; Path=/other";
    cookie_store_new(store, key, BYTES);
    cookie_store_parse(store, urls[0], strlen(urls[0]), value, sizeof value - 1, NOW);
    parse(store, count);
}

/* Under a limit each insertion looks at all cookies of the host, whatever the key is. To replace a
   cookie does not: so most of the time goes where the key counts. */
static void begin_with_limit(cookie_store *store, const char *key) {
    cookie_store_new(store, key, BYTES);
    cookie_store_set_domain_limit(store, (size_t)count);
    for (int round = 0; round < 4; round++) parse(store, count);
}

static void load(cookie_store *store, const char *key, enum cookie_store_format format) {
    size_t line, malformed;
    cookie_store_load(store, key, BYTES, format, COOKIE_STORE_ALL, saved[format].list, saved[format].len, NOW, &line, 1, &malformed);
}

static void load_json(cookie_store *store, const char *key) { load(store, key, COOKIE_STORE_JSON); }

static void load_ron(cookie_store *store, const char *key) { load(store, key, COOKIE_STORE_RON); }

static void load_netscape(cookie_store *store, const char *key) { load(store, key, COOKIE_STORE_NETSCAPE); }

static void load_lenient(cookie_store *store, const char *key) { load(store, key, COOKIE_STORE_NETSCAPE_LENIENT); }

/* Enough cookies for a hash table at the level at which they collide: a path has up to 32 in a list. */
enum { TABLE = 33 };

static void change_key(cookie_store *store, const char *key) {
    cookie_store_new(store, other, BYTES);
    parse(store, TABLE);
    cookie_store_set_hash_key(store, key, BYTES);
    parse(store, count);
}

static void copy(cookie_store *store, const char *key) {
    cookie_store original = COOKIE_STORE_INIT;
    cookie_store_new(&original, key, BYTES);
    parse(&original, TABLE);
    cookie_store_clone(&original, store);
    cookie_store_free(&original);
    parse(store, count);
}

static void clear(cookie_store *store, const char *key) {
    cookie_store_new(store, key, BYTES);
    parse(store, TABLE);
    cookie_store_clear(store);
    parse(store, count);
}

/* Returns the seconds that it takes to create a store of all cookies, or -1 if any is missing. */
static double seconds(void (*make)(cookie_store *, const char *), const char *key) {
    cookie_store store = COOKIE_STORE_INIT;
    clock_t begun = clock();
    make(&store, key);
    double took = (double)(clock() - begun) / CLOCKS_PER_SEC;
    if (cookie_store_count(&store) < (size_t)count) took = -1;
    cookie_store_free(&store);
    return took;
}

/* Sets `least` to the best times: at each index for the key that is not zero in that byte, and at
   BYTES for the key of zeros. The keys take turns, since the speed of a machine varies. */
static void measure(void (*make)(cookie_store *, const char *), double least[BYTES + 1]) {
    for (int at = 0; at <= BYTES; at++) least[at] = 1e9;
    for (int round = 0; round < ROUNDS; round++) {
        for (int at = 0; at <= BYTES; at++) {
            char key[BYTES + 1] = {0};
            key[at] = 1;
            double took = seconds(make, key);
            if (took < least[at]) least[at] = took;
        }
    }
}

/* Saves the cookies in a format, and returns whether that succeeds. */
static bool save(enum cookie_store_format format) {
    cookie_store store = COOKIE_STORE_INIT;
    enum cookie_store_status status = COOKIE_STORE_NO_MEMORY;
    size_t len, left_out;
    begin(&store, other);
    cookie_store_save(&store, format, COOKIE_STORE_ALL, NOW, values[0], 0, &len, &left_out);
    char *list = malloc(len);
    if (list) status = cookie_store_save(&store, format, COOKIE_STORE_ALL, NOW, list, len, &len, &left_out);
    cookie_store_free(&store);
    saved[format].list = list;
    saved[format].len = len;
    return status == COOKIE_STORE_OK && left_out == 0;
}

int main(int argc, char **argv) {
    static const struct {
        const char *name;
        void (*make)(cookie_store *, const char *);
    } calls[] = {{"new", begin}, {"new, with a limit", begin_with_limit}, {"load JSON", load_json}, {"load RON", load_ron},
                 {"load cookies.txt", load_netscape}, {"load cookies.txt, lenient", load_lenient}, {"set_hash_key", change_key},
                 {"clone", copy}, {"clear", clear}};
    int passed = 0, failed = 0;
    while (count < MOST && scanf("%39s %39[^\n]", urls[count], values[count]) == 2) count++;
    if (argc != 2 || count == 0) return 2;
    for (int format = 0; format < FORMATS; format++)
        if (!save((enum cookie_store_format)format)) return 2;
    for (size_t call = 0; call < sizeof calls / sizeof *calls; call++) {
        double least[BYTES + 1];
        measure(calls[call].make, least);
        for (int at = 0; at < BYTES; at++) {
            bool is_well = least[at] >= 0 && least[BYTES] > FACTOR * least[at];
            if (!is_well) {
                fprintf(stderr, "%s, %s, byte %d of the key: FAILED: %f seconds, with zeros %f\n", argv[1], calls[call].name, at,
                        least[at], least[BYTES]);
            }
            *(is_well ? &passed : &failed) += 1;
        }
    }
    for (int format = 0; format < FORMATS; format++) free(saved[format].list);
    printf("test_keys, %s: %d passed, %d failed\n", argv[1], passed, failed);
    return failed > 0;
}
