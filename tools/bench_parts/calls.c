/* Times calls of the C library. tools/bench bindings compiles it, and defines HOSTS, those of a large store as LARGE_HOSTS, the
   cookies of each as EACH, NOW and SECONDS. Prints a name and seconds a call, the least of three runs, for each call. */
#include <cookie_store.h>
#include <limits.h>
#include <stdio.h>
#include <string.h>
#include <time.h>

static char urls[LARGE_HOSTS][64], headers[EACH][64];
static char response[EACH * 64]; /* all headers */
static size_t response_len, lens[EACH];
static cookie_store many = COOKIE_STORE_INIT, one = COOKIE_STORE_INIT, strict = COOKIE_STORE_INIT;
static cookie_store large = COOKIE_STORE_INIT, large_strict = COOKIE_STORE_INIT;
static unsigned long faults;

static void set(cookie_store *store, unsigned hosts, unsigned at) {
    const char *url = urls[at / EACH % hosts], *header = headers[at % EACH];
    faults += cookie_store_parse(store, url, strlen(url), header, strlen(header), NOW) > COOKIE_STORE_UPDATED;
}

static void set_response(unsigned at) {
    enum cookie_store_status statuses[EACH];
    const char *url = urls[at % HOSTS];
    enum cookie_store_status status =
        cookie_store_parse_each(&many, url, strlen(url), response, response_len, lens, EACH, NOW, statuses, EACH);
    faults += status != COOKIE_STORE_OK || statuses[EACH - 1] != COOKIE_STORE_UPDATED;
}

static void get(cookie_store *store, unsigned hosts, unsigned at) {
    char out[1024];
    size_t needed;
    const char *url = urls[at % hosts];
    faults += cookie_store_header(store, url, strlen(url), NOW, out, sizeof out, &needed) != COOKIE_STORE_OK || needed == 0;
}

static void set_many(unsigned at) { set(&many, HOSTS, at); }
static void set_strict(unsigned at) { set(&strict, HOSTS, at); }
static void set_large(unsigned at) { set(&large, LARGE_HOSTS, at); }
static void set_large_strict(unsigned at) { set(&large_strict, LARGE_HOSTS, at); }
static void get_one(unsigned at) { get(&one, HOSTS, at); }
static void get_many(unsigned at) { get(&many, HOSTS, at); }
static void get_strict(unsigned at) { get(&strict, HOSTS, at); }
static void get_large(unsigned at) { get(&large, LARGE_HOSTS, at); }
static void get_large_strict(unsigned at) { get(&large_strict, LARGE_HOSTS, at); }
static void count(unsigned at) { faults += cookie_store_count(&many) != HOSTS * EACH || at == UINT_MAX; }

static void measure(const char *name, void (*call)(unsigned)) {
    double least = 1e9;
    for (int run = 0; run < 3; run++) {
        unsigned calls = 0;
        clock_t begun = clock(), spent = 0;
        while ((double)spent / CLOCKS_PER_SEC < SECONDS) {
            for (unsigned at = 0; at < HOSTS * EACH; at++) call(calls++);
            spent = clock() - begun;
        }
        double each = (double)spent / CLOCKS_PER_SEC / calls;
        if (each < least) least = each;
    }
    printf("%s %.9f\n", name, least);
}

int main(void) {
    static const char list[] = "example\n";
    size_t bad_line;
    cookie_store_new(&many, "", 0);
    cookie_store_new(&one, "", 0);
    cookie_store_new(&strict, "", 0);
    cookie_store_new(&large, "", 0);
    cookie_store_new(&large_strict, "", 0);
    cookie_store_set_strict(&strict, true);
    cookie_store_set_strict(&large_strict, true);
    cookie_store_set_suffix_list(&large, list, strlen(list), false, &bad_line);
    cookie_store_set_suffix_list(&large_strict, list, strlen(list), false, &bad_line);
    for (int at = 0; at < LARGE_HOSTS; at++) {
        snprintf(urls[at], sizeof urls[at], "http://h%d.example/a/b", at);
        if (at < HOSTS) cookie_store_parse(&one, urls[at], strlen(urls[at]), "c0=value0; Path=/", 17, NOW);
    }
    for (int at = 0; at < EACH; at++) {
        lens[at] = (size_t)snprintf(headers[at], sizeof headers[at], "c%d=value%d; Path=/; Max-Age=86400", at, at);
        memcpy(response + response_len, headers[at], lens[at]);
        response_len += lens[at];
    }
    for (unsigned at = 0; at < LARGE_HOSTS * EACH; at++) {
        set_large(at);
        set_large_strict(at);
    }
    measure("set", set_many);
    measure("response", set_response);
    measure("set_strict", set_strict);
    measure("set_large", set_large);
    measure("set_large_strict", set_large_strict);
    measure("get_one", get_one);
    measure("get_many", get_many);
    measure("get_strict", get_strict);
    measure("get_large", get_large);
    measure("get_large_strict", get_large_strict);
    measure("count", count);
    cookie_store_free(&many);
    cookie_store_free(&one);
    cookie_store_free(&strict);
    cookie_store_free(&large);
    cookie_store_free(&large_strict);
    return faults > 0;
}
