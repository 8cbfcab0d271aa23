/* Runs the `set` lines of a script in a store under the rules of browsers. tools/bench stores compiles it over the C library. */
#include <cookie_store.h>
#include <stdio.h>
#include <string.h>

#define NOW 1767225600 /* 2026-01-01T00:00:00Z */

int main(void) {
    static char line[1 << 16];
    cookie_store store = COOKIE_STORE_INIT;
    if (cookie_store_new(&store, "", 0) != COOKIE_STORE_OK || cookie_store_set_strict(&store, true) != COOKIE_STORE_OK) return 1;
    while (fgets(line, sizeof line, stdin)) {
        char *url = line + 4, *space = strchr(url, ' ');
        if (strncmp(line, "set ", 4) != 0 || space == NULL) continue;
        cookie_store_parse(&store, url, (size_t)(space - url), space + 1, strcspn(space + 1, "\n"), NOW);
    }
    printf("%lu cookies\n", (unsigned long)cookie_store_count(&store));
    cookie_store_free(&store);
    return 0;
}
