/* Uses stores from several threads as cookie_store.h allows: one store behind a mutex, and a store for each thread. No cookie
   may be lost. Failures are reported on standard error. The last line is 'test_threads: N passed, M failed'. */
#include <cookie_store.h>
#include <pthread.h>
#include <stdio.h>
#include <stdlib.h>
#include <string.h>

enum { THREADS = 8, ROUNDS = 50 };

#define NOW INT64_C(1767225600) /* 2026-01-01T00:00:00 */

static int passed, failed;

/* A thread: sets ROUNDS cookies for its host, and after each gets the header. Counts what goes wrong. */
struct worker {
    cookie_store *store;
    pthread_mutex_t *mutex; /* NULL if no other thread uses the store */
    char url[32];
    int errors;
};

static void expect(const char *name, size_t got, size_t wanted) {
    if (got == wanted) {
        passed++;
        return;
    }
    failed++;
    fprintf(stderr, "%s: FAILED: wanted %zu, got %zu\n", name, wanted, got);
}

static void lock(struct worker *worker) {
    if (worker->mutex && pthread_mutex_lock(worker->mutex) != 0) abort();
}

static void unlock(struct worker *worker) {
    if (worker->mutex && pthread_mutex_unlock(worker->mutex) != 0) abort();
}

/* Whether the header is `c0=v; c1=v; ..` of `count` cookies: their paths are equal, so they are in creation order. */
static bool has_cookies(struct worker *worker, int count) {
    char header[10 * ROUNDS], wanted[10 * ROUNDS] = "";
    size_t needed = 0, length = 0;
    for (int at = 0; at < count; at++)
        length += (size_t)snprintf(wanted + length, sizeof wanted - length, "%sc%d=v", at == 0 ? "" : "; ", at);
    enum cookie_store_status status =
        cookie_store_header(worker->store, worker->url, strlen(worker->url), NOW, header, sizeof header, &needed);
    return status == COOKIE_STORE_OK && needed == length && memcmp(header, wanted, length) == 0;
}

static void *work(void *data) {
    struct worker *worker = data;
    for (int at = 0; at < ROUNDS; at++) {
        char value[16];
        snprintf(value, sizeof value, "c%d=v", at);
        lock(worker);
        enum cookie_store_status status =
            cookie_store_parse(worker->store, worker->url, strlen(worker->url), value, strlen(value), NOW);
        worker->errors += status != COOKIE_STORE_INSERTED;
        unlock(worker);
        lock(worker);
        worker->errors += !has_cookies(worker, at + 1);
        unlock(worker);
    }
    return NULL;
}

/* Runs the threads, and then looks at what is stored. */
static void test(const char *name, bool is_shared) {
    pthread_t threads[THREADS];
    struct worker workers[THREADS];
    cookie_store stores[THREADS] = {COOKIE_STORE_INIT};
    pthread_mutex_t mutex = PTHREAD_MUTEX_INITIALIZER;
    for (int at = 0; at < THREADS; at++) {
        struct worker *worker = &workers[at];
        *worker = (struct worker){&stores[is_shared ? 0 : at], is_shared ? &mutex : NULL, "", 0};
        snprintf(worker->url, sizeof worker->url, "http://host%d.example/", at);
        if (at == 0 || !is_shared) expect(name, cookie_store_new(worker->store, "", 0), COOKIE_STORE_OK);
    }
    for (int at = 0; at < THREADS; at++)
        if (pthread_create(&threads[at], NULL, work, &workers[at]) != 0) abort();
    for (int at = 0; at < THREADS; at++)
        if (pthread_join(threads[at], NULL) != 0) abort();
    for (int at = 0; at < THREADS; at++) {
        expect(name, (size_t)workers[at].errors, 0);
        expect(name, has_cookies(&workers[at], ROUNDS), true);
        expect(name, cookie_store_count(workers[at].store), is_shared ? THREADS * ROUNDS : ROUNDS);
    }
    for (int at = 0; at < THREADS; at++) cookie_store_free(&stores[at]);
}

int main(void) {
    test("a store that threads share", true);
    test("a store for each thread", false);
    printf("test_threads: %d passed, %d failed\n", passed, failed);
    return failed > 0;
}
