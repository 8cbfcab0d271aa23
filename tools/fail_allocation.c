// Makes one allocation fail: preloaded (LD_PRELOAD) into a program, it replaces the C library's
// `malloc` and `realloc`, and passes on every call but one. `tools/allocations`, `tools/bindings` and
// `tools/durable` build it.
//
//   FAIL_ALLOCATION=k    the allocation that fails, from 1
//   FAIL_MARK=FILE       the file that is created when it fails
//   COUNT_FROM_START=1   every allocation counts, from the program's first on
//
// Without COUNT_FROM_START a test marks the allocations that count by two of odd sizes: one of
// START bytes (`Vec::<u8>::with_capacity(alloc, 48_271)?`) starts the count at 0, and one of END
// bytes ends it, and fails if one of those counted did: so the test knows whether its call had
// ample memory. What a test allocates before its call, or to compare after it, never fails. A test
// may start the count again for its next call. There are no headers, so that a compiler without the
// C library builds it, with -nostdlib.

enum { START = 48271, END = 48281 };

typedef __SIZE_TYPE__ size_t;

void *__libc_malloc(size_t size);
void *__libc_realloc(void *old, size_t size);
char *getenv(const char *name);
int creat(const char *path, unsigned mode);
int close(int file);
int *__errno_location(void);

static int is_counting;
static int did_fail; // since the start of the count
static unsigned long count;

// Whether this allocation is the one that fails.
static int fails(size_t size) {
    if (size == START || size == END) {
        int fails_now = size == END && did_fail;
        is_counting = size == START;
        did_fail = 0;
        count = 0;
        return fails_now;
    }
    if (!is_counting && !getenv("COUNT_FROM_START")) return 0;
    count++;
    const char *digits = getenv("FAIL_ALLOCATION");
    unsigned long failing = 0;
    while (digits && *digits >= '0' && *digits <= '9') failing = 10 * failing + (*digits++ - '0');
    if (count != failing) return 0;
    did_fail = 1;
    const char *mark = getenv("FAIL_MARK");
    if (mark) close(creat(mark, 0644));
    *__errno_location() = 12; // ENOMEM
    return 1;
}

void *malloc(size_t size) {
    return fails(size) ? 0 : __libc_malloc(size);
}

void *realloc(void *old, size_t size) {
    return fails(size) ? 0 : __libc_realloc(old, size);
}
