// Records the calls on files that a program makes, and makes some fail: preloaded (LD_PRELOAD), it
// replaces the C library's `pread`, `pwrite`, `ftruncate`, `fsync`, `fdatasync`, `read`, `write` and
// `getentropy`, and passes on the calls that do not fail. `tools/durable` and `tools/examples` build
// it.
//
//   CALLS_FOLDER=FOLDER  the folder; calls on its files and on itself count, and no others but those
//                        on standard input and output, by `read` and `write`
//   CALLS_RECORD=FILE    the file to which each write, cut and sync that succeeds is appended, each
//                        read of standard input, called `read`, and each write to standard output,
//                        called `print`: a line with the call, the offset or new length, the number
//                        of bytes and the name of the file, and then the bytes
//   CALLS_MOST=n         the most bytes that a read of standard input or a write to standard output
//                        moves, if calls of its kind count
//   FAIL_CALL=k          the call that fails, from 1
//   FAIL_KINDS=rwcsioe   the kinds of calls that count: reads, writes, cuts, syncs, reads of standard
//                        input, writes to standard output, and calls for random bytes
//   FAIL_ERROR=n         the error that it sets; without it a `pwrite` writes half of its bytes
//   FAIL_LATER=1         the later calls of these kinds fail too
//   FAIL_MARK=FILE       the file that is created when a call fails
//
// There are no headers, as in fail_allocation.c. The numbers of the system's calls are those of
// x86-64, the only processor of the toolchain.

enum { READ = 0, WRITE = 1, PREAD = 17, PWRITE = 18, FSYNC = 74, FDATASYNC = 75, FTRUNCATE = 77, GETRANDOM = 318 };
enum { APPEND = 02000 | 0100 | 1 }; // O_APPEND | O_CREAT | O_WRONLY
enum outcome { PASSES, IS_SHORT, FAILS };

typedef __SIZE_TYPE__ size_t;
typedef __PTRDIFF_TYPE__ ssize_t;
typedef long off_t;

long syscall(long number, ...);
char *getenv(const char *name);
ssize_t readlink(const char *path, char *target, size_t size);
int open(const char *path, int flags, ...);
int creat(const char *path, unsigned mode);
int close(int file);
int dprintf(int file, const char *format, ...);
int snprintf(char *text, size_t size, const char *format, ...);
size_t strlen(const char *text);
int strncmp(const char *a, const char *b, size_t size);
char *strchr(const char *text, int byte);
int *__errno_location(void);

static unsigned long count;

static unsigned long number(const char *name) {
    const char *digits = getenv(name);
    unsigned long value = 0;
    while (digits && *digits >= '0' && *digits <= '9') value = 10 * value + (*digits++ - '0');
    return value;
}

// The name of an open file of the folder, "." for the folder itself, a null pointer for others.
static const char *name_of(int file) {
    static char path[4096];
    char link[32];
    const char *folder = getenv("CALLS_FOLDER");
    snprintf(link, sizeof link, "/proc/self/fd/%d", file);
    ssize_t length = readlink(link, path, sizeof path - 1);
    if (!folder || length < 0) return 0;
    path[length] = 0;
    size_t end = strlen(folder);
    if (strncmp(path, folder, end)) return 0;
    if (path[end] == '/') return path + end + 1;
    return path[end] ? 0 : ".";
}

static void record(const char *call, long place, const void *bytes, size_t length, const char *name) {
    static int file = -1;
    const char *path = getenv("CALLS_RECORD");
    if (!path) return;
    if (file < 0) file = open(path, APPEND, 0600);
    dprintf(file, "%s %ld %zu %s\n", call, place, length, name);
    if (length > 0) syscall(WRITE, file, bytes, length);
}

// What is to become of a call of this kind.
static enum outcome outcome_of(const char *name, char kind) {
    const char *kinds = getenv("FAIL_KINDS");
    if (!name || !kinds || !strchr(kinds, kind)) return PASSES;
    unsigned long failing = number("FAIL_CALL");
    count++;
    if (count != failing && !(count > failing && getenv("FAIL_LATER"))) return PASSES;
    const char *mark = getenv("FAIL_MARK");
    if (mark) close(creat(mark, 0600));
    if (!getenv("FAIL_ERROR")) return IS_SHORT;
    *__errno_location() = number("FAIL_ERROR");
    return FAILS;
}

ssize_t pread(int file, void *bytes, size_t length, off_t offset) {
    if (outcome_of(name_of(file), 'r') == FAILS) return -1;
    return syscall(PREAD, file, bytes, length, offset);
}

ssize_t pwrite(int file, const void *bytes, size_t length, off_t offset) {
    const char *name = name_of(file);
    enum outcome outcome = outcome_of(name, 'w');
    if (outcome == FAILS) return -1;
    if (outcome == IS_SHORT && length > 1) length /= 2;
    ssize_t written = syscall(PWRITE, file, bytes, length, offset);
    if (name && written > 0) record("write", offset, bytes, written, name);
    return written;
}

int ftruncate(int file, off_t length) {
    const char *name = name_of(file);
    if (outcome_of(name, 'c') == FAILS) return -1;
    int status = syscall(FTRUNCATE, file, length);
    if (name && status == 0) record("cut", length, 0, 0, name);
    return status;
}

static int synced(int file, long call) {
    const char *name = name_of(file);
    if (outcome_of(name, 's') == FAILS) return -1;
    int status = syscall(call, file);
    if (name && status == 0) record("sync", 0, 0, 0, name);
    return status;
}

int fsync(int file) {
    return synced(file, FSYNC);
}

int fdatasync(int file) {
    return synced(file, FDATASYNC);
}

// How many bytes a call of this kind moves at most.
static size_t at_most(size_t length, char kind) {
    const char *kinds = getenv("FAIL_KINDS");
    if (!kinds || !strchr(kinds, kind) || !getenv("CALLS_MOST")) return length;
    size_t most = number("CALLS_MOST");
    return length < most ? length : most;
}

ssize_t read(int file, void *bytes, size_t length) {
    if (file != 0) return syscall(READ, file, bytes, length);
    if (outcome_of("-", 'i') == FAILS) return -1;
    ssize_t taken = syscall(READ, file, bytes, at_most(length, 'i'));
    if (taken >= 0) record("read", 0, bytes, taken, "-");
    return taken;
}

ssize_t write(int file, const void *bytes, size_t length) {
    if (file != 1) return syscall(WRITE, file, bytes, length);
    if (outcome_of("-", 'o') == FAILS) return -1;
    ssize_t written = syscall(WRITE, file, bytes, at_most(length, 'o'));
    if (written > 0) record("print", 0, bytes, written, "-");
    return written;
}

int getentropy(void *bytes, size_t length) {
    if (outcome_of("-", 'e') == FAILS) return -1;
    return syscall(GETRANDOM, bytes, length, 0) == (ssize_t)length ? 0 : -1;
}

// The names by which programs call them that are compiled with 64-bit offsets.
ssize_t pread64(int file, void *bytes, size_t length, off_t offset) __attribute__((alias("pread")));
ssize_t pwrite64(int file, const void *bytes, size_t length, off_t offset) __attribute__((alias("pwrite")));
int ftruncate64(int file, off_t length) __attribute__((alias("ftruncate")));
