/* Makes calls of the C library, with allocations that fail, and checks each: its status, what it writes, and that the stores are
   unchanged if it fails. Standard input has cases; tools/fuzz calls makes them, and says what is checked.

   A call is a line, and then its strings. The line has the name of the call, the allocation that fails (k: the kth one, -k: the
   kth and all after it, 0: none), the statuses that it may have, as bits, its numbers, in the order of `struct call`, and the
   lengths of its strings. A case ends with the call `end`. The number of cases is printed after each of them. */
#include <cookie_store.h>
#include <err.h>
#include <inttypes.h>
#include <stdio.h>
#include <stdlib.h>
#include <string.h>

enum { HANDLES = 3, STRINGS = 4, ROOM = 1 << 14, ITEMS = 64, UNSET = 77, UNTOUCHED = 0xa5 };

#define FIRST INT64_C(-377705116800)
#define LAST INT64_C(253402300799)

struct string {
    char *at;
    size_t length;
};

struct call {
    char name[32];
    long failing;
    uint64_t allowed;
    size_t handle, other;   /* which of the handles; `other` is another one, also if it takes one alone */
    int64_t now;            /* 0 if it takes no time */
    size_t room, items;     /* the lengths of its buffers, in bytes, and in rows or numbers of lines */
    size_t option, which;   /* any other numbers */
    struct string strings[STRINGS];
};

/* What a call that succeeds does: none of what `look` sees, or to the store, or to an empty handle, or to two handles. */
enum effect { READS, CHANGES, BEGINS, ENDS, CLONES, MERGES };

/* The call that is made now, of this number in its case. */
static const struct call *current;
static int number;

static cookie_store stores[HANDLES];
static bool is_begun[HANDLES];

/* What calls write to, and what is there before. */
static char out[ROOM], untouched[ROOM];
static cookie_store_row rows[ITEMS];
static size_t lines[ITEMS];

static void require(bool is_well, const char *why) {
    if (!is_well) errx(1, "call %d, %s: %s", number, current->name, why);
}

/* The allocations of a call: how many it made, and how many the library holds. The linker has each call of malloc, realloc and
   free call these (--wrap). */
static bool is_counting;
static long made, held;

void *__real_malloc(size_t size);
void *__real_realloc(void *old, size_t size);
void __real_free(void *memory);
void *__wrap_malloc(size_t size);
void *__wrap_realloc(void *old, size_t size);
void __wrap_free(void *memory);

static bool fails(void) {
    if (!is_counting) return false;
    made++;
    return made == current->failing || (current->failing < 0 && made >= -current->failing);
}

void *__wrap_malloc(size_t size) {
    void *memory = fails() ? NULL : __real_malloc(size);
    held += is_counting && memory;
    return memory;
}

void *__wrap_realloc(void *old, size_t size) {
    void *memory = fails() ? NULL : __real_realloc(old, size);
    held += is_counting && !old && memory;
    return memory;
}

void __wrap_free(void *memory) {
    held -= is_counting && memory;
    __real_free(memory);
}

/* Whether an allocation of the call failed. */
static bool did_fail(void) { return current->failing && made >= labs(current->failing); }

/* What can be read of a store. */
struct view {
    size_t count, length, limit;
    bool is_strict;
    cookie_store_row *rows;
    char *strings;
};

static void *checked(void *memory) {
    if (!memory) errx(2, "out of memory");
    return memory;
}

static struct view look(cookie_store *store) {
    struct view view = {.limit = cookie_store_domain_limit(store), .is_strict = cookie_store_is_strict(store)};
    cookie_store_rows(store, rows, 0, out, 0, &view.count, &view.length);
    view.rows = checked(calloc(view.count + 1, sizeof *view.rows));
    view.strings = checked(malloc(view.length + 1));
    cookie_store_rows(store, view.rows, view.count, view.strings, view.length, &view.count, &view.length);
    require(view.count == cookie_store_count(store), "the rows are not as many as the cookies");
    return view;
}

static void forget(struct view *view) {
    free(view->rows);
    free(view->strings);
}

static bool is_same_row(const cookie_store_row *one, const cookie_store_row *other) {
    return one->domain_len == other->domain_len && one->path_len == other->path_len && one->name_len == other->name_len &&
           one->value_len == other->value_len && one->expires == other->expires && one->persistent == other->persistent &&
           one->host_only == other->host_only && one->has_path == other->has_path && one->secure == other->secure &&
           one->http_only == other->http_only && one->same_site == other->same_site;
}

static bool is_same(const struct view *one, const struct view *other) {
    if (one->count != other->count || one->length != other->length || one->limit != other->limit || one->is_strict != other->is_strict)
        return false;
    for (size_t at = 0; at < one->count; at++)
        if (!is_same_row(&one->rows[at], &other->rows[at])) return false;
    return memcmp(one->strings, other->strings, one->length) == 0;
}

/* Whether a buffer has what was there before a call, from `at` on. */
static bool is_untouched(const void *buffer, size_t at, size_t size) {
    return memcmp((const char *)buffer + at, untouched, size - at) == 0;
}

/* A buffer of `size` bytes that a call may write to up to `room`, in items of `item` bytes, has `needed` of them, or none. */
static void check_buffer(enum cookie_store_status status, const void *buffer, size_t size, size_t item, size_t room, size_t needed) {
    bool is_written = status == COOKIE_STORE_OK;
    require(!is_written || needed <= room, "it succeeds with a buffer that is too short");
    require(is_written || status == COOKIE_STORE_NO_ROOM || needed == 0, "the length is not 0");
    require(is_untouched(buffer, is_written ? needed * item : 0, size), "it writes to the buffer");
}

static void check_out(enum cookie_store_status status, size_t needed) {
    check_buffer(status, out, sizeof out, 1, current->room, needed);
    require(status != COOKIE_STORE_NO_ROOM || needed > current->room, "the buffer is long enough");
}

/* The lengths in the rows add up to that of the strings. */
static void check_rows(enum cookie_store_status status, size_t rows_needed, size_t strings_needed) {
    size_t length = 0;
    check_buffer(status, rows, sizeof rows, sizeof *rows, current->items, rows_needed);
    check_buffer(status, out, sizeof out, 1, current->room, strings_needed);
    bool fits = rows_needed <= current->items && strings_needed <= current->room;
    require(status != COOKIE_STORE_NO_ROOM || !fits, "the buffers are long enough");
    for (size_t at = 0; status == COOKIE_STORE_OK && at < rows_needed; at++)
        length += rows[at].domain_len + rows[at].path_len + rows[at].name_len + rows[at].value_len;
    require(status != COOKIE_STORE_OK || length == strings_needed, "the strings have another length than the rows");
}

/* The arguments of a call. */
#define STORE (&stores[call->handle])
#define OTHER (&stores[call->other])
#define TEXT(number) call->strings[number].at, call->strings[number].length

static enum cookie_store_status make_new(const struct call *call) { return cookie_store_new(STORE, TEXT(0)); }
static enum cookie_store_status make_clone(const struct call *call) { return cookie_store_clone(STORE, OTHER); }
static enum cookie_store_status make_clear(const struct call *call) { return cookie_store_clear(STORE); }
static enum cookie_store_status make_set_hash_key(const struct call *call) { return cookie_store_set_hash_key(STORE, TEXT(0)); }

static enum cookie_store_status make_free(const struct call *call) {
    cookie_store_free(STORE);
    return COOKIE_STORE_OK;
}

static enum cookie_store_status make_set_suffix_list(const struct call *call) {
    size_t line = UNSET;
    enum cookie_store_status status = cookie_store_set_suffix_list(STORE, TEXT(0), call->option % 2, &line);
    require((line > 0) == (status == COOKIE_STORE_BAD_RULE), "the number of the line");
    return status;
}

static enum cookie_store_status make_set_domain_limit(const struct call *call) {
    enum cookie_store_status status = cookie_store_set_domain_limit(STORE, call->option);
    require(status != COOKIE_STORE_OK || cookie_store_domain_limit(STORE) == call->option, "the limit is another one");
    return status;
}

static enum cookie_store_status make_domain_limit(const struct call *call) {
    require(is_begun[call->handle] || cookie_store_domain_limit(STORE) == 0, "an empty handle has a limit");
    return COOKIE_STORE_OK;
}

static enum cookie_store_status make_set_strict(const struct call *call) {
    enum cookie_store_status status = cookie_store_set_strict(STORE, call->option % 2);
    require(status != COOKIE_STORE_OK || cookie_store_is_strict(STORE) == call->option % 2, "it is not as set");
    return status;
}

static enum cookie_store_status make_is_strict(const struct call *call) {
    require(is_begun[call->handle] || !cookie_store_is_strict(STORE), "an empty handle is strict");
    return COOKIE_STORE_OK;
}

static enum cookie_store_status make_count(const struct call *call) {
    require(is_begun[call->handle] || cookie_store_count(STORE) == 0, "an empty handle has cookies");
    return COOKIE_STORE_OK;
}

/* A cookie that is inserted is one more, or others are evicted. */
static void check_inserted(enum cookie_store_status status, const struct call *call, size_t before) {
    size_t limit = cookie_store_domain_limit(STORE), after = cookie_store_count(STORE);
    bool is_one_more = limit ? after <= before + 1 : after == before + 1;
    require(status != COOKIE_STORE_INSERTED || is_one_more, "another number of cookies is inserted");
    require(status == COOKIE_STORE_INSERTED || after == before, "the number of cookies changes");
}

static enum cookie_store_status make_parse(const struct call *call) {
    size_t before = cookie_store_count(STORE);
    enum cookie_store_status status = cookie_store_parse(STORE, TEXT(0), TEXT(1), call->now);
    check_inserted(status, call, before);
    return status;
}

/* A response has three header values. The option is whether their lengths add up to one byte more, or there is one status less. */
enum { VALUES = 3, TOO_LONG = 1, TOO_FEW = 2 };

/* The header values, one after the other, and their lengths. */
struct response {
    char *values;
    size_t length, lens[VALUES];
};

static struct response join_values(const struct call *call) {
    struct response response = {NULL, 0, {0}};
    for (size_t at = 0; at < VALUES; at++) {
        const struct string *value = &call->strings[at + 1];
        response.values = checked(realloc(response.values, response.length + value->length + 1));
        memcpy(response.values + response.length, value->at, value->length);
        response.length += response.lens[at] = value->length;
    }
    return response;
}

/* Inserts each cookie by a call of its own, unless memory ran out for it: the statuses are the same, and then the cookies. */
static void check_each(const struct call *call, cookie_store *copy, const enum cookie_store_status *statuses) {
    for (size_t at = 0; at < VALUES; at++) {
        bool ran_out = statuses[at] == COOKIE_STORE_NO_MEMORY;
        require(!ran_out || did_fail(), "a header value is out of memory, and no allocation failed");
        require(ran_out || cookie_store_parse(copy, TEXT(0), TEXT(at + 1), call->now) == statuses[at], "a call alone has another status");
    }
    struct view view = look(STORE), single = look(copy);
    require(is_same(&view, &single), "calls alone leave other cookies");
    forget(&view);
    forget(&single);
}

static enum cookie_store_status make_parse_each(const struct call *call) {
    cookie_store copy = COOKIE_STORE_INIT;
    enum cookie_store_status statuses[VALUES];
    memset(statuses, UNTOUCHED, sizeof statuses);
    is_counting = false;
    struct response response = join_values(call);
    cookie_store_clone(STORE, &copy);
    response.lens[VALUES - 1] += call->option == TOO_LONG;
    is_counting = true;
    enum cookie_store_status status = cookie_store_parse_each(STORE, TEXT(0), response.values, response.length, response.lens, VALUES,
                                                              call->now, statuses, VALUES - (call->option == TOO_FEW));
    is_counting = false;
    if (status == COOKIE_STORE_OK) check_each(call, &copy, statuses);
    else require(is_untouched(statuses, 0, sizeof statuses), "it writes a status");
    cookie_store_free(&copy);
    free(response.values);
    return status;
}

static enum cookie_store_status make_parse_for(const struct call *call) {
    size_t before = cookie_store_count(STORE);
    enum cookie_store_status status = cookie_store_parse_for(STORE, TEXT(0), TEXT(1), TEXT(2), call->now, (uint32_t)call->option);
    check_inserted(status, call, before);
    return status;
}

/* The lengths are any: the call does not read them. */
static enum cookie_store_status make_insert(const struct call *call) {
    size_t before = cookie_store_count(STORE), flags = call->items;
    cookie_store_row row = {UNSET, SIZE_MAX, 0, UNSET, (int64_t)call->which, flags & 1, flags & 2, flags & 4, flags & 8, flags & 16,
                            (enum cookie_store_same_site)call->option};
    enum cookie_store_status status = cookie_store_insert(STORE, TEXT(0), TEXT(1), TEXT(2), TEXT(3), &row, call->now);
    check_inserted(status, call, before);
    return status;
}

static enum cookie_store_status make_header(const struct call *call) {
    size_t needed = UNSET;
    enum cookie_store_status status = cookie_store_header(STORE, TEXT(0), call->now, out, call->room, &needed);
    check_out(status, needed);
    return status;
}

static enum cookie_store_status make_header_cross_site(const struct call *call) {
    size_t needed = UNSET;
    enum cookie_store_status status =
        cookie_store_header_cross_site(STORE, TEXT(0), call->now, (uint32_t)call->option, out, call->room, &needed);
    check_out(status, needed);
    return status;
}

static enum cookie_store_status make_header_for(const struct call *call) {
    size_t needed = UNSET;
    enum cookie_store_status status =
        cookie_store_header_for(STORE, TEXT(0), TEXT(1), call->now, (uint32_t)call->option, out, call->room, &needed);
    check_out(status, needed);
    return status;
}

static enum cookie_store_status make_remove(const struct call *call) { return cookie_store_remove(STORE, TEXT(0), TEXT(1), TEXT(2)); }

/* What is removed is what the store then lacks. */
static void check_removed(enum cookie_store_status status, const struct call *call, size_t before, size_t removed) {
    require(status == COOKIE_STORE_OK || removed == 0, "the number is not 0");
    require(cookie_store_count(STORE) + removed == before, "another number of cookies is removed");
}

static enum cookie_store_status make_remove_domain(const struct call *call) {
    size_t removed = UNSET, before = cookie_store_count(STORE);
    enum cookie_store_status status = cookie_store_remove_domain(STORE, TEXT(0), &removed);
    check_removed(status, call, before, removed);
    return status;
}

static enum cookie_store_status make_remove_expired(const struct call *call) {
    size_t removed = UNSET, before = cookie_store_count(STORE);
    enum cookie_store_status status = cookie_store_remove_expired(STORE, call->now, &removed);
    check_removed(status, call, before, removed);
    return status;
}

static enum cookie_store_status make_rows(const struct call *call) {
    size_t rows_needed = UNSET, strings_needed = UNSET;
    enum cookie_store_status status = cookie_store_rows(STORE, rows, call->items, out, call->room, &rows_needed, &strings_needed);
    check_rows(status, rows_needed, strings_needed);
    return status;
}

static enum cookie_store_status make_cookies_for(const struct call *call) {
    size_t rows_needed = UNSET, strings_needed = UNSET;
    enum cookie_store_status status =
        cookie_store_cookies_for(STORE, TEXT(0), call->now, rows, call->items, out, call->room, &rows_needed, &strings_needed);
    check_rows(status, rows_needed, strings_needed);
    return status;
}

static enum cookie_store_status make_save(const struct call *call) {
    size_t needed = UNSET, left_out = UNSET;
    enum cookie_store_status status =
        cookie_store_save(STORE, (enum cookie_store_format)call->option, (enum cookie_store_which)call->which, call->now, out, call->room,
                          &needed, &left_out);
    bool may_leave_out = call->option == COOKIE_STORE_NETSCAPE_LENIENT && (status == COOKIE_STORE_OK || status == COOKIE_STORE_NO_ROOM);
    check_out(status, needed);
    require(status != COOKIE_STORE_OK || (needed > 0 && out[needed - 1] == '\n'), "the last byte is no line feed");
    require(may_leave_out ? left_out <= cookie_store_count(STORE) : left_out == 0, "the number of those left out");
    return status;
}

/* The numbers of lines rise. */
static enum cookie_store_status make_load(const struct call *call) {
    size_t malformed = UNSET;
    enum cookie_store_status status =
        cookie_store_load(STORE, TEXT(0), (enum cookie_store_format)call->option, (enum cookie_store_which)call->which, TEXT(1), call->now,
                          lines, call->items, &malformed);
    bool may_be_malformed = call->option == COOKIE_STORE_NETSCAPE_LENIENT && status == COOKIE_STORE_OK;
    size_t written = malformed < call->items ? malformed : call->items;
    require(status == COOKIE_STORE_BAD_LINE ? malformed == 1 : may_be_malformed || malformed == 0, "the number of malformed lines");
    require(is_untouched(lines, written * sizeof *lines, sizeof lines), "it writes to the lines");
    for (size_t at = 0; at < written; at++) require(lines[at] > (at ? lines[at - 1] : 0), "the numbers of the lines do not rise");
    return status;
}

static enum cookie_store_status make_merge(const struct call *call) {
    size_t left_out = UNSET, most = cookie_store_count(OTHER);
    enum cookie_store_status status = cookie_store_merge(STORE, OTHER, call->now, &left_out);
    require(left_out <= (status == COOKIE_STORE_OK ? most : 0), "the number of those left out");
    return status;
}

static enum cookie_store_status make_root(const struct call *call) {
    size_t needed = UNSET;
    enum cookie_store_status status = cookie_store_root(STORE, TEXT(0), out, call->room, &needed);
    check_out(status, needed);
    return status;
}

/* The root of a domain is an end of it. */
static enum cookie_store_status make_root_of_domain(const struct call *call) {
    size_t needed = UNSET, length = call->strings[0].length;
    enum cookie_store_status status = cookie_store_root_of_domain(STORE, TEXT(0), out, call->room, &needed);
    check_out(status, needed);
    require(status != COOKIE_STORE_OK || (needed <= length && memcmp(out, call->strings[0].at + length - needed, needed) == 0),
            "the root is no end of the domain");
    return status;
}

static enum cookie_store_status make_shard(const struct call *call) {
    uint32_t shard = UNSET, shards = (uint32_t)call->option;
    enum cookie_store_status status = cookie_store_shard(TEXT(0), shards, &shard);
    require(status == COOKIE_STORE_OK ? shard < shards : shard == 0, "the number of the shard");
    return status;
}

static const struct {
    const char *name;
    enum cookie_store_status (*make)(const struct call *);
    enum effect effect;
} CALLS[] = {
    {"new", make_new, BEGINS},
    {"clone", make_clone, CLONES},
    {"free", make_free, ENDS},
    {"set_suffix_list", make_set_suffix_list, READS},
    {"set_domain_limit", make_set_domain_limit, CHANGES},
    {"domain_limit", make_domain_limit, READS},
    {"set_strict", make_set_strict, CHANGES},
    {"is_strict", make_is_strict, READS},
    {"set_hash_key", make_set_hash_key, READS},
    {"parse", make_parse, CHANGES},
    {"parse_each", make_parse_each, CHANGES},
    {"parse_for", make_parse_for, CHANGES},
    {"insert", make_insert, CHANGES},
    {"header", make_header, READS},
    {"header_cross_site", make_header_cross_site, READS},
    {"header_for", make_header_for, READS},
    {"remove", make_remove, CHANGES},
    {"remove_domain", make_remove_domain, CHANGES},
    {"clear", make_clear, CHANGES},
    {"remove_expired", make_remove_expired, CHANGES},
    {"count", make_count, READS},
    {"rows", make_rows, READS},
    {"cookies_for", make_cookies_for, READS},
    {"save", make_save, READS},
    {"load", make_load, BEGINS},
    {"merge", make_merge, MERGES},
    {"root", make_root, READS},
    {"root_of_domain", make_root_of_domain, READS},
    {"shard", make_shard, READS},
};

/* The status is one that the header lists, and those of empty handles, of times and of allocations have their reason. */
static void check_status(const struct call *call, enum effect effect, enum cookie_store_status status) {
    const uint64_t no_store = UINT64_C(1) << COOKIE_STORE_NO_STORE;
    bool is_empty = !is_begun[call->handle] || (effect == MERGES && !is_begun[call->other]);
    bool is_full = effect == BEGINS ? is_begun[call->handle] : effect == CLONES && !is_empty && is_begun[call->other];
    bool is_in_range = call->now >= FIRST && call->now <= LAST;
    const char *text = cookie_store_status_text(status);
    require(strcmp(text, "unknown status") != 0, "the status is unknown");
    if (!(call->allowed >> status & 1)) errx(1, "call %d, %s: the header does not list the status '%s'", number, call->name, text);
    require(status != COOKIE_STORE_NO_MEMORY || did_fail(), "it is out of memory, and no allocation failed");
    require((status == COOKIE_STORE_NO_STORE) == (is_empty && call->allowed & no_store), "NO_STORE is not exactly for an empty handle");
    require((status == COOKIE_STORE_HAS_STORE) == is_full, "HAS_STORE is not exactly for a handle that holds a store");
    require(is_in_range ? status != COOKIE_STORE_BAD_TIME : status >= COOKIE_STORE_NO_MEMORY, "BAD_TIME is not exactly for a time out of range");
}

/* A call that fails or only reads changes nothing, a copy is as its original, and no call changes another store. */
static void check_stores(const struct call *call, enum effect effect, enum cookie_store_status status, const struct view *before,
                         const struct view *other_before) {
    struct view after = look(STORE), other_after = look(OTHER);
    bool is_done = status < 10, is_copied = is_done && effect == CLONES;
    bool may_change = is_done ? effect != READS && effect != CLONES : effect == MERGES && status == COOKIE_STORE_NO_MEMORY;
    require(may_change || is_same(before, &after), "the store changed");
    require(is_same(is_copied ? before : other_before, &other_after), is_copied ? "the copy differs" : "another store changed");
    require(effect != ENDS || after.count == 0, "the freed handle has cookies");
    if (is_done && effect == BEGINS) is_begun[call->handle] = true;
    if (effect == ENDS) is_begun[call->handle] = false;
    if (is_copied) is_begun[call->other] = true;
    forget(&after);
    forget(&other_after);
}

static void make_call(const struct call *call, size_t at) {
    struct view before = look(STORE), other_before = look(OTHER);
    memset(out, UNTOUCHED, sizeof out);
    memset(rows, UNTOUCHED, sizeof rows);
    memset(lines, UNTOUCHED, sizeof lines);
    made = 0;
    is_counting = true;
    enum cookie_store_status status = CALLS[at].make(call);
    is_counting = false;
    check_status(call, CALLS[at].effect, status);
    check_stores(call, CALLS[at].effect, status, &before, &other_before);
    forget(&before);
    forget(&other_before);
}

/* Frees all stores, after which the library must hold no memory. */
static void end_case(void) {
    is_counting = true;
    for (int handle = 0; handle < HANDLES; handle++) cookie_store_free(&stores[handle]);
    is_counting = false;
    require(held == 0, "memory is not freed");
    memset(is_begun, 0, sizeof is_begun);
    number = 0;
}

static void read_string(struct string *string) {
    string->at = checked(malloc(string->length + !string->length));
    if (fread(string->at, 1, string->length, stdin) != string->length) errx(2, "bad input");
}

/* Reads a call, and returns whether there is one. */
static bool read_call(struct call *call) {
    struct string *strings = call->strings;
    int words = scanf("%31s %ld %" SCNu64 " %zu %zu %" SCNd64 " %zu %zu %zu %zu %zu %zu %zu %zu", call->name, &call->failing,
                      &call->allowed, &call->handle, &call->other, &call->now, &call->room, &call->items, &call->option, &call->which,
                      &strings[0].length, &strings[1].length, &strings[2].length, &strings[3].length);
    if (words == EOF) return false;
    bool is_well = words == 14 && getchar() == '\n' && call->handle < HANDLES && call->other < HANDLES && call->handle != call->other;
    if (!is_well || call->room > ROOM || call->items > ITEMS) errx(2, "bad input");
    for (int at = 0; at < STRINGS; at++) read_string(&strings[at]);
    return true;
}

/* Makes the call of its name, or ends the case. */
static void play(const struct call *call) {
    for (size_t at = 0; at < sizeof CALLS / sizeof *CALLS; at++) {
        if (strcmp(CALLS[at].name, call->name) == 0) {
            number++;
            make_call(call, at);
            return;
        }
    }
    if (strcmp(call->name, "end") != 0) errx(2, "there is no call %s", call->name);
    end_case();
}

int main(void) {
    struct call call;
    size_t cases = 0;
    memset(untouched, UNTOUCHED, sizeof untouched);
    while (read_call(&call)) {
        current = &call;
        play(&call);
        for (int at = 0; at < STRINGS; at++) free(call.strings[at].at);
        if (strcmp(call.name, "end") != 0) continue;
        printf("%zu\n", ++cases);
        fflush(stdout);
    }
    return 0;
}
