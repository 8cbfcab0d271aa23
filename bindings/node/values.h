/* Values of JavaScript from and to C, for addon.c. What fails throws, and returns NULL or false. */
#include <cookie_store.h>
#include <node_api.h>
#include <stdio.h>
#include <stdlib.h>
#include <string.h>

#define COUNT(array) (sizeof(array) / sizeof *(array))

/* A string in UTF-8, in a buffer of the call or, if it is longer, on the heap. */
struct text {
    const char *bytes;
    size_t length;
    char *heap;
    char stack[1000];
};

/* Throws a CookieStoreError with a status and the number of a line, or 0. */
static napi_value fail(napi_env env, enum cookie_store_status status, size_t line) {
    napi_value args[2], constructor, error;
    napi_ref reference = NULL;
    if (napi_get_instance_data(env, (void **)&reference) == napi_ok && reference != NULL &&
        napi_get_reference_value(env, reference, &constructor) == napi_ok &&
        napi_create_uint32(env, status, &args[0]) == napi_ok && napi_create_double(env, (double)line, &args[1]) == napi_ok &&
        napi_new_instance(env, constructor, 2, args, &error) == napi_ok && napi_throw(env, error) == napi_ok)
        return NULL;
    napi_throw_error(env, NULL, cookie_store_status_text(status));
    return NULL;
}

/* Throws a TypeError of an argument, and returns false. */
static bool wrong_type(napi_env env, const char *name, const char *expected) {
    char message[100];
    snprintf(message, sizeof message, "%s must be %s", name, expected);
    napi_throw_type_error(env, "ERR_INVALID_ARG_TYPE", message);
    return false;
}

static napi_value number(napi_env env, double value) {
    napi_value result;
    return napi_create_double(env, value, &result) == napi_ok ? result : fail(env, COOKIE_STORE_NO_MEMORY, 0);
}

static napi_value string(napi_env env, const char *bytes, size_t length) {
    napi_value result;
    return napi_create_string_utf8(env, bytes, length, &result) == napi_ok ? result : fail(env, COOKIE_STORE_NO_MEMORY, 0);
}

/* Returns undefined, or throws if the status is an error. */
static napi_value finish(napi_env env, enum cookie_store_status status) {
    napi_value result = NULL;
    if (status != COOKIE_STORE_OK) return fail(env, status, 0);
    napi_get_undefined(env, &result);
    return result;
}

static void free_texts(struct text *texts, size_t count) {
    while (count > 0) free(texts[--count].heap);
}

/* Sets the buffer of a text, for a length and a terminating zero. */
static char *reserve(napi_env env, struct text *text, size_t length) {
    text->length = length;
    text->heap = NULL;
    if (length >= sizeof text->stack) {
        text->heap = malloc(length + 1);
        if (text->heap == NULL) fail(env, COOKIE_STORE_NO_MEMORY, 0);
        text->bytes = text->heap;
        return text->heap;
    }
    text->bytes = text->stack;
    return text->stack;
}

/* Reads a Uint8Array. The bytes are copied: another thread may write to shared ones while the library reads them. */
static bool read_bytes(napi_env env, napi_value value, const char *name, struct text *text) {
    bool is_array = false;
    napi_typedarray_type type;
    size_t length;
    void *data;
    if (napi_is_typedarray(env, value, &is_array) != napi_ok || !is_array ||
        napi_get_typedarray_info(env, value, &type, &length, &data, NULL, NULL) != napi_ok || type != napi_uint8_array)
        return wrong_type(env, name, "a string or a Uint8Array");
    char *buffer = reserve(env, text, length);
    if (buffer != NULL && length > 0) memcpy(buffer, data, length);
    return buffer != NULL;
}

/* Reads a string, in which a lone surrogate becomes U+FFFD, or a Uint8Array. */
static bool read_text(napi_env env, napi_value value, const char *name, struct text *text) {
    size_t length;
    char *buffer = reserve(env, text, 0);
    napi_status status = napi_get_value_string_utf8(env, value, buffer, sizeof text->stack, &text->length);
    if (status != napi_ok) return read_bytes(env, value, name, text);
    // What does not fit ends before a character of at most 4 bytes.
    if (text->length < sizeof text->stack - 4) return true;
    if (napi_get_value_string_utf8(env, value, NULL, 0, &length) != napi_ok) return wrong_type(env, name, "a string");
    buffer = reserve(env, text, length);
    return buffer != NULL && napi_get_value_string_utf8(env, value, buffer, length + 1, &text->length) == napi_ok;
}

/* Reads the first arguments of a call, which have these names, to be freed by free_texts. */
static bool read_texts(napi_env env, const napi_value *args, const char *const *names, struct text *texts, size_t count) {
    for (size_t at = 0; at < count; at++) {
        if (read_text(env, args[at], names[at], &texts[at])) continue;
        free_texts(texts, at + 1);
        return false;
    }
    return true;
}

/* Reads seconds since 1970, rounded down. What the library cannot take becomes a time that is out of its range. */
static bool read_time(napi_env env, napi_value value, const char *name, int64_t *time) {
    double seconds;
    if (napi_get_value_double(env, value, &seconds) != napi_ok)
        return wrong_type(env, name, "a Date or a number of seconds");
    *time = INT64_MAX;
    if (!(seconds > -1e15 && seconds < 1e15)) return true;
    *time = (int64_t)seconds;
    if ((double)*time > seconds) --*time;
    return true;
}

static bool read_number(napi_env env, napi_value value, const char *name, uint32_t *result) {
    return napi_get_value_uint32(env, value, result) == napi_ok || wrong_type(env, name, "a number");
}

static bool read_bool(napi_env env, napi_value value, const char *name, bool *result) {
    return napi_get_value_bool(env, value, result) == napi_ok || wrong_type(env, name, "a boolean");
}

/* Returns an array of a string and a number, or NULL if a value is. */
static napi_value pair(napi_env env, napi_value first, napi_value second) {
    napi_value result;
    bool is_made = first != NULL && second != NULL && napi_create_array_with_length(env, 2, &result) == napi_ok &&
                   napi_set_element(env, result, 0, first) == napi_ok && napi_set_element(env, result, 1, second) == napi_ok;
    return is_made ? result : NULL;
}

/* Returns an array of line numbers. */
static napi_value lines_of(napi_env env, const size_t *lines, size_t count) {
    napi_value array;
    if (napi_create_array_with_length(env, count, &array) != napi_ok) return fail(env, COOKIE_STORE_NO_MEMORY, 0);
    for (size_t at = 0; at < count; at++) {
        napi_value line = number(env, (double)lines[at]);
        if (line == NULL || napi_set_element(env, array, (uint32_t)at, line) != napi_ok) return NULL;
    }
    return array;
}

/* The header values of a response, one after the other, and their lengths, with room for their statuses: in buffers of the call or, if
 * there are more, on the heap. */
struct response {
    size_t count, length, room;
    char *bytes;
    size_t *lens;
    enum cookie_store_status *statuses;
    size_t few_lens[20];
    enum cookie_store_status few_statuses[20];
    char stack[4000];
};

static void free_response(struct response *response) {
    if (response->bytes != response->stack) free(response->bytes);
    if (response->lens != response->few_lens) free(response->lens);
    if (response->statuses != response->few_statuses) free(response->statuses);
}

/* Sets the buffers of a response without header values, for this many. */
static bool begin_response(napi_env env, struct response *response, size_t count) {
    response->count = response->length = 0;
    response->room = sizeof response->stack;
    response->bytes = response->stack;
    response->lens = response->few_lens;
    response->statuses = response->few_statuses;
    if (count <= COUNT(response->few_lens)) return true;
    response->lens = malloc(count * sizeof *response->lens);
    response->statuses = malloc(count * sizeof *response->statuses);
    if (response->lens != NULL && response->statuses != NULL) return true;
    fail(env, COOKIE_STORE_NO_MEMORY, 0);
    return false;
}

/* Makes room for more bytes. */
static bool extend_response(napi_env env, struct response *response, size_t length) {
    if (length <= response->room - response->length) return true;
    response->room = 2 * (response->length + length);
    char *bytes = malloc(response->room);
    if (bytes == NULL) {
        fail(env, COOKIE_STORE_NO_MEMORY, 0);
        return false;
    }
    memcpy(bytes, response->bytes, response->length);
    if (response->bytes != response->stack) free(response->bytes);
    response->bytes = bytes;
    return true;
}

/* Appends an element of an array to a response. */
static bool append_value(napi_env env, napi_value array, uint32_t at, struct response *response) {
    napi_value value;
    struct text text;
    if (napi_get_element(env, array, at, &value) != napi_ok) return false;
    bool is_read = read_text(env, value, "value", &text) && extend_response(env, response, text.length);
    if (is_read) {
        memcpy(response->bytes + response->length, text.bytes, text.length);
        response->length += text.length;
        response->lens[response->count++] = text.length;
    }
    free_texts(&text, 1);
    return is_read;
}

/* Reads an array of header values, to be freed by free_response, also if it fails. */
static bool read_response(napi_env env, napi_value array, struct response *response) {
    uint32_t count;
    if (napi_get_array_length(env, array, &count) != napi_ok) {
        begin_response(env, response, 0);
        return wrong_type(env, "values", "an array");
    }
    bool is_read = begin_response(env, response, count);
    for (uint32_t at = 0; is_read && at < count; at++) {
        napi_handle_scope scope;
        if (napi_open_handle_scope(env, &scope) != napi_ok) {
            fail(env, COOKIE_STORE_NO_MEMORY, 0);
            return false;
        }
        is_read = append_value(env, array, at, response);
        napi_close_handle_scope(env, scope);
    }
    return is_read;
}

/* Returns an array of the numbers of the statuses. */
static napi_value statuses_of(napi_env env, const struct response *response) {
    napi_value array;
    if (napi_create_array_with_length(env, response->count, &array) != napi_ok) return fail(env, COOKIE_STORE_NO_MEMORY, 0);
    for (size_t at = 0; at < response->count; at++) {
        napi_value status = number(env, response->statuses[at]);
        if (status == NULL || napi_set_element(env, array, (uint32_t)at, status) != napi_ok) return NULL;
    }
    return array;
}

/* Rows and their strings, in buffers of the call or, if there are more, on the heap. */
struct listing {
    size_t count, length;
    cookie_store_row *rows;
    char *strings;
    cookie_store_row few[20];
    char stack[2000];
};

static void free_listing(struct listing *list) {
    if (list->rows != list->few) free(list->rows);
    if (list->strings != list->stack) free(list->strings);
}

enum { FIELDS = 6 };

/* Puts the domain, path, name, value, expiry or null, and flags of a cookie into an array. */
static bool put_row(napi_env env, napi_value array, uint32_t at, const cookie_store_row *row, const char *strings) {
    const size_t lengths[] = {row->domain_len, row->path_len, row->name_len, row->value_len};
    const uint32_t flags = row->host_only | row->has_path << 1 | row->secure << 2 | row->http_only << 3 | row->same_site << 4;
    napi_value field;
    for (size_t i = 0; i < COUNT(lengths); i++, at++) {
        field = string(env, strings, lengths[i]);
        if (field == NULL || napi_set_element(env, array, at, field) != napi_ok) return false;
        strings += lengths[i];
    }
    if (row->persistent) field = number(env, (double)row->expires);
    else if (napi_get_null(env, &field) != napi_ok) field = NULL;
    if (field == NULL || napi_set_element(env, array, at, field) != napi_ok) return false;
    field = number(env, flags);
    return field != NULL && napi_set_element(env, array, at + 1, field) == napi_ok;
}

/* Reads the expiry and the flags that put_row puts. */
static bool read_row(napi_env env, napi_value expires, napi_value flags, cookie_store_row *row) {
    napi_valuetype type;
    uint32_t bits;
    memset(row, 0, sizeof *row);
    if (!read_number(env, flags, "flags", &bits) || napi_typeof(env, expires, &type) != napi_ok) return false;
    row->persistent = type != napi_null;
    row->host_only = bits & 1;
    row->has_path = bits >> 1 & 1;
    row->secure = bits >> 2 & 1;
    row->http_only = bits >> 3 & 1;
    row->same_site = bits >> 4;
    return !row->persistent || read_time(env, expires, "expires", &row->expires);
}

/* Returns an array with the fields of all rows, one after the other. */
static napi_value array_of(napi_env env, const struct listing *list) {
    napi_value array;
    const char *strings = list->strings;
    if (napi_create_array_with_length(env, list->count * FIELDS, &array) != napi_ok) return fail(env, COOKIE_STORE_NO_MEMORY, 0);
    for (size_t at = 0; at < list->count; at++) {
        const cookie_store_row *row = &list->rows[at];
        napi_handle_scope scope;
        if (napi_open_handle_scope(env, &scope) != napi_ok) return fail(env, COOKIE_STORE_NO_MEMORY, 0);
        bool is_put = put_row(env, array, (uint32_t)(at * FIELDS), row, strings);
        napi_close_handle_scope(env, scope);
        if (!is_put) return NULL;
        strings += row->domain_len + row->path_len + row->name_len + row->value_len;
    }
    return array;
}
