/* Gets URLs with libcurl, and keeps their cookies in a file between two runs.
       cc -o fetch fetch.c $(pkg-config --cflags --libs cookie_store libcurl)
       ./fetch cookies.json http://example.com/
   It follows redirects itself, so that each request is sent the cookies that match its URL, and the
   store takes those of its response. Both libcurl and the store are passed the URL that libcurl's URL
   parser writes: in http://a\@b/ each could find another host. The user and the password of a URL
   are removed; a client that needs them passes them by CURLOPT_USERPWD.
   It prints the body of the last response to each URL on a line.
   Exit status: 0; 1 if a URL or the file failed; 2 for wrong usage. */
#define _GNU_SOURCE
#include <cookie_store.h>
#include <curl/curl.h>
#include <err.h>
#include <errno.h>
#include <locale.h>
#include <stdio.h>
#include <stdlib.h>
#include <string.h>
#include <strings.h>
#include <sys/random.h>
#include <time.h>
#include <unistd.h>

enum { MOST_REDIRECTS = 20 };

struct response {
    cookie_store *store;
    const char *url;
    char *body;
    size_t length;
};

static void *checked(void *memory) {
    if (!memory) errx(1, "out of memory");
    return memory;
}

static void check(enum cookie_store_status status, const char *what) {
    if (status != COOKIE_STORE_OK) errx(1, "%s: %s", what, cookie_store_status_text(status));
}

/* Returns the content of a file, which the caller frees, or NULL if there is no such file. */
static char *read_file(const char *path, size_t *length) {
    FILE *file = fopen(path, "rb");
    char *content = NULL;
    size_t room = 0, count = 0;
    if (!file && errno == ENOENT) return NULL;
    if (!file) err(1, "%s", path);
    do {
        room = 2 * room + 4096;
        content = checked(realloc(content, room));
        count += fread(content + count, 1, room - count, file);
    } while (count == room);
    if (ferror(file)) err(1, "%s", path);
    fclose(file);
    *length = count;
    return content;
}

/* Replaces a file: after a crash it has either the old content or the new. mkstemp gives it mode 0600. */
static void write_file(const char *path, const char *content, size_t length) {
    char *new_path = NULL;
    if (asprintf(&new_path, "%s.XXXXXX", path) < 0) errx(1, "out of memory");
    int descriptor = mkstemp(new_path);
    FILE *file = descriptor < 0 ? NULL : fdopen(descriptor, "wb");
    if (!file) err(1, "%s", new_path);
    bool is_written = fwrite(content, 1, length, file) == length && fflush(file) == 0 && fsync(descriptor) == 0;
    if (fclose(file) != 0 || !is_written || rename(new_path, path) != 0) {
        warn("%s", path);
        unlink(new_path);
        exit(1);
    }
    free(new_path);
}

/* Creates the store, with the cookies of the file if there is one. */
static void load(cookie_store *store, const char *path) {
    char key[16];
    size_t length = 0, line, malformed;
    if (getentropy(key, sizeof key) != 0) err(1, "getentropy");
    char *list = read_file(path, &length);
    if (list)
        check(cookie_store_load(store, key, sizeof key, COOKIE_STORE_JSON, COOKIE_STORE_UNEXPIRED, list, length, time(NULL), &line, 1,
                                &malformed),
              path);
    else
        check(cookie_store_new(store, key, sizeof key), "cookie_store_new");
    free(list);
}

/* Saves the cookies that have not expired: a login is usually a session cookie. */
static void save(cookie_store *store, const char *path) {
    size_t room, left_out, needed = 4096;
    char *list = NULL;
    enum cookie_store_status status;
    do {
        room = needed;
        list = checked(realloc(list, room));
        status = cookie_store_save(store, COOKIE_STORE_JSON, COOKIE_STORE_UNEXPIRED, time(NULL), list, room, &needed, &left_out);
    } while (status == COOKIE_STORE_NO_ROOM);
    check(status, path);
    write_file(path, list, needed);
    free(list);
}

/* Returns the URL as libcurl reads it, without user and password, which the caller frees, or NULL if it is not a valid URL. It
   is passed to libcurl and to the store. */
static char *parse_url(const char *url) {
    CURLU *parts = checked(curl_url());
    char *written = NULL, *parsed = NULL;
    CURLUcode error = curl_url_set(parts, CURLUPART_URL, url, 0);
    if (!error) error = curl_url_set(parts, CURLUPART_USER, NULL, 0);
    if (!error) error = curl_url_set(parts, CURLUPART_PASSWORD, NULL, 0);
    if (!error) error = curl_url_get(parts, CURLUPART_URL, &written, CURLU_PUNYCODE);
    if (error) warnx("%s: %s", url, curl_url_strerror(error));
    if (!error) parsed = checked(strdup(written));
    curl_free(written);
    curl_url_cleanup(parts);
    return parsed;
}

/* Whether a header value has a control character other than HTAB, which could begin another header. */
static bool has_control(const char *value, size_t length) {
    for (size_t at = 0; at < length; at++) {
        unsigned char byte = (unsigned char)value[at];
        if ((byte < 0x20 && byte != '\t') || byte == 0x7F) return true;
    }
    return false;
}

/* Inserts the cookie of a header line, if it is a Set-Cookie line. Curl passes it with its line end. A cookie with a control
   character is ignored: stored, it would only keep its hosts from being requested. */
static size_t take_header(char *line, size_t size, size_t count, void *data) {
    static const char name[] = "Set-Cookie:";
    const struct response *response = data;
    size_t begin = sizeof name - 1, end = size * count;
    if (end < begin || strncasecmp(line, name, begin) != 0) return end;
    while (end > begin && (line[end - 1] == '\r' || line[end - 1] == '\n')) end--;
    enum cookie_store_status status = COOKIE_STORE_CONTROL_CHARACTER;
    if (!has_control(line + begin, end - begin))
        status = cookie_store_parse(response->store, response->url, strlen(response->url), line + begin, end - begin, time(NULL));
    if (status >= 10) warnx("%s: cookie not stored: %s", response->url, cookie_store_status_text(status));
    return size * count;
}

/* Returns the Cookie header of a request for the URL, which the caller frees, or NULL if there is to be no request. */
static char *header_for(cookie_store *store, const char *url) {
    size_t room, needed = 256;
    char *header = NULL;
    enum cookie_store_status status;
    do {
        room = needed;
        header = checked(realloc(header, room + 1));
        status = cookie_store_header(store, url, strlen(url), time(NULL), header, room, &needed);
    } while (status == COOKIE_STORE_NO_ROOM);
    header[needed] = 0;
    if (status == COOKIE_STORE_OK && has_control(header, needed)) status = COOKIE_STORE_CONTROL_CHARACTER;
    if (status == COOKIE_STORE_OK) return header;
    warnx("%s: no request: %s", url, cookie_store_status_text(status));
    free(header);
    return NULL;
}

/* Makes one request, and returns whether it succeeded. Sets `*next` to a redirect, which the caller frees, or NULL. */
static bool get(CURL *curl, struct response *response, char **next) {
    const char *redirect = NULL;
    char *header = header_for(response->store, response->url);
    *next = NULL;
    if (!header) return false;
    free(response->body);
    FILE *body = checked(open_memstream(&response->body, &response->length));
    CURLcode error = curl_easy_setopt(curl, CURLOPT_URL, response->url);
    if (!error) error = curl_easy_setopt(curl, CURLOPT_COOKIE, *header ? header : NULL);
    if (!error) error = curl_easy_setopt(curl, CURLOPT_HEADERDATA, response);
    if (!error) error = curl_easy_setopt(curl, CURLOPT_WRITEDATA, body);
    if (!error) error = curl_easy_perform(curl);
    if (!error) error = curl_easy_getinfo(curl, CURLINFO_REDIRECT_URL, &redirect);
    if (fclose(body) != 0) errx(1, "out of memory");
    free(header);
    if (error) warnx("%s: %s", response->url, curl_easy_strerror(error));
    if (!error && redirect) *next = parse_url(redirect);
    return !error && (!redirect || *next);
}

/* Gets a URL, follows redirects and prints the body of the last response. Returns whether it succeeded. */
static bool fetch(CURL *curl, cookie_store *store, const char *url) {
    char *next = NULL, *current = parse_url(url);
    struct response response = {store, current, NULL, 0};
    bool is_received = current && get(curl, &response, &next);
    for (int redirects = 1; is_received && next; redirects++) {
        free(current);
        response.url = current = next;
        next = NULL;
        is_received = redirects <= MOST_REDIRECTS && get(curl, &response, &next);
        if (redirects > MOST_REDIRECTS) warnx("%s: too many redirects", url);
    }
    if (is_received) {
        fwrite(response.body, 1, response.length, stdout);
        putchar('\n');
    }
    free(current);
    free(response.body);
    return is_received;
}

/* Returns a handle with the options that all requests share. The headers of a proxy are not the server's. */
static CURL *new_handle(void) {
    CURL *curl = checked(curl_easy_init());
    const char *authorities = getenv("SSL_CERT_FILE");
    CURLcode error = curl_easy_setopt(curl, CURLOPT_PROTOCOLS_STR, "http,https");
    if (!error) error = curl_easy_setopt(curl, CURLOPT_SUPPRESS_CONNECT_HEADERS, 1L);
    if (!error) error = curl_easy_setopt(curl, CURLOPT_TIMEOUT, 30L);
    if (!error) error = curl_easy_setopt(curl, CURLOPT_HEADERFUNCTION, take_header);
    if (!error && authorities) error = curl_easy_setopt(curl, CURLOPT_CAINFO, authorities);
    if (error) errx(1, "curl: %s", curl_easy_strerror(error));
    return curl;
}

int main(int count, char **arguments) {
    cookie_store store = COOKIE_STORE_INIT;
    bool succeeds = true;
    if (count < 3) errx(2, "usage: fetch FILE URL..");
    setlocale(LC_CTYPE, ""); /* in whose encoding libcurl reads hosts that are not ASCII */
    if (curl_global_init(CURL_GLOBAL_DEFAULT)) errx(1, "curl_global_init fails");
    CURL *curl = new_handle();
    load(&store, arguments[1]);
    for (int at = 2; at < count; at++) succeeds = fetch(curl, &store, arguments[at]) && succeeds;
    save(&store, arguments[1]);
    if (fflush(stdout) != 0) err(1, "standard output");
    cookie_store_free(&store);
    curl_easy_cleanup(curl);
    curl_global_cleanup();
    return succeeds ? 0 : 1;
}
