/* Reads URLs, each followed by a zero byte, and prints those in which libcurl and the store find two hosts: on a line the URL,
   libcurl's host and the store's. The last two lines have the counts. If it fails or crashes, standard error has the URL, a zero byte
   and why. tools/fuzz urls runs it, and says what is compared. */
#include <arpa/inet.h>
#include <cookie_store.h>
#include <curl/curl.h>
#include <err.h>
#include <locale.h>
#include <signal.h>
#include <stdbool.h>
#include <stdio.h>
#include <stdlib.h>
#include <string.h>
#include <strings.h>
#include <unistd.h>

#ifndef CURLU_PUNYCODE
enum { CURLU_PUNYCODE = 0 };
#endif

/* All that libcurl lets pass, for CURLOPT_URL or in a redirect. */
static const unsigned int LENIENT = CURLU_GUESS_SCHEME | CURLU_NON_SUPPORT_SCHEME | CURLU_ALLOW_SPACE;

static const char *const SCHEMES[] = {"http", "https", "ws", "wss", "ftp"};

enum { ROOM = 1 << 16, FAILED = 3 };

/* How many URLs there were, libcurl accepts, the store accepts, both accept, and have two hosts, with a scheme that is compared
   or with another one. */
struct counts {
    size_t urls, by_curl, by_store, by_both, different, of_others;
};

static cookie_store store = COOKIE_STORE_INIT;
static const char *current = ""; /* the URL that is compared */

/* Ends the program. */
static void fail(const char *why) {
    bool is_written = write(STDERR_FILENO, current, strlen(current) + 1) > 0 && write(STDERR_FILENO, why, strlen(why)) > 0;
    _exit(is_written ? FAILED : EXIT_FAILURE);
}

static void crash(int number) {
    (void)number;
    fail("the program crashes");
}

/* Whether a string is one of SCHEMES up to `length`. */
static bool is_compared(const char *scheme, size_t length) {
    for (size_t i = 0; i < sizeof SCHEMES / sizeof SCHEMES[0]; i++)
        if (strlen(SCHEMES[i]) == length && strncasecmp(SCHEMES[i], scheme, length) == 0) return true;
    return false;
}

/* Returns libcurl's parts of a URL, or NULL. */
static CURLU *parse(const char *url) {
    CURLU *parts = curl_url();
    if (!parts) fail("out of memory");
    if (curl_url_set(parts, CURLUPART_URL, url, LENIENT) == CURLUE_OK) return parts;
    curl_url_cleanup(parts);
    return NULL;
}

/* Writes the host that libcurl finds to `host`, and returns whether there is one. Sets `*compared` to whether libcurl or the URL
   itself has one of SCHEMES. */
static bool curl_host(const char *url, char *host, bool *compared) {
    char *found = NULL, *scheme = NULL;
    CURLU *parts = parse(url);
    bool is_found = parts && curl_url_get(parts, CURLUPART_HOST, &found, CURLU_PUNYCODE) == CURLUE_OK && strlen(found) < ROOM &&
                    curl_url_get(parts, CURLUPART_SCHEME, &scheme, 0) == CURLUE_OK;
    if (is_found) {
        strcpy(host, found);
        *compared = is_compared(scheme, strlen(scheme)) || is_compared(url, strcspn(url, ":"));
    }
    curl_free(found);
    curl_free(scheme);
    curl_url_cleanup(parts);
    return is_found;
}

/* The same for the store: the host is the domain of a host-only cookie that the URL sets. */
static bool store_host(const char *url, char *host) {
    static char strings[2 * ROOM];
    cookie_store_row row;
    size_t rows, length;
    enum cookie_store_status status = cookie_store_parse(&store, url, strlen(url), "a=1", 3, 0);
    if (status >= 10) {
        if (status == COOKIE_STORE_NO_MEMORY) fail(cookie_store_status_text(status));
        return false;
    }
    status = cookie_store_rows(&store, &row, 1, strings, sizeof strings, &rows, &length);
    if (status != COOKIE_STORE_OK || row.domain_len >= ROOM) fail("cookie_store_rows does not return the cookie");
    memcpy(host, strings, row.domain_len);
    host[row.domain_len] = 0;
    cookie_store_clear(&store);
    return true;
}

/* Whether `host` is an IPv6 address in brackets, which is written to `address`. */
static bool is_ipv6(const char *host, struct in6_addr *address) {
    char text[INET6_ADDRSTRLEN + 1] = "";
    size_t length = strlen(host);
    if (length < 3 || length > INET6_ADDRSTRLEN || host[0] != '[' || host[length - 1] != ']') return false;
    memcpy(text, host + 1, length - 2);
    return inet_pton(AF_INET6, text, address) == 1;
}

/* Whether two hosts are equal ignoring case, or are the same address. */
static bool is_same(const char *first, const char *second) {
    struct in6_addr long_first, long_second;
    struct in_addr short_first, short_second;
    if (strcasecmp(first, second) == 0) return true;
    if (is_ipv6(first, &long_first) && is_ipv6(second, &long_second))
        return memcmp(&long_first, &long_second, sizeof long_first) == 0;
    return inet_aton(first, &short_first) && inet_aton(second, &short_second) && short_first.s_addr == short_second.s_addr;
}

/* Prints a string as one word of ASCII. */
static void print_word(const char *string, char end) {
    for (; *string; string++) {
        unsigned char byte = (unsigned char)*string;
        if (byte > 0x20 && byte < 0x7F && byte != '\\')
            putchar(byte);
        else
            printf("\\x%02x", byte);
    }
    putchar(end);
}

static void compare(const char *url, struct counts *counts) {
    current = url;
    static char from_curl[ROOM], from_store[ROOM];
    bool compared = false, in_curl = curl_host(url, from_curl, &compared), in_store = store_host(url, from_store);
    counts->urls++;
    counts->by_curl += in_curl;
    counts->by_store += in_store;
    counts->by_both += in_curl && in_store;
    if (!in_curl || !in_store || is_same(from_curl, from_store)) return;
    if (!compared) {
        counts->of_others++;
        return;
    }
    counts->different++;
    print_word(url, ' ');
    print_word(from_curl, ' ');
    print_word(from_store, '\n');
}

/* Compares the URL as libcurl writes it, without user and password, if that is another string. */
static void compare_written(const char *url, struct counts *counts) {
    char *written = NULL;
    CURLU *parts = parse(url);
    if (parts && curl_url_set(parts, CURLUPART_USER, NULL, 0) == CURLUE_OK &&
        curl_url_set(parts, CURLUPART_PASSWORD, NULL, 0) == CURLUE_OK &&
        curl_url_get(parts, CURLUPART_URL, &written, CURLU_PUNYCODE) == CURLUE_OK && strcmp(url, written) != 0)
        compare(written, counts);
    curl_free(written);
    curl_url_cleanup(parts);
}

static void print_counts(const char *name, const struct counts *counts) {
    printf("%s: %zu URLs, %zu accepted by libcurl, %zu by the store, %zu by both; the hosts differ in %zu, and in %zu with other schemes\n",
           name, counts->urls, counts->by_curl, counts->by_store, counts->by_both, counts->different, counts->of_others);
}

int main(void) {
    struct counts given = {0}, written = {0};
    char *url = NULL;
    size_t room = 0;
    static const int CRASHES[] = {SIGSEGV, SIGABRT, SIGBUS, SIGFPE, SIGILL};
    for (size_t i = 0; i < sizeof CRASHES / sizeof CRASHES[0]; i++) signal(CRASHES[i], crash);
    setlocale(LC_CTYPE, "C.UTF-8"); /* libcurl converts hosts from the locale's encoding */
    if (cookie_store_new(&store, "", 0) != COOKIE_STORE_OK) errx(1, "out of memory");
    while (getdelim(&url, &room, 0, stdin) > 0) {
        compare(url, &given);
        compare_written(url, &written);
    }
    print_counts("as given", &given);
    print_counts("as libcurl writes them", &written);
    free(url);
    cookie_store_free(&store);
    return given.different + written.different > 0;
}
