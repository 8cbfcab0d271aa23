/* Reads files of cookies as the store and libcurl read them. Standard input has files, each after a line with the number of its
   format and its length. For each file the status of the load, the number of malformed lines, and two texts are written, each after
   its length: the cookies as the store saves them in the format, and as libcurl lists those of a cookies.txt. tools/fuzz runs it, in a
   folder in which it writes the file `jar`. */
#include <cookie_store.h>
#include <err.h>
#include <stdio.h>
#include <stdlib.h>
#include <string.h>
#if __has_include(<curl/curl.h>)
#include <curl/curl.h>
#endif

enum { ROOM = 1 << 20 };

static const char JAR[] = "jar";
static char file[ROOM], text[ROOM];

/* Writes a text after its length. */
static void write_text(const char *bytes, size_t length) {
    printf("%zu\n", length);
    fwrite(bytes, 1, length, stdout);
}

/* Writes what the store makes of a file. */
static void write_loaded(enum cookie_store_format format, size_t length) {
    enum cookie_store_format written = format == COOKIE_STORE_NETSCAPE_LENIENT ? COOKIE_STORE_NETSCAPE : format;
    cookie_store store = COOKIE_STORE_INIT;
    size_t line, malformed, needed = 0, left_out;
    enum cookie_store_status status =
        cookie_store_load(&store, "", 0, format, COOKIE_STORE_ALL, file, length, 0, &line, 0, &malformed);
    printf("%d %zu\n", (int)status, malformed);
    if (status == COOKIE_STORE_OK) {
        status = cookie_store_save(&store, written, COOKIE_STORE_ALL, 0, text, sizeof text, &needed, &left_out);
        if (status != COOKIE_STORE_OK) errx(1, "cookie_store_save: %s", cookie_store_status_text(status));
    }
    write_text(text, needed);
    cookie_store_free(&store);
}

#if __has_include(<curl/curl.h>)
/* Writes the cookies that libcurl reads from the file JAR, one a line. */
static void write_listed(void) {
    struct curl_slist *cookies = NULL;
    size_t length = 0;
    CURL *client = curl_easy_init();
    if (!client || curl_easy_setopt(client, CURLOPT_COOKIEFILE, JAR) != CURLE_OK ||
        curl_easy_setopt(client, CURLOPT_COOKIELIST, "RELOAD") != CURLE_OK ||
        curl_easy_getinfo(client, CURLINFO_COOKIELIST, &cookies) != CURLE_OK)
        errx(1, "libcurl cannot read cookies");
    for (struct curl_slist *each = cookies; each && length < sizeof text; each = each->next)
        length += (size_t)snprintf(text + length, sizeof text - length, "%s\n", each->data);
    if (length >= sizeof text) errx(1, "libcurl lists too much");
    write_text(text, length);
    curl_slist_free_all(cookies);
    curl_easy_cleanup(client);
}
#else
static void write_listed(void) { write_text("", 0); }
#endif

/* Writes the file JAR. It is a new one, since some file systems write a file to the disk at once that replaces its contents. */
static void write_jar(size_t length) {
    remove(JAR);
    FILE *jar = fopen(JAR, "wb");
    if (!jar || fwrite(file, 1, length, jar) != length || fclose(jar) != 0) err(1, "%s", JAR);
}

int main(void) {
    unsigned format;
    size_t length;
    while (scanf("%u %zu", &format, &length) == 2) {
        if (getchar() != '\n' || length > sizeof file || fread(file, 1, length, stdin) != length) errx(1, "bad input");
        write_jar(length);
        write_loaded((enum cookie_store_format)format, length);
        write_listed();
        fflush(stdout);
    }
    return 0;
}
