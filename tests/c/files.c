/* A service of files in the library for C: which paths it asks for, and what it answers by what is told of them. */
#include <assert.h>
#include <stdio.h>
#include <string.h>
#include <typed_headers.h>

#define TEXT(text) (const uint8_t *)(text), strlen(text)
enum { MISSING, A_FILE, FOLDER, FORBIDDEN, UNAVAILABLE, NOW = 1700000000 };

static const struct typed_headers_keys keys = {1, 2};
static struct typed_headers_files files;
static struct typed_headers_connection connection;

static struct typed_headers_entry entry(uint8_t kind, uint64_t length) {
    struct typed_headers_entry made = {.length = length, .modified = NOW - 1000, .device = 3, .inode = 4, .kind = kind};
    made.changed = NOW - 1000;
    return made;
}

static void ask(const char *head) {
    uint8_t event;
    assert(typed_headers_connection_new(&connection, 100, &keys) == TYPED_HEADERS_DONE);
    assert(typed_headers_connection_receive(&connection, TEXT(head)) == TYPED_HEADERS_DONE);
    assert(typed_headers_connection_next(&connection, &event) == TYPED_HEADERS_DONE && event == TYPED_HEADERS_REQUEST);
}

/* The text of the response to a request, whose paths are these, each before a space, where this is found. */
static const char *respond(const char *head, const char *paths, const struct typed_headers_entry *found,
                           size_t source) {
    static char text[4096];
    uint8_t path[256], event, status;
    size_t count = 0, written, at = 9;
    char asked[512] = "";
    ask(head);
    while ((status = typed_headers_files_path(&files, &connection, found, count, path, sizeof path, &written))
           == TYPED_HEADERS_DONE) {
        assert(typed_headers_files_plan(&files, &connection, found, count++, NOW, false, &at) == TYPED_HEADERS_REFUSED);
        strcat(strncat(asked, (const char *)path, written), " ");
    }
    assert(status == TYPED_HEADERS_ABSENT && at == 9);
    if (strcmp(asked, paths)) fprintf(stderr, "%s: %s\n", head, asked);
    assert(!strcmp(asked, paths));
    assert(typed_headers_files_plan(&files, &connection, found, count, NOW, false, &at) == TYPED_HEADERS_DONE);
    assert(at == source);
    assert(typed_headers_connection_respond(&connection) == TYPED_HEADERS_DONE);
    assert(typed_headers_connection_next(&connection, &event) == TYPED_HEADERS_DONE && event == TYPED_HEADERS_OUTPUT);
    assert(typed_headers_connection_output(&connection, (uint8_t *)text, sizeof text - 1, &written) == 0);
    text[written] = 0;
    assert(typed_headers_connection_free(&connection) == TYPED_HEADERS_DONE);
    return text;
}

static void has(const char *text, const char *part) {
    if (!strstr(text, part)) fprintf(stderr, "no %s in:\n%s", part, text);
    assert(strstr(text, part));
}

int main(void) {
    struct typed_headers_entry file = entry(A_FILE, 1234), none = entry(MISSING, 0), fresh = file;
    struct typed_headers_entry all[] = {file, none, entry(A_FILE, 99)};
    char tag[80], request[256];
    uint8_t room[8];
    size_t written = 7;
    const char *text;
    assert(typed_headers_files_path(&files, &connection, NULL, 0, room, 8, &written) == TYPED_HEADERS_ABSENT);
    assert(typed_headers_files_plan(&files, &connection, NULL, 0, NOW, false, &written) == TYPED_HEADERS_ABSENT);
    struct typed_headers_files_options options = {{TEXT("a\n")}, {NULL, 0}, {TEXT("b")}, true};
    assert(typed_headers_files_new(&files, &options, &keys) == TYPED_HEADERS_REFUSED);
    options = (struct typed_headers_files_options){.negotiates = true};
    assert(typed_headers_files_new(&files, &options, &keys) == TYPED_HEADERS_REFUSED);
    options = (struct typed_headers_files_options){{TEXT("no-cache")}, {TEXT("a.example")}, {TEXT("b")}, true};
    assert(typed_headers_files_new(&files, &options, &keys) == 0);
    assert(typed_headers_files_new(&files, &options, &keys) == TYPED_HEADERS_REFUSED);
    assert(typed_headers_files_path(&files, &connection, NULL, 0, room, 8, &written) == TYPED_HEADERS_ABSENT);
    assert(typed_headers_connection_new(&connection, 100, &keys) == TYPED_HEADERS_DONE);
    assert(typed_headers_files_path(&files, &connection, NULL, 0, room, 8, &written) == TYPED_HEADERS_REFUSED);
    assert(typed_headers_files_plan(&files, &connection, NULL, 0, NOW, false, &written) == TYPED_HEADERS_REFUSED);
    assert(written == 7 && typed_headers_connection_free(&connection) == TYPED_HEADERS_DONE);

    /* A file, whole, and its tag (RFC 9110, sections 8.8 and 13.1). */
    text = respond("GET /d/x.HTML HTTP/1.1\r\nHost: a.example\r\n\r\n", "d/x.HTML d/x.HTML.br d/x.HTML.gz ", all, 0);
    has(text, "HTTP/1.1 200 OK\r\n"), has(text, "content-type: text/html; charset=utf-8\r\n");
    has(text, "content-length: 1234\r\n"), has(text, "date: Tue, 14 Nov 2023 22:13:20 GMT\r\n");
    has(text, "last-modified: Tue, 14 Nov 2023 21:56:40 GMT\r\n"), has(text, "vary: accept-encoding\r\n");
    has(text, "cache-control: no-cache\r\n"), has(text, "etag: \"");
    snprintf(tag, sizeof tag, "%.66s", strstr(text, "etag: \"") + 6);
    snprintf(request, sizeof request, "GET /x HTTP/1.1\r\nHost: a.example\r\nIf-None-Match: %s\r\n\r\n", tag);
    has(respond(request, "x x.br x.gz ", all, 0), "HTTP/1.1 304 ");
    /* Of another file, and of one that changed of late, it isn't the tag. */
    all[0].inode = 5;
    has(respond(request, "x x.br x.gz ", all, 0), "HTTP/1.1 200 ");
    fresh.changed = NOW - 2;
    all[0] = fresh;
    assert(!strstr(respond(request, "x x.br x.gz ", all, 0), "etag"));
    /* A range, and a precompressed copy. */
    has(respond("GET /x HTTP/1.1\r\nHost: a.example\r\nRange: bytes=5-9\r\n\r\n", "x x.br x.gz ", all, 0),
        "content-range: bytes 5-9/1234\r\n");
    text = respond("GET /x HTTP/1.1\r\nHost: a.example\r\nAccept-Encoding: br, gzip\r\n\r\n", "x x.br x.gz ", all, 2);
    has(text, "content-encoding: gzip\r\n"), has(text, "content-length: 99\r\n");
    /* What is no file, and a host and a method that aren't served. */
    has(respond("GET /x HTTP/1.1\r\nHost: a.example\r\n\r\n", "x ", &none, 1), "HTTP/1.1 404 ");
    all[0] = entry(FOLDER, 0);
    has(respond("GET /x?q HTTP/1.1\r\nHost: a.example\r\n\r\n", "x ", all, 1), "location: /x/?q\r\n");
    all[0] = entry(FORBIDDEN, 0);
    has(respond("GET /x/ HTTP/1.1\r\nHost: a.example\r\n\r\n", "x/index.html ", all, 1), "HTTP/1.1 403 ");
    all[0] = entry(UNAVAILABLE, 0);
    has(respond("GET / HTTP/1.1\r\nHost: a.example\r\n\r\n", "index.html ", all, 1), "HTTP/1.1 503 ");
    all[0] = file;
    has(respond("GET /x HTTP/1.1\r\nHost: b.example\r\n\r\n", "x x.br x.gz ", all, 3), "HTTP/1.1 421 ");
    has(respond("PUT /x HTTP/1.1\r\nHost: a.example\r\n\r\n", "x x.br x.gz ", all, 3), "HTTP/1.1 501 ");
    /* Paths that name nothing below the folder, or what is hidden. */
    has(respond("GET /../x HTTP/1.1\r\nHost: a.example\r\n\r\n", "", NULL, 0), "HTTP/1.1 404 ");
    has(respond("GET /a/%2e%2e/x HTTP/1.1\r\nHost: a.example\r\n\r\n", "", NULL, 0), "HTTP/1.1 404 ");
    has(respond("GET /.git/config HTTP/1.1\r\nHost: a.example\r\n\r\n", "", NULL, 0), "HTTP/1.1 404 ");
    has(respond("GET /x%00y HTTP/1.1\r\nHost: a.example\r\n\r\n", "", NULL, 0), "HTTP/1.1 404 ");
    has(respond("GET //x HTTP/1.1\r\nHost: a.example\r\n\r\n", "", NULL, 0), "HTTP/1.1 404 ");
    assert(typed_headers_files_free(&files) == TYPED_HEADERS_DONE);
    assert(typed_headers_files_free(NULL) == TYPED_HEADERS_DONE);
    puts("files: passed");
    return 0;
}
