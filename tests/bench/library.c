/*
 * Calls of the library for C, timed or counted.
 *
 *     over_library times     nanoseconds of each decision that decisions.js or go/main.go has too, the least of many
 *                            rounds, and how often a call allocates
 *     over_library growth    under callgrind: the instructions of each call, on texts that grow by four
 *
 * It is linked with --wrap=malloc,--wrap=realloc, to count.
 */
#define _POSIX_C_SOURCE 200809L
#include <stdio.h>
#include <stdlib.h>
#include <string.h>
#include <time.h>
#include <typed_headers.h>

#define ROUNDS 41
#define MOST (1 << 20)
#define MOST_ROOM (4 << 20)

static const struct typed_headers_keys KEYS = {0x0123456789abcdef, 0xfedcba9876543210};
static const struct typed_headers_target TARGET = {{(const uint8_t *)"\"a\"", 3}, 784111777, 784200000, true, true, true};
static const struct typed_headers_moments TIMES = {784111777, 784111778, 784111800};
static char *text, *other;
static uint8_t *room;
static struct typed_headers_bytes_range *ranges;
static size_t written;
static unsigned long allocations;

void *__real_malloc(size_t size);
void *__real_realloc(void *block, size_t size);

void *__wrap_malloc(size_t size) {
    allocations++;
    return __real_malloc(size);
}

void *__wrap_realloc(void *block, size_t size) {
    allocations++;
    return __real_realloc(block, size);
}

/* A request to callgrind, as its header file makes one. It does nothing where the program runs by itself. */
static void ask_callgrind(unsigned long request, const char *argument) {
    volatile unsigned long words[6] = {request, (unsigned long)argument, 0, 0, 0, 0};
    volatile unsigned long answer = 0;
    __asm__ volatile("rolq $3, %%rdi; rolq $13, %%rdi; rolq $61, %%rdi; rolq $51, %%rdi; xchgq %%rbx, %%rbx"
                     : "=d"(answer)
                     : "a"(words), "0"(answer)
                     : "cc", "memory");
}

#define ZERO_STATS 0x43540001
#define DUMP_STATS_AT 0x43540003

#define BYTES(it) (const uint8_t *)(it), strlen(it)
#define ASKS(method, section) &(struct typed_headers_request){{BYTES(method)}, {BYTES(section)}}
#define COUNT(name, call)                                                                                              \
    do {                                                                                                               \
        char label[160];                                                                                               \
        snprintf(label, sizeof label, "C: %s %zu", name, bytes);                                                       \
        call;                                                                                                          \
        ask_callgrind(ZERO_STATS, NULL);                                                                               \
        call;                                                                                                          \
        ask_callgrind(DUMP_STATS_AT, label);                                                                           \
    } while (0)

/* A head, and items up to so many bytes: each is made of a format, which may have the item's number. */
static void list(char *out, size_t bytes, const char *head, const char *separator, const char *format) {
    char item[128];
    size_t length = strlen(head);
    memcpy(out, head, length);
    for (unsigned at = 0; at == 0 || length < bytes; at++) {
        if (at > 0) {
            memcpy(out + length, separator, strlen(separator));
            length += strlen(separator);
        }
        int size = snprintf(item, sizeof item, format, at, at + 9);
        memcpy(out + length, item, (size_t)size);
        length += (size_t)size;
    }
    out[length] = 0;
}

static const char *const NAMES[] = {
    "accept-ranges", "access-control-allow-credentials", "access-control-allow-headers", "access-control-allow-methods",
    "access-control-allow-origin", "access-control-expose-headers", "access-control-max-age",
    "access-control-request-headers", "access-control-request-method", "age", "allow", "authorization", "cache-control",
    "connection", "content-disposition", "content-encoding", "content-length", "content-location", "content-range",
    "content-type", "cookie", "date", "etag", "expect", "expires", "host", "if-match", "if-modified-since",
    "if-none-match", "if-range", "if-unmodified-since", "last-modified", "location", "origin", "pragma",
    "proxy-authorization", "range", "referer", "referrer-policy", "retry-after", "sec-websocket-accept",
    "sec-websocket-key", "sec-websocket-version", "server", "set-cookie", "strict-transport-security", "te",
    "transfer-encoding", "upgrade", "user-agent", "vary"};

static void decide(const char *request, const char *response) {
    uint8_t answer;
    const struct typed_headers_stored stored = {{BYTES("GET")}, {BYTES(request)}, {BYTES(response)}};
    typed_headers_decide(&stored, ASKS("GET", request), &KEYS, &TIMES, true, &answer);
}

static void answer_cors(const char *origins, const char *headers, const char *request) {
    struct typed_headers_cors_rules rules = {{BYTES(origins)}, {BYTES("PUT")}, {BYTES(headers)}, {NULL, 0}, 60, true, false};
    struct typed_headers_cors_facts facts;
    typed_headers_cors_answer(&rules, ASKS("OPTIONS", request), NULL, 0, &KEYS, &facts, room, MOST_ROOM, &written);
}

static void grow(size_t bytes) {
    uint16_t status;
    uint8_t answer;
    uint64_t seconds;
    list(text, bytes, "", "\n", "x-name: value %u");
    COUNT("canonical, one name", typed_headers_canonical(BYTES(text), &KEYS, room, MOST_ROOM, &written));
    COUNT("evaluate, one name", typed_headers_evaluate(ASKS("GET", text), &KEYS, &TARGET, &status));
    COUNT("may_store, one name", typed_headers_may_store(ASKS("GET", text), 200, BYTES(text), &KEYS, true, &answer));
    COUNT("decide, one name", decide(text, text));
    if (bytes <= 1 << 18) {
        list(text, bytes, "", "\n", "x-name-%u: value");
        COUNT("canonical, many names", typed_headers_canonical(BYTES(text), &KEYS, room, MOST_ROOM, &written));
        COUNT("may_store, many names",
              typed_headers_may_store(ASKS("GET", text), 200, BYTES(text), &KEYS, true, &answer));
        list(other, bytes, "Cache-Control: max-age=1\nVary: ", ", ", "x-name-%u");
        COUNT("decide, many names, and Vary of each", decide(text, other));
    }
    list(text, bytes, "If-None-Match: ", ", ", "\"%010x\"");
    COUNT("evaluate, many tags", typed_headers_evaluate(ASKS("GET", text), &KEYS, &TARGET, &status));
    list(text, bytes, "", "\n", "If-None-Match: \"%010x\"");
    COUNT("evaluate, many field lines of tags", typed_headers_evaluate(ASKS("GET", text), &KEYS, &TARGET, &status));
    list(text, bytes, "Range: bytes=", ",", "%u-%u");
    COUNT("select, ranges that overlap",
          typed_headers_select(ASKS("GET", text), &KEYS, &TARGET, 1 << 30, &status, ranges, MOST / 4, &written));
    list(text, bytes, "Range: bytes=", ",", "%u00-%u00");
    COUNT("select, ranges far apart",
          typed_headers_select(ASKS("GET", text), &KEYS, &TARGET, 1 << 30, &status, ranges, MOST / 4, &written));
    list(text, bytes, "bytes=", ",", "%u-%u");
    COUNT("ranges", typed_headers_ranges(BYTES(text), 1 << 30, ranges, MOST / 4, &written));
    list(text, bytes, "Cache-Control: ", ", ", "x-%u=\"a, b\"");
    COUNT("lifetime, many directives", typed_headers_lifetime(BYTES(text), &KEYS, 784111777, true, &seconds));
    COUNT("may_store, many directives",
          typed_headers_may_store(ASKS("GET", text), 200, BYTES(text), &KEYS, true, &answer));
    COUNT("decide, many directives", decide(text, text));
    COUNT("current_age", typed_headers_current_age(BYTES(text), &KEYS, &TIMES, &seconds));
    list(text, bytes, "", "\n", "ETag: \"%010x\"");
    COUNT("validators, many field lines",
          typed_headers_validators(BYTES(text), 784111777, &KEYS, room, MOST_ROOM, &written));
    list(text, bytes, "Origin: https://a.example\nAccess-Control-Request-Method: PUT\nAccess-Control-Request-Headers: ",
         ",", "x-name-%u");
    COUNT("cors_answer, many names are asked for", answer_cors("https://a.example", "x-name-0", text));
    list(other, bytes, "", "\n", "x-other-%u");
    COUNT("cors_answer, many names are allowed", answer_cors("https://a.example", other, "Origin: https://a.example\n"
        "Access-Control-Request-Method: PUT\nAccess-Control-Request-Headers: x-other-7\n"));
    list(other, bytes, "", "\n", "https://a%u.example");
    COUNT("cors_answer, many origins are allowed", answer_cors(other, "x-name", "Origin: https://a.example\n"));
    if (bytes > 1 << 16) return;
    static const char *const SHAPES[][3] = {
        {"", ", ", "x-name-%u"},   {"", "\n", "x-name-%u"},   {"", ", ", "\"a%u, b\""},    {"", "\n", "\"a%u\""},
        {"", ",", ""},             {"", "", "\""},            {"", "; ", "a%u=b"},         {"", "", "0"},
        {"bytes=", ",", "%u-%u"},  {"text/plain", "", ";p%u=\"v;%u\""},                    {"https://", "", "a"},
        {"Basic ", "", "QWxh"},    {"", "\n", "Sun, 06 Nov 1994 08:49:37 GMT"},
    };
    for (size_t at = 0; at < sizeof NAMES / sizeof *NAMES; at++) {
        for (size_t shape = 0; shape < sizeof SHAPES / sizeof *SHAPES; shape++) {
            char name[100];
            list(text, bytes, SHAPES[shape][0], SHAPES[shape][1], SHAPES[shape][2]);
            snprintf(name, sizeof name, "field %s, shape %zu", NAMES[at], shape);
            COUNT(name, typed_headers_field(BYTES(NAMES[at]), BYTES(text), room, MOST_ROOM, &written));
        }
    }
}

static double now(void) {
    struct timespec at;
    clock_gettime(CLOCK_MONOTONIC, &at);
    return (double)at.tv_sec * 1e9 + (double)at.tv_nsec;
}

static uint64_t sum;

#define TIME(name, call)                                                                                               \
    do {                                                                                                               \
        double least = 1e18;                                                                                           \
        long count = 100;                                                                                              \
        for (int round = 0; round < ROUNDS; round++) {                                                                 \
            double start = now();                                                                                      \
            for (long at = 0; at < count; at++) {                                                                      \
                call;                                                                                                  \
            }                                                                                                          \
            double time = (now() - start) / (double)count;                                                             \
            if (time * (double)count < 5e6) count *= 2;                                                                \
            if (time < least) least = time;                                                                            \
        }                                                                                                              \
        allocations = 0;                                                                                               \
        for (long at = 0; at < 2; at++) {                                                                              \
            call;                                                                                                      \
        }                                                                                                              \
        printf("%s\t%.1f\t%.1f\n", name, least, (double)allocations / 2);                                             \
    } while (0)

static const struct typed_headers_target TAGGED = {
    {(const uint8_t *)"\"xyzzy\"", 7}, 784111777, 784200000, true, true, true};

static uint64_t evaluated(const char *section) {
    uint16_t status = 0;
    typed_headers_evaluate(ASKS("GET", section), &KEYS, &TAGGED, &status);
    return status + 1;
}

static uint64_t satisfied(const char *line) {
    typed_headers_ranges(BYTES(line), 10000, ranges, 1000, &written);
    return written;
}

typedef uint8_t chooser(const uint8_t *, size_t, const uint8_t *, size_t, size_t *);

static uint64_t chosen(chooser *choose, const char *lines, const char *offers) {
    size_t place = 0;
    choose(BYTES(lines), BYTES(offers), &place);
    return place + 1;
}

static uint64_t responded(const char *section) {
    static const struct typed_headers_content CONTENT = {
        {(const uint8_t *)"text/html", 9}, {(const uint8_t *)"a", 1}, 10000, true, true};
    struct typed_headers_response response = {0, 0};
    size_t parts;
    typed_headers_respond(ASKS("HEAD", section), &KEYS, &TAGGED, &CONTENT, &response, ranges, 10, &parts, room, 1000,
                          &written);
    return response.status;
}

/* Five questions of preconditions and five of ranges, to the section of a browser's request. */
static const char REQUEST[] =
    "Host: www.example.com\nUser-Agent: Mozilla/5.0 (X11; Linux x86_64; rv:128.0) Gecko/20100101 Firefox/128.0\n"
    "Accept: text/html,application/xhtml+xml,application/xml;q=0.9,*/*;q=0.8\nAccept-Language: de-CH,en;q=0.7\n"
    "Accept-Encoding: gzip, deflate, br, zstd\nReferer: https://www.example.com/\nConnection: keep-alive\n"
    "Cookie: session=0123456789abcdef; theme=dark\nOrigin: https://a.example\nIf-None-Match: \"x\"\n"
    "Range: bytes=0-499\nCache-Control: max-age=0\n";

static uint64_t asked(bool by_handle) {
    struct typed_headers_section fields = TYPED_HEADERS_CLOSED;
    uint16_t status = 0;
    uint64_t total = 1;
    if (by_handle) typed_headers_section_new(&fields, BYTES(REQUEST), &KEYS);
    for (int round = 0; round < 5; round++) {
        if (by_handle) {
            typed_headers_section_evaluate(&fields, BYTES("GET"), &TAGGED, &status);
            typed_headers_section_select(&fields, BYTES("GET"), &TAGGED, 10000, &status, ranges, 10, &written);
        } else {
            typed_headers_evaluate(ASKS("GET", REQUEST), &KEYS, &TAGGED, &status);
            typed_headers_select(ASKS("GET", REQUEST), &KEYS, &TAGGED, 10000, &status, ranges, 10, &written);
        }
        total += status;
    }
    typed_headers_section_free(&fields);
    return total;
}

/* What a resource with rules for other origins answers that request, read for it or before. */
static const struct typed_headers_cors_rules RULES = {.origins = {(const uint8_t *)"https://a.example", 17}};
static const struct typed_headers_representation SHOWN = {.length = 10000, .has_length = true, .sends_ranges = true};
static const struct typed_headers_resource RESOURCE = {.methods = {(const uint8_t *)"GET\nPUT", 7},
                                                       .media_types = {(const uint8_t *)"text/html", 9},
                                                       .etags = {(const uint8_t *)"\"xyzzy\"", 7},
                                                       .has_cors = true};
static const struct typed_headers_denial NOT_DENIED;

static uint64_t resource_answered(struct typed_headers_resource_handle *handle) {
    static const struct typed_headers_resource_request ASKED = {.method = {(const uint8_t *)"GET", 3},
                                                                .target = {(const uint8_t *)"/", 1},
                                                                .present = 784200000,
                                                                .version = 11,
                                                                .has_length = true};
    struct typed_headers_resource_facts facts = {0, 0, 0, 0, 0};
    struct typed_headers_section fields = TYPED_HEADERS_CLOSED;
    size_t parts;
    if (!handle->is_open) {
        typed_headers_resource_answer(&RESOURCE, &SHOWN, 1, &RULES, &ASKED, &NOT_DENIED, BYTES(REQUEST), &KEYS, &facts,
                                      ranges, 10, &parts, room, 1000, &written);
        return facts.status;
    }
    typed_headers_section_new(&fields, BYTES(REQUEST), &KEYS);
    typed_headers_resource_handle_answer(handle, &fields, &ASKED, &NOT_DENIED, &facts, ranges, 10, &parts, room, 1000,
                                         &written);
    typed_headers_section_free(&fields);
    return facts.status;
}

static void time_all(void) {
    static const char *const ONE_TAG[] = {"If-None-Match: \"xyzzy\"\n", "If-None-Match: \"xyzz\"\n"};
    static const char *const DATES[] = {"If-Modified-Since: Sun, 06 Nov 1994 08:49:37 GMT\n",
                                        "If-Modified-Since: Mon, 07 Nov 1994 08:49:37 GMT\n"};
    static const char *const ONE[] = {"bytes=0-499", "bytes=9500-"};
    static const char *const THREE[] = {"bytes=0-499,1000-1499, 9500-9999", "bytes=1-2, 30-40, 500-600"};
    char tags[2][2000], hundred[2][2000];
    for (int at = 0; at < 2; at++) {
        list(tags[at], 870, "If-None-Match: ", ", ", "\"%040x\"");
        strcat(tags[at], at ? ", \"a\"\n" : "\n");
        size_t length = (size_t)sprintf(hundred[at], "bytes=");
        for (int part = 0; part < 100; part++)
            length += (size_t)sprintf(hundred[at] + length, "%s%d-%d", part ? "," : "", part * 90 + at, part * 90 + 49);
    }
    TIME("a condition: one tag", sum += evaluated(ONE_TAG[at & 1]));
    TIME("a condition: twenty tags", sum += evaluated(tags[at & 1]));
    TIME("a condition: a date", sum += evaluated(DATES[at & 1]));
    TIME("ranges: one", sum += satisfied(ONE[at & 1]));
    TIME("ranges: three", sum += satisfied(THREE[at & 1]));
    TIME("ranges: a hundred", sum += satisfied(hundred[at & 1]));
    static const char *const ACCEPT[] = {"text/html,application/xhtml+xml,application/xml;q=0.9,*/*;q=0.8",
                                         "application/json, text/plain;q=0.5"};
    static const char *const CODINGS[] = {"gzip, deflate, br", "gzip;q=0.5, identity"};
    static const char *const LANGUAGES[] = {"de-CH, en;q=0.7", "fr, en-GB;q=0.8, *;q=0.1"};
    TIME("a media type of three", sum += chosen(typed_headers_choose_type, ACCEPT[at & 1],
                                                "application/json\ntext/html\ntext/plain"));
    TIME("a coding of three", sum += chosen(typed_headers_choose_coding, CODINGS[at & 1], "gzip\nbr\nidentity"));
    TIME("a language of three", sum += chosen(typed_headers_choose_language, LANGUAGES[at & 1], "en-GB\nde\nfr"));
    static const char *const DAYS[] = {"Sun, 06 Nov 1994 08:49:37 GMT", "Mon, 07 Nov 1994 08:49:37 GMT"};
    static const char *const TYPES[] = {"text/html; charset=UTF-8", "application/json; charset=\"utf-8\""};
    uint64_t second;
    TIME("a date", sum += typed_headers_date(BYTES(DAYS[at & 1]), &second) + second);
    TIME("a media type", sum += typed_headers_media_type(BYTES(TYPES[at & 1]), room, 100, &written) + written);
    TIME("a response to HEAD", sum += responded(""));
    TIME("a response to HEAD with one tag", sum += responded(ONE_TAG[at & 1]));
    struct typed_headers_resource_handle handle = TYPED_HEADERS_CLOSED;
    TIME("ten questions to a section", sum += asked(false));
    TIME("ten questions to a handle", sum += asked(true));
    TIME("a resource", sum += resource_answered(&handle));
    typed_headers_resource_handle_new(&handle, &RESOURCE, &SHOWN, 1, &RULES);
    TIME("the handle of a resource", sum += resource_answered(&handle));
    typed_headers_resource_handle_free(&handle);
}

int main(int count, char **words) {
    text = malloc(MOST + 200), other = malloc(MOST + 200), room = malloc(MOST_ROOM);
    ranges = malloc(MOST / 4 * sizeof *ranges);
    if (count != 2 || !text || !other || !room || !ranges) return 64;
    if (strcmp(words[1], "growth") == 0) {
        for (size_t bytes = 1 << 10; bytes <= MOST; bytes *= 4) grow(bytes);
    } else {
        time_all();
    }
    return sum == 1;
}
