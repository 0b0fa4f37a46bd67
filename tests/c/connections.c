/* Calls on a server's connection, in the library for C: those at the wrong time change nothing, and requests get the same
 * answers however they are cut and however the output is taken. connections [ROUNDS]
 *
 * Then each request for memory is refused in turn: a call that says so changed nothing, and is made once more; or the
 * connection is aborted, and what was sent are the first bytes of the answers. No block is left. */
#include <assert.h>
#include <stdbool.h>
#include <stdio.h>
#include <stdlib.h>
#include <string.h>
#include <typed_headers.h>

#define TEXT(text) (const uint8_t *)(text), strlen(text)

void *__real_malloc(size_t size);
void *__real_realloc(void *block, size_t size);
void __real_free(void *block);

static bool is_counting;
static size_t blocks, requests, refused_request;

static bool is_refused(void) { return is_counting && ++requests == refused_request; }

void *__wrap_malloc(size_t size) {
    void *block = is_refused() ? NULL : __real_malloc(size);
    blocks += is_counting && block;
    return block;
}

void *__wrap_realloc(void *block, size_t size) {
    if (is_refused())
        return NULL;
    blocks += is_counting && !block;
    return __real_realloc(block, size);
}

void __wrap_free(void *block) {
    blocks -= is_counting && block;
    __real_free(block);
}

/* Makes a call, and once more if memory was refused. */
#define MAKE(call)                                                                                                     \
    do {                                                                                                               \
        uint8_t made = (call);                                                                                         \
        if (made == TYPED_HEADERS_NO_MEMORY && is_counting && refused_request && refused_request <= requests)          \
            made = (call);                                                                                             \
        assert(made == TYPED_HEADERS_DONE);                                                                            \
    } while (0)

static const struct typed_headers_keys keys = {1, 2};
static uint64_t state = 88172645463325252u;

static unsigned pick(unsigned below) {
    state ^= state << 13, state ^= state >> 7, state ^= state << 17;
    return (unsigned)(state % below);
}

static uint8_t next(struct typed_headers_connection *c) {
    uint8_t event = 99;
    assert(typed_headers_connection_next(c, &event) == TYPED_HEADERS_DONE);
    return event;
}

static void closed(void) {
    struct typed_headers_connection c = {0};
    uint8_t byte = 9, room[4] = {9, 9, 9, 9};
    uint16_t code = 9;
    uint64_t one = 9, other = 9;
    size_t written = 9;
    assert(typed_headers_connection_next(&c, &byte) == TYPED_HEADERS_ABSENT);
    assert(typed_headers_connection_receive(&c, TEXT("GET")) == TYPED_HEADERS_ABSENT);
    assert(typed_headers_connection_finish_input(&c) == TYPED_HEADERS_ABSENT);
    assert(typed_headers_connection_method(&c, room, 4, &written) == TYPED_HEADERS_ABSENT);
    assert(typed_headers_connection_fields(&c, room, 4, &written) == TYPED_HEADERS_ABSENT);
    assert(typed_headers_connection_version(&c, &byte) == TYPED_HEADERS_ABSENT && byte == 9);
    assert(typed_headers_connection_plan(&c, 200) == TYPED_HEADERS_ABSENT);
    assert(typed_headers_connection_plan_field(&c, TEXT("a"), TEXT("b")) == TYPED_HEADERS_ABSENT);
    assert(typed_headers_connection_plan_bytes(&c, TEXT("b")) == TYPED_HEADERS_ABSENT);
    assert(typed_headers_connection_plan_range(&c, 0, 1) == TYPED_HEADERS_ABSENT);
    assert(typed_headers_connection_respond(&c) == TYPED_HEADERS_ABSENT);
    assert(typed_headers_connection_output(&c, room, 4, &written) == TYPED_HEADERS_ABSENT);
    assert(typed_headers_connection_range(&c, &one, &other) == TYPED_HEADERS_ABSENT);
    assert(typed_headers_connection_sent(&c, 1) == TYPED_HEADERS_ABSENT);
    assert(typed_headers_connection_time_out(&c, room, 4, &written) == TYPED_HEADERS_ABSENT);
    assert(typed_headers_connection_rejection(&c, &code) == TYPED_HEADERS_ABSENT);
    assert(typed_headers_connection_planned(&c, &code, &one) == TYPED_HEADERS_ABSENT);
    assert(typed_headers_connection_free(&c) == TYPED_HEADERS_DONE);
    assert(written == 9 && code == 9 && one == 9 && other == 9 && room[0] == 9);
}

static void wrong_times(void) {
    struct typed_headers_connection c = {0};
    uint8_t room[512], version = 9;
    size_t written, again;
    uint64_t start, length;
    assert(typed_headers_connection_new(&c, 100, &keys) == TYPED_HEADERS_DONE);
    assert(typed_headers_connection_new(&c, 100, &keys) == TYPED_HEADERS_REFUSED);
    assert(next(&c) == TYPED_HEADERS_NEEDS_INPUT);
    assert(typed_headers_connection_sent(&c, 0) == TYPED_HEADERS_DONE && next(&c) == TYPED_HEADERS_NEEDS_INPUT);
    assert(typed_headers_connection_sent(&c, 1) == TYPED_HEADERS_REFUSED);
    assert(typed_headers_connection_respond(&c) == TYPED_HEADERS_REFUSED);
    assert(typed_headers_connection_path(&c, room, sizeof room, &written) == TYPED_HEADERS_REFUSED);
    assert(typed_headers_connection_field(&c, TEXT("a"), room, 1, &written) == TYPED_HEADERS_REFUSED);
    assert(typed_headers_connection_fields(&c, room, sizeof room, &written) == TYPED_HEADERS_REFUSED);
    assert(typed_headers_connection_version(&c, &version) == TYPED_HEADERS_REFUSED && version == 9);
    assert(typed_headers_connection_time_out(&c, room, sizeof room, &written) == TYPED_HEADERS_ABSENT);
    assert(typed_headers_connection_receive(&c, TEXT("GET /a?b HTTP/1.1\r\nHo")) == TYPED_HEADERS_DONE);
    assert(next(&c) == TYPED_HEADERS_NEEDS_INPUT);
    assert(typed_headers_connection_time_out(&c, room, sizeof room, &written) == TYPED_HEADERS_DONE);
    assert(!memcmp(room, "HTTP/1.1 408 ", 13));
    assert(typed_headers_connection_receive(&c, TEXT("st: a\r\nB: c\r\nA:\r\nb: d\r\n\r\n")) == TYPED_HEADERS_DONE);
    assert(next(&c) == TYPED_HEADERS_REQUEST && next(&c) == TYPED_HEADERS_REQUEST);
    assert(typed_headers_connection_receive(&c, TEXT("x")) == TYPED_HEADERS_REFUSED);
    assert(typed_headers_connection_finish_input(&c) == TYPED_HEADERS_REFUSED);
    assert(typed_headers_connection_path(&c, room, 1, &written) == TYPED_HEADERS_NO_ROOM && written == 2);
    assert(typed_headers_connection_path(&c, room, 2, &written) == TYPED_HEADERS_DONE && !memcmp(room, "/a", 2));
    assert(typed_headers_connection_query(&c, room, 2, &written) == TYPED_HEADERS_DONE && *room == 'b');
    assert(typed_headers_connection_field(&c, TEXT("B"), room, 1, &written) == TYPED_HEADERS_DONE && *room == 'c');
    assert(typed_headers_connection_field(&c, TEXT("c"), room, 1, &written) == TYPED_HEADERS_ABSENT);
    assert(typed_headers_connection_field(&c, TEXT("b "), room, 1, &written) == TYPED_HEADERS_REFUSED);
    assert(typed_headers_connection_fields(&c, room, 20, &written) == TYPED_HEADERS_NO_ROOM && written == 22);
    assert(typed_headers_connection_fields(&c, room, 22, &again) == TYPED_HEADERS_DONE && again == written);
    assert(!memcmp(room, "host: a\nb: c\nb: d\na: \n", written));
    assert(typed_headers_connection_version(&c, &version) == TYPED_HEADERS_DONE && version == 11);
    assert(typed_headers_connection_content(&c, NULL, 0, &written) == TYPED_HEADERS_DONE && written == 0);
    assert(typed_headers_connection_plan(&c, 1000) == TYPED_HEADERS_REFUSED);
    assert(typed_headers_connection_plan(&c, 203) == TYPED_HEADERS_DONE);
    assert(typed_headers_connection_plan_field(&c, TEXT("a b"), TEXT("c")) == TYPED_HEADERS_REFUSED);
    assert(typed_headers_connection_plan_field(&c, TEXT("a"), TEXT("c\r\nd: e")) == TYPED_HEADERS_REFUSED);
    assert(typed_headers_connection_plan_field(&c, TEXT("a"), TEXT("c")) == TYPED_HEADERS_DONE);
    assert(typed_headers_connection_plan_bytes(&c, TEXT("12")) == TYPED_HEADERS_DONE);
    assert(typed_headers_connection_plan_range(&c, 5, 7) == TYPED_HEADERS_DONE);
    assert(typed_headers_connection_respond(&c) == TYPED_HEADERS_DONE);
    assert(typed_headers_connection_respond(&c) == TYPED_HEADERS_REFUSED);
    assert(next(&c) == TYPED_HEADERS_OUTPUT);
    assert(typed_headers_connection_output(&c, room, sizeof room, &written) == TYPED_HEADERS_DONE && written > 20);
    assert(typed_headers_connection_sent(&c, written + 1) == TYPED_HEADERS_REFUSED);
    assert(typed_headers_connection_output(&c, room, sizeof room, &again) == TYPED_HEADERS_DONE && again == written);
    assert(typed_headers_connection_sent(&c, written) == TYPED_HEADERS_DONE);
    while (next(&c) == TYPED_HEADERS_OUTPUT &&
           typed_headers_connection_output(&c, room, sizeof room, &written) == TYPED_HEADERS_DONE && written)
        assert(typed_headers_connection_sent(&c, written) == TYPED_HEADERS_DONE);
    assert(typed_headers_connection_range(&c, &start, &length) == TYPED_HEADERS_DONE && start == 5 && length == 7);
    assert(typed_headers_connection_sent(&c, 8) == TYPED_HEADERS_REFUSED);
    assert(typed_headers_connection_sent(&c, 3) == TYPED_HEADERS_DONE && next(&c) == TYPED_HEADERS_OUTPUT);
    assert(typed_headers_connection_range(&c, &start, &length) == TYPED_HEADERS_DONE && start == 8 && length == 4);
    assert(typed_headers_connection_sent(&c, 4) == TYPED_HEADERS_DONE && next(&c) == TYPED_HEADERS_NEEDS_INPUT);
    assert(typed_headers_connection_free(&c) == TYPED_HEADERS_DONE && !c.is_open);
    assert(typed_headers_connection_free(&c) == TYPED_HEADERS_DONE);
}

static const char *const corpus[] = {
    "GET /a HTTP/1.1\r\nHost: a\r\n\r\n",
    "HEAD /b HTTP/1.1\r\nHost: a\r\nAccept: x\r\n\r\n",
    "PUT /c HTTP/1.1\r\nHost: a\r\nContent-Length: 5\r\n\r\n12345",
    "POST /d HTTP/1.1\r\nHost: a\r\nTransfer-Encoding: chunked\r\n\r\n3\r\nabc\r\n2;x=y\r\nde\r\n0\r\nT: z\r\n\r\n",
    "GET /e HTTP/1.1\r\nHost: a\r\nConnection: close\r\n\r\n",
    "GET /f HTTP/1.0\r\nConnection: keep-alive\r\n\r\n",
    "GET /g HTTP/1.1\r\n\r\n",
    "PUT /h HTTP/1.1\r\nHost: a\r\nExpect: 100-continue\r\nContent-Length: 2\r\n\r\nab",
    "GET /i HTTP/1.1\r\nHost: a\r\nA: \x01\r\n\r\n",
    "PUT /j HTTP/1.1\r\nHost: a\r\nContent-Length: 200\r\n\r\n",
};

/* The answer to the request that waits: its path, its version, its fields, its content, and a range. */
static void respond(struct typed_headers_connection *c) {
    uint8_t room[256], version;
    size_t length;
    assert(typed_headers_connection_plan(c, 200) == TYPED_HEADERS_DONE);
    assert(typed_headers_connection_path(c, room, sizeof room, &length) == TYPED_HEADERS_DONE);
    MAKE(typed_headers_connection_plan_bytes(c, room, length));
    assert(typed_headers_connection_version(c, &version) == TYPED_HEADERS_DONE);
    MAKE(typed_headers_connection_plan_bytes(c, &version, 1));
    MAKE(typed_headers_connection_fields(c, room, sizeof room, &length));
    MAKE(typed_headers_connection_plan_bytes(c, room, length));
    assert(typed_headers_connection_content(c, room, sizeof room, &length) == TYPED_HEADERS_DONE);
    MAKE(typed_headers_connection_plan_bytes(c, room, length));
    MAKE(typed_headers_connection_plan_range(c, 3, room[0] % 9u));
    MAKE(typed_headers_connection_plan_bytes(c, TEXT("!")));
    assert(typed_headers_connection_respond(c) == TYPED_HEADERS_DONE);
}

/* What is sent for these bytes, which come in pieces of at most `most`, as the output goes. */
static size_t exchange(const uint8_t *bytes, size_t length, unsigned most, uint8_t *sent, uint8_t *event) {
    struct typed_headers_connection c = {0};
    size_t at = 0, count = 0, written;
    uint64_t start, range;
    MAKE(typed_headers_connection_new(&c, 100, &keys));
    for (;;) {
        *event = next(&c);
        switch (*event) {
        case TYPED_HEADERS_NEEDS_INPUT: {
            size_t piece = 1 + pick(most);
            piece = piece < length - at ? piece : length - at;
            if (piece)
                MAKE(typed_headers_connection_receive(&c, bytes + at, piece));
            else
                assert(typed_headers_connection_finish_input(&c) == TYPED_HEADERS_DONE);
            at += piece;
            break;
        }
        case TYPED_HEADERS_REQUEST: respond(&c); break;
        case TYPED_HEADERS_OUTPUT:
            assert(typed_headers_connection_output(&c, sent + count, 1 + pick(most), &written) == TYPED_HEADERS_DONE);
            if (!written) {
                assert(typed_headers_connection_range(&c, &start, &range) == TYPED_HEADERS_DONE && range);
                written = 1 + pick((unsigned)range);
                for (size_t i = 0; i < written; i++)
                    sent[count + i] = (uint8_t)('A' + start + i);
            }
            count += written;
            assert(typed_headers_connection_sent(&c, written) == TYPED_HEADERS_DONE);
            break;
        default:
            assert(typed_headers_connection_free(&c) == TYPED_HEADERS_DONE);
            return count;
        }
    }
}

enum { ROOM = 1 << 16 };
static uint8_t bytes[ROOM], whole[2 * ROOM], cut[2 * ROOM];

/* The exchange with each request for memory refused. Returns how many there were. */
static size_t refuse_each(void) {
    size_t length = 0, refusals = 0;
    uint8_t event, last;
    static const size_t kept_alive[] = {0, 1, 2, 3, 5, 7, 3, 0};
    for (size_t i = 0; i < sizeof kept_alive / sizeof *kept_alive; i++) {
        const char *text = corpus[kept_alive[i]];
        memcpy(bytes + length, text, strlen(text));
        length += strlen(text);
    }
    is_counting = true;
    refused_request = 0;
    size_t count = exchange(bytes, length, ROOM, whole, &last);
    for (unsigned most = 1; most < ROOM; most *= 9) {
        for (refused_request = 1;; refused_request++, refusals++) {
            requests = blocks = 0;
            size_t some = exchange(bytes, length, most, cut, &event);
            assert(some <= count && !memcmp(whole, cut, some) && blocks == 0);
            if (requests < refused_request) {
                assert(some == count && event == last);
                break;
            }
            assert(event == TYPED_HEADERS_ABORTED || some == count);
        }
    }
    is_counting = false;
    return refusals;
}

int main(int words, char **word) {
    long rounds = words > 1 ? strtol(word[1], NULL, 10) : 10000;
    size_t all = 0;
    uint8_t event;
    closed();
    wrong_times();
    for (long round = 0; round < rounds; round++) {
        size_t length = 0;
        for (unsigned left = 1 + pick(6); left > 0; left--) {
            const char *text = corpus[pick(10) < 8 ? pick(6) : pick(10)];
            memcpy(bytes + length, text, strlen(text));
            length += strlen(text);
        }
        if (pick(4) == 0)
            length -= pick((unsigned)length);
        size_t count = exchange(bytes, length, ROOM, whole, &event);
        if (exchange(bytes, length, 1 + pick(9), cut, &event) != count || memcmp(whole, cut, count)) {
            printf("round %ld: other answers to the same bytes\n", round);
            return 1;
        }
        all += count;
    }
    size_t refusals = refuse_each();
    printf("%ld corpora, %zu bytes of answers, %zu requests for memory refused\n", rounds, all, refusals);
    return 0;
}
