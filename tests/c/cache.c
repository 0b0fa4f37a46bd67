/*
 * A cache and its passes through their handles: a history of calls, with what RFC 9111 wants of each.
 *
 *     cache [STEP]
 *
 * The history is played once as it is, and then once for each request for memory, which is refused. Then a pass may be
 * told to ask the origin, or its response not be stored: it is made once more. Texts end where memory that nothing may
 * touch begins. After the cache is closed no block may be left. With a step, of so many requests for memory one is
 * refused.
 */
#include "typed_headers.h"
#include <stdbool.h>
#include <stdio.h>
#include <stdlib.h>
#include <string.h>
#include <sys/mman.h>

enum { AREA = 1 << 16, FILL = 0xA5, ROOM = 512 };

static bool is_counting;
static size_t blocks, requests, refused_request, wrong, calls;

void *__real_malloc(size_t size);
void *__real_realloc(void *block, size_t size);
void __real_free(void *block);

static bool is_refused(void) { return is_counting && ++requests == refused_request; }

void *__wrap_malloc(size_t size) {
    void *block = is_refused() ? NULL : __real_malloc(size);
    blocks += is_counting && block;
    return block;
}

void *__wrap_realloc(void *block, size_t size) {
    if (is_refused()) {
        return NULL;
    }
    blocks += is_counting && !block;
    return __real_realloc(block, size);
}

void __wrap_free(void *block) {
    blocks -= is_counting && block;
    __real_free(block);
}

static uint8_t *areas[8];
static size_t next_area;

static uint8_t *new_area(void) {
    uint8_t *start = mmap(NULL, AREA + 4096, PROT_READ | PROT_WRITE, MAP_PRIVATE | MAP_ANONYMOUS, -1, 0);
    if (start == MAP_FAILED || mprotect(start + AREA, 4096, PROT_NONE)) {
        perror("cache: no memory");
        exit(2);
    }
    return start + AREA;
}

/* A text before a page that nothing may touch: in each of seven areas in turn. The last area is for rooms. */
static struct typed_headers_text text(const char *bytes) {
    const size_t length = strlen(bytes);
    uint8_t *at = areas[next_area++ % 7] - length;
    memcpy(at, bytes, length);
    return (struct typed_headers_text){length ? at : NULL, length};
}

static void want(bool holds, const char *what) {
    calls++;
    if (!holds) {
        wrong++;
        printf("cache: request %zu refused: %s\n", refused_request, what);
    }
}

static struct typed_headers_cache cache = TYPED_HEADERS_CLOSED_CACHE;
static struct typed_headers_pass passes[2] = {TYPED_HEADERS_CLOSED_PASS, TYPED_HEADERS_CLOSED_PASS};
static struct typed_headers_pass *pass = passes;
static struct typed_headers_pass_facts facts;
static const struct typed_headers_keys KEYS = {1, 2};

static uint8_t status_of_call;

static uint8_t end_call(uint8_t status) {
    is_counting = false;
    return status_of_call = status;
}

#define CALL(call) (is_counting = true, end_call(call))

/* Wants that something holds. If it doesn't, and memory was refused for it, it is made once more, or let be. */
#define AGAIN(holds, what) ONCE_MORE(holds, holds, what)
#define MAYBE(holds, what) ONCE_MORE(holds, true, what)
#define ONCE_MORE(holds, second, what)                                                                                 \
    do {                                                                                                               \
        const size_t begun = requests;                                                                                 \
        const bool is_so = holds, was_refused = begun < refused_request && refused_request <= requests;                \
        want(is_so || (was_refused && (second)), what);                                                                \
    } while (0)

static struct typed_headers_cache_request request_for(const char *target, const char *method, const char *section) {
    return (struct typed_headers_cache_request){text(target), text(method), text(section)};
}

static bool opens(const char *targets, uint64_t wait, uint8_t wanted) {
    const struct typed_headers_cache_options options = {4, 16, 40000, 60, true};
    const struct typed_headers_cache_extensions extensions = {text(targets ? targets : ""), true, wait};
    CALL(targets ? typed_headers_cache_new_with(&cache, &options, &extensions, &KEYS)
                 : typed_headers_cache_new(&cache, &options, &KEYS));
    return status_of_call == wanted && cache.is_open == (wanted == TYPED_HEADERS_DONE);
}

/* The calls from here on are on this pass. */
static bool on(size_t which) {
    pass = &passes[which];
    return true;
}

static void close_all(void) {
    for (size_t i = 2; i-- > 0;) {
        on(i);
        want(CALL(typed_headers_pass_free(pass)) == TYPED_HEADERS_DONE && !pass->is_open, "free of a pass");
    }
    want(CALL(typed_headers_cache_free(&cache)) == TYPED_HEADERS_DONE && !cache.is_open, "free");
    want(CALL(typed_headers_cache_free(&cache)) == TYPED_HEADERS_DONE, "free of a closed cache");
    want(blocks == 0, "a block is left");
}

static bool is_filled(const uint8_t *from, const uint8_t *to) {
    for (; from < to; from++) {
        if (*from != FILL) {
            return false;
        }
    }
    return true;
}

typedef uint8_t written_lines(const struct typed_headers_pass *, uint8_t *, size_t, size_t *);

/* The lines that a call writes, with each room from none to one byte more than is wanted. */
static bool writes(written_lines *call, const char *lines) {
    const size_t length = strlen(lines);
    bool holds = true;
    for (size_t room = 0; room <= length + 1; room++) {
        uint8_t *at = areas[7] - room;
        size_t written = ROOM;
        memset(at, FILL, room);
        CALL(call(pass, room ? at : NULL, room, &written));
        holds &= status_of_call == (room < length ? TYPED_HEADERS_NO_ROOM : TYPED_HEADERS_DONE) && written == length;
        holds &= room < length ? is_filled(at, at + room)
                               : memcmp(at, lines, length) == 0 && is_filled(at + length, at + room);
    }
    return holds;
}

/* The lines of the last step. */
static bool has_fields(const char *lines) {
    return writes(typed_headers_pass_fields, lines);
}

/* The content of the response that the last step named, in pieces. */
static bool has_content(const char *wanted) {
    const size_t length = strlen(wanted);
    bool holds = true;
    for (size_t from = 0; from <= length + 1; from++) {
        for (size_t room = 0; room <= 3; room++) {
            uint8_t *at = areas[7] - room;
            size_t written = ROOM;
            memset(at, FILL, room);
            CALL(typed_headers_pass_content(pass, from, room ? at : NULL, room, &written));
            const size_t left = from < length ? length - from : 0, copied = left < room ? left : room;
            holds &= status_of_call == TYPED_HEADERS_DONE && written == copied;
            holds &= memcmp(at, wanted + (from < length ? from : length), copied) == 0;
            holds &= is_filled(at + copied, at + room);
        }
    }
    return holds;
}

static bool has_no_content(void) {
    uint8_t room[1] = {FILL};
    size_t written = ROOM;
    CALL(typed_headers_pass_content(pass, 0, room, sizeof room, &written));
    return status_of_call == TYPED_HEADERS_ABSENT && written == ROOM && room[0] == FILL;
}

/* A new pass begins, and this is done first. */
static bool begins(const char *target, const char *method, const char *asked, uint64_t now, uint8_t action) {
    const struct typed_headers_cache_request request = request_for(target, method, asked);
    CALL(typed_headers_pass_free(pass));
    memset(&facts, FILL, sizeof facts);
    CALL(typed_headers_pass_begin(&cache, pass, &request, now, &facts));
    want(pass->is_open == (status_of_call == TYPED_HEADERS_DONE), "a pass that is open");
    want(pass->is_open || facts.action == FILL, "a pass that isn't begun");
    return pass->is_open && facts.action == action;
}

/* This is done after a wait. */
static bool resumes(uint64_t now, uint8_t action) {
    memset(&facts, FILL, sizeof facts);
    CALL(typed_headers_pass_resume(&cache, pass, now, &facts));
    want(status_of_call == TYPED_HEADERS_DONE || facts.action == FILL, "a wait that goes on");
    return status_of_call == TYPED_HEADERS_DONE && facts.action == action;
}

static bool comes(uint16_t code, const char *response, uint64_t now, uint8_t action) {
    const struct typed_headers_text section = text(response);
    memset(&facts, FILL, sizeof facts);
    CALL(typed_headers_pass_came(&cache, pass, code, section.bytes, section.length, now, &facts));
    want(status_of_call == TYPED_HEADERS_DONE || facts.action == FILL, "a step that isn't made");
    return status_of_call == TYPED_HEADERS_DONE && facts.action == action;
}

/* A piece of the content comes. */
static uint8_t receives(const char *bytes) {
    const struct typed_headers_text piece = text(bytes);
    return CALL(typed_headers_pass_received(pass, piece.bytes, piece.length));
}

/* The content comes in two pieces, and one without a byte. */
static bool ends(const char *bytes, bool is_complete, uint64_t now, bool is_stored) {
    const char first[2] = {bytes[0], 0};
    uint64_t number = ROOM;
    bool comes_whole = receives(first) == TYPED_HEADERS_DONE;
    comes_whole &= receives("") == TYPED_HEADERS_DONE;
    comes_whole &= receives(bytes + strlen(first)) == TYPED_HEADERS_DONE;
    CALL(typed_headers_pass_ended(&cache, pass, is_complete, now, &number));
    if (status_of_call == TYPED_HEADERS_NO_MEMORY) {
        want(comes_whole && is_complete && number == ROOM, "an end without memory");
        return false;
    }
    want(status_of_call == TYPED_HEADERS_DONE, "an end");
    want(comes_whole || number == 0, "content that didn't come whole");
    return (number != 0) == is_stored;
}

/* A client gets this of the cache. */
static bool sends(uint16_t status, uint64_t first, uint64_t count, const char *lines, const char *content) {
    return facts.status == status && facts.first == first && facts.count == count && has_fields(lines)
           && has_content(content);
}

/* The origin is asked, and its response stored. */
static bool stores(const char *target, const char *asked, uint64_t now, const char *section, const char *content) {
    return begins(target, "GET", asked, now, TYPED_HEADERS_ASK)
           && comes(200, section, now, TYPED_HEADERS_PASS_ON_TO_END) && ends(content, true, now, true);
}

static bool is_out_of_order(void) {
    uint64_t number = ROOM;
    memset(&facts, FILL, sizeof facts);
    bool holds = CALL(typed_headers_pass_came(&cache, pass, 200, NULL, 0, 0, &facts)) == TYPED_HEADERS_ABSENT;
    holds &= CALL(typed_headers_pass_failed(&cache, pass, 0, &facts)) == TYPED_HEADERS_ABSENT;
    holds &= CALL(typed_headers_pass_resume(&cache, pass, 0, &facts)) == TYPED_HEADERS_ABSENT;
    holds &= receives("") == TYPED_HEADERS_ABSENT && receives("h") == TYPED_HEADERS_ABSENT;
    holds &= CALL(typed_headers_pass_ended(&cache, pass, true, 0, &number)) == TYPED_HEADERS_ABSENT;
    return holds && number == ROOM && facts.action == FILL;
}

static void closed(void) {
    const struct typed_headers_cache_request request = request_for("/a", "GET", "");
    size_t written = ROOM;
    want(CALL(typed_headers_pass_begin(&cache, pass, &request, 0, &facts)) == TYPED_HEADERS_ABSENT && !pass->is_open,
         "a pass through a closed cache");
    want(is_out_of_order() && has_no_content(), "steps of a closed pass");
    want(CALL(typed_headers_pass_fields(pass, NULL, 0, &written)) == TYPED_HEADERS_ABSENT && written == ROOM,
         "fields of a closed pass");
    want(CALL(typed_headers_pass_validation(pass, NULL, 0, &written)) == TYPED_HEADERS_ABSENT && written == ROOM,
         "a validation of a closed pass");
    want(CALL(typed_headers_cache_remove(&cache, (const uint8_t *)"/a", 2)) == TYPED_HEADERS_ABSENT,
         "remove in a closed cache");
}

static bool is_rejected(const char *target, const char *method, const char *section) {
    return !begins(target, method, section, 0, TYPED_HEADERS_ASK) && status_of_call == TYPED_HEADERS_REFUSED;
}

#define FRESH "cache-control: max-age=60\ndate: Thu, 01 Jan 1970 00:16:40 GMT\netag: \"1\"\n"
#define DIGESTED FRESH "content-length: 5\ncontent-md5: x\n"
#define UNSTORED "cache-control: no-store\n"

/* A second request comes while the origin is asked for the same. */
static bool waits(const char *target) {
    return on(0) && begins(target, "GET", "", 1000, TYPED_HEADERS_ASK) && on(1)
           && begins(target, "GET", "", 1000, TYPED_HEADERS_WAIT) && has_fields("") && has_no_content()
           && resumes(1009, TYPED_HEADERS_WAIT);
}

/* RFC 9111, section 4: requests are collapsed, for less than ten seconds. */
static void wait_for_others(void) {
    AGAIN(opens("", 10, TYPED_HEADERS_DONE), "new with a wait");
    MAYBE(waits("/a") && on(0) && comes(200, FRESH, 1000, TYPED_HEADERS_PASS_ON_TO_END) && on(1)
          && resumes(1009, TYPED_HEADERS_WAIT) && on(0) && ends("hello", true, 1000, true) && on(1)
          && resumes(1009, TYPED_HEADERS_REPLY) && has_content("hello") && is_out_of_order(), "one asks for two");
    MAYBE(waits("/b") && on(0) && comes(200, UNSTORED, 1000, TYPED_HEADERS_PASS_ON) && on(1)
          && resumes(1000, TYPED_HEADERS_ASK) && comes(200, UNSTORED, 1000, TYPED_HEADERS_PASS_ON), "nothing stored");
    MAYBE(waits("/c") && on(0) && CALL(typed_headers_pass_failed(&cache, pass, 1000, &facts)) == TYPED_HEADERS_DONE
          && on(1) && resumes(1000, TYPED_HEADERS_ASK), "a failure");
    MAYBE(waits("/d") && resumes(1010, TYPED_HEADERS_ASK) && on(0)
          && begins("/d", "GET", "", 1010, TYPED_HEADERS_WAIT) && on(1)
          && comes(200, FRESH, 1010, TYPED_HEADERS_PASS_ON_TO_END) && ends("h", false, 1010, false) && on(0)
          && resumes(1010, TYPED_HEADERS_ASK), "the time is over");
    MAYBE(on(0) && begins("/e", "GET", "", 1000, TYPED_HEADERS_ASK) && on(1)
          && begins("/e", "HEAD", "", 1000, TYPED_HEADERS_ASK)
          && begins("/e", "GET", "range: bytes=0-1\n", 1000, TYPED_HEADERS_ASK)
          && begins("/e", "POST", "", 1000, TYPED_HEADERS_ASK) && begins("/f", "GET", "", 1000, TYPED_HEADERS_ASK),
          "requests that don't wait");
    close_all();
}

/* RFC 9111, sections 3, 4, 4.2, 4.3 and 4.4, and RFC 5861. */
static void play(void) {
    closed();
    AGAIN(opens(NULL, 0, TYPED_HEADERS_DONE), "new");
    const struct typed_headers_cache_options options = {0};
    want(CALL(typed_headers_cache_new(&cache, &options, &KEYS)) == TYPED_HEADERS_REFUSED, "new of an open cache");
    AGAIN(is_rejected("/\xFF", "GET", ""), "a target that is no UTF-8");
    AGAIN(is_rejected("/a", "G T", ""), "a method that is no token");
    AGAIN(is_rejected("/a", "GET", "no field\n"), "a section with a line that is no field");
    AGAIN(begins("/a", "GET", "cache-control: only-if-cached\n", 1000, TYPED_HEADERS_SEND_504) && has_fields(""), "504");
    want(is_out_of_order() && has_no_content(), "steps of a pass that has ended");
    AGAIN(begins("/a", "GET", "", 1000, TYPED_HEADERS_ASK), "ask");
    const struct typed_headers_cache_request again = request_for("/a", "GET", "");
    want(CALL(typed_headers_pass_begin(&cache, pass, &again, 0, &facts)) == TYPED_HEADERS_REFUSED,
         "a second request of one pass");
    AGAIN(!comes(99, "", 1000, TYPED_HEADERS_PASS_ON) && status_of_call == TYPED_HEADERS_REFUSED, "a wrong status");
    AGAIN(begins("/a", "GET", "", 1000, TYPED_HEADERS_ASK)
          && comes(200, "cache-control: no-store\n", 1000, TYPED_HEADERS_PASS_ON) && is_out_of_order(), "no-store");
    AGAIN(begins("/a", "GET", "", 1000, TYPED_HEADERS_ASK) && comes(200, FRESH, 1000, TYPED_HEADERS_PASS_ON_TO_END)
          && ends("hel", false, 1000, false), "half");
    AGAIN(stores("/a", "", 1000, "age: 0\n" DIGESTED, "hello"), "store");
    AGAIN(begins("/a", "GET", "", 1010, TYPED_HEADERS_REPLY) && sends(200, 0, 5, DIGESTED "age: 10\n", "hello"), "reply");
    AGAIN(begins("/a", "HEAD", "", 1010, TYPED_HEADERS_REPLY) && sends(200, 0, 0, DIGESTED "age: 10\n", "hello"), "HEAD");
    AGAIN(begins("/a", "GET", "range: bytes=1-2\n", 1010, TYPED_HEADERS_REPLY)
          && sends(206, 1, 2, FRESH "age: 10\ncontent-range: bytes 1-2/5\ncontent-length: 2\n", "hello"), "a part");
    AGAIN(begins("/a", "GET", "range: bytes=9-\n", 1010, TYPED_HEADERS_REPLY)
          && sends(416, 0, 0, "date: Thu, 01 Jan 1970 00:16:40 GMT\ncontent-range: bytes */5\ncontent-length: 0\n",
                   "hello"), "no part");
    AGAIN(begins("/a", "GET", "if-none-match: \"1\"\n", 1010, TYPED_HEADERS_REPLY)
          && sends(304, 0, 0, FRESH "content-md5: x\nage: 10\n", "hello"), "304");
    AGAIN(begins("/a", "GET", "if-match: \"1\"\n", 1010, TYPED_HEADERS_ASK), "a condition for the origin");
    /* The response that a step named is removed, and another stored: a pass shows the content of its own. */
    AGAIN(begins("/a", "GET", "", 1010, TYPED_HEADERS_REPLY), "reply");
    CALL(typed_headers_cache_remove(&cache, (const uint8_t *)"/a", 2));
    want(status_of_call == TYPED_HEADERS_DONE && has_content("hello") && on(1), "remove");
    AGAIN(stores("/a", "", 1000, FRESH, "other") && on(0) && has_content("hello"), "content that is stored no longer");
    want(on(0), "the first pass");
    /* A 304 that updates, one that is about another response, and one after which nothing is stored. */
    AGAIN(stores("/b", "", 1000, FRESH, "hello"), "store");
    MAYBE(begins("/b", "GET", "", 1100, TYPED_HEADERS_VALIDATE) && has_fields("if-none-match: \"1\"\n")
          && comes(304, "etag: \"1\"\ncache-control: max-age=30\n", 1100, TYPED_HEADERS_REPLY) && has_content("hello"),
          "a 304");
    AGAIN(stores("/c", "", 1000, FRESH, "hello"), "store");
    MAYBE(begins("/c", "GET", "", 1100, TYPED_HEADERS_VALIDATE)
          && comes(304, "etag: \"2\"\n", 1100, TYPED_HEADERS_ASK)
          && comes(200, "cache-control: no-store\n", 1100, TYPED_HEADERS_PASS_ON), "a 304 about another response");
    AGAIN(stores("/d", "", 1000, FRESH, "hello"), "store");
    MAYBE(begins("/d", "GET", "", 1100, TYPED_HEADERS_VALIDATE)
          && comes(304, "etag: \"1\"\ncache-control: no-store\n", 1100, TYPED_HEADERS_REPLY) && has_content("hello")
          && begins("/d", "GET", "", 1100, TYPED_HEADERS_ASK), "a 304 after which nothing is stored");
    /* The origin fails: by a status, or without a response. */
    AGAIN(stores("/e", "", 1000, "cache-control: max-age=10, stale-if-error=60\netag: \"1\"\n", "hello"), "store");
    AGAIN(begins("/e", "GET", "", 1050, TYPED_HEADERS_VALIDATE) && comes(503, "", 1050, TYPED_HEADERS_REPLY)
          && has_content("hello"), "stale on an error");
    AGAIN(begins("/e", "GET", "", 1050, TYPED_HEADERS_VALIDATE)
          && CALL(typed_headers_pass_failed(&cache, pass, 1050, &facts)) == TYPED_HEADERS_DONE
          && facts.action == TYPED_HEADERS_REPLY && has_content("hello"), "stale without a response");
    AGAIN(begins("/e", "GET", "", 1050, TYPED_HEADERS_VALIDATE)
          && CALL(typed_headers_pass_failed(&cache, pass, 2000, &facts)) == TYPED_HEADERS_DONE
          && facts.action == TYPED_HEADERS_NO_RESPONSE && is_out_of_order(), "too stale");
    /* A request that isn't safe removes what is stored, and what is asked isn't stored any more. */
    AGAIN(stores("/f", "", 1000, FRESH, "old"), "store");
    AGAIN(begins("/f", "PUT", "", 1000, TYPED_HEADERS_ASK) && comes(204, "", 1000, TYPED_HEADERS_PASS_ON)
          && begins("/f", "GET", "", 1000, TYPED_HEADERS_ASK), "PUT");
    AGAIN(begins("/f", "GET", "", 1000, TYPED_HEADERS_ASK) && comes(200, FRESH, 1000, TYPED_HEADERS_PASS_ON_TO_END)
          && CALL(typed_headers_cache_remove(&cache, (const uint8_t *)"/f", 2)) == TYPED_HEADERS_DONE
          && ends("old", true, 1000, false), "outdated");
    /* A lifetime that is guessed, at most 60 seconds; and stale-while-revalidate. */
    AGAIN(stores("/g", "", 2000, "last-modified: Thu, 01 Jan 1970 00:16:40 GMT\n", "old"), "store");
    AGAIN(begins("/g", "GET", "", 2059, TYPED_HEADERS_REPLY), "a guess");
    AGAIN(begins("/g", "GET", "", 2061, TYPED_HEADERS_VALIDATE)
          && has_fields("if-modified-since: Thu, 01 Jan 1970 00:16:40 GMT\n"), "the end of a guess");
    AGAIN(stores("/h", "", 1000, "cache-control: max-age=10, stale-while-revalidate=60\netag: \"1\"\n", "old"), "store");
    AGAIN(begins("/h", "GET", "x: y\nrange: bytes=0-1\ncache-control: only-if-cached\n", 1020,
                 TYPED_HEADERS_REPLY_AND_VALIDATE) && has_content("old"), "stale");
    AGAIN(writes(typed_headers_pass_validation, "x: y\ncache-control: no-cache\n"), "the request of its validation");
    AGAIN(begins("/h", "GET", "x: y\ncache-control: no-cache\n", 1020, TYPED_HEADERS_VALIDATE), "its validation");
    /* As much as the cache may have, and a byte more: beside the content 2 bytes of the target, 63 and 3 times 256 of
     * the fields, and 1,024. */
    enum { MOST = 40000 - 2 - 63 - 3 * 256 - 1024 };
    static char large[MOST + 2];
    memset(large, 'a', MOST);
    AGAIN(stores("/i", "", 1000, FRESH, large), "as much as may be");
    large[MOST] = 'a';
    AGAIN(begins("/j", "GET", "", 1000, TYPED_HEADERS_ASK) && comes(200, FRESH, 1000, TYPED_HEADERS_PASS_ON_TO_END)
          && ends(large, true, 1000, false) && begins("/i", "GET", "", 1010, TYPED_HEADERS_REPLY), "too much");
    large[MOST] = 0;
    close_all();
    /* RFC 8246, and RFC 9213, section 2.2: the first targeted field that is there, valid and not empty, counts. */
    AGAIN(opens("no name", 0, TYPED_HEADERS_REFUSED), "a name that is none");
    AGAIN(opens("X-CDN-Control\r\ncdn-cache-control", 0, TYPED_HEADERS_DONE), "new_with");
    AGAIN(begins("/a", "GET", "", 1000, TYPED_HEADERS_ASK)
          && comes(200, "cache-control: max-age=60\ncdn-cache-control: no-store\n", 1000, TYPED_HEADERS_PASS_ON),
          "a targeted field");
    AGAIN(stores("/a", "", 1000, "x-cdn-control: max-age=60, immutable\ncdn-cache-control: no-store\n", "kept"),
          "the first targeted field");
    AGAIN(begins("/a", "GET", "cache-control: max-age=0\n", 1010, TYPED_HEADERS_REPLY) && has_content("kept"),
          "immutable");
    close_all();
    wait_for_others();
}

int main(int count, char **words) {
    const size_t step = count > 1 ? strtoul(words[1], NULL, 10) : 1;
    for (size_t i = 0; i < 8; i++) {
        areas[i] = new_area();
    }
    play();
    do {
        requests = 0;
        refused_request += step;
        play();
    } while (requests >= refused_request);
    printf("%zu checks of a cache, %zu wrong, %zu requests for memory refused\n", calls, wrong,
           refused_request / step - 1);
    return wrong != 0;
}
